#!/usr/bin/env python3
"""A session of elc: one document that is kept, added to and asked, by a process that runs as long as it is wanted.

usage: tools/elc_session.py ELC DOC [OPTION ..]

ELC is a binary of elc, as crates/elc/out/elc. As a program this reads commands from standard input, a line each, as docs/SESSION.md has
them, but for sizes: `add`, `query` and `entails` have their text on the same line, as `add SubClassOf(:Margherita :Pizza)`. It prints what each is
answered with, and of one that is not done a line `no STATUS: TEXT`. An editor imports it:

    from elc_session import Refused, Session
    with Session("elc", "food.ofn") as session:
        session.run()
        session.add("SubClassOf(:Margherita :Pizza)")
        session.run()
        session.supers("http://example.org/Margherita")

Each method writes one command and reads its reply. It raises `Refused` where the command is not done, which leaves the session as it
was but for `run`, which is then as far as it came and may be called again; and `Ended` where the process has ended (docs/SESSION.md).
"""
import contextlib, socket, subprocess, sys


class Refused(Exception):
    """A command was not done: the exit status of the program's command, and what it prints."""

    def __init__(self, status, text):
        super().__init__(f"{status}: {text.strip()}")
        self.status, self.text = status, text


class Ended(Exception):
    """The process has ended."""


def lines_of(text):
    """The lines of a text. A line ends with a line feed and with nothing else, since other line separators may stand in names."""
    return text.split("\n")[:-1]


class Session(contextlib.AbstractContextManager):
    """A process that keeps the document at the path; further words are options, as "--max-facts", "1000". Its standard input is a pipe,
    or one end of a socket pair."""

    def __init__(self, elc, document, *options, over_socket=False):
        ours, theirs = socket.socketpair() if over_socket else (None, subprocess.PIPE)
        self.process = subprocess.Popen([elc, "session", document, *options], stdin=theirs, stdout=subprocess.PIPE)
        if ours is None:
            self.input = self.process.stdin
        else:
            theirs.close()
            self.input = ours.makefile("wb")
            ours.close()

    def __exit__(self, *error):
        self.close()

    def close(self):
        """Ends the process, and gives its status."""
        with contextlib.suppress(OSError):
            self.input.close()
        self.process.stdout.close()
        return self.process.wait()

    def command(self, line, text=None):
        """Writes the line, with the size of the text and the text behind it where there is one, and gives the text of the reply."""
        if "\n" in line:
            raise ValueError("a command is one line")
        lines = [line.encode()] if text is None else [f"{line} {len(text.encode())}".encode(), text.encode()]
        try:
            self.input.write(b"".join(part + b"\n" for part in lines))
            self.input.flush()
        except OSError:
            raise Ended from None
        head = self.process.stdout.readline().decode().split()
        reply = self.process.stdout.read(int(head[-1])) if head else b""
        if not head or len(reply) < int(head[-1]):
            raise Ended
        if head[0] == "ok":
            return reply.decode()
        raise Refused(int(head[1]), reply.decode())

    def names(self, line):
        return [name[1:-1] for name in lines_of(self.command(line))]

    def groups(self, line):
        return [[name[1:-1] for name in group.split(" = ")] for group in lines_of(self.command(line))]

    def counts(self, line):
        words = self.command(line).split()
        return {word: int(number) for word, number in zip(words[::2], words[1::2])}

    def add(self, text):
        """Adds axioms and declarations, with the prefixes of the document. Nothing is run."""
        self.command("add", text)

    def run(self, most=None):
        """Finds out what follows, of `most` as far as so many facts more, and gives the number of facts, and whether the axioms hold in
        some interpretation. Where there are more facts, the text of what is raised, of status 5, has the counts of facts and of served ones."""
        facts, word = lines_of(self.command("run" if most is None else f"run {most}"))
        return int(facts.split()[1]), word == "consistent"

    def status(self):
        """The numbers of facts, of those that are served, and of bytes."""
        return self.counts("status")

    def version(self):
        """The versions of the language and of the program, by their names."""
        return dict(line.rsplit(" ", 1) for line in lines_of(self.command("version")))

    def supers(self, iri):
        """The classes above the class, in byte order."""
        return self.names(f"supers {iri}")

    def subs(self, iri):
        """The classes below the class, in byte order."""
        return self.names(f"subs {iri}")

    def equivalents(self, iri):
        """The classes that are the same as the class, the class among them, in byte order."""
        return self.names(f"equivalents {iri}")

    def unsatisfiable(self):
        """The classes but `owl:Nothing` that have no instance in any interpretation, in byte order."""
        return self.names("unsatisfiable")

    def parents(self, iri):
        """The classes directly above the class, in groups of those that are the same."""
        return self.groups(f"parents {iri}")

    def children(self, iri):
        """The classes directly below the class, in groups of those that are the same."""
        return self.groups(f"children {iri}")

    def instances(self, iri):
        """The individuals of the class, in byte order."""
        return self.names(f"instances {iri}")

    def types(self, iri):
        """The classes of the individual, in byte order."""
        return self.names(f"types {iri}")

    def direct_types(self, iri):
        """The least classes of the individual, in groups of those that are the same."""
        return self.groups(f"direct-types {iri}")

    def lacks(self, below, above, short=False):
        """Which conditions for the one class the other has, and which it lacks, as `elc lacks` prints them."""
        return self.command(f"lacks {below} {above}" + " short" * short)

    def lacks_individual(self, individual, iri, short=False):
        """Which conditions for the class the individual has, and which it lacks."""
        return self.command(f"lacks-individual {individual} {iri}" + " short" * short)

    def explained(self, line, reached=False, axioms=False, short=False):
        """What explains it, with words behind the line: as `elc explain --reached --axioms --short` prints it."""
        return self.command(line + " reached" * reached + " axioms" * axioms + " short" * short)

    def why(self, below, above, **words):
        """Why the one class is below the other, or why not, as `elc explain` prints it. The words are those of `explained`."""
        return self.explained(f"why {below} {above}", **words)

    def why_individual(self, individual, iri, **words):
        """Why the individual is in the class, or why not."""
        return self.explained(f"why-individual {individual} {iri}", **words)

    def dot(self, below, above, **words):
        """The same as `why`, as a graph for Graphviz."""
        return self.explained(f"dot {below} {above}", **words)

    def dot_individual(self, individual, iri, **words):
        """The same as `why_individual`, as a graph for Graphviz."""
        return self.explained(f"dot-individual {individual} {iri}", **words)

    def query(self, expression):
        """The classes above and below a class expression and its individuals, as lines of `elc query`."""
        return self.command("query", expression)

    def entails(self, axioms):
        """Whether each of the axioms of the text holds in every finite interpretation in which those of the session hold."""
        return self.command("entails", axioms) == "yes\n"

    def axiom(self, number, short=False):
        """The axiom of that number, as explanations cite it."""
        return self.command(f"axiom {number}" + " short" * short)

    def write(self, taxonomy, instances, certificate):
        """Writes the texts of the classification into the files at these paths, and gives the line of `elc classify`."""
        return self.command(f"write {taxonomy} {instances} {certificate}")

    def infer(self, path):
        """Writes what follows into the file at this path, as a document, and gives the line of `elc classify`."""
        return self.command(f"infer {path}")


def answer(session, line):
    """The reply to a typed line, which is sent as it is, but that the size of a text stands in front of it."""
    word, _, text = line.partition(" ")
    return session.command(word, text) if word in ("add", "query", "entails") else session.command(line)


def typed():
    """The lines that are typed, with a prompt where that is at a terminal."""
    if not sys.stdin.isatty():
        yield from (line.rstrip("\n") for line in sys.stdin)
        return
    with contextlib.suppress(EOFError, KeyboardInterrupt):
        while True:
            yield input("elc> ")


def main(words):
    if len(words) < 2:
        print(__doc__.split("\n\n")[1], file=sys.stderr)
        return 2
    try:
        session = Session(*words)
    except OSError as error:
        print(f"cannot start {words[0]}: {error.strerror}", file=sys.stderr)
        return 1
    try:
        for line in typed():
            try:
                print(answer(session, line), end="", flush=True)
            except Refused as refused:
                print(f"no {refused.status}: " + "; ".join(lines_of(refused.text)), flush=True)
    except Ended:
        pass
    return session.close()


if __name__ == "__main__":
    sys.exit(main(sys.argv[1:]))
