package elc.owlapi;

import java.io.BufferedWriter;
import java.io.IOException;
import java.nio.file.Files;
import java.nio.file.Path;
import java.util.*;
import java.util.function.Predicate;
import java.util.stream.Collectors;
import org.semanticweb.owlapi.model.*;
import org.semanticweb.owlapi.reasoner.ClassExpressionNotInProfileException;
import org.semanticweb.owlapi.reasoner.Node;
import org.semanticweb.owlapi.reasoner.impl.OWLClassNode;

/**
 * A process <code>elc session</code> over axioms, run to its end: what it answers about names that it has, and about expressions and
 * axioms over these. What is not of the profile is left out. What was answered is kept until axioms are added. The exceptions are those of
 * {@link ElcProcess}, and {@link java.io.UncheckedIOException}s where a file or the program fails.
 */
final class ElcSession implements AutoCloseable {
    /** Longer names do not fit into a line of a command; they are asked about as expressions. */
    private static final int LONGEST = 4000;

    private final OWLDataFactory factory;
    private final ElcReplies replies;
    private final ElcProcess process;
    private boolean hasDisjointness;
    private boolean isPending;

    private final Map<OWLClass, Node<OWLClass>> nodes = new HashMap<>();
    private final Map<OWLClass, List<Node<OWLClass>>> parents = new HashMap<>();
    private final Map<OWLClass, List<Node<OWLClass>>> children = new HashMap<>();
    private final Map<OWLClass, Set<OWLNamedIndividual>> instances = new HashMap<>();

    /**
     * Opens the axioms and runs.
     *
     * @param told takes what the process tells of its progress
     */
    ElcSession(String program, Collection<OWLAxiom> axioms, OWLDataFactory factory, Bounds bounds, Predicate<String> told) throws IOException {
        this.factory = factory;
        replies = new ElcReplies(factory);
        Path document = Files.createTempFile("elc", ".ofn");
        ElcProcess opened = null;
        try {
            Statements statements = new Statements(axioms);
            statements.write(document);
            opened = new ElcProcess(List.of(program, "session", document.toString(), "--progress"), bounds, told);
            opened.ask("run");
            statements.names.forEach(replies::know);
            hasDisjointness = statements.mayDisjoin;
            process = opened;
            opened = null;
        } finally {
            // the document is read before the first reply
            Files.deleteIfExists(document);
            if (opened != null) {
                opened.close();
            }
        }
    }

    /** What axioms say to a session: the texts of those of the profile, declarations of all other names in them, and their names. */
    private static final class Statements {
        final List<String> texts = new ArrayList<>();
        final Set<OWLEntity> names = new LinkedHashSet<>();
        boolean mayDisjoin;

        Statements(Collection<OWLAxiom> axioms) {
            Set<OWLEntity> others = new LinkedHashSet<>();
            for (OWLAxiom axiom : axioms) {
                Optional<ElcText.Said> said = ElcText.axiom(axiom);
                said.ifPresent(it -> add(axiom, it));
                if (said.isEmpty()) {
                    axiom.signature().forEach(others::add);
                }
            }
            others.removeAll(names);
            for (OWLEntity entity : others) {
                ElcText.declaration(entity).ifPresent(it -> add(null, it));
            }
        }

        private void add(OWLAxiom axiom, ElcText.Said said) {
            texts.add(said.text);
            names.addAll(said.names);
            mayDisjoin |= axiom instanceof OWLDisjointClassesAxiom || said.names.stream().anyMatch(it -> it.isOWLClass() && it.asOWLClass().isOWLNothing());
        }

        void write(Path path) throws IOException {
            try (BufferedWriter writer = Files.newBufferedWriter(path)) {
                writer.write("Ontology(\n");
                for (String text : texts) {
                    writer.write(text);
                    writer.write('\n');
                }
                writer.write(")\n");
            }
        }
    }

    /** Writes the document that a session over the axioms is opened with. */
    static void writeDocument(Collection<OWLAxiom> axioms, Path path) throws IOException {
        new Statements(axioms).write(path);
    }

    /** Adds axioms and runs. Where that fails the session cannot be asked any more. */
    void add(Collection<OWLAxiom> axioms) {
        Statements added = new Statements(axioms);
        if (added.texts.isEmpty()) {
            return;
        }
        nodes.clear();
        parents.clear();
        children.clear();
        instances.clear();
        isPending = true;
        process.ask("add", String.join("\n", added.texts));
        process.ask("run");
        isPending = false;
        added.names.forEach(replies::know);
        hasDisjointness |= added.mayDisjoin;
    }

    /** Whether the session has the name of the class, property or individual. */
    boolean knows(OWLEntity entity) {
        return replies.knows(entity);
    }

    boolean isConsistent() {
        return !node(factory.getOWLNothing()).contains(factory.getOWLThing());
    }

    /** The class and all that are the same. */
    Node<OWLClass> node(OWLClass one) {
        Node<OWLClass> found = nodes.get(one);
        return found != null ? found : nodes(Set.of(one)).get(0);
    }

    /** The nodes of the classes, each once. */
    List<Node<OWLClass>> nodes(Collection<OWLClass> classes) {
        List<OWLClass> unknown = classes.stream().filter(it -> !nodes.containsKey(it)).collect(Collectors.toList());
        List<OWLClass> shorts = unknown.stream().filter(ElcSession::isShort).collect(Collectors.toList());
        List<String> answers = process.askAll(lines("equivalents", shorts));
        for (String answer : answers) {
            canonical(replies.classes(answer));
        }
        for (OWLClass one : unknown) {
            if (!isShort(one)) {
                canonical(same(query(one)));
            }
        }
        return classes.stream().map(nodes::get).distinct().collect(Collectors.toList());
    }

    private static boolean isShort(OWLEntity one) {
        return one.getIRI().length() * 3L <= LONGEST;
    }

    private static List<String> lines(String word, Collection<OWLClass> classes) {
        return classes.stream().map(it -> word + " " + it.getIRI()).collect(Collectors.toList());
    }

    private Node<OWLClass> canonical(Collection<OWLClass> group) {
        Node<OWLClass> found = nodes.get(group.iterator().next());
        if (found != null) {
            return found;
        }
        Node<OWLClass> node = new OWLClassNode(group);
        group.forEach(it -> nodes.put(it, node));
        return node;
    }

    /** The groups directly above the class. */
    List<Node<OWLClass>> parents(OWLClass one) {
        return around("parents", parents, Set.of(one)).get(0);
    }

    /** The groups directly below the class. */
    List<Node<OWLClass>> children(OWLClass one) {
        return around("children", children, Set.of(one)).get(0);
    }

    private List<List<Node<OWLClass>>> around(String word, Map<OWLClass, List<Node<OWLClass>>> kept, Collection<OWLClass> classes) {
        List<OWLClass> unknown = classes.stream().filter(it -> !kept.containsKey(it)).collect(Collectors.toList());
        List<OWLClass> shorts = unknown.stream().filter(ElcSession::isShort).collect(Collectors.toList());
        List<String> answers = process.askAll(lines(word, shorts));
        for (int i = 0; i < answers.size(); i++) {
            kept.put(shorts.get(i), replies.groups(answers.get(i)).stream().map(this::canonical).collect(Collectors.toList()));
        }
        for (OWLClass one : unknown) {
            if (!isShort(one)) {
                kept.put(one, direct(query(one), word.equals("parents")));
            }
        }
        return classes.stream().map(kept::get).collect(Collectors.toList());
    }

    /** The classes above the class, itself among them. */
    Set<OWLClass> supers(OWLClass one) {
        return isShort(one) ? replies.classes(process.ask("supers " + one.getIRI())) : query(one).supers;
    }

    /** The classes below the class, itself among them. */
    Set<OWLClass> subs(OWLClass one) {
        return isShort(one) ? replies.classes(process.ask("subs " + one.getIRI())) : query(one).subs;
    }

    /** The individuals of the class. */
    Set<OWLNamedIndividual> instances(OWLClass one) {
        fetchInstances(Set.of(one));
        return instances.get(one);
    }

    private void fetchInstances(Collection<OWLClass> classes) {
        List<OWLClass> unknown = classes.stream().filter(it -> !instances.containsKey(it)).collect(Collectors.toList());
        if (!replies.hasIndividuals()) {
            unknown.forEach(it -> instances.put(it, Set.of()));
            return;
        }
        List<OWLClass> shorts = unknown.stream().filter(ElcSession::isShort).collect(Collectors.toList());
        List<String> answers = process.askAll(lines("instances", shorts));
        for (int i = 0; i < answers.size(); i++) {
            instances.put(shorts.get(i), replies.individuals(answers.get(i)));
        }
        for (OWLClass one : unknown) {
            if (!isShort(one)) {
                instances.put(one, query(one).instances);
            }
        }
    }

    /** What lies above the expression and below it, and its individuals. Its names are those of the session. */
    ElcReplies.Asked query(OWLClassExpression expression) {
        ElcText.Said said = ElcText.expression(expression).orElseThrow(() -> new ClassExpressionNotInProfileException(expression, Entailments.PROFILE));
        return replies.asked(process.ask("query", said.text));
    }

    /** Whether the axiom of this text follows. Its names are those of the session. */
    boolean entails(String axiom) {
        return process.ask("entails", axiom).equals("yes\n");
    }

    /** The named classes that are the same as an expression. */
    static Set<OWLClass> same(ElcReplies.Asked asked) {
        Set<OWLClass> same = new LinkedHashSet<>(asked.supers);
        same.retainAll(asked.subs);
        return same;
    }

    /** The named classes strictly above an expression, or strictly below it. */
    static Set<OWLClass> strict(ElcReplies.Asked asked, boolean above) {
        Set<OWLClass> strict = new LinkedHashSet<>(above ? asked.supers : asked.subs);
        strict.removeAll(above ? asked.subs : asked.supers);
        return strict;
    }

    /** The groups directly above an expression, or directly below it. */
    List<Node<OWLClass>> direct(ElcReplies.Asked asked, boolean above) {
        Set<OWLClass> same = same(asked);
        Optional<OWLClass> named = same.stream().filter(ElcSession::isShort).findFirst();
        if (named.isPresent()) {
            return above ? parents(named.get()) : children(named.get());
        }
        // all that lie above, or below, on a direct way from one of these are not directly there
        Set<OWLClass> strict = strict(asked, above);
        Set<OWLClass> far = new HashSet<>();
        for (List<Node<OWLClass>> next : above ? around("parents", parents, strict) : around("children", children, strict)) {
            next.forEach(node -> node.entities().forEach(far::add));
        }
        strict.removeAll(far);
        return nodes(strict);
    }

    /** The groups of classes that the individual belongs to, or the least of them alone. */
    List<Node<OWLClass>> types(OWLNamedIndividual individual, boolean direct) {
        if (!isShort(individual)) {
            return typesFromAbove(individual, direct);
        }
        if (direct) {
            return replies.groups(process.ask("direct-types " + individual.getIRI())).stream().map(this::canonical).collect(Collectors.toList());
        }
        return nodes(replies.classes(process.ask("types " + individual.getIRI())));
    }

    /** The same of one whose name does not fit into a line: from the top down. */
    private List<Node<OWLClass>> typesFromAbove(OWLNamedIndividual individual, boolean direct) {
        List<Node<OWLClass>> found = new ArrayList<>();
        Deque<Node<OWLClass>> waiting = new ArrayDeque<>(List.of(node(factory.getOWLThing())));
        Set<OWLClass> seen = new HashSet<>();
        while (!waiting.isEmpty()) {
            Node<OWLClass> node = waiting.remove();
            boolean least = true;
            for (Node<OWLClass> below : inhabited(node.getRepresentativeElement())) {
                OWLClass one = below.getRepresentativeElement();
                if (instances.get(one).contains(individual)) {
                    least = false;
                    if (seen.add(one)) {
                        waiting.add(below);
                    }
                }
            }
            if (least || !direct) {
                found.add(node);
            }
        }
        return found;
    }

    /** The groups directly below the class, but that of owl:Nothing, with their instances. */
    private List<Node<OWLClass>> inhabited(OWLClass one) {
        List<Node<OWLClass>> below = children(one).stream().filter(it -> !it.isBottomNode()).collect(Collectors.toList());
        fetchInstances(below.stream().map(Node::getRepresentativeElement).collect(Collectors.toList()));
        return below;
    }

    /** The individuals of none of the classes directly below: of these that are given, those that are left. */
    Set<OWLNamedIndividual> directInstances(Collection<OWLNamedIndividual> all, List<Node<OWLClass>> below) {
        Set<OWLNamedIndividual> left = new LinkedHashSet<>(all);
        List<OWLClass> classes = below.stream().filter(it -> !it.isBottomNode()).map(Node::getRepresentativeElement).collect(Collectors.toList());
        fetchInstances(classes);
        classes.forEach(it -> left.removeAll(instances.get(it)));
        return left;
    }

    /**
     * The groups of classes that have no element in common with the expression. From the top down each class is asked about, so far as it
     * has one; where no axiom may be why classes are disjoint, it is those without elements alone, unless the expression is one.
     */
    List<Node<OWLClass>> disjoint(OWLClassExpression expression) {
        Node<OWLClass> bottom = node(factory.getOWLNothing());
        Set<OWLClass> found = new LinkedHashSet<>(bottom.entities().collect(Collectors.toSet()));
        Deque<Node<OWLClass>> waiting = new ArrayDeque<>();
        Set<Node<OWLClass>> seen = Collections.newSetFromMap(new IdentityHashMap<>());
        waiting.add(node(factory.getOWLThing()));
        while (hasDisjointness && !waiting.isEmpty()) {
            Node<OWLClass> node = waiting.remove();
            OWLClass one = node.getRepresentativeElement();
            if (found.contains(one)) {
                continue;
            }
            if (query(factory.getOWLObjectIntersectionOf(expression, one)).supers.contains(factory.getOWLNothing())) {
                found.addAll(subs(one));
            } else {
                children(one).stream().filter(seen::add).forEach(waiting::add);
            }
        }
        return nodes(found);
    }

    /** Whether it can be asked: it was not killed, by an interrupt or since it took too long, and no addition failed. */
    boolean isUsable() {
        return !process.isKilled() && !isPending;
    }

    long pid() {
        return process.pid();
    }

    @Override
    public void close() {
        process.close();
    }
}
