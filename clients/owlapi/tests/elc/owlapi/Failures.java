package elc.owlapi;

import java.io.IOException;
import java.nio.file.Files;
import java.nio.file.Path;
import java.nio.file.attribute.PosixFilePermissions;
import java.util.*;
import java.util.concurrent.TimeUnit;
import java.util.concurrent.atomic.AtomicReference;
import java.util.stream.Collectors;
import java.util.stream.Stream;
import org.semanticweb.owlapi.apibinding.OWLManager;
import org.semanticweb.owlapi.model.*;
import org.semanticweb.owlapi.reasoner.*;

/**
 * Programs that are missing, end, hang or are killed, and calls that are interrupted or take too long: each ends in the API's exception,
 * leaves no process and no file behind, and where the program then answers, so does the reasoner.
 */
final class Failures {
    private final String elc;
    private final Path folder;
    private final Judge judge = new Judge();
    private final OWLOntologyManager manager = OWLManager.createOWLOntologyManager();
    private final OWLDataFactory factory = manager.getOWLDataFactory();
    private final OWLOntology ontology = manager.createOntology();
    private final OWLClass first = factory.getOWLClass(IRI.create("x:A"));
    private final OWLClass second = factory.getOWLClass(IRI.create("x:B"));

    private Failures(String elc, Path folder) throws OWLOntologyCreationException {
        this.elc = elc;
        this.folder = folder;
        manager.addAxiom(ontology, factory.getOWLSubClassOfAxiom(first, second));
    }

    static int status(String elc, Path folder) throws Exception {
        Failures it = new Failures(elc, folder);
        it.programs();
        it.killed();
        it.hanging();
        it.disposed();
        it.progress();
        return it.judge.end("failures");
    }

    /** A program of the shell. */
    private String script(String name, String text) throws IOException {
        Path path = folder.resolve(name);
        Files.writeString(path, "#!/bin/sh\n" + text + "\n");
        Files.setPosixFilePermissions(path, PosixFilePermissions.fromString("rwxr-xr-x"));
        return path.toString();
    }

    private ElcReasoner reasoner(String program, long milliseconds) {
        return new ElcReasonerFactory(program).createReasoner(ontology, new SimpleConfiguration(milliseconds));
    }

    private void nothingIsLeft(String what, ElcReasoner reasoner) throws IOException {
        if (reasoner != null) {
            reasoner.dispose();
        }
        judge.same(what + ": processes", List.of(), ProcessHandle.current().children().map(ProcessHandle::info).collect(Collectors.toList()));
        try (Stream<Path> files = Files.list(Path.of(System.getProperty("java.io.tmpdir")))) {
            judge.same(what + ": files", List.of(), files.filter(it -> it.toString().endsWith(".ofn")).collect(Collectors.toList()));
        }
    }

    private void programs() throws Exception {
        Map<String, String> programs = new LinkedHashMap<>();
        programs.put("missing", folder.resolve("none").toString());
        programs.put("ends at once", script("ends", "exit 3"));
        programs.put("refuses", script("refuses", "echo F3 at byte 7 >&2; exit 3"));
        programs.put("says no", script("says-no", "read line; printf 'no 4 14\\nout of memory\\n'; read line"));
        programs.put("babbles", script("babbles", "echo what is this; if [ $1 = session ]; then exec sleep 60; fi"));
        for (String what : programs.keySet()) {
            ElcReasoner it = reasoner(programs.get(what), 0);
            ReasonerInternalException told = judge.fails(what, ReasonerInternalException.class, it::isConsistent);
            if (what.equals("refuses")) {
                judge.holds(what + ": " + told.getMessage(), told.getMessage().contains("F3 at byte 7"));
            }
            judge.fails(what, ReasonerInternalException.class, () -> it.certify(folder.resolve("none is written")));
            nothingIsLeft(what, it);
        }
    }

    private void killed() throws Exception {
        ElcReasoner it = reasoner(elc, 0);
        judge.same("before it is killed", true, it.isEntailed(factory.getOWLSubClassOfAxiom(first, second)));
        List<ProcessHandle> children = ProcessHandle.current().children().collect(Collectors.toList());
        judge.same("processes", 1, children.size());
        for (ProcessHandle child : children) {
            child.destroyForcibly();
            child.onExit().get();
        }
        judge.fails("killed", ReasonerInternalException.class, () -> it.getSuperClasses(first, false));
        judge.same("behind that", true, it.isEntailed(factory.getOWLSubClassOfAxiom(first, second)));
        nothingIsLeft("killed", it);
    }

    /** A program that hangs until a file is there. */
    private String hangs(Path until) throws IOException {
        return script("hangs", "if [ -e '" + until + "' ]; then exec '" + elc + "' \"$@\"; fi; exec sleep 60");
    }

    private void hanging() throws Exception {
        Path until = folder.resolve("until");
        for (String how : List.of("interrupt", "thread", "time", "dispose")) {
            Files.deleteIfExists(until);
            ElcReasoner it = reasoner(hangs(until), how.equals("time") ? 300 : 0);
            AtomicReference<Exception> ended = new AtomicReference<>();
            Thread thread = new Thread(() -> {
                try {
                    it.isConsistent();
                } catch (Exception failure) {
                    ended.set(failure);
                }
            });
            long start = System.nanoTime();
            thread.start();
            while (ProcessHandle.current().children().count() == 0) {
                Thread.sleep(1);
            }
            Thread.sleep(100);
            if (how.equals("interrupt")) {
                it.interrupt();
            } else if (how.equals("thread")) {
                thread.interrupt();
            } else if (how.equals("dispose")) {
                it.dispose();
            }
            thread.join(20_000);
            judge.holds(how + ": in time", System.nanoTime() - start < TimeUnit.SECONDS.toNanos(10));
            Class<?> kind = how.equals("time") ? TimeOutException.class : ReasonerInterruptedException.class;
            judge.holds(how + ": " + ended.get(), kind.isInstance(ended.get()));
            nothingIsLeft(how, null);
            if (!how.equals("dispose")) {
                Files.createFile(until);
                ElcReasoner slow = it;
                judge.same(how + ": behind that", true, patiently(slow));
                it.interrupt();
                judge.same(how + ": an interrupt of nothing", true, patiently(slow));
            }
            nothingIsLeft(how, it);
        }
    }

    /** On a machine that does other things, a process may need more than one time to come up. */
    private static boolean patiently(ElcReasoner it) {
        for (int tries = 0; ; tries++) {
            try {
                return it.isConsistent();
            } catch (TimeOutException late) {
                if (tries > 50) {
                    throw late;
                }
            }
        }
    }

    private void disposed() throws Exception {
        ElcReasoner it = reasoner(elc, 0);
        it.isConsistent();
        nothingIsLeft("disposed", it);
        judge.fails("disposed", ReasonerInternalException.class, it::isConsistent);
        it.dispose();
    }

    private void progress() throws Exception {
        List<String> told = Collections.synchronizedList(new ArrayList<>());
        ReasonerProgressMonitor monitor = new ReasonerProgressMonitor() {
            private static final long serialVersionUID = 1L;

            @Override
            public void reasonerTaskStarted(String name) {
                told.add("started " + name);
            }

            @Override
            public void reasonerTaskStopped() {
                told.add("stopped");
            }

            @Override
            public void reasonerTaskProgressChanged(int value, int all) {
                told.add("changed");
            }

            @Override
            public void reasonerTaskBusy() {
                told.add("busy");
            }
        };
        ElcReasoner it = new ElcReasonerFactory(elc).createReasoner(ontology, new SimpleConfiguration(monitor));
        it.precomputeInferences(InferenceType.CLASS_HIERARCHY);
        judge.same("precomputed", true, it.isPrecomputed(InferenceType.CLASS_HIERARCHY));
        judge.same("progress", List.of("started Loading", "busy"), told.subList(0, 2));
        judge.same("progress", "stopped", told.get(told.size() - 1));
        judge.same("progress", true, told.subList(2, told.size() - 1).stream().allMatch("changed"::equals));
        told.clear();
        manager.addAxiom(ontology, factory.getOWLSubClassOfAxiom(second, first));
        it.flush();
        judge.same("precomputed", false, it.isPrecomputed(InferenceType.CLASS_HIERARCHY));
        judge.same("same", 2, it.getEquivalentClasses(first).getSize());
        judge.same("progress", "started Classifying", told.get(0));
        judge.same("progress", "stopped", told.get(told.size() - 1));
        nothingIsLeft("progress", it);
        ontology.remove(factory.getOWLSubClassOfAxiom(second, first));
    }
}
