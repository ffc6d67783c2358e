package elc.owlapi;

import java.io.IOException;
import java.nio.file.Files;
import java.nio.file.Path;
import java.util.*;
import java.util.function.Supplier;
import java.util.stream.Collectors;
import java.util.stream.Stream;
import org.semanticweb.owlapi.apibinding.OWLManager;
import org.semanticweb.owlapi.io.StringDocumentSource;
import org.semanticweb.owlapi.model.*;
import org.semanticweb.owlapi.model.parameters.Imports;
import org.semanticweb.owlapi.reasoner.*;

/**
 * Compares reasoners over documents with the texts that `elc classify` writes of them, with the answers of a naive closure, and with new
 * reasoners behind changes. The documents are those of the script `documents`.
 */
final class Documents {
    private final String elc;
    private final Path folder;
    private final Judge judge = new Judge();
    private int contradictory;
    private int asked;

    private Documents(String elc, Path folder) {
        this.elc = elc;
        this.folder = folder;
    }

    static int status(String elc, Path folder) throws Exception {
        Documents it = new Documents(elc, folder);
        List<Path> paths;
        try (Stream<Path> listed = Files.list(it.folder)) {
            paths = listed.filter(path -> path.toString().endsWith(".ofn")).sorted().collect(Collectors.toList());
        }
        for (Path path : paths) {
            String name = path.getFileName().toString().replace(".ofn", "");
            try {
                it.document(name, path);
                it.changes(name, path);
            } catch (RuntimeException failure) {
                it.judge.holds(name + ": " + failure, false);
                failure.printStackTrace(System.out);
            }
        }
        System.out.println(paths.size() + " documents, " + it.contradictory + " contradictory, " + it.asked + " axioms asked");
        return it.judge.end("documents");
    }

    static OWLOntology loaded(Path path) throws OWLOntologyCreationException {
        return OWLManager.createOWLOntologyManager().loadOntologyFromOntologyDocument(path.toFile());
    }

    private Texts texts(String name) throws IOException {
        return new Texts(folder.resolve(name + ".tax"), folder.resolve(name + ".inst"));
    }

    static SortedSet<String> names(Node<? extends OWLEntity> node) {
        return node.entities().map(it -> it.getIRI().toString()).collect(Collectors.toCollection(TreeSet::new));
    }

    static Set<SortedSet<String>> names(NodeSet<? extends OWLEntity> nodes) {
        return nodes.nodes().map(Documents::names).collect(Collectors.toSet());
    }

    private void document(String name, Path path) throws Exception {
        OWLOntology ontology = loaded(path);
        OWLDataFactory factory = ontology.getOWLOntologyManager().getOWLDataFactory();
        Texts texts = texts(name);
        ElcReasoner reasoner = new ElcReasonerFactory(elc).createReasoner(ontology);
        judge.same(name + " left out", List.of(), reasoner.leftOut());
        judge.same(name + " consistent", texts.isConsistent, reasoner.isConsistent());
        if (!texts.isConsistent) {
            contradictory++;
            contradiction(name, reasoner, factory.getOWLThing());
        } else {
            judge.same(name + " unsatisfiable", texts.group(Texts.NOTHING), names(reasoner.getUnsatisfiableClasses()));
            judge.same(name + " top", texts.group(Texts.THING), names(reasoner.getTopClassNode()));
            judge.same(name + " bottom", texts.group(Texts.NOTHING), names(reasoner.getBottomClassNode()));
            for (String one : texts.groups.keySet()) {
                named(name, reasoner, texts, factory.getOWLClass(IRI.create(one)), one);
            }
            for (String one : texts.types.keySet()) {
                OWLNamedIndividual individual = factory.getOWLNamedIndividual(IRI.create(one));
                judge.same(name + " direct types " + one, texts.types(one, true), names(reasoner.getTypes(individual, true)));
                judge.same(name + " types " + one, texts.types(one, false), names(reasoner.getTypes(individual, false)));
            }
            for (OWLAxiom axiom : ontology.logicalAxioms().collect(Collectors.toList())) {
                judge.same(name + " has " + axiom, true, reasoner.isEntailed(axiom));
            }
            asked(name, reasoner);
            query(name, reasoner);
            entailed(name, reasoner, factory);
        }
        reasoner.dispose();
    }

    /** What other calls answer or tell, as axioms. */
    private void entailed(String name, ElcReasoner reasoner, OWLDataFactory factory) {
        List<OWLNamedIndividual> individuals = reasoner.getRootOntology().individualsInSignature().collect(Collectors.toList());
        for (OWLClass one : entities(reasoner.getSubClasses(factory.getOWLThing(), false))) {
            expression(name, reasoner, factory, factory.getOWLObjectIntersectionOf(one, factory.getOWLThing()), individuals);
        }
        reasoner.getRootOntology().objectPropertiesInSignature().forEach(one -> {
            OWLClassExpression all = factory.getOWLObjectSomeValuesFrom(one, factory.getOWLThing());
            expression(name, reasoner, factory, all, individuals);
            for (OWLClass above : entities(reasoner.getObjectPropertyDomains(one, false))) {
                follows(name, reasoner, true, factory.getOWLObjectPropertyDomainAxiom(one, above));
            }
            for (OWLObjectPropertyExpression above : entities(reasoner.getSuperObjectProperties(one, false))) {
                if (!above.isOWLTopObjectProperty()) {
                    follows(name, reasoner, true, factory.getOWLSubObjectPropertyOfAxiom(one, above));
                }
            }
            for (OWLNamedIndividual from : individuals) {
                for (OWLNamedIndividual to : entities(reasoner.getObjectPropertyValues(from, one))) {
                    follows(name, reasoner, true, factory.getOWLObjectPropertyAssertionAxiom(one, from, to));
                }
            }
        });
        for (OWLNamedIndividual one : individuals) {
            for (OWLNamedIndividual other : entities(reasoner.getDifferentIndividuals(one))) {
                follows(name, reasoner, true, factory.getOWLDifferentIndividualsAxiom(one, other));
            }
        }
    }

    private void expression(String name, ElcReasoner reasoner, OWLDataFactory factory, OWLClassExpression one, List<OWLNamedIndividual> individuals) {
        Set<OWLClass> same = reasoner.getEquivalentClasses(one).entities().collect(Collectors.toSet());
        Set<OWLClass> above = entities(reasoner.getSuperClasses(one, false));
        Set<OWLClass> below = entities(reasoner.getSubClasses(one, false));
        Set<OWLClass> apart = entities(reasoner.getDisjointClasses(one));
        for (OWLClass other : entities(reasoner.getSubClasses(factory.getOWLThing(), false))) {
            follows(name, reasoner, same.contains(other) || above.contains(other), factory.getOWLSubClassOfAxiom(one, other));
            follows(name, reasoner, same.contains(other) || below.contains(other), factory.getOWLSubClassOfAxiom(other, one));
            follows(name, reasoner, same.contains(other), factory.getOWLEquivalentClassesAxiom(one, other));
            follows(name, reasoner, apart.contains(other), factory.getOWLDisjointClassesAxiom(one, other));
        }
        Set<OWLNamedIndividual> found = entities(reasoner.getInstances(one, false));
        for (OWLNamedIndividual individual : individuals) {
            follows(name, reasoner, found.contains(individual), factory.getOWLClassAssertionAxiom(one, individual));
        }
    }

    private static <E extends OWLObject> Set<E> entities(NodeSet<E> nodes) {
        return nodes.entities().collect(Collectors.toSet());
    }

    private void follows(String name, ElcReasoner reasoner, boolean expected, OWLAxiom axiom) {
        asked++;
        judge.same(name + " entailed " + axiom, expected, reasoner.isEntailed(axiom));
    }

    private void contradiction(String name, ElcReasoner reasoner, OWLClass thing) {
        judge.fails(name + " contradictory", InconsistentOntologyException.class, () -> reasoner.getSuperClasses(thing, true));
        judge.fails(name + " contradictory", InconsistentOntologyException.class, () -> reasoner.getUnsatisfiableClasses());
        judge.fails(name + " contradictory", InconsistentOntologyException.class, () -> reasoner.getInstances(thing, false));
        judge.same(name + " contradictory", true, reasoner.getTopClassNode().isBottomNode());
    }

    private void named(String name, ElcReasoner reasoner, Texts texts, OWLClass asked, String one) {
        judge.same(name + " same " + one, texts.group(one), names(reasoner.getEquivalentClasses(asked)));
        judge.same(name + " parents " + one, texts.parents(one), names(reasoner.getSuperClasses(asked, true)));
        judge.same(name + " children " + one, texts.children(one), names(reasoner.getSubClasses(asked, true)));
        judge.same(name + " supers " + one, texts.supers(one), names(reasoner.getSuperClasses(asked, false)));
        judge.same(name + " subs " + one, texts.subs(one), names(reasoner.getSubClasses(asked, false)));
        judge.same(name + " satisfiable " + one, !texts.group(Texts.NOTHING).contains(one), reasoner.isSatisfiable(asked));
        for (boolean direct : new boolean[] {false, true}) {
            Set<String> found = reasoner.getInstances(asked, direct).entities().map(it -> it.getIRI().toString()).collect(Collectors.toSet());
            judge.same(name + " instances " + one + " " + direct, texts.instances(one, direct), found);
        }
    }

    private void asked(String name, ElcReasoner reasoner) throws Exception {
        Path path = folder.resolve(name + ".asked");
        if (!Files.exists(path)) {
            return;
        }
        for (String line : Texts.lines(path)) {
            int space = line.indexOf(' ');
            OWLOntology ontology = OWLManager.createOWLOntologyManager().loadOntologyFromOntologyDocument(new StringDocumentSource("Ontology(" + line.substring(space + 1) + ")"));
            for (OWLAxiom axiom : ontology.logicalAxioms().collect(Collectors.toList())) {
                follows(name, reasoner, line.startsWith("yes"), axiom);
            }
        }
    }

    private void query(String name, ElcReasoner reasoner) throws Exception {
        Path path = folder.resolve(name + ".query");
        if (!Files.exists(path)) {
            return;
        }
        Texts texts = texts(name + ".query");
        String one = "urn:query";
        OWLOntology ontology = OWLManager.createOWLOntologyManager().loadOntologyFromOntologyDocument(new StringDocumentSource("Ontology(SubClassOf(<urn:query> " + Files.readString(path) + "))"));
        OWLClassExpression asked = ontology.axioms(AxiomType.SUBCLASS_OF).findFirst().get().getSuperClass();
        SortedSet<String> same = new TreeSet<>(texts.group(one));
        same.remove(one);
        judge.same(name + " same query", same, names(reasoner.getEquivalentClasses(asked)));
        judge.same(name + " parents query", texts.parents(one), names(reasoner.getSuperClasses(asked, true)));
        judge.same(name + " children query", texts.children(one), names(reasoner.getSubClasses(asked, true)));
        judge.same(name + " supers query", texts.supers(one), names(reasoner.getSuperClasses(asked, false)));
        judge.same(name + " subs query", texts.subs(one), names(reasoner.getSubClasses(asked, false)));
        judge.same(name + " satisfiable query", !texts.group(Texts.NOTHING).contains(one), reasoner.isSatisfiable(asked));
        for (boolean direct : new boolean[] {false, true}) {
            Set<String> found = reasoner.getInstances(asked, direct).entities().map(it -> it.getIRI().toString()).collect(Collectors.toSet());
            judge.same(name + " instances query " + direct, texts.instances(one, direct), found);
        }
    }

    // Changes

    /** All that is asked of a reasoner in one text. */
    static List<Object> answers(ElcReasoner it) {
        List<Object> answers = new ArrayList<>(List.of(it.isConsistent(), Set.copyOf(it.leftOut())));
        if (!it.isConsistent()) {
            return answers;
        }
        it.getRootOntology().classesInSignature(Imports.INCLUDED).sorted().forEach(one -> {
            answers.add(List.of(one, names(it.getEquivalentClasses(one)), names(it.getSuperClasses(one, true)), names(it.getSubClasses(one, false)), names(it.getInstances(one, true))));
        });
        it.getRootOntology().individualsInSignature(Imports.INCLUDED).sorted().forEach(one -> {
            answers.add(List.of(one, names(it.getTypes(one, false)), names(it.getSameIndividuals(one))));
        });
        return answers;
    }

    private List<Object> anew(OWLOntology ontology) {
        ElcReasoner fresh = new ElcReasonerFactory(elc).createReasoner(ontology);
        List<Object> answers = answers(fresh);
        fresh.dispose();
        return answers;
    }

    private void changes(String name, Path path) throws Exception {
        Random dice = new Random(name.hashCode());
        OWLOntologyManager manager = OWLManager.createOWLOntologyManager();
        OWLOntology ontology = manager.loadOntologyFromOntologyDocument(path.toFile());
        List<OWLAxiom> axioms = ontology.axioms().sorted().collect(Collectors.toList());
        Collections.shuffle(axioms, dice);
        Set<OWLAxiom> out = new LinkedHashSet<>(axioms.subList(0, axioms.size() / 2));
        manager.removeAxioms(ontology, out.stream());
        boolean buffers = dice.nextInt(3) > 0;
        ElcReasonerFactory factory = new ElcReasonerFactory(elc);
        ElcReasoner reasoner = buffers ? factory.createReasoner(ontology) : factory.createNonBufferingReasoner(ontology);
        Supplier<List<Object>> now = () -> answers(reasoner);
        List<Object> first = now.get();
        judge.same(name + " half", anew(ontology), first);
        for (int step = 0; step < 4; step++) {
            Set<OWLAxiom> added = out.stream().filter(it -> dice.nextInt(2) == 0).collect(Collectors.toCollection(LinkedHashSet::new));
            Set<OWLAxiom> removed = step == 1 || dice.nextInt(4) == 0 ? ontology.axioms().filter(it -> dice.nextInt(4) == 0).collect(Collectors.toSet()) : Set.of();
            boolean consistent = reasoner.isConsistent();
            Node<OWLClass> top = reasoner.getTopClassNode();
            Set<OWLAxiom> before = bare(ontology);
            manager.addAxioms(ontology, added.stream());
            manager.removeAxioms(ontology, removed.stream());
            out.removeAll(added);
            out.addAll(removed);
            Set<OWLAxiom> after = bare(ontology);
            judge.same(name + " additions " + step, buffers ? less(after, before) : Set.of(), reasoner.getPendingAxiomAdditions());
            judge.same(name + " removals " + step, buffers ? less(before, after) : Set.of(), reasoner.getPendingAxiomRemovals());
            judge.same(name + " changes " + step, buffers ? added.size() + removed.size() : 0, reasoner.getPendingChanges().size());
            if (buffers) {
                judge.same(name + " before flush " + step, consistent, reasoner.isConsistent());
                judge.same(name + " before flush " + step, top, reasoner.getTopClassNode());
                reasoner.flush();
            }
            judge.same(name + " pending " + step, List.of(), reasoner.getPendingChanges());
            judge.same(name + " pending " + step, Set.of(), reasoner.getPendingAxiomAdditions());
            judge.same(name + " behind flush " + step, anew(ontology), now.get());
        }
        reasoner.dispose();
    }

    private static Set<OWLAxiom> bare(OWLOntology ontology) {
        return ontology.axioms().map(Changes::bare).collect(Collectors.toSet());
    }

    private static Set<OWLAxiom> less(Set<OWLAxiom> axioms, Set<OWLAxiom> others) {
        return axioms.stream().filter(it -> !others.contains(it)).collect(Collectors.toSet());
    }
}
