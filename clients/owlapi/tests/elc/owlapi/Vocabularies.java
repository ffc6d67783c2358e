package elc.owlapi;

import java.nio.charset.StandardCharsets;
import java.nio.file.Files;
import java.nio.file.Path;
import java.util.*;
import java.util.stream.Collectors;
import java.util.stream.Stream;
import org.semanticweb.owlapi.apibinding.OWLManager;
import org.semanticweb.owlapi.model.*;
import org.semanticweb.owlapi.model.parameters.Imports;
import org.semanticweb.owlapi.util.*;

/**
 * Compares what the API's own generator of inferred axioms gives over documents with the taxonomies that stand beside them, and tells how
 * long it takes to open each, to ask a thousand questions of names and a hundred of axioms, and to generate.
 */
final class Vocabularies {
    private static final Comparator<String> BY_BYTES = (one, other) -> Arrays.compareUnsigned(one.getBytes(StandardCharsets.UTF_8), other.getBytes(StandardCharsets.UTF_8));
    private static final int QUESTIONS = 1000;
    private static final int AXIOMS = 100;

    private Vocabularies() {}

    static int status(String elc, Path folder) throws Exception {
        Judge judge = new Judge();
        List<Path> paths;
        try (Stream<Path> listed = Files.list(folder)) {
            paths = listed.filter(path -> path.toString().endsWith(".ofn")).sorted().collect(Collectors.toList());
        }
        for (Path path : paths) {
            String name = path.getFileName().toString().replace(".ofn", "");
            Path taxonomy = path.resolveSibling(name + ".tax");
            if (Files.exists(taxonomy)) {
                judge.same(name, Files.readString(taxonomy), generated(elc, name, path));
            }
        }
        return judge.end("vocabularies");
    }

    private static String generated(String elc, String name, Path path) throws Exception {
        long start = System.nanoTime();
        OWLOntology ontology = OWLManager.createOWLOntologyManager().loadOntologyFromOntologyDocument(path.toFile());
        start = told(name, "read by the API", start);
        ElcReasoner reasoner = new ElcReasonerFactory(elc).createReasoner(ontology);
        reasoner.isConsistent();
        start = told(name, "opened and run, " + reasoner.leftOut().size() + " left out", start);
        OWLDataFactory factory = ontology.getOWLOntologyManager().getOWLDataFactory();
        List<OWLClass> classes = ontology.classesInSignature().sorted().collect(Collectors.toList());
        for (int i = 0; i < QUESTIONS; i++) {
            OWLClass one = classes.get(i * 7 % classes.size());
            switch (i % 4) {
                case 0:
                    reasoner.getSuperClasses(one, true);
                    break;
                case 1:
                    reasoner.getSubClasses(one, true);
                    break;
                case 2:
                    reasoner.getSuperClasses(one, false);
                    break;
                default:
                    reasoner.getSubClasses(one, false);
            }
        }
        start = told(name, QUESTIONS + " questions", start);
        List<OWLObjectProperty> properties = ontology.objectPropertiesInSignature().sorted().collect(Collectors.toList());
        for (int i = 0; i < AXIOMS && !properties.isEmpty(); i++) {
            reasoner.isEntailed(axiom(factory, classes, properties, i));
        }
        start = told(name, AXIOMS + " axioms asked", start);
        OWLOntology inferred = OWLManager.createOWLOntologyManager().createOntology();
        new InferredOntologyGenerator(reasoner, List.of(new InferredSubClassAxiomGenerator(), new InferredEquivalentClassAxiomGenerator())).fillOntology(factory, inferred);
        start = told(name, inferred.getAxiomCount() + " inferred axioms of classes", start);
        OWLOntology all = OWLManager.createOWLOntologyManager().createOntology();
        new InferredOntologyGenerator(reasoner).fillOntology(factory, all);
        start = told(name, all.getAxiomCount() + " inferred axioms of all kinds", start);
        OWLClass one = factory.getOWLClass(IRI.create("urn:added"));
        ontology.getOWLOntologyManager().addAxiom(ontology, factory.getOWLSubClassOfAxiom(one, classes.get(classes.size() / 2)));
        reasoner.flush();
        reasoner.getSuperClasses(one, true);
        start = told(name, "an addition, and a question", start);
        ontology.remove(factory.getOWLSubClassOfAxiom(one, classes.get(classes.size() / 2)));
        reasoner.flush();
        reasoner.getSuperClasses(classes.get(classes.size() / 2), true);
        told(name, "a removal, and a question", start);
        reasoner.dispose();
        return taxonomy(ontology, inferred);
    }

    /** An axiom of one of the kinds that names alone do not say. */
    private static OWLAxiom axiom(OWLDataFactory factory, List<OWLClass> classes, List<OWLObjectProperty> properties, int i) {
        OWLClass one = classes.get(i * 7 % classes.size());
        OWLClass other = classes.get(i * 11 % classes.size());
        OWLObjectProperty property = properties.get(i * 3 % properties.size());
        OWLObjectProperty above = properties.get(i * 5 % properties.size());
        switch (i % 5) {
            case 0:
                return factory.getOWLSubClassOfAxiom(one, factory.getOWLObjectSomeValuesFrom(property, other));
            case 1:
                return factory.getOWLSubClassOfAxiom(factory.getOWLObjectSomeValuesFrom(property, one), factory.getOWLObjectSomeValuesFrom(above, other));
            case 2:
                return factory.getOWLDisjointClassesAxiom(one, factory.getOWLObjectSomeValuesFrom(property, other));
            case 3:
                return factory.getOWLSubObjectPropertyOfAxiom(property, above);
            default:
                return factory.getOWLTransitiveObjectPropertyAxiom(property);
        }
    }

    private static long told(String name, String what, long start) {
        System.out.printf("%s: %s: %d ms%n", name, what, (System.nanoTime() - start) / 1_000_000);
        return System.nanoTime();
    }

    /** The taxonomy text that inferred axioms say. */
    private static String taxonomy(OWLOntology ontology, OWLOntology inferred) {
        Map<String, SortedSet<String>> groups = new HashMap<>();
        Stream.concat(Stream.of(Texts.THING, Texts.NOTHING), ontology.classesInSignature(Imports.INCLUDED).map(Vocabularies::name)).forEach(it -> groups.put(it, group(Set.of(it))));
        inferred.axioms(AxiomType.EQUIVALENT_CLASSES).forEach(axiom -> {
            SortedSet<String> group = group(axiom.namedClasses().map(Vocabularies::name).collect(Collectors.toSet()));
            group.forEach(it -> groups.put(it, group));
        });
        Map<SortedSet<String>, SortedSet<String>> above = new HashMap<>();
        inferred.axioms(AxiomType.SUBCLASS_OF).forEach(axiom -> {
            SortedSet<String> to = groups.get(name(axiom.getSuperClass().asOWLClass()));
            above.computeIfAbsent(groups.get(name(axiom.getSubClass().asOWLClass())), it -> group(Set.of())).add(to.first());
        });
        StringBuilder text = new StringBuilder("eltax 1 consistent\n");
        SortedSet<String> bottom = groups.get(Texts.NOTHING);
        SortedMap<String, SortedSet<String>> ordered = new TreeMap<>(BY_BYTES);
        groups.values().stream().filter(it -> !it.equals(bottom)).forEach(it -> ordered.put(it.first(), it));
        for (SortedSet<String> group : ordered.values()) {
            text.append(listed(group, " = "));
            if (above.containsKey(group)) {
                text.append(" < ").append(listed(above.get(group), " , "));
            }
            text.append('\n');
        }
        return text.append("bottom ").append(listed(bottom, " = ")).append('\n').toString();
    }

    private static String name(OWLClass one) {
        return one.getIRI().toString();
    }

    private static SortedSet<String> group(Collection<String> names) {
        SortedSet<String> group = new TreeSet<>(BY_BYTES);
        group.addAll(names);
        return group;
    }

    private static String listed(Collection<String> names, String between) {
        return names.stream().map(it -> "<" + it + ">").collect(Collectors.joining(between));
    }
}
