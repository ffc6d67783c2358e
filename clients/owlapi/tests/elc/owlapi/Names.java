package elc.owlapi;

import java.nio.charset.StandardCharsets;
import java.nio.file.Files;
import java.nio.file.Path;
import java.util.*;
import java.util.stream.Collectors;
import org.semanticweb.owlapi.apibinding.OWLManager;
import org.semanticweb.owlapi.model.*;
import org.semanticweb.owlapi.reasoner.*;

/**
 * Names of any characters and lengths, names that the axioms do not have, what is left out, what is told of properties and data, imports,
 * and certificates.
 */
final class Names {
    private final String elc;
    private final Path folder;
    private final Judge judge = new Judge();
    private final OWLOntologyManager manager = OWLManager.createOWLOntologyManager();
    private final OWLDataFactory factory = manager.getOWLDataFactory();

    private Names(String elc, Path folder) {
        this.elc = elc;
        this.folder = folder;
    }

    static int status(String elc, Path folder) throws Exception {
        Names it = new Names(elc, folder);
        it.characters();
        it.fresh();
        it.leftOut();
        it.properties();
        it.individuals();
        it.annotated();
        it.imports();
        it.entailments();
        it.domains();
        it.threads(false);
        it.threads(true);
        return it.judge.end("names");
    }

    private OWLClass one(String name) {
        return factory.getOWLClass(IRI.create("x:" + name));
    }

    private OWLObjectProperty property(String name) {
        return factory.getOWLObjectProperty(IRI.create("x:" + name));
    }

    private OWLDataProperty data(String name) {
        return factory.getOWLDataProperty(IRI.create("x:" + name));
    }

    private OWLNamedIndividual individual(String name) {
        return factory.getOWLNamedIndividual(IRI.create("x:" + name));
    }

    private OWLClassExpression some(String property, OWLClassExpression filler) {
        return factory.getOWLObjectSomeValuesFrom(property(property), filler);
    }

    private OWLSubClassOfAxiom below(OWLClassExpression one, OWLClassExpression other) {
        return factory.getOWLSubClassOfAxiom(one, other);
    }

    private OWLOntology ontology(OWLAxiom... axioms) throws OWLOntologyCreationException {
        OWLOntology ontology = manager.createOntology();
        manager.addAxioms(ontology, Arrays.stream(axioms));
        return ontology;
    }

    private ElcReasoner reasoner(OWLOntology ontology) {
        return new ElcReasonerFactory(elc).createReasoner(ontology);
    }

    private Set<OWLClass> set(NodeSet<OWLClass> nodes) {
        return nodes.entities().collect(Collectors.toSet());
    }

    private void characters() throws Exception {
        List<OWLClass> names = new ArrayList<>();
        for (String name : List.of("\u0085", "\u2028\u2029", "(a)(", "a=b", "#", "%20", "a'b", "\u00e9\u6f22", "\ud83d\ude00", "a;b,c", "a&b", "a".repeat(3000), "b".repeat(9000), "\u6f22".repeat(1400))) {
            names.add(one(name));
        }
        OWLOntology ontology = ontology();
        for (int i = 0; i + 1 < names.size(); i++) {
            manager.addAxiom(ontology, below(names.get(i), names.get(i + 1)));
            manager.addAxiom(ontology, factory.getOWLClassAssertionAxiom(names.get(i), factory.getOWLNamedIndividual(names.get(i).getIRI())));
        }
        ElcReasoner it = reasoner(ontology);
        judge.same("left out", List.of(), it.leftOut());
        for (int i = 0; i < names.size(); i++) {
            String what = "name " + i;
            OWLClass name = names.get(i);
            Set<OWLClass> above = new HashSet<>(names.subList(i + 1, names.size()));
            above.add(factory.getOWLThing());
            Set<OWLClass> under = new HashSet<>(names.subList(0, i));
            under.add(factory.getOWLNothing());
            judge.same(what, above, set(it.getSuperClasses(name, false)));
            judge.same(what, under, set(it.getSubClasses(name, false)));
            judge.same(what, Set.of(i + 1 < names.size() ? names.get(i + 1) : factory.getOWLThing()), set(it.getSuperClasses(name, true)));
            judge.same(what, Set.of(i > 0 ? names.get(i - 1) : factory.getOWLNothing()), set(it.getSubClasses(name, true)));
            judge.same(what, Set.of(name), it.getEquivalentClasses(name).entities().collect(Collectors.toSet()));
            judge.same(what, Math.min(i + 1, names.size() - 1), (int) it.getInstances(name, false).entities().count());
            if (i + 1 < names.size()) {
                judge.same(what, Set.of(name), set(it.getTypes(factory.getOWLNamedIndividual(name.getIRI()), true)));
            }
        }
        certified("characters", it);
        it.dispose();
    }

    private void certified(String what, ElcReasoner it) throws Exception {
        Path to = folder.resolve("a proof of " + what);
        String printed = it.certify(to);
        judge.holds(what + ": " + printed, printed.contains("consistent classes "));
        List<String> command = new ArrayList<>(List.of(elc, "check"));
        for (String kind : List.of("ofn", "tax", "inst", "cert")) {
            command.add(to.resolve("document." + kind).toString());
        }
        Process check = new ProcessBuilder(command).start();
        judge.same(what, "accepted\n", new String(check.getInputStream().readAllBytes(), StandardCharsets.UTF_8));
    }

    private void fresh() throws Exception {
        OWLOntology ontology = ontology(
            below(some("r", factory.getOWLThing()), one("R")), below(some("r", one("A")), one("B")), below(one("C"), some("r", one("A"))),
            below(one("N"), factory.getOWLNothing()), factory.getOWLClassAssertionAxiom(one("C"), individual("c")));
        OWLClass fresh = one("Fresh");
        OWLOntology declared = ontology(ontology.axioms().toArray(OWLAxiom[]::new));
        manager.addAxiom(declared, factory.getOWLDeclarationAxiom(fresh));
        manager.addAxiom(declared, factory.getOWLDeclarationAxiom(property("fresh")));
        ElcReasoner it = reasoner(ontology);
        ElcReasoner other = reasoner(declared);
        List<OWLClassExpression> asked = List.of(
            some("r", fresh), some("fresh", one("A")), factory.getOWLObjectIntersectionOf(fresh, one("C")), factory.getOWLObjectIntersectionOf(fresh, factory.getOWLThing()),
            factory.getOWLObjectIntersectionOf(fresh, one("N")), some("r", factory.getOWLObjectIntersectionOf(fresh, one("A"))), some("fresh", fresh));
        for (OWLClassExpression expression : asked) {
            String what = "fresh " + expression;
            judge.same(what, without(fresh, set(other.getSuperClasses(expression, false))), set(it.getSuperClasses(expression, false)));
            judge.same(what, without(fresh, set(other.getSubClasses(expression, false))), set(it.getSubClasses(expression, false)));
            judge.same(what, other.isSatisfiable(expression), it.isSatisfiable(expression));
            judge.same(what, other.getInstances(expression, false), it.getInstances(expression, false));
            for (OWLAxiom axiom : List.of(below(expression, one("R")), below(expression, fresh), below(one("C"), expression), below(some("r", one("C")), expression), factory.getOWLClassAssertionAxiom(expression, individual("c")))) {
                judge.same(what + " in " + axiom, other.isEntailed(axiom), it.isEntailed(axiom));
            }
        }
        judge.same("fresh supers", Set.of(factory.getOWLThing()), set(it.getSuperClasses(fresh, true)));
        judge.same("fresh subs", Set.of(factory.getOWLNothing(), one("N")), set(it.getSubClasses(fresh, true)));
        judge.same("fresh disjoint", set(other.getDisjointClasses(factory.getOWLObjectIntersectionOf(fresh, one("C")))), set(it.getDisjointClasses(factory.getOWLObjectIntersectionOf(fresh, one("C")))));
        judge.same("fresh same", Set.of(fresh), it.getEquivalentClasses(fresh).entities().collect(Collectors.toSet()));
        judge.same("fresh instances", 0L, it.getInstances(fresh, false).entities().count());
        judge.same("fresh types", Set.of(factory.getOWLThing()), set(it.getTypes(individual("fresh"), true)));
        judge.same("nothing came to stay", false, set(it.getSubClasses(factory.getOWLThing(), false)).contains(fresh));
        it.dispose();
        other.dispose();
        ElcReasoner strict = new ElcReasonerFactory(elc).createReasoner(ontology, new SimpleConfiguration(new NullReasonerProgressMonitor(), FreshEntityPolicy.DISALLOW, 0, IndividualNodeSetPolicy.BY_NAME));
        judge.fails("fresh refused", FreshEntitiesException.class, () -> strict.getSuperClasses(fresh, true));
        judge.fails("fresh refused", FreshEntitiesException.class, () -> strict.getInstances(some("r", fresh), true));
        judge.fails("fresh refused", FreshEntitiesException.class, () -> strict.getTypes(individual("fresh"), true));
        judge.fails("fresh refused", FreshEntitiesException.class, () -> strict.isEntailed(below(fresh, one("A"))));
        judge.same("not fresh", Set.of(factory.getOWLThing()), set(strict.getSuperClasses(one("B"), true)));
        strict.dispose();
    }

    private static Set<OWLClass> without(OWLClass one, Set<OWLClass> classes) {
        Set<OWLClass> left = new HashSet<>(classes);
        left.remove(one);
        return left;
    }

    private void leftOut() throws Exception {
        OWLClassExpression deep = one("A");
        for (int i = 0; i < 63; i++) {
            deep = some("r", deep);
        }
        OWLClassExpression deeper = some("r", deep);
        List<OWLAxiom> out = List.of(
            below(one("A"), factory.getOWLObjectUnionOf(one("B"), one("C"))),
            below(one("A"), factory.getOWLObjectAllValuesFrom(property("r"), one("B"))),
            below(one("A"), deeper),
            below(one("A"), factory.getOWLClass(IRI.create("x:a b"))),
            below(one("A"), factory.getOWLClass(IRI.create("x:\ud83d"))),
            below(factory.getOWLClass(IRI.create("http://www.w3.org/2000/01/rdf-schema#Resource")), one("A")),
            factory.getOWLObjectPropertyRangeAxiom(property("r"), one("B")),
            factory.getOWLFunctionalObjectPropertyAxiom(property("r")),
            factory.getOWLInverseObjectPropertiesAxiom(property("r"), property("s")),
            factory.getOWLSubObjectPropertyOfAxiom(property("r"), factory.getOWLTopObjectProperty()),
            factory.getOWLSubDataPropertyOfAxiom(data("d"), data("e")),
            factory.getOWLDataPropertyAssertionAxiom(data("d"), individual("a"), 1),
            factory.getOWLClassAssertionAxiom(one("A"), factory.getOWLAnonymousIndividual()),
            factory.getOWLDisjointUnionAxiom(one("A"), java.util.stream.Stream.of(one("Only"), one("C"))));
        List<OWLAxiom> in = List.of(
            below(one("A"), one("B")), below(one("B"), deep), factory.getOWLDeclarationAxiom(data("d")), factory.getOWLDeclarationAxiom(one("D")),
            factory.getOWLAnnotationAssertionAxiom(factory.getRDFSLabel(), one("A").getIRI(), factory.getOWLLiteral("a")));
        OWLOntology ontology = ontology(in.toArray(OWLAxiom[]::new));
        manager.addAxioms(ontology, out.stream());
        ElcReasoner it = reasoner(ontology);
        judge.same("left out", new HashSet<>(out), new HashSet<>(it.leftOut()));
        judge.same("left out", out.size(), it.leftOut().size());
        judge.same("of the rest", Set.of(one("B"), factory.getOWLThing()), set(it.getSuperClasses(one("A"), false)));
        judge.same("a name in what is left out", Set.of(factory.getOWLThing()), set(it.getSuperClasses(one("Only"), false)));
        judge.holds("a name in what is left out", set(it.getSubClasses(factory.getOWLThing(), true)).contains(one("Only")));
        judge.same("the deepest", true, it.isEntailed(below(one("A"), deep)));
        OWLClassExpression tooDeep = deeper;
        judge.fails("too deep", ClassExpressionNotInProfileException.class, () -> it.getSuperClasses(tooDeep, true));
        judge.fails("a union", ClassExpressionNotInProfileException.class, () -> it.getSuperClasses(factory.getOWLObjectUnionOf(one("A"), one("B")), true));
        judge.fails("a union", ClassExpressionNotInProfileException.class, () -> it.isEntailed(out.get(0)));
        judge.same("the deepest in a list", false, it.isEntailed(factory.getOWLDisjointClassesAxiom(deep, one("A"))));
        judge.same("a longer chain than expressions are deep", false, it.isEntailed(factory.getOWLSubPropertyChainOfAxiom(Collections.nCopies(64, property("r")), property("s"))));
        judge.fails("a range", UnsupportedEntailmentTypeException.class, () -> it.isEntailed(out.get(6)));
        judge.fails("an anonymous individual", AxiomNotInProfileException.class, () -> it.isEntailed(out.get(12)));
        judge.same("supported", false, it.isEntailmentCheckingSupported(AxiomType.OBJECT_PROPERTY_RANGE));
        ontology.remove(out.get(0));
        judge.same("of what is pending none", out.size(), it.leftOut().size());
        it.flush();
        judge.same("left out", out.size() - 1, it.leftOut().size());
        certified("a part", it);
        it.dispose();
    }

    private void properties() throws Exception {
        OWLOntology ontology = ontology(
            factory.getOWLSubObjectPropertyOfAxiom(property("p"), property("q")), factory.getOWLSubObjectPropertyOfAxiom(property("q"), property("s")),
            factory.getOWLEquivalentObjectPropertiesAxiom(property("q"), property("t")), factory.getOWLInverseObjectPropertiesAxiom(property("p"), property("i")),
            factory.getOWLDisjointObjectPropertiesAxiom(property("q"), property("u")),
            factory.getOWLObjectPropertyDomainAxiom(property("s"), one("D")), below(one("D"), one("E")), factory.getOWLObjectPropertyRangeAxiom(property("q"), one("D")),
            factory.getOWLSubDataPropertyOfAxiom(data("d"), data("e")), factory.getOWLDataPropertyDomainAxiom(data("e"), one("D")),
            factory.getOWLObjectPropertyAssertionAxiom(property("p"), individual("a"), individual("b")), factory.getOWLDataPropertyAssertionAxiom(data("d"), individual("a"), 7));
        ElcReasoner it = reasoner(ontology);
        judge.same("super properties", Set.of(Set.of(property("q"), property("t"))), groups(it.getSuperObjectProperties(property("p"), true)));
        judge.same("super properties", Set.of(Set.of(property("q"), property("t")), Set.of(property("s")), Set.of(factory.getOWLTopObjectProperty())), groups(it.getSuperObjectProperties(property("p"), false)));
        judge.same("sub properties", Set.of(Set.of(property("q"), property("t"))), groups(it.getSubObjectProperties(property("s"), true)));
        judge.same("sub properties", Set.of(Set.of(factory.getOWLBottomObjectProperty())), groups(it.getSubObjectProperties(property("p"), true)));
        judge.same("roots", Set.of(Set.of(property("s")), Set.of(property("u")), Set.of(property("i"))), groups(it.getSubObjectProperties(factory.getOWLTopObjectProperty(), true)));
        judge.same("same property", Set.of(property("q"), property("t")), it.getEquivalentObjectProperties(property("t")).entities().collect(Collectors.toSet()));
        judge.same("inverse", Set.of(property("i")), it.getInverseObjectProperties(property("p")).entities().collect(Collectors.toSet()));
        judge.same("disjoint properties", Set.of(Set.of(property("u")), Set.of(factory.getOWLBottomObjectProperty())), groups(it.getDisjointObjectProperties(property("p"))));
        judge.same("top", true, it.getTopObjectPropertyNode().isTopNode());
        judge.same("bottom", true, it.getBottomObjectPropertyNode().isBottomNode());
        judge.same("domains", Set.of(one("D")), set(it.getObjectPropertyDomains(property("p"), true)));
        judge.same("domains", Set.of(one("D"), one("E"), factory.getOWLThing()), set(it.getObjectPropertyDomains(property("p"), false)));
        judge.same("ranges", Set.of(one("D")), set(it.getObjectPropertyRanges(property("p"), true)));
        judge.same("ranges", Set.of(factory.getOWLThing()), set(it.getObjectPropertyRanges(property("u"), true)));
        judge.same("domains of data", Set.of(one("D"), one("E"), factory.getOWLThing()), set(it.getDataPropertyDomains(data("d"), false)));
        judge.same("super data", Set.of(data("e"), factory.getOWLTopDataProperty()), it.getSuperDataProperties(data("d"), false).entities().collect(Collectors.toSet()));
        judge.same("sub data", Set.of(data("d")), it.getSubDataProperties(data("e"), true).entities().collect(Collectors.toSet()));
        judge.same("values", Set.of(individual("b")), it.getObjectPropertyValues(individual("a"), property("s")).entities().collect(Collectors.toSet()));
        judge.same("values of an inverse", Set.of(individual("a")), it.getObjectPropertyValues(individual("b"), property("i")).entities().collect(Collectors.toSet()));
        judge.same("data", Set.of(factory.getOWLLiteral(7)), it.getDataPropertyValues(individual("a"), data("e")));
        it.dispose();
    }

    private static Set<Set<OWLObjectPropertyExpression>> groups(NodeSet<OWLObjectPropertyExpression> nodes) {
        return nodes.nodes().map(it -> it.entities().collect(Collectors.toSet())).collect(Collectors.toSet());
    }

    private void individuals() throws Exception {
        OWLOntology ontology = ontology(
            factory.getOWLSameIndividualAxiom(individual("a"), individual("b")), factory.getOWLSameIndividualAxiom(individual("b"), individual("c")),
            factory.getOWLDifferentIndividualsAxiom(individual("c"), individual("d")), factory.getOWLClassAssertionAxiom(one("A"), individual("a")),
            factory.getOWLClassAssertionAxiom(one("B"), individual("e")), factory.getOWLDisjointClassesAxiom(one("A"), one("B")));
        ElcReasoner it = reasoner(ontology);
        Set<OWLNamedIndividual> group = Set.of(individual("a"), individual("b"), individual("c"));
        judge.same("one", group, it.getSameIndividuals(individual("b")).entities().collect(Collectors.toSet()));
        judge.same("different", Set.of(individual("d")), it.getDifferentIndividuals(individual("a")).entities().collect(Collectors.toSet()));
        judge.same("types", Set.of(one("A")), set(it.getTypes(individual("c"), true)));
        judge.same("by name", 3L, it.getInstances(one("A"), true).nodes().count());
        judge.same("that they are one", true, it.isEntailed(factory.getOWLSameIndividualAxiom(individual("a"), individual("c"))));
        judge.same("that they differ", true, it.isEntailed(factory.getOWLDifferentIndividualsAxiom(individual("b"), individual("e"))));
        judge.same("that they differ", false, it.isEntailed(factory.getOWLDifferentIndividualsAxiom(individual("d"), individual("e"))));
        judge.same("disjoint", Set.of(one("B"), factory.getOWLNothing()), set(it.getDisjointClasses(one("A"))));
        judge.same("disjoint", Set.of(one("A"), factory.getOWLNothing()), set(it.getDisjointClasses(factory.getOWLObjectIntersectionOf(one("B"), some("r", one("A"))))));
        judge.same("disjoint", Set.of(one("A"), one("B"), factory.getOWLNothing(), factory.getOWLThing()), set(it.getDisjointClasses(factory.getOWLNothing())));
        it.dispose();
        ElcReasoner grouped = new ElcReasonerFactory(elc).createReasoner(ontology, new SimpleConfiguration(new NullReasonerProgressMonitor(), FreshEntityPolicy.ALLOW, 0, IndividualNodeSetPolicy.BY_SAME_AS));
        judge.same("by what is one", Set.of(group), grouped.getInstances(one("A"), true).nodes().map(node -> node.entities().collect(Collectors.toSet())).collect(Collectors.toSet()));
        grouped.dispose();
    }

    /** An axiom that stands with two annotations is one; it goes with the last of them. */
    private void annotated() throws Exception {
        OWLAxiom bare = below(one("A"), one("B"));
        OWLAxiom first = bare.getAnnotatedAxiom(java.util.stream.Stream.of(factory.getRDFSComment("first")));
        OWLAxiom second = bare.getAnnotatedAxiom(java.util.stream.Stream.of(factory.getRDFSComment("second")));
        OWLOntology ontology = ontology(first, factory.getOWLDeclarationAxiom(one("A")), factory.getOWLDeclarationAxiom(one("B")));
        ElcReasoner it = reasoner(ontology);
        judge.same("annotated", true, it.isEntailed(bare));
        manager.addAxiom(ontology, second);
        judge.same("annotated", 1, it.getPendingChanges().size());
        judge.same("annotated", Set.of(), it.getPendingAxiomAdditions());
        ontology.remove(first);
        judge.same("annotated", Set.of(), it.getPendingAxiomRemovals());
        it.flush();
        judge.same("annotated", true, it.isEntailed(bare));
        ontology.remove(second);
        judge.same("annotated", Set.of(bare), it.getPendingAxiomRemovals());
        manager.addAxiom(ontology, second);
        judge.same("annotated", Set.of(), it.getPendingAxiomRemovals());
        ontology.remove(second);
        it.flush();
        judge.same("annotated", false, it.isEntailed(bare));
        it.dispose();
    }

    private void imports() throws Exception {
        OWLOntology imported = manager.createOntology(IRI.create("x:imported"));
        manager.addAxiom(imported, below(one("B"), one("C")));
        OWLOntology ontology = ontology(below(one("A"), one("B")));
        ElcReasoner it = reasoner(ontology);
        OWLAxiom asked = below(one("A"), one("C"));
        judge.same("imports", false, it.isEntailed(asked));
        OWLImportsDeclaration declaration = factory.getOWLImportsDeclaration(IRI.create("x:imported"));
        manager.applyChange(new AddImport(ontology, declaration));
        judge.same("imports", Set.of(below(one("B"), one("C"))), it.getPendingAxiomAdditions());
        it.flush();
        judge.same("imports", true, it.isEntailed(asked));
        manager.addAxiom(imported, below(one("C"), one("D")));
        it.flush();
        judge.same("imports", true, it.isEntailed(below(one("A"), one("D"))));
        manager.applyChange(new RemoveImport(ontology, declaration));
        it.flush();
        judge.same("imports", false, it.isEntailed(asked));
        it.dispose();
        Files.createDirectories(folder);
    }

    private void entailments() throws Exception {
        OWLOntology ontology = ontology(
            below(one("A"), some("r", one("B"))), below(one("B"), one("C")), factory.getOWLTransitiveObjectPropertyAxiom(property("t")), factory.getOWLSubObjectPropertyOfAxiom(property("r"), property("s")),
            factory.getOWLObjectPropertyDomainAxiom(property("e"), factory.getOWLNothing()), factory.getOWLReflexiveObjectPropertyAxiom(property("f")),
            factory.getOWLSubPropertyChainOfAxiom(List.of(property("r"), property("t")), property("u")),
            factory.getOWLObjectPropertyAssertionAxiom(property("r"), individual("a"), individual("b")), factory.getOWLObjectPropertyAssertionAxiom(property("t"), individual("b"), individual("c")),
            factory.getOWLNegativeObjectPropertyAssertionAxiom(property("s"), individual("b"), individual("a")));
        ElcReasoner it = reasoner(ontology);
        Map<OWLAxiom, Boolean> asked = new LinkedHashMap<>();
        asked.put(below(some("q", one("A")), some("q", some("s", one("C")))), true);
        asked.put(below(some("q", one("A")), some("q", some("t", one("C")))), false);
        asked.put(factory.getOWLSubObjectPropertyOfAxiom(property("e"), property("t")), true);
        asked.put(factory.getOWLSubObjectPropertyOfAxiom(property("s"), property("r")), false);
        asked.put(factory.getOWLTransitiveObjectPropertyAxiom(property("t")), true);
        asked.put(factory.getOWLTransitiveObjectPropertyAxiom(property("r")), false);
        asked.put(factory.getOWLReflexiveObjectPropertyAxiom(property("f")), true);
        asked.put(factory.getOWLReflexiveObjectPropertyAxiom(property("t")), false);
        asked.put(factory.getOWLSubPropertyChainOfAxiom(List.of(property("r"), property("t"), property("t")), property("u")), true);
        asked.put(factory.getOWLSubPropertyChainOfAxiom(List.of(property("t"), property("r")), property("u")), false);
        asked.put(factory.getOWLObjectPropertyAssertionAxiom(property("u"), individual("a"), individual("c")), true);
        asked.put(factory.getOWLObjectPropertyAssertionAxiom(property("u"), individual("c"), individual("a")), false);
        asked.put(factory.getOWLNegativeObjectPropertyAssertionAxiom(property("r"), individual("b"), individual("a")), true);
        asked.put(factory.getOWLNegativeObjectPropertyAssertionAxiom(property("r"), individual("a"), individual("a")), false);
        asked.put(factory.getOWLObjectPropertyDomainAxiom(property("e"), one("A")), true);
        asked.put(factory.getOWLEquivalentObjectPropertiesAxiom(property("r"), property("s")), false);
        OWLAnnotation label = factory.getRDFSLabel("a");
        judge.same("annotated", true, it.isEntailed(factory.getOWLTransitiveObjectPropertyAxiom(property("t"), Set.of(label))));
        for (OWLAxiom axiom : asked.keySet()) {
            if (axiom.signature().noneMatch(property("q")::equals)) {
                judge.same("entailed " + axiom, asked.get(axiom), it.isEntailed(axiom));
            }
        }
        judge.same("names that are there need one process", 1L, ProcessHandle.current().children().count());
        asked.put(factory.getOWLSubObjectPropertyOfAxiom(property("never"), property("seen")), false);
        asked.put(below(some("r", one("Never")), some("s", one("Never"))), true);
        asked.put(factory.getOWLSubObjectPropertyOfAxiom(property("never"), property("never")), true);
        List<OWLAxiom> order = new ArrayList<>(asked.keySet());
        for (int round = 0; round < 3; round++) {
            for (OWLAxiom axiom : order) {
                judge.same("entailed " + axiom, asked.get(axiom), it.isEntailed(axiom));
            }
            Collections.shuffle(order, new Random(round));
        }
        judge.same("a set", false, it.isEntailed(asked.keySet()));
        judge.same("none came to stay", Set.of(one("A"), one("B"), one("C"), factory.getOWLNothing()), set(it.getSubClasses(factory.getOWLThing(), false)));
        it.dispose();
    }

    private void domains() throws Exception {
        ElcReasoner it = reasoner(ontology(below(some("r", factory.getOWLThing()), one("A")), below(one("A"), one("B"))));
        judge.same("a domain that is told as a class", Set.of(one("A")), set(it.getObjectPropertyDomains(property("r"), true)));
        judge.same("of the top", Set.of(factory.getOWLThing()), set(it.getObjectPropertyDomains(factory.getOWLTopObjectProperty(), true)));
        it.dispose();
    }

    /** One thread changes what another one asks about, over a manager that locks. */
    private void threads(boolean buffers) throws Exception {
        OWLOntologyManager locking = OWLManager.createConcurrentOWLOntologyManager();
        OWLOntology ontology = locking.createOntology();
        for (int i = 0; i < 20; i++) {
            locking.addAxiom(ontology, below(one("T" + i), one("T" + (i + 1))));
        }
        OWLReasonerConfiguration strict = new SimpleConfiguration(new NullReasonerProgressMonitor(), FreshEntityPolicy.DISALLOW, 0, IndividualNodeSetPolicy.BY_NAME);
        ElcReasonerFactory made = new ElcReasonerFactory(elc);
        ElcReasoner it = buffers ? made.createReasoner(ontology, strict) : made.createNonBufferingReasoner(ontology, strict);
        Thread changing = new Thread(() -> {
            Random dice = new Random(1);
            for (int i = 0; i < 300; i++) {
                OWLAxiom axiom = below(one("T" + dice.nextInt(20)), one("T" + dice.nextInt(20)));
                if (i % 10 == 0) {
                    ontology.remove(axiom);
                } else {
                    ontology.add(axiom);
                }
                if (buffers && i % 3 == 0) {
                    it.flush();
                }
            }
        });
        changing.start();
        while (changing.isAlive()) {
            it.getSuperClasses(one("T3"), false);
            it.getPendingAxiomAdditions();
            judge.fails("threads", FreshEntitiesException.class, () -> it.getSuperClasses(one("Fresh"), true));
        }
        it.flush();
        ElcReasoner fresh = made.createReasoner(ontology);
        judge.same("threads", Documents.answers(fresh), Documents.answers(it));
        judge.same("threads", 0, it.getPendingChanges().size());
        fresh.dispose();
        it.dispose();
    }
}
