package elc.owlapi;

import java.util.*;
import java.util.function.BiFunction;
import java.util.function.Supplier;
import java.util.stream.Collectors;
import java.util.stream.IntStream;
import java.util.stream.Stream;
import org.semanticweb.owlapi.model.*;
import org.semanticweb.owlapi.reasoner.AxiomNotInProfileException;
import org.semanticweb.owlapi.reasoner.ClassExpressionNotInProfileException;
import org.semanticweb.owlapi.reasoner.UnsupportedEntailmentTypeException;

/**
 * Whether an axiom of the profile follows from axioms that do not contradict one another.
 *
 * <p>The session of the reasoner is asked, where it has all names of the axiom. A name that it lacks may mean anything, so a second
 * session over the same axioms is asked, to which such names are declared: that says nothing about others.
 */
final class Entailments {
    static final IRI PROFILE = IRI.create("http://www.w3.org/ns/owl-profile/EL");

    private static final Set<AxiomType<?>> SUPPORTED = Set.of(
        AxiomType.SUBCLASS_OF, AxiomType.EQUIVALENT_CLASSES, AxiomType.DISJOINT_CLASSES, AxiomType.CLASS_ASSERTION,
        AxiomType.OBJECT_PROPERTY_ASSERTION, AxiomType.NEGATIVE_OBJECT_PROPERTY_ASSERTION, AxiomType.SAME_INDIVIDUAL,
        AxiomType.DIFFERENT_INDIVIDUALS, AxiomType.SUB_OBJECT_PROPERTY, AxiomType.SUB_PROPERTY_CHAIN_OF,
        AxiomType.EQUIVALENT_OBJECT_PROPERTIES, AxiomType.OBJECT_PROPERTY_DOMAIN, AxiomType.TRANSITIVE_OBJECT_PROPERTY,
        AxiomType.REFLEXIVE_OBJECT_PROPERTY);

    private final OWLDataFactory factory;
    private final ElcSession session;
    private final Supplier<ElcSession> second;
    private final Supplier<ToldOntology> told;

    /**
     * @param session has the axioms
     * @param second gives a session with these, and with names that were declared for other questions
     */
    Entailments(OWLDataFactory factory, ElcSession session, Supplier<ElcSession> second, Supplier<ToldOntology> told) {
        this.factory = factory;
        this.session = session;
        this.second = second;
        this.told = told;
    }

    static boolean isSupported(AxiomType<?> type) {
        return SUPPORTED.contains(type);
    }

    /** Refuses an axiom about which nothing can be asked. */
    static void demandOfProfile(OWLAxiom axiom) {
        if (!isSupported(axiom.getAxiomType())) {
            throw new UnsupportedEntailmentTypeException(axiom);
        }
        axiom.nestedClassExpressions().forEach(Entailments::demandOfProfile);
        if (!isTrivial(axiom) && ElcText.axiom(axiom).isEmpty()) {
            throw new AxiomNotInProfileException(axiom, PROFILE);
        }
    }

    /** Refuses an expression that cannot be asked about. */
    static void demandOfProfile(OWLClassExpression expression) {
        if (ElcText.expression(expression).isEmpty()) {
            throw new ClassExpressionNotInProfileException(expression, PROFILE);
        }
    }

    private static boolean isTrivial(OWLAxiom axiom) {
        return axiom instanceof OWLEquivalentClassesAxiom && ((OWLEquivalentClassesAxiom) axiom).classExpressions().distinct().count() < 2
            || axiom instanceof OWLEquivalentObjectPropertiesAxiom && ((OWLEquivalentObjectPropertiesAxiom) axiom).properties().distinct().count() < 2
            || axiom instanceof OWLSameIndividualAxiom && ((OWLSameIndividualAxiom) axiom).individuals().distinct().count() < 2;
    }

    /** Whether the axiom follows, which is of the profile. */
    boolean holds(OWLAxiom axiom) {
        if (isTrivial(axiom)) {
            return true;
        }
        if (axiom instanceof OWLSameIndividualAxiom) {
            // in the profile two individuals are one only where that is told
            List<OWLIndividual> listed = ((OWLSameIndividualAxiom) axiom).individuals().collect(Collectors.toList());
            return told.get().same(listed.get(0).asOWLNamedIndividual()).containsAll(listed);
        }
        return parts(axiom).allMatch(this::follows);
    }

    /** What the axiom says: of things that are the same, that each lies below the next one, and the last below the first. */
    private Stream<OWLAxiom> parts(OWLAxiom axiom) {
        if (axiom instanceof OWLEquivalentClassesAxiom) {
            return inTurn(((OWLEquivalentClassesAxiom) axiom).classExpressions(), factory::getOWLSubClassOfAxiom);
        }
        if (axiom instanceof OWLEquivalentObjectPropertiesAxiom) {
            return inTurn(((OWLEquivalentObjectPropertiesAxiom) axiom).properties(), factory::getOWLSubObjectPropertyOfAxiom);
        }
        return Stream.of(axiom);
    }

    private static <T> Stream<OWLAxiom> inTurn(Stream<T> operands, BiFunction<T, T, OWLAxiom> below) {
        List<T> listed = operands.collect(Collectors.toList());
        return IntStream.range(0, listed.size()).mapToObj(i -> below.apply(listed.get(i), listed.get((i + 1) % listed.size())));
    }

    private boolean follows(OWLAxiom axiom) {
        ElcText.Said said = ElcText.axiom(axiom).orElseThrow(() -> new AxiomNotInProfileException(axiom, PROFILE));
        ElcSession asked = over(said.names);
        if (axiom instanceof OWLSubClassOfAxiom) {
            OWLSubClassOfAxiom it = (OWLSubClassOfAxiom) axiom;
            if (it.getSubClass().isOWLClass() && it.getSuperClass().isOWLClass()) {
                return asked.supers(it.getSubClass().asOWLClass()).contains(it.getSuperClass().asOWLClass());
            }
        } else if (axiom instanceof OWLClassAssertionAxiom) {
            OWLClassAssertionAxiom it = (OWLClassAssertionAxiom) axiom;
            if (it.getClassExpression().isOWLClass()) {
                return asked.instances(it.getClassExpression().asOWLClass()).contains(it.getIndividual().asOWLNamedIndividual());
            }
        }
        return asked.entails(said.text);
    }

    /** The session of the reasoner where it has the names, or else the second one, to which they are declared. */
    private ElcSession over(List<OWLEntity> names) {
        if (names.stream().allMatch(session::knows)) {
            return session;
        }
        ElcSession asked = second.get();
        asked.add(names.stream().filter(it -> !asked.knows(it)).map(factory::getOWLDeclarationAxiom).collect(Collectors.toList()));
        return asked;
    }
}
