package elc.owlapi;

import java.util.*;
import java.util.stream.Collectors;
import java.util.stream.Stream;
import org.semanticweb.owlapi.model.*;

/**
 * What axioms tell of properties, data and which individuals are one or differ. Nothing is inferred but by the told hierarchies of
 * properties, inverses among them, and by the individuals that are told to be one.
 */
final class ToldOntology {
    final Told<OWLObjectPropertyExpression> objects;
    final Told<OWLDataProperty> data;
    private final Collection<OWLAxiom> axioms;
    private final Map<OWLNamedIndividual, Set<OWLNamedIndividual>> groups = new HashMap<>();

    ToldOntology(Collection<OWLAxiom> axioms, OWLDataFactory factory) {
        this.axioms = axioms;
        objects = new Told<>(factory.getOWLTopObjectProperty(), factory.getOWLBottomObjectProperty());
        data = new Told<>(factory.getOWLTopDataProperty(), factory.getOWLBottomDataProperty());
        axioms.forEach(this::tell);
    }

    private void tell(OWLAxiom axiom) {
        axiom.objectPropertiesInSignature().forEach(objects::has);
        axiom.dataPropertiesInSignature().forEach(data::has);
        if (axiom instanceof OWLSubObjectPropertyOfAxiom) {
            tell(((OWLSubObjectPropertyOfAxiom) axiom).getSubProperty(), ((OWLSubObjectPropertyOfAxiom) axiom).getSuperProperty());
        } else if (axiom instanceof OWLEquivalentObjectPropertiesAxiom) {
            ((OWLEquivalentObjectPropertiesAxiom) axiom).asSubObjectPropertyOfAxioms().forEach(this::tell);
        } else if (axiom instanceof OWLInverseObjectPropertiesAxiom) {
            OWLInverseObjectPropertiesAxiom it = (OWLInverseObjectPropertiesAxiom) axiom;
            tell(it.getFirstProperty(), it.getSecondProperty().getInverseProperty());
            tell(it.getSecondProperty().getInverseProperty(), it.getFirstProperty());
        } else if (axiom instanceof OWLSymmetricObjectPropertyAxiom) {
            OWLObjectPropertyExpression it = ((OWLSymmetricObjectPropertyAxiom) axiom).getProperty();
            tell(it, it.getInverseProperty());
        } else if (axiom instanceof OWLSubDataPropertyOfAxiom) {
            OWLSubDataPropertyOfAxiom it = (OWLSubDataPropertyOfAxiom) axiom;
            data.tell(it.getSubProperty().asOWLDataProperty(), it.getSuperProperty().asOWLDataProperty());
        } else if (axiom instanceof OWLEquivalentDataPropertiesAxiom) {
            ((OWLEquivalentDataPropertiesAxiom) axiom).asSubDataPropertyOfAxioms().forEach(this::tell);
        } else if (axiom instanceof OWLSameIndividualAxiom) {
            join(named(((OWLSameIndividualAxiom) axiom).individuals()));
        }
    }

    private void tell(OWLObjectPropertyExpression below, OWLObjectPropertyExpression above) {
        objects.tell(below, above);
        objects.tell(below.getInverseProperty(), above.getInverseProperty());
    }

    private static List<OWLNamedIndividual> named(Stream<OWLIndividual> individuals) {
        return individuals.filter(OWLIndividual::isNamed).map(OWLIndividual::asOWLNamedIndividual).collect(Collectors.toList());
    }

    private void join(List<OWLNamedIndividual> individuals) {
        Set<OWLNamedIndividual> group = new LinkedHashSet<>();
        individuals.forEach(it -> group.addAll(same(it)));
        group.forEach(it -> groups.put(it, group));
    }

    /** The individual and all that it is one with. */
    Set<OWLNamedIndividual> same(OWLNamedIndividual individual) {
        return groups.getOrDefault(individual, Set.of(individual));
    }

    /** The individuals that are told to differ from one of those that the individual is. */
    Set<OWLNamedIndividual> different(OWLNamedIndividual individual) {
        Set<OWLNamedIndividual> same = same(individual);
        Set<OWLNamedIndividual> found = new LinkedHashSet<>();
        of(OWLDifferentIndividualsAxiom.class).map(it -> named(it.individuals())).filter(it -> it.stream().anyMatch(same::contains)).forEach(listed -> {
            listed.stream().filter(it -> !same.contains(it)).forEach(it -> found.addAll(same(it)));
        });
        return found;
    }

    <A extends OWLAxiom> Stream<A> of(Class<A> kind) {
        return axioms.stream().filter(kind::isInstance).map(kind::cast);
    }

    /** The individuals to which a told pair of the property, or of one below it, leads. */
    Set<OWLNamedIndividual> values(OWLNamedIndividual individual, OWLObjectPropertyExpression property) {
        Set<OWLObjectPropertyExpression> below = objects.reached(property, false);
        Set<OWLNamedIndividual> same = same(individual);
        Set<OWLNamedIndividual> found = new LinkedHashSet<>();
        of(OWLObjectPropertyAssertionAxiom.class).filter(it -> it.getSubject().isNamed() && it.getObject().isNamed()).forEach(it -> {
            OWLNamedIndividual subject = it.getSubject().asOWLNamedIndividual();
            OWLNamedIndividual object = it.getObject().asOWLNamedIndividual();
            if (below.contains(it.getProperty()) && same.contains(subject)) {
                found.addAll(same(object));
            }
            if (below.contains(it.getProperty().getInverseProperty()) && same.contains(object)) {
                found.addAll(same(subject));
            }
        });
        return found;
    }

    /** The literals that are told of the individual by the property, or by one below it. */
    Set<OWLLiteral> values(OWLNamedIndividual individual, OWLDataProperty property) {
        Set<OWLDataProperty> below = data.reached(property, false);
        Set<OWLNamedIndividual> same = same(individual);
        return of(OWLDataPropertyAssertionAxiom.class)
            .filter(it -> it.getSubject().isNamed() && same.contains(it.getSubject().asOWLNamedIndividual()))
            .filter(it -> below.contains(it.getProperty().asOWLDataProperty()))
            .map(OWLDataPropertyAssertionAxiom::getObject)
            .collect(Collectors.toCollection(LinkedHashSet::new));
    }

    /** The properties that are told to be disjoint with the property or with one above it. */
    Set<OWLObjectPropertyExpression> disjoint(OWLObjectPropertyExpression property) {
        Set<OWLObjectPropertyExpression> above = objects.reached(property, true);
        Set<OWLObjectPropertyExpression> found = new LinkedHashSet<>();
        of(OWLDisjointObjectPropertiesAxiom.class).forEach(it -> apart(it.properties().collect(Collectors.toList()), above, objects, found));
        return found;
    }

    /** The same of data. */
    Set<OWLDataProperty> disjoint(OWLDataProperty property) {
        Set<OWLDataProperty> above = data.reached(property, true);
        Set<OWLDataProperty> found = new LinkedHashSet<>();
        of(OWLDisjointDataPropertiesAxiom.class).forEach(it -> {
            apart(it.properties().map(OWLDataPropertyExpression::asOWLDataProperty).collect(Collectors.toList()), above, data, found);
        });
        return found;
    }

    private static <E> void apart(List<E> listed, Set<E> above, Told<E> told, Set<E> found) {
        for (E one : listed) {
            if (above.contains(one)) {
                listed.stream().filter(other -> !other.equals(one)).forEach(other -> found.addAll(told.reached(other, false)));
            }
        }
    }

    /** The classes that are told to hold all ends of the property, or of one above it; also by a domain of an inverse. */
    List<OWLClassExpression> ranges(OWLObjectPropertyExpression property) {
        Set<OWLObjectPropertyExpression> above = objects.reached(property, true);
        return Stream.concat(
            of(OWLObjectPropertyRangeAxiom.class).filter(it -> above.contains(it.getProperty())).map(OWLObjectPropertyRangeAxiom::getRange),
            of(OWLObjectPropertyDomainAxiom.class).filter(it -> above.contains(it.getProperty().getInverseProperty())).map(OWLObjectPropertyDomainAxiom::getDomain)
        ).collect(Collectors.toList());
    }

    /** The classes that are told to hold all that have a value of the property, or of one above it. */
    List<OWLClassExpression> domains(OWLDataProperty property) {
        Set<OWLDataProperty> above = data.reached(property, true);
        return of(OWLDataPropertyDomainAxiom.class)
            .filter(it -> above.contains(it.getProperty().asOWLDataProperty()))
            .map(OWLDataPropertyDomainAxiom::getDomain)
            .collect(Collectors.toList());
    }
}
