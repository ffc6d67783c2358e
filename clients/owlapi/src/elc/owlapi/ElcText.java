package elc.owlapi;

import java.util.ArrayList;
import java.util.List;
import java.util.Optional;
import java.util.function.Function;
import java.util.stream.Collectors;
import java.util.stream.Stream;
import org.semanticweb.owlapi.model.*;

/**
 * Axioms, declarations and class expressions as elc reads them: in the functional syntax with full IRIs, without annotations. Each is of
 * the profile and has a text, or is not and has none; a name that elc does not take, since it is reserved or since its characters may not
 * stand in an IRI, is not of the profile.
 */
final class ElcText {
    /** How many parentheses may be open in an expression. */
    private static final int ROOM = 63;

    private static final List<String> RESERVED = List.of(
        "http://www.w3.org/1999/02/22-rdf-syntax-ns#",
        "http://www.w3.org/2000/01/rdf-schema#",
        "http://www.w3.org/2001/XMLSchema#",
        "http://www.w3.org/2002/07/owl#");

    private static final class NotOfProfile extends RuntimeException {
        private static final long serialVersionUID = 1L;

        NotOfProfile() {
            super(null, null, false, false);
        }
    }

    /** A text, and the names in it. */
    static final class Said {
        final String text;
        final List<OWLEntity> names;

        Said(String text, List<OWLEntity> names) {
            this.text = text;
            this.names = names;
        }
    }

    private final List<OWLEntity> names = new ArrayList<>();

    private ElcText() {}

    /** The text of a logical axiom or of a declaration, where it is of the profile. */
    static Optional<Said> axiom(OWLAxiom axiom) {
        return said(it -> it.statement(axiom));
    }

    /** The text of a class expression, where it is of the profile. */
    static Optional<Said> expression(OWLClassExpression expression) {
        return said(it -> it.operand(expression));
    }

    /** The declaration of a class, an object property or an individual, where its name can be said; there is none of other entities. */
    static Optional<Said> declaration(OWLEntity entity) {
        return said(it -> it.declared(entity));
    }

    private static Optional<Said> said(Function<ElcText, String> read) {
        ElcText it = new ElcText();
        try {
            return Optional.of(new Said(read.apply(it), it.names));
        } catch (NotOfProfile fault) {
            return Optional.empty();
        }
    }

    /** The text of the IRI, where it is one that elc reads. */
    private static String iri(HasIRI named) {
        String text = named.getIRI().toString();
        boolean isRead = !text.isEmpty();
        for (int i = 0, sign; isRead && i < text.length(); i += Character.charCount(sign)) {
            sign = text.codePointAt(i);
            isRead = mayStand(sign);
        }
        if (!isRead) {
            throw new NotOfProfile();
        }
        return text;
    }

    private static boolean mayStand(int sign) {
        return sign > 0x20 && "<>\"{}|^`\\".indexOf(sign) < 0 && (sign < Character.MIN_SURROGATE || sign > Character.MAX_SURROGATE);
    }

    private String name(OWLEntity named) {
        String text = iri(named);
        for (String reserved : RESERVED) {
            if (text.startsWith(reserved)) {
                throw new NotOfProfile();
            }
        }
        names.add(named);
        return "<" + text + ">";
    }

    private String name(OWLClass named) {
        if (named.isOWLThing() || named.isOWLNothing()) {
            names.add(named);
            return "<" + named.getIRI() + ">";
        }
        return name((OWLEntity) named);
    }

    private String name(OWLObjectPropertyExpression property) {
        if (property.isAnonymous()) {
            throw new NotOfProfile();
        }
        return name((OWLEntity) property.asOWLObjectProperty());
    }

    private String name(OWLIndividual individual) {
        if (individual.isAnonymous()) {
            throw new NotOfProfile();
        }
        return name((OWLEntity) individual.asOWLNamedIndividual());
    }

    private String expression(OWLClassExpression expression, int room) {
        if (expression instanceof OWLClass) {
            return name((OWLClass) expression);
        }
        if (room > 0 && expression instanceof OWLObjectSomeValuesFrom) {
            OWLObjectSomeValuesFrom some = (OWLObjectSomeValuesFrom) expression;
            return form("ObjectSomeValuesFrom", name(some.getProperty()), expression(some.getFiller(), room - 1));
        }
        if (room > 0 && expression instanceof OWLObjectIntersectionOf) {
            List<String> operands = texts(((OWLObjectIntersectionOf) expression).operands().map(it -> expression(it, room - 1)));
            return operands.size() == 1 ? operands.get(0) : list("ObjectIntersectionOf", operands);
        }
        throw new NotOfProfile();
    }

    private String operand(OWLClassExpression expression) {
        return expression(expression, ROOM);
    }

    private static List<String> texts(Stream<String> operands) {
        return operands.distinct().collect(Collectors.toList());
    }

    private static String form(String keyword, String... operands) {
        return keyword + "(" + String.join(" ", operands) + ")";
    }

    /** A form of operands of which no two are equal: there have to be two. */
    private static String list(String keyword, List<String> operands) {
        if (operands.size() < 2) {
            throw new NotOfProfile();
        }
        return keyword + "(" + String.join(" ", operands) + ")";
    }

    /** What says that all are the same: of one alone, that it lies below itself, which says nothing but its names. */
    private static String equivalents(String keyword, String below, List<String> operands) {
        return operands.size() == 1 ? form(below, operands.get(0), operands.get(0)) : list(keyword, operands);
    }

    private String declared(OWLEntity entity) {
        if (entity.isOWLClass()) {
            return form("Declaration", form("Class", name(entity.asOWLClass())));
        }
        if (entity.isOWLObjectProperty()) {
            return form("Declaration", form("ObjectProperty", name(entity)));
        }
        if (entity.isOWLNamedIndividual()) {
            return form("Declaration", form("NamedIndividual", name(entity)));
        }
        throw new NotOfProfile();
    }

    private String statement(OWLAxiom axiom) {
        if (axiom instanceof OWLDeclarationAxiom) {
            return declared(((OWLDeclarationAxiom) axiom).getEntity());
        }
        if (axiom instanceof OWLSubClassOfAxiom) {
            OWLSubClassOfAxiom it = (OWLSubClassOfAxiom) axiom;
            return form("SubClassOf", operand(it.getSubClass()), operand(it.getSuperClass()));
        }
        if (axiom instanceof OWLEquivalentClassesAxiom) {
            return equivalents("EquivalentClasses", "SubClassOf", texts(((OWLEquivalentClassesAxiom) axiom).classExpressions().map(this::operand)));
        }
        if (axiom instanceof OWLDisjointClassesAxiom) {
            return list("DisjointClasses", texts(((OWLDisjointClassesAxiom) axiom).classExpressions().map(this::operand)));
        }
        if (axiom instanceof OWLClassAssertionAxiom) {
            OWLClassAssertionAxiom it = (OWLClassAssertionAxiom) axiom;
            return form("ClassAssertion", operand(it.getClassExpression()), name(it.getIndividual()));
        }
        if (axiom instanceof OWLSameIndividualAxiom) {
            return list("SameIndividual", texts(((OWLSameIndividualAxiom) axiom).individuals().map(this::name)));
        }
        if (axiom instanceof OWLDifferentIndividualsAxiom) {
            return list("DifferentIndividuals", texts(((OWLDifferentIndividualsAxiom) axiom).individuals().map(this::name)));
        }
        if (axiom instanceof OWLObjectPropertyAssertionAxiom) {
            OWLObjectPropertyAssertionAxiom it = (OWLObjectPropertyAssertionAxiom) axiom;
            return form("ObjectPropertyAssertion", name(it.getProperty()), name(it.getSubject()), name(it.getObject()));
        }
        if (axiom instanceof OWLNegativeObjectPropertyAssertionAxiom) {
            OWLNegativeObjectPropertyAssertionAxiom it = (OWLNegativeObjectPropertyAssertionAxiom) axiom;
            return form("NegativeObjectPropertyAssertion", name(it.getProperty()), name(it.getSubject()), name(it.getObject()));
        }
        return propertyStatement(axiom);
    }

    private String propertyStatement(OWLAxiom axiom) {
        if (axiom instanceof OWLSubObjectPropertyOfAxiom) {
            OWLSubObjectPropertyOfAxiom it = (OWLSubObjectPropertyOfAxiom) axiom;
            return form("SubObjectPropertyOf", name(it.getSubProperty()), name(it.getSuperProperty()));
        }
        if (axiom instanceof OWLSubPropertyChainOfAxiom) {
            OWLSubPropertyChainOfAxiom it = (OWLSubPropertyChainOfAxiom) axiom;
            List<String> chain = it.getPropertyChain().stream().map(this::name).collect(Collectors.toList());
            return form("SubObjectPropertyOf", chain.size() == 1 ? chain.get(0) : list("ObjectPropertyChain", chain), name(it.getSuperProperty()));
        }
        if (axiom instanceof OWLEquivalentObjectPropertiesAxiom) {
            return equivalents("EquivalentObjectProperties", "SubObjectPropertyOf", texts(((OWLEquivalentObjectPropertiesAxiom) axiom).properties().map(this::name)));
        }
        if (axiom instanceof OWLObjectPropertyDomainAxiom) {
            OWLObjectPropertyDomainAxiom it = (OWLObjectPropertyDomainAxiom) axiom;
            return form("ObjectPropertyDomain", name(it.getProperty()), operand(it.getDomain()));
        }
        if (axiom instanceof OWLTransitiveObjectPropertyAxiom) {
            return form("TransitiveObjectProperty", name(((OWLTransitiveObjectPropertyAxiom) axiom).getProperty()));
        }
        if (axiom instanceof OWLReflexiveObjectPropertyAxiom) {
            return form("ReflexiveObjectProperty", name(((OWLReflexiveObjectPropertyAxiom) axiom).getProperty()));
        }
        throw new NotOfProfile();
    }
}
