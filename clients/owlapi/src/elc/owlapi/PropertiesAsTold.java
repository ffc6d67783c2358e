package elc.owlapi;

import java.util.Collection;
import java.util.Set;
import java.util.function.Function;
import java.util.stream.Stream;
import org.semanticweb.owlapi.model.*;
import org.semanticweb.owlapi.reasoner.*;
import org.semanticweb.owlapi.reasoner.impl.*;

/** The part of a reasoner that answers about properties, all by what is told of them. */
abstract class PropertiesAsTold implements OWLReasoner {
    final OWLDataFactory factory;

    PropertiesAsTold(OWLDataFactory factory) {
        this.factory = factory;
    }

    /** What a question about what is told is answered with, where the axioms do not contradict one another. */
    abstract <T> T toldOf(Function<ToldOntology, T> question);

    // Object properties

    private static OWLObjectPropertyNode node(Stream<OWLObjectPropertyExpression> properties) {
        return new OWLObjectPropertyNode(properties.filter(it -> !it.isAnonymous()));
    }

    private static NodeSet<OWLObjectPropertyExpression> nodes(Collection<Set<OWLObjectPropertyExpression>> groups) {
        OWLObjectPropertyNodeSet nodes = new OWLObjectPropertyNodeSet();
        groups.forEach(it -> nodes.addNode(new OWLObjectPropertyNode(it)));
        return nodes;
    }

    @Override
    public Node<OWLObjectPropertyExpression> getTopObjectPropertyNode() {
        return getEquivalentObjectProperties(factory.getOWLTopObjectProperty());
    }

    @Override
    public Node<OWLObjectPropertyExpression> getBottomObjectPropertyNode() {
        return getEquivalentObjectProperties(factory.getOWLBottomObjectProperty());
    }

    @Override
    public NodeSet<OWLObjectPropertyExpression> getSubObjectProperties(OWLObjectPropertyExpression property, boolean direct) {
        return toldOf(it -> nodes(it.objects.groups(property, false, direct, one -> !one.isAnonymous())));
    }

    @Override
    public NodeSet<OWLObjectPropertyExpression> getSuperObjectProperties(OWLObjectPropertyExpression property, boolean direct) {
        return toldOf(it -> nodes(it.objects.groups(property, true, direct, one -> !one.isAnonymous())));
    }

    @Override
    public Node<OWLObjectPropertyExpression> getEquivalentObjectProperties(OWLObjectPropertyExpression property) {
        return toldOf(it -> node(it.objects.same(property).stream()));
    }

    @Override
    public NodeSet<OWLObjectPropertyExpression> getDisjointObjectProperties(OWLObjectPropertyExpression property) {
        return toldOf(it -> {
            OWLObjectPropertyNodeSet nodes = new OWLObjectPropertyNodeSet();
            it.disjoint(property).stream().filter(one -> !one.isAnonymous()).forEach(one -> nodes.addNode(node(it.objects.same(one).stream())));
            nodes.addNode(node(it.objects.same(factory.getOWLBottomObjectProperty()).stream()));
            return nodes;
        });
    }

    @Override
    public Node<OWLObjectPropertyExpression> getInverseObjectProperties(OWLObjectPropertyExpression property) {
        return toldOf(it -> node(it.objects.same(property.getInverseProperty()).stream()));
    }

    // Data

    private static NodeSet<OWLDataProperty> dataNodes(Collection<Set<OWLDataProperty>> groups) {
        OWLDataPropertyNodeSet nodes = new OWLDataPropertyNodeSet();
        groups.forEach(it -> nodes.addNode(new OWLDataPropertyNode(it)));
        return nodes;
    }

    @Override
    public Node<OWLDataProperty> getTopDataPropertyNode() {
        return getEquivalentDataProperties(factory.getOWLTopDataProperty());
    }

    @Override
    public Node<OWLDataProperty> getBottomDataPropertyNode() {
        return getEquivalentDataProperties(factory.getOWLBottomDataProperty());
    }

    @Override
    public NodeSet<OWLDataProperty> getSubDataProperties(OWLDataProperty property, boolean direct) {
        return toldOf(it -> dataNodes(it.data.groups(property, false, direct, one -> true)));
    }

    @Override
    public NodeSet<OWLDataProperty> getSuperDataProperties(OWLDataProperty property, boolean direct) {
        return toldOf(it -> dataNodes(it.data.groups(property, true, direct, one -> true)));
    }

    @Override
    public Node<OWLDataProperty> getEquivalentDataProperties(OWLDataProperty property) {
        return toldOf(it -> new OWLDataPropertyNode(it.data.same(property)));
    }

    @Override
    public NodeSet<OWLDataProperty> getDisjointDataProperties(OWLDataPropertyExpression property) {
        return toldOf(it -> {
            OWLDataPropertyNodeSet nodes = new OWLDataPropertyNodeSet();
            it.disjoint(property.asOWLDataProperty()).forEach(one -> nodes.addNode(new OWLDataPropertyNode(it.data.same(one))));
            nodes.addNode(new OWLDataPropertyNode(it.data.same(factory.getOWLBottomDataProperty())));
            return nodes;
        });
    }
}
