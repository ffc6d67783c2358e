package elc.owlapi;

import java.io.IOException;
import java.io.UncheckedIOException;
import java.nio.file.Files;
import java.nio.file.Path;
import java.util.*;
import java.util.concurrent.locks.ReentrantLock;
import java.util.function.Function;
import java.util.function.Supplier;
import java.util.stream.Collectors;
import java.util.stream.Stream;
import org.semanticweb.owlapi.model.*;
import org.semanticweb.owlapi.reasoner.*;
import org.semanticweb.owlapi.reasoner.impl.*;
import org.semanticweb.owlapi.util.Version;

/**
 * A reasoner over processes of elc. Classes and individuals are what elc answers of the axioms of its profile; properties, data, and
 * which individuals are one or differ, are as they are told ({@link ToldOntology}). Logical axioms that are not of the profile are left
 * out; {@link #leftOut} names them. What holds without them holds with them; what does not hold without them may hold with them.
 *
 * <p>It goes by the axioms that the ontology and all that it imports had when it was made or last flushed. The first question starts the
 * process; additions are added to it by the next question, and after a removal the next question starts a new one. Questions of several
 * threads wait for one another.
 *
 * <p>Where the program is missing or ends by itself, where it refuses what it is asked, or where it reaches a limit, a question ends in a
 * {@link ReasonerInternalException}; where it takes longer than the configuration allows, in a {@link TimeOutException}; where it, or its
 * thread, is interrupted, in a {@link ReasonerInterruptedException}. No process is left behind, and the next question starts a new one.
 */
public class ElcReasoner extends PropertiesAsTold {
    static final String NAME = "elc";

    private final String program;
    private final OWLOntology root;
    private final OWLReasonerConfiguration configuration;
    private final BufferingMode mode;
    private final OWLOntologyChangeListener listener = this::changed;
    private final ReentrantLock lock = new ReentrantLock();
    private final Bounds bounds = new Bounds();
    private final Progress progress;
    private final Changes changes;

    // these are of the thread that has the lock
    private final Set<OWLAxiom> unsaid = new LinkedHashSet<>();
    private ElcSession session;
    private ElcSession second;
    private ToldOntology told;
    private boolean isDisposed;

    ElcReasoner(String program, OWLOntology root, OWLReasonerConfiguration configuration, BufferingMode mode) {
        super(root.getOWLOntologyManager().getOWLDataFactory());
        this.program = program;
        this.root = root;
        this.configuration = configuration;
        this.mode = mode;
        progress = new Progress(configuration.getProgressMonitor());
        changes = new Changes(root);
        root.getOWLOntologyManager().addOntologyChangeListener(listener);
    }

    // What it is

    @Override
    public String getReasonerName() {
        return NAME;
    }

    @Override
    public Version getReasonerVersion() {
        return new Version(1, 0, 0, 0);
    }

    @Override
    public BufferingMode getBufferingMode() {
        return mode;
    }

    @Override
    public OWLOntology getRootOntology() {
        return root;
    }

    @Override
    public long getTimeOut() {
        return configuration.getTimeOut();
    }

    @Override
    public FreshEntityPolicy getFreshEntityPolicy() {
        return configuration.getFreshEntityPolicy();
    }

    @Override
    public IndividualNodeSetPolicy getIndividualNodeSetPolicy() {
        return configuration.getIndividualNodeSetPolicy();
    }

    /** The logical axioms that are not of the profile, and are left out. Of what is pending none are told. */
    public List<OWLAxiom> leftOut() {
        return changes.axioms().stream().filter(OWLAxiom::isLogicalAxiom).filter(it -> ElcText.axiom(it).isEmpty()).collect(Collectors.toList());
    }

    // Changes

    private void changed(List<? extends OWLOntologyChange> changed) {
        changes.take(changed);
        if (mode == BufferingMode.NON_BUFFERING) {
            flush();
        }
    }

    @Override
    public List<OWLOntologyChange> getPendingChanges() {
        return changes.pending();
    }

    /** The axioms, without annotations, that a flush will add: logical ones, left out or not, and declarations. */
    @Override
    public Set<OWLAxiom> getPendingAxiomAdditions() {
        return changes.difference().added;
    }

    /** The axioms, without annotations, that a flush will remove. */
    @Override
    public Set<OWLAxiom> getPendingAxiomRemovals() {
        return changes.difference().removed;
    }

    /** Waits for no question: the next one finds what has changed. */
    @Override
    public void flush() {
        changes.flush();
    }

    /** Takes what was flushed since the last question. */
    private void catchUp() {
        for (Changes.Difference difference : changes.flushed()) {
            told = null;
            closeSecond();
            if (unsaid.containsAll(difference.removed)) {
                unsaid.removeAll(difference.removed);
            } else {
                close();
            }
            if (session != null) {
                unsaid.addAll(difference.added);
            }
        }
    }

    // Calls, and the processes that answer them

    /** What the question is answered with. All questions are asked through this. */
    private <T> T answered(Supplier<T> question) {
        lock.lock();
        try {
            if (isDisposed) {
                throw new ReasonerInternalException("the reasoner was disposed of");
            }
            if (lock.getHoldCount() == 1) {
                bounds.begin(configuration.getTimeOut());
                catchUp();
            }
            return question.get();
        } catch (ElcProcess.Refused refused) {
            throw new ReasonerInternalException("elc refuses with status " + refused.status + ": " + refused.getMessage(), refused);
        } catch (ElcProcess.Ended ended) {
            close();
            throw new ReasonerInternalException(ended.getMessage(), ended);
        } finally {
            lock.unlock();
        }
    }

    /** The session over the axioms, run to its end. */
    private ElcSession session() {
        if (session != null && !session.isUsable()) {
            close();
        }
        if (session == null) {
            unsaid.clear();
            session = working(ReasonerProgressMonitor.LOADING, () -> opened(changes.axioms()));
        } else if (!unsaid.isEmpty()) {
            working(ReasonerProgressMonitor.CLASSIFYING, () -> {
                session.add(unsaid);
                return session;
            });
            unsaid.clear();
        }
        return session;
    }

    private <T> T working(String task, Supplier<T> work) {
        progress.begin(task);
        try {
            return work.get();
        } finally {
            progress.end();
        }
    }

    private ElcSession opened(Collection<OWLAxiom> axioms) {
        try {
            return new ElcSession(program, axioms, factory, bounds, progress::told);
        } catch (IOException failure) {
            throw new ReasonerInternalException("cannot start " + program + ": " + failure.getMessage(), failure);
        }
    }

    /** The session, over axioms that do not contradict one another. */
    private ElcSession consistent() {
        ElcSession it = session();
        if (!it.isConsistent()) {
            throw new InconsistentOntologyException();
        }
        return it;
    }

    private ElcSession second() {
        if (second != null && !second.isUsable()) {
            closeSecond();
        }
        if (second == null) {
            second = opened(changes.axioms());
        }
        return second;
    }

    private void closeSecond() {
        if (second != null) {
            second.close();
            second = null;
        }
    }

    private void close() {
        closeSecond();
        if (session != null) {
            session.close();
            session = null;
        }
        unsaid.clear();
    }

    private ToldOntology told() {
        if (told == null) {
            told = new ToldOntology(changes.axioms(), factory);
        }
        return told;
    }

    @Override
    public void interrupt() {
        if (lock.isLocked()) {
            bounds.interrupt();
        }
    }

    /** Ends the processes. A call that is under way is interrupted; one that comes later ends in an exception. */
    @Override
    public void dispose() {
        root.getOWLOntologyManager().removeOntologyChangeListener(listener);
        interrupt();
        lock.lock();
        try {
            isDisposed = true;
            close();
        } finally {
            lock.unlock();
        }
    }

    @Override
    public void precomputeInferences(InferenceType... types) {
        answered(this::consistent);
    }

    @Override
    public boolean isPrecomputed(InferenceType type) {
        lock.lock();
        try {
            catchUp();
            return getPrecomputableInferenceTypes().contains(type) && session != null && session.isUsable() && unsaid.isEmpty();
        } finally {
            lock.unlock();
        }
    }

    /** All that one run finds out, and all that is told. */
    @Override
    public Set<InferenceType> getPrecomputableInferenceTypes() {
        return EnumSet.of(
            InferenceType.CLASS_HIERARCHY, InferenceType.CLASS_ASSERTIONS, InferenceType.SAME_INDIVIDUAL,
            InferenceType.OBJECT_PROPERTY_HIERARCHY, InferenceType.OBJECT_PROPERTY_ASSERTIONS,
            InferenceType.DATA_PROPERTY_HIERARCHY, InferenceType.DATA_PROPERTY_ASSERTIONS);
    }

    /**
     * Writes what proves the answers about classes and individuals into the folder, which is made where it is missing:
     * <code>document.ofn</code>, the axioms of the profile, and <code>document.tax</code>, <code>document.inst</code> and
     * <code>document.cert</code>, which <code>elc check</code> accepts for it. Of what is pending nothing is written.
     *
     * @return what <code>elc classify</code> prints, without the line feed
     * @throws IOException where the folder or the document cannot be written
     */
    public String certify(Path folder) throws IOException {
        Files.createDirectories(folder);
        Path document = folder.resolve("document.ofn");
        List<String> command = new ArrayList<>(List.of(program, "classify", document.toString()));
        Stream.of("document.tax", "document.inst", "document.cert").map(it -> folder.resolve(it).toString()).forEach(command::add);
        try {
            return answered(() -> {
                try {
                    ElcSession.writeDocument(changes.axioms(), document);
                    try (ElcProcess process = started(command)) {
                        String printed = process.rest().trim();
                        if (!printed.startsWith("consistent ") && !printed.startsWith("inconsistent ")) {
                            throw new ReasonerInternalException("elc prints " + printed);
                        }
                        return printed;
                    }
                } catch (IOException failure) {
                    throw new UncheckedIOException(failure);
                }
            });
        } catch (UncheckedIOException failure) {
            throw failure.getCause();
        }
    }

    private ElcProcess started(List<String> command) {
        try {
            return new ElcProcess(command, bounds, progress::told);
        } catch (IOException failure) {
            throw new ReasonerInternalException("cannot start " + program + ": " + failure.getMessage(), failure);
        }
    }

    // Names that the session does not have

    /** Refuses names that the axioms do not have, where the configuration says so. */
    private void demandKnown(ElcSession it, OWLObject asked) {
        if (getFreshEntityPolicy() == FreshEntityPolicy.ALLOW) {
            return;
        }
        Set<OWLEntity> fresh = asked.signature().filter(ElcReasoner::isAsked).filter(one -> !it.knows(one) && !one.isBuiltIn()).collect(Collectors.toSet());
        if (!fresh.isEmpty()) {
            changes.axioms().stream().flatMap(OWLAxiom::signature).forEach(fresh::remove);
        }
        if (!fresh.isEmpty()) {
            throw new FreshEntitiesException(fresh);
        }
    }

    private static boolean isAsked(OWLEntity entity) {
        return entity.isOWLClass() || entity.isOWLObjectProperty() || entity.isOWLNamedIndividual();
    }

    /**
     * What lies above, below and in the expression. Of classes that the session does not have nothing is told, so what holds of the
     * expression whatever they are holds above it where they are all things, and below it where they are nothing. Properties of which
     * nothing is told are declared.
     */
    private ElcReplies.Asked query(ElcSession it, OWLClassExpression expression) {
        Entailments.demandOfProfile(expression);
        demandKnown(it, expression);
        Set<OWLAxiom> properties = expression.objectPropertiesInSignature().filter(one -> !it.knows(one)).map(factory::getOWLDeclarationAxiom).collect(Collectors.toSet());
        it.add(properties);
        Set<OWLClass> fresh = expression.classesInSignature().filter(one -> !it.knows(one)).collect(Collectors.toSet());
        if (fresh.isEmpty()) {
            return it.query(expression);
        }
        ElcReplies.Asked below = it.query(with(fresh, factory.getOWLNothing(), expression));
        below.supers.clear();
        below.supers.addAll(it.query(with(fresh, factory.getOWLThing(), expression)).supers);
        return below;
    }

    private OWLClassExpression with(Set<OWLClass> fresh, OWLClass put, OWLClassExpression expression) {
        if (!expression.isAnonymous()) {
            return fresh.contains(expression.asOWLClass()) ? put : expression;
        }
        if (expression instanceof OWLObjectSomeValuesFrom) {
            OWLObjectSomeValuesFrom some = (OWLObjectSomeValuesFrom) expression;
            return factory.getOWLObjectSomeValuesFrom(some.getProperty(), with(fresh, put, some.getFiller()));
        }
        return factory.getOWLObjectIntersectionOf(((OWLObjectIntersectionOf) expression).operands().map(it -> with(fresh, put, it)));
    }

    /** Whether the expression is a name that the session does not have. */
    private boolean isFresh(ElcSession it, OWLClassExpression expression) {
        if (expression.isAnonymous() || it.knows(expression.asOWLClass())) {
            return false;
        }
        demandKnown(it, expression);
        return true;
    }

    // Classes

    private static NodeSet<OWLClass> nodeSet(Collection<Node<OWLClass>> nodes) {
        return new OWLClassNodeSet(new LinkedHashSet<>(nodes));
    }

    @Override
    public boolean isConsistent() {
        return answered(() -> session().isConsistent());
    }

    @Override
    public boolean isSatisfiable(OWLClassExpression expression) {
        return answered(() -> {
            ElcSession it = consistent();
            if (isFresh(it, expression)) {
                return true;
            }
            if (!expression.isAnonymous()) {
                return !it.node(factory.getOWLNothing()).contains(expression.asOWLClass());
            }
            return !query(it, expression).supers.contains(factory.getOWLNothing());
        });
    }

    @Override
    public Node<OWLClass> getUnsatisfiableClasses() {
        return answered(() -> consistent().node(factory.getOWLNothing()));
    }

    @Override
    public Node<OWLClass> getTopClassNode() {
        return answered(() -> session().node(factory.getOWLThing()));
    }

    @Override
    public Node<OWLClass> getBottomClassNode() {
        return answered(() -> session().node(factory.getOWLNothing()));
    }

    @Override
    public Node<OWLClass> getEquivalentClasses(OWLClassExpression expression) {
        return answered(() -> {
            ElcSession it = consistent();
            if (isFresh(it, expression)) {
                return new OWLClassNode(expression.asOWLClass());
            }
            return expression.isAnonymous() ? new OWLClassNode(ElcSession.same(query(it, expression))) : it.node(expression.asOWLClass());
        });
    }

    @Override
    public NodeSet<OWLClass> getSubClasses(OWLClassExpression expression, boolean direct) {
        return answered(() -> nodeSet(around(consistent(), expression, direct, false)));
    }

    @Override
    public NodeSet<OWLClass> getSuperClasses(OWLClassExpression expression, boolean direct) {
        return answered(() -> nodeSet(around(consistent(), expression, direct, true)));
    }

    private List<Node<OWLClass>> around(ElcSession it, OWLClassExpression expression, boolean direct, boolean above) {
        if (isFresh(it, expression)) {
            return List.of(it.node(above ? factory.getOWLThing() : factory.getOWLNothing()));
        }
        if (expression.isAnonymous()) {
            ElcReplies.Asked asked = query(it, expression);
            return direct ? it.direct(asked, above) : it.nodes(ElcSession.strict(asked, above));
        }
        OWLClass named = expression.asOWLClass();
        if (direct) {
            return above ? it.parents(named) : it.children(named);
        }
        Set<OWLClass> strict = above ? it.supers(named) : it.subs(named);
        it.node(named).entities().forEach(strict::remove);
        return it.nodes(strict);
    }

    /** Those of which elc answers that they have no element in common with the expression; it is asked about each class, from the top down. */
    @Override
    public NodeSet<OWLClass> getDisjointClasses(OWLClassExpression expression) {
        return answered(() -> {
            ElcSession it = consistent();
            if (isFresh(it, expression)) {
                return nodeSet(List.of(it.node(factory.getOWLNothing())));
            }
            boolean isSatisfiable = !query(it, expression).supers.contains(factory.getOWLNothing());
            Set<OWLClass> fresh = expression.classesInSignature().filter(one -> !it.knows(one)).collect(Collectors.toSet());
            return nodeSet(isSatisfiable ? it.disjoint(with(fresh, factory.getOWLThing(), expression)) : it.nodes(it.subs(factory.getOWLThing())));
        });
    }

    // Individuals

    private NodeSet<OWLNamedIndividual> individuals(Collection<OWLNamedIndividual> individuals) {
        OWLNamedIndividualNodeSet nodes = new OWLNamedIndividualNodeSet();
        for (OWLNamedIndividual one : individuals) {
            boolean alone = getIndividualNodeSetPolicy() == IndividualNodeSetPolicy.BY_NAME;
            nodes.addNode(new OWLNamedIndividualNode(alone ? Set.of(one) : told().same(one)));
        }
        return nodes;
    }

    @Override
    public NodeSet<OWLClass> getTypes(OWLNamedIndividual individual, boolean direct) {
        return answered(() -> {
            ElcSession it = consistent();
            demandKnown(it, individual);
            return nodeSet(it.knows(individual) ? it.types(individual, direct) : List.of(it.node(factory.getOWLThing())));
        });
    }

    @Override
    public NodeSet<OWLNamedIndividual> getInstances(OWLClassExpression expression, boolean direct) {
        return answered(() -> {
            ElcSession it = consistent();
            if (isFresh(it, expression)) {
                return individuals(Set.of());
            }
            Set<OWLNamedIndividual> all = expression.isAnonymous() ? query(it, expression).instances : it.instances(expression.asOWLClass());
            return individuals(direct ? it.directInstances(all, around(it, expression, true, false)) : all);
        });
    }

    @Override
    public Node<OWLNamedIndividual> getSameIndividuals(OWLNamedIndividual individual) {
        return answered(() -> {
            demandKnown(consistent(), individual);
            return new OWLNamedIndividualNode(told().same(individual));
        });
    }

    @Override
    public NodeSet<OWLNamedIndividual> getDifferentIndividuals(OWLNamedIndividual individual) {
        return answered(() -> {
            demandKnown(consistent(), individual);
            return individuals(told().different(individual));
        });
    }

    @Override
    public NodeSet<OWLNamedIndividual> getObjectPropertyValues(OWLNamedIndividual individual, OWLObjectPropertyExpression property) {
        return answered(() -> {
            demandKnown(consistent(), individual);
            return individuals(told().values(individual, property));
        });
    }

    @Override
    public Set<OWLLiteral> getDataPropertyValues(OWLNamedIndividual individual, OWLDataProperty property) {
        return answered(() -> {
            demandKnown(consistent(), individual);
            return told().values(individual, property);
        });
    }

    // Entailment

    @Override
    public boolean isEntailmentCheckingSupported(AxiomType<?> type) {
        return Entailments.isSupported(type);
    }

    @Override
    public boolean isEntailed(OWLAxiom axiom) {
        return answered(() -> {
            ElcSession it = consistent();
            Entailments.demandOfProfile(axiom);
            demandKnown(it, axiom);
            return new Entailments(factory, it, this::second, this::told).holds(axiom);
        });
    }

    @Override
    public boolean isEntailed(Set<? extends OWLAxiom> axioms) {
        return answered(() -> axioms.stream().allMatch(this::isEntailed));
    }

    // Classes of properties

    /** The least classes of all that the property leads from, by elc; of an inverse, the ranges of the property. */
    @Override
    public NodeSet<OWLClass> getObjectPropertyDomains(OWLObjectPropertyExpression property, boolean direct) {
        if (property.isAnonymous()) {
            return getObjectPropertyRanges(property.getInverseProperty(), direct);
        }
        return answered(() -> {
            ElcSession it = consistent();
            if (property.isOWLTopObjectProperty() || property.isOWLBottomObjectProperty()) {
                return nodeSet(List.of(it.node(property.isOWLTopObjectProperty() ? factory.getOWLThing() : factory.getOWLNothing())));
            }
            return nodeSet(above(it, List.of(factory.getOWLObjectSomeValuesFrom(property, factory.getOWLThing())), direct));
        });
    }

    /** The least classes that are told to hold all ends of the property; of an inverse, the domains of the property. */
    @Override
    public NodeSet<OWLClass> getObjectPropertyRanges(OWLObjectPropertyExpression property, boolean direct) {
        if (property.isAnonymous()) {
            return getObjectPropertyDomains(property.getInverseProperty(), direct);
        }
        return answered(() -> nodeSet(above(consistent(), told().ranges(property), direct)));
    }

    /** The classes that hold all of which each of the expressions is told, or the least of them: one of the profile says what is above it. */
    private List<Node<OWLClass>> above(ElcSession it, List<OWLClassExpression> expressions, boolean direct) {
        Set<OWLClass> all = new LinkedHashSet<>(Set.of(factory.getOWLThing()));
        for (OWLClassExpression one : expressions) {
            if (ElcText.expression(one).isPresent()) {
                all.addAll(query(it, one).supers);
            }
        }
        List<Node<OWLClass>> nodes = it.nodes(all);
        if (!direct) {
            return nodes;
        }
        Set<OWLClass> far = new HashSet<>();
        for (Node<OWLClass> node : nodes) {
            it.parents(node.getRepresentativeElement()).forEach(above -> above.entities().forEach(far::add));
        }
        return nodes.stream().filter(node -> !far.contains(node.getRepresentativeElement())).collect(Collectors.toList());
    }

    @Override
    public NodeSet<OWLClass> getDataPropertyDomains(OWLDataProperty property, boolean direct) {
        return answered(() -> nodeSet(above(consistent(), told().domains(property), direct)));
    }

    // What is told

    @Override
    <T> T toldOf(Function<ToldOntology, T> question) {
        return answered(() -> {
            consistent();
            return question.apply(told());
        });
    }
}
