package elc.owlapi;

import java.util.*;
import java.util.stream.Collectors;
import java.util.stream.Stream;
import org.semanticweb.owlapi.model.*;
import org.semanticweb.owlapi.model.parameters.AxiomAnnotations;
import org.semanticweb.owlapi.model.parameters.Imports;

/**
 * The axioms that a reasoner goes by, those of an ontology and all that it imports as they were at some time, and what has changed since.
 * Axioms are logical ones and declarations, without their annotations.
 */
final class Changes {
    /** More axioms than these are not looked up one by one. */
    private static final int FEW = 100;

    /** What has to be added and removed, so that the axioms are those of the ontology. */
    static final class Difference {
        final Set<OWLAxiom> added = new LinkedHashSet<>();
        final Set<OWLAxiom> removed = new LinkedHashSet<>();
    }

    private final OWLOntology root;
    private final Set<OWLAxiom> axioms;
    private final List<OWLOntologyChange> pending = new ArrayList<>();
    private final List<Difference> flushed = new ArrayList<>();
    // how many changes were taken and flushed
    private long taken;

    Changes(OWLOntology root) {
        this.root = root;
        axioms = now();
    }

    private Set<OWLAxiom> now() {
        return bare(root.importsClosure().flatMap(OWLOntology::axioms));
    }

    private static Set<OWLAxiom> bare(Stream<OWLAxiom> axioms) {
        return axioms.filter(Changes::says).map(Changes::bare).collect(Collectors.toCollection(LinkedHashSet::new));
    }

    /** The axiom without its annotations. */
    static OWLAxiom bare(OWLAxiom axiom) {
        return axiom.getAxiomWithoutAnnotations();
    }

    private static boolean says(OWLAxiom axiom) {
        return axiom.isLogicalAxiom() || axiom instanceof OWLDeclarationAxiom;
    }

    /** The axioms that the reasoner goes by. */
    synchronized List<OWLAxiom> axioms() {
        return new ArrayList<>(axioms);
    }

    /** Takes changes of any ontologies. */
    void take(List<? extends OWLOntologyChange> changes) {
        Set<OWLOntology> closure = root.importsClosure().collect(Collectors.toSet());
        synchronized (this) {
            changes.stream().filter(it -> closure.contains(it.getOntology())).forEach(pending::add);
        }
    }

    /** The changes of the ontology and of all that it imports that were taken since the last flush. */
    synchronized List<OWLOntologyChange> pending() {
        return new ArrayList<>(pending);
    }

    /** What these come to. */
    Difference difference() {
        Look look = new Look();
        synchronized (this) {
            return look.difference();
        }
    }

    /** From now on the axioms are those of the ontology as it is now. */
    void flush() {
        Look look = new Look();
        synchronized (this) {
            int seen = (int) (look.end - taken);
            if (seen <= 0) {
                return;
            }
            Difference it = look.difference();
            axioms.removeAll(it.removed);
            axioms.addAll(it.added);
            pending.subList(0, seen).clear();
            taken += seen;
            flushed.add(it);
        }
    }

    /** What the flushes since this was asked last have added and removed, in their order. */
    synchronized List<Difference> flushed() {
        List<Difference> all = new ArrayList<>(flushed);
        flushed.clear();
        return all;
    }

    /**
     * A look at what changes have made of the ontology. It reads the ontology without the lock of this, since who changes the ontology may
     * have the lock of that, and then takes this one.
     */
    private final class Look {
        final long end;
        private final Set<OWLAxiom> touched;
        private final Set<OWLAxiom> now;
        private final boolean isWhole;

        Look() {
            List<OWLOntologyChange> seen;
            synchronized (Changes.this) {
                seen = pending();
                end = taken + seen.size();
            }
            touched = bare(seen.stream().filter(OWLOntologyChange::isAxiomChange).map(OWLOntologyChange::getAxiom));
            isWhole = touched.size() > FEW || seen.stream().anyMatch(OWLOntologyChange::isImportChange);
            now = isWhole ? now() : bare(touched.stream().filter(Changes.this::isThere));
        }

        Difference difference() {
            Difference it = new Difference();
            now.stream().filter(axiom -> !axioms.contains(axiom)).forEach(it.added::add);
            Stream<OWLAxiom> before = isWhole ? axioms.stream() : touched.stream().filter(axioms::contains);
            before.filter(axiom -> !now.contains(axiom)).forEach(it.removed::add);
            return it;
        }
    }

    private boolean isThere(OWLAxiom axiom) {
        return root.containsAxiom(axiom, Imports.INCLUDED, AxiomAnnotations.IGNORE_AXIOM_ANNOTATIONS);
    }
}
