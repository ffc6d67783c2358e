package elc.owlapi;

import org.semanticweb.owlapi.model.OWLOntology;
import org.semanticweb.owlapi.reasoner.BufferingMode;
import org.semanticweb.owlapi.reasoner.OWLReasonerConfiguration;
import org.semanticweb.owlapi.reasoner.OWLReasonerFactory;
import org.semanticweb.owlapi.reasoner.SimpleConfiguration;

/**
 * Makes reasoners over processes of elc. Nothing is started until a reasoner is asked for something, so a program that is missing is
 * told by the first question, as a {@link org.semanticweb.owlapi.reasoner.ReasonerInternalException}.
 */
public class ElcReasonerFactory implements OWLReasonerFactory {
    private final String program;

    /** The program is what the system property <code>elc</code> names, or else <code>elc</code> on the path. */
    public ElcReasonerFactory() {
        this(System.getProperty("elc", "elc"));
    }

    /** The program is the file at this path, or a name on the path. */
    public ElcReasonerFactory(String program) {
        this.program = program;
    }

    @Override
    public String getReasonerName() {
        return ElcReasoner.NAME;
    }

    @Override
    public ElcReasoner createReasoner(OWLOntology ontology) {
        return createReasoner(ontology, new SimpleConfiguration());
    }

    @Override
    public ElcReasoner createReasoner(OWLOntology ontology, OWLReasonerConfiguration configuration) {
        return new ElcReasoner(program, ontology, configuration, BufferingMode.BUFFERING);
    }

    @Override
    public ElcReasoner createNonBufferingReasoner(OWLOntology ontology) {
        return createNonBufferingReasoner(ontology, new SimpleConfiguration());
    }

    @Override
    public ElcReasoner createNonBufferingReasoner(OWLOntology ontology, OWLReasonerConfiguration configuration) {
        return new ElcReasoner(program, ontology, configuration, BufferingMode.NON_BUFFERING);
    }
}
