package elc.owlapi;

import java.util.ArrayList;
import java.util.HashMap;
import java.util.LinkedHashSet;
import java.util.List;
import java.util.Map;
import java.util.Set;
import java.util.function.Function;
import java.util.stream.Collectors;
import org.semanticweb.owlapi.model.IRI;
import org.semanticweb.owlapi.model.OWLClass;
import org.semanticweb.owlapi.model.OWLDataFactory;
import org.semanticweb.owlapi.model.OWLEntity;
import org.semanticweb.owlapi.model.OWLNamedIndividual;

/**
 * Reads the replies of a session, and keeps which names it has. Lines end with a line feed and with nothing else, since other line
 * separators may stand in names.
 */
final class ElcReplies {
    /** What a query is answered with: the named classes above an expression and below it, and its individuals. */
    static final class Asked {
        final Set<OWLClass> supers = new LinkedHashSet<>();
        final Set<OWLClass> subs = new LinkedHashSet<>();
        final Set<OWLNamedIndividual> instances = new LinkedHashSet<>();
    }

    private final OWLDataFactory factory;
    private final Map<String, OWLClass> classes = new HashMap<>();
    private final Map<String, OWLNamedIndividual> individuals = new HashMap<>();
    private final Set<OWLEntity> known = new LinkedHashSet<>();

    ElcReplies(OWLDataFactory factory) {
        this.factory = factory;
        know(factory.getOWLThing());
        know(factory.getOWLNothing());
    }

    /** The session has the name. */
    void know(OWLEntity entity) {
        known.add(entity);
        if (entity.isOWLClass()) {
            classes.put("<" + entity.getIRI() + ">", entity.asOWLClass());
        } else if (entity.isOWLNamedIndividual()) {
            individuals.put("<" + entity.getIRI() + ">", entity.asOWLNamedIndividual());
        }
    }

    boolean knows(OWLEntity entity) {
        return known.contains(entity);
    }

    boolean hasIndividuals() {
        return !individuals.isEmpty();
    }

    /** The lines of a text. */
    static List<String> lines(String text) {
        List<String> lines = new ArrayList<>();
        for (int start = 0, end; (end = text.indexOf('\n', start)) >= 0; start = end + 1) {
            lines.add(text.substring(start, end));
        }
        return lines;
    }

    private static IRI iri(String name) {
        return IRI.create(name.substring(1, name.length() - 1));
    }

    private OWLClass classOf(String name) {
        OWLClass found = classes.get(name);
        return found != null ? found : factory.getOWLClass(iri(name));
    }

    private OWLNamedIndividual individualOf(String name) {
        OWLNamedIndividual found = individuals.get(name);
        return found != null ? found : factory.getOWLNamedIndividual(iri(name));
    }

    private static <T> Set<T> named(String reply, Function<String, T> read) {
        return lines(reply).stream().map(read).collect(Collectors.toCollection(LinkedHashSet::new));
    }

    /** A class in each line. */
    Set<OWLClass> classes(String reply) {
        return named(reply, this::classOf);
    }

    /** An individual in each line. */
    Set<OWLNamedIndividual> individuals(String reply) {
        return named(reply, this::individualOf);
    }

    /** A group of classes that are the same in each line. */
    List<List<OWLClass>> groups(String reply) {
        return lines(reply).stream().map(this::group).collect(Collectors.toList());
    }

    private List<OWLClass> group(String line) {
        List<OWLClass> members = new ArrayList<>();
        for (String name : line.split(" = ")) {
            members.add(classOf(name));
        }
        return members;
    }

    /** What a query is answered with. */
    Asked asked(String reply) {
        Asked asked = new Asked();
        for (String line : lines(reply)) {
            int space = line.indexOf(' ');
            String name = line.substring(space + 1);
            switch (line.substring(0, space)) {
                case "super":
                    asked.supers.add(classOf(name));
                    break;
                case "sub":
                    asked.subs.add(classOf(name));
                    break;
                default:
                    asked.instances.add(individualOf(name));
            }
        }
        return asked;
    }
}
