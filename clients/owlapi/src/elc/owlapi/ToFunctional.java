package elc.owlapi;

import java.io.BufferedWriter;
import java.io.File;
import java.io.IOException;
import java.nio.charset.StandardCharsets;
import java.nio.file.Files;
import java.nio.file.Path;
import java.util.Map;
import java.util.regex.Pattern;
import java.util.stream.Collectors;
import org.semanticweb.owlapi.apibinding.OWLManager;
import org.semanticweb.owlapi.functional.renderer.FunctionalSyntaxObjectRenderer;
import org.semanticweb.owlapi.io.UnparsableOntologyException;
import org.semanticweb.owlapi.model.*;
import org.semanticweb.owlapi.util.AutoIRIMapper;
import org.semanticweb.owlapi.util.DefaultPrefixManager;

/**
 * Writes an ontology in any syntax that the API reads, with all that it imports, as a document in the functional syntax that elc reads.
 *
 * <p>usage: ToFunctional IN OUT
 *
 * <p>What is imported is looked for among the documents in the folder of IN and below it, then at its IRI. All axioms are written, also
 * those that are not of the profile, but for declarations of the standard's own names. The prefixes of IN stay, and shorten names of letters, digits, `_`, `-` and `.` of ASCII; other names
 * are written in full, as elc reads them. It prints how many axioms there are, and how many of these are logical.
 */
public final class ToFunctional {
    private static final Map<String, String> STANDARD = Map.of(
        "rdf:", "http://www.w3.org/1999/02/22-rdf-syntax-ns#",
        "rdfs:", "http://www.w3.org/2000/01/rdf-schema#",
        "xsd:", "http://www.w3.org/2001/XMLSchema#",
        "owl:", "http://www.w3.org/2002/07/owl#");

    private ToFunctional() {}

    /** Prefixes that elc reads, and short names that it reads. */
    private static final class Prefixes extends DefaultPrefixManager {
        private static final long serialVersionUID = 1L;
        private static final Pattern NAME = Pattern.compile("([A-Za-z][A-Za-z0-9_-]*)?:");
        private static final Pattern IRI_TEXT = Pattern.compile("[^\\x00-\\x20<>\"{}|^`\\\\]+");
        private static final Pattern LOCAL = Pattern.compile("[A-Za-z0-9_](?:[A-Za-z0-9_.-]*[A-Za-z0-9_-])?");

        Prefixes(Map<String, String> told) {
            super(null, null, null);
            clear();
            STANDARD.forEach(this::setPrefix);
            told.forEach((name, text) -> {
                if (NAME.matcher(name).matches() && IRI_TEXT.matcher(text).matches() && !STANDARD.containsKey(name)) {
                    setPrefix(name, text);
                }
            });
        }

        @Override
        public String getPrefixIRI(IRI iri) {
            return getPrefixIRIIgnoreQName(iri);
        }

        /** The short name by the longest prefix that gives one, or null. */
        @Override
        public String getPrefixIRIIgnoreQName(IRI iri) {
            String text = iri.toString();
            return getPrefixName2PrefixMap().entrySet().stream()
                .filter(it -> text.startsWith(it.getValue()) && LOCAL.matcher(text.substring(it.getValue().length())).matches())
                .max(Map.Entry.comparingByValue((one, other) -> Integer.compare(one.length(), other.length())))
                .map(it -> it.getKey() + text.substring(it.getValue().length()))
                .orElse(null);
        }
    }

    private static OWLOntology read(File from) throws OWLOntologyCreationException {
        OWLOntologyManager manager = OWLManager.createOWLOntologyManager();
        manager.getIRIMappers().add(new AutoIRIMapper(from.getAbsoluteFile().getParentFile(), true));
        return manager.loadOntologyFromOntologyDocument(from);
    }

    private static Map<String, String> prefixes(OWLOntology ontology) {
        OWLDocumentFormat format = ontology.getNonnullFormat();
        return format.isPrefixOWLDocumentFormat() ? format.asPrefixOWLDocumentFormat().getPrefixName2PrefixMap() : Map.of();
    }

    /** Whether the axiom declares a name of the standard's own, as some syntaxes do without being told. */
    private static boolean isIdle(OWLAxiom axiom) {
        return axiom instanceof OWLDeclarationAxiom && ((OWLDeclarationAxiom) axiom).getEntity().isBuiltIn();
    }

    /** The ontology with the axioms of all that it imports, and no import. */
    private static OWLOntology whole(OWLOntology ontology) throws OWLOntologyCreationException {
        OWLOntology made = OWLManager.createOWLOntologyManager().createOntology(ontology.getOntologyID());
        ontology.importsClosure().forEach(it -> made.addAxioms(it.axioms().filter(axiom -> !isIdle(axiom)).collect(Collectors.toList())));
        ontology.annotations().forEach(it -> made.applyChange(new AddOntologyAnnotation(made, it)));
        return made;
    }

    private static void write(OWLOntology ontology, Map<String, String> prefixes, Path to) throws IOException {
        try (BufferedWriter writer = Files.newBufferedWriter(to, StandardCharsets.UTF_8)) {
            FunctionalSyntaxObjectRenderer renderer = new FunctionalSyntaxObjectRenderer(ontology, writer);
            renderer.setPrefixManager(new Prefixes(prefixes));
            ontology.accept(renderer);
        }
    }

    /** Reads the one file and writes the other, and gives the line that says how many axioms there are. */
    static String converted(Path from, Path to) throws OWLOntologyCreationException, IOException {
        OWLOntology read = read(from.toFile());
        OWLOntology whole = whole(read);
        write(whole, prefixes(read), to);
        return "axioms " + whole.getAxiomCount() + " logical " + whole.getLogicalAxiomCount();
    }

    /** Why a document was not read or written. */
    static String cause(Exception fault) {
        if (fault instanceof UnparsableOntologyException) {
            return "in no syntax that the API reads";
        }
        if (fault instanceof UnloadableImportException) {
            return "not found is <" + ((UnloadableImportException) fault).getImportsDeclaration().getIRI() + ">, which it imports";
        }
        Throwable first = fault;
        while (first.getCause() instanceof IOException) {
            first = first.getCause();
        }
        return first.getClass().getSimpleName() + " " + String.valueOf(first.getMessage()).split("\n")[0];
    }

    public static void main(String[] words) {
        if (words.length != 2) {
            System.err.println("usage: ToFunctional IN OUT");
            System.exit(2);
        }
        try {
            System.out.println(converted(Path.of(words[0]), Path.of(words[1])));
        } catch (OWLOntologyCreationException | OWLRuntimeException fault) {
            System.err.println("cannot read " + words[0] + ": " + cause(fault));
            System.exit(1);
        } catch (IOException fault) {
            System.err.println("cannot write " + words[1] + ": " + cause(fault));
            System.exit(1);
        }
    }
}
