package elc.owlapi;

import java.io.IOException;
import java.io.OutputStream;
import java.nio.charset.StandardCharsets;
import java.nio.file.Files;
import java.nio.file.Path;
import java.util.List;
import org.semanticweb.owlapi.apibinding.OWLManager;
import org.semanticweb.owlapi.formats.*;
import org.semanticweb.owlapi.model.*;

/**
 * What is written in each syntax of the API and converted back is classified as the document itself: with names past ASCII, labels with
 * signs, an import, and prefixes and names that elc does not read.
 */
final class Conversions {
    private static final String NAMES = "http://example.org/names#";
    private static final String IMPORTED = "http://example.org/imported";
    private static final List<String> CLASSES = List.of("A", "\u00c4ste", "B.", "-C", "a.b", "1", "D/E", "F(");
    private final String elc;
    private final Path folder;
    private final Judge judge = new Judge();
    private final OWLOntologyManager manager = OWLManager.createOWLOntologyManager();
    private final OWLDataFactory factory = manager.getOWLDataFactory();

    private Conversions(String elc, Path folder) {
        this.elc = elc;
        this.folder = folder;
    }

    static int status(String elc, Path folder) throws Exception {
        Conversions it = new Conversions(elc, folder);
        List<OWLDocumentFormat> formats = List.of(
            new RDFXMLDocumentFormat(), new TurtleDocumentFormat(), new OWLXMLDocumentFormat(), new ManchesterSyntaxDocumentFormat(), new FunctionalSyntaxDocumentFormat());
        OWLOntology imported = it.imported();
        OWLOntology ontology = it.ontology();
        it.save(imported, new RDFXMLDocumentFormat(), "imported.owl");
        for (OWLDocumentFormat format : formats) {
            it.converted(ontology, format);
        }
        it.obo();
        it.refused();
        return it.judge.end("conversions");
    }

    private OWLClass one(String name) {
        return factory.getOWLClass(IRI.create(NAMES + name));
    }

    private OWLOntology imported() throws OWLOntologyCreationException {
        OWLOntology made = manager.createOntology(IRI.create(IMPORTED));
        made.add(factory.getOWLSubClassOfAxiom(one("A"), one("Above")));
        return made;
    }

    private OWLOntology ontology() throws OWLOntologyCreationException {
        OWLOntology made = manager.createOntology(IRI.create("http://example.org/names"));
        OWLObjectProperty property = factory.getOWLObjectProperty(IRI.create(NAMES + "has"));
        for (int i = 0; i + 1 < CLASSES.size(); i++) {
            made.add(factory.getOWLSubClassOfAxiom(one(CLASSES.get(i)), factory.getOWLObjectSomeValuesFrom(property, one(CLASSES.get(i + 1)))));
            made.add(factory.getOWLSubClassOfAxiom(one(CLASSES.get(i + 1)), one(CLASSES.get(i))));
        }
        made.add(factory.getOWLAnnotationAssertionAxiom(one("A").getIRI(), factory.getRDFSLabel("a \"label\" \\ )\n# of two lines")));
        made.applyChange(new AddOntologyAnnotation(made, factory.getRDFSComment("what is \"it\"?")));
        made.applyChange(new AddImport(made, factory.getOWLImportsDeclaration(IRI.create(IMPORTED))));
        return made;
    }

    private void save(OWLOntology ontology, OWLDocumentFormat format, String name) throws Exception {
        if (format.isPrefixOWLDocumentFormat()) {
            format.asPrefixOWLDocumentFormat().setDefaultPrefix(NAMES);
            format.asPrefixOWLDocumentFormat().setPrefix("o.x", "http://example.org/");
        }
        try (OutputStream out = Files.newOutputStream(folder.resolve(name))) {
            ontology.saveOntology(format, out);
        }
    }

    /** The program, with what it printed and told. */
    private static String run(String... words) throws IOException, InterruptedException {
        Process process = new ProcessBuilder(words).redirectErrorStream(true).start();
        String printed = new String(process.getInputStream().readAllBytes(), StandardCharsets.UTF_8);
        return process.waitFor() + " " + printed;
    }

    private String path(String name) {
        return folder.resolve(name).toString();
    }

    private void converted(OWLOntology ontology, OWLDocumentFormat format) throws Exception {
        String what = format.getKey();
        save(ontology, format, "in");
        judge.same(what, "axioms 26 logical 15", convert("in", "out"));
        StringBuilder expected = new StringBuilder("0 ");
        for (String name : List.of(NAMES + "A", NAMES + "Above")) {
            expected.append('<').append(name).append(">\n");
        }
        expected.append("<http://www.w3.org/2002/07/owl#Thing>\n");
        judge.same(what, expected.toString(), run(elc, "supers", path("out"), NAMES + "A"));
        for (int i = 1; i < CLASSES.size(); i++) {
            judge.same(what, "0 <" + NAMES + CLASSES.get(i - 1) + ">\n", run(elc, "parents", path("out"), NAMES + CLASSES.get(i)));
        }
    }

    private String convert(String from, String to) {
        try {
            return ToFunctional.converted(Path.of(path(from)), Path.of(path(to)));
        } catch (OWLOntologyCreationException | OWLRuntimeException | IOException fault) {
            return ToFunctional.cause(fault);
        }
    }

    private void obo() throws Exception {
        Files.writeString(folder.resolve("in"), "format-version: 1.2\nontology: o\n\n[Term]\nid: X:1\nname: aorta\nis_a: X:2\n\n[Term]\nid: X:2\nname: artery\n");
        judge.same("OBO", "axioms 10 logical 1", convert("in", "out"));
        judge.same("OBO", "0 <http://purl.obolibrary.org/obo/X_2>\n", run(elc, "parents", path("out"), "http://purl.obolibrary.org/obo/X_1"));
    }

    private void refused() throws Exception {
        Files.writeString(folder.resolve("in"), "no ontology");
        judge.same("no ontology", "in no syntax that the API reads", convert("in", "out"));
        Files.writeString(folder.resolve("in"), "Ontology(<x:o> Import(<file:/missing>))");
        judge.same("a missing import", "not found is <file:/missing>, which it imports", convert("in", "out"));
    }
}
