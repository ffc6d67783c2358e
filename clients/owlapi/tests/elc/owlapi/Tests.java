package elc.owlapi;

import java.nio.file.Path;

/**
 * Runs the tests.
 *
 * <p>usage: Tests ELC FOLDER [VOCABULARIES], with the system property java.io.tmpdir at an empty folder. FOLDER has a folder of what the
 * script `documents` makes, and three empty ones; VOCABULARIES has documents NAME.ofn with taxonomies NAME.tax.
 */
public final class Tests {
    private Tests() {}

    public static void main(String[] words) throws Exception {
        String elc = words[0];
        Path folder = Path.of(words[1]);
        int status = Failures.status(elc, folder.resolve("failures"));
        status |= Names.status(elc, folder.resolve("names"));
        status |= Conversions.status(elc, folder.resolve("conversions"));
        status |= Documents.status(elc, folder.resolve("documents"));
        if (words.length > 2) {
            status |= Vocabularies.status(elc, Path.of(words[2]));
        }
        System.exit(status);
    }
}
