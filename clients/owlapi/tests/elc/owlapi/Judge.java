package elc.owlapi;

import java.util.Objects;

/** Counts what was as it should be and what was not, and prints the latter. */
final class Judge {
    private static final int MOST = 2000;
    private int passed;
    private int failed;

    void same(String what, Object expected, Object answered) {
        holds(what, Objects.equals(expected, answered), () -> cut(answered) + ", and not " + cut(expected));
    }

    void holds(String what, boolean isSo) {
        holds(what, isSo, () -> "is not so");
    }

    private void holds(String what, boolean isSo, java.util.function.Supplier<String> told) {
        if (isSo) {
            passed++;
        } else {
            failed++;
            System.out.println(what + ": " + told.get());
        }
    }

    /** The call has to end in this exception. */
    <E extends Exception> E fails(String what, Class<E> kind, java.util.concurrent.Callable<?> call) {
        try {
            Object answered = call.call();
            holds(what, false, () -> cut(answered) + ", and no " + kind.getSimpleName());
        } catch (Exception failure) {
            holds(what, kind.isInstance(failure), () -> failure + ", and no " + kind.getSimpleName());
            return kind.isInstance(failure) ? kind.cast(failure) : null;
        }
        return null;
    }

    private static String cut(Object it) {
        String text = String.valueOf(it);
        return text.length() > MOST ? text.substring(0, MOST) + " .." : text;
    }

    /** Tells how many, and gives the status. */
    int end(String of) {
        System.out.println(of + ": " + passed + " passed, " + failed + " failed");
        return failed == 0 ? 0 : 1;
    }
}
