package elc.owlapi;

import java.util.concurrent.TimeUnit;
import org.semanticweb.owlapi.reasoner.ReasonerInterruptedException;

/**
 * What bounds the call that a reasoner answers: until when, and whether it was interrupted. All processes of a reasoner share it. One
 * thread answers a call; any other may interrupt it.
 */
final class Bounds {
    private static final long NEVER = Long.MAX_VALUE;

    private volatile long until = NEVER;
    private volatile boolean interrupted;
    private volatile ElcProcess awaited;

    /** A call begins, which may take so many milliseconds; none, or as many as a century has, are no bound. */
    void begin(long milliseconds) {
        interrupted = false;
        until = milliseconds <= 0 || milliseconds > TimeUnit.DAYS.toMillis(36_500) ? NEVER : System.nanoTime() + TimeUnit.MILLISECONDS.toNanos(milliseconds);
    }

    /** Interrupts the call: the process that it waits for is killed. */
    void interrupt() {
        interrupted = true;
        ElcProcess process = awaited;
        if (process != null) {
            process.kill();
        }
    }

    /** The call waits for the process from now on, or for none. */
    void await(ElcProcess process) {
        awaited = process;
        if (process != null && interrupted) {
            throw new ReasonerInterruptedException("interrupted");
        }
    }

    boolean isInterrupted() {
        return interrupted;
    }

    boolean isBounded() {
        return until != NEVER;
    }

    /** How many nanoseconds are left, none at least. */
    long left() {
        return Math.max(0, until - System.nanoTime());
    }
}
