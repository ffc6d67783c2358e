package elc.owlapi;

import java.util.List;
import org.semanticweb.owlapi.reasoner.ReasonerProgressMonitor;

/** Tells a monitor of the API how far a process has come, by the lines that it prints for that. */
final class Progress {
    private static final List<String> TOLD = List.of("read: ", "drawn: ", "made: ", "written: ");
    private static final String DRAWN = "drawn: facts ";

    private final ReasonerProgressMonitor monitor;
    private boolean isRunning;

    Progress(ReasonerProgressMonitor monitor) {
        this.monitor = monitor;
    }

    /** A task begins. */
    synchronized void begin(String task) {
        isRunning = true;
        monitor.reasonerTaskStarted(task);
        monitor.reasonerTaskBusy();
    }

    /** It has ended. */
    synchronized void end() {
        isRunning = false;
        monitor.reasonerTaskStopped();
    }

    /** Whether a line that the process has printed tells of progress: <code>drawn: facts N pending N</code> where it tells of a run. */
    boolean told(String line) {
        if (line.startsWith(DRAWN)) {
            String[] words = line.split(" ");
            long facts = Long.parseLong(words[2]);
            change(facts, facts + Long.parseLong(words[4]));
        }
        return TOLD.stream().anyMatch(line::startsWith);
    }

    private synchronized void change(long facts, long all) {
        if (isRunning) {
            monitor.reasonerTaskProgressChanged((int) Math.min(facts, Integer.MAX_VALUE), (int) Math.min(all, Integer.MAX_VALUE));
        }
    }
}
