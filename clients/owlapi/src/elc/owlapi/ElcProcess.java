package elc.owlapi;

import java.io.BufferedInputStream;
import java.io.BufferedReader;
import java.io.ByteArrayOutputStream;
import java.io.DataInputStream;
import java.io.EOFException;
import java.io.IOException;
import java.io.InputStreamReader;
import java.io.OutputStream;
import java.nio.charset.StandardCharsets;
import java.util.ArrayDeque;
import java.util.ArrayList;
import java.util.Deque;
import java.util.List;
import java.util.concurrent.Callable;
import java.util.concurrent.TimeUnit;
import java.util.concurrent.locks.LockSupport;
import java.util.function.Predicate;
import org.semanticweb.owlapi.reasoner.ReasonerInterruptedException;
import org.semanticweb.owlapi.reasoner.TimeOutException;

/**
 * A process of elc, and the replies of its session: a line is written, perhaps with a text behind it, and one reply is read. What goes
 * out is bytes of UTF-8, what comes in too.
 *
 * <p>A call ends with a {@link Refused} where the session says no, which leaves it as it was; with an {@link Ended} where the process
 * has ended; with the API's exceptions where it takes too long or is interrupted, and then the process is killed.
 */
final class ElcProcess implements AutoCloseable {
    /** A command was not done: the exit status of the program's command, and what it prints. */
    static final class Refused extends RuntimeException {
        private static final long serialVersionUID = 1L;
        final int status;

        Refused(int status, String text) {
            super(text.trim());
            this.status = status;
        }
    }

    /** The process has ended, with what it has told on standard error. */
    static final class Ended extends RuntimeException {
        private static final long serialVersionUID = 1L;

        Ended(String text, Throwable cause) {
            super(text, cause);
        }
    }

    /** Lines that are written at once, before their replies are read: so many bytes fit into a pipe. */
    private static final int BATCH_BYTES = 4096;

    private static final int LAST_LINES = 20;
    private static final long LOOK_NANOSECONDS = TimeUnit.MILLISECONDS.toNanos(20);
    private static final int MOST_QUIET = 50;

    private final Process process;
    private final Bounds bounds;
    private final OutputStream input;
    private final DataInputStream output;
    private final Thread errors;
    private final Thread watch;
    private final Deque<String> lastLines = new ArrayDeque<>();
    private volatile Thread asking;
    private volatile boolean isIdle;
    private volatile boolean isLate;
    private volatile boolean killed;

    /**
     * Starts the command.
     *
     * @param told is asked of each line that stands on standard error, in a thread of its own, whether it tells of progress
     * @throws IOException where it cannot be started
     */
    ElcProcess(List<String> command, Bounds bounds, Predicate<String> told) throws IOException {
        this.bounds = bounds;
        process = new ProcessBuilder(command).start();
        input = process.getOutputStream();
        output = new DataInputStream(new BufferedInputStream(process.getInputStream(), 1 << 16));
        errors = daemon(() -> listen(told));
        errors.start();
        watch = daemon(this::watch);
        watch.start();
    }

    private static Thread daemon(Runnable task) {
        Thread thread = new Thread(task, "elc");
        thread.setDaemon(true);
        return thread;
    }

    private void listen(Predicate<String> told) {
        try (BufferedReader reader = new BufferedReader(new InputStreamReader(process.getErrorStream(), StandardCharsets.UTF_8))) {
            for (String line; (line = reader.readLine()) != null; ) {
                if (!told.test(line)) {
                    keep(line);
                }
            }
        } catch (IOException ended) {
            // the process has ended, which who asks it is told
        }
    }

    private void keep(String line) {
        synchronized (lastLines) {
            lastLines.add(line);
            if (lastLines.size() > LAST_LINES) {
                lastLines.remove();
            }
        }
    }

    /** The reply to the line. */
    String ask(String line) {
        return inTime(() -> {
            write((line + "\n").getBytes(StandardCharsets.UTF_8));
            return reply();
        });
    }

    /** The reply to the command of this word and the text behind it. */
    String ask(String word, String text) {
        return inTime(() -> {
            byte[] bytes = text.getBytes(StandardCharsets.UTF_8);
            write((word + " " + bytes.length + "\n").getBytes(StandardCharsets.UTF_8));
            write(bytes);
            write(new byte[] {'\n'});
            return reply();
        });
    }

    /** The replies to the lines, in their order. Many are written before the first of their replies is read. */
    List<String> askAll(List<String> lines) {
        return inTime(() -> {
            List<String> replies = new ArrayList<>(lines.size());
            for (int next = 0; next < lines.size(); ) {
                ByteArrayOutputStream batch = new ByteArrayOutputStream();
                int first = next;
                do {
                    batch.write((lines.get(next++) + "\n").getBytes(StandardCharsets.UTF_8));
                } while (next < lines.size() && batch.size() < BATCH_BYTES);
                write(batch.toByteArray());
                Refused refused = null;
                for (; first < next; first++) {
                    try {
                        replies.add(reply());
                    } catch (Refused told) {
                        refused = told;
                    }
                }
                if (refused != null) {
                    throw refused;
                }
            }
            return replies;
        });
    }

    /** All that stands on standard output until the end of the process, where that is with status 0. */
    String rest() {
        return inTime(() -> {
            input.close();
            String text = new String(output.readAllBytes(), StandardCharsets.UTF_8);
            int status = process.waitFor();
            if (status != 0) {
                errors.join(TimeUnit.SECONDS.toMillis(2));
                throw new Refused(status, lastWords());
            }
            return text;
        });
    }

    private void write(byte[] bytes) throws IOException {
        input.write(bytes);
        input.flush();
    }

    private String reply() throws IOException {
        StringBuilder head = new StringBuilder();
        for (int next; (next = output.read()) != '\n'; ) {
            if (next < 0) {
                throw new EOFException("no reply");
            }
            head.append((char) next);
        }
        String[] words = head.toString().split(" ");
        byte[] bytes = new byte[Integer.parseInt(words[words.length - 1])];
        output.readFully(bytes);
        String text = new String(bytes, StandardCharsets.UTF_8);
        if (words[0].equals("ok")) {
            return text;
        }
        throw new Refused(Integer.parseInt(words[1]), text);
    }

    private <T> T inTime(Callable<T> exchange) {
        try {
            bounds.await(this);
            asking = Thread.currentThread();
            if (isIdle) {
                LockSupport.unpark(watch);
            }
            return exchange.call();
        } catch (Refused | ReasonerInterruptedException told) {
            throw told;
        } catch (InterruptedException interrupt) {
            kill();
            Thread.currentThread().interrupt();
            throw new ReasonerInterruptedException("interrupted", interrupt);
        } catch (Exception failure) {
            if (isLate) {
                throw new TimeOutException("elc did not answer in time", failure);
            }
            if (bounds.isInterrupted() || killed && Thread.currentThread().isInterrupted()) {
                throw new ReasonerInterruptedException("interrupted", failure);
            }
            throw new Ended(lastWords(), failure);
        } finally {
            asking = null;
            bounds.await(null);
        }
    }

    /**
     * Kills the process where a call takes too long, or where its thread is interrupted. A thread that reads from a process is not woken by
     * an interrupt, so this looks again and again while there are calls; that costs a call nothing.
     */
    private void watch() {
        for (int quiet = 0; !killed; quiet = asking == null ? quiet + 1 : 0) {
            Thread thread = asking;
            if (thread != null && bounds.isBounded() && bounds.left() == 0) {
                isLate = true;
                kill();
            } else if (thread != null && thread.isInterrupted()) {
                kill();
            }
            if (quiet < MOST_QUIET) {
                LockSupport.parkNanos(LOOK_NANOSECONDS);
                continue;
            }
            isIdle = true;
            while (asking == null && !killed) {
                LockSupport.park();
            }
            isIdle = false;
            quiet = 0;
        }
    }

    /** What is known of the end of the process. */
    private String lastWords() {
        String end = "elc does not answer";
        try {
            if (process.waitFor(2, TimeUnit.SECONDS)) {
                end = "elc has ended with status " + process.exitValue();
                errors.join(TimeUnit.SECONDS.toMillis(2));
            }
        } catch (InterruptedException interrupt) {
            Thread.currentThread().interrupt();
        }
        synchronized (lastLines) {
            return lastLines.isEmpty() ? end : end + ": " + String.join("; ", lastLines);
        }
    }

    /** Ends the process at once. Who waits for it is told. */
    void kill() {
        killed = true;
        process.destroyForcibly();
    }

    /** Whether it was killed here. */
    boolean isKilled() {
        return killed;
    }

    long pid() {
        return process.pid();
    }

    /** Ends the process; none is left behind. */
    @Override
    public void close() {
        kill();
        LockSupport.unpark(watch);
        boolean interrupted = false;
        for (boolean ended = false; !ended; ) {
            try {
                process.waitFor();
                ended = true;
            } catch (InterruptedException interrupt) {
                interrupted = true;
            }
        }
        if (interrupted) {
            Thread.currentThread().interrupt();
        }
    }
}
