package stnu;

import java.nio.charset.StandardCharsets;

/**
 * A run of the workbench in this process: what the program {@code stnu} does with the same words and the same input. It answers each whole
 * line before it takes more, so what {@link #feed} gives is the whole answer to the lines that were fed.
 *
 * <p>A run is used by one thread at a time; others wait. A call after {@link #close} throws an {@link IllegalStateException}. The library
 * {@code stnu_jni} is looked for in {@code java.library.path}.
 */
public final class Run implements AutoCloseable {
    static {
        System.loadLibrary("stnu_jni");
    }

    /** How a run stands: it goes on, or has ended so. */
    public enum Status {
        /** More lines are wanted. */
        RUNNING,
        /** Controllable, accepted, executed to the end, shown. */
        YES,
        /** Not controllable, or a certificate is refused. */
        NO,
        /** The words are those of no command. */
        WORDS,
        /** A line of the input, or a part of the plan, is at fault. */
        FORMAT,
        /** A limit is passed. */
        LIMIT,
        /** Reading failed, which does not happen here. */
        READ,
        /** There was no memory to keep the answer. */
        WRITE,
        /** An event is refused, and the execution is over. */
        EVENT,
        /** There was no memory, or the run was stopped. */
        MEMORY
    }

    /** What was answered, and how the run stands then. */
    public record Answer(Status status, String text) {}

    private static final int MISUSE = -2;

    private final long number;

    /** Begins a run with these words, those of the program without its name. */
    public Run(String... words) {
        number = open(words.clone());
        if (number == 0) {
            throw new OutOfMemoryError("there is no memory for a run");
        }
    }

    /** A run over a whole input. */
    public static Answer over(String input, String... words) {
        try (Run run = new Run(words)) {
            Answer answer = run.feed(input);
            return answer.status() == Status.RUNNING ? run.end(answer.text()) : answer;
        }
    }

    /** Which library this is, and how it was made. */
    public static native String version();

    /** Hands over input, lines whole or not, and gives the answer to the whole lines among it. */
    public synchronized Answer feed(String lines) {
        byte[] bytes = lines.getBytes(StandardCharsets.UTF_8);
        return answer("", feed(number, bytes, bytes.length));
    }

    /** Says that the input ends here. */
    public synchronized Answer end() {
        return end("");
    }

    /** Called in another thread than the one that waits for an answer: the run ends soon, with {@link Status#MEMORY}. */
    public void stop() {
        stop(number);
    }

    /** Ends the run, where it has not ended, and gives back what it held. */
    @Override
    public synchronized void close() {
        close(number);
    }

    private Answer end(String before) {
        return answer(before, end(number));
    }

    private Answer answer(String before, int status) {
        byte[] bytes = status == MISUSE ? null : answer(number);
        if (bytes == null) {
            throw new IllegalStateException("the run is closed");
        }
        return new Answer(Status.values()[status + 1], before + new String(bytes, StandardCharsets.UTF_8));
    }

    private static native long open(String[] words);

    private static native int feed(long run, byte[] bytes, int size);

    private static native int end(long run);

    private static native byte[] answer(long run);

    private static native int stop(long run);

    private static native int close(long run);
}
