import stnu.Run;

/**
 * A plan is decided, its refutation is judged, and a day is executed, by the class {@code stnu.Run}.
 *
 * <pre>java -cp out/library/java/stnu.jar -Djava.library.path=out/library/java library/examples/Day.java</pre>
 */
final class Day {
    private static final String POINTS = "stnu 1\npoint leave\npoint arrive\npoint images\nlink leave 40 90 arrive\n";
    private static final String PLAN = POINTS + "bound at-the-rock images arrive 0\nbound before-shadow arrive images 15\nend\n";
    private static final String BROKEN = POINTS + "bound at-the-rock images arrive -5\nbound before-shadow arrive images 3\nend\n";

    private static Run.Answer judge() {
        String certificate = Run.over(BROKEN, "check").text().replaceFirst("not controllable\n", "");
        return Run.over(BROKEN + certificate, "judge");
    }

    private static Run.Status execute() {
        try (Run day = new Run("run")) {
            Run.Answer answer = day.feed(PLAN);
            System.out.print(answer.text());
            for (String line : new String[] {"at 0\n", "at 68 arrive\n", "done\n"}) {
                answer = day.feed(line);
                System.out.print("> " + line + answer.text());
            }
            return answer.status();
        }
    }

    private static boolean isRefusedOnceClosed() {
        Run run = new Run("check");
        run.close();
        run.close();
        try {
            run.feed(PLAN);
            return false;
        } catch (IllegalStateException closed) {
            return true;
        }
    }

    public static void main(String[] words) throws InterruptedException {
        System.out.print("judge: " + judge().text());
        // (the stack of a thread may be small: a run has its own)
        Run.Status[] status = new Run.Status[1];
        Thread small = new Thread(null, () -> status[0] = execute(), "small", 64 * 1024);
        small.start();
        small.join();
        System.exit(status[0] == Run.Status.YES && isRefusedOnceClosed() ? 0 : 1);
    }
}
