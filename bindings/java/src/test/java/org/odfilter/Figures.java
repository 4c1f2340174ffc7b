package org.odfilter;

import static org.odfilter.Check.equal;
import static org.odfilter.Check.item;
import static org.odfilter.Check.row;
import static org.odfilter.Check.that;

import java.io.IOException;
import java.nio.file.Files;
import java.nio.file.Path;
import java.util.List;
import java.util.Locale;
import java.util.stream.Collectors;
import java.util.stream.IntStream;

/** What calls take of the processor and of a thread's stack. */
final class Figures {
    /** How many KiB of stack a thread has that takes the deepest filters. */
    private static final int STACK_KIB = 512;

    private Figures() {
    }

    static void checksOfDepth() throws Exception {
        String open = IntStream.range(0, 64).mapToObj(it -> "Tags/any(x" + it + ":").collect(Collectors.joining());
        List<String> deepest = List.of(
                "- ".repeat(4090) + "ID eq 1", "not ".repeat(4090) + "Active",
                "Active in (true,false or true and true eq ".repeat(64) + "Active" + ")".repeat(64),
                open + "x0 eq Name" + ")".repeat(64));
        StringBuilder codes = new StringBuilder();
        Thread thread = new Thread(null, () -> deepest.forEach(it -> codes.append(judged(it)).append(' ')), "deep",
                STACK_KIB << 10);
        thread.start();
        thread.join();
        equal("the deepest filters", codes.toString(), "TRUE TRUE TRUE TooCostly ");
        System.out.println("figure: " + STACK_KIB + " KiB of a thread's stack for the deepest filters");
    }

    private static String judged(String text) {
        try (Filter filter = item().check(text); Judge judge = filter.judge().within(1000)) {
            if (filter.canonical().length() < 500 || filter.explanation().length() < 500) {
                return "short";
            }
            return judge.verdict(row(1, "null", true)).toString();
        } catch (ODataException error) {
            return error.code();
        }
    }

    static void figures() throws IOException {
        EntityType of = item();
        Judge judge = of.check("Active and contains(Name,'a')").judge();
        byte[] text = Text.utf8(row(1, "\"abc\"", true));
        figure("a row of " + text.length + " bytes", 200_000, () -> judge.verdict(text));
        String filter = "Active and ID gt 1 and contains(Name,'abc') or ID in (1,2,3)";
        figure("a check of " + filter.length() + " bytes", 20_000, () -> of.check(filter).close());
    }

    private static void figure(String name, int times, Runnable call) throws IOException {
        for (int warm = 0; warm < times; warm++) {
            call.run();
        }
        long begun = nanoseconds();
        for (int time = 0; time < times; time++) {
            call.run();
        }
        double took = (nanoseconds() - begun) / 1000.0 / times;
        that(name, took < 100, took);
        System.out.println(String.format(Locale.ROOT, "figure: %s takes %.2f us of the processor", name, took));
    }

    /** How long this thread has had a processor. */
    private static long nanoseconds() throws IOException {
        return Long.parseLong(Files.readString(Path.of("/proc/thread-self/schedstat")).split(" ")[0]);
    }
}
