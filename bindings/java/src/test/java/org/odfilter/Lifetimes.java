package org.odfilter;

import static org.odfilter.Check.equal;
import static org.odfilter.Check.item;
import static org.odfilter.Check.row;
import static org.odfilter.Check.that;
import static org.odfilter.Check.thrown;

import java.io.IOException;
import java.nio.file.Files;
import java.nio.file.Path;
import java.util.ArrayList;
import java.util.List;
import java.util.concurrent.Callable;
import java.util.concurrent.ExecutorService;
import java.util.concurrent.Executors;
import java.util.concurrent.Future;

/** Closing in any order, threads, and calls without end. */
final class Lifetimes {
    private Lifetimes() {
    }

    static void checksOfClosing() throws Exception {
        for (List<Integer> order : permutations(4)) {
            Schema schema = Schema.read(Check.DOCUMENT);
            EntityType of = schema.type("Mini.Item");
            Filter filter = of.check("Active");
            Judge judge = filter.judge();
            byte[] text = Text.utf8(row(1, "null", true));
            List<AutoCloseable> objects = List.of(schema, of, filter, judge);
            List<Check.Call> calls = List.of(
                    () -> schema.type("Mini.Item"), () -> of.check("Active"), filter::canonical,
                    () -> judge.filterLines(text));
            for (int step = 0; step < 4; step++) {
                for (int left : order.subList(step, 4)) {
                    calls.get(left).call();
                }
                objects.get(order.get(step)).close();
                objects.get(order.get(step)).close();
                thrown(IllegalStateException.class, calls.get(order.get(step)));
            }
            that("closed in the order " + order, true, order);
        }
    }

    private static List<List<Integer>> permutations(int count) {
        if (count == 0) {
            return List.of(List.of());
        }
        List<List<Integer>> found = new ArrayList<>();
        for (List<Integer> rest : permutations(count - 1)) {
            for (int at = 0; at <= rest.size(); at++) {
                List<Integer> order = new ArrayList<>(rest);
                order.add(at, count - 1);
                found.add(order);
            }
        }
        return found;
    }

    /** Eight threads use one type, one filter and one judge, while others close filters under calls. */
    static void checksOfThreads() throws Exception {
        EntityType of = item();
        Filter filter = of.check("Active and ID lt 200");
        Judge shared = filter.judge();
        ExecutorService threads = Executors.newFixedThreadPool(16);
        Callable<Boolean> work = () -> {
            boolean isWell = true;
            try (Judge own = filter.judge()) {
                for (int id = 0; id < 400; id++) {
                    Verdict wanted = id < 200 ? Verdict.TRUE : Verdict.FALSE;
                    String text = row(id, "null", true);
                    isWell &= own.verdict(text) == wanted && shared.verdict(text) == wanted;
                    isWell &= isWellWhereClosed(of, threads);
                }
            }
            return isWell;
        };
        List<Future<Boolean>> all = new ArrayList<>();
        for (int worker = 0; worker < 8; worker++) {
            all.add(threads.submit(work));
        }
        for (Future<Boolean> one : all) {
            that("a thread", one.get(), one);
        }
        threads.shutdown();
    }

    private static boolean isWellWhereClosed(EntityType of, ExecutorService threads) throws Exception {
        Filter filter = of.check("Active");
        Judge judge = filter.judge();
        Future<?> closed = threads.submit(() -> {
            judge.close();
            filter.close();
        });
        try {
            if (judge.verdict(row(1, "null", true)) != Verdict.TRUE || !filter.canonical().equals("Active")) {
                return false;
            }
        } catch (IllegalStateException error) {
            closed.get();
            return error.getMessage().equals("already closed");
        }
        closed.get();
        return true;
    }

    /** A million calls leave the memory of the process as the million before, with some objects that nobody closes. */
    static void checksOfGrowth() throws Exception {
        calls(50_000);
        long before = settled();
        calls(50_000);
        long after = settled();
        that("a million calls", after < before + (64 << 20), before + " bytes became " + after);
        System.out.println("figure: " + ((after - before) >> 10) + " KiB more after a million calls");
    }

    private static void calls(int rounds) {
        EntityType of = item();
        byte[] text = Text.utf8(row(1, "null", true));
        byte[] query = Text.utf8("$top=5&$filter=Active%20and%20ID%20lt%20500");
        for (int round = 0; round < rounds; round++) {
            Filter filter = of.checkUrl(query).orElseThrow();
            Judge judge = filter.judge().within(10);
            equalVerdicts(judge, text);
            if (round % 16 == 0) {
                thrown(FilterRefusedException.class, () -> of.check("Foo"));
                thrown(RowException.class, () -> judge.verdict("{}"));
            }
            if (round % 4 != 0) {
                judge.close();
                filter.close();
            }
        }
    }

    private static void equalVerdicts(Judge judge, byte[] text) {
        for (int again = 0; again < 16; again++) {
            if (judge.verdict(text) != Verdict.TRUE) {
                equal("a verdict", judge.verdict(text), Verdict.TRUE);
            }
        }
    }

    /** How many bytes of memory the process has, after what nobody holds was collected. */
    private static long settled() throws IOException, InterruptedException {
        for (int again = 0; again < 5; again++) {
            System.gc();
            Thread.sleep(100);
        }
        return Long.parseLong(Files.readString(Path.of("/proc/self/statm")).split(" ")[1]) * 4096;
    }
}
