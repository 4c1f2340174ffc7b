package org.odfilter;

import java.time.Instant;
import java.util.Arrays;
import java.util.concurrent.atomic.AtomicLong;
import java.util.stream.Stream;

/** Judges rows by a filter. Reuse it: it caches how rows of that shape are read. Its calls wait for one another. */
public final class Judge implements AutoCloseable {
    private final Handle handle;
    private final Answer answer = new Answer();

    Judge(long made, Handle.Shared filter) {
        handle = new Handle(this, made, filter);
    }

    /** Sets the moment that now() stands for, spelled as in a filter: 2026-11-25T09:00:00Z. */
    public synchronized Judge at(String now) {
        byte[] moment = Text.utf8(now);
        int status = handle.status(it -> Calls.setMoment(it, moment));
        if (status != Numbers.OK) {
            throw ODataException.of(status, now);
        }
        return this;
    }

    /** Sets the moment that now() stands for. */
    public Judge at(Instant now) {
        return at(now.toString());
    }

    /**
     * Bounds what the filter may cost on each row: how many times it judges the body of an any() or all(), and how
     * many items of lists and members of collections it compares after `in` within one; also, anywhere, the whole KiB
     * of each text that a comparison takes, 8 times those of each that a function takes, and 16 times those of each that
     * a function makes. A negative bound is refused.
     */
    public synchronized Judge within(long bound) {
        if (bound < 0) {
            throw new IllegalArgumentException("a bound is not negative");
        }
        handle.status(it -> Calls.setBound(it, bound));
        return this;
    }

    /** Judges a row, one JSON object in UTF-8; or throws a RowException, or the code MomentNeeded. */
    public synchronized Verdict verdict(byte[] row) {
        int status = handle.status(it -> Calls.judgeNext(it, row, answer));
        if (status != Numbers.OK) {
            throw fault(status, answer, 1, Text.NONE);
        }
        return Verdict.of(answer.verdict);
    }

    /** As the other call of this name, of a row's UTF-8. */
    public Verdict verdict(String row) {
        return verdict(Text.utf8(row));
    }

    /**
     * The rows of a stream on which the filter is true, one after another as they come. The first one at fault is a
     * RowException, whose line counts the rows.
     */
    public Stream<String> keep(Stream<String> rows) {
        AtomicLong line = new AtomicLong();
        return rows.sequential().filter(it -> isKept(it, line.incrementAndGet()));
    }

    private boolean isKept(String row, long line) {
        try {
            return verdict(row) == Verdict.TRUE;
        } catch (RowException fault) {
            throw fault.at(line);
        }
    }

    /** What filterLines gives: the kept lines, each with its line feed, and how many rows there were and were kept. */
    public static final class Kept {
        private final byte[] text;
        private final long rows;
        private final long kept;

        private Kept(byte[] text, Answer answer) {
            this.text = text;
            rows = answer.rows;
            kept = answer.kept;
        }

        public byte[] text() {
            return text.clone();
        }

        public long rows() {
            return rows;
        }

        public long kept() {
            return kept;
        }
    }

    /**
     * Judges rows, one JSON object a line, and returns those on which the filter is true. Blank lines are passed over.
     * The first line at fault, or that costs more than the bound, is a RowException, which has what is kept before it.
     */
    public synchronized Kept filterLines(byte[] rows) {
        byte[] kept = new byte[rows.length + 1];
        int status = handle.status(it -> Calls.filterLines(handle.shared.under().at(), it, rows, kept, answer));
        byte[] text = Arrays.copyOf(kept, (int) answer.length);
        if (status != Numbers.OK) {
            throw fault(status, answer, answer.number, text);
        }
        return new Kept(text, answer);
    }

    private RuntimeException fault(int status, Answer fault, long line, byte[] kept) {
        switch (status) {
            case Numbers.JSON_FAULT:
            case Numbers.ROW_FAULT:
            case Numbers.EVAL_FAULT:
            case Numbers.LINE_TOO_LONG:
            case Numbers.TOO_COSTLY:
                byte[] path = handle.use(it -> Text.written((text, answer) -> Calls.path(it, text, answer)));
                return new RowException(status, fault, path, line, kept);
            default:
                return ODataException.of(status);
        }
    }

    @Override
    public void close() {
        handle.close();
    }
}
