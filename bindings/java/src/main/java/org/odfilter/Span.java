package org.odfilter;

/** A range: the first offset and the one after the last. */
public final class Span {
    private final int start;
    private final int stop;

    Span(long start, long stop) {
        this.start = (int) start;
        this.stop = (int) stop;
    }

    public int start() {
        return start;
    }

    public int stop() {
        return stop;
    }

    @Override
    public boolean equals(Object other) {
        return other instanceof Span && ((Span) other).start == start && ((Span) other).stop == stop;
    }

    @Override
    public int hashCode() {
        return 31 * start + stop;
    }

    @Override
    public String toString() {
        return start + ".." + stop;
    }
}
