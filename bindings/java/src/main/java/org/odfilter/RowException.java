package org.odfilter;

/**
 * A row has no verdict; one that costs more than the judge's bound has the code TooCostly. The line of its object is
 * null.
 */
public final class RowException extends ODataException {
    private static final long serialVersionUID = 1L;
    private final String path;
    private long line;
    private final byte[] kept;

    RowException(int status, Answer answer, byte[] path, long line, byte[] kept) {
        super(Text.codeOf(status, answer), Text.messageOf(0, status, path, answer), json(status, answer, path));
        this.path = Text.of(path);
        this.line = line;
        this.kept = kept;
    }

    /** Without the line, which may be counted from elsewhere. */
    private static String json(int status, Answer answer, byte[] path) {
        Answer alone = new Answer();
        alone.fault = answer.fault;
        alone.length = answer.length;
        return Text.jsonOf(0, status, path, alone);
    }

    /** The path from the row to the value at fault, as Parts/0/Qty; it may be empty. */
    public String path() {
        return path;
    }

    /** The line at fault, from 1. */
    public long line() {
        return line;
    }

    /** This fault, of a line that is counted from elsewhere. */
    RowException at(long line) {
        this.line = line;
        return this;
    }

    /** The lines that are kept before it. */
    public byte[] kept() {
        return kept.clone();
    }
}
