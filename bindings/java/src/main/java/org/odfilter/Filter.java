package org.odfilter;

import java.util.List;
import java.util.Map;
import java.util.stream.Collectors;

/** A checked filter. */
public final class Filter implements AutoCloseable {
    private final Handle handle;
    private final String text;
    private final Span piece;
    private final Span value;

    Filter(long made, String text, Answer answer) {
        handle = new Handle(this, made, null);
        this.text = text;
        piece = new Span(answer.pieceStart, answer.pieceStop);
        value = new Span(answer.valueStart, answer.valueStop);
    }

    /** The filter's text, decoded where it stood in a query. */
    public String text() {
        return text;
    }

    /** Of checkUrl: the bytes of the query that the filter's option takes, name and value. */
    public Span piece() {
        return piece;
    }

    /** Of checkUrl: the bytes of the query that the option's value takes, into which another may be put. */
    public Span value() {
        return value;
    }

    /** One text for all filters that differ in spaces, parentheses and spelling alone. */
    public String canonical() {
        return textBy(Calls::canonical);
    }

    /** A line for each node: its span, what it is, and its type. */
    public String explanation() {
        return textBy(Calls::explain);
    }

    /** The paths of the properties that the filter reads, each once and in order, as Name, Home/City, Parts/Qty. */
    public List<String> propertyPaths() {
        return textBy(Calls::propertyPaths).lines().collect(Collectors.toUnmodifiableList());
    }

    /** Whether the filter calls now(), so that a judge needs a moment. */
    public boolean needsMoment() {
        return numberBy(Calls::needsMoment) == 1;
    }

    /** How many operators, calls, literals and names the filter has. */
    public long nodeCount() {
        return numberBy(Calls::nodeCount);
    }

    /** How many any() and all() stand in one another, at most. */
    public long lambdaDepth() {
        return numberBy(Calls::lambdaDepth);
    }

    private interface TextCall {
        int write(long filter, byte[] text, Answer answer);
    }

    private interface NumberCall {
        int count(long filter, Answer answer);
    }

    private String textBy(TextCall call) {
        return handle.use(at -> Text.of(Text.written((buffer, answer) -> call.write(at, buffer, answer))));
    }

    private long numberBy(NumberCall call) {
        Answer answer = new Answer();
        int status = handle.status(at -> call.count(at, answer));
        if (status != Numbers.OK) {
            throw ODataException.of(status);
        }
        return answer.number;
    }

    /** A judge by this filter, which it keeps. */
    public Judge judge() {
        Handle.Shared under = handle.acquired();
        long[] made = new long[1];
        int status = Calls.newJudgeOf(under.at(), made);
        if (status != Numbers.OK) {
            under.release();
            throw ODataException.of(status);
        }
        return new Judge(made[0], under);
    }

    /**
     * The filter as conditions of SQL over a table that has a column for each property: the one that columns has for
     * it, else one of its name. The moment that now() stands for may be null.
     */
    public Conditions sql(Dialect dialect, Map<String, String> columns, String now) {
        return conditions(dialect.ofColumns, columns.entrySet().stream()
                .map(it -> columnLine(it.getKey(), it.getValue()))
                .collect(Collectors.joining("\n")), now);
    }

    /** The filter as conditions of SQL over a table of which one column has each row as JSON. */
    public Conditions sqlOverJson(Dialect dialect, String column, String now) {
        return conditions(dialect.ofJson, column, now);
    }

    private static String columnLine(String name, String column) {
        if (name.contains("=") || name.contains("\n") || column.contains("\n")) {
            throw ODataException.of(Numbers.UNKNOWN_COLUMN);
        }
        return name + "=" + column;
    }

    private Conditions conditions(int form, String lines, String now) {
        if (now != null && now.contains("\n")) {
            throw ODataException.of(Numbers.NOT_A_MOMENT, now);
        }
        byte[] how = Text.utf8((now == null ? "" : now) + "\n" + lines);
        long[] made = new long[1];
        int status = handle.status(at -> Calls.newSql(at, form, how, made, new Answer()));
        if (status != Numbers.OK) {
            throw ODataException.of(status, now == null ? "" : now);
        }
        try {
            return new Conditions(made[0]);
        } finally {
            Calls.free(made[0]);
        }
    }

    @Override
    public void close() {
        handle.close();
    }
}
