package org.odfilter;

/** A filter is refused. */
public final class FilterRefusedException extends ODataException {
    private static final long serialVersionUID = 1L;
    private final Kind kind;
    private final String text;
    private final Span span;
    private final Span byteSpan;
    private final Span piece;
    private final Span value;

    /** What the filter lacks: tokens, a tree, or types. */
    public enum Kind {
        TEXT, SYNTAX, TYPE
    }

    FilterRefusedException(int status, byte[] text, Answer answer, long type) {
        super(Text.codeOf(status, answer), Text.messageOf(type, status, text, answer),
                Text.jsonOf(type, status, text, answer));
        kind = Kind.values()[status - Numbers.TEXT_FAULT];
        this.text = Text.of(text);
        span = new Span(Text.charsIn(text, answer.start), Text.charsIn(text, answer.stop));
        byteSpan = new Span(answer.start, answer.stop);
        piece = new Span(answer.pieceStart, answer.pieceStop);
        value = new Span(answer.valueStart, answer.valueStop);
    }

    public Kind kind() {
        return kind;
    }

    /** The filter's text, decoded where it stood in a query. */
    public String text() {
        return text;
    }

    /** Where the fault is, in characters of the text, as for substring. */
    public Span span() {
        return span;
    }

    /** Where the fault is, in bytes of the text's UTF-8. */
    public Span byteSpan() {
        return byteSpan;
    }

    /** Of checkUrl: the bytes of the query that the filter's option takes, name and value. */
    public Span piece() {
        return piece;
    }

    /** Of checkUrl: the bytes of the query that the option's value takes. */
    public Span value() {
        return value;
    }

    /** The text, and below it a caret under each character of the span, one at least. */
    public String pointed() {
        StringBuilder shown = new StringBuilder();
        text.codePoints().forEach(it -> shown.appendCodePoint(isShown(it) ? it : 0xFFFD));
        int before = text.codePointCount(0, span.start());
        int within = text.codePointCount(span.start(), span.stop());
        return shown + "\n" + " ".repeat(before) + "^".repeat(Math.max(within, 1));
    }

    private static boolean isShown(int character) {
        switch (Character.getType(character)) {
            case Character.CONTROL:
            case Character.FORMAT:
            case Character.LINE_SEPARATOR:
            case Character.PARAGRAPH_SEPARATOR:
            case Character.PRIVATE_USE:
            case Character.UNASSIGNED:
                return false;
            default:
                return true;
        }
    }
}
