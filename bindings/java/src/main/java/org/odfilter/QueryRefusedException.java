package org.odfilter;

/** A query is refused. */
public final class QueryRefusedException extends ODataException {
    private static final long serialVersionUID = 1L;
    private final long number;

    QueryRefusedException(byte[] query, Answer answer) {
        super(Text.codeOf(Numbers.QUERY_FAULT, answer), Text.messageOf(0, Numbers.QUERY_FAULT, query, answer),
                Text.jsonOf(0, Numbers.QUERY_FAULT, query, answer));
        number = answer.number;
    }

    /** The byte of the '%' for the code BadEscape, and else the index of the option; both count from 0. */
    public long number() {
        return number;
    }
}
