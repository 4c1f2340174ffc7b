package org.odfilter;

import java.util.ArrayList;
import java.util.List;
import java.util.Optional;

/** What a filter says of the rows of a table. */
public final class Conditions {
    private final Statement outcome;
    private final Statement keep;
    private final Statement fault;

    /** Reads those of a handle. */
    Conditions(long made) {
        outcome = Statement.of(made, Numbers.STATEMENT_OUTCOME);
        keep = Statement.of(made, Numbers.STATEMENT_KEEP);
        fault = Statement.of(made, Numbers.STATEMENT_FAULT);
    }

    /** A number: 0 for false, 1 for true, 2 for null, 3 for Overflow and 4 for DivideByZero. */
    public Statement outcome() {
        return outcome;
    }

    /** True where the filter is. */
    public Statement keep() {
        return keep;
    }

    /** True where the filter has a fault; empty where no row can have one. */
    public Optional<Statement> fault() {
        return Optional.ofNullable(fault);
    }

    /** An expression of SQL over a table t. Its parameters are numbered from 1; each is a Long or a String. */
    public static final class Statement {
        private final String text;
        private final List<Object> parameters;

        private Statement(String text, List<Object> parameters) {
            this.text = text;
            this.parameters = List.copyOf(parameters);
        }

        /** A statement of conditions; null where they have no such one. */
        private static Statement of(long conditions, int which) {
            Answer counted = new Answer();
            if (Calls.sqlText(conditions, which, Text.NONE, counted) == Numbers.UNKNOWN_NUMBER) {
                return null;
            }
            byte[] text = Text.written((buffer, answer) -> {
                int status = Calls.sqlText(conditions, which, buffer, answer);
                counted.number = answer.number;
                return status;
            });
            List<Object> parameters = new ArrayList<>();
            for (int index = 0; index < counted.number; index++) {
                parameters.add(value(conditions, which, index));
            }
            return new Statement(Text.of(text), parameters);
        }

        private static Object value(long conditions, int which, int index) {
            Answer value = new Answer();
            byte[] text = Text.written((buffer, answer) -> {
                int status = Calls.sqlValue(conditions, which, index, buffer, answer);
                value.verdict = answer.verdict;
                value.number = answer.number;
                return status;
            });
            return value.verdict == Numbers.VALUE_WHOLE ? (Object) value.number : Text.of(text);
        }

        public String text() {
            return text;
        }

        public List<Object> parameters() {
            return parameters;
        }
    }
}
