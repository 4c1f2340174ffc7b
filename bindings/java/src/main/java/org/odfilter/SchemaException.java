package org.odfilter;

import java.util.ArrayList;
import java.util.Arrays;
import java.util.List;

/** A document is no schema. */
public final class SchemaException extends ODataException {
    private static final long serialVersionUID = 1L;
    private final ArrayList<String> names;

    SchemaException(byte[] names, Answer answer) {
        super(Text.codeOf(Numbers.SCHEMA_FAULT, answer), Text.messageOf(0, Numbers.SCHEMA_FAULT, names, answer),
                Text.jsonOf(0, Numbers.SCHEMA_FAULT, names, answer));
        int first = (int) answer.first;
        List<String> both = List.of(
                Text.of(Arrays.copyOf(names, first)), Text.of(Arrays.copyOfRange(names, first, names.length)));
        this.names = new ArrayList<>(both.subList(0, count(answer)));
    }

    private static int count(Answer answer) {
        if (answer.fault < Numbers.SCHEMA_NAMES.length) {
            return Numbers.SCHEMA_NAMES[answer.fault];
        }
        return answer.length == 0 ? 0 : 2;
    }

    /** The names that the fault carries, none to two. */
    public List<String> names() {
        return List.copyOf(names);
    }
}
