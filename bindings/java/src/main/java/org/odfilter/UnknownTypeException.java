package org.odfilter;

/** A schema has no entity type of that name. */
public final class UnknownTypeException extends ODataException {
    private static final long serialVersionUID = 1L;
    private final String typeName;

    UnknownTypeException(String typeName) {
        super("UnknownType", Text.messageOf(0, Numbers.UNKNOWN_TYPE, Text.utf8(typeName), new Answer()),
                Text.jsonOf(0, Numbers.UNKNOWN_TYPE, Text.utf8(typeName), new Answer()));
        this.typeName = typeName;
    }

    public String typeName() {
        return typeName;
    }
}
