package org.odfilter;

/** Numbers and names of the C library. Made by bindings/make from include/odfilter.json. */
final class Numbers {
    static final int OK = 0;
    static final int NULL = 1;
    static final int OTHER_KIND = 2;
    static final int NOT_UTF8 = 3;
    static final int TOO_SMALL = 4;
    static final int MEMORY = 5;
    static final int UNKNOWN_TYPE = 6;
    static final int NO_FILTER = 7;
    static final int MOMENT_NEEDED = 8;
    static final int NOT_A_MOMENT = 9;
    static final int UNKNOWN_NUMBER = 10;
    static final int SCHEMA_FAULT = 16;
    static final int TEXT_FAULT = 17;
    static final int SYNTAX_FAULT = 18;
    static final int TYPE_FAULT = 19;
    static final int QUERY_FAULT = 20;
    static final int JSON_FAULT = 21;
    static final int ROW_FAULT = 22;
    static final int EVAL_FAULT = 23;
    static final int LINE_TOO_LONG = 24;
    static final int TOO_COSTLY = 25;
    static final int UNSAYABLE = 26;
    static final int TOO_DEEP = 27;
    static final int UNKNOWN_COLUMN = 28;
    static final int VERDICT_FALSE = 0;
    static final int VERDICT_TRUE = 1;
    static final int VERDICT_NO_TRUTH_VALUE = 2;
    static final int FORM_POSTGRESQL_COLUMNS = 0;
    static final int FORM_POSTGRESQL_JSON = 1;
    static final int FORM_SQLITE_COLUMNS = 2;
    static final int FORM_SQLITE_JSON = 3;
    static final int STATEMENT_OUTCOME = 0;
    static final int STATEMENT_KEEP = 1;
    static final int STATEMENT_FAULT = 2;
    static final int VALUE_WHOLE = 0;
    static final int VALUE_TEXT = 1;
    static final int VALUE_INSTANT = 2;

    /** How many names each fault of a schema carries, by its number. */
    static final int[] SCHEMA_NAMES = {0, 0, 0, 0, 1, 2, 1, 1, 2, 2, 0};

    private Numbers() {
    }

    /** The name of a fault, or null where this version does not know it. */
    static String nameOf(int status, int fault) {
        switch (status << 8 | fault) {
            case 6 << 8 | 0:
                return "UnknownType";
            case 7 << 8 | 0:
                return "NoFilter";
            case 8 << 8 | 0:
                return "MomentNeeded";
            case 9 << 8 | 0:
                return "NotAMoment";
            case 16 << 8 | 1:
                return "NotJson";
            case 16 << 8 | 2:
                return "NotObject";
            case 16 << 8 | 3:
                return "Version";
            case 16 << 8 | 4:
                return "BadType";
            case 16 << 8 | 5:
                return "BadProperty";
            case 16 << 8 | 6:
                return "UnknownBase";
            case 16 << 8 | 7:
                return "BaseCycle";
            case 16 << 8 | 8:
                return "PropertyTwice";
            case 16 << 8 | 9:
                return "BadEnumMember";
            case 16 << 8 | 10:
                return "TooLarge";
            case 17 << 8 | 1:
                return "BadCharacter";
            case 17 << 8 | 2:
                return "UnclosedString";
            case 17 << 8 | 3:
                return "LeftOutLiteral";
            case 17 << 8 | 4:
                return "RunOn";
            case 17 << 8 | 5:
                return "TooLong";
            case 18 << 8 | 1:
                return "Unexpected";
            case 18 << 8 | 2:
                return "TooDeep";
            case 19 << 8 | 1:
                return "UnknownProperty";
            case 19 << 8 | 2:
                return "UnknownFunction";
            case 19 << 8 | 3:
                return "ArgumentCount";
            case 19 << 8 | 4:
                return "ArgumentType";
            case 19 << 8 | 5:
                return "OperandTypes";
            case 19 << 8 | 6:
                return "NotCollection";
            case 19 << 8 | 7:
                return "VariableTaken";
            case 19 << 8 | 8:
                return "BodyNotBoolean";
            case 19 << 8 | 9:
                return "LiteralRange";
            case 19 << 8 | 10:
                return "UnknownEnum";
            case 19 << 8 | 11:
                return "TypeLeftOut";
            case 19 << 8 | 12:
                return "NotBoolean";
            case 20 << 8 | 1:
                return "BadEscape";
            case 20 << 8 | 2:
                return "NotUtf8";
            case 20 << 8 | 3:
                return "Repeated";
            case 20 << 8 | 4:
                return "OtherOption";
            case 20 << 8 | 5:
                return "Disguised";
            case 21 << 8 | 0:
                return "Json";
            case 22 << 8 | 1:
                return "NotObject";
            case 22 << 8 | 2:
                return "Missing";
            case 22 << 8 | 3:
                return "WrongKind";
            case 22 << 8 | 4:
                return "NullNotAllowed";
            case 22 << 8 | 5:
                return "OutOfRange";
            case 22 << 8 | 6:
                return "BadText";
            case 22 << 8 | 8:
                return "NotExpanded";
            case 23 << 8 | 1:
                return "Overflow";
            case 23 << 8 | 2:
                return "DivideByZero";
            case 24 << 8 | 0:
                return "LineTooLong";
            case 25 << 8 | 0:
                return "TooCostly";
            case 26 << 8 | 0:
                return "Nul";
            case 27 << 8 | 0:
                return "TooDeep";
            case 28 << 8 | 0:
                return "UnknownColumn";
            default:
                return null;
        }
    }
}
