package org.odfilter;

/**
 * Why a call gave nothing. The code stays from version to version; the message is a sentence for people.
 *
 * <p>Without a class of their own: NotUtf8, MomentNeeded, NotAMoment, UnknownColumn, and of SQL Nul and TooDeep.
 */
public class ODataException extends RuntimeException {
    private static final long serialVersionUID = 1L;
    private final String code;
    private final String json;

    ODataException(String code, String message) {
        this(code, message, "");
    }

    ODataException(String code, String message, String json) {
        super(message);
        this.code = code;
        this.json = json;
    }

    /** The name of the fault. */
    public final String code() {
        return code;
    }

    /**
     * The object that the program prints of it by --format json, with the edits that the type suggests; empty where
     * there is none.
     */
    public final String json() {
        return json;
    }

    /** The error of a status that says everything. */
    static RuntimeException of(int status) {
        return of(status, "");
    }

    /** The error of a status that says everything but what it is about. */
    static RuntimeException of(int status, String about) {
        if (status == Numbers.MEMORY) {
            throw new OutOfMemoryError("odfilter");
        }
        if (status == Numbers.NOT_UTF8) {
            return new ODataException("NotUtf8", "the text is not UTF-8");
        }
        if (Numbers.nameOf(status, 0) == null) {
            return new IllegalStateException("odfilter: status " + status);
        }
        byte[] text = Text.utf8(about);
        Answer fault = new Answer();
        return new ODataException(Text.codeOf(status, fault), Text.messageOf(0, status, text, fault),
                Text.jsonOf(0, status, text, fault));
    }
}
