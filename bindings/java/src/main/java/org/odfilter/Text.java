package org.odfilter;

import java.nio.ByteBuffer;
import java.nio.CharBuffer;
import java.nio.charset.CharacterCodingException;
import java.nio.charset.StandardCharsets;
import java.util.Arrays;
import java.util.Locale;

/** Texts in UTF-8, and what the library writes. */
final class Text {
    static final byte[] NONE = {};

    private Text() {
    }

    /** The UTF-8 of a text. A lone surrogate has none; String.getBytes would replace it, and so check another text. */
    static byte[] utf8(String text) {
        try {
            ByteBuffer made = StandardCharsets.UTF_8.newEncoder().encode(CharBuffer.wrap(text));
            return Arrays.copyOf(made.array(), made.limit());
        } catch (CharacterCodingException error) {
            throw new ODataException("NotUtf8", "the text has a lone surrogate");
        }
    }

    static String of(byte[] utf8) {
        return new String(utf8, StandardCharsets.UTF_8);
    }

    /** The characters of the first bytes of a text. */
    static int charsIn(byte[] utf8, long bytes) {
        return new String(utf8, 0, (int) bytes, StandardCharsets.UTF_8).length();
    }

    interface Writer {
        int write(byte[] text, Answer answer);
    }

    /** The bytes that a call writes into a buffer, which grows to the length that the call asks for. */
    static byte[] written(Writer call) {
        Answer answer = new Answer();
        byte[] text = new byte[256];
        while (true) {
            int status = call.write(text, answer);
            if (status == Numbers.OK) {
                return Arrays.copyOf(text, (int) answer.length);
            }
            if (status != Numbers.TOO_SMALL) {
                throw ODataException.of(status);
            }
            text = new byte[(int) answer.length];
        }
    }

    /** The name of a fault. A library that is newer than this package may know more of them. */
    static String codeOf(int status, Answer fault) {
        String name = Numbers.nameOf(status, fault.fault);
        return name != null ? name
                : of(written((text, answer) -> Calls.faultName(status, fault.fault, text, answer)));
    }

    /** The library's sentence about a fault of a text; the type is the handle of one, or 0. */
    static String messageOf(long type, int status, byte[] about, Answer fault) {
        return of(written((text, answer) -> Calls.faultText(type, status, about, text, fault, answer)));
    }

    /** The object of a fault of a text, for programs; the type is the handle of one, or 0. */
    static String jsonOf(long type, int status, byte[] about, Answer fault) {
        return of(written((text, answer) -> Calls.faultJson(type, status, about, text, fault, answer)));
    }

    /** The decoded text of the option filter or $filter of a query that has one. */
    static byte[] filterText(byte[] query) {
        for (String option : new String(query, StandardCharsets.ISO_8859_1).split("&", -1)) {
            int at = option.indexOf('=');
            String name = new String(unescaped(at < 0 ? option : option.substring(0, at)), StandardCharsets.ISO_8859_1);
            name = name.toLowerCase(Locale.ROOT);
            if (name.equals("filter") || name.equals("$filter")) {
                return unescaped(at < 0 ? "" : option.substring(at + 1));
            }
        }
        return NONE;
    }

    /** The bytes of a text, each '%' with two digits for the byte that these are. */
    private static byte[] unescaped(String text) {
        ByteBuffer made = ByteBuffer.allocate(text.length());
        for (int at = 0; at < text.length(); at++) {
            int value = text.charAt(at) == '%' && at + 2 < text.length() ? hex(text, at + 1) : -1;
            made.put((byte) (value < 0 ? text.charAt(at) : value));
            at += value < 0 ? 0 : 2;
        }
        return Arrays.copyOf(made.array(), made.position());
    }

    private static int hex(String text, int at) {
        int high = Character.digit(text.charAt(at), 16);
        int low = Character.digit(text.charAt(at + 1), 16);
        return high < 0 || low < 0 ? -1 : high * 16 + low;
    }
}
