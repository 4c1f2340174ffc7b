package org.odfilter;

import java.util.Arrays;
import java.util.Objects;

/** What the tests are written with: a schema, its rows, and checks that are counted. */
final class Check {
    static final String DOCUMENT = "{\"$Version\":\"4.01\",\"Mini\":{\"Item\":{\"$Kind\":\"EntityType\","
            + "\"ID\":{\"$Type\":\"Edm.Int64\"},\"Name\":{\"$Nullable\":true},\"Active\":{\"$Type\":\"Edm.Boolean\"},"
            + "\"Changed\":{\"$Type\":\"Edm.DateTimeOffset\"},\"Tags\":{\"$Collection\":true}}}}";
    private static int passed;
    private static int failed;

    private Check() {
    }

    static EntityType item() {
        return Schema.read(DOCUMENT).type("Mini.Item");
    }

    /** An item, with a name as JSON. */
    static String row(int id, String name, boolean active) {
        return "{\"ID\":" + id + ",\"Name\":" + name + ",\"Active\":" + active
                + ",\"Changed\":\"2026-01-01T00:00:00Z\",\"Tags\":[\"a\",\"b\",\"c\"]}";
    }

    static void that(String name, boolean isWell, Object said) {
        if (isWell) {
            passed++;
        } else {
            failed++;
            System.out.println("FAILED " + name + ": " + said);
        }
    }

    static void equal(String name, Object got, Object wanted) {
        that(name, Objects.deepEquals(got, wanted), got);
    }

    static void equalBytes(String name, byte[] got, byte[] wanted) {
        that(name, Arrays.equals(got, wanted), Text.of(got));
    }

    interface Call {
        Object call() throws Exception;
    }

    /** What a call throws. */
    static <T> T thrown(Class<T> kind, Call call) {
        try {
            return kind.cast(new AssertionError("nothing was thrown, but there is " + call.call()));
        } catch (ClassCastException error) {
            throw error;
        } catch (Exception error) {
            return kind.cast(error);
        }
    }

    /** The code of what a call throws. */
    static void code(String wanted, Call call) {
        equal(wanted, thrown(ODataException.class, call).code(), wanted);
    }

    static void end() {
        System.out.println(passed + " passed, " + failed + " failed");
        System.exit(failed == 0 ? 0 : 1);
    }
}
