package org.odfilter;

import java.util.Arrays;
import java.util.List;
import java.util.Optional;
import java.util.function.Supplier;

/** An entity type of a schema, for whose entities filters are checked. */
public final class EntityType implements AutoCloseable {
    private final Handle handle;

    EntityType(long made) {
        handle = new Handle(this, made, null);
    }

    /** The properties of the type, those of its base first. */
    public List<DeclaredProperty> properties() {
        return handle.use(DeclaredType::of).get(0).properties();
    }

    /** Checks the text of a filter, or throws a FilterRefusedException. */
    public Filter check(String text) {
        byte[] given = Text.utf8(text);
        long[] made = new long[1];
        Answer answer = new Answer();
        return handle.use(at -> filter(at, Calls.check(at, given, made, answer), made[0], answer, given, () -> given))
                .orElseThrow();
    }

    /**
     * Checks the filter of a query string with no other option of the standard's, as it stands in a URL after the '?'.
     * It is empty where there is none; a FilterRefusedException or QueryRefusedException says why it is refused.
     */
    public Optional<Filter> checkQuery(byte[] query) {
        long[] made = new long[1];
        Answer answer = new Answer();
        return handle.use(at -> filter(
                at, Calls.checkQuery(at, query, made, answer), made[0], answer, query, () -> Text.filterText(query)));
    }

    /** As the other call of this name, of a query's UTF-8. */
    public Optional<Filter> checkQuery(String query) {
        return checkQuery(Text.utf8(query));
    }

    /**
     * Checks the filter among any options of a query string, as it stands in a URL after the '?'. It is empty where
     * there is none; a FilterRefusedException or QueryRefusedException says why it is refused.
     */
    public Optional<Filter> checkUrl(byte[] query) {
        long[] made = new long[1];
        Answer answer = new Answer();
        byte[] text = new byte[query.length + 1];
        return handle.use(at -> filter(
                at, Calls.checkUrl(at, query, text, made, answer), made[0], answer, query,
                () -> Arrays.copyOf(text, (int) answer.length)));
    }

    /** As the other call of this name, of a query's UTF-8. */
    public Optional<Filter> checkUrl(String query) {
        return checkUrl(Text.utf8(query));
    }

    private static Optional<Filter> filter(
            long type, int status, long made, Answer answer, byte[] given, Supplier<byte[]> text) {
        switch (status) {
            case Numbers.OK:
                return Optional.of(new Filter(made, Text.of(text.get()), answer));
            case Numbers.NO_FILTER:
                return Optional.empty();
            case Numbers.TEXT_FAULT:
            case Numbers.SYNTAX_FAULT:
            case Numbers.TYPE_FAULT:
                throw new FilterRefusedException(status, text.get(), answer, type);
            case Numbers.QUERY_FAULT:
                throw new QueryRefusedException(given, answer);
            default:
                throw ODataException.of(status);
        }
    }

    @Override
    public void close() {
        handle.close();
    }
}
