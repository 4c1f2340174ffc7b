package org.odfilter;

import java.util.Arrays;
import java.util.List;

/**
 * A schema, read from a CSDL JSON document.
 *
 * <p>Any number of threads may use one schema, type or filter. They may share a judge too, but its calls wait for one
 * another. Each is closed in any order, and freed when it is collected where nobody closes it; what is asked of one
 * that is closed is an IllegalStateException.
 */
public final class Schema implements AutoCloseable {
    private final Handle handle;

    private Schema(long made) {
        handle = new Handle(this, made, null);
    }

    /** Reads a CSDL JSON 4.01 document, or throws a SchemaException. */
    public static Schema read(byte[] document) {
        long[] made = new long[1];
        Answer answer = new Answer();
        byte[] names = new byte[256];
        while (true) {
            int status = Calls.readSchema(document, names, made, answer);
            if (status == Numbers.OK) {
                return new Schema(made[0]);
            }
            if (status != Numbers.SCHEMA_FAULT) {
                throw ODataException.of(status);
            }
            if (answer.length <= names.length) {
                throw new SchemaException(Arrays.copyOf(names, (int) answer.length), answer);
            }
            names = new byte[(int) answer.length];
        }
    }

    /** Reads a CSDL JSON 4.01 document, or throws a SchemaException. */
    public static Schema read(String document) {
        return read(Text.utf8(document));
    }

    /** The entity type of that name, with its namespace or the alias of that; or an UnknownTypeException is thrown. */
    public EntityType type(String name) {
        byte[] given = Text.utf8(name);
        long[] made = new long[1];
        int status = handle.status(at -> Calls.findType(at, given, made));
        if (status == Numbers.UNKNOWN_TYPE) {
            throw new UnknownTypeException(name);
        }
        if (status != Numbers.OK) {
            throw ODataException.of(status);
        }
        return new EntityType(made[0]);
    }

    /** The entity and complex types that it declares, in the byte order of their names. */
    public List<DeclaredType> types() {
        return handle.use(DeclaredType::of);
    }

    /** The version of the C library. */
    public static String version() {
        return Text.of(Text.written(Calls::version));
    }

    @Override
    public void close() {
        handle.close();
    }
}
