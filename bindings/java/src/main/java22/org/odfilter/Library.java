package org.odfilter;

import static java.lang.foreign.ValueLayout.ADDRESS;
import static java.lang.foreign.ValueLayout.JAVA_INT;
import static java.lang.foreign.ValueLayout.JAVA_LONG;

import java.lang.foreign.Arena;
import java.lang.foreign.FunctionDescriptor;
import java.lang.foreign.Linker;
import java.lang.foreign.MemoryLayout;
import java.lang.foreign.MemorySegment;
import java.lang.foreign.StructLayout;
import java.lang.foreign.SymbolLookup;
import java.lang.invoke.MethodHandle;
import java.nio.file.Path;

/** The calls of the C library, by java.lang.foreign. Made by bindings/make from include/odfilter.json. */
final class Library {
    /** Bytes or a buffer. */
    static final StructLayout BYTES = MemoryLayout.structLayout(ADDRESS, JAVA_LONG);
    private static final SymbolLookup SYMBOLS =
            SymbolLookup.libraryLookup(Path.of(Loader.path()), Arena.global());

    static final MethodHandle READ_SCHEMA = call("odfilter_read_schema", BYTES, BYTES, ADDRESS, ADDRESS);
    static final MethodHandle FIND_TYPE = call("odfilter_find_type", ADDRESS, BYTES, ADDRESS);
    static final MethodHandle TYPES = call("odfilter_types", ADDRESS, BYTES, ADDRESS);
    static final MethodHandle CHECK = call("odfilter_check", ADDRESS, BYTES, ADDRESS, ADDRESS);
    static final MethodHandle CHECK_QUERY = call("odfilter_check_query", ADDRESS, BYTES, ADDRESS, ADDRESS);
    static final MethodHandle CHECK_URL = call("odfilter_check_url", ADDRESS, BYTES, BYTES, ADDRESS, ADDRESS);
    static final MethodHandle CANONICAL = call("odfilter_canonical", ADDRESS, BYTES, ADDRESS);
    static final MethodHandle EXPLAIN = call("odfilter_explain", ADDRESS, BYTES, ADDRESS);
    static final MethodHandle NEEDS_MOMENT = call("odfilter_needs_moment", ADDRESS, ADDRESS);
    static final MethodHandle NODE_COUNT = call("odfilter_node_count", ADDRESS, ADDRESS);
    static final MethodHandle LAMBDA_DEPTH = call("odfilter_lambda_depth", ADDRESS, ADDRESS);
    static final MethodHandle PROPERTY_PATHS = call("odfilter_property_paths", ADDRESS, BYTES, ADDRESS);
    static final MethodHandle SQL = call("odfilter_sql", ADDRESS, JAVA_INT, BYTES, BYTES, ADDRESS);
    static final MethodHandle NEW_SQL = call("odfilter_new_sql", ADDRESS, JAVA_INT, BYTES, ADDRESS, ADDRESS);
    static final MethodHandle SQL_TEXT = call("odfilter_sql_text", ADDRESS, JAVA_INT, BYTES, ADDRESS);
    static final MethodHandle SQL_VALUE = call("odfilter_sql_value", ADDRESS, JAVA_INT, JAVA_INT, BYTES, ADDRESS);
    static final MethodHandle NEW_JUDGE = call("odfilter_new_judge", ADDRESS);
    static final MethodHandle NEW_JUDGE_OF = call("odfilter_new_judge_of", ADDRESS, ADDRESS);
    static final MethodHandle SET_MOMENT = call("odfilter_set_moment", ADDRESS, BYTES);
    static final MethodHandle SET_BOUND = call("odfilter_set_bound", ADDRESS, JAVA_LONG);
    static final MethodHandle JUDGE = call("odfilter_judge", ADDRESS, ADDRESS, BYTES, ADDRESS);
    static final MethodHandle JUDGE_NEXT = call("odfilter_judge_next", ADDRESS, BYTES, ADDRESS);
    static final MethodHandle FILTER_LINES = call("odfilter_filter_lines", ADDRESS, ADDRESS, BYTES, BYTES, ADDRESS);
    static final MethodHandle PATH = call("odfilter_path", ADDRESS, BYTES, ADDRESS);
    static final MethodHandle SHARE = call("odfilter_share", ADDRESS, ADDRESS);
    static final MethodHandle FREE = call("odfilter_free", ADDRESS);
    static final MethodHandle FITS = call("odfilter_fits", JAVA_LONG);
    static final MethodHandle VERSION = call("odfilter_version", BYTES, ADDRESS);
    static final MethodHandle STATUS_NAME = call("odfilter_status_name", JAVA_INT, BYTES, ADDRESS);
    static final MethodHandle FAULT_NAME = call("odfilter_fault_name", JAVA_INT, JAVA_INT, BYTES, ADDRESS);
    static final MethodHandle FAULT_TEXT = call(
            "odfilter_fault_text", ADDRESS, JAVA_INT, BYTES, BYTES, ADDRESS, ADDRESS);
    static final MethodHandle FAULT_JSON = call(
            "odfilter_fault_json", ADDRESS, JAVA_INT, BYTES, BYTES, ADDRESS, ADDRESS);

    private Library() {
    }

    private static MethodHandle call(String name, MemoryLayout... parameters) {
        FunctionDescriptor of = FunctionDescriptor.of(JAVA_INT, parameters);
        return Linker.nativeLinker().downcallHandle(SYMBOLS.find(name).orElseThrow(), of);
    }

    static void read(MemorySegment from, Answer to) {
        to.fault = from.get(JAVA_INT, 0);
        to.verdict = from.get(JAVA_INT, 4);
        to.start = from.get(JAVA_LONG, 8);
        to.stop = from.get(JAVA_LONG, 16);
        to.number = from.get(JAVA_LONG, 24);
        to.length = from.get(JAVA_LONG, 32);
        to.first = from.get(JAVA_LONG, 40);
        to.rows = from.get(JAVA_LONG, 48);
        to.kept = from.get(JAVA_LONG, 56);
        to.pieceStart = from.get(JAVA_LONG, 64);
        to.pieceStop = from.get(JAVA_LONG, 72);
        to.valueStart = from.get(JAVA_LONG, 80);
        to.valueStop = from.get(JAVA_LONG, 88);
    }

    /** Reads of an answer the verdict alone. */
    static void readVerdict(MemorySegment from, Answer to) {
        to.verdict = from.get(JAVA_INT, 4);
    }

    static void write(Answer from, MemorySegment to) {
        to.set(JAVA_INT, 0, from.fault);
        to.set(JAVA_INT, 4, from.verdict);
        to.set(JAVA_LONG, 8, from.start);
        to.set(JAVA_LONG, 16, from.stop);
        to.set(JAVA_LONG, 24, from.number);
        to.set(JAVA_LONG, 32, from.length);
        to.set(JAVA_LONG, 40, from.first);
        to.set(JAVA_LONG, 48, from.rows);
        to.set(JAVA_LONG, 56, from.kept);
        to.set(JAVA_LONG, 64, from.pieceStart);
        to.set(JAVA_LONG, 72, from.pieceStop);
        to.set(JAVA_LONG, 80, from.valueStart);
        to.set(JAVA_LONG, 88, from.valueStop);
    }
}
