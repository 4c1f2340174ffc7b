package org.odfilter;

import com.sun.jna.Native;
import com.sun.jna.NativeLibrary;
import com.sun.jna.Pointer;

/** The calls of the C library, by JNA. Made by bindings/make from include/odfilter.json. */
final class Library {
    static {
        Native.register(Library.class, NativeLibrary.getInstance(Loader.path()));
    }

    private Library() {
    }

    /** Bytes or a buffer: an address and a length. */
    static final class Bytes {
        private Pointer at;
        private long length;

        void set(Pointer at, long length) {
            this.at = at;
            this.length = length;
        }
    }

    static void read(Pointer from, Answer to) {
        to.fault = from.getInt(0);
        to.verdict = from.getInt(4);
        to.start = from.getLong(8);
        to.stop = from.getLong(16);
        to.number = from.getLong(24);
        to.length = from.getLong(32);
        to.first = from.getLong(40);
        to.rows = from.getLong(48);
        to.kept = from.getLong(56);
        to.pieceStart = from.getLong(64);
        to.pieceStop = from.getLong(72);
        to.valueStart = from.getLong(80);
        to.valueStop = from.getLong(88);
    }

    /** Reads of an answer the verdict alone. */
    static void readVerdict(Pointer from, Answer to) {
        to.verdict = from.getInt(4);
    }

    static void write(Answer from, Pointer to) {
        to.setInt(0, from.fault);
        to.setInt(4, from.verdict);
        to.setLong(8, from.start);
        to.setLong(16, from.stop);
        to.setLong(24, from.number);
        to.setLong(32, from.length);
        to.setLong(40, from.first);
        to.setLong(48, from.rows);
        to.setLong(56, from.kept);
        to.setLong(64, from.pieceStart);
        to.setLong(72, from.pieceStop);
        to.setLong(80, from.valueStart);
        to.setLong(88, from.valueStop);
    }

    static native int odfilter_flat_read_schema(
            Pointer document, long documentLength, Pointer names, long namesLength, Pointer schema, Pointer answer);

    static int odfilter_read_schema(Bytes document, Bytes names, Pointer schema, Pointer answer) {
        return odfilter_flat_read_schema(document.at, document.length, names.at, names.length, schema, answer);
    }

    static native int odfilter_flat_find_type(Pointer schema, Pointer name, long nameLength, Pointer type);

    static int odfilter_find_type(Pointer schema, Bytes name, Pointer type) {
        return odfilter_flat_find_type(schema, name.at, name.length, type);
    }

    static native int odfilter_flat_types(Pointer given, Pointer text, long textLength, Pointer answer);

    static int odfilter_types(Pointer given, Bytes text, Pointer answer) {
        return odfilter_flat_types(given, text.at, text.length, answer);
    }

    static native int odfilter_flat_check(Pointer type, Pointer text, long textLength, Pointer filter, Pointer answer);

    static int odfilter_check(Pointer type, Bytes text, Pointer filter, Pointer answer) {
        return odfilter_flat_check(type, text.at, text.length, filter, answer);
    }

    static native int odfilter_flat_check_query(
            Pointer type, Pointer query, long queryLength, Pointer filter, Pointer answer);

    static int odfilter_check_query(Pointer type, Bytes query, Pointer filter, Pointer answer) {
        return odfilter_flat_check_query(type, query.at, query.length, filter, answer);
    }

    static native int odfilter_flat_check_url(
            Pointer type, Pointer query, long queryLength, Pointer text, long textLength, Pointer filter,
            Pointer answer);

    static int odfilter_check_url(Pointer type, Bytes query, Bytes text, Pointer filter, Pointer answer) {
        return odfilter_flat_check_url(type, query.at, query.length, text.at, text.length, filter, answer);
    }

    static native int odfilter_flat_canonical(Pointer filter, Pointer text, long textLength, Pointer answer);

    static int odfilter_canonical(Pointer filter, Bytes text, Pointer answer) {
        return odfilter_flat_canonical(filter, text.at, text.length, answer);
    }

    static native int odfilter_flat_explain(Pointer filter, Pointer text, long textLength, Pointer answer);

    static int odfilter_explain(Pointer filter, Bytes text, Pointer answer) {
        return odfilter_flat_explain(filter, text.at, text.length, answer);
    }

    static native int odfilter_needs_moment(Pointer filter, Pointer answer);

    static native int odfilter_node_count(Pointer filter, Pointer answer);

    static native int odfilter_lambda_depth(Pointer filter, Pointer answer);

    static native int odfilter_flat_property_paths(Pointer filter, Pointer paths, long pathsLength, Pointer answer);

    static int odfilter_property_paths(Pointer filter, Bytes paths, Pointer answer) {
        return odfilter_flat_property_paths(filter, paths.at, paths.length, answer);
    }

    static native int odfilter_flat_sql(
            Pointer filter, int form, Pointer how, long howLength, Pointer text, long textLength, Pointer answer);

    static int odfilter_sql(Pointer filter, int form, Bytes how, Bytes text, Pointer answer) {
        return odfilter_flat_sql(filter, form, how.at, how.length, text.at, text.length, answer);
    }

    static native int odfilter_flat_new_sql(
            Pointer filter, int form, Pointer how, long howLength, Pointer conditions, Pointer answer);

    static int odfilter_new_sql(Pointer filter, int form, Bytes how, Pointer conditions, Pointer answer) {
        return odfilter_flat_new_sql(filter, form, how.at, how.length, conditions, answer);
    }

    static native int odfilter_flat_sql_text(
            Pointer conditions, int which, Pointer text, long textLength, Pointer answer);

    static int odfilter_sql_text(Pointer conditions, int which, Bytes text, Pointer answer) {
        return odfilter_flat_sql_text(conditions, which, text.at, text.length, answer);
    }

    static native int odfilter_flat_sql_value(
            Pointer conditions, int which, int index, Pointer text, long textLength, Pointer answer);

    static int odfilter_sql_value(Pointer conditions, int which, int index, Bytes text, Pointer answer) {
        return odfilter_flat_sql_value(conditions, which, index, text.at, text.length, answer);
    }

    static native int odfilter_new_judge(Pointer judge);

    static native int odfilter_new_judge_of(Pointer filter, Pointer judge);

    static native int odfilter_flat_set_moment(Pointer judge, Pointer moment, long momentLength);

    static int odfilter_set_moment(Pointer judge, Bytes moment) {
        return odfilter_flat_set_moment(judge, moment.at, moment.length);
    }

    static native int odfilter_set_bound(Pointer judge, long most);

    static native int odfilter_flat_judge(Pointer filter, Pointer judge, Pointer row, long rowLength, Pointer answer);

    static int odfilter_judge(Pointer filter, Pointer judge, Bytes row, Pointer answer) {
        return odfilter_flat_judge(filter, judge, row.at, row.length, answer);
    }

    static native int odfilter_flat_judge_next(Pointer judge, Pointer row, long rowLength, Pointer answer);

    static int odfilter_judge_next(Pointer judge, Bytes row, Pointer answer) {
        return odfilter_flat_judge_next(judge, row.at, row.length, answer);
    }

    static native int odfilter_flat_filter_lines(
            Pointer filter, Pointer judge, Pointer rows, long rowsLength, Pointer kept, long keptLength,
            Pointer answer);

    static int odfilter_filter_lines(Pointer filter, Pointer judge, Bytes rows, Bytes kept, Pointer answer) {
        return odfilter_flat_filter_lines(filter, judge, rows.at, rows.length, kept.at, kept.length, answer);
    }

    static native int odfilter_flat_path(Pointer judge, Pointer path, long pathLength, Pointer answer);

    static int odfilter_path(Pointer judge, Bytes path, Pointer answer) {
        return odfilter_flat_path(judge, path.at, path.length, answer);
    }

    static native int odfilter_share(Pointer handle, Pointer made);

    static native int odfilter_free(Pointer handle);

    static native int odfilter_fits(long answerSize);

    static native int odfilter_flat_version(Pointer text, long textLength, Pointer answer);

    static int odfilter_version(Bytes text, Pointer answer) {
        return odfilter_flat_version(text.at, text.length, answer);
    }

    static native int odfilter_flat_status_name(int status, Pointer text, long textLength, Pointer answer);

    static int odfilter_status_name(int status, Bytes text, Pointer answer) {
        return odfilter_flat_status_name(status, text.at, text.length, answer);
    }

    static native int odfilter_flat_fault_name(int status, int fault, Pointer text, long textLength, Pointer answer);

    static int odfilter_fault_name(int status, int fault, Bytes text, Pointer answer) {
        return odfilter_flat_fault_name(status, fault, text.at, text.length, answer);
    }

    static native int odfilter_flat_fault_text(
            Pointer type, int status, Pointer text, long textLength, Pointer sentence, long sentenceLength,
            Pointer fault, Pointer answer);

    static int odfilter_fault_text(
            Pointer type, int status, Bytes text, Bytes sentence, Pointer fault, Pointer answer) {
        return odfilter_flat_fault_text(
                type, status, text.at, text.length, sentence.at, sentence.length, fault, answer);
    }

    static native int odfilter_flat_fault_json(
            Pointer type, int status, Pointer text, long textLength, Pointer json, long jsonLength, Pointer fault,
            Pointer answer);

    static int odfilter_fault_json(Pointer type, int status, Bytes text, Bytes json, Pointer fault, Pointer answer) {
        return odfilter_flat_fault_json(type, status, text.at, text.length, json.at, json.length, fault, answer);
    }
}
