package org.odfilter;

import com.sun.jna.Memory;
import com.sun.jna.Pointer;

/**
 * The calls of the C library over arrays, by JNA. Each returns its status. A handle is its address; what a call makes
 * is written into the first element of an array. For Java 22 and later another class of this name does the same by
 * java.lang.foreign.
 */
final class Calls {
    private static final ThreadLocal<Scratch> SCRATCH = ThreadLocal.withInitial(Scratch::new);

    static {
        Loader.requireFit(fits(Answer.SIZE));
    }

    private Calls() {
    }

    static int fits(long answerSize) {
        return Library.odfilter_fits(answerSize);
    }

    /** The memory of one thread's calls: what is borrowed, what is written, a handle and two answers. */
    private static final class Scratch {
        final Pointer handle = new Memory(Long.BYTES);
        final Pointer answer = new Memory(Answer.SIZE);
        final Pointer fault = new Memory(Answer.SIZE);
        private final Region borrowed = new Region();
        private final Region written = new Region();

        Library.Bytes borrowed(byte[] given) {
            Library.Bytes bytes = borrowed.of(given.length);
            borrowed.memory.write(0, given, 0, given.length);
            return bytes;
        }

        Library.Bytes buffer(byte[] text) {
            return written.of(text.length);
        }

        /** Reads the answer, and of the buffer what was written. */
        int read(int status, byte[] text, Answer answer) {
            Library.read(this.answer, answer);
            if (answer.length <= text.length) {
                written.memory.read(0, text, 0, (int) answer.length);
            }
            return status;
        }

        int made(int status, long[] made) {
            made[0] = status == Numbers.OK ? Pointer.nativeValue(handle.getPointer(0)) : 0;
            return status;
        }
    }

    /** A block of memory as large as the last call needed, with the structure that leads to it. */
    private static final class Region {
        private static final long LARGE = 1 << 20;
        private final Library.Bytes bytes = new Library.Bytes();
        private Memory memory = new Memory(1024);

        Library.Bytes of(int length) {
            boolean isTooLarge = memory.size() > LARGE && length <= LARGE;
            if (length > memory.size() || isTooLarge) {
                memory = new Memory(Math.max(length, 1024));
            }
            bytes.set(memory, length);
            return bytes;
        }
    }

    private static Pointer at(long handle) {
        return handle == 0 ? null : new Pointer(handle);
    }

    static int readSchema(byte[] document, byte[] names, long[] made, Answer answer) {
        Scratch it = SCRATCH.get();
        int status = Library.odfilter_read_schema(it.borrowed(document), it.buffer(names), it.handle, it.answer);
        return it.made(it.read(status, names, answer), made);
    }

    static int findType(long schema, byte[] name, long[] made) {
        Scratch it = SCRATCH.get();
        return it.made(Library.odfilter_find_type(at(schema), it.borrowed(name), it.handle), made);
    }

    static int check(long type, byte[] text, long[] made, Answer answer) {
        Scratch it = SCRATCH.get();
        int status = Library.odfilter_check(at(type), it.borrowed(text), it.handle, it.answer);
        Library.read(it.answer, answer);
        return it.made(status, made);
    }

    static int checkQuery(long type, byte[] query, long[] made, Answer answer) {
        Scratch it = SCRATCH.get();
        int status = Library.odfilter_check_query(at(type), it.borrowed(query), it.handle, it.answer);
        Library.read(it.answer, answer);
        return it.made(status, made);
    }

    static int checkUrl(long type, byte[] query, byte[] text, long[] made, Answer answer) {
        Scratch it = SCRATCH.get();
        int status = Library.odfilter_check_url(
                at(type), it.borrowed(query), it.buffer(text), it.handle, it.answer);
        return it.made(it.read(status, text, answer), made);
    }

    static int types(long given, byte[] text, Answer answer) {
        Scratch it = SCRATCH.get();
        return it.read(Library.odfilter_types(at(given), it.buffer(text), it.answer), text, answer);
    }

    static int canonical(long filter, byte[] text, Answer answer) {
        Scratch it = SCRATCH.get();
        return it.read(Library.odfilter_canonical(at(filter), it.buffer(text), it.answer), text, answer);
    }

    static int explain(long filter, byte[] text, Answer answer) {
        Scratch it = SCRATCH.get();
        return it.read(Library.odfilter_explain(at(filter), it.buffer(text), it.answer), text, answer);
    }

    static int propertyPaths(long filter, byte[] text, Answer answer) {
        Scratch it = SCRATCH.get();
        return it.read(Library.odfilter_property_paths(at(filter), it.buffer(text), it.answer), text, answer);
    }

    static int needsMoment(long filter, Answer answer) {
        Scratch it = SCRATCH.get();
        return it.read(Library.odfilter_needs_moment(at(filter), it.answer), Text.NONE, answer);
    }

    static int nodeCount(long filter, Answer answer) {
        Scratch it = SCRATCH.get();
        return it.read(Library.odfilter_node_count(at(filter), it.answer), Text.NONE, answer);
    }

    static int lambdaDepth(long filter, Answer answer) {
        Scratch it = SCRATCH.get();
        return it.read(Library.odfilter_lambda_depth(at(filter), it.answer), Text.NONE, answer);
    }

    static int newSql(long filter, int form, byte[] how, long[] made, Answer answer) {
        Scratch it = SCRATCH.get();
        int status = Library.odfilter_new_sql(at(filter), form, it.borrowed(how), it.handle, it.answer);
        Library.read(it.answer, answer);
        return it.made(status, made);
    }

    static int sqlText(long conditions, int which, byte[] text, Answer answer) {
        Scratch it = SCRATCH.get();
        int status = Library.odfilter_sql_text(at(conditions), which, it.buffer(text), it.answer);
        return it.read(status, text, answer);
    }

    static int sqlValue(long conditions, int which, int index, byte[] text, Answer answer) {
        Scratch it = SCRATCH.get();
        int status = Library.odfilter_sql_value(at(conditions), which, index, it.buffer(text), it.answer);
        return it.read(status, text, answer);
    }

    static int newJudgeOf(long filter, long[] made) {
        Scratch it = SCRATCH.get();
        return it.made(Library.odfilter_new_judge_of(at(filter), it.handle), made);
    }

    static int setMoment(long judge, byte[] moment) {
        return Library.odfilter_set_moment(at(judge), SCRATCH.get().borrowed(moment));
    }

    static int setBound(long judge, long most) {
        return Library.odfilter_set_bound(at(judge), most);
    }

    static int judgeNext(long judge, byte[] row, Answer answer) {
        Scratch it = SCRATCH.get();
        int status = Library.odfilter_judge_next(at(judge), it.borrowed(row), it.answer);
        if (status == Numbers.OK) {
            Library.readVerdict(it.answer, answer);
        } else {
            Library.read(it.answer, answer);
        }
        return status;
    }

    static int filterLines(long filter, long judge, byte[] rows, byte[] kept, Answer answer) {
        Scratch it = SCRATCH.get();
        int status = Library.odfilter_filter_lines(
                at(filter), at(judge), it.borrowed(rows), it.buffer(kept), it.answer);
        return it.read(status, kept, answer);
    }

    static int path(long judge, byte[] text, Answer answer) {
        Scratch it = SCRATCH.get();
        return it.read(Library.odfilter_path(at(judge), it.buffer(text), it.answer), text, answer);
    }

    static void free(long handle) {
        Pointer variable = SCRATCH.get().handle;
        variable.setPointer(0, at(handle));
        Library.odfilter_free(variable);
    }

    static int version(byte[] text, Answer answer) {
        Scratch it = SCRATCH.get();
        return it.read(Library.odfilter_version(it.buffer(text), it.answer), text, answer);
    }

    static int faultName(int status, int fault, byte[] text, Answer answer) {
        Scratch it = SCRATCH.get();
        return it.read(Library.odfilter_fault_name(status, fault, it.buffer(text), it.answer), text, answer);
    }

    static int faultText(long type, int status, byte[] about, byte[] text, Answer fault, Answer answer) {
        Scratch it = SCRATCH.get();
        Library.write(fault, it.fault);
        return it.read(
                Library.odfilter_fault_text(
                        at(type), status, it.borrowed(about), it.buffer(text), it.fault, it.answer),
                text, answer);
    }

    static int faultJson(long type, int status, byte[] about, byte[] json, Answer fault, Answer answer) {
        Scratch it = SCRATCH.get();
        Library.write(fault, it.fault);
        return it.read(
                Library.odfilter_fault_json(
                        at(type), status, it.borrowed(about), it.buffer(json), it.fault, it.answer),
                json, answer);
    }
}
