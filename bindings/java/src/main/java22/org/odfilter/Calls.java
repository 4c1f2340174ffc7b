package org.odfilter;

import static java.lang.foreign.ValueLayout.ADDRESS;
import static java.lang.foreign.ValueLayout.JAVA_BYTE;
import static java.lang.foreign.ValueLayout.JAVA_LONG;

import java.lang.foreign.Arena;
import java.lang.foreign.MemorySegment;

/**
 * The calls of the C library over arrays, by java.lang.foreign. Each returns its status. A handle is its address; what
 * a call makes is written into the first element of an array.
 */
final class Calls {
    private static final ThreadLocal<Scratch> SCRATCH = ThreadLocal.withInitial(Scratch::new);

    static {
        Loader.requireFit(fits(Answer.SIZE));
    }

    private Calls() {
    }

    static int fits(long answerSize) {
        try {
            return (int) Library.FITS.invokeExact(answerSize);
        } catch (Throwable error) {
            throw unexpected(error);
        }
    }

    /** The memory of one thread's calls: what is borrowed, what is written, a handle and two answers. */
    private static final class Scratch {
        final MemorySegment handle = Arena.ofAuto().allocate(ADDRESS);
        final MemorySegment answer = Arena.ofAuto().allocate(Answer.SIZE, Long.BYTES);
        final MemorySegment fault = Arena.ofAuto().allocate(Answer.SIZE, Long.BYTES);
        private final Region borrowed = new Region();
        private final Region written = new Region();

        MemorySegment borrowed(byte[] given) {
            MemorySegment bytes = borrowed.of(given.length);
            MemorySegment.copy(given, 0, borrowed.memory, JAVA_BYTE, 0, given.length);
            return bytes;
        }

        MemorySegment buffer(byte[] text) {
            return written.of(text.length);
        }

        /** Reads the answer, and of the buffer what was written. */
        int read(int status, byte[] text, Answer answer) {
            Library.read(this.answer, answer);
            if (answer.length <= text.length) {
                MemorySegment.copy(written.memory, JAVA_BYTE, 0, text, 0, (int) answer.length);
            }
            return status;
        }

        int made(int status, long[] made) {
            made[0] = status == Numbers.OK ? handle.get(JAVA_LONG, 0) : 0;
            return status;
        }
    }

    /** A block of memory as large as the last call needed, with the structure that leads to it. */
    private static final class Region {
        private static final long LARGE = 1 << 20;
        private final MemorySegment bytes = Arena.ofAuto().allocate(Library.BYTES);
        private MemorySegment memory = Arena.ofAuto().allocate(1024);

        MemorySegment of(int length) {
            boolean isTooLarge = memory.byteSize() > LARGE && length <= LARGE;
            if (length > memory.byteSize() || isTooLarge) {
                memory = Arena.ofAuto().allocate(Math.max(length, 1024));
            }
            bytes.set(ADDRESS, 0, memory);
            bytes.set(JAVA_LONG, Long.BYTES, length);
            return bytes;
        }
    }

    private static MemorySegment at(long handle) {
        return MemorySegment.ofAddress(handle);
    }

    /** What no call of the library throws. */
    private static AssertionError unexpected(Throwable error) {
        return new AssertionError("odfilter", error);
    }

    static int readSchema(byte[] document, byte[] names, long[] made, Answer answer) {
        Scratch it = SCRATCH.get();
        try {
            int status = (int) Library.READ_SCHEMA.invokeExact(
                    it.borrowed(document), it.buffer(names), it.handle, it.answer);
            return it.made(it.read(status, names, answer), made);
        } catch (Throwable error) {
            throw unexpected(error);
        }
    }

    static int findType(long schema, byte[] name, long[] made) {
        Scratch it = SCRATCH.get();
        try {
            return it.made((int) Library.FIND_TYPE.invokeExact(at(schema), it.borrowed(name), it.handle), made);
        } catch (Throwable error) {
            throw unexpected(error);
        }
    }

    static int check(long type, byte[] text, long[] made, Answer answer) {
        Scratch it = SCRATCH.get();
        try {
            int status = (int) Library.CHECK.invokeExact(at(type), it.borrowed(text), it.handle, it.answer);
            return it.made(it.read(status, Text.NONE, answer), made);
        } catch (Throwable error) {
            throw unexpected(error);
        }
    }

    static int checkQuery(long type, byte[] query, long[] made, Answer answer) {
        Scratch it = SCRATCH.get();
        try {
            int status = (int) Library.CHECK_QUERY.invokeExact(at(type), it.borrowed(query), it.handle, it.answer);
            return it.made(it.read(status, Text.NONE, answer), made);
        } catch (Throwable error) {
            throw unexpected(error);
        }
    }

    static int checkUrl(long type, byte[] query, byte[] text, long[] made, Answer answer) {
        Scratch it = SCRATCH.get();
        try {
            int status = (int) Library.CHECK_URL.invokeExact(
                    at(type), it.borrowed(query), it.buffer(text), it.handle, it.answer);
            return it.made(it.read(status, text, answer), made);
        } catch (Throwable error) {
            throw unexpected(error);
        }
    }

    static int types(long given, byte[] text, Answer answer) {
        Scratch it = SCRATCH.get();
        try {
            return it.read((int) Library.TYPES.invokeExact(at(given), it.buffer(text), it.answer), text, answer);
        } catch (Throwable error) {
            throw unexpected(error);
        }
    }

    static int canonical(long filter, byte[] text, Answer answer) {
        Scratch it = SCRATCH.get();
        try {
            return it.read(
                    (int) Library.CANONICAL.invokeExact(at(filter), it.buffer(text), it.answer), text, answer);
        } catch (Throwable error) {
            throw unexpected(error);
        }
    }

    static int explain(long filter, byte[] text, Answer answer) {
        Scratch it = SCRATCH.get();
        try {
            return it.read((int) Library.EXPLAIN.invokeExact(at(filter), it.buffer(text), it.answer), text, answer);
        } catch (Throwable error) {
            throw unexpected(error);
        }
    }

    static int propertyPaths(long filter, byte[] text, Answer answer) {
        Scratch it = SCRATCH.get();
        try {
            return it.read(
                    (int) Library.PROPERTY_PATHS.invokeExact(at(filter), it.buffer(text), it.answer), text, answer);
        } catch (Throwable error) {
            throw unexpected(error);
        }
    }

    static int needsMoment(long filter, Answer answer) {
        Scratch it = SCRATCH.get();
        try {
            return it.read((int) Library.NEEDS_MOMENT.invokeExact(at(filter), it.answer), Text.NONE, answer);
        } catch (Throwable error) {
            throw unexpected(error);
        }
    }

    static int nodeCount(long filter, Answer answer) {
        Scratch it = SCRATCH.get();
        try {
            return it.read((int) Library.NODE_COUNT.invokeExact(at(filter), it.answer), Text.NONE, answer);
        } catch (Throwable error) {
            throw unexpected(error);
        }
    }

    static int lambdaDepth(long filter, Answer answer) {
        Scratch it = SCRATCH.get();
        try {
            return it.read((int) Library.LAMBDA_DEPTH.invokeExact(at(filter), it.answer), Text.NONE, answer);
        } catch (Throwable error) {
            throw unexpected(error);
        }
    }

    static int newSql(long filter, int form, byte[] how, long[] made, Answer answer) {
        Scratch it = SCRATCH.get();
        try {
            int status = (int) Library.NEW_SQL.invokeExact(
                    at(filter), form, it.borrowed(how), it.handle, it.answer);
            return it.made(it.read(status, Text.NONE, answer), made);
        } catch (Throwable error) {
            throw unexpected(error);
        }
    }

    static int sqlText(long conditions, int which, byte[] text, Answer answer) {
        Scratch it = SCRATCH.get();
        try {
            int status = (int) Library.SQL_TEXT.invokeExact(at(conditions), which, it.buffer(text), it.answer);
            return it.read(status, text, answer);
        } catch (Throwable error) {
            throw unexpected(error);
        }
    }

    static int sqlValue(long conditions, int which, int index, byte[] text, Answer answer) {
        Scratch it = SCRATCH.get();
        try {
            int status = (int) Library.SQL_VALUE.invokeExact(
                    at(conditions), which, index, it.buffer(text), it.answer);
            return it.read(status, text, answer);
        } catch (Throwable error) {
            throw unexpected(error);
        }
    }

    static int newJudgeOf(long filter, long[] made) {
        Scratch it = SCRATCH.get();
        try {
            return it.made((int) Library.NEW_JUDGE_OF.invokeExact(at(filter), it.handle), made);
        } catch (Throwable error) {
            throw unexpected(error);
        }
    }

    static int setMoment(long judge, byte[] moment) {
        try {
            return (int) Library.SET_MOMENT.invokeExact(at(judge), SCRATCH.get().borrowed(moment));
        } catch (Throwable error) {
            throw unexpected(error);
        }
    }

    static int setBound(long judge, long most) {
        try {
            return (int) Library.SET_BOUND.invokeExact(at(judge), most);
        } catch (Throwable error) {
            throw unexpected(error);
        }
    }

    static int judgeNext(long judge, byte[] row, Answer answer) {
        Scratch it = SCRATCH.get();
        try {
            int status = (int) Library.JUDGE_NEXT.invokeExact(at(judge), it.borrowed(row), it.answer);
            if (status == Numbers.OK) {
                Library.readVerdict(it.answer, answer);
            } else {
                Library.read(it.answer, answer);
            }
            return status;
        } catch (Throwable error) {
            throw unexpected(error);
        }
    }

    static int filterLines(long filter, long judge, byte[] rows, byte[] kept, Answer answer) {
        Scratch it = SCRATCH.get();
        try {
            int status = (int) Library.FILTER_LINES.invokeExact(
                    at(filter), at(judge), it.borrowed(rows), it.buffer(kept), it.answer);
            return it.read(status, kept, answer);
        } catch (Throwable error) {
            throw unexpected(error);
        }
    }

    static int path(long judge, byte[] text, Answer answer) {
        Scratch it = SCRATCH.get();
        try {
            return it.read((int) Library.PATH.invokeExact(at(judge), it.buffer(text), it.answer), text, answer);
        } catch (Throwable error) {
            throw unexpected(error);
        }
    }

    static void free(long handle) {
        MemorySegment variable = SCRATCH.get().handle;
        variable.set(JAVA_LONG, 0, handle);
        try {
            int status = (int) Library.FREE.invokeExact(variable);
            assert status == Numbers.OK;
        } catch (Throwable error) {
            throw unexpected(error);
        }
    }

    static int version(byte[] text, Answer answer) {
        Scratch it = SCRATCH.get();
        try {
            return it.read((int) Library.VERSION.invokeExact(it.buffer(text), it.answer), text, answer);
        } catch (Throwable error) {
            throw unexpected(error);
        }
    }

    static int faultName(int status, int fault, byte[] text, Answer answer) {
        Scratch it = SCRATCH.get();
        try {
            return it.read(
                    (int) Library.FAULT_NAME.invokeExact(status, fault, it.buffer(text), it.answer), text, answer);
        } catch (Throwable error) {
            throw unexpected(error);
        }
    }

    static int faultText(long type, int status, byte[] about, byte[] text, Answer fault, Answer answer) {
        Scratch it = SCRATCH.get();
        Library.write(fault, it.fault);
        try {
            return it.read(
                    (int) Library.FAULT_TEXT.invokeExact(
                            at(type), status, it.borrowed(about), it.buffer(text), it.fault, it.answer),
                    text, answer);
        } catch (Throwable error) {
            throw unexpected(error);
        }
    }

    static int faultJson(long type, int status, byte[] about, byte[] json, Answer fault, Answer answer) {
        Scratch it = SCRATCH.get();
        Library.write(fault, it.fault);
        try {
            return it.read(
                    (int) Library.FAULT_JSON.invokeExact(
                            at(type), status, it.borrowed(about), it.buffer(json), it.fault, it.answer),
                    json, answer);
        } catch (Throwable error) {
            throw unexpected(error);
        }
    }
}
