"""Java has the numbers, and the calls twice: by JNA, and by java.lang.foreign for Java 22 and later."""
from .header import FROM, member, shown

NUMBERS = """package org.odfilter;

/** Numbers and names of the C library. {made} */
final class Numbers {{
{numbers}
    /** How many names each fault of a schema carries, by its number. */
    static final int[] SCHEMA_NAMES = {{{schema_names}}};

    private Numbers() {{
    }}

    /** The name of a fault, or null where this version does not know it. */
    static String nameOf(int status, int fault) {{
        switch (status << 8 | fault) {{
{faults}            default:
                return null;
        }}
    }}
}}
"""
ANSWER = """package org.odfilter;

/** What a call reports besides its status. {made} */
final class Answer {{
    /** How many bytes it has in the library's memory. */
    static final int SIZE = {size};
{fields}}}
"""
JNA = """package org.odfilter;

import com.sun.jna.Native;
import com.sun.jna.NativeLibrary;
import com.sun.jna.Pointer;
{imports}
/** The calls of the C library, by JNA. {made} */
final class Library {{
    static {{
        Native.register(Library.class, NativeLibrary.getInstance(Loader.path()));
    }}

    private Library() {{
    }}

{bytes}
    static void read(Pointer from, Answer to) {{
{reads}    }}

    /** Reads of an answer the verdict alone. */
    static void readVerdict(Pointer from, Answer to) {{
{verdict}    }}

    static void write(Answer from, Pointer to) {{
{writes}    }}
{calls}}}
"""
BY_VALUE = """    /** Bytes or a buffer: a structure by value. */
    @Structure.FieldOrder({"at", "length"})
    public static class Bytes extends Structure implements Structure.ByValue {
        public Pointer at;
        public long length;

        Bytes() {
            setAutoSynch(false);
            write();
        }

        void set(Pointer at, long length) {
            getPointer().setPointer(0, at);
            getPointer().setLong(Long.BYTES, length);
        }
    }
"""
BY_ADDRESS = """    /** Bytes or a buffer: an address and a length. */
    static final class Bytes {
        private Pointer at;
        private long length;

        void set(Pointer at, long length) {
            this.at = at;
            this.length = length;
        }
    }
"""
FOREIGN = """package org.odfilter;

import static java.lang.foreign.ValueLayout.ADDRESS;
import static java.lang.foreign.ValueLayout.JAVA_INT;
import static java.lang.foreign.ValueLayout.JAVA_LONG;

import java.lang.foreign.Arena;
import java.lang.foreign.FunctionDescriptor;
import java.lang.foreign.Linker;
import java.lang.foreign.MemoryLayout;
import java.lang.foreign.MemorySegment;
import java.lang.foreign.StructLayout;
import java.lang.foreign.SymbolLookup;
import java.lang.invoke.MethodHandle;
import java.nio.file.Path;

/** The calls of the C library, by java.lang.foreign. {made} */
final class Library {{
    /** Bytes or a buffer. */
    static final StructLayout BYTES = MemoryLayout.structLayout(ADDRESS, JAVA_LONG);
    private static final SymbolLookup SYMBOLS =
            SymbolLookup.libraryLookup(Path.of(Loader.path()), Arena.global());

{calls}
    private Library() {{
    }}

    private static MethodHandle call(String name, MemoryLayout... parameters) {{
        FunctionDescriptor of = FunctionDescriptor.of(JAVA_INT, parameters);
        return Linker.nativeLinker().downcallHandle(SYMBOLS.find(name).orElseThrow(), of);
    }}

    static void read(MemorySegment from, Answer to) {{
{reads}    }}

    /** Reads of an answer the verdict alone. */
    static void readVerdict(MemorySegment from, Answer to) {{
{verdict}    }}

    static void write(Answer from, MemorySegment to) {{
{writes}    }}
}}
"""
OF_JNA = {"odfilter_bytes": "Bytes", "odfilter_buffer": "Bytes", "odfilter_handle **": "Pointer"}
OF_JNA |= {"const odfilter_handle *": "Pointer", "odfilter_handle *": "Pointer", "odfilter_answer *": "Pointer"}
OF_JNA |= {"const odfilter_answer *": "Pointer", "uint32_t": "int", "uint64_t": "long", "size_t": "long"}
OF_JNA |= {"const char *": "Pointer", "char *": "Pointer"}
STRUCTS = ("odfilter_bytes", "odfilter_buffer")
OF_FOREIGN = {"odfilter_bytes": "BYTES", "odfilter_buffer": "BYTES", "uint32_t": "JAVA_INT", "uint64_t": "JAVA_LONG"}
OF_FOREIGN |= {"size_t": "JAVA_LONG"}


def numbers(header):
    groups = [("", header.statuses), ("VERDICT_", header.verdicts), ("FORM_", header.forms)]
    groups += [("STATEMENT_", header.statements), ("VALUE_", header.values)]
    lines = (f"    static final int {prefix}{name} = {it};\n" for prefix, pairs in groups for name, it in pairs)
    faults = (
        f'            case {status} << 8 | {number}:\n                return "{name}";\n'
        for status, number, name in header.faults
    )
    return NUMBERS.format(made=FROM, numbers="".join(lines), schema_names=header.schema_names, faults="".join(faults))


def answer(header):
    fields = "".join(f"    {OF_JNA[it['type']]} {member(it['name'])};\n" for it in header.answer)
    last = header.answer[-1]
    return ANSWER.format(made=FROM, size=last["offset"] + last["size"], fields=fields)


def lines(header, line):
    """A line for each field of an answer: of its name, its type in Java, the layout of that, and its offset."""
    for field in header.answer:
        kind = OF_JNA[field["type"]]
        yield "        " + line.format(
            name=member(field["name"]), kind=kind.capitalize(), layout=f"JAVA_{kind.upper()}", offset=field["offset"]
        )


def declared(header, name, given):
    """A call as JNA has it: by its second name, where it has one, which is given addresses and lengths."""
    words = [f"{OF_JNA[kind]} {member(it)}" for it, kind in given]
    if name not in header.flat:
        return "\n" + shown(f"    static native int {name}(", words, ");")
    flat = [f"{OF_JNA[kind]} {member(it)}" for it, kind in dict(header.calls)[header.flat[name]]]
    passed = [[f"{it}.at", f"{it}.length"] if kind in STRUCTS else [member(it)] for it, kind in given]
    body = shown(f"        return {header.flat[name]}(", [one for some in passed for one in some], ");", " " * 16)
    head = shown(f"    static int {name}(", words, ") {")
    return "\n" + shown(f"    static native int {header.flat[name]}(", flat, ");") + f"\n{head}{body}    }}\n"


def by_jna(header):
    calls = (declared(header, name, given) for name, given in header.plain_calls())
    reads = "".join(lines(header, "to.{name} = from.get{kind}({offset});\n"))
    writes = "".join(lines(header, "to.set{kind}({offset}, from.{name});\n"))
    is_flat = bool(header.flat)
    imports, kind = ("", BY_ADDRESS) if is_flat else ("import com.sun.jna.Structure;\n", BY_VALUE)
    verdict = next(it for it in reads.splitlines(keepends=True) if "to.verdict" in it)
    parts = {"imports": imports, "bytes": kind, "reads": reads, "verdict": verdict, "writes": writes}
    return JNA.format(made=FROM, calls="".join(calls), **parts)


def by_foreign(header):
    calls = (
        shown(
            f"    static final MethodHandle {name.removeprefix('odfilter_').upper()} = call(",
            [f'"{name}"', *(OF_FOREIGN.get(kind, "ADDRESS") for _, kind in given)],
            ");",
        )
        for name, given in header.plain_calls()
    )
    reads = "".join(lines(header, "to.{name} = from.get({layout}, {offset});\n"))
    writes = "".join(lines(header, "to.set({layout}, {offset}, from.{name});\n"))
    verdict = next(it for it in reads.splitlines(keepends=True) if "to.verdict" in it)
    return FOREIGN.format(made=FROM, reads=reads, verdict=verdict, writes=writes, calls="".join(calls))


def files(header):
    source = "java/src/main/{}/org/odfilter/{}.java"
    found = {source.format("java", "Numbers"): numbers(header), source.format("java", "Answer"): answer(header)}
    found[source.format("java", "Library")] = by_jna(header)
    return found | {source.format("java22", "Library"): by_foreign(header)}
