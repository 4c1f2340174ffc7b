"""C# has the numbers and the calls by P/Invoke."""
from .header import FROM, camel, member, shown

PAGE = """// {made}
using System;
using System.Runtime.InteropServices;

namespace Odfilter
{{
    internal enum Status : uint
    {{
{statuses}    }}

    internal enum Truth : uint
    {{
{verdicts}    }}

    internal enum Form : uint
    {{
{forms}    }}

    internal enum StatementNumber : uint
    {{
{statements}    }}

    internal enum ValueKind : uint
    {{
{values}    }}

    /// <summary>What a call reports besides its status.</summary>
    [StructLayout(LayoutKind.Sequential)]
    internal struct Answer
    {{
{fields}    }}

    internal static class Numbers
    {{
        /// <summary>How many names each fault of a schema carries, by its number.</summary>
        public static readonly int[] SchemaNames = {{ {schema_names} }};

        /// <summary>The name of a fault, or null where this version does not know it.</summary>
        public static string NameOf(Status status, uint fault)
        {{
            switch ((uint)status << 8 | fault)
            {{
{faults}                default: return null;
            }}
        }}
    }}

    /// <summary>The calls of the C library.</summary>
    internal static class Native
    {{
        private const string Library = "odfilter";

        /// <summary>Refuses a library that writes longer answers than these classes read.</summary>
        static unsafe Native()
        {{
            if (odfilter_fits((ulong)sizeof(Answer)) != Status.Ok)
            {{
                throw new DllNotFoundException("The library is newer than these classes: its answers are longer.");
            }}
        }}
{calls}    }}
}}
"""
OF_CSHARP = {"odfilter_bytes": "Bytes", "odfilter_buffer": "Bytes", "odfilter_handle **": "out Handle"}
OF_CSHARP |= {"const odfilter_handle *": "Handle", "odfilter_handle *": "Handle", "odfilter_answer *": "out Answer"}
OF_CSHARP |= {"const odfilter_answer *": "ref Answer", "uint32_t": "uint", "uint64_t": "ulong", "size_t": "UIntPtr"}


def call(name, given, kinds):
    words = [f"{kinds[kind]} {member(it)}" for it, kind in given]
    return f"\n        [DllImport(Library)]\n" + shown(f"        internal static extern Status {name}(", words, ");")


def calls(header):
    """Each call. A handle that may be null is a second form's, since a SafeHandle may not."""
    for name, given in header.plain_calls():
        # what frees a handle is given the variable itself
        frees = {"odfilter_handle **": "ref IntPtr"} if name == "odfilter_free" else {}
        yield call(name, given, OF_CSHARP | frees)
        if any(kind == "const odfilter_answer *" for _, kind in given):
            yield call(name, given, OF_CSHARP | {"const odfilter_handle *": "IntPtr"})


def members(pairs):
    return "".join(f"        {camel(name)} = {number},\n" for name, number in pairs)


def files(header):
    faults = (
        f'                case {status}u << 8 | {number}u: return "{name}";\n' for status, number, name in header.faults
    )
    fields = (f"        public {OF_CSHARP[it['type']]} {camel(it['name'])};\n" for it in header.answer)
    text = PAGE.format(
        made=FROM,
        statuses=members(header.statuses),
        verdicts=members(header.verdicts),
        forms=members(header.forms),
        statements=members(header.statements),
        values=members(header.values),
        fields="".join(fields),
        schema_names=header.schema_names,
        faults="".join(faults),
        calls="".join(calls(header)),
    )
    return {"csharp/Native.cs": text}
