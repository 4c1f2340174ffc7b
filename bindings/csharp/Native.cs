// Made by bindings/make from include/odfilter.json.
using System;
using System.Runtime.InteropServices;

namespace Odfilter
{
    internal enum Status : uint
    {
        Ok = 0,
        Null = 1,
        OtherKind = 2,
        NotUtf8 = 3,
        TooSmall = 4,
        Memory = 5,
        UnknownType = 6,
        NoFilter = 7,
        MomentNeeded = 8,
        NotAMoment = 9,
        UnknownNumber = 10,
        SchemaFault = 16,
        TextFault = 17,
        SyntaxFault = 18,
        TypeFault = 19,
        QueryFault = 20,
        JsonFault = 21,
        RowFault = 22,
        EvalFault = 23,
        LineTooLong = 24,
        TooCostly = 25,
        Unsayable = 26,
        TooDeep = 27,
        UnknownColumn = 28,
    }

    internal enum Truth : uint
    {
        False = 0,
        True = 1,
        NoTruthValue = 2,
    }

    internal enum Form : uint
    {
        PostgresqlColumns = 0,
        PostgresqlJson = 1,
        SqliteColumns = 2,
        SqliteJson = 3,
    }

    internal enum StatementNumber : uint
    {
        Outcome = 0,
        Keep = 1,
        Fault = 2,
    }

    internal enum ValueKind : uint
    {
        Whole = 0,
        Text = 1,
        Instant = 2,
    }

    /// <summary>What a call reports besides its status.</summary>
    [StructLayout(LayoutKind.Sequential)]
    internal struct Answer
    {
        public uint Fault;
        public uint Verdict;
        public UIntPtr Start;
        public UIntPtr Stop;
        public ulong Number;
        public UIntPtr Length;
        public UIntPtr First;
        public ulong Rows;
        public ulong Kept;
        public UIntPtr PieceStart;
        public UIntPtr PieceStop;
        public UIntPtr ValueStart;
        public UIntPtr ValueStop;
    }

    internal static class Numbers
    {
        /// <summary>How many names each fault of a schema carries, by its number.</summary>
        public static readonly int[] SchemaNames = { 0, 0, 0, 0, 1, 2, 1, 1, 2, 2, 0 };

        /// <summary>The name of a fault, or null where this version does not know it.</summary>
        public static string NameOf(Status status, uint fault)
        {
            switch ((uint)status << 8 | fault)
            {
                case 6u << 8 | 0u: return "UnknownType";
                case 7u << 8 | 0u: return "NoFilter";
                case 8u << 8 | 0u: return "MomentNeeded";
                case 9u << 8 | 0u: return "NotAMoment";
                case 16u << 8 | 1u: return "NotJson";
                case 16u << 8 | 2u: return "NotObject";
                case 16u << 8 | 3u: return "Version";
                case 16u << 8 | 4u: return "BadType";
                case 16u << 8 | 5u: return "BadProperty";
                case 16u << 8 | 6u: return "UnknownBase";
                case 16u << 8 | 7u: return "BaseCycle";
                case 16u << 8 | 8u: return "PropertyTwice";
                case 16u << 8 | 9u: return "BadEnumMember";
                case 16u << 8 | 10u: return "TooLarge";
                case 17u << 8 | 1u: return "BadCharacter";
                case 17u << 8 | 2u: return "UnclosedString";
                case 17u << 8 | 3u: return "LeftOutLiteral";
                case 17u << 8 | 4u: return "RunOn";
                case 17u << 8 | 5u: return "TooLong";
                case 18u << 8 | 1u: return "Unexpected";
                case 18u << 8 | 2u: return "TooDeep";
                case 19u << 8 | 1u: return "UnknownProperty";
                case 19u << 8 | 2u: return "UnknownFunction";
                case 19u << 8 | 3u: return "ArgumentCount";
                case 19u << 8 | 4u: return "ArgumentType";
                case 19u << 8 | 5u: return "OperandTypes";
                case 19u << 8 | 6u: return "NotCollection";
                case 19u << 8 | 7u: return "VariableTaken";
                case 19u << 8 | 8u: return "BodyNotBoolean";
                case 19u << 8 | 9u: return "LiteralRange";
                case 19u << 8 | 10u: return "UnknownEnum";
                case 19u << 8 | 11u: return "TypeLeftOut";
                case 19u << 8 | 12u: return "NotBoolean";
                case 20u << 8 | 1u: return "BadEscape";
                case 20u << 8 | 2u: return "NotUtf8";
                case 20u << 8 | 3u: return "Repeated";
                case 20u << 8 | 4u: return "OtherOption";
                case 20u << 8 | 5u: return "Disguised";
                case 21u << 8 | 0u: return "Json";
                case 22u << 8 | 1u: return "NotObject";
                case 22u << 8 | 2u: return "Missing";
                case 22u << 8 | 3u: return "WrongKind";
                case 22u << 8 | 4u: return "NullNotAllowed";
                case 22u << 8 | 5u: return "OutOfRange";
                case 22u << 8 | 6u: return "BadText";
                case 22u << 8 | 8u: return "NotExpanded";
                case 23u << 8 | 1u: return "Overflow";
                case 23u << 8 | 2u: return "DivideByZero";
                case 24u << 8 | 0u: return "LineTooLong";
                case 25u << 8 | 0u: return "TooCostly";
                case 26u << 8 | 0u: return "Nul";
                case 27u << 8 | 0u: return "TooDeep";
                case 28u << 8 | 0u: return "UnknownColumn";
                default: return null;
            }
        }
    }

    /// <summary>The calls of the C library.</summary>
    internal static class Native
    {
        private const string Library = "odfilter";

        /// <summary>Refuses a library that writes longer answers than these classes read.</summary>
        static unsafe Native()
        {
            if (odfilter_fits((ulong)sizeof(Answer)) != Status.Ok)
            {
                throw new DllNotFoundException("The library is newer than these classes: its answers are longer.");
            }
        }

        [DllImport(Library)]
        internal static extern Status odfilter_read_schema(
            Bytes document, Bytes names, out Handle schema, out Answer answer);

        [DllImport(Library)]
        internal static extern Status odfilter_find_type(Handle schema, Bytes name, out Handle type);

        [DllImport(Library)]
        internal static extern Status odfilter_types(Handle given, Bytes text, out Answer answer);

        [DllImport(Library)]
        internal static extern Status odfilter_check(Handle type, Bytes text, out Handle filter, out Answer answer);

        [DllImport(Library)]
        internal static extern Status odfilter_check_query(
            Handle type, Bytes query, out Handle filter, out Answer answer);

        [DllImport(Library)]
        internal static extern Status odfilter_check_url(
            Handle type, Bytes query, Bytes text, out Handle filter, out Answer answer);

        [DllImport(Library)]
        internal static extern Status odfilter_canonical(Handle filter, Bytes text, out Answer answer);

        [DllImport(Library)]
        internal static extern Status odfilter_explain(Handle filter, Bytes text, out Answer answer);

        [DllImport(Library)]
        internal static extern Status odfilter_needs_moment(Handle filter, out Answer answer);

        [DllImport(Library)]
        internal static extern Status odfilter_node_count(Handle filter, out Answer answer);

        [DllImport(Library)]
        internal static extern Status odfilter_lambda_depth(Handle filter, out Answer answer);

        [DllImport(Library)]
        internal static extern Status odfilter_property_paths(Handle filter, Bytes paths, out Answer answer);

        [DllImport(Library)]
        internal static extern Status odfilter_sql(Handle filter, uint form, Bytes how, Bytes text, out Answer answer);

        [DllImport(Library)]
        internal static extern Status odfilter_new_sql(
            Handle filter, uint form, Bytes how, out Handle conditions, out Answer answer);

        [DllImport(Library)]
        internal static extern Status odfilter_sql_text(Handle conditions, uint which, Bytes text, out Answer answer);

        [DllImport(Library)]
        internal static extern Status odfilter_sql_value(
            Handle conditions, uint which, uint index, Bytes text, out Answer answer);

        [DllImport(Library)]
        internal static extern Status odfilter_new_judge(out Handle judge);

        [DllImport(Library)]
        internal static extern Status odfilter_new_judge_of(Handle filter, out Handle judge);

        [DllImport(Library)]
        internal static extern Status odfilter_set_moment(Handle judge, Bytes moment);

        [DllImport(Library)]
        internal static extern Status odfilter_set_bound(Handle judge, ulong most);

        [DllImport(Library)]
        internal static extern Status odfilter_judge(Handle filter, Handle judge, Bytes row, out Answer answer);

        [DllImport(Library)]
        internal static extern Status odfilter_judge_next(Handle judge, Bytes row, out Answer answer);

        [DllImport(Library)]
        internal static extern Status odfilter_filter_lines(
            Handle filter, Handle judge, Bytes rows, Bytes kept, out Answer answer);

        [DllImport(Library)]
        internal static extern Status odfilter_path(Handle judge, Bytes path, out Answer answer);

        [DllImport(Library)]
        internal static extern Status odfilter_share(Handle handle, out Handle made);

        [DllImport(Library)]
        internal static extern Status odfilter_free(ref IntPtr handle);

        [DllImport(Library)]
        internal static extern Status odfilter_fits(ulong answerSize);

        [DllImport(Library)]
        internal static extern Status odfilter_version(Bytes text, out Answer answer);

        [DllImport(Library)]
        internal static extern Status odfilter_status_name(uint status, Bytes text, out Answer answer);

        [DllImport(Library)]
        internal static extern Status odfilter_fault_name(uint status, uint fault, Bytes text, out Answer answer);

        [DllImport(Library)]
        internal static extern Status odfilter_fault_text(
            Handle type, uint status, Bytes text, Bytes sentence, ref Answer fault, out Answer answer);

        [DllImport(Library)]
        internal static extern Status odfilter_fault_text(
            IntPtr type, uint status, Bytes text, Bytes sentence, ref Answer fault, out Answer answer);

        [DllImport(Library)]
        internal static extern Status odfilter_fault_json(
            Handle type, uint status, Bytes text, Bytes json, ref Answer fault, out Answer answer);

        [DllImport(Library)]
        internal static extern Status odfilter_fault_json(
            IntPtr type, uint status, Bytes text, Bytes json, ref Answer fault, out Answer answer);
    }
}
