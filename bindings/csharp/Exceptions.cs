using System;
using System.Collections.Generic;
using System.Text;

namespace Odfilter
{
    /// <summary>Why a call gave nothing. The code stays from version to version; the message is a sentence for people.
    /// Without a class of their own: NotUtf8, MomentNeeded, NotAMoment, UnknownColumn, and of SQL Nul and
    /// TooDeep.</summary>
    public class ODataException : Exception
    {
        internal ODataException(string code, string message, string json = "") : base(message)
        {
            Code = code;
            Json = json;
        }

        /// <summary>The name of the fault.</summary>
        public string Code { get; }

        /// <summary>The object that the program prints of it by --format json, with the edits that the type suggests;
        /// empty where there is none.</summary>
        public string Json { get; }

        /// <summary>The error of a status that says everything but what it is about.</summary>
        internal static Exception Of(Status status, string about = "")
        {
            if (status == Status.Memory)
            {
                return new OutOfMemoryException();
            }
            if (status == Status.NotUtf8)
            {
                return new ODataException("NotUtf8", "The text is not UTF-8.");
            }
            if (Numbers.NameOf(status, 0) == null)
            {
                return new InvalidOperationException("odfilter: status " + (uint)status);
            }
            var text = Text.Utf8(about);
            var fault = default(Answer);
            return new ODataException(Text.CodeOf(status, fault), Text.MessageOf(null, status, text, fault),
                Text.JsonOf(null, status, text, fault));
        }
    }

    /// <summary>What a refused filter lacks: tokens, a tree, or types.</summary>
    public enum RefusalKind
    {
        Text,
        Syntax,
        Type,
    }

    /// <summary>A range of bytes: the first and the one after the last.</summary>
    public struct ByteSpan
    {
        internal ByteSpan(UIntPtr start, UIntPtr stop)
        {
            Start = (int)start;
            Stop = (int)stop;
        }

        public int Start { get; }

        public int Stop { get; }

        public override string ToString()
        {
            return Start + ".." + Stop;
        }
    }

    /// <summary>A filter is refused: at Text.Substring(Start, Length), and at Bytes of the text's UTF-8.</summary>
    public sealed class FilterRefusedException : ODataException
    {
        internal FilterRefusedException(Status status, byte[] text, Answer answer, Handle type)
            : base(Odfilter.Text.CodeOf(status, answer), Odfilter.Text.MessageOf(type, status, text, answer),
                Odfilter.Text.JsonOf(type, status, text, answer))
        {
            Kind = (RefusalKind)(status - Status.TextFault);
            Text = Odfilter.Text.Of(text);
            Bytes = new ByteSpan(answer.Start, answer.Stop);
            Start = Odfilter.Text.Of(text, 0, Bytes.Start).Length;
            Length = Odfilter.Text.Of(text, Bytes.Start, Bytes.Stop - Bytes.Start).Length;
            Piece = new ByteSpan(answer.PieceStart, answer.PieceStop);
            Value = new ByteSpan(answer.ValueStart, answer.ValueStop);
        }

        public RefusalKind Kind { get; }

        /// <summary>The filter's text, decoded where it stood in a query.</summary>
        public string Text { get; }

        public int Start { get; }

        public int Length { get; }

        public ByteSpan Bytes { get; }

        /// <summary>Of CheckUrl: the bytes of the query that the filter's option takes, name and value.</summary>
        public ByteSpan Piece { get; }

        /// <summary>Of CheckUrl: the bytes of the query that the option's value takes.</summary>
        public ByteSpan Value { get; }

        /// <summary>The text, and below it a caret under each character of the span, one at least.</summary>
        public string Pointed
        {
            get
            {
                var shown = new StringBuilder();
                foreach (var it in Text)
                {
                    shown.Append(char.IsControl(it) || it == '\u2028' || it == '\u2029' ? '\uFFFD' : it);
                }
                var before = CharactersIn(Text.Substring(0, Start));
                var within = Math.Max(CharactersIn(Text.Substring(Start, Length)), 1);
                return shown + "\n" + new string(' ', before) + new string('^', within);
            }
        }

        private static int CharactersIn(string text)
        {
            var count = 0;
            foreach (var it in text)
            {
                count += char.IsLowSurrogate(it) ? 0 : 1;
            }
            return count;
        }
    }

    /// <summary>A query is refused. Number is the byte of the '%' for the code BadEscape, and else the index of the
    /// option; both count from 0.</summary>
    public sealed class QueryRefusedException : ODataException
    {
        internal QueryRefusedException(byte[] query, Answer answer)
            : base(Text.CodeOf(Status.QueryFault, answer), Text.MessageOf(null, Status.QueryFault, query, answer),
                Text.JsonOf(null, Status.QueryFault, query, answer))
        {
            Number = answer.Number;
        }

        public ulong Number { get; }
    }

    /// <summary>A document is no schema. Names are those that the fault carries, none to two.</summary>
    public sealed class SchemaException : ODataException
    {
        internal SchemaException(byte[] names, Answer answer)
            : base(Text.CodeOf(Status.SchemaFault, answer), Text.MessageOf(null, Status.SchemaFault, names, answer),
                Text.JsonOf(null, Status.SchemaFault, names, answer))
        {
            var first = (int)answer.First;
            var both = new[] { Text.Of(names, 0, first), Text.Of(names, first, names.Length - first) };
            var count = answer.Fault < Numbers.SchemaNames.Length ? Numbers.SchemaNames[answer.Fault]
                : names.Length == 0 ? 0 : 2;
            Array.Resize(ref both, count);
            Names = both;
        }

        public IReadOnlyList<string> Names { get; }
    }

    /// <summary>A schema has no entity type of that name.</summary>
    public sealed class UnknownTypeException : ODataException
    {
        internal UnknownTypeException(string typeName)
            : base("UnknownType", Text.MessageOf(null, Status.UnknownType, Text.Utf8(typeName), default(Answer)),
                Text.JsonOf(null, Status.UnknownType, Text.Utf8(typeName), default(Answer)))
        {
            TypeName = typeName;
        }

        public string TypeName { get; }
    }

    /// <summary>A row has no verdict; one that costs more than the judge's bound has the code TooCostly. Lines are
    /// counted from 1; Kept has the lines that are kept before it. The line of Json is null.</summary>
    public sealed class RowException : ODataException
    {
        internal RowException(Status status, Answer answer, byte[] path, ulong line, byte[] kept)
            : base(Text.CodeOf(status, answer), Text.MessageOf(null, status, path, answer),
                JsonOf(status, answer, path))
        {
            Path = Text.Of(path);
            Line = line;
            Kept = kept;
        }

        /// <summary>The path from the row to the value at fault, as Parts/0/Qty; it may be empty.</summary>
        public string Path { get; }

        public ulong Line { get; internal set; }

        public byte[] Kept { get; }

        /// <summary>Without the line, which may be counted from elsewhere.</summary>
        private static string JsonOf(Status status, Answer answer, byte[] path)
        {
            answer.Number = 0;
            return Text.JsonOf(null, status, path, answer);
        }
    }
}
