using System;
using System.Collections.Generic;

namespace Odfilter
{
    /// <summary>Lines that a judge keeps, each with its line feed, and how many rows there were and were
    /// kept.</summary>
    public sealed class KeptLines
    {
        internal KeptLines(byte[] text, Answer answer)
        {
            Text = text;
            Rows = answer.Rows;
            Kept = answer.Kept;
        }

        public byte[] Text { get; }

        public ulong Rows { get; }

        public ulong Kept { get; }
    }

    /// <summary>What judges rows by a filter. Reuse it: it caches how rows of that shape are read. Its calls wait for
    /// one another.</summary>
    public sealed class Judge : Held
    {
        private readonly object oneCall = new object();

        internal Judge(Handle made) : base(made)
        {
        }

        internal void Set(string now, ulong? bound)
        {
            var judge = Open;
            var status = now == null ? Status.Ok
                : Text.With(Text.Utf8(now), given => Native.odfilter_set_moment(judge, given));
            if (status == Status.Ok && bound != null)
            {
                status = Native.odfilter_set_bound(judge, bound.Value);
            }
            if (status != Status.Ok)
            {
                throw ODataException.Of(status, now);
            }
        }

        /// <summary>Whether the filter is true on a row, one JSON object in UTF-8; null where it is null. Throws a
        /// RowException, or the code MomentNeeded.</summary>
        public bool? Verdict(byte[] row)
        {
            return Verdict(row, 0, row.Length);
        }

        /// <summary>As the other call of this name, of some bytes of an array.</summary>
        public unsafe bool? Verdict(byte[] row, int offset, int count)
        {
            if (offset < 0 || count < 0 || offset > row.Length - count)
            {
                throw new ArgumentOutOfRangeException(nameof(count));
            }
            lock (oneCall)
            {
                Answer answer;
                Status status;
                fixed (byte* at = row)
                {
                    status = Native.odfilter_judge_next(Open, new Bytes(at + offset, count), out answer);
                }
                if (status != Status.Ok)
                {
                    throw Fault(status, answer, 1, Text.None);
                }
                return answer.Verdict == (uint)Truth.NoTruthValue ? (bool?)null : answer.Verdict == (uint)Truth.True;
            }
        }

        /// <summary>As the other call of this name, of a row's UTF-8.</summary>
        public bool? Verdict(string row)
        {
            return Verdict(Text.Utf8(row));
        }

        /// <summary>The rows on which the filter is true, one after another as they come. The first one at fault is a
        /// RowException, whose Line counts the rows.</summary>
        public IEnumerable<string> Keep(IEnumerable<string> rows)
        {
            ulong line = 0;
            foreach (var row in rows)
            {
                line++;
                if (IsKept(row, line))
                {
                    yield return row;
                }
            }
        }

        private bool IsKept(string row, ulong line)
        {
            try
            {
                return Verdict(row) == true;
            }
            catch (RowException fault)
            {
                fault.Line = line;
                throw;
            }
        }

        /// <summary>Judges rows, one JSON object a line, and returns those on which the filter is true. Blank lines are
        /// passed over. The first line at fault, or that costs more than the bound, is a RowException, which has what
        /// is kept before it.</summary>
        public unsafe KeptLines FilterLines(byte[] rows)
        {
            lock (oneCall)
            {
                var judge = Open;
                var kept = new byte[rows.Length + 1];
                var answer = default(Answer);
                Status status;
                fixed (byte* at = kept)
                {
                    var buffer = new Bytes(at, kept.Length);
                    status = Text.With(rows,
                        given => Native.odfilter_filter_lines(judge.Under, judge, given, buffer, out answer));
                }
                Array.Resize(ref kept, (int)answer.Length);
                return status == Status.Ok ? new KeptLines(kept, answer)
                    : throw Fault(status, answer, answer.Number, kept);
            }
        }

        private Exception Fault(Status status, Answer answer, ulong line, byte[] kept)
        {
            switch (status)
            {
                case Status.JsonFault:
                case Status.RowFault:
                case Status.EvalFault:
                case Status.LineTooLong:
                case Status.TooCostly:
                    var judge = Open;
                    var path = Text.Written(
                        (Bytes text, out Answer written) => Native.odfilter_path(judge, text, out written));
                    return new RowException(status, answer, path, line, kept);
                default:
                    return ODataException.Of(status);
            }
        }
    }
}
