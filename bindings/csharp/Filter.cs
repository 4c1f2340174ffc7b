using System;
using System.Collections.Generic;
using System.Globalization;
using System.Linq;

namespace Odfilter
{
    /// <summary>A checked filter.</summary>
    public sealed class Filter : Held
    {
        internal Filter(Handle made, string text, Answer answer) : base(made)
        {
            Text = text;
            Piece = new ByteSpan(answer.PieceStart, answer.PieceStop);
            Value = new ByteSpan(answer.ValueStart, answer.ValueStop);
        }

        private delegate Status TextCall(Handle filter, Bytes text, out Answer answer);

        private delegate Status NumberCall(Handle filter, out Answer answer);

        /// <summary>The filter's text, decoded where it stood in a query.</summary>
        public string Text { get; }

        /// <summary>Of CheckUrl: the bytes of the query that the filter's option takes, name and value.</summary>
        public ByteSpan Piece { get; }

        /// <summary>Of CheckUrl: the bytes of the query that the option's value takes, into which another may be
        /// put.</summary>
        public ByteSpan Value { get; }

        /// <summary>One text for all filters that differ in spaces, parentheses and spelling alone.</summary>
        public string Canonical
        {
            get { return TextBy(Native.odfilter_canonical); }
        }

        /// <summary>A line for each node: its span, what it is, and its type.</summary>
        public string Explanation
        {
            get { return TextBy(Native.odfilter_explain); }
        }

        /// <summary>The paths of the properties that the filter reads, each once and in order.</summary>
        public IReadOnlyList<string> PropertyPaths
        {
            get
            {
                var lines = TextBy(Native.odfilter_property_paths);
                return lines.Split(new[] { '\n' }, StringSplitOptions.RemoveEmptyEntries);
            }
        }

        /// <summary>Whether the filter calls now(), so that a judge needs a moment.</summary>
        public bool NeedsMoment
        {
            get { return NumberBy(Native.odfilter_needs_moment) == 1; }
        }

        /// <summary>How many operators, calls, literals and names the filter has.</summary>
        public ulong NodeCount
        {
            get { return NumberBy(Native.odfilter_node_count); }
        }

        /// <summary>How many any() and all() stand in one another, at most.</summary>
        public ulong LambdaDepth
        {
            get { return NumberBy(Native.odfilter_lambda_depth); }
        }

        /// <summary>A judge by this filter, which it keeps. The moment is what now() stands for; the bound is what the
        /// filter may cost on each row of Verdict.</summary>
        public Judge NewJudge(string now = null, ulong? bound = null)
        {
            Handle made;
            var filter = Open;
            var status = Native.odfilter_new_judge_of(filter, out made);
            if (status != Status.Ok)
            {
                throw ODataException.Of(status);
            }
            made.Under = filter;
            var judge = new Judge(made);
            try
            {
                judge.Set(now, bound);
                return judge;
            }
            catch
            {
                judge.Dispose();
                throw;
            }
        }

        /// <summary>As the other call of this name, of a moment of .NET.</summary>
        public Judge NewJudge(DateTimeOffset now, ulong? bound = null)
        {
            return NewJudge(now.ToString("yyyy-MM-dd'T'HH:mm:ss.fffffffzzz", CultureInfo.InvariantCulture), bound);
        }

        /// <summary>The filter as conditions of SQL over a table that has a column for each property: the one that
        /// columns has for it, else one of its name; or, with a document, over the column of that name with each row as
        /// JSON.</summary>
        public Conditions Sql(SqlDialect dialect, IReadOnlyDictionary<string, string> columns = null,
            string document = null, string now = null)
        {
            if (now != null && now.Contains("\n"))
            {
                throw ODataException.Of(Status.NotAMoment, now);
            }
            var lines = document != null ? new[] { document } : ColumnLines(columns).ToArray();
            var how = Odfilter.Text.Utf8((now ?? "") + "\n" + string.Join("\n", lines));
            var form = (uint)(document == null ? Form.PostgresqlColumns : Form.PostgresqlJson);
            form += dialect == SqlDialect.PostgreSql ? 0 : (uint)Form.SqliteColumns - (uint)Form.PostgresqlColumns;
            Handle made = null;
            var filter = Open;
            var answer = default(Answer);
            var status = Odfilter.Text.With(
                how, given => Native.odfilter_new_sql(filter, form, given, out made, out answer));
            if (status != Status.Ok)
            {
                throw ODataException.Of(status, now ?? "");
            }
            using (made)
            {
                return new Conditions(made);
            }
        }

        private static IEnumerable<string> ColumnLines(IReadOnlyDictionary<string, string> columns)
        {
            foreach (var it in columns ?? new Dictionary<string, string>())
            {
                if (it.Key.IndexOfAny(new[] { '=', '\n' }) >= 0 || it.Value.Contains("\n"))
                {
                    throw ODataException.Of(Status.UnknownColumn);
                }
                yield return it.Key + "=" + it.Value;
            }
        }

        private string TextBy(TextCall call)
        {
            var filter = Open;
            return Odfilter.Text.Of(Odfilter.Text.Written(
                (Bytes text, out Answer answer) => call(filter, text, out answer)));
        }

        private ulong NumberBy(NumberCall call)
        {
            Answer answer;
            var status = call(Open, out answer);
            return status == Status.Ok ? answer.Number : throw ODataException.Of(status);
        }
    }
}
