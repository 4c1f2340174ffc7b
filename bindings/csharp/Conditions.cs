using System.Collections.Generic;

namespace Odfilter
{
    /// <summary>An engine that conditions of SQL are written for.</summary>
    public enum SqlDialect
    {
        PostgreSql,
        Sqlite,
    }

    /// <summary>An expression of SQL over a table t. Its parameters are numbered from 1; each is a long or a
    /// string.</summary>
    public sealed class Statement
    {
        private Statement(string text, IReadOnlyList<object> parameters)
        {
            Text = text;
            Parameters = parameters;
        }

        /// <summary>A statement of conditions; null where they have no such one.</summary>
        internal static Statement Of(Handle conditions, StatementNumber which)
        {
            Answer answer;
            var status = Native.odfilter_sql_text(conditions, (uint)which, default(Bytes), out answer);
            if (status == Status.UnknownNumber)
            {
                return null;
            }
            var count = 0UL;
            var text = Odfilter.Text.Of(Odfilter.Text.Written((Bytes buffer, out Answer written) =>
            {
                var returned = Native.odfilter_sql_text(conditions, (uint)which, buffer, out written);
                count = written.Number;
                return returned;
            }));
            var parameters = new object[count];
            for (var index = 0; index < parameters.Length; index++)
            {
                parameters[index] = Value(conditions, which, (uint)index);
            }
            return new Statement(text, parameters);
        }

        private static object Value(Handle conditions, StatementNumber which, uint index)
        {
            var value = default(Answer);
            var text = Odfilter.Text.Written((Bytes buffer, out Answer written) =>
            {
                var returned = Native.odfilter_sql_value(conditions, (uint)which, index, buffer, out written);
                value = written;
                return returned;
            });
            var isWhole = (ValueKind)value.Verdict == ValueKind.Whole;
            return isWhole ? unchecked((long)value.Number) : (object)Odfilter.Text.Of(text);
        }

        public string Text { get; }

        public IReadOnlyList<object> Parameters { get; }
    }

    /// <summary>What a filter says of the rows of a table. Outcome is 0 for false, 1 for true, 2 for null, 3 for
    /// Overflow and 4 for DivideByZero; Keep is true where the filter is; Fault, where it has a fault, and null where
    /// no row can have one.</summary>
    public sealed class Conditions
    {
        internal Conditions(Handle made)
        {
            Outcome = Statement.Of(made, StatementNumber.Outcome);
            Keep = Statement.Of(made, StatementNumber.Keep);
            Fault = Statement.Of(made, StatementNumber.Fault);
        }

        public Statement Outcome { get; }

        public Statement Keep { get; }

        public Statement Fault { get; }
    }
}
