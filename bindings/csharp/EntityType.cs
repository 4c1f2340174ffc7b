using System;
using System.Collections.Generic;
using System.Linq;

namespace Odfilter
{
    /// <summary>An entity type of a schema, for whose entities filters are checked.</summary>
    public sealed class EntityType : Held
    {
        internal EntityType(Handle made) : base(made)
        {
        }

        /// <summary>The properties of the type, those of its base first.</summary>
        public IReadOnlyList<DeclaredProperty> Properties
        {
            get { return DeclaredType.Of(Open).Single().Properties; }
        }

        /// <summary>Checks the text of a filter, or throws a FilterRefusedException.</summary>
        public Filter Check(string text)
        {
            Filter filter;
            FilterRefusedException refusal;
            return TryCheck(text, out filter, out refusal) ? filter : throw refusal;
        }

        /// <summary>Checks the text of a filter. Where it is refused nothing is thrown, and the refusal says
        /// why.</summary>
        public bool TryCheck(string text, out Filter filter, out FilterRefusedException refusal)
        {
            var given = Text.Utf8(text);
            var type = Open;
            Handle made = null;
            var answer = default(Answer);
            var status = Text.With(given, it => Native.odfilter_check(type, it, out made, out answer));
            return IsMade(status, made, answer, given, () => given, out filter, out refusal);
        }

        /// <summary>Checks the filter among any options of a query string, as it stands in a URL after the '?'. Null
        /// where there is none; a FilterRefusedException or QueryRefusedException says why it is refused.</summary>
        public Filter CheckUrl(byte[] query)
        {
            Filter filter;
            FilterRefusedException refusal;
            return TryCheckUrl(query, out filter, out refusal) ? filter : throw refusal;
        }

        /// <summary>As the other call of this name, of a query's UTF-8.</summary>
        public Filter CheckUrl(string query)
        {
            return CheckUrl(Text.Utf8(query));
        }

        /// <summary>As CheckUrl, but a filter that is refused throws nothing. A query that is refused does.</summary>
        public unsafe bool TryCheckUrl(byte[] query, out Filter filter, out FilterRefusedException refusal)
        {
            var text = new byte[query.Length + 1];
            var type = Open;
            Handle made = null;
            var answer = default(Answer);
            Status status;
            fixed (byte* at = text)
            {
                var buffer = new Bytes(at, text.Length);
                status = Text.With(query, it => Native.odfilter_check_url(type, it, buffer, out made, out answer));
            }
            Array.Resize(ref text, (int)answer.Length);
            return IsMade(status, made, answer, query, () => text, out filter, out refusal);
        }

        /// <summary>Checks the filter of a query string with no other option of the standard's. Null where there is
        /// none; a FilterRefusedException or QueryRefusedException says why it is refused.</summary>
        public Filter CheckQuery(byte[] query)
        {
            var type = Open;
            Handle made = null;
            var answer = default(Answer);
            var status = Text.With(query, it => Native.odfilter_check_query(type, it, out made, out answer));
            Filter filter;
            FilterRefusedException refusal;
            var isMade = IsMade(
                status, made, answer, query, () => Text.FilterText(query), out filter, out refusal);
            return isMade ? filter : throw refusal;
        }

        /// <summary>As the other call of this name, of a query's UTF-8.</summary>
        public Filter CheckQuery(string query)
        {
            return CheckQuery(Text.Utf8(query));
        }

        private bool IsMade(Status status, Handle made, Answer answer, byte[] given, Func<byte[]> text,
            out Filter filter, out FilterRefusedException refusal)
        {
            filter = null;
            refusal = null;
            switch (status)
            {
                case Status.Ok:
                    filter = new Filter(made, Text.Of(text()), answer);
                    return true;
                case Status.NoFilter:
                    return true;
                case Status.TextFault:
                case Status.SyntaxFault:
                case Status.TypeFault:
                    refusal = new FilterRefusedException(status, text(), answer, Open);
                    return false;
                case Status.QueryFault:
                    throw new QueryRefusedException(given, answer);
                default:
                    throw ODataException.Of(status);
            }
        }
    }
}
