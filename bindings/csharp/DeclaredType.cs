using System;
using System.Collections.Generic;
using System.Linq;

namespace Odfilter
{
    /// <summary>An entity or complex type as a schema declares it.</summary>
    public sealed class DeclaredType
    {
        private DeclaredType(string head, IEnumerable<string> properties)
        {
            var words = head.Split(' ');
            Kind = words[0];
            Name = words[1];
            Properties = properties.Select(line => new DeclaredProperty(line.Split(' '))).ToArray();
        }

        /// <summary>The name with its namespace.</summary>
        public string Name { get; }

        /// <summary>entity or complex.</summary>
        public string Kind { get; }

        /// <summary>The properties, those of its base first.</summary>
        public IReadOnlyList<DeclaredProperty> Properties { get; }

        /// <summary>The types of a schema, or one type, from the lines that the library writes: that of a property
        /// begins with two spaces.</summary>
        internal static IReadOnlyList<DeclaredType> Of(Handle given)
        {
            var lines = Text.Of(Text.Written(
                (Bytes text, out Answer answer) => Native.odfilter_types(given, text, out answer)));
            var blocks = lines.Replace("\n  ", "\0").Split(new[] { '\n' }, StringSplitOptions.RemoveEmptyEntries);
            return blocks.Select(it => it.Split('\0')).Select(it => new DeclaredType(it[0], it.Skip(1))).ToArray();
        }
    }

    /// <summary>A property as a schema declares it; of a collection, Type and IsNullable are those of an
    /// item.</summary>
    public sealed class DeclaredProperty
    {
        private const string OfMany = "Collection(";

        internal DeclaredProperty(string[] words)
        {
            var item = words[1];
            IsCollection = item.StartsWith(OfMany, StringComparison.Ordinal);
            item = IsCollection ? item.Substring(OfMany.Length, item.Length - OfMany.Length - 1) : item;
            Name = words[0];
            Type = item == "?" ? null : item;
            IsNullable = words.Skip(2).Contains("nullable");
            IsNavigation = words.Skip(2).Contains("navigation");
        }

        public string Name { get; }

        /// <summary>The name of the type; null where it is not read: neither filters nor rows can have the
        /// property.</summary>
        public string Type { get; }

        public bool IsCollection { get; }

        public bool IsNullable { get; }

        public bool IsNavigation { get; }
    }
}
