using System;
using System.Collections.Generic;
using System.IO;

namespace Odfilter
{
    /// <summary>A schema, read from a CSDL JSON document. Any number of threads may use one schema, type or filter.
    /// They may share a judge too, but its calls wait for one another.</summary>
    public sealed class Schema : Held
    {
        private Schema(Handle made) : base(made)
        {
        }

        /// <summary>The version of the C library.</summary>
        public static string LibraryVersion
        {
            get { return Text.Of(Text.Written(Native.odfilter_version)); }
        }

        /// <summary>Reads a CSDL JSON 4.01 document, or throws a SchemaException.</summary>
        public static unsafe Schema Read(byte[] document)
        {
            var names = new byte[256];
            while (true)
            {
                var answer = default(Answer);
                Handle made = null;
                Status status;
                fixed (byte* at = names)
                {
                    var buffer = new Bytes(at, names.Length);
                    status = Text.With(document,
                        given => Native.odfilter_read_schema(given, buffer, out made, out answer));
                }
                if (status == Status.Ok)
                {
                    return new Schema(made);
                }
                if (status != Status.SchemaFault)
                {
                    throw ODataException.Of(status);
                }
                var isWritten = (int)answer.Length <= names.Length;
                Array.Resize(ref names, (int)answer.Length);
                if (isWritten)
                {
                    throw new SchemaException(names, answer);
                }
            }
        }

        /// <summary>Reads a CSDL JSON 4.01 document, or throws a SchemaException.</summary>
        public static Schema Read(string document)
        {
            return Read(Text.Utf8(document));
        }

        /// <summary>Reads a CSDL JSON 4.01 document, or throws a SchemaException.</summary>
        public static Schema Read(Stream document)
        {
            using (var all = new MemoryStream())
            {
                document.CopyTo(all);
                return Read(all.ToArray());
            }
        }

        /// <summary>The entity and complex types that it declares, in the byte order of their names.</summary>
        public IReadOnlyList<DeclaredType> Types
        {
            get { return DeclaredType.Of(Open); }
        }

        /// <summary>The entity type of that name, with its namespace or the alias of that; or an UnknownTypeException
        /// is thrown.</summary>
        public EntityType Type(string name)
        {
            Handle made = null;
            var schema = Open;
            var status = Text.With(Text.Utf8(name), given => Native.odfilter_find_type(schema, given, out made));
            switch (status)
            {
                case Status.Ok:
                    return new EntityType(made);
                case Status.UnknownType:
                    throw new UnknownTypeException(name);
                default:
                    throw ODataException.Of(status);
            }
        }
    }
}
