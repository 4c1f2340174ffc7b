using System;
using System.Text;

namespace Odfilter
{
    /// <summary>Texts in UTF-8, and what the library writes.</summary>
    internal static class Text
    {
        private static readonly UTF8Encoding Strict = new UTF8Encoding(false, true);
        internal static readonly byte[] None = new byte[0];

        internal delegate Status Taker(Bytes bytes);

        internal delegate Status Writer(Bytes buffer, out Answer answer);

        /// <summary>The UTF-8 of a text. A lone surrogate has none; Encoding.UTF8 would replace it.</summary>
        internal static byte[] Utf8(string text)
        {
            if (text == null)
            {
                throw new ArgumentNullException(nameof(text));
            }
            try
            {
                return Strict.GetBytes(text);
            }
            catch (EncoderFallbackException)
            {
                throw new ODataException("NotUtf8", "The text has a lone surrogate.");
            }
        }

        internal static string Of(byte[] utf8)
        {
            return Encoding.UTF8.GetString(utf8);
        }

        internal static string Of(byte[] utf8, int start, int count)
        {
            return Encoding.UTF8.GetString(utf8, start, count);
        }

        /// <summary>A call that borrows bytes.</summary>
        internal static unsafe Status With(byte[] given, Taker call)
        {
            if (given == null)
            {
                throw new ArgumentNullException(nameof(given));
            }
            fixed (byte* at = given)
            {
                return call(new Bytes(at, given.Length));
            }
        }

        /// <summary>The bytes that a call writes into a buffer, which grows to the length that the call asks
        /// for.</summary>
        internal static unsafe byte[] Written(Writer call)
        {
            var text = new byte[256];
            while (true)
            {
                Answer answer;
                Status status;
                fixed (byte* at = text)
                {
                    status = call(new Bytes(at, text.Length), out answer);
                }
                if (status == Status.Ok)
                {
                    Array.Resize(ref text, (int)answer.Length);
                    return text;
                }
                if (status != Status.TooSmall)
                {
                    throw ODataException.Of(status);
                }
                text = new byte[(int)answer.Length];
            }
        }

        /// <summary>The name of a fault. A library that is newer than this package may know more of them.</summary>
        internal static string CodeOf(Status status, Answer fault)
        {
            return Numbers.NameOf(status, fault.Fault) ?? Of(Written((Bytes text, out Answer answer) =>
                Native.odfilter_fault_name((uint)status, fault.Fault, text, out answer)));
        }

        /// <summary>The library's sentence about a fault of a text; the type may be null.</summary>
        internal static string MessageOf(Handle type, Status status, byte[] about, Answer fault)
        {
            return Of(Written((Bytes sentence, out Answer answer) =>
            {
                var written = default(Answer);
                var returned = With(about, given => type == null
                    ? Native.odfilter_fault_text(IntPtr.Zero, (uint)status, given, sentence, ref fault, out written)
                    : Native.odfilter_fault_text(type, (uint)status, given, sentence, ref fault, out written));
                answer = written;
                return returned;
            }));
        }

        /// <summary>The object of a fault of a text, for programs; the type may be null.</summary>
        internal static string JsonOf(Handle type, Status status, byte[] about, Answer fault)
        {
            return Of(Written((Bytes json, out Answer answer) =>
            {
                var written = default(Answer);
                var returned = With(about, given => type == null
                    ? Native.odfilter_fault_json(IntPtr.Zero, (uint)status, given, json, ref fault, out written)
                    : Native.odfilter_fault_json(type, (uint)status, given, json, ref fault, out written));
                answer = written;
                return returned;
            }));
        }

        /// <summary>The decoded text of the option filter or $filter of a query that has one.</summary>
        internal static byte[] FilterText(byte[] query)
        {
            foreach (var option in Latin1(query).Split('&'))
            {
                var at = option.IndexOf('=');
                var name = Latin1(Unescaped(at < 0 ? option : option.Substring(0, at))).ToLowerInvariant();
                if (name == "filter" || name == "$filter")
                {
                    return Unescaped(at < 0 ? "" : option.Substring(at + 1));
                }
            }
            return None;
        }

        private static string Latin1(byte[] bytes)
        {
            return Encoding.GetEncoding("iso-8859-1").GetString(bytes);
        }

        /// <summary>The bytes of a text, each '%' with two digits for the byte that these are.</summary>
        private static byte[] Unescaped(string text)
        {
            var bytes = new byte[text.Length];
            var count = 0;
            for (var at = 0; at < text.Length; at++)
            {
                var isEscape = text[at] == '%' && at + 2 < text.Length;
                if (isEscape && Uri.IsHexDigit(text[at + 1]) && Uri.IsHexDigit(text[at + 2]))
                {
                    bytes[count++] = Convert.ToByte(text.Substring(at + 1, 2), 16);
                    at += 2;
                }
                else
                {
                    bytes[count++] = (byte)text[at];
                }
            }
            Array.Resize(ref bytes, count);
            return bytes;
        }
    }
}
