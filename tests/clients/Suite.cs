using System;
using System.IO;
using System.Linq;
using System.Text;
using Odfilter;

/// <summary>Answers the questions of tests/library_cases.py by the C# classes: `Suite.exe FILE`.</summary>
internal static class Suite
{
    private static byte[] wire;
    private static int at;
    // what is held from question to question; null where nothing could be made
    private static Schema schema;
    private static EntityType type;
    private static Filter filter;

    private static void Main(string[] words)
    {
        wire = File.ReadAllBytes(words[0]);
        using (var all = new MemoryStream())
        {
            while (at < wire.Length)
            {
                var answer = Answer(Encoding.UTF8.GetString(Next()));
                var head = Encoding.UTF8.GetBytes(answer.Length + ":");
                all.Write(head, 0, head.Length);
                all.Write(answer, 0, answer.Length);
                all.WriteByte((byte)',');
            }
            using (var output = Console.OpenStandardOutput())
            {
                all.WriteTo(output);
            }
        }
    }

    /// <summary>The next text of the questions.</summary>
    private static byte[] Next()
    {
        var length = 0;
        for (; wire[at] != ':'; at++)
        {
            length = length * 10 + wire[at] - '0';
        }
        var text = new byte[length];
        Array.Copy(wire, at + 1, text, 0, length);
        at += length + 2;
        return text;
    }

    private static byte[] Answer(string word)
    {
        switch (word)
        {
            case "schema":
                return Encoding.UTF8.GetBytes(ReadSchema(Next()));
            case "type":
                return Encoding.UTF8.GetBytes(FindType(Encoding.UTF8.GetString(Next())));
            case "filter":
            case "query":
            case "url":
                return Encoding.UTF8.GetBytes(Check(word, Next()));
            case "canonical":
                return Encoding.UTF8.GetBytes(filter == null ? "nothing" : filter.Canonical);
            case "explain":
                return Encoding.UTF8.GetBytes(filter == null ? "nothing" : filter.Explanation);
            default:
                return Judged(word, Next(), Encoding.UTF8.GetString(Next()));
        }
    }

    private static string ReadSchema(byte[] document)
    {
        Close(ref type);
        Close(ref filter);
        Close(ref schema);
        try
        {
            schema = Schema.Read(document);
            return "accepted";
        }
        catch (SchemaException fault)
        {
            return string.Join(" ", new[] { fault.Code }.Concat(fault.Names));
        }
    }

    private static string FindType(string name)
    {
        Close(ref type);
        Close(ref filter);
        if (schema == null)
        {
            return "nothing";
        }
        try
        {
            type = schema.Type(name);
            return "found";
        }
        catch (UnknownTypeException)
        {
            return "unknown";
        }
    }

    private static string Check(string word, byte[] text)
    {
        if (type == null)
        {
            return "nothing";
        }
        Close(ref filter);
        try
        {
            filter = word == "filter" ? type.Check(Encoding.UTF8.GetString(text))
                : word == "query" ? type.CheckQuery(text) : type.CheckUrl(text);
        }
        catch (FilterRefusedException refused)
        {
            var where = Where(refused.Piece, refused.Value, refused.Text);
            return "refused " + refused.Code + " " + refused.Bytes + (word == "url" ? where : "");
        }
        catch (QueryRefusedException refused)
        {
            return "refused query " + refused.Code + " " + refused.Number;
        }
        if (filter == null)
        {
            return "no filter";
        }
        return "accepted" + (word == "url" ? Where(filter.Piece, filter.Value, filter.Text) : "");
    }

    private static string Where(ByteSpan piece, ByteSpan value, string text)
    {
        return "\n" + piece.Start + " " + piece.Stop + " " + value.Start + " " + value.Stop + "\n" + text;
    }

    private static byte[] Judged(string word, byte[] rows, string moment)
    {
        if (filter == null)
        {
            return Encoding.UTF8.GetBytes("nothing");
        }
        using (var judge = filter.NewJudge(moment == "" ? null : moment))
        {
            try
            {
                if (word == "row")
                {
                    var verdict = judge.Verdict(rows);
                    return Encoding.UTF8.GetBytes(verdict == null ? "null" : verdict.Value ? "true" : "false");
                }
                return new byte[] { 10 }.Concat(judge.FilterLines(rows).Text).ToArray();
            }
            catch (RowException fault)
            {
                var said = (fault.Code + " " + fault.Path).Trim();
                return word == "row" ? Encoding.UTF8.GetBytes(said)
                    : Encoding.UTF8.GetBytes("row " + fault.Line + " " + said + "\n").Concat(fault.Kept).ToArray();
            }
        }
    }

    private static void Close<T>(ref T held) where T : class, IDisposable
    {
        if (held != null)
        {
            held.Dispose();
        }
        held = null;
    }
}
