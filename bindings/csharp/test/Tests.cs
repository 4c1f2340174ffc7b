using System;
using System.Collections.Generic;
using System.IO;
using System.Linq;
using System.Text;
using System.Threading;
using Odfilter;

/// <summary>The tests of the binding: `Tests.exe` ends with a line of counts.</summary>
internal static partial class Tests
{
    private const string Document = "{\"$Version\":\"4.01\",\"Mini\":{\"Item\":{\"$Kind\":\"EntityType\","
        + "\"ID\":{\"$Type\":\"Edm.Int64\"},\"Name\":{\"$Nullable\":true},\"Active\":{\"$Type\":\"Edm.Boolean\"},"
        + "\"Changed\":{\"$Type\":\"Edm.DateTimeOffset\"},\"Tags\":{\"$Collection\":true}}}}";

    /// <summary>Types with each kind of property.</summary>
    private const string TypesDocument = "{\"$Version\":\"4.01\",\"Mini\":{\"Base\":{\"$Kind\":\"EntityType\","
        + "\"ID\":{\"$Type\":\"Edm.Int64\"}},\"Part\":{\"$Kind\":\"ComplexType\"},\"Item\":{\"$Kind\":\"EntityType\","
        + "\"$BaseType\":\"Mini.Base\",\"Tags\":{\"$Collection\":true,\"$Nullable\":true},"
        + "\"Weight\":{\"$Type\":\"Edm.Double\",\"$Nullable\":true},"
        + "\"Parts\":{\"$Kind\":\"NavigationProperty\",\"$Type\":\"Mini.Base\",\"$Collection\":true}}}}";

    private static int passed;
    private static int failed;

    private static int Main()
    {
        ChecksOfFilters();
        ChecksOfTypes();
        ChecksOfVerdicts();
        ChecksOfRefusals();
        ChecksOfErrors();
        ChecksOfSurrogates();
        ChecksOfSql();
        ChecksOfLines();
        ChecksOfCostlyLines();
        ChecksOfClosing();
        ChecksOfThreads();
        ChecksOfGrowth();
        ChecksOfDepth();
        Figures();
        Console.WriteLine(passed + " passed, " + failed + " failed");
        return failed == 0 ? 0 : 1;
    }

    private static EntityType Item()
    {
        return Schema.Read(Document).Type("Mini.Item");
    }

    /// <summary>An item, with a name as JSON.</summary>
    private static string Row(int id, string name, bool active)
    {
        return "{\"ID\":" + id + ",\"Name\":" + name + ",\"Active\":" + (active ? "true" : "false")
            + ",\"Changed\":\"2026-01-01T00:00:00Z\",\"Tags\":[\"a\",\"b\",\"c\"]}";
    }

    private static void That(string name, bool isWell, object said)
    {
        passed += isWell ? 1 : 0;
        failed += isWell ? 0 : 1;
        if (!isWell)
        {
            Console.WriteLine("FAILED " + name + ": " + said);
        }
    }

    private static void Same(string name, object got, object wanted)
    {
        That(name, Equals(got, wanted), got);
    }

    private static void SameList<T>(string name, IEnumerable<T> got, params T[] wanted)
    {
        That(name, got.SequenceEqual(wanted), string.Join(" ", got));
    }

    /// <summary>What a call throws.</summary>
    private static T Thrown<T>(Action call) where T : Exception
    {
        try
        {
            call();
        }
        catch (T error)
        {
            return error;
        }
        throw new InvalidOperationException("nothing was thrown");
    }

    /// <summary>Whether a call throws an error of that code.</summary>
    private static void Code(string wanted, Action call)
    {
        Same(wanted, Thrown<ODataException>(call).Code, wanted);
    }

    /// <summary>An error that has the library's sentence and object.</summary>
    private static void Said(string wanted, string kind, Action call)
    {
        Code(wanted, call);
        Object(Thrown<ODataException>(call), kind);
    }

    private static void ChecksOfFilters()
    {
        var filter = Item().Check("((Active)) AND ID ge +01 and Tags/any(t:t eq 'b') and Changed lt now()");
        Same("canonical", filter.Canonical, "Active and ID ge 1 and Tags/any(t:t eq 'b') and Changed lt now()");
        SameList("paths", filter.PropertyPaths, "Active", "ID", "Tags", "Changed");
        That("counts", filter.NodeCount > 10 && filter.LambdaDepth == 1 && filter.NeedsMoment, filter.NodeCount);
        That("explanation", filter.Explanation.Contains("Edm.Boolean"), filter.Explanation);
        var longText = string.Concat(Enumerable.Repeat("ID eq 1 or ", 200)) + "Active";
        Same("a long text", Item().Check(longText).Canonical, longText);
        That("version", Schema.LibraryVersion.Split('.').Length == 3, Schema.LibraryVersion);
        var found = Item().CheckUrl("$top=5&$filter=ID%20eq%201");
        Same("of a URL", found.Text + " " + found.Piece + " " + found.Value, "ID eq 1 7..26 15..26");
        Same("no filter", Item().CheckUrl("$top=5"), null);
        Same("no filter in a query", Item().CheckQuery(""), null);
        Filter made;
        FilterRefusedException refusal;
        That("TryCheck", Item().TryCheck("Active", out made, out refusal) && refusal == null, refusal);
        That("TryCheck refuses", !Item().TryCheck("Foo", out made, out refusal) && made == null, made);
        Same("its refusal", refusal.Code, "UnknownProperty");
        var stream = new MemoryStream(Encoding.UTF8.GetBytes(Document));
        That("a stream", Schema.Read(stream).Type("Mini.Item") != null, null);
    }

    private static void ChecksOfTypes()
    {
        var schema = Schema.Read(TypesDocument);
        SameList("types", schema.Types.Select(it => it.Kind + " " + it.Name + " " + it.Properties.Count),
            "entity Mini.Base 1", "entity Mini.Item 4", "complex Mini.Part 0");
        var properties = schema.Type("Mini.Item").Properties;
        SameList("names", properties.Select(it => it.Name), "ID", "Parts", "Tags", "Weight");
        SameList("types of properties", properties.Select(it => it.Type), "Edm.Int64", "Mini.Base", "Edm.String", null);
        SameList("collections", properties.Select(it => it.IsCollection), false, true, true, false);
        SameList("nullable", properties.Select(it => it.IsNullable), false, false, true, true);
        SameList("navigation", properties.Select(it => it.IsNavigation), false, true, false, false);
        Same("no types", Schema.Read("{\"$Version\":\"4.01\"}").Types.Count, 0);
    }

    /// <summary>The object of a fault has its class, its name and its sentence.</summary>
    private static void Object(ODataException error, string wanted)
    {
        That(wanted, error.Json.StartsWith("{\"class\":\"" + wanted + "\",") && error.Json.EndsWith("}"), error.Json);
        That(error.Code, error.Json.Contains("\"name\":\"" + error.Code + "\""), error.Json);
        That(error.Message, error.Json.Contains("\"sentence\":\"" + error.Message.Replace("\"", "\\\"")), error.Json);
    }

    private static void ChecksOfVerdicts()
    {
        var judge = Item().Check("Active and contains(Name,'a')").NewJudge();
        Same("true", judge.Verdict(Row(1, "\"cab\"", true)), true);
        Same("false", judge.Verdict(Encoding.UTF8.GetBytes(Row(1, "\"xy\"", true))), false);
        Same("null", judge.Verdict(Row(1, "null", true)), null);
        var inside = Encoding.UTF8.GetBytes("xx" + Row(1, "\"cab\"", true) + "x");
        Same("some bytes", judge.Verdict(inside, 2, inside.Length - 3), true);
        Thrown<ArgumentOutOfRangeException>(() => judge.Verdict(inside, 2, inside.Length));
        var now = Item().Check("Changed lt now()");
        foreach (var year in new[] { 2025, 2026 })
        {
            var moment = new DateTimeOffset(year, 11, 25, 9, 0, 0, TimeSpan.FromHours(2));
            Same("at", now.NewJudge(moment).Verdict(Row(1, "null", true)), year == 2026);
            Same("at", now.NewJudge(year + "-11-25T09:00:00Z").Verdict(Row(1, "null", true)), year == 2026);
        }
        Same("within", Item().Check("Tags/any(t:t eq 'b')").NewJudge(bound: 2).Verdict(Row(1, "null", true)), true);
    }

    private static void ChecksOfRefusals()
    {
        var text = "Name eq '\uD83E\uDD8A\u00e9' and Foo eq 1";
        var refused = Thrown<FilterRefusedException>(() => Item().Check(text));
        Same("kind", refused.Kind, RefusalKind.Type);
        Same("code", refused.Code, "UnknownProperty");
        That("message", refused.Message.EndsWith("."), refused.Message);
        Same("span", text.Substring(refused.Start, refused.Length), "Foo");
        Same("bytes", refused.Bytes.Start, refused.Start + 3);
        Same("pointed", refused.Pointed, text + "\n                 ^^^");
        Object(refused, "typing");
        Same("empty", Thrown<FilterRefusedException>(() => Item().Check("")).Pointed, "\n^");
        refused = Thrown<FilterRefusedException>(() => Item().CheckUrl("$top=5&$filter=Foo%20eq%201"));
        Same("in a URL", refused.Piece + " " + refused.Value, "7..27 15..27");
        refused = Thrown<FilterRefusedException>(() => Item().CheckQuery("x=1&%24Filter=Name%20eq%0A'\u00e9'&y=2"));
        Same("in a query", refused.Code + refused.Text + refused.Bytes, "BadCharacterName eq\n'\u00e9'7..8");
    }

    private static void ChecksOfErrors()
    {
        var query = Thrown<QueryRefusedException>(() => Item().CheckUrl("a&x=1;$filter=Foo"));
        Same("query", query.Code + query.Number, "Disguised1");
        Object(query, "query");
        var name = new string('A', 999);
        var document = "{\"$Version\":\"4.01\",\"N\":{\"" + name + "\":{\"$Kind\":\"EntityType\",\"P\":5}}}";
        var schema = Thrown<SchemaException>(() => Schema.Read(document));
        SameList(schema.Code, schema.Names, "N." + name, "P");
        Object(schema, "schema");
        var unknown = Thrown<UnknownTypeException>(() => Schema.Read(Document).Type("Mini.No"));
        Same("type", unknown.TypeName, "Mini.No");
        Object(unknown, "unknown_type");
        var text = Row(7, "null", true);
        var fault = Thrown<RowException>(() => Item().Check("Active").NewJudge().Verdict(text.Replace("7", "\"7\"")));
        Same("row", fault.Code + fault.Path + fault.Line, "WrongKindID1");
        Object(fault, "row");
        var needs = Item().Check("Changed lt now()");
        Said("MomentNeeded", "moment_needed", () => needs.NewJudge().Verdict(text));
        Said("MomentNeeded", "moment_needed", () => needs.Sql(SqlDialect.Sqlite));
        Said("NotAMoment", "not_a_moment", () => needs.NewJudge("soon"));
        Said("NotAMoment", "not_a_moment", () => needs.Sql(SqlDialect.Sqlite, now: "soon"));
        Code("NotAMoment", () => needs.Sql(SqlDialect.Sqlite, now: "2026-01-01T00:00:00Z\nID=x"));
        var costly = Item().Check("Tags/any(t:t eq 'z')");
        Said("TooCostly", "too_costly", () => costly.NewJudge(bound: 2).Verdict(text));
        foreach (var property in new[] { "No", "ID=" })
        {
            Said("UnknownColumn", "unknown_column",
                () => Item().Check("Active").Sql(SqlDialect.Sqlite, Columns(property, "x")));
        }
        Said("Nul", "unsayable", () => Item().Check("Name eq 'a\0'").Sql(SqlDialect.Sqlite));
        var deep = string.Concat(Enumerable.Repeat("(ID add ", 60)) + "ID" + new string(')', 60) + " eq 1";
        Said("TooDeep", "too_deep", () => Item().Check(deep).Sql(SqlDialect.Sqlite));
    }

    private static Dictionary<string, string> Columns(string name, string column)
    {
        return new Dictionary<string, string> { { name, column } };
    }

    /// <summary>Where a text is given, a lone surrogate is refused.</summary>
    private static void ChecksOfSurrogates()
    {
        Code("NotUtf8", () => Item().Check("Name eq '\uD800'"));
        Code("NotUtf8", () => Item().CheckUrl("$filter=Name eq '\uDFFF'"));
        Code("NotUtf8", () => Item().CheckQuery("filter=\uDC80"));
        Code("NotUtf8", () => Schema.Read("{\"\uD800\":1}"));
        Code("NotUtf8", () => Schema.Read(Document).Type("Mini.\uDFFF"));
        Code("NotUtf8", () => Item().Check("Active").NewJudge("\uDC80"));
        Code("NotUtf8", () => Item().Check("Active").NewJudge().Verdict("{\"ID\":\"\uD83E\"}"));
        Code("NotUtf8", () => Item().Check("Active").Sql(SqlDialect.Sqlite, Columns("ID", "\uD800")));
        Same("a pair", Item().Check("Name eq '\uD83E\uDD8A'").Canonical, "Name eq '\uD83E\uDD8A'");
        Thrown<ArgumentNullException>(() => Item().Check(null));
    }

    private static void ChecksOfSql()
    {
        var filter = Item().Check("ID eq 9007199254740993 and Name eq 'a''\"\\b' and ID ne -1");
        var found = filter.Sql(SqlDialect.PostgreSql, Columns("ID", "key"));
        SameList<object>("parameters", found.Keep.Parameters, 9007199254740993L, "a'\"\\b", -1L);
        That("column", found.Keep.Text.Contains("t.\"key\"") && found.Fault == null, found.Keep.Text);
        var divided = Item().Check("1 div ID eq 1").Sql(SqlDialect.Sqlite, document: "doc");
        That("over JSON", divided.Fault != null && divided.Outcome.Text.Contains("t.\"doc\""), divided.Outcome.Text);
        var escaped = Item().Check("Name eq '\t\n\u0001\u00e9'").Sql(SqlDialect.Sqlite);
        SameList<object>("escapes", escaped.Keep.Parameters, "\t\n\u0001\u00e9");
        var typed = Item().Check("Name eq '7' and ID gt -7 and Changed ge 1970-01-01T00:00:00Z");
        SameList<object>("kinds", typed.Sql(SqlDialect.Sqlite).Keep.Parameters, "7", -7L, "062135769600000000000");
        SameList<object>("in PostgreSQL", typed.Sql(SqlDialect.PostgreSql).Keep.Parameters, "7", -7L, "0");
    }

    private static void ChecksOfLines()
    {
        var judge = Item().Check("Active").NewJudge();
        var row = Row(1, "null", true);
        var all = row + "\n \t\n" + Row(2, "null", false) + "\n" + row;
        var found = judge.FilterLines(Encoding.UTF8.GetBytes(all));
        Same("kept", Encoding.UTF8.GetString(found.Text) + found.Rows + found.Kept, row + "\n" + row + "\n32");
        var fault = Thrown<RowException>(() => judge.FilterLines(Encoding.UTF8.GetBytes(all + "\n{}\n" + row)));
        var kept = Encoding.UTF8.GetString(fault.Kept);
        Same("a fault", fault.Code + fault.Line + kept, "Missing5" + row + "\n" + row + "\n");
        var large = new byte[(1 << 20) + 1];
        Same("too long", Thrown<RowException>(() => judge.FilterLines(large)).Code, "LineTooLong");
        SameList("rows", judge.Keep(new[] { row, Row(2, "null", false), row }), row, row);
        ulong line = 3;
        Same("a row at fault", Thrown<RowException>(() => judge.Keep(new[] { row, row, "{}" }).ToList()).Line, line);
    }

    private static void ChecksOfCostlyLines()
    {
        var judge = Item().Check("Tags/any(t:t eq 'b')").NewJudge(bound: 2);
        var row = Row(1, "null", true);
        var costly = row.Replace("\"a\",\"b\"", "\"y\",\"z\"");
        var all = row + "\n \n" + costly + "\n" + row;
        var fault = Thrown<RowException>(() => judge.FilterLines(Encoding.UTF8.GetBytes(all)));
        Same("too costly", fault.Code + fault.Path + fault.Line + Encoding.UTF8.GetString(fault.Kept),
            "TooCostly3" + row + "\n");
        fault = Thrown<RowException>(() => judge.Keep(new[] { row, row, costly, row }).ToList());
        Same("too costly of rows", fault.Code + fault.Line + fault.Kept.Length, "TooCostly30");
        That("a sentence", fault.Message.EndsWith("."), fault.Message);
    }
}
