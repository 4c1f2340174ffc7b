package org.odfilter;

import static org.odfilter.Check.DOCUMENT;
import static org.odfilter.Check.code;
import static org.odfilter.Check.equal;
import static org.odfilter.Check.equalBytes;
import static org.odfilter.Check.item;
import static org.odfilter.Check.row;
import static org.odfilter.Check.that;
import static org.odfilter.Check.thrown;

import java.time.Instant;
import java.util.List;
import java.util.Map;
import java.util.Optional;
import java.util.function.Function;
import java.util.stream.Collectors;
import java.util.stream.Stream;

/** The tests of the binding: `Tests` ends with a line of counts. */
final class Tests {
    private Tests() {
    }

    public static void main(String[] words) throws Exception {
        checksOfFilters();
        checksOfTypes();
        checksOfVerdicts();
        checksOfRefusals();
        checksOfErrors();
        checksOfSurrogates();
        checksOfSql();
        checksOfLines();
        checksOfCostlyLines();
        Lifetimes.checksOfClosing();
        Lifetimes.checksOfThreads();
        Lifetimes.checksOfGrowth();
        Figures.checksOfDepth();
        Figures.figures();
        Check.end();
    }

    private static void checksOfFilters() {
        Filter filter = item().check("((Active)) AND ID ge +01 and Tags/any(t:t eq 'b') and Changed lt now()");
        equal("canonical", filter.canonical(), "Active and ID ge 1 and Tags/any(t:t eq 'b') and Changed lt now()");
        equal("paths", filter.propertyPaths(), List.of("Active", "ID", "Tags", "Changed"));
        that("nodes", filter.nodeCount() > 10, filter.nodeCount());
        equal("depth", filter.lambdaDepth(), 1L);
        equal("moment", filter.needsMoment(), true);
        that("explanation", filter.explanation().contains("Edm.Boolean"), filter.explanation());
        String longText = "ID eq 1 or ".repeat(200) + "Active";
        equal("a long text", item().check(longText).canonical(), longText);
        equal("a shorter answer", Calls.fits(Answer.SIZE - 1), Numbers.TOO_SMALL);
        that("version", Schema.version().matches("\\d+\\.\\d+\\.\\d+"), Schema.version());
        Filter found = item().checkUrl("$top=5&$filter=ID%20eq%201").orElseThrow();
        equal("of a URL", List.of(found.text(), found.piece(), found.value()),
                List.of("ID eq 1", new Span(7, 26), new Span(15, 26)));
        equal("no filter", item().checkUrl("$top=5"), Optional.empty());
        equal("no filter in a query", item().checkQuery(""), Optional.empty());
    }

    private static void checksOfTypes() {
        Schema schema = Schema.read("{\"$Version\":\"4.01\",\"Mini\":{"
                + "\"Base\":{\"$Kind\":\"EntityType\",\"ID\":{\"$Type\":\"Edm.Int64\"}},"
                + "\"Part\":{\"$Kind\":\"ComplexType\"},"
                + "\"Item\":{\"$Kind\":\"EntityType\",\"$BaseType\":\"Mini.Base\","
                + "\"Tags\":{\"$Collection\":true,\"$Nullable\":true},"
                + "\"Weight\":{\"$Type\":\"Edm.Double\",\"$Nullable\":true},"
                + "\"Parts\":{\"$Kind\":\"NavigationProperty\",\"$Type\":\"Mini.Base\",\"$Collection\":true}}}}");
        equal("types", listed(schema.types(), it -> it.kind() + " " + it.name() + " " + it.properties().size()),
                List.of("entity Mini.Base 1", "entity Mini.Item 4", "complex Mini.Part 0"));
        List<DeclaredProperty> properties = schema.type("Mini.Item").properties();
        equal("properties", listed(properties, it -> it.name() + " " + it.type().orElse("none")),
                List.of("ID Edm.Int64", "Parts Mini.Base", "Tags Edm.String", "Weight none"));
        equal("collections", listed(properties, DeclaredProperty::isCollection), List.of(false, true, true, false));
        equal("nullable", listed(properties, DeclaredProperty::isNullable), List.of(false, false, true, true));
        equal("navigation", listed(properties, DeclaredProperty::isNavigation), List.of(false, true, false, false));
        equal("no types", Schema.read("{\"$Version\":\"4.01\"}").types(), List.of());
    }

    private static <T, U> List<U> listed(List<T> all, Function<T, U> of) {
        return all.stream().map(of).collect(Collectors.toList());
    }

    /** The object of a fault has its class, its name and its sentence. */
    private static void object(ODataException error, String wanted) {
        String json = error.json();
        that(wanted, json.startsWith("{\"class\":\"" + wanted + "\",") && json.endsWith("}"), json);
        that(error.code(), json.contains("\"name\":\"" + error.code() + "\""), json);
        that("sentence", json.contains("\"sentence\":\"" + error.getMessage().replace("\"", "\\\"")), json);
    }

    /** An error that has the library's sentence and object. */
    private static void said(String wanted, String kind, Check.Call call) {
        code(wanted, call);
        object(thrown(ODataException.class, call), kind);
    }

    private static void checksOfVerdicts() {
        Judge judge = item().check("Active and contains(Name,'a')").judge();
        equal("true", judge.verdict(row(1, "\"cab\"", true)), Verdict.TRUE);
        equal("false", judge.verdict(Text.utf8(row(1, "\"xy\"", true))), Verdict.FALSE);
        equal("null", judge.verdict(row(1, "null", true)), Verdict.NULL);
        Filter now = item().check("Changed lt now()");
        for (String moment : List.of("2026-11-25T09:00:00Z", "2025-11-25T09:00:00Z")) {
            Verdict wanted = moment.startsWith("2026") ? Verdict.TRUE : Verdict.FALSE;
            equal(moment, now.judge().at(moment).verdict(row(1, "null", true)), wanted);
            equal(moment, now.judge().at(Instant.parse(moment)).verdict(row(1, "null", true)), wanted);
        }
        Filter costly = item().check("Tags/any(t:t eq 'b')");
        equal("within", costly.judge().within(2).verdict(row(1, "null", true)), Verdict.TRUE);
        thrown(IllegalArgumentException.class, () -> costly.judge().within(-1));
    }

    private static void checksOfRefusals() {
        String text = "Name eq '\uD83E\uDD8A\u00e9' and Foo eq 1";
        FilterRefusedException refused = thrown(FilterRefusedException.class, () -> item().check(text));
        equal("kind", refused.kind(), FilterRefusedException.Kind.TYPE);
        equal("code", refused.code(), "UnknownProperty");
        that("message", refused.getMessage().endsWith("."), refused.getMessage());
        equal("span", text.substring(refused.span().start(), refused.span().stop()), "Foo");
        equal("bytes", refused.byteSpan(), new Span(refused.span().start() + 3, refused.span().stop() + 3));
        equal("pointed", refused.pointed(), text + "\n                 ^^^");
        object(refused, "typing");
        equal("empty", thrown(FilterRefusedException.class, () -> item().check("")).pointed(), "\n^");
        refused = thrown(FilterRefusedException.class, () -> item().checkUrl("$top=5&$filter=Foo%20eq%201"));
        equal("in a URL", List.of(refused.piece(), refused.value()), List.of(new Span(7, 27), new Span(15, 27)));
        refused = thrown(
                FilterRefusedException.class, () -> item().checkQuery("x=1&%24Filter=Name%20eq%0A'\u00e9'&y=2"));
        equal("in a query", List.of(refused.code(), refused.text(), refused.byteSpan()),
                List.of("BadCharacter", "Name eq\n'\u00e9'", new Span(7, 8)));
        equal("a line feed", refused.pointed(), "Name eq\uFFFD'\u00e9'\n       ^");
    }

    private static void checksOfErrors() {
        QueryRefusedException query =
                thrown(QueryRefusedException.class, () -> item().checkUrl("a&x=1;$filter=Foo"));
        equal("query", List.of(query.code(), query.number()), List.of("Disguised", 1L));
        object(query, "query");
        String name = "A".repeat(999);
        SchemaException schema = thrown(SchemaException.class, () -> Schema.read(
                "{\"$Version\":\"4.01\",\"N\":{\"" + name + "\":{\"$Kind\":\"EntityType\",\"P\":5}}}"));
        equal("schema", List.of(schema.code(), schema.names()), List.of("BadProperty", List.of("N." + name, "P")));
        equal("not JSON", thrown(SchemaException.class, () -> Schema.read(new byte[0])).names(), List.of());
        UnknownTypeException unknown =
                thrown(UnknownTypeException.class, () -> Schema.read(DOCUMENT).type("Mini.No"));
        equal("type", unknown.typeName(), "Mini.No");
        object(unknown, "unknown_type");
        object(schema, "schema");
        String text = row(7, "null", true);
        RowException fault = thrown(
                RowException.class, () -> item().check("Active").judge().verdict(text.replace("7", "\"7\"")));
        equal("row", List.of(fault.code(), fault.path(), fault.line()), List.of("WrongKind", "ID", 1L));
        object(fault, "row");
        Filter needs = item().check("Changed lt now()");
        said("MomentNeeded", "moment_needed", () -> needs.judge().verdict(text));
        said("MomentNeeded", "moment_needed", () -> needs.sql(Dialect.SQLITE, Map.of(), null));
        said("NotAMoment", "not_a_moment", () -> needs.judge().at("soon"));
        said("NotAMoment", "not_a_moment", () -> needs.sql(Dialect.SQLITE, Map.of(), "soon"));
        code("NotAMoment", () -> needs.sql(Dialect.SQLITE, Map.of(), "2026-01-01T00:00:00Z\nID=x"));
        said("TooCostly", "too_costly", () -> item().check("Tags/any(t:t eq 'z')").judge().within(2).verdict(text));
        for (String property : List.of("No", "ID=")) {
            Map<String, String> columns = Map.of(property, "x");
            said("UnknownColumn", "unknown_column", () -> item().check("Active").sql(Dialect.SQLITE, columns, null));
        }
        said("Nul", "unsayable", () -> item().check("Name eq 'a\0'").sql(Dialect.SQLITE, Map.of(), null));
        String deep = "(ID add ".repeat(60) + "ID" + ")".repeat(60) + " eq 1";
        said("TooDeep", "too_deep", () -> item().check(deep).sql(Dialect.SQLITE, Map.of(), null));
    }

    /** Where a text is given, a lone surrogate is refused. */
    private static void checksOfSurrogates() {
        code("NotUtf8", () -> item().check("Name eq '\uD800'"));
        code("NotUtf8", () -> item().checkUrl("$filter=Name eq '\uDFFF'"));
        code("NotUtf8", () -> item().checkQuery("filter=\uDC80"));
        code("NotUtf8", () -> Schema.read("{\"\uD800\":1}"));
        code("NotUtf8", () -> Schema.read(DOCUMENT).type("Mini.\uDFFF"));
        code("NotUtf8", () -> item().check("Active").judge().at("\uDC80"));
        code("NotUtf8", () -> item().check("Active").judge().verdict("{\"ID\":\"\uD83E\"}"));
        code("NotUtf8", () -> item().check("Active").sql(Dialect.SQLITE, Map.of("ID", "\uD800"), null));
        equal("a pair", item().check("Name eq '\uD83E\uDD8A'").canonical(), "Name eq '\uD83E\uDD8A'");
    }

    private static void checksOfSql() {
        Filter filter = item().check("ID eq 9007199254740993 and Name eq 'a''\"\\b' and ID ne -1");
        Conditions found = filter.sql(Dialect.POSTGRESQL, Map.of("ID", "key"), null);
        equal("parameters", found.keep().parameters(), List.of(9007199254740993L, "a'\"\\b", -1L));
        that("column", found.keep().text().contains("t.\"key\""), found.keep().text());
        equal("no fault", found.fault(), Optional.empty());
        Conditions divided = item().check("1 div ID eq 1").sqlOverJson(Dialect.SQLITE, "doc", null);
        that("a fault", divided.fault().isPresent(), divided);
        that("over JSON", divided.outcome().text().contains("t.\"doc\""), divided.outcome().text());
        Conditions escaped = item().check("Name eq '\t\n\u0001\u00e9'").sql(Dialect.SQLITE, Map.of(), null);
        equal("escapes", escaped.keep().parameters(), List.of("\t\n\u0001\u00e9"));
        Filter typed = item().check("Name eq '7' and ID gt -7 and Changed ge 1970-01-01T00:00:00Z");
        equal("kinds", typed.sql(Dialect.SQLITE, Map.of(), null).keep().parameters(),
                List.of("7", -7L, "062135769600000000000"));
        equal("in PostgreSQL", typed.sql(Dialect.POSTGRESQL, Map.of(), null).keep().parameters(),
                List.of("7", -7L, "0"));
    }

    private static void checksOfLines() {
        Judge judge = item().check("Active").judge();
        String kept = row(1, "null", true);
        String all = kept + "\n \t\n" + row(2, "null", false) + "\n" + kept;
        Judge.Kept found = judge.filterLines(Text.utf8(all));
        equalBytes("kept lines", found.text(), Text.utf8(kept + "\n" + kept + "\n"));
        equal("counts", List.of(found.rows(), found.kept()), List.of(3L, 2L));
        RowException fault = thrown(RowException.class, () -> judge.filterLines(Text.utf8(all + "\n{}\n" + kept)));
        equal("a fault", List.of(fault.code(), fault.line()), List.of("Missing", 5L));
        equalBytes("kept before it", fault.kept(), Text.utf8(kept + "\n" + kept + "\n"));
        String large = " ".repeat((1 << 20) + 1);
        equal("too long", thrown(RowException.class, () -> judge.filterLines(Text.utf8(large))).code(), "LineTooLong");
        List<String> rows = judge.keep(Stream.of(kept, row(2, "null", false), kept)).collect(Collectors.toList());
        equal("a stream", rows, List.of(kept, kept));
        fault = thrown(RowException.class, () -> judge.keep(Stream.of(kept, kept, "{}")).count());
        equal("a row at fault", fault.line(), 3L);
        String great = kept.replace("null", "\"" + "x".repeat(3 << 20) + "\"");
        equal("a great row", judge.verdict(great), Verdict.TRUE);
        equal("and a small one", judge.verdict(kept), Verdict.TRUE);
    }

    private static void checksOfCostlyLines() {
        Judge judge = item().check("Tags/any(t:t eq 'b')").judge().within(2);
        String row = row(1, "null", true);
        String costly = row.replace("\"a\",\"b\"", "\"y\",\"z\"");
        String all = row + "\n \n" + costly + "\n" + row;
        RowException fault = thrown(RowException.class, () -> judge.filterLines(Text.utf8(all)));
        equal("too costly", List.of(fault.code(), fault.path(), fault.line()), List.of("TooCostly", "", 3L));
        equalBytes("kept before it", fault.kept(), Text.utf8(row + "\n"));
        fault = thrown(RowException.class, () -> judge.keep(Stream.of(row, row, costly, row)).count());
        equal("too costly of rows", List.of(fault.code(), fault.line()), List.of("TooCostly", 3L));
    }
}
