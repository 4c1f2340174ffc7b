/* The deepest texts of so many bytes on threads of so much stack: checked, and then written, explained, counted, judged,
 * put into SQL and freed. `stacks KIB BYTES`. */
#include <pthread.h>

#include "checks.h"

#define LIMIT 16384
#define TOKENS 4096
#define OPEN 64
#define DRAWN 200
#define TYPES                                                                                                          \
    "{\"$Version\":\"4.01\",\"N\":{\"C\":{\"$Kind\":\"ComplexType\",\"C\":{\"$Type\":\"N.C\",\"$Nullable\":true}},"    \
    "\"Item\":{\"$Kind\":\"EntityType\",\"ID\":{\"$Type\":\"Edm.Int32\"},\"Name\":{},"                                 \
    "\"Active\":{\"$Type\":\"Edm.Boolean\"},\"Tags\":{\"$Collection\":true},"                                          \
    "\"Flags\":{\"$Type\":\"Edm.Boolean\",\"$Collection\":true},"                                                       \
    "\"N\":{\"$Type\":\"Edm.Int32\",\"$Nullable\":true},\"On\":{\"$Type\":\"Edm.Boolean\",\"$Nullable\":true},"            \
    "\"C\":{\"$Type\":\"N.C\",\"$Nullable\":true},"                                                                    \
    "\"To\":{\"$Kind\":\"NavigationProperty\",\"$Type\":\"N.Item\",\"$Nullable\":true}}}}"
#define ITEM_ROW                                                                                                       \
    "{\"ID\":1,\"Name\":\"a\",\"Active\":true,\"Tags\":[\"a\"],\"Flags\":[],\"N\":1,\"On\":null,\"C\":null,\"To\":null,\"more\":"

/* a text as it grows, with what the limits count of it */
struct text {
    char at[LIMIT + 1];
    size_t length, tokens, open;
};

static odfilter_handle *type;
static size_t limit;
static size_t stack_kib;
/* a row with a member of the greatest depth */
static char row[512];
static struct text text;
static odfilter_handle *filter;
static odfilter_buffer room;
static uint32_t wanted;
/* how the filter nests for SQL, where that is known, and how many had conditions for PostgreSQL */
static enum { AT_ANY_DEPTH, AT_THE_LIMIT, PAST_THE_LIMIT } nesting;
static size_t translated;

static void on_thread(void *(*work)(void *))
{
    pthread_attr_t attributes;
    pthread_t thread;
    check("a stack", !pthread_attr_init(&attributes) && !pthread_attr_setstacksize(&attributes, stack_kib << 10));
    check("a thread starts", !pthread_create(&thread, &attributes, work, NULL));
    check("a thread ends", !pthread_join(thread, NULL));
    pthread_attr_destroy(&attributes);
}

static void *check_it(void *nothing)
{
    odfilter_bytes bytes = {text.at, text.length};
    odfilter_answer answer;
    if (odfilter_check(type, bytes, &filter, &answer) != wanted) {
        check("the text is checked", 0);
        printf("  %.60s\n", text.at);
    }
    return nothing;
}

/* the same conditions as a handle, whose first value is read, where there is one */
static void as_handle(uint32_t form, odfilter_bytes how, uint32_t wanted_status)
{
    odfilter_handle *conditions = NULL;
    odfilter_answer answer;
    uint32_t status = odfilter_new_sql(filter, form, how, &conditions, &answer);
    check("conditions as a handle", status == wanted_status && (conditions != NULL) == (status == ODFILTER_OK));
    if (!conditions)
        return;
    check("a text", odfilter_sql_text(conditions, ODFILTER_SQL_KEEP, room, &answer) == ODFILTER_OK);
    status = odfilter_sql_value(conditions, ODFILTER_SQL_KEEP, 0, room, &answer);
    check("a value", status == ODFILTER_OK || status == ODFILTER_UNKNOWN_NUMBER);
    check("they are freed", odfilter_free(&conditions) == ODFILTER_OK);
}

/* its conditions for each engine and storage, or that it nests too deeply for one: SQLite parses some ten levels */
static void into_sql(void)
{
    odfilter_bytes how = {NULL, 0};
    odfilter_answer answer;
    uint32_t form, status;
    for (form = ODFILTER_POSTGRESQL_COLUMNS; form <= ODFILTER_SQLITE_JSON; form++) {
        status = odfilter_sql(filter, form, how, room, &answer);
        check("its conditions", status == ODFILTER_OK || status == ODFILTER_TOO_DEEP);
        if (form <= ODFILTER_POSTGRESQL_JSON && nesting != AT_ANY_DEPTH)
            check("a known depth", status == (nesting == AT_THE_LIMIT ? ODFILTER_OK : ODFILTER_TOO_DEEP));
        translated += form <= ODFILTER_POSTGRESQL_JSON && status == ODFILTER_OK;
        as_handle(form, how, status);
    }
}

static void *use_it(void *nothing)
{
    odfilter_handle *judge = new_judge(), *own = new_judge_of(filter);
    odfilter_bytes lines = {row, strlen(row)};
    odfilter_answer answer;
    uint32_t verdict;
    check("its canonical text", odfilter_canonical(filter, room, &answer) == ODFILTER_OK && answer.length > 0);
    check("its explanation", odfilter_explain(filter, room, &answer) == ODFILTER_OK && answer.length > 0);
    check("its nodes", odfilter_node_count(filter, &answer) == ODFILTER_OK && answer.number > 0);
    check("its lambda operators", odfilter_lambda_depth(filter, &answer) == ODFILTER_OK && answer.number <= OPEN);
    check("its paths", odfilter_property_paths(filter, room, &answer) == ODFILTER_OK);
    into_sql();
    check("a row is judged", judged(filter, judge, row, &verdict) == ODFILTER_OK);
    check("a bound", odfilter_set_bound(judge, 1000000) == ODFILTER_OK);
    check("a row within a bound", judged(filter, judge, row, &verdict) == ODFILTER_OK);
    check("a line", odfilter_filter_lines(filter, judge, lines, room, &answer) == ODFILTER_OK && answer.rows == 1);
    check("the first by the filter's judge", judged_next(own, row, &verdict) == ODFILTER_OK);
    check("the next by it", judged_next(own, row, &verdict) == ODFILTER_OK);
    odfilter_free(&own);
    odfilter_free(&judge);
    check("the filter is freed", odfilter_free(&filter) == ODFILTER_OK);
    return nothing;
}

/* checks the text, which has to give this status, and uses the filter on a thread of its own */
static void is_answered(const char *name, uint32_t status)
{
    wanted = status;
    filter = NULL;
    on_thread(check_it);
    check(name, (filter != NULL) == (status == ODFILTER_OK));
    if (filter)
        on_thread(use_it);
}

static void begin(const char *start)
{
    text.length = strlen(start);
    memcpy(text.at, start, text.length + 1);
    /* more than a start has, and what is put at an end */
    text.tokens = 24;
    text.open = 0;
}

/* puts a piece before and one after, of so many tokens and parentheses, if the limits let it */
static int put_around(const char *before, const char *after, size_t tokens, size_t open)
{
    size_t front = strlen(before), back = strlen(after);
    if (text.length + front + back > limit || text.tokens + tokens > TOKENS || text.open + open > OPEN)
        return 0;
    memmove(text.at + front, text.at, text.length);
    memcpy(text.at, before, front);
    memcpy(text.at + front + text.length, after, back + 1);
    text.length += front + back;
    text.tokens += tokens;
    text.open += open;
    return 1;
}

/* so many times, or as often as the limits let it */
static void put_often(const char *before, const char *after, size_t tokens, size_t open, size_t times)
{
    while (times-- && put_around(before, after, tokens, open))
        continue;
}

/* a long chain around a start, what follows it in parentheses, and what follows these */
struct chain {
    const char *start, *before, *after, *inner, *outer;
    size_t tokens, times;
    uint32_t status;
};

static const struct chain chains[] = {
    {"true", "not ", "", "", "", 1, TOKENS, ODFILTER_OK},
    {"null", "-", "", "", " eq null", 1, TOKENS, ODFILTER_OK},
    {"Active", "", " and Active", "", "", 2, TOKENS, ODFILTER_OK},
    {"Active", "", " eq Active", "", "", 2, TOKENS, ODFILTER_OK},
    {"false", "", " or false", "", "", 2, TOKENS, ODFILTER_OK},
    {"ID", "", " add 1", "", " eq 1", 2, TOKENS, ODFILTER_OK},
    {"ID", "- ", "", "", " eq 1", 1, TOKENS, ODFILTER_OK},
    {"N", "", " div N", "", " eq 1", 2, TOKENS, ODFILTER_OK},
    {"On", "", " ne On", "", "", 2, TOKENS, ODFILTER_OK},
    {"N div N eq 1", "", " eq On", "", "", 2, TOKENS, ODFILTER_OK},
    {"indexof(Name,'a')", "", " add indexof(Name,'a')", "", " eq 1", 7, TOKENS, ODFILTER_OK},
    {"1 eq 1", "", " or 1 eq ID", "", "", 4, TOKENS, ODFILTER_OK},
    {"true", "contains(Name,'a') and ", "", "", "", 7, TOKENS, ODFILTER_OK},
    {"C", "", "/C", "", " eq null", 2, 2000, ODFILTER_OK},
    {"To", "", "/To", "", " eq null", 2, 2000, ODFILTER_OK},
    {"To", "", "/To", "/Tags/any(t:t eq 'a')", "", 2, 2000, ODFILTER_OK},
    {"ID in (1", "", ",1", ")", "", 2, TOKENS, ODFILTER_OK},
    {"contains(Name", "", ",Name", ")", "", 2, TOKENS, ODFILTER_TYPE_FAULT},
    {"Active and Foo", "", " and Active", "", "", 2, TOKENS, ODFILTER_TYPE_FAULT},
    {"Active and", "not ", "", "", "", 1, TOKENS, ODFILTER_SYNTAX_FAULT},
};

static void chain_of(const struct chain *chain, size_t groups)
{
    size_t kept = limit;
    limit -= 2 * groups + strlen(chain->inner) + strlen(chain->outer);
    begin(chain->start);
    text.tokens += 2 * groups;
    put_often(chain->before, chain->after, chain->tokens, 0, chain->times);
    limit = kept;
    put_around("", chain->inner, 0, 0);
    put_often("(", ")", 0, 1, groups);
    put_around("", chain->outer, 0, 0);
    is_answered(chain->before[0] ? chain->before : chain->after, chain->status);
}

/* as many as the limits let in, each in the one before: groups with up to six levels between them, and calls */
static void nested(void)
{
    static const char *const before[] = {"not (", "true and (", "false or true and true eq (", "true in (",
                                         "false or true and true eq true in (",
                                         "false or true and true eq true ge true in (",
                                         "false or true and true eq true ge not true in (",
                                         "false or true and true eq true ge not not (",
                                         "false or true and true eq true ge not contains(Name,Name) in ("};
    size_t number, most = limit < LIMIT ? OPEN / 4 : OPEN;
    for (number = 0; number < sizeof before / sizeof *before; number++) {
        begin("true");
        put_often(before[number], ")", 19, 1, most);
        is_answered(before[number], ODFILTER_OK);
    }
    begin("1");
    put_often("1 add 1 mul -(", ")", 6, 1, most);
    put_around("", " eq 1", 0, 0);
    is_answered("arithmetic", ODFILTER_OK);
    begin("Name");
    put_often("concat(Name,", ")", 5, 1, most);
    put_around("", " eq Name", 0, 0);
    is_answered("calls", ODFILTER_OK);
}

/* so many levels around a start, and so many around these: 100 levels in all, the most for which there is SQL */
struct levels {
    const char *start, *before, *after;
    size_t times;
    const char *last;
    size_t last_times;
};

static const struct levels levels[] = {
    {"ID", "- ", "", 99, " eq 1", 1},
    {"N", "", " add N", 99, " eq 1", 1},
    {"N", "", " div N", 99, " eq 1", 1},
    {"- N", "(N sub N mul ", ")", 49, " eq 1", 1},
    {"N", "(1 add N mul - ", ")", 33, " eq 1", 1},
    {"indexof(Name,Name)", "", " add indexof(Name,Name)", 98, " eq 1", 1},
    {"On", "", " ne On", 100, "", 0},
    {"On", "", " ge On", 100, "", 0},
    {"N div N eq 1", "", " eq On", 98, "", 0},
    {"On", "(N div N eq 1) in (On,", ")", 64, " eq On", 34},
    {"On", "(", " in Flags)", 64, " ne On", 36},
    {"On", "On in (true,false or true and true eq ", ")", 25, "", 0},
};

static void put_all(const char *before, const char *after, size_t times)
{
    while (times--)
        check("a level", put_around(before, after, 12, strchr(before, '(') != NULL));
}

static void at_the_limit(void)
{
    size_t number;
    for (number = 0; number < sizeof levels / sizeof *levels; number++) {
        begin(levels[number].start);
        put_all(levels[number].before, levels[number].after, levels[number].times);
        put_all("", levels[number].last, levels[number].last_times);
        nesting = AT_THE_LIMIT;
        is_answered("100 levels", ODFILTER_OK);
        put_all("", " eq On", 1);
        nesting = PAST_THE_LIMIT;
        is_answered("101 levels", ODFILTER_OK);
        nesting = AT_ANY_DEPTH;
    }
}

/* so many lambda operators in one another, each after this */
static void lambdas(const char *after, const char *operator, size_t times)
{
    size_t number;
    char before[80];
    begin("true");
    for (number = 0; number < times; number++) {
        snprintf(before, sizeof before, "%sTags/%s(v%d:", after, operator, (int)number);
        put_around(before, ")", 18, 1);
    }
    is_answered("lambda operators", ODFILTER_OK);
}

static unsigned long drawn_from = 1;

static size_t draw(size_t below)
{
    drawn_from = drawn_from * 6364136223846793005ul + 1442695040888963407ul;
    return (size_t)(drawn_from >> 33) % below;
}

/* what may stand around a truth value */
struct around {
    const char *before, *after;
    size_t tokens, open;
};

static const struct around wraps[] = {
    {"not ", "", 1, 0},           {"", " and Active", 2, 0},         {"", " or false", 2, 0},
    {"", " eq true", 2, 0},       {"Active or ", "", 2, 0},          {"", " ne null", 2, 0},
    {"", " in (true,false)", 6, 0}, {"", " and (C/C/C eq null)", 10, 0}, {"(", ")", 2, 1},
    {"not (", ")", 3, 1},         {"true eq (", ")", 4, 1},          {"true in (", ",false)", 6, 1},
    {"false or Active eq (", ")", 6, 1},
    {"", " ne On", 2, 0},            {"(N div N eq 1) or ", "", 8, 0},  {"(", ") in Flags", 4, 1},
    {"(N div N eq 1) in (On,", ")", 12, 1},
};

/* more around a truth value, drawn: some of it a chain of so many at most */
static void draw_around(size_t chained)
{
    const struct around *wrap = &wraps[draw(sizeof wraps / sizeof *wraps)];
    size_t times = 1 + draw(draw(4) ? 4 : chained);
    char lambda[32];
    if (draw(12)) {
        put_often(wrap->before, wrap->after, wrap->tokens, wrap->open, wrap->open ? 1 : times);
        return;
    }
    snprintf(lambda, sizeof lambda, "Tags/any(v%d:", (int)text.open);
    put_around(lambda, ")", 8, 1);
}

static void mixtures(size_t most, size_t chained)
{
    size_t number, times;
    for (number = 0; number < DRAWN; number++) {
        begin(draw(2) ? "true" : "(1 add - - ID mul 2 gt 3)");
        /* a group within, and one after */
        text.open = 2;
        for (times = 10 + draw(most); times; times--)
            draw_around(chained);
        is_answered("a mixture", ODFILTER_OK);
    }
}

static void make_row(void)
{
    size_t length = strlen(ITEM_ROW), depth = 126;
    memcpy(row, ITEM_ROW, length);
    memset(row + length, '[', depth);
    memset(row + length + depth, ']', depth);
    row[length + 2 * depth] = '}';
}

int main(int count, char **words)
{
    odfilter_handle *schema = schema_of(TYPES);
    size_t number;
    if (count != 3)
        abort();
    stack_kib = (size_t)atol(words[1]);
    limit = (size_t)atol(words[2]);
    type = type_of(schema, "N.Item");
    make_row();
    room.length = 1 << 25;
    room.at = block(room.length);
    for (number = 0; number < sizeof chains / sizeof *chains; number++) {
        chain_of(&chains[number], 0);
        chain_of(&chains[number], limit < LIMIT ? 8 : OPEN - 2);
    }
    nested();
    lambdas("", "any", OPEN);
    lambdas("false or true and true eq ", "any", OPEN);
    lambdas("false or true and true eq ", "any", 25);
    lambdas("false or true and true eq true ge ", "any", OPEN);
    lambdas("false or true and true eq true ge not ", "all", OPEN);
    if (limit == LIMIT)
        at_the_limit();
    mixtures(300, 400);
    translated = 0;
    mixtures(40, 2);
    check("some mixtures have conditions", translated > DRAWN);
    odfilter_free(&schema);
    odfilter_free(&type);
    free(room.at);
    return end();
}
