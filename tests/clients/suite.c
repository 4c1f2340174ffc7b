/* Answers the questions of tests/library_cases.py by the calls of the library: `suite FILE`. In C99.
 *
 * Each text that is handed in, and each buffer, is a block of just as many bytes, so valgrind reports a byte too many.
 */
#include <inttypes.h>
#include <stdio.h>
#include <stdlib.h>
#include <string.h>

#include "odfilter.h"

/* a text that grows */
struct text {
    char *at;
    size_t length;
};

/* what is held from question to question */
struct held {
    odfilter_handle *schema, *type, *filter, *judge;
    int judge_has_moment;
    /* a judge of the filter, with the moment of the last row */
    odfilter_handle *own;
    int own_has_moment;
};

typedef uint32_t (*writer)(const odfilter_handle *, odfilter_buffer, odfilter_answer *);

static void give_up(const char *why, uint32_t status)
{
    fprintf(stderr, "suite: %s (%" PRIu32 ")\n", why, status);
    exit(3);
}

static char *block(size_t length)
{
    char *at = malloc(length);
    if (!at)
        give_up("no memory", 0);
    return at;
}

static void add(struct text *to, const char *at, size_t length)
{
    char *all = realloc(to->at, to->length + length + 1);
    if (!all)
        give_up("no memory", 0);
    memcpy(all + to->length, at, length);
    to->at = all;
    to->length += length;
}

static void add_word(struct text *to, const char *word)
{
    add(to, word, strlen(word));
}

static void add_number(struct text *to, uint64_t number)
{
    char digits[24];
    snprintf(digits, sizeof digits, "%" PRIu64, number);
    add_word(to, digits);
}

static void add_fault(struct text *to, uint32_t status, uint32_t fault)
{
    char name[64];
    odfilter_buffer room = {name, sizeof name};
    odfilter_answer answer;
    uint32_t returned = odfilter_fault_name(status, fault, room, &answer);
    if (returned != ODFILTER_OK)
        give_up("a fault without a name", returned);
    add(to, name, answer.length);
}

/* what a call writes about a handle: first its length is asked for, then it is written into a buffer of that length */
static void add_written(struct text *to, writer write, const odfilter_handle *handle)
{
    odfilter_answer answer = {0}, again;
    odfilter_buffer room = {block(0), 0};
    uint32_t status = write(handle, room, &answer);
    free(room.at);
    room.at = block(answer.length);
    room.length = answer.length;
    if (status == ODFILTER_TOO_SMALL)
        status = write(handle, room, &again);
    if (status == ODFILTER_NULL)
        add_word(to, "nothing");
    else if (status != ODFILTER_OK)
        give_up("a text that is not written", status);
    else
        add(to, room.at, room.length);
    free(room.at);
}

/* how many names a schema's fault carries, each of which may be empty */
static int names_of(uint32_t fault)
{
    switch (fault) {
    case ODFILTER_SCHEMA_BAD_TYPE:
    case ODFILTER_SCHEMA_UNKNOWN_BASE:
    case ODFILTER_SCHEMA_BASE_CYCLE:
        return 1;
    case ODFILTER_SCHEMA_BAD_PROPERTY:
    case ODFILTER_SCHEMA_PROPERTY_TWICE:
    case ODFILTER_SCHEMA_BAD_ENUM_MEMBER:
        return 2;
    default:
        return 0;
    }
}

/* frees the filter and the judge of it */
static void free_filter(struct held *held)
{
    odfilter_free(&held->filter);
    odfilter_free(&held->own);
}

static void answer_schema(struct held *held, const odfilter_bytes *given, struct text *to)
{
    odfilter_answer answer;
    odfilter_buffer names = {block(0), 0};
    uint32_t status;
    /* what was made of the last schema goes after it: handles may be freed in any order */
    odfilter_free(&held->schema);
    free_filter(held);
    odfilter_free(&held->type);
    status = odfilter_read_schema(given[0], names, &held->schema, &answer);
    free(names.at);
    if (status == ODFILTER_OK) {
        add_word(to, "accepted");
        return;
    }
    names.at = block(answer.length);
    names.length = answer.length;
    if (status != ODFILTER_SCHEMA_FAULT || odfilter_read_schema(given[0], names, &held->schema, &answer) != status)
        give_up("a schema that is not read", status);
    add_fault(to, status, answer.fault);
    if (names_of(answer.fault) > 0) {
        add_word(to, " ");
        add(to, names.at, answer.first);
    }
    if (names_of(answer.fault) > 1) {
        add_word(to, " ");
        add(to, names.at + answer.first, answer.length - answer.first);
    }
    free(names.at);
}

static void answer_type(struct held *held, const odfilter_bytes *given, struct text *to)
{
    uint32_t status;
    odfilter_free(&held->type);
    free_filter(held);
    status = odfilter_find_type(held->schema, given[0], &held->type);
    if (status == ODFILTER_NULL)
        add_word(to, "nothing");
    else if (status != ODFILTER_OK && status != ODFILTER_UNKNOWN_TYPE)
        give_up("a type that is not looked for", status);
    else
        add_word(to, status == ODFILTER_OK ? "found" : "unknown");
}

static void add_checked(struct text *to, uint32_t status, const odfilter_answer *answer)
{
    switch (status) {
    case ODFILTER_OK:
        add_word(to, "accepted");
        return;
    case ODFILTER_NULL:
        add_word(to, "nothing");
        return;
    case ODFILTER_NO_FILTER:
        add_word(to, "no filter");
        return;
    case ODFILTER_QUERY_FAULT:
        add_word(to, "refused query ");
        add_fault(to, status, answer->fault);
        add_word(to, " ");
        add_number(to, answer->number);
        return;
    case ODFILTER_TEXT_FAULT:
    case ODFILTER_SYNTAX_FAULT:
    case ODFILTER_TYPE_FAULT:
        add_word(to, "refused ");
        add_fault(to, status, answer->fault);
        add_word(to, " ");
        add_number(to, answer->start);
        add_word(to, "..");
        add_number(to, answer->stop);
        return;
    default:
        give_up("a filter that is not checked", status);
    }
}

static void answer_filter(struct held *held, const odfilter_bytes *given, struct text *to)
{
    odfilter_answer answer;
    free_filter(held);
    add_checked(to, odfilter_check(held->type, given[0], &held->filter, &answer), &answer);
}

static void answer_query(struct held *held, const odfilter_bytes *given, struct text *to)
{
    odfilter_answer answer;
    free_filter(held);
    add_checked(to, odfilter_check_query(held->type, given[0], &held->filter, &answer), &answer);
}

/* where the filter's option and its value stand in a whole query, and the filter's text, each on a line */
static void add_found(struct text *to, const odfilter_answer *answer, odfilter_buffer text)
{
    const size_t places[] = {answer->piece_start, answer->piece_stop, answer->value_start, answer->value_stop};
    size_t number;
    for (number = 0; number < 4; number++) {
        add_word(to, number ? " " : "\n");
        add_number(to, places[number]);
    }
    add_word(to, "\n");
    add(to, text.at, text.length);
}

static void answer_url(struct held *held, const odfilter_bytes *given, struct text *to)
{
    odfilter_answer answer = {0};
    odfilter_buffer text = {block(0), 0};
    uint32_t status;
    free_filter(held);
    odfilter_check_url(held->type, given[0], text, &held->filter, &answer);
    free_filter(held);
    free(text.at);
    text.at = block(answer.length);
    text.length = answer.length;
    status = odfilter_check_url(held->type, given[0], text, &held->filter, &answer);
    add_checked(to, status, &answer);
    if (answer.piece_stop)
        add_found(to, &answer, text);
    free(text.at);
}

static void answer_canonical(struct held *held, const odfilter_bytes *given, struct text *to)
{
    (void)given;
    add_written(to, odfilter_canonical, held->filter);
}

static void answer_explain(struct held *held, const odfilter_bytes *given, struct text *to)
{
    (void)given;
    add_written(to, odfilter_explain, held->filter);
}

/* the judge, with that moment, or without any */
static odfilter_handle *judge_at(struct held *held, odfilter_bytes moment)
{
    uint32_t status = ODFILTER_OK;
    if (held->judge_has_moment && !moment.length)
        odfilter_free(&held->judge);
    if (!held->judge)
        status = odfilter_new_judge(&held->judge);
    if (status == ODFILTER_OK && moment.length)
        status = odfilter_set_moment(held->judge, moment);
    if (status != ODFILTER_OK)
        give_up("no judge", status);
    held->judge_has_moment = moment.length != 0;
    return held->judge;
}

/* why a row has no verdict */
static void add_row_fault(struct text *to, uint32_t status, const odfilter_answer *answer, const odfilter_handle *judge)
{
    struct text path = {NULL, 0};
    switch (status) {
    case ODFILTER_JSON_FAULT:
        add_word(to, "Json");
        return;
    case ODFILTER_LINE_TOO_LONG:
        add_word(to, "LineTooLong");
        return;
    case ODFILTER_EVAL_FAULT:
        add_fault(to, status, answer->fault);
        return;
    case ODFILTER_ROW_FAULT:
        add_fault(to, status, answer->fault);
        add_written(&path, odfilter_path, judge);
        if (path.length) {
            add_word(to, " ");
            add(to, path.at, path.length);
        }
        free(path.at);
        return;
    default:
        give_up("a row that is not judged", status);
    }
}

/* whether a row can stand on a line, where it is neither passed over nor too long */
static int is_line(odfilter_bytes row)
{
    size_t at = 0;
    while (at < row.length && strchr(" \t\r", row.at[at]) && row.at[at])
        at++;
    return at < row.length && row.length <= 1048576 && !memchr(row.at, '\n', row.length);
}

/* whether a run over the row twice, a blank line between, reports what was reported of the row by itself */
static int is_same_in_lines(struct held *held, odfilter_bytes row, uint32_t status, odfilter_answer reported)
{
    size_t length = 2 * row.length + 2, kept = status == ODFILTER_OK && reported.verdict == ODFILTER_TRUE ? 2 : 0;
    char *lines = block(length);
    odfilter_bytes rows = {lines, length};
    odfilter_buffer room = {block(length + 1), length + 1};
    odfilter_answer answer;
    int is_same;
    memcpy(lines, row.at, row.length);
    memcpy(lines + row.length, "\n\n", 2);
    memcpy(lines + row.length + 2, row.at, row.length);
    is_same = odfilter_filter_lines(held->filter, held->judge, rows, room, &answer) == status &&
              answer.fault == reported.fault && answer.number == (status != ODFILTER_OK) && answer.kept == kept &&
              answer.rows == (status == ODFILTER_OK ? 2 : 0) && answer.length == kept * (row.length + 1);
    is_same = is_same && (!kept || (!memcmp(room.at, row.at, row.length) && room.at[row.length] == '\n' &&
                                    !memcmp(room.at + row.length + 1, row.at, row.length)));
    free(room.at);
    free(lines);
    return is_same;
}

/* whether a judge of the filter reports the same of the row, in whichever way it reads it */
static int is_same_next(struct held *held, const odfilter_bytes *given, uint32_t status, odfilter_answer reported)
{
    odfilter_answer answer;
    int times, is_same = 1;
    uint32_t made = ODFILTER_OK;
    if (held->own_has_moment && !given[1].length)
        odfilter_free(&held->own);
    if (!held->own)
        made = odfilter_new_judge_of(held->filter, &held->own);
    if (made == ODFILTER_OK && given[1].length)
        made = odfilter_set_moment(held->own, given[1]);
    if (made != ODFILTER_OK)
        give_up("no judge of the filter", made);
    held->own_has_moment = given[1].length != 0;
    for (times = 0; times < 3; times++)
        is_same &= odfilter_judge_next(held->own, given[0], &answer) == status && answer.fault == reported.fault &&
                   answer.verdict == reported.verdict && answer.length == reported.length;
    return is_same;
}

static void answer_row(struct held *held, const odfilter_bytes *given, struct text *to)
{
    static const char *const verdicts[] = {"false", "true", "null"};
    odfilter_answer answer;
    odfilter_handle *judge = judge_at(held, given[1]);
    uint32_t status = odfilter_judge(held->filter, judge, given[0], &answer);
    if (status == ODFILTER_NULL)
        add_word(to, "nothing");
    else if (is_line(given[0]) && !is_same_in_lines(held, given[0], status, answer))
        add_word(to, "another answer in lines");
    else if (!is_same_next(held, given, status, answer))
        add_word(to, "another answer by the filter's judge");
    else if (status == ODFILTER_OK)
        add_word(to, verdicts[answer.verdict]);
    else
        add_row_fault(to, status, &answer, judge);
}

static void answer_lines(struct held *held, const odfilter_bytes *given, struct text *to)
{
    odfilter_answer answer;
    odfilter_handle *judge = judge_at(held, given[1]);
    odfilter_buffer kept = {block(given[0].length + 1), given[0].length + 1};
    uint32_t status = odfilter_filter_lines(held->filter, judge, given[0], kept, &answer);
    if (status == ODFILTER_NULL) {
        add_word(to, "nothing");
    } else {
        if (status != ODFILTER_OK) {
            add_word(to, "row ");
            add_number(to, answer.number);
            add_word(to, " ");
            add_row_fault(to, status, &answer, judge);
        }
        add_word(to, "\n");
        add(to, kept.at, answer.length);
    }
    free(kept.at);
}

static const struct question {
    const char *word;
    size_t given;
    void (*answer)(struct held *, const odfilter_bytes *, struct text *);
} questions[] = {
    {"schema", 1, answer_schema}, {"type", 1, answer_type},           {"filter", 1, answer_filter},
    {"query", 1, answer_query},   {"canonical", 0, answer_canonical}, {"explain", 0, answer_explain},
    {"row", 2, answer_row},       {"lines", 2, answer_lines},         {"url", 1, answer_url},
};

/* the next netstring of a file, in a block of its own, or no address at the file's end */
static odfilter_bytes next(FILE *file)
{
    odfilter_bytes text = {NULL, 0};
    char *at;
    if (fscanf(file, "%zu", &text.length) != 1)
        return text;
    if (fgetc(file) != ':')
        give_up("no netstring", 0);
    at = block(text.length);
    if (fread(at, 1, text.length, file) != text.length || fgetc(file) != ',')
        give_up("a netstring that is cut off", 0);
    text.at = at;
    return text;
}

static const struct question *question_of(odfilter_bytes word)
{
    size_t number, count = sizeof questions / sizeof *questions;
    for (number = 0; number < count; number++)
        if (strlen(questions[number].word) == word.length && !memcmp(questions[number].word, word.at, word.length))
            return &questions[number];
    give_up("no such question", 0);
    return NULL;
}

static int answer_next(struct held *held, FILE *file)
{
    odfilter_bytes word = next(file), given[2] = {{NULL, 0}, {NULL, 0}};
    struct text to = {NULL, 0};
    const struct question *asked;
    size_t number;
    if (!word.at)
        return 0;
    asked = question_of(word);
    for (number = 0; number < asked->given; number++)
        given[number] = next(file);
    asked->answer(held, given, &to);
    printf("%zu:", to.length);
    if (to.length)
        fwrite(to.at, 1, to.length, stdout);
    putchar(',');
    free(to.at);
    free((char *)word.at);
    free((char *)given[0].at);
    free((char *)given[1].at);
    return 1;
}

int main(int count, char **words)
{
    struct held held = {NULL, NULL, NULL, NULL, 0, NULL, 0};
    FILE *file = count == 2 ? fopen(words[1], "rb") : NULL;
    if (!file)
        give_up("usage: suite FILE", 0);
    while (answer_next(&held, file))
        ;
    fclose(file);
    odfilter_free(&held.schema);
    odfilter_free(&held.judge);
    odfilter_free(&held.type);
    free_filter(&held);
    return ferror(stdout) || fflush(stdout) ? 1 : 0;
}
