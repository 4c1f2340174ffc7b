/* Eight threads over one schema, one type, one filter and its conditions, each with a judge of its own: `threads TIMES`.
 * Each of them frees handles that the first thread made, while the others use theirs, and makes one that the first
 * thread frees. */
#include <pthread.h>

#include "checks.h"

#define THREADS 8

/* what all threads read */
static odfilter_handle *schema, *type, *filter, *conditions;
static long times;

struct work {
    pthread_t thread;
    /* a type and a filter that this thread frees, and a filter that it makes */
    odfilter_handle *own_type, *own_filter, *made;
    /* what went wrong, counted */
    unsigned long wrong;
};

static odfilter_bytes borrowed(const char *text)
{
    odfilter_bytes bytes = {text, strlen(text)};
    return bytes;
}

static int keeps(const odfilter_handle *by, odfilter_handle *judge, const char *row, uint32_t verdict)
{
    odfilter_answer answer;
    return odfilter_judge(by, judge, borrowed(row), &answer) == ODFILTER_OK && answer.verdict == verdict;
}

/* the same by the filter of the judge, which is the one that all read */
static int keeps_next(odfilter_handle *judge, const char *row, uint32_t verdict)
{
    odfilter_answer answer;
    return odfilter_judge_next(judge, borrowed(row), &answer) == ODFILTER_OK && answer.verdict == verdict;
}

/* the texts of the filter that all read */
static int is_reported(uint32_t (*call)(const odfilter_handle *, odfilter_buffer, odfilter_answer *),
                       const char *wanted)
{
    char text[256];
    odfilter_buffer room = {text, sizeof text};
    odfilter_answer answer;
    return call(filter, room, &answer) == ODFILTER_OK && !memcmp(text, wanted, strlen(wanted));
}

/* the first value of the conditions that all read */
static int is_value(void)
{
    char text[32];
    odfilter_buffer room = {text, sizeof text};
    odfilter_answer answer;
    return odfilter_sql_value(conditions, ODFILTER_SQL_KEEP, 0, room, &answer) == ODFILTER_OK && answer.number == 1;
}

/* a filter of the type that all read, and a type of their schema */
static int is_checked(odfilter_handle *judge)
{
    odfilter_handle *found = NULL, *checked = NULL, *again = NULL;
    odfilter_answer answer;
    int is_well = odfilter_find_type(schema, borrowed("Mini.Item"), &found) == ODFILTER_OK &&
                  odfilter_check(found, borrowed("Name eq 'a'"), &checked, &answer) == ODFILTER_OK &&
                  odfilter_check(type, borrowed("Foo"), &again, &answer) == ODFILTER_TYPE_FAULT &&
                  odfilter_check_query(type, borrowed("filter=ID%20eq%201"), &again, &answer) == ODFILTER_OK;
    odfilter_free(&found);
    is_well &= keeps(checked, judge, OTHER_ROW, ODFILTER_TRUE) && keeps(again, judge, OTHER_ROW, ODFILTER_FALSE);
    odfilter_free(&again);
    odfilter_free(&checked);
    return is_well;
}

static void *work_of(void *given)
{
    struct work *work = given;
    odfilter_handle *judge = NULL, *own = NULL;
    odfilter_answer answer;
    long number;
    work->wrong += odfilter_new_judge(&judge) != ODFILTER_OK;
    work->wrong += odfilter_new_judge_of(filter, &own) != ODFILTER_OK;
    for (number = 0; number < times; number++) {
        work->wrong += !keeps(filter, judge, ROW, ODFILTER_TRUE) || !keeps(filter, judge, OTHER_ROW, ODFILTER_FALSE);
        work->wrong += odfilter_judge(filter, judge, borrowed(BAD_ROW), &answer) != ODFILTER_ROW_FAULT;
        work->wrong += !keeps_next(own, ROW, ODFILTER_TRUE) || !keeps_next(own, OTHER_ROW, ODFILTER_FALSE);
        if (number % 16 == 0)
            work->wrong += !is_checked(judge) || !is_value() || !is_reported(odfilter_canonical, FILTER) ||
                           !is_reported(odfilter_explain, "0..18 and");
        if (number == times / 2) {
            work->wrong += !keeps(work->own_filter, judge, ROW, ODFILTER_TRUE);
            work->wrong +=
                odfilter_free(&work->own_type) != ODFILTER_OK || odfilter_free(&work->own_filter) != ODFILTER_OK;
        }
    }
    work->wrong += odfilter_check(type, borrowed(FILTER), &work->made, &answer) != ODFILTER_OK;
    work->wrong += odfilter_free(&judge) != ODFILTER_OK || odfilter_free(&own) != ODFILTER_OK;
    return NULL;
}

int main(int count, char **words)
{
    static struct work works[THREADS];
    odfilter_handle *judge = new_judge();
    int number;
    times = count == 2 ? atol(words[1]) : 1;
    schema = schema_of(DOCUMENT);
    type = type_of(schema, "Mini.Item");
    filter = filter_of(type, FILTER);
    conditions = conditions_of(filter);
    for (number = 0; number < THREADS; number++) {
        works[number].own_type = type_of(schema, "Mini.Item");
        works[number].own_filter = filter_of(works[number].own_type, FILTER);
    }
    for (number = 0; number < THREADS; number++)
        check("a thread starts", !pthread_create(&works[number].thread, NULL, work_of, &works[number]));
    for (number = 0; number < THREADS; number++) {
        check("a thread ends", !pthread_join(works[number].thread, NULL));
        check("all that it was answered", works[number].wrong == 0);
    }
    odfilter_free(&schema);
    odfilter_free(&type);
    odfilter_free(&filter);
    odfilter_free(&conditions);
    for (number = 0; number < THREADS; number++) {
        check("a filter that a thread made", is_kept(works[number].made, judge, ROW));
        check("it is freed", odfilter_free(&works[number].made) == ODFILTER_OK);
    }
    odfilter_free(&judge);
    return end();
}
