/* What the calls of the C library take, for bench/c_library.
 *
 *     c_library check SCHEMA TYPE FILTER THREADS SECONDS    checks the filter's text by a type's handle, and frees it
 *     c_library judge SCHEMA TYPE FILTER ROWS SECONDS       judges the lines of a file, one by one
 *     c_library next SCHEMA TYPE FILTER ROWS SECONDS        the same by a judge of the filter
 *     c_library lines SCHEMA TYPE FILTER ROWS SECONDS       judges them by one call for all
 *
 * Prints how many were done, the seconds of the clock and of the processors, how many allocations the first round took
 * (a check; all lines) and how many all later ones of the first thread. It is linked with
 * -Wl,--wrap=malloc,--wrap=realloc. */
#define _POSIX_C_SOURCE 200809L
#include <pthread.h>
#include <stdio.h>
#include <stdlib.h>
#include <string.h>
#include <time.h>

#include "odfilter.h"

#define MOST_THREADS 64

void *__real_malloc(size_t size);
void *__real_realloc(void *at, size_t size);
void *__wrap_malloc(size_t size);
void *__wrap_realloc(void *at, size_t size);

static __thread unsigned long allocations;

void *__wrap_malloc(size_t size)
{
    allocations++;
    return __real_malloc(size);
}

void *__wrap_realloc(void *at, size_t size)
{
    allocations++;
    return __real_realloc(at, size);
}

/* what a thread does over and over, and what came of it */
struct work {
    pthread_t thread;
    unsigned long (*round)(struct work *);
    odfilter_handle *judge;
    unsigned long done, at_first, later;
    double seconds;
};

static odfilter_handle *schema, *type, *filter;
static odfilter_bytes text, rows;
static odfilter_buffer kept;

static void give_up(const char *why)
{
    fprintf(stderr, "c_library: %s\n", why);
    exit(1);
}

static double seconds_of(clockid_t clock)
{
    struct timespec now;
    clock_gettime(clock, &now);
    return (double)now.tv_sec + (double)now.tv_nsec * 1e-9;
}

static odfilter_bytes file_of(const char *path)
{
    FILE *file = fopen(path, "rb");
    odfilter_bytes bytes = {NULL, 0};
    char *at;
    if (!file || fseek(file, 0, SEEK_END))
        give_up(path);
    bytes.length = (size_t)ftell(file);
    rewind(file);
    at = malloc(bytes.length + 1);
    if (!at || fread(at, 1, bytes.length, file) != bytes.length)
        give_up(path);
    fclose(file);
    bytes.at = at;
    return bytes;
}

static unsigned long check_once(struct work *work)
{
    odfilter_handle *checked = NULL;
    odfilter_answer answer;
    (void)work;
    if (odfilter_check(type, text, &checked, &answer) != ODFILTER_OK || odfilter_free(&checked) != ODFILTER_OK)
        give_up("the filter is not accepted");
    return 1;
}

/* the row at the front of a text */
static odfilter_bytes first_of(const char *at, const char *end)
{
    const char *feed = memchr(at, '\n', (size_t)(end - at));
    odfilter_bytes row = {at, (size_t)((feed ? feed : end) - at)};
    return row;
}

static unsigned long judge_each(struct work *work)
{
    const char *at = rows.at, *end = rows.at + rows.length;
    unsigned long count = 0;
    odfilter_answer answer;
    while (at < end) {
        odfilter_bytes row = first_of(at, end);
        if (odfilter_judge(filter, work->judge, row, &answer) != ODFILTER_OK)
            give_up("a row is not judged");
        count++;
        at += row.length + 1;
    }
    return count;
}

static unsigned long judge_next(struct work *work)
{
    const char *at = rows.at, *end = rows.at + rows.length;
    unsigned long count = 0;
    odfilter_answer answer;
    while (at < end) {
        odfilter_bytes row = first_of(at, end);
        if (odfilter_judge_next(work->judge, row, &answer) != ODFILTER_OK)
            give_up("a row is not judged");
        count++;
        at += row.length + 1;
    }
    return count;
}

static unsigned long judge_lines(struct work *work)
{
    odfilter_answer answer;
    if (odfilter_filter_lines(filter, work->judge, rows, kept, &answer) != ODFILTER_OK)
        give_up("the rows are not judged");
    return (unsigned long)answer.rows;
}

static void *work_of(void *given)
{
    struct work *work = given;
    double end = seconds_of(CLOCK_MONOTONIC) + work->seconds;
    int times, batch;
    allocations = 0;
    work->done = work->round(work);
    work->at_first = allocations;
    allocations = 0;
    batch = work->done == 1 ? 64 : 1;
    do
        for (times = 0; times < batch; times++)
            work->done += work->round(work);
    while (seconds_of(CLOCK_MONOTONIC) < end);
    work->later = allocations;
    return NULL;
}

static void take_handles(char **words)
{
    odfilter_answer answer;
    odfilter_bytes document = file_of(words[2]), name = {words[3], strlen(words[3])};
    char names[256];
    odfilter_buffer room = {names, sizeof names};
    text.at = words[4];
    text.length = strlen(words[4]);
    if (odfilter_read_schema(document, room, &schema, &answer) != ODFILTER_OK)
        give_up("the schema is not read");
    if (odfilter_find_type(schema, name, &type) != ODFILTER_OK)
        give_up("the type is not found");
    if (odfilter_check(type, text, &filter, &answer) != ODFILTER_OK)
        give_up("the filter is not accepted");
    free((char *)document.at);
}

/* runs all threads, and prints what came of it */
static void measure(struct work *works, int threads)
{
    double clock = seconds_of(CLOCK_MONOTONIC), used = seconds_of(CLOCK_PROCESS_CPUTIME_ID);
    unsigned long done = 0;
    int number;
    for (number = 0; number < threads; number++)
        if (pthread_create(&works[number].thread, NULL, work_of, &works[number]))
            give_up("no thread");
    for (number = 0; number < threads; number++) {
        pthread_join(works[number].thread, NULL);
        done += works[number].done;
    }
    clock = seconds_of(CLOCK_MONOTONIC) - clock;
    used = seconds_of(CLOCK_PROCESS_CPUTIME_ID) - used;
    printf("%lu %.6f %.6f %lu %lu\n", done, clock, used, works[0].at_first, works[0].later);
}

/* what is done over and over, by the first word */
static const struct verb {
    const char *word;
    unsigned long (*round)(struct work *);
} verbs[] = {{"check", check_once}, {"judge", judge_each}, {"next", judge_next}, {"lines", judge_lines}};

static unsigned long (*round_of(const char *word))(struct work *)
{
    size_t number, count = sizeof verbs / sizeof *verbs;
    for (number = 0; number < count; number++)
        if (!strcmp(verbs[number].word, word))
            return verbs[number].round;
    give_up("usage: c_library check|judge|next|lines SCHEMA TYPE FILTER THREADS|ROWS SECONDS");
    return NULL;
}

int main(int count, char **words)
{
    static struct work works[MOST_THREADS];
    int number, threads = 1;
    unsigned long (*round)(struct work *) = round_of(count == 7 ? words[1] : "");
    take_handles(words);
    if (round == check_once)
        threads = atoi(words[5]) < MOST_THREADS ? atoi(words[5]) : MOST_THREADS;
    else
        rows = file_of(words[5]);
    kept.length = rows.length + 1;
    kept.at = malloc(kept.length);
    for (number = 0; number < threads; number++) {
        struct work *work = &works[number];
        work->round = round;
        work->seconds = atof(words[6]);
        if (odfilter_new_judge_of(filter, &work->judge) != ODFILTER_OK)
            give_up("no judge");
    }
    measure(works, threads);
    return 0;
}
