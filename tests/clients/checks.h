/* What the checks of the C library share: counting, blocks of just so many bytes, and the handles of a small schema. */
#ifndef CHECKS_H
#define CHECKS_H

#include <stdio.h>
#include <stdlib.h>
#include <string.h>

#include "odfilter.h"

#define DOCUMENT                                                                                                       \
    "{\"$Version\":\"4.01\",\"Mini\":{\"Item\":{\"$Kind\":\"EntityType\",\"ID\":{\"$Type\":\"Edm.Int32\"},"            \
    "\"Name\":{},\"Active\":{\"$Type\":\"Edm.Boolean\"},\"Part\":{\"$Type\":\"Mini.Part\"}},"                          \
    "\"Part\":{\"$Kind\":\"ComplexType\",\"Size\":{\"$Type\":\"Edm.Byte\"}}}}"
#define ROW "{\"ID\":1,\"Name\":\"a\",\"Active\":true,\"Part\":{\"Size\":5}}"
#define OTHER_ROW "{\"ID\":2,\"Name\":\"a\",\"Active\":false,\"Part\":{\"Size\":5}}"
#define BAD_ROW "{\"ID\":1,\"Name\":\"a\",\"Active\":true,\"Part\":{\"Size\":256}}"
#define FILTER "Active and ID eq 1"

static unsigned long passed, failed;

static inline void check(const char *name, int is_well)
{
    passed += is_well != 0;
    failed += is_well == 0;
    if (!is_well)
        printf("FAILED %s\n", name);
}

static inline int end(void)
{
    printf("%lu passed, %lu failed\n", passed, failed);
    return failed != 0;
}

/* memory of just so many bytes; what stands in it is no zero */
static inline char *block(size_t length)
{
    char *at = malloc(length);
    if (!at)
        abort();
    memset(at, 0x5a, length);
    return at;
}

/* a text in a block of its own, without a NUL after it */
static inline odfilter_bytes bytes_of(const char *text)
{
    odfilter_bytes bytes = {NULL, strlen(text)};
    bytes.at = memcpy(block(bytes.length), text, bytes.length);
    return bytes;
}

static inline void drop(odfilter_bytes bytes)
{
    free((char *)bytes.at);
}

/* an answer that no call gives */
static inline odfilter_answer unwritten(void)
{
    odfilter_answer answer;
    memset(&answer, 0xa5, sizeof answer);
    return answer;
}

/* whether a call wrote that answer: what it does not speak of is 0 */
static inline int is_answer(odfilter_answer got, odfilter_answer wanted)
{
    return got.fault == wanted.fault && got.verdict == wanted.verdict && got.start == wanted.start &&
           got.stop == wanted.stop && got.number == wanted.number && got.length == wanted.length &&
           got.first == wanted.first && got.rows == wanted.rows && got.kept == wanted.kept &&
           got.piece_start == wanted.piece_start && got.piece_stop == wanted.piece_stop &&
           got.value_start == wanted.value_start && got.value_stop == wanted.value_stop;
}

static inline odfilter_handle *schema_of(const char *document)
{
    odfilter_answer answer;
    odfilter_handle *schema = NULL;
    odfilter_bytes bytes = bytes_of(document);
    char names[8];
    odfilter_buffer room = {names, sizeof names};
    check("the schema is read", odfilter_read_schema(bytes, room, &schema, &answer) == ODFILTER_OK);
    drop(bytes);
    return schema;
}

static inline odfilter_handle *type_of(const odfilter_handle *schema, const char *name)
{
    odfilter_handle *type = NULL;
    odfilter_bytes bytes = bytes_of(name);
    check("the type is found", odfilter_find_type(schema, bytes, &type) == ODFILTER_OK);
    drop(bytes);
    return type;
}

static inline odfilter_handle *filter_of(const odfilter_handle *type, const char *text)
{
    odfilter_answer answer;
    odfilter_handle *filter = NULL;
    odfilter_bytes bytes = bytes_of(text);
    check("the filter is accepted", odfilter_check(type, bytes, &filter, &answer) == ODFILTER_OK);
    drop(bytes);
    return filter;
}

static inline odfilter_handle *new_judge(void)
{
    odfilter_handle *judge = NULL;
    check("a judge is made", odfilter_new_judge(&judge) == ODFILTER_OK);
    return judge;
}

/* conditions for columns of SQLite, without a moment */
static inline odfilter_handle *conditions_of(const odfilter_handle *filter)
{
    static const odfilter_bytes how = {NULL, 0};
    odfilter_answer answer;
    odfilter_handle *conditions = NULL;
    check("conditions are made",
          odfilter_new_sql(filter, ODFILTER_SQLITE_COLUMNS, how, &conditions, &answer) == ODFILTER_OK);
    return conditions;
}

/* the status of a judged row, and the verdict */
static inline uint32_t judged(const odfilter_handle *filter, odfilter_handle *judge, const char *row, uint32_t *verdict)
{
    odfilter_answer answer;
    odfilter_bytes bytes = bytes_of(row);
    uint32_t status = odfilter_judge(filter, judge, bytes, &answer);
    *verdict = answer.verdict;
    drop(bytes);
    return status;
}

static inline odfilter_handle *new_judge_of(const odfilter_handle *filter)
{
    odfilter_handle *judge = NULL;
    check("a judge of a filter is made", odfilter_new_judge_of(filter, &judge) == ODFILTER_OK);
    return judge;
}

/* the same by the filter that the judge was made of */
static inline uint32_t judged_next(odfilter_handle *judge, const char *row, uint32_t *verdict)
{
    odfilter_answer answer;
    odfilter_bytes bytes = bytes_of(row);
    uint32_t status = odfilter_judge_next(judge, bytes, &answer);
    *verdict = answer.verdict;
    drop(bytes);
    return status;
}

static inline int is_next_kept(odfilter_handle *judge, const char *row)
{
    uint32_t verdict;
    return judged_next(judge, row, &verdict) == ODFILTER_OK && verdict == ODFILTER_TRUE;
}

static inline int is_kept(const odfilter_handle *filter, odfilter_handle *judge, const char *row)
{
    uint32_t verdict;
    return judged(filter, judge, row, &verdict) == ODFILTER_OK && verdict == ODFILTER_TRUE;
}

#endif
