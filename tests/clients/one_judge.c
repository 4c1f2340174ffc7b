/* Why each thread has a judge of its own: two threads use one judge here, which is a data race. It is run under helgrind,
 * which has to report that. */
#define _POSIX_C_SOURCE 200809L
#include <pthread.h>
#include <time.h>

#include "checks.h"

static odfilter_handle *filter, *judge;

struct work {
    pthread_t thread;
    struct timespec wait;
    int is_well;
};

/* one thread after the other, so that nothing breaks; but no lock and no join orders them */
static void *work_of(void *given)
{
    struct work *work = given;
    nanosleep(&work->wait, NULL);
    work->is_well = is_kept(filter, judge, ROW);
    return NULL;
}

int main(void)
{
    struct work works[] = {{.wait = {0, 0}}, {.wait = {1, 0}}};
    odfilter_handle *schema = schema_of(DOCUMENT), *type = type_of(schema, "Mini.Item");
    int number;
    filter = filter_of(type, FILTER);
    judge = new_judge();
    for (number = 0; number < 2; number++)
        check("a thread starts", !pthread_create(&works[number].thread, NULL, work_of, &works[number]));
    for (number = 0; number < 2; number++) {
        check("a thread ends", !pthread_join(works[number].thread, NULL));
        check("a row is kept", works[number].is_well);
    }
    odfilter_free(&judge);
    odfilter_free(&filter);
    odfilter_free(&type);
    odfilter_free(&schema);
    return end();
}
