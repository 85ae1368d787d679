/* What the functions do if memory runs out: each place where they ask for memory gets none in turn, until they end as they
 * do with memory. Each time the end has to be CORALAUGER_NO_MEMORY, with nothing answered and the lists as they were. The
 * linker gives `__wrap_malloc` and `__wrap_realloc` what the library asks of `malloc` and `realloc` (scripts/link). Exit
 * status: 0 only if it is so, and memory was asked for at all. */

#include "coralauger.h"

#include <stdio.h>
#include <string.h>

enum { FILL_PLACES = 300, ANSWER_PLACES = 4096, LINES = 100, MARK = 0x5a, MOST = 1000 };

void *__real_malloc(size_t size);
void *__real_realloc(void *block, size_t size);

/* How many more requests get memory. */
static size_t left;

static bool granted(void)
{
    if (left == 0) {
        return false;
    }
    left--;
    return true;
}

void *__wrap_malloc(size_t size)
{
    return granted() ? __real_malloc(size) : NULL;
}

void *__wrap_realloc(void *block, size_t size)
{
    return granted() ? __real_realloc(block, size) : NULL;
}

static bool all_marked(const void *list, size_t bytes)
{
    const uint8_t *place = list;
    for (size_t at = 0; at < bytes; at++) {
        if (place[at] != MARK) {
            return false;
        }
    }
    return true;
}

/* A run of one call with so many requests granted: whether it is done, or else says so and leaves everything. */
static bool run_is_done(size_t requests, bool *well)
{
    static const struct coralauger_call call = {.call = 'A', .who = 5};
    struct coralauger_answer answer;
    struct coralauger_fill fills[FILL_PLACES];
    memset(&answer, MARK, sizeof answer);
    memset(fills, MARK, sizeof fills);
    left = requests;
    struct coralauger_run run = coralauger_run(&call, 1, &answer, 1, fills, FILL_PLACES);
    if (run.end == CORALAUGER_DONE) {
        return true;
    }
    *well = *well && run.end == CORALAUGER_NO_MEMORY && run.calls == 0 && run.fills == 0 &&
            all_marked(&answer, sizeof answer) && all_marked(fills, sizeof fills);
    return false;
}

/* The same of a day. */
static bool day_is_done(size_t requests, bool *well)
{
    static char day[ANSWER_PLACES];
    uint8_t answers[ANSWER_PLACES];
    char *end = day + sprintf(day, "call,who,side,kind,price,offset,shares,ref\n");
    for (int line = 0; line < LINES; line++) {
        end += sprintf(end, "A,5,,,,,,\n");
    }
    memset(answers, MARK, sizeof answers);
    left = requests;
    struct coralauger_day answered = coralauger_answer_day((const uint8_t *)day, (size_t)(end - day), answers, sizeof answers);
    if (answered.end == CORALAUGER_DONE) {
        return true;
    }
    *well = *well && answered.end == CORALAUGER_NO_MEMORY && answered.bytes == 0 && all_marked(answers, sizeof answers);
    return false;
}

/* Grants none, one, two and so on; whether it ends well, and not at once. */
static bool holds(bool (*is_done)(size_t, bool *))
{
    bool well = true;
    size_t requests = 0;
    while (requests < MOST && !is_done(requests, &well)) {
        requests++;
    }
    return well && 0 < requests && requests < MOST;
}

int main(void)
{
    bool run = holds(run_is_done), day = holds(day_is_done);
    printf("A run without memory %s.\nA day without memory %s.\n", run ? "says so" : "FAILS", day ? "says so" : "FAILS");
    return run && day ? 0 : 1;
}
