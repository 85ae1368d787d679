/* A morning on the proved book, by its C interface: the calls of a list and their answers in words, where the answers end
 * at an unknown letter and at a list of fills that is too short, the protected quotes, a day file, and a long one.
 * `link/rust` does the same, and `link/morning.expected` is what both print. Exit status: 0 only if all ended as it should,
 * and the answers to the long day are what they should be. */

#include "coralauger.h"

#include <stdio.h>
#include <string.h>

enum { CALLS = 18, QUOTES = 5, FILL_PLACES = 300, DAY_BYTES = 256, LONG_BYTES = 65536, ROUNDS = 1000 };

typedef struct coralauger_call call_t;
typedef struct coralauger_answer answer_t;

static const call_t morning[CALLS] = {
    {.call = 'T', .who = 1, .side = 'B', .price = 10000, .shares = 300},
    {.call = 'T', .who = 1, .side = 'S', .price = 10050, .shares = 300},
    /* without the flag the number beside it is no offset */
    {.call = 'E', .who = 2, .side = 'B', .kind = 'R', .price = 10015, .offset = 5, .shares = 500},
    {.call = 'E', .who = 3, .side = 'B', .kind = 'R', .price = 10040, .has_offset = true, .offset = 20, .shares = 300},
    {.call = 'E', .who = 4, .side = 'B', .kind = 'H', .price = 10010, .shares = 200},
    {.call = 'E', .who = 4, .side = 'B', .kind = 'H', .price = 10015, .shares = 200},
    {.call = 'A', .who = 5},
    {.call = 'P', .kind = 'O'},
    {.call = 'R', .who = 5, .side = 'S', .kind = '1', .price = 10000, .shares = 600},
    {.call = 'R', .who = 6, .side = 'S', .kind = '1', .price = 10000, .shares = 600},
    {.call = 'C', .who = 2, .number = 1},
    {.call = 'R', .who = 5, .side = 'S', .kind = '3', .price = 10000, .shares = 1000},
    {.call = 'D', .number = 5},
    {.call = 'B', .number = 5, .shares = 800, .away = 650},
    {.call = 'X', .who = 1},
    {.call = 'L', .who = 1},
    {.call = 'W', .who = 5},
    {.call = 'R', .who = 5, .side = 'S', .kind = '2', .price = 10000, .shares = 100},
};

/* An offer alone, a bid beside it, an exception that leaves neither, its end, and the offer taken away. */
static const call_t quotes[QUOTES] = {
    {.call = 'T', .who = 1, .side = 'S', .price = 10050, .shares = 300},
    {.call = 'T', .who = 1, .side = 'B', .price = 10000, .shares = 300},
    {.call = 'X', .who = 1},
    {.call = 'L', .who = 1},
    {.call = 'T', .who = 1, .side = 'S'},
};

static const char day[] =
    "call,who,side,kind,price,offset,shares,ref\n"
    "A,5,,,,,,\n"
    "P,,,O,,,,\n"
    "T,1,S,,10050,,100,\n"
    "E,2,S,R,10020,15,100,\n"
    "R,5,B,1,10050,,80,\n"
    "C,2,,,,,,1\n"
    "C,2,,,,,,1\n";

static const char *end_in_words(uint32_t end)
{
    switch (end) {
    case CORALAUGER_DONE:
        return "done";
    case CORALAUGER_NO_MEMORY:
        return "no memory";
    case CORALAUGER_NO_SUCH_CALL:
        return "no such call";
    case CORALAUGER_SHORT_LIST:
        return "a list is too short";
    default:
        return "?";
    }
}

/* Says what a call that was taken was answered. */
static void say_taken(const call_t *call, const answer_t *answer)
{
    switch (call->call) {
    case 'E':
        printf("order %u rests, %u shares\n", answer->number, answer->shares);
        break;
    case 'C':
        printf("order %u is cancelled, %u shares\n", answer->number, answer->shares);
        break;
    case 'R':
        printf("Retail Order %u: %u shares filled, %u cancelled, %u waiting\n", answer->number, answer->shares,
               answer->cancelled, answer->waiting);
        break;
    case 'D':
        printf("slip %u is drawn, %u shares\n", answer->number, answer->shares);
        break;
    case 'B':
        printf("slip %u is back: %u shares executed away, %u cancelled\n", answer->number, answer->shares,
               answer->cancelled);
        break;
    default:
        printf("made\n");
    }
}

/* Says every answer, with its fills under it; gives how many fills they have. */
static size_t say_answers(const answer_t *answers, size_t count, const struct coralauger_fill *fills)
{
    size_t said = 0;
    for (size_t place = 0; place < count; place++) {
        printf("%2zu %c: ", place + 1, morning[place].call);
        if (answers[place].refusal != 0) {
            printf("refused, number %u\n", answers[place].refusal);
            continue;
        }
        say_taken(&morning[place], &answers[place]);
        for (size_t end = said + answers[place].fills; said < end; said++) {
            printf("      order %u gives %u shares at %u mills\n", fills[said].number, fills[said].shares,
                   fills[said].price);
        }
    }
    return said;
}

/* Runs calls with so many places for fills, and says how it ended. */
static struct coralauger_run run(const call_t *calls, answer_t *answers, struct coralauger_fill *fills, size_t fill_places)
{
    struct coralauger_run run = coralauger_run(calls, CALLS, answers, CALLS, fills, fill_places);
    printf("The run ends (%s): %zu calls are answered, with %zu fills.\n", end_in_words(run.end), run.calls, run.fills);
    return run;
}

/* Runs the morning three times: as it is; with a letter that no call has, in its twelfth call; and with so few places for
 * fills that the three of its first twelve calls leave fewer than 256. */
static bool run_morning(void)
{
    call_t unknown[CALLS];
    answer_t answers[CALLS];
    struct coralauger_fill fills[FILL_PLACES];
    struct coralauger_run whole = run(morning, answers, fills, FILL_PLACES);
    size_t said = say_answers(answers, whole.calls, fills);
    memcpy(unknown, morning, sizeof unknown);
    unknown[11].call = 'Z';
    uint32_t at_unknown = run(unknown, answers, fills, FILL_PLACES).end;
    uint32_t at_few = run(morning, answers, fills, 258).end;
    return whole.end == CORALAUGER_DONE && said == whole.fills && at_unknown == CORALAUGER_NO_SUCH_CALL &&
           at_few == CORALAUGER_SHORT_LIST;
}

static void say_protected(void)
{
    struct coralauger_best best[QUOTES];
    size_t written = coralauger_protect(quotes, QUOTES, best, QUOTES);
    for (size_t place = 0; place < written; place++) {
        printf("After quote %zu the protected bid is %u and the protected offer %u.\n", place + 1, best[place].bid,
               best[place].offer);
    }
}

static bool answer_day(void)
{
    uint8_t answers[DAY_BYTES];
    struct coralauger_day answered = coralauger_answer_day((const uint8_t *)day, strlen(day), answers, DAY_BYTES);
    printf("The day ends (%s): its answers have %zu bytes.\n", end_in_words(answered.end), answered.bytes);
    if (answered.end != CORALAUGER_DONE) {
        return false;
    }
    fwrite(answers, 1, answered.bytes, stdout);
    answered = coralauger_answer_day((const uint8_t *)day, strlen(day), answers, 10);
    printf("With 10 places it ends (%s): its answers have %zu bytes.\n", end_in_words(answered.end), answered.bytes);
    return answered.end == CORALAUGER_SHORT_LIST;
}

/* A day in which an order rests, and a Retail Order fills it, a thousand times; and what that is answered, as a text. */
static size_t write_long_day(char *text)
{
    char *end = text + sprintf(text, "call,who,side,kind,price,offset,shares,ref\nA,5,,,,,,\nP,,,O,,,,\nT,1,S,,10050,,100,\n");
    for (int round = 0; round < ROUNDS; round++) {
        end += sprintf(end, "E,2,S,R,10020,,100,\nR,5,B,1,10050,,100,\n");
    }
    return (size_t)(end - text);
}

static size_t write_long_answers(char *text)
{
    char *end = text + sprintf(text, "line,code,ref,price,shares\n2,A,,,\n3,P,,,\n4,T,,,\n");
    for (int round = 0; round < ROUNDS; round++) {
        int line = 5 + 2 * round, number = 1 + 2 * round;
        end += sprintf(end, "%d,E,%d,,100\n%d,F,%d,10020,100\n%d,R,%d,,100\n", line, number, line + 1, number, line + 1,
                       number + 1);
    }
    return (size_t)(end - text);
}

static bool answer_long_day(void)
{
    static char long_day[LONG_BYTES], expected[LONG_BYTES];
    static uint8_t answers[LONG_BYTES];
    size_t day_bytes = write_long_day(long_day), bytes = write_long_answers(expected);
    struct coralauger_day answered = coralauger_answer_day((const uint8_t *)long_day, day_bytes, answers, LONG_BYTES);
    bool as_expected = answered.bytes == bytes && memcmp(answers, expected, bytes) == 0;
    printf("The long day ends (%s): its answers have %zu bytes, %s.\n", end_in_words(answered.end), answered.bytes,
           as_expected ? "as they should be" : "and not as they should be");
    return answered.end == CORALAUGER_DONE && as_expected;
}

int main(void)
{
    bool ended = run_morning();
    say_protected();
    ended = answer_day() && ended;
    ended = answer_long_day() && ended;
    return ended ? 0 : 1;
}
