/* The proved book as a C library: a list of calls in, their answers out.
 *
 * docs/LINKING.md says how to build and link it, what is proved of these functions, and what the caller owes. Above all:
 * - No pointer may be null, not even that of an empty list. Each points to as many elements as the number after it says.
 * - A list that is written may not overlap any other list.
 * - A list is written from its front. What stands after the last element that is written stays as it was. */

#ifndef CORALAUGER_H
#define CORALAUGER_H

#include <stdbool.h>
#include <stddef.h>
#include <stdint.h>

#ifdef __cplusplus
extern "C" {
#endif

/* A call. `call`, `side` and `kind` are the letters that stand for them in a day file (docs/DAYFILE.md), except that a slip is
 * drawn by 'D' and comes back by 'B'. These are the fields that each call uses; the others are not looked at.
 *
 *     'E'  who, side, kind, price, has_offset, offset, shares    an order is entered
 *     'C'  who, number                                           an order is cancelled
 *     'R'  who, side, kind, price, shares                        a Retail Order is sent
 *     'D'  number                                                a slip is drawn
 *     'B'  number, shares, away                                  a slip comes back
 *     'P'  kind                                                  the phase changes
 *     'A'  who                                                   a member is approved for Retail Orders
 *     'W'  who                                                   a member is withdrawn
 *     'T'  who, side, price, shares                              a quote is told
 *     'X'  who                                                   a centre is put under an exception
 *     'L'  who                                                   the exception of a centre is lifted
 *
 * An order has the offset `offset` exactly if `has_offset` is true; if it is false, `offset` does not matter. */
struct coralauger_call {
    uint8_t call;
    uint8_t side;
    uint8_t kind;
    bool has_offset;
    uint32_t who;
    uint32_t price;
    uint32_t offset;
    uint32_t shares;
    uint32_t number;
    uint32_t away;
};

/* An answer. If the call was refused, `refusal` is the number of the refusal, 1 to 13 (docs/REFUSALS.md), and all else is 0; if
 * it was taken, `refusal` is 0. What a call of each letter is told, where a field that is not named is 0:
 *
 *     'E'  number, shares                                the order's number, and the shares entered
 *     'C'  number, shares                                its number, and the shares that were cancelled
 *     'R'  number, shares, cancelled, waiting, fills     its number, the shares filled, those of the rest that are cancelled or
 *                                                        wait on a slip, and how many of the fills are this call's
 *     'D'  number, shares                                the slip's number, and the shares on it
 *     'B'  number, shares, cancelled                     its number, the shares executed away, and the rest, which is cancelled
 *     'P', 'A', 'W', 'T', 'X', 'L'                       nothing more
 */
struct coralauger_answer {
    uint32_t refusal;
    uint32_t number;
    uint32_t shares;
    uint32_t cancelled;
    uint32_t waiting;
    size_t fills;
};

/* What a resting order gave to a Retail Order. */
struct coralauger_fill {
    uint32_t number;
    uint32_t price;
    uint32_t shares;
};

/* Why the answers end where they do. There is no other number. */
enum {
    CORALAUGER_DONE = 0,         /* every call is answered; of a day file, the answers are written */
    CORALAUGER_NO_MEMORY = 1,    /* memory ran out; nothing is answered or written */
    CORALAUGER_NO_SUCH_CALL = 2, /* the next call has a letter that stands for nothing, and was not made; never of a day file */
    CORALAUGER_SHORT_LIST = 3    /* there is no free place for the next answer, or fewer than 256 for its fills, and the call was not
                                    made; of a day file, the answers have more bytes than there are places */
};

/* Why the answers end where they do, how many calls are answered, and how many fills their answers have. */
struct coralauger_run {
    uint32_t end;
    size_t calls;
    size_t fills;
};

/* Makes the calls of a list on an empty book, before the opening, with 32 market centres and no quote told, and answers them
 * in order. The answers stand at the front of `answers`, the fills of all of them, one after the other, at the front of
 * `fills`: the first answer has the first `fills` of them, the next answer those after these. */
struct coralauger_run coralauger_run(
    const struct coralauger_call *calls, size_t call_count,
    struct coralauger_answer *answers, size_t answer_places,
    struct coralauger_fill *fills, size_t fill_places);

/* The protected bid and the protected offer. A price is 1 or more, and 0 says that there is none. */
struct coralauger_best {
    uint32_t bid;
    uint32_t offer;
};

/* Makes the calls 'T', 'X' and 'L' of a list on 32 market centres with no quote told, and writes the protected quotes as they
 * stand after each; a refused call leaves them. It ends before any other call, and where a list ends. It returns how many
 * were written. */
size_t coralauger_protect(
    const struct coralauger_call *calls, size_t call_count,
    struct coralauger_best *best, size_t best_places);

/* How it ended (0, 1 or 3 of the numbers above), and how many bytes the answers have: at 0 they are written, at 3 that many
 * places are needed, at 1 it is 0. */
struct coralauger_day {
    uint32_t end;
    size_t bytes;
};

/* Answers a day file (docs/DAYFILE.md). The answers stand at the front of `answers`. If they have more bytes than there are
 * places, or memory runs out, nothing is written. */
struct coralauger_day coralauger_answer_day(
    const uint8_t *day, size_t day_bytes,
    uint8_t *answers, size_t answer_places);

#ifdef __cplusplus
}
#endif

#endif
