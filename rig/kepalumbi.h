/* Kepalumbi: the bench model of a talkback net, for a rig's host in C.
 *
 * Nine functions over numbers and byte buffers. Each is proved, on every length and every byte, to do what is said here.
 *
 * A buffer is a pointer and a length. The pointer is not null, even for a buffer of no bytes, and that many bytes behind it
 * can be read, or written too where the pointer is not const. Buffers of one call do not overlap. Nothing is kept after a call,
 * nothing is allocated, nothing is printed, and every call returns. The stack that a call needs is below, measured and not proved.
 *
 * A result is one number. Its lowest byte is the outcome: 0 for accepted, else the number of the refusal. Further values stand
 * in the next bytes. A refusal is its number with zeros for every other value, and it changes no byte of any buffer.
 * Where a call could be refused for several reasons, the one given is the first in the order named beside the function.
 *
 * A net has two forms, of the same length. In the saved form the entries stand by group and then station, and byte 7, the mark, is
 * 0; in the working form they stand by station and then group, and the mark is 1. All else is the same. Neither form passes for the
 * other: a function for one form gives 1 to a net in the other. Below, net is in the saved form, and work in the working form.
 *
 * The bytes of a plan, a net in either form, a script, a reach list and a tally: docs/FORMATS.md.
 */
#ifndef KEPALUMBI_H
#define KEPALUMBI_H

#include <stddef.h>
#include <stdint.h>

#ifdef __cplusplus
extern "C" {
#endif

/* The sizes, in bytes, that the model asks for. */
enum {
    KEP_PLAN_BYTES = 112,
    KEP_NET_BYTES = 15728, /* in either form */
    KEP_LIST_BYTES = 48,   /* 16 entries of station, parent, depth */
    KEP_TALLY_BYTES = 36,  /* nine counts of 4 bytes, big-endian */
    KEP_SCRIPT_BYTES_MOST = 16384,
    KEP_NIL = 255          /* no station */
};

/* The stack, in bytes, that a call needs at most: rounded up from what rig/build measures. */
enum {
    KEP_STACK_BYTES = 4096,
    KEP_CALL_STACK_BYTES = 32768 /* of kep_call, which visits up to 16 stations, each below the one before */
};

/* The outcomes. */
enum {
    KEP_ACCEPTED = 0,
    KEP_NET_NOT_WELL_SHAPED = 1, /* the net is not 15,728 bytes or not well shaped in the function's form */
    KEP_NO_SUCH_ACTION = 2,      /* the action number is 0 or above 9 */
    KEP_OPERAND = 3,             /* an operand is out of range, no neighbour where one is asked, a route's own station, or
                                  * unused and not zero */
    KEP_NOT_ENABLED = 4,         /* the action is not enabled; an empty channel; a position with no message */
    KEP_CLOCK_FULL = 5,          /* tick at clock 4,294,967,295 */
    KEP_CHANNEL_FULL = 6,        /* the channel to be sent on already holds 8 */
    KEP_NO_SUCH_GROUP = 7,       /* no group has exactly these name bytes */
    KEP_NOT_ON_THE_TREE = 8,     /* the caller has no agreed chain to the root */
    KEP_PLAN_NOT_WELL_SHAPED = 9, /* the plan is not 112 bytes or not well shaped */
    KEP_SIZE = 10,               /* the lent output is not of the stated size */
    KEP_SCRIPT_NOT_FOURS = 11,   /* the script's length is not a multiple of 4 */
    KEP_SCRIPT_TOO_LONG = 12     /* the script is longer than 16,384 bytes */
};

/* The cases of a reply, tested in this order: the first that holds is told. In each of them the receiver stops waiting on the
 * sender; only in the first does anything else of it change. */
enum {
    KEP_NO_REPLY = 0,      /* no reply was heard: the step delivered a request or nothing, or was refused */
    KEP_ADOPTED = 1,       /* the sender is the receiver's tentative parent, the flag is 1, and the clock is greater than the
                            * receiver's: the sender becomes parent, and the clock is taken */
    KEP_NOT_TENTATIVE = 2, /* the sender is not the receiver's tentative parent */
    KEP_UNCONNECTED = 3,   /* the flag is not 1 */
    KEP_NOT_GREATER = 4    /* the clock is not greater than the receiver's */
};

/* The parts of a result. */
#define KEP_OUTCOME(r) ((r) & 255u)
#define KEP_CASE(r) ((r) >> 8 & 255u)    /* of kep_step and kep_working_step */
#define KEP_GROUP(r) ((r) >> 8 & 255u)   /* of kep_find */
#define KEP_REACHED(r) ((r) >> 8 & 255u) /* of kep_call */
#define KEP_COPIES(r) ((r) >> 16 & 255u) /* of kep_call */

/* A fresh net from a plan, in the saved form: the plan's groups and cables; routes and parents nil; members, clocks, children,
 * waiting and channels zero. What the buffer held before does not matter. Refusals: 10 (net_len), then 9 (the plan). */
uint32_t kep_fresh(const uint8_t *plan, size_t plan_len, uint8_t *net, size_t net_len);

/* One step of a net: outcome | case << 8, the case of the reply that it delivered, or 0. So the result of an accepted step need not
 * be 0. Refusals: 1, 2, 3, 4, 5, 6. */
uint32_t kep_step(uint8_t *net, size_t net_len, uint8_t action, uint8_t a, uint8_t b, uint8_t c);

/* The steps of a script in turn, four bytes each; a step refused is counted and passed over. The tally is set anew: accepted,
 * refused, sent, delivered, lost; then the replies delivered, by their cases: adopted, not tentative, unconnected, not greater.
 * Refusals: 1, 10 (tally_len), 11, 12. */
uint32_t kep_run(uint8_t *net, size_t net_len, const uint8_t *script, size_t script_len, uint8_t *tally, size_t tally_len);

/* The group that has exactly these name bytes, all of them and no others: outcome | group << 8. Refusals: 1, 7. */
uint32_t kep_find(const uint8_t *net, size_t net_len, const uint8_t *name, size_t name_len);

/* Whom a call of this station reaches in this group: outcome | reached << 8 | copies << 16, and the list from the root, lowest
 * child first, a whole branch before the next: station, parent (255 for the root), depth; later entries 255 three times.
 * Refusals: 1, 3 (group or station), 10 (list_len), 8. */
uint32_t kep_call(const uint8_t *net, size_t net_len, uint8_t group, uint8_t station, uint8_t *list, size_t list_len);

/* The same net in the working form. What the buffer held before does not matter. Refusals: 1 (the net), then 10 (work_len). */
uint32_t kep_to_working(const uint8_t *net, size_t net_len, uint8_t *work, size_t work_len);

/* The same net in the saved form: of what kep_to_working wrote, the bytes that it was given. What the buffer held before does not
 * matter. Refusals: 1 (work), then 10 (net_len). */
uint32_t kep_to_saved(const uint8_t *work, size_t work_len, uint8_t *net, size_t net_len);

/* One step of a net in the working form: outcome and case are kep_step's of the same net, and so is the net, but for its form.
 * Refusals: 1, 2, 3, 4, 5, 6. */
uint32_t kep_working_step(uint8_t *work, size_t work_len, uint8_t action, uint8_t a, uint8_t b, uint8_t c);

/* A run on a net in the working form: outcome and tally are kep_run's on the same net, and so is the net, but for its form.
 * Refusals: 1, 10 (tally_len), 11, 12. */
uint32_t kep_working_run(uint8_t *work, size_t work_len, const uint8_t *script, size_t script_len, uint8_t *tally,
                         size_t tally_len);

#ifdef __cplusplus
}
#endif

#endif
