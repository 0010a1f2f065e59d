/* The work-stealing machine of libhost.a (x86-64) for C. docs/HOST.md says what is proved of it, and what a caller must keep.
 *
 * The machine is a block of words that the caller owns; its items are a buffer of the caller's, queue 0's slots first, with no
 * gaps. The block is opaque: it is read by the readings below. It may be copied, kept on file and handed in again.
 *
 * What the caller must keep, for every call:
 * - a pointer is not null, even where its length is 0, and is aligned for what it points to (8 bytes; 4 for positions);
 * - as many elements as the length says can be read, and written where the pointer is not const;
 * - no two slices of one call overlap, and no other thread touches them meanwhile.
 * Lengths count elements, not bytes. All else is tested: any words, items and numbers get a result or a refusal. That the items
 * are those that the block was run with is the caller's too: others are taken for the slots as they stand.
 *
 * Acts return 0, the refusal's number, or RAGNULOIS_MALFORMED. Where it is not 0, an act has changed no word and no item.
 */
#ifndef RAGNULOIS_H
#define RAGNULOIS_H

#include <stddef.h>
#include <stdint.h>

#ifdef __cplusplus
extern "C" {
#endif

/* The words of a block; ragnulois_words() says the same of the library that is linked. More may be lent. */
#define RAGNULOIS_WORDS 244

/* The most parties. */
#define RAGNULOIS_PARTIES 16

enum ragnulois_kind { RAGNULOIS_LIFO = 0, RAGNULOIS_FIFO = 1 };

enum ragnulois_call {
    RAGNULOIS_PUSH = 0,   /* number: the token */
    RAGNULOIS_EXTEND = 1, /* its tokens come with the steps */
    RAGNULOIS_SPARE = 2,
    RAGNULOIS_STEAL = 3, /* source, rule */
    RAGNULOIS_TAKE = 4,  /* source, rule */
    RAGNULOIS_DRAIN = 5, /* rule */
    RAGNULOIS_NEXT = 6,
    RAGNULOIS_DROP = 7,
    RAGNULOIS_POP = 8,
    RAGNULOIS_EMPTY = 9
};

enum ragnulois_rule {
    RAGNULOIS_RULE_ALL = 0,
    RAGNULOIS_RULE_HALF = 1,
    RAGNULOIS_RULE_FIXED = 2, /* number: how many */
    RAGNULOIS_RULE_GIVEN = 3  /* the step that reads the count carries it */
};

enum ragnulois_mark {
    RAGNULOIS_MARK_PLAIN = 0,
    RAGNULOIS_MARK_WEAK = 1,
    RAGNULOIS_MARK_GIVEN = 2, /* number: the number or token that the step wants */
    RAGNULOIS_MARK_END = 3
};

/* What a call has come to; in brackets what stands beside it in the reply. */
enum ragnulois_answer {
    RAGNULOIS_ANSWER_PENDING = 0, /* it is still under way */
    RAGNULOIS_ANSWER_PUSHED = 1,
    RAGNULOIS_ANSWER_FULL = 2,   /* [token] */
    RAGNULOIS_ANSWER_POPPED = 3, /* [token] */
    RAGNULOIS_ANSWER_NONE = 4,
    RAGNULOIS_ANSWER_EXTENDED = 5, /* [count] */
    RAGNULOIS_ANSWER_STOLEN = 6,   /* [count] */
    RAGNULOIS_ANSWER_TAKEN = 7,    /* [token, count] */
    RAGNULOIS_ANSWER_DRAIN = 8,    /* [count] */
    RAGNULOIS_ANSWER_ITEM = 9,     /* [token] */
    RAGNULOIS_ANSWER_DONE = 10,
    RAGNULOIS_ANSWER_CLOSED = 11,
    RAGNULOIS_ANSWER_BUSY = 12,
    RAGNULOIS_ANSWER_EMPTY = 13,
    RAGNULOIS_ANSWER_SPARE = 14, /* [count] */
    RAGNULOIS_ANSWER_YES = 15,
    RAGNULOIS_ANSWER_NO = 16
};

/* What an effect did; in brackets its value. */
enum ragnulois_change {
    RAGNULOIS_CHANGE_NOTHING = 0,
    RAGNULOIS_CHANGE_OFFERED = 1, /* [token] */
    RAGNULOIS_CHANGE_ACCEPTED = 2,
    RAGNULOIS_CHANGE_POPPED = 3,
    RAGNULOIS_CHANGE_BOOKED = 4,      /* [count] */
    RAGNULOIS_CHANGE_LANDED = 5,      /* [count] */
    RAGNULOIS_CHANGE_TAKE_LANDED = 6, /* [count], and one more in hand */
    RAGNULOIS_CHANGE_DRAINED = 7,
    RAGNULOIS_CHANGE_DROPPED = 8, /* [count] */
    RAGNULOIS_CHANGE_CLOSED = 9
};

enum ragnulois_refusal {
    RAGNULOIS_REFUSED_MACHINE = 1,   /* no block; no 1 to 16 parties; too few items; words that no machine has */
    RAGNULOIS_REFUSED_PARTY = 2,     /* no such party */
    RAGNULOIS_REFUSED_UNDER_WAY = 3, /* begin while a call is under way */
    RAGNULOIS_REFUSED_NO_CALL = 4,   /* step or run alone with no call */
    RAGNULOIS_REFUSED_SOURCE = 5,    /* no such source */
    RAGNULOIS_REFUSED_MARK = 6,      /* a mark that the step does not want, or none where it wants one */
    RAGNULOIS_REFUSED_REQUEST = 7,   /* opening with a request above 2^31 */
    RAGNULOIS_REFUSED_LENT = 8       /* opening with capacities that sum past the lent items */
};

/* What begin and step return for a number that is no call, rule or mark, before they look for a refusal. */
#define RAGNULOIS_MALFORMED 100

/* Where the words of a reply stand; from RAGNULOIS_REPLY_EFFECT on, four words for each of up to three effects. */
enum ragnulois_in_reply {
    RAGNULOIS_REPLY_ANSWER = 0,
    RAGNULOIS_REPLY_TOKEN = 1,
    RAGNULOIS_REPLY_COUNT = 2,
    RAGNULOIS_REPLY_STEPS = 3, /* of a run alone */
    RAGNULOIS_REPLY_EFFECTS = 4,
    RAGNULOIS_REPLY_EFFECT = 5 /* party, queue, change, value */
};

/* The words of a queue. Packed is the pop count and the booked head (LIFO), or the worker's and the stealer's head (FIFO). */
enum ragnulois_in_queue {
    RAGNULOIS_QUEUE_CAPACITY = 0,
    RAGNULOIS_QUEUE_PUSHES = 1, /* the push count (LIFO) or the tail (FIFO) */
    RAGNULOIS_QUEUE_PACKED = 2,
    RAGNULOIS_QUEUE_COMPLETED = 3 /* the completed head (LIFO) */
};

/* ---- the machine ---- */

/* How many words a block has. */
uint64_t ragnulois_words(void);

/* A fresh machine in any words, whatever they were: one request and one position for each party, and the items that it will
 * run with, which opening does not write. Refusal 1, 7 or 8; but where the words are too few or the kind is none, nothing is
 * changed, and else a machine with no party is left, which every act refuses with 1. */
uint8_t ragnulois_open(uint64_t *block, size_t words, uint64_t kind, uint64_t parties, const uint64_t *requests,
                       size_t request_count, const uint32_t *positions, size_t position_count, const uint64_t *items,
                       size_t lent);

/* Begins a call of a party; it makes no access yet. What the call does not use is not looked at. Malformed, or refusal 1, 2, 3
 * or 5. */
uint8_t ragnulois_begin(uint64_t *block, size_t words, uint64_t *items, size_t lent, uint64_t party, uint64_t call,
                        uint64_t source, uint64_t rule, uint64_t number);

/* One step of the call that the party has under way; the reply says whether it came to an answer. Malformed, or refusal 1, 2,
 * 4 or 6. */
uint8_t ragnulois_step(uint64_t *block, size_t words, uint64_t *items, size_t lent, uint64_t party, uint64_t mark,
                       uint64_t number);

/* Steps a party until its answer, until a step wants a number or an end, or until the budget is used up. Refusal 1, 2 or 4. */
uint8_t ragnulois_run_alone(uint64_t *block, size_t words, uint64_t *items, size_t lent, uint64_t party, uint64_t budget);

/* ---- readings: they change nothing ---- */

/* How many parties the machine has; 0 where the words are no block. */
uint64_t ragnulois_parties(const uint64_t *block, size_t words);

/* A word of a queue, by enum ragnulois_in_queue; 0 where there is none. */
uint64_t ragnulois_word(const uint64_t *block, size_t words, uint64_t queue, uint64_t which);

/* A word of the reply to the last act that was not refused, by enum ragnulois_in_reply; 0 where there is none. */
uint64_t ragnulois_reply(const uint64_t *block, size_t words, uint64_t which);

/* How many tokens rest in a queue. */
uint64_t ragnulois_resting(const uint64_t *block, size_t words, uint64_t queue);

/* The i-th token that rests in a queue, head first. */
uint64_t ragnulois_token(const uint64_t *block, size_t words, const uint64_t *items, size_t lent, uint64_t queue, uint64_t i);

#ifdef __cplusplus
}
#endif

#endif
