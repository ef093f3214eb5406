/* Jidrofex for several benches: one full circuit of the patterns split over 1 to 64 benches, and their counts added up,
 * for C and whatever else speaks C. A product of its own beside the campaign of jidrofex.h; its page is docs/BENCHES.md.
 *
 * Every call ends properly on every input and answers a number: 0 if it was accepted, else the number of the refusal.
 * What it gives beside that stands in `answer`, JIDROFEX_BENCHES_ANSWER_WORDS words that the call always writes, all of
 * them:
 *
 *     accepted   the values that the call names below as given, then zeros
 *     refused    the place (for 27 the bench, counted from 0; for every other refusal 0), then zeros
 *
 * At each call stand the numbers that it may be refused with, in the order in which they are tried.
 *
 * What no contract can say, and the caller sees to:
 *   - Each pointer is good for the length beside it, an array for its words, and is aligned for its type. With length 0
 *     a pointer may be null; an answer needs a real one.
 *   - What a call may write (no const) overlaps nothing else that is passed to it, and nobody else reads or writes it
 *     while the call runs.
 *   - The library keeps no pointer, owns nothing, allocates nothing, has no state of its own: calls on different
 *     buffers may run side by side.
 */
#ifndef JIDROFEX_BENCHES_H
#define JIDROFEX_BENCHES_H

#include <stddef.h>
#include <stdint.h>

#ifdef __cplusplus
extern "C" {
#endif

/* The version of this header. It goes up by one whenever a call or a constant changes; jidrofex_benches_version gives
 * that of the library. */
enum { JIDROFEX_BENCHES_VERSION = 1 };

enum {
    JIDROFEX_BENCHES_MOST = 64,        /* the most benches */
    JIDROFEX_BENCHES_COUNTS = 3,       /* the numbers that are lent for each bench: covered, open, errors */
    JIDROFEX_BENCHES_ANSWER_WORDS = 5
};

/* The refusals, by number. */
enum {
    JIDROFEX_BENCHES_ACCEPTED = 0,
    JIDROFEX_BENCHES_REFUSED_PORTS = 1,    /* ports not 2 to 20 */
    JIDROFEX_BENCHES_REFUSED_BENCHES = 21, /* benches not 1 to 64, or counts not three for each */
    JIDROFEX_BENCHES_REFUSED_BENCH = 22,   /* the bench's number is not below the number of benches */
    JIDROFEX_BENCHES_REFUSED_COUNTS = 27   /* at that bench: covered and open above its share, or errors above 65,535 */
};

/* Gives the version of the library, to be compared with JIDROFEX_BENCHES_VERSION. Never refused. */
uint8_t jidrofex_benches_version(uint64_t answer[JIDROFEX_BENCHES_ANSWER_WORDS]);

/* The share of a bench, counted from 0: its own plan of one forward leg. Gives how many marks the plan has, the rank
 * that the leg starts at, and its run, which is one less than the marks. With more benches than patterns, those left
 * over have no plan: 0 marks, and 0 and 0. Refused: 1, 21, 22. */
uint8_t jidrofex_benches_share(uint64_t ports, uint64_t benches, uint64_t bench,
                               uint64_t answer[JIDROFEX_BENCHES_ANSWER_WORDS]);

/* The benches' counts added up: covered, open and errors in turn for each bench, three zeros for one without a plan.
 * Gives the sums of the covered, of the open and of the errors. Refused: 1, 21, 27. */
uint8_t jidrofex_benches_sum(uint64_t ports, uint64_t benches, const uint64_t *counts, size_t numbers,
                             uint64_t answer[JIDROFEX_BENCHES_ANSWER_WORDS]);

#ifdef __cplusplus
}
#endif

#endif
