/* Jidrofex: the calls for C and whatever else speaks C.
 *
 * Every call ends properly on every input and answers a number: 0 if it was accepted, else the number of the refusal.
 * What it gives beside that stands in `answer`, JIDROFEX_ANSWER_WORDS words that the call always writes, all of them:
 *
 *     accepted   the values that the call names below as given, then zeros
 *     refused    the place (a jack or a line of a plan; 0 where none is said), then a second number: for 4 the jack
 *                of the earlier equal entry, for every other refusal 0; then zeros
 *
 * A refused call changes nothing else. The one exception is said at its calls: jidrofex_begin and jidrofex_rehearse on
 * a refused text. At each call stand the numbers that it may be refused with, in the order in which they are tried; of
 * a pattern or a panel, 3, 4 and 5 are tried jack by jack, and of a plan the rest are tried line by line.
 *
 * What no contract can say, and the caller sees to:
 *   - Each pointer is good for the length beside it, an array for its words, and is aligned for its type. With length 0
 *     a pointer may be null; an answer, a line and any length above 0 need a real one.
 *   - What a call may write (no const) overlaps nothing else that is passed to it, and nobody else reads or writes it
 *     while the call runs.
 *   - The library keeps no pointer, owns nothing, allocates nothing, has no state of its own: calls on different
 *     buffers may run side by side.
 *
 * docs/USING.md is the page for programmers: what to save, when, and how to go on after a power cut.
 */
#ifndef JIDROFEX_H
#define JIDROFEX_H

#include <stddef.h>
#include <stdint.h>

#ifdef __cplusplus
extern "C" {
#endif

/* The version of this header. It goes up by one whenever a call, a constant or the words of a state change;
 * jidrofex_version gives that of the library. */
enum { JIDROFEX_VERSION = 5 };

/* The version of the words of a state, which is saved with them. It goes up by one whenever they change, and only then:
 * a library of a later version goes on with a saved state of the same words. */
enum { JIDROFEX_STATE_VERSION = 2 };

enum {
    JIDROFEX_MOST_PORTS = 20,
    JIDROFEX_MOST_LEGS = 16,
    JIDROFEX_ANSWER_WORDS = 5,
    JIDROFEX_LINE_WORDS = 4,
    JIDROFEX_LINE_BYTES = 45,     /* the longest line of a campaign or a rehearsal, its newline included */
    JIDROFEX_ANY_LINE_BYTES = 47, /* the longest line that jidrofex_write_line writes: a mark that no campaign has */
    JIDROFEX_PLAN_BYTES = 801,    /* the longest plan that is accepted */
    JIDROFEX_GAP_NUMBERS = 34,    /* enough numbers for the gaps of any plan */
    JIDROFEX_WORDS_BYTES = 49,    /* the longest words of a refusal */
    JIDROFEX_SENTENCE_BYTES = 86  /* the longest sentence of a refusal, whatever words it is made of */
};

/* The refusals, by number; jidrofex_refusal_words gives the words. */
enum {
    JIDROFEX_ACCEPTED = 0,
    JIDROFEX_REFUSED_PORTS = 1,        /* ports, or the length of a pattern or panel, not 2 to 20 */
    JIDROFEX_REFUSED_ROOM = 2,         /* the line, the words or the gaps do not fit the buffer */
    JIDROFEX_REFUSED_OUTSIDE = 3,      /* at that jack: an entry outside 1..n */
    JIDROFEX_REFUSED_REPEATED = 4,     /* at that jack: an entry equal to an earlier one, at the second number's jack */
    JIDROFEX_REFUSED_OWN_JACK = 5,     /* at that jack: an entry equal to its own jack (patterns only) */
    JIDROFEX_REFUSED_RANK = 6,         /* the rank is not below the count */
    JIDROFEX_REFUSED_KEY = 7,          /* in text: the key */
    JIDROFEX_REFUSED_NUMBER = 8,       /* in text: the number */
    JIDROFEX_REFUSED_LEGS = 9,         /* in a plan: legs not 1 to 16 */
    JIDROFEX_REFUSED_RUN = 10,         /* in a plan: run too long */
    JIDROFEX_REFUSED_ENDED = 11,       /* in text: ended early or went on */
    JIDROFEX_REFUSED_NO_MARK = 12,     /* a report where no mark stands, as while seating, or of another than stands */
    JIDROFEX_REFUSED_MARK_STANDS = 13, /* a request while a mark stands */
    JIDROFEX_REFUSED_KIND = 14,        /* a report of a kind above 2 */
    JIDROFEX_REFUSED_UNFIT = 15,       /* the state or the rehearsal is unfit, or its words are none */
    JIDROFEX_REFUSED_ERRORS = 16,      /* an error reported when 65,535 are counted */
    JIDROFEX_REFUSED_SHAPE = 17        /* a jack or port off the panel, or an order out of shape */
};

/* The kind of a line or a move. A line is JIDROFEX_LINE_WORDS words: its kind and three numbers, 0 where it has fewer.
 *     swap   a, b      turn   a, b, c      mark   number, rank      end   marks      seat   jack
 * A seat is no movement: the robot presses the cord at that jack home, and the panel stays as it is.
 * In a line that is passed to a call, words that its kind has no use for are not looked at, and a kind that is no
 * line's, or a number where a jack stands that no jack has, is refused as out of shape (17).
 * A move is its kind and four jacks: nothing, a swap, a turn, or two swaps a,b and c,d. */
enum {
    JIDROFEX_NOTHING = 0,
    JIDROFEX_SWAP = 1,
    JIDROFEX_TURN = 2,
    JIDROFEX_MARK = 3,
    JIDROFEX_END = 4,
    JIDROFEX_TWO_SWAPS = 5,
    JIDROFEX_SEAT = 6
};

/* What a bench reports of the standing mark. */
enum {
    JIDROFEX_RAN = 0,
    JIDROFEX_ERROR = 1,
    JIDROFEX_GAVE_UP = 2
};

/* The state of a campaign: so many 64-bit words, each field at its place. Later fields come last. Words of another
 * number, or a word that its field cannot hold, are an unfit state (15), and nothing is written: ports, legs, leg, the
 * next jack to seat and each place of the panel hold at most 255, errors at most 4,294,967,295, standing and ended 0 or
 * 1. */
enum {
    JIDROFEX_STATE_PORTS = 0,
    JIDROFEX_STATE_LEGS = 1,
    JIDROFEX_STATE_STARTS = 2,    /* 16 words: the rank that each leg starts at, 0 beyond the legs */
    JIDROFEX_STATE_RUNS = 18,     /* 16 words: the run of each leg, an int64_t as its 64 bits, 0 beyond the legs */
    JIDROFEX_STATE_PANEL = 34,    /* 20 words: the port at each jack, 0 beyond the ports */
    JIDROFEX_STATE_LEG = 54,      /* the leg and step of the standing or next mark, from 0 */
    JIDROFEX_STATE_STEP = 55,
    JIDROFEX_STATE_COVERED = 56,  /* marks reported as run */
    JIDROFEX_STATE_OPEN = 57,     /* marks given up */
    JIDROFEX_STATE_ERRORS = 58,
    JIDROFEX_STATE_STANDING = 59, /* 1 while a mark stands, else 0 */
    JIDROFEX_STATE_ENDED = 60,    /* 1 once the end is shown, else 0 */
    JIDROFEX_STATE_SEAT = 61,     /* the next jack to seat, 0 for none: after an error 1, after the last jack 0 */
    JIDROFEX_STATE_WORDS = 62
};

/* A rehearsal of a plan: lines in bulk, every mark taken as run. It is no state of a campaign and has no counts: the
 * calls on a state refuse its words, and jidrofex_orders those of a state. So many words: the fields up to the step
 * stand where a state has them, from JIDROFEX_STATE_PORTS to JIDROFEX_STATE_STEP, and the end after them. Words of
 * another number, or a word that its field cannot hold, are no rehearsal (15), and nothing is written. */
enum {
    JIDROFEX_REHEARSAL_ENDED = 56, /* 1 once the end is shown, else 0 */
    JIDROFEX_REHEARSAL_WORDS = 57
};

/* ---- the library */

/* Gives the version of the library, to be compared with JIDROFEX_VERSION. Never refused. */
uint8_t jidrofex_version(uint64_t answer[JIDROFEX_ANSWER_WORDS]);

/* The words of a refusal, by its number, at the front of the buffer, with no newline and no zero byte; later bytes keep
 * their values. 0 is "accepted", and a number that no refusal has has words that say so. Gives how many bytes they
 * take. Refused: 2. */
uint8_t jidrofex_refusal_words(uint8_t number, uint8_t *buffer, size_t bytes, uint64_t answer[JIDROFEX_ANSWER_WORDS]);

/* A refusal as a sentence, for people: its number, and the answer of the call that was refused, of which the first two
 * words are looked at. Before the words of the number stands where the fault is, "jack 5: " for 3, 4 and 5, "line 7: "
 * for any other refusal, and nothing where the first word is 0. After the words of 4 stands where the other one is,
 * ", at jack 2", and nothing where the second word is 0. So the pattern 2,3,4,5,3 is refused with
 *     jack 5: entry equal to an earlier one, at jack 2
 * Of 0, and of a number that no refusal has, the sentence is the words alone. It stands at the front of the buffer, no
 * newline and no zero byte in it; later bytes keep their values. Gives how many bytes it takes. Refused: 2. */
uint8_t jidrofex_refusal_sentence(uint8_t number, const uint64_t refused[JIDROFEX_ANSWER_WORDS], uint8_t *buffer,
                                  size_t bytes, uint64_t answer[JIDROFEX_ANSWER_WORDS]);

/* ---- patterns: n bytes, the port at each jack from jack 1 on */

/* Whether it is a pattern. Gives nothing. Refused: 1, 3, 4, 5. */
uint8_t jidrofex_check(const uint8_t *pattern, size_t ports, uint64_t answer[JIDROFEX_ANSWER_WORDS]);

/* Whether it is a panel, on which a jack may hold its own port. Gives nothing. Refused: 1, 3, 4. */
uint8_t jidrofex_check_panel(const uint8_t *panel, size_t ports, uint64_t answer[JIDROFEX_ANSWER_WORDS]);

/* How many patterns there are. Gives the count. Refused: 1. */
uint8_t jidrofex_count(uint8_t ports, uint64_t answer[JIDROFEX_ANSWER_WORDS]);

/* The rank of a pattern, from 0. Gives the rank. Refused: 1, 3, 4, 5. */
uint8_t jidrofex_rank(const uint8_t *pattern, size_t ports, uint64_t answer[JIDROFEX_ANSWER_WORDS]);

/* The pattern of a rank, written over the bytes of `pattern`. Gives nothing. Refused: 1, 6. */
uint8_t jidrofex_unrank(uint64_t rank, uint8_t *pattern, size_t ports, uint64_t answer[JIDROFEX_ANSWER_WORDS]);

/* The pattern becomes the next one round the circuit. Gives the move: kind, a, b, c, d. Refused: 1, 3, 4, 5. */
uint8_t jidrofex_next(uint8_t *pattern, size_t ports, uint64_t answer[JIDROFEX_ANSWER_WORDS]);

/* The pattern becomes the previous one. Gives the move: kind, a, b, c, d. Refused: 1, 3, 4, 5. */
uint8_t jidrofex_previous(uint8_t *pattern, size_t ports, uint64_t answer[JIDROFEX_ANSWER_WORDS]);

/* The rank k further round the circuit, backward for negative k. Gives that rank. Refused: 1, 6. */
uint8_t jidrofex_step(uint8_t ports, uint64_t rank, int64_t k, uint64_t answer[JIDROFEX_ANSWER_WORDS]);

/* ---- dictionary numbers: the same patterns, numbered from 0 in dictionary order, first jack first */

/* The dictionary number of a pattern: how many patterns come before it in that order. Gives the number.
 * Refused: 1, 3, 4, 5. */
uint8_t jidrofex_dictionary_number(const uint8_t *pattern, size_t ports, uint64_t answer[JIDROFEX_ANSWER_WORDS]);

/* The pattern of a dictionary number, written over the bytes of `pattern`. Gives nothing. Refused: 1, 6 (the number is
 * not below the count). */
uint8_t jidrofex_dictionary_pattern(uint64_t number, uint8_t *pattern, size_t ports,
                                    uint64_t answer[JIDROFEX_ANSWER_WORDS]);

/* The pattern becomes the next one in dictionary order; after the last comes the first. Gives nothing.
 * Refused: 1, 3, 4, 5. */
uint8_t jidrofex_dictionary_next(uint8_t *pattern, size_t ports, uint64_t answer[JIDROFEX_ANSWER_WORDS]);

/* From a dictionary number to the rank of the same pattern. Gives the rank. Refused: 1, 6 (the number is not below the
 * count). */
uint8_t jidrofex_number_to_rank(uint8_t ports, uint64_t number, uint64_t answer[JIDROFEX_ANSWER_WORDS]);

/* From a rank to the dictionary number of the same pattern. Gives the number. Refused: 1, 6. */
uint8_t jidrofex_rank_to_number(uint8_t ports, uint64_t rank, uint64_t answer[JIDROFEX_ANSWER_WORDS]);

/* ---- a panel */

/* Gives the port at a jack. Refused: 1, 3, 4, 17 (a jack outside 1..n). */
uint8_t jidrofex_port_at(const uint8_t *panel, size_t ports, uint8_t jack, uint64_t answer[JIDROFEX_ANSWER_WORDS]);

/* Gives the jack that holds a port. Refused: 1, 3, 4, 17 (a port outside 1..n). */
uint8_t jidrofex_jack_of(const uint8_t *panel, size_t ports, uint8_t port, uint64_t answer[JIDROFEX_ANSWER_WORDS]);

/* A line carried out on the panel; a mark, an end and a seat leave it as it is. Gives nothing. Refused: 1, 3, 4, 17 (a
 * jack above n, that of a seat too).
 * The first four words that jidrofex_read_line or jidrofex_request gave are a line as they stand: pass that answer as
 * `line`, and another array as `answer`; one array cannot be both. */
uint8_t jidrofex_carry(uint8_t *panel, size_t ports, const uint64_t line[JIDROFEX_LINE_WORDS],
                       uint64_t answer[JIDROFEX_ANSWER_WORDS]);

/* ---- order lines */

/* A line written at the front of the buffer; later bytes keep their values. Gives how many bytes it takes: at most
 * JIDROFEX_LINE_BYTES for a line of a campaign, JIDROFEX_ANY_LINE_BYTES for any. Refused: 17, 2. */
uint8_t jidrofex_write_line(const uint64_t line[JIDROFEX_LINE_WORDS], uint8_t *buffer, size_t bytes,
                            uint64_t answer[JIDROFEX_ANSWER_WORDS]);

/* The line that starts at a place of the text. Gives the line's four words and the place after its newline.
 * Refused: 11, 7, 8, 17. */
uint8_t jidrofex_read_line(const uint8_t *text, size_t bytes, size_t place, uint64_t answer[JIDROFEX_ANSWER_WORDS]);

/* ---- a plan, before its campaign starts */

/* How many different ranks a plan names, each once however many legs name it, and the gaps: the longest arcs of the
 * circuit that no leg names. A gap that runs through rank 0 is one arc. Two numbers for each gap stand at the front of
 * `gaps`, its first rank and how many ranks it has, in rising order of first rank; later numbers keep their values.
 * JIDROFEX_GAP_NUMBERS numbers are enough for any plan. Gives how many ranks are named, and how many gaps there are.
 * Refused: 11, 7, 8, 1, 9, 6, 10, 2 (fewer numbers than two for each gap). */
uint8_t jidrofex_named(const uint8_t *text, size_t bytes, uint64_t *gaps, size_t numbers,
                       uint64_t answer[JIDROFEX_ANSWER_WORDS]);

/* ---- a campaign */

/* The first state of the plan that the text is. A refused text leaves a state all zeros; a state of the wrong length is
 * refused (15) before the text is looked at, and stays. Gives nothing. Refused: 15, 11, 7, 8, 1, 9, 6, 10. */
uint8_t jidrofex_begin(const uint8_t *text, size_t bytes, uint64_t *state, size_t words,
                       uint64_t answer[JIDROFEX_ANSWER_WORDS]);

/* Where a campaign is. Gives the plan's marks; the number, from 0, and the rank of the mark that stands, or else of the
 * next, or after the end of the last; 1 if that mark stands, else 0; 1 if the end is shown, else 0. It is refused just
 * where the state is unfit, and needs no buffer. Refused: 15. */
uint8_t jidrofex_status(const uint64_t *state, size_t words, uint64_t answer[JIDROFEX_ANSWER_WORDS]);

/* The next order, its line at the front of the buffer; later bytes keep their values. After an error the orders are a
 * seat for each jack from 1 to n, one for each request, and then the same mark again, with its number; at no other time
 * is there a seat. The state that a seat leaves is saved only when the robot has seated that jack: docs/USING.md says
 * why. Gives the line's four words and how many bytes it takes, at most JIDROFEX_LINE_BYTES. Refused: 15, 13, 2. */
uint8_t jidrofex_request(uint64_t *state, size_t words, uint8_t *buffer, size_t bytes,
                         uint64_t answer[JIDROFEX_ANSWER_WORDS]);

/* What the bench says of the mark that stands, whichever it is: for a controller that sends no report twice. After an
 * error no mark stands until it is handed out again: a report while jacks are seated is refused (12). Gives nothing.
 * Refused: 15, 14, 12, 16. */
uint8_t jidrofex_report(uint64_t *state, size_t words, uint8_t kind, uint64_t answer[JIDROFEX_ANSWER_WORDS]);

/* What the bench says of the mark with this number, from 0: the report if that mark stands, else refused (12). So a
 * report that comes twice is not taken for another mark. Gives nothing. Refused: 15, 14, 12, 16. */
uint8_t jidrofex_report_mark(uint64_t *state, size_t words, uint64_t mark, uint8_t kind,
                             uint64_t answer[JIDROFEX_ANSWER_WORDS]);

/* Going on after a power cut: the saved state with the panel as it was read back put in. Where jacks are still to be
 * seated the seats begin anew, with jack 1: no panel that is read back shows whether a seat was done. Refused with the
 * panel's own numbers, then with 15: words that are no state, a panel of other ports than the state's, a panel with
 * which the state is unfit. Gives nothing. Refused: 1, 3, 4, 15. */
uint8_t jidrofex_resume(uint64_t *state, size_t words, const uint8_t *panel, size_t ports,
                        uint64_t answer[JIDROFEX_ANSWER_WORDS]);

/* ---- a rehearsal: every line of a plan, with no robot and no report */

/* The rehearsal of the plan that the text is, at its first moment. A refused text leaves it all zeros; words of the
 * wrong number are refused (15) before the text is looked at, and stay. Gives nothing.
 * Refused: 15, 11, 7, 8, 1, 9, 6, 10. */
uint8_t jidrofex_rehearse(const uint8_t *text, size_t bytes, uint64_t *rehearsal, size_t words,
                          uint64_t answer[JIDROFEX_ANSWER_WORDS]);

/* As many whole lines as fit the buffer, every mark taken as run; the end's line is the last. Gives how many bytes they
 * take, and 1 if the end is among them. A buffer that not even one line fits is refused. Refused: 15, 2. */
uint8_t jidrofex_orders(uint64_t *rehearsal, size_t words, uint8_t *buffer, size_t bytes,
                        uint64_t answer[JIDROFEX_ANSWER_WORDS]);

#ifdef __cplusplus
}
#endif

#endif
