/* A controller's loop in C, which power cuts do not make lie.
 *
 *     campaign PLAN STATE PANEL
 *
 * PLAN is a plan's file. STATE is the file that the campaign is kept in: without it a new campaign begins, else it goes
 * on. PANEL is the file that plays the cords (bench.c). Kill it at any moment and start it again: it goes on.
 *
 * Prints the line of each order as it is handed out. The rule: the state that a call left is saved before anything is
 * done about its answer, and before the next call; but that of a seat only when the robot has seated the jack.
 * docs/USING.md says why. */
#include "bench.h"
#include "jidrofex.h"
#include "keep.h"

#include <inttypes.h>
#include <stdio.h>
#include <string.h>

/* A call was refused: its number, and its answer as a sentence, which says where. */
static int refused(const char *call, uint8_t number, const uint64_t *answer)
{
    uint8_t sentence[JIDROFEX_SENTENCE_BYTES];
    uint64_t taken[JIDROFEX_ANSWER_WORDS];

    jidrofex_refusal_sentence(number, answer, sentence, sizeof sentence, taken);
    fprintf(stderr, "%s: refused=%u: %.*s\n", call, (unsigned)number, (int)taken[0], (const char *)sentence);
    return 1;
}

/* The first state of the plan in the file. */
static int begin(const char *name, uint64_t *state)
{
    uint8_t plan[JIDROFEX_PLAN_BYTES + 1], number; /* one byte more than any plan has: a longer text is refused */
    uint64_t answer[JIDROFEX_ANSWER_WORDS];
    size_t bytes;
    FILE *file = fopen(name, "rb");

    if (file == NULL) {
        perror(name);
        return 1;
    }
    bytes = fread(plan, 1, sizeof plan, file);
    if (ferror(file)) {
        perror(name);
        fclose(file);
        return 1;
    }
    fclose(file);
    number = jidrofex_begin(plan, bytes, state, JIDROFEX_STATE_WORDS, answer);
    return number != 0 ? refused("begin", number, answer) : 0;
}

/* Says to which panel a technician sets the cords. Every fit state takes it: the pattern of the mark that stands, else
 * of the next, after the end of the last. */
static void say_cords(const uint64_t *state)
{
    size_t ports = (size_t)state[JIDROFEX_STATE_PORTS];
    uint8_t pattern[JIDROFEX_MOST_PORTS];
    uint64_t answer[JIDROFEX_ANSWER_WORDS];

    if (jidrofex_status(state, JIDROFEX_STATE_WORDS, answer) != 0 ||
        jidrofex_unrank(answer[2], pattern, ports, answer) != 0)
        return;
    fprintf(stderr, "set the cords to");
    for (size_t k = 0; k < ports; k++)
        fprintf(stderr, " %u", (unsigned)pattern[k]);
    fprintf(stderr, " and start again\n");
}

/* The robot seats every jack. */
static int seat_all(uint64_t ports)
{
    uint64_t line[JIDROFEX_LINE_WORDS] = {JIDROFEX_SEAT, 1, 0, 0};

    for (; line[1] <= ports; line[1]++)
        if (bench_obeys(line) != 0)
            return 1;
    return 0;
}

/* Takes the campaign up, a new one as well as a saved one: the panel is read back and put into the state. A mark that
 * stands already may have met an error that was not saved: every jack is seated before its traffic is run again. */
static int take_up(const char *name, uint64_t *state)
{
    size_t ports = (size_t)state[JIDROFEX_STATE_PORTS];
    uint8_t panel[JIDROFEX_MOST_PORTS], number;
    uint64_t answer[JIDROFEX_ANSWER_WORDS];

    if (bench_reads(panel) != 0)
        return 1;
    number = jidrofex_resume(state, JIDROFEX_STATE_WORDS, panel, ports, answer);
    if (number != 0) {
        refused("resume", number, answer);
        say_cords(state);
        return 1;
    }
    if (keep_write(name, state) != 0)
        return 1;
    return state[JIDROFEX_STATE_STANDING] ? seat_all(ports) : 0;
}

/* Does what the state says until the end is shown. */
static int go_on(const char *name, uint64_t *state)
{
    uint64_t status[JIDROFEX_ANSWER_WORDS], answer[JIDROFEX_ANSWER_WORDS];
    uint8_t line[JIDROFEX_LINE_BYTES], kind, number;

    for (;;) {
        number = jidrofex_status(state, JIDROFEX_STATE_WORDS, status);
        if (number != 0)
            return refused("status", number, status);
        if (status[3]) { /* a mark stands: its traffic is run, again if need be, and reported by the mark's number */
            if (bench_runs(status[1], status[2], &kind) != 0)
                return 1;
            number = jidrofex_report_mark(state, JIDROFEX_STATE_WORDS, status[1], kind, answer);
            if (number != 0)
                return refused("report", number, answer);
            if (keep_write(name, state) != 0)
                return 1;
        } else { /* none stands: the next order is asked for, saved, shown and obeyed in turn; a seat is saved last */
            number = jidrofex_request(state, JIDROFEX_STATE_WORDS, line, sizeof line, answer);
            if (number != 0)
                return refused("request", number, answer);
            if (answer[0] != JIDROFEX_SEAT && keep_write(name, state) != 0)
                return 1;
            if (fwrite(line, 1, (size_t)answer[4], stdout) != answer[4] || fflush(stdout) != 0) {
                perror("standard output");
                return 1;
            }
            if (answer[0] == JIDROFEX_END)
                return 0;
            if (answer[0] != JIDROFEX_MARK && bench_obeys(answer) != 0)
                return 1;
            if (answer[0] == JIDROFEX_SEAT && keep_write(name, state) != 0) /* no panel shows whether a seat was done */
                return 1;
        }
    }
}

int main(int argc, char **argv)
{
    uint64_t first[JIDROFEX_STATE_WORDS], state[JIDROFEX_STATE_WORDS], version[JIDROFEX_ANSWER_WORDS];

    if (argc != 4) {
        fprintf(stderr, "usage: campaign PLAN STATE PANEL\n");
        return 2;
    }
    jidrofex_version(version);
    if (version[0] != JIDROFEX_VERSION) {
        fprintf(stderr, "the library is of version %" PRIu64 ", the header of %d\n", version[0], JIDROFEX_VERSION);
        return 1;
    }
    if (begin(argv[1], first) != 0)
        return 1;
    switch (keep_read(argv[2], state)) {
    case KEEP_READ:
        /* the words before the panel are the plan's */
        if (memcmp(state, first, JIDROFEX_STATE_PANEL * sizeof *state) != 0) {
            fprintf(stderr, "%s is the state of another plan\n", argv[2]);
            return 1;
        }
        break;
    case KEEP_NONE:
        memcpy(state, first, sizeof state);
        break;
    default:
        return 1;
    }
    if (bench_opens(argv[3], (size_t)state[JIDROFEX_STATE_PORTS]) != 0 || take_up(argv[2], state) != 0)
        return 1;
    return go_on(argv[2], state);
}
