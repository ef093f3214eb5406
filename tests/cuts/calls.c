/* The library's calls as the example makes them in the cut test, and the bench's part. The truth is kept here: which
 * jacks are seated, which traffic ran to its end on its pattern with every jack seated, and which reports 'ran' were taken
 * for a mark whose traffic did not. */
#include "bench.h"
#include "keep.h"
#include "world.h"

#include <string.h>

uint8_t __wrap_jidrofex_begin(const uint8_t *text, size_t bytes, uint64_t *state, size_t words, uint64_t *answer);
uint8_t __wrap_jidrofex_resume(uint64_t *state, size_t words, const uint8_t *panel, size_t ports, uint64_t *answer);
uint8_t __wrap_jidrofex_status(const uint64_t *state, size_t words, uint64_t *answer);
uint8_t __wrap_jidrofex_request(uint64_t *state, size_t words, uint8_t *buffer, size_t bytes, uint64_t *answer);
uint8_t __wrap_jidrofex_report_mark(uint64_t *state, size_t words, uint64_t mark, uint8_t kind, uint64_t *answer);

uint8_t __real_jidrofex_begin(const uint8_t *text, size_t bytes, uint64_t *state, size_t words, uint64_t *answer);
uint8_t __real_jidrofex_resume(uint64_t *state, size_t words, const uint8_t *panel, size_t ports, uint64_t *answer);
uint8_t __real_jidrofex_status(const uint64_t *state, size_t words, uint64_t *answer);
uint8_t __real_jidrofex_request(uint64_t *state, size_t words, uint8_t *buffer, size_t bytes, uint64_t *answer);
uint8_t __real_jidrofex_report_mark(uint64_t *state, size_t words, uint64_t mark, uint8_t kind, uint64_t *answer);

/* the state that a call left */
static void left(const uint64_t *state)
{
    memcpy(world->now, state, sizeof world->now);
    world->has_now = 1;
}

/* 'covered plus open' is 'the number of the standing or next mark (after the end, the plan's marks)' */
uint64_t standing_mark(const uint64_t *words)
{
    return words[JIDROFEX_STATE_COVERED] + words[JIDROFEX_STATE_OPEN] - words[JIDROFEX_STATE_ENDED];
}

/* A report, in the manner of this way. Taken as 'ran', it is true if the traffic of the mark that it closes truly ran. */
static uint8_t reported(uint64_t *state, size_t words, uint64_t mark, uint8_t kind, uint64_t *answer)
{
    uint64_t closes = standing_mark(state);
    uint8_t number = way == TWICE_PLAIN ? jidrofex_report(state, words, kind, answer)
                                        : __real_jidrofex_report_mark(state, words, mark, kind, answer);

    if (number != 0)
        return number;
    if (kind == JIDROFEX_RAN && !world->ran[closes])
        world->false_covered++;
    left(state);
    return 0;
}

uint8_t __wrap_jidrofex_begin(const uint8_t *text, size_t bytes, uint64_t *state, size_t words, uint64_t *answer)
{
    uint8_t number;

    point();
    number = __real_jidrofex_begin(text, bytes, state, words, answer);
    point();
    return number;
}

uint8_t __wrap_jidrofex_resume(uint64_t *state, size_t words, const uint8_t *panel, size_t ports, uint64_t *answer)
{
    uint8_t number = 0;

    point();
    memset(answer, 0, JIDROFEX_ANSWER_WORDS * sizeof *answer);
    if (way != NOT_READ_BACK)
        number = __real_jidrofex_resume(state, words, panel, ports, answer);
    if (number == 0)
        left(state);
    else
        world->resume_refused = number;
    point();
    return number;
}

uint8_t __wrap_jidrofex_status(const uint64_t *state, size_t words, uint64_t *answer)
{
    uint8_t number;

    point();
    number = __real_jidrofex_status(state, words, answer);
    point();
    return number;
}

uint8_t __wrap_jidrofex_request(uint64_t *state, size_t words, uint8_t *buffer, size_t bytes, uint64_t *answer)
{
    uint64_t other[JIDROFEX_ANSWER_WORDS];
    uint8_t number;

    must_be_saved(state);
    point();
    number = __real_jidrofex_request(state, words, buffer, bytes, answer);
    world->asked = 1;
    if (number == 0)
        left(state);
    if (number == 0 && world->sent) { /* the channel sends the last report again */
        uint8_t closed = world->sent_kind != JIDROFEX_ERROR;
        world->sent_again += closed;
        if (reported(state, words, world->sent_mark, world->sent_kind, other) == 0) {
            world->sent = 0;
            world->taken_again += closed;
        }
    }
    point();
    return number;
}

uint8_t __wrap_jidrofex_report_mark(uint64_t *state, size_t words, uint64_t mark, uint8_t kind, uint64_t *answer)
{
    uint8_t number;

    must_be_saved(state);
    point();
    number = reported(state, words, mark, kind, answer);
    if (number == 0 && (way == TWICE_BY_NUMBER || way == TWICE_PLAIN)) {
        world->sent = 1;
        world->sent_kind = kind;
        world->sent_mark = mark;
    }
    point();
    return number;
}

/* ---- the bench */

int bench_opens(const char *name, size_t ports)
{
    (void)name;
    return ports == plan->ports ? 0 : -1;
}

int bench_reads(uint8_t *panel)
{
    point();
    memcpy(panel, world->panel, plan->ports);
    return 0;
}

/* The power may fail before a seat, in it, and then the jack is not seated, and when it is done. What the request left is
 * not saved yet, so that the file is as it was before it; at the start of a life no order was handed out. */
static int seats(uint64_t jack)
{
    if (way == SEATS_SKIPPED || (way == START_UNSEATED && !world->asked))
        return 0;
    if (way == SEAT_SAVED && keep_write(STATE_NAME, world->now) != 0)
        return -1;
    must_be_saved(world->asked ? world->sure : world->now);
    point();
    world->unseated[jack - 1] = 1;
    point();
    world->unseated[jack - 1] = 0;
    point();
    return 0;
}

/* The power may fail before the order, in it, with a cord out, and when it is carried out. */
int bench_obeys(const uint64_t line[JIDROFEX_LINE_WORDS])
{
    uint8_t *a, *b, held;

    if (line[0] == JIDROFEX_SEAT)
        return seats(line[1]);
    must_be_saved(world->now);
    a = &world->panel[line[1] - 1];
    b = &world->panel[line[2] - 1];
    held = *a;
    point();
    *a = 0;
    point();
    *a = *b;
    if (line[0] == JIDROFEX_TURN) {
        *b = world->panel[line[3] - 1];
        world->panel[line[3] - 1] = held;
    } else {
        *b = held;
    }
    point();
    return 0;
}

/* The power may fail before the traffic, in it, and when it has run. After an error each jack counts as not seated, whether
 * the controller has heard of it or the power failed before. */
int bench_runs(uint64_t mark, uint64_t rank, uint8_t *kind)
{
    const char *answers = plan->answers[mark] != NULL ? plan->answers[mark] : "0";
    uint8_t *given = &world->answered[mark], seated = memchr(world->unseated, 1, plan->ports) == NULL;

    (void)rank;
    must_be_saved(world->now);
    point();
    world->on_unseated += !seated;
    point();
    *kind = (uint8_t)(answers[*given] - '0');
    if (answers[*given + 1] != '\0')
        (*given)++;
    if (*kind == JIDROFEX_RAN && seated && memcmp(world->panel, mark_pattern(mark), plan->ports) == 0)
        world->ran[mark] = 1;
    if (*kind == JIDROFEX_ERROR)
        memset(world->unseated, 1, plan->ports);
    point();
    return 0;
}
