/* A bench that is played. Its cords are a file that outlives the program as cords do: in one line the port at each jack
 * and, where a cord is half seated, its jack. Without the file they are at home: 2, 3, .., n, 1. Edit it while the
 * program is not running, and you are the hand that moves a cord, or pulls at one:
 *
 *     echo 2 3 4 1 2 >campaign.panel      at home, and the cord at jack 2 is half seated
 *
 * The tester reports an error while a cord is half seated, and takes every other traffic as run. */
#include "bench.h"
#include "keep.h"

#include <errno.h>
#include <stdio.h>

static const char *cords;
static size_t jacks;

int bench_opens(const char *name, size_t ports)
{
    cords = name;
    jacks = ports;
    return 0;
}

/* The port at each jack, and the jack whose cord is half seated, 0 for none. */
static int read_cords(uint8_t *panel, unsigned *half)
{
    FILE *file = fopen(cords, "r");
    unsigned port;
    int good = 1;

    if (file == NULL && errno != ENOENT) {
        perror(cords);
        return -1;
    }
    *half = 0;
    for (size_t k = 0; k < jacks; k++) {
        port = (unsigned)((k + 1) % jacks + 1);
        if (file != NULL)
            good = good && fscanf(file, "%u", &port) == 1 && port <= 255;
        panel[k] = (uint8_t)port;
    }
    if (file != NULL) {
        good = good && fscanf(file, "%u", half) != 0 && *half <= jacks;
        fclose(file);
    }
    if (!good)
        fprintf(stderr, "%s is no panel of %u ports\n", cords, (unsigned)jacks);
    return good ? 0 : -1;
}

int bench_reads(uint8_t *panel)
{
    unsigned half;

    return read_cords(panel, &half);
}

int bench_obeys(const uint64_t line[JIDROFEX_LINE_WORDS])
{
    uint8_t panel[JIDROFEX_MOST_PORTS];
    uint64_t answer[JIDROFEX_ANSWER_WORDS];
    char text[4 * JIDROFEX_MOST_PORTS + 1];
    unsigned half;
    int at = 0;

    if (read_cords(panel, &half) != 0)
        return -1;
    if (jidrofex_carry(panel, jacks, line, answer) != 0) {
        fprintf(stderr, "%s: the robot cannot carry out the order\n", cords);
        return -1;
    }
    if (line[0] == JIDROFEX_SEAT && line[1] == half)
        half = 0;
    for (size_t k = 0; k < jacks; k++)
        at += sprintf(text + at, "%s%u", k > 0 ? " " : "", (unsigned)panel[k]);
    if (half != 0)
        at += sprintf(text + at, " %u", half);
    at += sprintf(text + at, "\n");
    return keep_text(cords, text, (size_t)at);
}

int bench_runs(uint64_t mark, uint64_t rank, uint8_t *kind)
{
    uint8_t panel[JIDROFEX_MOST_PORTS];
    unsigned half;

    (void)mark;
    (void)rank;
    if (read_cords(panel, &half) != 0)
        return -1;
    *kind = half != 0 ? JIDROFEX_ERROR : JIDROFEX_RAN;
    return 0;
}
