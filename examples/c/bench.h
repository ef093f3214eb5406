/* The bench's part of a campaign: the cords, the robot and the tester. A real bench has these four calls of its own in
 * place of bench.c, which plays them. Each gives 0 if it went well; else it has said why on standard error. */
#ifndef BENCH_H
#define BENCH_H

#include "jidrofex.h"

/* The bench with a panel of so many ports. */
int bench_opens(const char *name, size_t ports);

/* Reads the panel back from the cords themselves: the port at each jack, 0 where no cord is in. */
int bench_reads(uint8_t *panel);

/* The robot carries out a swap or a turn, or seats the cord at a jack, and is done when this comes back. */
int bench_obeys(const uint64_t line[JIDROFEX_LINE_WORDS]);

/* The tester runs the traffic of a mark to its end, on the cords as they stand. What it says of it is put into `kind`:
 * JIDROFEX_RAN, JIDROFEX_ERROR (every jack is seated, and the same mark comes again) or JIDROFEX_GAVE_UP (it stays
 * open). */
int bench_runs(uint64_t mark, uint64_t rank, uint8_t *kind);

#endif
