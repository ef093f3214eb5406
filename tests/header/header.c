/* The header held to what it says: every call and every constant of include/jidrofex.h, through that header alone. What is wanted comes from the paper and from
 * counting by hand, and each constant is used for what it means: with another number for it something below does not hold. Built as C90 and as C++98.
 * Prints each comparison that fails, and how many there were in its last line; its status is 0 only if none failed. */
#include "jidrofex.h"

#include <stdio.h>
#include <string.h>

enum { ACCEPTED = JIDROFEX_ACCEPTED, ANSWER_WORDS = JIDROFEX_ANSWER_WORDS };
#include "compared.h"
#include "lent.h"
#include "patterns.h"
#include "dictionary.h"
#include "lines.h"
#include "campaigns.h"
#include "named.h"

int main(void)
{
    const reader begin = {"begin", jidrofex_begin, JIDROFEX_STATE_WORDS};
    const reader rehearse = {"rehearse", jidrofex_rehearse, JIDROFEX_REHEARSAL_WORDS};
    the_library();
    refusal_sentences();
    sentence_of_a_refusal();
    pattern_faults();
    pattern_ranks();
    pattern_counts();
    pattern_moves();
    pattern_steps();
    dictionary_numbers();
    refused_numbers();
    dictionary_faults();
    look_ups();
    panel_faults();
    carries();
    lines_written();
    lines_read();
    named_ranks();
    plans(begin);
    example_campaign();
    seats();
    two_swaps();
    longest_line();
    errors();
    unfit_states();
    going_on();
    plans(rehearse);
    rehearsals();
    printf("header: %lu comparisons, %lu failed\n", compared, failed);
    return failed == 0 ? 0 : 1;
}
