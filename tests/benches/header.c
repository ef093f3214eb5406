/* The header held to what it says: every call and every constant of include/jidrofex_benches.h, through that header alone. What is wanted is counted by hand,
 * and each constant is used for what it means: with another number for it something below does not hold. Built as C90 and as C++98.
 * Prints each comparison that fails, and how many there were in its last line; its status is 0 only if none failed. */
#include "jidrofex_benches.h"

#include <stdio.h>
#include <string.h>

enum { ACCEPTED = JIDROFEX_BENCHES_ACCEPTED, ANSWER_WORDS = JIDROFEX_BENCHES_ANSWER_WORDS };
#include "../header/compared.h"

/* ---- shares */

/* The share of a bench: its marks, the rank that it starts at, and its run. */
static void has(const char *what, uint64_t ports, uint64_t benches, uint64_t bench, uint64_t marks, uint64_t start, uint64_t run)
{
    gives(what, jidrofex_benches_share(ports, benches, bench, fresh()), marks, start, run, 0, 0);
}

static void has_none(const char *what, uint64_t ports, uint64_t benches, uint64_t bench)
{
    gives_nothing(what, jidrofex_benches_share(ports, benches, bench, fresh()));
}

static void has_refused(const char *what, uint64_t ports, uint64_t benches, uint64_t bench, uint8_t number)
{
    refused(what, jidrofex_benches_share(ports, benches, bench, fresh()), number, 0);
}

static void shares(void)
{
    uint64_t bench;
    /* 265 = 67 + 66 + 66 + 66 */
    has("6 ports over 4 benches, bench 0", 6, 4, 0, 67, 0, 66);
    has("6 ports over 4 benches, bench 1", 6, 4, 1, 66, 67, 65);
    has("6 ports over 4 benches, bench 2", 6, 4, 2, 66, 133, 65);
    has("6 ports over 4 benches, bench 3", 6, 4, 3, 66, 199, 65);
    /* one pattern, two, nine */
    has("2 ports over one bench", 2, 1, 0, 1, 0, 0);
    has("3 ports over 2 benches", 3, 2, 1, 1, 1, 0);
    has("4 ports over 2 benches, bench 0", 4, 2, 0, 5, 0, 4);
    has("4 ports over 2 benches, bench 1", 4, 2, 1, 4, 5, 3);
    has("4 ports over 3 benches", 4, 3, 2, 3, 6, 2);
    /* more benches than patterns */
    has("2 ports over 3 benches", 2, 3, 0, 1, 0, 0);
    has_none("2 ports over 3 benches, bench 1", 2, 3, 1);
    has_none("2 ports over 3 benches, bench 2", 2, 3, 2);
    /* 5 ports have 44 patterns */
    for (bench = 0; bench < 44; bench++)
        has("5 ports over the most benches", 5, JIDROFEX_BENCHES_MOST, bench, 1, bench, 0);
    for (; bench < JIDROFEX_BENCHES_MOST; bench++)
        has_none("5 ports over the most benches", 5, JIDROFEX_BENCHES_MOST, bench);
    /* the count of 20 ports is 64 times 13984603612389095 and 41 more: the last bench with one more is bench 40 */
    has("20 ports over one bench", 20, 1, 0, number(COUNT_OF_20), 0, number(LAST_RANK_OF_20));
    has("20 ports, bench 0", 20, 64, 0, number("13984603612389096"), 0, number("13984603612389095"));
    has("20 ports, bench 40", 20, 64, 40, number("13984603612389096"), number("559384144495563840"), number("13984603612389095"));
    has("20 ports, bench 41", 20, 64, 41, number("13984603612389095"), number("573368748107952936"), number("13984603612389094"));
    has("20 ports, bench 63", 20, 64, 63, number("13984603612389095"), number("881030027580513026"), number("13984603612389094"));
}

static void refused_shares(void)
{
    has_refused("no ports", 0, 4, 1, JIDROFEX_BENCHES_REFUSED_PORTS);
    has_refused("one port", 1, 4, 1, JIDROFEX_BENCHES_REFUSED_PORTS);
    has_refused("21 ports", 21, 4, 1, JIDROFEX_BENCHES_REFUSED_PORTS);
    has_refused("6 ports in the lowest byte", 262, 4, 1, JIDROFEX_BENCHES_REFUSED_PORTS);
    has_refused("the most ports there can be", minus(1), 4, 1, JIDROFEX_BENCHES_REFUSED_PORTS);
    has_refused("no benches", 6, 0, 0, JIDROFEX_BENCHES_REFUSED_BENCHES);
    has_refused("one bench more than the most", 6, JIDROFEX_BENCHES_MOST + 1, 1, JIDROFEX_BENCHES_REFUSED_BENCHES);
    has_refused("4 benches in the lowest byte", 6, 260, 1, JIDROFEX_BENCHES_REFUSED_BENCHES);
    has_refused("4 benches in the lowest half", 6, number("4294967300"), 1, JIDROFEX_BENCHES_REFUSED_BENCHES);
    has_refused("the bench after the last", 6, 4, 4, JIDROFEX_BENCHES_REFUSED_BENCH);
    has_refused("bench 1 in the lowest byte", 6, 4, 257, JIDROFEX_BENCHES_REFUSED_BENCH);
    has_refused("the last bench there can be", 6, 4, minus(1), JIDROFEX_BENCHES_REFUSED_BENCH);
    has_refused("the bench after the most", 6, JIDROFEX_BENCHES_MOST, JIDROFEX_BENCHES_MOST, JIDROFEX_BENCHES_REFUSED_BENCH);
    /* more than one fault: ports, then benches, then the bench */
    has_refused("ports before benches", 1, 0, 0, JIDROFEX_BENCHES_REFUSED_PORTS);
    has_refused("ports before a bench", 21, 4, 4, JIDROFEX_BENCHES_REFUSED_PORTS);
    has_refused("benches before a bench", 6, 0, 1, JIDROFEX_BENCHES_REFUSED_BENCHES);
    has_refused("benches before a bench, too many", 6, 65, 65, JIDROFEX_BENCHES_REFUSED_BENCHES);
}

/* ---- sums: the counts that are lent stand at the front of a longer array, which is compared as a whole */

static uint64_t lent[WHOLE], before[WHOLE];

/* Three numbers of a bench. */
static void lend(size_t bench, uint64_t covered, uint64_t open, uint64_t errors)
{
    lent[JIDROFEX_BENCHES_COUNTS * bench] = covered;
    lent[JIDROFEX_BENCHES_COUNTS * bench + 1] = open;
    lent[JIDROFEX_BENCHES_COUNTS * bench + 2] = errors;
}

static uint8_t sum(uint64_t ports, uint64_t benches, size_t numbers)
{
    memcpy(before, lent, sizeof lent);
    return jidrofex_benches_sum(ports, benches, lent, numbers, fresh());
}

static void adds_up(const char *what, uint64_t ports, size_t benches, uint64_t covered, uint64_t open, uint64_t errors)
{
    gives(what, sum(ports, benches, JIDROFEX_BENCHES_COUNTS * benches), covered, open, errors, 0, 0);
    same_words(what, lent, before);
}

static void adds_refused(const char *what, uint64_t ports, uint64_t benches, size_t numbers, uint8_t number, uint64_t place)
{
    refused(what, sum(ports, benches, numbers), number, place);
    same_words(what, lent, before);
}

/* 6 ports over 4 benches, each within its 67, 66, 66 or 66 marks. */
static void lend_four(void)
{
    fill_words(lent);
    lend(0, 60, 7, 1);
    lend(1, 66, 0, 0);
    lend(2, 0, 66, 65535);
    lend(3, 5, 6, 7);
}

static void sums(void)
{
    size_t bench;
    lend_four();
    adds_up("6 ports over 4 benches", 6, 4, 131, 79, 65543);
    lend(3, 66, 0, 65535);
    lend(0, 67, 0, 65535);
    adds_up("all closed", 6, 4, 199, 66, 3 * number("65535"));
    fill_words(lent);
    lend(0, 1, 0, 2);
    lend(1, 0, 0, 0);
    lend(2, 0, 0, 0);
    adds_up("2 ports over 3 benches", 2, 3, 1, 0, 2);
    lend(0, number(LAST_RANK_OF_20), 1, 0);
    adds_up("20 ports on one bench", 20, 1, number(LAST_RANK_OF_20), 1, 0);
    fill_words(lent);
    for (bench = 0; bench < JIDROFEX_BENCHES_MOST; bench++)
        lend(bench, bench < 44 ? 1 : 0, 0, 65535);
    adds_up("5 ports over the most benches", 5, JIDROFEX_BENCHES_MOST, 44, 0, number("4194240"));
}

/* A bench whose counts it cannot have is named from 0; of two the first. */
static void refused_counts(void)
{
    static const struct {
        const char *what;
        const char *covered, *open, *errors;
    } bad[] = {
        {"one covered too many", "67", "0", "0"},
        {"one open too many", "0", "67", "0"},
        {"one too many in all", "33", "34", "0"},
        {"covered and open beyond 64 bits", "18446744073709551615", "1", "0"},
        {"open and covered beyond 64 bits", "2", "18446744073709551615", "0"},
        {"both halves of 64 bits", "9223372036854775808", "9223372036854775808", "0"},
        {"one error too many", "0", "0", "65536"},
        {"errors with none in the lowest half", "66", "0", "4294967296"}
    };
    size_t k, bench;
    for (k = 0; k < sizeof bad / sizeof bad[0]; k++)
        for (bench = 1; bench < 4; bench++) {
            lend_four();
            lend(bench, number(bad[k].covered), number(bad[k].open), number(bad[k].errors));
            adds_refused(bad[k].what, 6, 4, 12, JIDROFEX_BENCHES_REFUSED_COUNTS, bench);
            lend(3, minus(1), minus(1), minus(1));
            adds_refused(bad[k].what, 6, 4, 12, JIDROFEX_BENCHES_REFUSED_COUNTS, bench);
            lend(0, 67, 1, 0);
            adds_refused(bad[k].what, 6, 4, 12, JIDROFEX_BENCHES_REFUSED_COUNTS, 0);
        }
    fill_words(lent);
    lend(0, 1, 0, 0);
    lend(1, 0, 1, 0);
    adds_refused("open on a bench without a plan", 2, 2, 6, JIDROFEX_BENCHES_REFUSED_COUNTS, 1);
}

/* Ports, then benches and the number of counts, whatever is lent. */
static void refused_sums(void)
{
    fill_words(lent);
    adds_refused("no ports", 0, 4, 12, JIDROFEX_BENCHES_REFUSED_PORTS, 0);
    adds_refused("one port", 1, 0, 0, JIDROFEX_BENCHES_REFUSED_PORTS, 0);
    adds_refused("21 ports", 21, 65, 7, JIDROFEX_BENCHES_REFUSED_PORTS, 0);
    adds_refused("6 ports in the lowest byte", 262, 4, 12, JIDROFEX_BENCHES_REFUSED_PORTS, 0);
    adds_refused("no benches", 6, 0, 0, JIDROFEX_BENCHES_REFUSED_BENCHES, 0);
    adds_refused("one bench more than the most", 6, JIDROFEX_BENCHES_MOST + 1, 195, JIDROFEX_BENCHES_REFUSED_BENCHES, 0);
    adds_refused("4 benches in the lowest byte", 6, 260, 12, JIDROFEX_BENCHES_REFUSED_BENCHES, 0);
    adds_refused("three times so many are 2 in 64 bits", 6, number("6148914691236517206"), 2, JIDROFEX_BENCHES_REFUSED_BENCHES, 0);
    adds_refused("counts of which one is missing", 6, 4, 11, JIDROFEX_BENCHES_REFUSED_BENCHES, 0);
    adds_refused("one count too many", 6, 4, 13, JIDROFEX_BENCHES_REFUSED_BENCHES, 0);
    adds_refused("counts for one bench less", 6, 4, 9, JIDROFEX_BENCHES_REFUSED_BENCHES, 0);
    adds_refused("one count for each", 6, 4, 4, JIDROFEX_BENCHES_REFUSED_BENCHES, 0);
    adds_refused("no counts", 6, 4, 0, JIDROFEX_BENCHES_REFUSED_BENCHES, 0);
    refused("no counts and no pointer", jidrofex_benches_sum(6, 4, NULL, 0, fresh()), JIDROFEX_BENCHES_REFUSED_BENCHES, 0);
    lend_four();
    adds_refused("good counts, one missing", 6, 4, 11, JIDROFEX_BENCHES_REFUSED_BENCHES, 0);
    adds_refused("good counts, one too many", 6, 4, 13, JIDROFEX_BENCHES_REFUSED_BENCHES, 0);
}

int main(void)
{
    gives_one("version", jidrofex_benches_version(fresh()), JIDROFEX_BENCHES_VERSION);
    shares();
    refused_shares();
    sums();
    refused_counts();
    refused_sums();
    printf("header: %lu comparisons, %lu failed\n", compared, failed);
    return failed == 0 ? 0 : 1;
}
