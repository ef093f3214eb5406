/* What comparisons are made with, for the program of each header: numbers, words that are lent, and answers, compared whole. Who includes this says before it
 * what its own header has as ACCEPTED and as ANSWER_WORDS. */

/* ---- comparisons */

static unsigned long compared, failed;

/* Two numbers that should be one. */
static void same(const char *what, uint64_t found, uint64_t wanted)
{
    compared++;
    if (found != wanted) {
        failed++;
        printf("%s: %lu, and not %lu\n", what, (unsigned long)found, (unsigned long)wanted);
    }
}

/* ---- what is lent
 * Everything that a call may write stands at the front of an array that is longer than what is lent, and was filled before. The array is compared as a whole,
 * so that a byte or a word that the call should have left is seen, beyond what was lent too. */

enum { WHOLE = 1024, FILL = 165 };

static void fill_words(uint64_t *words)
{
    memset(words, FILL, WHOLE * sizeof words[0]);
}

/* Two arrays of words that should be one. */
static void same_words(const char *what, const uint64_t *found, const uint64_t *wanted)
{
    char word[2100];
    size_t k = 0;
    while (k < WHOLE - 1 && found[k] == wanted[k])
        k++;
    sprintf(word, "%s: word %lu", what, (unsigned long)k);
    same(word, found[k], wanted[k]);
}

/* A number of 64 bits from its digits: C90 has no name for so long a constant. */
static uint64_t number(const char *digits)
{
    uint64_t n = 0;
    while (*digits)
        n = n * 10 + (uint64_t)(*digits++ - '0');
    return n;
}

/* The 64 bits of a number below 0. */
static uint64_t minus(uint64_t magnitude)
{
    return (uint64_t)0 - magnitude;
}

/* the paper's count for 20 ports, and one less */
#define COUNT_OF_20 "895014631192902121"
#define LAST_RANK_OF_20 "895014631192902120"

/* ---- answers */

static uint64_t answer[WHOLE];

static uint64_t *fresh(void)
{
    fill_words(answer);
    return answer;
}

/* What a call answered, and all ANSWER_WORDS words of its answer: these five, zeros if there were more, and nothing beyond. */
static void told(const char *what, uint8_t found, uint8_t wanted, uint64_t a, uint64_t b, uint64_t c, uint64_t d, uint64_t e)
{
    uint64_t words[WHOLE];
    size_t k;
    fill_words(words);
    for (k = 0; k < ANSWER_WORDS; k++)
        words[k] = k == 0 ? a : k == 1 ? b : k == 2 ? c : k == 3 ? d : k == 4 ? e : 0;
    same(what, found, wanted);
    same_words(what, answer, words);
}

static void gives(const char *what, uint8_t found, uint64_t a, uint64_t b, uint64_t c, uint64_t d, uint64_t e)
{
    told(what, found, ACCEPTED, a, b, c, d, e);
}

static void gives_one(const char *what, uint8_t found, uint64_t a)
{
    gives(what, found, a, 0, 0, 0, 0);
}

static void gives_nothing(const char *what, uint8_t found)
{
    gives(what, found, 0, 0, 0, 0, 0);
}

/* Refused, with the place and the second number. */
static void refused_with(const char *what, uint8_t found, uint8_t wanted, uint64_t place, uint64_t earlier)
{
    told(what, found, wanted, place, earlier, 0, 0, 0);
}

static void refused(const char *what, uint8_t found, uint8_t wanted, uint64_t place)
{
    refused_with(what, found, wanted, place, 0);
}
