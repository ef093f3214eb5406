/* Dictionary numbers: the same patterns in dictionary order, first jack first. The numbers are counted by hand, the ranks are those of patterns.h and of the
 * paper's table. */

/* The first of 20 ports, in which each jack from 1 on has the smallest port that is left and not its own, and the last, in which each has the largest. */
#define FIRST_WORD_OF_20 "21436587a9cbedgfihkj"
#define LAST_WORD_OF_20 "kjihgfedcba987654321"
/* Each first port but 1 has 895014631192902121 / 19 = 47106033220679059 patterns. The last with first port 2, in which jack 11 would have its own port if the
 * ports fell all the way, and the first with first port 3. */
#define LAST_WITH_2 "2kjihgfedcab98765431"
#define FIRST_WITH_3 "312547698badcfehgjki"
#define PATTERNS_WITH_2 "47106033220679059"
/* Before home come, for each jack from 2 on, the patterns that begin as home does and have port 1 there. The jacks after it have their own ports left, so these
 * are as many as there are patterns of so many ports: in all the counts of 18, 17, .. 2 ports. The one of the 2 ports comes just before home, and is the last
 * of our list. */
#define NUMBER_OF_HOME "2494364438359953"
#define NUMBER_BEFORE_HOME "2494364438359952"

/* Patterns with their numbers, and with their ranks where these are known. */
static const struct {
    const char *ports;
    const char *number;
    const char *rank;
} words[] = {
    {"21", "0", "0"},
    {"231", "0", "0"},
    {"312", "1", "1"},
    {"2143", "0", "8"},
    {"2341", "1", "0"},
    {"2413", "2", "6"},
    {"3142", "3", "4"},
    {"3412", "4", "3"},
    {"3421", "5", "1"},
    {"4123", "6", "7"},
    {"4312", "7", "5"},
    {"4321", "8", "2"},
    /* of 5 ports, eleven have each first port */
    {"21453", "0", NULL},
    {"21534", "1", NULL},
    {"23154", "2", NULL},
    {"23451", "3", "0"},
    {"23514", "4", "43"},
    {"31254", "11", NULL},
    {"41253", "22", NULL},
    {"41523", "23", "31"},
    {"51234", "33", NULL},
    {"54231", "43", "9"},
    {FIRST_WORD_OF_20, "0", NULL},
    {LAST_OF_20, NUMBER_BEFORE_HOME, LAST_RANK_OF_20},
    {HOME_OF_20, NUMBER_OF_HOME, "0"},
    {FIRST_WITH_3, PATTERNS_WITH_2, NULL},
    {LAST_WORD_OF_20, LAST_RANK_OF_20, NULL}
};

/* Neighbours in dictionary order, the last and the first too. */
static const struct {
    const char *from;
    const char *to;
} word_after[] = {
    {"21", "21"},
    {"231", "312"},
    {"312", "231"},
    {"2143", "2341"},
    {"2341", "2413"},
    {"2413", "3142"},
    {"3142", "3412"},
    {"3412", "3421"},
    {"3421", "4123"},
    {"4123", "4312"},
    {"4312", "4321"},
    {"4321", "2143"},
    {"21453", "21534"},
    {"21534", "23154"},
    {"23154", "23451"},
    {"23451", "23514"},
    {"54231", "21453"},
    {LAST_OF_20, HOME_OF_20},
    {LAST_WITH_2, FIRST_WITH_3},
    {LAST_WORD_OF_20, FIRST_WORD_OF_20}
};

/* A pattern and its number, each from the other, and the number and the rank of the same pattern. */
static void is_numbered(const char *ports, uint64_t its_number, uint64_t rank)
{
    size_t n = strlen(ports);
    gives_one(on("dictionary_number", ports), jidrofex_dictionary_number(laid(ports), n, fresh()), its_number);
    stands(on("dictionary_number", ports), ports);
    lay_out("", panel);
    gives_nothing(on("dictionary_pattern", ports), jidrofex_dictionary_pattern(its_number, panel, n, fresh()));
    stands(on("dictionary_pattern", ports), ports);
    gives_one(on("number_to_rank", ports), jidrofex_number_to_rank((uint8_t)n, its_number, fresh()), rank);
    gives_one(on("rank_to_number", ports), jidrofex_rank_to_number((uint8_t)n, rank, fresh()), its_number);
}

static void dictionary_numbers(void)
{
    size_t k;
    for (k = 0; k < sizeof words / sizeof words[0]; k++) {
        const char *ports = words[k].ports;
        /* where the rank is not known, it is the one that the pattern has */
        same(on("rank", ports), jidrofex_rank(laid(ports), strlen(ports), fresh()), JIDROFEX_ACCEPTED);
        is_numbered(ports, number(words[k].number), words[k].rank ? number(words[k].rank) : answer[0]);
    }
    for (k = 0; k < sizeof word_after / sizeof word_after[0]; k++) {
        const char *from = word_after[k].from;
        gives_nothing(on("dictionary_next", from), jidrofex_dictionary_next(laid(from), strlen(from), fresh()));
        stands(on("dictionary_next", from), word_after[k].to);
    }
    /* every number of 5 ports, in steps of next from the first to the first again */
    laid("21453");
    for (k = 0; k < 44; k++) {
        gives_one("dictionary_number of 5 ports", jidrofex_dictionary_number(panel, 5, fresh()), k);
        gives_nothing("dictionary_next of 5 ports", jidrofex_dictionary_next(panel, 5, fresh()));
    }
    stands("dictionary_next of 5 ports, 44 times", "21453");
}

/* Numbers and ranks that are not below the count, and numbers of ports that are none, which come before these. */
static void refused_numbers(void)
{
    static const uint8_t no_ports[] = {0, 1, JIDROFEX_MOST_PORTS + 1, 255};
    const uint64_t most = number("18446744073709551615"), count_of_20 = number(COUNT_OF_20);
    size_t k;
    refused("dictionary_pattern with 1 of 2", jidrofex_dictionary_pattern(1, laid("21"), 2, fresh()), JIDROFEX_REFUSED_RANK, 0);
    stands("dictionary_pattern with 1 of 2", "21");
    refused("dictionary_pattern with 9 of 4", jidrofex_dictionary_pattern(9, laid("4321"), 4, fresh()), JIDROFEX_REFUSED_RANK, 0);
    stands("dictionary_pattern with 9 of 4", "4321");
    refused("dictionary_pattern with the count of 20", jidrofex_dictionary_pattern(count_of_20, laid(HOME_OF_20), 20, fresh()), JIDROFEX_REFUSED_RANK, 0);
    refused("dictionary_pattern with the most", jidrofex_dictionary_pattern(most, panel, 20, fresh()), JIDROFEX_REFUSED_RANK, 0);
    stands("dictionary_pattern of 20 refused", HOME_OF_20);
    refused("number_to_rank with 9 of 4", jidrofex_number_to_rank(4, 9, fresh()), JIDROFEX_REFUSED_RANK, 0);
    refused("number_to_rank with the count of 20", jidrofex_number_to_rank(20, count_of_20, fresh()), JIDROFEX_REFUSED_RANK, 0);
    refused("number_to_rank with the most", jidrofex_number_to_rank(JIDROFEX_MOST_PORTS, most, fresh()), JIDROFEX_REFUSED_RANK, 0);
    refused("rank_to_number with 9 of 4", jidrofex_rank_to_number(4, 9, fresh()), JIDROFEX_REFUSED_RANK, 0);
    refused("rank_to_number with the count of 20", jidrofex_rank_to_number(20, count_of_20, fresh()), JIDROFEX_REFUSED_RANK, 0);
    refused("rank_to_number with the most", jidrofex_rank_to_number(JIDROFEX_MOST_PORTS, most, fresh()), JIDROFEX_REFUSED_RANK, 0);
    for (k = 0; k < sizeof no_ports / sizeof no_ports[0]; k++) {
        refused("number_to_rank with 0 of no ports", jidrofex_number_to_rank(no_ports[k], 0, fresh()), JIDROFEX_REFUSED_PORTS, 0);
        refused("number_to_rank with the most of no ports", jidrofex_number_to_rank(no_ports[k], most, fresh()), JIDROFEX_REFUSED_PORTS, 0);
        refused("rank_to_number with 0 of no ports", jidrofex_rank_to_number(no_ports[k], 0, fresh()), JIDROFEX_REFUSED_PORTS, 0);
        refused("rank_to_number with the most of no ports", jidrofex_rank_to_number(no_ports[k], most, fresh()), JIDROFEX_REFUSED_PORTS, 0);
    }
}

/* What is no pattern is refused as check refuses it, and stays. */
static void dictionary_faults(void)
{
    size_t k;
    for (k = 0; k < sizeof faults / sizeof faults[0]; k++) {
        const char *ports = faults[k].ports;
        size_t n = strlen(ports);
        faulted(on("dictionary_number", ports), jidrofex_dictionary_number(laid(ports), n, fresh()), faults[k].as_pattern);
        stands(on("dictionary_number", ports), ports);
        faulted(on("dictionary_next", ports), jidrofex_dictionary_next(laid(ports), n, fresh()), faults[k].as_pattern);
        stands(on("dictionary_next", ports), ports);
        if (faults[k].as_pattern.number == JIDROFEX_REFUSED_PORTS) {
            refused(on("dictionary_pattern", ports), jidrofex_dictionary_pattern(0, laid(ports), n, fresh()), JIDROFEX_REFUSED_PORTS, 0);
            stands(on("dictionary_pattern", ports), ports);
        }
    }
    refused("dictionary_number with no pattern", jidrofex_dictionary_number(NULL, 0, fresh()), JIDROFEX_REFUSED_PORTS, 0);
    refused("dictionary_next with no pattern", jidrofex_dictionary_next(NULL, 0, fresh()), JIDROFEX_REFUSED_PORTS, 0);
    refused("dictionary_pattern with no pattern", jidrofex_dictionary_pattern(0, NULL, 0, fresh()), JIDROFEX_REFUSED_PORTS, 0);
}
