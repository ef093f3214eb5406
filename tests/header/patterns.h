/* The library itself, and the calls on patterns. */

/* ---- the library */

static const struct {
    uint8_t number;
    const char *words;
} refusals[] = {
    {JIDROFEX_ACCEPTED, "accepted"},
    {JIDROFEX_REFUSED_PORTS, "ports or length not 2 to 20"},
    {JIDROFEX_REFUSED_ROOM, "does not fit the buffer"},
    {JIDROFEX_REFUSED_OUTSIDE, "entry outside the panel's ports"},
    {JIDROFEX_REFUSED_REPEATED, "entry equal to an earlier one"},
    {JIDROFEX_REFUSED_OWN_JACK, "entry equal to its own jack"},
    {JIDROFEX_REFUSED_RANK, "rank not below the count"},
    {JIDROFEX_REFUSED_KEY, "not the key that belongs here"},
    {JIDROFEX_REFUSED_NUMBER, "number badly written or too large"},
    {JIDROFEX_REFUSED_LEGS, "legs not 1 to 16"},
    {JIDROFEX_REFUSED_RUN, "run too long"},
    {JIDROFEX_REFUSED_ENDED, "text ended early or went on"},
    {JIDROFEX_REFUSED_NO_MARK, "report of a mark that does not stand"},
    {JIDROFEX_REFUSED_MARK_STANDS, "request while a mark stands"},
    {JIDROFEX_REFUSED_KIND, "report kind above 2"},
    {JIDROFEX_REFUSED_UNFIT, "state unfit"},
    {JIDROFEX_REFUSED_ERRORS, "error reported when 65,535 are counted"},
    {JIDROFEX_REFUSED_SHAPE, "jack or port off the panel, or order out of shape"},
    {JIDROFEX_REFUSED_SHAPE + 1, "no refusal has this number"},
    {255, "no refusal has this number"}
};

static void the_library(void)
{
    size_t k, longest = 0;
    gives_one("version", jidrofex_version(fresh()), JIDROFEX_VERSION);
    /* the words of a state that these tests know, place by place, are of this version */
    same("the version of a state's words", JIDROFEX_STATE_VERSION, 2);

    for (k = 0; k < sizeof refusals / sizeof refusals[0]; k++) {
        const char *words = refusals[k].words;
        size_t bytes = strlen(words);
        if (longest < bytes)
            longest = bytes;
        gives_one(on("refusal_words", words), jidrofex_refusal_words(refusals[k].number, room(), JIDROFEX_WORDS_BYTES, fresh()), bytes);
        written(on("refusal_words", words), words);
        gives_one(on("refusal_words in just the room", words), jidrofex_refusal_words(refusals[k].number, room(), bytes, fresh()), bytes);
        written(on("refusal_words in just the room", words), words);
        refused(on("refusal_words in a byte less", words), jidrofex_refusal_words(refusals[k].number, room(), bytes - 1, fresh()), JIDROFEX_REFUSED_ROOM, 0);
        written(on("refusal_words in a byte less", words), "");
    }
    same("the longest words", longest, JIDROFEX_WORDS_BYTES);
    refused("refusal_words with no buffer", jidrofex_refusal_words(JIDROFEX_ACCEPTED, NULL, 0, fresh()), JIDROFEX_REFUSED_ROOM, 0);
}

/* ---- refusals as sentences */

/* Known sentences, by number and the first two words of the refused answer, in digits: of every refusal with a place, and of those that have none where it is 0. */
static const struct {
    uint8_t number;
    const char *place, *earlier;
    const char *sentence;
} sentences[] = {
    {JIDROFEX_ACCEPTED, "0", "0", "accepted"},
    {JIDROFEX_ACCEPTED, "5", "2", "accepted"},
    {JIDROFEX_REFUSED_PORTS, "0", "0", "ports or length not 2 to 20"},
    {JIDROFEX_REFUSED_PORTS, "1", "0", "line 1: ports or length not 2 to 20"},
    {JIDROFEX_REFUSED_ROOM, "0", "0", "does not fit the buffer"},
    {JIDROFEX_REFUSED_ROOM, "10", "0", "line 10: does not fit the buffer"},
    {JIDROFEX_REFUSED_OUTSIDE, "3", "0", "jack 3: entry outside the panel's ports"},
    {JIDROFEX_REFUSED_OUTSIDE, "3", "2", "jack 3: entry outside the panel's ports"},
    {JIDROFEX_REFUSED_REPEATED, "5", "2", "jack 5: entry equal to an earlier one, at jack 2"},
    {JIDROFEX_REFUSED_REPEATED, "20", "19", "jack 20: entry equal to an earlier one, at jack 19"},
    {JIDROFEX_REFUSED_REPEATED, "5", "0", "jack 5: entry equal to an earlier one"},
    {JIDROFEX_REFUSED_REPEATED, "0", "2", "entry equal to an earlier one, at jack 2"},
    {JIDROFEX_REFUSED_REPEATED, "0", "0", "entry equal to an earlier one"},
    {JIDROFEX_REFUSED_REPEATED, "256", "257", "jack 256: entry equal to an earlier one, at jack 257"},
    {JIDROFEX_REFUSED_REPEATED, "18446744073709551615", "18446744073709551614",
     "jack 18446744073709551615: entry equal to an earlier one, at jack 18446744073709551614"},
    {JIDROFEX_REFUSED_OWN_JACK, "1", "0", "jack 1: entry equal to its own jack"},
    {JIDROFEX_REFUSED_OWN_JACK, "0", "1", "entry equal to its own jack"},
    {JIDROFEX_REFUSED_RANK, "0", "0", "rank not below the count"},
    {JIDROFEX_REFUSED_RANK, "3", "0", "line 3: rank not below the count"},
    {JIDROFEX_REFUSED_KEY, "1", "0", "line 1: not the key that belongs here"},
    {JIDROFEX_REFUSED_NUMBER, "4", "0", "line 4: number badly written or too large"},
    {JIDROFEX_REFUSED_LEGS, "2", "0", "line 2: legs not 1 to 16"},
    {JIDROFEX_REFUSED_RUN, "4", "0", "line 4: run too long"},
    {JIDROFEX_REFUSED_ENDED, "0", "0", "text ended early or went on"},
    {JIDROFEX_REFUSED_ENDED, "35", "0", "line 35: text ended early or went on"},
    {JIDROFEX_REFUSED_NO_MARK, "0", "0", "report of a mark that does not stand"},
    {JIDROFEX_REFUSED_NO_MARK, "7", "7", "line 7: report of a mark that does not stand"},
    {JIDROFEX_REFUSED_MARK_STANDS, "0", "0", "request while a mark stands"},
    {JIDROFEX_REFUSED_MARK_STANDS, "7", "7", "line 7: request while a mark stands"},
    {JIDROFEX_REFUSED_KIND, "0", "0", "report kind above 2"},
    {JIDROFEX_REFUSED_KIND, "7", "7", "line 7: report kind above 2"},
    {JIDROFEX_REFUSED_UNFIT, "0", "0", "state unfit"},
    {JIDROFEX_REFUSED_UNFIT, "7", "7", "line 7: state unfit"},
    {JIDROFEX_REFUSED_ERRORS, "0", "0", "error reported when 65,535 are counted"},
    {JIDROFEX_REFUSED_ERRORS, "7", "7", "line 7: error reported when 65,535 are counted"},
    {JIDROFEX_REFUSED_SHAPE, "0", "0", "jack or port off the panel, or order out of shape"},
    {JIDROFEX_REFUSED_SHAPE, "18446744073709551615", "18446744073709551615",
     "line 18446744073709551615: jack or port off the panel, or order out of shape"},
    {JIDROFEX_REFUSED_SHAPE + 1, "5", "2", "no refusal has this number"},
    {255, "5", "2", "no refusal has this number"}
};

/* A refused answer, whose words after the second are not looked at. */
static uint64_t refused_answer[WHOLE];

static const uint64_t *refused_of(uint64_t place, uint64_t earlier)
{
    fill_words(refused_answer);
    refused_answer[0] = place;
    refused_answer[1] = earlier;
    return refused_answer;
}

/* The refused answer that was passed is as it was. */
static void refused_stays(const char *what, uint64_t place, uint64_t earlier)
{
    uint64_t words[WHOLE];
    fill_words(words);
    words[0] = place;
    words[1] = earlier;
    same_words(what, refused_answer, words);
}

static void refusal_sentences(void)
{
    size_t k, longest = 0;
    for (k = 0; k < sizeof sentences / sizeof sentences[0]; k++) {
        uint64_t place = number(sentences[k].place), earlier = number(sentences[k].earlier);
        const char *text = sentences[k].sentence;
        size_t bytes = strlen(text);
        if (longest < bytes)
            longest = bytes;
        gives_one(on("refusal_sentence", text),
                  jidrofex_refusal_sentence(sentences[k].number, refused_of(place, earlier), room(), JIDROFEX_SENTENCE_BYTES, fresh()), bytes);
        written(on("refusal_sentence", text), text);
        refused_stays(on("refusal_sentence", text), place, earlier);
        gives_one(on("refusal_sentence in just the room", text),
                  jidrofex_refusal_sentence(sentences[k].number, refused_of(place, earlier), room(), bytes, fresh()), bytes);
        written(on("refusal_sentence in just the room", text), text);
        refused(on("refusal_sentence in a byte less", text),
                jidrofex_refusal_sentence(sentences[k].number, refused_of(place, earlier), room(), bytes - 1, fresh()), JIDROFEX_REFUSED_ROOM, 0);
        written(on("refusal_sentence in a byte less", text), "");
        refused_stays(on("refusal_sentence in a byte less", text), place, earlier);
    }
    same("the longest sentence", longest, JIDROFEX_SENTENCE_BYTES);
    refused("refusal_sentence with no buffer", jidrofex_refusal_sentence(JIDROFEX_REFUSED_REPEATED, refused_of(5, 2), NULL, 0, fresh()),
            JIDROFEX_REFUSED_ROOM, 0);
    refused("refusal_sentence of 0 with no buffer", jidrofex_refusal_sentence(JIDROFEX_ACCEPTED, refused_of(0, 0), NULL, 0, fresh()), JIDROFEX_REFUSED_ROOM, 0);
}

/* The answer of a refused call as it stands: the header's own example. */
static void sentence_of_a_refusal(void)
{
    static const char said[] = "jack 5: entry equal to an earlier one, at jack 2";
    uint64_t of_check[WHOLE];
    uint8_t number_of_check = jidrofex_check(laid("23453"), 5, fresh());
    memcpy(of_check, answer, sizeof of_check);
    gives_one("refusal_sentence of what was refused",
              jidrofex_refusal_sentence(number_of_check, of_check, room(), JIDROFEX_SENTENCE_BYTES, fresh()), strlen(said));
    written("refusal_sentence of what was refused", said);
}

/* ---- patterns */

/* Jacks are tried from 1, each for an entry outside 1..n, equal to an earlier one, equal to its own jack (as a pattern alone): the first at fault decides. With an
 * equal entry stands the jack of the earlier one, with any other fault 0. */
typedef struct {
    uint8_t number;
    uint8_t place;
    uint8_t earlier;
} fault;

static const struct {
    const char *ports;
    fault as_pattern;
    fault as_panel;
} faults[] = {
    {"", {JIDROFEX_REFUSED_PORTS, 0, 0}, {JIDROFEX_REFUSED_PORTS, 0, 0}},
    {"1", {JIDROFEX_REFUSED_PORTS, 0, 0}, {JIDROFEX_REFUSED_PORTS, 0, 0}},
    {"23456789abcdefghijkl1", {JIDROFEX_REFUSED_PORTS, 0, 0}, {JIDROFEX_REFUSED_PORTS, 0, 0}},
    {"22222222222222222222l", {JIDROFEX_REFUSED_PORTS, 0, 0}, {JIDROFEX_REFUSED_PORTS, 0, 0}},
    {"31", {JIDROFEX_REFUSED_OUTSIDE, 1, 0}, {JIDROFEX_REFUSED_OUTSIDE, 1, 0}},
    {"20", {JIDROFEX_REFUSED_OUTSIDE, 2, 0}, {JIDROFEX_REFUSED_OUTSIDE, 2, 0}},
    {"22", {JIDROFEX_REFUSED_REPEATED, 2, 1}, {JIDROFEX_REFUSED_REPEATED, 2, 1}},
    {"11", {JIDROFEX_REFUSED_OWN_JACK, 1, 0}, {JIDROFEX_REFUSED_REPEATED, 2, 1}},
    {"2311", {JIDROFEX_REFUSED_REPEATED, 4, 3}, {JIDROFEX_REFUSED_REPEATED, 4, 3}},
    {"3132", {JIDROFEX_REFUSED_REPEATED, 3, 1}, {JIDROFEX_REFUSED_REPEATED, 3, 1}},
    {"23453", {JIDROFEX_REFUSED_REPEATED, 5, 2}, {JIDROFEX_REFUSED_REPEATED, 5, 2}},
    /* three equal entries, and two pairs */
    {"3433", {JIDROFEX_REFUSED_REPEATED, 3, 1}, {JIDROFEX_REFUSED_REPEATED, 3, 1}},
    {"2332", {JIDROFEX_REFUSED_REPEATED, 3, 2}, {JIDROFEX_REFUSED_REPEATED, 3, 2}},
    /* another fault before an equal entry */
    {"2022", {JIDROFEX_REFUSED_OUTSIDE, 2, 0}, {JIDROFEX_REFUSED_OUTSIDE, 2, 0}},
    {"2355", {JIDROFEX_REFUSED_OUTSIDE, 3, 0}, {JIDROFEX_REFUSED_OUTSIDE, 3, 0}},
    {"3232", {JIDROFEX_REFUSED_OWN_JACK, 2, 0}, {JIDROFEX_REFUSED_REPEATED, 3, 1}},
    {"24332", {JIDROFEX_REFUSED_OWN_JACK, 3, 0}, {JIDROFEX_REFUSED_REPEATED, 4, 3}},
    {"1255", {JIDROFEX_REFUSED_OWN_JACK, 1, 0}, {JIDROFEX_REFUSED_OUTSIDE, 3, 0}},
    /* 20 ports: the last entry equal to the first, and to the one before it */
    {"23456789abcdefghijk2", {JIDROFEX_REFUSED_REPEATED, 20, 1}, {JIDROFEX_REFUSED_REPEATED, 20, 1}},
    {"23456789abcdefghijkk", {JIDROFEX_REFUSED_REPEATED, 20, 19}, {JIDROFEX_REFUSED_REPEATED, 20, 19}},
    {"123456789abcdefghijj", {JIDROFEX_REFUSED_OWN_JACK, 1, 0}, {JIDROFEX_REFUSED_REPEATED, 20, 19}},
    {"12", {JIDROFEX_REFUSED_OWN_JACK, 1, 0}, {JIDROFEX_ACCEPTED, 0, 0}},
    {"2134", {JIDROFEX_REFUSED_OWN_JACK, 3, 0}, {JIDROFEX_ACCEPTED, 0, 0}},
    {"23456789abcdefghij1k", {JIDROFEX_REFUSED_OWN_JACK, 20, 0}, {JIDROFEX_ACCEPTED, 0, 0}}
};

/* A call was refused for this fault, or accepted with nothing given where there is none. */
static void faulted(const char *what, uint8_t found, fault wanted)
{
    refused_with(what, found, wanted.number, wanted.place, wanted.earlier);
}

/* Ranks from the paper: its cases, the homes, and those that its example meets; and the last of 20 ports. */
static const struct {
    const char *ports;
    const char *rank;
} ranks[] = {
    {"21", "0"},
    {"231", "0"},
    {"312", "1"},
    {"2341", "0"},
    {"3421", "1"},
    {"4321", "2"},
    {"3412", "3"},
    {"4123", "7"},
    {"2143", "8"},
    {"23451", "0"},
    {"54231", "9"},
    {"41523", "31"},
    {"23514", "43"},
    {HOME_OF_20, "0"},
    {LAST_OF_20, LAST_RANK_OF_20}
};

/* Neighbours among those, the circuit's last and first too, and the move from the one to the other by comparing them. */
static const struct {
    const char *from;
    const char *to;
    uint8_t kind;
    uint8_t a, b, c, d;
} moves[] = {
    {"21", "21", JIDROFEX_NOTHING, 0, 0, 0, 0},
    {"231", "312", JIDROFEX_TURN, 1, 2, 3, 0},
    {"312", "231", JIDROFEX_TURN, 1, 3, 2, 0},
    {"2341", "3421", JIDROFEX_TURN, 1, 2, 3, 0},
    {"3421", "4321", JIDROFEX_SWAP, 1, 2, 0, 0},
    {"4321", "3412", JIDROFEX_TWO_SWAPS, 1, 2, 3, 4},
    {"4123", "2143", JIDROFEX_SWAP, 1, 3, 0, 0},
    {"2143", "2341", JIDROFEX_SWAP, 2, 4, 0, 0},
    {LAST_OF_20, HOME_OF_20, JIDROFEX_SWAP, 18, 20, 0, 0}
};

/* The paper's counts. */
static const struct {
    uint8_t ports;
    const char *count;
} counts[] = {
    {2, "1"},
    {3, "2"},
    {4, "9"},
    {5, "44"},
    {JIDROFEX_MOST_PORTS, COUNT_OF_20}
};

static void pattern_faults(void)
{
    size_t k;
    for (k = 0; k < sizeof faults / sizeof faults[0]; k++) {
        const char *ports = faults[k].ports;
        size_t n = strlen(ports);
        faulted(on("check", ports), jidrofex_check(laid(ports), n, fresh()), faults[k].as_pattern);
        stands(on("check", ports), ports);
        faulted(on("rank", ports), jidrofex_rank(laid(ports), n, fresh()), faults[k].as_pattern);
        stands(on("rank", ports), ports);
        faulted(on("next", ports), jidrofex_next(laid(ports), n, fresh()), faults[k].as_pattern);
        stands(on("next", ports), ports);
        faulted(on("previous", ports), jidrofex_previous(laid(ports), n, fresh()), faults[k].as_pattern);
        stands(on("previous", ports), ports);
        faulted(on("check_panel", ports), jidrofex_check_panel(laid(ports), n, fresh()), faults[k].as_panel);
        stands(on("check_panel", ports), ports);
        if (faults[k].as_pattern.number == JIDROFEX_REFUSED_PORTS) {
            refused(on("unrank", ports), jidrofex_unrank(0, laid(ports), n, fresh()), JIDROFEX_REFUSED_PORTS, 0);
            stands(on("unrank", ports), ports);
        }
    }
    refused("check with no pattern", jidrofex_check(NULL, 0, fresh()), JIDROFEX_REFUSED_PORTS, 0);
}

static void pattern_ranks(void)
{
    size_t k;
    for (k = 0; k < sizeof ranks / sizeof ranks[0]; k++) {
        const char *ports = ranks[k].ports;
        uint64_t rank = number(ranks[k].rank);
        size_t n = strlen(ports);
        gives_nothing(on("check", ports), jidrofex_check(laid(ports), n, fresh()));
        gives_nothing(on("check_panel", ports), jidrofex_check_panel(laid(ports), n, fresh()));
        gives_one(on("rank", ports), jidrofex_rank(laid(ports), n, fresh()), rank);
        stands(on("rank", ports), ports);
        lay_out("", panel);
        gives_nothing(on("unrank", ports), jidrofex_unrank(rank, panel, n, fresh()));
        stands(on("unrank", ports), ports);
    }
    same("the longest pattern", strlen(HOME_OF_20), JIDROFEX_MOST_PORTS);
    refused("unrank with rank 9 of 4", jidrofex_unrank(9, laid("4321"), 4, fresh()), JIDROFEX_REFUSED_RANK, 0);
    stands("unrank with rank 9 of 4", "4321");
    refused("unrank with the count of 20", jidrofex_unrank(number(COUNT_OF_20), laid(HOME_OF_20), 20, fresh()), JIDROFEX_REFUSED_RANK, 0);
    stands("unrank with the count of 20", HOME_OF_20);
    refused("unrank with a rank too large in too short a pattern", jidrofex_unrank(9, laid("1"), 1, fresh()), JIDROFEX_REFUSED_PORTS, 0);
}

static void pattern_counts(void)
{
    size_t k;
    for (k = 0; k < sizeof counts / sizeof counts[0]; k++)
        gives_one(on("count", counts[k].count), jidrofex_count(counts[k].ports, fresh()), number(counts[k].count));
    refused("count of 0", jidrofex_count(0, fresh()), JIDROFEX_REFUSED_PORTS, 0);
    refused("count of 1", jidrofex_count(1, fresh()), JIDROFEX_REFUSED_PORTS, 0);
    refused("count of one more than the most", jidrofex_count(JIDROFEX_MOST_PORTS + 1, fresh()), JIDROFEX_REFUSED_PORTS, 0);
}

static void pattern_moves(void)
{
    size_t k;
    for (k = 0; k < sizeof moves / sizeof moves[0]; k++) {
        size_t n = strlen(moves[k].from);
        /* a turn back goes the other way round, a swap is its own way back */
        int turns = moves[k].kind == JIDROFEX_TURN;
        gives(on("next", moves[k].from), jidrofex_next(laid(moves[k].from), n, fresh()),
              moves[k].kind, moves[k].a, moves[k].b, moves[k].c, moves[k].d);
        stands(on("next", moves[k].from), moves[k].to);
        gives(on("previous", moves[k].to), jidrofex_previous(laid(moves[k].to), n, fresh()),
              moves[k].kind, moves[k].a, turns ? moves[k].c : moves[k].b, turns ? moves[k].b : moves[k].c, moves[k].d);
        stands(on("previous", moves[k].to), moves[k].from);
    }
}

/* The paper's steps for 4 ports; 2^63 is 8 more than a multiple of 9. */
static void pattern_steps(void)
{
    gives_one("step from 0 of 4 by -1", jidrofex_step(4, 0, -1, fresh()), 8);
    gives_one("step from 8 of 4 by 1", jidrofex_step(4, 8, 1, fresh()), 0);
    gives_one("step from 0 of 4 by the lowest", jidrofex_step(4, 0, INT64_MIN, fresh()), 1);
    gives_one("step from 0 of 4 by the highest", jidrofex_step(4, 0, INT64_MAX, fresh()), 7);
    gives_one("step from 5 of 4 by 0", jidrofex_step(4, 5, 0, fresh()), 5);
    gives_one("step from 0 of 2 by 77", jidrofex_step(2, 0, 77, fresh()), 0);
    gives_one("step from 0 of 20 by -1", jidrofex_step(20, 0, -1, fresh()), number(LAST_RANK_OF_20));
    gives_one("step from the last of 20 by 1", jidrofex_step(20, number(LAST_RANK_OF_20), 1, fresh()), 0);
    refused("step from 9 of 4", jidrofex_step(4, 9, -1, fresh()), JIDROFEX_REFUSED_RANK, 0);
    refused("step of 1", jidrofex_step(1, 9, -1, fresh()), JIDROFEX_REFUSED_PORTS, 0);
    refused("step of one more than the most", jidrofex_step(JIDROFEX_MOST_PORTS + 1, 0, 0, fresh()), JIDROFEX_REFUSED_PORTS, 0);
}
