/* What a plan names: how many ranks, and the gaps at the front of numbers that are lent. The ranks are counted by hand. */

/* The gaps that are wanted, two numbers for each, in the words that stand for a state elsewhere; beyond them what was there. */
static void want_gaps(const uint64_t *gaps, size_t many)
{
    fill_words(want);
    memcpy(want, gaps, 2 * many * sizeof gaps[0]);
}

/* A plan names so many ranks and leaves the gaps that are wanted, in just as many numbers as they take and in more; with a number less it is refused. */
static void names(const char *what, const char *text, uint64_t ranks, const uint64_t *gaps, size_t many)
{
    want_gaps(gaps, many);
    fill_words(state);
    gives(on("named in just enough", what), jidrofex_named(bytes_of(text), strlen(text), state, 2 * many, fresh()), ranks, many, 0, 0, 0);
    left(on("named in just enough", what));
    fill_words(state);
    gives(on("named", what), jidrofex_named(bytes_of(text), strlen(text), state, JIDROFEX_GAP_NUMBERS, fresh()), ranks, many, 0, 0, 0);
    left(on("named", what));
    if (many > 0) {
        want_gaps(gaps, 0);
        fill_words(state);
        refused(on("named in a number less", what), jidrofex_named(bytes_of(text), strlen(text), state, 2 * many - 1, fresh()), JIDROFEX_REFUSED_ROOM, 0);
        left(on("named in a number less", what));
    }
}

/* Sixteen legs of one rank each, 0, 2, .. 30, of 20 ports: fifteen gaps of one rank, and one from 31 on with all the rest. */
static const char *most_gaps(uint64_t *gaps)
{
    static char text[WHOLE];
    int leg;
    sprintf(text, "ports=%d\nlegs=%d\n", JIDROFEX_MOST_PORTS, JIDROFEX_MOST_LEGS);
    for (leg = 0; leg < JIDROFEX_MOST_LEGS; leg++) {
        sprintf(text + strlen(text), "start=%d\nrun=0\n", 2 * leg);
        gaps[2 * leg] = (uint64_t)(2 * leg + 1);
        gaps[2 * leg + 1] = 1;
    }
    gaps[2 * JIDROFEX_MOST_LEGS - 1] = number(COUNT_OF_20) - 31;
    return text;
}

static void named_ranks(void)
{
    /* of the 9 ranks of 4 ports: 0, 1, 2 and 8, 7; 2 to 6; 3, 4 and 4, 3, 2; 1, 0, 8 and 4; all */
    static const uint64_t of_example[] = {3, 4}, through_0[] = {7, 4}, overlapping[] = {5, 6}, two[] = {2, 2, 5, 3}, none[] = {0};
    uint64_t most[2 * JIDROFEX_MOST_LEGS];
    const char *text;
    size_t k;
    names("the paper's plan", example, 5, of_example, 1);
    names("2 to 6 of 9", "ports=4\nlegs=1\nstart=2\nrun=4\n", 5, through_0, 1);
    names("legs that overlap", "ports=4\nlegs=2\nstart=3\nrun=1\nstart=4\nrun=-2\n", 3, overlapping, 1);
    names("two gaps", "ports=4\nlegs=2\nstart=1\nrun=-2\nstart=4\nrun=0\n", 4, two, 2);
    names("a full circuit", "ports=4\nlegs=1\nstart=5\nrun=-8\n", 9, none, 0);
    names("two ports", "ports=2\nlegs=2\nstart=0\nrun=0\nstart=0\nrun=0\n", 1, none, 0);
    names("full circuits of 20 ports", longest_plan(), number(COUNT_OF_20), none, 0);
    text = most_gaps(most);
    names("the most gaps", text, JIDROFEX_MOST_LEGS, most, JIDROFEX_MOST_LEGS);
    /* two numbers for each leg, and for one gap more */
    same("JIDROFEX_GAP_NUMBERS", JIDROFEX_GAP_NUMBERS, 2 * (JIDROFEX_MOST_LEGS + 1));

    /* a text that is no plan is refused as ever, with or without room, and the numbers stay */
    fill_words(want);
    fill_words(state);
    for (k = 0; k < sizeof no_plans / sizeof no_plans[0]; k++) {
        text = no_plans[k].text;
        refused(on("named", text), jidrofex_named(bytes_of(text), strlen(text), state, JIDROFEX_GAP_NUMBERS, fresh()), no_plans[k].number, no_plans[k].at);
        refused(on("named without room", text), jidrofex_named(bytes_of(text), strlen(text), NULL, 0, fresh()), no_plans[k].number, no_plans[k].at);
        left(on("named", text));
    }
    refused("named on no text", jidrofex_named(NULL, 0, state, JIDROFEX_GAP_NUMBERS, fresh()), JIDROFEX_REFUSED_ENDED, 1);
    refused("named without room", jidrofex_named(bytes_of(example), strlen(example), NULL, 0, fresh()), JIDROFEX_REFUSED_ROOM, 0);
    left("named, refused");
}
