/* Plans, campaigns and going on; rehearsals. */

/* ---- plans, for a campaign and for a rehearsal */

/* A call that reads a plan, and how many words it reads it into. */
typedef struct {
    const char *name;
    uint8_t (*call)(const uint8_t *text, size_t bytes, uint64_t *state, size_t words, uint64_t *answer);
    size_t words;
} reader;

/* What text is no plan, and the line at fault. In a line the newline, the key with its =, the number and its value are tried in this order. */
static const struct {
    const char *text;
    uint8_t number;
    uint8_t at;
} no_plans[] = {
    {"", JIDROFEX_REFUSED_ENDED, 1},
    {"port=4", JIDROFEX_REFUSED_ENDED, 1},
    {"ports=4\nlegs=1\nstart=0\n", JIDROFEX_REFUSED_ENDED, 4},
    {"port=+4\n", JIDROFEX_REFUSED_KEY, 1},
    {"ports=4\nlegs=1\nrun=0\nstart=0\n", JIDROFEX_REFUSED_KEY, 3},
    {"ports=+21\n", JIDROFEX_REFUSED_NUMBER, 1},
    {"ports=4\nlegs=1\nstart=0\nrun=-0\n", JIDROFEX_REFUSED_NUMBER, 4},
    {"ports=1\n", JIDROFEX_REFUSED_PORTS, 1},
    {"ports=21\n", JIDROFEX_REFUSED_PORTS, 1},
    {"ports=4\nlegs=0\n", JIDROFEX_REFUSED_LEGS, 2},
    {"ports=4\nlegs=17\n", JIDROFEX_REFUSED_LEGS, 2},
    {"ports=4\nlegs=1\nstart=9\n", JIDROFEX_REFUSED_RANK, 3},
    {"ports=4\nlegs=1\nstart=0\nrun=9\n", JIDROFEX_REFUSED_RUN, 4},
    {"ports=4\nlegs=1\nstart=0\nrun=-9\n", JIDROFEX_REFUSED_RUN, 4},
    {"ports=2\nlegs=1\nstart=0\nrun=1\n", JIDROFEX_REFUSED_RUN, 4},
    {"ports=4\nlegs=1\nstart=0\nrun=8\n\n", JIDROFEX_REFUSED_ENDED, 5}
};

/* A text that is refused leaves zeros, whatever was there. */
static void plan_refused(reader read, const char *what, const char *text, size_t bytes, uint8_t wanted, uint64_t at)
{
    fill_words(state);
    want_zeros(read.words);
    refused(on(read.name, what), read.call(bytes_of(text), bytes, state, read.words, fresh()), wanted, at);
    left(on(read.name, what));
}

/* A plan that is accepted leaves what is wanted, whatever was there. */
static void plan_accepted(reader read, const char *what, const char *text, size_t bytes)
{
    fill_words(state);
    gives_nothing(on(read.name, what), read.call(bytes_of(text), bytes, state, read.words, fresh()));
    left(on(read.name, what));
}

/* So many words are no state or rehearsal: that is refused before the text is looked at, and they stay. */
static void words_refused(reader read, const char *what, uint64_t *words, size_t number_of_words)
{
    fill_words(state);
    fill_words(want);
    refused(on(read.name, what), read.call(bytes_of("x"), 1, words, number_of_words, fresh()), JIDROFEX_REFUSED_UNFIT, 0);
    left(on(read.name, what));
}

static void plans(reader read)
{
    char text[WHOLE];
    size_t k;
    for (k = 0; k < sizeof no_plans / sizeof no_plans[0]; k++)
        plan_refused(read, no_plans[k].text, no_plans[k].text, strlen(no_plans[k].text), no_plans[k].number, no_plans[k].at);
    plan_refused(read, "no text", NULL, 0, JIDROFEX_REFUSED_ENDED, 1);
    words_refused(read, "a word too few", state, read.words - 1);
    words_refused(read, "a word too many", state, read.words + 1);
    words_refused(read, "no words", NULL, 0);

    want_example(read.words);
    plan_accepted(read, example, example, strlen(example));

    /* 'for 4 ports run 8 and -8 accepted, 9 and -9 refused' */
    want_zeros(read.words);
    want[JIDROFEX_STATE_PORTS] = 4;
    want[JIDROFEX_STATE_LEGS] = 1;
    want[JIDROFEX_STATE_STARTS] = 3;
    want[JIDROFEX_STATE_RUNS] = 8;
    want_panel("2341");
    plan_accepted(read, "run=8", "ports=4\nlegs=1\nstart=3\nrun=8\n", 29);
    want[JIDROFEX_STATE_RUNS] = minus(8);
    plan_accepted(read, "run=-8", "ports=4\nlegs=1\nstart=3\nrun=-8\n", 30);

    /* the longest plan, and a byte more: 2 lines and 16 times 2 come before it */
    want_longest(read.words);
    same("the longest plan", strlen(longest_plan()), JIDROFEX_PLAN_BYTES);
    plan_accepted(read, "the longest plan", longest_plan(), JIDROFEX_PLAN_BYTES);
    strcpy(text, longest_plan());
    strcat(text, "\n");
    plan_refused(read, "the longest plan and a byte", text, JIDROFEX_PLAN_BYTES + 1, JIDROFEX_REFUSED_ENDED, 35);
    sprintf(text, "ports=4\nlegs=%d\n", JIDROFEX_MOST_LEGS + 1);
    plan_refused(read, text, text, strlen(text), JIDROFEX_REFUSED_LEGS, 2);
    sprintf(text, "ports=%d\n", JIDROFEX_MOST_PORTS + 1);
    plan_refused(read, text, text, strlen(text), JIDROFEX_REFUSED_PORTS, 1);
}

/* ---- a campaign */

/* The status: the plan's marks, for each leg the magnitude of its run and one; the number and the rank of its mark; whether it stands and whether the end is shown.
 * All but the mark are in the words that are wanted. */
static void status_is(const char *what, uint64_t mark, uint64_t rank)
{
    uint64_t marks = 0, leg;
    for (leg = 0; leg < want[JIDROFEX_STATE_LEGS] && leg < JIDROFEX_MOST_LEGS; leg++) {
        uint64_t run = want[JIDROFEX_STATE_RUNS + leg];
        marks += (run >> 63 ? minus(run) : run) + 1;
    }
    gives(what, jidrofex_status(state, JIDROFEX_STATE_WORDS, fresh()), marks, mark, rank, want[JIDROFEX_STATE_STANDING], want[JIDROFEX_STATE_ENDED]);
    left(what);
}

/* The next order is this, in just the room that its text takes; with a byte less it is refused and nothing is done. */
static void order_is(uint64_t kind, uint64_t a, uint64_t b, uint64_t c, const char *text)
{
    size_t bytes = strlen(text);
    uint64_t after[WHOLE];
    memcpy(after, want, sizeof after);
    memcpy(want, state, sizeof want);
    refused(on("request in a byte less", text), jidrofex_request(state, JIDROFEX_STATE_WORDS, room(), bytes - 1, fresh()), JIDROFEX_REFUSED_ROOM, 0);
    written(on("request in a byte less", text), "");
    left(on("request in a byte less", text));
    memcpy(want, after, sizeof want);
    gives(on("request", text), jidrofex_request(state, JIDROFEX_STATE_WORDS, room(), bytes, fresh()), kind, a, b, c, bytes);
    written(on("request", text), text);
    left(on("request", text));
}

static void movement_is(uint64_t kind, uint64_t a, uint64_t b, uint64_t c, const char *text, const char *ports)
{
    want_panel(ports);
    order_is(kind, a, b, c, text);
}

/* A mark is handed out, and from then on stands: no request is taken, and no report of another mark. */
static void mark_is(uint64_t mark, uint64_t rank, const char *text)
{
    want[JIDROFEX_STATE_STANDING] = 1;
    order_is(JIDROFEX_MARK, mark, rank, 0, text);
    status_is(on("status", text), mark, rank);
    refused(on("request after", text), jidrofex_request(state, JIDROFEX_STATE_WORDS, room(), 0, fresh()), JIDROFEX_REFUSED_MARK_STANDS, 0);
    written(on("request after", text), "");
    refused(on("report_mark of the next", text), jidrofex_report_mark(state, JIDROFEX_STATE_WORDS, mark + 1, JIDROFEX_RAN, fresh()), JIDROFEX_REFUSED_NO_MARK, 0);
    refused(on("report_mark of the one before", text), jidrofex_report_mark(state, JIDROFEX_STATE_WORDS, mark - 1, JIDROFEX_RAN, fresh()), JIDROFEX_REFUSED_NO_MARK, 0);
    left(on("what is refused after", text));
}

/* No mark stands any more, and the next one has this leg and step. */
static void want_next(uint64_t leg, uint64_t step)
{
    want[JIDROFEX_STATE_STANDING] = 0;
    want[JIDROFEX_STATE_LEG] = leg;
    want[JIDROFEX_STATE_STEP] = step;
}

/* An error more is counted: the mark stands no more, and jack 1 is the next to seat. */
static void want_error(void)
{
    want[JIDROFEX_STATE_ERRORS]++;
    want[JIDROFEX_STATE_STANDING] = 0;
    want[JIDROFEX_STATE_SEAT] = 1;
}

static void reported(const char *what, uint8_t kind)
{
    gives_nothing(what, jidrofex_report(state, JIDROFEX_STATE_WORDS, kind, fresh()));
    left(what);
}

static void reported_mark(const char *what, uint64_t mark, uint8_t kind)
{
    gives_nothing(what, jidrofex_report_mark(state, JIDROFEX_STATE_WORDS, mark, kind, fresh()));
    left(what);
}

/* The same report once more: it is refused and changes nothing. */
static void not_twice(uint64_t mark, uint8_t kind)
{
    refused("report_mark twice", jidrofex_report_mark(state, JIDROFEX_STATE_WORDS, mark, kind, fresh()), JIDROFEX_REFUSED_NO_MARK, 0);
    left("report_mark twice");
    refused("report with no mark standing", jidrofex_report(state, JIDROFEX_STATE_WORDS, kind, fresh()), JIDROFEX_REFUSED_NO_MARK, 0);
    left("report with no mark standing");
}

/* After an error each jack is seated, one for each request, before the same mark, which is that of the status, comes again; the panel stays. No report is taken until
 * then: a kind above the last is refused first. */
static void seats_are(uint64_t ports, uint64_t mark, uint64_t rank)
{
    uint64_t jack;
    for (jack = 1; jack <= ports; jack++) {
        char text[WHOLE];
        sprintf(text, "seat=%lu\n", (unsigned long)jack);
        same(on("the next jack to seat before", text), state[JIDROFEX_STATE_SEAT], jack);
        want[JIDROFEX_STATE_SEAT] = jack < ports ? jack + 1 : 0;
        order_is(JIDROFEX_SEAT, jack, 0, 0, text);
        status_is(on("status after", text), mark, rank);
        not_twice(mark, JIDROFEX_ERROR);
        not_twice(mark, JIDROFEX_RAN);
        refused(on("a kind above the last after", text), jidrofex_report(state, JIDROFEX_STATE_WORDS, JIDROFEX_GAVE_UP + 1, fresh()), JIDROFEX_REFUSED_KIND, 0);
        refused(on("a kind above the last, by its mark, after", text), jidrofex_report_mark(state, JIDROFEX_STATE_WORDS, mark, JIDROFEX_GAVE_UP + 1, fresh()),
                JIDROFEX_REFUSED_KIND, 0);
        left(on("what is refused after", text));
    }
}

/* The paper's plan, order by order as the paper has them, with an error, a mark given up and the others run. */
static void example_campaign(void)
{
    want_example(JIDROFEX_STATE_WORDS);
    gives_nothing("begin", jidrofex_begin(bytes_of(example), strlen(example), state, JIDROFEX_STATE_WORDS, fresh()));
    left("begin");
    status_is("status at the beginning", 0, 0);
    not_twice(0, JIDROFEX_RAN);

    mark_is(0, 0, "mark=0,0\n");
    want_error();
    reported("an error", JIDROFEX_ERROR);
    status_is("status after an error", 0, 0);
    not_twice(0, JIDROFEX_ERROR);
    seats_are(4, 0, 0);
    mark_is(0, 0, "mark=0,0\n");
    want_error();
    reported_mark("an error by its mark", 0, JIDROFEX_ERROR);
    seats_are(4, 0, 0);
    mark_is(0, 0, "mark=0,0\n");
    want[JIDROFEX_STATE_COVERED] = 1;
    want_next(0, 1);
    reported("a mark that ran", JIDROFEX_RAN);
    status_is("status after a mark that ran", 1, 1);
    not_twice(0, JIDROFEX_RAN);

    movement_is(JIDROFEX_TURN, 1, 2, 3, "turn=1,2,3\n", "3421");
    status_is("status after a movement", 1, 1);
    mark_is(1, 1, "mark=1,1\n");
    want[JIDROFEX_STATE_OPEN] = 1;
    want_next(0, 2);
    reported("a mark given up", JIDROFEX_GAVE_UP);
    status_is("status after a mark given up", 2, 2);

    movement_is(JIDROFEX_SWAP, 1, 2, 0, "swap=1,2\n", "4321");
    mark_is(2, 2, "mark=2,2\n");
    want[JIDROFEX_STATE_COVERED] = 2;
    want_next(1, 0);
    reported_mark("a mark that ran, by its number", 2, JIDROFEX_RAN);
    status_is("status before the second leg", 3, 8);
    not_twice(2, JIDROFEX_RAN);

    movement_is(JIDROFEX_SWAP, 1, 3, 0, "swap=1,3\n", "2341");
    movement_is(JIDROFEX_SWAP, 2, 4, 0, "swap=2,4\n", "2143");
    mark_is(3, 8, "mark=3,8\n");
    want[JIDROFEX_STATE_OPEN] = 2;
    want_next(1, 1);
    reported_mark("a mark given up, by its number", 3, JIDROFEX_GAVE_UP);

    movement_is(JIDROFEX_SWAP, 1, 3, 0, "swap=1,3\n", "4123");
    mark_is(4, 7, "mark=4,7\n");
    want[JIDROFEX_STATE_COVERED] = 3;
    want[JIDROFEX_STATE_ENDED] = 1;
    want_next(1, 1);
    reported("the last mark ran", JIDROFEX_RAN);
    status_is("status after the last mark", 4, 7);
    order_is(JIDROFEX_END, 5, 0, 0, "end=5\n");
    order_is(JIDROFEX_END, 5, 0, 0, "end=5\n");
    status_is("status after the end", 4, 7);
    not_twice(4, JIDROFEX_RAN);
}

/* Errors one after the other on 2 ports, and one on the example's 4, at the first mark of its second leg; a mark that was given up or that ran is followed by no seat. */
static void seats(void)
{
    static const char plan[] = "ports=2\nlegs=2\nstart=0\nrun=0\nstart=0\nrun=0\n";
    int times;
    want_zeros(JIDROFEX_STATE_WORDS);
    want[JIDROFEX_STATE_PORTS] = 2;
    want[JIDROFEX_STATE_LEGS] = 2;
    want_panel("21");
    gives_nothing("begin", jidrofex_begin(bytes_of(plan), strlen(plan), state, JIDROFEX_STATE_WORDS, fresh()));
    left("begin");
    mark_is(0, 0, "mark=0,0\n");
    want[JIDROFEX_STATE_OPEN] = 1;
    want_next(1, 0);
    reported("given up, and no seat", JIDROFEX_GAVE_UP);
    mark_is(1, 0, "mark=1,0\n");
    for (times = 1; times <= 2; times++) {
        want_error();
        reported_mark("an error on 2 ports", 1, JIDROFEX_ERROR);
        seats_are(2, 1, 0);
        mark_is(1, 0, "mark=1,0\n");
    }
    want[JIDROFEX_STATE_COVERED] = 1;
    want[JIDROFEX_STATE_ENDED] = 1;
    want_next(1, 0);
    reported("ran, and no seat", JIDROFEX_RAN);
    order_is(JIDROFEX_END, 2, 0, 0, "end=2\n");

    /* mark 3 of the example, of rank 8, 2143 */
    want_example(JIDROFEX_STATE_WORDS);
    want_panel("2143");
    want_next(1, 0);
    want[JIDROFEX_STATE_COVERED] = 3;
    want[JIDROFEX_STATE_STANDING] = 1;
    memcpy(state, want, sizeof state);
    want_error();
    reported_mark("an error at mark 3", 3, JIDROFEX_ERROR);
    seats_are(4, 3, 8);
    mark_is(3, 8, "mark=3,8\n");
}

/* Two swaps are two orders: from rank 2 of 4 to rank 3. Before the first mark the panel is carried from home to 4321: jack 1 gets port 4 from jack 3. */
static void two_swaps(void)
{
    static const char plan[] = "ports=4\nlegs=1\nstart=2\nrun=1\n";
    static const char *const texts[] = {"swap=1,3\n", "mark=0,2\n", "swap=1,2\n", "swap=3,4\n", "mark=1,3\n", "end=2\n"};
    size_t k;
    gives_nothing("begin", jidrofex_begin(bytes_of(plan), strlen(plan), state, JIDROFEX_STATE_WORDS, fresh()));
    for (k = 0; k < sizeof texts / sizeof texts[0]; k++) {
        same(on("request", texts[k]), jidrofex_request(state, JIDROFEX_STATE_WORDS, room(), JIDROFEX_LINE_BYTES, fresh()), JIDROFEX_ACCEPTED);
        written(on("request", texts[k]), texts[k]);
        if (answer[0] == JIDROFEX_MARK)
            gives_nothing(on("report", texts[k]), jidrofex_report(state, JIDROFEX_STATE_WORDS, JIDROFEX_RAN, fresh()));
    }
    same("all are covered", state[JIDROFEX_STATE_COVERED], 2);
}

/* The longest line: with a byte less than JIDROFEX_LINE_BYTES it is refused. */
static void longest_line(void)
{
    want_longest(JIDROFEX_STATE_WORDS);
    at_longest_line();
    want[JIDROFEX_STATE_COVERED] = number(BEFORE_LAST_LEG) - 1;
    want[JIDROFEX_STATE_OPEN] = 1;
    memcpy(state, want, sizeof state);
    gives("status before the longest line", jidrofex_status(state, JIDROFEX_STATE_WORDS, fresh()),
          number(MARKS_OF_LONGEST), number(BEFORE_LAST_LEG), number(LAST_RANK_OF_20), 0, 0);
    left("status before the longest line");
    refused("the longest line in a byte less", jidrofex_request(state, JIDROFEX_STATE_WORDS, room(), JIDROFEX_LINE_BYTES - 1, fresh()), JIDROFEX_REFUSED_ROOM, 0);
    written("the longest line in a byte less", "");
    left("the longest line in a byte less");
    want[JIDROFEX_STATE_STANDING] = 1;
    gives("the longest line", jidrofex_request(state, JIDROFEX_STATE_WORDS, room(), JIDROFEX_LINE_BYTES, fresh()),
          JIDROFEX_MARK, number(BEFORE_LAST_LEG), number(LAST_RANK_OF_20), 0, JIDROFEX_LINE_BYTES);
    written("the longest line", LONGEST_LINE);
    left("the longest line");
    want[JIDROFEX_STATE_COVERED] = number(BEFORE_LAST_LEG);
    want_next(JIDROFEX_MOST_LEGS - 1, 1);
    reported_mark("the mark of the longest line ran", number(BEFORE_LAST_LEG), JIDROFEX_RAN);
}

/* Errors stop at 65,535. */
static void errors(void)
{
    want_example(JIDROFEX_STATE_WORDS);
    want[JIDROFEX_STATE_ERRORS] = 65534;
    want[JIDROFEX_STATE_STANDING] = 1;
    memcpy(state, want, sizeof state);
    want[JIDROFEX_STATE_ERRORS] = 65535;
    want[JIDROFEX_STATE_STANDING] = 0;
    want[JIDROFEX_STATE_SEAT] = 1;
    reported("the last error", JIDROFEX_ERROR);
    seats_are(4, 0, 0);
    mark_is(0, 0, "mark=0,0\n");
    refused("one error more", jidrofex_report(state, JIDROFEX_STATE_WORDS, JIDROFEX_ERROR, fresh()), JIDROFEX_REFUSED_ERRORS, 0);
    left("one error more");
    refused("one error more, by its mark", jidrofex_report_mark(state, JIDROFEX_STATE_WORDS, 0, JIDROFEX_ERROR, fresh()), JIDROFEX_REFUSED_ERRORS, 0);
    left("one error more, by its mark");
    want[JIDROFEX_STATE_OPEN] = 1;
    want_next(0, 1);
    reported_mark("given up after all errors", 0, JIDROFEX_GAVE_UP);
}

/* The panel as it was read back. */
static void resumes(const char *what, const char *ports)
{
    want_panel(ports);
    gives_nothing(on(what, ports), jidrofex_resume(state, JIDROFEX_STATE_WORDS, laid(ports), strlen(ports), fresh()));
    stands(on(what, ports), ports);
    left(on(what, ports));
}

static void does_not_resume(const char *what, const char *ports, fault wanted)
{
    faulted(on(what, ports), jidrofex_resume(state, JIDROFEX_STATE_WORDS, laid(ports), strlen(ports), fresh()), wanted);
    stands(on(what, ports), ports);
    left(on(what, ports));
}

/* The state is unfit with this panel. */
static void is_unfit_with(const char *what, const char *ports)
{
    const fault wanted = {JIDROFEX_REFUSED_UNFIT, 0, 0};
    does_not_resume(what, ports, wanted);
}

/* The panel of the state, without a call. */
static void lay_state(const char *ports)
{
    size_t j;
    for (j = 0; ports[j]; j++)
        state[JIDROFEX_STATE_PANEL + j] = port_of(ports[j]);
}

/* Words that are no state, and states that are unfit: each call on a state refuses them before all else, and leaves them. */
static void unfit(const char *what, size_t words)
{
    memcpy(want, state, sizeof want);
    refused(on("status", what), jidrofex_status(state, words, fresh()), JIDROFEX_REFUSED_UNFIT, 0);
    refused(on("request", what), jidrofex_request(state, words, room(), 0, fresh()), JIDROFEX_REFUSED_UNFIT, 0);
    written(on("request", what), "");
    refused(on("report", what), jidrofex_report(state, words, JIDROFEX_GAVE_UP + 1, fresh()), JIDROFEX_REFUSED_UNFIT, 0);
    refused(on("report_mark", what), jidrofex_report_mark(state, words, 9, JIDROFEX_GAVE_UP + 1, fresh()), JIDROFEX_REFUSED_UNFIT, 0);
    left(what);
}

/* The same of going on with them, where a panel that is none is refused first. */
static void unfit_with_any_panel(const char *what, size_t words)
{
    unfit(what, words);
    refused(on("resume", what), jidrofex_resume(state, words, laid("2341"), 4, fresh()), JIDROFEX_REFUSED_UNFIT, 0);
    refused_with(on("resume with no panel", what), jidrofex_resume(state, words, laid("2241"), 4, fresh()), JIDROFEX_REFUSED_REPEATED, 2, 1);
    refused_with(on("resume with no panel", what), jidrofex_resume(state, words, laid("2342"), 4, fresh()), JIDROFEX_REFUSED_REPEATED, 4, 1);
    left(what);
}

static void unfit_states(void)
{
    /* one word of the example's first state that is not so: a field at its place cannot hold it, or the rules do not allow it */
    static const struct {
        const char *what;
        size_t place;
        uint64_t word;
    } wrong[] = {
        {"one port", JIDROFEX_STATE_PORTS, 1},
        {"260 ports", JIDROFEX_STATE_PORTS, 260},
        {"no leg", JIDROFEX_STATE_LEGS, 0},
        {"a start that is the count", JIDROFEX_STATE_STARTS, 9},
        {"a start beyond the legs", JIDROFEX_STATE_STARTS + 15, 1},
        {"a run too long", JIDROFEX_STATE_RUNS, 9},
        {"a run beyond the legs", JIDROFEX_STATE_RUNS + 15, 1},
        {"a leg that is the legs", JIDROFEX_STATE_LEG, 2},
        {"a step above the run", JIDROFEX_STATE_STEP, 3},
        {"covered before the first mark", JIDROFEX_STATE_COVERED, 1},
        {"open before the first mark", JIDROFEX_STATE_OPEN, 1},
        {"errors above 65,535", JIDROFEX_STATE_ERRORS, 65536},
        {"standing that is neither", JIDROFEX_STATE_STANDING, 2},
        {"ended before the last mark", JIDROFEX_STATE_ENDED, 1},
        {"a jack to seat above the ports", JIDROFEX_STATE_SEAT, 5},
        {"jack 260 to seat", JIDROFEX_STATE_SEAT, 256 + 4}
    };
    size_t k;
    for (k = 0; k < sizeof wrong / sizeof wrong[0]; k++) {
        set_example(JIDROFEX_STATE_WORDS);
        state[wrong[k].place] = wrong[k].word;
        unfit_with_any_panel(wrong[k].what, JIDROFEX_STATE_WORDS);
    }
    set_example(JIDROFEX_STATE_WORDS);
    unfit_with_any_panel("a word too few", JIDROFEX_STATE_WORDS - 1);
    unfit_with_any_panel("a word too many", JIDROFEX_STATE_WORDS + 1);
    unfit_with_any_panel("61 words, a state that cannot seat", 61);
    set_example(JIDROFEX_REHEARSAL_WORDS);
    unfit_with_any_panel("a rehearsal", JIDROFEX_REHEARSAL_WORDS);
    refused("status of no words", jidrofex_status(NULL, 0, fresh()), JIDROFEX_REFUSED_UNFIT, 0);

    /* a jack to seat while a mark stands, and at the end; else it is no fault, also where no error is counted */
    set_example(JIDROFEX_STATE_WORDS);
    state[JIDROFEX_STATE_SEAT] = 3;
    want[JIDROFEX_STATE_SEAT] = 4;
    order_is(JIDROFEX_SEAT, 3, 0, 0, "seat=3\n");
    set_example(JIDROFEX_STATE_WORDS);
    state[JIDROFEX_STATE_STANDING] = 1;
    state[JIDROFEX_STATE_SEAT] = 1;
    unfit_with_any_panel("a jack to seat while a mark stands", JIDROFEX_STATE_WORDS);
    set_example(JIDROFEX_STATE_WORDS);
    state[JIDROFEX_STATE_LEG] = 1;
    state[JIDROFEX_STATE_STEP] = 1;
    state[JIDROFEX_STATE_COVERED] = 5;
    state[JIDROFEX_STATE_ENDED] = 1;
    state[JIDROFEX_STATE_SEAT] = 1;
    lay_state("4123");
    unfit_with_any_panel("a jack to seat at the end", JIDROFEX_STATE_WORDS);
    refused("resume at the end while seating", jidrofex_resume(state, JIDROFEX_STATE_WORDS, laid("4123"), 4, fresh()), JIDROFEX_REFUSED_UNFIT, 0);
    left("resume at the end while seating");

    /* a jack to seat with another panel than the mark's: before a leg's first mark too, where else any permutation is taken, and on the way inside a leg */
    set_example(JIDROFEX_STATE_WORDS);
    state[JIDROFEX_STATE_SEAT] = 4;
    lay_state("1234");
    unfit("a jack to seat on another panel", JIDROFEX_STATE_WORDS);
    is_unfit_with("resume while seating", "1234");
    want[JIDROFEX_STATE_SEAT] = 1;
    resumes("resume while seating", "2341");
    state[JIDROFEX_STATE_STEP] = 1;
    state[JIDROFEX_STATE_COVERED] = 1;
    lay_state("2341");
    unfit("a jack to seat on the panel of the mark before", JIDROFEX_STATE_WORDS);
    memcpy(want, state, sizeof want);
    is_unfit_with("resume while seating", "2341");

    /* a panel that is none, or goes on beyond the ports: it is put right by the one that is read back */
    set_example(JIDROFEX_STATE_WORDS);
    state[JIDROFEX_STATE_PANEL] = 1;
    unfit("a port twice", JIDROFEX_STATE_WORDS);
    state[JIDROFEX_STATE_PANEL + 19] = 5;
    unfit("a port beyond the ports", JIDROFEX_STATE_WORDS);
    want_example(JIDROFEX_STATE_WORDS);
    resumes("resume of a panel that was none", "2341");

    /* a kind above the last is refused before it is asked which mark stands */
    set_example(JIDROFEX_STATE_WORDS);
    refused("a kind above the last", jidrofex_report(state, JIDROFEX_STATE_WORDS, JIDROFEX_GAVE_UP + 1, fresh()), JIDROFEX_REFUSED_KIND, 0);
    refused("a kind above the last, by its mark", jidrofex_report_mark(state, JIDROFEX_STATE_WORDS, 9, JIDROFEX_GAVE_UP + 1, fresh()), JIDROFEX_REFUSED_KIND, 0);
    left("a kind above the last");
}

static void going_on(void)
{
    size_t k;
    /* before a leg's first mark any permutation, of the plan's ports */
    set_example(JIDROFEX_STATE_WORDS);
    resumes("resume before the first mark", "1234");
    for (k = 0; k < sizeof faults / sizeof faults[0]; k++)
        if (faults[k].as_panel.number != JIDROFEX_ACCEPTED)
            does_not_resume("resume before the first mark", faults[k].ports, faults[k].as_panel);
    is_unfit_with("resume on other ports", "21");
    resumes("resume before the first mark", "2341");

    /* while a mark stands, its pattern alone */
    mark_is(0, 0, "mark=0,0\n");
    is_unfit_with("resume at a mark", "3421");
    for (k = 0; k < sizeof faults / sizeof faults[0]; k++)
        if (faults[k].as_panel.number != JIDROFEX_ACCEPTED)
            does_not_resume("resume at a mark", faults[k].ports, faults[k].as_panel);
    resumes("resume at a mark", "2341");

    /* then the order was handed out: the robot obeyed or did not, and nothing else */
    want[JIDROFEX_STATE_COVERED] = 1;
    want_next(0, 1);
    reported("ran", JIDROFEX_RAN);
    movement_is(JIDROFEX_TURN, 1, 2, 3, "turn=1,2,3\n", "3421");
    is_unfit_with("resume after an order", "4321");
    resumes("resume after an order", "2341");
    movement_is(JIDROFEX_TURN, 1, 2, 3, "turn=1,2,3\n", "3421");
    resumes("resume after an order", "3421");
    mark_is(1, 1, "mark=1,1\n");

    /* while seating the mark's pattern alone, and the seats begin anew: after the error, after a seat, before the last; when the last is given there are none */
    want_error();
    reported("an error", JIDROFEX_ERROR);
    is_unfit_with("resume while seating", "2341");
    resumes("resume before the first seat", "3421");
    for (k = 1; k <= 3; k++) {
        size_t jack;
        for (jack = 1; jack <= k; jack++) {
            char text[WHOLE];
            sprintf(text, "seat=%lu\n", (unsigned long)jack);
            want[JIDROFEX_STATE_SEAT] = jack + 1;
            order_is(JIDROFEX_SEAT, jack, 0, 0, text);
        }
        is_unfit_with("resume after a seat", "2341");
        is_unfit_with("resume after a seat", "1234");
        want[JIDROFEX_STATE_SEAT] = 1;
        resumes("resume after a seat", "3421");
    }
    seats_are(4, 1, 1);
    resumes("resume after the last seat", "3421");
    resumes("resume on the panel of the mark before, when no jack is to be seated", "2341");
    movement_is(JIDROFEX_TURN, 1, 2, 3, "turn=1,2,3\n", "3421");
    mark_is(1, 1, "mark=1,1\n");
}

/* ---- a rehearsal */

/* These lines, in a buffer of so many bytes; `ends` if the end is among them. */
static void lines_are(size_t bytes, const char *text, uint64_t ends)
{
    gives(on("orders", text), jidrofex_orders(state, JIDROFEX_REHEARSAL_WORDS, room(), bytes, fresh()), strlen(text), ends, 0, 0, 0);
    written(on("orders", text), text);
    left(on("orders", text));
}

static void no_lines_in(const char *what, size_t words, size_t bytes, uint8_t wanted)
{
    memcpy(want, state, sizeof want);
    refused(on("orders", what), jidrofex_orders(state, words, room(), bytes, fresh()), wanted, 0);
    written(on("orders", what), "");
    left(on("orders", what));
}

static void rehearsals(void)
{
    /* the paper's output by whole lines: 38 bytes, since the next line would make 47 of them; 45; and the last 15 */
    want_example(JIDROFEX_REHEARSAL_WORDS);
    gives_nothing("rehearse", jidrofex_rehearse(bytes_of(example), strlen(example), state, JIDROFEX_REHEARSAL_WORDS, fresh()));
    left("rehearse");
    no_lines_in("a buffer for 8 bytes", JIDROFEX_REHEARSAL_WORDS, 8, JIDROFEX_REFUSED_ROOM);
    want[JIDROFEX_STATE_STEP] = 2;
    want_panel("4321");
    lines_are(45, "mark=0,0\nturn=1,2,3\nmark=1,1\nswap=1,2\n", 0);
    want[JIDROFEX_STATE_LEG] = 1;
    want[JIDROFEX_STATE_STEP] = 1;
    want_panel("4123");
    lines_are(45, "mark=2,2\nswap=1,3\nswap=2,4\nmark=3,8\nswap=1,3\n", 0);
    want[JIDROFEX_REHEARSAL_ENDED] = 1;
    lines_are(45, "mark=4,7\nend=5\n", 1);
    lines_are(45, "end=5\n", 1);

    /* in one buffer */
    gives_nothing("rehearse", jidrofex_rehearse(bytes_of(example), strlen(example), state, JIDROFEX_REHEARSAL_WORDS, fresh()));
    lines_are(WHOLE, "mark=0,0\nturn=1,2,3\nmark=1,1\nswap=1,2\nmark=2,2\nswap=1,3\nswap=2,4\nmark=3,8\nswap=1,3\nmark=4,7\nend=5\n", 1);

    /* what is no rehearsal: a word too few or too many, a state, a word that its field cannot hold, and one that the rules do not allow */
    set_example(JIDROFEX_REHEARSAL_WORDS);
    no_lines_in("a word too few", JIDROFEX_REHEARSAL_WORDS - 1, 0, JIDROFEX_REFUSED_UNFIT);
    no_lines_in("a word too many", JIDROFEX_REHEARSAL_WORDS + 1, 0, JIDROFEX_REFUSED_UNFIT);
    state[JIDROFEX_REHEARSAL_ENDED] = 2;
    no_lines_in("ended that is neither", JIDROFEX_REHEARSAL_WORDS, 0, JIDROFEX_REFUSED_UNFIT);
    state[JIDROFEX_REHEARSAL_ENDED] = 1;
    no_lines_in("ended before the last mark", JIDROFEX_REHEARSAL_WORDS, 0, JIDROFEX_REFUSED_UNFIT);
    set_example(JIDROFEX_STATE_WORDS);
    no_lines_in("a state", JIDROFEX_STATE_WORDS, 99, JIDROFEX_REFUSED_UNFIT);

    /* the longest line */
    want_longest(JIDROFEX_REHEARSAL_WORDS);
    at_longest_line();
    memcpy(state, want, sizeof state);
    no_lines_in("the longest line in a byte less", JIDROFEX_REHEARSAL_WORDS, JIDROFEX_LINE_BYTES - 1, JIDROFEX_REFUSED_ROOM);
    want[JIDROFEX_STATE_STEP] = 1;
    lines_are(JIDROFEX_LINE_BYTES, LONGEST_LINE, 0);
}
