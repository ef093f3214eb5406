/* What the program of include/jidrofex.h lends beside numbers and answers: texts and buffers, panels, states and rehearsals, compared whole. */

/* The name of a comparison: a call and what it is called on. */
static const char *on(const char *call, const char *input)
{
    static char name[2048];
    sprintf(name, "%s on '%s'", call, input);
    return name;
}

static const uint8_t *bytes_of(const char *text)
{
    return (const uint8_t *)text;
}

/* ---- buffers */

/* Two arrays of bytes that should be one. */
static void same_bytes(const char *what, const uint8_t *found, const uint8_t *wanted)
{
    char byte[2100];
    size_t k = 0;
    while (k < WHOLE - 1 && found[k] == wanted[k])
        k++;
    sprintf(byte, "%s: byte %lu", what, (unsigned long)k);
    same(byte, found[k], wanted[k]);
}

static uint8_t buffer[WHOLE];

static uint8_t *room(void)
{
    memset(buffer, FILL, WHOLE);
    return buffer;
}

/* The buffer has this text at its front, and is as it was after it. */
static void written(const char *what, const char *text)
{
    uint8_t bytes[WHOLE];
    memset(bytes, FILL, WHOLE);
    memcpy(bytes, text, strlen(text));
    same_bytes(what, buffer, bytes);
}

/* ---- patterns and panels, written as in the paper: a port for each jack, and a to l for the ports 10 to 21 */

static uint8_t panel[WHOLE];

static uint8_t port_of(char letter)
{
    return (uint8_t)(letter >= 'a' ? letter - 'a' + 10 : letter - '0');
}

static void lay_out(const char *ports, uint8_t *bytes)
{
    size_t j;
    memset(bytes, FILL, WHOLE);
    for (j = 0; ports[j]; j++)
        bytes[j] = port_of(ports[j]);
}

static uint8_t *laid(const char *ports)
{
    lay_out(ports, panel);
    return panel;
}

/* The panel is this, and as it was beyond it. */
static void stands(const char *what, const char *ports)
{
    uint8_t bytes[WHOLE];
    lay_out(ports, bytes);
    same_bytes(what, panel, bytes);
}

#define HOME_OF_20 "23456789abcdefghijk1"
/* The last block for 20 ports is that of i = 19, odd: it ends with the first of B(19), from the home of 18 ports, with 20 put in at jack 19 and 19 at jack 20. */
#define LAST_OF_20 "23456789abcdefghi1kj"
/* ---- states and rehearsals */

static uint64_t state[WHOLE], want[WHOLE];

/* The words that a call left are those that are wanted. */
static void left(const char *what)
{
    same_words(what, state, want);
}

static void want_panel(const char *ports)
{
    size_t j;
    for (j = 0; ports[j]; j++)
        want[JIDROFEX_STATE_PANEL + j] = port_of(ports[j]);
}

/* So many zeros are wanted, and beyond them what was there. */
static void want_zeros(size_t words)
{
    size_t k;
    fill_words(want);
    for (k = 0; k < words; k++)
        want[k] = 0;
}

/* The first state, or the first moment of a rehearsal, of the paper's plan. */
static void want_example(size_t words)
{
    want_zeros(words);
    want[JIDROFEX_STATE_PORTS] = 4;
    want[JIDROFEX_STATE_LEGS] = 2;
    want[JIDROFEX_STATE_STARTS + 1] = 8;
    want[JIDROFEX_STATE_RUNS] = 2;
    want[JIDROFEX_STATE_RUNS + 1] = minus(1);
    want_panel("2341");
}

/* The same, without a call. */
static void set_example(size_t words)
{
    want_example(words);
    memcpy(state, want, sizeof state);
}

static const char example[] = "ports=4\nlegs=2\nstart=0\nrun=2\nstart=8\nrun=-1\n";

/* The longest plan. Each leg has the longest numbers that 20 ports allow, 18 digits for the start and 18 and a sign for the run, in 25 and 24 bytes; 16 legs are
 * 784 bytes, the two lines before them 9 and 8: 801 in all. */
static const char *longest_plan(void)
{
    static char text[WHOLE];
    int leg;
    sprintf(text, "ports=%d\nlegs=%d\n", JIDROFEX_MOST_PORTS, JIDROFEX_MOST_LEGS);
    for (leg = 0; leg < JIDROFEX_MOST_LEGS; leg++)
        strcat(text, "start=" LAST_RANK_OF_20 "\nrun=-" LAST_RANK_OF_20 "\n");
    return text;
}

static void want_longest(size_t words)
{
    size_t leg;
    want_zeros(words);
    want[JIDROFEX_STATE_PORTS] = JIDROFEX_MOST_PORTS;
    want[JIDROFEX_STATE_LEGS] = JIDROFEX_MOST_LEGS;
    for (leg = 0; leg < JIDROFEX_MOST_LEGS; leg++) {
        want[JIDROFEX_STATE_STARTS + leg] = number(LAST_RANK_OF_20);
        want[JIDROFEX_STATE_RUNS + leg] = minus(number(LAST_RANK_OF_20));
    }
    want_panel(HOME_OF_20);
}

/* 16 legs of the count's 895014631192902121 marks each: the paper's most marks. Before the last leg there are 15 times as many. */
#define MARKS_OF_LONGEST "14320234099086433936"
#define BEFORE_LAST_LEG "13425219467893531815"
#define LONGEST_LINE "mark=" BEFORE_LAST_LEG "," LAST_RANK_OF_20 "\n"

/* The longest plan before the first mark of its last leg, whose pattern stands: the mark's line is the longest, with a number of 20 digits and a rank of 18. */
static void at_longest_line(void)
{
    want[JIDROFEX_STATE_LEG] = JIDROFEX_MOST_LEGS - 1;
    want_panel(LAST_OF_20);
}
