/* Lines, on the panel and in text. */

/* ---- lines, for the panel and for text */

static uint64_t line[WHOLE];

static const uint64_t *line_of(uint64_t kind, uint64_t a, uint64_t b, uint64_t c)
{
    fill_words(line);
    line[0] = kind;
    line[1] = a;
    line[2] = b;
    line[3] = c;
    return line;
}

/* The line that was passed is as it was. */
static void line_stays(const char *what, uint64_t kind, uint64_t a, uint64_t b, uint64_t c)
{
    uint64_t words[WHOLE];
    fill_words(words);
    words[0] = kind;
    words[1] = a;
    words[2] = b;
    words[3] = c;
    same_words(what, line, words);
}

/* What each line is in text. */
static const struct {
    uint64_t kind;
    const char *a, *b, *c;
    const char *text;
} lines[] = {
    {JIDROFEX_SWAP, "1", "2", "0", "swap=1,2\n"},
    {JIDROFEX_SWAP, "19", "20", "0", "swap=19,20\n"},
    {JIDROFEX_TURN, "1", "2", "3", "turn=1,2,3\n"},
    {JIDROFEX_TURN, "18", "20", "19", "turn=18,20,19\n"},
    {JIDROFEX_MARK, "0", "0", "0", "mark=0,0\n"},
    {JIDROFEX_MARK, BEFORE_LAST_LEG, LAST_RANK_OF_20, "0", LONGEST_LINE},
    {JIDROFEX_MARK, "18446744073709551615", "18446744073709551615", "0", "mark=18446744073709551615,18446744073709551615\n"},
    {JIDROFEX_END, "5", "0", "0", "end=5\n"},
    {JIDROFEX_END, "18446744073709551615", "0", "0", "end=18446744073709551615\n"},
    {JIDROFEX_SEAT, "1", "0", "0", "seat=1\n"},
    {JIDROFEX_SEAT, "20", "0", "0", "seat=20\n"}
};

/* Lines that there are not: of no line's kind, or with jacks that no panel has, equal, or in another order. */
static const struct {
    uint64_t kind, a, b, c;
} out_of_shape[] = {
    {JIDROFEX_NOTHING, 1, 2, 0},
    {JIDROFEX_TWO_SWAPS, 1, 2, 3},
    {JIDROFEX_SEAT + 1, 1, 2, 3},
    {256 + JIDROFEX_SWAP, 1, 2, 0},
    {JIDROFEX_SWAP, 2, 1, 0},
    {JIDROFEX_SWAP, 2, 2, 0},
    {JIDROFEX_SWAP, 0, 1, 0},
    {JIDROFEX_SWAP, 1, JIDROFEX_MOST_PORTS + 1, 0},
    {JIDROFEX_SWAP, 1, 256 + 2, 0},
    {JIDROFEX_TURN, 2, 1, 3},
    {JIDROFEX_TURN, 1, 2, 2},
    {JIDROFEX_TURN, 1, 2, JIDROFEX_MOST_PORTS + 1},
    {JIDROFEX_SEAT, 0, 0, 0},
    {JIDROFEX_SEAT, JIDROFEX_MOST_PORTS + 1, 0, 0},
    {JIDROFEX_SEAT, 256 + 1, 0, 0}
};

/* ---- a panel */

static void look_ups(void)
{
    uint8_t j;
    for (j = 1; j <= 4; j++) {
        /* 3142 has port 3 at jack 1, port 1 at jack 2, port 4 at jack 3, port 2 at jack 4 */
        gives_one("port_at", jidrofex_port_at(laid("3142"), 4, j, fresh()), port_of("3142"[j - 1]));
        gives_one("jack_of", jidrofex_jack_of(laid("3142"), 4, port_of("3142"[j - 1]), fresh()), j);
        stands("jack_of", "3142");
    }
    gives_one("port_at, the last jack of 20", jidrofex_port_at(laid(HOME_OF_20), 20, 20, fresh()), 1);
    gives_one("jack_of, the last port of 20", jidrofex_jack_of(laid(HOME_OF_20), 20, 20, fresh()), 19);
    refused("port_at jack 0", jidrofex_port_at(laid("2341"), 4, 0, fresh()), JIDROFEX_REFUSED_SHAPE, 0);
    refused("port_at jack 5 of 4", jidrofex_port_at(laid("2341"), 4, 5, fresh()), JIDROFEX_REFUSED_SHAPE, 0);
    refused("jack_of port 0", jidrofex_jack_of(laid("2341"), 4, 0, fresh()), JIDROFEX_REFUSED_SHAPE, 0);
    refused("jack_of port 5 of 4", jidrofex_jack_of(laid("2341"), 4, 5, fresh()), JIDROFEX_REFUSED_SHAPE, 0);
}

/* A panel that is none is refused as such before the jack, the port or the line is looked at. */
static void panel_faults(void)
{
    size_t k;
    for (k = 0; k < sizeof faults / sizeof faults[0]; k++) {
        const char *ports = faults[k].ports;
        size_t n = strlen(ports);
        if (faults[k].as_panel.number != JIDROFEX_ACCEPTED) {
            faulted(on("port_at", ports), jidrofex_port_at(laid(ports), n, 0, fresh()), faults[k].as_panel);
            stands(on("port_at", ports), ports);
            faulted(on("jack_of", ports), jidrofex_jack_of(laid(ports), n, 0, fresh()), faults[k].as_panel);
            stands(on("jack_of", ports), ports);
            faulted(on("port_at jack 1", ports), jidrofex_port_at(laid(ports), n, 1, fresh()), faults[k].as_panel);
            faulted(on("jack_of port 1", ports), jidrofex_jack_of(laid(ports), n, 1, fresh()), faults[k].as_panel);
            faulted(on("carry", ports), jidrofex_carry(laid(ports), n, line_of(JIDROFEX_SWAP, 2, 1, 0), fresh()), faults[k].as_panel);
            stands(on("carry", ports), ports);
            faulted(on("carry a swap", ports), jidrofex_carry(laid(ports), n, line_of(JIDROFEX_SWAP, 1, 2, 0), fresh()), faults[k].as_panel);
            stands(on("carry a swap", ports), ports);
        }
    }
}

/* A swap; a turn, where jack a gets what b held, b what c held, c what a held; a mark, an end and a seat, which leave the panel. What a line's kind has no use for
 * is not looked at. */
static void carries(void)
{
    size_t k;
    gives_nothing("carry a swap", jidrofex_carry(laid("4321"), 4, line_of(JIDROFEX_SWAP, 1, 3, 999), fresh()));
    stands("carry a swap", "2341");
    line_stays("carry a swap", JIDROFEX_SWAP, 1, 3, 999);
    gives_nothing("carry a turn", jidrofex_carry(laid("2341"), 4, line_of(JIDROFEX_TURN, 1, 2, 3), fresh()));
    stands("carry a turn", "3421");
    gives_nothing("carry a turn the other way", jidrofex_carry(laid("3421"), 4, line_of(JIDROFEX_TURN, 1, 3, 2), fresh()));
    stands("carry a turn the other way", "2341");
    gives_nothing("carry a mark", jidrofex_carry(laid("1234"), 4, line_of(JIDROFEX_MARK, 7, 999, 999), fresh()));
    stands("carry a mark", "1234");
    gives_nothing("carry an end", jidrofex_carry(laid("1234"), 4, line_of(JIDROFEX_END, 5, 999, 999), fresh()));
    stands("carry an end", "1234");
    for (k = 1; k <= 4; k++) {
        gives_nothing("carry a seat", jidrofex_carry(laid("2143"), 4, line_of(JIDROFEX_SEAT, k, 999, 999), fresh()));
        stands("carry a seat", "2143");
        line_stays("carry a seat", JIDROFEX_SEAT, k, 999, 999);
    }
    gives_nothing("carry a seat, the last of 20", jidrofex_carry(laid(HOME_OF_20), 20, line_of(JIDROFEX_SEAT, 20, 0, 0), fresh()));
    stands("carry a seat, the last of 20", HOME_OF_20);
    refused("carry a seat above the panel's", jidrofex_carry(laid("2341"), 4, line_of(JIDROFEX_SEAT, 5, 0, 0), fresh()), JIDROFEX_REFUSED_SHAPE, 0);
    stands("carry a seat above the panel's", "2341");
    refused("carry a seat above the panel's, of 2", jidrofex_carry(laid("21"), 2, line_of(JIDROFEX_SEAT, 3, 0, 0), fresh()), JIDROFEX_REFUSED_SHAPE, 0);
    stands("carry a seat above the panel's, of 2", "21");
    refused("carry to a jack above the panel's", jidrofex_carry(laid("2341"), 4, line_of(JIDROFEX_SWAP, 1, 5, 0), fresh()), JIDROFEX_REFUSED_SHAPE, 0);
    stands("carry to a jack above the panel's", "2341");
    for (k = 0; k < sizeof out_of_shape / sizeof out_of_shape[0]; k++) {
        refused("carry out of shape",
                jidrofex_carry(laid(HOME_OF_20), 20, line_of(out_of_shape[k].kind, out_of_shape[k].a, out_of_shape[k].b, out_of_shape[k].c), fresh()),
                JIDROFEX_REFUSED_SHAPE, 0);
        stands("carry out of shape", HOME_OF_20);
    }
}

/* ---- order lines */

/* What text is no line: the newline, the key with its =, the form and count of its numbers, the jacks are tried in this order. */
static const struct {
    const char *text;
    uint8_t number;
} no_lines[] = {
    {"", JIDROFEX_REFUSED_ENDED},
    {"swap=1,2", JIDROFEX_REFUSED_ENDED},
    {"sway", JIDROFEX_REFUSED_ENDED},
    {"\n", JIDROFEX_REFUSED_KEY},
    {"sway=1,2\n", JIDROFEX_REFUSED_KEY},
    {"swap\n", JIDROFEX_REFUSED_KEY},
    {"sway=01,2\n", JIDROFEX_REFUSED_KEY},
    {"swap=\n", JIDROFEX_REFUSED_NUMBER},
    {"swap=2\n", JIDROFEX_REFUSED_NUMBER},
    {"swap=01,2\n", JIDROFEX_REFUSED_NUMBER},
    {"swap=1,2,3\n", JIDROFEX_REFUSED_NUMBER},
    {"swap=2,01\n", JIDROFEX_REFUSED_NUMBER},
    {"end=18446744073709551616\n", JIDROFEX_REFUSED_NUMBER},
    {"swap=2,1\n", JIDROFEX_REFUSED_SHAPE},
    {"swap=1,21\n", JIDROFEX_REFUSED_SHAPE},
    {"swap=1,258\n", JIDROFEX_REFUSED_SHAPE},
    {"turn=1,2,2\n", JIDROFEX_REFUSED_SHAPE},
    {"seat=1", JIDROFEX_REFUSED_ENDED},
    {"seat\n", JIDROFEX_REFUSED_KEY},
    {"seats=1\n", JIDROFEX_REFUSED_KEY},
    {"seat=\n", JIDROFEX_REFUSED_NUMBER},
    {"seat=01\n", JIDROFEX_REFUSED_NUMBER},
    {"seat=1,2\n", JIDROFEX_REFUSED_NUMBER},
    {"seat=18446744073709551616\n", JIDROFEX_REFUSED_NUMBER},
    {"seat=0\n", JIDROFEX_REFUSED_SHAPE},
    {"seat=21\n", JIDROFEX_REFUSED_SHAPE},
    {"seat=257\n", JIDROFEX_REFUSED_SHAPE}
};

static void lines_written(void)
{
    size_t k, longest = 0;
    for (k = 0; k < sizeof lines / sizeof lines[0]; k++) {
        uint64_t kind = lines[k].kind, a = number(lines[k].a), b = number(lines[k].b), c = number(lines[k].c);
        const char *text = lines[k].text;
        size_t bytes = strlen(text);
        if (longest < bytes)
            longest = bytes;
        gives_one(on("write_line", text), jidrofex_write_line(line_of(kind, a, b, c), room(), JIDROFEX_ANY_LINE_BYTES, fresh()), bytes);
        written(on("write_line", text), text);
        line_stays(on("write_line", text), kind, a, b, c);
        gives_one(on("write_line in just the room", text), jidrofex_write_line(line_of(kind, a, b, c), room(), bytes, fresh()), bytes);
        written(on("write_line in just the room", text), text);
        refused(on("write_line in a byte less", text), jidrofex_write_line(line_of(kind, a, b, c), room(), bytes - 1, fresh()), JIDROFEX_REFUSED_ROOM, 0);
        written(on("write_line in a byte less", text), "");
    }
    same("the longest line of any", longest, JIDROFEX_ANY_LINE_BYTES);
    same("the longest line of a campaign", strlen(LONGEST_LINE), JIDROFEX_LINE_BYTES);
    gives_one("write_line, a word that no end has", jidrofex_write_line(line_of(JIDROFEX_END, 5, 999, 999), room(), 6, fresh()), 6);
    written("write_line, a word that no end has", "end=5\n");
    gives_one("write_line, a word that no seat has", jidrofex_write_line(line_of(JIDROFEX_SEAT, 7, 999, 999), room(), 7, fresh()), 7);
    written("write_line, a word that no seat has", "seat=7\n");
    for (k = 0; k < sizeof out_of_shape / sizeof out_of_shape[0]; k++) {
        refused("write_line out of shape, in no room",
                jidrofex_write_line(line_of(out_of_shape[k].kind, out_of_shape[k].a, out_of_shape[k].b, out_of_shape[k].c), NULL, 0, fresh()),
                JIDROFEX_REFUSED_SHAPE, 0);
        refused("write_line out of shape",
                jidrofex_write_line(line_of(out_of_shape[k].kind, out_of_shape[k].a, out_of_shape[k].b, out_of_shape[k].c), room(), 99, fresh()),
                JIDROFEX_REFUSED_SHAPE, 0);
        written("write_line out of shape", "");
    }
}

/* All those lines as one text, read one after the other; what was read is a line to be written. */
static void lines_read(void)
{
    char all[WHOLE];
    size_t k, place = 0;
    all[0] = 0;
    for (k = 0; k < sizeof lines / sizeof lines[0]; k++)
        strcat(all, lines[k].text);
    for (k = 0; k < sizeof lines / sizeof lines[0]; k++) {
        uint64_t read[WHOLE];
        const char *text = lines[k].text;
        uint8_t number_of_read = jidrofex_read_line(bytes_of(all), strlen(all), place, fresh());
        place += strlen(text);
        gives(on("read_line", text), number_of_read, lines[k].kind, number(lines[k].a), number(lines[k].b), number(lines[k].c), place);
        same(on("read_line, the place after the line's words", text), answer[JIDROFEX_LINE_WORDS], place);
        memcpy(read, answer, sizeof read);
        gives_one(on("write_line of what was read", text), jidrofex_write_line(read, room(), JIDROFEX_ANY_LINE_BYTES, fresh()), strlen(text));
        written(on("write_line of what was read", text), text);
    }
    refused("read_line at the end", jidrofex_read_line(bytes_of(all), place, place, fresh()), JIDROFEX_REFUSED_ENDED, 0);
    refused("read_line past the end", jidrofex_read_line(bytes_of("end=5\n"), 6, 7, fresh()), JIDROFEX_REFUSED_ENDED, 0);
    refused("read_line of no text", jidrofex_read_line(NULL, 0, 0, fresh()), JIDROFEX_REFUSED_ENDED, 0);
    for (k = 0; k < sizeof no_lines / sizeof no_lines[0]; k++)
        refused(on("read_line", no_lines[k].text), jidrofex_read_line(bytes_of(no_lines[k].text), strlen(no_lines[k].text), 0, fresh()), no_lines[k].number, 0);
}
