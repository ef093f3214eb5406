/* The cut test: what its parts share. The example's own objects, campaign.o and keep.o, are linked with a disk, a bench and
 * calls of the test (by the linker's --wrap), and each life of the example is a process of its own. The power may fail at
 * every point: the process is ended there, and the world below is what is left. */
#ifndef WORLD_H
#define WORLD_H

#include "jidrofex.h"

enum {
    MOST_MARKS = 16,
    FILE_BYTES = 256, /* more than a state of the test's plans takes */
    PIECES = 4,
    CUT = 77 /* the status of a process that was ended by a cut */
};

#define STATE_NAME "campaign.state"

/* How a campaign is run. The first and the third are the practice; in each of the others one thing is taken out of it. */
enum way {
    READ_BACK,       /* as the example is */
    NOT_READ_BACK,   /* jidrofex_resume leaves the state as it is, and answers 0 */
    TWICE_BY_NUMBER, /* each report that was taken is sent again, after every later request until it is taken once more */
    TWICE_PLAIN,     /* the same, and reports do not name their mark */
    NOT_SYNCED,      /* the state's file is renamed before its bytes are surely on the disk */
    SEAT_SAVED,      /* the state that a seat leaves is saved before the robot seats the jack */
    SEATS_SKIPPED,   /* no seat is obeyed */
    START_UNSEATED,  /* the seats that a start at a standing mark begins with are not obeyed */
    WAYS
};

/* A plan, with what the tester answers for each mark, time after time: 0 ran, 1 error, 2 gave up; the last answer stays.
 * A mark without answers always runs. */
struct plan {
    const char *name;
    unsigned ports, legs;
    unsigned start[JIDROFEX_MOST_LEGS];
    int run[JIDROFEX_MOST_LEGS];
    const char *answers[MOST_MARKS];
};

/* The content of a file: as programs see it, and as the disk surely has it. */
struct piece {
    size_t bytes, kept_bytes;
    char text[FILE_BYTES], kept[FILE_BYTES];
};

/* The folder's names, each with its piece or -1: as programs see them, and as the disk surely has them. */
enum { STATE, BESIDE, NAMES };
struct disk {
    struct piece pieces[PIECES];
    int now[NAMES], kept[NAMES];
};

struct world {
    /* what outlives the process: the disk, the cords, and what truly happened on the bench */
    struct disk disk;
    uint8_t panel[JIDROFEX_MOST_PORTS];
    uint8_t ran[MOST_MARKS];      /* 1: its traffic ran to its end while its pattern stood on the panel, every jack seated */
    uint8_t unseated[JIDROFEX_MOST_PORTS]; /* 1: an error came, or a seat was cut into, and the jack was not seated since */
    uint8_t answered[MOST_MARKS]; /* how many of its answers the tester has given */
    uint8_t sent, sent_kind;      /* the channel that repeats: a report that is to be sent again */
    uint64_t sent_mark;
    uint64_t sure[JIDROFEX_STATE_WORDS]; /* the state that is surely saved, if any is */
    uint8_t has_sure;

    /* this life: zeros when it begins */
    unsigned long point;
    uint64_t now[JIDROFEX_STATE_WORDS]; /* the state that the last call left, if any did */
    uint8_t has_now;
    uint8_t resume_refused; /* the number */
    uint8_t asked;          /* 1: an order was handed out */
    unsigned false_covered; /* reports 'ran' that were taken for a mark whose traffic had not so run */
    unsigned on_unseated;   /* traffic that was run while a jack was not seated */
    unsigned early;         /* calls made or things done on the bench before the state was surely saved; seats after it was */
    unsigned sent_again, taken_again; /* reports that closed a mark: sent again, and taken again */
};

/* In memory that the processes share. */
extern struct world *world;
extern enum way way;
extern const struct plan *plan;
extern unsigned long cut_at;

/* The power may fail here. */
void point(void);

/* patterns.c: the list by the paper's rules; the plan's marks and their patterns */
void patterns_make(void);
unsigned plan_marks(void);
const uint8_t *mark_pattern(uint64_t mark);

/* disk.c */
int text_is_state(const char *text, size_t bytes, uint64_t *words);
void must_be_saved(const uint64_t *words);
int disk_outcome(struct disk *disk, unsigned k);

/* calls.c */
uint64_t standing_mark(const uint64_t *words);

#endif
