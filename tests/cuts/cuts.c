/* The cut test: the example's campaign is cut at every point of its life, and again at every point of each life that
 * follows, until no cut leaves anything that was not left before: so any number of cuts, anywhere.
 *
 * What a cut at a point leaves is the world at that point. So a life is run to its end once, and the world of each of its
 * points is kept: each is one in which the next life begins, as a new process. Of a plan's first life every cut is also
 * made: the process is ended there, and must leave the world that was kept.
 *
 *     cuts FOLDER      FOLDER is where the plans are written to
 *
 * For each way of running a campaign (world.h) it prints one line `way ..` with what it counted, and ends with 0 only if
 * the practice never lied and each of the others was found out. */
#define _DEFAULT_SOURCE
#include "world.h"

#include <fcntl.h>
#include <stdio.h>
#include <stdlib.h>
#include <string.h>
#include <sys/mman.h>
#include <sys/wait.h>
#include <unistd.h>

int __real_main(int argc, char **argv);
int __wrap_main(int argc, char **argv);
int __real_open(const char *path, int flags, ...);

struct world *world;
enum way way;
const struct plan *plan;
unsigned long cut_at;

/* The worlds at the points of a life, in memory that the processes share; where nothing changed from one point to the next
 * the world is kept once. */
enum { MOST_POINTS = 1024 };
static struct lived {
    size_t count;
    struct world at[MOST_POINTS];
} *lived;

static char plan_file[4096];
static int nowhere;

static const struct plan plans[] = {
    {"one pattern of 2 ports", 2, 1, {0}, {0}, {NULL}},
    {"the paper's example", 4, 2, {0, 8}, {2, -1}, {NULL}},
    {"the same pattern in two legs, then another", 4, 3, {0, 0, 5}, {0, 0, -1}, {NULL}},
    {"errors one after the other", 2, 1, {0}, {0}, {"110"}},
    {"errors, and a mark given up after one", 4, 2, {1, 7}, {1, 0}, {"10", "12", "0"}},
    {"6 ports, round the end of the list, carried to another leg", 6, 2, {264, 100}, {1, -1}, {NULL}},
    {"6 ports with an error, two swaps inside a leg, and a mark given up", 6, 2, {131, 4}, {-1, 1}, {"0", "10", "2", "0"}},
};
enum { PLANS = sizeof plans / sizeof *plans };

/* What was counted in one way. */
static struct figures {
    unsigned long moments; /* worlds, no two the same, that a cut or a technician's hand left, and the first one */
    unsigned long seating; /* of these, such in which jacks are not seated */
    unsigned long cuts;    /* points of their lives at which the power fails */
    unsigned long lives;   /* processes */
    unsigned long files;   /* disks that a cut may leave, of points between which something happened */
    unsigned long torn;    /* of these, such whose file was not one whole state, the old one or the new one */
    unsigned long taken;   /* torn files that the example did not refuse */
    unsigned long unlike;  /* processes ended at a point that left another world than was kept of it */
    unsigned long early, restored, ended, stuck, false_covered, on_unseated, sent_again, taken_again;
} figures;

/* ---- the worlds that were met */

enum { SLOTS = 1 << 16 };
static struct world *met[SLOTS];
static struct world **list;
static size_t listed, room;

static void forget(void)
{
    for (size_t k = 0; k < listed; k++)
        free(list[k]);
    listed = 0;
    memset(met, 0, sizeof met);
}

/* The world is one to begin a life in, unless it was met before. */
static void meet(const struct world *found)
{
    uint64_t sum = UINT64_C(0xcbf29ce484222325), word;
    size_t slot;

    for (size_t k = 0; k + sizeof word <= sizeof *found; k += sizeof word) {
        memcpy(&word, (const char *)found + k, sizeof word);
        sum = (sum ^ word) * UINT64_C(0x100000001b3);
        sum ^= sum >> 29;
    }
    for (slot = sum % SLOTS; met[slot] != NULL; slot = (slot + 1) % SLOTS)
        if (memcmp(met[slot], found, sizeof *found) == 0)
            return;
    if (listed == room)
        list = realloc(list, (room = 2 * room + 64) * sizeof *list);
    if (listed > SLOTS / 2 || list == NULL || (met[slot] = malloc(sizeof *found)) == NULL)
        abort();
    memcpy(met[slot], found, sizeof *found);
    list[listed++] = met[slot];
}

/* Whether this way is the practice. */
static int is_right(void)
{
    return way == READ_BACK || way == TWICE_BY_NUMBER;
}

/* The world as a new life finds it, its disk being as it is now. No life sees which jacks are seated, and what does not lie
 * with all of them unseated does not lie with some: of the practice, which must not lie, it is enough to try all. */
static void settle(struct world *left)
{
    const struct piece *piece = &left->disk.pieces[STATE];

    if (is_right() && memchr(left->unseated, 1, plan->ports) != NULL)
        memset(left->unseated, 1, plan->ports);
    left->has_sure = left->disk.now[STATE] == STATE && text_is_state(piece->text, piece->bytes, left->sure);
    if (!left->has_sure)
        memset(left->sure, 0, sizeof left->sure);
    memset(&left->point, 0, sizeof *left - offsetof(struct world, point));
}

/* Whether the file is one whole state: the one that was surely saved, or the one that the last call left. */
static int is_old_or_new(const struct world *left)
{
    const struct piece *piece = &left->disk.pieces[STATE];
    uint64_t words[JIDROFEX_STATE_WORDS];

    if (left->disk.now[STATE] < 0)
        return !left->has_sure;
    return text_is_state(piece->text, piece->bytes, words) &&
           ((left->has_sure && memcmp(words, left->sure, sizeof words) == 0) ||
            (left->has_now && memcmp(words, left->now, sizeof words) == 0));
}

/* ---- lives */

/* Whether nothing that a cut leaves has changed. */
static int is_same(const struct world *a, const struct world *b)
{
    return memcmp(a, b, offsetof(struct world, point)) == 0 && memcmp(a->now, b->now, sizeof a->now) == 0 &&
           a->has_now == b->has_now && a->false_covered == b->false_covered && a->on_unseated == b->on_unseated;
}

void point(void)
{
    world->point++;
    if (world->point == cut_at)
        _exit(CUT);
    if (cut_at == 0 && (lived->count == 0 || !is_same(world, &lived->at[lived->count - 1]))) {
        if (lived->count == MOST_POINTS)
            abort();
        lived->at[lived->count++] = *world;
    }
}

/* A life of the example in this world, cut at a point or, for 0, not at all; its status. */
static int life(const struct world *from, unsigned long at)
{
    char *words[] = {"campaign", plan_file, STATE_NAME, "panel", NULL};
    pid_t child;
    int status;

    *world = *from;
    cut_at = at;
    if (at == 0)
        lived->count = 0;
    figures.lives++;
    child = fork();
    if (child == 0) {
        dup2(nowhere, STDOUT_FILENO);
        if (way == NOT_SYNCED || memchr(world->panel, 0, plan->ports) != NULL)
            dup2(nowhere, STDERR_FILENO); /* it is going to say what it refuses */
        _exit(__real_main(4, words));
    }
    if (child < 0 || waitpid(child, &status, 0) != child)
        abort();
    return WIFEXITED(status) ? WEXITSTATUS(status) : 255;
}

/* The power failed in this world: each disk that may be left is looked at, and is one to begin the next life with. */
static void after_cut(const struct world *at)
{
    struct world left = *at;

    for (unsigned k = 0; disk_outcome(&left.disk, k); k++, left = *at) {
        figures.files++;
        figures.torn += !is_old_or_new(&left);
        if (left.false_covered == 0 && left.on_unseated == 0) { /* else it is counted where the life ends */
            settle(&left);
            meet(&left);
        }
    }
}

/* The life was not cut, and ended with this status in the world as it is now. */
static void after_end(const struct world *from, int status)
{
    struct world left = *world;
    const struct piece *piece = &left.disk.pieces[left.disk.now[STATE] < 0 ? 0 : left.disk.now[STATE]];
    uint64_t words[JIDROFEX_STATE_WORDS], ran = 0;

    figures.early += left.early;
    figures.false_covered += left.false_covered;
    figures.on_unseated += left.on_unseated;
    figures.sent_again += left.sent_again;
    figures.taken_again += left.taken_again;
    if (from->disk.now[STATE] >= 0 && !from->has_sure) { /* the file was torn: it is refused, and nothing is written */
        if (status != 1 || memcmp(&left.disk, &from->disk, sizeof left.disk) != 0)
            figures.taken++;
    } else if (status == 1 && left.resume_refused != 0) { /* a technician sets the cords to the pattern of the mark */
        memcpy(left.panel, mark_pattern(left.has_sure ? standing_mark(left.sure) : 0), plan->ports);
        figures.restored++;
        disk_outcome(&left.disk, 0);
        settle(&left);
        meet(&left);
    } else if (status != 0 || !text_is_state(piece->text, piece->bytes, words) || words[JIDROFEX_STATE_ENDED] != 1 ||
               words[JIDROFEX_STATE_COVERED] + words[JIDROFEX_STATE_OPEN] != plan_marks() ||
               (plan->answers[0] == NULL && words[JIDROFEX_STATE_OPEN] != 0)) {
        figures.stuck++;
    } else {
        figures.ended++;
        for (unsigned mark = 0; mark < plan_marks(); mark++)
            ran += left.ran[mark];
        if (left.false_covered == 0 && words[JIDROFEX_STATE_COVERED] > ran)
            figures.false_covered++;
    }
}

static void write_plan(void)
{
    FILE *file = fopen(plan_file, "w");

    if (file == NULL)
        abort();
    fprintf(file, "ports=%u\nlegs=%u\n", plan->ports, plan->legs);
    for (unsigned leg = 0; leg < plan->legs; leg++)
        fprintf(file, "start=%u\nrun=%d\n", plan->start[leg], plan->run[leg]);
    if (fclose(file) != 0)
        abort();
}

/* Each cut of this life is made: the process is ended at each of its points, and leaves the world that was kept. */
static void make_cuts(const struct world *from, unsigned long points)
{
    size_t at = 0;

    for (unsigned long cut = 1; cut <= points; cut++) {
        int status = life(from, cut);
        if (at + 1 < lived->count && lived->at[at + 1].point <= cut)
            at++;
        if (status != CUT || !is_same(world, &lived->at[at]))
            figures.unlike++;
    }
}

/* Whether nothing was as it must not be. */
static int is_sound(void)
{
    const struct figures *f = &figures;

    return f->false_covered == 0 && f->on_unseated == 0 && f->stuck == 0 && f->unlike == 0 && f->early == 0 &&
           f->torn == 0 && f->taken == 0 && f->taken_again == 0;
}

/* Every life of the plan in this way: from the world in which nothing has happened on. */
static void explore(void)
{
    struct world fresh;
    int status;

    memset(&fresh, 0, sizeof fresh);
    for (int name = 0; name < NAMES; name++)
        fresh.disk.now[name] = fresh.disk.kept[name] = -1;
    for (unsigned jack = 0; jack < plan->ports; jack++)
        fresh.panel[jack] = (uint8_t)((jack + 1) % plan->ports + 1);
    forget();
    meet(&fresh);
    for (size_t k = 0; k < listed && (is_sound() || !is_right()); k++) {
        status = life(list[k], 0);
        after_end(list[k], status);
        figures.seating += memchr(list[k]->unseated, 1, plan->ports) != NULL;
        if (k > 0 && !is_right()) /* a wrong way is found out by one cut; in a right one any number does no harm */
            continue;
        figures.cuts += world->point;
        for (size_t at = 0; at < lived->count; at++)
            after_cut(&lived->at[at]);
        if (k == 0 && way == READ_BACK)
            make_cuts(list[k], world->point);
    }
    figures.moments += listed;
}

/* ---- what must be so */

/* A way of seating that is wrong: it is found out by marks that were run while a jack was not seated, and covered. */
static int is_found_out(const char *wrong)
{
    const struct figures *f = &figures;

    printf("way with %s: %lu cut points, %lu lives: %lu run on a jack that was not seated, %lu false covered\n", wrong,
           f->cuts, f->lives, f->on_unseated, f->false_covered);
    return f->on_unseated > 0 && f->false_covered > 0;
}

static int judge(void)
{
    const struct figures *f = &figures;

    switch (way) {
    case READ_BACK:
        printf("way with the read-back: %d plans, %lu cut points, %lu lives: %lu false covered, %lu run on a jack that was not "
               "seated\n", PLANS, f->cuts, f->lives, f->false_covered, f->on_unseated);
        printf("way with the read-back: %lu moments in which a cut leaves the bench, no two the same, in %lu of them jacks not "
               "seated: runs from them that do not end with all marks closed: %lu; a technician sets the cords: %lu\n",
               f->moments, f->seating, f->stuck, f->restored);
        printf("way with the read-back: %lu files that a cut leaves, of these not one whole state, the old or the new: %lu; "
               "calls made or cords moved before the state was saved, and seats after it was: %lu\n", f->files, f->torn,
               f->early);
        return is_sound() && f->ended > 0 && f->seating > 0 && f->restored > 0 && f->ended + f->restored == f->moments;
    case NOT_READ_BACK:
        printf("way with the read-back taken out: %lu cut points, %lu lives: %lu false covered\n", f->cuts, f->lives,
               f->false_covered);
        return f->false_covered > 0;
    case TWICE_BY_NUMBER:
        printf("way with reports sent twice, by number: %lu cut points, %lu lives: %lu false covered, and of %lu reports of "
               "closed marks sent again %lu taken\n", f->cuts, f->lives, f->false_covered, f->sent_again, f->taken_again);
        return is_sound() && f->ended > 0 && f->sent_again > 0;
    case TWICE_PLAIN:
        printf("way with reports sent twice, without their number: %lu cut points, %lu lives: %lu false covered\n", f->cuts,
               f->lives, f->false_covered);
        return f->false_covered > 0;
    case NOT_SYNCED:
        printf("way with the file not synced: %lu files torn, of these taken for a state: %lu\n", f->torn, f->taken);
        return f->torn > 0 && f->taken == 0;
    case SEAT_SAVED:
        return is_found_out("a seat saved before the robot obeys");
    case SEATS_SKIPPED:
        return is_found_out("seats not obeyed");
    default:
        return is_found_out("no seats at a start where a mark stands");
    }
}

int __wrap_main(int argc, char **argv)
{
    int good = 1;

    if (argc != 2 || snprintf(plan_file, sizeof plan_file, "%s/plan", argv[1]) >= (int)sizeof plan_file)
        return 2;
    nowhere = __real_open("/dev/null", O_WRONLY);
    world = mmap(NULL, sizeof *world, PROT_READ | PROT_WRITE, MAP_SHARED | MAP_ANONYMOUS, -1, 0);
    lived = mmap(NULL, sizeof *lived, PROT_READ | PROT_WRITE, MAP_SHARED | MAP_ANONYMOUS, -1, 0);
    if (nowhere < 0 || world == MAP_FAILED || lived == MAP_FAILED)
        abort();
    setvbuf(stdout, NULL, _IONBF, 0);
    patterns_make();
    for (way = 0; way < WAYS; way++) {
        memset(&figures, 0, sizeof figures);
        for (plan = plans; plan < plans + PLANS; plan++) {
            write_plan();
            explore();
            if (is_right() && !is_sound())
                fprintf(stderr, "cuts: not as it must be: %s\n", plan->name);
        }
        good = judge() && good;
    }
    return good ? 0 : 1;
}
