/* The disk of the cut test: the file operations that keep.c makes. What was not yet synced may, at a cut, be lost, half
 * there, there with zeros in place of its second half, or all there; and so a name that was made or moved may not be. */
#include "world.h"

#include <errno.h>
#include <fcntl.h>
#include <inttypes.h>
#include <stdarg.h>
#include <stdio.h>
#include <stdlib.h>
#include <string.h>
#include <unistd.h>

enum { FIRST_FILE = 1000, FILES = 64, FOLDER = -1 };

/* the files that this process has open: the piece, or the folder, and how far it was read */
static struct { int piece; size_t at; } opened[FILES];
static int files;

int __wrap_open(const char *path, int flags, ...);
ssize_t __wrap_read(int file, void *to, size_t bytes);
ssize_t __wrap_write(int file, const void *from, size_t bytes);
int __wrap_fsync(int file);
int __wrap_close(int file);
int __wrap_rename(const char *from, const char *to);

/* anything that the example does and this disk does not have would make the test say nothing */
static void unknown(const char *what)
{
    fprintf(stderr, "cuts: the disk of the test has no %s\n", what);
    abort();
}

static int name_of(const char *path)
{
    if (strcmp(path, STATE_NAME) == 0)
        return STATE;
    if (strcmp(path, STATE_NAME ".new") == 0)
        return BESIDE;
    return -1;
}

/* a piece that no name has, empty */
static int new_piece(struct disk *disk)
{
    for (int k = 0; k < PIECES; k++)
        if (disk->now[STATE] != k && disk->now[BESIDE] != k && disk->kept[STATE] != k && disk->kept[BESIDE] != k) {
            memset(&disk->pieces[k], 0, sizeof disk->pieces[k]);
            return k;
        }
    unknown("more pieces");
    return -1;
}

static struct piece *piece_of(int file)
{
    if (file < FIRST_FILE || file >= FIRST_FILE + files || opened[file - FIRST_FILE].piece == FOLDER)
        unknown("such file");
    return &world->disk.pieces[opened[file - FIRST_FILE].piece];
}

int __wrap_open(const char *path, int flags, ...)
{
    struct disk *disk = &world->disk;
    int name = name_of(path);

    point();
    if (files == FILES)
        files = 0; /* the example has one file open at a time */
    if (strcmp(path, ".") == 0 && flags == O_RDONLY) {
        opened[files].piece = FOLDER;
    } else if (name >= 0 && flags == O_RDONLY) {
        if (disk->now[name] < 0) {
            errno = ENOENT;
            return -1;
        }
        opened[files].piece = disk->now[name];
    } else if (name >= 0 && flags == (O_WRONLY | O_CREAT | O_TRUNC)) {
        if (disk->now[name] < 0)
            disk->now[name] = new_piece(disk);
        opened[files].piece = disk->now[name];
        disk->pieces[disk->now[name]].bytes = 0;
        memset(disk->pieces[disk->now[name]].text, 0, FILE_BYTES);
    } else {
        unknown(path);
    }
    opened[files].at = 0;
    point();
    return FIRST_FILE + files++;
}

ssize_t __wrap_read(int file, void *to, size_t bytes)
{
    struct piece *piece = piece_of(file);
    size_t *at = &opened[file - FIRST_FILE].at, more = piece->bytes - *at < bytes ? piece->bytes - *at : bytes;

    point();
    memcpy(to, piece->text + *at, more);
    *at += more;
    point();
    return (ssize_t)more;
}

/* the first write of a file takes half of the bytes, the next one the rest: the power may fail between */
ssize_t __wrap_write(int file, const void *from, size_t bytes)
{
    struct piece *piece = piece_of(file);
    size_t some = piece->bytes == 0 ? (bytes + 1) / 2 : bytes;

    point();
    if (some > FILE_BYTES - piece->bytes)
        unknown("room for so many bytes");
    memcpy(piece->text + piece->bytes, from, some);
    piece->bytes += some;
    point();
    return (ssize_t)some;
}

int __wrap_fsync(int file)
{
    struct disk *disk = &world->disk;

    point();
    if (opened[file - FIRST_FILE].piece == FOLDER) {
        memcpy(disk->kept, disk->now, sizeof disk->kept);
    } else if (way != NOT_SYNCED) {
        struct piece *piece = piece_of(file);
        piece->kept_bytes = piece->bytes;
        memcpy(piece->kept, piece->text, FILE_BYTES);
    }
    point();
    return 0;
}

int __wrap_close(int file)
{
    point();
    if (file < FIRST_FILE || file >= FIRST_FILE + files)
        unknown("such file");
    point();
    return 0;
}

int __wrap_rename(const char *from, const char *to)
{
    struct disk *disk = &world->disk;

    point();
    if (name_of(from) != BESIDE || name_of(to) != STATE || disk->now[BESIDE] < 0)
        unknown("such name");
    disk->now[STATE] = disk->now[BESIDE];
    disk->now[BESIDE] = -1;
    point();
    return 0;
}

/* ---- what a cut leaves */

static int is_synced(const struct piece *piece)
{
    return piece->bytes == piece->kept_bytes && memcmp(piece->text, piece->kept, FILE_BYTES) == 0;
}

/* The disk becomes the k-th of those that a cut may leave; 0 if there are not so many. There is a choice for the names, the
 * old or the new, and one for the bytes that were not synced. */
int disk_outcome(struct disk *disk, unsigned k)
{
    struct disk left;
    unsigned names_ways = memcmp(disk->kept, disk->now, sizeof disk->now) == 0 ? 1 : 2, bytes_ways = 1, lot;
    const int *names;

    for (int name = 0; name < NAMES; name++)
        for (int new = 0; new < 2; new++) {
            int piece = new ? disk->now[name] : disk->kept[name];
            if (piece >= 0 && !is_synced(&disk->pieces[piece]))
                bytes_ways = 4;
        }
    if (k >= names_ways * bytes_ways)
        return 0;
    names = k % names_ways == 0 ? disk->now : disk->kept;
    lot = k / names_ways;
    memset(&left, 0, sizeof left);
    for (int name = 0; name < NAMES; name++) {
        struct piece *to = &left.pieces[name];
        left.now[name] = left.kept[name] = names[name] < 0 ? -1 : name;
        if (names[name] < 0)
            continue;
        *to = disk->pieces[names[name]];
        if (!is_synced(to)) {
            if (lot == 0) { /* lost */
                to->bytes = to->kept_bytes;
                memcpy(to->text, to->kept, FILE_BYTES);
            } else if (lot == 1) { /* half there */
                to->bytes /= 2;
                memset(to->text + to->bytes, 0, FILE_BYTES - to->bytes);
            } else if (lot == 2) { /* zeros in place of the second half */
                memset(to->text + to->bytes / 2, 0, FILE_BYTES - to->bytes / 2);
            } /* all there */
        }
        to->kept_bytes = to->bytes;
        memcpy(to->kept, to->text, FILE_BYTES);
    }
    *disk = left;
    return 1;
}

/* Whether the text is one whole state, read here by the format's description in keep.c and not by its code. */
int text_is_state(const char *text, size_t bytes, uint64_t *words)
{
    static const char first[] = "jidrofex state, version 2\n";
    uint64_t sum = UINT64_C(0xcbf29ce484222325);
    char last[32];
    size_t at = sizeof first - 1;

    if (bytes < at || memcmp(text, first, at) != 0)
        return 0;
    for (int k = 0; k < JIDROFEX_STATE_WORDS; k++) {
        size_t digits = 0;
        for (words[k] = 0; at < bytes && text[at] >= '0' && text[at] <= '9'; at++, digits++)
            words[k] = words[k] * 10 + (uint64_t)(text[at] - '0');
        if (digits == 0 || at == bytes || text[at++] != '\n')
            return 0;
    }
    for (size_t k = 0; k < at; k++)
        sum = (sum ^ (uint8_t)text[k]) * UINT64_C(0x100000001b3);
    snprintf(last, sizeof last, "sum %016" PRIx64 "\n", sum);
    return bytes - at == strlen(last) && memcmp(text + at, last, bytes - at) == 0;
}

/* Before anything is done about an answer, and before the next call: whatever a cut may leave of the disk, the words are
 * there. */
void must_be_saved(const uint64_t *words)
{
    const struct disk *disk = &world->disk;
    const struct piece *piece = &disk->pieces[disk->now[STATE] < 0 ? 0 : disk->now[STATE]];
    uint64_t found[JIDROFEX_STATE_WORDS];

    if (disk->now[STATE] < 0 || disk->now[STATE] != disk->kept[STATE] || !is_synced(piece) ||
        !text_is_state(piece->text, piece->bytes, found) || memcmp(found, words, sizeof found) != 0) {
        world->early++;
        return;
    }
    memcpy(world->sure, found, sizeof found);
    world->has_sure = 1;
}
