/* The state's file is text, lines that each end in a newline:
 *
 *     jidrofex state, version 2      what it is, with the version of the words of a state
 *     4                              the words of the state in turn, in decimal
 *     ..
 *     sum 0123456789abcdef           the 64-bit FNV-1a sum of all bytes before this line
 *
 * It is written beside the old one, synced to the disk, and renamed over it. */
#define _POSIX_C_SOURCE 200809L
#include "keep.h"
#include "jidrofex.h"

#include <errno.h>
#include <fcntl.h>
#include <inttypes.h>
#include <stdio.h>
#include <stdlib.h>
#include <string.h>
#include <unistd.h>

enum {
    FILE_BYTES = 2048, /* more than any state takes: 62 words of at most 20 digits, and two lines */
    NAME_BYTES = 4096
};

static const char first_line[] = "jidrofex state, version ";

static int said(const char *name)
{
    perror(name);
    return -1;
}

/* The whole text of a state; gives how many bytes it takes. */
static size_t text_of(const uint64_t *state, char *text)
{
    uint64_t sum = UINT64_C(14695981039346656037);
    int at = sprintf(text, "%s%d\n", first_line, JIDROFEX_STATE_VERSION);

    for (int k = 0; k < JIDROFEX_STATE_WORDS; k++)
        at += sprintf(text + at, "%" PRIu64 "\n", state[k]);
    for (int k = 0; k < at; k++)
        sum = (sum ^ (unsigned char)text[k]) * UINT64_C(1099511628211);
    return (size_t)(at + sprintf(text + at, "sum %016" PRIx64 "\n", sum));
}

/* What is wrong with the text of a state, or NULL, and then it is read. A zero byte stands after the text. */
static const char *wrong(const char *text, size_t bytes, uint64_t *state)
{
    size_t first = strlen(first_line), lines = 0;
    char whole[FILE_BYTES], *at;

    for (size_t k = 0; k < bytes; k++)
        lines += text[k] == '\n';
    if (memcmp(text, first_line, bytes < first ? bytes : first) != 0)
        return "is not the state of a campaign";
    if (lines == 0)
        return "is cut short";
    if (strtoull(text + first, &at, 10) != JIDROFEX_STATE_VERSION || *at != '\n')
        return "is a state of another version";
    if (lines < JIDROFEX_STATE_WORDS + 2)
        return "is cut short";
    if (lines > JIDROFEX_STATE_WORDS + 2 || text[bytes - 1] != '\n')
        return "goes on after its end";
    for (int k = 0; k < JIDROFEX_STATE_WORDS; k++)
        state[k] = strtoull(at, &at, 10);
    /* the words that were read make this very text, with its sum: so no byte is another */
    if (text_of(state, whole) != bytes || memcmp(text, whole, bytes) != 0)
        return "is torn: its sum does not hold";
    return NULL;
}

int keep_read(const char *name, uint64_t *state)
{
    char text[FILE_BYTES + 1];
    const char *why;
    size_t bytes = 0;
    ssize_t more;
    int file = open(name, O_RDONLY);

    if (file < 0 && errno == ENOENT)
        return KEEP_NONE;
    do {
        more = file < 0 ? -1 : read(file, text + bytes, FILE_BYTES - bytes);
        bytes += more < 0 ? 0 : (size_t)more;
    } while (more > 0);
    if (more < 0) {
        said(name);
        return KEEP_BAD;
    }
    close(file);
    text[bytes] = '\0';
    why = wrong(text, bytes, state);
    if (why == NULL)
        return KEEP_READ;
    fprintf(stderr, "%s %s\n", name, why);
    return KEEP_BAD;
}

/* Whether the file is on the disk as it is now; closes it. */
static int is_synced(int file, int good)
{
    good = good && fsync(file) == 0;
    return close(file) == 0 && good;
}

/* Whether all of the text is written; a call may take a part of it only. */
static int is_written(int file, const char *text, size_t bytes)
{
    while (bytes > 0) {
        ssize_t some = write(file, text, bytes);
        if (some < 0)
            return 0;
        text += some;
        bytes -= (size_t)some;
    }
    return 1;
}

int keep_text(const char *name, const char *text, size_t bytes)
{
    char beside[NAME_BYTES], folder[NAME_BYTES];
    const char *slash = strrchr(name, '/');
    int file;

    if (snprintf(beside, sizeof beside, "%s.new", name) >= NAME_BYTES) {
        errno = ENAMETOOLONG;
        return said(name);
    }
    /* the folder is the name up to its last slash, which stays: "/state" is in "/" */
    snprintf(folder, sizeof folder, "%.*s", slash == NULL ? 1 : (int)(slash - name) + 1, slash == NULL ? "." : name);

    file = open(beside, O_WRONLY | O_CREAT | O_TRUNC, 0666);
    if (file < 0 || !is_synced(file, is_written(file, text, bytes)))
        return said(beside);
    if (rename(beside, name) != 0)
        return said(name);
    file = open(folder, O_RDONLY);
    if (file < 0 || !is_synced(file, 1))
        return said(folder);
    return 0;
}

int keep_write(const char *name, const uint64_t *state)
{
    char text[FILE_BYTES];

    return keep_text(name, text, text_of(state, text));
}
