/* The state of a campaign in a file. A cut at any moment leaves one whole state there: the old one or the new one. */
#ifndef KEEP_H
#define KEEP_H

#include <stddef.h>
#include <stdint.h>

enum {
    KEEP_READ, /* a whole state was read */
    KEEP_NONE, /* there is no such file */
    KEEP_BAD   /* the file is no whole state, or cannot be read: what is wrong was said on standard error */
};

/* Reads the state, JIDROFEX_STATE_WORDS words. */
int keep_read(const char *name, uint64_t *state);

/* Saves the state. 0: it is on the disk. Else what is wrong was said on standard error, and the file is a whole state,
 * the old one or the new one: go no further, start again. */
int keep_write(const char *name, const uint64_t *state);

/* Saves any text in the same way. */
int keep_text(const char *name, const char *text, size_t bytes);

#endif
