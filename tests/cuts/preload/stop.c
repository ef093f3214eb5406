/* Loaded into a program before the C library: it tells of the operations on files that the program writes and on folders,
 * and ends the program, or lets an operation fail, at a moment that is known, whatever the program is written in. An
 * operation is one of: create FILE, write FILE, sync FILE (or folder), rename FILE. By the environment:
 *
 *     STOP_LOG=FILE                 each operation is a line of FILE
 *     STOP_BEFORE=N                 the program is killed before its N-th operation
 *     STOP_BEFORE=N STOP_NAME=NAME  the same, where only files renamed to NAME count
 *     STOP_FAILS=N                  the N-th operation fails */
#define _DEFAULT_SOURCE
#include <errno.h>
#include <fcntl.h>
#include <signal.h>
#include <stdarg.h>
#include <stdio.h>
#include <stdlib.h>
#include <string.h>
#include <sys/syscall.h>
#include <unistd.h>

enum { FILES = 256, NAME_BYTES = 256 };

/* the names of the open files that are told of */
static char names[FILES][NAME_BYTES];

static int number(const char *name)
{
    const char *value = getenv(name);

    return value == NULL ? 0 : atoi(value);
}

/* Whether the operation is to fail. */
static int told(const char *what, const char *name)
{
    static int times;
    const char *log = getenv("STOP_LOG"), *only = getenv("STOP_NAME");

    if (only != NULL && (strcmp(what, "rename") != 0 || strcmp(name, only) != 0))
        return 0;
    times++;
    if (log != NULL) {
        FILE *file = fopen(log, "a");
        if (file == NULL || fprintf(file, "%s %s\n", what, name) < 0 || fclose(file) != 0)
            abort();
    }
    if (times == number("STOP_BEFORE"))
        kill(getpid(), SIGKILL);
    errno = EIO;
    return times == number("STOP_FAILS");
}

static int opens(const char *path, int flags, int mode)
{
    int file;

    if ((flags & O_CREAT) && told("create", path))
        return -1;
    file = openat(AT_FDCWD, path, flags, mode);
    if (file >= 0 && file < FILES)
        snprintf(names[file], NAME_BYTES, "%s", (flags & O_CREAT) || strcmp(path, ".") == 0 ? path : "");
    return file;
}

int open(const char *path, int flags, ...)
{
    va_list more;
    int mode;

    va_start(more, flags);
    mode = flags & O_CREAT ? va_arg(more, int) : 0;
    va_end(more);
    return opens(path, flags, mode);
}

int open64(const char *path, int flags, ...);
int open64(const char *path, int flags, ...)
{
    va_list more;
    int mode;

    va_start(more, flags);
    mode = flags & O_CREAT ? va_arg(more, int) : 0;
    va_end(more);
    return opens(path, flags, mode);
}

static int is_told(int file)
{
    return file >= 0 && file < FILES && names[file][0] != '\0';
}

ssize_t write(int file, const void *from, size_t bytes)
{
    if (is_told(file) && told("write", names[file]))
        return -1;
    return syscall(SYS_write, file, from, bytes);
}

int fsync(int file)
{
    if (is_told(file) && told("sync", names[file]))
        return -1;
    return (int)syscall(SYS_fsync, file);
}

int close(int file)
{
    if (is_told(file))
        names[file][0] = '\0';
    return (int)syscall(SYS_close, file);
}

int rename(const char *from, const char *to)
{
    if (told("rename", to))
        return -1;
    return renameat(AT_FDCWD, from, AT_FDCWD, to);
}
