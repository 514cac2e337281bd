#define _GNU_SOURCE
#include "calls.h"
#include <dirent.h>
#include <errno.h>
#include <fcntl.h>
#include <signal.h>
#include <stdarg.h>
#include <stdio.h>
#include <stdlib.h>
#include <string.h>
#include <sys/stat.h>
#include <unistd.h>

enum plan plan = PLAIN;
size_t planned;
struct calls *calls;

/* Counts a call, and does what is planned before it; whether it is to fail. */
static int due(void)
{
    static size_t made = 0;
    if (plan == PLAIN || made++ != planned || plan > FAILING)
        return 0;
    calls->came = 1;
    if (plan != FAILING)
        raise(plan == KILLED ? SIGKILL : SIGSTOP);
    errno = EIO;
    return plan == FAILING;
}

static void note(char letter)
{
    const size_t length = strlen(calls->order);
    if (plan != PLAIN && length < sizeof calls->order - 1 && (length == 0 || calls->order[length - 1] != letter))
        calls->order[length] = letter;
}

#define WRAP(type, name, parameters, arguments, failed) \
    type __real_##name parameters;                      \
    type __wrap_##name parameters;                      \
    type __wrap_##name parameters                       \
    {                                                   \
        return due() ? failed : __real_##name arguments; \
    }

typedef int (*chooses)(const struct dirent *);
typedef int (*orders)(const struct dirent **, const struct dirent **);

WRAP(void *, malloc, (size_t size), (size), NULL)
WRAP(void *, calloc, (size_t count, size_t size), (count, size), NULL)
WRAP(char *, strdup, (const char *text), (text), NULL)
WRAP(int, scandir, (const char *path, struct dirent ***names, chooses choose, orders order),
     (path, names, choose, order), -1)
WRAP(int, fstat, (int file, struct stat *about), (file, about), -1)
WRAP(int, lstat, (const char *path, struct stat *about), (path, about), -1)
WRAP(FILE *, fdopen, (int file, const char *how), (file, how), NULL)
WRAP(int, fseeko, (FILE *file, off_t offset, int from), (file, offset, from), -1)
WRAP(int, ftruncate, (int file, off_t length), (file, length), -1)
WRAP(int, fchmod, (int file, mode_t mode), (file, mode), -1)
WRAP(int, unlink, (const char *path), (path), -1)
WRAP(int, close, (int file), (file), -1)
WRAP(int, fflush, (FILE *file), (file), EOF)
WRAP(int, fclose, (FILE *file), (file), EOF)
WRAP(int, atexit, (void (*last)(void)), (last), -1)

void *__real_realloc(void *old, size_t size);
void *__wrap_realloc(void *old, size_t size);
void *__wrap_realloc(void *old, size_t size)
{
    note('m');
    return due() ? NULL : __real_realloc(old, size);
}

size_t __real_fwrite(const void *bytes, size_t size, size_t count, FILE *file);
size_t __wrap_fwrite(const void *bytes, size_t size, size_t count, FILE *file);
size_t __wrap_fwrite(const void *bytes, size_t size, size_t count, FILE *file)
{
    note('w');
    return due() ? 0 : __real_fwrite(bytes, size, count, file);
}

int __real_fsync(int file);
int __wrap_fsync(int file);
int __wrap_fsync(int file)
{
    struct stat about;
    note(__real_fstat(file, &about) == 0 && S_ISDIR(about.st_mode) ? 'f' : 's');
    return due() ? -1 : __real_fsync(file);
}

int __real_rename(const char *from, const char *to);
int __wrap_rename(const char *from, const char *to);
int __wrap_rename(const char *from, const char *to)
{
    note('r');
    return due() ? -1 : __real_rename(from, to);
}

static size_t shortened(size_t length)
{
    return plan == SHORT && length > 3 ? 3 : length;
}

ssize_t __real_pread(int file, void *into, size_t length, off_t offset);
ssize_t __wrap_pread(int file, void *into, size_t length, off_t offset);
ssize_t __wrap_pread(int file, void *into, size_t length, off_t offset)
{
    return due() ? -1 : __real_pread(file, into, shortened(length), offset);
}

int __real_open(const char *path, int flags, ...);
int __wrap_open(const char *path, int flags, ...);
int __wrap_open(const char *path, int flags, ...)
{
    va_list rest;
    unsigned mode = 0;
    va_start(rest, flags);
    if ((flags & O_CREAT) != 0)
        mode = va_arg(rest, unsigned);
    va_end(rest);
    return due() ? -1 : __real_open(path, flags, mode);
}

int __real_openat(int folder, const char *path, int flags, ...);
int __wrap_openat(int folder, const char *path, int flags, ...);

/* The folder and the descriptor of the file of the plan. */
static int its_folder = -1, its_number = -1;

static void put_in(int folder, const char *path, int flags, const char *text)
{
    const int file = __real_openat(folder, path, O_WRONLY | O_CREAT | flags, 0600);
    if (file < 0 || write(file, text, strlen(text)) != (ssize_t)strlen(text) || __real_close(file) != 0)
        abort();
}

int __wrap_openat(int folder, const char *path, int flags, ...)
{
    if (plan < GROWN || plan > UNREADABLE || strcmp(path, FILE_IN_PLAN) != 0)
        return due() ? -1 : __real_openat(folder, path, flags);
    if (plan == UNREADABLE) {
        errno = EACCES;
        return -1;
    }
    if (plan == GONE || plan == REPLACED)
        unlinkat(folder, path, 0);
    if (plan == REPLACED)
        put_in(folder, path, O_EXCL, "another file");
    its_folder = folder;
    its_number = __real_openat(folder, path, flags);
    return its_number;
}

ssize_t __real_read(int file, void *into, size_t length);
ssize_t __wrap_read(int file, void *into, size_t length);
ssize_t __wrap_read(int file, void *into, size_t length)
{
    const ssize_t taken = due() ? -1 : __real_read(file, into, shortened(length));
    if (file != its_number)
        return taken;
    its_number = -1;
    if (plan == GROWN)
        put_in(its_folder, FILE_IN_PLAN, O_APPEND, "more");
    if (plan == SHRUNK)
        put_in(its_folder, FILE_IN_PLAN, O_TRUNC, "less");
    if (plan == TOUCHED)
        put_in(its_folder, FILE_IN_PLAN, 0, "same");
    return plan == CUT ? 0 : taken;
}

int __real_fcntl(int file, int command, ...);
int __wrap_fcntl(int file, int command, ...);
int __wrap_fcntl(int file, int command, ...)
{
    va_list rest;
    va_start(rest, command);
    void *const lock = va_arg(rest, void *);
    va_end(rest);
    if (plan == RACED) {
        if (__real_rename("new.pack.new", "other.pack") != 0)
            abort();
        put_in(AT_FDCWD, "new.pack.new", O_EXCL, "");
    }
    return due() ? -1 : __real_fcntl(file, command, lock);
}

uid_t __real_geteuid(void);
uid_t __wrap_geteuid(void);
uid_t __wrap_geteuid(void)
{
    return __real_geteuid() + (plan == OTHERS);
}

int __real_isatty(int file);
int __wrap_isatty(int file);
int __wrap_isatty(int file)
{
    return plan == TERMINAL ? 1 : __real_isatty(file);
}
