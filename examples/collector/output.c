/* The pack that is written: a new file, which takes the place of the old one when it is whole. */
#define _POSIX_C_SOURCE 200809L
#include "pack.h"

#include <errno.h>
#include <fcntl.h>
#include <libgen.h>
#include <stdlib.h>
#include <sys/stat.h>
#include <unistd.h>

#define NEW ".new"

/* The path of the pack and its folder, whether a pack stands there, the mode of the new one, its file, and whether that
   has to be removed. */
static struct {
    const char *path;
    int folder;
    int replaces;
    mode_t mode;
    char *new_path;
    FILE *file;
    uint32_t offset;
    int unfinished;
} out;

static void remove_unfinished(void)
{
    if (!out.unfinished)
        return;
    if (unlink(out.new_path) != 0)
        complain(NULL, "cannot remove %s: %s", out.new_path, strerror(errno));
    if (out.replaces)
        complain(NULL, "%s is as it was", out.path);
    else
        complain(NULL, "no pack was written");
}

static void name_new(void)
{
    char *const copy = strdup(out.path);
    out.new_path = malloc(strlen(out.path) + sizeof NEW);
    if (copy == NULL || out.new_path == NULL)
        cannot("write", out.path);
    strcat(strcpy(out.new_path, out.path), NEW);
    out.folder = open(dirname(copy), O_RDONLY | O_DIRECTORY | O_CLOEXEC);
    if (out.folder < 0)
        cannot("write", out.path);
    free(copy);
}

/* A pack with the name of an unfinished one would be taken for what a killed run left. */
static void refuse_name(const char *path)
{
    const size_t length = strlen(path), ending = strlen(NEW);
    if (length == 0)
        stop(FAILED, NULL, "the pack has no name: type one");
    if (length >= ending && strcmp(path + length - ending, NEW) == 0)
        stop(FAILED, NULL, "%s has the name of a pack that is not whole yet: name one that does not end in " NEW, path);
}

static _Noreturn void in_the_way(void)
{
    stop(FAILED, NULL, "%s is no file that a run of yours left: move it away, or name another pack", out.new_path);
}

static int open_path(void)
{
    const int file = open(out.new_path, O_RDWR | O_CREAT | O_NOFOLLOW | O_NONBLOCK | O_CLOEXEC, 0600);
    /* a link, a socket or a folder */
    if (file < 0 && (errno == ELOOP || errno == ENXIO || errno == EISDIR))
        in_the_way();
    if (file < 0)
        cannot("write", out.new_path);
    return file;
}

/* Whether the lock is had, and the file then still has its name: another run may have put it in place before. */
static int lock(int file, struct stat *opened)
{
    struct flock all = {.l_type = F_WRLCK, .l_whence = SEEK_SET};
    struct stat named;
    if (fcntl(file, F_SETLK, &all) != 0) {
        if (errno != EACCES && errno != EAGAIN)
            cannot("lock", out.new_path);
        return 0;
    }
    const int there = fstat(file, opened) == 0 && lstat(out.new_path, &named) == 0;
    if (!there && errno != ENOENT)
        cannot("lock", out.new_path);
    return there && opened->st_dev == named.st_dev && opened->st_ino == named.st_ino;
}

/* Whether a file begins as a run that was killed leaves it: with zeros for the header, which comes last, or with the
   header, right before it gets its name. */
static int is_left(int file)
{
    static const uint8_t zeros[PACK_MAGIC_BYTES] = {0};
    uint8_t bytes[PACK_MAGIC_BYTES];
    const ssize_t taken = pread(file, bytes, sizeof bytes, 0);
    if (taken < 0)
        cannot("read", out.new_path);
    return memcmp(bytes, zeros, (size_t)taken) == 0 || memcmp(bytes, PACK_MAGIC, (size_t)taken) == 0;
}

/* All runs use one name for the new file, so that what a killed one left is written over and nothing piles up. A lock,
   which goes when its process does, keeps two runs from writing there at a time. What another user put there, or what
   does not begin as a run leaves it, is neither written on nor removed. A second link would also take the lock away if
   it lies in the folder that is packed: that goes when any descriptor of the file is closed. Until the file is whole
   only its owner can read it, since its mode may be as narrow as that. */
static void open_new(void)
{
    struct stat opened;
    if (atexit(remove_unfinished) != 0)
        cannot("write", out.new_path);
    const int file = open_path();
    if (!lock(file, &opened))
        stop(FAILED, NULL, "cannot lock %s: try again when no other run writes it", out.new_path);
    if (!S_ISREG(opened.st_mode) || opened.st_nlink != 1 || opened.st_uid != geteuid())
        in_the_way();
    if (opened.st_size > 0 && !is_left(file))
        in_the_way();
    out.unfinished = 1;
    out.file = fdopen(file, "wb");
    if (out.file == NULL || fchmod(file, 0600) != 0 || ftruncate(file, 0) != 0)
        cannot("write", out.new_path);
}

/* The new pack has the mode of the old one or, where there is none, that of any new file. The old one may be another
   user's, so the bits that would run the new one as its owner are not taken over. */
static void find_old(void)
{
    struct stat old;
    out.replaces = lstat(out.path, &old) == 0;
    if (!out.replaces && errno != ENOENT)
        cannot("replace", out.path);
    if (out.replaces && !S_ISREG(old.st_mode))
        stop(FAILED, NULL, "%s is there and no regular file: name another pack", out.path);
    const mode_t mask = umask(0);
    umask(mask);
    out.mode = out.replaces ? old.st_mode & 0777 : 0666 & ~mask;
}

void output_begin(const char *path, int source)
{
    struct stat to, from;
    refuse_name(path);
    out.path = path;
    name_new();
    if (fstat(out.folder, &to) != 0 || fstat(source, &from) != 0)
        cannot("write", path);
    /* the pack would be a member of the next one */
    if (to.st_dev == from.st_dev && to.st_ino == from.st_ino)
        stop(FAILED, NULL, "%s would lie in the folder that is packed: name a pack in another", path);
    find_old();
    open_new();
}

uint32_t output_offset(void)
{
    return out.offset;
}

void output_need(uint64_t length)
{
    if (length > PACK_MOST - out.offset)
        stop(REFUSED, NULL, "the pack would have 4 GiB or more, which its offsets cannot say: pack fewer files");
}

void output_put(const void *bytes, size_t length)
{
    output_need(length);
    if (fwrite(bytes, 1, length, out.file) != length)
        cannot("write", out.new_path);
    out.offset += (uint32_t)length;
}

void output_go(uint32_t offset)
{
    if (fseeko(out.file, (off_t)offset, SEEK_SET) != 0)
        cannot("write", out.new_path);
    out.offset = offset;
}

int output_flush(void)
{
    if (fflush(out.file) != 0)
        cannot("write", out.new_path);
    return fileno(out.file);
}

/* The new pack takes the place of the old one when all its bytes are on the disk: whenever a run is killed or the
   machine stops, one of the two stands there, whole. */
void output_end(uint32_t end)
{
    const int file = output_flush();
    if (ftruncate(file, (off_t)end) != 0 || fchmod(file, out.mode) != 0 || fsync(file) != 0)
        cannot("write", out.new_path);
    if (rename(out.new_path, out.path) != 0)
        cannot("replace", out.path);
    out.unfinished = 0;
    if (fsync(out.folder) != 0 || fclose(out.file) != 0)
        stop(FAILED, NULL, "%s is new and whole, but may not be on the disk: %s", out.path, strerror(errno));
    close(out.folder);
    free(out.new_path);
}
