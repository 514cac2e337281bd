/* Packs a folder of small files into one, with a line for each that an operator's format makes. The line is made in
   collector/line.c, and collector/pack.h has the layout of a pack.

       cd collector && cc -std=c11 -O2 -o collector ../collector.c *.c $(pkg-config --cflags --libs tilde) */
#define _POSIX_C_SOURCE 200809L
#include "collector/pack.h"

#include <errno.h>
#include <fcntl.h>
#include <signal.h>
#include <stdlib.h>
#include <unistd.h>

static const char usage[] = "usage: collector pack FORMAT FOLDER PACK\n"
                            "       collector check PACK\n"
                            "       collector list PACK\n"
                            "       collector --help\n";
static const char help[] =
    "\n"
    "pack joins the files of FOLDER in the order of their names, with a line for each.\n"
    "check reads all of PACK back, and compares each line with its member; pack itself\n"
    "does not, so type it behind pack where that matters more than the time.\n"
    "list prints the lines, each in a row, with controls and what is no UTF-8 as \\n\n"
    "or \\xHH.\n"
    "\n"
    "FORMAT makes a line out of these values, in this order:\n"
    "  name       string    of the file, at most 200 bytes\n"
    "  length     integer   in bytes\n"
    "  number     integer   1 for the first member\n"
    "  offset     integer   of its first byte in the pack\n"
    "  checksum   integer   CRC-32\n"
    "  empty      boolean   whether it has no bytes\n"
    "  words      list      of its first line, as strings, in its first 256 bytes\n"
    "so that a pack can be made by\n"
    "  collector pack \"~20a ~5d ~5,'0d ~10:d ~8,'0x~:[~; empty~]~%\" stations day.pack\n"
    "\n"
    "A file is left out if it cannot be read, is no regular file, changes while it is\n"
    "read, or has a longer name. Where no file is left, as in an empty folder, that is\n"
    "refused, and PACK stays as it was. It is replaced when the new one is whole and on\n"
    "the disk, and the new one has its mode; until then that is PACK.new, which its\n"
    "owner alone can read. A run that is killed leaves it, and the next one uses it\n"
    "again; so no PACK ends in .new, and any other file of that name is left alone.\n"
    "\n"
    "Status: 0 done; 1 refused, as a format or a damaged pack, or files were left out;\n"
    "2 wrong usage, or something cannot be read or written.\n";

static void check_bytes(const struct pack *pack)
{
    const struct member *const member = &pack->member;
    uint8_t bytes[65536];
    uint32_t sum = 0, part;
    for (uint32_t done = 0; done < member->length; done += part) {
        part = member->length - done < sizeof bytes ? member->length - done : sizeof bytes;
        read_at(pack->file, bytes, part, member->offset + done);
        sum = checksum(sum, bytes, part);
    }
    if (sum != member->checksum)
        pack_damaged(pack, "its bytes and its checksum differ");
}

/* A line that shows the values of another member is found here: it is not what the format makes of this one. */
static void check_line(const struct pack *pack, struct line *line)
{
    const struct member *const member = &pack->member;
    line_make(line, member, pack->file);
    if (line->length != member->line_length || memcmp(line->bytes, pack_at(pack, member->line), line->length) != 0)
        pack_damaged(pack, "its line is not what the format makes of it");
}

static void check(const char *path)
{
    struct pack pack;
    struct line line;
    pack_open(&pack, path);
    line_begin(&line, "the format of the pack", (const char *)pack.tail, pack.lines - pack.format);
    for (uint32_t i = 0; i < pack.count; i++) {
        progress(i, pack.count);
        pack_next(&pack);
        check_bytes(&pack);
        check_line(&pack, &line);
    }
    progress(0, 0);
    pack_end(&pack);
    show(stdout, path, strlen(path));
    printf(": %u member%s, each beside its own line\n", (unsigned)pack.count, pack.count == 1 ? "" : "s");
    free(line.bytes);
    pack_close(&pack);
}

/* A newline at the end of a line is that of its row. */
static void list(const char *path)
{
    struct pack pack;
    pack_open(&pack, path);
    for (uint32_t i = 0; i < pack.count && !ferror(stdout); i++) {
        pack_next(&pack);
        const char *const line = (const char *)pack_at(&pack, pack.member.line);
        const size_t length = pack.member.line_length;
        show(stdout, line, length > 0 && line[length - 1] == '\n' ? length - 1 : length);
        putchar('\n');
    }
    if (!ferror(stdout))
        pack_end(&pack);
    pack_close(&pack);
}

/* A standard stream that came closed gets a file that cannot be written to, so that no other file has its number. */
static void fill_streams(void)
{
    int file;
    do
        file = open("/dev/null", O_RDONLY);
    while (file >= 0 && file <= STDERR_FILENO);
    close(file);
}

int main(int argc, char **argv)
{
    enum status status = DONE;
    fill_streams();
    /* a reader that is gone and a limit of the file size are errors of a write, not signals */
    signal(SIGPIPE, SIG_IGN);
    signal(SIGXFSZ, SIG_IGN);
    if (argc > 1 && strcmp(argv[argc - 1], "--help") == 0) {
        printf("%s%s", usage, help);
    } else if (argc == 5 && strcmp(argv[1], "pack") == 0) {
        status = pack_folder(argv[2], argv[3], argv[4]);
    } else if (argc == 3 && strcmp(argv[1], "check") == 0) {
        check(argv[2]);
    } else if (argc == 3 && strcmp(argv[1], "list") == 0) {
        list(argv[2]);
    } else {
        complain(NULL, "this is no command; type one of these");
        fputs(usage, stderr);
        return FAILED;
    }
    if (fflush(stdout) != 0 || ferror(stdout))
        cannot("write", "to standard output");
    return (int)status;
}
