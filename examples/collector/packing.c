/* Packs a folder. */
#define _POSIX_C_SOURCE 200809L
#include "pack.h"

#include <dirent.h>
#include <errno.h>
#include <fcntl.h>
#include <stdlib.h>
#include <sys/stat.h>
#include <unistd.h>

/* so many of the files that are left out are named */
#define MOST_NAMED 20

/* The folder, the names in it, and the members so far: names that are not left out. */
struct input {
    const char *path;
    int folder;
    struct dirent **names;
    size_t names_count, left_out;
    struct member *members;
    uint32_t count;
};

static int no_dots(const struct dirent *entry)
{
    return strcmp(entry->d_name, ".") != 0 && strcmp(entry->d_name, "..") != 0;
}

static int by_bytes(const struct dirent **one, const struct dirent **other)
{
    return strcmp((*one)->d_name, (*other)->d_name);
}

static void find_names(struct input *input)
{
    int count = -1;
    input->folder = open(input->path, O_RDONLY | O_DIRECTORY | O_CLOEXEC);
    if (input->folder >= 0)
        count = scandir(input->path, &input->names, no_dots, by_bytes);
    if (count < 0)
        cannot("read", input->path);
    input->names_count = (size_t)count;
    input->members = calloc(input->names_count + 1, sizeof *input->members);
    if (input->members == NULL)
        cannot("read", input->path);
}

/* What was copied of the file is written over. */
static void leave_out(struct input *input, const char *why)
{
    const struct member *const member = &input->members[input->count];
    if (++input->left_out <= MOST_NAMED)
        complain(member, "left out: %s", why);
    output_go(member->offset);
}

static int changed(const struct stat *before, const struct stat *after)
{
    return before->st_size != after->st_size || before->st_mtim.tv_sec != after->st_mtim.tv_sec ||
           before->st_mtim.tv_nsec != after->st_mtim.tv_nsec;
}

static void copy(struct input *input, int file, const struct stat *before)
{
    struct member *const member = &input->members[input->count];
    const uint64_t size = (uint64_t)before->st_size;
    uint8_t bytes[65536];
    struct stat after;
    ssize_t taken = 0;
    output_need(size);
    while (member->length <= size && (taken = read(file, bytes, sizeof bytes)) > 0) {
        output_put(bytes, (size_t)taken);
        member->length += (uint32_t)taken;
        member->checksum = checksum(member->checksum, bytes, (size_t)taken);
    }
    if (taken < 0 || fstat(file, &after) != 0)
        leave_out(input, strerror(errno));
    else if (member->length != size || changed(before, &after))
        leave_out(input, "it changed while it was read");
    else
        input->count++;
}

static void take(struct input *input, const char *name)
{
    const size_t length = strlen(name);
    const int file = openat(input->folder, name, O_RDONLY | O_NOFOLLOW | O_NONBLOCK | O_CLOEXEC);
    struct stat before;
    input->members[input->count] = (struct member){
        .name = name, .name_length = (uint32_t)length, .number = input->count + 1, .offset = output_offset()};
    /* a link answers ELOOP, and a socket ENXIO */
    if (file < 0 && errno != ELOOP && errno != ENXIO)
        leave_out(input, strerror(errno));
    else if (file >= 0 && fstat(file, &before) != 0)
        leave_out(input, strerror(errno));
    else if (file < 0 || !S_ISREG(before.st_mode))
        leave_out(input, "it is no regular file");
    else if (length > LONGEST_NAME)
        leave_out(input, "its name is too long");
    else
        copy(input, file, &before);
    if (file >= 0)
        close(file);
}

static void write_members(struct input *input)
{
    for (size_t i = 0; i < input->names_count; i++) {
        progress(i, input->names_count);
        take(input, input->names[i]->d_name);
    }
    progress(0, 0);
    if (input->count == 0)
        stop(REFUSED, NULL, "%s has no file that can be packed", input->path);
}

static void write_lines(struct line *line, struct member *members, uint32_t count)
{
    const int pack = output_flush();
    for (uint32_t i = 0; i < count; i++) {
        line_make(line, &members[i], pack);
        members[i].line = output_offset();
        members[i].line_length = (uint32_t)line->length;
        output_put(line->bytes, line->length);
    }
}

static void write_index(const struct member *members, uint32_t count)
{
    for (uint32_t i = 0; i < count; i++) {
        uint8_t entry[PACK_ENTRY_BYTES];
        put_number(entry, members[i].line);
        put_number(entry + 4, members[i].line_length);
        put_number(entry + 8, members[i].offset);
        put_number(entry + 12, members[i].length);
        put_number(entry + 16, members[i].checksum);
        put_number(entry + 20, members[i].name_length);
        output_put(entry, sizeof entry);
        output_put(members[i].name, members[i].name_length);
    }
}

/* The header comes last, so that what a killed run leaves is no pack. The answer is the length of the pack. */
static uint32_t write_pack(struct input *input, struct line *line)
{
    uint8_t header[PACK_HEADER_BYTES] = {0};
    uint32_t end;
    output_put(header, sizeof header);
    write_members(input);
    memcpy(header, PACK_MAGIC, PACK_MAGIC_BYTES);
    put_number(header + 8, input->count);
    put_number(header + 12, output_offset());
    output_put(line->format, line->format_length);
    put_number(header + 16, output_offset());
    write_lines(line, input->members, input->count);
    put_number(header + 20, output_offset());
    write_index(input->members, input->count);
    end = output_offset();
    output_go(0);
    output_put(header, sizeof header);
    return end;
}

enum status pack_folder(const char *format, const char *folder, const char *path)
{
    struct input input = {.path = folder};
    struct line line;
    uint32_t length;
    line_begin(&line, "the format", format, strlen(format));
    find_names(&input);
    output_begin(path, input.folder);
    length = write_pack(&input, &line);
    output_end(length);
    show(stdout, path, strlen(path));
    printf(": %u member%s, %u bytes", (unsigned)input.count, input.count == 1 ? "" : "s", (unsigned)length);
    if (input.left_out > 0)
        printf(", %zu left out", input.left_out);
    puts(input.left_out > MOST_NAMED ? ", not all of them named" : "");
    for (size_t i = 0; i < input.names_count; i++)
        free(input.names[i]);
    free(input.names);
    free(input.members);
    free(line.bytes);
    close(input.folder);
    return input.left_out > 0 ? REFUSED : DONE;
}
