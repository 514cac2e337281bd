/* A pack read back. */
#define _POSIX_C_SOURCE 200809L
#include "pack.h"

#include <errno.h>
#include <fcntl.h>
#include <stdlib.h>
#include <sys/stat.h>
#include <unistd.h>

/* The parts are in order, and the format and the index no larger than they can be, before they are held in memory. */
static void check_parts(const struct pack *pack)
{
    if (pack->size > PACK_MOST || pack->size < pack->index || pack->index < pack->lines ||
        pack->lines < pack->format || pack->format < PACK_HEADER_BYTES)
        stop(REFUSED, NULL, "%s is damaged: its parts do not follow each other", pack->path);
    if (pack->lines - pack->format > TILDE_MOST_FORMAT)
        stop(REFUSED, NULL, "%s is damaged: its format has more than %d bytes", pack->path, TILDE_MOST_FORMAT);
    const uint64_t index = pack->size - pack->index, least = (uint64_t)pack->count * PACK_ENTRY_BYTES;
    if (index < least || index - least > (uint64_t)pack->count * LONGEST_NAME)
        stop(REFUSED, NULL, "%s is damaged: its index is not one of %u members", pack->path, (unsigned)pack->count);
}

void pack_open(struct pack *pack, const char *path)
{
    uint8_t header[PACK_HEADER_BYTES] = {0};
    struct stat file;
    *pack = (struct pack){.path = path, .file = open(path, O_RDONLY | O_NONBLOCK | O_CLOEXEC)};
    if (pack->file < 0 || fstat(pack->file, &file) != 0)
        cannot("read", path);
    if (!S_ISREG(file.st_mode))
        stop(FAILED, NULL, "%s is no regular file: name a pack", path);
    pack->size = (uint64_t)file.st_size;
    if (pack->size >= sizeof header)
        read_at(pack->file, header, sizeof header, 0);
    if (memcmp(header, PACK_MAGIC, PACK_MAGIC_BYTES) != 0)
        stop(REFUSED, NULL, "%s is no pack: it does not begin with %s", path, PACK_MAGIC);
    pack->count = get_number(header + 8);
    pack->format = get_number(header + 12);
    pack->lines = get_number(header + 16);
    pack->next_entry = pack->index = get_number(header + 20);
    check_parts(pack);
    pack->member = (struct member){.offset = PACK_HEADER_BYTES, .line = pack->lines};
    pack->tail = malloc(pack->size - pack->format + 1);
    if (pack->tail == NULL)
        stop(FAILED, NULL, "no memory for the lines and the index of %s", path);
    read_at(pack->file, pack->tail, pack->size - pack->format, pack->format);
}

const uint8_t *pack_at(const struct pack *pack, uint32_t offset)
{
    return pack->tail + (offset - pack->format);
}

static int in_order(const struct member *before, const struct member *member)
{
    const size_t least = before->name_length < member->name_length ? before->name_length : member->name_length;
    const int order = least == 0 ? 0 : memcmp(before->name, member->name, least);
    return order < 0 || (order == 0 && before->name_length < member->name_length);
}

void pack_next(struct pack *pack)
{
    const struct member before = pack->member;
    struct member *const member = &pack->member;
    const uint8_t *const entry = pack_at(pack, pack->next_entry);
    const uint64_t left = pack->size - pack->next_entry;
    member->number++;
    if (left < PACK_ENTRY_BYTES || left - PACK_ENTRY_BYTES < get_number(entry + 20))
        pack_damaged(pack, "the index ends before its entry does");
    member->line = get_number(entry);
    member->line_length = get_number(entry + 4);
    member->offset = get_number(entry + 8);
    member->length = get_number(entry + 12);
    member->checksum = get_number(entry + 16);
    member->name_length = get_number(entry + 20);
    member->name = (const char *)entry + PACK_ENTRY_BYTES;
    pack->next_entry += PACK_ENTRY_BYTES + member->name_length;
    if (member->name_length > LONGEST_NAME || !in_order(&before, member))
        pack_damaged(pack, "its name is too long or not in order");
    if (member->offset != before.offset + before.length || member->length > pack->format - member->offset)
        pack_damaged(pack, "its bytes do not follow those of the member before it");
    if (member->line != before.line + before.line_length || member->line_length > pack->index - member->line)
        pack_damaged(pack, "its line does not follow that of the member before it");
}

void pack_end(const struct pack *pack)
{
    const struct member *const last = &pack->member;
    if (last->offset + last->length != pack->format || last->line + last->line_length != pack->index ||
        pack->next_entry != pack->size)
        pack_damaged(pack, "after it are bytes that belong to no member");
}

void pack_close(struct pack *pack)
{
    free(pack->tail);
    close(pack->file);
}

void pack_damaged(const struct pack *pack, const char *how)
{
    stop(REFUSED, NULL, "%s is damaged at member %u of %u: %s", pack->path, (unsigned)pack->member.number,
         (unsigned)pack->count, how);
}

void read_at(int pack, void *into, size_t length, uint32_t offset)
{
    for (size_t done = 0; done < length;) {
        const ssize_t taken = pread(pack, (char *)into + done, length - done, (off_t)(offset + done));
        if (taken < 0)
            cannot("read", "the pack");
        if (taken == 0)
            stop(FAILED, NULL, "the pack became shorter while it was read");
        done += (size_t)taken;
    }
}

uint32_t checksum(uint32_t before, const uint8_t *bytes, size_t length)
{
    uint32_t rest = ~before;
    for (size_t i = 0; i < length; i++) {
        rest ^= bytes[i];
        for (int bit = 0; bit < 8; bit++)
            rest = rest >> 1 ^ ((rest & 1) != 0 ? 0xedb88320 : 0);
    }
    return ~rest;
}
