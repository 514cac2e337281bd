/* A pack: the files of a folder joined in one, with a line for each that an operator's format makes.

       8 bytes   the magic number, PACK_MAGIC
       4         how many members there are
       4, 4, 4   the offsets of the format, the lines and the index
       ..        the members
       ..        the format
       ..        the lines of the members
       ..        the index, for each member: line offset, line length, member offset, member length, checksum and
                 length of the name, 4 bytes each, and the name

   The numbers are big-endian, and offsets count from the first byte of the pack. Members, lines and index are in the
   order of the names, compared byte by byte. Each part, and each member, line and entry in it, begins where the one
   before it ends; the index ends with the pack. */
#ifndef PACK_H
#define PACK_H

#include <stdio.h>
#include <tilde_table.h>

#define PACK_MAGIC "tildepk1"
#define PACK_MAGIC_BYTES 8
#define PACK_HEADER_BYTES 24
#define PACK_ENTRY_BYTES 24
/* what an offset can say */
#define PACK_MOST UINT32_MAX

/* The bytes of the longest name, and those at the start of a member whose words a line may show: so the table of a line
   has a greatest size, and its buffer too where the vet can count. */
#define LONGEST_NAME 200
#define FIRST_BYTES 256
/* the longest line where the vet cannot count */
#define LONGEST_LINE 1048576

/* The status of the program: 1 for what is refused, 2 for what cannot be done. */
enum status { DONE = 0, REFUSED = 1, FAILED = 2 };

struct member {
    const char *name;
    /* the first has 1 */
    uint32_t number;
    uint32_t line, line_length, offset, length, checksum, name_length;
};

/* The numbers of a pack. */
static inline void put_number(uint8_t *to, uint32_t number)
{
    for (size_t i = 4; i-- > 0; number >>= 8)
        to[i] = (uint8_t)(number & 0xff);
}

static inline uint32_t get_number(const uint8_t *from)
{
    uint32_t number = 0;
    for (size_t i = 0; i < 4; i++)
        number = number << 8 | from[i];
    return number;
}

/* CRC-32, from that of the bytes before; 0 where there are none. */
uint32_t checksum(uint32_t before, const uint8_t *bytes, size_t length);

/* Lines in the making: their format, and a buffer with the last of them, to be freed at the end. */
struct line {
    const char *format;
    size_t format_length, room, length;
    uint8_t *bytes;
};

/* Judges a format, by this name in what is said, before there is a member. */
void line_begin(struct line *line, const char *name, const char *format, size_t format_length);
/* Makes the line of a member whose bytes stand in a pack. */
void line_make(struct line *line, const struct member *member, int pack);

/* A pack that is written. All of its bytes stand on the disk before it takes the place of the old one.

   begin   opens it; the pack must not lie in the folder that is its source
   offset  where the next byte goes
   need    stops if so many bytes more would be above PACK_MOST
   put     writes bytes
   go      goes back to an offset, to write there
   flush   the file, with all that was put, to read from
   end     puts the pack in place, with its length */
void output_begin(const char *path, int source);
uint32_t output_offset(void);
void output_need(uint64_t length);
void output_put(const void *bytes, size_t length);
void output_go(uint32_t offset);
int output_flush(void);
void output_end(uint32_t length);

/* Packs the files of a folder; REFUSED if some are left out. */
enum status pack_folder(const char *format, const char *folder, const char *path);

/* A pack that is read back: its parts but for the members, and the member in hand. Nothing in it is trusted. */
struct pack {
    const char *path;
    int file;
    uint8_t *tail;
    uint64_t size;
    uint32_t count, format, lines, index, next_entry;
    struct member member;
};

void pack_open(struct pack *pack, const char *path);
/* Puts the next member in hand. Its bytes and its line lie in their parts. */
void pack_next(struct pack *pack);
/* After the last member: all parts have to end with it. */
void pack_end(const struct pack *pack);
void pack_close(struct pack *pack);
/* What stands at an offset behind the members. */
const uint8_t *pack_at(const struct pack *pack, uint32_t offset);
/* Says that the pack is damaged at the member in hand, and how. */
_Noreturn void pack_damaged(const struct pack *pack, const char *how);
/* Reads exactly so many bytes of a pack. */
void read_at(int pack, void *into, size_t length, uint32_t offset);

/* Says what is wrong in one row, as show does, with a member's name where it is of one; stop also ends the program. */
void complain(const struct member *of, const char *format, ...);
_Noreturn void stop(enum status status, const struct member *of, const char *format, ...);
/* Stops because of errno. */
_Noreturn void cannot(const char *what, const char *path);
/* Writes bytes as one row: controls, backslashes and what is no UTF-8 as \n, \t, \r, \\ and \xHH. */
void show(FILE *to, const char *bytes, size_t length);
/* Says how far a run is, where standard error is a terminal; a complaint takes that away, and so does 0 of 0. */
void progress(size_t done, size_t of);

#endif
