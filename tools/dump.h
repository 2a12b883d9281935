/*
 * The byte at which the field begins that a refusal of 1 to 7 blames, and a hex dump of what stands around it: the line of 16
 * bytes that it is in, the line before and the line after.
 */
#ifndef DUMP_H
#define DUMP_H

#include "names.h"

enum { DUMP_LINE = 16, DUMP_MOST = 3 * DUMP_LINE };

/* The bytes are copied, so that a mapped file can change or go away afterwards. */
struct dump {
    uint64_t byte;
    bool is_text; /* counted in the index text of a StandardStMan file, else in the file; in both cases from the start */
    bool is_there; /* else the file or the text ends there */
    uint64_t place; /* of the byte in the file, if it is there */
    uint64_t start; /* of the first line */
    size_t count; /* of the bytes that the lines have */
    uint8_t bytes[DUMP_MOST];
};

/* Whether a refusal with this number blames a byte. */
bool blames_byte(uint64_t number);

/* Of a file that is refused at a byte: of table.dat, or of that of the manager with this sequence number, which is used. */
struct dump dump_of_table(struct bytes table, uint64_t byte);
struct dump dump_of_file(struct bytes table, struct bytes file, uint64_t sequence, uint64_t byte);

/* The lines: file and byte, then the dump. */
void print_dump(const struct dump *dump, const char *path);

/* The fields "byte", "byte_in", "file_byte", "dump_start" and "dump"; null where there is no byte. */
void json_dump(const struct dump *dump, bool has_byte);

#endif
