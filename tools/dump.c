#include "dump.h"

#include "helvidrane.h"
#include "index_text.h"
#include "json.h"

#include <inttypes.h>
#include <stdio.h>
#include <stdlib.h>
#include <string.h>

bool blames_byte(uint64_t number)
{
    return number >= HV_REFUSED_END && number <= HV_REFUSED_LENGTH;
}

/* Before the first line there is none. */
static uint64_t start_of(uint64_t byte)
{
    return byte < DUMP_LINE ? 0 : byte - byte % DUMP_LINE - DUMP_LINE;
}

static size_t most_of(uint64_t byte)
{
    return byte < DUMP_LINE ? DUMP_MOST - DUMP_LINE : DUMP_MOST;
}

static struct dump dump_of_bytes(struct bytes bytes, uint64_t byte)
{
    struct dump dump = {.byte = byte, .is_there = byte < bytes.len, .place = byte, .start = start_of(byte)};

    while (dump.count < most_of(byte) && dump.start + dump.count < bytes.len) {
        dump.bytes[dump.count] = bytes.at[dump.start + dump.count];
        dump.count++;
    }
    return dump;
}

static struct dump dump_of_text(const struct index_text *text, uint64_t byte)
{
    struct dump dump = {.byte = byte, .is_text = true, .start = start_of(byte)};
    uint64_t place;

    dump.is_there = index_text_place(text, byte, &dump.place);
    while (dump.count < most_of(byte) && index_text_place(text, dump.start + dump.count, &place))
        dump.bytes[dump.count++] = text->file.at[place];
    return dump;
}

struct dump dump_of_table(struct bytes table, uint64_t byte)
{
    return dump_of_bytes(table, byte);
}

/*
 * A byte of the index text: header and length of a StandardStMan file are judged before the room, and its index behind it. So
 * where a file is refused with 1 to 7, and for its room if it is lent none, the index text is at fault.
 */
static bool is_in_text(struct bytes table, struct bytes file, uint64_t sequence)
{
    return hv_check(table.at, table.len, file.at, file.len, sequence, NULL, 0, NULL, 0) == HV_REFUSED_ROOM;
}

/* The byte order of a header, and so of the places of its index text, is the table's. */
static bool is_big_endian(struct bytes table)
{
    uint64_t description[HV_DESCRIPTION_LEN];

    hv_description(table.at, table.len, description, HV_DESCRIPTION_LEN);
    return description[HV_DESCRIPTION_BIG_ENDIAN] != 0;
}

struct dump dump_of_file(struct bytes table, struct bytes file, uint64_t sequence, uint64_t byte)
{
    struct index_text text;

    if (!is_in_text(table, file, sequence))
        return dump_of_bytes(file, byte);
    text = index_text_of(file, is_big_endian(table));
    return dump_of_text(&text, byte);
}

/* The place of a line's byte among its hex digits: a space before each, and one more in the middle. */
static size_t column_of(size_t i)
{
    return 3 * i + (i >= DUMP_LINE / 2);
}

enum { HEX_LEN = 3 * DUMP_LINE + 2 };

/* A line of the dump, as hexdump -C has it; `mark` is the blamed byte's, counted as `from` is, and gets brackets. */
static void print_line(const struct dump *dump, size_t from, size_t mark)
{
    char hex[HEX_LEN + 1], shown[DUMP_LINE + 1] = "";
    size_t i;

    memset(hex, ' ', HEX_LEN);
    hex[HEX_LEN] = '\0';
    for (i = 0; i < DUMP_LINE && from + i < dump->count; i++) {
        uint8_t byte = dump->bytes[from + i];
        hex[column_of(i) + 1] = "0123456789abcdef"[byte / 16];
        hex[column_of(i) + 2] = "0123456789abcdef"[byte % 16];
        shown[i] = byte < 0x20 || byte > 0x7e ? '.' : (char)byte;
    }
    if (mark >= from && mark - from < DUMP_LINE) {
        i = mark - from;
        if (mark >= dump->count)
            memcpy(hex + column_of(i) + 1, "--", 2);
        hex[column_of(i)] = '[';
        hex[column_of(i) + 3] = ']';
    }
    printf("  %08" PRIx64 " %s |%s|\n", dump->start + from, hex, shown);
}

void print_dump(const struct dump *dump, const char *path)
{
    size_t mark = (size_t)(dump->byte - dump->start);
    size_t from;

    printf("  %s, %sbyte %" PRIu64 " (0x%" PRIx64 ")", path, dump->is_text ? "index text, " : "", dump->byte, dump->byte);
    if (!dump->is_there)
        printf(", where the %s ends", dump->is_text ? "text" : "file");
    else if (dump->is_text)
        printf(", which is byte %" PRIu64 " (0x%" PRIx64 ") of the file", dump->place, dump->place);
    printf(":\n");
    for (from = 0; from < DUMP_MOST; from += DUMP_LINE) {
        if (from < dump->count || from == mark - mark % DUMP_LINE)
            print_line(dump, from, mark);
    }
}

void json_dump(const struct dump *dump, bool has_byte)
{
    char *hex = hex_digits((struct bytes){dump->bytes, dump->count});

    json_known("byte", has_byte, dump->byte);
    json_text("byte_in", !has_byte ? NULL : dump->is_text ? "index text" : "file");
    json_known("file_byte", has_byte && dump->is_there, dump->place);
    json_known("dump_start", has_byte, dump->start);
    json_text("dump", has_byte ? hex : NULL);
    free(hex);
}
