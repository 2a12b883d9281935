/*
 * dumps TABLE FILE SEQUENCE: the hex dumps of hv over the bytes of a good table.dat and a good file of its manager, which is
 * StandardStMan. It is built with the compiler's checks of memory, and every file lies in memory of its own length, so that a
 * read outside it is found. It prints the dumps; what is wrong stands on standard error, with exit status 1.
 */
#include "dump.h"
#include "helvidrane.h"
#include "index_text.h"

#include <stdio.h>
#include <stdlib.h>
#include <string.h>

#define HOLD(condition) hold(condition, #condition, __LINE__)

static uint8_t room[HV_ROOM_MOST];
static uint64_t sequence;
static bool is_big; /* the table, and with it the file's header */

static void hold(bool is_so, const char *condition, int line)
{
    if (!is_so) {
        fprintf(stderr, "dumps: line %d: not so: %s\n", line, condition);
        exit(1);
    }
}

/* The first bytes of a file, in memory of their length. */
static struct bytes part(struct bytes of, size_t len)
{
    uint8_t *at = malloc(len);

    HOLD(at != NULL || len == 0);
    if (len > 0)
        memcpy(at, of.at, len);
    return (struct bytes){at == NULL ? nothing.at : at, len};
}

static void done(struct bytes bytes)
{
    if (bytes.at != nothing.at)
        free((void *)bytes.at);
}

static struct bytes read_file(const char *path)
{
    static uint8_t at[1 << 20];
    FILE *stream = fopen(path, "rb");
    size_t len;

    HOLD(stream != NULL);
    len = fread(at, 1, sizeof at, stream);
    fclose(stream);
    return part((struct bytes){at, len}, len);
}

/* A dump has the bytes of the lines around its byte: those of the file, or of the text. */
static void right(const struct dump *dump, struct bytes of, uint64_t byte)
{
    uint64_t start = byte / 16 < 1 ? 0 : (byte / 16 - 1) * 16, end = byte / 16 * 16 + 32;

    HOLD(dump->byte == byte && dump->start == start);
    HOLD(dump->count == (of.len < start ? 0 : (of.len < end ? of.len : end) - start));
    HOLD(dump->count == 0 || memcmp(dump->bytes, of.at + start, dump->count) == 0);
    HOLD(dump->is_there == (byte < of.len));
    HOLD(!dump->is_there || dump->is_text || dump->place == byte);
    print_dump(dump, "file");
}

/* The dump of what the library refuses, if it does, with 1 to 7: in the index text if one is given, else in a file. */
static void refuse(struct bytes table, struct bytes file, struct bytes text)
{
    uint64_t description[HV_DESCRIPTION_LEN], out[HV_CHECK_LEN];
    uint64_t number = hv_description(table.at, table.len, description, HV_DESCRIPTION_LEN);
    struct dump dump;

    if (blames_byte(number)) {
        dump = dump_of_table(table, description[HV_DESCRIPTION_BYTE]);
        right(&dump, table, description[HV_DESCRIPTION_BYTE]);
        return;
    }
    number = hv_check(table.at, table.len, file.at, file.len, sequence, room, sizeof room, out, HV_CHECK_LEN);
    if (!blames_byte(number))
        return;
    dump = dump_of_file(table, file, sequence, out[HV_CHECK_BYTE]);
    HOLD(dump.is_text == (text.at != nothing.at));
    right(&dump, dump.is_text ? text : file, out[HV_CHECK_BYTE]);
}

static void cut(struct bytes table, struct bytes file)
{
    size_t len;

    for (len = 0; len < table.len; len++) {
        struct bytes some = part(table, len);
        refuse(some, file, nothing);
        done(some);
    }
    for (len = 0; len < file.len; len++) {
        struct bytes some = part(file, len);
        struct index_text text = index_text_of(some, is_big);
        uint64_t byte, place;
        for (byte = 0; byte <= text.len; byte++)
            HOLD(!index_text_place(&text, byte, &place) || place < len);
        refuse(table, some, nothing);
        done(some);
    }
}

/* Where the bytes of the text stand that the library hands out for a file which it accepts. */
static size_t places(struct bytes table, struct bytes file, uint64_t *at)
{
    struct index_text text = index_text_of(file, is_big);
    uint64_t byte, place;

    HOLD(hv_check(table.at, table.len, file.at, file.len, sequence, room, sizeof room, NULL, 0) == HV_ACCEPTED);
    HOLD(text.len > 0 && text.len <= HV_ROOM_MOST);
    for (byte = 0; byte < text.len; byte++) {
        HOLD(index_text_place(&text, byte, &at[byte]));
        HOLD(at[byte] < file.len && file.at[at[byte]] == room[byte]);
    }
    for (byte = text.len; byte < HV_ROOM_MOST; byte++)
        HOLD(room[byte] == 0 && !index_text_place(&text, byte, &place));
    HOLD(!index_text_place(&text, UINT64_MAX, &place));
    return text.len;
}

/* Every byte of the text is another one. */
static void change_text(struct bytes table, struct bytes file, const uint64_t *at, size_t len)
{
    struct bytes some = part(file, file.len), text = part(file, len);
    uint8_t *bytes = (uint8_t *)some.at, *text_bytes = (uint8_t *)text.at;
    size_t i;
    int k;

    for (i = 0; i < len; i++)
        text_bytes[i] = file.at[at[i]];
    for (i = 0; i < len; i++) {
        for (k = 1; k < 256; k += 7) {
            bytes[at[i]] = text_bytes[i] = (uint8_t)(file.at[at[i]] + k);
            refuse(table, some, text);
        }
        bytes[at[i]] = text_bytes[i] = file.at[at[i]];
    }
    done(text);
    done(some);
}

/* Any numbers in the header and in the links, in both byte orders, and files of any length: no byte outside is read. */
static void wild(struct bytes file)
{
    static const uint64_t numbers[] = {0,   1,     7,     8,     9,          16,         64,        511,
                                       512, 65535, 65536, 65537, 0x7fffffff, 0xfffffff7, 0xffffffff};
    static const uint64_t bytes[] = {0, 1, 55, 56, 133, 134, 65535, 65536, 0xffffffff, UINT64_MAX - 16, UINT64_MAX};
    static const size_t fields[] = {30, 54, 58, 66, 512};
    static const size_t lens[] = {0, 3, 33, 34, 60, 69, 70, 511, 512, 515, 516, 832};
    const size_t count = sizeof numbers / sizeof *numbers;
    unsigned turn;
    size_t i, k;

    for (turn = 0; turn < 20000; turn++) {
        size_t len = lens[turn % (sizeof lens / sizeof *lens)];
        struct bytes some = part(file, len < file.len ? len : file.len);
        struct index_text text;
        for (i = 0; i < sizeof fields / sizeof *fields; i++) {
            uint64_t number = numbers[rand() % count];
            for (k = 0; k < 4 && fields[i] + k < some.len && rand() % 4 > 0; k++)
                ((uint8_t *)some.at)[fields[i] + k] = (uint8_t)(number >> 8 * (turn % 2 == 0 ? 3 - k : k));
        }
        text = index_text_of(some, turn % 2 == 0);
        for (i = 0; i < sizeof bytes / sizeof *bytes; i++) {
            uint64_t place;
            HOLD(!index_text_place(&text, bytes[i], &place) || (bytes[i] < text.len && place < some.len));
        }
        done(some);
    }
}

/* Any byte, also behind the end: the library gives none that is. */
static void beyond(struct bytes table)
{
    uint64_t byte;

    for (byte = 0; byte < table.len + 100; byte++) {
        struct dump dump = dump_of_table(table, byte);
        right(&dump, table, byte);
    }
    for (byte = UINT64_MAX - 40; byte != 0; byte++) {
        struct dump dump = dump_of_table(table, byte);
        HOLD(dump.count == 0 && !dump.is_there);
        print_dump(&dump, "file");
    }
}

int main(int argc, char **argv)
{
    static uint64_t at[HV_ROOM_MOST];
    uint64_t description[HV_DESCRIPTION_LEN];
    struct bytes table, file;
    size_t len;

    HOLD(argc == 4);
    table = read_file(argv[1]);
    file = read_file(argv[2]);
    sequence = strtoull(argv[3], NULL, 10);
    HOLD(hv_description(table.at, table.len, description, HV_DESCRIPTION_LEN) == HV_ACCEPTED);
    is_big = description[HV_DESCRIPTION_BIG_ENDIAN] == 1;
    len = places(table, file, at);
    cut(table, file);
    change_text(table, file, at, len);
    wild(file);
    beyond(table);
    done(table);
    done(file);
    return 0;
}
