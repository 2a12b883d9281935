/*
 * values TABLE: the values of keywords that hv reads from the parts of a good table.dat, and from bytes that are no such parts:
 * shorter, longer, of other types, with the first bytes changed one by one, and of any bytes. It is built with the compiler's
 * checks of memory, and every part lies in memory of its own length, so that a read outside it is found. It prints the values;
 * what is wrong stands on standard error, with exit status 1.
 */
#include "helvidrane.h"
#include "values.h"

#include <stdio.h>
#include <stdlib.h>
#include <string.h>

#define HOLD(condition) hold(condition, #condition, __LINE__)

enum { TYPES = 32 };

static uint64_t tried, read_as_values;

static void hold(bool is_so, const char *condition, int line)
{
    if (!is_so) {
        fprintf(stderr, "values: line %d: not so: %s\n", line, condition);
        exit(1);
    }
}

/* Whether the bytes, copied into memory of their length, are a value of the type; then it is printed in both ways. */
static bool is_value(const uint8_t *bytes, size_t len, uint64_t type)
{
    uint8_t *at = malloc(len);
    struct value value;
    bool is_one;

    HOLD(at != NULL || len == 0);
    if (len > 0)
        memcpy(at, bytes, len);
    is_one = value_of((struct bytes){at == NULL ? nothing.at : at, len}, type, &value);
    tried++;
    if (is_one) {
        read_as_values++;
        HOLD(value.count <= 8 * len);
        print_type(&value);
        printf(" ");
        print_elements(&value, 5);
        printf("\n");
        json_value(&value);
        printf("\n");
    }
    free(at);
    return is_one;
}

/* A part and its neighbours: with fewer bytes, with more, and with other types. */
static void ask_part(struct bytes table, uint64_t start, uint64_t len, uint64_t type)
{
    uint8_t changed[1 << 16];
    uint64_t i, other;
    int k;

    HOLD(is_value(table.at + start, len, type));
    for (other = 0; other < TYPES; other++)
        is_value(table.at + start, len, other);
    if (type == HV_TYPE_RECORD)
        return;
    for (i = 0; i < len; i++)
        HOLD(!is_value(table.at + start, i, type));
    if (start + len < table.len)
        HOLD(!is_value(table.at + start, len + 1, type));
    HOLD(len <= sizeof changed);
    memcpy(changed, table.at + start, len);
    for (i = 0; i < len && i < 64; i++) {
        static const uint8_t masks[] = {0x01, 0x80, 0x7f, 0xff};
        for (k = 0; k < 4; k++) {
            changed[i] ^= masks[k];
            is_value(changed, len, type);
            changed[i] ^= masks[k];
        }
    }
}

/* All fields of a record and what they hold, of the table or of a column. */
static void ask_fields(struct bytes table, bool is_table, uint64_t position, const uint8_t *path, size_t path_len)
{
    uint64_t field[HV_FIELD_LEN], number;
    uint8_t below[4096];

    for (number = 0;; number++) {
        enum hv_number given =
            is_table ? hv_table_field(table.at, table.len, path, path_len, number, field, HV_FIELD_LEN) :
                       hv_column_field(table.at, table.len, position, path, path_len, number, field, HV_FIELD_LEN);
        if (given == HV_REFUSED_KEYWORD)
            return;
        HOLD(given == HV_ACCEPTED);
        ask_part(table, field[HV_FIELD_START], field[HV_FIELD_LENGTH], field[HV_FIELD_TYPE]);
        if (field[HV_FIELD_TYPE] != HV_TYPE_RECORD)
            continue;
        /* The name and its length, as table.dat has them. */
        HOLD(path_len + 4 + field[HV_FIELD_NAME_LEN] <= sizeof below);
        if (path_len > 0)
            memcpy(below, path, path_len);
        memcpy(below + path_len, table.at + field[HV_FIELD_NAME] - 4, 4 + field[HV_FIELD_NAME_LEN]);
        ask_fields(table, is_table, position, below, path_len + 4 + field[HV_FIELD_NAME_LEN]);
    }
}

/* Any bytes, of every length up to some, and bytes that begin as an array does. */
static void ask_any(void)
{
    static const uint8_t head[] = {0, 0, 0, 0, 0, 0, 0, 5, 'A', 'r', 'r', 'a', 'y', 0, 0, 0, 3, 0, 0, 0, 2};
    uint32_t state = 1;
    size_t len, i;
    uint64_t type;

    for (len = 0; len < 80; len++) {
        for (type = 0; type < TYPES; type++) {
            uint8_t bytes[80];
            for (i = 0; i < len; i++)
                bytes[i] = (uint8_t)((state = state * 1664525 + 1013904223) >> 24) & (type % 2 == 0 ? 0xff : 0x03);
            is_value(bytes, len, type);
            if (len >= sizeof head) {
                memcpy(bytes, head, sizeof head);
                bytes[3] = (uint8_t)len;
                for (i = sizeof head; i < len && i < sizeof head + 8; i++)
                    bytes[i] = i % 4 == 0 ? (uint8_t)(len % 5) : 0;
                is_value(bytes, len, type);
                bytes[16] = 1;
                is_value(bytes, len, type);
                memset(bytes + 17, 0xff, len - 17);
                is_value(bytes, len, type);
            }
        }
    }
    HOLD(!is_value(head, 0, UINT64_MAX) && !is_value(head, 4, (UINT64_C(1) << 32) + HV_TYPE_INT));
}

int main(int argc, char **argv)
{
    static uint8_t at[1 << 17];
    uint64_t description[HV_DESCRIPTION_LEN], i;
    struct bytes table = {at, 0};
    FILE *stream;

    HOLD(argc == 2);
    stream = fopen(argv[1], "rb");
    HOLD(stream != NULL);
    table.len = fread(at, 1, sizeof at, stream);
    fclose(stream);
    HOLD(hv_description(table.at, table.len, description, HV_DESCRIPTION_LEN) == HV_ACCEPTED);
    ask_fields(table, true, 0, NULL, 0);
    for (i = 0; i < description[HV_DESCRIPTION_COLUMNS]; i++)
        ask_fields(table, false, i, NULL, 0);
    ask_any();
    HOLD(read_as_values > 0 && read_as_values < tried);
    return 0;
}
