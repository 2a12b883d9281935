/*
 * Asks every question of include/helvidrane.h: of files on the samples `small`, `little`, `arrays`, `survey`, `texts` and
 * `keywords`, accepted, refused with each number and the byte, with row numbers of 4 and of 8 bytes, with faults in the row's
 * bucket and in others, with texts that are full, padded and empty, with keywords of every type and paths to them, with `out`
 * shorter and longer than the answer, with plans that are too short, and with null pointers to runs of 0 elements; and of type
 * numbers. The answers are those of RULES.md and of the independent model. It is C and C++.
 *
 * questions SAMPLES: exits with 1 at the first difference.
 */
#include "helvidrane.h"

#include <stdio.h>
#include <stdlib.h>
#include <string.h>

#define HOLD(condition, line) hold(condition, #condition, __FILE__, line)
#define ACCEPTED(question, values) accepted(question, values, sizeof values / sizeof *values, __LINE__)
#define REFUSED(question, number) refused(question, number, 0, __LINE__)
#define REFUSED_VIEWS(number) refused_views(number, 0, __LINE__)

/* From CHECK to PADDED_PLANNED they ask after a check of the whole file, and are refused alike if it is wrong. */
enum question {
    DESCRIPTION,
    COLUMN,
    MANAGER,
    BY_NAME,
    TABLE_KEYWORD,
    COLUMN_KEYWORD,
    TABLE_FIELD,
    COLUMN_FIELD,
    CHECK,
    PLAN,
    PLACE,
    PLACE_PLANNED,
    VIEW,
    VIEW_PLANNED,
    PADDED,
    PADDED_PLANNED,
    IN_BUCKET
};

static const size_t answer_lens[] = {HV_DESCRIPTION_LEN, HV_COLUMN_LEN,  HV_MANAGER_LEN, HV_POSITION_LEN, HV_KEYWORD_LEN,
                                     HV_KEYWORD_LEN,     HV_FIELD_LEN,   HV_FIELD_LEN,   HV_CHECK_LEN,    HV_PLAN_LEN,
                                     HV_PLACE_LEN,       HV_PLACE_LEN,   HV_VIEW_LEN,    HV_VIEW_LEN,     HV_VIEW_LEN,
                                     HV_VIEW_LEN,        HV_IN_BUCKET_LEN};
/* The numbers of the bytes. */
static const size_t bytes_at[] = {HV_DESCRIPTION_BYTE, HV_COLUMN_BYTE, HV_MANAGER_BYTE, HV_POSITION_BYTE, HV_KEYWORD_BYTE,
                                  HV_KEYWORD_BYTE,     HV_FIELD_BYTE,  HV_FIELD_BYTE,   HV_CHECK_BYTE,    HV_PLAN_BYTE,
                                  HV_PLACE_BYTE,       HV_PLACE_BYTE,  HV_VIEW_BYTE,    HV_VIEW_BYTE,     HV_VIEW_BYTE,
                                  HV_VIEW_BYTE,        HV_IN_BUCKET_BYTE};

enum { BYTES_MOST = 1 << 20, OUT_MOST = 16, PATH_MOST = 256, ROOM_MOST = HV_ROOM_MOST + 16, PLAN_MOST = HV_PLAN_LEN + 2 };

struct bytes {
    uint8_t at[BYTES_MOST];
    size_t len;
};

/* What the next question is about. */
static struct bytes table, file;
static const char *name;
static uint64_t number; /* a position, an index or a sequence number */
static uint8_t path[PATH_MOST];
static size_t path_len;
static uint64_t field; /* its number */
static uint64_t row;
static uint64_t plan[PLAN_MOST];
static size_t plan_len = HV_PLAN_NUMBERS;
static size_t room_len;
static struct bytes text; /* what the room holds after acceptance, before the zeros */

static uint8_t room[ROOM_MOST];
static uint64_t out[OUT_MOST];

static const uint8_t room_filling = 0xa5;
static const uint64_t out_filling = UINT64_C(0xa5a5a5a5a5a5a5a5);

static void hold(int right, const char *condition, const char *source, int line)
{
    if (!right) {
        printf("%s:%d: not so: %s\n", source, line, condition);
        exit(1);
    }
}

static void read_file(struct bytes *bytes, const char *samples, const char *sample, const char *file_name)
{
    char path[4096];
    FILE *stream;

    snprintf(path, sizeof path, "%s/%s/%s", samples, sample, file_name);
    stream = fopen(path, "rb");
    if (stream == NULL) {
        perror(path);
        exit(2);
    }
    bytes->len = fread(bytes->at, 1, sizeof bytes->at, stream);
    fclose(stream);
}

/* Whether a run of 0 elements is lent with a null pointer. */
static int is_null;

static uint8_t *lent(uint8_t *bytes, size_t len)
{
    return is_null && len == 0 ? NULL : bytes;
}

static uint64_t *lent_numbers(uint64_t *numbers, size_t len)
{
    return is_null && len == 0 ? NULL : numbers;
}

static enum hv_number ask(enum question question, size_t out_len)
{
    const uint8_t *t = lent(table.at, table.len), *f = lent(file.at, file.len), *n = lent(path, path_len);
    uint8_t *r = lent(room, room_len);
    uint64_t *o = lent_numbers(out, out_len), *p = lent_numbers(plan, plan_len);
    size_t i;

    for (i = 0; i < OUT_MOST; i++)
        out[i] = out_filling;
    memset(room, room_filling, sizeof room);
    switch (question) {
    case DESCRIPTION:
        return hv_description(t, table.len, o, out_len);
    case COLUMN:
        return hv_column(t, table.len, number, o, out_len);
    case MANAGER:
        return hv_manager(t, table.len, number, o, out_len);
    case BY_NAME:
        return hv_column_by_name(t, table.len, lent((uint8_t *)name, strlen(name)), strlen(name), o, out_len);
    case TABLE_KEYWORD:
        return hv_table_keyword(t, table.len, n, path_len, o, out_len);
    case COLUMN_KEYWORD:
        return hv_column_keyword(t, table.len, number, n, path_len, o, out_len);
    case TABLE_FIELD:
        return hv_table_field(t, table.len, n, path_len, field, o, out_len);
    case COLUMN_FIELD:
        return hv_column_field(t, table.len, number, n, path_len, field, o, out_len);
    case CHECK:
        return hv_check(t, table.len, f, file.len, number, r, room_len, o, out_len);
    case PLAN:
        return hv_plan(t, table.len, f, file.len, number, r, room_len, o, out_len);
    case PLACE:
        return hv_place(t, table.len, f, file.len, row, number, r, room_len, o, out_len);
    case PLACE_PLANNED:
        return hv_place_planned(t, table.len, f, file.len, row, p, plan_len, r, room_len, o, out_len);
    case VIEW:
        return hv_view(t, table.len, f, file.len, row, number, r, room_len, o, out_len);
    case VIEW_PLANNED:
        return hv_view_planned(t, table.len, f, file.len, row, p, plan_len, r, room_len, o, out_len);
    case PADDED:
        return hv_padded_view(t, table.len, f, file.len, row, number, r, room_len, o, out_len);
    case PADDED_PLANNED:
        return hv_padded_view_planned(t, table.len, f, file.len, row, p, plan_len, r, room_len, o, out_len);
    case IN_BUCKET:
        return hv_place_in_bucket(t, table.len, f, file.len, row, number, r, room_len, o, out_len);
    }
    abort();
}

static int room_is(size_t from, size_t to, uint8_t byte)
{
    for (; from < to; from++)
        if (room[from] != byte)
            return 0;
    return 1;
}

static int out_is(size_t from, size_t to, uint64_t value)
{
    for (; from < to; from++)
        if (out[from] != value)
            return 0;
    return 1;
}

static void untouched_from(enum question question, size_t out_from, int line)
{
    HOLD(out_is(out_from, OUT_MOST, out_filling), line);
    HOLD(room_is(question < CHECK ? 0 : room_len, ROOM_MOST, room_filling), line);
}

static size_t lesser(size_t a, size_t b)
{
    return a < b ? a : b;
}

static void accepted(enum question question, const uint64_t *values, size_t count, int line)
{
    size_t n = answer_lens[question];
    size_t out_len;

    HOLD(n == count, line);
    for (out_len = 0; out_len <= n + 3; out_len++) {
        size_t written = lesser(n, out_len);
        HOLD(ask(question, out_len) == HV_ACCEPTED, line);
        HOLD(memcmp(out, values, written * sizeof *out) == 0, line);
        untouched_from(question, written, line);
        if (question >= CHECK) {
            HOLD(memcmp(room, text.at, text.len) == 0, line);
            HOLD(room_is(text.len, room_len, 0), line);
        }
    }
}

/* Zeros, but for the byte. */
static void refused(enum question question, enum hv_number refusal, uint64_t byte, int line)
{
    size_t n = answer_lens[question], at = bytes_at[question];
    size_t out_len;

    for (out_len = 0; out_len <= n + 3; out_len++) {
        size_t written = lesser(n, out_len);
        HOLD(ask(question, out_len) == refusal, line);
        HOLD(out_is(0, lesser(at, written), 0), line);
        HOLD(written <= at || out[at] == byte, line);
        HOLD(out_is(at + 1, written, 0), line);
        untouched_from(question, written, line);
        if (question >= CHECK)
            HOLD(room_is(0, room_len, 0), line);
    }
}

/* All four views. */
static void refused_views(enum hv_number refusal, uint64_t byte, int line)
{
    int question;

    for (question = VIEW; question <= PADDED_PLANNED; question++)
        refused((enum question)question, refusal, byte, line);
}

static void blamed(enum question question, enum hv_number refusal, uint64_t byte, int line)
{
    HOLD(ask(question, answer_lens[question]) == refusal, line);
    HOLD(out[bytes_at[question]] == byte, line);
}

/* Whether or not the question would be refused: nothing is written, the room included. */
static void short_plans(enum question question, int line)
{
    size_t out_len;

    for (plan_len = 0; plan_len < HV_PLAN_NUMBERS; plan_len++)
        for (out_len = 0; out_len <= HV_PLACE_LEN + 3; out_len++) {
            HOLD(ask(question, out_len) == HV_SHORT, line);
            HOLD(out_is(0, OUT_MOST, out_filling), line);
            HOLD(room_is(0, ROOM_MOST, room_filling), line);
        }
    HOLD(plan_len == HV_PLAN_NUMBERS, line);
}

/* Numbers behind those of a plan, the byte of hv_plan's answer too, are not looked at. */
static void long_plans(enum question question, const uint64_t *values, int line)
{
    for (plan_len = HV_PLAN_NUMBERS; plan_len <= PLAN_MOST; plan_len++)
        accepted(question, values, answer_lens[question], line);
    plan_len = HV_PLAN_NUMBERS;
}

static void set_plan(const uint64_t *values)
{
    size_t i;

    memcpy(plan, values, HV_PLAN_NUMBERS * sizeof *plan);
    for (i = HV_PLAN_NUMBERS; i < PLAN_MOST; i++)
        plan[i] = UINT64_MAX - i;
}

/* The file has buckets of 64 bytes, and the index text of 134 bytes in buckets 1, 3 and 4. */
static void take_text(void)
{
    memcpy(text.at, file.at + 512 + 1 * 64 + 8, 56);
    memcpy(text.at + 56, file.at + 512 + 3 * 64 + 8, 56);
    memcpy(text.at + 112, file.at + 512 + 4 * 64 + 8, 22);
    text.len = 134;
    room_len = 134;
}

/* The small file (RULES.md 11.1): `small` is big endian, `little` little endian, with the same places. */
static void load(const char *samples, const char *sample)
{
    read_file(&table, samples, sample, "table.dat");
    read_file(&file, samples, sample, "table.f0");
    take_text();
}

static void ask_of_table(uint64_t is_big)
{
    const uint64_t description[] = {7, is_big, 3, 1, 0};
    const uint64_t manager[] = {0, HV_STANDARD, 829, 13, 0};
    const char *const names[] = {"SCAN", "FLAG", "TIME"};
    const uint64_t types[] = {HV_TYPE_INT, HV_TYPE_BOOL, HV_TYPE_DOUBLE};
    const uint64_t bits[] = {32, 1, 64};
    const uint64_t offsets[] = {0, 16, 17};
    uint64_t k;

    ACCEPTED(DESCRIPTION, description);

    for (k = 0; k < 3; k++) {
        const uint64_t position[] = {k, 0};
        uint64_t column[HV_COLUMN_LEN] = {0};
        number = k;
        ask(COLUMN, HV_COLUMN_LEN);
        HOLD(memcmp(table.at + out[HV_COLUMN_NAME], names[k], 4) == 0, __LINE__);
        column[HV_COLUMN_NAME] = out[HV_COLUMN_NAME];
        column[HV_COLUMN_NAME_LEN] = 4;
        column[HV_COLUMN_DATA_TYPE] = types[k];
        column[HV_COLUMN_ELEMENTS] = 1;
        column[HV_COLUMN_BITS] = bits[k];
        column[HV_COLUMN_OFFSET] = offsets[k];
        ACCEPTED(COLUMN, column);
        name = names[k];
        ACCEPTED(BY_NAME, position);
    }
    number = 3;
    REFUSED(COLUMN, HV_REFUSED_MISSING);
    number = UINT64_MAX;
    REFUSED(COLUMN, HV_REFUSED_MISSING);
    name = "TIM";
    REFUSED(BY_NAME, HV_REFUSED_MISSING);
    name = "";
    REFUSED(BY_NAME, HV_REFUSED_MISSING);

    number = 0;
    HOLD(memcmp(table.at + manager[HV_MANAGER_NAME], "StandardStMan", 13) == 0, __LINE__);
    ACCEPTED(MANAGER, manager);
    number = 1;
    REFUSED(MANAGER, HV_REFUSED_MISSING);
}

static void ask_of_cells(void)
{
    const uint64_t bucket_size[] = {64, 0};
    const uint64_t plans[3][HV_PLAN_LEN] = {{0, 0, HV_TYPE_INT, 1, 32, 0, 0, 4, 64},
                                            {1, 0, HV_TYPE_BOOL, 1, 1, 0, 16, 4, 64},
                                            {2, 0, HV_TYPE_DOUBLE, 1, 64, 0, 17, 4, 64}};
    /* Cases A, B, C and D. */
    const uint64_t cells[4][4] = {{5, 2, 4296, 64}, {2, 2, 5384, 64}, {5, 1, 4225, 1}, {6, 0, 4160, 32}};
    const uint64_t absent[] = {7, (UINT64_C(1) << 32) + 5, UINT64_MAX};
    int i, k;

    number = 0;
    ACCEPTED(CHECK, bucket_size);
    number = 1;
    REFUSED(CHECK, HV_REFUSED_MISSING);
    number = UINT64_MAX;
    REFUSED(CHECK, HV_REFUSED_MISSING);

    for (i = 0; i < 3; i++) {
        number = (uint64_t)i;
        ACCEPTED(PLAN, plans[i]);
    }
    number = 3;
    REFUSED(PLAN, HV_REFUSED_MISSING);

    for (i = 0; i < 4; i++) {
        const uint64_t *place = cells[i] + 2;
        const uint64_t whole[] = {place[0], place[1], 1, 2, 0}; /* a look at the first of two last rows, for every row */
        const uint64_t start_and_length[] = {place[0] / 8, place[1] / 8, 0};
        row = cells[i][0];
        number = cells[i][1];
        set_plan(plans[number]);
        ACCEPTED(PLACE, whole);
        ACCEPTED(PLACE_PLANNED, whole);
        REFUSED(IN_BUCKET, HV_REFUSED_MISSING); /* it is StandardStMan's */
        long_plans(PLACE_PLANNED, whole, __LINE__);
        if (number == 1) {
            REFUSED_VIEWS(HV_REFUSED_BOOL);
        } else {
            ACCEPTED(VIEW, start_and_length);
            ACCEPTED(VIEW_PLANNED, start_and_length);
            ACCEPTED(PADDED, start_and_length);
            ACCEPTED(PADDED_PLANNED, start_and_length);
            long_plans(VIEW_PLANNED, start_and_length, __LINE__);
            long_plans(PADDED_PLANNED, start_and_length, __LINE__);
        }
        short_plans(PLACE_PLANNED, __LINE__);
        short_plans(VIEW_PLANNED, __LINE__);
        short_plans(PADDED_PLANNED, __LINE__);
    }

    /* A row too many, also where the column is Bool: 9 comes before 14. Cut to 32 bits, the second is row 5. */
    for (i = 0; i < 3; i++) {
        number = (uint64_t)i;
        set_plan(plans[i]);
        for (k = 0; k < 3; k++) {
            row = absent[k];
            REFUSED(IN_BUCKET, HV_REFUSED_MISSING);
            REFUSED(PLACE, HV_REFUSED_ROW);
            REFUSED(PLACE_PLANNED, HV_REFUSED_ROW);
            REFUSED_VIEWS(HV_REFUSED_ROW);
        }
    }

    /* Each number of a plan counts; a position without a column is no stale plan. */
    row = 7;
    for (i = 0; i < HV_PLAN_NUMBERS; i++) {
        enum hv_number refusal = i == HV_PLAN_POSITION ? HV_REFUSED_MISSING : HV_REFUSED_PLAN;
        set_plan(plans[2]);
        plan[i] += 1;
        REFUSED(PLACE_PLANNED, refusal);
        REFUSED(VIEW_PLANNED, refusal);
        REFUSED(PADDED_PLANNED, refusal);
    }

    /* The index length is that of the text. */
    row = 5;
    number = 0;
    set_plan(plans[0]);
    for (room_len = 0; room_len < text.len; room_len += 19) {
        REFUSED(IN_BUCKET, HV_REFUSED_MISSING);
        REFUSED(CHECK, HV_REFUSED_ROOM);
        REFUSED(PLAN, HV_REFUSED_ROOM);
        REFUSED(PLACE, HV_REFUSED_ROOM);
        REFUSED(PLACE_PLANNED, HV_REFUSED_ROOM);
        REFUSED_VIEWS(HV_REFUSED_ROOM);
    }
    room_len = HV_ROOM_MOST;
    ACCEPTED(CHECK, bucket_size);
    ACCEPTED(PLAN, plans[0]);
    room_len = text.len;
}

/* The bytes of a cell of `little` are those of `small`, the last first. */
static void ask_of_turned_cells(const char *samples)
{
    static struct bytes small;
    size_t i;

    read_file(&small, samples, "small", "table.f0");
    for (row = 0; row < 7; row++)
        for (number = 0; number < 3; number += 2) {
            HOLD(ask(VIEW, HV_VIEW_LEN) == HV_ACCEPTED, __LINE__);
            HOLD(out[HV_VIEW_LENGTH] == (number == 0 ? 4 : 8), __LINE__);
            for (i = 0; i < out[HV_VIEW_LENGTH]; i++)
                HOLD(file.at[out[HV_VIEW_START] + i] == small.at[out[HV_VIEW_START] + out[HV_VIEW_LENGTH] - 1 - i], __LINE__);
        }
}

/* The next questions are about SCAN of row 0 in the small table. */
static void set_scan(void)
{
    const uint64_t scan[HV_PLAN_LEN] = {0, 0, HV_TYPE_INT, 1, 32, 0, 0, 4, 64};

    name = "SCAN";
    number = 0;
    row = 0;
    set_plan(scan);
}

/* The questions from `first` on are refused, each with the same number and byte; a place in one bucket, where it is the table's. */
static void refused_from(enum question first, enum hv_number refusal, uint64_t byte, int line)
{
    int question;

    set_scan();
    for (question = first; question <= PADDED_PLANNED; question++)
        refused((enum question)question, refusal, byte, line);
    if (first == DESCRIPTION)
        refused(IN_BUCKET, refusal, byte, line);
    short_plans(PLACE_PLANNED, line);
    short_plans(VIEW_PLANNED, line);
    short_plans(PADDED_PLANNED, line);
}

/* The same of number and byte alone. It is quick, so that many files can be asked about. */
static void blamed_from(enum question first, enum hv_number refusal, uint64_t byte, int line)
{
    int question;

    set_scan();
    for (question = first; question <= PADDED_PLANNED; question++)
        blamed((enum question)question, refusal, byte, line);
    if (first == DESCRIPTION)
        blamed(IN_BUCKET, refusal, byte, line);
}

/* A byte of a file is another one; the file is refused at the byte where the failing field begins. */
struct fault {
    size_t at;
    uint8_t byte;
    enum hv_number refusal;
    uint64_t field;
};

#define REFUSED_EACH(bytes, first, faults) refused_each(bytes, first, faults, sizeof faults / sizeof *faults, __LINE__)

static void refused_each(struct bytes *bytes, enum question first, const struct fault *faults, size_t count, int line)
{
    size_t i;

    room_len = 200;
    for (i = 0; i < count; i++) {
        uint8_t good = bytes->at[faults[i].at];
        HOLD(good != faults[i].byte, line);
        bytes->at[faults[i].at] = faults[i].byte;
        refused_from(first, faults[i].refusal, faults[i].field, line);
        bytes->at[faults[i].at] = good;
    }
}

/* Of the index text, byte 0 is byte 584 of the file, 56 is byte 712, and 112 is byte 776. */
static void ask_of_faults(void)
{
    static const struct fault in_table[] = {
        {0, 0, HV_REFUSED_NAME, 0},           /* the mark */
        {0x0f, 'f', HV_REFUSED_NAME, 8},      /* Table's name: a String begins with its length */
        {0x14, 9, HV_REFUSED_VERSION, 0x11},  /* Table's version */
        {0x15, 0xff, HV_REFUSED_FACTS, 0x32d}, /* the row count: it has no range, but ColumnSet has another */
        {0x1c, 2, HV_REFUSED_VALUE, 0x19},    /* the endianness */
        {0x2a, 'E', HV_REFUSED_NAME, 0x1d},   /* the table type */
        {0x0e2, 0, HV_REFUSED_RANGE, 0x0df},  /* the first column's name, empty */
        {0x32c, 0xff, HV_REFUSED_VERSION, 0x329}, /* ColumnSet's version: -1 */
        {0x32c, 0xfc, HV_REFUSED_VERSION, 0x329}, /* -4 */
        {0x32c, 0xfd, HV_REFUSED_END, 0x33d}, /* -3: the row count has 8 bytes, and a name begins where there is none */
        {0x330, 8, HV_REFUSED_FACTS, 0x32d},  /* ColumnSet's row count, which is read after Table's */
        {0x38d, 16, HV_REFUSED_LENGTH, 0x38a}, /* DMInfo's length */
        {0x38d, 25, HV_REFUSED_END, 0x38a},   /* DMInfo past Table's end: its length too */
        {0x07, 0, HV_REFUSED_END, 0x2b},      /* Table's length: TableDesc, an object, is past its end */
        {0x07, 0xa3, HV_REFUSED_END, 4},      /* Table is past the end of the file: its header, without the mark */
        {0x2e, 0xfd, HV_REFUSED_END, 0x321},  /* TableDesc's length: its last field does not fit */
        {0x2e, 0xff, HV_REFUSED_LENGTH, 0x2b}, /* TableDesc's length: a byte is left over */
        {0x4f, 22, HV_REFUSED_LENGTH, 0x4c},  /* a TableRecord that is shorter than its header */
    };
    static const struct fault in_file[] = {
        {0, 0, HV_REFUSED_NAME, 0},           /* the mark */
        {0x1c, 2, HV_REFUSED_VERSION, 0x19},  /* the header's version */
        {0x1c, 5, HV_REFUSED_VERSION, 0x19},
        {0x1d, 2, HV_REFUSED_VALUE, 0x1d},    /* the endianness */
        {0x1d, 0, HV_REFUSED_FACTS, 0x1d},    /* the other endianness */
        {0x21, 0, HV_REFUSED_RANGE, 0x1e},    /* the bucket size */
        {0x3d, 7, HV_REFUSED_RANGE, 0x3a},    /* the offset of the index */
        {0x07, 71, HV_REFUSED_LENGTH, 4},     /* the header's length, without the mark */
        {0x25, 6, HV_REFUSED_END, 832},       /* the number of buckets: the file's end */
        {0x35, 2, HV_REFUSED_CHAIN, 0},       /* case I: index number 2 for three links */
        {0x45, 135, HV_REFUSED_LENGTH, 134},  /* the index length: the first byte of the text that is left over */
        {0x45, 133, HV_REFUSED_END, 4},       /* SSMIndex is past the end of the text: its header */
        {584, 0, HV_REFUSED_NAME, 0},         /* SSMIndex's mark: byte 0 of the text */
        {607, 0, HV_REFUSED_VERSION, 20},     /* its version */
        {607, 3, HV_REFUSED_VERSION, 20},
        {607, 2, HV_REFUSED_END, 105},        /* version 2: last rows of 8 bytes, and the Block has room for one */
        {615, 0, HV_REFUSED_RANGE, 28},       /* rows per bucket */
        {623, 41, HV_REFUSED_LENGTH, 36},     /* the map's length */
        {713, 'N', HV_REFUSED_NAME, 40},      /* the map's name, which begins in the bucket before */
        {752, 3, HV_REFUSED_FACTS, 93},       /* the first Block's count */
        {759, 2, HV_REFUSED_MAP, 0},          /* the second last row: 518 */
        {785, 2, HV_REFUSED_VERSION, 118},    /* the second Block's version */
    };

    REFUSED_EACH(&table, DESCRIPTION, in_table);
    REFUSED_EACH(&file, CHECK, in_file);

    /* Case G: TIME at 16, in FLAG's extent. */
    table.at[0x3a5] = 16;
    refused_from(CHECK, HV_REFUSED_MAP, 0, __LINE__);
    table.at[0x3a5] = 17;
}

/*
 * The same of `little`: table.dat is big endian, and its DMInfo is an object SSM; in table.f0 numbers have their lowest byte first.
 * Where DMInfo's fields begin: its length at 906; the mark at 910; SSM's length, name and version at 914, 918 and 925; the manager's
 * name at 929; length, name, version and count of the Block of offsets at 946, 950, 959 and 963, the offsets at 967, 971 and 975;
 * those of the Block of set numbers at 979, 983, 992 and 996, the numbers at 1000, 1004 and 1008. SSM, Table and the file end at
 * 1012.
 */
static void ask_of_little_faults(void)
{
    static const struct fault in_table[] = {
        {0x1c, 2, HV_REFUSED_VALUE, 0x19},   /* the endianness */
        {0x19, 1, HV_REFUSED_VALUE, 0x19},   /* it is big endian itself */
        {909, 103, HV_REFUSED_END, 906},     /* DMInfo past Table's end: its length */
        {909, 101, HV_REFUSED_END, 914},     /* SSM past DMInfo's end: its header */
        {909, 18, HV_REFUSED_END, 925},      /* SSM's version does not fit into DMInfo */
        {909, 14, HV_REFUSED_END, 918},      /* nor its name */
        {909, 4, HV_REFUSED_END, 914},       /* DMInfo is the mark alone */
        {909, 3, HV_REFUSED_LENGTH, 906},    /* it has three bytes of it: no object, and 24 are needed */
        {909, 0, HV_REFUSED_LENGTH, 906},    /* it is empty */
        {913, 0xbf, HV_REFUSED_LENGTH, 906}, /* another mark: no object, and 102 bytes are not 24 */
        {917, 99, HV_REFUSED_END, 914},      /* SSM's length: it ends behind DMInfo */
        {917, 97, HV_REFUSED_END, 979},      /* the second Block ends behind it */
        {917, 15, HV_REFUSED_END, 929},      /* the name does not fit into it */
        {917, 14, HV_REFUSED_LENGTH, 914},   /* its header does not */
        {922, 'I', HV_REFUSED_NAME, 918},    /* ISM is the other manager's */
        {921, 4, HV_REFUSED_NAME, 918},      /* the length of its name */
        {928, 1, HV_REFUSED_VERSION, 925},   /* SSM's version */
        {928, 3, HV_REFUSED_VERSION, 925},   /* and that of ISM */
        {932, 80, HV_REFUSED_END, 929},      /* the length of the manager's name: 79 bytes are left */
        {932, 79, HV_REFUSED_END, 1012},     /* and now nothing for a Block */
        {949, 67, HV_REFUSED_END, 946},      /* the Block of offsets ends behind SSM */
        {949, 34, HV_REFUSED_LENGTH, 946},   /* it has a byte left over */
        {949, 32, HV_REFUSED_END, 975},      /* its last offset does not fit */
        {949, 20, HV_REFUSED_END, 963},      /* its count does not */
        {949, 16, HV_REFUSED_LENGTH, 946},   /* its header does not */
        {954, 'C', HV_REFUSED_NAME, 950},    /* its name */
        {962, 2, HV_REFUSED_VERSION, 959},   /* its version */
        {966, 2, HV_REFUSED_FACTS, 963},     /* 2 offsets for 3 columns */
        {966, 4, HV_REFUSED_FACTS, 963},     /* 4 of them, which would not fit: the count comes first */
        {963, 0xff, HV_REFUSED_FACTS, 963},  /* more than any file has */
        {982, 34, HV_REFUSED_END, 979},      /* the Block of set numbers ends behind SSM */
        {982, 32, HV_REFUSED_END, 1008},     /* its last number does not fit */
        {987, 'C', HV_REFUSED_NAME, 983},    /* its name */
        {995, 0, HV_REFUSED_VERSION, 992},   /* its version */
        {999, 2, HV_REFUSED_FACTS, 996},     /* 2 set numbers for 3 columns */
        {999, 4, HV_REFUSED_FACTS, 996},     /* 4 of them */
    };
    static const struct fault of_columns[] = {
        {978, 16, HV_REFUSED_MAP, 0},   /* case G: TIME at 16, in FLAG's extent; offsets come first */
        {978, 33, HV_REFUSED_MAP, 0},   /* case J: TIME at 33 */
        {1011, 1, HV_REFUSED_MAP, 0},   /* TIME in a second set, which there is not */
        {1000, 1, HV_REFUSED_MAP, 0},   /* SCAN in set 16,777,216: table.dat is big endian */
    };
    static const struct fault in_file[] = {
        {0, 0, HV_REFUSED_NAME, 0},          /* the mark */
        {0x04, 71, HV_REFUSED_LENGTH, 4},    /* the header's length */
        {0x07, 1, HV_REFUSED_END, 4},        /* its highest byte: it ends behind the 512 bytes */
        {0x08, 14, HV_REFUSED_NAME, 8},      /* the length of its name */
        {0x0b, 1, HV_REFUSED_END, 8},        /* its highest byte */
        {0x19, 2, HV_REFUSED_VERSION, 0x19}, /* the header's version */
        {0x19, 5, HV_REFUSED_VERSION, 0x19},
        {0x1c, 3, HV_REFUSED_VERSION, 0x19}, /* its highest byte */
        {0x1d, 2, HV_REFUSED_VALUE, 0x1d},   /* the endianness */
        {0x1d, 1, HV_REFUSED_FACTS, 0x1d},   /* the other endianness */
        {0x1e, 15, HV_REFUSED_RANGE, 0x1e},  /* the bucket size */
        {0x21, 1, HV_REFUSED_RANGE, 0x1e},   /* its highest byte */
        {0x22, 6, HV_REFUSED_END, 832},      /* the number of buckets: the file's end */
        {0x32, 2, HV_REFUSED_CHAIN, 0},      /* case I: index number 2 for three links */
        {0x3a, 7, HV_REFUSED_RANGE, 0x3a},   /* the offset of the index */
        {0x42, 135, HV_REFUSED_LENGTH, 134}, /* the index length: the first byte of the text that is left over */
        {0x42, 133, HV_REFUSED_END, 4},      /* SSMIndex is past the end of the text: its header */
        {0x46, 2, HV_REFUSED_END, 134},      /* the number of indices: there is no second mark */
        {584, 0, HV_REFUSED_NAME, 0},        /* SSMIndex's mark: byte 0 of the text */
        {604, 3, HV_REFUSED_VERSION, 20},    /* its version */
        {604, 2, HV_REFUSED_END, 105},       /* version 2: last rows of 8 bytes, and the Block has room for one */
        {612, 0, HV_REFUSED_RANGE, 28},      /* rows per bucket */
        {620, 41, HV_REFUSED_LENGTH, 36},    /* the map's length */
        {713, 'N', HV_REFUSED_NAME, 40},     /* the map's name, which begins in the bucket before */
        {749, 3, HV_REFUSED_FACTS, 93},      /* the first Block's count */
        {752, 2, HV_REFUSED_FACTS, 93},      /* its highest byte */
        {758, 2, HV_REFUSED_MAP, 0},         /* the second last row: 518 */
        {782, 2, HV_REFUSED_VERSION, 118},   /* the second Block's version */
        {579, 0, HV_REFUSED_CHAIN, 0},       /* a link: the lowest byte is its last in every file */
    };

    REFUSED_EACH(&table, DESCRIPTION, in_table);
    REFUSED_EACH(&table, CHECK, of_columns);
    REFUSED_EACH(&file, CHECK, in_file);
}

static void ask_of_cuts(void)
{
    size_t i, before;

    room_len = 200;
    /* Cut: the first field of the header that is not there, or the header where only its end is missing, or the file's end. */
    before = file.len;
    for (i = 0; i < before; i++) {
        uint64_t field = i < 4 ? 0 : i < 8 ? 4 : i < 25 ? 8 : i < 29 ? 25 : i < 74 ? 4 : i;
        file.len = i;
        blamed_from(CHECK, HV_REFUSED_END, field, __LINE__);
        if (i % 64 == 0)
            refused_from(CHECK, HV_REFUSED_END, field, __LINE__);
    }
    file.len = before;
    before = table.len;
    for (i = 0; i < before; i++) {
        uint64_t field = i < 4 ? 0 : i < 8 ? 4 : i < 17 ? 8 : i < 21 ? 17 : 4;
        table.len = i;
        blamed_from(DESCRIPTION, HV_REFUSED_END, field, __LINE__);
        if (i % 64 == 0)
            refused_from(DESCRIPTION, HV_REFUSED_END, field, __LINE__);
    }
    table.len = before;
}

/* Bytes after the Table object are not read, but they count. */
static void ask_of_long_table(uint64_t is_big)
{
    const uint64_t description[] = {7, is_big, 3, 1, 0};
    size_t before = table.len;

    table.len = 65536;
    ACCEPTED(DESCRIPTION, description);
    table.len = 65537;
    refused_from(DESCRIPTION, HV_REFUSED_RANGE, 65536, __LINE__);
    table.len = 65600;
    refused_from(DESCRIPTION, HV_REFUSED_RANGE, 65536, __LINE__);
    table.len = before;
}

/* The place of TIME in row 5, case A, after a check that accepts. */
static void accepted_time(int line)
{
    const uint64_t bucket_size[] = {64, 0};
    const uint64_t place[] = {4296, 64, 1, 2, 0};

    number = 0;
    accepted(CHECK, bucket_size, HV_CHECK_LEN, line);
    row = 5;
    number = 2;
    accepted(PLACE, place, HV_PLACE_LEN, line);
}

/* The table's endianness alone decides the byte order of header and index. Links and the form of DMInfo do not hang on it. */
static void ask_of_byte_orders(const char *samples)
{
    /* DMInfo's old form in a little endian table, and the new one in a big endian table. */
    load(samples, "little");
    read_file(&table, samples, "small", "table.dat");
    table.at[0x1c] = 0;
    accepted_time(__LINE__);
    load(samples, "small");
    read_file(&table, samples, "little", "table.dat");
    table.at[0x1c] = 1;
    accepted_time(__LINE__);

    /* A header in the other order, as a little endian file had it up to 1.3.0: its name has a length that is too large. */
    load(samples, "little");
    read_file(&file, samples, "small", "table.f0");
    file.at[0x1d] = 0;
    refused_from(CHECK, HV_REFUSED_END, 8, __LINE__);
    load(samples, "small");
    read_file(&file, samples, "little", "table.f0");
    file.at[0x1d] = 1;
    refused_from(CHECK, HV_REFUSED_END, 8, __LINE__);

    /* Index text in the other order: SSMIndex's length and that of its name, in the first bucket of the text. */
    load(samples, "little");
    memcpy(file.at + 588, "\0\0\0\x82\0\0\0\x08", 8);
    refused_from(CHECK, HV_REFUSED_END, 8, __LINE__);

    /* Links of the index in the other order. */
    load(samples, "little");
    memcpy(file.at + 576, "\3\0\0\0\3\0\0\0", 8);
    refused_from(CHECK, HV_REFUSED_CHAIN, 0, __LINE__);

    /* Two buckets more, 5 and 6, which are free: their numbers in the header are little endian, the link is not. */
    load(samples, "little");
    memset(file.at + 832, 0, 128);
    file.len = 960;
    file.at[0x22] = 7;
    memcpy(file.at + 0x2a, "\2\0\0\0\5\0\0\0", 8);
    memcpy(file.at + 832, "\0\0\0\6", 4);
    memcpy(file.at + 896, "\xff\xff\xff\xff", 4);
    accepted_time(__LINE__);
    memcpy(file.at + 832, "\6\0\0\0", 4);
    refused_from(CHECK, HV_REFUSED_CHAIN, 0, __LINE__);
}

/* Adds to a number of table.dat, which has 2 bytes at most. */
static void add_at(size_t at, size_t more)
{
    size_t sum = (size_t)table.at[at + 2] * 256 + table.at[at + 3] + more;

    table.at[at + 2] = (uint8_t)(sum / 256);
    table.at[at + 3] = (uint8_t)(sum % 256);
}

/* The manager's name in DMInfo of `little` has another length. */
static void load_named(const char *samples, size_t len)
{
    load(samples, "little");
    memmove(table.at + 933 + len, table.at + 946, table.len - 946);
    memset(table.at + 933, 'n', len);
    table.len = table.len - 13 + len;
    add_at(4, len - 13);
    add_at(906, len - 13);
    add_at(914, len - 13);
    add_at(929, len - 13);
}

/* Bytes that are left over in `little`, and the length of a name that is not judged otherwise. */
static void ask_of_info(const char *samples)
{
    static const size_t lens[] = {0, 1, 12, 14, 16, 4096};
    size_t i;

    for (i = 0; i < sizeof lens / sizeof *lens; i++) {
        load_named(samples, lens[i]);
        accepted_time(__LINE__);
    }
    load_named(samples, 4097);
    refused_from(DESCRIPTION, HV_REFUSED_RANGE, 929, __LINE__);

    /* A byte of DMInfo behind SSM, and one of SSM behind its last field. */
    load(samples, "little");
    table.len += 1;
    add_at(4, 1);
    add_at(906, 1);
    refused_from(DESCRIPTION, HV_REFUSED_LENGTH, 906, __LINE__);
    add_at(914, 1);
    refused_from(DESCRIPTION, HV_REFUSED_LENGTH, 914, __LINE__);
}

static void put(struct bytes *bytes, size_t at, uint64_t value, size_t width, int is_big)
{
    size_t i;

    for (i = 0; i < width; i++)
        bytes->at[at + i] = (uint8_t)(value >> 8 * (is_big ? width - 1 - i : i));
}

static void insert(struct bytes *bytes, size_t at, size_t more)
{
    memmove(bytes->at + at + more, bytes->at + at, bytes->len - at);
    bytes->len += more;
}

/*
 * Row numbers of 8 bytes in the small tables. ColumnSet is -3: its version stands at 809, and its row count at 813. The count in
 * Table's header, at 21, is not compared with it.
 */
static void widen_table(uint64_t rows, uint64_t in_header)
{
    put(&table, 21, in_header, 4, 1);
    put(&table, 809, 0xfffffffd, 4, 1);
    insert(&table, 813, 4);
    put(&table, 813, rows, 8, 1);
    add_at(4, 4);
}

/*
 * SSMIndex is 2. The index text has 142 bytes: SSMIndex begins at 4, its version at 20, the Block of last rows at 76, its count at
 * 93, the last rows at 97 and 105, the Block of bucket numbers at 113. The second of the last rows lies in two buckets.
 */
static void widen_index(uint64_t first, uint64_t second, int is_big)
{
    insert(&text, 105, 8);
    put(&text, 4, 138, 4, is_big);
    put(&text, 20, 2, 4, is_big);
    put(&text, 76, 37, 4, is_big);
    put(&text, 97, first, 8, is_big);
    put(&text, 105, second, 8, is_big);
    put(&file, 66, text.len, 4, is_big);
    memcpy(file.at + 584, text.at, 56);
    memcpy(file.at + 712, text.at + 56, 56);
    memcpy(file.at + 776, text.at + 112, 30);
    room_len = text.len;
}

/* StandardStMan is 4, which changes nothing else. */
static void widen_header(int is_big)
{
    put(&file, 25, 4, 4, is_big);
}

static const char *const by_order[] = {"little", "small"};

/* ColumnSet -3, StandardStMan 4 and SSMIndex 2, each on its own and together: the answers are those of the small file. */
static void ask_of_wide_files(const char *samples)
{
    int is_big, which;

    for (is_big = 0; is_big < 2; is_big++)
        for (which = 1; which < 8; which++) {
            const uint64_t description[] = {7, (uint64_t)is_big, 3, 1, 0};
            load(samples, by_order[is_big]);
            if (which & 1)
                widen_table(7, which == 7 ? 0xffffffff : 0);
            if (which & 2)
                widen_header(is_big);
            if (which & 4)
                widen_index(3, 6, is_big);
            ACCEPTED(DESCRIPTION, description);
            accepted_time(__LINE__);
            if (which == 7)
                ask_of_cells();
        }
}

/* Row counts of ColumnSet -3, up to 2^62, and of -2, every uInt. The file has 7 rows, and no other count fits. */
static void ask_of_row_counts(const char *samples)
{
    static const uint64_t in_range[] = {
        0, 6, 7, 8, 0x7fffffff, 0x80000000, 0xffffffff, UINT64_C(1) << 32, (UINT64_C(1) << 32) + 7, UINT64_C(5000000000),
        (UINT64_C(1) << 53) + 1, UINT64_C(7) << 32, UINT64_C(0x3fffffffffffffff), UINT64_C(1) << 62,
    };
    static const uint64_t outside[] = {
        (UINT64_C(1) << 62) + 1, UINT64_C(0x7fffffffffffffff), UINT64_C(1) << 63, (UINT64_C(1) << 63) + 7, UINT64_MAX - 6,
        UINT64_MAX,
    };
    uint64_t description[] = {0, 1, 3, 1, 0};
    size_t i;

    for (i = 0; i < sizeof in_range / sizeof *in_range; i++) {
        description[HV_DESCRIPTION_ROWS] = in_range[i];
        load(samples, "small");
        widen_table(in_range[i], 7);
        ACCEPTED(DESCRIPTION, description);
        if (in_range[i] == 7)
            accepted_time(__LINE__);
        else
            refused_from(CHECK, HV_REFUSED_MAP, 0, __LINE__);
        if (in_range[i] > 0xffffffff)
            continue;
        load(samples, "small");
        put(&table, 21, in_range[i], 4, 1);
        put(&table, 813, in_range[i], 4, 1);
        ACCEPTED(DESCRIPTION, description);
        put(&table, 813, in_range[i] + 1, 4, 1);
        refused_from(DESCRIPTION, HV_REFUSED_FACTS, 813, __LINE__);
    }
    for (i = 0; i < sizeof outside / sizeof *outside; i++) {
        load(samples, "small");
        widen_table(outside[i], 7);
        refused_from(DESCRIPTION, HV_REFUSED_RANGE, 813, __LINE__);
    }
}

/* A negative last row gives 4 where it stands; one that is too large is left to the map. */
static void ask_of_wide_faults(const char *samples)
{
    static const struct fault in_table[] = {
        {812, 0xfc, HV_REFUSED_VERSION, 809}, /* ColumnSet -4 */
        {812, 0xfe, HV_REFUSED_FACTS, 813},   /* -2: the row count has 4 bytes, and they are 0 */
        {809, 0x7f, HV_REFUSED_VERSION, 809}, /* it is big endian */
    };
    static const struct {
        uint64_t first, second;
        enum hv_number refusal;
        uint64_t byte;
    } last_rows[] = {
        {UINT64_C(1) << 63, 6, HV_REFUSED_RANGE, 97},
        {UINT64_MAX, 6, HV_REFUSED_RANGE, 97},
        {3, UINT64_MAX, HV_REFUSED_RANGE, 105},
        {3, (UINT64_C(1) << 63) + 6, HV_REFUSED_RANGE, 105},
        {UINT64_MAX, UINT64_MAX, HV_REFUSED_RANGE, 97},
        {3, UINT64_C(0x7fffffffffffffff), HV_REFUSED_MAP, 0},
        {3, (UINT64_C(1) << 62) + 6, HV_REFUSED_MAP, 0},
        {3, (UINT64_C(1) << 32) + 6, HV_REFUSED_MAP, 0}, /* cut to 32 bits, it is 6 */
        {(UINT64_C(1) << 32) + 3, 6, HV_REFUSED_MAP, 0},
        {3, UINT64_C(6) << 32, HV_REFUSED_MAP, 0},
    };
    size_t i;
    int is_big;

    load(samples, "small");
    widen_table(7, 7);
    REFUSED_EACH(&table, DESCRIPTION, in_table);
    for (is_big = 0; is_big < 2; is_big++) {
        load(samples, by_order[is_big]);
        widen_index(3, 6, is_big);
        put(&file, 604, 3, 4, is_big);
        refused_from(CHECK, HV_REFUSED_VERSION, 20, __LINE__);
        put(&file, 604, 1, 4, is_big); /* last rows of 4 bytes: the Block has 8 bytes left over */
        refused_from(CHECK, HV_REFUSED_LENGTH, 76, __LINE__);
        put(&file, 604, 2, 4, is_big);
        put(&file, 749, 3, 4, is_big);
        refused_from(CHECK, HV_REFUSED_FACTS, 93, __LINE__);
        put(&file, 749, 2, 4, is_big);
        put(&file, 732, 36, 4, is_big);
        refused_from(CHECK, HV_REFUSED_END, 105, __LINE__);
        put(&file, 753, UINT64_MAX, 8, is_big); /* an earlier last row is judged before a later one that does not fit */
        refused_from(CHECK, HV_REFUSED_RANGE, 97, __LINE__);
        for (i = 0; i < sizeof last_rows / sizeof *last_rows; i++) {
            load(samples, by_order[is_big]);
            widen_index(last_rows[i].first, last_rows[i].second, is_big);
            refused_from(CHECK, last_rows[i].refusal, last_rows[i].byte, __LINE__);
        }
    }
}

/*
 * SSMIndex 2 in one of the two sets of `arrays`, or in both: each set has a version of its own. The index text of table.f0 is in one
 * bucket, from 12050 on, with 126 bytes for each set; a last row of 8 bytes takes 4 more.
 */
static void ask_of_mixed_sets(const char *samples)
{
    const uint64_t uvw[] = {6720, 192, 0, 1, 0}, flag_corr[] = {45132, 4, 0, 1, 0};
    size_t which, set, at;

    for (which = 1; which < 4; which++) {
        read_file(&table, samples, "arrays", "table.dat");
        read_file(&file, samples, "arrays", "table.f0");
        text.len = 252;
        for (set = 2; set-- > 0;) { /* the second set first, so that the first is where it was */
            if (!(which >> set & 1))
                continue;
            at = 12050 + 126 * set;
            memmove(file.at + at + 105, file.at + at + 101, 200);
            put(&file, at + 4, 126, 4, 0);
            put(&file, at + 20, 2, 4, 0);
            put(&file, at + 76, 29, 4, 0);
            put(&file, at + 97, 19, 8, 0);
            text.len += 4;
        }
        put(&file, 66, text.len, 4, 0);
        memcpy(text.at, file.at + 12050, text.len);
        room_len = text.len;
        row = 3;
        number = 3; /* UVW, in the first set */
        ACCEPTED(PLACE, uvw);
        number = 13; /* FLAG_CORR, in the second */
        ACCEPTED(PLACE, flag_corr);

        /* Of the second set: its last row, if it has 8 bytes, is negative; another version. */
        at = which & 1 ? 130 : 126;
        if (which & 2) {
            file.at[12050 + at + 104] = 0x80;
            refused(PLACE, HV_REFUSED_RANGE, at + 97, __LINE__);
        }
        put(&file, 12050 + at + 20, 3, 4, 0);
        refused(PLACE, HV_REFUSED_VERSION, at + 20, __LINE__);
    }
}

/* Number and byte of every question over table.f1 of `arrays`, by SCAN_NUMBER, which its manager keeps. Row 7 is in bucket 2. */
static void blamed_incremental(enum hv_number refusal, uint64_t byte, int line)
{
    int question;

    row = 7;
    for (question = CHECK; question <= IN_BUCKET; question++) {
        number = question == CHECK ? 1 : 4;
        blamed((enum question)question, refusal, byte, line);
    }
}

/*
 * DMInfo of IncrementalStMan in `arrays`: 24 bytes, for three columns, of which SCAN_NUMBER is the second. Its length is at 4328; in
 * the old form set numbers begin at 4332 and offsets at 4344; as an object it has the mark at 4332, length, name and version of ISM
 * at 4336, 4340 and 4347, the manager's name, of one byte, at 4351. At 4356 and 4360 stand the lengths of two that are empty.
 */
static void ask_of_incremental_info(const char *samples)
{
    static const struct fault faults[] = {
        {4331, 25, HV_REFUSED_LENGTH, 4328},  /* DMInfo has a byte behind ISM: its length */
        {4331, 23, HV_REFUSED_END, 4336},     /* ISM ends behind it: its header */
        {4331, 3, HV_REFUSED_LENGTH, 4328},   /* three bytes of the mark: no object, and 24 are needed */
        {4339, 21, HV_REFUSED_END, 4336},     /* ISM's length: it ends behind DMInfo */
        {4339, 19, HV_REFUSED_END, 4351},     /* the name does not fit into it */
        {4339, 14, HV_REFUSED_LENGTH, 4336},  /* its header does not */
        {4344, 'S', HV_REFUSED_NAME, 4340},   /* SSM is the other manager's */
        {4350, 2, HV_REFUSED_VERSION, 4347},  /* and so is version 2 */
        {4350, 4, HV_REFUSED_VERSION, 4347},
        {4354, 2, HV_REFUSED_END, 4351},      /* the name's length */
        {4354, 0, HV_REFUSED_LENGTH, 4336},   /* and now ISM has a byte left over */
    };
    const uint64_t place[] = {6368, 32, 0, 0, 0};
    size_t i;

    read_file(&table, samples, "arrays", "table.dat");
    read_file(&file, samples, "arrays", "table.f1");
    text.len = 0;
    room_len = 0;
    row = 7;
    number = 4;

    /* The numbers of the old form are told, and not used. */
    memcpy(table.at + 4336, "\0\0\0\x05", 4);
    memcpy(table.at + 4348, "\0\0\1\x02", 4);
    HOLD(ask(COLUMN, HV_COLUMN_LEN) == HV_ACCEPTED, __LINE__);
    HOLD(out[HV_COLUMN_SET] == 5 && out[HV_COLUMN_OFFSET] == 258, __LINE__);
    ACCEPTED(PLACE, place);

    /* The object has none. */
    memcpy(table.at + 4332, "\xbe\xbe\xbe\xbe\0\0\0\x14\0\0\0\3ISM\0\0\0\3\0\0\0\1n", 24);
    HOLD(ask(COLUMN, HV_COLUMN_LEN) == HV_ACCEPTED, __LINE__);
    HOLD(out[HV_COLUMN_SET] == 0 && out[HV_COLUMN_OFFSET] == 0, __LINE__);
    ACCEPTED(PLACE, place);
    REFUSED_EACH(&table, DESCRIPTION, faults);

    /* Without the mark these are three set numbers and three offsets. */
    table.at[4335] = 0xbf;
    row = 7;
    number = 4;
    HOLD(ask(COLUMN, HV_COLUMN_LEN) == HV_ACCEPTED, __LINE__);
    HOLD(out[HV_COLUMN_SET] == 20 && out[HV_COLUMN_OFFSET] == 768, __LINE__);
    ACCEPTED(PLACE, place);

    /* DMInfo of another kind is not looked at, the mark or not. */
    for (i = 0; i < 2; i++) {
        read_file(&table, samples, "arrays", "table.dat");
        memcpy(table.at + 4356, "\0\0\0\4\xbe\xbe\xbe\xbe\0\0\0\0", 12);
        table.at[4363] -= (uint8_t)i;
        table.len = 4368;
        add_at(4, 4);
        ACCEPTED(PLACE, place);
    }
}

/* Little endian, with four managers: table.f1 is IncrementalStMan's. */
static void ask_of_incremental(const char *samples)
{
    static const struct fault faults[] = {
        {0x20, 1, HV_REFUSED_FACTS, 0x20},      /* the endianness */
        {0x21, 15, HV_REFUSED_RANGE, 0x21},     /* the bucket size: the lowest byte is the first */
        {0x24, 1, HV_REFUSED_RANGE, 0x21},      /* its highest byte */
        {0x25, 4, HV_REFUSED_END, 986},         /* the number of buckets: the file's end */
        {0x383, 0, HV_REFUSED_NAME, 0x380},     /* ISMIndex's mark */
        {0x384, 87, HV_REFUSED_END, 0x384},     /* ISMIndex past the end of the file: its header */
        {0x394, 0, HV_REFUSED_VERSION, 0x394},  /* its version */
        {0x394, 3, HV_REFUSED_VERSION, 0x394},
        {0x394, 2, HV_REFUSED_END, 0x3b9},      /* version 2: first rows of 8 bytes, and the Block has room for one */
        {0x3ad, 4, HV_REFUSED_FACTS, 0x3ad},    /* the count of first rows */
        {0x39c, 34, HV_REFUSED_LENGTH, 0x39c},  /* the length of the first Block: a byte is left over */
        {0x3bd, 30, HV_REFUSED_END, 0x3bd},     /* that of the second: it is past the end of ISMIndex */
        {0x3bd, 28, HV_REFUSED_END, 0x3d6},     /* and now its last element does not fit */
        {0x3b5, 0, HV_REFUSED_MAP, 0},          /* the second of the first rows */
        {0x303, 1, HV_REFUSED_MAP, 0},          /* starts of 8 bytes in bucket 2, the first of the index: the first is not 0 */
        {0x300, 126, HV_REFUSED_END, 0x37e},    /* x: the index part has two bytes, and the bucket ends in a number */
        {0x300, 128, HV_REFUSED_END, 0x380},    /* x: it has none */
        {0x300, 3, HV_REFUSED_MAP, 0},          /* x below 4 */
        {0x32c, 9, HV_REFUSED_MAP, 0},          /* a start */
    };
    const uint64_t description[] = {20, 0, 15, 4, 0};
    const uint64_t kinds[] = {HV_STANDARD, HV_INCREMENTAL, HV_OTHER_KIND, HV_OTHER_KIND};
    const uint64_t sequences[] = {0, 1, 2, 4};
    const uint64_t scan_number[] = {4, 1, HV_TYPE_INT, 1, 32, 0, 0, 0, 128, 0};
    const uint64_t place[] = {6368, 32, 0, 0, 0};
    const uint64_t view[] = {796, 4, 0};
    const uint64_t in_bucket[] = {6368, 32, 128, 0};
    const uint64_t bucket_size[] = {128, 0};
    size_t i, before;

    read_file(&table, samples, "arrays", "table.dat");
    read_file(&file, samples, "arrays", "table.f1");
    text.len = 0;

    ACCEPTED(DESCRIPTION, description);
    for (number = 0; number < 4; number++) {
        HOLD(ask(MANAGER, HV_MANAGER_LEN) == HV_ACCEPTED, __LINE__);
        HOLD(out[HV_MANAGER_SEQUENCE] == sequences[number] && out[HV_MANAGER_KIND] == kinds[number], __LINE__);
    }
    for (room_len = 0; room_len <= 40; room_len += 40) {
        number = 1;
        ACCEPTED(CHECK, bucket_size);
        number = 2; /* TiledShapeStMan */
        REFUSED(CHECK, HV_REFUSED_MISSING);
        number = 6; /* its column FLAG */
        REFUSED(PLAN, HV_REFUSED_MISSING);
        REFUSED(VIEW, HV_REFUSED_MISSING);
        REFUSED(PADDED, HV_REFUSED_MISSING);
        REFUSED(IN_BUCKET, HV_REFUSED_MISSING);
        number = 4;
        row = 7;
        set_plan(scan_number);
        ACCEPTED(PLAN, scan_number);
        ACCEPTED(PLACE, place);
        ACCEPTED(PLACE_PLANNED, place);
        ACCEPTED(VIEW, view);
        ACCEPTED(VIEW_PLANNED, view);
        ACCEPTED(PADDED, view);
        ACCEPTED(PADDED_PLANNED, view);
        ACCEPTED(IN_BUCKET, in_bucket);
        row = 20;
        REFUSED(PLACE, HV_REFUSED_ROW);
        REFUSED(IN_BUCKET, HV_REFUSED_ROW);
        plan[HV_PLAN_BUCKET_SIZE] = 129;
        REFUSED(VIEW_PLANNED, HV_REFUSED_PLAN);
        REFUSED(PADDED_PLANNED, HV_REFUSED_PLAN);
    }

    set_plan(scan_number);
    for (i = 0; i < sizeof faults / sizeof *faults; i++) {
        uint8_t good = file.at[faults[i].at];
        file.at[faults[i].at] = faults[i].byte;
        blamed_incremental(faults[i].refusal, faults[i].field, __LINE__);
        file.at[faults[i].at] = good;
    }
    /* The header, then the ISMIndex, big endian, as up to 1.3.0: length and name, whose length is too large now. */
    memcpy(file.at + 4, "\0\0\0\x35\0\0\0\x10", 8);
    blamed_incremental(HV_REFUSED_END, 8, __LINE__);
    read_file(&file, samples, "arrays", "table.f1");
    memcpy(file.at + 900, "\0\0\0\x56\0\0\0\x08", 8);
    blamed_incremental(HV_REFUSED_END, 904, __LINE__);
    read_file(&file, samples, "arrays", "table.f1");

    /* Cut: as StandardStMan's; and ISMIndex stands behind the buckets, so its fields are counted from the file's start. */
    before = file.len;
    for (i = 0; i < before; i++) {
        uint64_t header = i < 4 ? 0 : i < 8 ? 4 : i < 28 ? 8 : i < 32 ? 28 : i < 57 ? 4 : i;
        uint64_t index = i < 900 ? 896 : i < 904 ? 900 : i < 916 ? 904 : i < 920 ? 916 : 900;
        file.len = i;
        blamed_incremental(HV_REFUSED_END, i < 896 ? header : index, __LINE__);
    }
    file.len = before;
}

/*
 * ISMIndex 2, in `arrays`: its version stands at 0x394, the Block of first rows at 0x39c, the first rows, of 8 bytes, at 0x3b1,
 * 0x3b9 and 0x3c1.
 */
static void widen_first_rows(uint64_t second, uint64_t third)
{
    insert(&file, 0x3bd, 12);
    put(&file, 0x384, 98, 4, 0);
    put(&file, 0x394, 2, 4, 0);
    put(&file, 0x39c, 45, 4, 0);
    put(&file, 0x3b1, 0, 8, 0);
    put(&file, 0x3b9, second, 8, 0);
    put(&file, 0x3c1, third, 8, 0);
}

/* A bucket of `arrays`, of 128 bytes and three columns, with starts of 8 bytes: a high byte above 0 in its first number says so. */
static void widen_bucket(size_t at, uint8_t high)
{
    uint8_t old[128];
    size_t column, from, to, i;

    memcpy(old, file.at + at, sizeof old);
    from = old[0];
    to = at + from;
    memset(file.at + to, 0, sizeof old - from);
    for (column = 0; column < 3; column++) {
        size_t count = old[from];
        memcpy(file.at + to, old + from, 4);
        for (i = 0; i < count; i++)
            memcpy(file.at + to + 4 + 8 * i, old + from + 4 + 4 * i, 4);
        memcpy(file.at + to + 4 + 8 * count, old + from + 4 + 4 * count, 4 * count);
        from += 4 + 8 * count;
        to += 4 + 12 * count;
    }
    file.at[at + 3] = high;
}

/* The places of every row and column of `arrays` in table.f1. */
static void take_places(uint64_t (*places)[3])
{
    static const uint64_t columns[] = {0, 4, 5};
    size_t k;

    for (row = 0; row < 20; row++)
        for (k = 0; k < 3; k++) {
            number = columns[k];
            HOLD(ask(PLACE, HV_PLACE_LEN) == HV_ACCEPTED, __LINE__);
            places[row][k] = out[HV_PLACE_FIRST_BIT];
        }
}

/* ISMIndex 2, and buckets 2 and 0 with starts of 8 bytes, each on its own and together: the places stay. */
static void ask_of_wide_incremental(const char *samples)
{
    static const struct {
        uint64_t second, third;
        enum hv_number refusal;
        uint64_t byte;
    } first_rows[] = {
        {UINT64_MAX, 20, HV_REFUSED_RANGE, 0x3b9},
        {12, (UINT64_C(1) << 63) + 20, HV_REFUSED_RANGE, 0x3c1},
        {UINT64_C(1) << 63, UINT64_MAX, HV_REFUSED_RANGE, 0x3b9},
        {12, (UINT64_C(1) << 32) + 20, HV_REFUSED_MAP, 0}, /* cut to 32 bits, it is 20 */
        {(UINT64_C(1) << 32) + 12, 20, HV_REFUSED_MAP, 0},
        {12, (UINT64_C(1) << 62) + 1, HV_REFUSED_MAP, 0},
    };
    /* Bucket 2 with starts of 8 bytes: the starts of TIME at 0x32c, 0x334 and 0x33c, its offsets from 0x344 on. */
    static const struct fault in_bucket[] = {
        {0x333, 0x80, HV_REFUSED_MAP, 0}, /* a negative start, which should be 0 */
        {0x33b, 0x80, HV_REFUSED_MAP, 0}, /* a later one */
        {0x338, 1, HV_REFUSED_MAP, 0},    /* 2^32 + 4: it is not below the bucket's rows, but is if it is cut */
        {0x334, 12, HV_REFUSED_MAP, 0},   /* nor is 12 */
        {0x344, 29, HV_REFUSED_MAP, 0},   /* an offset */
        {0x300, 3, HV_REFUSED_MAP, 0},    /* x, in the low three bytes: below 4 */
        {0x300, 129, HV_REFUSED_MAP, 0},  /* above the bucket size */
        {0x302, 1, HV_REFUSED_MAP, 0},    /* 65,576 */
        {0x300, 128, HV_REFUSED_END, 0x380}, /* the index part has no bytes */
        {0x303, 0, HV_REFUSED_MAP, 0},    /* starts of 4 bytes: the second is 0 */
        {0x328, 7, HV_REFUSED_MAP, 0},    /* the number of values */
    };
    const uint64_t scan_number[] = {4, 1, HV_TYPE_INT, 1, 32, 0, 0, 0, 128, 0};
    uint64_t narrow[20][3], wide[20][3];
    size_t i;
    int which;

    read_file(&table, samples, "arrays", "table.dat");
    read_file(&file, samples, "arrays", "table.f1");
    text.len = 0;
    room_len = 0;
    set_plan(scan_number);
    take_places(narrow);
    for (which = 1; which < 8; which++) {
        read_file(&file, samples, "arrays", "table.f1");
        if (which & 1)
            widen_bucket(0x300, (uint8_t)(which * 36)); /* 36, 108, 180 or 252: any but 0 */
        if (which & 2)
            widen_bucket(0x200, which == 7 ? 255 : 1);
        if (which & 4)
            widen_first_rows(12, 20);
        take_places(wide);
        HOLD(memcmp(narrow, wide, sizeof wide) == 0, __LINE__);
        HOLD(wide[7][1] == 6368 && wide[19][0] == 4192, __LINE__);
    }
    for (i = 0; i < sizeof in_bucket / sizeof *in_bucket; i++) {
        read_file(&file, samples, "arrays", "table.f1");
        widen_bucket(0x300, 1);
        HOLD(file.at[in_bucket[i].at] != in_bucket[i].byte, __LINE__);
        file.at[in_bucket[i].at] = in_bucket[i].byte;
        blamed_incremental(in_bucket[i].refusal, in_bucket[i].field, __LINE__);
    }
    for (i = 0; i < sizeof first_rows / sizeof *first_rows; i++) {
        read_file(&file, samples, "arrays", "table.f1");
        widen_first_rows(first_rows[i].second, first_rows[i].third);
        blamed_incremental(first_rows[i].refusal, first_rows[i].byte, __LINE__);
    }
    /* The first of the first rows; and one that is too many for the Block. */
    read_file(&file, samples, "arrays", "table.f1");
    widen_first_rows(12, 20);
    put(&file, 0x3b1, UINT64_MAX, 8, 0);
    blamed_incremental(HV_REFUSED_RANGE, 0x3b1, __LINE__);
    put(&file, 0x3b1, 0, 8, 0);
    put(&file, 0x39c, 44, 4, 0);
    blamed_incremental(HV_REFUSED_END, 0x3c1, __LINE__);
    put(&file, 0x39c, 45, 4, 0);
    put(&file, 0x394, 3, 4, 0);
    blamed_incremental(HV_REFUSED_VERSION, 0x394, __LINE__);
    put(&file, 0x394, 1, 4, 0); /* first rows of 4 bytes: the Block has 12 bytes left over */
    blamed_incremental(HV_REFUSED_LENGTH, 0x39c, __LINE__);
}

/* The three columns of `arrays` in table.f1: TIME, SCAN_NUMBER and INTERVAL. */
static const uint64_t kept[] = {0, 4, 5};
static const uint64_t kept_bits[] = {64, 32, 64};

/* The place in one bucket of every row and column: refused for the rows from `from` on that are below `to`, and of no other. */
static void in_one_bucket(uint64_t (*places)[3], uint64_t from, uint64_t to, enum hv_number refusal, uint64_t byte, int line)
{
    size_t k;

    for (row = 0; row < 20; row++)
        for (k = 0; k < 3; k++) {
            const uint64_t place[] = {places[row][k], kept_bits[k], 128, 0};
            number = kept[k];
            if (row >= from && row < to) {
                blamed(IN_BUCKET, refusal, byte, line);
            } else {
                HOLD(ask(IN_BUCKET, HV_IN_BUCKET_LEN) == HV_ACCEPTED, line);
                HOLD(memcmp(out, place, sizeof place) == 0, line);
            }
            HOLD(room_is(0, room_len, 0), line);
        }
}

/* Rows that are not there are refused, by every column. */
static void of_no_row(enum hv_number refusal, uint64_t byte, int line)
{
    static const uint64_t absent[] = {20, 21, (UINT64_C(1) << 32) + 7, UINT64_MAX};
    size_t i, k;

    for (i = 0; i < sizeof absent / sizeof *absent; i++)
        for (k = 0; k < 3; k++) {
            row = absent[i];
            number = kept[k];
            blamed(IN_BUCKET, refusal, byte, line);
        }
}

#define IN_ROWS(faults, from, to) in_rows(places, faults, sizeof faults / sizeof *faults, from, to, __LINE__)

/* Each of the faults is in the bucket of the rows from `from` on that are below `to`. The check sees it for all. */
static void in_rows(uint64_t (*places)[3], const struct fault *faults, size_t count, uint64_t from, uint64_t to, int line)
{
    size_t i;

    for (i = 0; i < count; i++) {
        uint8_t good = file.at[faults[i].at];
        HOLD(good != faults[i].byte, line);
        file.at[faults[i].at] = faults[i].byte;
        number = 1;
        blamed(CHECK, faults[i].refusal, faults[i].field, line);
        in_one_bucket(places, from, to, faults[i].refusal, faults[i].field, line);
        of_no_row(HV_REFUSED_ROW, 0, line);
        row = from;
        number = 4;
        refused(IN_BUCKET, faults[i].refusal, faults[i].field, line);
        file.at[faults[i].at] = good;
    }
}

/* Names the first two managers of `arrays` with each other's names, which stand at 3776 and 3797 behind their lengths. */
static void exchange_managers(void)
{
    memmove(table.at + 3792, table.at + 3789, 4);
    memcpy(table.at + 3772, "\0\0\0\x10IncrementalStMan", 20);
    memcpy(table.at + 3796, "\0\0\0\x0dStandardStMan", 17);
}

/* 8 stands before the file: no such column, a column of another manager, and of type String. */
static void ask_of_no_bucket(const char *samples)
{
    const size_t lens[] = {file.len, 0};
    size_t i;

    row = 7;
    for (i = 0; i < 2; i++) {
        file.len = lens[i];
        for (number = 0; number < 15; number++)
            if (number != kept[0] && number != kept[1] && number != kept[2])
                REFUSED(IN_BUCKET, HV_REFUSED_MISSING);
        REFUSED(IN_BUCKET, HV_REFUSED_MISSING);
        number = (UINT64_C(1) << 32) + 4;
        REFUSED(IN_BUCKET, HV_REFUSED_MISSING);
        number = UINT64_MAX;
        REFUSED(IN_BUCKET, HV_REFUSED_MISSING);
    }
    number = 4;
    refused(IN_BUCKET, HV_REFUSED_END, 0, __LINE__);

    /* Now TIME, SCAN_NUMBER and INTERVAL are StandardStMan's, and its columns are IncrementalStMan's, three of them Strings. */
    exchange_managers();
    for (number = 0; number < 15; number++) {
        uint64_t position = number, manager, type;
        HOLD(ask(COLUMN, HV_COLUMN_LEN) == HV_ACCEPTED, __LINE__);
        manager = out[HV_COLUMN_SEQUENCE];
        type = out[HV_COLUMN_DATA_TYPE];
        HOLD((type == HV_TYPE_STRING) == (10 <= position && position <= 12), __LINE__);
        if (manager == 0 && type != HV_TYPE_STRING)
            refused(IN_BUCKET, HV_REFUSED_END, 0, __LINE__);
        else
            REFUSED(IN_BUCKET, HV_REFUSED_MISSING);
    }
    read_file(&table, samples, "arrays", "table.dat");
    file.len = lens[0];
}

/*
 * Place in one bucket, in table.f1 of `arrays`. Rows 0 to 11 are in bucket 2, at 0x300, whose index begins at 0x328, and rows 12 to
 * 19 in bucket 0, at 0x200, whose index begins at 0x220; bucket 1, at 0x280, is free. A bucket is judged whole, for all columns,
 * and only where the row is in it.
 */
static void ask_of_one_bucket(const char *samples)
{
    static const struct fault in_bucket_2[] = {
        {0x300, 3, HV_REFUSED_MAP, 0},       /* where its index begins */
        {0x300, 129, HV_REFUSED_MAP, 0},
        {0x300, 126, HV_REFUSED_END, 0x37e},
        {0x300, 128, HV_REFUSED_END, 0x380},
        {0x303, 1, HV_REFUSED_MAP, 0},       /* starts of 8 bytes */
        {0x328, 0, HV_REFUSED_MAP, 0},       /* TIME: the number of values, */
        {0x32c, 1, HV_REFUSED_MAP, 0},       /* the first start, */
        {0x334, 12, HV_REFUSED_MAP, 0},      /* the last, */
        {0x338, 29, HV_REFUSED_MAP, 0},      /* an offset */
        {0x34c, 33, HV_REFUSED_MAP, 0},      /* SCAN_NUMBER: its offset */
        {0x350, 9, HV_REFUSED_MAP, 0},       /* INTERVAL: the number of values, */
        {0x358, 29, HV_REFUSED_MAP, 0},      /* its offset */
    };
    static const struct fault in_bucket_0[] = {
        {0x200, 3, HV_REFUSED_MAP, 0},
        {0x200, 126, HV_REFUSED_END, 0x27e},
        {0x200, 128, HV_REFUSED_END, 0x280},
        {0x203, 1, HV_REFUSED_MAP, 0},
        {0x220, 0, HV_REFUSED_MAP, 0},
        {0x228, 8, HV_REFUSED_MAP, 0},
        {0x23c, 25, HV_REFUSED_MAP, 0},
        {0x248, 21, HV_REFUSED_MAP, 0},
    };
    /* In the header, the free chain and the index: they are judged for every row, and before the row. */
    static const struct fault before[] = {
        {0x20, 1, HV_REFUSED_FACTS, 0x20},     /* the endianness */
        {0x25, 4, HV_REFUSED_END, 986},        /* the number of buckets */
        {0x31, 0, HV_REFUSED_CHAIN, 0},        /* the number of free buckets */
        {0x35, 2, HV_REFUSED_CHAIN, 0},        /* the first of them */
        {0x280, 0, HV_REFUSED_CHAIN, 0},       /* the link in it */
        {0x394, 3, HV_REFUSED_VERSION, 0x394}, /* ISMIndex's version */
        {0x3ad, 4, HV_REFUSED_FACTS, 0x3ad},   /* the count of first rows */
        {0x3b1, 1, HV_REFUSED_MAP, 0},         /* the first rows */
        {0x3b5, 20, HV_REFUSED_MAP, 0},
        {0x3b9, 21, HV_REFUSED_MAP, 0},
        {0x3d2, 3, HV_REFUSED_MAP, 0},         /* the bucket numbers: there is no bucket 3, */
        {0x3d6, 1, HV_REFUSED_MAP, 0},         /* bucket 1 is free, */
        {0x3d6, 2, HV_REFUSED_MAP, 0},         /* bucket 2 is there twice */
    };
    static const size_t rooms[] = {0, 1, 40, HV_ROOM_MOST};
    const uint64_t last[] = {4192, 64, 128, 0};
    uint64_t places[20][3];
    size_t i;

    read_file(&table, samples, "arrays", "table.dat");
    read_file(&file, samples, "arrays", "table.f1");
    text.len = 0;
    room_len = 0;
    take_places(places);
    for (i = 0; i < sizeof rooms / sizeof *rooms; i++) {
        room_len = rooms[i];
        in_one_bucket(places, 20, 20, HV_ACCEPTED, 0, __LINE__);
        of_no_row(HV_REFUSED_ROW, 0, __LINE__);
        row = 19;
        number = 0;
        ACCEPTED(IN_BUCKET, last);
        row = 20;
        REFUSED(IN_BUCKET, HV_REFUSED_ROW);
    }
    room_len = 40;
    ask_of_no_bucket(samples);

    IN_ROWS(in_bucket_2, 0, 12);
    IN_ROWS(in_bucket_0, 12, 20);
    /* Both buckets are at fault: a row has the number of its own, and one that is not there comes before them. */
    file.at[0x300] = 128;
    file.at[0x200] = 3;
    number = 4;
    row = 11;
    refused(IN_BUCKET, HV_REFUSED_END, 0x380, __LINE__);
    row = 12;
    REFUSED(IN_BUCKET, HV_REFUSED_MAP);
    row = 20;
    REFUSED(IN_BUCKET, HV_REFUSED_ROW);
    read_file(&file, samples, "arrays", "table.f1");
    for (i = 0; i < sizeof before / sizeof *before; i++) {
        uint8_t good = file.at[before[i].at];
        HOLD(good != before[i].byte, __LINE__);
        file.at[before[i].at] = before[i].byte;
        in_one_bucket(places, 0, 20, before[i].refusal, before[i].field, __LINE__);
        of_no_row(before[i].refusal, before[i].field, __LINE__);
        file.at[before[i].at] = good;
    }
    /* What stands in no bucket of the index and is no link is not judged. */
    memset(file.at + 0x284, 0xff, 0x7c);
    in_one_bucket(places, 20, 20, HV_ACCEPTED, 0, __LINE__);
}

/* The next questions are about a column of `survey`; gives its bits. */
static uint64_t set_column(uint64_t position)
{
    static const uint64_t types[] = {HV_TYPE_DOUBLE, HV_TYPE_INT, HV_TYPE_INT, HV_TYPE_BOOL};
    static const uint64_t bits[] = {64, 32, 32, 8}; /* a Bool has a whole byte in IncrementalStMan */
    uint64_t numbers[HV_PLAN_LEN] = {0};

    numbers[HV_PLAN_POSITION] = position;
    numbers[HV_PLAN_DATA_TYPE] = types[position];
    numbers[HV_PLAN_ELEMENTS] = 1;
    numbers[HV_PLAN_BITS] = bits[position];
    numbers[HV_PLAN_BUCKET_SIZE] = 272;
    number = position;
    set_plan(numbers);
    ACCEPTED(PLAN, numbers);
    return bits[position];
}

#define SURVEY_ROWS UINT64_C(5000000000)

/*
 * `survey`: little endian, 5,000,000,000 rows. ColumnSet is -3, at 1140, with its row count at 1144; the count in Table's header is
 * 0. The columns are TIME, ANTENNA1, SCAN_NUMBER and FLAG_ROW, in a file of IncrementalStMan with buckets of 272 bytes. ISMIndex is
 * 2: its version is at 1620, the first rows at 1649, 1657, 1665 and 1673. Rows below 4,500,000,000 are in bucket 2, at 1056, whose
 * starts have 8 bytes; the next 300,000,000 in bucket 0, at 512, and the others in bucket 3, at 1328, whose starts have 4.
 */
static void ask_of_survey(const char *samples)
{
    /* The first bytes of the four cells: values change on both sides of 2^31 and of 2^32, and at the ends of the buckets. */
    static const struct {
        uint64_t row, bytes[4];
    } cells[] = {
        {0, {1060, 1100, 1112, 1120}},
        {5, {1060, 1100, 1112, 1120}},
        {705032704, {1060, 1100, 1112, 1120}}, /* the row count, cut to 32 bits */
        {0x7ffffffe, {1060, 1100, 1112, 1120}},
        {0x7fffffff, {1068, 1100, 1112, 1121}},
        {0x80000000, {1076, 1104, 1112, 1120}},
        {0xfffffffe, {1076, 1104, 1112, 1120}},
        {0xffffffff, {1084, 1104, 1116, 1120}},
        {UINT64_C(0x100000000), {1092, 1108, 1116, 1121}},
        {UINT64_C(0x100000001), {1092, 1108, 1116, 1120}},
        {UINT64_C(0x100000005), {1092, 1108, 1116, 1120}}, /* cut to 32 bits it is row 5, whose cells stand elsewhere */
        {UINT64_C(4499999999), {1092, 1108, 1116, 1120}},
        {UINT64_C(4500000000), {516, 532, 536, 544}},
        {UINT64_C(4649999999), {516, 532, 540, 544}},
        {UINT64_C(4650000000), {524, 532, 540, 544}},
        {UINT64_C(4799999999), {524, 532, 540, 544}},
        {UINT64_C(4800000000), {1332, 1340, 1348, 1352}},
        {UINT64_C(4999999998), {1332, 1340, 1348, 1352}},
        {UINT64_C(4999999999), {1332, 1344, 1348, 1353}},
    };
    /* Too many; the count and 2^32; 2^62, the most that a table may have; a row above 2^31 that was kept in 32 bits with a sign. */
    static const uint64_t absent[] = {
        SURVEY_ROWS, SURVEY_ROWS + 1, SURVEY_ROWS + (UINT64_C(1) << 32), UINT64_C(1) << 62,
        UINT64_C(0xffffffff80000000), UINT64_MAX,
    };
    static const struct fault in_table[] = {
        {1140, 0x7f, HV_REFUSED_VERSION, 1140}, /* ColumnSet's version */
        {1143, 0xfe, HV_REFUSED_FACTS, 1144},   /* -2: the row count would be 1, and Table has 0 */
        {1144, 0x80, HV_REFUSED_RANGE, 1144},   /* a negative row count */
        {1144, 0x41, HV_REFUSED_RANGE, 1144},   /* one above 2^62 */
    };
    static const struct fault of_rows[] = {
        {1151, 1, HV_REFUSED_MAP, 0}, /* a row more than the file has */
        {1147, 0, HV_REFUSED_MAP, 0}, /* 2^32 rows less */
    };
    static const struct fault in_file[] = {
        {1620, 3, HV_REFUSED_VERSION, 1620}, /* ISMIndex 3 */
        {1620, 1, HV_REFUSED_LENGTH, 1628},  /* ISMIndex 1: first rows of 4 bytes, and half of the Block is left over */
        {1656, 0x80, HV_REFUSED_RANGE, 1649}, /* the first of the first rows is negative */
        {1664, 0x80, HV_REFUSED_RANGE, 1657}, /* the second */
        {1680, 0xff, HV_REFUSED_RANGE, 1673}, /* the last */
        {1680, 0x40, HV_REFUSED_MAP, 0},     /* it is above 2^62 */
        {1677, 0, HV_REFUSED_MAP, 0},        /* it is 2^32 less */
        {1059, 0, HV_REFUSED_MAP, 0},        /* starts of 4 bytes in bucket 2 */
        {1059 + 272, 1, HV_REFUSED_MAP, 0},  /* starts of 8 bytes in bucket 3 */
    };
    const uint64_t description[] = {SURVEY_ROWS, 0, 4, 1, 0};
    const uint64_t last[] = {8 * 1344, 32, 272, 0};
    const uint64_t bucket_size[] = {272, 0};
    size_t i;
    uint64_t position;

    read_file(&table, samples, "survey", "table.dat");
    read_file(&file, samples, "survey", "table.f0");
    text.len = 0;
    room_len = 0;
    ACCEPTED(DESCRIPTION, description);
    number = 0;
    ACCEPTED(CHECK, bucket_size);
    for (position = 0; position < 4; position++) {
        uint64_t bits = set_column(position);
        for (i = 0; i < sizeof cells / sizeof *cells; i++) {
            const uint64_t place[] = {8 * cells[i].bytes[position], bits, 0, 0, 0};
            const uint64_t view[] = {cells[i].bytes[position], bits / 8, 0};
            const uint64_t in_bucket[] = {8 * cells[i].bytes[position], bits, 272, 0};
            row = cells[i].row;
            ACCEPTED(PLACE, place);
            ACCEPTED(PLACE_PLANNED, place);
            ACCEPTED(VIEW, view);
            ACCEPTED(VIEW_PLANNED, view);
            ACCEPTED(PADDED, view);
            ACCEPTED(PADDED_PLANNED, view);
            ACCEPTED(IN_BUCKET, in_bucket);
        }
        for (i = 0; i < sizeof absent / sizeof *absent; i++) {
            row = absent[i];
            REFUSED(IN_BUCKET, HV_REFUSED_ROW);
            REFUSED(PLACE, HV_REFUSED_ROW);
            REFUSED(PLACE_PLANNED, HV_REFUSED_ROW);
            REFUSED_VIEWS(HV_REFUSED_ROW);
        }
    }
    /* ANTENNA1 of row 2^32 is 2, that of row 0 is 0. */
    HOLD(file.at[1108] == 2 && file.at[1100] == 0, __LINE__);

    /* Table's count is not compared. */
    memset(table.at + 21, 0xff, 4);
    ACCEPTED(DESCRIPTION, description);
    number = 0;
    ACCEPTED(CHECK, bucket_size);
    memset(table.at + 21, 0, 4);
    REFUSED_EACH(&table, DESCRIPTION, in_table);
    REFUSED_EACH(&table, CHECK, of_rows);
    REFUSED_EACH(&file, CHECK, in_file);

    /* A negative start in bucket 2: rows of bucket 3 have their place, and no other row. */
    file.at[1149] = 0x80;
    number = 1;
    row = UINT64_C(4500000000) - 1;
    REFUSED(IN_BUCKET, HV_REFUSED_MAP);
    row = SURVEY_ROWS;
    REFUSED(IN_BUCKET, HV_REFUSED_ROW);
    row = SURVEY_ROWS - 1;
    REFUSED(PLACE, HV_REFUSED_MAP);
    ACCEPTED(IN_BUCKET, last);
}

/* The views of a cell, by position and by plan; of a padded text its length, of other cells the whole. */
static void viewed(uint64_t start, uint64_t whole, uint64_t shown, int line)
{
    const uint64_t view[] = {start, shown, 0}, padded[] = {start, whole, 0};

    accepted(VIEW, view, HV_VIEW_LEN, line);
    accepted(VIEW_PLANNED, view, HV_VIEW_LEN, line);
    accepted(PADDED, padded, HV_VIEW_LEN, line);
    accepted(PADDED_PLANNED, padded, HV_VIEW_LEN, line);
}

enum { TEXTS_ROWS = 7, NAME_BYTES = 8 };

/* The plans of `texts`: ANTENNA, NAME with a maximum of 8, STATION without one, FLAG_ROW. */
static const uint64_t plans_of_texts[4][HV_PLAN_LEN] = {{0, 0, HV_TYPE_INT, 1, 32, 0, 0, 4, 128, 0},
                                                        {1, 0, HV_TYPE_STRING, 1, 64, 0, 16, 4, 128, 0},
                                                        {2, 0, HV_TYPE_STRING, 1, 96, 0, 48, 4, 128, 0},
                                                        {3, 0, HV_TYPE_BOOL, 1, 1, 0, 96, 4, 128, 0}};
/* Where the cells of NAME begin. */
static const size_t names_at[TEXTS_ROWS] = {528, 536, 544, 552, 656, 664, 672};

/* `texts`: big endian, buckets of 128 bytes with 4 rows, and the index text of 134 bytes in buckets 2 and 3. */
static void load_texts(const char *samples)
{
    read_file(&table, samples, "texts", "table.dat");
    read_file(&file, samples, "texts", "table.f0");
    memcpy(text.at, file.at + 512 + 2 * 128 + 8, 120);
    memcpy(text.at + 120, file.at + 512 + 3 * 128 + 8, 14);
    text.len = 134;
    room_len = 134;
}

/* Every cell of NAME as the sample has it: padded, full, empty, with bytes behind the first zero byte, and of any bytes. */
static void ask_of_names(void)
{
    static const char *const names[TEXTS_ROWS] = {"RA01", "PARKES64", "", "A", "caf\xc3\xa9", "A\"B\\C", ""};
    uint64_t column[HV_COLUMN_LEN];

    number = 1;
    HOLD(ask(COLUMN, HV_COLUMN_LEN) == HV_ACCEPTED, __LINE__);
    memcpy(column, out, sizeof column);
    HOLD(column[HV_COLUMN_DATA_TYPE] == HV_TYPE_STRING && column[HV_COLUMN_ARRAY] == 0, __LINE__);
    HOLD(column[HV_COLUMN_STRING_MOST] == NAME_BYTES && column[HV_COLUMN_BITS] == 8 * NAME_BYTES, __LINE__);
    ACCEPTED(PLAN, plans_of_texts[1]);
    set_plan(plans_of_texts[1]);
    for (row = 0; row < TEXTS_ROWS; row++) {
        const uint64_t place[] = {8 * names_at[row], 8 * NAME_BYTES, 1, 2, 0}, len = strlen(names[row]);
        ACCEPTED(PLACE, place);
        ACCEPTED(PLACE_PLANNED, place);
        viewed(names_at[row], NAME_BYTES, len, __LINE__);
        HOLD(memcmp(file.at + names_at[row], names[row], len) == 0, __LINE__);
        HOLD(len == NAME_BYTES || file.at[names_at[row] + len] == 0, __LINE__);
    }
    /* Bytes behind the first zero byte: of row 3 one, of row 6 three; and what follows the full text of row 1 is row 2. */
    HOLD(file.at[554] == 'B' && memcmp(file.at + 673, "OLD", 3) == 0 && names_at[1] + NAME_BYTES == names_at[2], __LINE__);

    /* An accepted text of length 0, and refusals, whose length is 0 too: the number tells them apart. */
    row = 2;
    HOLD(ask(VIEW, HV_VIEW_LEN) == HV_ACCEPTED && out[HV_VIEW_START] == 544 && out[HV_VIEW_LENGTH] == 0, __LINE__);
    HOLD(ask(VIEW_PLANNED, HV_VIEW_LEN) == HV_ACCEPTED && out[HV_VIEW_START] == 544 && out[HV_VIEW_LENGTH] == 0, __LINE__);
    row = TEXTS_ROWS;
    HOLD(ask(VIEW, HV_VIEW_LEN) == HV_REFUSED_ROW && out[HV_VIEW_START] == 0 && out[HV_VIEW_LENGTH] == 0, __LINE__);
    HOLD(ask(VIEW_PLANNED, HV_VIEW_LEN) == HV_REFUSED_ROW && out[HV_VIEW_LENGTH] == 0, __LINE__);
}

/* The other columns have no padding: their zero bytes are theirs. */
static void ask_of_other_columns(void)
{
    static const uint64_t antennas_at[TEXTS_ROWS] = {512, 516, 520, 524, 640, 644, 648};
    static const uint64_t stations_at[TEXTS_ROWS] = {560, 572, 584, 596, 688, 700, 712};

    for (row = 0; row < TEXTS_ROWS; row++) {
        number = 0;
        set_plan(plans_of_texts[0]);
        viewed(antennas_at[row], 4, 4, __LINE__);
        number = 2;
        set_plan(plans_of_texts[2]);
        viewed(stations_at[row], 12, 12, __LINE__);
        HOLD(file.at[stations_at[row] + 5] == 0, __LINE__);
        number = 3;
        set_plan(plans_of_texts[3]);
        REFUSED_VIEWS(HV_REFUSED_BOOL);
    }
}

#define VIEWS_REFUSED_EACH(bytes, faults) views_refused_each(bytes, faults, sizeof faults / sizeof *faults, __LINE__)

/* The views of NAME in a file with each of the faults. */
static void views_refused_each(struct bytes *bytes, const struct fault *faults, size_t count, int line)
{
    size_t i;

    room_len = 200;
    for (i = 0; i < count; i++) {
        uint8_t good = bytes->at[faults[i].at];
        HOLD(good != faults[i].byte, line);
        bytes->at[faults[i].at] = faults[i].byte;
        for (row = 0; row < 3; row++)
            refused_views(faults[i].refusal, faults[i].field, line);
        bytes->at[faults[i].at] = good;
    }
}

/* What is refused is refused alike by all views, also where the text is empty. */
static void ask_of_refused_texts(void)
{
    static const uint64_t absent[] = {TEXTS_ROWS, TEXTS_ROWS + 1, (UINT64_C(1) << 32) + 2, UINT64_MAX};
    static const struct fault in_table[] = {
        {0, 0, HV_REFUSED_NAME, 0},        /* the mark */
        {0x1c, 2, HV_REFUSED_VALUE, 0x19}, /* the endianness */
        {0x1e1, 2, HV_REFUSED_RANGE, 0x1e0}, /* NAME's maximum: 131,080 */
    };
    static const struct fault in_file[] = {
        {0, 0, HV_REFUSED_NAME, 0},          /* the mark */
        {0x1c, 2, HV_REFUSED_VERSION, 0x19}, /* the header's version */
        {0x45, 135, HV_REFUSED_LENGTH, 134}, /* the index length */
        {0x35, 1, HV_REFUSED_CHAIN, 0},      /* one index bucket for two links */
    };
    int i;

    number = 1;
    set_plan(plans_of_texts[1]);
    for (i = 0; i < 4; i++) {
        row = absent[i];
        REFUSED_VIEWS(HV_REFUSED_ROW);
    }
    for (row = 0; row < 3; row++)
        for (room_len = 0; room_len < text.len; room_len += 67)
            REFUSED_VIEWS(HV_REFUSED_ROOM);
    room_len = text.len;
    for (row = 0; row < 3; row++) {
        for (i = 0; i < HV_PLAN_NUMBERS; i++) {
            enum hv_number refusal = i == HV_PLAN_POSITION ? HV_REFUSED_MISSING : HV_REFUSED_PLAN;
            set_plan(plans_of_texts[1]);
            plan[i] += i == HV_PLAN_POSITION ? 3 : 1;
            REFUSED(VIEW_PLANNED, refusal);
            REFUSED(PADDED_PLANNED, refusal);
        }
        set_plan(plans_of_texts[1]);
        short_plans(VIEW_PLANNED, __LINE__);
        short_plans(PADDED_PLANNED, __LINE__);
    }
    VIEWS_REFUSED_EACH(&table, in_table);
    VIEWS_REFUSED_EACH(&file, in_file);
}

/* The first zero byte at every place of a cell, with zeros behind it and with other bytes; and none. */
static void ask_of_zero_bytes(void)
{
    static const uint8_t letters[] = {'A', ' ', 0x01, 0x7f, 0x80, 0xff, '"', 'z'};
    size_t i;
    int is_padded;

    number = 1;
    set_plan(plans_of_texts[1]);
    for (row = 0; row < TEXTS_ROWS; row++)
        for (i = 0; i <= NAME_BYTES; i++)
            for (is_padded = 0; is_padded < 2; is_padded++) {
                uint8_t *cell = file.at + names_at[row];
                memcpy(cell, letters, NAME_BYTES);
                if (i < NAME_BYTES)
                    memset(cell + i, 0, is_padded ? NAME_BYTES - i : 1);
                viewed(names_at[row], NAME_BYTES, i, __LINE__);
            }
}

/* With a lower maximum a cell ends in the text of the next, and a plan that was made before is stale. */
static void ask_of_lower_maximum(void)
{
    static const uint64_t four[HV_PLAN_LEN] = {1, 0, HV_TYPE_STRING, 1, 32, 0, 16, 4, 128, 0};
    static const uint64_t lens[] = {4, 0, 4, 4}; /* RA01, four zeros, PARK and ES64 */

    table.at[0x1e3] = 4;
    number = 1;
    ACCEPTED(PLAN, four);
    set_plan(four);
    for (row = 0; row < 4; row++)
        viewed(528 + 4 * row, 4, lens[row], __LINE__);
    set_plan(plans_of_texts[1]);
    row = 0;
    REFUSED(VIEW_PLANNED, HV_REFUSED_PLAN);
    REFUSED(PADDED_PLANNED, HV_REFUSED_PLAN);
}

/* In the little endian `arrays`: OBSERVER has no maximum, STATION has 16, and SCHEDULE is a direct array of Strings. */
static void ask_of_stations(const char *samples)
{
    static const uint64_t whole[] = {12, 16, 12}, lens[] = {12, 3, 12};
    uint64_t numbers[HV_PLAN_LEN], start;
    size_t k;

    read_file(&table, samples, "arrays", "table.dat");
    read_file(&file, samples, "arrays", "table.f0");
    text.len = 252;
    memcpy(text.at, file.at + 12050, text.len);
    room_len = text.len;
    for (k = 0; k < 3; k++) {
        number = 10 + k;
        HOLD(ask(PLAN, HV_PLAN_LEN) == HV_ACCEPTED, __LINE__);
        memcpy(numbers, out, sizeof numbers);
        set_plan(numbers);
        for (row = 0; row < 20; row++) {
            HOLD(ask(PLACE, HV_PLACE_LEN) == HV_ACCEPTED, __LINE__);
            start = out[HV_PLACE_FIRST_BIT] / 8;
            viewed(start, whole[k], lens[k], __LINE__);
        }
    }
}

static void ask_of_texts(const char *samples)
{
    load_texts(samples);
    ask_of_names();
    ask_of_other_columns();
    ask_of_refused_texts();
    load_texts(samples);
    ask_of_lower_maximum();
    load_texts(samples);
    ask_of_zero_bytes();
    ask_of_stations(samples);
}

/* In place of a position, the table's own keywords. */
#define OF_TABLE UINT64_MAX

/* A keyword of the sample `keywords`; its path has slashes between the names. */
struct keyword {
    uint64_t position;
    const char *path;
    uint64_t type;
    uint64_t start;
    uint64_t length;
};

/* All of them, those of a record behind it; but for the second field with the name `same`, which no path leads to. */
static const struct keyword keywords[] = {
    {OF_TABLE, "MS_VERSION", HV_TYPE_FLOAT, 1369, 4},
    {OF_TABLE, "ANTENNA", HV_TYPE_TABLE, 1373, 15},
    {OF_TABLE, "TYPES", HV_TYPE_RECORD, 1388, 119},
    {OF_TABLE, "TYPES/False", HV_TYPE_BOOL, 1388, 1},
    {OF_TABLE, "TYPES/True", HV_TYPE_BOOL, 1389, 1},
    {OF_TABLE, "TYPES/uCharLeast", HV_TYPE_UCHAR, 1390, 1},
    {OF_TABLE, "TYPES/uCharMost", HV_TYPE_UCHAR, 1391, 1},
    {OF_TABLE, "TYPES/ShortLeast", HV_TYPE_SHORT, 1392, 2},
    {OF_TABLE, "TYPES/ShortMost", HV_TYPE_SHORT, 1394, 2},
    {OF_TABLE, "TYPES/uShortLeast", HV_TYPE_USHORT, 1396, 2},
    {OF_TABLE, "TYPES/uShortMost", HV_TYPE_USHORT, 1398, 2},
    {OF_TABLE, "TYPES/IntLeast", HV_TYPE_INT, 1400, 4},
    {OF_TABLE, "TYPES/IntMost", HV_TYPE_INT, 1404, 4},
    {OF_TABLE, "TYPES/uIntLeast", HV_TYPE_UINT, 1408, 4},
    {OF_TABLE, "TYPES/uIntMost", HV_TYPE_UINT, 1412, 4},
    {OF_TABLE, "TYPES/float", HV_TYPE_FLOAT, 1416, 4},
    {OF_TABLE, "TYPES/floatNaN", HV_TYPE_FLOAT, 1420, 4},
    {OF_TABLE, "TYPES/double", HV_TYPE_DOUBLE, 1424, 8},
    {OF_TABLE, "TYPES/doubleInfinity", HV_TYPE_DOUBLE, 1432, 8},
    {OF_TABLE, "TYPES/Complex", HV_TYPE_COMPLEX, 1440, 8},
    {OF_TABLE, "TYPES/DComplex", HV_TYPE_DCOMPLEX, 1448, 16},
    {OF_TABLE, "TYPES/String", HV_TYPE_STRING, 1464, 23},
    {OF_TABLE, "TYPES/StringEmpty", HV_TYPE_STRING, 1487, 4},
    {OF_TABLE, "TYPES/Int64Least", HV_TYPE_INT64, 1491, 8},
    {OF_TABLE, "TYPES/Int64Most", HV_TYPE_INT64, 1499, 8},
    {OF_TABLE, "ARRAYS", HV_TYPE_RECORD, 1507, 547},
    {OF_TABLE, "ARRAYS/Bool", HV_ARRAY_BOOL, 1507, 27},
    {OF_TABLE, "ARRAYS/uChar", HV_ARRAY_UCHAR, 1534, 29},
    {OF_TABLE, "ARRAYS/Short", HV_ARRAY_SHORT, 1563, 41},
    {OF_TABLE, "ARRAYS/uShort", HV_ARRAY_USHORT, 1604, 33},
    {OF_TABLE, "ARRAYS/Int", HV_ARRAY_INT, 1637, 46},
    {OF_TABLE, "ARRAYS/uInt", HV_ARRAY_UINT, 1683, 105},
    {OF_TABLE, "ARRAYS/float", HV_ARRAY_FLOAT, 1788, 52},
    {OF_TABLE, "ARRAYS/double", HV_ARRAY_DOUBLE, 1840, 25},
    {OF_TABLE, "ARRAYS/Complex", HV_ARRAY_COMPLEX, 1865, 41},
    {OF_TABLE, "ARRAYS/DComplex", HV_ARRAY_DCOMPLEX, 1906, 45},
    {OF_TABLE, "ARRAYS/String", HV_ARRAY_STRING, 1951, 41},
    {OF_TABLE, "ARRAYS/Int64", HV_ARRAY_INT64, 1992, 41},
    {OF_TABLE, "ARRAYS/none", HV_ARRAY_INT, 2033, 21},
    {OF_TABLE, "NESTED", HV_TYPE_RECORD, 2054, 488},
    {OF_TABLE, "NESTED/depth", HV_TYPE_INT, 2054, 4},
    {OF_TABLE, "NESTED/same", HV_TYPE_STRING, 2058, 9},
    {OF_TABLE, "NESTED/L3", HV_TYPE_RECORD, 2077, 412},
    {OF_TABLE, "NESTED/L3/depth", HV_TYPE_INT, 2077, 4},
    {OF_TABLE, "NESTED/L3/L4", HV_TYPE_RECORD, 2081, 408},
    {OF_TABLE, "NESTED/L3/L4/depth", HV_TYPE_INT, 2240, 4},
    {OF_TABLE, "NESTED/L3/L4/L5", HV_TYPE_RECORD, 2244, 245},
    {OF_TABLE, "NESTED/L3/L4/L5/depth", HV_TYPE_INT, 2244, 4},
    {OF_TABLE, "NESTED/L3/L4/L5/L6", HV_TYPE_RECORD, 2248, 241},
    {OF_TABLE, "NESTED/L3/L4/L5/L6/depth", HV_TYPE_INT, 2407, 4},
    {OF_TABLE, "NESTED/L3/L4/L5/L6/L7", HV_TYPE_RECORD, 2411, 78},
    {OF_TABLE, "NESTED/L3/L4/L5/L6/L7/depth", HV_TYPE_INT, 2411, 4},
    {OF_TABLE, "NESTED/L3/L4/L5/L6/L7/L8", HV_TYPE_RECORD, 2415, 74},
    {OF_TABLE, "NESTED/L3/L4/L5/L6/L7/L8/depth", HV_TYPE_INT, 2485, 4},
    {OF_TABLE, "NESTED/EMPTY", HV_TYPE_RECORD, 2489, 53},
    {0, "QuantumUnits", HV_ARRAY_STRING, 2900, 30},
    {0, "MEASINFO", HV_TYPE_RECORD, 2930, 16},
    {0, "MEASINFO/type", HV_TYPE_STRING, 2930, 9},
    {0, "MEASINFO/Ref", HV_TYPE_STRING, 2939, 7},
    {1, "QuantumUnits", HV_ARRAY_STRING, 3294, 40},
    {1, "MEASINFO", HV_TYPE_RECORD, 3334, 15},
    {1, "MEASINFO/type", HV_TYPE_STRING, 3334, 7},
    {1, "MEASINFO/Ref", HV_TYPE_STRING, 3341, 8},
    {2, "UNIT", HV_TYPE_STRING, 3574, 5},
};
enum { KEYWORDS = sizeof keywords / sizeof *keywords };

static enum question keyword_of(uint64_t position)
{
    return position == OF_TABLE ? TABLE_KEYWORD : COLUMN_KEYWORD;
}

static enum question field_of(uint64_t position)
{
    return position == OF_TABLE ? TABLE_FIELD : COLUMN_FIELD;
}

static void add_name(const char *of, size_t len)
{
    HOLD(path_len + 4 + len <= PATH_MOST, __LINE__);
    path[path_len] = path[path_len + 1] = path[path_len + 2] = 0;
    path[path_len + 3] = (uint8_t)len;
    memcpy(path + path_len + 4, of, len);
    path_len += 4 + len;
}

/* The path of names with slashes between them; "" is the empty path. */
static void set_path(const char *names)
{
    size_t len;

    path_len = 0;
    while (*names != '\0') {
        len = strcspn(names, "/");
        add_name(names, len);
        names += len + (names[len] == '/');
    }
}

/* The path of the record that holds a keyword. */
static void set_holder(const char *names)
{
    const char *last = strrchr(names, '/');
    char holder[PATH_MOST] = "";

    if (last != NULL)
        memcpy(holder, names, (size_t)(last - names));
    set_path(holder);
}

static const char *last_name(const char *names)
{
    const char *last = strrchr(names, '/');

    return last == NULL ? names : last + 1;
}

/* Which field of its record a keyword is; the one that no path leads to counts too. */
static uint64_t field_number(const struct keyword *keyword)
{
    size_t before = (size_t)(last_name(keyword->path) - keyword->path);
    const struct keyword *other;
    uint64_t count = 0;

    for (other = keywords; other < keyword; other++)
        if (other->position == keyword->position && (size_t)(last_name(other->path) - other->path) == before &&
            strncmp(other->path, keyword->path, before) == 0)
            count += strcmp(other->path, "NESTED/same") == 0 ? 2 : 1;
    return count;
}

/* A keyword by its path, and as a field; the name is that of the path, behind its length. */
static void found(const struct keyword *keyword, int line)
{
    const uint64_t value[] = {keyword->type, keyword->start, keyword->length, 0};
    const char *last = last_name(keyword->path);
    uint64_t as_field[HV_FIELD_LEN] = {0, strlen(last), keyword->type, keyword->start, keyword->length, 0};

    number = keyword->position;
    set_path(keyword->path);
    accepted(keyword_of(number), value, HV_KEYWORD_LEN, line);
    set_holder(keyword->path);
    field = field_number(keyword);
    HOLD(ask(field_of(number), HV_FIELD_LEN) == HV_ACCEPTED, line);
    as_field[HV_FIELD_NAME] = out[HV_FIELD_NAME];
    HOLD(out[HV_FIELD_NAME] > 4 && out[HV_FIELD_NAME] + strlen(last) < table.len, line);
    HOLD(memcmp(table.at + out[HV_FIELD_NAME], last, strlen(last)) == 0, line);
    HOLD(table.at[out[HV_FIELD_NAME] - 1] == strlen(last), line);
    accepted(field_of(number), as_field, HV_FIELD_LEN, line);
}

static void ask_of_all_keywords(void)
{
    const struct keyword *keyword;

    for (keyword = keywords; keyword < keywords + KEYWORDS; keyword++)
        found(keyword, __LINE__);
}

/* What the parts hold: a String's and a Table's length, an Array's object, Bools as bits. */
static void ask_of_parts(void)
{
    HOLD(memcmp(table.at + 3574, "\0\0\0\001s", 5) == 0, __LINE__);
    HOLD(memcmp(table.at + 1373, "\0\0\0\013././ANTENNA", 15) == 0, __LINE__);
    HOLD(memcmp(table.at + 1369, "\x40\0\0\0", 4) == 0, __LINE__);
    HOLD(memcmp(table.at + 2930, "\0\0\0\005epoch\0\0\0\003UTC", 16) == 0, __LINE__);
    HOLD(memcmp(table.at + 1507, "\0\0\0\033\0\0\0\005Array\0\0\0\003\0\0\0\001\0\0\0\012\x49\x02", 27) == 0, __LINE__);
    HOLD(memcmp(table.at + 2489, "\0\0\0\065\0\0\0\013TableRecord", 19) == 0, __LINE__);
}

/* The second of two equal names is a field, and no path leads to it; behind the last field there is none. */
static void ask_of_fields(void)
{
    static const struct {
        uint64_t position;
        const char *path;
        uint64_t count;
    } records[] = {{OF_TABLE, "", 5},         {OF_TABLE, "TYPES", 22},        {OF_TABLE, "ARRAYS", 13},
                   {OF_TABLE, "NESTED", 5},   {OF_TABLE, "NESTED/L3/L4", 2},  {OF_TABLE, "NESTED/EMPTY", 0},
                   {0, "", 2},                {0, "MEASINFO", 2},             {1, "", 2},
                   {2, "", 1},                {3, "", 0},                     {4, "", 0}};
    static const char *const none[] = {"MS_VERSION",  "ANTENNA",   "TYPES/String", "ARRAYS/Int",
                                       "NESTED/same", "NESTED/L9", "nothing"};
    uint64_t second[HV_FIELD_LEN] = {0, 4, HV_TYPE_STRING, 2067, 10, 0};
    size_t i;

    set_path("NESTED");
    field = 2;
    HOLD(ask(TABLE_FIELD, HV_FIELD_LEN) == HV_ACCEPTED, __LINE__);
    second[HV_FIELD_NAME] = out[HV_FIELD_NAME];
    HOLD(memcmp(table.at + out[HV_FIELD_NAME], "same", 4) == 0, __LINE__);
    ACCEPTED(TABLE_FIELD, second);
    for (i = 0; i < sizeof records / sizeof *records; i++) {
        number = records[i].position;
        set_path(records[i].path);
        for (field = 0; field < records[i].count; field++)
            HOLD(ask(field_of(number), HV_FIELD_LEN) == HV_ACCEPTED, __LINE__);
        REFUSED(field_of(number), HV_REFUSED_KEYWORD);
        field = UINT64_C(1) << 32;
        REFUSED(field_of(number), HV_REFUSED_KEYWORD);
        field = UINT64_MAX;
        REFUSED(field_of(number), HV_REFUSED_KEYWORD);
    }
    /* What is no record has no fields. */
    field = 0;
    for (i = 0; i < sizeof none / sizeof *none; i++) {
        set_path(none[i]);
        REFUSED(TABLE_FIELD, HV_REFUSED_KEYWORD);
    }
}

/* Paths that lead to nothing, that are empty, and that are torn, also behind names that are found. */
static void ask_of_paths(void)
{
    static const char *const wrong[] = {"ms_version",      "MS_VERSIO",      "MS_VERSION_",    "TYPES/string",
                                        "String",          "MS_VERSION/x",   "ANTENNA/x",      "MEASINFO",
                                        "ARRAYS/String/0", "TYPES/String/x", "NESTED/EMPTY/x", "NESTED/L4",
                                        "NESTED/same/x",   "NESTED/L3/L4/L5/L6/L7/L8/L9"};
    const uint64_t nested[] = {HV_TYPE_RECORD, 2054, 488, 0}, l3[] = {HV_TYPE_RECORD, 2077, 412, 0};
    const uint64_t depth[] = {HV_TYPE_INT, 2077, 4, 0};
    size_t i, whole;

    field = 0;
    for (i = 0; i < sizeof wrong / sizeof *wrong; i++) {
        set_path(wrong[i]);
        REFUSED(TABLE_KEYWORD, HV_REFUSED_KEYWORD);
        REFUSED(TABLE_FIELD, HV_REFUSED_KEYWORD);
    }
    /* The empty path names no keyword; an empty name none that is here. */
    set_path("");
    REFUSED(TABLE_KEYWORD, HV_REFUSED_KEYWORD);
    for (number = 0; number < 5; number++)
        REFUSED(COLUMN_KEYWORD, HV_REFUSED_KEYWORD);
    add_name("", 0);
    REFUSED(TABLE_KEYWORD, HV_REFUSED_KEYWORD);
    REFUSED(TABLE_FIELD, HV_REFUSED_KEYWORD);
    set_path("NESTED");
    add_name("", 0);
    REFUSED(TABLE_KEYWORD, HV_REFUSED_KEYWORD);

    set_path("NESTED/L3/depth");
    whole = path_len;
    for (path_len = 1; path_len <= whole; path_len++) {
        if (path_len == 10)
            ACCEPTED(TABLE_KEYWORD, nested);
        else if (path_len == 16)
            ACCEPTED(TABLE_KEYWORD, l3);
        else if (path_len == whole)
            ACCEPTED(TABLE_KEYWORD, depth);
        else
            REFUSED(TABLE_KEYWORD, HV_REFUSED_KEYWORD);
        if (path_len != 10 && path_len != 16)
            REFUSED(TABLE_FIELD, HV_REFUSED_KEYWORD);
    }
    path_len = whole;
    for (i = 0; i < 4; i++) {
        path[16 + i] ^= 0x80;
        REFUSED(TABLE_KEYWORD, HV_REFUSED_KEYWORD);
        path[16 + i] ^= 0x80;
    }
    path[19]++;
    REFUSED(TABLE_KEYWORD, HV_REFUSED_KEYWORD);
    path[19] -= 2;
    REFUSED(TABLE_KEYWORD, HV_REFUSED_KEYWORD);
}

/* A column that is not there comes before its path, and behind a refusal of the table. */
static void ask_of_absent_columns(void)
{
    static const uint64_t absent[] = {5, 6, UINT64_C(1) << 32, UINT64_MAX};
    uint8_t mark = table.at[0];
    size_t i;

    field = 0;
    for (i = 0; i < sizeof absent / sizeof *absent; i++) {
        number = absent[i];
        set_path("UNIT");
        REFUSED(COLUMN_KEYWORD, HV_REFUSED_MISSING);
        REFUSED(COLUMN_FIELD, HV_REFUSED_MISSING);
        set_path("");
        REFUSED(COLUMN_KEYWORD, HV_REFUSED_MISSING);
        REFUSED(COLUMN_FIELD, HV_REFUSED_MISSING);
        table.at[0] = 0;
        REFUSED(COLUMN_KEYWORD, HV_REFUSED_NAME);
        REFUSED(COLUMN_FIELD, HV_REFUSED_NAME);
        table.at[0] = mark;
    }
}

/* A fault in the keyword set of the table or of a column, and what is asked there. */
struct set_fault {
    uint64_t position;
    struct fault fault;
};

static const struct set_fault set_faults[] = {
    /* EXPOSURE: TableRecord at 3487, RecordDesc at 3510, the field at 3536, its value at 3574. */
    {2, {3513, 0x3d, HV_REFUSED_LENGTH, 3510}}, /* RecordDesc's length: a byte is left over */
    {2, {3513, 0x3b, HV_REFUSED_END, 3548}},    /* its last field does not fit */
    {2, {3513, 0x46, HV_REFUSED_END, 3510}},    /* it is longer than TableRecord */
    {2, {3513, 0x15, HV_REFUSED_LENGTH, 3510}}, /* shorter than its header */
    {2, {3517, 0x0b, HV_REFUSED_NAME, 3514}},   /* the length of its name */
    {2, {3518, 'r', HV_REFUSED_NAME, 3514}},    /* its name */
    {2, {3531, 3, HV_REFUSED_VERSION, 3528}},   /* its version */
    {2, {3531, 0, HV_REFUSED_VERSION, 3528}},
    {2, {3531, 1, HV_REFUSED_LENGTH, 3510}},    /* without comments */
    {2, {3532, 0x80, HV_REFUSED_RANGE, 3532}},  /* a negative field count */
    {2, {3535, 2, HV_REFUSED_END, 3570}},       /* two fields */
    {2, {3535, 0, HV_REFUSED_LENGTH, 3510}},    /* no fields */
    {2, {3538, 0x20, HV_REFUSED_END, 3536}},    /* the length of the field's name */
    {2, {3539, 5, HV_REFUSED_VALUE, 3545}},     /* then the type number is another */
    {2, {3547, 1, HV_REFUSED_VALUE, 3544}},     /* type numbers that are none */
    {2, {3547, 14, HV_REFUSED_VALUE, 3544}},
    {2, {3547, 26, HV_REFUSED_VALUE, 3544}},
    {2, {3547, 28, HV_REFUSED_VALUE, 3544}},
    {2, {3547, 31, HV_REFUSED_VALUE, 3544}},
    {2, {3544, 0x80, HV_REFUSED_VALUE, 3544}},
    {2, {3547, HV_TYPE_TABLE, HV_REFUSED_END, 3570}}, /* the comment is the name of a table description */
    {2, {3547, HV_TYPE_BOOL, HV_REFUSED_LENGTH, 3487}}, /* a value of one byte, and four are left */
    {2, {3547, HV_TYPE_DOUBLE, HV_REFUSED_END, 3574}}, /* a value that does not fit */
    {2, {3551, 0x13, HV_REFUSED_END, 3548}},    /* the length of the comment */
    {2, {3577, 2, HV_REFUSED_END, 3574}},       /* of the value */
    {2, {3577, 0, HV_REFUSED_LENGTH, 3487}},
    /* QuantumUnits of TIME: its Array at 2900, the name at 2904, the version at 2913, the axes at 2917, the element at 2925. */
    {0, {2903, 31, HV_REFUSED_LENGTH, 2900}},
    {0, {2903, 29, HV_REFUSED_END, 2925}},
    {0, {2908, 'a', HV_REFUSED_NAME, 2904}},
    {0, {2916, 4, HV_REFUSED_VERSION, 2913}},
    {0, {2916, 2, HV_REFUSED_END, 2929}},       /* with an origin */
    {0, {2920, 2, HV_REFUSED_END, 2929}},       /* two axes */
    {0, {2920, 0, HV_REFUSED_LENGTH, 2900}},    /* none, and so no elements */
    {0, {2921, 0x80, HV_REFUSED_VALUE, 2921}},  /* a negative axis */
    {0, {2924, 2, HV_REFUSED_END, 2930}},       /* two elements */
    {0, {2924, 0, HV_REFUSED_LENGTH, 2900}},
    {0, {2928, 2, HV_REFUSED_END, 2925}},
    /* Of the table: a Bool, and bits of Bools; a record that would be the ninth. */
    {OF_TABLE, {1388, 2, HV_REFUSED_VALUE, 1388}},
    {OF_TABLE, {1389, 0xff, HV_REFUSED_VALUE, 1389}},
    {OF_TABLE, {1531, 17, HV_REFUSED_END, 1534}},
    {OF_TABLE, {1531, 8, HV_REFUSED_LENGTH, 1507}},
    {OF_TABLE, {2476, HV_TYPE_RECORD, HV_REFUSED_DEPTH, 0}},
    {OF_TABLE, {2476, 14, HV_REFUSED_VALUE, 2473}},
};

/* The whole set is judged, before any path; the other sets, and what else is asked of the table, are as they were. */
static void ask_of_set_faults(void)
{
    static const char *const paths[] = {"", "UNIT", "MS_VERSION", "QuantumUnits", "MEASINFO/Ref", "nothing"};
    const uint64_t description[] = {6, 1, 5, 1, 0};
    const struct keyword *keyword;
    size_t i, k;

    for (i = 0; i < sizeof set_faults / sizeof *set_faults; i++) {
        const struct set_fault *one = &set_faults[i];
        uint8_t good = table.at[one->fault.at];
        HOLD(good != one->fault.byte, __LINE__);
        table.at[one->fault.at] = one->fault.byte;
        number = one->position;
        field = i % 3;
        for (k = 0; k < sizeof paths / sizeof *paths; k++) {
            set_path(paths[k]);
            refused(keyword_of(number), one->fault.refusal, one->fault.field, __LINE__);
            refused(field_of(number), one->fault.refusal, one->fault.field, __LINE__);
        }
        path_len -= 1; /* torn */
        refused(keyword_of(number), one->fault.refusal, one->fault.field, __LINE__);
        ACCEPTED(DESCRIPTION, description);
        for (keyword = keywords; keyword < keywords + KEYWORDS; keyword += 7)
            if (keyword->position != one->position)
                found(keyword, __LINE__);
        table.at[one->fault.at] = good;
    }
    /* What is not judged: the record type, and the spare bits of Bools. */
    table.at[3570] = 0xff;
    table.at[1533] = 0xfe;
    ask_of_all_keywords();
    table.at[3570] = 0;
    table.at[1533] = 0x02;
}

/* Cut anywhere, the table is refused as Description refuses it. */
static void ask_of_cut_keywords(void)
{
    size_t whole = table.len;
    enum hv_number refusal;
    uint64_t byte;
    int question;

    field = 0;
    number = 2;
    set_path("UNIT");
    for (table.len = 0; table.len < whole; table.len += table.len < 64 || table.len > 3480 ? 1 : 37) {
        refusal = ask(DESCRIPTION, HV_DESCRIPTION_LEN);
        byte = out[HV_DESCRIPTION_BYTE];
        HOLD(refusal != HV_ACCEPTED, __LINE__);
        for (question = TABLE_KEYWORD; question <= COLUMN_FIELD; question++)
            blamed((enum question)question, refusal, byte, __LINE__);
    }
    table.len = whole;
}

static void take_from(size_t at, size_t count)
{
    memmove(table.at + at, table.at + at + count, table.len - at - count);
    table.len -= count;
}

/* Lowers a length, which has 4 bytes and is below 65,536. */
static void shorten(size_t at, unsigned count)
{
    unsigned len = table.at[at + 2] * 256u + table.at[at + 3] - count;

    table.at[at + 2] = (uint8_t)(len / 256);
    table.at[at + 3] = (uint8_t)(len % 256);
}

/* A TableRecord that is a header alone will do for Description, and is torn for those who ask about its keywords. */
static void ask_of_bare_set(void)
{
    const uint64_t description[] = {6, 1, 5, 1, 0};

    HOLD(table.at[3716] == 53, __LINE__);
    take_from(3713 + 23, 30);
    shorten(3713, 30);
    shorten(43, 30);
    shorten(4, 30);
    ACCEPTED(DESCRIPTION, description);
    number = 3;
    field = 0;
    set_path("");
    refused(COLUMN_FIELD, HV_REFUSED_END, 3736, __LINE__);
    refused(COLUMN_KEYWORD, HV_REFUSED_END, 3736, __LINE__);
    ask_of_all_keywords();
}

/* In `arrays`, whose columns have three kinds of managers: all have keywords, or none. */
static void ask_of_other_managers(const char *samples)
{
    static const uint64_t none[] = {1, 2, 4, 6, 7, 8, 9, 10, 11, 12, 13, 14};
    const uint64_t version[] = {HV_TYPE_FLOAT, 193, 4, 0}, frame[] = {HV_TYPE_STRING, 591, 7, 0};
    size_t i;

    read_file(&table, samples, "arrays", "table.dat");
    set_path("MS_VERSION");
    ACCEPTED(TABLE_KEYWORD, version);
    number = 0;
    set_path("MEASINFO/Ref");
    ACCEPTED(COLUMN_KEYWORD, frame);
    REFUSED(TABLE_KEYWORD, HV_REFUSED_KEYWORD);
    field = 0;
    for (i = 0; i < sizeof none / sizeof *none; i++) {
        number = none[i];
        set_path("");
        REFUSED(COLUMN_FIELD, HV_REFUSED_KEYWORD);
        set_path("UNIT");
        REFUSED(COLUMN_KEYWORD, HV_REFUSED_KEYWORD);
    }
}

static void ask_of_keywords(const char *samples)
{
    read_file(&table, samples, "keywords", "table.dat");
    ask_of_all_keywords();
    ask_of_parts();
    ask_of_fields();
    ask_of_paths();
    ask_of_absent_columns();
    ask_of_set_faults();
    ask_of_cut_keywords();
    ask_of_all_keywords();
    ask_of_bare_set();
    ask_of_other_managers(samples);
}

/* The bits of elements: each type's, and none of a String and of numbers that are no type's or only end as one does. */
static void ask_for_bits(void)
{
    static const uint64_t types[][2] = {
        {HV_TYPE_BOOL, 1},   {HV_TYPE_UCHAR, 8},  {HV_TYPE_SHORT, 16},  {HV_TYPE_USHORT, 16},
        {HV_TYPE_INT, 32},   {HV_TYPE_UINT, 32},  {HV_TYPE_INT64, 64},  {HV_TYPE_FLOAT, 32},
        {HV_TYPE_DOUBLE, 64}, {HV_TYPE_COMPLEX, 64}, {HV_TYPE_DCOMPLEX, 128},
    };
    static const uint64_t none[] = {HV_TYPE_STRING, 1, 12, 13, 24, 28, 30, 31, 255, 65535, (uint64_t)-1, (uint64_t)-3};
    size_t i;
    int shift;

    for (i = 0; i < sizeof types / sizeof *types; i++) {
        HOLD(hv_element_bits(types[i][0]) == types[i][1], __LINE__);
        for (shift = 8; shift < 64; shift++)
            HOLD(hv_element_bits(types[i][0] + (UINT64_C(1) << shift)) == 0, __LINE__);
    }
    for (i = 0; i < sizeof none / sizeof *none; i++)
        HOLD(hv_element_bits(none[i]) == 0, __LINE__);
}

#define WORDS(name, number, words) {name, number, words},

/* Every number has words; those of the refusals are all different, and other numbers have none of them. */
static void ask_for_words(void)
{
    static const struct {
        enum hv_number name;
        uint64_t number;
        const char *words;
    } known[] = {{HV_ACCEPTED, 0, "accepted"}, HV_REFUSALS(WORDS){HV_SHORT, 255, "the plan has too few numbers"}};
    static const uint64_t unknown[] = {17,          18,  127, 128, 254, 256, UINT64_C(1) << 32, (UINT64_C(1) << 32) + 1,
                                       UINT64_C(1) << 63, UINT64_MAX};
    const size_t count = sizeof known / sizeof *known;
    const char *words = hv_refusal_text(17);
    char version[64];
    size_t i, k;

    HOLD(count == 18, __LINE__);
    for (i = 0; i < count; i++) {
        HOLD((uint64_t)known[i].name == known[i].number, __LINE__);
        HOLD(i == 17 || known[i].number == i, __LINE__);
        HOLD(strcmp(hv_refusal_text(known[i].number), known[i].words) == 0, __LINE__);
        HOLD(strcmp(words, known[i].words) != 0, __LINE__);
        for (k = 0; k < i; k++)
            HOLD(strcmp(known[i].words, known[k].words) != 0, __LINE__);
    }
    for (i = 0; i < sizeof unknown / sizeof *unknown; i++)
        HOLD(strcmp(hv_refusal_text(unknown[i]), words) == 0, __LINE__);
    HOLD(strlen(words) > 0, __LINE__);
    HOLD(strcmp(hv_refusal_text(9), "row not below the row count") == 0, __LINE__);

    HOLD(strcmp(hv_version(), HV_VERSION) == 0, __LINE__);
    snprintf(version, sizeof version, "%d.%d.%d", HV_VERSION_MAJOR, HV_VERSION_MINOR, HV_VERSION_PATCH);
    HOLD(strcmp(hv_version(), version) == 0, __LINE__);
}

int main(int argc, char **argv)
{
    if (argc != 2) {
        fprintf(stderr, "usage: questions SAMPLES\n");
        return 2;
    }
    ask_for_words();
    ask_for_bits();
    for (is_null = 0; is_null < 2; is_null++) {
        load(argv[1], "small");
        ask_of_table(1);
        ask_of_cells();
        ask_of_faults();
        ask_of_cuts();
        ask_of_long_table(1);
        load(argv[1], "little");
        ask_of_table(0);
        ask_of_cells();
        ask_of_turned_cells(argv[1]);
        ask_of_little_faults();
        ask_of_cuts();
        ask_of_long_table(0);
        ask_of_byte_orders(argv[1]);
        ask_of_info(argv[1]);
        ask_of_wide_files(argv[1]);
        ask_of_row_counts(argv[1]);
        ask_of_wide_faults(argv[1]);
        ask_of_mixed_sets(argv[1]);
        ask_of_incremental(argv[1]);
        ask_of_incremental_info(argv[1]);
        ask_of_wide_incremental(argv[1]);
        ask_of_one_bucket(argv[1]);
        ask_of_survey(argv[1]);
        ask_of_texts(argv[1]);
        ask_of_keywords(argv[1]);
    }
    return 0;
}
