/*
 * Wrong libraries: every function of include/helvidrane.h, one of them made wrong in the way that HELVIDRANE_FAULT names:
 * `KIND FUNCTION [NUMBER]`, or `none`. They are linked before the library (ld's --wrap); tests/numbers has the list of faults.
 */
#include "helvidrane.h"

#include <stdio.h>
#include <stdlib.h>
#include <string.h>

#define REAL(name) __real_##name
#define SHIM(name) __wrap_##name

enum { OUT_MOST = 16 };

static struct {
    int is_read;
    char kind[32], function[32];
    size_t number;
} fault;

static int is(const char *kind, const char *function)
{
    const char *text;

    if (!fault.is_read) {
        int words;
        text = getenv("HELVIDRANE_FAULT");
        words = text == NULL ? 0 : sscanf(text, "%31s %31s %zu", fault.kind, fault.function, &fault.number);
        if (words < 2 && strcmp(fault.kind, "none") != 0) {
            fprintf(stderr, "shims: HELVIDRANE_FAULT names no fault\n");
            exit(2);
        }
        fault.is_read = 1;
    }
    return strcmp(fault.kind, kind) == 0 && strcmp(fault.function, function) == 0;
}

static uint64_t cut(uint64_t number)
{
    return number & UINT32_MAX;
}

/* What a caller passes, which is argument `k` of the function, cut to 32 bits. */
static uint64_t passed(const char *function, size_t k, uint64_t number)
{
    return is("narrow", function) && fault.number == k ? cut(number) : number;
}

/* A call: the function, the length of its answer, and what it is lent to write. */
struct lent {
    const char *function;
    size_t answer_len;
    uint8_t *room;
    size_t room_len;
    uint64_t *out;
    size_t out_len;
    uint64_t scratch[OUT_MOST]; /* for an answer that is not handed on */
};

/* A short `out` is not written. */
static uint64_t *out_of(struct lent *lent)
{
    return is("short", lent->function) && lent->out_len < lent->answer_len ? lent->scratch : lent->out;
}

/* The byte of an answer, its last number, made wrong; for a refusal that blames a field, one that blames none, and none. */
static void spoil_byte(const char *function, uint64_t *byte, enum hv_number number)
{
    if (number == HV_ACCEPTED) {
        if (is("byte-told", function))
            *byte = 1;
    } else if (number > HV_REFUSED_LENGTH) {
        if (is("byte-above-7", function))
            *byte = 1;
    } else if (is("byte-more", function)) {
        *byte += 1;
    } else if (is("byte-less", function)) {
        *byte -= *byte > 0;
    } else if (is("byte-zero", function)) {
        *byte = 0;
    } else if (is("byte-low", function)) {
        *byte &= UINT16_MAX;
    } else if (is("byte-cut", function)) {
        *byte = cut(*byte);
    }
}

/* The answer of the library, which is right, made wrong. */
static enum hv_number spoilt(struct lent *lent, enum hv_number number)
{
    const char *function = lent->function;
    uint64_t *out = lent->out;
    size_t k = fault.number;
    size_t i, written = lent->out_len < lent->answer_len ? lent->out_len : lent->answer_len;

    if (number == HV_SHORT) {
        /* A short plan clears the room or `out`, */
        if (is("short-plan-clears-room", function) && lent->room_len > 0)
            lent->room[0] = 0;
        if (is("short-plan-clears-out", function) && lent->out_len > 0)
            out[0] = 0;
        /* or is taken for a stale one. */
        return is("short-plan-stale", function) ? HV_REFUSED_PLAN : number;
    }
    /* A number behind the answer is written, inside `out` or behind it. */
    if (is("behind", function) && lent->out_len > lent->answer_len)
        out[lent->answer_len] = 0;
    if (is("past", function) && lent->out_len < lent->answer_len)
        out[lent->out_len] = 0;
    if (written == lent->answer_len)
        spoil_byte(function, &out[written - 1], number);
    if (number != HV_ACCEPTED) {
        /* `out` or the room is not cleared. */
        if (is("out-kept", function) && written > 0)
            out[0] = 1;
        if (is("room-kept", function) && lent->room_len > 0)
            lent->room[lent->room_len - 1] = 0xa5;
        /* One refusal is taken for the next. */
        return is("refusal", function) && number == k ? (enum hv_number)(number % HV_REFUSED_BOOL + 1) : number;
    }
    /* A number of the answer is always 0, is one too many, is that of its neighbour, or is cut to 32 bits. */
    if (is("zero", function) && k < written)
        out[k] = 0;
    if (is("more", function) && k < written)
        out[k] += 1;
    if (is("next", function) && k + 1 < written)
        out[k] = out[k + 1];
    if (is("cut", function) && k < written)
        out[k] = cut(out[k]);
    /* Five numbers of hv_column are 0: the array, the options, the string maximum, the set and the offset. */
    if (is("five-zeros", function))
        for (i = 0; i < written; i++)
            if (i == 3 || i == 4 || i == 6 || i == 9 || i == 10)
                out[i] = 0;
    /* The index text is not written, or what stands behind it is not cleared. */
    if (is("text-missing", function) && lent->room_len > 0)
        lent->room[0] = 0;
    if (is("tail-kept", function) && lent->room_len > 0 && lent->room[lent->room_len - 1] == 0)
        lent->room[lent->room_len - 1] = 0xa5;
    return number;
}

enum hv_number REAL(hv_description)(const uint8_t *, size_t, uint64_t *, size_t);
enum hv_number SHIM(hv_description)(const uint8_t *, size_t, uint64_t *, size_t);
enum hv_number SHIM(hv_description)(const uint8_t *table, size_t table_len, uint64_t *out, size_t out_len)
{
    struct lent lent = {"hv_description", HV_DESCRIPTION_LEN, NULL, 0, out, out_len, {0}};

    return spoilt(&lent, REAL(hv_description)(table, table_len, out_of(&lent), out_len));
}

enum hv_number REAL(hv_column)(const uint8_t *, size_t, uint64_t, uint64_t *, size_t);
enum hv_number SHIM(hv_column)(const uint8_t *, size_t, uint64_t, uint64_t *, size_t);
enum hv_number SHIM(hv_column)(const uint8_t *table, size_t table_len, uint64_t position, uint64_t *out, size_t out_len)
{
    struct lent lent = {"hv_column", HV_COLUMN_LEN, NULL, 0, out, out_len, {0}};

    position = passed(lent.function, 0, position);
    return spoilt(&lent, REAL(hv_column)(table, table_len, position, out_of(&lent), out_len));
}

enum hv_number REAL(hv_manager)(const uint8_t *, size_t, uint64_t, uint64_t *, size_t);
enum hv_number SHIM(hv_manager)(const uint8_t *, size_t, uint64_t, uint64_t *, size_t);
enum hv_number SHIM(hv_manager)(const uint8_t *table, size_t table_len, uint64_t index, uint64_t *out, size_t out_len)
{
    struct lent lent = {"hv_manager", HV_MANAGER_LEN, NULL, 0, out, out_len, {0}};

    index = passed(lent.function, 0, index);
    return spoilt(&lent, REAL(hv_manager)(table, table_len, index, out_of(&lent), out_len));
}

enum hv_number REAL(hv_column_by_name)(const uint8_t *, size_t, const uint8_t *, size_t, uint64_t *, size_t);
enum hv_number SHIM(hv_column_by_name)(const uint8_t *, size_t, const uint8_t *, size_t, uint64_t *, size_t);
enum hv_number SHIM(hv_column_by_name)(const uint8_t *table, size_t table_len, const uint8_t *name, size_t name_len,
                                       uint64_t *out, size_t out_len)
{
    struct lent lent = {"hv_column_by_name", HV_POSITION_LEN, NULL, 0, out, out_len, {0}};

    return spoilt(&lent, REAL(hv_column_by_name)(table, table_len, name, name_len, out_of(&lent), out_len));
}

typedef enum hv_number of_file(const uint8_t *, size_t, const uint8_t *, size_t, uint64_t, uint8_t *, size_t, uint64_t *,
                               size_t);
of_file REAL(hv_check), SHIM(hv_check), REAL(hv_plan), SHIM(hv_plan);

enum hv_number SHIM(hv_check)(const uint8_t *table, size_t table_len, const uint8_t *file, size_t file_len, uint64_t sequence,
                              uint8_t *room, size_t room_len, uint64_t *out, size_t out_len)
{
    struct lent lent = {"hv_check", HV_CHECK_LEN, room, room_len, out, out_len, {0}};

    sequence = passed(lent.function, 0, sequence);
    /* The number is not written. */
    if (is("without-number", lent.function))
        return REAL(hv_check)(table, table_len, file, file_len, sequence, room, room_len, lent.scratch, out_len);
    return spoilt(&lent, REAL(hv_check)(table, table_len, file, file_len, sequence, room, room_len, out_of(&lent), out_len));
}

enum hv_number SHIM(hv_plan)(const uint8_t *table, size_t table_len, const uint8_t *file, size_t file_len, uint64_t position,
                             uint8_t *room, size_t room_len, uint64_t *out, size_t out_len)
{
    struct lent lent = {"hv_plan", HV_PLAN_LEN, room, room_len, out, out_len, {0}};

    position = passed(lent.function, 0, position);
    return spoilt(&lent, REAL(hv_plan)(table, table_len, file, file_len, position, room, room_len, out_of(&lent), out_len));
}

typedef enum hv_number by_position(const uint8_t *, size_t, const uint8_t *, size_t, uint64_t, uint64_t, uint8_t *, size_t,
                                   uint64_t *, size_t);
by_position REAL(hv_place), SHIM(hv_place), REAL(hv_place_in_bucket), SHIM(hv_place_in_bucket), REAL(hv_view), SHIM(hv_view),
    REAL(hv_padded_view), SHIM(hv_padded_view);

static enum hv_number positioned(struct lent *lent, by_position *real, const uint8_t *table, size_t table_len,
                                 const uint8_t *file, size_t file_len, uint64_t row, uint64_t position)
{
    row = passed(lent->function, 0, row);
    position = passed(lent->function, 1, position);
    return spoilt(lent, real(table, table_len, file, file_len, row, position, lent->room, lent->room_len, out_of(lent),
                             lent->out_len));
}

enum hv_number SHIM(hv_place)(const uint8_t *table, size_t table_len, const uint8_t *file, size_t file_len, uint64_t row,
                              uint64_t position, uint8_t *room, size_t room_len, uint64_t *out, size_t out_len)
{
    struct lent lent = {"hv_place", HV_PLACE_LEN, room, room_len, out, out_len, {0}};

    return positioned(&lent, REAL(hv_place), table, table_len, file, file_len, row, position);
}

enum hv_number SHIM(hv_place_in_bucket)(const uint8_t *table, size_t table_len, const uint8_t *file, size_t file_len,
                                        uint64_t row, uint64_t position, uint8_t *room, size_t room_len, uint64_t *out,
                                        size_t out_len)
{
    struct lent lent = {"hv_place_in_bucket", HV_IN_BUCKET_LEN, room, room_len, out, out_len, {0}};
    enum hv_number number = positioned(&lent, REAL(hv_place_in_bucket), table, table_len, file, file_len, row, position);

    /* All buckets are checked; or all of them are before the row is. */
    if ((is("whole", lent.function) && number == HV_ACCEPTED) || (is("row-last", lent.function) && number == HV_REFUSED_ROW)) {
        enum hv_number whole = REAL(hv_place)(table, table_len, file, file_len, row, position, NULL, 0, NULL, 0);
        return whole != HV_ACCEPTED ? whole : number;
    }
    return number;
}

/* How many bytes stand before the first zero byte. */
static uint64_t before_zero(const uint8_t *bytes, uint64_t len)
{
    const uint8_t *zero = len > 0 ? memchr(bytes, 0, len) : NULL;

    return zero != NULL ? (uint64_t)(zero - bytes) : len;
}

/*
 * The length of a padded text made wrong: `most` is its maximum, and `there` how many bytes there are up to the file's end. The right
 * one, for a padded view, is wrong too: view-trimmed.
 */
static uint64_t text_length(const char *function, const uint8_t *cell, uint64_t most, uint64_t there)
{
    uint64_t right = before_zero(cell, most), end = right;

    /* Nothing is cut off; a zero byte is kept; the last byte of a text that fills its cell is not. */
    if (is("view-padded", function))
        return most;
    if (is("view-zero-kept", function))
        return right < most ? right + 1 : right;
    if (is("view-last-lost", function))
        return right == most ? right - 1 : right;
    /* The search goes on behind the cell; it leaves out the last bytes, fewer than eight; it goes no further than 255 bytes. */
    if (is("view-past-cell", function))
        return before_zero(cell, there);
    if (is("view-eights", function))
        return right < most / 8 * 8 ? right : most;
    if (is("view-255", function))
        return right <= 255 ? right : most;
    /* Zeros are cut off at the end alone; one that another byte follows ends nothing; spaces are cut off too. */
    if (is("view-last-run", function))
        for (end = most; end > 0 && cell[end - 1] == 0; end--)
            continue;
    if (is("view-two-zeros", function))
        while (end + 1 < most && cell[end + 1] != 0)
            end += 1 + before_zero(cell + end + 1, most - end - 1);
    if (is("view-spaces", function))
        while (end > 0 && cell[end - 1] == ' ')
            end--;
    return end;
}

/* Whether another column than that of padded texts is to be cut off like one. */
static int is_cut_off(const char *function, const uint64_t *column)
{
    int is_string = column[HV_COLUMN_DATA_TYPE] == HV_TYPE_STRING, is_array = column[HV_COLUMN_ARRAY] != 0;

    return (is("view-variable", function) && is_string && !is_array) || (is("view-array", function) && is_string && is_array) ||
           (is("view-others", function) && !is_string);
}

/* An accepted view, which is right, made wrong in what it shows of the cell. */
static enum hv_number other_view(struct lent *lent, enum hv_number number, const uint8_t *table, size_t table_len,
                                 const uint8_t *file, size_t file_len, uint64_t row, uint64_t position)
{
    static uint8_t room[HV_ROOM_MOST];
    const char *function = lent->function;
    uint64_t column[HV_COLUMN_LEN], view[HV_VIEW_LEN];
    const uint8_t *cell;
    int is_padded;

    if (number != HV_ACCEPTED || strncmp(fault.kind, "view-", 5) != 0 || strcmp(fault.function, function) != 0)
        return number;
    REAL(hv_column)(table, table_len, position, column, HV_COLUMN_LEN);
    REAL(hv_padded_view)(table, table_len, file, file_len, row, position, room, sizeof room, view, HV_VIEW_LEN);
    cell = file + view[HV_VIEW_START];
    is_padded = column[HV_COLUMN_DATA_TYPE] == HV_TYPE_STRING && column[HV_COLUMN_ARRAY] == 0 && column[HV_COLUMN_STRING_MOST] > 0;
    if (is_padded)
        view[HV_VIEW_LENGTH] = text_length(function, cell, view[HV_VIEW_LENGTH], file_len - view[HV_VIEW_START]);
    else if (is_cut_off(function, column))
        view[HV_VIEW_LENGTH] = before_zero(cell, view[HV_VIEW_LENGTH]);
    if (view[HV_VIEW_LENGTH] == 0) {
        /* An empty text is refused, or begins at 0 or at the cell's end. */
        if (is("view-empty-refused", function))
            return HV_REFUSED_VALUE;
        if (is("view-empty-at-0", function))
            view[HV_VIEW_START] = 0;
        if (is("view-empty-at-end", function))
            view[HV_VIEW_START] += column[HV_COLUMN_STRING_MOST];
    }
    memcpy(lent->out, view, (lent->out_len < 2 ? lent->out_len : 2) * sizeof *view);
    return number;
}

enum hv_number SHIM(hv_view)(const uint8_t *table, size_t table_len, const uint8_t *file, size_t file_len, uint64_t row,
                             uint64_t position, uint8_t *room, size_t room_len, uint64_t *out, size_t out_len)
{
    struct lent lent = {"hv_view", HV_VIEW_LEN, room, room_len, out, out_len, {0}};
    enum hv_number number = positioned(&lent, REAL(hv_view), table, table_len, file, file_len, row, position);

    return other_view(&lent, number, table, table_len, file, file_len, row, position);
}

enum hv_number SHIM(hv_padded_view)(const uint8_t *table, size_t table_len, const uint8_t *file, size_t file_len, uint64_t row,
                                    uint64_t position, uint8_t *room, size_t room_len, uint64_t *out, size_t out_len)
{
    struct lent lent = {"hv_padded_view", HV_VIEW_LEN, room, room_len, out, out_len, {0}};
    enum hv_number number = positioned(&lent, REAL(hv_padded_view), table, table_len, file, file_len, row, position);

    return other_view(&lent, number, table, table_len, file, file_len, row, position);
}

typedef enum hv_number by_plan(const uint8_t *, size_t, const uint8_t *, size_t, uint64_t, const uint64_t *, size_t,
                               uint8_t *, size_t, uint64_t *, size_t);
by_plan REAL(hv_place_planned), SHIM(hv_place_planned), REAL(hv_view_planned), SHIM(hv_view_planned),
    REAL(hv_padded_view_planned), SHIM(hv_padded_view_planned);

static enum hv_number planned(struct lent *lent, by_plan *real, const uint8_t *table, size_t table_len, const uint8_t *file,
                              size_t file_len, uint64_t row, const uint64_t *plan, size_t plan_len)
{
    static uint8_t room[HV_ROOM_MOST];
    const char *function = lent->function;
    int one_passes = is("not-compared", function), all_pass = is("never-stale", function), tenth = is("tenth", function);
    enum { N = HV_PLAN_NUMBERS };
    uint64_t asked[N], fresh[N];
    size_t i;

    row = passed(function, 0, row);
    if (plan_len >= N) {
        for (i = 0; i < N; i++)
            asked[i] = passed(function, 1, plan[i]);
        if ((one_passes || all_pass || tenth) &&
            REAL(hv_plan)(table, table_len, file, file_len, asked[0], room, sizeof room, fresh, N) == HV_ACCEPTED) {
            /* A number of the plan is not compared, or none is, so that 12 is never given; or a tenth one is, with 0. */
            for (i = 0; i < N; i++)
                if (all_pass || (one_passes && i == fault.number))
                    asked[i] = fresh[i];
            if (tenth && plan_len > N && plan[N] != 0)
                asked[HV_PLAN_BUCKET_SIZE] ^= 1;
        }
        plan = asked;
    }
    return spoilt(lent, real(table, table_len, file, file_len, row, plan, plan_len, lent->room, lent->room_len, out_of(lent),
                             lent->out_len));
}

enum hv_number SHIM(hv_place_planned)(const uint8_t *table, size_t table_len, const uint8_t *file, size_t file_len,
                                      uint64_t row, const uint64_t *plan, size_t plan_len, uint8_t *room, size_t room_len,
                                      uint64_t *out, size_t out_len)
{
    struct lent lent = {"hv_place_planned", HV_PLACE_LEN, room, room_len, out, out_len, {0}};

    return planned(&lent, REAL(hv_place_planned), table, table_len, file, file_len, row, plan, plan_len);
}

enum hv_number SHIM(hv_view_planned)(const uint8_t *table, size_t table_len, const uint8_t *file, size_t file_len,
                                     uint64_t row, const uint64_t *plan, size_t plan_len, uint8_t *room, size_t room_len,
                                     uint64_t *out, size_t out_len)
{
    struct lent lent = {"hv_view_planned", HV_VIEW_LEN, room, room_len, out, out_len, {0}};
    enum hv_number number = planned(&lent, REAL(hv_view_planned), table, table_len, file, file_len, row, plan, plan_len);

    return other_view(&lent, number, table, table_len, file, file_len, row, plan_len > 0 ? plan[HV_PLAN_POSITION] : 0);
}

enum hv_number SHIM(hv_padded_view_planned)(const uint8_t *table, size_t table_len, const uint8_t *file, size_t file_len,
                                            uint64_t row, const uint64_t *plan, size_t plan_len, uint8_t *room, size_t room_len,
                                            uint64_t *out, size_t out_len)
{
    struct lent lent = {"hv_padded_view_planned", HV_VIEW_LEN, room, room_len, out, out_len, {0}};
    enum hv_number number = planned(&lent, REAL(hv_padded_view_planned), table, table_len, file, file_len, row, plan, plan_len);

    return other_view(&lent, number, table, table_len, file, file_len, row, plan_len > 0 ? plan[HV_PLAN_POSITION] : 0);
}

/* How much of a path is passed: its last byte is ignored where it ends no String. */
static size_t path_passed(const char *function, const uint8_t *path, size_t path_len)
{
    size_t i = 0;

    if (!is("trailing", function))
        return path_len;
    while (path_len - i >= 4) {
        size_t name_len = (size_t)path[i] << 24 | (size_t)path[i + 1] << 16 | (size_t)path[i + 2] << 8 | path[i + 3];

        if (name_len > path_len - i - 4)
            break;
        i += 4 + name_len;
    }
    return path_len - i == 1 ? i : path_len;
}

/* The number of a field as the library gets it: argument `k`, which may be one more. */
static uint64_t field_passed(const char *function, size_t k, uint64_t number)
{
    return passed(function, k, number) + (is("next-field", function) ? 1 : 0);
}

typedef enum hv_number of_table(const uint8_t *, size_t, const uint8_t *, size_t, uint64_t *, size_t);
typedef enum hv_number of_column(const uint8_t *, size_t, uint64_t, const uint8_t *, size_t, uint64_t *, size_t);
typedef enum hv_number field_of_table(const uint8_t *, size_t, const uint8_t *, size_t, uint64_t, uint64_t *, size_t);
typedef enum hv_number field_of_column(const uint8_t *, size_t, uint64_t, const uint8_t *, size_t, uint64_t, uint64_t *, size_t);
of_table REAL(hv_table_keyword), SHIM(hv_table_keyword);
of_column REAL(hv_column_keyword), SHIM(hv_column_keyword);
field_of_table REAL(hv_table_field), SHIM(hv_table_field);
field_of_column REAL(hv_column_field), SHIM(hv_column_field);

enum hv_number SHIM(hv_table_keyword)(const uint8_t *table, size_t table_len, const uint8_t *path, size_t path_len,
                                      uint64_t *out, size_t out_len)
{
    struct lent lent = {"hv_table_keyword", HV_KEYWORD_LEN, NULL, 0, out, out_len, {0}};

    path_len = path_passed(lent.function, path, path_len);
    return spoilt(&lent, REAL(hv_table_keyword)(table, table_len, path, path_len, out_of(&lent), out_len));
}

enum hv_number SHIM(hv_column_keyword)(const uint8_t *table, size_t table_len, uint64_t position, const uint8_t *path,
                                       size_t path_len, uint64_t *out, size_t out_len)
{
    struct lent lent = {"hv_column_keyword", HV_KEYWORD_LEN, NULL, 0, out, out_len, {0}};

    position = passed(lent.function, 0, position);
    /* The table's keywords, for the column's. */
    if (is("of-table", lent.function))
        return REAL(hv_table_keyword)(table, table_len, path, path_len, out, out_len);
    return spoilt(&lent, REAL(hv_column_keyword)(table, table_len, position, path, path_len, out_of(&lent), out_len));
}

enum hv_number SHIM(hv_table_field)(const uint8_t *table, size_t table_len, const uint8_t *path, size_t path_len,
                                    uint64_t number, uint64_t *out, size_t out_len)
{
    struct lent lent = {"hv_table_field", HV_FIELD_LEN, NULL, 0, out, out_len, {0}};

    number = field_passed(lent.function, 0, number);
    path_len = path_passed(lent.function, path, path_len);
    return spoilt(&lent, REAL(hv_table_field)(table, table_len, path, path_len, number, out_of(&lent), out_len));
}

enum hv_number SHIM(hv_column_field)(const uint8_t *table, size_t table_len, uint64_t position, const uint8_t *path,
                                     size_t path_len, uint64_t number, uint64_t *out, size_t out_len)
{
    struct lent lent = {"hv_column_field", HV_FIELD_LEN, NULL, 0, out, out_len, {0}};

    position = passed(lent.function, 0, position);
    number = field_passed(lent.function, 1, number);
    if (is("of-table", lent.function))
        return REAL(hv_table_field)(table, table_len, path, path_len, number, out, out_len);
    return spoilt(&lent, REAL(hv_column_field)(table, table_len, position, path, path_len, number, out_of(&lent), out_len));
}

uint64_t REAL(hv_element_bits)(uint64_t);
uint64_t SHIM(hv_element_bits)(uint64_t);
uint64_t SHIM(hv_element_bits)(uint64_t number)
{
    const char *function = "hv_element_bits";
    uint64_t asked = is("low-byte", function) ? number & UINT8_MAX : passed(function, 0, number);
    uint64_t bits = REAL(hv_element_bits)(asked);

    /* One type has no bits, or one number twice its bits, or, if it has none, a byte. */
    if (is("no-bits", function) && number == fault.number)
        return 0;
    if (is("other-bits", function) && number == fault.number)
        return bits > 0 ? 2 * bits : 8;
    return bits;
}
