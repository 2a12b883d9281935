/* hv cell: where a cell is kept, its bytes, and the text of a String. */
#include "command.h"
#include "files.h"
#include "json.h"
#include "messages.h"
#include "names.h"
#include "table.h"

#include <errno.h>
#include <inttypes.h>
#include <stdio.h>
#include <stdlib.h>
#include <string.h>

struct question {
    const char *directory;
    struct bytes column;
    uint64_t row;
    bool is_whole; /* all buckets are to be checked */
};

/* The answer, found out whole before any of it is printed. */
struct answer {
    struct verdict verdict;
    char *file; /* that the verdict is about, escaped */
    bool has_table; /* table.dat is accepted, and the next is right */
    uint64_t rows;
    bool has_column; /* and these are */
    uint64_t column[HV_COLUMN_LEN];
    bool has_file; /* the manager's file was asked, and the next is right */
    bool is_one_bucket; /* of its buckets only the row's own is checked, else all that there is */
    uint64_t plan[HV_PLAN_LEN]; /* this and what follows are right where the verdict is accepted */
    uint64_t place[HV_PLACE_LEN];
    bool is_bits; /* the cell is no run of whole bytes */
    uint8_t *cell; /* the bytes that hold the cell, copied */
    uint64_t cell_len;
    bool has_text; /* the cell is a text and its padding, and the next is right */
    uint64_t text_len; /* how many of its first bytes are the text */
};

/* The question to a manager's file. */
struct search {
    struct bytes table;
    struct bytes file;
    uint64_t row;
    uint64_t position;
    struct answer *answer;
    uint64_t number;
    struct dump dump; /* where that blames a byte */
    bool is_beyond; /* the place lies not in the file, or the text is not the cell's, so bytes changed between two questions */
};

static uint8_t room[HV_ROOM_MOST];

static uint64_t first_byte(const struct answer *answer)
{
    return answer->place[HV_PLACE_FIRST_BIT] / 8;
}

static uint64_t last_byte(const struct answer *answer)
{
    return (answer->place[HV_PLACE_FIRST_BIT] + answer->place[HV_PLACE_BIT_COUNT] - 1) / 8;
}

static void copy_cell(struct search *search, uint64_t start, uint64_t len)
{
    search->is_beyond = start > search->file.len || len > search->file.len - start;
    if (search->is_beyond)
        return;
    search->answer->cell = memory(len, 1);
    search->answer->cell_len = len;
    memcpy(search->answer->cell, search->file.at + start, len);
}

/* Place in one bucket; the plan's numbers are the column's, and the bucket size. Gives the byte that a refusal blames. */
static uint64_t ask_bucket(struct search *search)
{
    struct answer *answer = search->answer;
    struct bytes table = search->table, file = search->file;
    uint64_t place[HV_IN_BUCKET_LEN];

    search->number = hv_place_in_bucket(table.at, table.len, file.at, file.len, search->row, search->position, NULL, 0, place,
                                        HV_IN_BUCKET_LEN);
    if (search->number != HV_ACCEPTED)
        return place[HV_IN_BUCKET_BYTE];
    answer->plan[HV_PLAN_POSITION] = search->position;
    answer->plan[HV_PLAN_SEQUENCE] = answer->column[HV_COLUMN_SEQUENCE];
    answer->plan[HV_PLAN_DATA_TYPE] = answer->column[HV_COLUMN_DATA_TYPE];
    answer->plan[HV_PLAN_ELEMENTS] = answer->column[HV_COLUMN_ELEMENTS];
    answer->plan[HV_PLAN_BITS] = place[HV_IN_BUCKET_BIT_COUNT];
    answer->plan[HV_PLAN_BUCKET_SIZE] = place[HV_IN_BUCKET_BUCKET_SIZE];
    answer->place[HV_PLACE_FIRST_BIT] = place[HV_IN_BUCKET_FIRST_BIT];
    answer->place[HV_PLACE_BIT_COUNT] = place[HV_IN_BUCKET_BIT_COUNT];
    copy_cell(search, place[HV_IN_BUCKET_FIRST_BIT] / 8, place[HV_IN_BUCKET_BIT_COUNT] / 8);
    return 0;
}

/* A String scalar with a maximum. */
static bool is_padded(const uint64_t *column)
{
    return column[HV_COLUMN_DATA_TYPE] == HV_TYPE_STRING && column[HV_COLUMN_ARRAY] == 0 && column[HV_COLUMN_STRING_MOST] > 0;
}

/* Whether the copied cell has so many bytes before its first zero byte. */
static bool has_before_zero(const struct answer *answer, uint64_t len)
{
    const uint8_t *zero = memchr(answer->cell, 0, answer->cell_len);

    return len == (zero == NULL ? answer->cell_len : (uint64_t)(zero - answer->cell));
}

/* The view of a padded String, whose cell was copied from `start` on; gives the byte that a refusal blames. */
static uint64_t ask_text(struct search *search, uint64_t start)
{
    struct answer *answer = search->answer;
    struct bytes table = search->table, file = search->file;
    uint64_t view[HV_VIEW_LEN];

    search->number = hv_view(table.at, table.len, file.at, file.len, search->row, search->position, room, sizeof room, view,
                             HV_VIEW_LEN);
    if (search->number == HV_ACCEPTED) {
        search->is_beyond = view[HV_VIEW_START] != start || !has_before_zero(answer, view[HV_VIEW_LENGTH]);
        answer->has_text = true;
        answer->text_len = view[HV_VIEW_LENGTH];
    }
    return view[HV_VIEW_BYTE];
}

/* Plan, place and views, each after a check of the file. The first that is refused decides; gives the byte that it blames. */
static uint64_t ask_cell(struct search *search)
{
    struct answer *answer = search->answer;
    struct bytes table = search->table, file = search->file;
    uint64_t view[HV_VIEW_LEN];

    search->number = hv_plan(table.at, table.len, file.at, file.len, search->position, room, sizeof room, answer->plan,
                             HV_PLAN_LEN);
    if (search->number != HV_ACCEPTED)
        return answer->plan[HV_PLAN_BYTE];
    search->number = hv_place(table.at, table.len, file.at, file.len, search->row, search->position, room, sizeof room,
                              answer->place, HV_PLACE_LEN);
    if (search->number != HV_ACCEPTED)
        return answer->place[HV_PLACE_BYTE];
    search->number = hv_padded_view(table.at, table.len, file.at, file.len, search->row, search->position, room, sizeof room,
                                    view, HV_VIEW_LEN);
    if (search->number == HV_REFUSED_BOOL) {
        search->number = HV_ACCEPTED;
        answer->is_bits = true;
        copy_cell(search, first_byte(answer), last_byte(answer) - first_byte(answer) + 1);
    } else if (search->number == HV_ACCEPTED) {
        copy_cell(search, view[HV_VIEW_START], view[HV_VIEW_LENGTH]);
        if (!search->is_beyond && is_padded(answer->column))
            return ask_text(search, view[HV_VIEW_START]);
    }
    return view[HV_VIEW_BYTE];
}

static void search_file(void *what)
{
    struct search *search = what;
    uint64_t byte = search->answer->is_one_bucket ? ask_bucket(search) : ask_cell(search);

    if (blames_byte(search->number))
        search->dump = dump_of_file(search->table, search->file, search->answer->column[HV_COLUMN_SEQUENCE], byte);
}

static void decide(struct answer *answer, struct verdict verdict, const char *file)
{
    answer->verdict = verdict;
    free(answer->file);
    answer->file = text("%s", file);
}

/* Takes over the reason. */
static void fail(struct answer *answer, char *why, const char *file)
{
    decide(answer, verdict_not_read(why), file);
    answer->has_table = false;
    answer->has_column = false;
    answer->has_file = false;
}

static void ask_file(struct answer *answer, const struct question *question, const struct file *table, uint64_t position)
{
    struct file file;
    char *why = file_open_manager(&file, question->directory, answer->column[HV_COLUMN_SEQUENCE]);
    struct search search = {
        .table = table->bytes, .file = file.bytes, .row = question->row, .position = position, .answer = answer};

    answer->has_file = true;
    if (why == NULL)
        why = file_use(&file, search_file, &search);
    if (why == NULL)
        why = file_changed(&file);
    if (why == NULL && search.is_beyond)
        why = text("%s changed while it was read", file.shown);
    if (why != NULL)
        fail(answer, why, file.shown);
    else
        decide(answer, verdict_of(search.number, &search.dump),
               search.number == HV_REFUSED_ROW ? table->shown : file.shown);
    file_close(&file);
}

/* A column without places, or without those of the kind, is refused before the file is looked at, so these need none. */
static bool has_places(struct bytes table, uint64_t position)
{
    return hv_plan(table.at, table.len, nothing.at, nothing.len, position, NULL, 0, NULL, 0) != HV_REFUSED_MISSING;
}

static bool is_incremental(struct bytes table, uint64_t position)
{
    return hv_place_in_bucket(table.at, table.len, nothing.at, nothing.len, 0, position, NULL, 0, NULL, 0) != HV_REFUSED_MISSING;
}

static void ask_table(struct answer *answer, const struct question *question, const struct file *table)
{
    uint64_t description[HV_DESCRIPTION_LEN], position[HV_POSITION_LEN];
    struct bytes bytes = table->bytes, column = question->column;
    uint64_t number = hv_description(bytes.at, bytes.len, description, HV_DESCRIPTION_LEN);
    struct dump dump = dump_of_table(bytes, description[HV_DESCRIPTION_BYTE]);

    answer->has_table = number == HV_ACCEPTED;
    answer->rows = description[HV_DESCRIPTION_ROWS];
    if (number == HV_ACCEPTED)
        number = hv_column_by_name(bytes.at, bytes.len, column.at, column.len, position, HV_POSITION_LEN);
    if (number == HV_ACCEPTED) {
        number = hv_column(bytes.at, bytes.len, position[HV_POSITION], answer->column, HV_COLUMN_LEN);
        answer->has_column = number == HV_ACCEPTED;
    }
    if (number == HV_ACCEPTED && !has_places(bytes, position[HV_POSITION]))
        number = HV_REFUSED_MISSING;
    if (number == HV_ACCEPTED) {
        answer->is_one_bucket = !question->is_whole && is_incremental(bytes, position[HV_POSITION]);
        ask_file(answer, question, table, position[HV_POSITION]);
    } else {
        decide(answer, verdict_of(number, &dump), table->shown);
    }
}

static void ask(struct answer *answer, const struct question *question)
{
    struct file table;
    char *why = file_open_table(&table, question->directory);

    *answer = (struct answer){0};
    if (why == NULL) {
        ask_table(answer, question, &table);
        why = answer->verdict.outcome == OUTCOME_NOT_READ ? NULL : file_changed(&table);
    }
    if (why != NULL)
        fail(answer, why, table.shown);
    file_close(&table);
}

static void print_refusal(const struct answer *answer, const struct question *question)
{
    char *column = escaped(question->column);
    uint64_t number = answer->verdict.number;

    printf("refused %" PRIu64 "\n%s: %s", number, answer->file, verdict_reason(&answer->verdict));
    if (number == HV_REFUSED_MISSING && answer->has_column)
        printf(" (column \"%s\", of type %s, of manager %" PRIu64 ")", column,
               data_type_name(answer->column[HV_COLUMN_DATA_TYPE]), answer->column[HV_COLUMN_SEQUENCE]);
    else if (number == HV_REFUSED_MISSING)
        printf(" (no column \"%s\")", column);
    else if (number == HV_REFUSED_ROW)
        printf(" (row %" PRIu64 ", row count %" PRIu64 ")", question->row, answer->rows);
    printf("\n");
    print_blamed(&answer->verdict, answer->file);
    free(column);
}

static void print_plan(const uint64_t *plan)
{
    printf("plan\n");
    printf("  position         %" PRIu64 "\n", plan[HV_PLAN_POSITION]);
    printf("  sequence number  %" PRIu64 "\n", plan[HV_PLAN_SEQUENCE]);
    printf("  data type        %" PRIu64 " (%s)\n", plan[HV_PLAN_DATA_TYPE], data_type_name(plan[HV_PLAN_DATA_TYPE]));
    printf("  element count    %" PRIu64 "\n", plan[HV_PLAN_ELEMENTS]);
    printf("  cell bits        %" PRIu64 "\n", plan[HV_PLAN_BITS]);
    printf("  set              %" PRIu64 "\n", plan[HV_PLAN_SET]);
    printf("  offset           %" PRIu64 "\n", plan[HV_PLAN_OFFSET]);
    printf("  rows per bucket  %" PRIu64 "\n", plan[HV_PLAN_ROWS_PER_BUCKET]);
    printf("  bucket size      %" PRIu64 "\n", plan[HV_PLAN_BUCKET_SIZE]);
}

static uint64_t bucket_of(const struct answer *answer)
{
    return (first_byte(answer) - BUCKETS_START) / answer->plan[HV_PLAN_BUCKET_SIZE];
}

static uint64_t bucket_start(const struct answer *answer)
{
    return BUCKETS_START + bucket_of(answer) * answer->plan[HV_PLAN_BUCKET_SIZE];
}

static void print_bytes(const struct answer *answer)
{
    uint64_t i;

    for (i = 0; i < answer->cell_len; i++)
        printf("%s%02x%s", i % 16 == 0 ? "  " : " ", answer->cell[i], i % 16 == 15 || i + 1 == answer->cell_len ? "\n" : "");
}

/* The bit `i` of the cell, counted from its first; bits count from a byte's lowest. */
static int bit_of(const struct answer *answer, uint64_t i)
{
    uint64_t bit = answer->place[HV_PLACE_FIRST_BIT] % 8 + i;

    return answer->cell[bit / 8] >> bit % 8 & 1;
}

static void print_bits(const struct answer *answer)
{
    uint64_t count = answer->place[HV_PLACE_BIT_COUNT];
    uint64_t i;

    for (i = 0; i < count; i++)
        printf("%s%d%s", i % 64 == 0 ? "  " : "", bit_of(answer, i), i % 64 == 63 || i + 1 == count ? "\n" : "");
}

/* The text, escaped, to be freed; null where the cell has none. */
static char *shown_text(const struct answer *answer)
{
    return answer->has_text ? escaped((struct bytes){answer->cell, answer->text_len}) : NULL;
}

static void print_text(const struct answer *answer)
{
    char *shown = shown_text(answer);

    if (shown != NULL)
        printf("text \"%s\"\n", shown);
    free(shown);
}

static void print_cell(const struct answer *answer, const struct question *question)
{
    uint64_t first = answer->place[HV_PLACE_FIRST_BIT];
    uint64_t count = answer->place[HV_PLACE_BIT_COUNT];
    char *column = escaped(question->column);

    printf("column \"%s\" row %" PRIu64 " in %s\n", column, question->row, answer->file);
    if (answer->is_one_bucket)
        printf("checked: the row's bucket, and what leads to it; --whole checks all buckets\n");
    print_plan(answer->plan);
    printf("looks %" PRIu64 ", entry count %" PRIu64 "\n", answer->place[HV_PLACE_LOOKS], answer->place[HV_PLACE_ENTRIES]);
    printf("bucket %" PRIu64 ", bytes %" PRIu64 " to %" PRIu64 "\n", bucket_of(answer), bucket_start(answer),
           bucket_start(answer) + answer->plan[HV_PLAN_BUCKET_SIZE] - 1);
    printf("first bit %" PRIu64 ", bit count %" PRIu64 "\n", first, count);
    printf("bytes %" PRIu64 " to %" PRIu64, first_byte(answer), last_byte(answer));
    if (answer->is_bits) {
        printf(", bits %" PRIu64 " to %" PRIu64 "\n", first, first + count - 1);
        print_bits(answer);
    } else {
        printf("\n");
        print_bytes(answer);
        print_text(answer);
    }
    free(column);
}

/* A digit for each bit of the cell, to be freed. */
static char *bit_digits(const struct answer *answer)
{
    uint64_t count = answer->place[HV_PLACE_BIT_COUNT];
    char *digits = memory(count, 1);
    uint64_t i;

    for (i = 0; i < count; i++)
        digits[i] = (char)('0' + bit_of(answer, i));
    digits[count] = '\0';
    return digits;
}

/* The cell as a text, to be freed. */
static char *cell_text(const struct answer *answer)
{
    return answer->is_bits ? bit_digits(answer) : hex_digits((struct bytes){answer->cell, answer->cell_len});
}

static void json_place(const struct answer *answer)
{
    bool is_known = answer->verdict.outcome == OUTCOME_ACCEPTED;
    const uint64_t *plan = answer->plan;
    char *cell = is_known ? cell_text(answer) : NULL;
    char *shown = is_known ? shown_text(answer) : NULL;

    json_known("position", is_known, plan[HV_PLAN_POSITION]);
    json_known("elements", is_known, plan[HV_PLAN_ELEMENTS]);
    json_known("cell_bits", is_known, plan[HV_PLAN_BITS]);
    json_known("set", is_known, plan[HV_PLAN_SET]);
    json_known("offset", is_known, plan[HV_PLAN_OFFSET]);
    json_known("rows_per_bucket", is_known, plan[HV_PLAN_ROWS_PER_BUCKET]);
    json_known("bucket_size", is_known, plan[HV_PLAN_BUCKET_SIZE]);
    json_known("looks", is_known, answer->place[HV_PLACE_LOOKS]);
    json_known("entries", is_known, answer->place[HV_PLACE_ENTRIES]);
    json_known("bucket", is_known, is_known ? bucket_of(answer) : 0);
    json_known("bucket_start", is_known, is_known ? bucket_start(answer) : 0);
    json_known("first_bit", is_known, answer->place[HV_PLACE_FIRST_BIT]);
    json_known("bit_count", is_known, answer->place[HV_PLACE_BIT_COUNT]);
    json_known("first_byte", is_known, first_byte(answer));
    json_known("last_byte", is_known, last_byte(answer));
    json_text("bytes", answer->is_bits ? NULL : cell);
    json_text("bits", answer->is_bits ? cell : NULL);
    json_text("text", shown);
    free(cell);
    free(shown);
}

static void json_answer(const struct answer *answer, const struct question *question)
{
    char *directory = escaped_text(question->directory);
    char *column = escaped(question->column);

    json_begin("cell", verdict_status(&answer->verdict), answer->verdict.why);
    json_text("directory", directory);
    json_text("column", column);
    json_number("row", question->row);
    json_text("file", answer->file);
    json_verdict(&answer->verdict);
    json_text("checked", !answer->has_file ? NULL : answer->is_one_bucket ? "bucket" : "file");
    json_known("rows", answer->has_table, answer->rows);
    json_known("manager", answer->has_column, answer->column[HV_COLUMN_SEQUENCE]);
    json_known("data_type", answer->has_column, answer->column[HV_COLUMN_DATA_TYPE]);
    json_text("type", answer->has_column ? data_type_name(answer->column[HV_COLUMN_DATA_TYPE]) : NULL);
    json_place(answer);
    json_end();
    free(directory);
    free(column);
}

/* Decimal digits alone, up to 64 bits. */
static bool read_number(const char *given, uint64_t *number)
{
    size_t len = strlen(given);

    if (len == 0 || strspn(given, "0123456789") != len)
        return false;
    errno = 0;
    *number = strtoull(given, NULL, 10);
    return errno == 0;
}

static int answer_question(const struct question *question, bool is_json)
{
    struct answer answer;
    int status;

    ask(&answer, question);
    status = verdict_status(&answer.verdict);
    if (is_json)
        json_answer(&answer, question);
    else if (status == STATUS_ACCEPTED)
        print_cell(&answer, question);
    else if (status == STATUS_REFUSED)
        print_refusal(&answer, question);
    if (status == STATUS_NOT_ASKED)
        complain("%s", answer.verdict.why);
    free(answer.verdict.why);
    free(answer.file);
    free(answer.cell);
    return status;
}

static int misused_row(const char *given)
{
    char *shown = escaped_text(given);
    int status = misused(&cell_command, "ROW is a whole number from 0 to %" PRIu64 ", not '%s'", UINT64_MAX, shown);

    free(shown);
    return status;
}

static int cell(const struct arguments *given)
{
    struct question question = {.directory = given->at[0], .column = nothing, .is_whole = given->whole};
    uint8_t *column;
    int status;

    if (!read_number(given->at[2], &question.row))
        return misused_row(given->at[2]);
    if (unescaped(given->at[1], &column, &question.column.len)) {
        question.column.at = column;
        status = answer_question(&question, given->json);
    } else {
        status = misused(&cell_command, "in COLUMN a backslash begins \\xNN, a byte in two hex digits; write \\x5c for a "
                                        "backslash itself");
    }
    free(column);
    return status;
}

const struct command cell_command = {
    .name = "cell",
    .usage = "[--json] [--whole] DIR COLUMN ROW",
    .summary = "where a cell is kept, and its bytes",
    .help = "Finds the cell of a column and a row, from 0, in the Casacore table in a directory. Prints the\n"
            "column's plan; how many last-row entries of the index the search for the row looked at, and how many\n"
            "the column's set has (both 0 in IncrementalStMan); the bucket that holds the cell, and its bytes in the\n"
            "file; the cell's first bit and bit count, counted from the file's start; and the cell's bytes in hex,\n"
            "as the file has them, that is in the table's byte order.\n"
            "Of a Bool column in StandardStMan, whose cells need not be whole bytes, it prints the bits, first to\n"
            "last; bits count from a byte's lowest.\n"
            "Of a scalar String column with a maximum it prints the text too, below the bytes: what stands before\n"
            "the cell's first zero byte, or all of it if there is none. The bytes are those of the whole cell.\n"
            "Of a column in IncrementalStMan it checks what leads to the row's bucket (table.dat, and the file's\n"
            "header, index and free list) and of the buckets that one alone; a line says so. A fault in another\n"
            "bucket is not seen then. With --whole it checks all buckets, as 'hv check' does. In StandardStMan it\n"
            "always checks the whole file.\n"
            "COLUMN is the name as 'hv list' prints it between the quotes: \\xNN stands for a byte, \\x5c for a\n"
            "backslash.\n"
            "A refusal prints its number, then the file that it is about and why.\n",
    .least = 3,
    .most = 3,
    .json = true,
    .whole = true,
    .directory = true,
    .run = cell,
};
