/* hv keywords: the keywords of a table and of its columns, or one of them. */
#include "command.h"
#include "files.h"
#include "json.h"
#include "messages.h"
#include "names.h"
#include "paths.h"
#include "table.h"
#include "values.h"

#include <inttypes.h>
#include <stdio.h>
#include <stdlib.h>
#include <string.h>

/* Elements of an array that are shown among all keywords; of a keyword that is asked for by its path all are. */
enum { SHOWN_MOST = 8 };

struct question {
    const char *directory;
    bool is_table; /* the table's own keywords are asked for, and no column's */
    bool has_column; /* or those of this column, and no others */
    struct bytes column;
    int name_count; /* of the path of the one keyword that is asked for; 0: all are */
    struct bytes *names;
};

struct keyword {
    uint64_t numbers[HV_FIELD_LEN]; /* those of the name are 0 where `is_asked` */
    size_t holder; /* the record that holds it, counted among the keywords of its set, or NO_HOLDER */
    unsigned depth; /* of its line */
    bool is_asked; /* by the path of the question */
    bool is_hidden; /* a field before it in its record has its name, so a path leads to that */
};

#define NO_HOLDER SIZE_MAX

/* The keywords of the table or of a column, in stored order, and behind a record its fields. There are none if it is refused. */
struct set {
    bool is_table;
    uint64_t position; /* of the column */
    char *name; /* of the column, escaped, else null */
    struct verdict verdict;
    bool is_unfit; /* a part lies not in table.dat, or holds no value of its type, so the library broke its word */
    size_t count;
    size_t room;
    struct keyword *keywords;
};

/* The answer, found out whole before any of it is printed. */
struct answer {
    struct file file; /* table.dat */
    struct verdict verdict; /* on table.dat, and on the column that is asked for */
    uint64_t set_count;
    struct set *sets;
    int status; /* of all verdicts */
};

static bool lies_in(struct bytes table, uint64_t start, uint64_t len)
{
    return start <= table.len && len <= table.len - start;
}

static struct bytes name_of(struct bytes table, const struct keyword *keyword)
{
    return (struct bytes){table.at + keyword->numbers[HV_FIELD_NAME], keyword->numbers[HV_FIELD_NAME_LEN]};
}

static struct bytes part_of(struct bytes table, const struct keyword *keyword)
{
    return (struct bytes){table.at + keyword->numbers[HV_FIELD_START], keyword->numbers[HV_FIELD_LENGTH]};
}

static bool is_record(const struct keyword *keyword)
{
    return keyword->numbers[HV_FIELD_TYPE] == HV_TYPE_RECORD;
}

static bool is_fit(struct bytes table, const struct keyword *keyword)
{
    const uint64_t *numbers = keyword->numbers;
    struct value value;

    return lies_in(table, numbers[HV_FIELD_NAME], numbers[HV_FIELD_NAME_LEN]) &&
           lies_in(table, numbers[HV_FIELD_START], numbers[HV_FIELD_LENGTH]) && numbers[HV_FIELD_LENGTH] > 0 &&
           value_of(part_of(table, keyword), numbers[HV_FIELD_TYPE], &value);
}

static bool is_same_name(struct bytes one, struct bytes other)
{
    return one.len == other.len && memcmp(one.at, other.at, one.len) == 0;
}

static bool is_hidden(const struct set *set, struct bytes table, const struct keyword *keyword)
{
    size_t i = keyword->holder == NO_HOLDER ? 0 : keyword->holder + 1;

    for (; i < set->count; i++) {
        const struct keyword *before = &set->keywords[i];
        if (before->holder == keyword->holder && is_same_name(name_of(table, before), name_of(table, keyword)))
            return true;
    }
    return false;
}

static void add(struct set *set, const struct keyword *keyword)
{
    struct keyword *keywords;

    if (set->count == set->room) {
        set->room = 2 * set->room + 16;
        keywords = memory(set->room, sizeof *keywords);
        if (set->count > 0)
            memcpy(keywords, set->keywords, set->count * sizeof *keywords);
        free(set->keywords);
        set->keywords = keywords;
    }
    set->keywords[set->count++] = *keyword;
}

static uint64_t ask_keyword(const struct set *set, struct bytes table, const struct path *path, uint64_t *numbers)
{
    return set->is_table ? hv_table_keyword(table.at, table.len, path->at, path->len, numbers, HV_KEYWORD_LEN) :
                           hv_column_keyword(table.at, table.len, set->position, path->at, path->len, numbers, HV_KEYWORD_LEN);
}

static uint64_t ask_field(const struct set *set, struct bytes table, const struct path *path, uint64_t number, uint64_t *numbers)
{
    return set->is_table ?
               hv_table_field(table.at, table.len, path->at, path->len, number, numbers, HV_FIELD_LEN) :
               hv_column_field(table.at, table.len, set->position, path->at, path->len, number, numbers, HV_FIELD_LEN);
}

/*
 * Adds the fields of the record that a path names, and what they hold. Gives the number of a refusal, and its byte. There is none
 * where the set was asked before, if the library keeps its word.
 */
static uint64_t add_fields(struct set *set, struct bytes table, struct path *path, size_t holder, unsigned depth, uint64_t *byte)
{
    uint64_t number = HV_ACCEPTED, i;

    for (i = 0; number == HV_ACCEPTED && !set->is_unfit; i++) {
        struct keyword field = {.holder = holder, .depth = depth};
        size_t len = path->len, at = set->count;
        number = ask_field(set, table, path, i, field.numbers);
        *byte = field.numbers[HV_FIELD_BYTE];
        set->is_unfit = number == HV_ACCEPTED && !is_fit(table, &field);
        if (number != HV_ACCEPTED || set->is_unfit)
            break;
        field.is_hidden = is_hidden(set, table, &field);
        add(set, &field);
        if (!is_record(&field) || field.is_hidden)
            continue;
        path_add(path, name_of(table, &field));
        number = add_fields(set, table, path, at, depth + 1, byte);
        path->len = len;
    }
    return number == HV_REFUSED_KEYWORD ? HV_ACCEPTED : number;
}

/* Adds the keyword that a path names, and what it holds. Gives the number of a refusal, and its byte. */
static uint64_t add_asked(struct set *set, struct bytes table, struct path *path, uint64_t *byte)
{
    struct keyword asked = {.holder = NO_HOLDER, .is_asked = true};
    uint64_t numbers[HV_KEYWORD_LEN];
    uint64_t number = ask_keyword(set, table, path, numbers);

    *byte = numbers[HV_KEYWORD_BYTE];
    if (number != HV_ACCEPTED)
        return number;
    asked.numbers[HV_FIELD_TYPE] = numbers[HV_KEYWORD_TYPE];
    asked.numbers[HV_FIELD_START] = numbers[HV_KEYWORD_START];
    asked.numbers[HV_FIELD_LENGTH] = numbers[HV_KEYWORD_LENGTH];
    set->is_unfit = !is_fit(table, &asked);
    add(set, &asked);
    return is_record(&asked) ? add_fields(set, table, path, 0, 1, byte) : HV_ACCEPTED;
}

static void ask_set(struct set *set, const struct question *question, const struct file *file)
{
    struct path path = {NULL, 0, 0};
    struct dump dump;
    uint64_t number, byte = 0;
    int i;

    for (i = 0; i < question->name_count; i++)
        path_add(&path, question->names[i]);
    number = question->name_count > 0 ? add_asked(set, file->bytes, &path, &byte) :
                                        add_fields(set, file->bytes, &path, NO_HOLDER, 1, &byte);
    dump = dump_of_table(file->bytes, byte);
    set->verdict = set->is_unfit ? verdict_not_read(text("%s: a keyword's part is not its value's", file->shown)) :
                                   verdict_of(number, &dump);
    if (set->verdict.outcome != OUTCOME_ACCEPTED)
        set->count = 0;
    path_free(&path);
}

static void ask_column(struct set *set, struct bytes table, uint64_t position)
{
    uint64_t column[HV_COLUMN_LEN];

    hv_column(table.at, table.len, position, column, HV_COLUMN_LEN);
    set->position = position;
    set->name = escaped((struct bytes){table.at + column[HV_COLUMN_NAME], column[HV_COLUMN_NAME_LEN]});
}

/* The sets that are asked for: of the table, of one column, or of the table and all columns. */
static void ask_sets(struct answer *answer, const struct question *question, uint64_t position, uint64_t columns)
{
    uint64_t of_table = question->has_column ? 0 : 1, i;

    answer->set_count = question->has_column || question->is_table ? 1 : 1 + columns;
    answer->sets = memory((size_t)answer->set_count, sizeof *answer->sets);
    for (i = 0; i < answer->set_count; i++) {
        struct set *set = &answer->sets[i];
        *set = (struct set){.is_table = i < of_table};
        if (!set->is_table)
            ask_column(set, answer->file.bytes, question->has_column ? position : i - of_table);
        ask_set(set, question, &answer->file);
    }
}

static void free_sets(struct answer *answer)
{
    uint64_t i;

    for (i = 0; i < answer->set_count; i++) {
        free(answer->sets[i].name);
        free(answer->sets[i].verdict.why);
        free(answer->sets[i].keywords);
    }
    free(answer->sets);
    answer->set_count = 0;
    answer->sets = NULL;
}

static void ask_table(struct answer *answer, const struct question *question)
{
    uint64_t description[HV_DESCRIPTION_LEN], position[HV_POSITION_LEN] = {0};
    struct bytes table = answer->file.bytes, column = question->column;
    uint64_t number = hv_description(table.at, table.len, description, HV_DESCRIPTION_LEN);
    struct dump dump = dump_of_table(table, description[HV_DESCRIPTION_BYTE]);

    if (number == HV_ACCEPTED && question->has_column)
        number = hv_column_by_name(table.at, table.len, column.at, column.len, position, HV_POSITION_LEN);
    answer->verdict = verdict_of(number, &dump);
    if (number == HV_ACCEPTED)
        ask_sets(answer, question, position[HV_POSITION], description[HV_DESCRIPTION_COLUMNS]);
}

static void ask(struct answer *answer, const struct question *question)
{
    char *why;
    uint64_t i;

    *answer = (struct answer){.set_count = 0};
    why = file_open_table(&answer->file, question->directory);
    if (why == NULL) {
        ask_table(answer, question);
        why = file_changed(&answer->file);
    }
    if (why != NULL) {
        free_sets(answer);
        answer->verdict = verdict_not_read(why);
    }
    answer->status = verdict_status(&answer->verdict);
    for (i = 0; i < answer->set_count; i++) {
        int one = verdict_status(&answer->sets[i].verdict);
        answer->status = one > answer->status ? one : answer->status;
    }
}

/* A line: name, type and value; of a keyword that was asked for by its path without the name. */
static void print_keyword(const struct set *set, struct bytes table, size_t at, uint64_t most)
{
    const struct keyword *keyword = &set->keywords[at];
    bool has_fields = at + 1 < set->count && set->keywords[at + 1].holder == at;
    char *name = escaped(name_of(table, keyword));
    struct value value;

    value_of(part_of(table, keyword), keyword->numbers[HV_FIELD_TYPE], &value);
    printf("%*s", 2 * (int)keyword->depth, "");
    if (!keyword->is_asked)
        printf("\"%s\" ", name);
    print_type(&value);
    if (value.count > 0)
        printf(" ");
    print_elements(&value, most);
    if (keyword->is_hidden)
        printf(" (hidden by the first \"%s\")", name);
    else if (is_record(keyword) && !has_fields)
        printf(", no fields");
    printf("\n");
    free(name);
}

static void print_set(const struct set *set, const struct file *file)
{
    size_t i;

    if (set->is_table)
        printf("table");
    else
        printf("column %" PRIu64 " \"%s\"", set->position, set->name);
    if (set->verdict.outcome != OUTCOME_ACCEPTED) {
        printf(": ");
        print_verdict(&set->verdict);
    } else if (set->count == 0) {
        printf(": no keywords");
    }
    printf("\n");
    print_blamed(&set->verdict, file->shown);
    for (i = 0; i < set->count; i++)
        print_keyword(set, file->bytes, i, SHOWN_MOST);
}

/* `table` or `column "TIME"`, and ` keyword` with the names of the path. */
static void print_question(const struct question *question)
{
    char *shown;
    int i;

    if (question->has_column) {
        shown = escaped(question->column);
        printf("column \"%s\" keyword", shown);
        free(shown);
    } else {
        printf("table keyword");
    }
    for (i = 0; i < question->name_count; i++) {
        shown = escaped(question->names[i]);
        printf(" \"%s\"", shown);
        free(shown);
    }
}

static void print_refusal(const struct verdict *verdict, const struct file *file, const struct question *question)
{
    char *column = escaped(question->column);

    printf("refused %" PRIu64 "\n%s: %s", verdict->number, file->shown, verdict_reason(verdict));
    if (verdict->number == HV_REFUSED_MISSING)
        printf(" (no column \"%s\")", column);
    if (verdict->number == HV_REFUSED_KEYWORD) {
        printf(" (");
        print_question(question);
        printf(")");
    }
    printf("\n");
    print_blamed(verdict, file->shown);
    free(column);
}

/* The keyword that was asked for by its path. */
static void print_asked(const struct set *set, const struct file *file, const struct question *question)
{
    const uint64_t *numbers;
    size_t i;

    if (set->verdict.outcome == OUTCOME_REFUSED)
        print_refusal(&set->verdict, file, question);
    if (set->verdict.outcome != OUTCOME_ACCEPTED)
        return;
    numbers = set->keywords[0].numbers;
    print_question(question);
    printf(" in %s\ntype %" PRIu64 ", bytes %" PRIu64 " to %" PRIu64 "\n", file->shown, numbers[HV_FIELD_TYPE],
           numbers[HV_FIELD_START], numbers[HV_FIELD_START] + numbers[HV_FIELD_LENGTH] - 1);
    for (i = 0; i < set->count; i++)
        print_keyword(set, file->bytes, i, UINT64_MAX);
}

static void print_answer(const struct answer *answer, const struct question *question)
{
    uint64_t i;

    if (answer->verdict.outcome == OUTCOME_REFUSED)
        print_refusal(&answer->verdict, &answer->file, question);
    for (i = 0; i < answer->set_count; i++) {
        if (question->name_count > 0)
            print_asked(&answer->sets[i], &answer->file, question);
        else
            print_set(&answer->sets[i], &answer->file);
    }
}

static void json_names(const struct question *question)
{
    int i;

    for (i = 0; i < question->name_count; i++) {
        char *shown = escaped(question->names[i]);
        json_text(NULL, shown);
        free(shown);
    }
}

/* The names that lead from the set, or from the keyword that was asked for, to a keyword. */
static void json_names_below(const struct set *set, struct bytes table, const struct keyword *keyword)
{
    char *shown;

    if (keyword->is_asked)
        return;
    if (keyword->holder != NO_HOLDER)
        json_names_below(set, table, &set->keywords[keyword->holder]);
    shown = escaped(name_of(table, keyword));
    json_text(NULL, shown);
    free(shown);
}

static void json_keyword(const struct set *set, struct bytes table, const struct keyword *keyword, const struct question *question)
{
    const uint64_t *numbers = keyword->numbers;
    struct value value;

    value_of(part_of(table, keyword), numbers[HV_FIELD_TYPE], &value);
    json_object(NULL);
    json_list("path");
    json_names(question);
    json_names_below(set, table, keyword);
    json_list_end();
    json_word("hidden", keyword->is_hidden ? "true" : "false");
    json_number("data_type", numbers[HV_FIELD_TYPE]);
    json_value(&value);
    json_number("first_byte", numbers[HV_FIELD_START]);
    json_number("last_byte", numbers[HV_FIELD_START] + numbers[HV_FIELD_LENGTH] - 1);
    json_object_end();
}

static void json_set(const struct set *set, const struct file *file, const struct question *question)
{
    size_t i;

    json_object(NULL);
    json_known("position", !set->is_table, set->position);
    json_text("name", set->name);
    json_text("file", file->shown);
    json_verdict(&set->verdict);
    json_list("keywords");
    for (i = 0; i < set->count; i++)
        json_keyword(set, file->bytes, &set->keywords[i], question);
    json_list_end();
    json_object_end();
}

/* The first reason why something could not be read, or null. */
static const char *error_of(const struct answer *answer)
{
    const char *error = answer->verdict.why;
    uint64_t i;

    for (i = 0; i < answer->set_count && error == NULL; i++)
        error = answer->sets[i].verdict.why;
    return error;
}

static void json_answer(const struct answer *answer, const struct question *question)
{
    char *directory = escaped_text(question->directory);
    char *column = question->has_column ? escaped(question->column) : NULL;
    uint64_t i;

    json_begin("keywords", answer->status, error_of(answer));
    json_text("directory", directory);
    json_text("column", column);
    json_list("path");
    json_names(question);
    json_list_end();
    json_text("file", answer->file.shown);
    json_verdict(&answer->verdict);
    json_list("sets");
    for (i = 0; i < answer->set_count; i++)
        json_set(&answer->sets[i], &answer->file, question);
    json_list_end();
    json_end();
    free(directory);
    free(column);
}

static void complain_of(const struct answer *answer)
{
    uint64_t i;

    if (answer->verdict.why != NULL)
        complain("%s", answer->verdict.why);
    for (i = 0; i < answer->set_count; i++) {
        if (answer->sets[i].verdict.why != NULL)
            complain("%s", answer->sets[i].verdict.why);
    }
}

static int answer_question(const struct question *question, bool is_json)
{
    struct answer answer;

    ask(&answer, question);
    if (is_json)
        json_answer(&answer, question);
    else
        print_answer(&answer, question);
    complain_of(&answer);
    free_sets(&answer);
    free(answer.verdict.why);
    file_close(&answer.file);
    return answer.status;
}

static int keywords(const struct arguments *given)
{
    /* Behind DIR: the names of the path, and before them, but for --table, that of the column. */
    int count = given->count - 1, i;
    struct bytes *names = memory((size_t)count, sizeof *names);
    uint8_t **at = memory((size_t)count, sizeof *at);
    struct question question = {.directory = given->at[0], .is_table = given->table, .column = nothing};
    bool is_right = true;
    int status;

    for (i = 0; i < count; i++) {
        is_right = unescaped(given->at[1 + i], &at[i], &names[i].len) && is_right;
        names[i].at = at[i];
    }
    question.has_column = !given->table && count > 0;
    if (question.has_column)
        question.column = names[0];
    question.names = names + question.has_column;
    question.name_count = count - question.has_column;
    if (is_right)
        status = answer_question(&question, given->json);
    else
        status = misused(&keywords_command, "in COLUMN and NAME a backslash begins \\xNN, a byte in two hex digits; write \\x5c "
                                            "for a backslash itself");
    for (i = 0; i < count; i++)
        free(at[i]);
    free(at);
    free(names);
    return status;
}

const struct command keywords_command = {
    .name = "keywords",
    .usage = "[--json] [--table] DIR [COLUMN] [NAME]...",
    .summary = "the keywords of a table and of its columns, and their values",
    .help = "Prints the keywords of the Casacore table in a directory: first the table's own, then those of each\n"
            "column, or with COLUMN those of this column alone, or with --table the table's alone. A line for each:\n"
            "name, type and value, and below a record its fields, indented. An array has its shape in brackets, the\n"
            "fastest axis first, and up to eight of its elements; a Complex is (real, imaginary); a Table is the\n"
            "name of a subtable. Floats have the fewest digits that are read back as the same float, and\n"
            "not-a-number its bits. Of equal names in a record only the first is found by a path: the others are\n"
            "called hidden, and the fields of a record among them are not shown.\n"
            "Keywords that are refused have the number of the refusal and why in their place; the others are still\n"
            "printed.\n"
            "With NAME, or several, it prints one keyword, a NAME for each step of its path: its type number, its\n"
            "bytes in table.dat, and its value with all elements, of a record with its fields. So\n"
            "  hv keywords DIR TIME MEASINFO Ref\n"
            "is the field Ref of the record MEASINFO of the column TIME, and with --table, where no COLUMN is\n"
            "given, the names are of the table's keywords.\n"
            "COLUMN and NAME are as they are printed between the quotes: \\xNN stands for a byte, \\x5c for a\n"
            "backslash. Of the table's files only table.dat is read.\n"
            "A refusal of table.dat, of the column or of the path prints its number, then the file and why.\n",
    .least = 1,
    .most = ANY_NUMBER,
    .json = true,
    .table = true,
    .directory = true,
    .run = keywords,
};
