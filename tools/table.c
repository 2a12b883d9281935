#include "table.h"

#include "command.h"
#include "files.h"
#include "json.h"
#include "messages.h"

#include <inttypes.h>
#include <stdio.h>
#include <stdlib.h>

static uint8_t room[HV_ROOM_MOST];

const char *verdict_word(const struct verdict *verdict)
{
    static const char *const words[] = {"accepted", "refused", "not checked", "not read"};

    return words[verdict->outcome];
}

const char *verdict_reason(const struct verdict *verdict)
{
    switch (verdict->outcome) {
    case OUTCOME_REFUSED:
        return hv_refusal_text(verdict->number);
    case OUTCOME_NOT_CHECKED:
        return "only StandardStMan and IncrementalStMan files are read";
    case OUTCOME_NOT_READ:
        return verdict->why;
    default:
        return NULL;
    }
}

int verdict_status(const struct verdict *verdict)
{
    switch (verdict->outcome) {
    case OUTCOME_REFUSED:
        return STATUS_REFUSED;
    case OUTCOME_NOT_READ:
        return STATUS_NOT_ASKED;
    default:
        return STATUS_ACCEPTED;
    }
}

void print_verdict(const struct verdict *verdict)
{
    const char *reason = verdict_reason(verdict);

    printf("%s", verdict_word(verdict));
    if (verdict->outcome == OUTCOME_REFUSED)
        printf(" %" PRIu64, verdict->number);
    if (reason != NULL)
        printf(": %s", reason);
}

void print_blamed(const struct verdict *verdict, const char *path)
{
    if (blames_byte(verdict->number))
        print_dump(&verdict->dump, path);
}

void json_verdict(const struct verdict *verdict)
{
    json_text("verdict", verdict_word(verdict));
    json_known("refusal", verdict->outcome == OUTCOME_REFUSED, verdict->number);
    json_text("reason", verdict_reason(verdict));
    json_dump(&verdict->dump, blames_byte(verdict->number));
}

static void json_manager(const struct manager *manager)
{
    json_object(NULL);
    json_number("manager", manager->sequence);
    json_text("name", manager->name);
    json_text("kind", kind_name(manager->kind));
    json_text("file", manager->path);
    json_known("bucket_size", manager->verdict.outcome == OUTCOME_ACCEPTED, manager->bucket_size);
    json_verdict(&manager->verdict);
    json_object_end();
}

void json_managers(const struct table *table)
{
    uint64_t i;

    for (i = 0; i < table->manager_count; i++)
        json_manager(&table->managers[i]);
}

struct verdict verdict_of(uint64_t number, const struct dump *dump)
{
    struct verdict verdict = {.outcome = number == HV_ACCEPTED ? OUTCOME_ACCEPTED : OUTCOME_REFUSED, .number = number};

    if (blames_byte(number))
        verdict.dump = *dump;
    return verdict;
}

struct verdict verdict_not_read(char *why)
{
    struct verdict verdict = {.outcome = OUTCOME_NOT_READ, .why = why};

    return verdict;
}

/* The check of a manager's file. */
struct check {
    struct bytes table;
    struct bytes file;
    uint64_t sequence;
    uint64_t number;
    uint64_t out[HV_CHECK_LEN];
    struct dump dump;
};

static void check_file(void *what)
{
    struct check *check = what;

    check->number = hv_check(check->table.at, check->table.len, check->file.at, check->file.len, check->sequence, room,
                             sizeof room, check->out, HV_CHECK_LEN);
    if (blames_byte(check->number))
        check->dump = dump_of_file(check->table, check->file, check->sequence, check->out[HV_CHECK_BYTE]);
}

static void ask_file(struct manager *manager, struct bytes table, const char *directory)
{
    struct file file;
    char *why = file_open_manager(&file, directory, manager->sequence);
    struct check check = {.table = table, .file = file.bytes, .sequence = manager->sequence};

    if (why == NULL)
        why = file_use(&file, check_file, &check);
    if (why == NULL)
        why = file_changed(&file);
    if (why != NULL) {
        manager->verdict = verdict_not_read(why);
    } else {
        manager->verdict = verdict_of(check.number, &check.dump);
        manager->bucket_size = check.number == HV_ACCEPTED ? check.out[HV_CHECK_BUCKET_SIZE] : 0;
    }
    file_close(&file);
}

static uint64_t ask_manager(struct manager *manager, struct bytes table, uint64_t index, const char *directory)
{
    uint64_t numbers[HV_MANAGER_LEN];
    uint64_t number = hv_manager(table.at, table.len, index, numbers, HV_MANAGER_LEN);
    struct bytes name = {table.at + numbers[HV_MANAGER_NAME], numbers[HV_MANAGER_NAME_LEN]};
    char *path = path_of_manager(directory, numbers[HV_MANAGER_SEQUENCE]);

    manager->sequence = numbers[HV_MANAGER_SEQUENCE];
    manager->kind = numbers[HV_MANAGER_KIND];
    manager->name = escaped(name);
    manager->path = escaped_text(path);
    manager->bucket_size = 0;
    free(path);
    if (manager->kind == HV_STANDARD || manager->kind == HV_INCREMENTAL)
        ask_file(manager, table, directory);
    else
        manager->verdict = (struct verdict){.outcome = OUTCOME_NOT_CHECKED};
    return number;
}

static uint64_t ask_column(struct column *column, struct bytes table, uint64_t position)
{
    uint64_t number = hv_column(table.at, table.len, position, column->numbers, HV_COLUMN_LEN);
    struct bytes name = {table.at + column->numbers[HV_COLUMN_NAME], column->numbers[HV_COLUMN_NAME_LEN]};

    column->name = escaped(name);
    return number;
}

/* What stands in an accepted table.dat; gives the number of a refusal, which is 0 if the library keeps its word. */
static uint64_t ask_parts(struct table *table, struct bytes bytes, const char *directory, bool with_columns)
{
    uint64_t number = HV_ACCEPTED;
    uint64_t i;

    table->column_count = with_columns ? table->description[HV_DESCRIPTION_COLUMNS] : 0;
    table->columns = memory(table->column_count, sizeof *table->columns);
    for (i = 0; i < table->column_count; i++) {
        uint64_t one = ask_column(&table->columns[i], bytes, i);
        number = number == HV_ACCEPTED ? one : number;
    }
    table->manager_count = table->description[HV_DESCRIPTION_MANAGERS];
    table->managers = memory(table->manager_count, sizeof *table->managers);
    for (i = 0; i < table->manager_count; i++) {
        uint64_t one = ask_manager(&table->managers[i], bytes, i, directory);
        number = number == HV_ACCEPTED ? one : number;
    }
    return number;
}

static void free_parts(struct table *table)
{
    uint64_t i;

    for (i = 0; i < table->column_count; i++)
        free(table->columns[i].name);
    for (i = 0; i < table->manager_count; i++) {
        free(table->managers[i].name);
        free(table->managers[i].path);
        free(table->managers[i].verdict.why);
    }
    free(table->columns);
    free(table->managers);
    table->column_count = 0;
    table->columns = NULL;
    table->manager_count = 0;
    table->managers = NULL;
}

static void ask_bytes(struct table *table, const struct file *file, const char *directory, bool with_columns)
{
    uint64_t number = hv_description(file->bytes.at, file->bytes.len, table->description, HV_DESCRIPTION_LEN);
    struct dump dump = dump_of_table(file->bytes, table->description[HV_DESCRIPTION_BYTE]);
    char *why;

    if (number == HV_ACCEPTED)
        number = ask_parts(table, file->bytes, directory, with_columns);
    why = file_changed(file);
    if (why != NULL || number != HV_ACCEPTED)
        free_parts(table);
    table->verdict = why != NULL ? verdict_not_read(why) : verdict_of(number, &dump);
}

void table_ask(struct table *table, const char *directory, bool with_columns)
{
    struct file file;
    char *why = file_open_table(&file, directory);
    uint64_t i;

    *table = (struct table){.directory = escaped_text(directory), .path = escaped_text(file.path)};
    if (why != NULL)
        table->verdict = verdict_not_read(why);
    else
        ask_bytes(table, &file, directory, with_columns);
    file_close(&file);
    table->status = verdict_status(&table->verdict);
    for (i = 0; i < table->manager_count; i++) {
        int one = verdict_status(&table->managers[i].verdict);
        table->status = one > table->status ? one : table->status;
    }
}

void table_free(struct table *table)
{
    free_parts(table);
    free(table->directory);
    free(table->path);
    free(table->verdict.why);
}

const char *table_error(const struct table *table)
{
    uint64_t i;

    if (table->verdict.outcome == OUTCOME_NOT_READ)
        return table->verdict.why;
    for (i = 0; i < table->manager_count; i++) {
        if (table->managers[i].verdict.outcome == OUTCOME_NOT_READ)
            return table->managers[i].verdict.why;
    }
    return NULL;
}

void table_complain(const struct table *table)
{
    uint64_t i;

    if (table->verdict.outcome == OUTCOME_NOT_READ)
        complain("%s", table->verdict.why);
    for (i = 0; i < table->manager_count; i++) {
        if (table->managers[i].verdict.outcome == OUTCOME_NOT_READ)
            complain("%s", table->managers[i].verdict.why);
    }
}
