/* hv list: the columns of a table, its data managers, and the verdicts on their files. */
#include "command.h"
#include "json.h"
#include "names.h"
#include "table.h"

#include <inttypes.h>
#include <stdio.h>

static const char *byte_order(const struct table *table)
{
    return table->description[HV_DESCRIPTION_BIG_ENDIAN] != 0 ? "big" : "little";
}

static void print_column(uint64_t position, const struct column *column)
{
    const uint64_t *numbers = column->numbers;

    printf("%" PRIu64 " \"%s\" %s %" PRIu64 " %" PRIu64 "\n", position, column->name,
           data_type_name(numbers[HV_COLUMN_DATA_TYPE]), numbers[HV_COLUMN_ELEMENTS], numbers[HV_COLUMN_SEQUENCE]);
}

static void print_manager(const struct manager *manager)
{
    printf("manager %" PRIu64 " ", manager->sequence);
    /* The name of one of the two kinds is the kind; another is whatever table.dat has. */
    if (manager->kind == HV_STANDARD || manager->kind == HV_INCREMENTAL)
        printf("%s", kind_name(manager->kind));
    else
        printf("\"%s\"", manager->name);
    printf(", file %s", manager->path);
    if (manager->verdict.outcome == OUTCOME_ACCEPTED)
        printf(", bucket size %" PRIu64, manager->bucket_size);
    printf(": ");
    print_verdict(&manager->verdict);
    printf("\n");
    print_blamed(&manager->verdict, manager->path);
}

static void print_table(const struct table *table)
{
    uint64_t i;

    if (table->verdict.outcome == OUTCOME_REFUSED)
        printf("refused %" PRIu64 "\n%s: %s\n", table->verdict.number, table->path, verdict_reason(&table->verdict));
    print_blamed(&table->verdict, table->path);
    if (table->verdict.outcome != OUTCOME_ACCEPTED)
        return;
    printf("rows %" PRIu64 " columns %" PRIu64 " %s endian\n", table->description[HV_DESCRIPTION_ROWS],
           table->description[HV_DESCRIPTION_COLUMNS], byte_order(table));
    for (i = 0; i < table->column_count; i++)
        print_column(i, &table->columns[i]);
    for (i = 0; i < table->manager_count; i++)
        print_manager(&table->managers[i]);
}

static void json_column(uint64_t position, const struct column *column)
{
    json_object(NULL);
    json_number("position", position);
    json_text("name", column->name);
    json_text("type", data_type_name(column->numbers[HV_COLUMN_DATA_TYPE]));
    json_number("elements", column->numbers[HV_COLUMN_ELEMENTS]);
    json_number("manager", column->numbers[HV_COLUMN_SEQUENCE]);
    json_object_end();
}

static void json_table(const struct table *table)
{
    uint64_t i;

    json_begin("list", table->status, table_error(table));
    json_text("directory", table->directory);
    json_text("file", table->path);
    json_verdict(&table->verdict);
    json_known("rows", table->verdict.outcome == OUTCOME_ACCEPTED, table->description[HV_DESCRIPTION_ROWS]);
    json_text("byte_order", table->verdict.outcome == OUTCOME_ACCEPTED ? byte_order(table) : NULL);
    json_list("columns");
    for (i = 0; i < table->column_count; i++)
        json_column(i, &table->columns[i]);
    json_list_end();
    json_list("managers");
    json_managers(table);
    json_list_end();
    json_end();
}

static int list(const struct arguments *given)
{
    struct table table;
    int status;

    table_ask(&table, given->at[0], true);
    if (given->json)
        json_table(&table);
    else
        print_table(&table);
    table_complain(&table);
    status = table.status;
    table_free(&table);
    return status;
}

const struct command list_command = {
    .name = "list",
    .usage = "[--json] DIR",
    .summary = "the columns and data managers of a table, and the verdicts on its files",
    .help = "Lists the Casacore table in a directory: the row count, the number of columns and the byte order; a line\n"
            "for each column (position, name, type, elements or 0 where the shape is not fixed, sequence number of\n"
            "its data manager); a line for each data manager (sequence number, kind, file, bucket size) with the\n"
            "verdict on its file:\n"
            "  accepted\n"
            "  refused N: why\n"
            "  not checked: only StandardStMan and IncrementalStMan files are read\n"
            "  not read: why\n"
            "A table.dat that is refused prints the number of the refusal, then the file and why.\n"
            "A file that is not checked is not opened, and does not change the exit status.\n",
    .least = 1,
    .most = 1,
    .json = true,
    .directory = true,
    .run = list,
};
