/* hv check: the verdicts on the files of one table, or of several with a summary. */
#include "command.h"
#include "json.h"
#include "messages.h"
#include "names.h"
#include "table.h"

#include <inttypes.h>
#include <stdio.h>
#include <stdlib.h>
#include <string.h>
#include <sys/ioctl.h>
#include <unistd.h>

/* Files of data managers, by their verdicts; and of all files the first that is refused, and the first that is not read. */
struct counts {
    uint64_t checked;
    uint64_t not_checked;
    const char *refused; /* its path, or null */
    const struct verdict *refusal;
    const char *not_read;
    const struct verdict *failure;
};

static void count_file(struct counts *counts, const char *path, const struct verdict *verdict)
{
    if (verdict->outcome == OUTCOME_REFUSED && counts->refused == NULL) {
        counts->refused = path;
        counts->refusal = verdict;
    }
    if (verdict->outcome == OUTCOME_NOT_READ && counts->not_read == NULL) {
        counts->not_read = path;
        counts->failure = verdict;
    }
}

static struct counts count(const struct table *table)
{
    struct counts counts = {0, 0, NULL, NULL, NULL, NULL};
    uint64_t i;

    count_file(&counts, table->path, &table->verdict);
    for (i = 0; i < table->manager_count; i++) {
        const struct manager *manager = &table->managers[i];
        enum outcome outcome = manager->verdict.outcome;
        counts.checked += outcome == OUTCOME_ACCEPTED || outcome == OUTCOME_REFUSED;
        counts.not_checked += outcome == OUTCOME_NOT_CHECKED;
        count_file(&counts, manager->path, &manager->verdict);
    }
    return counts;
}

static void print_file(const char *path, const struct verdict *verdict)
{
    printf("%s: ", path);
    print_verdict(verdict);
    printf("\n");
    print_blamed(verdict, path);
}

/* A line for each file, and the byte of a refusal. */
static void print_files(const struct table *table)
{
    struct counts counts = count(table);
    uint64_t i;

    print_file(table->path, &table->verdict);
    for (i = 0; i < table->manager_count; i++)
        print_file(table->managers[i].path, &table->managers[i].verdict);
    if (table->status == STATUS_ACCEPTED && counts.checked == 0)
        printf("%s: no data file was checked\n", table->directory);
}

/* A line for the table, which says accepted only where a file of its data was checked; and the byte of its refusal. */
static void print_line(const struct table *table)
{
    struct counts counts = count(table);

    printf("%s: ", table->directory);
    if (table->status == STATUS_NOT_ASKED)
        printf("not read: %s", verdict_reason(counts.failure));
    if (table->status == STATUS_NOT_ASKED && counts.refused != NULL)
        printf("; ");
    if (counts.refused != NULL)
        printf("refused %" PRIu64 ": %s: %s", counts.refusal->number, counts.refused, verdict_reason(counts.refusal));
    if (table->status == STATUS_ACCEPTED && counts.checked == 0)
        printf("only table.dat accepted: no data file checked, %" PRIu64 " not checked", counts.not_checked);
    else if (table->status == STATUS_ACCEPTED)
        printf("accepted, %" PRIu64 " data file%s checked, %" PRIu64 " not checked", counts.checked,
               counts.checked == 1 ? "" : "s", counts.not_checked);
    printf("\n");
    if (counts.refused != NULL)
        print_blamed(counts.refusal, counts.refused);
}

struct summary {
    uint64_t tables;
    uint64_t by_status[STATUS_NOT_ASKED + 1];
    uint64_t not_checked; /* files */
    uint64_t unchecked; /* accepted tables of which no data file was checked */
    int status;
};

static void add(struct summary *summary, const struct table *table)
{
    struct counts counts = count(table);

    summary->tables++;
    summary->by_status[table->status]++;
    summary->not_checked += counts.not_checked;
    summary->unchecked += table->status == STATUS_ACCEPTED && counts.checked == 0;
    summary->status = table->status > summary->status ? table->status : summary->status;
}

static void print_summary(const struct summary *summary)
{
    printf("%" PRIu64 " tables: %" PRIu64 " accepted, %" PRIu64 " refused, %" PRIu64 " not read", summary->tables,
           summary->by_status[STATUS_ACCEPTED], summary->by_status[STATUS_REFUSED], summary->by_status[STATUS_NOT_ASKED]);
    if (summary->not_checked > 0 || summary->unchecked > 0)
        printf("; %" PRIu64 " data file%s not checked, %" PRIu64 " table%s accepted by table.dat alone", summary->not_checked,
               summary->not_checked == 1 ? "" : "s", summary->unchecked, summary->unchecked == 1 ? "" : "s");
    printf("\n");
}

static void json_one(const struct table *table)
{
    struct counts counts = count(table);
    /* The file that decides: one that is not read before one that is refused. */
    const char *file = counts.not_read != NULL ? counts.not_read : counts.refused;
    const struct verdict *verdict = counts.not_read != NULL ? counts.failure : counts.refused != NULL ? counts.refusal :
                                                                                                      &table->verdict;

    json_object(NULL);
    json_text("directory", table->directory);
    json_text("file", file);
    json_verdict(verdict);
    json_number("checked", counts.checked);
    json_number("not_checked", counts.not_checked);
    json_list("files");
    json_object(NULL);
    json_null("manager");
    json_null("name");
    json_null("kind");
    json_text("file", table->path);
    json_null("bucket_size");
    json_verdict(&table->verdict);
    json_object_end();
    json_managers(table);
    json_list_end();
    json_object_end();
}

static void json_all(const struct table *tables, const struct summary *summary)
{
    const char *error = NULL;
    uint64_t i;

    for (i = 0; i < summary->tables && error == NULL; i++)
        error = table_error(&tables[i]);
    json_begin("check", summary->status, error);
    json_number("accepted", summary->by_status[STATUS_ACCEPTED]);
    json_number("refused", summary->by_status[STATUS_REFUSED]);
    json_number("not_read", summary->by_status[STATUS_NOT_ASKED]);
    json_number("files_not_checked", summary->not_checked);
    json_number("accepted_unchecked", summary->unchecked);
    json_list("tables");
    for (i = 0; i < summary->tables; i++)
        json_one(&tables[i]);
    json_list_end();
    json_end();
}

/* The progress line, on a terminal alone. It is cut to the terminal's width: one that went on below could not be rewritten. */
static void show_progress(int one, int of, const char *directory)
{
    struct winsize size;
    int columns = ioctl(STDERR_FILENO, TIOCGWINSZ, &size) == 0 && size.ws_col > 1 ? size.ws_col : 80;
    char *shown = escaped_text(directory);
    char *line = text("checking %d of %d: %s", one, of, shown);

    fflush(stdout);
    fprintf(stderr, "\r\x1b[K%.*s", columns - 1, line);
    fflush(stderr);
    free(line);
    free(shown);
}

static void clear_progress(void)
{
    fputs("\r\x1b[K", stderr);
    fflush(stderr);
}

static void print_one(const struct table *table, const struct arguments *given)
{
    if (!given->json && given->count > 1)
        print_line(table);
    else if (!given->json)
        print_files(table);
    table_complain(table);
}

static int check(const struct arguments *given)
{
    bool is_shown = given->count > 1 && isatty(STDERR_FILENO) == 1;
    struct table *tables = memory((size_t)given->count, sizeof *tables);
    struct summary summary = {0};
    int i;

    for (i = 0; i < given->count; i++) {
        if (is_shown)
            show_progress(i + 1, given->count, given->at[i]);
        table_ask(&tables[i], given->at[i], false);
        if (is_shown)
            clear_progress();
        add(&summary, &tables[i]);
        print_one(&tables[i], given);
    }
    if (given->json)
        json_all(tables, &summary);
    else if (given->count > 1)
        print_summary(&summary);
    for (i = 0; i < given->count; i++)
        table_free(&tables[i]);
    free(tables);
    return summary.status;
}

const struct command check_command = {
    .name = "check",
    .usage = "[--json] DIR...",
    .summary = "whether the files of tables are accepted",
    .help = "Checks table.dat and every data manager's file of the Casacore table in a directory. Prints a line for\n"
            "each file: accepted, refused with the number of the refusal and why, not checked (a file of another kind\n"
            "than StandardStMan and IncrementalStMan: it is not opened), or not read and why.\n"
            "With several directories it prints a line for each: accepted, with how many data files were checked and\n"
            "how many not; or the first file that is refused; or why one could not be read. A last line counts the\n"
            "tables. On a terminal it shows on standard error which table is being checked.\n"
            "Of a table without a data file that can be checked it says that only table.dat is accepted.\n",
    .least = 1,
    .most = ANY_NUMBER,
    .json = true,
    .directory = true,
    .directories = true,
    .run = check,
};
