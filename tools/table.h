/* A table and the verdicts on its files. */
#ifndef TABLE_H
#define TABLE_H

#include "dump.h"
#include "helvidrane.h"

enum outcome { OUTCOME_ACCEPTED, OUTCOME_REFUSED, OUTCOME_NOT_CHECKED, OUTCOME_NOT_READ };

struct verdict {
    enum outcome outcome;
    uint64_t number; /* of the refusal, else 0 */
    struct dump dump; /* where the refusal blames a byte, else zeros */
    char *why; /* for OUTCOME_NOT_READ, else null */
};

struct column {
    char *name; /* escaped */
    uint64_t numbers[HV_COLUMN_LEN];
};

struct manager {
    uint64_t sequence;
    uint64_t kind;
    char *name; /* escaped */
    char *path; /* escaped */
    uint64_t bucket_size; /* 0 unless its file is accepted */
    struct verdict verdict;
};

/* Columns and managers, with the verdicts on their files, are there only where table.dat is accepted and stayed as it was. */
struct table {
    char *directory; /* escaped */
    char *path; /* of table.dat, escaped */
    struct verdict verdict; /* on table.dat */
    uint64_t description[HV_DESCRIPTION_LEN];
    uint64_t column_count; /* of `columns`: 0 where they are not wanted */
    struct column *columns;
    uint64_t manager_count;
    struct manager *managers;
    int status; /* of all verdicts */
};

/* Asks everything of a table, to be freed with table_free. Columns are asked for where they are wanted. */
void table_ask(struct table *table, const char *directory, bool with_columns);
void table_free(struct table *table);

/*
 * The verdict by the number that the library gave, with the dump where it blames a byte; and that on a file that was not read,
 * which takes over the reason.
 */
struct verdict verdict_of(uint64_t number, const struct dump *dump);
struct verdict verdict_not_read(char *why);

/* The verdict in words: "accepted", "refused", "not checked", "not read"; and for the last three, why. */
const char *verdict_word(const struct verdict *verdict);
const char *verdict_reason(const struct verdict *verdict);
int verdict_status(const struct verdict *verdict);

/* "accepted", "refused 10: ..", "not checked: .." or "not read: ..", on standard output. */
void print_verdict(const struct verdict *verdict);

/* Of a file whose refusal blames a byte, the lines that show it; of another none. */
void print_blamed(const struct verdict *verdict, const char *path);

/* The fields "verdict", "refusal" and "reason", and those of the byte. */
void json_verdict(const struct verdict *verdict);

/* An object for each data manager: its fields, and those of the verdict on its file. */
void json_managers(const struct table *table);

/* The first reason why a file could not be read, or null. */
const char *table_error(const struct table *table);

/* Complains of every file that could not be read. */
void table_complain(const struct table *table);

#endif
