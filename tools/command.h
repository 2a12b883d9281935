/* A command of hv: what it says of itself, what it is given, and how it ends. */
#ifndef COMMAND_H
#define COMMAND_H

#include <stdbool.h>

/* Exit statuses, the same for every command. The greatest wins. */
enum { STATUS_ACCEPTED = 0, STATUS_REFUSED = 1, STATUS_NOT_ASKED = 2 };

enum { ANY_NUMBER = -1 };

struct arguments {
    bool json;
    bool whole;
    bool table;
    int count;
    char **at;
};

struct command {
    const char *name;
    const char *usage; /* what stands behind its name */
    const char *summary; /* one line */
    const char *help;
    int least; /* arguments */
    int most; /* or ANY_NUMBER */
    bool json; /* whether it takes --json */
    bool whole; /* whether it takes --whole */
    bool table; /* whether it takes --table */
    bool directory; /* whether its first argument is a table's directory */
    bool directories; /* and all others */
    int (*run)(const struct arguments *given); /* gives the exit status */
};

extern const struct command list_command;
extern const struct command check_command;
extern const struct command cell_command;
extern const struct command keywords_command;
extern const struct command types_command;

/* Complains of the command line, says how to use the command, and gives the exit status. */
int misused(const struct command *command, const char *format, ...) __attribute__((format(printf, 2, 3)));

#endif
