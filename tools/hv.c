/* hv: one tool with commands over Casacore tables. */
#include "command.h"
#include "helvidrane.h"
#include "messages.h"
#include "names.h"

#include <stdio.h>
#include <stdlib.h>
#include <string.h>

static int help(const struct arguments *given);

static const struct command help_command = {
    .name = "help",
    .usage = "[COMMAND]",
    .summary = "this text, or more about a command",
    .help = "Says what hv does, or what one of its commands does.\n",
    .least = 0,
    .most = 1,
    .run = help,
};

/* In the order in which they are shown. */
static const struct command *const commands[] = {&list_command,     &check_command, &cell_command,
                                                 &keywords_command, &types_command, &help_command};
enum { COMMANDS = sizeof commands / sizeof *commands };

static const char usage[] = "usage: hv COMMAND [--json] [ARGUMENT]...\n"
                            "       hv help [COMMAND]\n"
                            "       hv --version\n";

/* Of the commands that read a table. */
static const char bytes_shown[] =
    "A refusal of 1 to 7 also tells the byte at which the failing field begins, counted from 0, and shows it in a\n"
    "hex dump, between brackets: [--] where the file ends there. The index text of a StandardStMan file may lie in\n"
    "several buckets, so its bytes are counted from the text's start, and the dump is of the text.\n";

static const char statuses[] = "Exit status: 0 accepted; 1 refused; 2 could not be asked: a usage error, or a file that can\n"
                               "not be read or that changed while it was read.\n";

static const struct command *command_of(const char *name)
{
    int i;

    for (i = 0; i < COMMANDS; i++) {
        if (strcmp(commands[i]->name, name) == 0)
            return commands[i];
    }
    return NULL;
}

static int print_help(void)
{
    int i;

    printf("%s\nReads Casacore tables with a library that is proved.\n\nCommands:\n", usage);
    for (i = 0; i < COMMANDS; i++)
        printf("  %-10s%s\n", commands[i]->name, commands[i]->summary);
    printf("\n--json prints one JSON object. -- ends the options. Names, paths and texts are printed with \\xNN for\n"
           "each byte that is not printable ASCII, for the backslash and for the double quote.\n%s",
           statuses);
    return STATUS_ACCEPTED;
}

static int print_command_help(const struct command *command)
{
    printf("usage: hv %s %s\n%s%s%s%s", command->name, command->usage, command->help,
           command->directory ? bytes_shown : "",
           command->json ? "With --json it prints one JSON object in place of this text; docs/GUIDE.md has its fields.\n" : "",
           statuses);
    return STATUS_ACCEPTED;
}

/* A message about something that was given, and how hv is used. */
static int misused_hv(const char *what, const char *given)
{
    char *shown = escaped_text(given);

    complain("%s '%s'", what, shown);
    fprintf(stderr, "%sTry 'hv help'.\n", usage);
    free(shown);
    return STATUS_NOT_ASKED;
}

static int help(const struct arguments *given)
{
    const struct command *command = given->count > 0 ? command_of(given->at[0]) : NULL;

    if (given->count == 0)
        return print_help();
    return command == NULL ? misused_hv("unknown command", given->at[0]) : print_command_help(command);
}

/* -1 is a number, and - is a name. */
static bool is_option(const char *given)
{
    return given[0] == '-' && given[1] != '\0' && strspn(given + 1, "0123456789") == 0;
}

static bool is_help(const char *given)
{
    return strcmp(given, "-h") == 0 || strcmp(given, "--help") == 0;
}

/* Whether the options end before this argument. */
static bool is_end(const char *given)
{
    return strcmp(given, "--") == 0;
}

static int run(const struct command *command, const struct arguments *given)
{
    int i, directories = command->directories ? given->count : 1;

    if (given->count > 0 && command->most == 0)
        return misused(command, "no argument is taken, %d given", given->count);
    if (given->count < command->least || (command->most != ANY_NUMBER && given->count > command->most)) {
        bool is_few = given->count < command->least;
        int bound = is_few ? command->least : command->most;
        bool is_exact = command->least == command->most;
        return misused(command, "%s%d argument%s %s, %d given", is_exact ? "" : is_few ? "at least " : "at most ", bound,
                       bound == 1 ? " is" : "s are", is_exact || is_few ? "needed" : "taken", given->count);
    }
    for (i = 0; command->directory && i < directories; i++) {
        if (given->at[i][0] == '\0')
            return misused(command, "DIR is empty");
    }
    return command->run(given);
}

/* Takes the options out of the arguments, which stay in their order. */
static int run_with_options(const struct command *command, int argc, char **argv)
{
    struct arguments given = {.at = argv};
    bool has_options = true;
    int i;

    for (i = 0; i < argc && !is_end(argv[i]); i++) {
        if (is_help(argv[i]))
            return print_command_help(command);
    }
    for (i = 0; i < argc; i++) {
        if (has_options && is_end(argv[i])) {
            has_options = false;
        } else if (has_options && command->json && strcmp(argv[i], "--json") == 0) {
            given.json = true;
        } else if (has_options && command->whole && strcmp(argv[i], "--whole") == 0) {
            given.whole = true;
        } else if (has_options && command->table && strcmp(argv[i], "--table") == 0) {
            given.table = true;
        } else if (has_options && is_option(argv[i])) {
            char *shown = escaped_text(argv[i]);
            int status = misused(command, "unknown option '%s'", shown);
            free(shown);
            return status;
        } else {
            given.at[given.count++] = argv[i];
        }
    }
    return run(command, &given);
}

static int run_hv(int argc, char **argv)
{
    const struct command *command = argc > 1 ? command_of(argv[1]) : NULL;

    if (argc < 2) {
        complain("a command is needed");
        fprintf(stderr, "%sTry 'hv help'.\n", usage);
        return STATUS_NOT_ASKED;
    }
    if (command != NULL)
        return run_with_options(command, argc - 2, argv + 2);
    if (is_help(argv[1]))
        return run_with_options(&help_command, argc - 2, argv + 2);
    if (strcmp(argv[1], "--version") == 0) {
        if (argc > 2)
            return misused_hv("--version takes no argument, but is given", argv[2]);
        printf("hv %s\n", hv_version());
        return STATUS_ACCEPTED;
    }
    return misused_hv(is_option(argv[1]) ? "unknown option" : "unknown command", argv[1]);
}

int main(int argc, char **argv)
{
    return finished(run_hv(argc, argv));
}
