#include "messages.h"

#include "command.h"

#include <errno.h>
#include <stdarg.h>
#include <stdint.h>
#include <stdio.h>
#include <stdlib.h>
#include <string.h>

void *memory(size_t count, size_t size)
{
    void *at = count == 0 || size <= SIZE_MAX / count ? malloc(count * size + 1) : NULL;

    if (at == NULL) {
        complain("no memory for %zu times %zu bytes", count, size);
        exit(STATUS_NOT_ASKED);
    }
    return at;
}

static void print_message(const char *format, va_list values)
{
    /* What was printed stands before the message. */
    fflush(stdout);
    fputs("hv: ", stderr);
    vfprintf(stderr, format, values);
    fputc('\n', stderr);
}

char *text(const char *format, ...)
{
    va_list values, again;
    char *made;
    int len;

    va_start(values, format);
    va_copy(again, values);
    len = vsnprintf(NULL, 0, format, values);
    va_end(values);
    if (len < 0) {
        complain("cannot write a text: %s", strerror(errno));
        exit(STATUS_NOT_ASKED);
    }
    made = memory((size_t)len + 1, 1);
    vsnprintf(made, (size_t)len + 1, format, again);
    va_end(again);
    return made;
}

void complain(const char *format, ...)
{
    va_list values;

    va_start(values, format);
    print_message(format, values);
    va_end(values);
}

int misused(const struct command *command, const char *format, ...)
{
    va_list values;

    va_start(values, format);
    print_message(format, values);
    va_end(values);
    fprintf(stderr, "usage: hv %s %s\nTry 'hv help %s'.\n", command->name, command->usage, command->name);
    return STATUS_NOT_ASKED;
}

int finished(int status)
{
    if (fflush(stdout) != 0 || ferror(stdout)) {
        complain("cannot write: %s", strerror(errno));
        return STATUS_NOT_ASKED;
    }
    return status;
}
