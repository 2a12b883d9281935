#include "json.h"

#include "helvidrane.h"

#include <inttypes.h>
#include <stdio.h>

/* Whether nothing stands yet in the object or list that is open. */
static bool is_first = true;

static void print_string(const char *given)
{
    const char *next;

    putchar('"');
    for (next = given; *next != '\0'; next++) {
        unsigned char byte = (unsigned char)*next;
        if (byte < 0x20 || byte > 0x7e)
            printf("\\u%04x", byte);
        else if (byte == '"' || byte == '\\')
            printf("\\%c", byte);
        else
            putchar(byte);
    }
    putchar('"');
}

static void begin(const char *name)
{
    if (!is_first)
        fputs(", ", stdout);
    if (name != NULL) {
        print_string(name);
        fputs(": ", stdout);
    }
    is_first = false;
}

void json_object(const char *name)
{
    begin(name);
    putchar('{');
    is_first = true;
}

void json_object_end(void)
{
    putchar('}');
    is_first = false;
}

void json_list(const char *name)
{
    begin(name);
    putchar('[');
    is_first = true;
}

void json_list_end(void)
{
    putchar(']');
    is_first = false;
}

void json_number(const char *name, uint64_t number)
{
    begin(name);
    printf("%" PRIu64, number);
}

void json_word(const char *name, const char *word)
{
    begin(name);
    fputs(word, stdout);
}

void json_null(const char *name)
{
    json_word(name, "null");
}

void json_known(const char *name, bool is_known, uint64_t number)
{
    if (is_known)
        json_number(name, number);
    else
        json_null(name);
}

void json_text(const char *name, const char *given)
{
    if (given == NULL) {
        json_null(name);
        return;
    }
    begin(name);
    print_string(given);
}

void json_begin(const char *command, int status, const char *error)
{
    json_object(NULL);
    json_text("command", command);
    json_text("version", hv_version());
    json_number("status", (uint64_t)status);
    json_text("error", error);
}

void json_end(void)
{
    json_object_end();
    putchar('\n');
}
