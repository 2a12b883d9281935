#include "names.h"

#include "helvidrane.h"
#include "messages.h"

#include <stdio.h>
#include <string.h>

static const uint8_t no_byte;
const struct bytes nothing = {&no_byte, 0};

char *escaped(struct bytes bytes)
{
    char *shown = memory(bytes.len, 4);
    char *end = shown;
    size_t i;

    for (i = 0; i < bytes.len; i++) {
        uint8_t byte = bytes.at[i];
        if (byte < 0x20 || byte > 0x7e || byte == '\\' || byte == '"')
            end += sprintf(end, "\\x%02x", byte);
        else
            *end++ = (char)byte;
    }
    *end = '\0';
    return shown;
}

char *escaped_text(const char *given)
{
    struct bytes bytes = {(const uint8_t *)given, strlen(given)};

    return escaped(bytes);
}

char *hex_digits(struct bytes bytes)
{
    char *digits = memory(bytes.len, 2);
    char *end = digits;
    size_t i;

    *end = '\0';
    for (i = 0; i < bytes.len; i++)
        end += sprintf(end, "%02x", bytes.at[i]);
    return digits;
}

/* The value of a hex digit, or -1. */
static int hex_digit(char digit)
{
    static const char digits[] = "0123456789abcdef0123456789ABCDEF";
    const char *found = digit == '\0' ? NULL : strchr(digits, digit);

    return found == NULL ? -1 : (int)((found - digits) % 16);
}

bool unescaped(const char *shown, uint8_t **at, size_t *len)
{
    const char *next = shown;
    size_t count = 0;

    *at = memory(strlen(shown), 1);
    while (*next != '\0') {
        int high = next[0] == '\\' && next[1] == 'x' ? hex_digit(next[2]) : -1;
        int low = high >= 0 ? hex_digit(next[3]) : -1;
        if (low >= 0) {
            (*at)[count++] = (uint8_t)(high * 16 + low);
            next += 4;
        } else if (*next == '\\') {
            return false;
        } else {
            (*at)[count++] = (uint8_t)*next++;
        }
    }
    *len = count;
    return true;
}

#define SPELLED(name, number, spelling) \
    case name:                          \
        return spelling;

const char *data_type_name(uint64_t number)
{
    switch (number) {
        HV_DATA_TYPES(SPELLED)
    default:
        return "unknown";
    }
}

const char *kind_name(uint64_t kind)
{
    switch (kind) {
    case HV_STANDARD:
        return "StandardStMan";
    case HV_INCREMENTAL:
        return "IncrementalStMan";
    default:
        return "other";
    }
}
