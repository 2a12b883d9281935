/* Names, paths and texts as hv shows them, and as it is given them. */
#ifndef NAMES_H
#define NAMES_H

#include <stdbool.h>
#include <stddef.h>
#include <stdint.h>

/* Bytes in the order of their file or text. `at` is never null. */
struct bytes {
    const uint8_t *at;
    size_t len;
};

/* No bytes. */
extern const struct bytes nothing;

/*
 * Bytes as they are shown: \xNN, in lower-case hex, for each that is not printable ASCII, for the backslash and for the double
 * quote. So no name or text can be taken for another, for a line of hv's own or for an order to the terminal. To be freed.
 */
char *escaped(struct bytes bytes);
char *escaped_text(const char *given);

/* Two hex digits for each byte. To be freed. */
char *hex_digits(struct bytes bytes);

/* The bytes, to be freed, that a shown name stands for; false where a backslash does not begin \xNN. */
bool unescaped(const char *shown, uint8_t **at, size_t *len);

/* A data type's spelling in listings. */
const char *data_type_name(uint64_t number);

/* The name of a kind of data manager. */
const char *kind_name(uint64_t kind);

#endif
