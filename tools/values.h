/*
 * The values of keywords, read from the parts of table.dat that the library hands out for them, by RULES.md 4.12 and 4.13. All of
 * them are big endian. What does not fill its part is no value: no byte outside a part is read, whatever stands in it.
 */
#ifndef VALUES_H
#define VALUES_H

#include "names.h"

struct value {
    uint64_t type; /* of an element: a data type, HV_TYPE_TABLE or HV_TYPE_RECORD */
    bool is_array;
    uint64_t axis_count; /* of an array */
    const uint8_t *axes; /* 4 bytes each */
    uint64_t count; /* of the elements: 1 of a scalar or a Table, 0 of a record */
    struct bytes elements;
};

/* The value in a part, with the type number that the library told; false where it does not fill the part. */
bool value_of(struct bytes part, uint64_t type, struct value *value);

/* Whether it is a String or an array of Strings; and their texts, escaped, to be freed one by one and together. */
bool value_is_texts(const struct value *value);
char **value_texts(const struct value *value);

/* "String", or of an array with the shape, "String[3]"; without the value. */
void print_type(const struct value *value);

/* The elements, with commas between them; `...` in place of those behind the first `most`. Nothing of a record. */
void print_elements(const struct value *value, uint64_t most);

/* Texts that were escaped, as the elements of a value are printed. */
void print_texts(char *const *texts, uint64_t count, uint64_t most);

/* The fields "type", "shape" and "value". */
void json_value(const struct value *value);

#endif
