#include "values.h"

#include "helvidrane.h"
#include "json.h"
#include "messages.h"

#include <inttypes.h>
#include <math.h>
#include <stdio.h>
#include <stdlib.h>
#include <string.h>

/* Takes the first bytes of what is left; false where there are fewer. */
static bool take(struct bytes *left, uint64_t len, struct bytes *taken)
{
    if (len > left->len)
        return false;
    *taken = (struct bytes){left->at, (size_t)len};
    left->at += len;
    left->len -= (size_t)len;
    return true;
}

static uint64_t number_at(const uint8_t *at, size_t len)
{
    uint64_t number = 0;

    while (len-- > 0)
        number = number << 8 | *at++;
    return number;
}

static bool take_number(struct bytes *left, uint64_t *number)
{
    struct bytes taken;

    if (!take(left, 4, &taken))
        return false;
    *number = number_at(taken.at, 4);
    return true;
}

static bool take_string(struct bytes *left, struct bytes *taken)
{
    uint64_t len;

    return take_number(left, &len) && take(left, len, taken);
}

#define OF_ARRAY(name, number, element) \
    case name:                          \
        *type = element;                \
        return true;

/* Puts the type of an array's elements in place of the array's. */
static bool is_of_array(uint64_t *type)
{
    switch (*type) {
        HV_ARRAY_TYPES(OF_ARRAY)
    default:
        return false;
    }
}

static bool is_text(uint64_t type)
{
    return type == HV_TYPE_STRING || type == HV_TYPE_TABLE;
}

/* Whether the elements are so many, and no byte is left over. */
static bool is_filled(const struct value *value)
{
    struct bytes left = value->elements, taken;
    uint64_t bits = hv_element_bits(value->type);
    uint64_t i;

    if (is_text(value->type)) {
        for (i = 0; i < value->count; i++) {
            if (!take_string(&left, &taken))
                return false;
        }
        return left.len == 0;
    }
    /* A Bool that is no element of an array has a byte. */
    if (!value->is_array)
        return bits > 0 && left.len == (bits + 7) / 8;
    return bits > 0 && value->count <= left.len * 8 / bits && (value->count * bits + 7) / 8 == left.len;
}

static uint64_t axis_of(const struct value *value, uint64_t i)
{
    return number_at(value->axes + 4 * i, 4);
}

/* The product of the axes; false where there are more elements than a part can have. Without axes there are none. */
static bool count_elements(struct value *value)
{
    uint64_t most = (uint64_t)1 << 31, i;
    bool is_many = false;

    value->count = value->axis_count == 0 ? 0 : 1;
    for (i = 0; i < value->axis_count; i++) {
        uint64_t axis = axis_of(value, i);
        value->count = axis == 0 ? 0 : value->count;
        is_many = value->count > 0 && (is_many || axis > most / value->count);
        value->count = is_many ? 1 : value->count * axis;
    }
    return !is_many;
}

/* An Array object: header, axes, elements. */
static bool array_of(struct bytes part, struct value *value)
{
    struct bytes name, origin, axes;
    uint64_t len, version;

    if (!take_number(&part, &len) || len != part.len + 4 || !take_string(&part, &name) || !take_number(&part, &version) ||
        !take_number(&part, &value->axis_count) || (version < 3 && !take(&part, 4 * value->axis_count, &origin)) ||
        !take(&part, 4 * value->axis_count, &axes))
        return false;
    value->axes = axes.at;
    value->elements = part;
    return count_elements(value);
}

bool value_of(struct bytes part, uint64_t type, struct value *value)
{
    *value = (struct value){.type = type, .axes = nothing.at, .elements = part};
    if (type == HV_TYPE_RECORD)
        return true;
    value->is_array = is_of_array(&value->type);
    value->count = 1;
    return (!value->is_array || array_of(part, value)) && is_filled(value);
}

bool value_is_texts(const struct value *value)
{
    return value->type == HV_TYPE_STRING;
}

char **value_texts(const struct value *value)
{
    char **texts = memory((size_t)value->count, sizeof *texts);
    struct bytes left = value->elements, taken = nothing;
    uint64_t i;

    for (i = 0; i < value->count; i++) {
        take_string(&left, &taken);
        texts[i] = escaped(taken);
    }
    return texts;
}

static const char *type_name(uint64_t type)
{
    return type == HV_TYPE_TABLE ? "Table" : type == HV_TYPE_RECORD ? "Record" : data_type_name(type);
}

/* A number in words, with the fewest digits that are read back as the same. */
enum { WORD_LEN = 40 };

static void float_word(char *word, uint32_t bits)
{
    float number, again;
    int digits;

    memcpy(&number, &bits, sizeof number);
    if (isnan(number)) {
        sprintf(word, "nan(0x%08" PRIx32 ")", bits);
        return;
    }
    for (digits = 1; digits <= 9; digits++) {
        snprintf(word, WORD_LEN, "%.*g", digits, (double)number);
        again = strtof(word, NULL);
        if (memcmp(&again, &number, sizeof number) == 0)
            return;
    }
}

static void double_word(char *word, uint64_t bits)
{
    double number, again;
    int digits;

    memcpy(&number, &bits, sizeof number);
    if (isnan(number)) {
        sprintf(word, "nan(0x%016" PRIx64 ")", bits);
        return;
    }
    for (digits = 1; digits <= 17; digits++) {
        snprintf(word, WORD_LEN, "%.*g", digits, number);
        again = strtod(word, NULL);
        if (memcmp(&again, &number, sizeof number) == 0)
            return;
    }
}

/* Two's complement. */
static int64_t signed_of(uint64_t number, size_t len)
{
    unsigned shift = 64 - 8 * (unsigned)len;

    return (int64_t)(number << shift) >> shift;
}

/* Of a type that is one number, or of one part of a Complex. */
static void number_word(char *word, uint64_t type, struct bytes element)
{
    uint64_t number = number_at(element.at, element.len);

    switch (type) {
    case HV_TYPE_FLOAT:
    case HV_TYPE_COMPLEX:
        float_word(word, (uint32_t)number);
        break;
    case HV_TYPE_DOUBLE:
    case HV_TYPE_DCOMPLEX:
        double_word(word, number);
        break;
    case HV_TYPE_SHORT:
    case HV_TYPE_INT:
    case HV_TYPE_INT64:
        sprintf(word, "%" PRId64, signed_of(number, element.len));
        break;
    default:
        sprintf(word, "%" PRIu64, number);
    }
}

static bool is_complex(uint64_t type)
{
    return type == HV_TYPE_COMPLEX || type == HV_TYPE_DCOMPLEX;
}

/* The real or the imaginary part. */
static struct bytes half_of(struct bytes element, int half)
{
    size_t len = element.len / 2;

    return (struct bytes){element.at + (size_t)half * len, len};
}

/* A Bool as its bit, any other element as its bytes, one after the other: `i` counts the calls. */
struct element {
    bool bit;
    struct bytes bytes;
};

static struct element next_element(const struct value *value, struct bytes *left, uint64_t i)
{
    struct element element = {false, nothing};

    if (value->type == HV_TYPE_BOOL)
        element.bit = value->is_array ? value->elements.at[i / 8] >> i % 8 & 1 : value->elements.at[0] != 0;
    else if (is_text(value->type))
        take_string(left, &element.bytes);
    else
        take(left, hv_element_bits(value->type) / 8, &element.bytes);
    return element;
}

static void print_element(const struct value *value, const struct element *element)
{
    char word[WORD_LEN], other[WORD_LEN], *shown;

    if (value->type == HV_TYPE_BOOL) {
        printf("%s", element->bit ? "true" : "false");
    } else if (is_text(value->type)) {
        shown = escaped(element->bytes);
        printf("\"%s\"", shown);
        free(shown);
    } else if (is_complex(value->type)) {
        number_word(word, value->type, half_of(element->bytes, 0));
        number_word(other, value->type, half_of(element->bytes, 1));
        printf("(%s, %s)", word, other);
    } else {
        number_word(word, value->type, element->bytes);
        printf("%s", word);
    }
}

void print_type(const struct value *value)
{
    uint64_t i;

    printf("%s", type_name(value->type));
    if (!value->is_array)
        return;
    printf("[");
    for (i = 0; i < value->axis_count; i++)
        printf("%s%" PRIu64, i == 0 ? "" : ", ", axis_of(value, i));
    printf("]");
}

void print_elements(const struct value *value, uint64_t most)
{
    struct bytes left = value->elements;
    uint64_t i;

    for (i = 0; i < value->count && i < most; i++) {
        struct element element = next_element(value, &left, i);
        printf("%s", i == 0 ? "" : ", ");
        print_element(value, &element);
    }
    if (value->count > most)
        printf(", ...");
}

void print_texts(char *const *texts, uint64_t count, uint64_t most)
{
    uint64_t i;

    for (i = 0; i < count && i < most; i++)
        printf("%s\"%s\"", i == 0 ? "" : ", ", texts[i]);
    if (count > most)
        printf(", ...");
}

/* JSON has no infinity and no not-a-number: these are strings. A float that looks whole gets a point, so that it is read as one. */
static void json_number_word(const char *name, uint64_t type, struct bytes bytes)
{
    bool is_float = type == HV_TYPE_FLOAT || type == HV_TYPE_DOUBLE || is_complex(type);
    char word[WORD_LEN];

    number_word(word, type, bytes);
    if (is_float && strpbrk(word, "ni") != NULL) {
        json_text(name, word);
        return;
    }
    if (is_float && strpbrk(word, ".e") == NULL)
        strcat(word, ".0");
    json_word(name, word);
}

static void json_element(const char *name, const struct value *value, const struct element *element)
{
    char *shown;

    if (value->type == HV_TYPE_BOOL) {
        json_word(name, element->bit ? "true" : "false");
    } else if (is_text(value->type)) {
        shown = escaped(element->bytes);
        json_text(name, shown);
        free(shown);
    } else if (is_complex(value->type)) {
        json_list(name);
        json_number_word(NULL, value->type, half_of(element->bytes, 0));
        json_number_word(NULL, value->type, half_of(element->bytes, 1));
        json_list_end();
    } else {
        json_number_word(name, value->type, element->bytes);
    }
}

static void json_shape(const struct value *value)
{
    uint64_t i;

    if (!value->is_array) {
        json_null("shape");
        return;
    }
    json_list("shape");
    for (i = 0; i < value->axis_count; i++)
        json_number(NULL, axis_of(value, i));
    json_list_end();
}

void json_value(const struct value *value)
{
    struct bytes left = value->elements;
    struct element element;
    uint64_t i;

    json_text("type", type_name(value->type));
    json_shape(value);
    if (value->is_array)
        json_list("value");
    else if (value->count == 0)
        json_null("value");
    for (i = 0; i < value->count; i++) {
        element = next_element(value, &left, i);
        json_element(value->is_array ? NULL : "value", value, &element);
    }
    if (value->is_array)
        json_list_end();
}
