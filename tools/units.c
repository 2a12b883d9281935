#include "units.h"

#include "helvidrane.h"
#include "json.h"
#include "paths.h"
#include "values.h"

#include <inttypes.h>
#include <stdio.h>
#include <stdlib.h>
#include <string.h>

/* Texts that are shown of a column in a line. */
enum { SHOWN_MOST = 8 };

/* Gives what the library answers of a keyword of the column; a value of another type, or an array without elements, is no unit. */
static uint64_t ask(struct units *units, struct bytes table, uint64_t position, const char *name)
{
    uint64_t numbers[HV_KEYWORD_LEN], start, len, number;
    struct path path = {NULL, 0, 0};
    struct value value;

    path_add(&path, (struct bytes){(const uint8_t *)name, strlen(name)});
    number = hv_column_keyword(table.at, table.len, position, path.at, path.len, numbers, HV_KEYWORD_LEN);
    path_free(&path);
    start = numbers[HV_KEYWORD_START];
    len = numbers[HV_KEYWORD_LENGTH];
    if (number == HV_ACCEPTED && start <= table.len && len <= table.len - start &&
        value_of((struct bytes){table.at + start, len}, numbers[HV_KEYWORD_TYPE], &value) && value_is_texts(&value) &&
        value.count > 0) {
        units->texts = value_texts(&value);
        units->count = value.count;
    }
    return number;
}

struct units units_of(struct bytes table, uint64_t position)
{
    static const char *const names[] = {"QuantumUnits", "UNIT"};
    struct units units = {0, 0, NULL};
    uint64_t number = HV_ACCEPTED;
    int i;

    for (i = 0; i < 2 && units.count == 0 && (number == HV_ACCEPTED || number == HV_REFUSED_KEYWORD); i++)
        number = ask(&units, table, position, names[i]);
    units.refusal = number == HV_REFUSED_KEYWORD ? HV_ACCEPTED : number;
    return units;
}

void units_free(struct units *units)
{
    uint64_t i;

    for (i = 0; i < units->count; i++)
        free(units->texts[i]);
    free(units->texts);
}

void print_units(const struct units *units)
{
    if (units->refusal != HV_ACCEPTED)
        printf(" keywords refused %" PRIu64, units->refusal);
    if (units->count > 0)
        printf(" unit%s ", units->count == 1 ? "" : "s");
    print_texts(units->texts, units->count, SHOWN_MOST);
}

void json_units(const struct units *units)
{
    uint64_t i;

    json_list("units");
    for (i = 0; i < units->count; i++)
        json_text(NULL, units->texts[i]);
    json_list_end();
    json_known("keywords_refusal", units->refusal != HV_ACCEPTED, units->refusal);
}
