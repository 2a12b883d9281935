/*
 * hv_column_keyword and hv_column_field in place of the library's, by the linker's --wrap. Where they accept, and PART is set,
 * they give the type, the start and the length in it; and where NAME is set, the second gives the start and the length of the
 * name in it.
 */
#include "helvidrane.h"

#include <inttypes.h>
#include <stdio.h>
#include <stdlib.h>

typedef enum hv_number keyword(const uint8_t *, size_t, uint64_t, const uint8_t *, size_t, uint64_t *, size_t);
typedef enum hv_number field(const uint8_t *, size_t, uint64_t, const uint8_t *, size_t, uint64_t, uint64_t *, size_t);
keyword __real_hv_column_keyword, __wrap_hv_column_keyword;
field __real_hv_column_field, __wrap_hv_column_field;

static void put_part(uint64_t *type, uint64_t *start, uint64_t *len)
{
    const char *part = getenv("PART");

    if (part != NULL && sscanf(part, "%" SCNu64 " %" SCNu64 " %" SCNu64, type, start, len) != 3)
        abort();
}

static void put_name(uint64_t *start, uint64_t *len)
{
    const char *name = getenv("NAME");

    if (name != NULL && sscanf(name, "%" SCNu64 " %" SCNu64, start, len) != 2)
        abort();
}

enum hv_number __wrap_hv_column_keyword(const uint8_t *table, size_t table_len, uint64_t position, const uint8_t *path,
                                        size_t path_len, uint64_t *out, size_t out_len)
{
    enum hv_number number = __real_hv_column_keyword(table, table_len, position, path, path_len, out, out_len);

    if (number == HV_ACCEPTED)
        put_part(&out[HV_KEYWORD_TYPE], &out[HV_KEYWORD_START], &out[HV_KEYWORD_LENGTH]);
    return number;
}

enum hv_number __wrap_hv_column_field(const uint8_t *table, size_t table_len, uint64_t position, const uint8_t *path,
                                      size_t path_len, uint64_t number, uint64_t *out, size_t out_len)
{
    enum hv_number given = __real_hv_column_field(table, table_len, position, path, path_len, number, out, out_len);

    if (given == HV_ACCEPTED) {
        put_part(&out[HV_FIELD_TYPE], &out[HV_FIELD_START], &out[HV_FIELD_LENGTH]);
        put_name(&out[HV_FIELD_NAME], &out[HV_FIELD_NAME_LEN]);
    }
    return given;
}
