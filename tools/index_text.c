#include "index_text.h"

#include "files.h"
#include "helvidrane.h"

/*
 * Where the header's numbers begin, in either byte order and version: all before them has the same length in every header that is
 * right.
 */
enum { BUCKET_SIZE_AT = 30, FIRST_INDEX_BUCKET_AT = 54, INDEX_OFFSET_AT = 58, INDEX_LENGTH_AT = 66 };

/* The number of the next bucket, twice, at the start of a bucket. */
enum { LINKS_LEN = 8 };

/* A number of 4 bytes; 0 where the file has none there. */
static uint64_t number_at(struct bytes file, uint64_t at, bool is_big)
{
    uint64_t number = 0;
    int i;

    if (file.len < 4 || at > file.len - 4)
        return 0;
    for (i = 0; i < 4; i++)
        number |= (uint64_t)file.at[at + (uint64_t)i] << 8 * (is_big ? 3 - i : i);
    return number;
}

struct index_text index_text_of(struct bytes file, bool is_big)
{
    struct index_text text = {
        .file = file,
        .len = number_at(file, INDEX_LENGTH_AT, is_big),
        .bucket_size = number_at(file, BUCKET_SIZE_AT, is_big),
        .first = number_at(file, FIRST_INDEX_BUCKET_AT, is_big),
        .offset = number_at(file, INDEX_OFFSET_AT, is_big),
    };

    /* No header that is right has more of the one or less of the other: so a walk from link to link has an end. */
    if (text.len > HV_ROOM_MOST || text.bucket_size <= LINKS_LEN)
        text.len = 0;
    return text;
}

/* The numbers of a bucket and of its bytes have 32 bits at most, so nothing here is above 64. */
static uint64_t bucket_start(const struct index_text *text, uint64_t bucket)
{
    return BUCKETS_START + bucket * text->bucket_size;
}

bool index_text_place(const struct index_text *text, uint64_t byte, uint64_t *place)
{
    uint64_t each = text->bucket_size - LINKS_LEN;
    uint64_t bucket = text->first;

    if (byte >= text->len)
        return false;
    if (text->offset > 0) {
        *place = bucket_start(text, bucket) + text->offset + byte;
    } else {
        /* Links are big endian, also where the header is not. */
        for (; byte >= each; byte -= each)
            bucket = number_at(text->file, bucket_start(text, bucket), true);
        *place = bucket_start(text, bucket) + LINKS_LEN + byte;
    }
    return *place < text->file.len;
}
