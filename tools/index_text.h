/*
 * The index text of a StandardStMan file, for showing alone: where its bytes stand in the file, by RULES.md 5.1 to 5.3. The
 * library judges it, and hands out none of a file that it refuses.
 */
#ifndef INDEX_TEXT_H
#define INDEX_TEXT_H

#include "names.h"

/* As the file's header has it. */
struct index_text {
    struct bytes file;
    uint64_t len;
    uint64_t bucket_size;
    uint64_t first; /* the bucket in which it begins */
    uint64_t offset; /* where in that bucket, which holds it all; or 0, and it goes on from bucket to bucket */
};

/*
 * Of a file whose header is right, with its numbers in the table's byte order. Whatever the bytes and the order are, no byte outside
 * the file is read.
 */
struct index_text index_text_of(struct bytes file, bool is_big);

/* Where a byte of the text stands in the file; false where there is no such byte. */
bool index_text_place(const struct index_text *text, uint64_t byte, uint64_t *place);

#endif
