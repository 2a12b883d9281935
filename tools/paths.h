/* The path of a keyword, as the library is lent it: for each name a length of 4 bytes, big endian, and its bytes. */
#ifndef PATHS_H
#define PATHS_H

#include "names.h"

/* Begins as {NULL, 0, 0}. */
struct path {
    uint8_t *at;
    size_t len;
    size_t room;
};

void path_add(struct path *path, struct bytes name);
void path_free(struct path *path);

#endif
