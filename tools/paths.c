#include "paths.h"

#include "messages.h"

#include <stdlib.h>
#include <string.h>

static void make_room(struct path *path, size_t len)
{
    uint8_t *at;

    if (len <= path->room)
        return;
    at = memory(len, 2);
    if (path->len > 0)
        memcpy(at, path->at, path->len);
    free(path->at);
    path->at = at;
    path->room = 2 * len;
}

void path_add(struct path *path, struct bytes name)
{
    int shift;

    make_room(path, path->len + 4 + name.len);
    for (shift = 24; shift >= 0; shift -= 8)
        path->at[path->len++] = (uint8_t)(name.len >> shift);
    memcpy(path->at + path->len, name.at, name.len);
    path->len += name.len;
}

void path_free(struct path *path)
{
    free(path->at);
    *path = (struct path){NULL, 0, 0};
}
