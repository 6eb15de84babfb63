/* What the sides of the comparison share: a store of values under 64-bit keys, in a file of its own. */
#ifndef PEERS_H
#define PEERS_H

#include <stddef.h>
#include <stdint.h>
#include <stdio.h>
#include <stdlib.h>
#include <string.h>

enum { VALUE_MAX = 4088, BATCH_MAX = 16 };

/* One side. `put` makes the values of n keys durable together and answers when they are; `look` answers a value's
 * length, and where it lies; 0 where the key is absent. A side that has none leaves it NULL. */
struct side {
    const char *name;
    void (*start)(const char *folder);
    void (*put)(const uint64_t *keys, size_t n, const uint8_t *value, size_t length);
    size_t (*look)(uint64_t key, const uint8_t **value);
    void (*stop)(void);
};

extern const struct side zitskvoze_side, floor_side, lmdb_side, pmemobj_side;

static inline void need(int holds, const char *what)
{
    if (!holds) {
        fprintf(stderr, "peers: %s\n", what);
        exit(1);
    }
}

static inline char *path_in(const char *folder, const char *name)
{
    static char path[4096];
    need(snprintf(path, sizeof path, "%s/%s", folder, name) < (int)sizeof path, "the folder's name is too long");
    remove(path);
    return path;
}

#endif
