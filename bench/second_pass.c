// What an opening takes beside a plain one of the same 60,000 entries: with values in blocks, with several top entries
// of a key as a cut in a cleaning leaves them, and with a key table that is too small, by keys of several kinds. The
// aims: at most 1.5 times the plain one where it is accepted, at most 100 times where it is refused for the table.
// Processor time, the best of some rounds.
#include <stdint.h>
#include <stdio.h>
#include <stdlib.h>
#include <string.h>
#include <time.h>

#include "zitskvoze.h"

enum { CHUNK = 512, COUNT = 504, TABLE = 262144, ENTRIES = 60000 };

static uint64_t keys[ENTRIES], state = 88172645463325252ull, *table;
static zkv_record record;

static double now(void)
{
    struct timespec t;
    clock_gettime(CLOCK_PROCESS_CPUTIME_ID, &t);
    return t.tv_sec * 1e9 + t.tv_nsec;
}

static uint64_t draw(void)
{
    state ^= state << 13;
    state ^= state >> 7;
    state ^= state << 17;
    return state;
}

// An image with an entry for each key, values of 8 bytes: the values of some keys lie in blocks, and so many entries
// stand twice. Keys are drawn where `step` is 0, else it is the distance of one key from the next.
static uint64_t *make_image(size_t blocks, size_t twins, uint64_t step)
{
    uint64_t *w = aligned_alloc(64, COUNT * CHUNK * 8);
    size_t chunk = 1, at = CHUNK, data = COUNT - (blocks + 7) / 8, every = blocks ? ENTRIES / blocks : ENTRIES + 1;
    memset(w, 0, COUNT * CHUNK * 8);
    w[0] = 1;
    w[1] = COUNT;
    w[7] = -(w[0] + w[1]);
    for (size_t i = 0; i < ENTRIES + twins; i++) {
        size_t k = i < ENTRIES ? i : (i - ENTRIES) * (ENTRIES / twins), block = k / every;
        int pointer = k % every == 0 && block < blocks;
        size_t words = pointer ? 2 : 3;
        if (at + words > (chunk + 1) * CHUNK) {
            w[8 + chunk] = 1 | (uint64_t)((at - chunk * CHUNK + 7) / 8) << 8;
            at = ++chunk * CHUNK;
        }
        if (chunk >= data) {
            fprintf(stderr, "the image is too small\n");
            exit(1);
        }
        if (i < ENTRIES)
            keys[i] = step ? i * step : draw();
        w[at + 1] = keys[k];
        if (pointer) {
            size_t unit = (data + block / 8) * 16 + 2 * (block % 8);
            w[at] = 1 | 1 << 2 | 1 << 4 | (uint64_t)unit << 24;
            w[8 + data + block / 8] = 2 | 2 << 8;
            w[32 * unit] = 300;
        } else {
            w[at] = 1 | 1 << 4 | 8 << 24;
            w[at + 2] = keys[k] * 3;
        }
        at += words;
    }
    w[8 + chunk] = 1 | (uint64_t)((at - chunk * CHUNK + 7) / 8) << 8;
    return w;
}

// The time of an opening, printed beside a plain one's; it must be answered as told.
static double measure(const char *name, const uint64_t *w, size_t words, int rounds, double plain, uint64_t refusal)
{
    double best = 1e18;
    for (int r = 0; r < rounds; r++) {
        double t = now();
        zkv_report o = zkv_open(&record, (const uint8_t *)w, COUNT * 4096, table, words);
        double took = now() - t;
        if (took < best)
            best = took;
        if (refusal ? o.kind != ZKV_REFUSED || o.first != refusal : o.kind != ZKV_OPENED) {
            fprintf(stderr, "%s: answered otherwise\n", name);
            exit(1);
        }
    }
    printf("  %-34s %9.3f ms   %6.2f times\n", name, best / 1e6, plain > 0 ? best / plain : 1.0);
    return best;
}

int main(void)
{
    static const struct { const char *name; size_t blocks, twins; } logs[] = {
        {"one value in a block", 1, 0}, {"100 in blocks", 100, 0}, {"1,000 in blocks", 1000, 0}, {"one key twice", 0, 1},
        {"100 keys twice", 0, 100}, {"200 twice, 100 in blocks", 100, 200}, {"1,000 keys twice", 0, 1000}};
    static const struct { const char *name; uint64_t step; } kinds[] = {
        {"random keys", 0}, {"consecutive keys", 1}, {"keys 3 apart", 3}, {"keys 2^16 apart", 1 << 16}, {"keys 2^32 apart", 1ull << 32}};
    static const size_t sizes[] = {120000, 60000, 15000, 3750, 8, 0};
    table = aligned_alloc(64, TABLE * 8);
    printf("random keys\n");
    double plain = measure("plain", make_image(0, 0, 0), TABLE, 60, 0, 0);
    for (size_t i = 0; i < sizeof logs / sizeof *logs; i++) {
        uint64_t *w = make_image(logs[i].blocks, logs[i].twins, 0);
        measure(logs[i].name, w, TABLE, 60, plain, 0);
        free(w);
    }
    for (size_t k = 0; k < sizeof kinds / sizeof *kinds; k++) {
        uint64_t *w = make_image(0, 0, kinds[k].step);
        printf("%s, tables that are too small\n", kinds[k].name);
        plain = measure("large enough", w, TABLE, 20, 0, 0);
        for (size_t i = 0; i < sizeof sizes / sizeof *sizes; i++) {
            char name[40];
            snprintf(name, sizeof name, "%zu words", sizes[i]);
            measure(name, w, sizes[i], 3, plain, 7);
        }
        free(w);
    }
    return 0;
}
