// A put in a nearly full register of 504 chunks, with its share of choosing and cleaning, beside plain C: the full room of
// host/bench_clean.c with other sizes. Both sides must leave the same image.
// full_room [PASSES]      the best of so many passes (3)
#define _GNU_SOURCE
#include <sys/mman.h>

#include "bench.h"

enum write_back how;

void *memory(size_t bytes)
{
    void *p = mmap(NULL, bytes, PROT_READ | PROT_WRITE, MAP_PRIVATE | MAP_ANONYMOUS, -1, 0);
    if (p == MAP_FAILED) {
        wrong("no memory");
    }
    return p;
}

void wrong(const char *what)
{
    fprintf(stderr, "full_room: %s\n", what);
    exit(1);
}

static double best_ours = 1e18, best_floor = 1e18;

void note(const char *name, const char *unit, double ours, double floor, bool raw)
{
    (void)name, (void)unit, (void)raw;
    best_ours = ours < best_ours ? ours : best_ours;
    best_floor = floor < best_floor ? floor : best_floor;
}

int main(int count, char **words)
{
    how = best_write_back();
    for (int i = count > 1 ? atoi(words[1]) : 3; i > 0; i--) {
        measure_full_room();
    }
    printf("%d keys: %.1f %% of the log's words live, ours %.0f ns, plain C %.0f ns, ratio %.2f\n", ROOM_KEYS, full_room_live(),
           best_ours, best_floor, best_ours / best_floor);
    return 0;
}
