/* What the files of the benchmark share: time, draws, memory, and the rows of the table. */
#ifndef ZKV_BENCH_H
#define ZKV_BENCH_H

#include <stdbool.h>
#include <stdio.h>
#include <stdlib.h>
#include <string.h>
#include <time.h>

#include "device.h"
#include "zitskvoze.h"

enum { CHUNK = 512 };                       /* words in a chunk */

/* Nanoseconds of processor time of this thread, waits for write-backs included. */
static inline double now(void)
{
    struct timespec t;
    clock_gettime(CLOCK_THREAD_CPUTIME_ID, &t);
    return (double)t.tv_sec * 1e9 + (double)t.tv_nsec;
}

/* The next of a row of numbers (xorshift64). */
static inline uint64_t drawn(uint64_t *state)
{
    *state ^= *state << 13;
    *state ^= *state >> 7;
    *state ^= *state << 17;
    return *state;
}

/* bench.c: memory of zeros; the end with a message; a row's times in one pass; how lines are written back. */
void *memory(size_t bytes);
__attribute__((noreturn)) void wrong(const char *what);
void note(const char *name, const char *unit, double ours, double floor, bool raw);
extern enum write_back how;

/* bench_clean.c: the rows of cleaning and choosing, in one pass; and what is said below the table. */
void measure_cleaning(void);
void measure_full_room(void);
void measure_choosing(void);
void print_full_room(void);
double full_room_live(void);

#endif
