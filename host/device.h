/* The device under an image, for host programs on x86-64: write-back of a line, and fence.
 *
 * A line is written back by clwb where the processor has it, else by clflushopt, else by clflush. A fence is sfence. */
#ifndef ZKV_DEVICE_H
#define ZKV_DEVICE_H

#include <cpuid.h>
#include <stdbool.h>
#include <stddef.h>
#include <stdint.h>
#include <sys/mman.h>

#include "zitskvoze.h"

enum write_back { BY_CLFLUSH, BY_CLFLUSHOPT, BY_CLWB };

static inline enum write_back best_write_back(void)
{
    unsigned a, b, c, d;
    if (__get_cpuid_count(7, 0, &a, &b, &c, &d)) {
        if (b & 1u << 24) {
            return BY_CLWB;
        }
        if (b & 1u << 23) {
            return BY_CLFLUSHOPT;
        }
    }
    return BY_CLFLUSH;
}

static inline const char *write_back_name(enum write_back how)
{
    return how == BY_CLWB ? "clwb" : how == BY_CLFLUSHOPT ? "clflushopt" : "clflush";
}

/* Starts the write-back of the line at an address. */
static inline void write_back_line(enum write_back how, const void *line)
{
    switch (how) {
    case BY_CLWB:
        __asm__ volatile("clwb (%0)" : : "r"(line) : "memory");
        break;
    case BY_CLFLUSHOPT:
        __asm__ volatile("clflushopt (%0)" : : "r"(line) : "memory");
        break;
    default:
        __asm__ volatile("clflush (%0)" : : "r"(line) : "memory");
    }
}

/* Waits for the write-backs started before. */
static inline void store_fence(void)
{
    __asm__ volatile("sfence" : : : "memory");
}

#endif
