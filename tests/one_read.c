/* Watches which words of the chunk the begin of a cleaning reads: each at most once, from the first to the last. The
 * chunk's page is closed; every instruction that touches it faults, is noted with its address, let through alone by the
 * processor's trap flag, and the page is closed again. The addresses must rise.
 *
 * Chunks are cleaned of which nothing, half and all is kept, with deletes that ask for a count of their keys, and one
 * that is refused for want of space. Built with -DTWICE the chunk is measured first, by a choosing, and this program
 * must find it. */
#define _GNU_SOURCE
#include <inttypes.h>
#include <signal.h>
#include <stdbool.h>
#include <stdio.h>
#include <stdlib.h>
#include <string.h>
#include <sys/mman.h>
#include <ucontext.h>

#include "zitskvoze.h"

enum { CHUNKS = 8, BYTES = CHUNKS * ZKV_CHUNK_BYTES, WORDS = 4096 };

static _Alignas(4096) uint8_t image[BYTES];
static uint64_t table[WORDS];
static zkv_record record;

#define LENT &record, image, BYTES, table, WORDS

static uint8_t *watched;                                 /* the chunk's page */
static volatile uint64_t reads, backward;
static volatile uintptr_t last;

/* Copies word by word, from the first on: the library may copy by a call of memcpy, and libc's reads
 * some bytes twice. */
void *memcpy(void *restrict to, const void *restrict from, size_t n)
{
    volatile uint8_t *t = to;
    const volatile uint8_t *f = from;
    size_t i = 0;
    for (; i + 8 <= n; i += 8) {
        *(volatile uint64_t *)(t + i) = *(const volatile uint64_t *)(f + i);
    }
    for (; i < n; i++) {
        t[i] = f[i];
    }
    return to;
}

static void faulted(int signal, siginfo_t *info, void *context)
{
    (void)signal;
    uintptr_t at = (uintptr_t)info->si_addr;
    if (at < (uintptr_t)watched || at >= (uintptr_t)watched + ZKV_CHUNK_BYTES) {
        _Exit(3);
    }
    reads++;
    backward += at <= last;
    last = at;
    mprotect(watched, ZKV_CHUNK_BYTES, PROT_READ | PROT_WRITE);
    ((ucontext_t *)context)->uc_mcontext.gregs[REG_EFL] |= 0x100;
}

static void stepped(int signal, siginfo_t *info, void *context)
{
    (void)signal;
    (void)info;
    mprotect(watched, ZKV_CHUNK_BYTES, PROT_NONE);
    ((ucontext_t *)context)->uc_mcontext.gregs[REG_EFL] &= ~(greg_t)0x100;
}

static void run(zkv_report r)
{
    if (r.kind != ZKV_BEGUN) {
        fprintf(stderr, "one_read: a call was refused (%" PRIu64 ")\n", r.first);
        exit(2);
    }
    while (r.kind != ZKV_END) {
        r = zkv_step(LENT);
    }
}

static void put(uint64_t key, size_t size)
{
    uint8_t value[256];
    memset(value, (int)key, sizeof value);
    run(zkv_put(LENT, key, value, size));
}

/* So many keys from `first` on, in batches of eight. */
static void put_all(uint64_t first, uint64_t step, size_t count, size_t size)
{
    for (size_t i = 0; i < count; i++) {
        put(first + step * i, size);
        if (i % 8 == 7 || i + 1 == count) {
            run(zkv_commit(LENT));
        }
    }
}

static void delete_all(uint64_t first, uint64_t step, size_t count)
{
    for (size_t i = 0; i < count; i++) {
        run(zkv_delete(LENT, first + step * i));
        if (i % 8 == 7 || i + 1 == count) {
            run(zkv_commit(LENT));
        }
    }
}

/* Begins a cleaning with the chunk watched, and carries it out. How many instructions read it. */
static uint64_t cleaned(uint64_t chunk, uint64_t kind, const char *what)
{
    watched = image + ZKV_CHUNK_BYTES * chunk;
    reads = backward = 0;
    last = 0;
    mprotect(watched, ZKV_CHUNK_BYTES, PROT_NONE);
#ifdef TWICE
    zkv_choose(LENT);
#endif
    zkv_report r = zkv_clean(LENT, chunk);
    mprotect(watched, ZKV_CHUNK_BYTES, PROT_READ | PROT_WRITE);
    if (r.kind != kind) {
        fprintf(stderr, "one_read: %s: another answer (%" PRIu64 " %" PRIu64 ")\n", what, r.kind, r.first);
        exit(2);
    }
    if (backward != 0) {
        fprintf(stderr, "one_read: %s: %" PRIu64 " of %" PRIu64 " reads go back in the chunk\n", what, backward, reads);
        exit(1);
    }
    if (r.kind == ZKV_BEGUN) {
        run(r);
    }
    printf("one_read: %s: %" PRIu64 " reads, none of a word before\n", what, reads);
    return reads;
}

static void fresh(void)
{
    memset(&record, 0, sizeof record);
    run(zkv_format(LENT, ZKV_POWER_SMALL, 0, 0, 0, 0));
    if (zkv_open(LENT).kind != ZKV_OPENED) {
        exit(2);
    }
}

int main(void)
{
    struct sigaction fault = {.sa_sigaction = faulted, .sa_flags = SA_SIGINFO};
    struct sigaction trap = {.sa_sigaction = stepped, .sa_flags = SA_SIGINFO};
    sigaction(SIGSEGV, &fault, NULL);
    sigaction(SIGTRAP, &trap, NULL);
    uint64_t all = 0;

    fresh();                                             /* chunk 1: 128 entries of 4 words */
    put_all(0, 1, 128, 16);
    put_all(0, 2, 64, 16);
    all += cleaned(1, ZKV_BEGUN, "half kept");

    fresh();
    put_all(0, 1, 128, 16);
    put_all(0, 1, 128, 16);
    all += cleaned(1, ZKV_BEGUN, "none kept");

    fresh();
    put_all(0, 1, 128, 16);
    all += cleaned(1, ZKV_BEGUN, "all kept");

    fresh();                                             /* odd sizes, padding, and deletes with entries here and elsewhere */
    put_all(0, 1, 20, 13);
    delete_all(0, 2, 10);
    put_all(100, 1, 20, 61);
    delete_all(100, 3, 6);
    put_all(200, 1, 40, 16);
    delete_all(101, 3, 3);
    all += cleaned(1, ZKV_BEGUN, "deletes");
    all += cleaned(2, ZKV_BEGUN, "deletes, the chunk behind it");

    fresh();                                             /* no chunk is free: all kept, and no place for them */
    for (uint64_t c = 1; c < CHUNKS; c++) {
        for (uint64_t i = 0; i < 64; i++) {
            uint64_t w[8] = {1 | 1 << 4 | UINT64_C(48) << 24, 1000 * c + i, 1, 2, 3, 4, 5, 6};
            memcpy(image + ZKV_CHUNK_BYTES * c + 64 * i, w, 64);
        }
        uint64_t log = 1 | 64 << 8;
        memcpy(image + 8 * (8 + c), &log, 8);
    }
    if (zkv_open(LENT).kind != ZKV_OPENED) {
        fprintf(stderr, "one_read: the full image was refused\n");
        return 2;
    }
    all += cleaned(1, ZKV_REFUSED, "no space");
    if (all < 6 * 64) {
        fprintf(stderr, "one_read: hardly a read was seen\n");
        return 2;
    }
    return 0;
}
