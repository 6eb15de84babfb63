#!/bin/sh
# What a step would cost if its core took the station record by value: a step in Rattle that changes two numbers, on a
# record of today's size and on one of 85 KB, each by value and with its buffer lent, called from C.
#
# bench/by_value.sh      prints nanoseconds a step, the middle of 21 runs, in processor time; needs rt and gcc
set -eu
work=$(mktemp -d)
trap 'rm -rf "$work"' EXIT
mkdir -p "$work/crates/by_value/src"
echo 'by_value staticlib:' > "$work/crates.txt"
{
    echo '// A step that changes two numbers of a record: by value, and with the buffer lent.'
    echo '#![tactic(auto)]'
    echo
    for size in 1683 10623; do
        cat <<END
#[repr(C)]
#[derive(Clone, Copy)]
pub struct Record$size {
    pub next: u64,
    pub kind: u64,
    pub buffer: [u64; $size],
}

#[unsafe(no_mangle)]
pub extern "C" fn step_$size(r: Record$size) -> Record$size {
    let mut s = r;
    let at = r.next % 512;
    s.next = at + 1;
    s.kind = at;
    s
}

END
    done
    cat <<'END'
#[repr(C)]
#[derive(Clone, Copy)]
pub struct Control {
    pub next: u64,
    pub kind: u64,
}

#[unsafe(no_mangle)]
pub extern "C" fn step_lent(c: Control, buffer: &[u64]) -> Control {
    let at = c.next % 512;
    if buffer.len() == 0 {
        return Control { next: 0, kind: 0 };
    }
    Control { next: at + 1, kind: at }
}
END
} > "$work/crates/by_value/src/lib.rt"
cat > "$work/time.c" <<'END'
#include <stdint.h>
#include <stdio.h>
#include <stdlib.h>
#include <time.h>

struct record1683 { uint64_t next, kind, buffer[1683]; };
struct record10623 { uint64_t next, kind, buffer[10623]; };
struct control { uint64_t next, kind; };
struct record1683 step_1683(struct record1683 r);
struct record10623 step_10623(struct record10623 r);
struct control step_lent(struct control c, const uint64_t *buffer, size_t words);

static struct record1683 small;
static struct record10623 large;
enum { STEPS = 2000, RUNS = 21 };

static void by_value_small(void) { small = step_1683(small); }
static void by_value_large(void) { large = step_10623(large); }
static void lent(uint64_t *next, uint64_t *kind, const uint64_t *buffer, size_t words)
{
    struct control c = step_lent((struct control){*next, *kind}, buffer, words);
    *next = c.next;
    *kind = c.kind;
}
static void lent_small(void) { lent(&small.next, &small.kind, small.buffer, 1683); }
static void lent_large(void) { lent(&large.next, &large.kind, large.buffer, 10623); }

static int rising(const void *a, const void *b)
{
    double x = *(const double *)a, y = *(const double *)b;
    return (x > y) - (x < y);
}

static void print_time(const char *what, void (*volatile step)(void), uint64_t *next)
{
    double run[RUNS];
    for (int i = 0; i < RUNS; i++) {
        struct timespec a, b;
        *next = 0;
        clock_gettime(CLOCK_PROCESS_CPUTIME_ID, &a);
        for (int n = 0; n < STEPS; n++) {
            step();
        }
        clock_gettime(CLOCK_PROCESS_CPUTIME_ID, &b);
        if (*next != (STEPS - 1) % 512 + 1) {
            printf("%s: the steps were not made\n", what);
            exit(1);
        }
        run[i] = (1e9 * (double)(b.tv_sec - a.tv_sec) + (double)(b.tv_nsec - a.tv_nsec)) / STEPS;
    }
    qsort(run, RUNS, sizeof *run, rising);
    printf("%-44s %8.1f ns (%.1f to %.1f)\n", what, run[RUNS / 2], run[0], run[RUNS - 1]);
}

int main(void)
{
    print_time("13,480 bytes by value", by_value_small, &small.next);
    print_time("13,480 bytes, buffer lent", lent_small, &small.next);
    print_time("85,000 bytes by value", by_value_large, &large.next);
    print_time("85,000 bytes, buffer lent", lent_large, &large.next);
    return 0;
}
END
(cd "$work/crates/by_value" && rt lib > "$work/log" 2>&1) || { tail -n 20 "$work/log" >&2; exit 1; }
gcc -std=gnu11 -O2 -Wall -Wextra -Werror "$work/time.c" "$work/crates/by_value/out/libby_value.a" -o "$work/time"
"$work/time"
