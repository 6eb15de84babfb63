/* Compares zkv_run with zkv_step: from the same record, image and table, a run on the one copy and steps on the other, until one
 * that is no store. The reports must be equal, and image, table and record to the byte.
 *
 * Where they start: states reached by calls in random order, runs and steps mixed, so that a run starts at any action
 * of a call; and the six kinds of garbage (garbage.h). Of calls that are run whole, also asked: the steps of all runs
 * together are a + 1, a commit of b lines takes b + 4 runs, and a cleaning that copies b lines b + 6, or 3 where it
 * copies none.
 *
 * runs [CASES]         CASES of each kind (1,000), from fixed seeds; a message and exit status 1 at the first
 *                      difference.
 * Built with -DWRONG, where the copy makes a step or two fewer, it counts the differences; exit status 1 if there are
 * any. */
#define _GNU_SOURCE
#define PROGRAM "runs"
#include "garbage.h"

static bool runs_only;
static uint64_t calls, cleanings;      /* of a call that is run whole; of those that copied something */

static zkv_report go_on(uint64_t *steps)
{
    calls++;
    if (runs_only || !one_in(4)) {
        return run_call(steps);
    }
    ++*steps;
    return step();
}

/* A begun call that stores lines and then `seals` directory words, by runs alone: a run for each flush, each fence and
 * the end. */
static void whole(zkv_report r, uint64_t lines, uint64_t seals)
{
    uint64_t steps = 0, fences = seals + (lines > 0);
    runs_only = true;
    calls = 0;
    while (go_on(&steps).kind != ZKV_END) {
    }
    runs_only = false;
    if (steps != r.first + 1 || calls != lines + seals + fences + 1) {
        fault("a call of %" PRIu64 " actions took %" PRIu64 " runs of %" PRIu64 " steps", r.first, calls, steps);
    }
}

/* The commit of what is staged. */
static void whole_commit(void)
{
    call = "zkv_commit";
    zkv_report r = zkv_commit(the_record(), image.at, image.bytes, the_table(), table_words());
    if (r.kind == ZKV_BEGUN) {
        whole(r, (r.first - 4) / 9, 1);
    }
}

/* Cleanings by choice, until none is worth it or one is refused. */
static void whole_cleanings(void)
{
    for (;;) {
        uint64_t chunk = choose_call();
        call = "zkv_clean";
        zkv_report r = chunk == 0 ? (zkv_report){ZKV_REFUSED, 0, 0}
                                  : zkv_clean(the_record(), image.at, image.bytes, the_table(), table_words(), chunk);
        if (r.kind != ZKV_BEGUN) {
            return;
        }
        whole(r, r.first == 3 ? 0 : (r.first - 7) / 9, r.first == 3 ? 1 : 2);
        cleanings += r.first > 3;
    }
}

/* A run, lent an image or table that is shorter than the call before was lent. */
static void unlike_lengths(void)
{
    size_t bytes = image.bytes, words = table.bytes;
    uint64_t steps = 0;
    if (table.bytes == 0 || one_in(2)) {
        image.bytes -= one_in(2) ? 8 : ZKV_CHUNK_BYTES;
    } else {
        table.bytes -= 8;
    }
    run_call(&steps);
    image.bytes = bytes;
    table.bytes = words;
}

/* A register of the library's own, left as the calls made it. */
static void by_calls(void)
{
    altering = false;
    place(&image, chunk_bytes() * (power == ZKV_POWER_LARGE ? 4 + below(2) : one_in(50) ? ZKV_CHUNKS_MAX : 4 + below(9)));
    place(&table, 8 * below(one_in(4) ? 40 : 600));
    nothing_open();
    format_call();
    finish();
    open_call();
    for (uint64_t turns = 4 + below(8); turns > 0; turns--) {
        switch (below(10)) {
        case 0:
            all_calls(true);
            break;
        case 1:
            abandon_call();
            break;
        case 2:
            commit_call();
            unlike_lengths();
            break;
        case 3:
            open_call();
            break;
        case 4:
            whole_cleanings();
            break;
        case 5:
            clean_call(one_in(2) ? choose_call() : some_chunk());
            break;
        default:
            for (uint64_t items = 1 + below(one_in(2) ? 2 : 16); items > 0; items--) {
                if (one_in(4)) {
                    delete_call();
                } else {
                    put_call();
                }
                finish();
            }
            if (one_in(2)) {
                commit_call();
            } else {
                whole_commit();
            }
        }
        if (!one_in(4)) {
            finish();
        }
    }
    altering = true;
}

static void play_kind(uint64_t number, const char *name, void (*play)(void), uint64_t each)
{
    uint64_t runs = beside.runs, steps = beside.steps;
    play_cases(number, name, play, each);
    runs = beside.runs - runs;
    steps = beside.steps - steps;
    printf("runs: %s: %" PRIu64 " cases, %" PRIu64 " runs of %" PRIu64 " steps, %" PRIu64 " stores skipped\n", name, each, runs,
           steps, steps - runs);
}

int main(int count, char **argument)
{
    uint64_t each = count > 1 ? strtoull(argument[1], NULL, 10) : 1000;
    size_t kinds = sizeof cases / sizeof *cases;
    set_up();
    play_kind(kinds, "states reached by calls", by_calls, each);
    for (size_t k = 0; k < kinds; k++) {
        play_kind(k, cases[k].name, cases[k].play, each);
    }
    bool both = print_tally();
#ifdef WRONG
    printf("runs: of %" PRIu64 " runs differ in the report %" PRIu64 ", image %" PRIu64 ", table %" PRIu64 ", record %" PRIu64 "\n",
           beside.runs, beside.report, beside.image, beside.table, beside.record);
    return beside.report + beside.image + beside.table + beside.record > 0;
#endif
    if ((!both || beside.longest != 8 * 1024 + 1 || cleanings < 100) && each >= 1000) {
        fputs("runs: a call was never accepted or never refused, few cleanings copied, or the longest run did not come: too little was tried\n",
              stderr);
        return 1;
    }
    printf("runs: %" PRIu64 " runs, each as its steps; the longest of %" PRIu64 " steps; %" PRIu64 " whole cleanings that copied\n",
           beside.runs, beside.longest, cleanings);
    return 0;
}
