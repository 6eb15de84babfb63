/* Lends the library garbage: records, buffers, tables and images, wild and near the right ones, through every call.
 *
 * Every lent area lies directly before or directly behind a page that cannot be touched, and what is left of its pages
 * holds a pattern (garbage.h). Asked of every call, whatever it is lent:
 *   - it touches nothing outside what is lent, and returns;
 *   - its answer is one of those that the call has, and a refusal leaves image, table and record as they were (a
 *     refused opening: a table of zeros, and a step then says idle);
 *   - only steps change the image, each by the one word that it reports; a run does what the steps do that it stands
 *     for;
 *   - a begun call of a actions ends with its step number a + 1, though image and table are altered between the steps;
 *     one that a garbage record is in the middle of ends after at most 584, with large chunks 9,224. Steps and runs take
 *     turns by chance, with look-ups and lists between them, which get 8 in a formatting alone;
 *   - choosing, look-ups and lists change nothing, whatever they answer.
 *
 * robust [CASES]       CASES of each kind (1,000), from fixed seeds; a message and exit status 1 at the first fault. */
#define _GNU_SOURCE
#define PROGRAM "robust"
#include "garbage.h"

static zkv_report go_on(uint64_t *steps)
{
    if (one_in(2)) {
        return run_call(steps);
    }
    ++*steps;
    return step();
}

int main(int count, char **argument)
{
    uint64_t each = count > 1 ? strtoull(argument[1], NULL, 10) : 1000;
    size_t kinds = sizeof cases / sizeof *cases;
    set_up();
    for (size_t k = 0; k < kinds; k++) {
        play_cases(k, cases[k].name, cases[k].play, each);
    }
    printf("robust: %" PRIu64 " cases of each of %zu kinds, no fault\n", each, kinds);
    if (!print_tally() && each >= 1000) {
        fputs("robust: a call was never accepted or never refused: too little was tried\n", stderr);
        return 1;
    }
    return 0;
}
