/* The example of docs/board.md, made on the proved board, with what each call answers; then what a careless caller may
 * pass. */

#include <stdio.h>
#include <stdlib.h>

#include "bolzighes_board.h"

static const char table[] = "(table 3)\n"
                            "(task head (run 8) (due 16) (gap 16))\n"
                            "(task lens (run 12) (due 28) (gap 28))\n"
                            "(task fan (run 1) (due 56) (gap 56))\n";

enum { CALLS = 9 };

static const uint64_t calls[CALLS] = {
    BOLZIGHES_RELEASE(2), BOLZIGHES_TICK, BOLZIGHES_RELEASE(0), BOLZIGHES_TICK,      BOLZIGHES_TICK,
    BOLZIGHES_TICK,       BOLZIGHES_TICK, BOLZIGHES_TICK,       BOLZIGHES_REPORT(0),
};

static void expect(const char *what, uint64_t answer, uint64_t wanted)
{
    if (answer != wanted) {
        fprintf(stderr, "%s: %llu in place of %llu\n", what, (unsigned long long)answer, (unsigned long long)wanted);
        exit(EXIT_FAILURE);
    }
}

static uint32_t made(size_t text_len, uint32_t alarm, uint32_t warm, struct bolzighes_answer *answers, size_t places)
{
    return bolzighes_calls((const uint8_t *)table, text_len, alarm, warm, calls, CALLS, answers, places);
}

int main(void)
{
    const size_t len = sizeof table - 1;
    struct bolzighes_answer answers[CALLS] = {{0}};
    expect("too few places", made(len, BOLZIGHES_COUNTER, 0, answers, CALLS - 1), BOLZIGHES_TOO_FEW_PLACES);
    expect("half a table", made(len / 2, BOLZIGHES_COUNTER, 0, answers, CALLS), 2);
    expect("no such alarm", made(len, 3, 0, answers, CALLS), BOLZIGHES_NO_SUCH_ALARM);
    expect("a long warm-up", made(len, BOLZIGHES_DIVIDER, 1001, answers, CALLS), 17);
    expect("a record that was not written", answers[1].kind, 0);

    expect("the example", made(len, BOLZIGHES_COUNTER, 0, answers, CALLS), 0);
    for (size_t i = 0; i < CALLS; i++) {
        const struct bolzighes_answer *a = &answers[i];
        if (a->kind == BOLZIGHES_TICKED && a->busy) {
            printf("ran %u\n", (unsigned)a->row);
        } else if (a->kind == BOLZIGHES_TICKED) {
            printf("%s\n", a->rang ? "slept, rang" : "slept");
        } else if (a->kind == BOLZIGHES_REPORTED) {
            printf("at %u: due at %u, given %u\n", (unsigned)a->now, (unsigned)a->due, (unsigned)a->given);
        } else {
            printf("%s\n", a->kind == BOLZIGHES_RELEASED ? "released" : "closed or refused");
        }
    }
    return EXIT_SUCCESS;
}
