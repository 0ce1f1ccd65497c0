/* Prints the sleep of each row of a table: quote FILE. Then tries what a careless caller may pass. */

#include <stdio.h>
#include <stdlib.h>

#include "bolzighes.h"

/* One byte more than the longest text, so that a longer file is seen to be too long. */
enum { MOST = 8193 };

static void expect(const char *what, uint32_t answer, uint32_t wanted)
{
    if (answer != wanted) {
        fprintf(stderr, "%s: %u in place of %u\n", what, (unsigned)answer, (unsigned)wanted);
        exit(EXIT_FAILURE);
    }
}

static void odd_calls(const uint8_t *table, size_t len)
{
    static const uint8_t zeros[8193];
    expect("null text", bolzighes_check(NULL, 0), 1);
    expect("null text, row 0", bolzighes_sleep(NULL, 0, 0), BOLZIGHES_REFUSED + 1);
    expect("null text, last row", bolzighes_sleep(NULL, 0, UINT64_MAX), BOLZIGHES_REFUSED + 1);
    expect("empty text", bolzighes_check(table + len, 0), 1);
    expect("8,192 zeros", bolzighes_check(zeros, 8192), 2);
    expect("8,193 zeros", bolzighes_check(zeros, 8193), 1);
    expect("row 2^32", bolzighes_sleep(table, len, UINT64_C(1) << 32), BOLZIGHES_REFUSED + BOLZIGHES_NO_SUCH_ROW);
    expect("row 2^63", bolzighes_sleep(table, len, UINT64_C(1) << 63), BOLZIGHES_REFUSED + BOLZIGHES_NO_SUCH_ROW);
    expect("last row", bolzighes_sleep(table, len, UINT64_MAX), BOLZIGHES_REFUSED + BOLZIGHES_NO_SUCH_ROW);
}

int main(int argc, char **argv)
{
    uint8_t text[MOST];
    FILE *file = argc == 2 ? fopen(argv[1], "rb") : NULL;
    if (file == NULL) {
        fprintf(stderr, "usage: quote FILE\n");
        return EXIT_FAILURE;
    }
    size_t len = fread(text, 1, MOST, file);
    fclose(file);

    uint32_t refusal = bolzighes_check(text, len);
    if (refusal != 0) {
        fprintf(stderr, "refusal %u\n", (unsigned)refusal);
        return EXIT_FAILURE;
    }
    uint32_t sleep;
    for (uint64_t row = 0; (sleep = bolzighes_sleep(text, len, row)) < BOLZIGHES_REFUSED; row++) {
        printf("row %u may sleep %u ticks\n", (unsigned)row, (unsigned)sleep);
    }
    expect("the row past the last", sleep, BOLZIGHES_REFUSED + BOLZIGHES_NO_SUCH_ROW);
    odd_calls(text, len);
    return EXIT_SUCCESS;
}
