/* The board for programs in C. Link libboard_c.a, which `tools/build board_c` writes to crates/board_c/out.
 *
 * docs/board.md of the repository says what a board does and answers, docs/alarms.md what the alarms are, and
 * docs/refusals.md which number stands for which refusal.
 *
 * What a caller owes: `text` and `calls` can be read for their lengths and nobody writes them during the call, `answers`
 * can be read and written for its length and is nobody else's during the call. That is all. Any bytes, any numbers and
 * any lengths are allowed; with length 0 a pointer may be anything, a null pointer too.
 *
 * The call writes nothing but `answers` and its own stack (some kilobytes), allocates nothing and keeps nothing.
 */
#ifndef BOLZIGHES_BOARD_H
#define BOLZIGHES_BOARD_H

#include <stddef.h>
#include <stdint.h>

#ifdef __cplusplus
extern "C" {
#endif

/* A call is one number: four times its row, and its kind. The row of a tick is not looked at. */
#define BOLZIGHES_RELEASE(row) (4 * (uint64_t)(row))
#define BOLZIGHES_DONE(row) (4 * (uint64_t)(row) + 1)
#define BOLZIGHES_TICK UINT64_C(2)
#define BOLZIGHES_REPORT(row) (4 * (uint64_t)(row) + 3)

/* The alarms. */
#define BOLZIGHES_COUNTER UINT32_C(0)
#define BOLZIGHES_DIVIDER UINT32_C(1)
#define BOLZIGHES_TOP_UP_OVER_DIVIDER UINT32_C(2)

/* The kinds of answers. */
#define BOLZIGHES_RELEASED UINT32_C(0)
#define BOLZIGHES_CLOSED UINT32_C(1)
#define BOLZIGHES_TICKED UINT32_C(2)
#define BOLZIGHES_REPORTED UINT32_C(3)
#define BOLZIGHES_CALL_REFUSED UINT32_C(4)

/* What a call answered. A field that its kind does not name is 0. */
struct bolzighes_answer {
    uint64_t now;    /* reported: the clock */
    uint64_t ran;    /* reported: the ticks given to jobs so far */
    uint64_t slept;  /* reported: the ticks spent asleep so far */
    uint64_t due;    /* reported: the due tick of the row's open job */
    uint64_t row;    /* ticked: the row that ran */
    uint32_t kind;   /* which of the five */
    uint32_t number; /* refused: the refusal's number */
    uint32_t busy;   /* ticked: 1 if a row ran; reported: 1 if the row has a job open */
    uint32_t rang;   /* ticked: 1 if the alarm rang */
    uint32_t given;  /* reported: the ticks that the row's open job was given */
};

/* No call was made: there are more calls than places for answers, or the alarm is none of the three. */
#define BOLZIGHES_TOO_FEW_PLACES UINT32_C(101)
#define BOLZIGHES_NO_SUCH_ALARM UINT32_C(100)

/* Makes the calls, one after the other, on a new board over the table's plan and the alarm, which stands under a ramp of
 * `warm` ticks unless that is 0; writes what each answered to the first places of `answers`, and leaves the others. Returns
 * 0, or why no call was made and nothing written: BOLZIGHES_TOO_FEW_PLACES, the number of the text's refusal (1 to 11),
 * BOLZIGHES_NO_SUCH_ALARM, or 17 for a warm-up above 1,000, the first of them that applies. */
uint32_t bolzighes_calls(const uint8_t *text, size_t text_len, uint32_t alarm, uint32_t warm, const uint64_t *calls,
                         size_t calls_len, struct bolzighes_answer *answers, size_t answers_len);

#ifdef __cplusplus
}
#endif

#endif
