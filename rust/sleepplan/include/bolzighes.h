/* The sleep planner for programs in C. Link libplanner_c.a, which `tools/build planner_c` writes to crates/planner_c/out.
 *
 * A table is a text; docs/refusals.md of the repository says which texts are refused, and with which number, and
 * docs/demand.md what a sleep is.
 *
 * What a caller owes: `text` can be read for `len` bytes, and nobody writes them during the call. That is all. Any bytes
 * are allowed, among them 0 (a text is not a C string, and `len` does not count a byte 0 after it), any length and any
 * row. With `len` 0 no byte is read, and `text` may be any pointer, a null pointer too: the text is refused with 1. A null
 * pointer with another length is not allowed.
 *
 * The calls write nothing but their own stack (some kilobytes), allocate nothing and keep nothing from call to call, so
 * they can be called from any thread, and from several at once.
 */
#ifndef BOLZIGHES_H
#define BOLZIGHES_H

#include <stddef.h>
#include <stdint.h>

#ifdef __cplusplus
extern "C" {
#endif

/* What bolzighes_sleep adds to a refusal's number. Every sleep is below it. */
#define BOLZIGHES_REFUSED UINT32_C(1000000)

/* The refusal for a row that the table does not have. */
#define BOLZIGHES_NO_SUCH_ROW UINT32_C(12)

/* 0 if the table is accepted, else the number of its refusal, 1 to 11. */
uint32_t bolzighes_check(const uint8_t *text, size_t len);

/* The sleep of a row in ticks, rows counted from 0; or BOLZIGHES_REFUSED plus the number of a refusal: that of the table
 * if it is refused, whatever the row, else BOLZIGHES_NO_SUCH_ROW for a row that is not there. */
uint32_t bolzighes_sleep(const uint8_t *text, size_t len, uint64_t row);

#ifdef __cplusplus
}
#endif

#endif
