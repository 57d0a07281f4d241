/* Ferruleslate for C: a routing job's bytes to its text, its tree bytes or its figures.
 *
 * Link target/staticlib/libexports.a, which `./staticlib.sh exports` makes for x86-64-v2, and with `--cpu x86-64` for every x86-64. README.md has the formats.
 *
 * Every call:
 * - is handed a pointer and a length for each run of bytes. The pointer is not null, also where the length is 0, and the bytes
 *   that are written overlap nothing else that the call is handed;
 * - asks nothing else: any bytes are a job, or are refused with a number;
 * - answers a number that is not negative on success, or minus the refusal's number. After a refusal all that was lent is as
 *   it was; after success the bytes past the written ones are;
 * - allocates nothing, keeps nothing, and may run in several threads at once. Give it 256 KiB of stack (120 were enough for
 *   ferruleslate_plan where it was tried, and 56 for the other two).
 */
#ifndef FERRULESLATE_H
#define FERRULESLATE_H

#include <stddef.h>
#include <stdint.h>

#ifdef __cplusplus
extern "C" {
#endif

/* Refusals, in the order of the tests; an answer is minus one of these. */
enum ferruleslate_refusal {
    FERRULESLATE_LENGTH = 1,     /* under 32 bytes, or a length other than 32 + 8 T + 16 K */
    FERRULESLATE_COUNT = 2,      /* T over 120 or K over 64; tested before the second half of 1 */
    FERRULESLATE_OFFSET = 3,     /* an offset other than the required one */
    FERRULESLATE_MODE = 4,       /* mode over 2, a spare byte that is not 0, or a multiplier in mode 0 or 1 */
    FERRULESLATE_COORDINATE = 5, /* a source or terminal coordinate outside -1,000,000..1,000,000 */
    FERRULESLATE_KEEPOUT = 6,    /* a keepout interval with lower above upper */
    FERRULESLATE_NO_ROOM = 11    /* the buffer is shorter than what is to be written */
};

/* No job is longer, and no answer of the two calls that write. */
#define FERRULESLATE_MOST_JOB 2016
#define FERRULESLATE_MOST_TEXT 65610
#define FERRULESLATE_MOST_TREE_BYTES 4024

/* What the program routeplan writes for the job: the tree's text and a line of figures, or a line `refused n`.
 * Answers how many bytes it wrote, or -11. A refusal of the job (1 to 6) is text. No zero byte follows the text. */
int64_t ferruleslate_plan(const uint8_t *job, size_t job_length, uint8_t *out, size_t out_length);

/* The tree bytes of the job. Answers how many bytes it wrote, or minus a refusal: 1 to 6 of the job, then 11. */
int64_t ferruleslate_tree_bytes(const uint8_t *job, size_t job_length, uint8_t *out, size_t out_length);

/* The figures of the job's tree: the allowance, the largest distance of a terminal from the source, and the total and the worst
 * wirelength. Answers 0, or minus a refusal of the job, 1 to 6. No two of the four pointers are equal. */
int64_t ferruleslate_figures(const uint8_t *job, size_t job_length, int32_t *allowed, uint32_t *farthest, uint32_t *total,
                             uint32_t *worst);

#ifdef __cplusplus
}
#endif

#endif
