/* The level answer of the site book, for C: which calls may start at a site now.
 *
 * A site has 1 to 64 threads, and each active call there has a level below the number of threads. The site is lawful when, for every level k
 * below its threads, at most threads - k active calls have level k or higher. A call may start when the site stays lawful with it. The levels
 * that may start are always the lowest ones, up to a highest; admission_level says how many they are.
 *
 * To link: build the archive by `tests/build book_c`, then
 *     cc -Iinclude program.c target/staticlib/libbook.a
 * The archive is for x86-64 and needs only memcpy from outside.
 */
#ifndef ADMISSION_H
#define ADMISSION_H

#include <stddef.h>
#include <stdint.h>

#ifdef __cplusplus
extern "C" {
#endif

/* The levels of a site, 0 to 63: the number of counts to hand in, and the most threads that a site can have. */
#define ADMISSION_LEVELS 64

/* The answer where no call may start. */
#define ADMISSION_NONE 0

/* The answer where the site is refused. */
#define ADMISSION_REFUSED 255

/* threads  the threads of the site, a word: a count that does not fit a byte is refused too, and is not cut to one that fits
 * counts   counts[k] is the number of active calls of level k; it points at len bytes and is never null
 * len      the number of counts
 *
 * Answers the highest level that may start, plus 1: a call of level i may start exactly when i is below the answer. That is 1 to 64, or
 * ADMISSION_NONE. Answers ADMISSION_REFUSED exactly when
 *   - threads is 0 or above 64, or
 *   - len is not 64, or
 *   - a count at a level at or above threads is not 0, or
 *   - the site is not lawful.
 *
 * A refusal is the number 255, which is above every level: test for it before comparing a level with the answer.
 *
 * Keeps no state and allocates nothing. Writes nothing but its own stack. The length is tested before any count is read: when it is not 64,
 * nothing is read. The counts must not change during the call.
 */
uint8_t admission_level(uint32_t threads, const uint8_t *counts, size_t len);

#ifdef __cplusplus
}
#endif

#endif
