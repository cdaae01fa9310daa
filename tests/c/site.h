/* A site in plain C: the level answer by one pass over the counts, and sites that fill and empty at random. Written from the documents alone. */
#ifndef SITE_H
#define SITE_H

#include <stdbool.h>
#include <stddef.h>
#include <stdint.h>

#include "admission.h"

/* The same question as admission_level, and the same answers. */
uint8_t plain_level(uint32_t threads, const uint8_t *counts, size_t len);

/* Random numbers, the same ones from the same seed. */
void random_from(uint64_t seed);
uint32_t random_below(uint32_t n);

/* A lawful site that calls enter and leave. */
struct site {
    uint8_t threads;
    uint8_t counts[ADMISSION_LEVELS];
    unsigned active;
    bool filling;
};

/* An empty site. */
void site_open(struct site *site, uint8_t threads);

/* One call enters at an admissible level, or one leaves. The site fills until no call may start, empties until none is left, and at times
 * turns round on the way. */
void site_move(struct site *site);

#endif
