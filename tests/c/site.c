#include "site.h"

#include <string.h>

uint8_t plain_level(uint32_t threads, const uint8_t *counts, size_t len)
{
    if (threads == 0 || threads > ADMISSION_LEVELS || len != ADMISSION_LEVELS)
        return ADMISSION_REFUSED;
    size_t k = ADMISSION_LEVELS;
    while (k > threads)
        if (counts[--k] != 0)
            return ADMISSION_REFUSED;
    size_t answer = threads;
    size_t sum = 0;
    while (k > 0) {
        k--;
        sum += counts[k];
        if (sum + k > threads)
            return ADMISSION_REFUSED;
        if (sum + k == threads)
            answer = k;
    }
    return (uint8_t)answer;
}

static uint64_t seen;

void random_from(uint64_t seed)
{
    seen = seed;
}

/* splitmix64 */
static uint64_t random_word(void)
{
    uint64_t z = seen += 0x9e3779b97f4a7c15u;
    z = (z ^ (z >> 30)) * 0xbf58476d1ce4e5b9u;
    z = (z ^ (z >> 27)) * 0x94d049bb133111ebu;
    return z ^ (z >> 31);
}

uint32_t random_below(uint32_t n)
{
    return (uint32_t)((random_word() >> 32) * n >> 32);
}

void site_open(struct site *site, uint8_t threads)
{
    memset(site, 0, sizeof *site);
    site->threads = threads;
    site->filling = true;
}

/* The levels that may start, found from level 0 up. Not by plain_level: a count of its calls is to see only those that are compared. */
static unsigned open_levels(const struct site *site)
{
    unsigned at_or_above = site->active;
    for (unsigned k = 0; k < site->threads; k++) {
        if (at_or_above == site->threads - k)
            return k;
        at_or_above -= site->counts[k];
    }
    return site->threads;
}

static void enter(struct site *site, unsigned open)
{
    site->counts[random_below(open)]++;
    site->active++;
}

/* Each active call is as likely as another. */
static void leave(struct site *site)
{
    unsigned call = random_below(site->active);
    unsigned k = 0;
    while (call >= site->counts[k])
        call -= site->counts[k++];
    site->counts[k]--;
    site->active--;
}

void site_move(struct site *site)
{
    unsigned open = open_levels(site);
    if (random_below(64) == 0)
        site->filling = !site->filling;
    if (open == 0)
        site->filling = false;
    if (site->active == 0)
        site->filling = true;
    if (site->filling)
        enter(site, open);
    else
        leave(site);
}
