/* A C program over the archive: asks admission_level and compares each answer with a plain scan (site.c), and in the small groups with the
 * definition itself. Each group is one check. It fails on one wrong answer, and also where it has seen no lawful or no refused site.
 *
 *     client [random states]
 */
#define _DEFAULT_SOURCE 1 /* for mmap */

#include <stdio.h>
#include <stdlib.h>
#include <string.h>
#include <sys/mman.h>
#include <unistd.h>

#include "admission.h"
#include "site.h"

enum { LEVELS = ADMISSION_LEVELS };

struct group {
    const char *name;
    long compared, lawful, refused, wrong;
};

static void report(struct group *g, const char *what, uint32_t threads, const uint8_t *counts, size_t len, int got, int want)
{
    g->wrong++;
    if (g->wrong > 5)
        return;
    printf("  %s: threads %u, length %zu: %d, expected %d; counts", what, threads, len, got, want);
    for (size_t k = 0; len == LEVELS && k < len; k++)
        printf(" %d", counts[k]);
    printf("\n");
}

/* Asks once. The answer must be the one given, and the counts must be left alone. */
static void expect(struct group *g, uint32_t threads, const uint8_t *counts, size_t len, uint8_t want)
{
    uint8_t before[LEVELS];
    if (len == LEVELS)
        memcpy(before, counts, LEVELS);
    uint8_t got = admission_level(threads, counts, len);
    g->compared++;
    if (want == ADMISSION_REFUSED)
        g->refused++;
    else
        g->lawful++;
    if (got != want)
        report(g, "answer", threads, counts, len, got, want);
    if (len == LEVELS && memcmp(before, counts, LEVELS) != 0)
        report(g, "counts changed", threads, counts, len, got, want);
}

static void compare(struct group *g, uint32_t threads, const uint8_t *counts, size_t len)
{
    expect(g, threads, counts, len, plain_level(threads, counts, len));
}

/* The definition, without a thought for speed; threads 1 to 64. */

static unsigned calls_at_or_above(const uint8_t *counts, unsigned k)
{
    unsigned sum = 0;
    for (unsigned j = k; j < LEVELS; j++)
        sum += counts[j];
    return sum;
}

static bool lawful(unsigned threads, const uint8_t *counts)
{
    for (unsigned k = 0; k < threads; k++)
        if (calls_at_or_above(counts, k) > threads - k)
            return false;
    return true;
}

static bool admissible(unsigned threads, const uint8_t *counts, unsigned level)
{
    uint8_t more[LEVELS];
    memcpy(more, counts, LEVELS);
    more[level]++;
    return lawful(threads, more);
}

static uint8_t defined_level(unsigned threads, const uint8_t *counts)
{
    if (!lawful(threads, counts) || (threads < LEVELS && calls_at_or_above(counts, threads) > 0))
        return ADMISSION_REFUSED;
    for (unsigned i = threads; i-- > 0;)
        if (admissible(threads, counts, i))
            return (uint8_t)(i + 1);
    return ADMISSION_NONE;
}

/* Compares with the definition; the scan must agree with it as well. */
static void compare_defined(struct group *g, uint32_t threads, const uint8_t *counts)
{
    uint8_t want = defined_level(threads, counts);
    expect(g, threads, counts, LEVELS, want);
    uint8_t scanned = plain_level(threads, counts, LEVELS);
    if (scanned != want)
        report(g, "the scan itself", threads, counts, LEVELS, scanned, want);
}

/* The level sheet and the paper's example 4. Calls are given by their levels, and the answer as printed there. */

struct sheet {
    uint8_t threads, answer;
    const char *active;
};

static const struct sheet SHEET[] = {
    {10, 1, "123444569"},
    {10, 4, "12444569"},
    {10, 9, "1244569"},
    {3, 1, "11"},
    {1, 1, ""},
    {1, 0, "0"},
    {64, 64, ""},
    {3, 3, ""},
    {3, 3, "0"},
    {3, 3, "01"},
    {3, 0, "011"},
    {3, ADMISSION_REFUSED, "112"},
};

static void sheet(struct group *g)
{
    for (size_t n = 0; n < sizeof SHEET / sizeof SHEET[0]; n++) {
        const struct sheet *s = &SHEET[n];
        uint8_t counts[LEVELS] = {0};
        for (const char *c = s->active; *c; c++)
            counts[*c - '0']++;
        expect(g, s->threads, counts, LEVELS, s->answer);
        compare_defined(g, s->threads, counts);
        if (s->answer < s->threads) { /* the lowest level that has to wait */
            counts[s->answer]++;
            expect(g, s->threads, counts, LEVELS, ADMISSION_REFUSED);
        }
    }
}

/* Every state of the sites with 1 to 6 threads: counts of 0 to threads + 1 at each level below the threads. No lawful site has more. The
 * number of lawful ones is known: 2, 5, 14, 42 and so on, the Catalan numbers. */

enum { SMALL = 6 };

static bool next_state(uint8_t *counts, unsigned threads)
{
    for (unsigned k = 0; k < threads; k++) {
        if (counts[k] <= threads) {
            counts[k]++;
            return true;
        }
        counts[k] = 0;
    }
    return false;
}

static void small_sites(struct group *g)
{
    static const long known[SMALL + 1] = {0, 2, 5, 14, 42, 132, 429};
    for (unsigned threads = 1; threads <= SMALL; threads++) {
        uint8_t counts[LEVELS] = {0};
        long before = g->lawful;
        do
            compare_defined(g, threads, counts);
        while (next_state(counts, threads));
        if (g->lawful - before != known[threads]) {
            printf("  threads %u: %ld lawful states, expected %ld\n", threads, g->lawful - before, known[threads]);
            g->wrong++;
        }
    }
}

/* Sites of all sizes that fill and empty at random, and damaged copies of them. */

static void damage(struct site *site)
{
    unsigned limit = plain_level(site->threads, site->counts, LEVELS);
    switch (random_below(7)) {
    case 0: site->counts[random_below(LEVELS)]++; break;
    case 1: site->counts[limit < LEVELS ? limit : 0]++; break;
    case 2: site->threads--; break;
    case 3: site->threads++; break;
    case 4: site->counts[random_below(LEVELS)] = (uint8_t)random_below(256); break;
    case 5: site->counts[random_below(site->threads)] += 2; break;
    default:
        for (unsigned k = 0; k < LEVELS; k++)
            site->counts[k] = (uint8_t)random_below(256);
    }
}

static void random_sites(struct group *g, long states)
{
    struct site site, damaged;
    random_from(20060901);
    for (long n = 0; n < states; n++) {
        if (n % 500 == 0)
            site_open(&site, (uint8_t)(1 + random_below(LEVELS)));
        site_move(&site);
        compare(g, site.threads, site.counts, LEVELS);
        if (n % 1024 == 0)
            compare_defined(g, site.threads, site.counts);
        if (n % 2 == 0) {
            damaged = site;
            damage(&damaged);
            compare(g, damaged.threads, damaged.counts, LEVELS);
        }
    }
    if (g->lawful < g->compared / 2 || g->refused < g->compared / 8) {
        printf("  too few of one kind\n");
        g->wrong++;
    }
}

/* No active call, and one call of level 0, at a site of so many threads. */
static void so_many_threads(struct group *g, uint32_t threads)
{
    bool in_range = 1 <= threads && threads <= LEVELS;
    uint8_t counts[LEVELS] = {0};
    expect(g, threads, counts, LEVELS, in_range ? (uint8_t)threads : ADMISSION_REFUSED);
    counts[0] = 1;
    uint8_t left = threads == 1 ? ADMISSION_NONE : (uint8_t)threads;
    expect(g, threads, counts, LEVELS, in_range ? left : ADMISSION_REFUSED);
}

/* Threads 0 to 600, so that each byte is seen with something above it, and counts whose low byte or low half is a good one. */
static void threads_out_of_range(struct group *g)
{
    static const uint32_t far[] = {64, 65, 255, 256, 320, 0x10001, 0x10040, 0x1000040, 0x80000040, UINT32_MAX - 191, UINT32_MAX};
    for (uint32_t threads = 0; threads <= 600; threads++)
        so_many_threads(g, threads);
    for (size_t n = 0; n < sizeof far / sizeof far[0]; n++)
        so_many_threads(g, far[n]);
}

/* One call at a level at or above the threads, for all threads and levels; and 256 of them, which a sum of one byte would lose. */
static void calls_too_high(struct group *g)
{
    for (unsigned threads = 1; threads < LEVELS; threads++)
        for (unsigned level = threads; level < LEVELS; level++) {
            uint8_t counts[LEVELS] = {0};
            expect(g, threads, counts, LEVELS, (uint8_t)threads);
            counts[level] = 1;
            expect(g, threads, counts, LEVELS, ADMISSION_REFUSED);
            counts[level] = 128;
            counts[level + 1 < LEVELS ? level + 1 : threads] = 128;
            expect(g, threads, counts, LEVELS, ADMISSION_REFUSED);
        }
}

/* A site that is full at level k, with one call too many there: unlawful at k and at no other level. */
static void one_too_many(struct group *g, unsigned threads, unsigned k, uint8_t *counts)
{
    expect(g, threads, counts, LEVELS, (uint8_t)k);
    counts[k]++;
    for (unsigned j = 0; j < threads; j++)
        if ((calls_at_or_above(counts, j) > threads - j) != (j == k)) {
            printf("  threads %u, level %u: the case is not as meant\n", threads, k);
            g->wrong++;
        }
    expect(g, threads, counts, LEVELS, ADMISSION_REFUSED);
}

/* For all threads and levels: all calls at level k, and the calls spread over the levels from k on. */
static void unlawful(struct group *g)
{
    for (unsigned threads = 1; threads <= LEVELS; threads++)
        for (unsigned k = 0; k < threads; k++) {
            uint8_t counts[LEVELS] = {0};
            counts[k] = (uint8_t)(threads - k);
            one_too_many(g, threads, k, counts);
            memset(counts, 0, LEVELS);
            for (unsigned j = k; j < threads; j++)
                counts[j] = 1;
            one_too_many(g, threads, k, counts);
        }
}

/* Sums above 255, which must not wrap round to a small number: 256 calls at two levels, and 255 calls at every level. */
static void large_sums(struct group *g)
{
    for (unsigned threads = 2; threads <= LEVELS; threads++)
        for (unsigned k = 1; k < threads; k++) {
            uint8_t counts[LEVELS] = {0};
            counts[k] = 1;
            compare(g, threads, counts, LEVELS);
            counts[k - 1] = 255;
            expect(g, threads, counts, LEVELS, ADMISSION_REFUSED);
        }
    uint8_t counts[LEVELS];
    memset(counts, 255, LEVELS);
    expect(g, LEVELS, counts, LEVELS, ADMISSION_REFUSED);
}

/* Empty sites of lengths 0 to 130, each in a buffer of just that size. */
static void lengths(struct group *g)
{
    for (size_t len = 0; len <= 130; len++) {
        uint8_t *counts = calloc(len > 0 ? len : 1, 1);
        if (counts == NULL)
            abort();
        for (unsigned threads = 0; threads <= 66; threads++) {
            bool good = len == 64 && 1 <= threads && threads <= 64;
            expect(g, threads, counts, len, good ? (uint8_t)threads : ADMISSION_REFUSED);
        }
        free(counts);
    }
}

/* Counts at the very end and at the very start of a page that can only be read, between pages that cannot be touched: a read beyond the 64
 * counts, or a write, ends the program. With another length the counts themselves cannot be touched. */
static void guarded(struct group *g)
{
    size_t page = (size_t)sysconf(_SC_PAGESIZE);
    uint8_t *pages = mmap(NULL, 3 * page, PROT_NONE, MAP_PRIVATE | MAP_ANONYMOUS, -1, 0);
    if (pages == MAP_FAILED || mprotect(pages + page, page, PROT_READ | PROT_WRITE) != 0)
        abort();
    uint8_t *first = pages + page, *last = pages + 2 * page - LEVELS;
    first[0] = last[0] = 1;
    if (mprotect(pages + page, page, PROT_READ) != 0)
        abort();
    for (unsigned threads = 0; threads <= 255; threads++) {
        compare(g, threads, first, LEVELS);
        compare(g, threads, last, LEVELS);
        for (size_t len = 0; len <= 1024; len++)
            if (len != LEVELS)
                expect(g, threads, pages + 2 * page, len, ADMISSION_REFUSED);
        expect(g, threads, pages, SIZE_MAX, ADMISSION_REFUSED);
        expect(g, threads, pages, (size_t)1 << 32 | LEVELS, ADMISSION_REFUSED);
    }
    munmap(pages, 3 * page);
}

static int passed, failed;

static void close_group(const struct group *g)
{
    bool good = g->wrong == 0 && g->lawful > 0 && g->refused > 0;
    printf("%s %s: %ld compared, %ld lawful, %ld refused, %ld wrong\n", good ? "ok" : "FAILED", g->name, g->compared, g->lawful, g->refused,
        g->wrong);
    fflush(stdout);
    if (good)
        passed++;
    else
        failed++;
}

static void run(const char *name, void (*cases)(struct group *))
{
    struct group g = {name, 0, 0, 0, 0};
    cases(&g);
    close_group(&g);
}

int main(int argc, char **argv)
{
    struct group roam = {"random sites", 0, 0, 0, 0};
    run("level sheet and example 4", sheet);
    run("every state of 1 to 6 threads", small_sites);
    random_sites(&roam, argc > 1 ? atol(argv[1]) : 1000000);
    close_group(&roam);
    run("threads out of range", threads_out_of_range);
    run("calls at or above the threads", calls_too_high);
    run("one call too many", unlawful);
    run("sums above 255", large_sums);
    run("lengths", lengths);
    run("no read out of range", guarded);
    printf("%d passed, %d failed\n", passed, failed);
    return failed > 0;
}
