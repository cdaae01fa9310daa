/* The level answer and the plain scan over the same lawful sites.
 *
 *     speed THREADS count    asks each once for each site, for a count from outside; prints the sites, and those where some level is full
 *     speed THREADS time     prints nanoseconds a call: the level answer, the plain scan
 */
#define _POSIX_C_SOURCE 200809L /* for clock_gettime */

#include <stdio.h>
#include <stdlib.h>
#include <string.h>
#include <time.h>

#include "admission.h"
#include "site.h"

enum { SITES = 4000, ROUNDS = 25, REPEATS = 10 };

typedef uint8_t level_answer(uint32_t threads, const uint8_t *counts, size_t len);

static struct site sites[SITES];

static void make_sites(uint8_t threads)
{
    struct site site;
    random_from(20060901);
    site_open(&site, threads);
    for (int n = 0; n < SITES; n++) {
        site_move(&site);
        sites[n] = site;
    }
}

static int count(void)
{
    int full = 0;
    for (int n = 0; n < SITES; n++) {
        uint8_t threads = sites[n].threads;
        uint8_t answer = admission_level(threads, sites[n].counts, ADMISSION_LEVELS);
        if (plain_level(threads, sites[n].counts, ADMISSION_LEVELS) != answer)
            return 1;
        full += answer < threads;
    }
    printf("%d %d\n", SITES, full);
    return 0;
}

static double now(void)
{
    struct timespec t;
    clock_gettime(CLOCK_MONOTONIC, &t);
    return (double)t.tv_sec * 1e9 + (double)t.tv_nsec;
}

static volatile uint8_t last_answer; /* so that no call is left out */

static double one_round(level_answer *answer)
{
    double start = now();
    for (int r = 0; r < REPEATS; r++)
        for (int n = 0; n < SITES; n++)
            last_answer = answer(sites[n].threads, sites[n].counts, ADMISSION_LEVELS);
    return (now() - start) / (REPEATS * SITES);
}

static int rising(const void *a, const void *b)
{
    double x = *(const double *)a, y = *(const double *)b;
    return (x > y) - (x < y);
}

static double median(double *of)
{
    qsort(of, ROUNDS, sizeof *of, rising);
    return of[ROUNDS / 2];
}

static int times(void)
{
    double book[ROUNDS], plain[ROUNDS];
    for (int r = 0; r < ROUNDS; r++) {
        book[r] = one_round(admission_level);
        plain[r] = one_round(plain_level);
    }
    printf("%.0f %.0f\n", median(book), median(plain));
    return 0;
}

int main(int argc, char **argv)
{
    if (argc != 3)
        return 2;
    make_sites((uint8_t)atoi(argv[1]));
    return strcmp(argv[2], "count") == 0 ? count() : times();
}
