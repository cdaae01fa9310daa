/* The bench program of 01, written by hand for speed: plain C, the same layout and the same bytes as fast.rs. */

#include <emmintrin.h>
#include <inttypes.h>
#include <stdbool.h>
#include <stdint.h>
#include <stdio.h>
#include <string.h>
#include <unistd.h>
#include <errno.h>

enum { IN = 1 << 16, OUT = 1 << 16, PLAN = 2048, SLOT = 64 };

/* The plan. */

static int sites, nodes, edges;
static uint8_t threads[256];  /* by site, 0 where it is not listed */
static bool listed[256];      /* by node */
static uint8_t node_site[64];
static uint8_t node_level[64];
static uint64_t node_calls[64]; /* by node: the called nodes */

static int add_site(const uint8_t *b) {
    if (b[0] > 15 || b[1] == 0 || b[1] > 64) return 4;
    sites++;
    threads[b[0]] = b[1];
    return 0;
}

static int add_node(const uint8_t *b) {
    if (b[0] > 63) return 4;
    if (threads[b[1]] == 0) return 5;
    if (b[2] >= threads[b[1]]) return 6;
    nodes++;
    listed[b[0]] = true;
    node_site[b[0]] = b[1];
    node_level[b[0]] = b[2];
    return 0;
}

static int add_edge(const uint8_t *b) {
    if (!listed[b[0]] || !listed[b[1]]) return 5;
    if (edges == 256) return 9;
    edges++;
    node_calls[b[0]] |= UINT64_C(1) << b[1];
    return 0;
}

/* Reads the record at `b`, of which `left` bytes are there. Answers a refusal or 0; `key` is the record before, then this one. */
static int record(const uint8_t *b, size_t left, size_t *length, uint32_t *key) {
    static const uint8_t lengths[5] = {0, 3, 4, 3, 1};
    uint32_t now = (uint32_t)b[0] << 16;
    if (b[0] < 1 || b[0] > 4) return 2;
    *length = lengths[b[0]];
    if (left < *length) return 1;
    if (b[0] != 4) now |= (uint32_t)b[1] << 8;
    if (b[0] == 3) now |= b[2];
    if (now <= *key) return 3;
    *key = now;
    return b[0] == 1 ? add_site(b + 1) : b[0] == 2 ? add_node(b + 1) : b[0] == 3 ? add_edge(b + 1) : 0;
}

/* All that the rows of these nodes hold. */
static uint64_t spread(const uint64_t rows[64], uint64_t these) {
    uint64_t all = 0;
    for (; these != 0; these &= these - 1) all |= rows[__builtin_ctzll(these)];
    return all;
}

/* Some node is reached from itself. */
static bool returns(uint64_t rows[64]) {
    for (int k = 0; k < 64; k++)
        for (int n = 0; n < 64; n++)
            if (rows[n] >> k & 1) rows[n] |= rows[k];
    for (int n = 0; n < 64; n++)
        if (rows[n] >> n & 1) return true;
    return false;
}

/* 7 and 8, on the whole plan. */
static int plan_fault(void) {
    uint64_t steps[64] = {0}, depends[64], calls[64];
    for (int n = 0; n < 64; n++)
        for (int m = 0; m < 64; m++)
            if (listed[n] && listed[m] && node_site[n] == node_site[m] && node_level[n] >= node_level[m])
                steps[n] |= UINT64_C(1) << m;
    for (int n = 0; n < 64; n++) depends[n] = spread(steps, spread(node_calls, steps[n]));
    memcpy(calls, node_calls, sizeof calls);
    return returns(calls) ? 7 : returns(depends) ? 8 : 0;
}

/* A refusal or 0; `at` is its offset, or the bytes used. */
static int read_plan(const uint8_t *b, size_t end, size_t *at) {
    uint32_t key = 0;
    size_t length;
    for (*at = 0; *at < end; *at += length) {
        int fault = record(b + *at, end - *at, &length, &key);
        if (fault == 0 && key == 4 << 16) fault = plan_fault();
        if (fault != 0) return fault;
        if (key == 4 << 16) {
            *at += 1;
            return 0;
        }
    }
    return 1;
}

/* The net. Nodes go by rank: their order by site, then level. Open calls stand in order of opening, without gaps; behind them are
   zeros, in `ranks` ACTIVE. */

enum { ACTIVE = 128, NO_NODE = 255, PLACES = 320 };
static const uint64_t ONES = UINT64_C(0x0101010101010101);

static struct {
    _Alignas(64) uint16_t tickets[PLACES];
    _Alignas(64) uint16_t parents[PLACES];
    _Alignas(64) uint8_t ranks[PLACES];
    int open;
    uint64_t rooms[16][9];  /* the room of each site and level, eight levels to a word, 0 from T on */
    uint8_t limit[16];      /* by site: the first level without room, which is T where none is full */
    uint16_t waiting[16];
    uint8_t rank[256];      /* by node, NO_NODE where it is not listed */
    uint8_t site[64], level[64]; /* by rank */
    uint64_t calls[64];     /* by rank: the called ranks */
    uint8_t first[16][65];  /* by site and level: the first rank of the site at that level or above */
} net;

/* The nodes that come before this site and level. */
static int before(int site, int level) {
    int count = 0;
    for (int n = 0; n < 64; n++)
        count += listed[n] && (node_site[n] < site || (node_site[n] == site && node_level[n] < level));
    return count;
}

static void set_ranks(void) {
    uint8_t next[16][64];
    for (int s = 0; s < 16; s++) {
        for (int k = 0; k < 65; k++) net.first[s][k] = (uint8_t)before(s, k);
        memcpy(next[s], net.first[s], 64);
    }
    memset(net.rank, NO_NODE, sizeof net.rank);
    for (int n = 0; n < 64; n++) {
        if (!listed[n]) continue;
        int r = next[node_site[n]][node_level[n]]++;
        net.rank[n] = (uint8_t)r;
        net.site[r] = node_site[n];
        net.level[r] = node_level[n];
    }
    for (int n = 0; n < 64; n++)
        for (int m = 0; m < 64; m++)
            if (node_calls[n] >> m & 1) net.calls[net.rank[n]] |= UINT64_C(1) << net.rank[m];
}

static void set_net(void) {
    memset(net.ranks, ACTIVE, sizeof net.ranks);
    set_ranks();
    for (int s = 0; s < 16; s++) {
        net.limit[s] = threads[s];
        for (int k = 0; k < threads[s]; k++) net.rooms[s][k / 8] |= (uint64_t)(threads[s] - k) << (8 * (k % 8));
    }
}

/* The bytes of the word that are 0; above the lowest of them others may be marked too. */
static inline uint64_t zeros(uint64_t word) {
    return (word - ONES) & ~word & (ONES << 7);
}

/* 1 in the bytes of the word up to this level's. */
static inline uint64_t up_to(int level) {
    return ONES >> (56 - 8 * (level & 7));
}

static inline __m128i equal(const uint16_t *part, __m128i x) {
    return _mm_cmpeq_epi16(_mm_loadu_si128((const __m128i *)part), x);
}

/* Which of 32 numbers are `x`, a bit for each. */
static inline uint32_t which(const uint16_t *b, __m128i x) {
    __m128i low = _mm_packs_epi16(equal(b, x), equal(b + 8, x));
    __m128i high = _mm_packs_epi16(equal(b + 16, x), equal(b + 24, x));
    return (uint32_t)_mm_movemask_epi8(low) | (uint32_t)_mm_movemask_epi8(high) << 16;
}

/* Some of 64 numbers is `x`. */
static inline bool any(const uint16_t *b, __m128i x) {
    __m128i one = _mm_or_si128(_mm_or_si128(equal(b, x), equal(b + 8, x)), _mm_or_si128(equal(b + 16, x), equal(b + 24, x)));
    __m128i two = _mm_or_si128(_mm_or_si128(equal(b + 32, x), equal(b + 40, x)), _mm_or_si128(equal(b + 48, x), equal(b + 56, x)));
    return _mm_movemask_epi8(_mm_or_si128(one, two)) != 0;
}

/* Which of 16 ranks are one of those from `low` to `low + last`. */
static inline uint32_t inside(const uint8_t *b, __m128i low, __m128i last) {
    __m128i past = _mm_sub_epi8(_mm_loadu_si128((const __m128i *)b), low);
    return (uint32_t)_mm_movemask_epi8(_mm_cmpeq_epi8(_mm_min_epu8(past, last), past));
}

/* The place of the ticket, which is not 0, or -1. Goes by 64 until it is met or no more than 32 are left. */
static inline int find(uint16_t ticket) {
    __m128i x = _mm_set1_epi16((int16_t)ticket);
    int at = 0;
    while (at + 32 < net.open && !any(net.tickets + at, x)) at += 64;
    for (; at < net.open; at += 32) {
        uint32_t hits = which(net.tickets + at, x);
        if (hits != 0) return at + __builtin_ctz(hits);
    }
    return -1;
}

/* A child stands behind its parent, so that the blocks before it need no look. */
static inline bool has_child(int parent, uint16_t ticket) {
    __m128i x = _mm_set1_epi16((int16_t)ticket);
    int at = parent & ~31;
    for (; at + 32 < net.open; at += 64)
        if (any(net.parents + at, x)) return true;
    return at < net.open && which(net.parents + at, x) != 0;
}

/* The first place whose rank is one of `count` (at least 1) from `low` on, or -1. */
static inline int first_waiter(int low, int count) {
    __m128i lows = _mm_set1_epi8((int8_t)low), lasts = _mm_set1_epi8((int8_t)(count - 1));
    for (int at = 0; at < net.open; at += 32) {
        const uint8_t *b = net.ranks + at;
        uint32_t hits = inside(b, lows, lasts) | inside(b + 16, lows, lasts) << 16;
        if (hits != 0) return at + __builtin_ctz(hits);
    }
    return -1;
}

/* One call more of this level at the site: less room at all levels up to it. */
static inline void take(int site, int level) {
    uint64_t less = up_to(level);
    int limit = net.limit[site];
    for (int w = level / 8; w >= 0; w--) {
        uint64_t left = net.rooms[site][w] - less, full = zeros(left);
        net.rooms[site][w] = left;
        less = ONES;
        if (full != 0) limit = 8 * w + __builtin_ctzll(full) / 8;
    }
    net.limit[site] = (uint8_t)limit;
}

/* One call less. Answers the limit, which rises only where it was at this level or below. */
static inline int give(int site, int level) {
    uint64_t *rooms = net.rooms[site], full;
    int w = level / 8;
    for (int i = 0; i < w; i++) rooms[i] += ONES;
    rooms[w] += up_to(level);
    if (level < net.limit[site]) return net.limit[site];
    while ((full = zeros(rooms[w])) == 0) w++;
    return net.limit[site] = (uint8_t)(8 * w + __builtin_ctzll(full) / 8);
}

/* The highest level up to this one without room; there is one. Rooms are at most 64, so that no byte carries into the next one and the
   marks are exact. */
static inline int blocking(int site, int level) {
    const uint64_t *rooms = net.rooms[site];
    int w = level / 8;
    uint64_t full = ~(rooms[w] + 127 * ONES) & (up_to(level) << 7);
    while (full == 0) full = ~(rooms[--w] + 127 * ONES) & (ONES << 7);
    return 8 * w + 7 - __builtin_clzll(full) / 8;
}

/* How a line ends: a letter, `R` and this number, or from BLOCKED on `W` and a level. */
enum { GRANTED, WAITS, IS_ACTIVE, ABSENT, BLOCKED = 64 };

static inline int opened(uint16_t parent, uint16_t ticket, int rank) {
    int at = net.open;
    if (at == 256) return 26;
    int site = net.site[rank], level = net.level[rank];
    net.open = at + 1;
    net.tickets[at] = ticket;
    net.parents[at] = parent;
    if (level < net.limit[site]) {
        net.ranks[at] = (uint8_t)(rank | ACTIVE);
        take(site, level);
        return GRANTED;
    }
    net.ranks[at] = (uint8_t)rank;
    net.waiting[site]++;
    return BLOCKED + blocking(site, level);
}

static inline int start(uint16_t ticket, uint8_t node) {
    if (ticket == 0) return 20;
    if (find(ticket) >= 0) return 21;
    if (net.rank[node] == NO_NODE) return 22;
    return opened(0, ticket, net.rank[node]);
}

static inline int call(uint16_t parent, uint16_t ticket, uint8_t node) {
    if (ticket == 0) return 20;
    if (find(ticket) >= 0) return 21;
    int at = parent == 0 ? -1 : find(parent);
    if (at < 0) return 23;
    if (net.ranks[at] < ACTIVE) return 24;
    int rank = net.rank[node];
    if (rank == NO_NODE) return 22;
    if ((net.calls[net.ranks[at] & 63] >> rank & 1) == 0) return 25;
    return opened(parent, ticket, rank);
}

/* The calls behind this place move up; a place behind the last one takes over what an empty place holds. */
static inline void close_gap(int at) {
    for (; at < net.open; at += 16) {
        uint16_t *t = net.tickets + at, *p = net.parents + at;
        uint8_t *r = net.ranks + at;
        __m128i t0 = _mm_loadu_si128((__m128i *)(t + 1)), t1 = _mm_loadu_si128((__m128i *)(t + 9));
        __m128i p0 = _mm_loadu_si128((__m128i *)(p + 1)), p1 = _mm_loadu_si128((__m128i *)(p + 9));
        __m128i r0 = _mm_loadu_si128((__m128i *)(r + 1));
        _mm_storeu_si128((__m128i *)t, t0);
        _mm_storeu_si128((__m128i *)(t + 8), t1);
        _mm_storeu_si128((__m128i *)p, p0);
        _mm_storeu_si128((__m128i *)(p + 8), p1);
        _mm_storeu_si128((__m128i *)r, r0);
    }
    net.open--;
}

/* The oldest call that waits at the site with a level from `old` to below `new` becomes active; lower ones do not wait. */
static inline int serve(int site, int old, int new) {
    int low = net.first[site][old], count = net.first[site][new] - low;
    int at = count == 0 ? -1 : first_waiter(low, count);
    if (at < 0) return 0;
    int rank = net.ranks[at];
    net.ranks[at] = (uint8_t)(rank | ACTIVE);
    net.waiting[site]--;
    take(site, net.level[rank]);
    return net.tickets[at];
}

/* The ticket admitted or 0, or a refusal less 100. */
static inline int back(uint16_t ticket) {
    int at = ticket == 0 ? -1 : find(ticket);
    if (at < 0) return 27 - 100;
    if (net.ranks[at] < ACTIVE) return 28 - 100;
    if (has_child(at, ticket)) return 29 - 100;
    int rank = net.ranks[at] & 63, site = net.site[rank];
    close_gap(at);
    int old = net.limit[site], new = give(site, net.level[rank]);
    return new == old || net.waiting[site] == 0 ? 0 : serve(site, old, new);
}

/* A call that waits leaves, and nobody is admitted: 0, or a refusal less 100. */
static inline int take_back(uint16_t ticket) {
    int at = ticket == 0 ? -1 : find(ticket);
    if (at < 0) return 27 - 100;
    if (net.ranks[at] >= ACTIVE) return 34 - 100;
    net.waiting[net.site[net.ranks[at]]]--;
    close_gap(at);
    return 0;
}

static inline int ask(uint16_t ticket) {
    int at = ticket == 0 ? -1 : find(ticket);
    return at < 0 ? ABSENT : net.ranks[at] < ACTIVE ? WAITS : IS_ACTIVE;
}

/* The room, which is the smallest number up to the level, or a refusal less 100. */
static inline int room(uint8_t site, uint8_t level) {
    if (level >= threads[site]) return 30 - 100;
    int least = 64;
    for (int k = 0; k <= level; k++) {
        int spare = (int)(net.rooms[site][k / 8] >> (8 * (k % 8)) & 255);
        if (spare < least) least = spare;
    }
    return least;
}

/* The text. */

static uint64_t tails[128];     /* the bytes of each tail, and in the eighth how many they are */
static uint32_t digits[1000];  /* numbers below 1000: their digits, and in the fourth byte how many they are */
static uint32_t three[1000];   /* the same with zeros in front */

static void set_tables(void) {
    for (int i = 0; i < 128; i++) {
        char t[9] = "         ";
        if (i <= ABSENT) sprintf(t, " %c\n", "GWAN"[i]);
        else if (i < BLOCKED) sprintf(t, " R %02d\n", i);
        else sprintf(t, " W %d\n", i - BLOCKED);
        t[7] = (char)strlen(t);
        memcpy(&tails[i], t, 8);
    }
    for (int n = 0; n < 1000; n++) {
        uint32_t a = '0' + (uint32_t)n / 100, b = '0' + (uint32_t)n / 10 % 10, c = '0' + (uint32_t)n % 10;
        three[n] = a | b << 8 | c << 16 | 3u << 24;
        digits[n] = n < 10 ? c | 1u << 24 : n < 100 ? b | c << 8 | 2u << 24 : three[n];
    }
}

static inline char *number(char *p, unsigned n) {
    unsigned high = n / 1000;
    if (high != 0) {
        memcpy(p, &digits[high], 4);
        p += digits[high] >> 24;
        memcpy(p, &three[n % 1000], 4);
        return p + 3;
    }
    memcpy(p, &digits[n], 4);
    return p + (digits[n] >> 24);
}

static inline char *head(char *p, char letter, unsigned n) {
    p[0] = letter;
    p[1] = ' ';
    return number(p + 2, n);
}

static inline char *second(char *p, unsigned n) {
    *p = ' ';
    return number(p + 1, n);
}

static inline char *tail(char *p, int which) {
    memcpy(p, &tails[which], 8);
    return p + (tails[which] >> 56);
}

static inline char *answer(char *p, int n) {
    if (n < 0) return tail(p, n + 100);
    p = second(p, (unsigned)n);
    *p = '\n';
    return p + 1;
}

/* Carries out the command at the front of the word and writes its line. Moves `in` behind the command, not for an unknown kind. */
static inline char *command(char *p, uint64_t word, const uint8_t **in) {
    uint16_t one = (uint16_t)(word >> 40), two = (uint16_t)(word >> 24);
    switch (word >> 56) {
    case 0x10:
        *in += 4;
        return tail(head(p, 'S', one), start(one, (uint8_t)(word >> 32)));
    case 0x11:
        *in += 6;
        return tail(second(head(p, 'C', one), two), call(one, two, (uint8_t)(word >> 16)));
    case 0x12:
        *in += 3;
        return answer(head(p, 'E', one), back(one));
    case 0x13:
        *in += 3;
        return tail(head(p, 'Q', one), ask(one));
    case 0x14:
        *in += 3;
        return answer(second(head(p, 'M', one >> 8), one & 255), room((uint8_t)(one >> 8), (uint8_t)one));
    case 0x15:
        *in += 3;
        return answer(head(p, 'X', one), take_back(one));
    default:
        return p;
    }
}

/* Input and output. What was read and is not yet used goes from `in` to `end`; behind the end 8 bytes can be looked at. */

static uint8_t buffer[IN + 8];
static const uint8_t *in = buffer, *end = buffer;
static uint64_t gone; /* the input's bytes in front of the buffer */
static bool over;
static char out[OUT];

/* Reads on until `least` bytes are there or the input is over. */
static bool fill(size_t least) {
    if (over) return true;
    size_t left = (size_t)(end - in);
    memmove(buffer, in, left);
    gone += (uint64_t)(in - buffer);
    while (left < least && !over) {
        ssize_t count = read(0, buffer + left, IN - left);
        if (count < 0 && errno != EINTR) return false;
        if (count == 0) over = true;
        if (count > 0) left += (size_t)count;
    }
    in = buffer;
    end = buffer + left;
    return true;
}

static bool put_out(const char *bytes, size_t length) {
    while (length > 0) {
        ssize_t count = write(1, bytes, length);
        if (count < 0 && errno != EINTR) return false;
        if (count > 0) {
            bytes += count;
            length -= (size_t)count;
        }
    }
    return true;
}

/* The command at the front of what is left of the input has not all its bytes. */
static bool cut(void) {
    size_t due = *in == 0x10 ? 4 : *in == 0x11 ? 6 : *in >= 0x12 && *in <= 0x15 ? 3 : 1;
    return (size_t)(end - in) < due;
}

/* Carries out the commands and writes their lines and the last one. */
static bool commands(char *p) {
    uint64_t count = 0;
    const char *last = "done";
    for (;; count++) {
        if (end - in < 8) {
            if (!fill(8)) return false;
            if (in == end) break;
            if (cut()) {
                last = "bad 1";
                break;
            }
        }
        if (p > out + OUT - SLOT) {
            if (!put_out(out, (size_t)(p - out))) return false;
            p = out;
        }
        uint64_t word;
        const uint8_t *from = in;
        memcpy(&word, from, 8);
        p = command(p, __builtin_bswap64(word), &in);
        if (in == from) {
            last = "bad 2";
            break;
        }
    }
    p += sprintf(p, "%s %" PRIu64 "\n", last, *last == 'd' ? count : gone + (uint64_t)(in - buffer));
    return put_out(out, (size_t)(p - out));
}

int main(void) {
    size_t used;
    char *p = out;
    if (!fill(PLAN)) return 1;
    int fault = read_plan(buffer, (size_t)(end - buffer), &used);
    if (fault != 0) {
        p += sprintf(p, "plan R %d %zu\n", fault, used);
        return !put_out(out, (size_t)(p - out));
    }
    p += sprintf(p, "plan %d %d %d %zu\n", sites, nodes, edges, used);
    in = buffer + used;
    set_tables();
    set_net();
    return !commands(p);
}
