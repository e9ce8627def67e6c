/* What the files of the driver share; common.h says what each is for. */
#define _DEFAULT_SOURCE
#include "common.h"

#include <inttypes.h>
#include <math.h>
#include <stdio.h>
#include <stdlib.h>
#include <string.h>
#include <sys/mman.h>

/* ---- the tally */

#define BIT(n) (1u << (n))

/* the numbers that a call may give */
static const struct { const char *name; uint32_t numbers; } CALLS[FUNCTIONS] = {
    {"orbt_sqrt", BIT(0) | BIT(12)}, {"orbt_cbrt", BIT(0) | BIT(12)}, {"orbt_two_thirds", BIT(0) | BIT(12)},
    {"orbt_three_halves", BIT(0) | BIT(12)}, {"orbt_sin", BIT(0) | BIT(9)}, {"orbt_cos", BIT(0) | BIT(9)},
    {"orbt_sin_cos", BIT(0) | BIT(9)}, {"orbt_floor", BIT(0)}, {"orbt_rem_euclid", BIT(0)}, {"orbt_atan2", BIT(0)},
    {"orbt_class", BIT(0) | BIT(1) | BIT(2)}, {"orbt_sidereal_time", BIT(0) | BIT(3) | BIT(13)},
    {"orbt_geometry", BIT(0) | BIT(3) | BIT(9) | BIT(13)}, {"orbt_build", BIT(0) | BIT(3) | BIT(9) | BIT(13) | BIT(16)},
    {"orbt_fresh", BIT(0) | BIT(1)}, {"orbt_step", BIT(0) | BIT(3) | BIT(4) | BIT(6) | BIT(8) | BIT(16)},
    {"orbt_ask", 0x1FFF | BIT(16)}, {"orbt_contents", BIT(0) | BIT(14)}, {"orbt_satellite", BIT(0) | BIT(14) | BIT(15)},
    {"orbt_restore", BIT(0) | BIT(14) | BIT(15) | BIT(16) | BIT(17) | BIT(18)},
    {"orbt_save", BIT(0) | BIT(4) | BIT(5) | BIT(14) | BIT(16) | BIT(17) | BIT(18) | BIT(19) | BIT(20)}};

static uint64_t counts[FUNCTIONS][21];
uint64_t calls, seed;
enum function calling;

void fail(const char *what) {
    printf("call %" PRIu64 " of seed %" PRIu64 ": %s: %s\n", calls, seed, CALLS[calling].name, what);
    exit(1);
}

uint32_t counted(uint32_t number) {
    calls++;
    if (number > 20 || !(CALLS[calling].numbers & BIT(number))) fail("a number that the call may not give");
    counts[calling][number]++;
    return number;
}

void print_tally(void) {
    for (int f = 0; f < FUNCTIONS; f++) {
        uint64_t all = 0;
        for (int n = 0; n <= 20; n++) all += counts[f][n];
        printf("%-20s %9" PRIu64 " ", CALLS[f].name, all);
        for (int n = 0; n <= 20; n++)
            if (counts[f][n] > 0) printf("  %d: %" PRIu64, n, counts[f][n]);
        printf("\n");
    }
}

/* ---- draws: splitmix64 */

static uint64_t drawn;

void draw_from(uint64_t start) { drawn = start; }

uint64_t draw(void) {
    uint64_t z = drawn += 0x9E3779B97F4A7C15;
    z = (z ^ (z >> 30)) * 0xBF58476D1CE4E5B9;
    z = (z ^ (z >> 27)) * 0x94D049BB133111EB;
    return z ^ (z >> 31);
}

uint64_t below(uint64_t n) { return draw() % n; }

int one_in(uint64_t n) { return below(n) == 0; }

double unit(void) { return (double)(draw() >> 11) / 9007199254740992.0; }

double from_bits(uint64_t bits) {
    double x;
    memcpy(&x, &bits, sizeof x);
    return x;
}

uint64_t to_bits(double x) {
    uint64_t bits;
    memcpy(&bits, &x, sizeof bits);
    return bits;
}

int same(double a, double b) { return to_bits(a) == to_bits(b); }

const double LIMITS[] = {
    0.0034906585, 0.0052359877, 8.26e-3, 9.24e-3, 0.5, 0.65, 0.7, 0.715, 0.2, -0.001, 1.0, 1e-6, 1.5e-12, 720.0, 1440.0,
    754974720.0, 1048576.0, 0.7853981633974483, 3.141592653589793, 6.283185307179586, 2.2250738585072014e-308,
    1.7976931348623157e308, 4294967296.0, 9007199254740992.0, 0.0};

double any_float(void) {
    uint64_t sign = draw() & 0x8000000000000000;
    switch (below(8)) {
    case 0: return from_bits(draw());
    case 1: return from_bits(sign | 0x7FF0000000000000 | (one_in(3) ? 0 : draw() >> (12 + below(52))));
    case 2: return from_bits(sign | draw() >> (12 + below(52)));
    case 3:
    case 4: return from_bits((sign | to_bits(LIMITS[below(sizeof LIMITS / sizeof *LIMITS)])) + below(3) - 1);
    case 5: return from_bits(sign | to_bits(720.0 * (double)below(40)));
    case 6: return from_bits(sign | to_bits(unit() * 10.0));
    default: return from_bits(sign | to_bits(ldexp(1.0 + unit(), (int)below(60) - 30)));
    }
}

double finite_float(void) {
    double x = any_float();
    while (!isfinite(x)) x = any_float();
    return x;
}

uint32_t choice(uint32_t n) { return one_in(24) ? (uint32_t)(one_in(2) ? n : draw()) : (uint32_t)below(n); }

/* ---- what is lent to a call */

enum { SLOTS = 9, MARGIN = 64, PAGE = 1 << 16 }; /* a multiple of any usual page */

static struct slot {
    uint8_t *room, *at, before[ROOM];
    size_t size;
    int is_low;
} slots[SLOTS];

void make_slots(void) {
    for (int i = 0; i < SLOTS; i++) {
        uint8_t *whole = mmap(NULL, ROOM + 2 * PAGE, PROT_NONE, MAP_PRIVATE | MAP_ANONYMOUS, -1, 0);
        if (whole == MAP_FAILED || mprotect(whole + PAGE, ROOM, PROT_READ | PROT_WRITE) != 0) {
            printf("no memory\n");
            exit(1);
        }
        slots[i].room = whole + PAGE;
    }
}

static uint8_t *margin_of(const struct slot *s) { return s->is_low ? s->at + s->size : s->at - MARGIN; }

/* lends a copy of the bytes */
void *lend(int slot, const void *bytes, size_t size) {
    struct slot *s = &slots[slot];
    s->size = size;
    s->is_low = (int)(draw() & 1);
    s->at = s->is_low ? s->room : s->room + ROOM - size;
    if (size > 0) memcpy(s->at, bytes, size);
    if (size > 0) memcpy(s->before, bytes, size);
    memset(margin_of(s), 0xA5, MARGIN);
    return s->at;
}

int is_left_from(int slot, size_t from) {
    struct slot *s = &slots[slot];
    return memcmp(s->at + from, s->before + from, s->size - from) == 0;
}

int is_left(int slot) { return is_left_from(slot, 0); }

void check_margins(int count) {
    for (int i = 0; i < count; i++) {
        const uint8_t *margin = margin_of(&slots[i]);
        for (int k = 0; k < MARGIN; k++)
            if (margin[k] != 0xA5) fail("bytes beside an argument are written");
    }
}

double *lend_float(int slot) {
    double x = any_float();
    return lend(slot, &x, sizeof x);
}

uint32_t *lend_number(int slot) {
    uint32_t x = (uint32_t)draw();
    return lend(slot, &x, sizeof x);
}

double *lend_floats(int slot, int count) {
    double xs[ORBT_CONSTANTS];
    for (int i = 0; i < count; i++) xs[i] = any_float();
    return lend(slot, xs, sizeof *xs * (size_t)count);
}

int all_finite(const double *xs, int count) {
    for (int i = 0; i < count; i++)
        if (!isfinite(xs[i])) return 0;
    return 1;
}

double lent(void) { return *(double *)slots[0].at; }
