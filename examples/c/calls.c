/* Calls every function of include/orbt.h with values whose answers are known, from a plain computation in
 * C or from the definition, and checks the numbers, what is written and what is left. Each argument has a
 * value of its own, so that two of one type in the wrong order give another answer. */
#include "orbt.h"

#include <math.h>
#include <stdio.h>
#include <string.h>

static const double TAU = 6.283185307179586;
static const double KEPT = 12345.678; /* what a call that refuses must leave */
static const uint32_t KEPT_NUMBER = 77;

static unsigned checks, failures;

#define CHECK(holds) check(holds, #holds, __LINE__)

static void check(int holds, const char *what, int line) {
    checks++;
    if (!holds) {
        failures++;
        printf("line %d: not so: %s\n", line, what);
    }
}

static int same(double a, double b) { return memcmp(&a, &b, sizeof a) == 0; }

static int is_near(double a, double b) { return fabs(a - b) <= 1e-12 * fmax(1.0, fabs(b)); }

static void keep(double *xs, int count) {
    for (int i = 0; i < count; i++) xs[i] = KEPT;
}

static int is_kept(const double *xs, int count) {
    for (int i = 0; i < count; i++)
        if (!same(xs[i], KEPT)) return 0;
    return 1;
}

static double euclid(double x, double m) {
    double r = fmod(x, m);
    return r < 0.0 ? r + fabs(m) : r;
}

/* ---- float functions */

static void floats(void) {
    double y = KEPT, z = KEPT;
    CHECK(orbt_sqrt(-1.0, &y) == 12 && is_kept(&y, 1));
    CHECK(orbt_sqrt(2.0, &y) == 0 && same(y, sqrt(2.0)));
    CHECK(orbt_sqrt(-0.0, &y) == 0 && same(y, -0.0));
    y = KEPT;
    CHECK(orbt_cbrt(0.0, &y) == 12 && is_kept(&y, 1));
    CHECK(orbt_cbrt(27.0, &y) == 0 && same(y, 3.0));
    /* the greatest float whose cube is not above 2 */
    CHECK(orbt_cbrt(2.0, &y) == 0 && same(y, 0x1.428a2f98d728ap+0));
    y = KEPT;
    CHECK(orbt_two_thirds(-8.0, &y) == 12 && is_kept(&y, 1));
    CHECK(orbt_two_thirds(27.0, &y) == 0 && same(y, 9.0));
    y = KEPT;
    CHECK(orbt_three_halves(INFINITY, &y) == 12 && is_kept(&y, 1));
    CHECK(orbt_three_halves(4.0, &y) == 0 && same(y, 8.0));

    y = KEPT;
    CHECK(orbt_sin(NAN, &y) == 9 && is_kept(&y, 1));
    CHECK(orbt_sin(1048576.0, &y) == 0 && is_near(y, sin(1048576.0)));
    CHECK(orbt_sin(0.0, &y) == 0 && same(y, 0.0));
    y = KEPT;
    CHECK(orbt_cos(nextafter(1048576.0, INFINITY), &y) == 9 && is_kept(&y, 1));
    CHECK(orbt_cos(-2.5, &y) == 0 && is_near(y, cos(-2.5)));
    CHECK(orbt_cos(0.0, &y) == 0 && same(y, 1.0));
    y = KEPT;
    CHECK(orbt_sin_cos(-1048577.0, &y, &z) == 9 && is_kept(&y, 1) && is_kept(&z, 1));
    CHECK(orbt_sin_cos(2.5, &y, &z) == 0 && is_near(y, sin(2.5)) && is_near(z, cos(2.5)));

    CHECK(same(orbt_floor(-1.5), -2.0) && same(orbt_floor(-0.0), -0.0));
    CHECK(same(orbt_rem_euclid(-1.0, TAU), 5.283185307179586));
    CHECK(same(orbt_rem_euclid(7.0, 3.0), 1.0) && same(orbt_rem_euclid(3.0, 7.0), 3.0));
    CHECK(is_near(orbt_atan2(1.0, 2.0), atan2(1.0, 2.0)) && is_near(orbt_atan2(-3.0, -0.5), atan2(-3.0, -0.5)));
}

/* ---- class, sidereal time, geometry */

static double iau(double epoch) {
    double c = epoch / 100.0;
    double seconds =
        -6.2e-6 * (c * c * c) + 0.093104 * (c * c) + (876600.0 * 3600.0 + 8640184.812866) * c + 67310.54841;
    return euclid(seconds * (TAU / 360.0) / 240.0, TAU);
}

static double afspc(double epoch) {
    double d = (epoch + 30.0) * 365.25 + 1.0, whole = floor(d + 1.0e-8);
    double theta = 1.7321343856509374 + 1.72027916940703639e-2 * whole + (1.72027916940703639e-2 + TAU) * (d - whole) +
                   d * d * 5.07551419432269442e-15;
    return euclid(theta, TAU);
}

static void times_and_places(void) {
    CHECK(orbt_class(0.0034906585, 0.5) == 0 && orbt_class(0.0043, 0.1) == 1 && orbt_class(8.26e-3, 0.5) == 2);
    CHECK(orbt_class(0.5, 8.26e-3) == 0 && orbt_class(0.1, 0.0043) == 0);

    double theta = KEPT;
    CHECK(orbt_sidereal_time(0, INFINITY, &theta) == 3 && is_kept(&theta, 1));
    CHECK(orbt_sidereal_time(0, 1e150, &theta) == 13 && is_kept(&theta, 1));
    CHECK(orbt_sidereal_time(0, 55.7, &theta) == 0 && fabs(theta - iau(55.7)) < 5e-11);
    CHECK(orbt_sidereal_time(1, 55.7, &theta) == 0 && fabs(theta - afspc(55.7)) < 5e-11);
    CHECK(fabs(iau(55.7) - afspc(55.7)) > 2e-10); /* else the two could not be told apart */

    double bodies[ORBT_BODIES];
    keep(bodies, ORBT_BODIES);
    CHECK(orbt_geometry(1.25, NAN, bodies) == 3 && is_kept(bodies, ORBT_BODIES));
    CHECK(orbt_geometry(1048577.0, 6.25, bodies) == 9 && is_kept(bodies, ORBT_BODIES));
    CHECK(orbt_geometry(1.25, 6.25, bodies) == 0);
    double d = (6.25 + 100.0) * 365.25;
    double node = fmod(4.5236020 - 9.2422029e-4 * d, TAU);
    double cosine = 0.91375164 - 0.03568096 * cos(node), sine = sqrt(1.0 - cosine * cosine);
    double node_sine = 0.089683511 * sin(node) / sine, node_cosine = sqrt(1.0 - node_sine * node_sine);
    double perigee = 5.8351514 + 0.001944368 * d - node +
                     atan2(0.39785416 * sin(node) / sine, node_cosine * cos(node) + 0.91744867 * node_sine * sin(node));
    double expected[ORBT_BODIES] = {
        0.39785416, 0.91744867, sin(1.25), cos(1.25), -0.98088458, 0.1945905, fmod(6.2565837 + 0.017201977 * d, TAU),
        sine, cosine, sin(1.25) * node_cosine - cos(1.25) * node_sine, node_cosine * cos(1.25) + node_sine * sin(1.25),
        sin(perigee), cos(perigee), fmod(-1.1151842 + 0.228027132 * d, TAU)};
    for (int i = 0; i < ORBT_BODIES; i++) CHECK(is_near(bodies[i], expected[i]));
}

/* ---- build */

/* 31 numbers, no two alike */
static void give(double given[ORBT_GIVEN], double n, double e) {
    double first[11] = {6378.135, 0.0743669161, 1.082616e-3, -2.53881e-6, -1.65597e-6, 1.1, 4.9, e, 4.6, 0.35, n};
    double next[10] = {6.25, 0.45, 4.2, 1.9e-11, 1.4e-10, -4.6e-12, 2.9e-9, -7.4e-8, -1.3e-6, n + 1e-7};
    memcpy(given, first, sizeof first);
    memcpy(given + 11, next, sizeof next);
    for (int i = 21; i < ORBT_GIVEN; i++) given[i] = (i % 2 ? -1e-9 : 1e-9) * i;
}

static void check_common(const double *given, const double *constants) {
    for (int i = 0; i < 11; i++) CHECK(same(constants[i], given[i]));
    CHECK(same(constants[11], given[19] + (given[22] + given[27])));
    CHECK(same(constants[12], given[18] + (given[24] + given[29])));
    CHECK(same(constants[13], given[20] + (given[25] + given[30])));
    for (int i = 14; i < 18; i++) CHECK(same(constants[i], given[i]));
    CHECK(same(constants[18], given[23] + given[28]));
    CHECK(same(constants[19], given[21] + given[26]));
}

static void builds(void) {
    const double speed = 4.37526908801129966e-3;
    double given[ORBT_GIVEN], constants[ORBT_CONSTANTS];
    uint32_t kind = KEPT_NUMBER;
    keep(constants, ORBT_CONSTANTS);
    give(given, 0.02, 0.1);
    CHECK(orbt_build(0, 2, given, &kind, constants) == 16 && kind == KEPT_NUMBER && is_kept(constants, ORBT_CONSTANTS));
    given[30] = NAN;
    CHECK(orbt_build(0, 0, given, &kind, constants) == 3 && kind == KEPT_NUMBER && is_kept(constants, ORBT_CONSTANTS));

    give(given, 0.02, 0.1);
    CHECK(orbt_build(0, 1, given, &kind, constants) == 0 && kind == 0);
    check_common(given, constants);
    CHECK(same(constants[20], given[13]));
    for (int i = 21; i < ORBT_CONSTANTS; i++) CHECK(same(constants[i], 0.0));

    /* which and flag are of one type: the sidereal time tells which of them is looked at */
    give(given, 0.0043, 0.1);
    CHECK(orbt_build(1, 0, given, &kind, constants) == 0 && kind == 1);
    check_common(given, constants);
    double theta = 0.0;
    CHECK(orbt_sidereal_time(1, given[11], &theta) == 0 && same(constants[22], theta));
    double n = given[10], e2 = given[7] * given[7], p1 = given[12], a0 = given[13], sine = sin(given[5]);
    CHECK(is_near(constants[20], fmod(given[9] + given[6] + given[8] - theta, TAU)));
    CHECK(is_near(constants[21], given[20] + (given[18] + given[19]) - speed + (given[25] + given[30]) +
                                     (given[24] + given[29]) + (given[22] + given[27]) - n));
    double p17 = 3.0 * (n / a0) * (n / a0);
    double dr[3] = {
        p17 * (0.9375 * sine * sine * (1.0 + 3.0 * p1) - 0.75 * (1.0 + p1)) * (1.0 + 2.0 * e2) * 2.1460748e-6 / a0,
        2.0 * p17 * 0.75 * (1.0 + p1) * (1.0 + p1) * (1.0 + e2 * (-2.5 + 0.8125 * e2)) * 1.7891679e-6,
        3.0 * p17 * 1.875 * pow(1.0 + p1, 3.0) * (1.0 + e2 * (-6.0 + 6.60937 * e2)) * 2.2123015e-7 / a0};
    for (int i = 0; i < 3; i++) CHECK(fabs(constants[23 + i] / dr[i] - 1.0) < 1e-12);
    for (int i = 26; i < ORBT_CONSTANTS; i++) CHECK(same(constants[i], 0.0));

    give(given, 0.0087, 0.68);
    CHECK(orbt_build(0, 0, given, &kind, constants) == 0 && kind == 2);
    check_common(given, constants);
    CHECK(orbt_sidereal_time(0, given[11], &theta) == 0 && same(constants[22], theta));
    CHECK(is_near(constants[20], fmod(given[9] + 2.0 * given[6] - 2.0 * theta, TAU)));
    CHECK(is_near(constants[21], given[20] + (given[25] + given[30]) +
                                     2.0 * (given[19] + (given[22] + given[27]) - speed) - given[10]));
    for (int i = 23; i < 33; i++) CHECK(isfinite(constants[i]) && constants[i] != 0.0);
    CHECK(same(constants[33], given[18]));
}

/* ---- state and ask */

/* A one-day orbit without resonant forces: each step adds 720 times one rate to the longitude. */
static void calm(double constants[ORBT_CONSTANTS]) {
    double given[ORBT_GIVEN];
    uint32_t kind;
    give(given, 0.0043, 0.1);
    CHECK(orbt_build(0, 0, given, &kind, constants) == 0);
    constants[23] = constants[24] = constants[25] = 0.0;
}

static void states(void) {
    double constants[ORBT_CONSTANTS], state[ORBT_STATE];
    calm(constants);
    double n = constants[10], lambda = constants[20], rate = n + constants[21];
    keep(state, ORBT_STATE);
    CHECK(orbt_fresh(0, constants, state) == 0 && is_kept(state, ORBT_STATE));
    CHECK(orbt_fresh(1, constants, state) == 1);
    CHECK(same(state[0], 0.0) && same(state[1], n) && same(state[2], lambda));

    CHECK(orbt_step(1, constants, 0, state) == 0);
    CHECK(same(state[0], 720.0) && same(state[1], n) && same(state[2], lambda + rate * 720.0));
    orbt_fresh(1, constants, state);
    CHECK(orbt_step(1, constants, 1, state) == 0);
    CHECK(same(state[0], -720.0) && same(state[1], n) && same(state[2], lambda - rate * 720.0));
    keep(state, ORBT_STATE);
    CHECK(orbt_step(1, constants, 0, state) == 6 && is_kept(state, ORBT_STATE));
    CHECK(orbt_step(0, constants, 1, state) == 4 && is_kept(state, ORBT_STATE));
    CHECK(orbt_step(1, constants, 2, state) == 16 && is_kept(state, ORBT_STATE));
    CHECK(orbt_step(3, constants, 0, state) == 16 && is_kept(state, ORBT_STATE));
}

/* what the definition makes of p28 and p29, for an inclination of 0.2 or more */
static void check_elements(const double *c, const double *q, double p28, double p29, const double *elements) {
    double t = q[0];
    double i = c[5] + c[19] * t + (q[4] + q[9]), s = sin(i), k = cos(i), p5 = q[7] + q[12], p4 = q[6] + q[11];
    double a = p28 * (1.0 - c[14] * t) * (1.0 - c[14] * t);
    double expected[ORBT_ELEMENTS] = {
        i, q[1] + p5 / s, c[7] + c[18] * t - c[15] * t + (q[3] + q[8]), q[2] + p4 - k * (p5 / s),
        p29 + (q[5] + q[10]) + c[10] * c[17] * t * t, c[1] / pow(a, 1.5), a,
        -0.5 * (c[3] / c[2]) * s, 1.0 - k * k, 7.0 * k * k - 1.0,
        -0.25 * (c[3] / c[2]) * s * (3.0 + 5.0 * k) / (1.0 + k), 3.0 * k * k - 1.0};
    for (int j = 0; j < ORBT_ELEMENTS; j++) CHECK(is_near(elements[j], expected[j]));
}

static void asks(void) {
    double question[ORBT_QUESTION] = {1000.0,  4.7,     4.4,      1.1e-5,  -2.3e-5, 3.1e-5, 4.3e-5,
                                      -5.9e-5, 6.1e-6,  -7.3e-6,  8.9e-6,  9.7e-6,  1.3e-6};
    double constants[ORBT_CONSTANTS], given[ORBT_GIVEN], state[ORBT_STATE], elements[ORBT_ELEMENTS];
    uint32_t kind, steps = KEPT_NUMBER;

    give(given, 0.02, 0.1);
    CHECK(orbt_build(0, 0, given, &kind, constants) == 0);
    keep(state, ORBT_STATE);
    CHECK(orbt_ask(0, 0, constants, 0, state, question, elements, &steps) == 0 && steps == 0);
    CHECK(is_kept(state, ORBT_STATE));
    check_elements(constants, question, constants[20], constants[9] + constants[13] * 1000.0, elements);

    calm(constants);
    double n = constants[10], rate = n + constants[21], moved = constants[20] + rate * 720.0;
    double theta = fmod(constants[22] + 1000.0 * 4.37526908801129966e-3, TAU);
    orbt_fresh(1, constants, state);
    CHECK(orbt_ask(1, 0, constants, 1, state, question, elements, &steps) == 0 && steps == 1);
    CHECK(same(state[0], 720.0) && same(state[1], n) && same(state[2], moved));
    check_elements(constants, question, pow(constants[1] / n, 2.0 / 3.0), moved + rate * 280.0 - 4.7 - 4.4 + theta,
                   elements);

    /* 1 to 8 leave the state, the elements too, and make no step; 16 leaves the steps as well */
    double before[ORBT_STATE];
    memcpy(before, state, sizeof state);
    keep(elements, ORBT_ELEMENTS);
    double wrong[ORBT_QUESTION];
    struct { double t; uint32_t kind, held, number; } refused[] = {
        {NAN, 1, 1, 1}, {754974721.0, 1, 1, 2}, {1000.0, 0, 1, 4}, {1000.0, 1, 0, 5}, {719.0, 1, 1, 7}};
    for (int i = 0; i < 5; i++) {
        memcpy(wrong, question, sizeof wrong);
        wrong[0] = refused[i].t;
        steps = KEPT_NUMBER;
        CHECK(orbt_ask(refused[i].kind, 0, constants, refused[i].held, state, wrong, elements, &steps) ==
              refused[i].number);
        CHECK(steps == 0 && is_kept(elements, ORBT_ELEMENTS) && memcmp(before, state, sizeof state) == 0);
    }
    steps = KEPT_NUMBER;
    CHECK(orbt_ask(3, 0, constants, 1, state, question, elements, &steps) == 16);
    CHECK(orbt_ask(1, 2, constants, 1, state, question, elements, &steps) == 16);
    CHECK(orbt_ask(1, 1, constants, 2, state, question, elements, &steps) == 16);
    CHECK(steps == KEPT_NUMBER && is_kept(elements, ORBT_ELEMENTS) && memcmp(before, state, sizeof state) == 0);

    /* 11 carries the perturbed eccentricity and t, and keeps the state that it moved */
    memcpy(wrong, question, sizeof wrong);
    wrong[0] = 1440.0;
    wrong[3] = 2.0;
    CHECK(orbt_ask(1, 0, constants, 1, state, wrong, elements, &steps) == 11 && steps == 1 && same(state[0], 1440.0));
    double p31 = constants[7] + constants[18] * 1440.0 - constants[15] * 1440.0;
    CHECK(is_near(elements[0], p31 + (2.0 + 6.1e-6)) && same(elements[1], 1440.0) && is_kept(elements + 2, 10));
    /* 10 carries the eccentricity without the Sun's and the Moon's */
    constants[7] = 1.5;
    keep(elements, ORBT_ELEMENTS);
    CHECK(orbt_ask(1, 0, constants, 1, state, wrong, elements, &steps) == 10 && steps == 0);
    CHECK(is_near(elements[0], p31 + 1.4) && same(elements[1], 1440.0) && is_kept(elements + 2, 10));
}

/* ---- the store */

static uint8_t *put(uint8_t *at, uint64_t x, int bytes) {
    for (int i = 0; i < bytes; i++) *at++ = (uint8_t)(x >> (8 * i));
    return at;
}

static uint8_t *put_floats(uint8_t *at, const double *xs, int count) {
    for (int i = 0; i < count; i++) {
        uint64_t bits;
        memcpy(&bits, &xs[i], sizeof bits);
        at = put(at, bits, 8);
    }
    return at;
}

static void store(void) {
    static const uint8_t empty[8] = {0x4F, 0x52, 0x42, 0x54, 1, 0, 0, 0};
    double quiet[ORBT_CONSTANTS], given[ORBT_GIVEN], resonant[ORBT_CONSTANTS];
    double state[ORBT_STATE], read[ORBT_CONSTANTS], read_state[ORBT_STATE];
    enum { ONE = 8 + ORBT_RECORD, TWO = ONE + ORBT_RECORD };
    uint8_t first[ONE], expected[TWO], second[TWO], kept[TWO];
    uint32_t kind, flag, held, steps, count = KEPT_NUMBER, satellite = KEPT_NUMBER;
    size_t size = KEPT_NUMBER;
    memset(kept, 0xA5, sizeof kept);
    memcpy(first, kept, sizeof first);
    memcpy(second, kept, sizeof second);
    give(given, 0.02, 0.1);
    CHECK(orbt_build(0, 0, given, &kind, quiet) == 0);
    calm(resonant);

    CHECK(orbt_contents(empty, 8, &count) == 0 && count == 0);
    count = KEPT_NUMBER;
    CHECK(orbt_contents(empty, 7, &count) == 14 && count == KEPT_NUMBER);
    CHECK(orbt_satellite(empty, 8, 0, &satellite) == 15 && satellite == KEPT_NUMBER);

    /* satellite 7, non-resonant: 196 bytes, and the rest of the output as it was */
    keep(state, ORBT_STATE);
    CHECK(orbt_save(empty, 8, first, 195, 7, 0, 1, quiet, 0, state, &size) == 19);
    CHECK(orbt_save(empty, 7, first, sizeof first, 7, 0, 1, quiet, 0, state, &size) == 14);
    CHECK(orbt_save(empty, 8, first, sizeof first, 7, 0, 1, quiet, 1, state, &size) == 4);
    CHECK(orbt_save(empty, 8, first, sizeof first, 7, 1, 0, resonant, 0, state, &size) == 5);
    CHECK(orbt_save(empty, 8, first, sizeof first, 7, 3, 0, resonant, 0, state, &size) == 16);
    CHECK(orbt_save(empty, 8, first, sizeof first, 7, 0, 0, resonant, 0, state, &size) == 16);
    CHECK(size == KEPT_NUMBER && memcmp(first, kept, sizeof first) == 0);
    CHECK(orbt_save(empty, 8, first, sizeof first, 7, 0, 1, quiet, 0, state, &size) == 0 && size == 196);
    uint8_t *at = put(expected, 0x5442524F, 4);
    at = put(put(put(put(put(at, 1, 2), 1, 2), 7, 4), 0x14, 4), 0xB0, 4);
    at = put_floats(put(put(at, 0, 1), 1, 7), quiet, 21);
    CHECK(at - expected == 196 && memcmp(first, expected, 196) == 0);
    CHECK(memcmp(first + 196, kept, sizeof first - 196) == 0);

    /* satellite 5, one-day, two steps back: it goes before the other, whose body moves */
    orbt_fresh(1, resonant, state);
    CHECK(orbt_step(1, resonant, 1, state) == 0 && orbt_step(1, resonant, 1, state) == 0);
    CHECK(orbt_save(first, 196, second, sizeof second, 5, 1, 0, resonant, 1, state, &size) == 0 && size == 448);
    at = put(expected, 0x5442524F, 4);
    at = put(put(put(put(put(at, 1, 2), 2, 2), 5, 4), 32, 4), 240, 4);
    at = put(put(put(at, 7, 4), 272, 4), 176, 4);
    at = put_floats(put_floats(put(put(at, 1, 1), 0, 7), resonant, 26), state, 3);
    at = put_floats(put(put(at, 0, 1), 1, 7), quiet, 21);
    CHECK(at - expected == 448 && memcmp(second, expected, 448) == 0);
    CHECK(memcmp(second + 448, kept, sizeof second - 448) == 0);
    CHECK(orbt_contents(second, 448, &count) == 0 && count == 2);
    CHECK(orbt_satellite(second, 448, 0, &satellite) == 0 && satellite == 5);
    CHECK(orbt_satellite(second, 448, 1, &satellite) == 0 && satellite == 7);
    satellite = KEPT_NUMBER;
    CHECK(orbt_satellite(second, 448, 2, &satellite) == 15 && satellite == KEPT_NUMBER);
    CHECK(orbt_satellite(second, 447, 0, &satellite) == 14 && satellite == KEPT_NUMBER);

    CHECK(orbt_restore(second, 448, 5, &kind, &flag, read, &held, read_state, &steps) == 0);
    CHECK(kind == 1 && flag == 0 && held == 1 && steps == 2);
    CHECK(memcmp(read, resonant, sizeof read) == 0 && memcmp(read_state, state, sizeof state) == 0);
    keep(read_state, ORBT_STATE);
    CHECK(orbt_restore(second, 448, 7, &kind, &flag, read, &held, read_state, &steps) == 0);
    CHECK(kind == 0 && flag == 1 && held == 0 && steps == 0);
    CHECK(memcmp(read, quiet, sizeof read) == 0 && is_kept(read_state, ORBT_STATE));

    /* damage, and the steps made before it is seen */
    struct { int place; uint8_t bits; uint32_t satellite, number, steps; } damages[] = {
        {0, 1, 5, 14, 0}, {0, 0, 6, 15, 0}, {32 + 1, 2, 5, 16, 0}, {32 + 7, 1, 5, 16, 0}, {32 + 15, 0x7F, 5, 17, 0},
        {32 + 216, 1, 5, 18, 0}, {32 + 232, 1, 5, 18, 2}, {272, 1, 5, 0, 2}};
    for (int i = 0; i < 8; i++) {
        memcpy(expected, second, 448);
        expected[damages[i].place] ^= damages[i].bits;
        if (damages[i].number == 17) memset(expected + 32 + 8, 0xFF, 8); /* a NaN for ae */
        kind = flag = held = steps = KEPT_NUMBER;
        keep(read, ORBT_CONSTANTS);
        keep(read_state, ORBT_STATE);
        CHECK(orbt_restore(expected, 448, damages[i].satellite, &kind, &flag, read, &held, read_state, &steps) ==
              damages[i].number);
        CHECK(steps == damages[i].steps);
        if (damages[i].number == 0) continue;
        CHECK(kind == KEPT_NUMBER && flag == KEPT_NUMBER && held == KEPT_NUMBER);
        CHECK(is_kept(read, ORBT_CONSTANTS) && is_kept(read_state, ORBT_STATE));
    }
    state[2] = nextafter(state[2], INFINITY);
    size = KEPT_NUMBER;
    memcpy(second, kept, sizeof second);
    CHECK(orbt_save(first, 196, second, sizeof second, 5, 1, 0, resonant, 1, state, &size) == 18);
    resonant[25] = INFINITY;
    CHECK(orbt_save(first, 196, second, sizeof second, 5, 1, 0, resonant, 1, state, &size) == 17);
    CHECK(size == KEPT_NUMBER && memcmp(second, kept, sizeof second) == 0);
}

int main(void) {
    floats();
    times_and_places();
    builds();
    states();
    asks();
    store();
    if (failures > 0) {
        printf("%u of %u checks failed\n", failures, checks);
        return 1;
    }
    printf("%u checks of calls with known answers\n", checks);
    return 0;
}
