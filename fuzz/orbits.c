/* The calls on orbits: built from published sets, moved about, and changed. */
#include "common.h"
#include "sets.h"

#include <math.h>
#include <string.h>

/* ---- constants and states */

struct record pool[POOL];

/* mean motions of each kind, from and to */
static const double MOTIONS[6] = {0.0002, 0.0035, 0.00827, 0.0032, 0.0052, 0.00923};

/* what a build is given, of a published set moved about within its kind */
static void draw_given(double given[ORBT_GIVEN]) {
    uint32_t kind = (uint32_t)below(3);
    memcpy(given, SETS[kind], sizeof SETS[kind]);
    if (one_in(2)) given[5] = unit() * (one_in(3) ? 0.25 : 3.1);
    for (int i = 6; i < 10; i++)
        if (i != 7 && one_in(2)) given[i] = unit() * 6.283185307179586;
    if (one_in(2)) given[7] = kind == 2 ? 0.5 + 0.26 * unit() : 0.8 * unit();
    if (one_in(2)) given[10] = MOTIONS[kind] + unit() * (MOTIONS[kind + 3] - MOTIONS[kind]);
    if (one_in(4)) given[11] = unit() * 120.0 - 60.0;
}

static uint32_t build(uint32_t which, uint32_t flag, const double *given, struct record *built) {
    uint32_t number = orbt_build(which, flag, given, &built->kind, built->constants);
    if (number != 0) return number;
    built->flag = flag;
    built->held = orbt_fresh(built->kind, built->constants, built->state);
    return 0;
}

/* the steps of a state: mostly few, seldom as many as there may be */
static uint32_t draw_steps(void) {
    switch (below(16384)) {
    case 0: return (uint32_t)below(one_in(512) ? 1048577 : 20000);
    default: return one_in(64) ? (uint32_t)below(200) : (uint32_t)below(6);
    }
}

static void move(struct record *r, uint32_t steps) {
    uint32_t back = (uint32_t)below(2);
    for (uint32_t i = 0; r->kind != 0 && i < steps; i++)
        if (orbt_step(r->kind, r->constants, back, r->state) != 0) return;
}

static void damage_float(double *x) {
    *x = one_in(2) ? any_float() : one_in(2) ? finite_float() : from_bits(to_bits(*x) ^ (uint64_t)1 << below(64));
}

struct record draw_record(uint64_t damaged) {
    struct record r = pool[below(POOL)];
    move(&r, draw_steps());
    if (below(16) >= damaged) return r;
    switch (below(9)) {
    case 0: r.kind = choice(3); break;
    case 1: r.flag = choice(2); break;
    case 2: r.held = choice(2); break;
    case 3:
        if (r.held == 1) damage_float(&r.state[below(ORBT_STATE)]);
        break;
    case 4: /* a time of its own, that may be right: the steps are few */
        r.state[0] = (one_in(2) ? 720.0 : -720.0) * (double)below(8);
        break;
    case 5:
        for (int i = 0; i < ORBT_CONSTANTS; i++) r.constants[i] = any_float();
        break;
    case 6: /* a fresh state whose longitude is a zero, of this sign or the other */
        if (r.kind == 0) break;
        r.constants[20] = one_in(2) ? 0.0 : -0.0;
        r.state[0] = 0.0;
        r.state[1] = r.constants[10];
        r.state[2] = one_in(2) ? 0.0 : -0.0;
        break;
    case 7: /* of the class at its limits */
        r.constants[10] = from_bits(to_bits(LIMITS[below(4)]) + below(3) - 1);
        break;
    default: damage_float(&r.constants[below(ORBT_CONSTANTS)]);
    }
    return r;
}

void fill_pool(void) {
    for (uint32_t i = 0; i < POOL; i++) {
        double given[ORBT_GIVEN];
        do {
            if (i < 3) memcpy(given, SETS[i], sizeof given);
            else draw_given(given);
        } while (build((uint32_t)below(2), (uint32_t)below(2), given, &pool[i]) != 0);
        if (i < 3 && pool[i].kind != i) fail("a published set has another kind");
    }
}

/* ---- calls on orbits */

static void fuzz_class(void) {
    double n = any_float(), e = one_in(2) ? any_float() : unit();
    if (one_in(2)) n = one_in(2) ? unit() * 0.01 : from_bits(to_bits(LIMITS[below(4)]) + below(3) - 1);
    CHECK(counted(orbt_class(n, e)) == model_class(n, e));
}

static void fuzz_sidereal_time(void) {
    double epoch = any_float(), *theta = lend_float(0);
    uint32_t number = counted(orbt_sidereal_time(choice(2), epoch, theta));
    check_margins(1);
    CHECK((number == 3) == !isfinite(epoch));
    if (number != 0) CHECK(is_left(0));
    if (number == 0) CHECK(*theta >= 0.0 && *theta <= 6.283185307179586);
}

static void fuzz_geometry(void) {
    double node = any_float(), epoch = one_in(2) ? any_float() : unit() * 120.0 - 60.0;
    double *bodies = lend_floats(0, ORBT_BODIES);
    uint32_t number = counted(orbt_geometry(node, epoch, bodies));
    check_margins(1);
    CHECK((number == 3) == !(isfinite(node) && isfinite(epoch)));
    if (isfinite(epoch) && isfinite(node) && fabs(node) > 1048576.0) CHECK(number == 9);
    if (number != 0) CHECK(is_left(0));
    if (number == 0) CHECK(all_finite(bodies, ORBT_BODIES));
}

static void fuzz_build(void) {
    double drawn_given[ORBT_GIVEN];
    draw_given(drawn_given);
    for (uint64_t i = one_in(2) ? 0 : below(4); i > 0; i--) damage_float(&drawn_given[below(ORBT_GIVEN)]);
    if (one_in(64))
        for (int i = 0; i < ORBT_GIVEN; i++) drawn_given[i] = finite_float();
    uint32_t which = choice(2), flag = choice(2), *kind = lend_number(1);
    double *given = lend(0, drawn_given, sizeof drawn_given), *constants = lend_floats(2, ORBT_CONSTANTS);
    uint32_t number = counted(orbt_build(which, flag, given, kind, constants));
    check_margins(3);
    CHECK(is_left(0));
    CHECK((number == 16) == (flag > 1));
    if (flag <= 1) CHECK((number == 3) == !all_finite(given, ORBT_GIVEN));
    if (number != 0) CHECK(is_left(1) && is_left(2));
    if (number != 0) return;
    CHECK(*kind == model_class(given[10], given[7]));
    CHECK(all_finite(constants, ORBT_CONSTANTS) && memcmp(constants, given, 11 * sizeof *given) == 0);
    for (int i = model_floats(*kind); i < ORBT_CONSTANTS; i++) CHECK(same(constants[i], 0.0));
    struct record *r = &pool[below(POOL)];
    if (r >= pool + 3) build(which, flag, given, r); /* the published sets stay */
}

static void fuzz_fresh(void) {
    struct record r = draw_record(8);
    uint32_t kind = one_in(4) ? choice(3) : r.kind;
    double *constants = lend(0, r.constants, sizeof r.constants), *state = lend_floats(1, ORBT_STATE);
    uint32_t held = counted(orbt_fresh(kind, constants, state));
    check_margins(2);
    CHECK(is_left(0) && held == (kind == 1 || kind == 2));
    if (held == 0) CHECK(is_left(1));
    if (held == 1) CHECK(same(state[0], 0.0) && same(state[1], constants[10]) && same(state[2], constants[20]));
}

static void fuzz_step(void) {
    struct record r = draw_record(6);
    uint32_t back = choice(2);
    double *constants = lend(0, r.constants, sizeof r.constants), *state = lend(1, r.state, sizeof r.state);
    uint32_t number = counted(orbt_step(r.kind, constants, back, state));
    check_margins(2);
    CHECK(is_left(0));
    if (number != 0) CHECK(is_left(1));
    if (r.kind > 2 || back > 1) CHECK(number == 16);
    else if (!all_finite(constants, model_floats(r.kind)) || !all_finite(r.state, ORBT_STATE)) CHECK(number == 3);
    else if (r.kind == 0) CHECK(number == 4);
    else if (model_is_misplaced(r.state[0])) CHECK(number == 6);
    else CHECK(number == 0 || number == 8);
    if (number != 0) return;
    CHECK(same(state[0], r.state[0] + (back == 1 ? -720.0 : 720.0)) && all_finite(state, ORBT_STATE));
}

/* the whole part of |t| / 720; each operation is exact */
uint32_t steps_to(double t) { return (uint32_t)((fabs(t) - fmod(fabs(t), 720.0)) / 720.0); }

/* a time to ask: mostly of few steps from the state's, now and then any */
static double draw_time(double from) {
    double way = from == 0.0 ? (one_in(2) ? 1.0 : -1.0) : copysign(1.0, from), t;
    if (!isfinite(from) || fabs(from) > 754974720.0) from = 0.0;
    switch (below(16)) {
    case 0:
        t = any_float();
        /* a long way is seldom gone */
        return fabs(t) <= 754974720.0 && fabs(t) - fabs(from) > 1e6 && !one_in(2048) ? 1000.0 : t;
    case 1: return way * (fabs(from) + 720.0 * (double)below(4));
    case 2: {
        double next = fabs(from) + 720.0 * (double)below(4);
        return way * from_bits(to_bits(next) + below(3) - (next > 0.0));
    }
    case 3: return from;
    case 4: return -from;
    case 5: return way * unit() * fabs(from);
    case 6: return one_in(2) ? way * 754974720.0 + way : one_in(256) ? way * 754974720.0 : way * 754974720.5;
    case 7: return one_in(2) ? 0.0 : -0.0;
    default: return way * (fabs(from) + unit() * 5000.0);
    }
}

/* refusals 1 to 7 and 16, in their order, or 0 */
static uint32_t refused_before(const struct record *r, const double *question) {
    double t = question[0], time = r->state[0];
    if (r->kind > 2 || r->flag > 1 || r->held > 1) return 16;
    if (!isfinite(t)) return 1;
    if (fabs(t) > 754974720.0) return 2;
    if (!all_finite(question, ORBT_QUESTION) || !all_finite(r->constants, model_floats(r->kind))) return 3;
    if (r->held == 1 && !all_finite(r->state, ORBT_STATE)) return 3;
    if (r->kind == 0) return r->held == 1 ? 4 : 0;
    if (r->held == 0) return 5;
    if (model_is_misplaced(time)) return 6;
    return (time != 0.0 && signbit(time) != signbit(t)) || fabs(t) < fabs(time) ? 7 : 0;
}

/* refusals 9 to 11 in their order, with what 10 and 11 carry; 0 stands for elements and for 12 */
static uint32_t refused_after(const double *c, const double *q, double *eccentricity) {
    double t = q[0], i = (c[5] + c[19] * t) + (q[4] + q[9]), p31 = (c[7] + c[18] * t) - c[15] * t;
    if (!(fabs(i) <= 1048576.0) || (!(i >= 0.2) && !(fabs(q[1]) <= 1048576.0))) return 9;
    *eccentricity = p31;
    if (!(p31 >= -0.001 && p31 < 1.0)) return 10;
    *eccentricity = (p31 < 1.0e-6 ? 1.0e-6 : p31) + (q[3] + q[8]);
    return *eccentricity >= 0.0 && *eccentricity <= 1.0 ? 0 : 11;
}

static void fuzz_ask(void) {
    struct record r = draw_record(5);
    double q[ORBT_QUESTION] = {draw_time(r.kind == 0 ? 0.0 : r.state[0])}, moved[ORBT_STATE];
    q[1] = r.constants[6] + r.constants[11] * q[0];
    q[2] = r.constants[8] + r.constants[12] * q[0];
    for (int i = 3; i < ORBT_QUESTION; i++) q[i] = (unit() - 0.5) * 1e-4;
    for (uint64_t i = one_in(4) ? 1 + below(3) : 0; i > 0; i--)
        q[1 + below(12)] = one_in(2) ? any_float() : finite_float();
    if (one_in(24)) q[one_in(2) ? 3 : 8] = (unit() - 0.5) * 3.0;
    if (one_in(32)) r.constants[one_in(2) ? 7 : 15] = (unit() - 0.5) * 3.0;
    if (one_in(32)) r.constants[14] = 1.0 / q[0];
    if (one_in(64)) r.constants[18] = r.constants[15] = 1.7e308; /* an infinity less another: a NaN */

    double *constants = lend(0, r.constants, sizeof r.constants), *state = lend(1, r.state, sizeof r.state);
    double *question = lend(2, q, sizeof q), *elements = lend_floats(3, ORBT_ELEMENTS);
    uint32_t *steps = lend_number(4);
    uint32_t number = counted(orbt_ask(r.kind, r.flag, constants, r.held, state, question, elements, steps));
    check_margins(5);
    CHECK(is_left(0) && is_left(2));
    uint32_t before = refused_before(&r, q);
    if (before != 0 || number < 8) CHECK(number == before);
    if (number != 0) CHECK(is_left_from(3, number == 10 || number == 11 ? 2 * sizeof(double) : 0));
    if (number == 16) CHECK(is_left(4));
    else if (r.kind == 0 || (number >= 1 && number <= 8)) CHECK(*steps == 0);
    if (r.kind == 0 || number == 16 || (number >= 1 && number <= 8)) CHECK(is_left(1));
    if (before != 0) return;
    if (r.kind == 0) CHECK(number != 8);

    /* the steps, made one by one where they are few */
    uint32_t wanted = r.kind == 0 ? 0 : steps_to(q[0]) - steps_to(r.state[0]), made = 0, refused = 0;
    if (r.kind != 0 && wanted <= 64) {
        memcpy(moved, r.state, sizeof moved);
        uint32_t back = !(q[0] > 0.0);
        while (made < wanted && (refused = orbt_step(r.kind, constants, back, moved)) == 0) made++;
        if (refused != 0) CHECK(number == 8);
        /* 8 with every step made comes from the rates of the last state, which a step takes too */
        double next[ORBT_STATE];
        memcpy(next, moved, sizeof next);
        if (refused == 0 && number == 8) CHECK(orbt_step(r.kind, constants, back, next) != 0);
        if (number != 8) CHECK(memcmp(state, moved, sizeof moved) == 0);
    }
    if (number == 8) return;
    CHECK(*steps == wanted);
    if (r.kind != 0) {
        double time = copysign(720.0 * steps_to(q[0]), steps_to(q[0]) == 0 ? 1.0 : q[0]);
        CHECK(same(state[0], time) && all_finite(state, ORBT_STATE));
    }
    double eccentricity = 0.0;
    uint32_t after = refused_after(constants, question, &eccentricity);
    CHECK(after == 0 ? number == 0 || number == 12 : number == after);
    if (number == 10 || number == 11) {
        CHECK(same(elements[1], q[0]));
        CHECK(same(elements[0], isnan(eccentricity) ? from_bits(0x7FF8000000000000) : eccentricity));
    }
    if (number != 0) return;
    CHECK(all_finite(elements, ORBT_ELEMENTS) && same(elements[2], eccentricity));
    CHECK(same(elements[0], (constants[5] + constants[19] * q[0]) + (q[4] + q[9])));
}

void fuzz_orbits(void) {
    switch (calling) {
    case CLASS: fuzz_class(); break;
    case SIDEREAL_TIME: fuzz_sidereal_time(); break;
    case GEOMETRY: fuzz_geometry(); break;
    case BUILD: fuzz_build(); break;
    case FRESH: fuzz_fresh(); break;
    case STEP: fuzz_step(); break;
    default: fuzz_ask();
    }
}
