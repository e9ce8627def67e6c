/* A host in C: restores a satellite from a store file, asks where it stands over an hour, saves the moved
 * state into a new file, and takes that up again. examples/rust/src/main.rs prints the same bytes.
 *
 *     host FOLDER [STORE [SATELLITE]]
 *
 * Without STORE it makes FOLDER/store.orbt; the new file is FOLDER/moved.orbt. */
#include "orbt.h"

#include <inttypes.h>
#include <math.h>
#include <stdio.h>
#include <stdlib.h>
#include <string.h>

/* 08195 MOLNIYA 2-14 of SGP4-VER.TLE, half-day: what orbt_build is given, by WGS72. The first eleven are the
 * model and the orbit, the next ten what sgp4's Constants::new works out, the last ten its third_body. */
static const uint32_t MADE = 8195;
static const double GIVEN[ORBT_GIVEN] = {
    6.378135e3, 7.436691613317342e-2, 1.082616e-3, -2.53881e-6, -1.65597e-6,
    1.119778813470034, 4.87072001413786, 6.877146e-1, 4.621022739372039, 3.530050585206171e-1, 8.748547019630239e-3,
    6.4800332770431215, 4.3588152571096384e-1, 4.16513639821549, 1.9425158347208772e-13, 1.4314828963249408e-13,
    -4.604617513547646e-19, 2.9137737520813156e-13, -7.437009265333537e-8, -1.2845672158012262e-6, 8.748086886633128e-3,
    -2.9710261465190704e-9, -2.0314318655903514e-8, -8.079320148239302e-9, -5.889404801117796e-9, 3.297459274659935e-8,
    -6.813082122694868e-9, -4.092891624104803e-8, -2.080615608637173e-8, -8.265805932720604e-9, 5.973327467867302e-8};

static const char *const KINDS[3] = {"non-resonant", "one-day", "half-day"};

static const char *const ELEMENTS[ORBT_ELEMENTS] = {
    "inclination", "right ascension", "eccentricity", "argument of perigee", "mean anomaly", "mean motion",
    "a", "p32", "p33", "p34", "p35", "p36"};

/* the header's words */
static const char *const WORDS[21] = {
    "",
    "the time is not finite",
    "the time is beyond 754,974,720 minutes",
    "another number given is not finite",
    "a state is given, and the orbit is non-resonant",
    "no state is given, and the orbit is resonant",
    "the state's time is -0.0, no multiple of 720, or beyond the limit",
    "the state's time has the other direction, or is past the time asked: reset first",
    "the resonance cannot be followed there: an angle or a number of a state on the way is out of range",
    "an angle is beyond 1,048,576, or is a NaN",
    "the eccentricity is out of range: it and the time are carried",
    "the perturbed eccentricity is outside 0 to 1: it and the time are carried",
    "a root or power is taken of no such number, or an element is not finite",
    "a number built is not finite",
    "the header or the contents of the file are wrong",
    "the satellite is not in the file",
    "a kind, flag or like number of the call or of a record is wrong, or the kind is not the orbit's class",
    "a number of the record is not finite",
    "the record's state is not what its steps make of the fresh state",
    "the output is shorter than the new file",
    "a 129th satellite, or a new file of 2^32 bytes or more"};

/* a file in memory */
struct bytes {
    uint8_t *at;
    size_t size;
};

/* what is in force: the constants and, of a resonant orbit, the state */
struct orbit {
    uint32_t kind, flag, held;
    double constants[ORBT_CONSTANTS], state[ORBT_STATE];
};

static void fail(const char *what, const char *path) {
    fprintf(stderr, "host: %s %s\n", what, path);
    exit(2);
}

static void refused(const char *what, uint32_t number) {
    printf("%s: refused %" PRIu32 ", %s\n", what, number, WORDS[number]);
}

static void number(const char *name, double x) {
    uint64_t bits;
    memcpy(&bits, &x, sizeof bits);
    printf("  %-20s ", name);
    if (isnan(x)) printf("%22s", "NaN");
    else printf("%22.15f", x);
    printf("  %016" PRIX64 "\n", bits);
}

/* ---- files */

static struct bytes allocated(size_t size) {
    struct bytes file = {malloc(size), size};
    if (file.at == NULL) fail("no memory", "");
    return file;
}

static struct bytes load(const char *path) {
    FILE *from = fopen(path, "rb");
    if (from == NULL) fail("cannot read", path);
    fseek(from, 0, SEEK_END);
    long size = ftell(from);
    rewind(from);
    if (size < 0) fail("cannot read", path);
    struct bytes file = allocated((size_t)size + 1); /* a byte more, as an empty file may get none */
    file.size = fread(file.at, 1, (size_t)size, from);
    if (file.size != (size_t)size) fail("cannot read", path);
    fclose(from);
    return file;
}

/* writes beside the file and renames, so that the old one stands until the new one is whole */
static void keep(const char *path, const uint8_t *at, size_t size) {
    char beside[4096];
    snprintf(beside, sizeof beside, "%s.part", path);
    FILE *to = fopen(beside, "wb");
    if (to == NULL) fail("cannot write", beside);
    if (fwrite(at, 1, size, to) != size || fclose(to) != 0) fail("cannot write", beside);
    if (rename(beside, path) != 0) fail("cannot write", path);
}

/* ---- the library */

/* the store with the orbit's record added or replaced, written to the path; 0, or the refusal */
static uint32_t save(const char *path, struct bytes old, uint32_t satellite, const struct orbit *orbit) {
    struct bytes room = allocated(old.size + ORBT_RECORD);
    size_t size = 0;
    uint32_t refusal = orbt_save(old.at, old.size, room.at, room.size, satellite, orbit->kind, orbit->flag,
                                 orbit->constants, orbit->held, orbit->state, &size);
    if (refusal == 0) {
        keep(path, room.at, size);
        printf("saved: %zu bytes\n", size);
    } else refused("save", refusal);
    free(room.at);
    return refusal;
}

static uint32_t restore(struct bytes file, uint32_t satellite, struct orbit *orbit) {
    uint32_t steps = 0;
    uint32_t refusal = orbt_restore(file.at, file.size, satellite, &orbit->kind, &orbit->flag, orbit->constants,
                                    &orbit->held, orbit->state, &steps);
    if (refusal != 0) {
        refused("restore", refusal);
        return refusal;
    }
    printf("restored: satellite %" PRIu32 ", %s, flag %" PRIu32 ", steps replayed: %" PRIu32 "\n", satellite,
           KINDS[orbit->kind], orbit->flag, steps);
    if (orbit->held == 1) {
        number("state's time", orbit->state[0]);
        number("its mean motion", orbit->state[1]);
        number("its longitude", orbit->state[2]);
    }
    return 0;
}

static void make(const char *path) {
    uint8_t empty[8] = {0x4F, 0x52, 0x42, 0x54, 1, 0, 0, 0};
    struct orbit orbit = {0};
    uint32_t refusal = orbt_build(0, 0, GIVEN, &orbit.kind, orbit.constants);
    if (refusal != 0) {
        refused("build", refusal);
        exit(1);
    }
    orbit.held = orbt_fresh(orbit.kind, orbit.constants, orbit.state);
    struct bytes old = {empty, sizeof empty};
    if (save(path, old, MADE, &orbit) != 0) exit(1);
}

/* The elements at t, with no numbers of Sun and Moon; p22 and p23 as sgp4's propagate_from_state has them. */
static uint32_t ask(struct orbit *orbit, double t, double elements[ORBT_ELEMENTS]) {
    const double *c = orbit->constants;
    double question[ORBT_QUESTION] = {t, c[6] + c[11] * t + c[16] * (t * t), c[8] + c[12] * t};
    char what[64];
    uint32_t steps = 0;
    uint32_t refusal = orbt_ask(orbit->kind, orbit->flag, c, orbit->held, orbit->state, question, elements, &steps);
    snprintf(what, sizeof what, "ask at %.0f minutes, steps made: %" PRIu32, t, steps);
    if (refusal == 0) {
        printf("%s\n", what);
        for (int i = 0; i < ORBT_ELEMENTS; i++) number(ELEMENTS[i], elements[i]);
        return 0;
    }
    refused(what, refusal);
    if (refusal == 10 || refusal == 11) {
        number("eccentricity", elements[0]);
        number("time", elements[1]);
    }
    return refusal;
}

int main(int argc, char **argv) {
    if (argc < 2 || argc > 4) {
        fprintf(stderr, "usage: host FOLDER [STORE [SATELLITE]]\n");
        return 2;
    }
    char store[4096], moved[4096];
    snprintf(store, sizeof store, "%s/store.orbt", argv[1]);
    snprintf(moved, sizeof moved, "%s/moved.orbt", argv[1]);
    if (argc > 2) snprintf(store, sizeof store, "%s", argv[2]);
    else make(store);

    struct bytes file = load(store);
    uint32_t count = 0, satellite = 0;
    uint32_t refusal = orbt_contents(file.at, file.size, &count);
    if (refusal == 0) printf("store: %zu bytes, records: %" PRIu32 "\n", file.size, count);
    if (refusal == 0 && argc < 4) refusal = orbt_satellite(file.at, file.size, 0, &satellite);
    if (argc == 4) satellite = (uint32_t)strtoul(argv[3], NULL, 10);
    if (refusal != 0) {
        refused("store", refusal);
        return 1;
    }
    struct orbit orbit = {0};
    if (restore(file, satellite, &orbit) != 0) return 1;

    /* an hour about the next step, away from the epoch: an orbit's state only moves on */
    double start = orbit.state[0], way = start < 0.0 ? -1.0 : 1.0, t = 0.0;
    double elements[ORBT_ELEMENTS] = {0}, again[ORBT_ELEMENTS] = {0};
    uint32_t last = 0;
    for (int i = 0; i <= 6; i++) {
        t = start + way * (690.0 + 10.0 * i);
        last = ask(&orbit, t, elements);
    }
    /* and back, which a state that has moved refuses */
    ask(&orbit, start, again);

    if (save(moved, file, satellite, &orbit) != 0) return 1;
    free(file.at);
    file = load(moved);
    struct orbit taken = {0};
    if (restore(file, satellite, &taken) != 0) return 1;
    uint32_t same = ask(&taken, t, again) == last && memcmp(elements, again, sizeof again) == 0;
    free(file.at);
    printf("the new file's answer %s\n", same ? "has the same bits" : "differs");
    return same ? 0 : 1;
}
