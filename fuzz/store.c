/* The calls on store files: good ones, damaged ones and garbage, beside the model. */
#define _DEFAULT_SOURCE
#include "common.h"

#include <stdio.h>
#include <string.h>
#include <sys/mman.h>

/* ---- store files */

struct file {
    size_t size;
    uint8_t at[ROOM / 2];
};

/* files that saves have made; the first two are kept large */
enum { STORES = 8, MOST = 128, HEADER = 8, ENTRY = 12 };
static struct file stores[STORES], chosen;
static const uint8_t EMPTY[HEADER] = {0x4F, 0x52, 0x42, 0x54, 1, 0, 0, 0};

static void put(uint8_t *at, uint64_t x, int bytes) {
    for (int i = 0; i < bytes; i++) at[i] = (uint8_t)(x >> (8 * i));
}

static uint64_t get(const uint8_t *at, int bytes) {
    uint64_t x = 0;
    for (int i = bytes - 1; i >= 0; i--) x = x << 8 | at[i];
    return x;
}

static uint64_t records_of(const struct file *f) { return f->size < HEADER ? 0 : get(f->at + 6, 2); }

/* an entry of the file, if it is whole */
static uint8_t *entry_of(struct file *f) {
    uint64_t count = records_of(f), whole = f->size < HEADER ? 0 : (f->size - HEADER) / ENTRY;
    if (count > whole) count = whole;
    return count == 0 ? NULL : f->at + HEADER + ENTRY * below(count);
}

static uint32_t draw_satellite(void) {
    switch (below(16)) {
    case 0: return 0;
    case 1: return UINT32_MAX - (uint32_t)below(2);
    case 2: return (uint32_t)draw();
    default: return 100 + (uint32_t)below(150);
    }
}

/* right contents, with bodies of any length and of any bytes */
static void make_garbage(struct file *f) {
    uint64_t count = one_in(16) ? MOST - 2 + below(5) : below(6), at = HEADER + ENTRY * count, satellite = below(4);
    static const uint64_t lengths[6] = {0, 1, 8, 176, 240, 304};
    memcpy(f->at, EMPTY, HEADER);
    put(f->at + 6, count, 2);
    for (uint64_t i = 0; i < count; i++) {
        uint64_t length = one_in(2) ? lengths[below(6)] : below(320);
        put(f->at + HEADER + ENTRY * i, satellite, 4);
        put(f->at + HEADER + ENTRY * i + 4, at, 4);
        put(f->at + HEADER + ENTRY * i + 8, length, 4);
        for (uint64_t k = 0; k < length; k++)
            f->at[at + k] = (uint8_t)(k >= 8 || one_in(2) ? draw() : k == 0 ? below(4) : 0);
        at += length;
        satellite += 1 + below(3);
    }
    f->size = at;
}

/* the satellite whose body was damaged last, which a call then asks for */
static uint32_t aimed;
static int is_aimed;

/* the body of a record, wrong in one of the ways that it can be */
static void damage_body(struct file *f) {
    uint8_t *e = entry_of(f);
    if (e == NULL) return;
    uint64_t at = get(e + 4, 4), length = get(e + 8, 4);
    if (at + length > f->size || length < 176) return;
    aimed = (uint32_t)get(e, 4);
    is_aimed = 1;
    double x = any_float();
    switch (below(7)) {
    case 0: f->at[at] = (uint8_t)below(4); break;
    case 1: f->at[at + 1] = (uint8_t)(one_in(2) ? 2 : draw()); break;
    case 2: f->at[at + 2 + below(6)] ^= (uint8_t)(1 << below(8)); break;
    case 3: put(f->at + at + 8 + 8 * below((length - 8) / 8), to_bits(x), 8); break;
    case 4: /* another time of the state */
        x = one_in(4) ? -0.0 : (one_in(2) ? 720.0 : -720.0) * (double)below(9);
        put(f->at + at + length - 24, to_bits(x), 8);
        break;
    case 5: f->at[at + length - 1 - below(24)] ^= (uint8_t)(1 << below(8)); break;
    default: put(f->at + at + 88, to_bits(LIMITS[below(4)]) + below(3) - 1, 8); /* the mean motion */
    }
}

static void damage_file(struct file *f) {
    uint8_t *e = entry_of(f), *other = entry_of(f), swap[ENTRY];
    switch (below(18)) {
    case 0:
        if (f->size > 0) f->at[below(f->size)] ^= (uint8_t)(1 << below(8));
        break;
    case 1:
        if (f->size > 0) f->at[below(f->size < 64 ? f->size : 64)] = (uint8_t)draw();
        break;
    case 2: f->size = below(f->size + 1); break;
    case 3:
        if (f->size > 0) f->size--;
        break;
    case 4:
        for (uint64_t more = 1 + below(one_in(2) ? 2 : 400); more > 0 && f->size < sizeof f->at; more--)
            f->at[f->size++] = (uint8_t)draw();
        break;
    case 5:
        if (e == NULL) break;
        memcpy(swap, e, ENTRY);
        memcpy(e, other, ENTRY);
        memcpy(other, swap, ENTRY);
        break;
    case 6: /* one of an entry's numbers, by a little or wholly */
        if (e == NULL) break;
        e += 4 * below(3);
        put(e, one_in(2) ? draw() : get(e, 4) + below(3) - 1, 4);
        break;
    case 7:
        if (e != NULL) memcpy(e, other, 4);
        break;
    case 8:
        if (f->size >= HEADER) put(f->at + 6, one_in(2) ? below(260) : records_of(f) + below(3) - 1, 2);
        break;
    case 9:
        if (f->size >= HEADER) put(f->at + 4, below(4), 2);
        break;
    case 10: /* bytes of any kind */
        f->size = below(one_in(8) ? 4096 : 64);
        for (size_t i = 0; i < f->size; i++) f->at[i] = (uint8_t)draw();
        if (one_in(2) && f->size >= 6) memcpy(f->at, EMPTY, 6);
        break;
    default: damage_body(f);
    }
}

/* a file to call with, and the store that it is, or -1 where it is none */
static int choose_file(void) {
    int store = one_in(12) ? (int)below(2) : 2 + (int)below(STORES - 2);
    is_aimed = 0;
    if (one_in(16)) {
        make_garbage(&chosen);
        return -1;
    }
    chosen.size = stores[store].size;
    memcpy(chosen.at, stores[store].at, chosen.size);
    if (one_in(2)) return store;
    for (uint64_t i = one_in(4) ? 2 : 1; i > 0; i--) damage_file(&chosen);
    return -1;
}

static uint32_t satellite_of(struct file *f) {
    if (is_aimed && !one_in(4)) return aimed;
    uint8_t *e = one_in(6) ? NULL : entry_of(f);
    return e == NULL ? draw_satellite() : (uint32_t)get(e, 4);
}

/* ---- calls on the store */

static void fuzz_contents(void) {
    choose_file();
    const uint8_t *file = lend(0, chosen.at, chosen.size);
    uint32_t *count = lend_number(1), expected = 0;
    uint32_t number = counted(orbt_contents(file, chosen.size, count));
    check_margins(2);
    CHECK(is_left(0) && number == model_contents(chosen.at, chosen.size, &expected));
    if (number != 0) CHECK(is_left(1));
    else CHECK(*count == expected);
}

static void fuzz_satellite(void) {
    choose_file();
    const uint8_t *file = lend(0, chosen.at, chosen.size);
    uint32_t place = one_in(16) ? (uint32_t)draw() : (uint32_t)below(records_of(&chosen) + 2);
    uint32_t *satellite = lend_number(1), expected = 0;
    uint32_t number = counted(orbt_satellite(file, chosen.size, place, satellite));
    check_margins(2);
    CHECK(is_left(0) && number == model_satellite(chosen.at, chosen.size, place, &expected));
    if (number != 0) CHECK(is_left(1));
    else CHECK(*satellite == expected);
}

/* a restore, checked against what must come back */
static void check_restore(const uint8_t *at, size_t size, uint32_t satellite, uint32_t expected,
                          const struct record *wanted, uint32_t steps) {
    calling = RESTORE;
    const uint8_t *file = lend(0, at, size);
    uint32_t *kind = lend_number(1), *flag = lend_number(2), *held = lend_number(3), *made = lend_number(4);
    double *constants = lend_floats(5, ORBT_CONSTANTS), *state = lend_floats(6, ORBT_STATE);
    uint32_t number = counted(orbt_restore(file, size, satellite, kind, flag, constants, held, state, made));
    check_margins(7);
    CHECK(is_left(0) && number == expected && *made == steps);
    if (number != 0) {
        CHECK(is_left(1) && is_left(2) && is_left(3) && is_left(5) && is_left(6));
        return;
    }
    CHECK(*kind == wanted->kind && *flag == wanted->flag && *held == wanted->held);
    CHECK(memcmp(constants, wanted->constants, sizeof wanted->constants) == 0);
    if (*held == 1) CHECK(memcmp(state, wanted->state, sizeof wanted->state) == 0);
    else CHECK(is_left(6));
}

static uint32_t restored(const uint8_t *at, size_t size, uint32_t satellite, struct record *r, uint32_t *steps) {
    memset(r, 0, sizeof *r);
    return model_restore(at, size, satellite, &r->kind, &r->flag, r->constants, &r->held, r->state, steps);
}

static void fuzz_restore(void) {
    struct record wanted;
    uint32_t steps;
    choose_file();
    uint32_t satellite = satellite_of(&chosen);
    uint32_t number = restored(chosen.at, chosen.size, satellite, &wanted, &steps);
    check_restore(chosen.at, chosen.size, satellite, number, &wanted, steps);
}

/* after an accepted save: the record comes back with its bits, another satellite as from the old file */
static void check_saved(const uint8_t *new, size_t size, uint32_t satellite, const struct record *saved) {
    struct record wanted = *saved;
    uint32_t steps;
    for (int i = model_floats(wanted.kind); i < ORBT_CONSTANTS; i++) wanted.constants[i] = 0.0;
    check_restore(new, size, satellite, 0, &wanted, wanted.kind == 0 ? 0 : steps_to(wanted.state[0]));
    uint32_t other = satellite_of(&chosen);
    if (other == satellite) return;
    uint32_t number = restored(chosen.at, chosen.size, other, &wanted, &steps);
    check_restore(chosen.at, chosen.size, other, number, &wanted, steps);
    check_restore(new, size, other, number, &wanted, steps);
}

/* what a save of the chosen file must give */
static uint32_t save_by_model(uint8_t *out, size_t room, uint32_t satellite, const struct record *r, size_t *size) {
    return model_save(chosen.at, chosen.size, out, room, satellite, r->kind, r->flag, r->constants, r->held, r->state,
                      size);
}

static void fuzz_save(void) {
    static uint8_t room[ROOM / 2], expected[ROOM / 2], new[ROOM / 2];
    struct record r = draw_record(4);
    int store = choose_file();
    uint32_t satellite = satellite_of(&chosen);
    /* the exact length, a byte less or more, none, or any */
    size_t wanted = 0, exact = 0, given = (size_t)draw(), size;
    if (one_in(4) || save_by_model(expected, sizeof expected, satellite, &r, &exact) != 0)
        exact = chosen.size + below(ORBT_RECORD + 8);
    switch (below(8)) {
    case 0: size = exact == 0 ? 0 : exact - 1; break;
    case 1: size = below(exact + 1); break;
    case 2: size = exact + 1; break;
    case 3: size = exact + below(512); break;
    default: size = exact;
    }
    if (size > sizeof room) size = sizeof room;
    for (size_t i = 0; i + 8 <= size; i += 8) put(room + i, draw(), 8);

    const uint8_t *file = lend(0, chosen.at, chosen.size);
    uint8_t *out = lend(1, room, size);
    double *constants = lend(2, r.constants, sizeof r.constants), *state = lend(3, r.state, sizeof r.state);
    size_t *written = lend(4, &given, sizeof given);
    uint32_t number = counted(
        orbt_save(file, chosen.size, out, size, satellite, r.kind, r.flag, constants, r.held, state, written));
    check_margins(5);
    CHECK(is_left(0) && is_left(2) && is_left(3));
    CHECK(number == save_by_model(expected, size, satellite, &r, &wanted));
    if (number != 0) {
        CHECK(is_left(1) && is_left(4));
        return;
    }
    CHECK(*written == wanted && wanted <= size && memcmp(out, expected, wanted) == 0);
    CHECK(is_left_from(1, wanted));
    memcpy(new, out, wanted);
    check_saved(new, wanted, satellite, &r);
    if (store < 0) return;
    memcpy(stores[store].at, new, wanted);
    stores[store].size = wanted;
    /* small stores begin again when they have grown, the large ones seldom */
    if (store >= 2 ? records_of(&stores[store]) > 6 : one_in(2000)) {
        memcpy(stores[store].at, EMPTY, HEADER);
        stores[store].size = HEADER;
    }
}

void fill_stores(void) {
    for (int i = 0; i < STORES; i++) {
        memcpy(stores[i].at, EMPTY, HEADER);
        stores[i].size = HEADER;
    }
    /* one is nearly full from the start */
    for (uint32_t i = 0; i < MOST - 2; i++) {
        struct file *f = &stores[0];
        const struct record *r = &pool[below(POOL)];
        memcpy(chosen.at, f->at, f->size);
        chosen.size = f->size;
        if (save_by_model(f->at, sizeof f->at, 100 + i, r, &f->size) != 0) fail("a full store cannot be made");
    }
}

void fuzz_store(void) {
    switch (calling) {
    case CONTENTS: fuzz_contents(); break;
    case SATELLITE: fuzz_satellite(); break;
    case RESTORE: fuzz_restore(); break;
    default: fuzz_save();
    }
}

/* ---- the longest replays, and files of 4 GiB and more */

/* a save whose buffers are the caller's */
static uint32_t save_record(const uint8_t *file, size_t file_size, uint8_t *out, size_t room, uint32_t satellite,
                            const struct record *r, size_t *size) {
    calling = SAVE;
    return counted(orbt_save(file, file_size, out, room, satellite, r->kind, r->flag, r->constants, r->held, r->state,
                             size));
}

void fuzz_long(void) {
    for (uint32_t kind = 1; kind <= 2; kind++)
        for (uint32_t back = 0; back <= 1; back++) {
            struct record r = pool[kind];
            uint8_t out[8 + ORBT_RECORD];
            size_t size = 0;
            for (uint32_t i = 0; i < 1048576; i++)
                if (orbt_step(kind, r.constants, back, r.state) != 0) break;
            CHECK(save_record(EMPTY, HEADER, out, sizeof out, 9, &r, &size) == 0);
            check_restore(out, size, 9, 0, &r, steps_to(r.state[0]));
            if (steps_to(r.state[0]) < 1048576 || orbt_step(kind, r.constants, back, r.state) != 0) continue;
            /* a step past the limit */
            CHECK(save_record(EMPTY, HEADER, out, sizeof out, 9, &r, &size) == 18);
        }
}

/* a file of one huge record, of which only the first page is touched */

static void save_huge(uint8_t *file, uint64_t length, uint32_t satellite, size_t room, uint32_t expected) {
    struct record r = pool[2]; /* half-day: 304 bytes */
    uint8_t out[8 + 2 * ORBT_RECORD], kept[sizeof out];
    size_t size = 77;
    memset(out, 0x5A, sizeof out);
    memset(kept, 0x5A, sizeof kept);
    memcpy(file, EMPTY, HEADER);
    put(file + 6, 1, 2);
    put(file + 8, 5, 4);
    put(file + 12, 20, 4);
    put(file + 16, length, 4);
    CHECK(save_record(file, 20 + length, out, room, satellite, &r, &size) == expected);
    if (expected != 0) CHECK(size == 77 && memcmp(out, kept, sizeof out) == 0);
    else CHECK(size == 324 && get(out + 6, 2) == 1 && memcmp(out + 324, kept, sizeof out - 324) == 0);
}

/* its body has no kind's length */
static void check_huge_restore(const uint8_t *file, uint64_t size) {
    struct record r;
    uint32_t steps = 77;
    calling = RESTORE;
    CHECK(counted(orbt_restore(file, size, 5, &r.kind, &r.flag, r.constants, &r.held, r.state, &steps)) == 16);
    CHECK(steps == 0);
}

void fuzz_huge(void) {
    uint64_t most = 20 + (uint64_t)UINT32_MAX;
    uint8_t *file = mmap(NULL, most, PROT_READ | PROT_WRITE, MAP_PRIVATE | MAP_ANONYMOUS | MAP_NORESERVE, -1, 0);
    if (file == MAP_FAILED) {
        printf("no room for files of 4 GiB: left out\n");
        return;
    }
    /* an entry and a body more make 2^32 - 1 bytes, or one above */
    uint64_t fits = (uint64_t)UINT32_MAX - 20 - ORBT_RECORD;
    save_huge(file, fits, 6, 640, 19);
    save_huge(file, fits + 1, 6, 640, 20);
    save_huge(file, UINT32_MAX, 4, 640, 20);
    /* replaced: the old body goes, unread */
    save_huge(file, UINT32_MAX, 5, 640, 0);
    save_huge(file, UINT32_MAX, 5, 323, 19);
    uint32_t count = 0, satellite = 0;
    calling = CONTENTS;
    CHECK(counted(orbt_contents(file, most, &count)) == 0 && count == 1);
    CHECK(counted(orbt_contents(file, most - 1, &count)) == 14);
    calling = SATELLITE;
    CHECK(counted(orbt_satellite(file, most, 0, &satellite)) == 0 && satellite == 5);
    check_huge_restore(file, most);
    munmap(file, most);
}
