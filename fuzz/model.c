#include "model.h"

#include <math.h>
#include <string.h>

enum { HEADER = 8, ENTRY = 12, MOST = 128, LONGEST = 304 };

static uint64_t read_number(const uint8_t *at, int bytes) {
    uint64_t x = 0;
    for (int i = bytes - 1; i >= 0; i--) x = x << 8 | at[i];
    return x;
}

static void write_number(uint8_t *at, uint64_t x, int bytes) {
    for (int i = 0; i < bytes; i++) at[i] = (uint8_t)(x >> (8 * i));
}

static double read_float(const uint8_t *at) {
    uint64_t bits = read_number(at, 8);
    double x;
    memcpy(&x, &bits, sizeof x);
    return x;
}

static void write_float(uint8_t *at, double x) {
    uint64_t bits;
    memcpy(&bits, &x, sizeof bits);
    write_number(at, bits, 8);
}

uint32_t model_class(double n, double e) {
    if (n > 0.0034906585 && n < 0.0052359877) return 1;
    return n >= 8.26e-3 && n <= 9.24e-3 && e >= 0.5 ? 2 : 0;
}

int model_floats(uint32_t kind) { return kind == 0 ? 21 : kind == 1 ? 26 : 34; }

static uint64_t length_of(uint32_t kind) {
    return 8 + 8 * (uint64_t)(model_floats(kind) + (kind == 0 ? 0 : ORBT_STATE));
}

int model_is_misplaced(double time) {
    return (time == 0.0 && signbit(time)) || fmod(time, 720.0) != 0.0 || fabs(time) > 754974720.0;
}

/* ---- header and contents */

static uint64_t count_of(const uint8_t *file) { return read_number(file + 6, 2); }

static const uint8_t *entry(const uint8_t *file, uint64_t place) { return file + HEADER + ENTRY * place; }

static uint64_t length_at(const uint8_t *file, uint64_t place) { return read_number(entry(file, place) + 8, 4); }

static int is_right(const uint8_t *file, size_t file_size) {
    static const uint8_t begins[6] = {'O', 'R', 'B', 'T', 1, 0};
    if (file_size < HEADER || memcmp(file, begins, sizeof begins) != 0) return 0;
    uint64_t count = count_of(file), at = HEADER + ENTRY * count;
    if (count > MOST || at > file_size) return 0;
    for (uint64_t i = 0; i < count; i++) {
        const uint8_t *e = entry(file, i);
        if (i > 0 && read_number(e, 4) <= read_number(e - ENTRY, 4)) return 0;
        if (read_number(e + 4, 4) != at) return 0;
        at += length_at(file, i);
    }
    return at == file_size;
}

/* the place of the first satellite that is not below this one */
static uint64_t place_of(const uint8_t *file, uint32_t satellite) {
    uint64_t place = 0;
    while (place < count_of(file) && read_number(entry(file, place), 4) < satellite) place++;
    return place;
}

static int is_at(const uint8_t *file, uint64_t place, uint32_t satellite) {
    return place < count_of(file) && read_number(entry(file, place), 4) == satellite;
}

uint32_t model_contents(const uint8_t *file, size_t file_size, uint32_t *count) {
    if (!is_right(file, file_size)) return 14;
    *count = (uint32_t)count_of(file);
    return 0;
}

uint32_t model_satellite(const uint8_t *file, size_t file_size, uint32_t place, uint32_t *satellite) {
    if (!is_right(file, file_size)) return 14;
    if (place >= count_of(file)) return 15;
    *satellite = (uint32_t)read_number(entry(file, place), 4);
    return 0;
}

/* ---- records */

static int is_finite(const double *xs, int count) {
    for (int i = 0; i < count; i++)
        if (!isfinite(xs[i])) return 0;
    return 1;
}

/* whether the state is the fresh one after the steps of its time; the steps made */
static int is_replayed(uint32_t kind, const double *constants, const double *state, uint32_t *steps) {
    *steps = 0;
    if (model_is_misplaced(state[0])) return 0;
    double replayed[ORBT_STATE] = {0.0, constants[10], constants[20]};
    uint32_t wanted = (uint32_t)(fabs(state[0]) / 720.0);
    while (*steps < wanted) {
        if (orbt_step(kind, constants, state[0] < 0.0, replayed) != 0) return 0;
        ++*steps;
    }
    return memcmp(replayed, state, sizeof replayed) == 0;
}

uint32_t model_restore(const uint8_t *file, size_t file_size, uint32_t satellite, uint32_t *kind, uint32_t *flag,
                       double constants[ORBT_CONSTANTS], uint32_t *held, double state[ORBT_STATE], uint32_t *steps) {
    *steps = 0;
    if (!is_right(file, file_size)) return 14;
    uint64_t place = place_of(file, satellite);
    if (!is_at(file, place, satellite)) return 15;
    const uint8_t *body = file + read_number(entry(file, place) + 4, 4);
    uint64_t length = length_at(file, place);
    if (length == 0 || body[0] > 2 || length != length_of(body[0]) || body[1] > 1) return 16;
    for (int i = 2; i < 8; i++)
        if (body[i] != 0) return 16;
    int floats = model_floats(body[0]);
    double read[ORBT_CONSTANTS] = {0}, then[ORBT_STATE] = {0};
    for (int i = 0; i < floats; i++) read[i] = read_float(body + 8 + 8 * i);
    if (model_class(read[10], read[7]) != body[0]) return 16;
    for (int i = 0; body[0] != 0 && i < ORBT_STATE; i++) then[i] = read_float(body + 8 + 8 * (floats + i));
    if (!is_finite(read, floats) || !is_finite(then, ORBT_STATE)) return 17;
    if (body[0] != 0 && !is_replayed(body[0], read, then, steps)) return 18;
    *kind = body[0];
    *flag = body[1];
    *held = body[0] != 0;
    memcpy(constants, read, sizeof read);
    if (body[0] != 0) memcpy(state, then, sizeof then);
    return 0;
}

uint32_t model_save(const uint8_t *file, size_t file_size, uint8_t *out, size_t out_size, uint32_t satellite,
                    uint32_t kind, uint32_t flag, const double constants[ORBT_CONSTANTS], uint32_t held,
                    const double state[ORBT_STATE], size_t *size) {
    if (kind > 2 || flag > 1 || held > 1) return 16;
    if (kind == 0 && held == 1) return 4;
    if (kind != 0 && held == 0) return 5;
    if (!is_right(file, file_size)) return 14;
    if (model_class(constants[10], constants[7]) != kind) return 16;
    int floats = model_floats(kind);
    if (!is_finite(constants, floats) || (held == 1 && !is_finite(state, ORBT_STATE))) return 17;
    uint32_t steps;
    if (held == 1 && !is_replayed(kind, constants, state, &steps)) return 18;

    uint64_t count = count_of(file), place = place_of(file, satellite), replaced = is_at(file, place, satellite);
    uint64_t kept = count - replaced, length = length_of(kind);
    uint64_t bodies = file_size - HEADER - ENTRY * count - (replaced ? length_at(file, place) : 0);
    uint64_t whole = HEADER + ENTRY * (kept + 1) + bodies + length;
    if (kept == MOST || whole > UINT32_MAX) return 20;
    if (out_size < whole) return 19;

    uint8_t body[LONGEST] = {(uint8_t)kind, (uint8_t)flag};
    for (int i = 0; i < floats; i++) write_float(body + 8 + 8 * i, constants[i]);
    for (int i = 0; held == 1 && i < ORBT_STATE; i++) write_float(body + 8 + 8 * (floats + i), state[i]);
    memcpy(out, file, HEADER);
    write_number(out + 6, kept + 1, 2);
    uint64_t at = HEADER + ENTRY * (kept + 1);
    for (uint64_t i = 0; i <= kept; i++) {
        /* where record i comes from: the old file, or the record saved */
        uint64_t from = i < place ? i : i - 1 + replaced;
        uint8_t *e = out + HEADER + ENTRY * i;
        uint64_t bytes = i == place ? length : length_at(file, from);
        write_number(e, i == place ? satellite : read_number(entry(file, from), 4), 4);
        write_number(e + 4, at, 4);
        write_number(e + 8, bytes, 4);
        memcpy(out + at, i == place ? body : file + read_number(entry(file, from) + 4, 4), bytes);
        at += bytes;
    }
    *size = whole;
    return 0;
}
