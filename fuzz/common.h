/* What the files of the driver share: the tally, what is drawn, what is lent to a call, and orbits. */
#ifndef COMMON_H
#define COMMON_H

#include "model.h"

/* ---- the tally */

enum function {
    SQRT, CBRT, TWO_THIRDS, THREE_HALVES, SIN, COS, SIN_COS, FLOOR, REM_EUCLID, ATAN2, CLASS, SIDEREAL_TIME, GEOMETRY,
    BUILD, FRESH, STEP, ASK, CONTENTS, SATELLITE, RESTORE, SAVE, FUNCTIONS
};

/* the function that is called, how many calls there were, and what they are drawn from */
extern enum function calling;
extern uint64_t calls, seed;

/* says what is not so, and ends with 1 */
void fail(const char *what);

#define CHECK(holds) do { if (!(holds)) fail("not so: " #holds); } while (0)

/* counts a call by its number, which must be one that the call may give */
uint32_t counted(uint32_t number);
void print_tally(void);

/* ---- draws: splitmix64 */

void draw_from(uint64_t start);
uint64_t draw(void);
uint64_t below(uint64_t n);
int one_in(uint64_t n);
double unit(void); /* from 0 to 1 */

double from_bits(uint64_t bits);
uint64_t to_bits(double x);
int same(double a, double b); /* by bits */

/* what the checks compare with; the first four are those of the class */
extern const double LIMITS[];

/* Any float: of any bits, a NaN of any payload, an infinity, a subnormal, a limit or its neighbour, or one of
 * ordinary size. */
double any_float(void);
double finite_float(void);

/* a number below n, and now and then any other */
uint32_t choice(uint32_t n);

/* ---- what is lent to a call */

/* Each argument stands in memory of its own between two pages that may not be touched, close to the one or
 * the other, so that a byte read or written past it is caught also in the library, which no sanitizer looks
 * into. On its other side stand bytes that must be left. */
enum { ROOM = 1 << 17 };

void make_slots(void);
void *lend(int slot, const void *bytes, size_t size);

/* a float, number or floats of any bits, that the call may write or must leave */
double *lend_float(int slot);
uint32_t *lend_number(int slot);
double *lend_floats(int slot, int count);

/* whether all bytes of a slot are as they were lent, or those from a place on */
int is_left(int slot);
int is_left_from(int slot, size_t from);
void check_margins(int count);

double lent(void); /* the float in the first slot */
int all_finite(const double *xs, int count);

/* ---- orbits */

struct record {
    uint32_t kind, flag, held;
    double constants[ORBT_CONSTANTS], state[ORBT_STATE];
};

/* orbits that were built, with their fresh states; the first three are the published sets, by their kinds */
enum { POOL = 96 };
extern struct record pool[POOL];

void fill_pool(void);

/* an orbit of the pool with a state on its way; in `damaged` of 16 with something changed */
struct record draw_record(uint64_t damaged);

/* the whole part of |t| / 720 */
uint32_t steps_to(double t);

/* ---- the calls */

void fuzz_floats(void);
void fuzz_orbits(void);

/* the stores that saves go on from */
void fill_stores(void);
void fuzz_store(void);

/* files of 4 GiB and more, and the longest replays: once */
void fuzz_huge(void);
void fuzz_long(void);

#endif
