/* Orbt: half-day and one-day orbits, for C. Link with liborbt.a (oracle/library makes it).
 *
 * A call returns 0 where it answers, and a refusal's number where it does not; then every float and
 * number behind its pointers is what it was, unless said otherwise. Angles are in radians, times in
 * minutes since the epoch of the orbit, epochs in years since 1 January 2000 12h UTC.
 *
 *  1 the time is not finite
 *  2 the time is beyond 754,974,720 minutes
 *  3 another number given is not finite
 *  4 a state is given, and the orbit is non-resonant
 *  5 no state is given, and the orbit is resonant
 *  6 the state's time is -0.0, no multiple of 720, or beyond the limit
 *  7 the state's time has the other direction, or is past the time asked: reset first
 *  8 the resonance cannot be followed there: an angle or a number of a state on the way is out of range
 *  9 an angle is beyond 1,048,576, or is a NaN
 * 10 the eccentricity is out of range: it and the time are carried
 * 11 the perturbed eccentricity is outside 0 to 1: it and the time are carried
 * 12 a root or power is taken of no such number, or an element is not finite
 * 13 a number built is not finite
 * 14 the header or the contents of the file are wrong
 * 15 the satellite is not in the file
 * 16 a kind, flag or like number of the call or of a record is wrong, or the kind is not the orbit's class
 * 17 a number of the record is not finite
 * 18 the record's state is not what its steps make of the fresh state
 * 19 the output is shorter than the new file
 * 20 a 129th satellite, or a new file of 2^32 bytes or more
 */
#ifndef ORBT_H
#define ORBT_H

#include <stddef.h>
#include <stdint.h>

#ifdef __cplusplus
extern "C" {
#endif

/* ---- float functions: 0, or 12 */
uint32_t orbt_sqrt(double x, double *root);           /* the nearest float to the root of x >= 0 */
uint32_t orbt_cbrt(double x, double *root);           /* the greatest float whose cube is not above x > 0 */
uint32_t orbt_two_thirds(double x, double *power);    /* x^(2/3): that root squared */
uint32_t orbt_three_halves(double x, double *power);  /* x^1.5: x times its root; may overflow */

/* 0, or 9 */
uint32_t orbt_sin(double x, double *sine);
uint32_t orbt_cos(double x, double *cosine);
uint32_t orbt_sin_cos(double x, double *sine, double *cosine);

double orbt_floor(double x);
double orbt_rem_euclid(double x, double m);
double orbt_atan2(double y, double x);

/* ---- orbits */

/* Constants: a kind (0 non-resonant, 1 one-day, 2 half-day), an AFSPC flag (0 or 1) and 34 floats:
 *  0 ae ke j2 j3 j4
 *  5 inclination, right ascension, eccentricity, argument of perigee, mean anomaly, mean motion (rad/min)
 * 11 right_ascension_dot argument_of_perigee_dot mean_anomaly_dot c1 c4 k0 k1 eccentricity_dot inclination_dot
 * 20 kind 0: a0; kinds 1, 2: lambda_0 lambda_dot_0 sidereal_time_0, and from 23 dr1 dr2 dr3,
 *    or d2201 d2211 d3210 d3222 d4410 d4422 d5220 d5232 d5421 d5433 k14; places not named are 0
 * A state: its time, mean motion and longitude. */
#define ORBT_CONSTANTS 34
#define ORBT_STATE 3
#define ORBT_GIVEN 31
#define ORBT_BODIES 14
#define ORBT_QUESTION 13
#define ORBT_ELEMENTS 12

/* The class of a mean motion (rad/min) and an eccentricity: 0, 1 or 2. */
uint32_t orbt_class(double mean_motion, double eccentricity);

/* The sidereal time at an epoch, by the IAU (which = 0) or the AFSPC expression: 0, 3 or 13. */
uint32_t orbt_sidereal_time(uint32_t which, double epoch, double *theta);

/* Sun, then Moon: sine and cosine of inclination, of the orbit's node less the body's, of perigee; mean
 * anomaly. 0, 3, 9 or 13. */
uint32_t orbt_geometry(double right_ascension, double epoch, double bodies[ORBT_BODIES]);

/* Kind and constants from 0 ae ke j2 j3 j4; 5 the orbit's six; 11 epoch p1 a0 c1 c4 k0 k1 k14 p14 p15; 21 the
 * rates of the Sun: inclination, right ascension, eccentricity, argument of perigee, mean anomaly; 26 those of
 * the Moon. 0, 3, 9, 13 or 16. */
uint32_t orbt_build(uint32_t which, uint32_t flag, const double given[ORBT_GIVEN], uint32_t *kind,
                    double constants[ORBT_CONSTANTS]);

/* The fresh state: 1 where the kind has one, 0 where it has none (and the state is what it was). */
uint32_t orbt_fresh(uint32_t kind, const double constants[ORBT_CONSTANTS], double state[ORBT_STATE]);

/* One step of 720 minutes, back where back is 1: 0, 3, 4, 6, 8 or 16. */
uint32_t orbt_step(uint32_t kind, const double constants[ORBT_CONSTANTS], uint32_t back, double state[ORBT_STATE]);

/* The elements at a time. held: 1 where a state is given, which kinds 1 and 2 need and kind 0 must not have.
 * question: 0 t p22 p23; 3 the Sun's changes of eccentricity, inclination and mean anomaly, ps4, ps5; 8 the Moon's.
 * elements: inclination, right ascension, eccentricity, argument of perigee, mean anomaly, mean motion, a, p32 to p36.
 * 0 to 12, or 16. 1 to 8 leave the state and make 0 steps; 9 to 12 leave the advanced state and its steps, as an
 * answer does; 10 and 11 leave the eccentricity and t in elements[0] and elements[1]. */
uint32_t orbt_ask(uint32_t kind, uint32_t flag, const double constants[ORBT_CONSTANTS], uint32_t held,
                  double state[ORBT_STATE], const double question[ORBT_QUESTION], double elements[ORBT_ELEMENTS],
                  uint32_t *steps);

/* ---- the store: a file of records by satellite, in the caller's memory */

/* A save makes a file longer by at most this: an entry and the longest body. */
#define ORBT_RECORD 316

/* How many records a file has: 0 or 14. */
uint32_t orbt_contents(const uint8_t *file, size_t file_size, uint32_t *count);

/* The satellite of a record, the first being 0: 0, 14, or 15 past the last. */
uint32_t orbt_satellite(const uint8_t *file, size_t file_size, uint32_t place, uint32_t *satellite);

/* Constants and state of a satellite, together: 0, or 14 to 18, which leave all but steps as it was.
 * held: 1 where the record has a state; else 0, and the state is what it was. steps: those of the
 * replay, also where it ends in 18; 0 for 14 to 17. */
uint32_t orbt_restore(const uint8_t *file, size_t file_size, uint32_t satellite, uint32_t *kind, uint32_t *flag,
                      double constants[ORBT_CONSTANTS], uint32_t *held, double state[ORBT_STATE], uint32_t *steps);

/* Writes the file with one record added or replaced into out, which may not overlap it. 0, or in this
 * order 16 (kind, flag or held is no such number), 4, 5, 14, 16, 17, 18, 20, 19, which write nothing; an
 * answer leaves the bytes of out past *size as they were. */
uint32_t orbt_save(const uint8_t *file, size_t file_size, uint8_t *out, size_t out_size, uint32_t satellite,
                   uint32_t kind, uint32_t flag, const double constants[ORBT_CONSTANTS], uint32_t held,
                   const double state[ORBT_STATE], size_t *size);

#ifdef __cplusplus
}
#endif

#endif
