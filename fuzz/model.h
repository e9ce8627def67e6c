/* The calls of the store once more, in plain C from the format's description: what the library's are
 * compared with. Only single steps are taken from the library. */
#ifndef MODEL_H
#define MODEL_H

#include "orbt.h"

/* the class, as its two tests */
uint32_t model_class(double n, double e);

/* how many floats the constants of a kind have */
int model_floats(uint32_t kind);

/* refusal 6: a state's time is -0.0, no multiple of 720, or beyond the limit */
int model_is_misplaced(double time);

uint32_t model_contents(const uint8_t *file, size_t file_size, uint32_t *count);
uint32_t model_satellite(const uint8_t *file, size_t file_size, uint32_t place, uint32_t *satellite);
uint32_t model_restore(const uint8_t *file, size_t file_size, uint32_t satellite, uint32_t *kind, uint32_t *flag,
                       double constants[ORBT_CONSTANTS], uint32_t *held, double state[ORBT_STATE], uint32_t *steps);
uint32_t model_save(const uint8_t *file, size_t file_size, uint8_t *out, size_t out_size, uint32_t satellite,
                    uint32_t kind, uint32_t flag, const double constants[ORBT_CONSTANTS], uint32_t held,
                    const double state[ORBT_STATE], size_t *size);

#endif
