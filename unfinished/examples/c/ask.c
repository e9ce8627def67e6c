/* The elements of satellite 8195 a day after its epoch, from the store on standard input. */
#include <orbt.h>
#include <stdio.h>

int main(void) {
    static uint8_t file[65536];
    uint32_t kind, flag, held, steps, size = (uint32_t)fread(file, 1, sizeof file, stdin);
    double c[ORBT_CONSTANTS], state[ORBT_STATE] = {0}, e[ORBT_ELEMENTS], t = 1440.0;
    uint32_t number = orbt_restore(file, size, 8195, &kind, &flag, c, &held, state, &steps);
    if (number != 0) return (int)number;
    double q[ORBT_QUESTION] = {t, c[6] + c[11] * t + c[16] * (t * t), c[8] + c[12] * t};
    number = orbt_ask(kind, flag, c, held, state, q, e, &steps);
    if (number == 0) printf("a %.17g, mean anomaly %.17g\n", e[6], e[4]);
    return (int)number;
}
