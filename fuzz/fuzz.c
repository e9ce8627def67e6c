/* Calls every function of include/orbt.h with random and damaged input, and checks what its contract says:
 * the number, what is written, and that nothing else is. The store's calls are compared with the model.
 *
 *     fuzz [COUNT [SEED]] */
#include "common.h"

#include <inttypes.h>
#include <stdio.h>
#include <stdlib.h>

static void step(void) {
    uint64_t which = below(100);
    if (which < 20) {
        calling = (enum function)(SQRT + which / 2);
        fuzz_floats();
    } else if (which < 63) {
        calling = which < 23 ? CLASS : which < 26 ? SIDEREAL_TIME : which < 30 ? GEOMETRY : which < 35 ? BUILD
                : which < 39 ? FRESH : which < 45 ? STEP : ASK;
        fuzz_orbits();
    } else {
        calling = which < 69 ? CONTENTS : which < 75 ? SATELLITE : which < 88 ? RESTORE : SAVE;
        fuzz_store();
    }
}

int main(int argc, char **argv) {
    uint64_t wanted = argc > 1 ? strtoull(argv[1], NULL, 10) : 10000000;
    seed = argc > 2 ? strtoull(argv[2], NULL, 10) : 0x4F5242542D465A5A;
    draw_from(seed);
    setvbuf(stdout, NULL, _IOLBF, 0);
    printf("seed %" PRIu64 ", %" PRIu64 " calls\n", seed, wanted);
    make_slots();
    fill_pool();
    fill_stores();
    fuzz_huge();
    fuzz_long();
    while (calls < wanted) step();
    print_tally();
    printf("fuzz: %" PRIu64 " calls, each as its contract says\n", calls);
    return 0;
}
