/* Draws clouds by neighbouring seeds: the lowest of all starts at 3 and the
   one above it at 2, so that they draw as the seeds 3 and 2 do, and unlike
   each other. See ./run. */
#include <stdio.h>
#include <stdlib.h>
#include "nuprikhen.h"

enum { SIDE = 64, BYTES = 4 * SIDE * SIDE };

static void draw(int32_t seed, uint8_t *cloud) {
    nup_answer answer = nup_turbulence(SIDE, SIDE, 0, 0, 1, 1, 0.05, 0.05, 3,
                                       seed, 0, NUP_FRACTAL_NOISE, cloud, BYTES);
    if (answer.number != NUP_DONE) {
        fprintf(stderr, "refused %d\n", answer.number);
        exit(1);
    }
}

static void compare(int32_t seed, int32_t other) {
    static uint8_t cloud[BYTES], beside[BYTES];
    int i, differ = 0;
    draw(seed, cloud);
    draw(other, beside);
    for (i = 0; i < BYTES; i++)
        differ += cloud[i] != beside[i];
    printf("seeds %ld and %ld: %d of %d bytes differ\n", (long)seed, (long)other, differ, BYTES);
}

int main(void) {
    compare(INT32_MIN, -INT32_MAX);
    compare(INT32_MIN, 3);
    compare(-INT32_MAX, 2);
    return 0;
}
