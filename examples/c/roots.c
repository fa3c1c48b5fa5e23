/* Prints the bits of some square roots: those of a NaN are its own, and what
   is below zero has the one NaN that Rust calls f32::NAN and f64::NAN. No
   proof holds this, since the definitions know one NaN. See ./run. */
#include <inttypes.h>
#include <stdio.h>
#include <stdlib.h>
#include <string.h>
#include "nuprikhen.h"

static void root32(uint32_t bits) {
    float x, root;
    uint32_t told;
    memcpy(&x, &bits, sizeof x);
    if (nup_sqrt32(&x, 1, &root, 1).number != NUP_DONE) exit(1);
    memcpy(&told, &root, sizeof told);
    printf("%08" PRIx32 ": %08" PRIx32 "\n", bits, told);
}

static void root64(uint64_t bits) {
    double x, root;
    uint64_t told;
    memcpy(&x, &bits, sizeof x);
    if (nup_sqrt64(&x, 1, &root, 1).number != NUP_DONE) exit(1);
    memcpy(&told, &root, sizeof told);
    printf("%016" PRIx64 ": %016" PRIx64 "\n", bits, told);
}

int main(void) {
    root32(0x40800000); /* 4 */
    root32(0x80000000); /* -0 */
    root32(0x7f800001); /* a signalling NaN */
    root32(0xffc12345); /* a quiet one with its sign */
    root32(0xbf800000); /* -1 */
    root32(0xff800000); /* -infinity */
    root64(0x4010000000000000);
    root64(0x8000000000000000);
    root64(0x7ff0000000000001);
    root64(0xfff8123400000000);
    root64(0xbff0000000000000);
    root64(0xfff0000000000000);
    return 0;
}
