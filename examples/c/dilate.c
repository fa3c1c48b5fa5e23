/* A row of three pixels grows by one pixel to each side; then a call that is
   refused, which changes nothing. See ./run. */
#include <stdio.h>
#include "nuprikhen.h"

static void print_alphas(const char *what, const uint8_t *sheet, int pixels) {
    printf("%s:", what);
    for (int i = 0; i < pixels; i++)
        printf(" %d", sheet[4 * i + 3]);
    printf("\n");
}

int main(void) {
    uint8_t sheet[12] = {0, 0, 0, 10, 0, 0, 0, 200, 0, 0, 0, 30};
    uint8_t scratch[12];
    nup_answer answer;

    print_alphas("before", sheet, 3);
    answer = nup_morphology(3, 1, NUP_DILATE, 1.0f, 0.0f, sheet, sizeof sheet,
                            scratch, sizeof scratch);
    if (answer.number != NUP_DONE) {
        fprintf(stderr, "refused %d\n", answer.number);
        return 1;
    }
    print_alphas("dilated", sheet, 3);
    print_alphas("scratch", scratch, 3);

    answer = nup_saturate(2, 1, 0.5f, sheet, sizeof sheet);
    printf("2 x 1 pixels in 12 bytes: refused %d\n", answer.number);
    print_alphas("after", sheet, 3);
    return 0;
}
