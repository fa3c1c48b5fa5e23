/* Runs a recipe that came as bytes: one dilate of radius 1 by 0 from slot 0 to
   slot 1; asks whether the result draws on the source; then bytes that are no
   message, which change nothing. See ./run, and docs/MESSAGES.md for the
   form. */
#include <stdio.h>
#include "nuprikhen.h"

static const uint8_t message[] = {0x01, 0x01, 0x00, 0x01, 0x00, 0x80,
                                  0x80, 0x80, 0xFC, 0x03, 0x00};
static uint8_t source[12] = {0, 0, 0, 10, 0, 0, 0, 200, 0, 0, 0, 30};
static uint8_t slots[3][12], scratch[12];

static void print_alphas(const char *what, const uint8_t *sheet) {
    printf("%s: %d %d %d\n", what, sheet[3], sheet[7], sheet[11]);
}

static nup_run_answer run(size_t length) {
    return nup_run(message, length, NUP_PREMULTIPLIED, 3, 1, source, 12, slots[0], 12, slots[1], 12,
                   slots[2], 12, scratch, 12);
}

int main(void) {
    nup_run_answer answer = run(sizeof message);
    nup_reach_answer reach;
    if (answer.number != NUP_DONE) {
        fprintf(stderr, "refused %d at step %d\n", answer.number, answer.step);
        return 1;
    }
    print_alphas("source", source);
    print_alphas("slot 1", slots[0]);

    reach = nup_reaches(message, sizeof message, NUP_PREMULTIPLIED, 3, 1, source, 12, slots[0], 12,
                        slots[1], 12, slots[2], 12, scratch, 12);
    printf("draws on the source: %s\n", reach.reaches ? "yes" : "no");

    answer = run(7);
    printf("7 of %d bytes: refused %d, the number at byte %d ends early\n", (int)sizeof message,
           answer.number, (int)answer.offset);
    print_alphas("slot 1", slots[0]);
    return 0;
}
