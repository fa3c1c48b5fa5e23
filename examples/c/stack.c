/* Measures how much stack each function of the header takes, by what it leaves changed in a stack of its own: on sheets with
   sides up to 5, and on sheets with sides up to the limit, which must take no more; and none more than NUP_STACK_LIMIT.
   See ./run. */
#define _DEFAULT_SOURCE
#include <stdio.h>
#include <stdlib.h>
#include <ucontext.h>
#include "calls.h"

enum { STACK = 1 << 20, PAINT = 0xA5, SMALL = 5, MOST = NUP_SIDE_LIMIT };

static uint8_t stack[STACK];
static ucontext_t here, there;

/* The call at hand, and its answer. */
static const function *now;
static uint32_t width, height;
static int turn;
static slice lent[SLICES];
static nup_answer answer;

static void call(void) { answer = now->call(width, height, turn, lent); }

/* The bytes of the painted stack that `call` reached. */
static size_t reached(void) {
    size_t left = 0;
    memset(stack, PAINT, STACK);
    getcontext(&there);
    there.uc_stack.ss_sp = stack;
    there.uc_stack.ss_size = STACK;
    there.uc_link = &here;
    makecontext(&there, call, 0);
    swapcontext(&here, &there);
    while (left < STACK && stack[left] == PAINT) left++;
    return STACK - left;
}

/* The most that the function at hand takes on sheets of this size, over all rounds. */
static size_t taken(uint32_t w, uint32_t h) {
    size_t most = 0, bytes;
    width = w;
    height = h;
    for (turn = 0; turn < ROUNDS; turn++) {
        for (int i = 0; now->lent[i]; i++) {
            lent[i].length = elements(now->lent[i], w, h, turn);
            fill(lent[i], now->lent[i], turn);
        }
        bytes = reached();
        if (answer.number != NUP_DONE) {
            fprintf(stderr, "%s: %u x %u, round %d: answer %d\n", now->name, w, h, turn, answer.number);
            exit(1);
        }
        if (most < bytes) most = bytes;
    }
    return most;
}

int main(void) {
    static const uint32_t large[][2] = {{600, 3}, {3, 600}, {1025, 5}, {MOST, 1}, {1, MOST}, {MOST, 4}, {4, MOST}};
    int grown = 0;
    size_t all = 0;
    for (int i = 0; i < SLICES; i++)
        if (!(lent[i].start = malloc((size_t)8 * 4 * 4 * MOST))) return 2;
    for (now = functions; now < functions + sizeof functions / sizeof *functions; now++) {
        size_t small = 0, most = 0, bytes;
        taken(SMALL, SMALL); /* the first call may also find what it is linked to */
        for (uint32_t w = 1; w <= SMALL; w++)
            for (uint32_t h = 1; h <= SMALL; h++)
                if (small < (bytes = taken(w, h))) small = bytes;
        for (size_t n = 0; n < sizeof large / sizeof *large; n++)
            if (most < (bytes = taken(large[n][0], large[n][1]))) most = bytes;
        printf("%s: %zu bytes of stack, %zu on large sheets\n", now->name, small, most);
        grown += small < most;
        if (all < most) all = most;
    }
    printf("%d functions take more stack where sides are longer\n", grown);
    printf("%zu bytes of stack are the most, and the header allows %d\n", all, NUP_STACK_LIMIT);
    return grown != 0 || all > NUP_STACK_LIMIT;
}
