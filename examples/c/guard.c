/* Calls every function of the header with each lent slice against a page
   without access, before it or behind it, for all sizes from 1 x 1 to
   40 x 40; then makes calls that are refused, with every pointer but a
   message's into such a page. A read or a write past a slice, or of anything
   where a call is refused, ends the program with a line that says which call
   it was. See ./run. */
#define _DEFAULT_SOURCE
#include <signal.h>
#include <stdio.h>
#include <sys/mman.h>
#include <unistd.h>
#include "calls.h"

enum { SIDE = 40, ROOM = 32 * SIDE * SIDE };

/* The call at hand, for the line that a fault prints. */
static const function *now;
static uint32_t width, height;
static unsigned sides;
static size_t cut; /* the bytes that a message's end lacks */
static int bad;
static long calls;

static void fault(int signal) {
    (void)signal;
    dprintf(2, "%s reached past what it is lent: %u x %u, sides %x\n", now->name, width, height, sides);
    _exit(1);
}

static void expect(uint8_t number, int round, const slice *s) {
    nup_answer answer = now->call(width, height, round, s);
    calls++;
    if (answer.number == number && answer.step == 0) return;
    if (bad++ < 10)
        fprintf(stderr, "%s: %u x %u, round %d: answer %d, expected %d\n", now->name, width, height, round,
                answer.number, number);
}

static size_t page, room;
static uint8_t *area; /* a page without access, then a room and such a page for each slice */

static void make_area(void) {
    page = (size_t)sysconf(_SC_PAGESIZE);
    room = (ROOM + page - 1) / page * page;
    area = mmap(0, page + SLICES * (room + page), PROT_NONE, MAP_PRIVATE | MAP_ANONYMOUS, -1, 0);
    if (area == MAP_FAILED) _exit(2);
    for (int i = 0; i < SLICES; i++)
        if (mprotect(area + page + (size_t)i * (room + page), room, PROT_READ | PROT_WRITE)) _exit(2);
}

static size_t bytes_each(char letter) {
    switch (letter) {
    case 'b':
    case 's': return 1;
    case 'd': return 8;
    default: return 4;
    }
}

/* A slice against the page before its room, or the one behind it. */
static slice against(int i, char letter, int behind, int round) {
    slice s = {area + page + (size_t)i * (room + page), elements(letter, width, height, round)};
    if (letter == 'b') s.length -= cut;
    if (behind) s.start = (uint8_t *)s.start + room - s.length * bytes_each(letter);
    fill(s, letter, round);
    return s;
}

/* Whether these sides are tried: all, or of many slices all alike or one apart from the others. */
static int tried(int count) {
    unsigned all = (1u << count) - 1, others = all & ~sides;
    return count < SLICES || (sides & (sides - 1)) == 0 || (others & (others - 1)) == 0;
}

static void accepted(void) {
    int count = (int)strlen(now->lent);
    slice s[SLICES];
    for (width = 1; width <= SIDE; width++)
        for (height = 1; height <= SIDE; height++)
            for (sides = 0; sides < 1u << count; sides++)
                for (int round = 0; tried(count) && round < ROUNDS; round++) {
                    for (int i = 0; i < count; i++) s[i] = against(i, now->lent[i], sides >> i & 1, round);
                    expect(NUP_DONE, round, s);
                }
}

/* Calls whose slices have these lengths, none of which may be touched but a message, which must be read. */
static void refused(uint8_t number, const size_t *lengths) {
    slice s[SLICES];
    for (int i = 0; i < SLICES; i++) s[i] = (slice){area, lengths[i]};
    for (int round = 0; round < ROUNDS; round++) {
        if (now->lent[0] == 'b') s[0] = against(0, 'b', round % 2, round);
        expect(number, round, s);
    }
}

static void refused_sizes(void) {
    static const uint32_t wrong[][2] = {{0, 1},         {1, 0},
                                        {NUP_SIDE_LIMIT + 1, 1}, {1, NUP_SIDE_LIMIT + 1},
                                        {65536, 65536}, {UINT32_MAX, UINT32_MAX}};
    size_t lengths[SLICES];
    for (size_t n = 0; n < sizeof wrong / sizeof *wrong; n++) {
        width = wrong[n][0];
        height = wrong[n][1];
        for (int i = 0; i < SLICES; i++) lengths[i] = (size_t)4 * width * height;
        refused(NUP_SIZE, lengths);
    }
}

/* A sheet that is one byte longer or shorter; a matrix, a table or a pair that is too long. */
static void refused_lengths(void) {
    size_t lengths[SLICES] = {0}, count = strlen(now->lent), right;
    for (size_t i = 0; i < count; i++) lengths[i] = elements(now->lent[i], width, height, 0);
    for (size_t i = 0; i < count; i++)
        if (strchr("sfd", now->lent[i])) {
            right = lengths[i];
            lengths[i] = right + 1;
            refused(NUP_LENGTH, lengths);
            lengths[i] = right - 1;
            refused(NUP_LENGTH, lengths);
            lengths[i] = right;
        }
    if (!strpbrk(now->lent, "mtp")) return;
    for (size_t i = 0; i < count; i++)
        if (strchr("mtp", now->lent[i])) lengths[i] = 257;
    refused(NUP_SHAPE, lengths);
}

/* Messages that lack 1 byte of their end or more. */
static void refused_messages(void) {
    size_t lengths[SLICES];
    width = height = 1;
    for (int i = 0; i < SLICES; i++) lengths[i] = 4;
    for (cut = 1; cut <= sizeof toned; cut++) refused(NUP_MALFORMED, lengths);
    cut = 0;
}

int main(void) {
    make_area();
    signal(SIGSEGV, fault);
    signal(SIGBUS, fault);
    for (now = functions; now < functions + sizeof functions / sizeof *functions; now++) {
        accepted();
        if (now->sized) refused_sizes();
        if (now->lent[0] == 'b') refused_messages();
        for (width = 1; width <= SIDE; width++)
            for (height = 1; height <= SIDE; height++)
                if (now->lent[0] && (now->lent[1] || now->sized)) refused_lengths();
    }
    printf("%ld calls with slices against pages without access, %d wrong answers\n", calls, bad);
    return bad != 0;
}
