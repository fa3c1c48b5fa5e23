/* A call of every function of the header, with what it is lent: for guard.c and stack.c. */
#include <string.h>
#include "nuprikhen.h"

enum { SLICES = 6, ROUNDS = 4 };

/* A lent slice: where it starts, and its number of elements. */
typedef struct {
    void *start;
    size_t length;
} slice;

#define LEND(s) (s).start, (s).length

/* A function, with a letter for each slice that it is lent: s a sheet's bytes,
   f as many numbers, d as many doubles, m a matrix, t a table, p a slope and an intercept, b a
   message, which comes first. The round varies its parameters. */
typedef struct {
    const char *name, *lent;
    int sized; /* whether it is given a width and a height */
    nup_answer (*call)(uint32_t w, uint32_t h, int round, const slice *s);
} function;

static const float turns[ROUNDS + 1] = {1, 0, -1, 0, 1};

static nup_answer morphology(uint32_t w, uint32_t h, int round, const slice *s) {
    static const float radii[ROUNDS] = {0, 1, 2.5f, 65536};
    return nup_morphology(w, h, (uint8_t)(round % 2), radii[round],
                          radii[ROUNDS - 1 - round], LEND(s[0]), LEND(s[1]));
}

static nup_answer color_matrix(uint32_t w, uint32_t h, int round, const slice *s) {
    (void)round;
    return nup_color_matrix(w, h, LEND(s[0]), LEND(s[1]));
}

static nup_answer saturate(uint32_t w, uint32_t h, int round, const slice *s) {
    return nup_saturate(w, h, turns[round], LEND(s[0]));
}

static nup_answer hue_rotate(uint32_t w, uint32_t h, int round, const slice *s) {
    return nup_hue_rotate(w, h, turns[round], turns[round + 1], LEND(s[0]));
}

static nup_answer luminance_to_alpha(uint32_t w, uint32_t h, int round, const slice *s) {
    (void)round;
    return nup_luminance_to_alpha(w, h, LEND(s[0]));
}

static nup_answer component_transfer(uint32_t w, uint32_t h, int round, const slice *s) {
    uint8_t kind[4];
    for (int i = 0; i < 4; i++) kind[i] = (uint8_t)((round + i) % NUP_LINEAR);
    return nup_component_transfer(w, h, kind[0], LEND(s[0]), kind[1], LEND(s[1]),
                                  kind[2], LEND(s[2]), kind[3], LEND(s[3]), LEND(s[4]));
}

static nup_answer linear_transfer(uint32_t w, uint32_t h, int round, const slice *s) {
    uint8_t kind = NUP_LINEAR;
    (void)round;
    return nup_component_transfer(w, h, kind, LEND(s[0]), kind, LEND(s[1]),
                                  kind, LEND(s[2]), kind, LEND(s[3]), LEND(s[4]));
}

static nup_answer arithmetic(uint32_t w, uint32_t h, int round, const slice *s) {
    return nup_arithmetic(w, h, turns[round], 0.5f, turns[round + 1], 0.25f,
                          LEND(s[0]), LEND(s[1]), LEND(s[2]));
}

static nup_answer convolve_matrix(uint32_t w, uint32_t h, int round, const slice *s) {
    return nup_convolve_matrix(w, h, 5, 4, (uint32_t)round, (uint32_t)round, LEND(s[0]), 1.5f, 0.25f,
                               (uint8_t)(round % 3), (uint8_t)(round % 2), LEND(s[1]), LEND(s[2]));
}

static nup_answer displacement_map(uint32_t w, uint32_t h, int round, const slice *s) {
    return nup_displacement_map(w, h, (uint8_t)round, (uint8_t)(3 - round),
                                turns[round], 16 * turns[round + 1], 40,
                                LEND(s[0]), LEND(s[1]), LEND(s[2]));
}

static nup_answer turbulence(uint32_t w, uint32_t h, int round, const slice *s) {
    static const int32_t seeds[ROUNDS] = {0, 346, -5, INT32_MAX};
    return nup_turbulence(w, h, -3.5, 4096, 1, 0.0625, 0.05, 16, (uint32_t)round,
                          seeds[round], 0, (uint8_t)(round % 2), LEND(s[0]));
}

static nup_answer diffuse_lighting(uint32_t w, uint32_t h, int round, const slice *s) {
    return nup_diffuse_lighting(w, h, (uint8_t)(round % 2), turns[round], 0, turns[round + 1],
                                5, 1, 255, 240, 200, LEND(s[0]), LEND(s[1]));
}

static nup_answer specular_lighting(uint32_t w, uint32_t h, int round, const slice *s) {
    return nup_specular_lighting(w, h, (uint8_t)(round % 2), turns[round], 0, turns[round + 1],
                                 5, 1, 1, 255, 240, 200, LEND(s[0]), LEND(s[1]));
}

/* Recipes of all nine steps: a dilation and a convolution; a saturation and transfer functions; a
   displacement by turbulence; a specular lighting, an arithmetic composition and a diffuse one. */
static const uint8_t spread[] = {
    0x02, 0x01, 0x00, 0x01, 0x00, 0x80, 0x80, 0x80, 0xFC, 0x03, 0x80, 0x80, 0x80, 0x81, 0x04, 0x05, 0x01, 0x02,
    0x02, 0x01, 0x00, 0x00, 0x02, 0x80, 0x80, 0x80, 0xFC, 0x03, 0x80, 0x80, 0x80, 0xF8, 0x03, 0x80, 0x80, 0x80,
    0xFE, 0x03, 0x00, 0x01, 0x00};
static const uint8_t toned[] = {
    0x02, 0x02, 0x00, 0x01, 0x01, 0x80, 0x80, 0x80, 0xF8, 0x03, 0x03, 0x01, 0x02, 0x01, 0x02, 0x00, 0x80, 0x80,
    0x80, 0xFC, 0x03, 0x02, 0x01, 0x80, 0x80, 0x80, 0xF8, 0x03, 0x03, 0x80, 0x80, 0x80, 0xF8, 0x03, 0x00, 0x00};
static const uint8_t moved[] = {
    0x02, 0x07, 0x01, 0x00, 0x00, 0x00, 0x00, 0x00, 0x80, 0x80, 0xC0, 0xFF, 0x03, 0x00, 0x80, 0x80, 0xC0, 0xFF,
    0x03, 0x9A, 0xB3, 0xE6, 0xCC, 0x09, 0x99, 0xB3, 0xA6, 0xFD, 0x03, 0x00, 0x80, 0x80, 0x80, 0xFF, 0x03, 0x02,
    0x07, 0x01, 0x06, 0x00, 0x01, 0x03, 0x00, 0x01, 0x80, 0x80, 0x80, 0xFC, 0x03, 0x80, 0x80, 0x80, 0xFC, 0x03,
    0x80, 0x80, 0x80, 0x8D, 0x04};
static const uint8_t lit[] = {
    0x03, 0x09, 0x00, 0x01, 0x80, 0x80, 0x80, 0x85, 0x04, 0x80, 0x80, 0x80, 0xFC, 0x03, 0x80, 0x80, 0x80, 0xFC,
    0x03, 0xFF, 0x01, 0xF0, 0x01, 0xC8, 0x01, 0x00, 0x9A, 0xB3, 0xE6, 0xF8, 0x03, 0x00, 0xCD, 0x99, 0xB3, 0xFA,
    0x03, 0x04, 0x00, 0x01, 0x02, 0x00, 0x80, 0x80, 0x80, 0xF8, 0x03, 0x80, 0x80, 0x80, 0xF8, 0x03, 0x00, 0x08,
    0x02, 0x03, 0x80, 0x80, 0x80, 0x85, 0x04, 0x80, 0x80, 0x80, 0xFC, 0x03, 0xFF, 0x01, 0xF0, 0x01, 0xC8, 0x01,
    0x01, 0x80, 0x80, 0x80, 0x82, 0x04, 0x80, 0x80, 0x80, 0x84, 0x04, 0x80, 0x80, 0xD0, 0x95, 0x04};

/* A message, and the kind of its source, for each round. */
static const struct {
    const uint8_t *bytes;
    size_t length;
    uint8_t kind;
} messages[ROUNDS] = {
    {spread, sizeof spread, NUP_PREMULTIPLIED},
    {toned, sizeof toned, NUP_STRAIGHT},
    {moved, sizeof moved, NUP_STRAIGHT},
    {lit, sizeof lit, NUP_PREMULTIPLIED},
};

static nup_run_answer run_answer(uint32_t w, uint32_t h, int round, const slice *s) {
    return nup_run(LEND(s[0]), messages[round].kind, w, h, LEND(s[1]), LEND(s[2]), LEND(s[3]), LEND(s[4]), LEND(s[5]));
}

static nup_reach_answer reach_answer(uint32_t w, uint32_t h, int round, const slice *s) {
    return nup_reaches(LEND(s[0]), messages[round].kind, w, h, LEND(s[1]), LEND(s[2]), LEND(s[3]), LEND(s[4]),
                       LEND(s[5]));
}

static nup_answer run(uint32_t w, uint32_t h, int round, const slice *s) {
    nup_run_answer answer = run_answer(w, h, round, s);
    return (nup_answer){answer.number, answer.step};
}

/* Each of the messages reaches its source. */
static nup_answer reaches(uint32_t w, uint32_t h, int round, const slice *s) {
    nup_reach_answer answer = reach_answer(w, h, round, s);
    if (answer.reaches != (answer.number == NUP_DONE)) answer.step = 255;
    return (nup_answer){answer.number, answer.step};
}

static nup_answer to_bytes(uint32_t w, uint32_t h, int round, const slice *s) {
    (void)w, (void)h, (void)round;
    return nup_to_bytes(LEND(s[0]), LEND(s[1]));
}

static nup_answer round_to_i32s(uint32_t w, uint32_t h, int round, const slice *s) {
    (void)w, (void)h, (void)round;
    return nup_round_to_i32s(LEND(s[0]), LEND(s[1]));
}

static nup_answer sqrt32(uint32_t w, uint32_t h, int round, const slice *s) {
    (void)w, (void)h, (void)round;
    return nup_sqrt32(LEND(s[0]), LEND(s[1]));
}

static nup_answer sqrt64(uint32_t w, uint32_t h, int round, const slice *s) {
    (void)w, (void)h, (void)round;
    return nup_sqrt64(LEND(s[0]), LEND(s[1]));
}

static nup_answer to_f32s(uint32_t w, uint32_t h, int round, const slice *s) {
    (void)w, (void)h, (void)round;
    return nup_to_f32s(LEND(s[0]), LEND(s[1]));
}

static nup_answer copy(uint32_t w, uint32_t h, int round, const slice *s) {
    (void)w, (void)h, (void)round;
    return nup_copy(LEND(s[0]), LEND(s[1]));
}

static nup_answer clear(uint32_t w, uint32_t h, int round, const slice *s) {
    (void)w, (void)h, (void)round;
    return nup_clear(LEND(s[0]));
}

static uint32_t of_the_archive(void) {
    return nup_version();
}

/* Done where the archive is of the header's version. */
static nup_answer version(uint32_t w, uint32_t h, int round, const slice *s) {
    (void)w, (void)h, (void)round, (void)s;
    return (nup_answer){of_the_archive() == NUP_VERSION ? NUP_DONE : 255, 0};
}

static const function functions[] = {
    {"nup_version", "", 0, version},
    {"nup_morphology", "ss", 1, morphology},
    {"nup_color_matrix", "ms", 1, color_matrix},
    {"nup_saturate", "s", 1, saturate},
    {"nup_hue_rotate", "s", 1, hue_rotate},
    {"nup_luminance_to_alpha", "s", 1, luminance_to_alpha},
    {"nup_component_transfer", "tttts", 1, component_transfer},
    {"nup_component_transfer", "pppps", 1, linear_transfer},
    {"nup_arithmetic", "sss", 1, arithmetic},
    {"nup_convolve_matrix", "mss", 1, convolve_matrix},
    {"nup_displacement_map", "sss", 1, displacement_map},
    {"nup_turbulence", "s", 1, turbulence},
    {"nup_diffuse_lighting", "ss", 1, diffuse_lighting},
    {"nup_specular_lighting", "ss", 1, specular_lighting},
    {"nup_run", "bsssss", 1, run},
    {"nup_reaches", "bsssss", 1, reaches},
    {"nup_to_bytes", "fs", 0, to_bytes},
    {"nup_round_to_i32s", "ff", 0, round_to_i32s},
    {"nup_sqrt32", "ff", 0, sqrt32},
    {"nup_sqrt64", "dd", 0, sqrt64},
    {"nup_to_f32s", "df", 0, to_f32s},
    {"nup_copy", "ss", 0, copy},
    {"nup_clear", "s", 0, clear},
};

/* How many elements a slice of this letter has; a table has at most as many as are taken. */
static size_t elements(char letter, uint32_t width, uint32_t height, int round) {
    switch (letter) {
    case 'b': return messages[round].length;
    case 'm': return 20;
    case 't': return width < 256 ? width : 256;
    case 'p': return 2;
    default: return (size_t)4 * width * height;
    }
}

static void fill(slice s, char letter, int round) {
    for (size_t k = 0; k < s.length; k++) {
        float number = (float)(k % 9) / 8 - 0.25f;
        switch (letter) {
        case 'b': ((uint8_t *)s.start)[k] = messages[round].bytes[k]; break;
        case 's': ((uint8_t *)s.start)[k] = (uint8_t)(37 * k + 11); break;
        case 'd': ((double *)s.start)[k] = number; break;
        default: ((float *)s.start)[k] = number;
        }
    }
}
