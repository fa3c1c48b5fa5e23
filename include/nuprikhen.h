/* Nuprikhen: resvg 0.49.0's filter primitives on lent sheets.
 *
 * A sheet is 4 * width * height bytes: r, g, b, a of each pixel, row by row.
 * Its colour is straight or premultiplied by alpha, as each function says.
 * Every slice is a pointer and a number of elements. A pointer is never null,
 * even of 0 elements, and is aligned for its elements.
 *
 * Overlap: a slice whose pointer is not const shares no byte with any other
 * slice of the same call. Slices of const pointers may overlap, or be one. No
 * call can test this: where it does not hold, what happens is undefined.
 *
 * A call tests first and writes afterwards: on a refusal no lent byte has
 * changed. The first test that fails gives the number (NUP_DONE and its like,
 * below).
 *
 * A call depends on what it is lent and on nothing else, and nothing is kept
 * after it: the library has no state, allocates nothing, takes no lock and
 * makes no system call. So every function is reentrant: any threads may call
 * any functions at once, where no slice that one of them may write overlaps a
 * slice of another's. The floating-point environment is to be C's default,
 * rounding to nearest with subnormal numbers kept: in another the bytes are
 * not promised.
 *
 * Stack: no call takes more than NUP_STACK_LIMIT bytes, whatever the size of
 * its sheets: nup_run some 200 KiB, nup_turbulence 130, nup_reaches 73,
 * nup_convolve_matrix 17, the lightings 10, every other under 4.
 *
 * Time: every call ends. Its time grows with width * height, and that times
 * the sum of the radii in nup_morphology, where a radius counts up to its side
 * of the sheet; rows * columns in nup_convolve_matrix; and num_octaves in
 * nup_turbulence. A recipe takes the sum of its steps, and the time to read
 * the message, all of it even where it is refused. Seen on sheets of the
 * longest sides, by a Neoverse-V1: 2 seconds or less for a single call, but
 * 20 to 25 for a morphology of the largest radii, and 6 minutes for a recipe
 * of 16 of them; 1 second for 64 MiB of message. Where others send
 * recipes, bound the sides and the length.
 */
#ifndef NUPRIKHEN_H
#define NUPRIKHEN_H

#include <stddef.h>
#include <stdint.h>

/* The version of this header. nup_version gives that of the archive, which is
   to be the same; CHANGELOG.md says what the three numbers promise. */
#define NUP_VERSION_MAJOR 0
#define NUP_VERSION_MINOR 3
#define NUP_VERSION_PATCH 0
#define NUP_VERSION                                                          \
    (NUP_VERSION_MAJOR * 1000000 + NUP_VERSION_MINOR * 1000 +                \
     NUP_VERSION_PATCH)

/* The longest side of a sheet. */
#define NUP_SIDE_LIMIT 4096

/* More stack than any call takes, in bytes. It is measured, not proved: by
   examples/c/stack.c, for the processor at hand. */
#define NUP_STACK_LIMIT 262144

/* Where the compiler can, it warns of an answer that is not looked at. */
#ifdef __GNUC__
#define NUP_MUST_USE __attribute__((warn_unused_result))
#else
#define NUP_MUST_USE
#endif

#ifdef __cplusplus
extern "C" {
#endif

/* The number of an answer. */
enum {
    NUP_DONE = 0,
    NUP_SIZE = 1,       /* width or height outside 1..NUP_SIDE_LIMIT */
    NUP_LENGTH = 2,     /* a sheet or scratch is not exactly
                           4 * width * height bytes */
    NUP_SHAPE = 3,      /* a matrix is not of 20 numbers, a table is over 256
                           entries, a linear function is not of 2 numbers, or
                           a kernel is not of rows * columns numbers, has a
                           side outside 1..15 or its target outside it */
    NUP_NOT_FINITE = 4, /* a parameter is NaN or infinite */
    NUP_RANGE = 5,      /* a finite parameter is outside its range, or a
                           number names no case */

    /* A recipe (nup_run, nup_reaches) has these too; there 3, 4, 5, 7 and 8
       come with the index of the step that is refused. */
    NUP_STEPS = 6,      /* 0 steps or over 16 */
    NUP_SLOT = 7,       /* a slot outside 0..3, output slot 0, an output that
                           is an input, or an input that is not slot 0 and
                           that no earlier step wrote */
    NUP_KIND = 8,       /* an input is of the wrong kind */
    NUP_MALFORMED = 10, /* the message has a wrong number: the bytes end early,
                           it is not in its shortest form or too large, an
                           unknown code, or bytes are left over */
    NUP_ROOM = 11       /* the message holds over 16,384 numbers of matrices,
                           tables and kernels */
};

/* The number of the answer, and the index of the step that was refused:
   0 in a single call. */
typedef struct {
    uint8_t number;
    uint8_t step;
} nup_answer;

/* The version of the archive, as NUP_VERSION. */
uint32_t nup_version(void);

/* op */
enum { NUP_DILATE = 0, NUP_ERODE = 1 };

/* The maximum (NUP_DILATE) or minimum (NUP_ERODE) of each channel within the
   radii, which are rounded half away from zero; clipped at the edges.
   Premultiplied colour, in place. scratch is as long as src, and all zero
   afterwards. Refused: 1, 2, 4, 5 (radii 0 to 65,536). */
NUP_MUST_USE
nup_answer nup_morphology(uint32_t width, uint32_t height, uint8_t op,
                          float rx, float ry, uint8_t *src, size_t src_len,
                          uint8_t *scratch, size_t scratch_len);

/* A matrix of four rows and five columns, m_len 20, on straight colour, in
   place; the fifth column is added. Results are cut, not rounded.
   Refused: 1, 2, 3, 4, 5 (numbers -65,536 to 65,536). */
NUP_MUST_USE
nup_answer nup_color_matrix(uint32_t width, uint32_t height,
                            const float *m, size_t m_len,
                            uint8_t *src, size_t src_len);

/* Saturation by v, which counts as 0 below 0. Straight colour, in place;
   alpha is kept. Refused: 1, 2, 4, 5 (v -65,536 to 65,536). */
NUP_MUST_USE
nup_answer nup_saturate(uint32_t width, uint32_t height, float v,
                        uint8_t *src, size_t src_len);

/* The hue turned by the angle of this cosine and sine. Straight colour, in
   place; alpha is kept. Refused: 1, 2, 4, 5 (the exact sum of the squares is
   further than 1/1,024 from 1). */
NUP_MUST_USE
nup_answer nup_hue_rotate(uint32_t width, uint32_t height, float cosine,
                          float sine, uint8_t *src, size_t src_len);

/* Colour 0, and the luminance as alpha. Straight colour, in place.
   Refused: 1, 2. */
NUP_MUST_USE
nup_answer nup_luminance_to_alpha(uint32_t width, uint32_t height,
                                  uint8_t *src, size_t src_len);

/* kind_r, kind_g, kind_b, kind_a */
enum { NUP_IDENTITY = 0, NUP_TABLE = 1, NUP_DISCRETE = 2, NUP_LINEAR = 3 };

/* A function for each channel, given by its kind and its values: NUP_TABLE and
   NUP_DISCRETE have up to 256 entries, NUP_LINEAR a slope and an intercept,
   and those of NUP_IDENTITY are not read. NUP_IDENTITY and 0 entries leave the
   channel alone. Straight colour, in place. Results are cut, not rounded.
   Refused: 1, 2, 3, 4, 5 (values -65,536 to 65,536). */
NUP_MUST_USE
nup_answer nup_component_transfer(uint32_t width, uint32_t height,
                                  uint8_t kind_r, const float *r, size_t r_len,
                                  uint8_t kind_g, const float *g, size_t g_len,
                                  uint8_t kind_b, const float *b, size_t b_len,
                                  uint8_t kind_a, const float *a, size_t a_len,
                                  uint8_t *src, size_t src_len);

/* k1 * src1 * src2 + k2 * src1 + k3 * src2 + k4 of each channel; where the new
   alpha is near zero all four are 0. Premultiplied colour, all three sheets.
   Refused: 1, 2, 4, 5 (k1 to k4 -65,536 to 65,536). */
NUP_MUST_USE
nup_answer nup_arithmetic(uint32_t width, uint32_t height, float k1, float k2,
                          float k3, float k4,
                          const uint8_t *src1, size_t src1_len,
                          const uint8_t *src2, size_t src2_len,
                          uint8_t *dest, size_t dest_len);

/* edge */
enum { NUP_EDGE_NONE = 0, NUP_EDGE_DUPLICATE = 1, NUP_EDGE_WRAP = 2 };

/* The sum over each pixel's window, of rows and columns round the target, by
   the kernel turned by half a turn; divided by divisor, and bias added, times
   the new alpha for colours. What lies beyond the edges is skipped, the
   nearest pixel, or that of the opposite edge. Premultiplied colour, in place;
   where preserve_alpha is 1, not 0, src is straight, keeps its alpha, and
   becomes premultiplied. Results are rounded by adding a half. scratch is as
   long as src, and all zero afterwards. Refused: 1, 2, 3, 4, 5 (kernel and
   bias -65,536 to 65,536; divisor the same, in size at least 1/65,536). */
NUP_MUST_USE
nup_answer nup_convolve_matrix(uint32_t width, uint32_t height,
                               uint32_t columns, uint32_t rows,
                               uint32_t target_x, uint32_t target_y,
                               const float *kernel, size_t kernel_len,
                               float divisor, float bias, uint8_t edge,
                               uint8_t preserve_alpha,
                               uint8_t *src, size_t src_len,
                               uint8_t *scratch, size_t scratch_len);

/* x_channel, y_channel */
enum { NUP_CHANNEL_R = 0, NUP_CHANNEL_G = 1, NUP_CHANNEL_B = 2,
       NUP_CHANNEL_A = 3 };

/* Each pixel of dest is the one of src at its column plus
   (x_channel / 255 - 0.5) * sx * scale, rounded half away from zero, and its
   row likewise, by the channels of the map's pixel there; off the sheet all
   four channels are 0. The map has straight colour, dest src's.
   Refused: 1, 2, 4, 5 (sx and sy -16 to 16, scale -4,096 to 4,096, another
   channel). */
NUP_MUST_USE
nup_answer nup_displacement_map(uint32_t width, uint32_t height,
                                uint8_t x_channel, uint8_t y_channel,
                                float sx, float sy, float scale,
                                const uint8_t *src, size_t src_len,
                                const uint8_t *map, size_t map_len,
                                uint8_t *dest, size_t dest_len);

/* kind of nup_turbulence */
enum { NUP_TURBULENCE = 0, NUP_FRACTAL_NOISE = 1 };

/* The sum of num_octaves octaves of noise, as straight colour; every byte of
   dest is written, and no sheet is read. The offsets are the filter region's,
   sx and sy the canvas scale. Any seed draws. stitch_tiles is 0.
   Refused: 1, 2, 4, 5 (offsets -4,096 to 4,096, scales 1/16 to 16, frequencies
   0 to 16, octaves over 8, another stitch_tiles or kind). */
NUP_MUST_USE
nup_answer nup_turbulence(uint32_t width, uint32_t height, double offset_x,
                          double offset_y, double sx, double sy,
                          double base_frequency_x, double base_frequency_y,
                          uint32_t num_octaves, int32_t seed,
                          uint8_t stitch_tiles, uint8_t kind,
                          uint8_t *dest, size_t dest_len);

/* light */
enum { NUP_DISTANT = 0, NUP_POINT = 1 };

/* src's alpha as a surface, lit by a light of this colour: NUP_DISTANT shines
   from the direction x, y, z, NUP_POINT from that place. Below 3 x 3 dest is
   only cleared. src of either kind, dest straight and opaque.
   Refused: 1, 2, 4, 5 (a direction whose exact sum of squares is further than
   1/1,024 from 1, a place beyond -65,536 to 65,536, surface_scale beyond -256
   to 256, diffuse_constant beyond 0 to 256, another light, whose x, y and z
   are then not read). */
NUP_MUST_USE
nup_answer nup_diffuse_lighting(uint32_t width, uint32_t height, uint8_t light,
                                float x, float y, float z,
                                float surface_scale, float diffuse_constant,
                                uint8_t red, uint8_t green, uint8_t blue,
                                const uint8_t *src, size_t src_len,
                                uint8_t *dest, size_t dest_len);

/* As nup_diffuse_lighting, for light that is thrown back as by a mirror; dest
   is premultiplied, and its alpha is the largest of its colours. Refused also:
   5 where specular_exponent is not 1. */
NUP_MUST_USE
nup_answer nup_specular_lighting(uint32_t width, uint32_t height,
                                 uint8_t light, float x, float y, float z,
                                 float surface_scale, float specular_constant,
                                 float specular_exponent,
                                 uint8_t red, uint8_t green, uint8_t blue,
                                 const uint8_t *src, size_t src_len,
                                 uint8_t *dest, size_t dest_len);

/* Each of xs as a byte: toward zero, 0 for a NaN and below 0, 255 above it.
   Refused: 2 where the two lengths differ. */
NUP_MUST_USE
nup_answer nup_to_bytes(const float *xs, size_t xs_len,
                        uint8_t *out, size_t out_len);

/* Each of xs rounded half away from zero: 0 for a NaN, and the nearest end of
   the range beyond it. Refused: 2 where the two lengths differ. */
NUP_MUST_USE
nup_answer nup_round_to_i32s(const float *xs, size_t xs_len,
                             int32_t *out, size_t out_len);

/* The square root of each of xs, rounded once; a NaN where it is a NaN or
   below zero. Refused: 2 where the two lengths differ. */
NUP_MUST_USE
nup_answer nup_sqrt32(const float *xs, size_t xs_len,
                      float *out, size_t out_len);
NUP_MUST_USE
nup_answer nup_sqrt64(const double *xs, size_t xs_len,
                      double *out, size_t out_len);

/* Each of xs rounded to the nearest float, a tie to the even one: an infinity
   beyond the largest, and a NaN for a NaN. Refused: 2 where the two lengths
   differ. */
NUP_MUST_USE
nup_answer nup_to_f32s(const double *xs, size_t xs_len,
                       float *out, size_t out_len);

/* dst takes src's bytes. Refused: 2 where the two lengths differ. */
NUP_MUST_USE
nup_answer nup_copy(const uint8_t *src, size_t src_len,
                    uint8_t *dst, size_t dst_len);

/* Every byte of dst becomes 0. Never refused. */
nup_answer nup_clear(uint8_t *dst, size_t dst_len);

/* The answer to a message. offset: for 10, where the wrong number begins, the
   message's length where the bytes end just before it; otherwise 0. */
typedef struct {
    uint8_t number;
    uint8_t step;
    uint64_t offset;
} nup_run_answer;

/* kind of nup_run and nup_reaches */
enum { NUP_STRAIGHT = 0, NUP_PREMULTIPLIED = 1 };

/* Runs a recipe that is given as a message, in the form of docs/MESSAGES.md.
   source is slot 0, of this kind; each step reads one or two slots, or none,
   and writes slot 1, 2 or 3. The last step's output is the result. Afterwards
   each written slot holds its last step's output, the others are unchanged,
   and scratch is all zero. What lies in slots 1 to 3 before is never read.
   Refused: 10, then 6 over 16 steps, then 11; 5 for another kind; then 1, 2,
   6 of 0 steps, and step by step 7, 8, 3, 4, 5. */
NUP_MUST_USE
nup_run_answer nup_run(const uint8_t *message, size_t message_len,
                       uint8_t kind, uint32_t width, uint32_t height,
                       const uint8_t *source, size_t source_len,
                       uint8_t *slot1, size_t slot1_len,
                       uint8_t *slot2, size_t slot2_len,
                       uint8_t *slot3, size_t slot3_len,
                       uint8_t *scratch, size_t scratch_len);

/* As nup_run_answer; reaches is 1 or 0. */
typedef struct {
    uint8_t number;
    uint8_t step;
    uint8_t reaches;
    uint64_t offset;
} nup_reach_answer;

/* Whether some byte of the result draws on the source; 0 where it is refused,
   as nup_run is. Nothing is written. */
NUP_MUST_USE
nup_reach_answer nup_reaches(const uint8_t *message, size_t message_len,
                             uint8_t kind, uint32_t width, uint32_t height,
                             const uint8_t *source, size_t source_len,
                             const uint8_t *slot1, size_t slot1_len,
                             const uint8_t *slot2, size_t slot2_len,
                             const uint8_t *slot3, size_t slot3_len,
                             const uint8_t *scratch, size_t scratch_len);

#ifdef __cplusplus
}
#endif

#endif
