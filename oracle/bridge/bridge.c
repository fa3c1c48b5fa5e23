/* Calls the static library on behalf of the oracle where the oracle's own processor cannot: it runs
   under an emulator, reads calls from its input and writes what they did to its output. It needs no
   C library. A call is a length and that many bytes of words: the function's number (its place in
   the header), then each number, and each slice as a count and its bytes, padded. The reply is a
   word (number, step, whether memory was touched that must not be, whether slot 0 is reached), the
   two words of the offset, the lower one first, and the written slices. */

typedef __UINT8_TYPE__ uint8_t;
typedef __UINT32_TYPE__ uint32_t;
typedef __UINT64_TYPE__ uint64_t;
typedef __INT32_TYPE__ int32_t;
typedef __SIZE_TYPE__ size_t;

typedef struct { uint8_t number; uint8_t step; } nup_answer;
typedef struct { uint8_t number; uint8_t step; uint64_t offset; } nup_run_answer;
typedef struct { uint8_t number; uint8_t step; uint8_t reaches; uint64_t offset; } nup_reach_answer;

/* What each of them says, 0 where it says nothing. */
typedef struct { uint8_t number, step, reaches; uint64_t offset; } told;

static told of_nup_answer(nup_answer a) { return (told){a.number, a.step, 0, 0}; }
static told of_nup_run_answer(nup_run_answer a) { return (told){a.number, a.step, 0, a.offset}; }
static told of_nup_reach_answer(nup_reach_answer a) { return (told){a.number, a.step, a.reaches, a.offset}; }

/* What compiled code may ask a C library for; sixteen bytes at a time where it can. */
typedef uint8_t block __attribute__((vector_size(16), aligned(1), may_alias));

void *memset(void *to, int byte, size_t n) {
    uint8_t *t = to;
    block b = (block){} + (uint8_t)byte;
    for (; n >= 16; n -= 16, t += 16) *(block *)t = b;
    while (n--) *t++ = (uint8_t)byte;
    return to;
}

void *memmove(void *to, const void *from, size_t n) {
    uint8_t *t = to;
    const uint8_t *f = from;
    if (t < f) {
        for (; n >= 16; n -= 16, t += 16, f += 16) *(block *)t = *(const block *)f;
        while (n--) *t++ = *f++;
    } else {
        for (; n >= 16; n -= 16) *(block *)(t + n - 16) = *(const block *)(f + n - 16);
        while (n--) t[n] = f[n];
    }
    return to;
}

void *memcpy(void *to, const void *from, size_t n) { return memmove(to, from, n); }

int memcmp(const void *a, const void *b, size_t n) {
    const uint8_t *x = a, *y = b;
    for (; n >= 8; n -= 8, x += 8, y += 8) {
        const unsigned long *p = (const unsigned long *)x, *q = (const unsigned long *)y;
        if (*p != *q) break;
    }
    for (; n--; x++, y++) if (*x != *y) return *x - *y;
    return 0;
}

enum { READ = 0, WRITE = 1, EXIT = 60 };

static long system_call(long number, long a, long b, long c) {
    long result;
    __asm__ volatile("syscall" : "=a"(result) : "a"(number), "D"(a), "S"(b), "d"(c) : "rcx", "r11", "memory");
    return result;
}

static void leave(int status) { for (;;) system_call(EXIT, status, 0, 0); }

static void transfer(long call, uint8_t *at, size_t n) {
    while (n > 0) {
        long done = system_call(call, call == READ ? 0 : 1, (long)at, (long)n);
        if (done <= 0) leave(done < 0);
        at += done;
        n -= (size_t)done;
    }
}

enum { ROOM = 1 << 28, STRIP = 64, JUNK = 0xa5 };
static uint8_t request[ROOM] __attribute__((aligned(16)));
static uint8_t arena[ROOM] __attribute__((aligned(16)));
static size_t at, used;

typedef struct { uint8_t *now, *before; size_t count, bytes; int written; } slice;
static slice slices[8];
static int lent;

static uint32_t word(void) {
    uint32_t n = *(uint32_t *)(request + at);
    at += 4;
    return n;
}

static float number(void) {
    float x = *(float *)(request + at);
    at += 4;
    return x;
}

static double long_number(void) {
    union { uint64_t bits; double x; } both;
    both.bits = word();
    both.bits |= (uint64_t)word() << 32;
    return both.x;
}

/* The next slice, copied between two strips of junk; bytes at any alignment. */
static slice *next_slice(size_t width, int written) {
    slice *s = &slices[lent];
    s->count = word();
    s->bytes = s->count * width;
    s->before = request + at;
    s->written = written;
    at += (s->bytes + 3) / 4 * 4;
    used = (used + 15) / 16 * 16 + STRIP + (width == 1 ? (s->count / 4 + (size_t)lent) % 4 : 0);
    s->now = arena + used;
    used += s->bytes + STRIP;
    if (used > ROOM) leave(1);
    memset(s->now - STRIP, JUNK, STRIP);
    memcpy(s->now, s->before, s->bytes);
    memset(s->now + s->bytes, JUNK, STRIP);
    lent++;
    return s;
}

static int touched(void) {
    for (slice *s = slices; s < slices + lent; s++) {
        if (!s->written && memcmp(s->now, s->before, s->bytes)) return 1;
        for (size_t i = 1; i <= STRIP; i++)
            if (s->now[-(long)i] != JUNK || s->now[s->bytes + i - 1] != JUNK) return 1;
    }
    return 0;
}

/* Declares the functions; call() reads one call and makes it. build.rs writes it. */
#include "calls.h"

void bridge(void) {
    for (;;) {
        uint32_t length, reply[3];
        transfer(READ, (uint8_t *)&length, 4);
        if (length > ROOM) leave(1);
        transfer(READ, request, length);
        at = used = 0;
        lent = 0;
        told answer = call();
        reply[0] = answer.number | (uint32_t)answer.step << 8 | (uint32_t)touched() << 16 | (uint32_t)answer.reaches << 24;
        reply[1] = (uint32_t)answer.offset;
        reply[2] = (uint32_t)(answer.offset >> 32);
        transfer(WRITE, (uint8_t *)reply, sizeof reply);
        for (slice *s = slices; s < slices + lent; s++)
            if (s->written) transfer(WRITE, s->now, s->bytes);
    }
}

__asm__(".globl _start\n_start: xor %ebp, %ebp\n and $-16, %rsp\n call bridge\n");
