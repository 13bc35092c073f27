/* Makes the part of ieee754_vectors/stdin that comes from the C compiler and the hardware: square root, conversions, hypotenuse, rounding,
   absolute value. Built and run by make_vectors, which says how. One vector a line: the operation's letter, three arguments, the result, each
   as 16 hexadecimal digits (an f32 in the lower 8, an argument that is not there 0). Any NaN is written as 7ff8000000000000, or 7fc00000. */
#include <math.h>
#include <stdint.h>
#include <stdio.h>
#include <string.h>

static uint64_t state = 0x9e3779b97f4a7c15u;

/* Marsaglia's xorshift64: the same vectors on every machine. */
static uint64_t next(void) {
    state ^= state << 13;
    state ^= state >> 7;
    state ^= state << 17;
    return state;
}

static double d(uint64_t b) { double x; memcpy(&x, &b, 8); return x; }
static uint64_t bits(double x) { uint64_t b; if (isnan(x)) return 0x7ff8000000000000u; memcpy(&b, &x, 8); return b; }
static float f(uint32_t b) { float x; memcpy(&x, &b, 4); return x; }
static uint32_t fbits(float x) { uint32_t b; if (isnan(x)) return 0x7fc00000u; memcpy(&b, &x, 4); return b; }

static void line(char op, uint64_t a, uint64_t b, uint64_t c, uint64_t r) {
    printf("%c %016lx %016lx %016lx %016lx\n", op, (unsigned long)a, (unsigned long)b, (unsigned long)c, (unsigned long)r);
}

/* volatile keeps the compiler from computing at compile time, or in another way than the hardware does. */
static void root(uint64_t a) { volatile double x = d(a); line('s', a, 0, 0, bits(sqrt(x))); }
static void narrow(uint64_t a) { volatile double x = d(a); volatile float y = (float)x; line('n', a, 0, 0, fbits(y)); }
static void widen(uint32_t a) { volatile float x = f(a); volatile double y = (double)x; line('w', a, 0, 0, bits(y)); }
static void whole(uint64_t a) { volatile uint64_t n = a; volatile double y = (double)n; line('u', a, 0, 0, bits(y)); }
static void rounded(uint64_t a) { volatile double x = d(a); line('r', a, 0, 0, bits(round(x))); }
static void size(uint64_t a) { volatile double x = d(a); line('a', a, 0, 0, bits(fabs(x))); }
static void legs(uint64_t a, uint64_t b) {
    volatile double x = d(a), y = d(b);
    volatile double xx = x * x, yy = y * y;
    volatile double s = xx + yy;
    line('h', a, b, 0, bits(sqrt(s)));
}
static void legs32(uint32_t a, uint32_t b) {
    volatile double x = f(a), y = f(b);
    volatile double xx = x * x, yy = y * y;
    volatile double s = xx + yy;
    volatile float r = (float)sqrt(s);
    line('g', a, b, 0, fbits(r));
}

static const uint64_t edges[] = {
    0, 1, 2, 3, 0x000fffffffffffff, 0x0010000000000000, 0x0010000000000001, 0x001fffffffffffff, 0x0020000000000000,
    0x3fe0000000000000, 0x3fdfffffffffffff, 0x3fe0000000000001, 0x3ff0000000000000, 0x3fefffffffffffff, 0x3ff0000000000001,
    0x3ff8000000000000, 0x3ff7ffffffffffff, 0x4000000000000000, 0x4004000000000000, 0x4008000000000000, 0x400fffffffffffff,
    0x4010000000000000, 0x4330000000000000, 0x432fffffffffffff, 0x4320000000000000, 0x431fffffffffffff, 0x4340000000000000,
    0x43e0000000000000, 0x43efffffffffffff, 0x43f0000000000000, 0x43f0000000000001,
    0x3690000000000000, 0x368fffffffffffff, 0x3690000000000001, 0x36a0000000000000, 0x36a8000000000000, 0x380fffffffffffff,
    0x3810000000000000, 0x380fffffe0000000, 0x380ffffff0000000, 0x47efffffe0000000, 0x47efffffefffffff, 0x47effffff0000000,
    0x47f0000000000000, 0x7fefffffffffffff, 0x7ff0000000000000, 0x7ff0000000000001, 0x7ff8000000000000, 0x7fffffffffffffff,
};
static const int n_edges = sizeof edges / sizeof edges[0];
static const uint64_t minus = 0x8000000000000000u;

static void edge(uint64_t b) {
    root(b); narrow(b); rounded(b); size(b);
    uint64_t h = b >> 32;
    widen((uint32_t)h);
    whole(b);
}

int main(void) {
    for (int i = 0; i < n_edges; i++) { edge(edges[i]); edge(edges[i] | minus); }
    for (int i = 0; i < n_edges; i++)
        for (int j = 0; j < 6; j++) {
            uint64_t a = edges[i] | (next() & minus), b = edges[next() % n_edges] | (next() & minus);
            legs(a, b);
            legs32((uint32_t)(a >> 32), (uint32_t)(b >> 32));
        }
    /* powers of two and their neighbours */
    for (int e = 0; e < 2047; e += 5)
        for (int k = -1; k <= 1; k++) root(((uint64_t)e << 52) + (uint64_t)k);
    for (int e = 860; e < 1160; e += 3)
        for (int k = -1; k <= 1; k++) narrow(((uint64_t)e << 52) + (uint64_t)k);
    for (int i = 0; i < 400; i++) {
        uint64_t m = next() >> 38, s = m * m;             /* perfect squares and their neighbours */
        root(bits((double)s)); root(bits((double)s) + 1); root(bits((double)s) - 1);
        uint64_t b = next();                               /* halfway between two f32, and its neighbours */
        uint64_t e = 870 + b % 290;
        b = (b & 0x800fffffe0000000u) | (e << 52) | 0x10000000u;
        narrow(b); narrow(b + 1); narrow(b - 1); narrow(b ^ 0x20000000u);
        double half = (double)(next() >> (12 + next() % 50)) + 0.5;    /* halves and their neighbours */
        rounded(bits(half)); rounded(bits(half) + 1); rounded(bits(half) - 1); rounded(bits(-half));
        uint64_t n = (next() | minus) >> (next() % 12);   /* halfway between two f64, and its neighbours */
        int drop = 11 - __builtin_clzll(n);
        if (drop > 0) { n = (n >> drop << drop) | (1u << (drop - 1)); whole(n); whole(n + 1); whole(n - 1); }
        whole(next() >> (next() % 64));
    }
    for (int i = 0; i < 800; i++) {                        /* any pattern: subnormals, infinities and NaNs are rare among these */
        uint64_t a = next(), b = next();
        root(a & ~minus); narrow(a); rounded(a); size(a); widen((uint32_t)a); whole(a); legs(a, b); legs32((uint32_t)a, (uint32_t)b);
        root(a & 0x000fffffffffffffu);                     /* subnormals of every length */
        root((a & 0x000fffffffffffffu) >> (b % 52));
        narrow((a & 0x800fffffffffffffu) | ((uint64_t)(1023 - 160 + b % 300) << 52));
        rounded((a & 0x800fffffffffffffu) | ((uint64_t)(1020 + b % 56) << 52));
        uint64_t near1 = 0x3f00000000000000u;              /* sizes that samples have */
        legs(near1 + (a >> 11), near1 + (b >> 11));
        legs32(0x3c000000u + (uint32_t)(a >> 38), 0xbc000000u + (uint32_t)(b >> 38));
    }
    return 0;
}
