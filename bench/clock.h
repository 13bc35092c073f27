/* Timing that two sides share: thread CPU time, the sides alternating, the median of many rounds. */
#ifndef CLOCK_H
#define CLOCK_H
#include <stdint.h>
#include <stdio.h>
#include <stdlib.h>
#include <string.h>
#include <time.h>

enum { ROUNDS = 31, COUNT = 4096 };

static double thread_ns(void) {
    struct timespec t;
    clock_gettime(CLOCK_THREAD_CPUTIME_ID, &t);
    return (double)t.tv_sec * 1e9 + (double)t.tv_nsec;
}

static int by_size(const void *a, const void *b) {
    double x = *(const double *)a, y = *(const double *)b;
    return (x > y) - (x < y);
}

static double median(double *v) {
    qsort(v, ROUNDS, sizeof *v, by_size);
    return v[ROUNDS / 2];
}

/* One line of the table: both medians per item, and the port's over the other's. `port` and `other` each do `items` items. */
static void compare(const char *name, void (*port)(void), void (*other)(void), double items) {
    double p[ROUNDS], o[ROUNDS];
    port();
    other();
    for (int i = 0; i < ROUNDS; i++) {
        double t = thread_ns();
        port();
        double u = thread_ns();
        other();
        double v = thread_ns();
        p[i] = (u - t) / items;
        o[i] = (v - u) / items;
    }
    double a = median(p), b = median(o);
    printf("%-32s %9.2f %9.2f %7.2f\n", name, a, b, a / b);
}

/* Marsaglia's xorshift64, so that every run has the same arguments. */
static uint64_t random_state = 0x9e3779b97f4a7c15u;

static uint64_t random_bits(void) {
    random_state ^= random_state << 13;
    random_state ^= random_state >> 7;
    random_state ^= random_state << 17;
    return random_state;
}

/* A random normal double whose exponent's field is from lo to below hi. */
static double random_normal(uint64_t lo, uint64_t hi) {
    uint64_t b = (random_bits() & 0x800fffffffffffffu) | ((lo + random_bits() % (hi - lo)) << 52);
    double x;
    memcpy(&x, &b, 8);
    return x;
}
#endif
