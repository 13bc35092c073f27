/* The float helpers beside the C compiler's own, over random normal arguments. Both sides are called, not inlined. */
#include "clock.h"
#include <math.h>

double measured_sqrt(double);
float measured_f64_to_f32(double);
double measured_rem_euclid(double, double);
double measured_round(double);
uint64_t measured_to_usize(double);
double measured_max(double, double);
double measured_clamp(double, double, double);
double measured_abs(double);
double measured_hypot(double, double);
float measured_hypotf(float, float);
uint64_t measured_survey(const float *, size_t);

#define PLAIN __attribute__((noinline)) static
PLAIN double c_sqrt(double x) { return sqrt(x); }
PLAIN float c_f64_to_f32(double x) { return (float)x; }
PLAIN double c_rem_euclid(double x, double y) { double r = fmod(x, y); return r < 0 ? r + fabs(y) : r; }
PLAIN double c_round(double x) { return round(x); }
PLAIN uint64_t c_to_usize(double x) { return x >= 18446744073709551616.0 ? ~(uint64_t)0 : x >= 1.0 ? (uint64_t)x : 0; }
PLAIN double c_max(double x, double y) { return fmax(x, y); }
PLAIN double c_clamp(double x, double lo, double hi) { return x < lo ? lo : hi < x ? hi : x; }
PLAIN double c_abs(double x) { return fabs(x); }
PLAIN double c_hypot(double x, double y) { return sqrt(x * x + y * y); }
PLAIN float c_hypotf(float x, float y) { double a = x, b = y; return (float)sqrt(a * a + b * b); }
PLAIN uint64_t c_survey(const float *s, size_t n) {
    if (n < 2) return 4;
    int nan = 0, clipped = 0, signal = 0;
    for (size_t i = 0; i + 1 < n; i += 2) {
        float m = s[i] * s[i] + s[i + 1] * s[i + 1];
        nan |= (s[i] != s[i]) | (s[i + 1] != s[i + 1]);
        clipped |= m > 1.98f;
        signal |= m > 1e-12f;
    }
    return nan ? 2 : clipped ? 3 : signal ? 1 : 0;
}

static double any[COUNT], positive[COUNT], phase[COUNT], amplitude[COUNT];
static float samples[2 * COUNT];
static volatile double sink;

#define SIDES(name, sum, item)                                                              \
    static void port_##name(void) { sum s = 0; for (int i = 0; i < COUNT; i++) s += measured_##name item; sink = (double)s; } \
    static void other_##name(void) { sum s = 0; for (int i = 0; i < COUNT; i++) s += c_##name item; sink = (double)s; }
SIDES(sqrt, double, (positive[i]))
SIDES(f64_to_f32, float, (any[i]))
SIDES(rem_euclid, double, (phase[i], 6.283185307179586))
SIDES(round, double, (amplitude[i] * 1000))
SIDES(to_usize, uint64_t, (amplitude[i] * 1e6))
SIDES(max, double, (any[i], positive[i]))
SIDES(clamp, double, (any[i], -1.0, 1.0))
SIDES(abs, double, (any[i]))
SIDES(hypot, double, (amplitude[i], phase[i]))
SIDES(hypotf, float, (samples[2 * i], samples[2 * i + 1]))
static void port_survey(void) { sink = (double)measured_survey(samples, 2 * COUNT); }
static void other_survey(void) { sink = (double)c_survey(samples, 2 * COUNT); }

int main(void) {
    for (int i = 0; i < COUNT; i++) {
        any[i] = random_normal(1023 - 30, 1023 + 30);
        positive[i] = fabs(random_normal(1, 2046));
        phase[i] = random_normal(1023 - 8, 1023 + 2);
        amplitude[i] = fabs(random_normal(1023 - 4, 1023 + 1));
        samples[2 * i] = (float)random_normal(1023 - 6, 1022);
        samples[2 * i + 1] = (float)random_normal(1023 - 6, 1022);
    }
    printf("%-32s %9s %9s %7s\n", "float helper", "port ns", "C ns", "ratio");
    compare("sqrt", port_sqrt, other_sqrt, COUNT);
    compare("f64 to f32", port_f64_to_f32, other_f64_to_f32, COUNT);
    compare("rem_euclid by a turn", port_rem_euclid, other_rem_euclid, COUNT);
    compare("round", port_round, other_round, COUNT);
    compare("as usize", port_to_usize, other_to_usize, COUNT);
    compare("max", port_max, other_max, COUNT);
    compare("clamp", port_clamp, other_clamp, COUNT);
    compare("abs", port_abs, other_abs, COUNT);
    compare("hypot f64", port_hypot, other_hypot, COUNT);
    compare("hypot f32", port_hypotf, other_hypotf, COUNT);
    compare("survey, per pair", port_survey, other_survey, COUNT);
    return 0;
}
