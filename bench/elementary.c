/* The elementary functions beside libm's, over random arguments of the sizes that tracking has: angles below one turn, after a coast of minutes (10 to 2^20,
   each size as often) and of raw samples' size (10^9). Both sides are called, not inlined. */
#include "../include/gibsumac.h"
#include "clock.h"
#include <math.h>

static double angle[COUNT], coasted[COUNT], raw[COUNT], y[COUNT], x[COUNT], power[COUNT];
static float fy[COUNT], fx[COUNT];
static volatile double sink;

#define SIDES(name, kind, other, item)                                                                                          \
    static void port_##name##kind(void) { double s = 0; for (int i = 0; i < COUNT; i++) s += gibsumac_##name item; sink = s; }  \
    static void other_##name##kind(void) { double s = 0; for (int i = 0; i < COUNT; i++) s += other item; sink = s; }
SIDES(sin, , sin, (angle[i]))
SIDES(cos, , cos, (angle[i]))
SIDES(sin, _coasted, sin, (coasted[i]))
SIDES(cos, _coasted, cos, (coasted[i]))
SIDES(sin, _raw, sin, (raw[i]))
SIDES(cos, _raw, cos, (raw[i]))
SIDES(atan2, , atan2, (y[i], x[i]))
SIDES(log10, , log10, (power[i]))
SIDES(hypot, , hypot, (y[i], x[i]))
SIDES(hypotf, , hypotf, (fy[i], fx[i]))
SIDES(sqrt, , sqrt, (power[i]))

int main(void) {
    for (int i = 0; i < COUNT; i++) {
        double turn = (double)(random_bits() >> 11) * 0x1p-53;
        angle[i] = (2 * turn - 1) * 6.283185307179586;
        coasted[i] = (i % 2 ? 10 : -10) * pow(0x1p20 / 10, turn);
        raw[i] = (i % 2 ? 1e9 : -1e9) * (1 + turn);
        double direction = (double)(random_bits() >> 11) * 0x1p-53 * 6.283185307179586;
        y[i] = sin(direction);
        x[i] = cos(direction);
        fy[i] = (float)y[i];
        fx[i] = (float)x[i];
        power[i] = fabs(random_normal(1023 - 20, 1023 + 20));
    }
    printf("%-32s %9s %9s %7s\n", "elementary function", "port ns", "libm ns", "ratio");
    compare("sin below 2 pi", port_sin, other_sin, COUNT);
    compare("cos below 2 pi", port_cos, other_cos, COUNT);
    compare("sin, 10 to 2^20", port_sin_coasted, other_sin_coasted, COUNT);
    compare("cos, 10 to 2^20", port_cos_coasted, other_cos_coasted, COUNT);
    compare("sin, 1 to 2 times 10^9", port_sin_raw, other_sin_raw, COUNT);
    compare("cos, 1 to 2 times 10^9", port_cos_raw, other_cos_raw, COUNT);
    compare("atan2", port_atan2, other_atan2, COUNT);
    compare("log10", port_log10, other_log10, COUNT);
    compare("hypot", port_hypot, other_hypot, COUNT);
    compare("hypotf", port_hypotf, other_hypotf, COUNT);
    compare("sqrt", port_sqrt, other_sqrt, COUNT);
    return 0;
}
