/* A noisy carrier of one of the three modulations, normalised to size 1 as the channel hands it to a tracker. */
#ifndef SIGNAL_H
#define SIGNAL_H
#include "clock.h"
#include <math.h>

static double unit_random(void) { return (double)(random_bits() >> 11) * 0x1p-53; }

static void make_signal(float *samples, int pairs, int modulation, double step, double noise) {
    double phase = 6.283185307179586 * unit_random();
    int symbol = 0;
    for (int i = 0; i < pairs; i++) {
        if (i % 16 == 0) symbol = (int)(random_bits() % 4);
        phase += step;
        double turn = modulation == 0 ? 0 : modulation == 1 ? (symbol % 2) * 3.141592653589793 : symbol * 1.5707963267948966 + 0.7853981633974483;
        double re = cos(phase + turn) + noise * (unit_random() - 0.5);
        double im = sin(phase + turn) + noise * (unit_random() - 0.5);
        double size = sqrt(re * re + im * im);
        samples[2 * i] = (float)(re / size);
        samples[2 * i + 1] = (float)(im / size);
    }
}
#endif
