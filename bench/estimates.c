/* The frequency estimate and the signal-to-noise estimate beside the Rust's (platform functions), over 1,000 samples of a noisy carrier. */
#include "../reference/reference.h"
#include "clock.h"
#include <math.h>

double measured_estimate(const float *, size_t, double);
double measured_snr(const float *, size_t);

enum { PAIRS = 1000, TIMES = 20 };
static float samples[2 * PAIRS];
static volatile double sink;

static void port_estimate(void) { for (int i = 0; i < TIMES; i++) sink = measured_estimate(samples, 2 * PAIRS, 100000.0); }
static void rust_estimate(void) { for (int i = 0; i < TIMES; i++) sink = refp_estimate(samples, 2 * PAIRS, 100000.0); }
static void port_snr(void) { for (int i = 0; i < TIMES; i++) sink = measured_snr(samples, 2 * PAIRS); }
static void rust_snr(void) { for (int i = 0; i < TIMES; i++) sink = refp_snr(samples, 2 * PAIRS); }

int main(void) {
    for (int i = 0; i < PAIRS; i++) {
        double a = 0.3 * i, noise = 0.1 * ((double)(random_bits() >> 11) * 0x1p-53 - 0.5);
        samples[2 * i] = (float)(cos(a) + noise);
        samples[2 * i + 1] = (float)(sin(a) - noise);
    }
    printf("%-32s %9s %9s %7s\n", "over 1,000 samples", "port ns", "Rust ns", "ratio");
    compare("frequency estimate", port_estimate, rust_estimate, TIMES);
    compare("SNR, and all beside it", port_snr, rust_snr, TIMES);
    return 0;
}
