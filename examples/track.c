/* Tracks a pass through the C interface: a carrier that sweeps from 500 Hz downward, with the bank on, in blocks of 400 pairs at 40,000 Hz. Block 6 is
 * clipped, which the survey sees. examples/programs builds and runs it. */
#include <math.h>
#include <stdio.h>

#include "gibsumac.h"

enum { PAIRS = 400, BLOCKS = 10, CLIPPED = 6 };

/* The samples of a block, and where the carrier then is. */
static void receive(float samples[2 * PAIRS], double size, double *turn, double *hertz) {
    for (int i = 0; i < PAIRS; i++) {
        samples[2 * i] = (float)(size * cos(*turn));
        samples[2 * i + 1] = (float)(size * sin(*turn));
        *turn += 2.0 * 3.141592653589793 * *hertz / 40000.0;
        *hertz -= 0.01;
    }
}

static int refused(const char *call, uint64_t number) {
    fprintf(stderr, "%s refused %d\n", call, (int)number);
    return 1;
}

int main(void) {
    static gibsumac_receiver receiver; /* 67,504 bytes */
    gibsumac_settings settings = {
        .rate = 40000, .factor = 1, .modulation = GIBSUMAC_CARRIER, .adaptive = true, .dual_lock = true, .bank = true, .fade = 5, .ratio = 1.0};
    uint64_t number = gibsumac_receiver_open(&receiver, settings);
    if (number != GIBSUMAC_ACCEPTED)
        return refused("open", number);
    number = gibsumac_receiver_assign(&receiver, (gibsumac_carriers){.target = 137500000.0});
    if (number != GIBSUMAC_ACCEPTED)
        return refused("assign", number);
    double turn = 0.0, hertz = 500.0;
    printf("block locked tracker offset/Hz snr/dB metric\n");
    for (int block = 1; block <= BLOCKS; block++) {
        float samples[2 * PAIRS];
        receive(samples, block == CLIPPED ? 3.0 : 0.7, &turn, &hertz);
        gibsumac_answer a = gibsumac_track(&receiver, samples, 2 * PAIRS);
        if (a.refusal != GIBSUMAC_ACCEPTED)
            return refused("block", a.refusal);
        printf("%d %d %d %.3f %.1f %.3f\n", block, a.locked, (int)a.tracker, a.frequency - 137500000.0, a.snr, a.metric);
    }
    gibsumac_receiver_release(&receiver);
    return 0;
}
