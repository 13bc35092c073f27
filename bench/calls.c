/* Whole block calls beside the Rust's (platform functions), per sample: each modulation, without and with a bank, one frequency and two. A pass
 * of blocks from open and assign on, so that the refusals, the start, the normalisation and the signal-to-noise ratio are in it. */
#include "../include/gibsumac.h"
#include "../reference/reference.h"
#include "signal.h"

enum { PAIRS = 1000, BLOCKS = 6, WINDOW = 8192 };
static float first[BLOCKS][2 * PAIRS], second[BLOCKS][2 * PAIRS], list1[2 * PAIRS], list2[2 * PAIRS];
static double window[WINDOW];
static int modulation, bank, two;
static volatile double sink;

static void lend(int block) {
    memcpy(list1, first[block], sizeof list1);
    memcpy(list2, second[block], sizeof list2);
}

static void port(void) {
    gibsumac_settings s = {.rate = 40000, .factor = 1, .modulation = (uint64_t)modulation, .adaptive = true, .dual_lock = true,
                           .bank = bank != 0, .two = two != 0, .fade = 5, .ratio = 1.0};
    gibsumac_carriers f = {137500000.0, 137500000.0, two ? 400000000.0 : 0.0, two ? 400000000.0 : 0.0};
    gibsumac_channel c = gibsumac_assign(gibsumac_open(s).channel, f).channel;
    for (int i = 0; i < BLOCKS; i++) {
        lend(i);
        gibsumac_blocked r = gibsumac_block(c, 1, list1, 2 * PAIRS, list2, two ? 2 * PAIRS : 0, window, WINDOW);
        c = r.channel;
        sink = r.answer.frequency;
    }
}

static void rust(void) {
    ref_settings s = {40000, 1, (uint64_t)modulation, 1, 1, (uint32_t)bank, (uint32_t)two, 5, 1.0};
    ref_channel *c;
    refp_open(&s, &c);
    refp_assign(c, 137500000.0, 137500000.0, two ? 400000000.0 : 0.0, two ? 400000000.0 : 0.0);
    for (int i = 0; i < BLOCKS; i++) {
        ref_answer a;
        lend(i);
        refp_block(c, 1, list1, 2 * PAIRS, list2, two ? 2 * PAIRS : 0, window, WINDOW, &a);
        sink = a.frequency;
    }
    refp_close(c);
}

int main(void) {
    static const char *names[] = {"carrier", "BPSK", "QPSK"};
    printf("%-32s %9s %9s %7s\n", "block calls, per sample", "port ns", "Rust ns", "ratio");
    for (two = 0; two < 2; two++) {
        for (bank = 0; bank < 2; bank++) {
            for (modulation = 0; modulation < 3; modulation++) {
                char name[48];
                for (int i = 0; i < BLOCKS; i++) {
                    make_signal(first[i], PAIRS, modulation, 0.01, 0.3);
                    make_signal(second[i], PAIRS, modulation, 0.011, 0.3);
                }
                snprintf(name, sizeof name, "track %s bank-%s%s", names[modulation], bank ? "on" : "off", two ? " two" : "");
                compare(name, port, rust, (double)PAIRS * BLOCKS);
            }
        }
    }
    return 0;
}
