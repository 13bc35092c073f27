/* reference.h as C sees it: the same sizes as in Rust, and a call of each kind. */
#include "../reference.h"
#include <math.h>
#include <stdio.h>
#include <stdlib.h>

static void expect(int truth, const char *what)
{
    if (!truth) {
        fprintf(stderr, "header: %s\n", what);
        exit(1);
    }
}

static double window[8192];

#define RUN(prefix)                                                                     \
    do {                                                                                \
        ref_settings s = {40000, 1, 0, 1, 1, 1, 0, 5, 1.0};                             \
        ref_channel *c = 0;                                                             \
        ref_answer a;                                                                   \
        ref_built b;                                                                    \
        float list[4] = {3.0f, 4.0f, 0.0f, -0.0f}, twelve[12];                          \
        expect(prefix##open(&s, &c) == 0 && c, "open");                                 \
        expect(prefix##assign(c, 0.0, 137.5e6, 0.0, 0.0) == 0, "assign");               \
        expect(prefix##assign(c, 0.0, 137.5e6, 0.0, 0.0) == 6, "assign again");         \
        expect(prefix##block(c, 1, list, 4, 0, 0, window, 8192, &a) == 0, "block");     \
        expect(a.locked == 1 && a.tracker == 0 && a.metric > 0.49, "answer");           \
        expect(list[0] == 0.6f && list[1] == 0.8f && !signbit(list[3]), "normalised");  \
        expect(prefix##block(c, 1, list, 3, 0, 0, window, 8192, &a) == 8, "odd list");  \
        expect(a.tracker == 3 && a.refusal == 8, "refused answer");                     \
        prefix##read(c, &b);                                                            \
        expect(b.rate == 40000 && b.fade_steps == 5 && b.trackers[2].guard == 2046 &&   \
                   b.trackers[2].window_fill == 2 && b.pll.window_fill == 0,            \
               "read");                                                                 \
        prefix##figures(c, twelve);                                                     \
        expect(twelve[1] == 1.0f && twelve[0] > 0.49f, "figures");                      \
        prefix##release(c);                                                             \
        prefix##close(c);                                                               \
        expect(prefix##cancel(2.0, 1.0, 3.0, 0.0) == 4.0, "cancel");                    \
    } while (0)

int main(void)
{
    expect(sizeof(ref_settings) == 56, "size of ref_settings");
    expect(sizeof(ref_answer) == 72, "size of ref_answer");
    expect(sizeof(ref_tracker) == 448, "size of ref_tracker");
    expect(sizeof(ref_built) == 136 + 4 * sizeof(ref_tracker), "size of ref_built");
    RUN(refx_);
    RUN(refp_);
    RUN(refc_);
    puts("header: the three builds answer from C");
    return 0;
}
