/* What a careless caller does, through include/gibsumac.h: settings and lengths outside their limits, samples that are no numbers, calls out of turn, flags
 * that are none, channels written by hand. Each call has to answer, a refused one by its number, and then the channel has to be the one given, field by
 * field, and all lent memory as it was. checks/callers builds this as C and as C++, with the sanitizers where they link, and runs it. */
#include <fenv.h>
#include <float.h>
#include <math.h>
#include <stdio.h>
#include <string.h>

#include "gibsumac.h"

static int tried, failed;

static void expect(const char *what, bool holds) {
    tried++;
    if (!holds) {
        failed++;
        printf("FAILED: %s\n", what);
    }
}

static void expect_number(const char *what, uint64_t is, uint64_t wanted) {
    expect(what, is == wanted);
    if (is != wanted)
        printf("        %llu, expected %llu\n", (unsigned long long)is, (unsigned long long)wanted);
}

/* ---- the same, field by field: bits, with all NaN one */

static bool same(double a, double b) { return memcmp(&a, &b, sizeof a) == 0 || (a != a && b != b); }

static bool all_same(const double *a, const double *b, size_t n) {
    for (size_t i = 0; i < n; i++)
        if (!same(a[i], b[i]))
            return false;
    return true;
}

static bool same_tracker(const gibsumac_tracker *a, const gibsumac_tracker *b) {
    return a->modulation == b->modulation && all_same(&a->tuning.q_phase, &b->tuning.q_phase, 6) && a->tuning.adaptive_ekf == b->tuning.adaptive_ekf &&
           a->tuning.dual_lock == b->tuning.dual_lock && all_same(a->x, b->x, 6) && all_same(a->p, b->p, 36) && same(a->envelope_ema, b->envelope_ema) &&
           a->power.pushed == b->power.pushed && same(a->power.sum_abs_i, b->power.sum_abs_i) && same(a->power.sum_q_sq, b->power.sum_q_sq) &&
           same(a->lock_metric, b->lock_metric) && a->is_locked == b->is_locked && a->convergence_guard == b->convergence_guard;
}

static bool same_channel(const gibsumac_channel *a, const gibsumac_channel *b) {
    return a->setup.rate == b->setup.rate && a->setup.factor == b->setup.factor && a->setup.bank == b->setup.bank && a->setup.two == b->setup.two &&
           a->idle == b->idle && all_same(&a->carriers.nominal, &b->carriers.nominal, 4) && same_tracker(&a->pll, &b->pll) &&
           same_tracker(&a->t0, &b->t0) && same_tracker(&a->t1, &b->t1) && same_tracker(&a->t2, &b->t2) && a->active_idx == b->active_idx &&
           a->in_fade == b->in_fade && a->fade_counter == b->fade_counter && a->max_fade_steps == b->max_fade_steps &&
           a->terminated_in_fade == b->terminated_in_fade && a->ever_locked == b->ever_locked &&
           same((double)a->last_snr, (double)b->last_snr) && a->is_locked == b->is_locked && all_same(&a->reading.phase, &b->reading.phase, 4);
}

/* ---- what is lent */

static float first[8200], second[8200], first_before[8200], second_before[8200];
static double windows[8200], windows_before[8200];

static void fill(void) {
    for (int i = 0; i < 8200; i++) {
        first[i] = i % 2 == 0 ? 0.6f : -0.3f;
        second[i] = i % 2 == 0 ? -0.2f : 0.5f;
        windows[i] = i % 7;
    }
}

static void remember(void) {
    memcpy(first_before, first, sizeof first);
    memcpy(second_before, second, sizeof second);
    memcpy(windows_before, windows, sizeof windows);
}

static bool untouched(void) {
    return memcmp(first, first_before, sizeof first) == 0 && memcmp(second, second_before, sizeof second) == 0 &&
           memcmp(windows, windows_before, sizeof windows) == 0;
}

/* ---- calls */

static gibsumac_settings settings_of(uint64_t rate, uint64_t factor, uint64_t modulation, uint64_t fade, double ratio) {
    gibsumac_settings s;
    memset(&s, 0, sizeof s);
    s.rate = rate;
    s.factor = factor;
    s.modulation = modulation;
    s.fade = fade;
    s.ratio = ratio;
    return s;
}

static gibsumac_carriers carriers_of(double nominal, double target, double target2, double frequency2) {
    gibsumac_carriers c;
    c.nominal = nominal;
    c.target = target;
    c.target2 = target2;
    c.frequency2 = frequency2;
    return c;
}

static gibsumac_channel opened(bool bank, bool two) {
    gibsumac_settings s = settings_of(40000, 1, 0, 5, 1.5);
    s.adaptive = s.dual_lock = true;
    s.bank = bank;
    s.two = two;
    gibsumac_returned r = gibsumac_open(s);
    expect_number("a usual open", r.refusal, GIBSUMAC_ACCEPTED);
    return r.channel;
}

static gibsumac_channel assigned(bool bank, bool two) {
    gibsumac_returned r = gibsumac_assign(opened(bank, two), carriers_of(0.0, 137.5e6, 0.0, 0.0));
    expect_number("a usual assign", r.refusal, GIBSUMAC_ACCEPTED);
    return r.channel;
}

static void refuses_open(const char *what, uint64_t number, gibsumac_settings s) {
    gibsumac_returned r = gibsumac_open(s), plain = gibsumac_open(settings_of(1000, 1, 0, 0, 1.0));
    expect_number(what, r.refusal, number);
    expect(what, number == 0 || same_channel(&r.channel, &plain.channel));
}

static void refuses_assign(const char *what, uint64_t number, gibsumac_channel c, gibsumac_carriers carriers) {
    gibsumac_returned r = gibsumac_assign(c, carriers);
    expect_number(what, r.refusal, number);
    expect(what, number == 0 || same_channel(&r.channel, &c));
}

/* A refused block: the answer says nothing else, and all is as it was. */
static void refuses_block(const char *what, uint64_t number, gibsumac_channel c, uint64_t flag, size_t n, size_t m, size_t w) {
    remember();
    gibsumac_blocked r = gibsumac_block(c, flag, first, n, second, m, windows, w);
    expect_number(what, r.answer.refusal, number);
    expect(what, same_channel(&r.channel, &c) && untouched());
    expect(what, !r.answer.locked && r.answer.tracker == GIBSUMAC_NO_TRACKER && !r.answer.in_fade && r.answer.fade_count == 0 && !r.answer.ended);
    expect(what, r.answer.phase == 0.0 && r.answer.frequency == 0.0 && r.answer.snr == 0.0 && r.answer.electrons == 0.0 && r.answer.metric == 0.0);
}

/* ---- the limits */

static void settings(void) {
    const uint64_t most = UINT64_MAX;
    refuses_open("rate 999", 1, settings_of(999, 1, 0, 0, 1.0));
    refuses_open("rate 1,000", 0, settings_of(1000, 1, 0, 0, 1.0));
    refuses_open("rate 100,000", 0, settings_of(100000, 1, 0, 0, 1.0));
    refuses_open("rate 100,001", 1, settings_of(100001, 1, 0, 0, 1.0));
    refuses_open("factor 0", 1, settings_of(40000, 0, 0, 0, 1.0));
    refuses_open("factor 4,096", 0, settings_of(4096000, 4096, 0, 0, 1.0));
    refuses_open("factor 4,097", 1, settings_of(4097000, 4097, 0, 0, 1.0));
    refuses_open("the largest rate and factor", 1, settings_of(most, most, 0, 0, 1.0));
    refuses_open("modulation 3", 2, settings_of(40000, 1, 3, 0, 1.0));
    refuses_open("modulation 2^32", 2, settings_of(40000, 1, 1ull << 32, 0, 1.0));
    refuses_open("the largest modulation", 2, settings_of(40000, 1, most, 0, 1.0));
    refuses_open("fade 86,400", 0, settings_of(40000, 1, 0, 86400, 1.0));
    refuses_open("fade 86,401", 3, settings_of(40000, 1, 0, 86401, 1.0));
    refuses_open("ratio left out", 4, settings_of(40000, 1, 0, 0, 0.0));
    refuses_open("ratio NaN", 4, settings_of(40000, 1, 0, 0, (double)NAN));
    refuses_open("ratio infinite", 4, settings_of(40000, 1, 0, 0, (double)INFINITY));
    refuses_open("ratio -1", 4, settings_of(40000, 1, 0, 0, -1.0));
    refuses_open("all wrong", 1, settings_of(0, 0, most, most, (double)NAN));
}

static void carriers(void) {
    gibsumac_channel c = opened(false, false), held = assigned(false, false);
    refuses_assign("MHz", 5, c, carriers_of(0.0, 137.5, 0.0, 0.0));
    refuses_assign("below 10^6", 5, c, carriers_of(999999.9, 0.0, 0.0, 0.0));
    refuses_assign("10^6 and 10^11", 0, c, carriers_of(1e6, 1e11, 0.0, 0.0));
    refuses_assign("above 10^11", 5, c, carriers_of(0.0, 0.0, 1.0000001e11, 0.0));
    refuses_assign("a negative one", 5, c, carriers_of(0.0, 0.0, 0.0, -137.5e6));
    refuses_assign("NaN", 5, c, carriers_of((double)NAN, 0.0, 0.0, 0.0));
    refuses_assign("an infinite one", 5, c, carriers_of(0.0, 0.0, 0.0, (double)INFINITY));
    refuses_assign("-0", 0, c, carriers_of(-0.0, -0.0, -0.0, -0.0));
    refuses_assign("assigned twice", 6, held, carriers_of(0.0, 137.5e6, 0.0, 0.0));
    refuses_assign("assigned twice, and MHz", 5, held, carriers_of(0.0, 137.5, 0.0, 0.0));
    refuses_assign("the channel of a refused open", 0, gibsumac_open(settings_of(0, 0, 0, 0, 0.0)).channel, carriers_of(0.0, 137.5e6, 0.0, 0.0));
}

static void lengths(bool bank) {
    gibsumac_channel c = assigned(bank, false), two = assigned(bank, true);
    refuses_block("flag 5", 7, c, 5, 0, 0, 8192);
    refuses_block("the largest flag", 7, c, UINT64_MAX, 0, 0, 8192);
    refuses_block("an odd list", 8, c, 1, 401, 0, 8192);
    refuses_block("4,097 pairs", 8, c, 1, 8194, 0, 8192);
    refuses_block("an odd second list", 8, two, 1, 400, 401, 8192);
    refuses_block("flag 2 with samples", 9, c, 2, 400, 0, 8192);
    refuses_block("flag 3 with samples", 9, c, 3, 400, 0, 8192);
    refuses_block("flag 4 with samples", 9, c, 4, 400, 0, 8192);
    refuses_block("a second list on one frequency", 10, c, 1, 400, 400, 8192);
    refuses_block("no second list on two", 10, two, 1, 400, 0, 8192);
    refuses_block("flag 3 with a second list alone", 10, two, 3, 0, 400, 8192);
    refuses_block("no window memory", 12, c, 1, 400, 0, 0);
    refuses_block("8,191 doubles", 12, c, 1, 400, 0, 8191);
    refuses_block("8,193 doubles", 12, c, 1, 400, 0, 8193);
    refuses_block("an Idle channel, flag 9", 7, opened(bank, false), 9, 0, 0, 8192);
}

static void samples(void) {
    const float odd[] = {NAN, INFINITY, -INFINITY, 1024.0002f, -FLT_MAX};
    gibsumac_channel c = assigned(true, false), two = assigned(false, true);
    for (size_t i = 0; i < sizeof odd / sizeof *odd; i++) {
        fill();
        first[399] = odd[i];
        refuses_block("a sample that is none", 11, c, 1, 400, 0, 8192);
        refuses_block("a sample that is none, flag 0", 11, c, 0, 400, 0, 8192);
        fill();
        second[0] = odd[i];
        refuses_block("a sample of the second list that is none", 11, two, 1, 400, 400, 8192);
    }
    fill();
    first[0] = 1024.0f;
    gibsumac_blocked r = gibsumac_block(c, 1, first, 400, second, 0, windows, 8192);
    expect_number("a sample of 1,024", r.answer.refusal, 0);
}

/* ---- out of turn */

static void turns(bool bank) {
    gibsumac_channel idle = opened(bank, false);
    for (uint64_t flag = 0; flag <= 4; flag++) {
        fill();
        remember();
        gibsumac_blocked r = gibsumac_block(idle, flag, first, flag > 1 ? 0 : 400, second, 0, windows, 8192);
        expect_number("a block before assign", r.answer.refusal, 0);
        expect("a block before assign changes nothing", same_channel(&r.channel, &idle) && untouched() && !r.answer.locked);
    }
    gibsumac_channel again = gibsumac_release(gibsumac_release(idle));
    expect("released twice before assign", again.idle);
    gibsumac_figures_of_bank f = gibsumac_figures(idle);
    expect("figures before assign", f.values[1] == 0.0f);
    gibsumac_channel c = assigned(bank, false);
    fill();
    gibsumac_blocked r = gibsumac_block(c, 1, first, 800, second, 0, windows, 8192);
    expect("a first block locks", r.answer.refusal == 0 && r.answer.locked);
    expect("its list is normalised", fabs(hypot((double)first[0], (double)first[1]) - 1.0) < 1e-6);
    gibsumac_blocked old = gibsumac_block(c, 1, first, 800, second, 0, windows, 8192);
    expect("a channel that is out of date answers", old.answer.refusal == 0);
    refuses_assign("assign in a pass", 6, r.channel, carriers_of(0.0, 137.5e6, 0.0, 0.0));
    expect("release makes Idle", gibsumac_release(r.channel).idle && !gibsumac_release(r.channel).is_locked);
}

/* ---- channels written by hand */

static void write_tracker(gibsumac_tracker *t, uint64_t whole, double number) {
    t->modulation = whole;
    for (int i = 0; i < 6; i++)
        (&t->tuning.q_phase)[i] = t->x[i] = number;
    for (int i = 0; i < 36; i++)
        t->p[i] = number;
    t->envelope_ema = t->power.sum_abs_i = t->power.sum_q_sq = t->lock_metric = number;
    t->power.pushed = t->convergence_guard = (size_t)whole;
    t->is_locked = true;
}

static gibsumac_channel written(uint64_t whole, double number, bool bank, bool idle) {
    gibsumac_channel c = opened(bank, false);
    gibsumac_tracker *all[] = {&c.pll, &c.t0, &c.t1, &c.t2};
    for (int i = 0; i < 4; i++)
        write_tracker(all[i], whole + (uint64_t)i, number);
    c.setup.rate = c.setup.factor = whole;
    c.idle = idle;
    c.carriers = carriers_of(number, number, number, number);
    c.active_idx = c.fade_counter = c.max_fade_steps = whole;
    c.in_fade = c.is_locked = true;
    c.last_snr = (float)number;
    c.reading.phase = c.reading.frequency = c.reading.snr = c.reading.electrons = number;
    return c;
}

static void by_hand(gibsumac_channel c) {
    fill();
    refuses_block("by hand, flag 5", 7, c, 5, 0, 0, 8192);
    refuses_block("by hand, an odd list", 8, c, 1, 3, 0, 8192);
    refuses_block("by hand, other window memory", 12, c, 1, 0, 0, 1);
    refuses_assign("by hand, a frequency", 5, c, carriers_of(1.0, 0.0, 0.0, 0.0));
    if (!c.idle)
        refuses_assign("by hand, assigned", 6, c, carriers_of(0.0, 0.0, 0.0, 0.0));
    for (uint64_t flag = 0; flag <= 4; flag++) {
        fill();
        gibsumac_blocked r = gibsumac_block(c, flag, first, flag > 1 ? 0 : 64, second, 0, windows, 8192);
        expect_number("by hand, a block", r.answer.refusal, 0);
        expect("by hand, a modulation is a number of the table afterwards", r.channel.pll.modulation <= 2 && r.channel.t2.modulation <= 2);
    }
    expect("by hand, release", gibsumac_release(c).idle);
    gibsumac_figures_of_bank f = gibsumac_figures(c);
    expect("by hand, figures", f.values[0] == f.values[0] || f.values[0] != f.values[0]);
}

static void channels(void) {
    const uint64_t wholes[] = {0, 1, 3, 7, 4097, 1ull << 32, UINT64_MAX - 3};
    const double numbers[] = {0.0, -0.0, (double)NAN, (double)INFINITY, -DBL_MAX, DBL_TRUE_MIN, 1e300};
    for (size_t i = 0; i < sizeof wholes / sizeof *wholes; i++)
        for (size_t j = 0; j < sizeof numbers / sizeof *numbers; j++)
            for (int k = 0; k < 4; k++)
                by_hand(written(wholes[i], numbers[j], k % 2 == 0, k / 2 == 0));
}

/* ---- the receiver */

static gibsumac_receiver receiver;

static void tracked(void) {
    gibsumac_settings s = settings_of(40000, 1, 0, 5, 1.0);
    s.bank = true;
    expect_number("a receiver opened", gibsumac_receiver_open(&receiver, s), 0);
    expect_number("a receiver assigned", gibsumac_receiver_assign(&receiver, carriers_of(0.0, 137.5e6, 0.0, 0.0)), 0);
    fill();
    expect("a block", gibsumac_track(&receiver, first, 800).locked && receiver.channel.is_locked);
    fill();
    first[7] = 2.0f;
    gibsumac_answer a = gibsumac_track(&receiver, first, 800);
    expect("a clipped block", a.refusal == 0 && a.snr == 0.5);
    first[8] = NAN;
    a = gibsumac_track(&receiver, first, 800);
    expect("a NaN", a.refusal == 0 && a.snr == 0.0);
    a = gibsumac_track(&receiver, NULL, 0);
    expect("no samples, and null", a.refusal == 0 && a.snr == -5.0);
    expect_number("a clipped block of odd length", gibsumac_track(&receiver, first, 801).refusal, 8);
    expect_number("4,097 pairs", gibsumac_track(&receiver, first, 8194).refusal, 8);
    expect_number("assigned twice", gibsumac_receiver_assign(&receiver, carriers_of(0.0, 0.0, 0.0, 0.0)), 6);
    expect("the channel is still the receiver's", receiver.channel.carriers.target == 137.5e6);
    gibsumac_receiver_release(&receiver);
    expect("released", receiver.channel.idle && gibsumac_receiver_figures(&receiver).values[1] == 0.0f);
    expect_number("a receiver that is refused", gibsumac_receiver_open(&receiver, settings_of(40000, 1, 0, 0, 0.0)), 4);
    s.two = true;
    expect_number("two frequencies", gibsumac_receiver_open(&receiver, s), 0);
    expect_number("two frequencies assigned", gibsumac_receiver_assign(&receiver, carriers_of(150e6, 0.0, 0.0, 400e6)), 0);
    fill();
    expect("two lists", gibsumac_track_two(&receiver, first, 800, second, 800).locked);
    second[3] = -3.0f;
    a = gibsumac_track_two(&receiver, first, 800, second, 800);
    expect("the second list is clipped", a.refusal == 0 && a.snr == 0.5);
    expect_number("one list on two frequencies", gibsumac_track(&receiver, first, 800).refusal, 10);
    expect_number("no samples on two", gibsumac_track_two(&receiver, NULL, 0, NULL, 0).refusal, 0);
}

static void surveyed(void) {
    const float nan_last[] = {0.0f, 0.0f, NAN}, clipped[] = {1.0f, 1.0f}, quiet[] = {1e-7f, 0.0f};
    expect_number("nothing", gibsumac_survey(first, 0), 4);
    expect_number("the last float of an odd list is left out", gibsumac_survey(nan_last, 3), 0);
    expect_number("an odd list of one", gibsumac_survey(clipped, 1), 4);
    expect_number("clipped", gibsumac_survey(clipped, 2), 3);
    expect_number("quiet", gibsumac_survey(quiet, 2), 0);
}

/* The header says that the rounding mode is the caller's duty, since it is seen. */
static double frequency_rounded(int mode) {
    gibsumac_channel c = gibsumac_assign(opened(false, false), carriers_of(0.0, 0.0, 0.0, 0.0)).channel; /* so the answer is the offset alone */
    for (int i = 0; i < 400; i++) {
        first[2 * i] = (float)cos(0.03 * i);
        first[2 * i + 1] = (float)sin(0.03 * i);
    }
    fesetround(mode);
    gibsumac_blocked r = gibsumac_block(c, 1, first, 800, second, 0, windows, 8192);
    fesetround(FE_TONEAREST);
    return r.answer.frequency;
}

int main(void) {
    expect("the archive of this header", gibsumac_matches());
    fill();
    settings();
    carriers();
    lengths(false);
    lengths(true);
    samples();
    turns(false);
    turns(true);
    channels();
    tracked();
    surveyed();
    expect("a rounding mode changes bits, as the header says", frequency_rounded(FE_UPWARD) != frequency_rounded(FE_TONEAREST));
    printf("%d expectations, %d failed\n", tried, failed);
    return failed != 0;
}
