/* The patched Rust as a library: libreference.so (or libreference.a), made by reference/build.
 *
 * Three builds of one text stand in it, each under its own prefix:
 *
 *   refx_  the port's exported elementary functions (the reference)
 *   refp_  the platform's functions and the source's own queue as window (nearest to the
 *          unpatched Rust; speed is measured against it)
 *   refc_  refx_ with branch counters; refc_counts() prints them on standard error
 *
 * All have the functions of REFERENCE_BUILD below. Every pointer must be valid; a list of
 * length 0 may be a null pointer. Sample lists are interleaved floats, re then im, and their
 * length counts floats, so that an odd one can be refused. A function on built values refuses
 * nothing and looks at no limit: NaN, infinities and zeros of either sign may stand anywhere.
 *
 * Link the shared library where the port's static library is linked too: it keeps its own copy
 * of the exported functions to itself, while libreference.a brings them along a second time.
 */
#ifndef REFERENCE_H
#define REFERENCE_H

#include <stddef.h>
#include <stdint.h>

/* Settings of an open call. Switches: 0 off, anything else on. Modulation: 0 carrier, 1 BPSK,
 * 2 QPSK. Fade in whole seconds. */
typedef struct {
    uint64_t rate, factor, modulation;
    uint32_t adaptive, dual_lock, bank, two;
    uint64_t fade;
    double ratio;
} ref_settings;

/* A block's answer. tracker is 3 for none. */
typedef struct {
    uint32_t refusal, locked, tracker, in_fade;
    uint64_t fade_count;
    uint32_t ended, unused;
    double phase, frequency, snr, electrons, metric;
} ref_answer;

/* A tracker as plain numbers; p by rows. Its window is 2,048 doubles lent beside it: 1,024
 * pairs (absolute I, Q squared), the pair at place k being the numbers 2k and 2k + 1. The
 * oldest pair is at window_start; window_fill (at most 1,024) pairs follow round the ring.
 * x: phase, frequency, chirp, then the same for channel 2. */
typedef struct {
    double x[6], p[36];
    double q_phase, q_freq, q_chirp, r_meas, ts;
    double metric, envelope, sum_abs_i, sum_q_sq, ratio;
    uint64_t guard;
    uint32_t locked, modulation, adaptive, dual_lock, window_start, window_fill;
} ref_tracker;

/* A whole channel, so that one can be built that no calls make. Without a bank the trackers
 * are not read; when read back they then repeat pll. */
typedef struct {
    uint64_t rate, factor;
    uint32_t modulation, bank, two, assigned;
    double nominal, target, target2, frequency2;
    uint32_t locked, ever_locked;
    float last_snr;
    uint32_t tracker, in_fade, ended;
    uint64_t fade_count, fade_steps;
    double phase, frequency, snr, electrons;
    ref_tracker pll, trackers[3];
} ref_built;

typedef struct ref_channel ref_channel; /* opaque */

/* open      answers the refusal number (0, or 1 to 4) and always gives a channel
 * close     frees a channel; it is no call of the port
 * assign    0, 5 or 6
 * block     the refusal number; both lists are changed in place as the source changes them.
 *           window: 8,192 doubles, pll_tracker's stretch of 2,048 first, then the bank's three.
 *           refx_ and refc_ take the windows from it and give them back to it; refp_ looks at
 *           its length only and keeps windows of its own.
 * figures   twelve floats
 * build     a channel from plain numbers; read is the other way. Window contents are those
 *           lent to the next block (refp_: zeros)
 *
 * tracker_new      as after the source's `new` at this decimated rate
 * tracker_correct  one correction of channel 0 or 1: 1 and the pair of in-phase value and power
 *                  ratio, or 0 for lost, the two then not written
 * tracker_track    a prediction and an update for each sample; second is null for one frequency
 * estimate         the frequency estimate, m = 10; the source stops the program if the rate is NaN
 *                  or below 0
 * snr, normalise   of one list
 * survey           flag 0 to 4 of raw samples, an odd last number unread
 * discrepancy, differences, features   of a bank of three trackers (3 and 12 floats answered)
 */
#define REFERENCE_BUILD(prefix)                                                                  \
    uint32_t prefix##open(const ref_settings *, ref_channel **);                                 \
    void prefix##close(ref_channel *);                                                           \
    uint32_t prefix##assign(ref_channel *, double nominal, double target, double target2,        \
                            double frequency2);                                                  \
    uint32_t prefix##block(ref_channel *, uint64_t flag, float *first, size_t first_length,      \
                           float *second, size_t second_length, double *window,                  \
                           size_t window_length, ref_answer *);                                  \
    void prefix##release(ref_channel *);                                                         \
    void prefix##figures(const ref_channel *, float *twelve);                                    \
    ref_channel *prefix##build(const ref_built *);                                               \
    void prefix##read(const ref_channel *, ref_built *);                                         \
    void prefix##tracker_new(double rate, uint64_t modulation, ref_tracker *);                   \
    void prefix##tracker_reset(ref_tracker *, double *window, double phase, double frequency,    \
                               double chirp);                                                    \
    void prefix##tracker_predict(ref_tracker *);                                                 \
    uint32_t prefix##tracker_correct(ref_tracker *, double *window, uint32_t channel,            \
                                     const float *sample, double *in_phase, double *ratio);      \
    void prefix##tracker_update(ref_tracker *, double *window, const float *sample);             \
    void prefix##tracker_update_dual(ref_tracker *, double *window, const float *sample1,        \
                                     const float *sample2);                                      \
    void prefix##tracker_track(ref_tracker *, double *window, const float *first,                \
                               const float *second, size_t length);                              \
    double prefix##estimate(const float *samples, size_t length, double rate);                   \
    double prefix##snr(const float *samples, size_t length);                                     \
    uint64_t prefix##survey(const float *raw, size_t length);                                    \
    void prefix##normalise(float *samples, size_t length);                                       \
    float prefix##discrepancy(const ref_tracker *three);                                         \
    void prefix##differences(const ref_tracker *three, float *out);                              \
    void prefix##features(const ref_tracker *three, float *twelve);                              \
    double prefix##cancel(double f1, double f2, double offset1, double offset2);                 \
    void prefix##counts(void);

REFERENCE_BUILD(refx_)
REFERENCE_BUILD(refp_)
REFERENCE_BUILD(refc_)

#endif
