/* Gibsumac: the C interface of the proved carrier-tracking core, for x86-64. `./install PREFIX` puts this header, libgibsumac.a and a pkg-config file into
 * PREFIX; or link crates/gibsumac/out/libgibsumac.a (`tools/library gibsumac`) and the C library's -lm. C11, or C++11 and later.
 *
 * In one page: open a channel (once), assign its carriers (once a pass), give it blocks of samples, release it (after the pass). Whoever would rather
 * hand in a pointer than carry the channel from call to call has a gibsumac_receiver, at the end of this file; a whole program is in docs/USING.md, with
 * what surprises.
 *
 * WHAT A CALLER GETS
 *
 * Nothing need be checked before a call: every function answers for every argument, and refuses by a number what lies outside its limits (the enum
 * gibsumac_refusal). A refused call returns the channel that it was given, each field as it was, and leaves all lent memory (open, which is given none,
 * returns one of 1,000 Hz). The same calls give the same
 * bits, on every machine and whatever other channels do: there is no state behind the functions, and they may be called from any number of threads, each
 * with its own lent memory.
 *
 * WHAT A CALLER OWES, since C itself cannot tell
 *
 * - A pointer is valid for the length beside it, aligned for its type (4 bytes for float, 8 for double), not null, and what it points to is initialised:
 *   window memory too, with any values. A list of length 0 needs no memory, but a pointer that is not null; the functions of gibsumac_receiver take null there.
 * - Memory that is lent for writing does not overlap other lent memory, and nobody else writes to lent memory during the call.
 * - A bool is 0 or 1 (in a struct that is not written by memset or from a file it always is).
 * - The floating-point environment is the default one: rounding to nearest, subnormal numbers kept, no traps. With fesetround(FE_UPWARD) a frequency's last
 *   bits changed. Code that is built or linked with -ffast-math (or -Ofast, or -funsafe-math-optimizations) may set "flush to zero" for the whole program
 *   at its start: do not link so, not even a shared library.
 * - Header and archive belong together: gibsumac_matches() tells.
 *
 * NaN goes in and out as a quiet NaN; its sign and payload are not kept. Compare channels by their fields and not by memcmp: the bytes between the fields
 * are anything. */
#ifndef GIBSUMAC_H
#define GIBSUMAC_H

#include <stdbool.h>
#include <stddef.h>
#include <stdint.h>

#ifdef __cplusplus
extern "C" {
#define GIBSUMAC_ASSERT static_assert
#else
#define GIBSUMAC_ASSERT _Static_assert
#endif

/* It goes up by one with each change of a struct, of a function, or of what a call answers. */
#define GIBSUMAC_VERSION 3

/* The most pairs (re, im) of a list, the floats of such a list, and the doubles of a channel's window memory. */
#define GIBSUMAC_MAX_PAIRS 4096
#define GIBSUMAC_MAX_FLOATS 8192
#define GIBSUMAC_WINDOWS 8192

/* Why a call is refused: the first cause that applies, in this order. 13 is a pass text's (docs/PASSTEXT.md) and comes from no function here. */
enum gibsumac_refusal {
    GIBSUMAC_ACCEPTED = 0,
    GIBSUMAC_RATE = 1,         /* open: factor outside 1 to 4,096, or rate below 1,000 x factor or above 100,000 x factor */
    GIBSUMAC_MODULATION = 2,   /* open: modulation over 2 */
    GIBSUMAC_FADE = 3,         /* open: fade over 86,400 */
    GIBSUMAC_RATIO = 4,        /* open: ratio not within 0.25 to 4 (so also where it is left out, which is 0, or NaN) */
    GIBSUMAC_FREQUENCY = 5,    /* assign: a frequency that is neither 0 nor within 10^6 to 10^11 Hz */
    GIBSUMAC_NOT_IDLE = 6,     /* assign: the channel is assigned; release it first */
    GIBSUMAC_FLAG = 7,         /* block: flag over 4 */
    GIBSUMAC_LENGTH = 8,       /* block: a list of odd length or of more than 8,192 floats */
    GIBSUMAC_NOT_EMPTY = 9,    /* block: flag 2, 3 or 4 with a first list that is not empty */
    GIBSUMAC_SECOND_LIST = 10, /* block: second list unlike the first in length (two frequencies), or not empty (one) */
    GIBSUMAC_SAMPLE = 11,      /* block: a component of either list not finite or over 1,024 in size */
    GIBSUMAC_MEMORY = 12,      /* block: window memory not 8,192 doubles long */
    GIBSUMAC_OTHER_HEADER = 1000 /* no refusal of the core: gibsumac_receiver_open alone answers it, where gibsumac_matches() does not hold */
};

/* What a block is given as. Flags 2, 3 and 4 take no samples: both lists are then empty, or the call is refused, 9 for the first and 10 for the second. */
enum gibsumac_flag {
    GIBSUMAC_NO_SIGNAL = 0, /* every tracker unlocks, a fade is over. Without samples it is a restart: the next flag 1 block starts anew */
    GIBSUMAC_SIGNAL = 1,    /* the samples are tracked */
    GIBSUMAC_NAN = 2,       /* a NaN among the raw samples */
    GIBSUMAC_CLIPPED = 3,   /* the raw samples were clipped */
    GIBSUMAC_NO_SAMPLES = 4 /* none came: all is held as it is, and no time passes for the trackers */
};

enum gibsumac_modulation { GIBSUMAC_CARRIER = 0, GIBSUMAC_BPSK = 1, GIBSUMAC_QPSK = 2 };

/* The number of a tracker where none is in use. */
#define GIBSUMAC_NO_TRACKER 3

/* ---- is this the archive of this header? */

/* GIBSUMAC_VERSION and sizeof(gibsumac_channel) of the archive that is linked. */
uint64_t gibsumac_version(void);
size_t gibsumac_channel_size(void);

/* ---- elementary functions. Each result is determined to the last bit; the bounds are proved. */

/* Sine and cosine of the exact truncated remainder of theta by 2 pi to 160 binary places: within 2^-40 of the Taylor sum to degree 42 there, for every
 * finite theta. Of a theta below 2^-16 in size the sine is theta; sin(-theta) is -sin(theta), and cos(-theta) is cos(theta). An infinity gives NaN. Beyond one
 * turn a call takes longer: up to 2^22 about twice, at 10^9 about three times as long. */
double gibsumac_sin(double theta);
double gibsumac_cos(double theta);

/* The angle of the point (x, y), from -pi to pi, with the signs and special cases of IEEE 754-2019; within 2^-40. */
double gibsumac_atan2(double y, double x);

/* The common logarithm, within 2^-36: negative below 1, +0 at 1, positive above; -infinity of either zero, NaN below zero. */
double gibsumac_log10(double x);

/* The square root of the double sum of squares, each operation rounded to nearest. Not C's hypot: it can overflow, and infinity with NaN gives
 * NaN. For floats the result is rounded to float. */
double gibsumac_hypot(double x, double y);
float gibsumac_hypotf(float x, float y);

/* The square root, rounded to nearest, ties to even. */
double gibsumac_sqrt(double x);

/* ---- the channel
 *
 * Lists of samples are interleaved floats, re then im; their length counts floats. Full scale is 1. A channel is a plain value of 1,968 bytes: it goes
 * into a call, and the one that comes back is the channel from then on (`c = r.channel`; the one given is out of date). Its fields may be read; whoever
 * writes them still gets an answer to every call, for the channel that they say: a modulation over 2 counts as 2, and a tracker in use over 3 as none. */

/* What open takes. */
typedef struct {
    uint64_t rate;       /* sample rate before decimation, Hz; rate / factor, the decimated rate, is from 1,000 to 100,000 Hz */
    uint64_t factor;     /* decimation factor, 1 to 4,096 */
    uint64_t modulation; /* enum gibsumac_modulation */
    bool adaptive;       /* process noise grows while the lock metric is low */
    bool dual_lock;      /* a metric below 0.1 ends the lock only where the power ratio is low too, one below 0.02 always */
    bool bank;           /* three trackers beside the channel's own, and fades */
    bool two;            /* two frequencies: each block has a second list */
    /* How long a bank coasts: "seconds" that become trunc(fade x rate / factor / 40,000) blocks, however long a block is. For T seconds in blocks of N
     * pairs give T x 40,000 / N, rounded up. 0 to 86,400. */
    uint64_t fade;
    double ratio; /* second carrier over first, 0.25 to 4; on one frequency it is not used, but refused (4) all the same: give 1.0 */
} gibsumac_settings;

/* What assign takes, in Hz (not MHz): each 0, or from 10^6 to 10^11. An answer's frequency is nominal plus the measured offset, or target plus the offset
 * where nominal is 0 (so set one of the two), or the offset alone where both are. The others are the second carrier's: with two frequencies the answer is
 * (n^2 (target + d1) - f^2 (target2 + d2)) / (n^2 - f^2), n being nominal, f frequency2, d1 and d2 the offsets. */
typedef struct {
    double nominal, target, target2, frequency2;
} gibsumac_carriers;

/* A block's answer. Look at refusal first: where it is not 0, tracker is 3 and all else 0, which does not say "not locked at 0 Hz". */
typedef struct {
    uint64_t refusal;
    /* The carrier is locked. It stays 1 while a bank coasts in a fade, where nothing is measured (look at in_fade), for some 2,000 samples after a signal
     * went (look at snr and metric), and for 2,048 samples after every start, also one in noise. Without a bank a lost lock comes back only after a block
     * whose snr is negative (a flag 0 block without samples is one), or after release and assign. */
    bool locked;
    uint64_t tracker;    /* which tracker of the bank is in use, 0 to 2; 3 for none, and without a bank */
    bool in_fade;        /* the tracker in use coasts */
    uint64_t fade_count; /* how many blocks the fade has lasted; kept after it until the next lock */
    bool ended;          /* a fade ran out of its allowance in this pass; it stays set, also when locked again, until release */
    /* Of the last block that showed any, where this one is not locked; so use them where locked is 1. phase: radians at the block's last sample, from -pi,
     * included, to pi, excluded, for a carrier, half of it for BPSK, a quarter for QPSK; so half a turn has one name, the negative one. With two frequencies
     * the second carrier's correction comes after the wrap and can move it past an end; in a fade it runs on, unwrapped. frequency: Hz; where a flag 1 block
     * without a bank is not locked it is nominal or target itself. */
    double phase, frequency;
    double snr;       /* dB, of this block's samples alone, -20 to 40 (0, 0.5 and -5 for flags 2, 3 and 4) */
    double electrons; /* electron content in 10^16 for each square metre, from the two phases, so up to whole turns; 0 on one frequency */
    double metric;    /* mean in-phase value over some 1,000 samples: 0.5 at a start, towards 1 in lock; 0 where not locked */
} gibsumac_answer;

/* What opening settles of a channel: sample rate in Hz, decimation factor, and whether it has a bank and two frequencies. */
typedef struct {
    uint64_t rate, factor;
    bool bank, two;
} gibsumac_setup;

/* What the latest blocks showed of the signal, as in an answer. */
typedef struct {
    double phase, frequency, snr, electrons;
} gibsumac_reading;

/* What opening settles of a tracker: process noise of phase, frequency and chirp, measurement noise, its own interval in seconds, the ratio of the second
 * carrier to the first, two switches. */
typedef struct {
    double q_phase, q_freq, q_chirp, r_meas, ts, frequency_ratio;
    bool adaptive_ekf, dual_lock;
} gibsumac_tuning;

/* Where a tracker is in its window memory (pairs pushed since its start: the next goes to slot pushed modulo 1,024), and the sums over the pairs there. */
typedef struct {
    size_t pushed;
    double sum_abs_i, sum_q_sq;
} gibsumac_power_sums;

/* A tracker. x: phase in rad, frequency in rad/s, chirp in rad/s^2, then the same for the second carrier (for BPSK all of the squared signal, twice the
 * carrier's); p: their covariance by rows. convergence_guard: samples until its lock can be lost. */
typedef struct {
    uint64_t modulation;
    gibsumac_tuning tuning;
    double x[6], p[36];
    double envelope_ema;
    gibsumac_power_sums power;
    double lock_metric;
    bool is_locked;
    size_t convergence_guard;
} gibsumac_tracker;

/* A channel: its own tracker, pll, and the three of its bank with the bank's marks and counts. active_idx is 3 for none; terminated_in_fade is the answer's
 * ended; max_fade_steps is what came of fade, in blocks; last_snr decides whether a block may start the trackers. */
typedef struct {
    gibsumac_setup setup;
    bool idle;
    gibsumac_carriers carriers;
    gibsumac_tracker pll, t0, t1, t2;
    uint64_t active_idx;
    bool in_fade;
    uint64_t fade_counter, max_fade_steps;
    bool terminated_in_fade, ever_locked;
    float last_snr;
    bool is_locked;
    gibsumac_reading reading;
} gibsumac_channel;

/* What open and assign return: the refusal number, 0 where the call is accepted, and the channel. */
typedef struct {
    uint64_t refusal;
    gibsumac_channel channel;
} gibsumac_returned;

typedef struct {
    gibsumac_answer answer;
    gibsumac_channel channel;
} gibsumac_blocked;

typedef struct {
    float values[12];
} gibsumac_figures_of_bank;

/* The archive has these sizes and places; a compiler that has others cannot call it. */
GIBSUMAC_ASSERT(sizeof(gibsumac_settings) == 48 && offsetof(gibsumac_settings, fade) == 32, "gibsumac_settings");
GIBSUMAC_ASSERT(sizeof(gibsumac_carriers) == 32, "gibsumac_carriers");
GIBSUMAC_ASSERT(sizeof(gibsumac_answer) == 88 && offsetof(gibsumac_answer, ended) == 40 && offsetof(gibsumac_answer, metric) == 80, "gibsumac_answer");
GIBSUMAC_ASSERT(sizeof(gibsumac_setup) == 24 && sizeof(gibsumac_reading) == 32, "gibsumac_setup, gibsumac_reading");
GIBSUMAC_ASSERT(sizeof(gibsumac_tuning) == 56 && sizeof(gibsumac_power_sums) == 24, "gibsumac_tuning, gibsumac_power_sums");
GIBSUMAC_ASSERT(sizeof(gibsumac_tracker) == 456 && offsetof(gibsumac_tracker, p) == 112 && offsetof(gibsumac_tracker, lock_metric) == 432,
                "gibsumac_tracker");
GIBSUMAC_ASSERT(sizeof(gibsumac_channel) == 1968 && offsetof(gibsumac_channel, pll) == 64 && offsetof(gibsumac_channel, active_idx) == 1888 &&
                    offsetof(gibsumac_channel, last_snr) == 1924 && offsetof(gibsumac_channel, reading) == 1936,
                "gibsumac_channel");
GIBSUMAC_ASSERT(sizeof(gibsumac_returned) == 1976 && sizeof(gibsumac_blocked) == 2056 && sizeof(gibsumac_figures_of_bank) == 48, "what calls return");

/* The flag of a block, from its raw samples, before filter and decimation: 4 if there are none, else 2 if a NaN, else 3 if clipped (a squared size over
 * 1.98), else 1 if a signal (one over 10^-12, so noise, too), else 0. Of a list of odd length the last float is left out. */
uint64_t gibsumac_survey(const float *raw, size_t length);

/* A channel, Idle. A refused open (1 to 4) returns a one-frequency carrier channel of 1,000 Hz, which can be used: look at the refusal. */
gibsumac_returned gibsumac_open(gibsumac_settings settings);

/* Gives an Idle channel its carriers. Refused: 5, 6; the channel is then as it was. */
gibsumac_returned gibsumac_assign(gibsumac_channel channel, gibsumac_carriers carriers);

/* One block of decimated samples: up to 4,096 pairs in first, and as many in second with two frequencies, else none. A flag 1 block on an
 * assigned channel leaves the lists normalised, each pair of size 1: copy what is needed afterwards. windows: 8,192 doubles that belong to the channel
 * from one block of a pass to the next (any initialised contents before the first). An Idle channel accepts every block, answers not locked with refusal 0
 * and changes nothing. Refused: 7 to 12; the channel and all lent memory are then as they were. */
gibsumac_blocked gibsumac_block(gibsumac_channel channel, uint64_t flag, float *first, size_t first_length, float *second, size_t second_length,
                                double *windows, size_t windows_length);

/* The channel set back to Idle, for the next pass. */
gibsumac_channel gibsumac_release(gibsumac_channel channel);

/* For each of the bank's three trackers its metric, its lock mark and the variances of phase (rad^2) and frequency (rad^2/s^2); twelve zeros without a
 * bank. */
gibsumac_figures_of_bank gibsumac_figures(gibsumac_channel channel);

/* ---- a receiver: a channel and its window memory in one place, for calls by pointer. Plain C over the functions above; zero-initialise nothing, open
 * does it. It may be copied, and moved in memory. */

typedef struct {
    gibsumac_channel channel;
    double windows[GIBSUMAC_WINDOWS];
} gibsumac_receiver;

/* Whether the archive that is linked is the one of this header. Where it is not, no other function may be called. */
static inline bool gibsumac_matches(void) { return gibsumac_version() == GIBSUMAC_VERSION && gibsumac_channel_size() == sizeof(gibsumac_channel); }

/* Each answers the refusal. Where open is refused the receiver is opened as a one-frequency carrier channel of 1,000 Hz; where another is refused it is as it was. */
static inline uint64_t gibsumac_receiver_open(gibsumac_receiver *receiver, gibsumac_settings settings) {
    if (!gibsumac_matches())
        return GIBSUMAC_OTHER_HEADER;
    gibsumac_returned r = gibsumac_open(settings);
    receiver->channel = r.channel;
    for (size_t i = 0; i < GIBSUMAC_WINDOWS; i++)
        receiver->windows[i] = 0.0;
    return r.refusal;
}

static inline uint64_t gibsumac_receiver_assign(gibsumac_receiver *receiver, gibsumac_carriers carriers) {
    gibsumac_returned r = gibsumac_assign(receiver->channel, carriers);
    receiver->channel = r.channel;
    return r.refusal;
}

/* A block with a flag of the caller's. A list of length 0 may be null. */
static inline gibsumac_answer gibsumac_receiver_block(gibsumac_receiver *receiver, uint64_t flag, float *first, size_t first_length, float *second,
                                                      size_t second_length) {
    float none[1] = {0.0f};
    gibsumac_blocked r = gibsumac_block(receiver->channel, flag, first_length == 0 ? none : first, first_length, second_length == 0 ? none : second,
                                        second_length, receiver->windows, GIBSUMAC_WINDOWS);
    receiver->channel = r.channel;
    return r.answer;
}

/* How much of a list goes with a flag: nothing with 2, 3 and 4, unless its length is wrong, which is then refused (8) as with any other flag. */
static inline size_t gibsumac_taken(uint64_t flag, size_t length) {
    return flag > GIBSUMAC_SIGNAL && length % 2 == 0 && length <= GIBSUMAC_MAX_FLOATS ? 0 : length;
}

/* A block of samples, surveyed here: for whoever has no raw samples to survey (a clipped signal shows hardly behind a filter). */
static inline gibsumac_answer gibsumac_track(gibsumac_receiver *receiver, float *samples, size_t length) {
    float none[1] = {0.0f};
    uint64_t flag = gibsumac_survey(length == 0 ? none : samples, length);
    return gibsumac_receiver_block(receiver, flag, samples, gibsumac_taken(flag, length), NULL, 0);
}

/* The same with two frequencies. The flag is the first list's, unless the second has a NaN or is clipped. */
static inline gibsumac_answer gibsumac_track_two(gibsumac_receiver *receiver, float *first, size_t first_length, float *second, size_t second_length) {
    float none[1] = {0.0f};
    uint64_t flag = gibsumac_survey(first_length == 0 ? none : first, first_length);
    uint64_t other = gibsumac_survey(second_length == 0 ? none : second, second_length);
    if (flag <= GIBSUMAC_SIGNAL && (other == GIBSUMAC_NAN || other == GIBSUMAC_CLIPPED))
        flag = other;
    return gibsumac_receiver_block(receiver, flag, first, gibsumac_taken(flag, first_length), second, gibsumac_taken(flag, second_length));
}

static inline void gibsumac_receiver_release(gibsumac_receiver *receiver) { receiver->channel = gibsumac_release(receiver->channel); }

static inline gibsumac_figures_of_bank gibsumac_receiver_figures(const gibsumac_receiver *receiver) { return gibsumac_figures(receiver->channel); }

#ifdef __cplusplus
}
#endif
#endif
