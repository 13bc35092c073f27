//! Facts about the source that the port's readers rely on, and the scope's own value table, run
//! on a build.
//!
//!     facts BUILD

#[path = "../drivers/api.rs"]
#[allow(dead_code)]
mod api;
#[path = "../drivers/values.rs"]
#[allow(dead_code)]
mod values;

use api::shapes::{Answer, Built, NONE, STRETCH, Settings, Tracker};
use api::{Channel, Reference, new_window};
use values::{Random, Signal, hex};

const TURN: f64 = 2.0 * std::f64::consts::PI;
const PLAIN: Settings = Settings {
    rate: 40_000,
    factor: 1,
    modulation: 0,
    adaptive: 1,
    dual_lock: 1,
    bank: 0,
    two: 0,
    fade: 5,
    ratio: 1.0,
};

/// A channel with its own window memory and the last answer.
struct Pass {
    channel: Channel,
    window: Vec<f64>,
}

impl Pass {
    fn open(f: Reference, settings: Settings) -> Pass {
        let (refusal, channel) = f.open(&settings);
        assert_eq!(refusal, 0, "open");
        Pass { channel, window: new_window() }
    }

    fn assigned(f: Reference, settings: Settings) -> Pass {
        let mut pass = Pass::open(f, settings);
        assert_eq!(pass.channel.assign(0.0, 137.5e6, 0.0, 0.0), 0, "assign");
        pass
    }

    fn one(&mut self, flag: u64, list: &[f32]) -> Answer {
        let a = self.channel.block(flag, &mut list.to_vec(), &mut [], &mut self.window);
        assert_eq!(a.refusal, 0, "block");
        a
    }

    fn two(&mut self, flag: u64, list: &[f32]) -> Answer {
        let a = self.channel.block(flag, &mut list.to_vec(), &mut list.to_vec(), &mut self.window);
        assert_eq!(a.refusal, 0, "block");
        a
    }
}

/// A steady carrier: its estimate of the signal-to-noise ratio is the highest.
fn steady(pairs: usize) -> Vec<f32> {
    [0.5, 0.0].repeat(pairs)
}

/// Noise whose estimate is below 0 dB and on which no tracker stays locked.
fn noise(seed: u64, pairs: usize) -> Vec<f32> {
    let mut random = Random::new(seed);
    (0..2 * pairs).map(|_| random.noise() as f32).collect()
}

fn bits(a: &Answer) -> String {
    let floats = [a.phase, a.frequency, a.snr, a.electrons, a.metric].map(hex).join(" ");
    format!("{} {} {} {} {} {} {floats}", a.refusal, a.locked, a.tracker, a.in_fade, a.fade_count, a.ended)
}

fn is(a: &Answer, locked: u32, tracker: u32, in_fade: u32, count: u64, ended: u32) {
    let got = (a.locked, a.tracker, a.in_fade, a.fade_count, a.ended);
    assert_eq!(got, (locked, tracker, in_fade, count, ended));
}

// ---- arithmetic ----

/// Constants of the source, as bits.
fn constants(f: Reference) {
    assert_eq!(hex(1.0 - 0.001), hex(0.999));
    assert_eq!(hex(1.0 - 0.005), hex(0.995));
    assert_eq!(hex(0.8 * 1024.0), hex(819.2));
    assert_eq!(hex(TURN * 50_000.0), "41132cbd0fba43a7");
    assert_eq!(hex(TURN * 1_000.0), "40b88b2f704a9409");
    let t = f.tracker(40_000.0, 0);
    for block in 0..2 {
        let diagonal = [0, 1, 2].map(|i| hex(t.p[7 * (3 * block + i)]));
        assert_eq!(diagonal, [hex(1.0).as_str(), "41181880b444c44a", "40f81880b444c44a"]);
    }
    // the two intervals
    let (rate, factor) = (10_020_017.0, 110.0);
    assert_ne!(hex(1.0 / (rate / factor)), hex(factor / rate));
}

/// The scope's value table, as far as it is about single functions; 1.98 as f32.
fn value_table(f: Reference) {
    let surveys: [(&[f32], u64); 6] = [
        (&[1.0, 1.0], 3),
        (&[1.0, 0.5], 1),
        (&[0.0, 0.0], 0),
        (&[], 4),
        (&[f32::NAN, 9.0], 2),
        (&[f32::from_bits(0x3f800000), f32::from_bits(0x3f7d6d55)], 1),
    ];
    for (raw, flag) in surveys {
        assert_eq!(f.survey(raw), flag, "survey of {raw:?}");
    }
    assert_eq!(f.survey(&[0.0]), 4, "an odd last number is unread");
    assert_eq!(f.snr(&[1.0, 0.0].repeat(4)), 40.0);
    assert_eq!(f.snr(&[]), -20.0);
    assert_eq!(hex(f.estimate(&noise(5, 9), 40_000.0)), hex(0.0));
    assert_eq!(f.cancel(2.0, 1.0, 3.0, 0.0), 4.0);
}

/// Opening: rate limits, fade steps.
fn opening(f: Reference) {
    for (rate, refusal) in [(999, 1), (1_000, 0), (100_000, 0), (100_001, 1)] {
        assert_eq!(f.open(&Settings { rate, ..PLAIN }).0, refusal, "rate {rate}");
    }
    let steps = [(40_000, 1, 5, 5), (1_000, 1, 5, 0), (100_000, 1, 86_400, 216_000), (211_258, 3, 60_000, 105_628)];
    for (rate, factor, fade, expected) in steps {
        let (refusal, channel) = f.open(&Settings { rate, factor, fade, bank: 1, ..PLAIN });
        assert_eq!((refusal, channel.read().fade_steps), (0, expected));
    }
    let (refusal, mut channel) = f.open(&Settings { modulation: 3, bank: 1, two: 1, ratio: f64::NAN, ..PLAIN });
    let b = channel.read();
    assert_eq!((refusal, b.rate, b.factor, b.modulation, b.bank, b.two), (2, 1_000, 1, 0, 0, 0));
    assert_eq!((b.pll.adaptive, b.pll.dual_lock, b.pll.ratio), (0, 0, 1.0), "no switches, ratio 1");
    assert_eq!(channel.assign(0.0, -0.0, 0.0, 0.0), 0, "-0 is a frequency of 0");
}

/// Every refusal number of the calls, in the order of the scope's table.
fn refusals(f: Reference) {
    let open = |s: Settings| f.open(&s).0;
    assert_eq!(open(Settings { factor: 0, modulation: 3, fade: 90_000, ratio: 9.0, ..PLAIN }), 1);
    assert_eq!(open(Settings { factor: u64::MAX, ..PLAIN }), 1);
    assert_eq!(open(Settings { modulation: 4_294_967_297, fade: 90_000, ratio: 9.0, ..PLAIN }), 2);
    assert_eq!(open(Settings { fade: 86_401, ratio: 9.0, ..PLAIN }), 3);
    assert_eq!(open(Settings { ratio: f64::NAN, ..PLAIN }), 4);
    assert_eq!(open(Settings { ratio: 4.0, ..PLAIN }), 0);
    let mut pass = Pass::assigned(f, PLAIN);
    assert_eq!(pass.channel.assign(f64::NAN, 0.0, 0.0, 0.0), 5);
    assert_eq!(pass.channel.assign(0.0, 0.0, 0.0, 1.0), 5);
    assert_eq!(pass.channel.assign(0.0, 1e6, 1e11, 0.0), 6);
    let mut refused = |flag: u64, first: &[f32], second: &[f32], length: usize| {
        let mut window = vec![7.0; length];
        let a = pass.channel.block(flag, &mut first.to_vec(), &mut second.to_vec(), &mut window);
        assert!(window.iter().all(|v| *v == 7.0) || a.refusal == 0);
        if a.refusal != 0 {
            assert_eq!(bits(&a), bits(&Answer { refusal: a.refusal, tracker: NONE, ..Answer::default() }));
        }
        a.refusal
    };
    assert_eq!(refused(5, &[0.0], &[0.0], 1), 7);
    assert_eq!(refused(2, &[0.0, 0.0], &[0.0], 1), 8, "8 looks at both lists before 9");
    assert_eq!(refused(2, &vec![0.0; 8_194], &[], 1), 8);
    assert_eq!(refused(2, &[f32::NAN, 0.0], &[1.0, 1.0], 1), 9);
    assert_eq!(refused(2, &[], &[1.0, 1.0], 1), 10, "9 looks at the first list alone");
    assert_eq!(refused(1, &[1024.0f32.next_up(), 0.0], &[], 1), 11);
    assert_eq!(refused(1, &[1024.0, -1024.0], &[], 8_191), 12);
    assert_eq!(refused(1, &[1024.0, -1024.0], &[], 8_192), 0);
}

// ---- the tracker ----

fn fresh(f: Reference, modulation: u64) -> (Tracker, [f64; STRETCH]) {
    let (mut t, mut window) = (f.tracker(40_000.0, modulation), [0.0; STRETCH]);
    f.reset(&mut t, &mut window, 0.0, 0.0, 0.0);
    (t, window)
}

/// The scope: guard 0, dual lock, metric 0.05: ratio 819 unlocks, 820 does not.
fn ratio_decides(f: Reference) {
    for (ratio, locked) in [(819.0, 0), (820.0, 1)] {
        let (mut t, mut window) = fresh(f, 0);
        (t.guard, t.metric) = (0, 0.05);
        (t.sum_abs_i, t.sum_q_sq) = (ratio - 1.0, ratio);
        f.update(&mut t, &mut window, [1.0, 0.0]);
        assert_eq!(t.locked, locked, "ratio {ratio}");
    }
}

/// The scope: the 2,049th update after a reset is the first that can unlock.
fn guard_counts(f: Reference) {
    let (mut t, mut window) = fresh(f, 0);
    for update in 1..=2_049 {
        t.metric = -1.0;
        f.update(&mut t, &mut window, [1.0, 0.0]);
        assert_eq!(t.locked, (update < 2_049) as u32, "update {update}");
    }
}

/// A zero sample lowers the metric in one quadrant of phase and raises it in three.
fn zero_sample(f: Reference) {
    for modulation in 0..2 {
        for (phase, metric) in [(0.5, 0.5005), (2.0, 0.5005), (-0.5, 0.5005), (-2.0, 0.4985)] {
            let (mut t, mut window) = fresh(f, modulation);
            t.x[0] = phase;
            f.update(&mut t, &mut window, [0.0, 0.0]);
            assert!((t.metric - metric).abs() < 1e-12, "phase {phase}: {}", t.metric);
        }
    }
}

/// Where a phase is wrapped to that is only wrapped: without covariance the gain is 0.
fn wraps(f: Reference, modulation: u64, phase: f64, wrapped: f64) {
    for channel in 0..2 {
        let (mut t, mut window) = fresh(f, modulation);
        t.p = [0.0; 36];
        t.x[3 * channel] = phase;
        assert!(f.correct(&mut t, &mut window, channel as u32, [1.0, 0.0]).is_some());
        assert_eq!(hex(t.x[3 * channel]), hex(wrapped), "modulation {modulation}, channel {channel}, phase {phase}");
    }
}

/// Half the range of each modulation, and the phase next below minus half.
const ENDS: [(u64, f64, f64); 3] = [
    (0, std::f64::consts::PI, -3.1415926535897936),
    (1, std::f64::consts::PI, -3.1415926535897936),
    (2, std::f64::consts::FRAC_PI_4, -0.7853981633974484),
];

/// The ends of the range: next below minus half the source's steps end at plus half. From next below plus half they end at minus half, since the sum is
/// rounded up to the whole length. The neighbours on both sides stay apart.
fn source_wraps(f: Reference) {
    for (modulation, half, below) in ENDS {
        wraps(f, modulation, below, half);
        ends_apart(f, modulation, half, below);
    }
}

/// The same where minus half takes the place of plus half.
fn one_name(f: Reference) {
    for (modulation, half, below) in ENDS {
        wraps(f, modulation, below, -half);
        ends_apart(f, modulation, half, below);
    }
}

fn ends_apart(f: Reference, modulation: u64, half: f64, below: f64) {
    let second = half.next_down().next_down();
    for (phase, wrapped) in [(-half, -half), (below.next_down(), second), (half, -half), (half.next_down(), -half), (second, second)] {
        wraps(f, modulation, phase, wrapped);
    }
}

/// What a lost correction leaves; the scope's trap of the infinite phase.
fn lost(f: Reference) {
    for (i, bad) in [(0, f64::INFINITY), (4, f64::NAN)] {
        let (mut t, mut window) = fresh(f, 0);
        let initial = t.p;
        t.x[i] = bad;
        (t.envelope, t.guard, t.p[8]) = (0.75, 9, 1.0);
        f.update(&mut t, &mut window, [1.0, 0.0]);
        assert_eq!((t.x, t.p, t.locked, t.metric), ([0.0; 6], initial, 0, 0.0));
        assert_eq!((t.guard, t.window_fill), (9, 1), "guard and window stay");
        assert!(t.envelope > 0.75 && t.envelope < 0.76);
    }
}

/// No gain: x and P stay; a NaN on the diagonal becomes the floor.
fn no_gain_and_floor(f: Reference) {
    let (mut t, mut window) = fresh(f, 0);
    t.r_meas = f64::NAN;
    t.x = [0.25, 1.0, 2.0, 3.0, 4.0, 5.0];
    let before = t;
    assert!(f.correct(&mut t, &mut window, 0, [1.0, 0.0]).is_some());
    assert_eq!((t.x, t.p), (before.x, before.p));
    let (mut t, mut window) = fresh(f, 0);
    t.p[7] = f64::NAN;
    assert!(f.correct(&mut t, &mut window, 0, [1.0, 0.0]).is_some());
    assert_eq!(hex(t.p[7]), hex(1e-15));
}

/// The covariance is not exactly symmetric after a correction.
fn asymmetry(f: Reference) {
    let mut random = Random::new(11);
    let (mut t, mut window) = fresh(f, 0);
    t.ratio = 2.5;
    let mut seen = false;
    for _ in 0..200 {
        f.predict(&mut t);
        let s = [random.noise() as f32, random.noise() as f32];
        f.update_dual(&mut t, &mut window, s, [s[1], s[0]]);
        seen |= (0..6).any(|r| (0..r).any(|c| hex(t.p[6 * r + c]) != hex(t.p[6 * c + r])));
    }
    assert!(seen);
}

// ---- the bank ----

fn three(f: Reference, hertz: [f64; 3], metrics: [f64; 3], locked: [u32; 3]) -> [Tracker; 3] {
    [0, 1, 2].map(|i| {
        let (mut t, _) = fresh(f, 0);
        t.x[1] = hertz[i] * TURN;
        t.metric = metrics[i];
        t.locked = locked[i];
        t
    })
}

fn settled(f: Reference, trackers: [Tracker; 3]) -> (Answer, Built) {
    let mut pass = Pass::assigned(f, Settings { bank: 1, ..PLAIN });
    let mut b = pass.channel.read();
    b.trackers = trackers;
    b.pll.locked = 1;
    b.ever_locked = 1;
    let mut channel = f.build(&b);
    let a = channel.block(1, &mut [], &mut [], &mut pass.window);
    (a, channel.read())
}

fn locks(b: &Built) -> [u32; 3] {
    [0, 1, 2].map(|i| b.trackers[i].locked)
}

fn bank_values(f: Reference) {
    let half = [0.5; 3];
    // one tracker 160 Hz apart prunes nothing: the mean is 107
    let near = three(f, [0.0, 0.0, 160.0], half, [1; 3]);
    assert!((f.discrepancy(&near) - 106.67).abs() < 0.01);
    assert_eq!(locks(&settled(f, near).1), [1, 1, 1]);
    // with tracker 0 locked, 1 and 2 are compared with it only
    let far = three(f, [0.0, 149.0, -149.0], half, [1; 3]);
    assert!(f.discrepancy(&far) > 150.0);
    let (a, b) = settled(f, far);
    assert_eq!((locks(&b), a.ended), ([1, 1, 1], 1));
    // an infinite frequency in an unlocked tracker hides a discrepancy
    let apart = [0.0, 1_000.0, 0.0];
    assert_eq!(f.discrepancy(&three(f, apart, half, [1, 1, 0])), 1_000.0);
    assert_eq!(f.discrepancy(&three(f, [0.0, 1_000.0, f64::INFINITY], half, [1, 1, 0])), 0.0);
    // a locked tracker of NaN metric is never chosen
    let (a, _) = settled(f, three(f, [0.0; 3], [f64::NAN, -0.5, -0.75], [1; 3]));
    assert_eq!((a.locked, a.tracker), (1, 1));
    let (a, _) = settled(f, three(f, [0.0; 3], [f64::NAN; 3], [1; 3]));
    assert_eq!((a.locked, a.tracker), (0, NONE));
    // the scope: equal metrics choose the lowest; 1 against 2 at equal metrics drops 2
    assert_eq!(settled(f, three(f, [0.0; 3], half, [1; 3])).0.tracker, 0);
    let (a, b) = settled(f, three(f, [0.0, 0.0, 500.0], half, [0, 1, 1]));
    assert_eq!((locks(&b), a.tracker), ([0, 1, 0], 1));
    // a metric of -1 is too low to be chosen
    let (a, _) = settled(f, three(f, [0.0; 3], [-1.0; 3], [1; 3]));
    assert_eq!((a.locked, a.tracker, a.metric), (0, NONE, 0.0));
}

// ---- flags in every state ----

fn idle(f: Reference) {
    let mut pass = Pass::open(f, Settings { bank: 1, ..PLAIN });
    for flag in 0..5 {
        let list = if flag < 2 { vec![3.0, 4.0] } else { Vec::new() };
        let mut lent = list.clone();
        let a = pass.channel.block(flag, &mut lent, &mut [], &mut pass.window);
        is(&a, 0, NONE, 0, 0, 0);
        assert_eq!((a.phase, a.frequency, a.snr), (0.0, 0.0, 0.0));
        assert_eq!(lent, list, "not normalised");
    }
}

fn before_start(f: Reference) {
    let mut pass = Pass::assigned(f, PLAIN);
    for (flag, snr) in [(0, -20.0), (2, 0.0), (3, 0.5), (4, -5.0)] {
        let a = pass.one(flag, &[]);
        assert_eq!((a.locked, a.snr, a.frequency), (0, snr, 0.0));
    }
    let a = pass.one(1, &[]);
    assert_eq!((a.locked, a.snr, a.frequency), (1, -20.0, 137.5e6), "an empty list starts");
}

fn locked_without_bank(f: Reference) {
    for (flag, stays) in [(0, 0), (2, 0), (3, 0), (4, 1)] {
        let mut pass = Pass::assigned(f, PLAIN);
        let started = pass.one(1, &steady(20));
        assert_eq!(started.locked, 1);
        let a = pass.one(flag, &[]);
        assert_eq!((a.locked, hex(a.phase), hex(a.frequency)), (0, hex(started.phase), hex(started.frequency)));
        assert_eq!(pass.channel.read().pll.locked, stays, "flag {flag}");
    }
    // lost stays lost without a bank, not with one
    for (bank, marks) in [(0, "1100000"), (1, "1101111")] {
        let mut pass = Pass::assigned(f, Settings { bank, ..PLAIN });
        let flags = [1, 1, 3, 1, 1, 1, 1];
        let got: String =
            flags.map(|flag| pass.one(flag, &if flag == 1 { steady(20) } else { vec![] }).locked.to_string()).concat();
        assert_eq!(got, marks);
    }
    // flag 0 with a strong list holds the next start back
    let mut pass = Pass::assigned(f, PLAIN);
    pass.one(1, &steady(20));
    assert_eq!(pass.one(0, &steady(20)).snr, 40.0);
    let a = pass.one(1, &steady(20));
    assert_eq!((a.locked, a.frequency), (0, 137.5e6));
}

fn locked_with_bank(f: Reference) {
    let settings = Settings { bank: 1, ..PLAIN };
    for flag in [2, 3, 4] {
        let mut pass = Pass::assigned(f, settings);
        is(&pass.one(1, &steady(20)), 1, 0, 0, 0, 0);
        is(&pass.one(flag, &[]), 0, 0, 0, 0, 0);
        assert_eq!(locks(&pass.channel.read()), [1; 3], "flag {flag}");
    }
    let mut pass = Pass::assigned(f, settings);
    pass.one(1, &steady(20));
    is(&pass.one(0, &steady(20)), 0, NONE, 0, 0, 0);
    assert_eq!(locks(&pass.channel.read()), [0; 3]);
    let held = pass.one(1, &steady(20));
    is(&held, 0, NONE, 0, 0, 0);
    is(&pass.one(1, &steady(20)), 1, 0, 0, 0, 0);
}

/// Blocks of noise until the lock goes; the last answer and how many blocks it took.
fn lose(pass: &mut Pass) -> (Answer, Answer) {
    let mut before = pass.one(1, &steady(2_048));
    for seed in 0..200 {
        let a = pass.one(1, &noise(seed, 600));
        if a.in_fade == 1 || a.locked == 0 {
            return (before, a);
        }
        before = a;
    }
    panic!("noise did not unlock");
}

/// [1.3, 1.10] a fade of five steps from its first block to its end, and one of none.
fn fades(f: Reference) {
    let mut pass = Pass::assigned(f, Settings { bank: 1, ..PLAIN });
    let (_, first) = lose(&mut pass);
    is(&first, 1, 0, 1, 1, 0);
    let mut last = first;
    for count in 2..=5 {
        let a = pass.one(1, &steady(10));
        is(&a, 1, 0, 1, count, 0);
        assert_ne!(hex(a.phase), hex(last.phase), "the tracker is predicted");
        assert_eq!(hex(a.metric), hex(first.metric), "the metric stands still");
        last = a;
    }
    is(&pass.one(3, &[]), 0, 0, 1, 5, 0);
    let ended = pass.one(1, &steady(10));
    is(&ended, 0, NONE, 0, 6, 1);
    assert_eq!((hex(ended.phase), hex(ended.frequency)), (hex(last.phase), hex(last.frequency)));
    is(&pass.one(4, &[]), 0, NONE, 0, 6, 1);
    is(&pass.one(1, &steady(10)), 1, 0, 0, 0, 1);
    let mut pass = Pass::assigned(f, Settings { bank: 1, fade: 0, ..PLAIN });
    is(&lose(&mut pass).1, 0, NONE, 0, 1, 1);
    let mut pass = Pass::assigned(f, Settings { bank: 1, ..PLAIN });
    lose(&mut pass);
    is(&pass.one(0, &steady(10)), 0, NONE, 0, 1, 0);
    let mut pass = Pass::assigned(f, PLAIN);
    let a = lose(&mut pass).1;
    assert_eq!((a.locked, a.frequency), (0, 137.5e6));
}

// ---- release ----

fn history(pass: &mut Pass, random: &mut Random) {
    for _ in 0..random.below(3) {
        pass.channel.assign(0.0, random.pick(&[137.5e6, 400e6]), 0.0, 0.0);
        let modulation = random.below(3);
        let mut signal = Signal::new(random, modulation, 40_000.0);
        for _ in 0..random.below(6) {
            let flag = random.pick(&[1, 1, 1, 1, 0, 2, 3, 4]);
            let pairs = if flag > 1 { 0 } else { random.pick(&[5, 100, 4_096]) };
            let there = !random.chance(3);
            let list = signal.samples(random, pairs, there);
            pass.one(flag, &list);
        }
    }
    pass.channel.release();
}

/// On one frequency nothing that a block's answer reads survives a release.
fn nothing_survives(f: Reference) {
    for seed in 0..60 {
        let mut random = Random::new(seed);
        let settings = Settings { bank: random.below(2) as u32, modulation: random.below(3), fade: 1, ..PLAIN };
        let mut pair = [0, 1].map(|_| Pass::open(f, settings));
        for pass in &mut pair {
            history(pass, &mut random);
        }
        for pass in &mut pair {
            pass.channel.assign(0.0, 137.5e6, 0.0, 0.0);
        }
        let mut signal = Signal::new(&mut random, settings.modulation, 40_000.0);
        for block in 0..8 {
            let flag = random.pick(&[1, 1, 1, 0, 3]);
            let there = !random.chance(3);
            let list = signal.samples(&mut random, if flag > 1 { 0 } else { 1_500 }, there);
            let [a, b] = pair.each_mut().map(|pass| bits(&pass.one(flag, &list)));
            assert_eq!(a, b, "seed {seed}, block {block}");
        }
    }
}

/// [4.2, 4.3] what does survive: the electron content on two frequencies, and figures.
fn what_survives(f: Reference) {
    let mut pass = Pass::open(f, Settings { two: 1, bank: 1, ratio: 2.5, ..PLAIN });
    pass.channel.assign(137.5e6, 137.5e6, 400e6, 400e6);
    let mut list = steady(40);
    list.chunks_mut(2).enumerate().for_each(|(k, p)| p[1] = k as f32 * 0.01);
    let a = pass.two(1, &list);
    assert!(a.electrons > 0.0);
    pass.channel.release();
    let idle = pass.two(0, &[]);
    assert_eq!(hex(idle.electrons), hex(a.electrons));
    let twelve = pass.channel.figures();
    assert!(twelve[0] > 0.5 && twelve[1] == 0.0 && twelve[3] > 1_000.0);
}

/// The two places where the answer's frequency is -0.
fn negative_zero(f: Reference) {
    let mut pass = Pass::open(f, Settings { two: 1, ..PLAIN });
    pass.channel.assign(137.5e6, 0.0, 0.0, 400e6);
    let a = pass.two(1, &[]);
    assert_eq!((a.locked, hex(a.frequency)), (1, hex(-0.0)));
    let mut pass = Pass::open(f, PLAIN);
    pass.channel.assign(0.0, -0.0, 0.0, 0.0);
    pass.one(1, &steady(20));
    pass.one(3, &[]);
    let a = pass.one(1, &steady(20));
    assert_eq!((a.locked, hex(a.frequency)), (0, hex(-0.0)));
}

/// The bank's trackers are equal while locked.
fn trackers_equal(f: Reference) {
    for two in 0..2 {
        let mut pass = Pass::open(f, Settings { bank: 1, two, ratio: 2.5, ..PLAIN });
        pass.channel.assign(137.5e6, 137.5e6, 400e6, 400e6);
        let mut random = Random::new(21);
        let mut signal = Signal::new(&mut random, 0, 40_000.0);
        for _ in 0..6 {
            let list = signal.samples(&mut random, 1_500, true);
            let a = if two == 1 { pass.two(1, &list) } else { pass.one(1, &list) };
            let b = pass.channel.read();
            if a.locked == 1 && a.in_fade == 0 {
                let written = [0, 1, 2].map(|i| {
                    let t = &b.trackers[i];
                    let floats: Vec<String> = t.x.iter().chain(&t.p).map(|v| hex(*v)).collect();
                    format!("{} {} {}", floats.join(" "), hex(t.metric), t.locked)
                });
                assert!(written[0] == written[1] && written[1] == written[2]);
            }
        }
    }
}

/// A start inside a fade whose lock goes in the same block: the count goes on.
fn start_in_fade(f: Reference) {
    let mut pass = Pass::assigned(f, Settings { bank: 1, ..PLAIN });
    let (_, first) = lose(&mut pass);
    is(&first, 1, 0, 1, 1, 0);
    assert!(first.snr < 0.0, "the next flag 1 block may start");
    pass.one(3, &[]);
    // noise that the new lock does not outlive, once its guard of 2,048 samples is down
    let a = pass.one(1, &noise(77, 4_096));
    is(&a, 1, 0, 1, 2, 0);
}

fn main() {
    let name = std::env::args().nth(1).unwrap_or_default();
    let f = Reference::named(&name).unwrap_or_else(|| values::stop("facts exported, platform or counted"));
    let facts: [(&str, fn(Reference)); 22] = [
        ("constants", constants),
        ("value table", value_table),
        ("opening", opening),
        ("refusals", refusals),
        ("ratio decides", ratio_decides),
        ("guard counts", guard_counts),
        ("zero sample", zero_sample),
        ("one name for half a turn", if name == "platform" { source_wraps } else { one_name }),
        ("lost", lost),
        ("no gain, floor", no_gain_and_floor),
        ("asymmetry", asymmetry),
        ("bank values", bank_values),
        ("idle", idle),
        ("before a start", before_start),
        ("locked, no bank", locked_without_bank),
        ("locked, bank", locked_with_bank),
        ("fades", fades),
        ("nothing survives", nothing_survives),
        ("what survives", what_survives),
        ("negative zero", negative_zero),
        ("trackers equal", trackers_equal),
        ("start in a fade", start_in_fade),
    ];
    for (what, fact) in facts {
        if std::panic::catch_unwind(|| fact(f)).is_err() {
            eprintln!("facts: {what}: not so in the {name} build");
            std::process::exit(1);
        }
    }
    println!("facts: {} groups hold in the {name} build", facts.len());
}
