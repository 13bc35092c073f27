//! Single functions of the source on seeded built values: one vector a line on standard output.
//!
//!     single [--build exported|platform|counted] [--seed N] [--count N] [--kind NAME] [--words 1]
//!
//! A line is the kind, its inputs and its outputs, parted by single spaces: f64 as 16 hexadecimal
//! digits, f32 as 8, whole numbers decimal, lists of f32 run on (`-` if empty). Any NaN is written
//! 7ff8000000000000 or 7fc00000. README.md has the fields of each kind. The counted build prints
//! its branch counts on standard error at the end.
//!
//! With --words a line is a run of words of 16 hexadecimal digits, which the programs in
//! crates/*_vectors read: the kind by its place in KINDS, whole numbers, f32 in the lower half, a
//! list as its count and then its numbers.

mod api;
mod values;

use api::Reference;
use api::shapes::{Built, NONE, PAIRS, STRETCH, Tracker};
use std::f64::consts::PI;
use std::io::Write;
use std::sync::atomic::{AtomicBool, AtomicUsize, Ordering};
use values::{ODD, Random, Signal, Words, built, built_f32, hex, hex32, stop};

/// Whether lines are written as words.
static WORDS: AtomicBool = AtomicBool::new(false);

fn as_words() -> bool {
    WORDS.load(Ordering::Relaxed)
}

/// One line, field by field.
struct Line(String);

impl Line {
    fn new(kind: &str) -> Self {
        if as_words() {
            let place = KINDS.iter().position(|(name, _)| *name == kind).expect("a kind of the table");
            return Line(format!("{place:016x}"));
        }
        Line(kind.to_string())
    }
    fn word(&mut self, word: &str) {
        self.0.push(' ');
        self.0.push_str(word);
    }
    fn whole(&mut self, n: u64) {
        self.word(&if as_words() { format!("{n:016x}") } else { n.to_string() });
    }
    fn float(&mut self, v: f64) {
        self.word(&hex(v));
    }
    fn floats(&mut self, values: &[f64]) {
        for v in values {
            self.float(*v);
        }
    }
    fn float32(&mut self, v: f32) {
        self.word(&if as_words() { format!("{:0>16}", hex32(v)) } else { hex32(v) });
    }
    fn list(&mut self, values: &[f32]) {
        if as_words() {
            self.whole(values.len() as u64);
            values.iter().for_each(|v| self.float32(*v));
            return;
        }
        let run: String = values.iter().map(|v| hex32(*v)).collect();
        self.word(if run.is_empty() { "-" } else { &run });
    }
}

// ---- built trackers ----

/// A covariance as the filter has them: positive, symmetric, of the usual sizes.
fn usual_covariance(r: &mut Random) -> [f64; 36] {
    let scale = [0.5, 300.0, 150.0, 0.5, 300.0, 150.0];
    let mut p = [0.0; 36];
    for _ in 0..3 {
        let v: Vec<f64> = scale.iter().map(|s| s * r.noise()).collect();
        for i in 0..6 {
            for j in 0..6 {
                p[6 * i + j] += v[i] * v[j];
            }
        }
    }
    p
}

fn some_covariance(r: &mut Random) -> [f64; 36] {
    let mut p = usual_covariance(r);
    match r.below(8) {
        0 => p = [0; 36].map(|_| built(r, 100.0)),
        1 => p = [0.0; 36],
        2 => (0..1 + r.below(3)).for_each(|_| p[r.below(36) as usize] = r.pick(&ODD)),
        3 => (0..1 + r.below(3)).for_each(|_| p[7 * r.below(6) as usize] = built(r, 1e-15)),
        4 => p[r.below(36) as usize] *= 1.0 + 1e-9,
        _ => {}
    }
    p
}

fn some_state(r: &mut Random) -> [f64; 6] {
    let scale = [1.5, 3e4, 3e3, 1.5, 3e4, 3e3];
    let mut x = scale.map(|s| s * r.noise());
    match r.below(8) {
        0 => x = scale.map(|s| built(r, s)),
        1 => x[r.below(6) as usize] = r.pick(&ODD),
        2 => x = [0.0; 6],
        3 => x = scale.map(|s| 100.0 * s * r.noise()),
        _ => {}
    }
    x
}

fn some_metric(r: &mut Random) -> f64 {
    match r.below(8) {
        0 => built(r, 1.0),
        1 => r.pick(&[0.02, 0.1, 0.0, 1.0, 1e-3, 0.999, 0.5]),
        2 => r.between(0.019, 0.021),
        3 => r.between(0.099, 0.101),
        4 => r.between(0.02, 0.1),
        _ => r.between(-1.0, 1.0),
    }
}

/// Sums about the ratio 819.2 that decides, or any.
fn some_sums(r: &mut Random) -> (f64, f64) {
    match r.below(4) {
        0 => (built(r, 100.0), built(r, 100.0)),
        1 => (r.between(0.0, 1e-6), r.between(0.0, 2e-12)),
        _ => {
            let i = r.between(500.0, 1100.0);
            (i, i * i / (819.2 * r.between(0.95, 1.05)))
        }
    }
}

/// A window of which only the oldest pair is ever read.
fn some_window(r: &mut Random, t: &mut Tracker) -> [f64; STRETCH] {
    let mut window = [0.0; STRETCH];
    t.window_start = r.below(PAIRS as u64) as u32;
    t.window_fill = r.pick(&[0, 1, 500, 1022, 1023, 1024, 1024, 1024]);
    let at = 2 * t.window_start as usize;
    window[at] = if r.chance(4) { built(r, 1.0) } else { r.unit() };
    window[at + 1] = if r.chance(4) { built(r, 1.0) } else { r.unit() };
    window
}

fn some_tracker(f: Reference, r: &mut Random) -> (Tracker, [f64; STRETCH]) {
    let rate = r.pick(&[1_000.0, 9_600.0, 40_000.0, 50_000.0, 100_000.0]);
    let mut t = f.tracker(rate, r.below(3));
    t.x = some_state(r);
    t.p = some_covariance(r);
    t.metric = some_metric(r);
    t.envelope = if r.chance(6) { built(r, 1.0) } else { r.between(0.2, 1.2) };
    (t.sum_abs_i, t.sum_q_sq) = some_sums(r);
    t.ratio = match r.below(5) {
        0 => built(r, 2.0),
        1 => r.pick(&[1.0, 1.0 + 1e-6, 1.0 - 1e-6, 1.0 + 9e-7, 0.25, 4.0]),
        _ => r.between(0.25, 4.0),
    };
    t.guard = r.pick(&[0, 0, 0, 1, 2, 2048]);
    t.locked = !r.chance(5) as u32;
    t.adaptive = r.below(2) as u32;
    t.dual_lock = r.below(2) as u32;
    if r.chance(4) {
        t.r_meas = built(r, 10.0);
    }
    if r.chance(8) {
        t.ts = built(r, 1e-3);
    }
    if r.chance(6) {
        (t.q_phase, t.q_freq, t.q_chirp) = (built(r, 1.0), built(r, 1e3), built(r, 1e4));
    }
    // No gain at all: the innovation's variance is exactly 0, or NaN.
    if r.chance(10) {
        t.p[0] = r.pick(&[0.0, -0.0, f64::NAN, 1e-13]);
        t.p[21] = t.p[0];
        t.r_meas = r.pick(&[0.0, -0.0, f64::NAN, 5e-14]);
    }
    let window = some_window(r, &mut t);
    (t, window)
}

fn some_sample(r: &mut Random) -> [f32; 2] {
    match r.below(6) {
        0 => [built_f32(r), built_f32(r)],
        1 => [r.pick(&[0.0, -0.0]), r.pick(&[0.0, -0.0])],
        2 => [r.pick(&[0.0, 1.0, -1.0]), r.pick(&[0.0, 1.0, -1.0])],
        _ => {
            let angle = r.between(-3.2, 3.2);
            [angle.cos() as f32, angle.sin() as f32]
        }
    }
}

/// What a correction reads of a tracker.
fn write_before(line: &mut Line, t: &Tracker, window: &[f64; STRETCH]) {
    let oldest = 2 * t.window_start as usize;
    line.whole(t.modulation as u64);
    line.whole(t.locked as u64);
    line.floats(&t.x);
    line.floats(&t.p);
    line.floats(&[t.r_meas, t.metric, t.envelope, t.sum_abs_i, t.sum_q_sq]);
    line.whole(t.window_fill as u64);
    line.floats(&window[oldest..oldest + 2]);
}

fn write_state(line: &mut Line, t: &Tracker) {
    line.whole(t.locked as u64);
    line.floats(&t.x);
    line.floats(&t.p);
    line.floats(&[t.metric, t.envelope, t.sum_abs_i, t.sum_q_sq]);
    line.whole(t.window_fill as u64);
}

/// What a correction leaves; `place` is where its pair goes.
fn write_after(line: &mut Line, t: &Tracker, window: &[f64; STRETCH], place: usize) {
    write_state(line, t);
    line.floats(&window[2 * place..2 * place + 2]);
}

fn next_place(t: &Tracker) -> usize {
    (t.window_start + t.window_fill) as usize % PAIRS
}

// ---- one line of each kind ----

fn predict(f: Reference, r: &mut Random) -> Line {
    let (mut t, _) = some_tracker(f, r);
    let mut line = Line::new("predict");
    line.floats(&t.x);
    line.floats(&t.p);
    line.floats(&[t.q_phase, t.q_freq, t.q_chirp, t.ts, t.metric, t.ratio]);
    line.whole(t.adaptive as u64);
    f.predict(&mut t);
    line.floats(&t.x);
    line.floats(&t.p);
    line
}

fn correct(f: Reference, r: &mut Random) -> Line {
    let (t, window) = some_tracker(f, r);
    corrected(f, t, window, r.below(2), some_sample(r))
}

/// A correction that only wraps: without covariance the gain is 0, and the phase is at an end of the range, a whole range away from one or beside these.
/// One after the other, so that none is left out.
fn wrap(f: Reference, _: &mut Random) -> Line {
    static MADE: AtomicUsize = AtomicUsize::new(0);
    let n = MADE.fetch_add(1, Ordering::Relaxed);
    let (modulation, channel, beside, end) = (n % 3, n / 3 % 2, n / 6 % 5, n / 30 % WRAP_ENDS.len());
    let limit = if modulation == 2 { PI / 2.0 } else { 2.0 * PI };
    let mut phase = limit * WRAP_ENDS[end];
    for _ in 2..beside {
        phase = phase.next_up();
    }
    for _ in beside..2 {
        phase = phase.next_down();
    }
    let mut t = f.tracker(40_000.0, modulation as u64);
    t.p = [0.0; 36];
    t.x[3 * channel] = phase;
    corrected(f, t, [0.0; STRETCH], channel as u64, [1.0, 0.0])
}

/// The ends of the range and one more place that is wrapped to one, in ranges.
const WRAP_ENDS: [f64; 3] = [-0.5, 0.5, 1.5];

/// What a correction is given and what it leaves.
fn corrected(f: Reference, mut t: Tracker, mut window: [f64; STRETCH], channel: u64, s: [f32; 2]) -> Line {
    let mut line = Line::new("correct");
    line.whole(channel);
    write_before(&mut line, &t, &window);
    line.list(&s);
    let place = next_place(&t);
    let answer = f.correct(&mut t, &mut window, channel as u32, s);
    line.whole(answer.is_some() as u64);
    let (in_phase, ratio) = answer.unwrap_or((0.0, 0.0));
    line.floats(&[in_phase, ratio]);
    write_after(&mut line, &t, &window, place);
    line
}

fn update(f: Reference, r: &mut Random) -> Line {
    let (mut t, mut window) = some_tracker(f, r);
    let s = some_sample(r);
    let mut line = Line::new("update");
    line.whole(t.dual_lock as u64);
    line.whole(t.guard);
    write_before(&mut line, &t, &window);
    line.list(&s);
    let place = next_place(&t);
    f.update(&mut t, &mut window, s);
    line.whole(t.guard);
    write_after(&mut line, &t, &window, place);
    line
}

fn dual(f: Reference, r: &mut Random) -> Line {
    let (mut t, mut window) = some_tracker(f, r);
    let (s1, s2) = (some_sample(r), some_sample(r));
    let mut line = Line::new("dual");
    line.whole(t.dual_lock as u64);
    line.whole(t.guard);
    write_before(&mut line, &t, &window);
    line.list(&s1);
    line.list(&s2);
    let place = next_place(&t);
    f.update_dual(&mut t, &mut window, s1, s2);
    line.whole(t.guard);
    write_after(&mut line, &t, &window, place);
    line
}

fn reset(f: Reference, r: &mut Random) -> Line {
    let (mut t, mut window) = some_tracker(f, r);
    let [phase, frequency, chirp] = [1.0, 1e4, 1e2].map(|s| built(r, s));
    let mut line = Line::new("reset");
    line.floats(&[t.ratio, phase, frequency, chirp]);
    f.reset(&mut t, &mut window, phase, frequency, chirp);
    line.whole(t.guard);
    write_state(&mut line, &t);
    line
}

fn some_list(r: &mut Random, most: u64) -> Vec<f32> {
    let pairs = r.below(most) as usize;
    let modulation = r.below(3);
    let mut signal = Signal::new(r, modulation, 40_000.0);
    let mut list = signal.samples(r, pairs, true);
    match r.below(8) {
        0 => list.iter_mut().for_each(|v| *v = built_f32(r)),
        1 if !list.is_empty() => {
            let at = r.below(list.len() as u64) as usize;
            list[at] = built_f32(r);
        }
        2 => {
            let one = some_sample(r);
            list.chunks_mut(2).for_each(|p| p.copy_from_slice(&one));
        }
        3 => list.iter_mut().for_each(|v| *v *= 1e-6),
        // Half the rate, from either side: the estimate's angle is half a turn, and its clamp is near.
        // Of even strength it would be at right angles to the first vector and estimate to 0.
        4 => {
            let turn = r.pick(&[0.0, 1e-20, -1e-20]);
            for k in 0..pairs {
                let strength = 0.5 + 0.03 * (k % 3) as f32;
                list[2 * k] = if k % 2 == 0 { strength } else { -strength };
                list[2 * k + 1] = list[2 * k] * k as f32 * turn;
            }
        }
        // The first sample dwarfs the rest: the estimate's vector has nothing but its last place.
        5 if pairs > 0 => {
            list.iter_mut().for_each(|v| *v *= 1e-7);
            list[0] = 1000.0;
        }
        _ => {}
    }
    list
}

fn estimate(f: Reference, r: &mut Random) -> Line {
    // At 1,004 and 1,015 Hz half a turn comes out above half the rate, by a rounding.
    let rate = match r.below(10) {
        0 => built(r, 1e5),
        1..4 => r.pick(&[1_004.0, 1_015.0]),
        _ => r.between(1_000.0, 100_000.0),
    };
    // The source's clamp stops on a NaN limit or on a lower limit above the upper.
    let rate = if rate >= 0.0 { rate } else { 40_000.0 };
    let list = some_list(r, 40);
    let mut line = Line::new("estimate");
    line.float(rate);
    line.list(&list);
    line.float(f.estimate(&list, rate));
    line
}

/// As for BPSK: the estimate of the samples' squares, which the source takes with num-complex.
fn squared(f: Reference, r: &mut Random) -> Line {
    let rate = r.between(1_000.0, 100_000.0);
    let list = some_list(r, 40);
    let squares: Vec<f32> = list.chunks(2).flat_map(|s| [s[0] * s[0] - s[1] * s[1], s[0] * s[1] + s[1] * s[0]]).collect();
    let mut line = Line::new("squared");
    line.float(rate);
    line.list(&list);
    line.float(f.estimate(&squares, rate));
    line
}

fn snr(f: Reference, r: &mut Random) -> Line {
    let list = some_list(r, 30);
    let mut line = Line::new("snr");
    line.list(&list);
    line.float(f.snr(&list));
    line
}

fn survey(f: Reference, r: &mut Random) -> Line {
    let mut list = some_list(r, 6);
    if r.chance(3) {
        list.push(built_f32(r));
    }
    if r.chance(3) {
        let near = r.pick(&[1.98f32, 1e-12]).sqrt();
        list.push(near * (1.0 + r.noise() as f32 * 1e-7));
        list.push(0.0);
    }
    let mut line = Line::new("survey");
    line.list(&list);
    line.whole(f.survey(&list));
    line
}

fn normalise(f: Reference, r: &mut Random) -> Line {
    let mut list = some_list(r, 8);
    if r.chance(3) {
        list.extend([(1e-6 * (1.0 + 1e-7 * r.noise())) as f32, 0.0]);
    }
    let mut line = Line::new("normalise");
    line.list(&list);
    f.normalise(&mut list);
    line.list(&list);
    line
}

/// Three trackers whose frequencies are some 150 Hz apart.
fn some_bank(f: Reference, r: &mut Random) -> [Tracker; 3] {
    let modulation = r.below(3);
    let scale = if modulation == 1 { 2.0 } else { 1.0 };
    let base = r.between(-5e3, 5e3);
    [0, 1, 2].map(|_| {
        let mut t = some_tracker(f, r).0;
        t.modulation = modulation as u32;
        t.window_start = 0;
        t.window_fill = 0;
        t.locked = !r.chance(3) as u32;
        let apart = match r.below(4) {
            0 => 0.0,
            1 => r.pick(&[150.0, -150.0, 300.0]),
            2 => r.between(-400.0, 400.0),
            _ => r.between(149.9, 150.1),
        };
        if !r.chance(6) {
            t.x[1] = (base + apart) * scale * 2.0 * std::f64::consts::PI;
        }
        if !r.chance(4) {
            t.metric = r.pick(&[0.3, 0.3, 0.9, 0.5, 0.5, 0.0, -0.5, 0.99]);
        }
        t
    })
}

fn discrepancy(f: Reference, r: &mut Random) -> Line {
    let bank = some_bank(f, r);
    let mut line = Line::new("discrepancy");
    line.whole(bank[0].modulation as u64);
    for t in &bank {
        line.whole(t.locked as u64);
        line.floats(&[t.metric, t.x[1]]);
    }
    line.float32(f.discrepancy(&bank));
    f.differences(&bank).into_iter().for_each(|d| line.float32(d));
    line
}

fn figures(f: Reference, r: &mut Random) -> Line {
    let bank = some_bank(f, r);
    let mut line = Line::new("figures");
    for t in &bank {
        line.whole(t.locked as u64);
        line.floats(&[t.metric, t.p[0], t.p[7]]);
    }
    f.features(&bank).into_iter().for_each(|v| line.float32(v));
    line
}

fn some_frequency(r: &mut Random) -> f64 {
    match r.below(5) {
        0 => 0.0,
        1 => -0.0,
        2 => built(r, 1e8),
        _ => r.pick(&[137.5e6, 400e6, 1e6, 1e11, 137.5e6 + 1e-7]),
    }
}

fn write_bank(line: &mut Line, b: &Built) {
    for t in &b.trackers {
        line.whole(t.locked as u64);
        line.float(t.metric);
    }
    line.whole(b.tracker as u64);
    line.whole(b.in_fade as u64);
    line.whole(b.fade_count);
    line.whole(b.ended as u64);
    line.whole(b.ever_locked as u64);
    line.whole(b.pll.locked as u64);
    line.whole(b.locked as u64);
    line.floats(&[b.phase, b.frequency, b.electrons]);
}

/// Pruning, choice and fade: a flag 1 block without samples on a built bank that does not start.
fn bank(f: Reference, r: &mut Random) -> Line {
    let trackers = some_bank(f, r);
    let mut pll = trackers[0];
    pll.locked = 1;
    let b = Built {
        rate: 40_000,
        factor: 1,
        modulation: pll.modulation,
        bank: 1,
        two: r.below(2) as u32,
        assigned: 1,
        nominal: some_frequency(r),
        target: some_frequency(r),
        target2: some_frequency(r),
        frequency2: some_frequency(r),
        locked: r.below(2) as u32,
        ever_locked: 1,
        last_snr: 0.0,
        tracker: r.below(NONE as u64 + 1) as u32,
        in_fade: r.below(2) as u32,
        ended: r.below(2) as u32,
        fade_count: r.below(4),
        fade_steps: r.below(4),
        phase: built(r, 1.0),
        frequency: built(r, 1e8),
        snr: 0.0,
        electrons: built(r, 1.0),
        pll,
        trackers,
    };
    let mut line = Line::new("bank");
    line.whole(b.modulation as u64);
    line.whole(b.two as u64);
    line.floats(&[b.nominal, b.target, b.target2, b.frequency2]);
    for t in &b.trackers {
        line.floats(&[t.x[0], t.x[1], t.x[3], t.x[4]]);
    }
    line.whole(b.fade_steps);
    write_bank(&mut line, &b);
    let mut channel = f.build(&b);
    let answer = channel.block(1, &mut [], &mut [], &mut api::new_window());
    write_bank(&mut line, &channel.read());
    line.float(answer.metric);
    line
}

fn cancel(f: Reference, r: &mut Random) -> Line {
    let v = [1e8, 1e8, 1e4, 1e4].map(|s| match r.below(4) {
        0 => built(r, s),
        1 => r.below(4) as f64,
        2 => r.pick(&[1e-3, 1.1e-3, 9.9e-4, 137.5e6, 400e6]),
        _ => s * r.noise(),
    });
    let mut line = Line::new("cancel");
    line.floats(&v);
    line.float(f.cancel(v[0], v[1], v[2], v[3]));
    line
}

type Kind = fn(Reference, &mut Random) -> Line;

const KINDS: [(&str, Kind); 15] = [
    ("predict", predict),
    ("correct", correct),
    ("update", update),
    ("dual", dual),
    ("reset", reset),
    ("estimate", estimate),
    ("snr", snr),
    ("survey", survey),
    ("normalise", normalise),
    ("discrepancy", discrepancy),
    ("figures", figures),
    ("bank", bank),
    ("cancel", cancel),
    ("squared", squared),
    ("wrap", wrap),
];

fn main() {
    let words = Words::new();
    let name = words.get("--build").unwrap_or("exported");
    let reference = Reference::named(name).unwrap_or_else(|| stop("--build exported, platform or counted"));
    let (seed, count) = (words.number("--seed", 1), words.number("--count", 100));
    let only = words.get("--kind");
    WORDS.store(words.number("--words", 0) == 1, Ordering::Relaxed);
    if only.is_some_and(|k| KINDS.iter().all(|(name, _)| *name != k)) {
        stop("no such kind");
    }
    let mut out = std::io::BufWriter::new(std::io::stdout().lock());
    for (number, (name, kind)) in KINDS.iter().enumerate() {
        if only.is_some_and(|k| k != *name) {
            continue;
        }
        for vector in 0..count {
            let mut random = Random::new(seed ^ (number as u64) << 56 ^ vector << 16);
            writeln!(out, "{}", kind(reference, &mut random).0).expect("standard output can be written");
        }
    }
    out.flush().expect("standard output can be written");
    reference.counts();
}
