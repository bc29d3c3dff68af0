//! The two-table lookup, in both modes of X, and the camera curve.

use crate::both::{compare, same, start, Both};
use crate::draw::{Generator, EDGES};
use crate::reference::{camera as plain_camera, each, lookup as plain};
use olsketina::{camera, Choice, Counters, Lookup, Mode, Slope, TableSettings};

const MODES: [Mode; 2] = [Mode::Linear, Mode::Exponential];

/// What a run is given beside its settings.
struct Given {
    xs: Vec<i16>,
    ys: Vec<i16>,
    samples: Vec<i32>,
    outputs: Vec<i32>,
    counters: Counters,
}

impl Both {
    /// Compares a run, and counts the samples of each kind where it was accepted.
    fn run(&mut self, lookup: Lookup, given: &Given) {
        let call = if lookup.mode == Mode::Linear { "lut_run_linear" } else { "lut_run_exponential" };
        let Given { xs, ys, samples, outputs, counters } = given;
        let [mut ours, mut theirs] = [*counters; 2];
        let case = format_args!("{lookup:?} X {xs:?} Y {ys:?} samples {samples:?} outputs {} {counters:?}", outputs.len());
        let library = |outputs: &mut [i32]| lookup.run(xs, ys, samples, outputs, &mut ours);
        let reference = |outputs: &mut [i32]| plain::run(&lookup, xs, ys, samples, outputs, &mut theirs);
        self.lend(call, outputs, case, library, reference);
        same("counters", &ours, &theirs, case);
        for (kind, (after, before)) in (0..).zip(ours.into_iter().zip(counters)).filter(|(_, (after, before))| after > before) {
            self.note("samples of kind", kind, after - before);
        }
    }

    /// The same with tables and counters drawn for it, and samples too.
    fn run_drawn(&mut self, g: &mut Generator, lookup: Lookup) {
        let samples = samples(g, &lookup);
        self.run(lookup, &given(g, samples));
    }
}

/// Both calls gave these answers, and every kind of sample was seen.
fn all(answers: &str) -> String {
    format!("lut_run_exponential: {answers}; lut_run_linear: {answers}; samples of kind: 0 1 2 3 4")
}

/// start + last · 2^select.
fn end(start: i32, last: i64, select: i32) -> i64 {
    i64::from(start) + if select < 0 { last >> -select } else { last << select }
}

/// The greatest start from which a table of this length ends within 32 bits.
fn greatest(last: i64, select: i32) -> i64 {
    i64::from(i32::MAX) - end(0, last, select)
}

fn held(number: i64) -> i32 {
    number.clamp(i32::MIN.into(), i32::MAX.into()) as i32
}

/// A start from which a table of this length ends within 32 bits.
fn any_start(g: &mut Generator, last: i64, select: i32) -> i32 {
    let (low, greatest) = (i32::MIN.into(), greatest(last, select));
    let [near, any] = [g.between(-300, 300), g.between(low, greatest)];
    held(g.pick(&[low, greatest, near, -end(0, last, select) / 2, any, any]).min(greatest))
}

fn slope(g: &mut Generator) -> (i16, i32) {
    let scale = if g.one_in(3) { g.pick(&[i16::MIN, -1, 0, 1, i16::MAX]) } else { g.word() as i16 };
    (scale, g.between(-16, 15) as i32)
}

fn table(select: i32, start: i32, end: i32, slopes: [(i16, i32); 2]) -> TableSettings {
    let [below, above] = slopes.map(|(scale, shift)| Slope { scale, shift });
    TableSettings { select, start, end, below, above }
}

/// The bits are Priority, OverflowPriority and UnderflowPriority.
fn lookup(mode: Mode, x: TableSettings, y: TableSettings, bits: u32) -> Lookup {
    let [priority, overflow, underflow] = [1, 2, 4].map(|bit| bits & bit != 0);
    Lookup { mode, x, y, priority, overflow, underflow }
}

/// A valid linear table of last + 1 entries, its select from `low` to `high`.
fn linear(g: &mut Generator, last: i64, low: i64, high: i64) -> TableSettings {
    let select = g.between(low, high) as i32;
    let start = any_start(g, last, select);
    table(select, start, end(start, last, select) as i32, [slope(g), slope(g)])
}

/// Valid settings.
fn settings(g: &mut Generator, mode: Mode) -> Lookup {
    let mut x = linear(g, 64, -6, 25);
    if mode == Mode::Exponential {
        (x.select, x.end) = (g.between(-32, 31) as i32, i32::MAX);
        let edge = g.pick(&[i32::MIN, -1, 0, 1, i32::MAX - 1, i32::MAX]);
        let [near, any] = [g.between(-300, 300) as i32, g.word() as i32];
        x.start = g.pick(&[edge, near, any, any]);
    }
    let mut y = linear(g, 256, -8, 23);
    if g.one_in(2) {
        // Beside the X table, so that both hit now and then.
        y.start = held((i64::from(x.start) + g.between(-70, 70)).min(greatest(256, y.select)));
        y.end = end(y.start, 256, y.select) as i32;
    }
    lookup(mode, x, y, g.among(0, 7))
}

/// The four slopes: X below, X above, Y below, Y above.
fn slopes(lookup: &mut Lookup) -> [&mut Slope; 4] {
    let Lookup { x, y, .. } = lookup;
    [&mut x.below, &mut x.above, &mut y.below, &mut y.above]
}

fn entries(g: &mut Generator, count: usize) -> Vec<i16> {
    match g.below(5) {
        0 => (0..count).map(|_| g.pick(&[i16::MIN, i16::MAX])).collect(),
        1 => (0..count).map(|i| 10 * i as i16).collect(),
        2 => vec![g.word() as i16; count],
        _ => g.any_elements(count),
    }
}

/// Samples at and beside the ends of both tables, at powers of two from them, at the 32-bit limits, and anywhere.
fn samples(g: &mut Generator, lookup: &Lookup) -> Vec<i32> {
    let Lookup { x, y, .. } = lookup;
    let mut samples = vec![i32::MIN, i32::MIN + 1, -1, 0, 1, i32::MAX - 1, i32::MAX];
    for base in [x.start, x.end, y.start, y.end].map(i64::from) {
        samples.extend((-2..=2).map(|beside| held(base + beside)));
        let powers = (1..=31).map(|k| 1 << k);
        samples.extend(powers.flat_map(|power| [base + power - 1, base + power, base + power + 1, base - power].map(held)));
    }
    for [one, other] in [[x.start, x.end], [y.start, y.end]].map(|ends| ends.map(i64::from)) {
        samples.extend((0..30).map(|_| g.between(one.min(other), one.max(other)) as i32));
    }
    samples.extend((0..30).map(|_| g.word() as i32));
    samples
}

fn given(g: &mut Generator, samples: Vec<i32>) -> Given {
    let outputs = vec![g.word() as i32; samples.len()];
    let counters = std::array::from_fn(|_| g.among(0, 1 << 20));
    Given { xs: entries(g, 65), ys: entries(g, 257), samples, outputs, counters }
}

#[test]
fn accepted_runs() {
    let (mut g, mut both) = start(80);
    each!(_ in 0..12500, mode in MODES => {
        let lookup = settings(&mut g, mode);
        both.run_drawn(&mut g, lookup);
    });
    both.expect(&all("0"));
}

/// Every select and offset from below its range to above it, with the right end and ends beside it; then from starts at and beside the greatest:
/// a table whose end would be past 32 bits has no end that is taken.
#[test]
fn every_select_and_offset() {
    let (mut g, mut both) = start(81);
    let x = (-34..=34).map(|select| (64, select, (-6..=25).contains(&select)));
    let y = (-10..=25).map(|select| (256, select, (-8..=23).contains(&select)));
    each!(mode in MODES, (last, select, valid) in x.clone().chain(y.clone()) => {
        let exponential = last == 64 && mode == Mode::Exponential;
        let mut ends = Vec::new();
        for beside in [0, 0, 0, 1, -1, i32::MIN] {
            let start = if valid { any_start(&mut g, last, select) } else { g.word() as i32 };
            let end = if exponential { i32::MAX } else { held(end(start, last, select)) };
            ends.push((start, end.wrapping_add(beside)));
        }
        if valid && !exponential {
            let starts = [-1, 0, 1, 2].map(|past| (greatest(last, select) + past) as i32);
            ends.extend(starts.map(|start| (start, end(start, last, select) as i32)));
        }
        for (start, end) in ends {
            let mut lookup = settings(&mut g, mode);
            let table = if last == 64 { &mut lookup.x } else { &mut lookup.y };
            (table.select, table.start, table.end) = (select, start, end);
            both.run_drawn(&mut g, lookup);
        }
    });
    both.expect(&all("0 12 13 14 15"));
}

#[test]
fn every_shift() {
    let (mut g, mut both) = start(83);
    let shifts = (-17..=16).chain([i32::MIN, -32, -31, 31, 32, i32::MAX]);
    each!(mode in MODES, at in 0..4, shift in shifts.clone(), scale in [i16::MIN, -3, -1, 0, 1, 3, i16::MAX] => {
        let mut lookup = settings(&mut g, mode);
        *slopes(&mut lookup)[at] = Slope { scale, shift };
        both.run_drawn(&mut g, lookup);
    });
    both.expect(&all("0 16"));
}

/// The longest slopes: a table at one end of the samples' range, and samples at the other.
#[test]
fn longest_slopes() {
    let (mut g, mut both) = start(84);
    let slopes =
        [i16::MIN, i16::MIN + 1, -1, 1, i16::MAX].into_iter().flat_map(|scale| [-16, -15, -1, 0, 1, 15].map(|shift| (scale, shift)));
    each!(slope in slopes, entry in [i16::MIN, 0, i16::MAX], start in [i32::MIN, i32::MAX - 1], bits in [0, 7] => {
        let [x, y] = [-6, -8].map(|select| table(select, start, start + 1, [slope; 2]));
        let linear = lookup(Mode::Linear, x, y, bits);
        let samples = samples(&mut g, &linear);
        let given = Given { xs: vec![entry; 65], ys: vec![entry; 257], ..given(&mut g, samples) };
        both.run(linear, &given);
        both.run(lookup(Mode::Exponential, table(31, i32::MAX, i32::MAX, [slope; 2]), y, bits), &given);
    });
    both.expect("lut_run_exponential: 0; lut_run_linear: 0; samples of kind: 1 2 3 4");
}

/// Settings, table lengths, output lengths and counters right and wrong in every mixture.
#[test]
fn refusals_and_their_order() {
    let (mut g, mut both) = start(85);
    let [low, high] = [i32::MIN, i32::MAX];
    for round in 0..66000 {
        let mut lookup = settings(&mut g, MODES[round % 2]);
        let mut samples = samples(&mut g, &lookup);
        samples.truncate(g.index(12));
        let count = samples.len();
        let mut given = given(&mut g, samples);
        for _ in 0..g.below(4) {
            let [x_count, y_count] = [g.pick(&[0, 1, 64, 66, 257]), g.pick(&[0, 65, 256, 258])];
            match g.below(9) {
                0 => given.xs = entries(&mut g, x_count),
                1 => given.ys = entries(&mut g, y_count),
                2 => lookup.x.select = g.pick(&[-33, -32, -7, -6, 25, 26, 31, 32, low, high]),
                3 => lookup.x.end = lookup.x.end.wrapping_add(g.pick(&[1, -1, 64])),
                4 => lookup.y.select = g.pick(&[-9, -8, 23, 24, 25, low, high]),
                5 => lookup.y.end = lookup.y.end.wrapping_add(g.pick(&[1, -1, 256])),
                6 => slopes(&mut lookup)[g.index(4)].shift = g.pick(&[-17, 16, 32, -32, low, high]),
                7 => given.outputs = vec![3; g.pick(&[0, count + 1, count.saturating_sub(1)])],
                _ => given.counters[g.index(5)] = g.pick(&[u32::MAX, u32::MAX - 5, 1 << 31]),
            }
        }
        both.run(lookup, &given);
    }
    both.expect(&all("0 11 12 13 14 15 16 17 18"));
}

/// The five counters and the new samples up to 4294967295, and past it; also with no samples.
#[test]
fn counters_at_the_limit() {
    let (mut g, mut both) = start(86);
    for round in 0..6400 {
        let lookup = settings(&mut g, MODES[round % 2]);
        let mut samples = samples(&mut g, &lookup);
        samples.rotate_left(g.index(300));
        samples.truncate(g.pick(&[0, 0, 1, 2, 7, 100]));
        let mut left = i64::from(u32::MAX) - samples.len() as i64 + g.between(-1, 1);
        let mut given = given(&mut g, samples);
        for counter in &mut given.counters {
            *counter = if g.one_in(3) { left } else { g.between(0, left) }.min(u32::MAX.into()) as u32;
            left -= i64::from(*counter);
        }
        *given.counters.iter_mut().min().expect("five") += left as u32;
        both.run(lookup, &given);
    }
    let lookup = settings(&mut g, Mode::Linear);
    let mut given = given(&mut g, Vec::new());
    let pairs = EDGES.into_iter().flat_map(|one| EDGES.map(|other| [one, 0, other, 0, 0]));
    for counters in pairs.chain([[u32::MAX; 5]]) {
        given.counters = counters;
        both.run(lookup, &given);
    }
    both.expect(&all("0 17"));
}

/// Each priority bit for each kind of sample.
#[test]
fn priorities() {
    let (mut g, mut both) = start(87);
    // X from 0 to 64, Y from −500 to −244 or from 32 to 288: every pair of sides but X above with Y below, then that too.
    each!(bits in 0..8, (mode, x_end) in [(Mode::Linear, 64), (Mode::Exponential, i32::MAX)], y_start in [-500, 32, 500] => {
        let x = table(0, 0, x_end, [(3, 0), (5, 1)]);
        let y = table(0, y_start, y_start + 256, [(7, -1), (11, 2)]);
        both.run(lookup(mode, x, y, bits), &given(&mut g, (-600..900).step_by(7).collect()));
    });
    both.expect(&all("0"));
}

/// Every sample around a short exponential table, for every offset.
#[test]
fn exponential_samples_one_by_one() {
    let (mut g, mut both) = start(88);
    each!(offset in -32..=31, start in [0, -100, i32::MIN, i32::MAX - 700] => {
        let x = table(offset, start, i32::MAX, [(-3, 1), (5, 0)]);
        let y = table(-8, -5000, -4999, [(7, 0), (11, 0)]);
        let samples = (-10..690).map(|d| start.saturating_add(d)).collect();
        both.run(lookup(Mode::Exponential, x, y, 0), &given(&mut g, samples));
    });
    both.expect("lut_run_exponential: 0; samples of kind: 0 2 4");
}

#[test]
fn every_entry_of_the_curve() {
    let [x, y] = [camera::x_table().to_vec(), camera::y_table().to_vec()];
    assert!(x.into_iter().eq((0..65).map(plain_camera::x_entry)));
    assert!(y.iter().copied().eq((0..257).map(plain_camera::y_entry)));
    for i in (0..400).chain(EDGES) {
        assert_eq!(camera::y_entry(i), plain_camera::y_entry(i), "Y {i}");
        assert_eq!(camera::x_entry(i), plain_camera::x_entry(i), "X {i}");
    }
    for (i, entry) in y.into_iter().enumerate() {
        let (entry, square) = (i64::from(entry), i as i64 * 1048576);
        assert!(entry * entry <= square && (entry + 1) * (entry + 1) > square);
    }
    println!("camera entries: {} cases", 2 * (400 + EDGES.len()) + 257 + 65);
}

/// Every select from below the range to above it, each bit named X, named Y or not named; then the settings at work.
#[test]
fn ready_made_settings_of_the_curve() {
    let (mut g, mut both) = start(90);
    let words = [0, 1, 2, 1 << 31, u32::MAX].map(Choice);
    let selects = (-3..=26).chain([i32::MIN, i32::MIN + 2, -22, 32, 34, i32::MAX]);
    each!(select in selects, priority in words, overflow in words, underflow in words => {
        let choices = [priority, overflow, underflow];
        let made = compare!(both, "camera_ready_made", Lookup::ready_made, plain_camera::ready_made, select, choices);
        let Some(lookup) = made else { continue };
        let mut samples = vec![i32::MIN, -1, 0, 1, i32::MAX];
        for end in [lookup.x.end, lookup.y.end] {
            samples.extend([end - 1, end, end.saturating_add(1)]);
        }
        samples.extend((0..30).map(|_| g.between(0, lookup.y.end.into()) as i32));
        let [xs, ys] = [camera::x_table().to_vec(), camera::y_table().to_vec()];
        both.run(lookup, &Given { xs, ys, outputs: vec![7; samples.len()], samples, counters: [1; 5] });
    });
    both.expect("camera_ready_made: 0 14; lut_run_linear: 0; samples of kind: 1 2 3 4");
}
