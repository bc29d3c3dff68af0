//! The two-table lookup, one sample at a time.

use super::require;
use olsketina::{Answer, Counters, Lookup, Mode, Refusal, Slope, TableSettings};
use std::cmp::Ordering::{self, Equal as Hit, Greater as Above, Less as Below};

/// distance · scale over 2^shift, rounded down.
fn over(slope: Slope, distance: i128) -> i128 {
    let product = distance * i128::from(slope.scale);
    if slope.shift < 0 {
        product << -slope.shift
    } else {
        product.div_euclid(1 << slope.shift)
    }
}

struct Table<'a> {
    mode: Mode,
    settings: TableSettings,
    entries: &'a [i16],
}

impl Table<'_> {
    fn entry(&self, i: i128) -> i128 {
        self.entries[i as usize].into()
    }

    fn last(&self) -> i128 {
        self.entries.len() as i128 - 1
    }

    /// Where a sample lies for the table.
    fn side(&self, x: i128) -> Ordering {
        let [select, start, end] = numbers(&self.settings);
        let d = x - start;
        match self.mode {
            Mode::Linear if d < 0 => Below,
            Mode::Linear if x > end => Above,
            Mode::Linear => Hit,
            Mode::Exponential if d >= 1 && (select < 0 || d >= 1 << select) => Hit,
            Mode::Exponential => Below,
        }
    }

    /// The entry i and the step to the next, `fraction` parts out of `whole`.
    fn between(&self, i: i128, fraction: i128, whole: i128) -> i128 {
        let step = self.entry(i + 1) - self.entry(i);
        (self.entry(i) * whole + step * fraction).div_euclid(whole)
    }

    fn hit(&self, x: i128) -> i128 {
        let [select, start, end] = numbers(&self.settings);
        let d = x - start;
        match self.mode {
            Mode::Linear if select <= 0 => self.entry(d << -select),
            Mode::Linear if x == end => self.entry(self.last()),
            Mode::Linear => self.between(d / (1 << select), d % (1 << select), 1 << select),
            Mode::Exponential => {
                let p = (0..).find(|p| 1 << (p + 1) > d).expect("floor(log2 d)");
                self.between(p - select, d - (1 << p), 1 << p)
            }
        }
    }

    fn value(&self, x: i128) -> i32 {
        let [_, start, end] = numbers(&self.settings);
        let exact = match self.side(x) {
            Below => self.entry(0) + over(self.settings.below, x - start),
            Hit => self.hit(x),
            Above => self.entry(self.last()) + over(self.settings.above, x - end),
        };
        exact.clamp(i32::MIN.into(), i32::MAX.into()) as i32
    }
}

/// Select, start, end.
fn numbers(settings: &TableSettings) -> [i128; 3] {
    [settings.select, settings.start, settings.end].map(i128::from)
}

/// Whether a linear table ends at start + last · 2^select.
fn ends(settings: &TableSettings, last: i128) -> bool {
    let [select, start, end] = numbers(settings);
    end == start + if select < 0 { last >> -select } else { last << select }
}

/// Checks 11 to 18, of a run that lends so many outputs.
pub fn check(l: &Lookup, xs: &[i16], ys: &[i16], samples: usize, outputs: usize, counters: &Counters) -> Answer<()> {
    require(xs.len() == 65 && ys.len() == 257, Refusal::TABLE_LENGTH)?;
    let (selects, ended) = match l.mode {
        Mode::Linear => (-6..=25, (-6..=25).contains(&l.x.select) && ends(&l.x, 64)),
        Mode::Exponential => (-32..=31, l.x.end == i32::MAX),
    };
    require(selects.contains(&l.x.select), Refusal::X_SELECT)?;
    require(ended, Refusal::X_END)?;
    require((-8..=23).contains(&l.y.select), Refusal::Y_SELECT)?;
    require(ends(&l.y, 256), Refusal::Y_END)?;
    let slopes = [l.x.below, l.x.above, l.y.below, l.y.above];
    require(slopes.iter().all(|slope| (-16..=15).contains(&slope.shift)), Refusal::SHIFT)?;
    require(outputs == samples, Refusal::OUTPUT_LENGTH)?;
    let counted: i128 = counters.iter().map(|&counter| i128::from(counter)).sum();
    require(counted + samples as i128 <= 4294967295, Refusal::COUNTERS)
}

/// The five kinds of samples, in the order of the counters.
const X_ONLY: usize = 0;
const Y_ONLY: usize = 1;
const UNDERFLOW: usize = 2;
const OVERFLOW: usize = 3;
const PRIORITY: usize = 4;

pub fn run(l: &Lookup, xs: &[i16], ys: &[i16], samples: &[i32], outputs: &mut [i32], counters: &mut Counters) -> Answer<()> {
    check(l, xs, ys, samples.len(), outputs.len(), counters)?;
    let x = Table { mode: l.mode, settings: l.x, entries: xs };
    let y = Table { mode: Mode::Linear, settings: l.y, entries: ys };
    for (&sample, output) in samples.iter().zip(outputs) {
        let sample = sample.into();
        let (kind, from_y) = match (x.side(sample), y.side(sample)) {
            (Hit, Hit) => (PRIORITY, l.priority),
            (Hit, _) => (X_ONLY, false),
            (_, Hit) => (Y_ONLY, true),
            (Above, Above) => (OVERFLOW, l.overflow),
            (Below, Below) => (UNDERFLOW, l.underflow),
            (Above, Below) | (Below, Above) => (PRIORITY, l.priority),
        };
        *output = if from_y { &y } else { &x }.value(sample);
        counters[kind] += 1;
    }
    Ok(())
}
