//! The two-table lookup, and the camera curve.

use crate::{lent, raw, valued, Answer};

/// How the X table is spaced.
#[derive(Clone, Copy, Debug, PartialEq, Eq)]
pub enum Mode {
    Linear,
    Exponential,
}

/// The slope past one end of a table.
#[derive(Clone, Copy, Debug, Default, PartialEq, Eq)]
pub struct Slope {
    pub scale: i16,
    pub shift: i32,
}

/// The settings of one table; of an exponential X table `select` is its offset.
#[derive(Clone, Copy, Debug, Default, PartialEq, Eq)]
pub struct TableSettings {
    pub select: i32,
    pub start: i32,
    pub end: i32,
    pub below: Slope,
    pub above: Slope,
}

/// The settings of a lookup. The three bits say which table answers where both could: false is X, true is Y.
#[derive(Clone, Copy, Debug, PartialEq, Eq)]
pub struct Lookup {
    pub mode: Mode,
    pub x: TableSettings,
    pub y: TableSettings,
    pub priority: bool,
    pub overflow: bool,
    pub underflow: bool,
}

/// Samples of each kind: X only, Y only, underflow, overflow, priority.
pub type Counters = [u32; 5];

impl Lookup {
    /// Answers every sample, and adds the samples of each kind to the counters. X has 65 entries, Y 257.
    pub fn run(&self, x_entries: &[i16], y_entries: &[i16], samples: &[i32], outputs: &mut [i32], counters: &mut Counters) -> Answer<()> {
        let run = match self.mode {
            Mode::Linear => raw::olsketina_lut_run_linear,
            Mode::Exponential => raw::olsketina_lut_run_exponential,
        };
        let Lookup { x, y, priority, overflow, underflow, .. } = *self;
        let slopes = [x.below, x.above, y.below, y.above];
        let [x, y] = [x, y].map(|table| [table.select, table.start, table.end]);
        let (scales, shifts) = (slopes.map(|slope| slope.scale), slopes.map(|slope| slope.shift));
        let (xs, x_len, ys, y_len) = (x_entries.as_ptr(), x_entries.len(), y_entries.as_ptr(), y_entries.len());
        lent(samples, outputs, |from, m, to, n, fault| unsafe {
            run(&x, &y, &scales, &shifts, priority, overflow, underflow, xs, x_len, ys, y_len, from, m, to, n, counters, fault)
        })
    }

    /// The ready-made settings for the camera curve; the choices are Priority, OverflowPriority and UnderflowPriority.
    pub fn ready_made(select: i32, choices: [Choice; 3]) -> Answer<Lookup> {
        let before = ([i32::MIN; 3], [i32::MIN; 3], [i16::MIN; 4], [i32::MIN; 4], [u32::MAX; 3]);
        let [priority, overflow, underflow] = choices.map(|choice| choice.0);
        let (x, y, scales, shifts, bits) = valued(before, |(x, y, scales, shifts, bits), fault| unsafe {
            raw::olsketina_camera_ready_made(select, priority, overflow, underflow, x, y, scales, shifts, bits, fault)
        })?;
        debug_assert!(bits.iter().all(|&bit| bit <= 1));
        let slope = |at: usize| Slope { scale: scales[at], shift: shifts[at] };
        let table = |[select, start, end]: [i32; 3], at| TableSettings { select, start, end, below: slope(at), above: slope(at + 1) };
        let [priority, overflow, underflow] = bits.map(|bit| bit != 0);
        Ok(Lookup { mode: Mode::Linear, x: table(x, 0), y: table(y, 2), priority, overflow, underflow })
    }
}

/// Which table a bit of the ready-made settings names; any other word leaves it unnamed too.
#[derive(Clone, Copy, Debug, PartialEq, Eq)]
pub struct Choice(pub u32);

impl Choice {
    pub const X: Choice = Choice(0);
    pub const Y: Choice = Choice(1);
    pub const UNNAMED: Choice = Choice(2);
}

/// The camera curve, stored or (feature `computed-curve`) computed. Past the last entry an entry is the last.
pub mod camera {
    use crate::{made, raw};

    #[must_use]
    pub fn x_entry(j: u32) -> i16 {
        unsafe { raw::olsketina_camera_x_entry(j) }
    }

    #[must_use]
    pub fn y_entry(i: u32) -> i16 {
        unsafe { raw::olsketina_camera_y_entry(i) }
    }

    #[must_use]
    pub fn x_table() -> [i16; 65] {
        made([-1; 65], |entries| unsafe { raw::olsketina_camera_x_table(entries) })
    }

    #[must_use]
    pub fn y_table() -> [i16; 257] {
        made([-1; 257], |entries| unsafe { raw::olsketina_camera_y_table(entries) })
    }
}
