//! The camera curve and its ready-made settings.

use super::require;
use olsketina::{Answer, Choice, Lookup, Mode, Refusal, TableSettings};

/// The greatest whole e with e² ≤ n: the first whose successor has a greater square.
fn square_root(n: u64) -> u64 {
    (0..).find(|e| (e + 1) * (e + 1) > n).expect("a root")
}

pub fn y_entry(i: u32) -> i16 {
    square_root(u64::from(i.min(256)) * 1048576) as i16
}

pub fn x_entry(j: u32) -> i16 {
    square_root(u64::from(j.min(64)) * 262144) as i16
}

pub fn ready_made(select: i32, choices: [Choice; 3]) -> Answer<Lookup> {
    require((2..=22).contains(&select), Refusal::Y_SELECT)?;
    let [priority, overflow, underflow] = choices.map(|choice| choice.0 == 1);
    let x = TableSettings { select: select - 2, end: 64 << (select - 2), ..TableSettings::default() };
    let y = TableSettings { select, end: 256 << select, ..TableSettings::default() };
    Ok(Lookup { mode: Mode::Linear, x, y, priority, overflow, underflow })
}
