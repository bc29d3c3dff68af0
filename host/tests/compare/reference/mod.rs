//! An independent implementation of every call, written from the scope paper's formulas one element at a time. Numbers are i128, so that no sum
//! or product wraps. Of the library it has the types of settings and answers alone.

/// Nested loops: `each!(a in x, b in y => { .. })`.
macro_rules! each {
    ($name:pat in $from:expr $(, $names:pat in $rest:expr)* => $body:block) => {
        for $name in $from {
            each!($($names in $rest),* => $body)
        }
    };
    (=> $body:block) => { $body };
}
pub(crate) use each;

pub mod camera;
pub mod convert;
pub mod cube;
pub mod elements;
pub mod lookup;
pub mod padding;
pub mod parlour;
pub mod pixels;
pub mod regions;
pub mod sheet;
pub mod walk;
pub mod weights;

use olsketina::{Answer, Refusal};

pub fn refuse<T>(number: u32) -> Answer<T> {
    Err(Refusal { number, fault: 0 })
}

/// Refuses with `number` unless the rule holds.
pub fn require(rule: bool, number: u32) -> Answer<()> {
    rule.then_some(()).ok_or(Refusal { number, fault: 0 })
}
