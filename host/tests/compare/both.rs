//! Making a call on both sides, comparing what they give and leave, and counting the answers.

use crate::draw::Generator;
use olsketina::Answer;
use std::collections::BTreeMap;
use std::fmt::{Arguments, Debug};

/// Odd, so that what is lent is not aligned more than it must be.
const MARGIN: usize = 37;
const FILL: u8 = 0xa5;

/// Makes a call on both sides with the same arguments. After `;` stand what is lent for reading and what is lent for writing, both last in the
/// call; each side writes to its own copy. Gives the accepted value, if there is one; where something is lent,
/// also what was left.
macro_rules! compare {
    ($both:expr, $call:literal, $library:path, $reference:path, $($argument:expr),+) => {
        $both.same($call, $library($($argument),+), $reference($($argument),+), format_args!("{:?}", ($($argument,)+)))
    };
    ($both:expr, $call:literal, $library:path, $reference:path, $($argument:expr),+; $from:expr, $to:expr) => {
        $both.lend(
            $call,
            $to,
            format_args!("{:?}, lent {} to read, {} to write", ($($argument,)+), $from.len(), $to.len()),
            |to: &mut [_]| $library($($argument),+, $from, to),
            |to: &mut [_]| $reference($($argument),+, $from, to),
        )
    };
}
pub(crate) use compare;

/// Fails with the case and the first difference.
pub fn same<T: PartialEq + Debug>(what: &str, library: &[T], reference: &[T], case: Arguments) {
    if library != reference {
        let at = library.iter().zip(reference).take_while(|(ours, theirs)| ours == theirs).count();
        let (ours, theirs) = (library.get(at), reference.get(at));
        panic!("{what}: at {at} the library has {ours:?}, the reference {theirs:?}; case: {case}");
    }
}

/// A copy of what is lent to the library for writing, with margins on both sides.
pub struct Guarded<T>(Vec<T>);

impl<T: Copy + PartialEq + From<u8>> Guarded<T> {
    pub fn new(before: &[T]) -> Guarded<T> {
        let margin = [T::from(FILL); MARGIN];
        Guarded([&margin, before, &margin].concat())
    }

    pub fn lent(&mut self) -> &mut [T] {
        let end = self.0.len() - MARGIN;
        &mut self.0[MARGIN..end]
    }

    /// What the call left there; fails where it wrote to a margin.
    pub fn left(&mut self, call: &str, case: Arguments) -> &[T] {
        let margin = [T::from(FILL); MARGIN];
        let kept = self.0.starts_with(&margin) && self.0.ends_with(&margin);
        assert!(kept, "{call}: the library wrote past what it was lent; case: {case}");
        self.lent()
    }
}

/// The cases compared: how often each call gave each answer.
pub struct Both {
    counts: BTreeMap<&'static str, BTreeMap<u32, u64>>,
    /// The last case's answer.
    pub last: Answer<()>,
}

impl Both {
    /// Compares two answers with their values and counts the case.
    pub fn same<T: PartialEq + Debug>(
        &mut self, call: &'static str, library: Answer<T>, reference: Answer<T>, case: Arguments,
    ) -> Option<T> {
        assert!(library == reference, "{call}: the library gives {library:?}, the reference {reference:?}; case: {case}");
        self.note(call, number(&library), 1);
        self.last = library.as_ref().map(|_| ()).map_err(|&refusal| refusal);
        library.ok()
    }

    /// The same of a call that is lent a copy of `before`, with margins on the library's side; gives also what both left.
    pub fn lend<T: Copy + PartialEq + From<u8> + Debug, V: PartialEq + Debug>(
        &mut self, call: &'static str, before: &[T], case: Arguments, library: impl FnOnce(&mut [T]) -> Answer<V>,
        reference: impl FnOnce(&mut [T]) -> Answer<V>,
    ) -> (Option<V>, Vec<T>) {
        let (mut ours, mut theirs) = (Guarded::new(before), before.to_vec());
        let value = self.same(call, library(ours.lent()), reference(&mut theirs), case);
        same(call, ours.left(call, case), &theirs, case);
        (value, theirs)
    }

    pub fn note(&mut self, call: &'static str, number: u32, times: u32) {
        *self.counts.entry(call).or_default().entry(number).or_insert(0) += u64::from(times);
    }

    /// Prints the counts; fails unless these calls gave these answers, and no other ones.
    pub fn expect(self, answers: &str) {
        let mut seen = Vec::new();
        for (call, counts) in self.counts {
            println!("{call}: {} cases, by answer {counts:?}", counts.values().sum::<u64>());
            let numbers: Vec<String> = counts.keys().map(u32::to_string).collect();
            seen.push(format!("{call}: {}", numbers.join(" ")));
        }
        assert_eq!(seen.join("; "), answers, "the answers seen, then those that must be");
    }
}

/// What a test begins with: numbers from a seed, and no case yet.
pub fn start(seed: u64) -> (Generator, Both) {
    (Generator::new(seed), Both { counts: BTreeMap::new(), last: Ok(()) })
}

/// An answer's number, 0 where it was accepted.
pub fn number<T>(answer: &Answer<T>) -> u32 {
    answer.as_ref().err().map_or(0, |refusal| refusal.number)
}
