//! Olsketina for Rust: memory layouts of a small NVDLA accelerator. A setting is a struct, an answer `Result<_, Refusal>`: the library takes any
//! contents of any argument, and refuses what breaks a rule of the scope paper. Each call is a proved one of crates/olsketina/src/ or of
//! crates/olsketina_curve/src/ (with the feature `computed-curve`, crates/olsketina_curve_computed/src/), where its promise stands above it;
//! include/olsketina.h says in words what it does and which checks it makes.
//!
//! ```
//! use olsketina::{Layout, Refusal, Region, Table, INT8};
//!
//! let frame = Layout { width: 3, height: 2, channels: 40, precision: INT8, line: 128, surface: 256, start: 0 };
//! let mut buffer = vec![0; frame.extent()? as usize];
//! frame.pack(&[1; 240], &mut buffer)?;
//! let mut desk = Table::empty(frame);
//! let (ada, ben) = (1815, 1791);
//! desk.place(0, ada, Region { column: 0, row: 0, columns: 2, rows: 2 })?;
//! desk.edit(0, ada, [33, 1, 0, 1, 1, 2].into(), &[7, 8], &mut buffer)?;
//! let byte = desk.position(0, ada, 33, 1, 1)? as usize;
//! assert_eq!(buffer[byte], 8);
//! let refusal = desk.place(1, ben, Region { column: 1, row: 0, columns: 2, rows: 1 }).unwrap_err();
//! assert_eq!(refusal.to_string(), "refused, 10: the region overlaps one that is placed");
//! let refusal = desk.release(0, ben, &mut buffer).unwrap_err();
//! assert_eq!(refusal.to_string(), "refused, 25: the owner's id is not 1 to 65535, or not that of the region");
//! desk.release(0, ada, &mut buffer)?;
//! assert_eq!(buffer[byte], 0);
//! desk.place(1, ben, Region { column: 1, row: 0, columns: 2, rows: 1 })?;
//! # Ok::<(), Refusal>(())
//! ```
//!
//! Why each `unsafe` is sound: what is lent is a slice, passed as its pointer (never null, aligned) and its length, or an array of the length
//! that the call's own signature has; what is lent for writing is borrowed mutably, so it overlaps nothing else that is lent; the library takes
//! any contents and keeps no pointer.

mod cubes;
mod lookup;
mod padding;
mod paint;
mod settings;
mod sheet;
mod walk;

pub use cubes::{ElementBox, Layout, Region, Table};
pub use lookup::{camera, Choice, Counters, Lookup, Mode, Slope, TableSettings};
pub use paint::Conversion;
pub use settings::{convert, Converted, Image, Weights};
pub use sheet::{header_text, Row, Sheet};
pub use walk::{Atom, Walk};

/// The calls themselves, declared from the signatures of the Rattle sources (build.rs).
pub mod raw {
    include!(concat!(env!("OUT_DIR"), "/raw.rs"));
}

/// Precision codes.
pub const INT8: u32 = 0;
pub const INT16: u32 = 1;
/// An element is its bit pattern: packing, editing and the start of a walk take infinities and refuse NaN; reading gives what the buffer holds, NaN too.
pub const FP16: u32 = 2;

/// The version of the archive that is linked: OLSKETINA_VERSION of its header.
#[must_use]
pub fn version() -> u32 {
    unsafe { raw::olsketina_version() }
}

/// Why a call was refused: the scope paper's number, and the index of the element at fault (of 7 and 26, else 0).
#[derive(Clone, Copy, Debug, PartialEq, Eq)]
#[must_use]
pub struct Refusal {
    pub number: u32,
    pub fault: usize,
}

/// What a call gives, or why it was refused.
pub type Answer<T> = Result<T, Refusal>;

macro_rules! refusals {
    ($($name:ident = $number:literal, $sentence:literal;)*) => {
        impl Refusal {
            $(#[doc = $sentence] pub const $name: u32 = $number;)*

            /// Every refusal's name and number.
            pub const ALL: &'static [(&'static str, u32)] = &[$((stringify!($name), $number)),*];

            /// What was refused, in a plain sentence.
            #[must_use]
            pub fn sentence(&self) -> &'static str {
                match self.number {
                    $($number => $sentence,)*
                    _ => "no number of a refusal",
                }
            }
        }
    };
}
// Names, numbers and sentences are those of include/olsketina.h (build.rs).
include!(concat!(env!("OUT_DIR"), "/refusals.rs"));

impl std::fmt::Display for Refusal {
    fn fmt(&self, f: &mut std::fmt::Formatter) -> std::fmt::Result {
        let of_element = [Refusal::INT8_RANGE, Refusal::FP16_NAN].contains(&self.number);
        let index = if of_element { format!(" (index {})", self.fault) } else { String::new() };
        write!(f, "refused, {}: {}{index}", self.number, self.sentence())
    }
}

impl std::error::Error for Refusal {}

/// What a call leaves in place of `before`, which it overwrites.
fn made<T>(before: T, call: impl FnOnce(&mut T)) -> T {
    let mut made = before;
    call(&mut made);
    made
}

/// Makes a call that stores the index at fault; before it there stands a number that no call stores.
fn answered(call: impl FnOnce(&mut usize) -> u32) -> Answer<()> {
    let mut fault = usize::MAX;
    let number = call(&mut fault);
    debug_assert!(number != 0 || fault == 0, "an accepted call has no index at fault");
    (number == 0).then_some(()).ok_or(Refusal { number, fault })
}

/// The same of a call that lends a slice for reading and one for writing, each as pointer and length.
fn lent<I, O>(from: &[I], to: &mut [O], call: impl FnOnce(*const I, usize, *mut O, usize, &mut usize) -> u32) -> Answer<()> {
    answered(|fault| call(from.as_ptr(), from.len(), to.as_mut_ptr(), to.len(), fault))
}

/// The same of a call that also stores a value; a refused one leaves what stood there.
fn valued<T: Copy + PartialEq>(before: T, call: impl FnOnce(&mut T, &mut usize) -> u32) -> Answer<T> {
    let mut value = before;
    let answer = answered(|fault| call(&mut value, fault));
    debug_assert!(answer.is_ok() || value == before, "a refused call leaves the value");
    answer.map(|()| value)
}

/// A setting: a struct of words, which pass as an array.
macro_rules! words {
    ($(#[$of:meta])* $name:ident[$count:literal]: $($field:ident),*) => {
        $(#[$of])*
        #[derive(Clone, Copy, Debug, Default, PartialEq, Eq)]
        pub struct $name {
            $(pub $field: u32,)*
        }

        impl $name {
            /// The names of its words, in their order.
            pub const WORDS: &'static [&'static str] = &[$(stringify!($field)),*];
        }

        impl From<[u32; $count]> for $name {
            fn from([$($field),*]: [u32; $count]) -> Self {
                $name { $($field),* }
            }
        }

        impl From<$name> for [u32; $count] {
            fn from(of: $name) -> Self {
                [$(of.$field),*]
            }
        }
    };
}
use words;
