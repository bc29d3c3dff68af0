//! The atoms of a cube in scan order, one at a time.

use crate::{raw, valued, Answer, Layout};

/// An atom: the byte at which it begins, and its bytes.
#[derive(Clone, Copy, Debug, PartialEq, Eq)]
pub struct Atom {
    pub position: u64,
    pub bytes: [u8; Atom::BYTES],
}

impl Atom {
    pub const BYTES: usize = raw::ATOM_BYTES;
}

/// A walk over the atoms of a cube, before its next one: columns fastest, then rows, then surfaces.
///
/// ```
/// use olsketina::{Layout, Refusal, Walk, INT16};
///
/// let frame = Layout { width: 2, height: 2, channels: 17, precision: INT16, line: 96, surface: 160, start: 32 };
/// let elements = [-2; 68];
/// let walk = Walk::start(frame, &elements, 352)?;
/// let mut sent = vec![0xee; 352];
/// for atom in walk.atoms(&elements) {
///     sent[atom.position as usize..][..32].copy_from_slice(&atom.bytes);
/// }
/// let mut packed = vec![0xee; 352];
/// frame.pack(&elements, &mut packed)?;
/// assert_eq!(sent, packed);
/// let positions: Vec<u64> = walk.atoms(&elements).map(|atom| atom.position).collect();
/// assert_eq!(positions, [32, 64, 128, 160, 192, 224, 288, 320]);
/// # Ok::<(), Refusal>(())
/// ```
#[derive(Clone, Copy, Debug, PartialEq, Eq)]
pub struct Walk {
    words: [u64; Walk::WORDS],
}

impl Walk {
    pub const WORDS: usize = raw::WALK_WORDS;

    /// The walk before the first atom. Refused exactly where packing into a buffer of so many bytes is.
    pub fn start(layout: Layout, elements: &[i16], buffer_len: usize) -> Answer<Walk> {
        let (from, n) = (elements.as_ptr(), elements.len());
        let words = valued([u64::MAX; Walk::WORDS], |words, fault| unsafe {
            raw::olsketina_walk_start(&layout.into(), from, n, buffer_len, words, fault)
        })?;
        Ok(Walk { words })
    }

    /// The next atom, where one is left; the walk then stands behind it. Any elements are taken: of other ones than at the start, a missing
    /// one is 0.
    pub fn step(&mut self, elements: &[i16]) -> Option<Atom> {
        let (from, n) = (elements.as_ptr(), elements.len());
        let mut atom = Atom { position: 0, bytes: [0; Atom::BYTES] };
        let given = unsafe { raw::olsketina_walk_step(&mut self.words, from, n, &mut atom.position, &mut atom.bytes) };
        debug_assert!(given <= 1);
        (given != 0).then_some(atom)
    }

    /// The atoms that are left, one after another.
    pub fn atoms(self, elements: &[i16]) -> impl Iterator<Item = Atom> + '_ {
        let mut walk = self;
        std::iter::from_fn(move || walk.step(elements))
    }

    /// A walk of any words, in the order of the header's (OLSKETINA_WALK_..).
    #[must_use]
    pub fn from_words(words: [u64; Walk::WORDS]) -> Walk {
        Walk { words }
    }

    #[must_use]
    pub fn words(&self) -> &[u64; Walk::WORDS] {
        &self.words
    }
}
