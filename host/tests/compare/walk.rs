//! The atoms of a cube in scan order: whole walks beside the position formula and beside packing, the order of the checks, and walks of any
//! words over any elements.

use crate::both::{number, same, start, Both};
use crate::calls::Cube;
use crate::draw::{buffer_length, element_count, Generator};
use crate::reference::walk::{self, Way};
use crate::reference::{each, elements};
use olsketina::{raw, Answer, Atom, Layout, Refusal, Walk};

/// The call itself, over words that show what it writes.
fn raw_start(layout: Layout, elements: &[i16], length: usize, words: &mut [u64]) -> Answer<()> {
    let (walk, mut fault) = (words.try_into().expect("the words of a walk"), usize::MAX);
    let number = unsafe { raw::olsketina_walk_start(&layout.into(), elements.as_ptr(), elements.len(), length, walk, &mut fault) };
    if (number, fault) == (0, 0) {
        return Ok(());
    }
    Err(Refusal { number, fault })
}

/// What a step may write, with margins around it.
#[derive(Clone, Copy, Debug, PartialEq)]
#[repr(C)]
struct Lent {
    before: [u64; 3],
    walk: [u64; Walk::WORDS],
    between: [u64; 3],
    position: u64,
    /// Odd, so that the bytes are not aligned more than they must be.
    behind: [u8; 21],
    bytes: [u8; Atom::BYTES],
    after: [u8; 35],
}

impl Lent {
    /// Contents that show what is written: no byte of the atom is 0.
    fn over(g: &mut Generator, walk: Walk) -> Lent {
        let fill = g.word();
        let [byte, margin] = [fill as u8 | 1, (fill >> 8) as u8];
        Lent {
            before: [fill; 3],
            walk: *walk.words(),
            between: [!fill; 3],
            position: g.word(),
            behind: [margin; 21],
            bytes: [byte; Atom::BYTES],
            after: [margin; 35],
        }
    }
}

impl Both {
    /// The start of a walk, for a buffer of so many bytes that need not be there; the walk, if it was accepted.
    pub fn begin(&mut self, g: &mut Generator, layout: Layout, elements: &[i16], length: usize) -> Option<Walk> {
        let case = format_args!("{layout:?}, {} elements, {length} bytes", elements.len());
        let before: [u64; Walk::WORDS] = std::array::from_fn(|_| g.word());
        let library = |words: &mut [u64]| raw_start(layout, elements, length, words);
        let reference = |words: &mut [u64]| walk::start(layout, elements, length).map(|first| words.copy_from_slice(&first));
        let (_, left) = self.lend("walk_start", &before, case, library, reference);
        let started = self.last.map(|()| Walk::from_words(left.try_into().expect("the words of a walk")));
        assert_eq!(Walk::start(layout, elements, length), started, "through the Rust library; case: {case}");
        started.ok()
    }

    /// The same for a buffer of that length; packing into it is answered alike.
    fn begin_beside(&mut self, g: &mut Generator, layout: Layout, elements: &[i16], buffer: &[u8]) -> Option<Walk> {
        let started = self.begin(g, layout, elements, buffer.len());
        let packed = layout.pack(elements, &mut buffer.to_vec());
        assert_eq!(self.last, packed, "the start, then packing: {layout:?}, {} elements, {} bytes", elements.len(), buffer.len());
        started
    }

    /// A step, by the call itself and through the Rust library; gives what it gave, and which way it went.
    fn step(&mut self, g: &mut Generator, walk: &mut Walk, elements: &[i16]) -> (Way, Option<Atom>) {
        let before = Lent::over(g, *walk);
        let (mut ours, mut theirs) = (before, before);
        let (from, n) = (elements.as_ptr(), elements.len());
        let given = unsafe { raw::olsketina_walk_step(&mut ours.walk, from, n, &mut ours.position, &mut ours.bytes) };
        let (way, atom) = walk::step(&mut theirs.walk, elements);
        if let Some(Atom { position, bytes }) = atom {
            (theirs.position, theirs.bytes) = (position, bytes);
        }
        let case = format_args!("{before:?}, {n} elements");
        assert_eq!((given, ours), (atom.is_some().into(), theirs), "walk_step: the library, then the reference; case: {case}");
        assert_eq!((walk.step(elements), walk.words()), (atom, &ours.walk), "through the Rust library; case: {case}");
        self.note("walk_step", given, 1);
        (way, atom)
    }

    /// All steps of a walk that was started: each atom in turn, then none, several times. Each atom is given to `send`.
    fn walk(&mut self, g: &mut Generator, layout: Layout, elements: &[i16], first: Walk, mut send: impl FnMut(Atom)) {
        let (atoms, mut walk) = (walk::atoms(layout, elements), first);
        for (number, atom) in atoms.iter().enumerate() {
            let (_, given) = self.step(g, &mut walk, elements);
            assert!(given == Some(*atom), "step {number} gives {given:?}, the formula {atom:?}; case: {layout:?}");
            send(*atom);
        }
        let last = walk;
        for _ in 0..3 {
            assert_eq!(self.step(g, &mut walk, elements), (Way::NoneLeft, None), "after {} atoms of {layout:?}", atoms.len());
            assert_eq!(walk, last, "{layout:?}");
        }
        assert!(first.atoms(elements).eq(atoms.iter().copied()), "the Rust library's iterator: {layout:?}");
        let [width, height, channels] = [layout.width, layout.height, layout.channels].map(|size| size as usize);
        let surfaces = channels.div_ceil(32 / elements::bytes_of(layout.precision.into()) as usize);
        assert_eq!(atoms.len(), surfaces * height * width, "{layout:?}");
    }

    /// A whole walk, its atoms written over drawn bytes: they leave what packing leaves.
    fn walk_beside(&mut self, g: &mut Generator, layout: Layout, elements: &[i16], old: &[u8]) {
        let Some(first) = self.begin_beside(g, layout, elements, old) else { return };
        let mut sent = old.to_vec();
        self.walk(g, layout, elements, first, |atom| sent[atom.position as usize..][..Atom::BYTES].copy_from_slice(&atom.bytes));
        let packed = self.write(Cube(layout), elements, old);
        same("atoms written, then packing", &sent, &packed, format_args!("{layout:?}"));
    }

    /// The same of drawn elements, accepted.
    fn walk_drawn(&mut self, g: &mut Generator, layout: Layout) {
        let elements = g.elements(layout.precision, element_count(layout));
        let longer = g.pick(&[0, 0, 1, 31, 64, 128]);
        let old = g.bytes(buffer_length(layout) + longer);
        self.walk_beside(g, layout, &elements, &old);
        assert!(self.last.is_ok(), "{layout:?}");
    }
}

/// All that a start and its steps answer.
const WALKS: &str = "walk_start: 0 1 2 3 4 5 6 7 26; walk_step: 0 1";

/// Every channel count up to 200, past twelve surfaces of int16, and every width; other sizes, gaps and starts are drawn.
#[test]
fn every_channel_count_and_width() {
    let (mut g, mut both) = start(90);
    each!(precision in 0..=2, size in 1..=200, _ in 0..4 => {
        let [width, height, channels] = [g.among(1, 9), g.among(1, 4), g.among(1, 40)];
        let deep = g.layout(width, height, size, precision);
        let wide = g.layout(size, height, channels, precision);
        [deep, wide].into_iter().for_each(|layout| both.walk_drawn(&mut g, layout));
    });
    both.expect("cube_pack: 0; walk_start: 0; walk_step: 0 1");
}

#[test]
#[ignore = "long"]
fn walks_of_every_width_and_channel_count() {
    let (mut g, mut both) = start(91);
    each!(precision in 0..=2, width in 1..=130, channels in 1..=130 => {
        let height = g.among(1, 3);
        let layout = g.layout(width, height, channels, precision);
        both.walk_drawn(&mut g, layout);
    });
    both.expect("cube_pack: 0; walk_start: 0; walk_step: 0 1");
}

/// Every height up to 300, and some in steps up to the last one; every one of the small cubes.
#[test]
#[ignore = "long"]
fn walks_of_every_height() {
    let (mut g, mut both) = start(92);
    each!(precision in 0..=2, height in (1..=300).chain((301..8192).step_by(97)).chain([8191, 8192]), channels in [1, 16, 17, 32, 33, 65] => {
        let width = g.among(1, 3);
        let layout = g.layout(width, height, channels, precision);
        both.walk_drawn(&mut g, layout);
    });
    each!(precision in 0..=2, width in 1..=12, height in 1..=12, channels in 1..=70 => {
        let layout = g.layout(width, height, channels, precision);
        both.walk_drawn(&mut g, layout);
    });
    both.expect("cube_pack: 0; walk_start: 0; walk_step: 0 1");
}

#[test]
fn larger_walks() {
    let (mut g, mut both) = start(93);
    let sizes = [[8192, 2, 33], [1, 8192, 33], [3, 2, 8192], [224, 224, 3], [130, 70, 65]];
    each!(precision in 0..=2, [width, height, channels] in sizes => {
        let layout = g.layout(width, height, channels, precision);
        both.walk_drawn(&mut g, layout);
    });
    both.expect("cube_pack: 0; walk_start: 0; walk_step: 0 1");
}

/// Positions past 32 bits: the length is a number alone, and no sum wraps. At the end of the last atom the start is accepted, a byte before it
/// is not, nor at the lengths of which 32 bits are enough.
#[test]
fn far_strides() {
    let (mut g, mut both) = start(94);
    let mut layouts = vec![Layout::from([1, 1, 8192, 1, 32, 4294967264, 4294967264]), [2, 2, 65, 0, 4294967200, 4294967264, 32].into()];
    for _ in 0..1500 {
        let [width, height, channels, precision] = [g.among(1, 9), g.among(1, 5), g.among(1, 300), g.among(0, 2)];
        let least = 32 * width;
        let mut upto = |low: u32, high: u32| low + 32 * g.among(0, (high - low) / 32);
        let line = upto(least, (u32::MAX - 31 - least) / height.max(2) / 32 * 32);
        let surface = upto((height - 1) * line + least, u32::MAX - 31);
        layouts.push(Layout { width, height, channels, precision, line, surface, start: upto(0, u32::MAX - 31) });
    }
    for layout in layouts {
        let (elements, exact) = (g.elements(layout.precision, element_count(layout)), buffer_length(layout));
        for short in [exact - 1, exact - 32, exact / 2, exact % (1 << 32), 0] {
            if short < exact {
                assert_eq!(both.begin(&mut g, layout, &elements, short), None, "{layout:?}, {short} bytes");
            }
        }
        let length = g.pick(&[exact, exact, exact + 1, 1 << 63, usize::MAX]);
        let first = both.begin(&mut g, layout, &elements, length).expect("accepted");
        let mut far = 0;
        both.walk(&mut g, layout, &elements, first, |atom| far = far.max(atom.position as usize));
        assert_eq!(far + Atom::BYTES, exact, "{layout:?}");
        both.note("past 32 bits", (exact > 1 << 32).into(), 1);
    }
    both.expect("past 32 bits: 0 1; walk_start: 0 5; walk_step: 0 1");
}

/// Settings, counts, lengths and values right and wrong in every mixture; what is accepted is walked.
#[test]
fn refusals_and_their_order() {
    let (mut g, mut both) = start(95);
    for _ in 0..60_000 {
        let layout = g.small_layout();
        let [count, length] = [g.length_near(element_count(layout)), g.length_near(buffer_length(layout))];
        let (mut elements, old) = (g.elements(layout.precision, count), g.bytes(length));
        g.spoil(3, layout.precision, &mut elements);
        let other = g.damaged(2, layout);
        both.walk_beside(&mut g, other, &elements, &old);
    }
    both.expect(&format!("cube_pack: 0; {WALKS}"));
}

/// The numbers of the rules, in the order of the checks; behind them stands 7 of int8 or 26 of fp16.
const ORDER: [u32; 6] = [1, 2, 3, 4, 6, 5];

/// Breaks a rule of a start, by its index in the order, and none before it; those after it may have been broken before.
fn break_rule(g: &mut Generator, rule: usize, layout: &mut Layout, elements: &mut Vec<i16>, length: &mut usize) {
    match rule {
        0..=3 => g.break_layout(rule, layout),
        4 => elements.resize(g.pick(&[0, elements.len() - 1, elements.len() + 1, 2 * elements.len()]), 0),
        5 => *length = g.pick(&[buffer_length(*layout) - 1, buffer_length(*layout) - 32, 0]),
        _ => {
            let at = g.index(elements.len());
            elements[at] = g.untaken(layout.precision);
        }
    }
}

/// Each rule broken alone and with each later one: the first in the order is told, by packing too.
#[test]
fn two_rules_broken_at_once() {
    let (mut g, mut both) = start(96);
    each!(first in 0..=ORDER.len(), second in first..=ORDER.len(), round in 0..400 => {
        let mut layout = g.small_layout();
        layout.precision = if second == ORDER.len() { round % 2 * 2 } else { layout.precision };
        let last = if layout.precision == 0 { 7 } else { 26 };
        let mut elements = g.elements(layout.precision, element_count(layout));
        let mut length = buffer_length(layout) + g.pick(&[0, 0, 1, 77]);
        break_rule(&mut g, second, &mut layout, &mut elements, &mut length);
        if first != second {
            break_rule(&mut g, first, &mut layout, &mut elements, &mut length);
        }
        let old = g.bytes(length);
        both.walk_beside(&mut g, layout, &elements, &old);
        let told = ORDER.get(first).copied().unwrap_or(last);
        assert_eq!(number(&both.last), told, "rules {first} and {second}: {layout:?}, {} elements, {length} bytes", elements.len());
    });
    both.expect("walk_start: 1 2 3 4 5 6 7 26");
}

/// Every length up to past the last atom, and every number of elements; at the greatest lengths too.
#[test]
fn every_length_and_count() {
    let (mut g, mut both) = start(97);
    for words in [[3, 2, 40, 0, 128, 256, 0], [2, 3, 17, 1, 96, 320, 64], [1, 1, 1, 2, 32, 32, 0]] {
        let layout = Layout::from(words);
        let (exact, count) = (buffer_length(layout), element_count(layout));
        let elements = g.elements(layout.precision, 2 * count);
        let bytes = g.bytes(exact + 99);
        for length in 0..=bytes.len() {
            let started = both.begin_beside(&mut g, layout, &elements[..count], &bytes[..length]);
            assert_eq!(started.is_some(), length >= exact, "{layout:?}, {length} bytes");
        }
        for given in 0..=elements.len() {
            let started = both.begin_beside(&mut g, layout, &elements[..given], &bytes);
            assert_eq!(started.is_some(), given == count, "{layout:?}, {given} elements");
        }
        for length in [1 << 31, 1 << 32, (1 << 32) + 1, 1 << 63, usize::MAX - 1, usize::MAX] {
            let first = both.begin(&mut g, layout, &elements[..count], length).expect("accepted");
            both.walk(&mut g, layout, &elements[..count], first, |_| {});
        }
    }
    both.expect("walk_start: 0 5 6; walk_step: 0 1");
}

/// One element at or beside the limits of what is taken at every index, and one behind it that is not taken.
#[test]
fn elements_not_taken_at_every_index() {
    let (mut g, mut both) = start(98);
    each!(precision in 0..=2, [width, height, channels] in [[70, 2, 5], [3, 2, 67], [33, 1, 33], [1, 1, 1]] => {
        let layout = g.layout(width, height, channels, precision);
        let (count, old) = (element_count(layout), g.bytes(buffer_length(layout)));
        for at in 0..count {
            let mut elements = g.elements(precision, count);
            elements[at] = g.at_limit(precision);
            if g.one_in(2) {
                elements[at + g.index(count - at)] = g.untaken(precision);
            }
            both.walk_beside(&mut g, layout, &elements, &old);
        }
    });
    both.expect("cube_pack: 0; walk_start: 0 7 26; walk_step: 0 1");
}

/// A word of a walk: small, at and beside what an atom holds, any, or near 2^64.
fn any_word(g: &mut Generator) -> u64 {
    let small = u64::from(g.among(0, 80));
    let wide = g.pick(&[1 << 16, 1 << 31, 1 << 32, 1 << 60, 1 << 63]);
    let any = g.word();
    let word = [small, small, small, wide, wide.wrapping_add(small), any, any >> 32, u64::MAX - small, 0u64.wrapping_sub(32), u64::MAX];
    g.pick(&word)
}

/// A walk of any words: most often some are left; sums at and beside 2^64.
fn any_walk(g: &mut Generator) -> Walk {
    let mut words: [u64; Walk::WORDS] = std::array::from_fn(|_| any_word(g));
    let [position, index, columns, rows, channels, precision, _, _, plane, line, surface, group] = &mut words;
    for (word, odds) in [(columns, 3), (rows, 2)] {
        *word = if g.one_in(odds) { *word } else { g.pick(&[0, 1, 1, 2]) };
    }
    *channels = g.pick(&[*channels, 0, 1, 15, 16, 17, 31, 32, 33, 40]);
    *precision = g.pick(&[*precision, 0, 0, 0, 1, 2, 3, 1 << 32, 1 << 63]);
    *index = g.pick(&[*index, 0, 1, 7, 60]);
    *plane = g.pick(&[*plane, 0, 1, 2, 5, 1 << 59, 1 << 60, 1 << 63, u64::MAX, u64::MAX / 3]);
    for (sum, strides) in [(position, [line, surface].as_mut_slice()), (index, [group].as_mut_slice())] {
        for stride in strides {
            // Up to the greatest number, and one past it.
            let [most, past] = [u64::MAX - *sum, (u64::MAX - *sum).saturating_add(1)];
            **stride = g.pick(&[**stride, **stride, most, past]);
        }
    }
    Walk::from_words(words)
}

/// Whether some element of the next atom is missing, of those whose channel is left.
fn missing(walk: Walk, elements: &[i16]) -> bool {
    let [_, index, _, _, channels, precision, _, _, plane, ..] = walk.words().map(i128::from);
    let most = channels.min(32 / elements::bytes_of(precision));
    (0..most).any(|c| index + c * plane >= elements.len() as i128)
}

impl Both {
    /// Up to so many steps of any walk over any elements; counts the ways they went, and where elements were missing.
    fn wander(&mut self, g: &mut Generator, walk: &mut Walk, elements: &[i16], steps: usize) {
        for _ in 0..steps {
            let missing = missing(*walk, elements);
            let (way, atom) = self.step(g, walk, elements);
            self.note("way", way as u32, 1);
            if atom.is_none() {
                return;
            }
            self.note("missing", missing.into(), 1);
        }
    }
}

/// Walks of any words over few elements, or none; behind those that are lent there are others, which a step must not find.
#[test]
fn walks_of_any_words() {
    let (mut g, mut both) = start(99);
    let elements = g.any_elements(400);
    for _ in 0..1_000_000 {
        let (mut walk, most) = (any_walk(&mut g), g.pick(&[0, 1, 33, 100, 300]));
        let lent = g.index(most + 1);
        both.wander(&mut g, &mut walk, &elements[..lent], 4);
    }
    both.expect("missing: 0 1; walk_step: 0 1; way: 0 1 2 3 4 5 6");
}

/// Sums at, below and past 2^64 - 1 on every way, of the position and of the index: where one would pass 64 bits none is left, and the walk stays.
#[test]
fn sums_at_the_end() {
    let (mut g, mut both) = start(100);
    let most = |stride: u64, off| (u64::MAX - stride).saturating_add_signed(off);
    each!(way in 0..4, bytes in [0, 32, 64, 1 << 63], on in [0, 1, 280, 1 << 63], precision in [0, 1] => {
        each!(position_off in -2..=2, index_off in -2..=2 => {
            let [columns, rows, channels] = [[2, 1, 1], [1, 2, 1], [1, 1, 40], [1, 1, 1]][way];
            // A column further on it is 32 bytes and one element, a row further on one element.
            let bytes = if way == 0 { 32 } else { bytes };
            let on = if way < 2 { 1 } else { on };
            let [position, index] = [most(bytes, position_off), most(on, index_off)];
            for (position, index) in [(position, 0), (0, index), (position, index)] {
                let mut walk = Walk::from_words([position, index, columns, rows, channels, precision, 3, 3, 9, bytes, bytes, on]);
                both.wander(&mut g, &mut walk, &[5; 70], 3);
            }
        });
    });
    both.expect("missing: 0 1; walk_step: 0 1; way: 0 1 2 3 4 5 6");
}

/// Walks that were started, then handed on with other words or other elements: fewer, more, any.
#[test]
fn damaged_walks() {
    let (mut g, mut both) = start(101);
    for _ in 0..30_000 {
        let layout = g.small_layout();
        let mut elements = g.elements(layout.precision, element_count(layout));
        let mut walk = both.begin(&mut g, layout, &elements, buffer_length(layout)).expect("accepted");
        let steps = g.index(40);
        both.wander(&mut g, &mut walk, &elements, steps);
        let mut words = *walk.words();
        for _ in 0..g.index(3) {
            let (at, any) = (g.index(words.len()), any_word(&mut g));
            words[at] = g.pick(&[any, words[at].wrapping_add(1), words[at].wrapping_sub(1), 0, 1]);
        }
        if g.one_in(2) {
            let length = g.length_near(elements.len());
            elements = g.any_elements(length);
        }
        walk = Walk::from_words(words);
        both.wander(&mut g, &mut walk, &elements, 60);
    }
    both.expect("missing: 0 1; walk_start: 0; walk_step: 0 1; way: 0 1 2 3 4 5 6");
}
