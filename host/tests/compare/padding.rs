//! Padding made zero again: files whole and in parts, beside packing and unpacking; the order of the checks; numbers over all 64 bits.

use crate::both::{number, same, start, Both, Guarded};
use crate::calls::Cube;
use crate::draw::{buffer_length, each_pair, element_count, Generator};
use crate::reference::{each, padding};
use olsketina::{raw, Answer, Layout, Refusal};
use std::fmt::Arguments;

const CALL: &str = "padding_mend";

/// Position and old value of each byte of a report.
type Report = Vec<(u64, u8)>;

/// What a call lends: a part of a file, and the places of its report.
#[derive(Clone, Debug, PartialEq)]
struct Lent {
    part: Vec<u8>,
    positions: Vec<u64>,
    olds: Vec<u8>,
}

impl Lent {
    /// A part with so many places, which hold something.
    fn new(g: &mut Generator, part: &[u8], [positions, olds]: [usize; 2]) -> Lent {
        let any = g.word();
        let positions = (0..positions as u64).map(|at| any.wrapping_add(at)).collect();
        Lent { part: part.to_vec(), positions, olds: g.bytes(olds) }
    }

    /// As many places as bytes, or more.
    fn roomy(g: &mut Generator, part: &[u8]) -> Lent {
        let places = [0; 2].map(|_| part.len() + g.pick(&[0, 0, 1, 9]));
        Lent::new(g, part, places)
    }

    fn report(&self, count: usize) -> Report {
        self.positions.iter().copied().zip(self.olds.iter().copied()).take(count).collect()
    }
}

/// The call itself, with margins around all that is lent. A refused one leaves the count.
fn raw_mend(layout: Layout, [first, length]: [u64; 2], lent: &mut Lent, case: Arguments) -> Answer<usize> {
    let Lent { part, positions, olds } = lent;
    let (mut bytes, mut places, mut values) = (Guarded::new(part), Guarded::new(positions), Guarded::new(olds));
    let (mut count, mut fault) = (u64::MAX - 5, usize::MAX);
    let (p, q, v) = (bytes.lent(), places.lent(), values.lent());
    let (p, n, q, m, v, k) = (p.as_mut_ptr(), p.len(), q.as_mut_ptr(), q.len(), v.as_mut_ptr(), v.len());
    let number = unsafe { raw::olsketina_padding_mend(&layout.into(), first, length, p, n, q, m, v, k, &mut count, &mut fault) };
    part.copy_from_slice(bytes.left(CALL, case));
    positions.copy_from_slice(places.left(CALL, case));
    olds.copy_from_slice(values.left(CALL, case));
    if (number, fault) == (0, 0) {
        return Ok(count as usize);
    }
    assert_eq!(count, u64::MAX - 5, "a refused call leaves the count; case: {case}");
    Err(Refusal { number, fault })
}

impl Both {
    /// A call, by itself and through the Rust library; gives the report, if it was accepted, and what was left. Counts where a report is empty (0)
    /// or not (1).
    fn mend(&mut self, layout: Layout, numbers: [u64; 2], before: &Lent) -> (Option<Report>, Lent) {
        let ([first, length], [mut ours, mut safe, mut theirs]) = (numbers, [(); 3].map(|()| before.clone()));
        let [bytes, positions, olds] = [before.part.len(), before.positions.len(), before.olds.len()];
        let case = format_args!("{layout:?}, {bytes} bytes from {first} of {length}, {positions} positions, {olds} old values");
        let library = raw_mend(layout, numbers, &mut ours, case);
        let reference = padding::mend(layout, first, length, &mut theirs.part, &mut theirs.positions, &mut theirs.olds);
        let count = self.same(CALL, library, reference, case);
        same("part", &ours.part, &theirs.part, case);
        same("positions", &ours.positions, &theirs.positions, case);
        same("old values", &ours.olds, &theirs.olds, case);
        let answer = layout.mend(first, length, &mut safe.part, &mut safe.positions, &mut safe.olds);
        assert!((answer, &safe) == (reference, &ours), "through the Rust library: {answer:?}; case: {case}");
        count.iter().for_each(|&count| self.note("report", (count > 0).into(), 1));
        (count.map(|count| theirs.report(count)), theirs)
    }

    /// A part that is accepted, mended; gives its bytes and its report.
    fn mend_part(&mut self, g: &mut Generator, layout: Layout, numbers: [u64; 2], part: &[u8]) -> (Vec<u8>, Report) {
        let before = Lent::roomy(g, part);
        let (report, left) = self.mend(layout, numbers, &before);
        let report = report.unwrap_or_else(|| panic!("{:?}: {layout:?}, {numbers:?}, {} bytes", self.last, part.len()));
        (left.part, report)
    }

    /// A file cut into parts at these places, each part mended; gives the file and the reports joined.
    fn mend_parts(&mut self, g: &mut Generator, layout: Layout, file: &[u8], cuts: &[usize]) -> (Vec<u8>, Report) {
        let (mut mended, mut report) = (Vec::new(), Vec::new());
        for to in cuts.iter().copied().chain([file.len()]) {
            let (first, length) = (mended.len(), file.len() as u64);
            let (part, more) = self.mend_part(g, layout, [first as u64, length], &file[first..to]);
            mended.extend(part);
            report.extend(more);
        }
        (mended, report)
    }

    /// Which bytes of a buffer are padding: those that packing leaves 0 where no element and no byte before has a 0.
    fn padding_by_packing(&mut self, layout: Layout, length: usize) -> Vec<bool> {
        let element = if layout.precision == 0 { 0x01 } else { 0x0101 };
        let packed = self.write(Cube(layout), &vec![element; element_count(layout)], &vec![2; length]);
        packed.iter().map(|&byte| byte == 0).collect()
    }

    /// A whole file, and the same in parts. What is padding is packing's own; elements are read as before; a second run reports nothing; the old
    /// values written back restore the file.
    fn mend_file(&mut self, g: &mut Generator, layout: Layout, file: &[u8], cuts: &[usize]) {
        let case = format_args!("{layout:?}, {} bytes, cut at {cuts:?}", file.len());
        let (mended, report) = self.mend_part(g, layout, [0, file.len() as u64], file);
        let (joined, reports) = self.mend_parts(g, layout, file, cuts);
        same("in parts, then whole", &joined, &mended, case);
        same("the report in parts, then whole", &reports, &report, case);

        let padding = self.padding_by_packing(layout, file.len());
        let is_dirty = |&at: &usize| padding[at] && file[at] != 0;
        let dirty: Report = (0..file.len()).filter(is_dirty).map(|at| (at as u64, file[at])).collect();
        same("the report, then the padding that packing leaves", &report, &dirty, case);
        let clean: Vec<u8> = file.iter().zip(&padding).map(|(&byte, &padding)| if padding { 0 } else { byte }).collect();
        same("mended, then cleared where packing leaves padding", &mended, &clean, case);

        let blank = g.any_elements(element_count(layout));
        let [before, after] = [file, &mended].map(|bytes| self.read(Cube(layout), bytes, &blank));
        same("unpacked from the mended file, then from the file", &after, &before, case);

        let (again, none) = self.mend_parts(g, layout, &mended, cuts);
        same("a second run", &again, &mended, case);
        assert_eq!(none, [], "a second run; case: {case}");

        let mut restored = mended;
        report.iter().for_each(|&(at, old)| restored[at as usize] = old);
        same("the old values written back, then the file", &restored, file, case);
    }

    /// A packed buffer, whatever stood there before, has nothing to mend.
    fn mend_packed(&mut self, g: &mut Generator, layout: Layout, length: usize, cuts: &[usize]) {
        let (elements, old) = (g.elements(layout.precision, element_count(layout)), g.bytes(length));
        let packed = self.write(Cube(layout), &elements, &old);
        let (mended, report) = self.mend_parts(g, layout, &packed, cuts);
        same("mended, then packed", &mended, &packed, format_args!("{layout:?}"));
        assert_eq!(report, [], "a packed buffer: {layout:?}");
    }
}

/// The contents of a file: any, none 0, most of them 0, or one byte in all.
fn contents(g: &mut Generator, length: usize) -> Vec<u8> {
    let (kind, byte) = (g.below(4), g.pick(&[1, 128, 255]));
    let mut bytes = g.bytes(length);
    for at in &mut bytes {
        *at = match kind {
            0 => *at,
            1 => *at | 1,
            2 if g.one_in(20) => *at,
            2 => 0,
            _ => byte,
        };
    }
    bytes
}

/// Where a file is cut: nowhere, at one place, at drawn ones, some of them twice, or into parts of one length.
fn cuts(g: &mut Generator, length: usize) -> Vec<usize> {
    let every = g.pick(&[1, 2, 7, 31, 32, 33, 64, 100, 256, 1000]);
    let count = g.pick(&[0, 1, 1, 2, 5, 20]);
    let mut cuts: Vec<usize> =
        if g.one_in(3) { (0..length).step_by(every).collect() } else { (0..count).map(|_| g.index(length + 1)).collect() };
    cuts.sort_unstable();
    cuts
}

/// The answers of files that are mended.
const FILES: &str = "cube_pack: 0; cube_unpack: 0; padding_mend: 0; report: 0 1";

impl Both {
    /// Files of a layout: damaged, and packed.
    fn mend_drawn(&mut self, g: &mut Generator, layout: Layout) {
        let length = buffer_length(layout) + g.pick(&[0, 0, 1, 31, 64, 200]);
        let (file, at) = (contents(g, length), cuts(g, length));
        self.mend_file(g, layout, &file, &at);
        self.mend_packed(g, layout, length, &at);
    }
}

/// Every channel count up to 100, past six surfaces of int16; other sizes, gaps and starts are drawn.
#[test]
fn every_channel_count() {
    let (mut g, mut both) = start(120);
    each!(precision in 0..=2, channels in 1..=100, _ in 0..4 => {
        let [width, height] = [g.among(1, 9), g.among(1, 4)];
        let layout = g.layout(width, height, channels, precision);
        both.mend_drawn(&mut g, layout);
    });
    both.expect(FILES);
}

#[test]
#[ignore = "long"]
fn every_width_and_channel_count() {
    let (mut g, mut both) = start(121);
    each!(precision in 0..=2, width in 1..=70, channels in 1..=100 => {
        let height = g.among(1, 4);
        let layout = g.layout(width, height, channels, precision);
        both.mend_drawn(&mut g, layout);
    });
    both.expect(FILES);
}

/// Files of up to some MiB, in parts of about 64 KiB and at drawn places.
#[test]
fn larger_files() {
    let (mut g, mut both) = start(122);
    let sizes = [[8192, 2, 3], [1, 8192, 33], [3, 2, 8190], [224, 224, 3], [65, 35, 65]];
    each!(precision in 0..=2, [width, height, channels] in sizes => {
        let layout = g.layout(width, height, channels, precision);
        let length = buffer_length(layout) + g.pick(&[0, 77]);
        let (file, part) = (contents(&mut g, length), g.pick(&[65535, 65536, 65537, 1 << 20]));
        let cuts = if g.one_in(3) { cuts(&mut g, length) } else { (part..length).step_by(part).collect() };
        both.mend_file(&mut g, layout, &file, &cuts);
    });
    both.expect(FILES);
}

/// Small cubes of one surface and of two, with every kind of gap, and a file that ends with the last atom or behind it.
const SMALL: [[u32; 7]; 6] = [
    [2, 2, 5, 0, 96, 192, 32],
    [1, 2, 17, 1, 32, 96, 0],
    [2, 1, 33, 0, 64, 64, 0],
    [1, 1, 31, 2, 64, 96, 64],
    [3, 1, 32, 0, 96, 96, 32],
    [1, 3, 1, 1, 64, 160, 0],
];

/// Every part of small files: from each byte on, of each length.
#[test]
fn every_part() {
    let (mut g, mut both) = start(123);
    each!(words in SMALL, more in [0, 40] => {
        let layout = Layout::from(words);
        let length = buffer_length(layout) + more;
        let file = contents(&mut g, length);
        each!(first in 0..=length, to in first..=length => {
            both.mend_part(&mut g, layout, [first as u64, length as u64], &file[first..to]);
        });
    });
    both.expect("padding_mend: 0; report: 0 1");
}

/// One byte alone that is not 0, at every position, and one alone that is 0.
#[test]
fn one_byte_at_every_position() {
    let (mut g, mut both) = start(124);
    let drawn: Vec<Layout> = (0..6).map(|_| g.small_layout()).collect();
    each!(layout in SMALL.map(Layout::from).into_iter().chain(drawn) => {
        let length = buffer_length(layout) + g.pick(&[0, 33]);
        let (value, other) = (g.among(1, 255) as u8, g.among(1, 255) as u8);
        for at in 0..length {
            for (most, one) in [(0, value), (other, 0)] {
                let mut file = vec![most; length];
                file[at] = one;
                both.mend_part(&mut g, layout, [0, length as u64], &file);
            }
        }
    });
    both.expect("padding_mend: 0; report: 0 1");
}

/// A valid layout whose strides and start may be near 2^32.
fn far_layout(g: &mut Generator) -> Layout {
    let [width, height, channels, precision] = [g.among(1, 9), g.among(1, 5), g.among(1, 300), g.among(0, 2)];
    let least = 32 * width;
    let mut upto = |low: u32, high: u32| low + 32 * g.among(0, (high - low) / 32);
    let line = upto(least, (u32::MAX - 31 - least) / height.max(2) / 32 * 32);
    let surface = upto((height - 1) * line + least, u32::MAX - 31);
    Layout { width, height, channels, precision, line, surface, start: upto(0, u32::MAX - 31) }
}

/// Parts anywhere in files that are longer than any memory: about atoms of the last surface and of others, at the ends of lines and of the cube. A
/// file that ends before the cube is refused, also at the length of which 32 bits are enough.
#[test]
fn far_files() {
    let (mut g, mut both) = start(125);
    let mut layouts = vec![Layout::from([1, 1, 8191, 1, 32, 4294967264, 4294967264]), [8192, 8192, 8190, 0, 262144, 2147483648, 0].into()];
    layouts.extend((0..3000).map(|_| far_layout(&mut g)));
    for layout in layouts {
        let exact = buffer_length(layout) as u64;
        for short in [exact - 1, exact - 32, exact % (1 << 32), 0].into_iter().filter(|&short| short < exact) {
            both.mend(layout, [0, short], &Lent::new(&mut g, &[], [0; 2]));
            assert_eq!(number(&both.last), 5, "{layout:?}, a file of {short} bytes");
        }
        let length = g.pick(&[exact, exact, exact + 1, 1 << 63, u64::MAX]);
        for _ in 0..12 {
            let [channel, row, column] = [layout.channels, layout.height, layout.width].map(|size| {
                let any = g.among(0, size - 1);
                g.pick(&[size - 1, size - 1, 0, any])
            });
            let near = layout.position(channel, row, column).expect("inside");
            let (bytes, back) = (g.index(150).min(exact as usize), g.below(100));
            let first = g.pick(&[near, near.saturating_sub(back), near.saturating_sub(back), exact, length]).min(length - bytes as u64);
            let part = contents(&mut g, bytes);
            let (_, report) = both.mend_part(&mut g, layout, [first, length], &part);
            report.iter().for_each(|&(at, _)| both.note("past 32 bits", (at >> 32 != 0).into(), 1));
        }
    }
    both.expect("padding_mend: 0 5; past 32 bits: 0 1; report: 0 1");
}

/// Layouts with words at and beside the limits; what is valid is mended about its last atom.
#[test]
fn layouts_of_any_words() {
    let (mut g, mut both) = start(126);
    each_pair(SMALL[0], |words| {
        let layout = Layout::from(words);
        let last = buffer_length(layout) as u64;
        let (first, part) = (last.saturating_sub(g.below(40)), contents(&mut g, 40));
        let length = g.pick(&[u64::MAX, first + 40]);
        let before = Lent::roomy(&mut g, &part);
        both.mend(layout, [first, length], &before);
    });
    both.expect("padding_mend: 0 1 2 3 4; report: 0 1");
}

/// First positions and lengths of files at and beside the limits, of the cube, of 32 bits and of 64: the end of a part does not wrap, and a part of no
/// byte that lies past the file's end is refused too.
#[test]
fn ends_of_parts_and_of_files() {
    let (mut g, mut both) = start(127);
    for layout in SMALL.map(Layout::from) {
        let exact = buffer_length(layout) as u64;
        let limits = [0, exact, 1 << 31, 1 << 32, (1 << 32) + exact, 1 << 63, u64::MAX];
        let beside = |limit: u64| [-2, -1, 0, 1, 2].map(|off| limit.saturating_add_signed(off));
        each!(length in limits.into_iter().flat_map(beside), bytes in [0, 1, 2, 40, 200] => {
            let end = length.wrapping_sub(bytes);
            each!(first in limits.into_iter().chain([end, end.wrapping_add(exact), exact.wrapping_sub(bytes)]).flat_map(beside) => {
                let part = contents(&mut g, bytes as usize);
                let before = Lent::roomy(&mut g, &part);
                both.mend(layout, [first, length], &before);
                let fits = exact <= length && first.checked_add(bytes).is_some_and(|end| end <= length);
                assert_eq!(number(&both.last), if fits { 0 } else { 5 }, "{layout:?}, {bytes} bytes from {first} of {length}");
            });
        });
    }
    both.expect("padding_mend: 0 5; report: 0 1");
}

/// Every number of places in either list beside every small part: fewer than it has bytes are refused, more are taken and stay.
#[test]
fn places_of_a_report() {
    let (mut g, mut both) = start(128);
    each!(words in SMALL, bytes in 0..=12, positions in 0..=15, olds in 0..=15 => {
        let layout = Layout::from(words);
        let length = buffer_length(layout);
        let (first, part) = (g.index(length - bytes + 1) as u64, vec![g.among(0, 255) as u8; bytes]);
        let before = Lent::new(&mut g, &part, [positions, olds]);
        both.mend(layout, [first, length as u64], &before);
        assert_eq!(number(&both.last), if positions.min(olds) < bytes { 18 } else { 0 }, "{bytes} bytes, {positions}, {olds} places");
    });
    both.expect("padding_mend: 0 18; report: 0 1");
}

/// Settings, numbers and places right and wrong in every mixture.
#[test]
fn refusals_and_their_order() {
    let (mut g, mut both) = start(129);
    for _ in 0..100_000 {
        let layout = g.small_layout();
        let length = g.length_near(buffer_length(layout));
        let bytes = g.index(100);
        let inside = g.below(length as u64 + 1);
        let first = g.pick(&[inside.min(length.saturating_sub(bytes) as u64), inside, length as u64 + 1, 0u64.wrapping_sub(inside)]);
        let part = contents(&mut g, bytes);
        let places = [0; 2].map(|_| g.length_near(bytes).max(g.length_near(bytes)));
        let (before, other) = (Lent::new(&mut g, &part, places), g.damaged(3, layout));
        both.mend(other, [first, length as u64], &before);
    }
    both.expect("padding_mend: 0 1 2 3 4 5 18; report: 0 1");
}

/// The numbers of the rules, in the order of the checks: 5 of the cube and of the part, 18 of the positions and of the old values.
const ORDER: [u32; 8] = [1, 2, 3, 4, 5, 5, 18, 18];

/// Each rule broken alone and with each later one: the first in the order is told.
#[test]
fn two_rules_broken_at_once() {
    let (mut g, mut both) = start(130);
    each!(first in 0..ORDER.len(), second in first..ORDER.len(), _ in 0..400 => {
        let mut layout = g.small_layout();
        let exact = buffer_length(layout) as u64;
        let (mut length, bytes) = (exact + g.pick(&[0, 0, 1, 77]), g.among(1, 60) as u64);
        let mut at = g.below(length - bytes.min(length) + 1);
        let part = contents(&mut g, bytes.min(length) as usize);
        let mut places = [part.len() + g.pick(&[0, 0, 3]), part.len() + g.pick(&[0, 0, 3])];
        for rule in [second, first] {
            let few = g.pick(&[0, part.len() / 2, part.len() - 1]);
            match rule {
                4 => length = g.pick(&[exact - 1, exact - 32, 0]),
                5 => at = g.pick(&[length - part.len() as u64 + 1, length, length + 1, u64::MAX, 0u64.wrapping_sub(part.len() as u64)]),
                6 => places[0] = few,
                7 => places[1] = few,
                _ => g.break_layout(rule, &mut layout),
            }
            if first == second {
                break;
            }
        }
        let before = Lent::new(&mut g, &part, places);
        both.mend(layout, [at, length], &before);
        assert_eq!(number(&both.last), ORDER[first], "rules {first} and {second}: {layout:?}, {} bytes from {at} of {length}", part.len());
    });
    both.expect("padding_mend: 1 2 3 4 5 18");
}
