//! NaN in fp16 (change request K7): refused by 26 where elements are written, last in each order and by the least index; reading gives it.

use crate::both::{start, Both};
use crate::calls::{in_cube, Cube, Kernels, Part, Setting, OWNER};
use crate::draw::{buffer_length, dense, element_count, whole, with_slot, Generator, NANS};
use crate::plain_picture::number_of;
use crate::reference::each;
use olsketina::{Answer, Layout, Refusal, Weights};
use std::collections::BTreeSet;

/// A layout's cube, and all of it as a box; weights.
fn settings(layout: Layout, weights: Weights) -> [Setting; 3] {
    [Cube(layout), in_cube(layout, whole(layout)), Kernels(weights)]
}

/// One element: a cube, a box and weights of it.
fn single(precision: u32) -> (Layout, Weights) {
    (dense(1, 1, 1, precision), [1, 1, 1, 1, precision].into())
}

impl Both {
    /// Writes over drawn bytes, so many; asserts the answer, and that a refusal leaves them.
    fn writes(&mut self, g: &mut Generator, setting: Setting, elements: &[i16], bytes: usize, answer: Answer<()>) {
        let old = g.bytes(bytes);
        let left = self.write(setting, elements, &old);
        assert_eq!(self.last, answer, "{setting:?}, {} elements, {bytes} bytes", elements.len());
        assert!(answer.is_ok() || left == old, "refused, and yet written: {setting:?}");
    }

    /// The same of a start, for a buffer of so many bytes.
    fn starts(&mut self, g: &mut Generator, layout: Layout, elements: &[i16], bytes: usize, answer: Answer<()>) {
        self.begin(g, layout, elements, bytes);
        assert_eq!(self.last, answer, "a start: {layout:?}, {} elements, {bytes} bytes", elements.len());
    }

    /// Every call that takes the elements of a setting.
    fn all_calls(&mut self, g: &mut Generator, (layout, weights): (Layout, Weights), elements: &[i16], answer: Answer<()>) {
        for setting in settings(layout, weights) {
            let (_, _, length) = setting.needs();
            self.writes(g, setting, elements, length, answer);
        }
        self.starts(g, layout, elements, buffer_length(layout), answer);
    }
}

/// Every element by itself, of each precision, in every call that writes it.
#[test]
fn every_element_alone() {
    let (mut g, mut both) = start(110);
    let mut numbers = [0; 27];
    each!(precision in 0..=2, element in i16::MIN..=i16::MAX => {
        let number = number_of(precision, element);
        let answer = if number == 0 { Ok(()) } else { Err(Refusal { number, fault: 0 }) };
        both.all_calls(&mut g, single(precision), &[element], answer);
        numbers[number as usize] += 1;
    });
    assert_eq!([numbers[7], numbers[26]], [65536 - 256, 2 * 1023]);
    both.expect("cube_pack: 0 7 26; regions_edit: 0 7 26; walk_start: 0 7 26; weights_pack: 0 7 26");
}

/// Reading is as it was: every element that a buffer holds is given, NaN too.
#[test]
fn reads_give_nan() {
    let (mut g, mut both) = start(111);
    each!(precision in 1..=2, element in i16::MIN..=i16::MAX => {
        let (layout, weights) = single(precision);
        for setting in settings(layout, weights) {
            let (_, _, length) = setting.needs();
            let mut bytes = g.bytes(length);
            bytes[..2].copy_from_slice(&element.to_le_bytes());
            assert_eq!(both.read(setting, &bytes, &[!element]), [element], "{setting:?}");
            assert_eq!(both.last, Ok(()), "{setting:?}, {element}");
        }
    });
    both.expect("cube_unpack: 0; regions_read: 0; weights_unpack: 0");
}

/// Buffers that hold nothing but NaN: a box is written, and a region released, as in any other; what is not written stays.
#[test]
fn old_buffers_of_nan() {
    let (mut g, mut both) = start(112);
    for _ in 0..3000 {
        let layout = Layout { precision: 2, ..g.small_layout() };
        let old: Vec<u8> = (0..buffer_length(layout).div_ceil(2)).flat_map(|_| g.nan().to_le_bytes()).collect();
        let region = g.inner_box(1, layout.height, layout.width);
        let words = [1, OWNER, region.column, region.row, region.columns, region.rows];
        let mut table = with_slot(layout, 4, words);
        let part = g.inner_box(layout.channels, region.rows, region.columns);
        let elements = g.elements(2, (part.channels * part.rows * part.columns) as usize);
        let nans_after = |both: &mut Both, bytes: &[u8], written: usize| {
            assert_eq!(both.last, Ok(()), "{layout:?}, {part:?}");
            let all = both.read(Cube(layout), bytes, &vec![0; element_count(layout)]);
            let nans = all.iter().filter(|&&element| number_of(2, element) == 26).count();
            assert_eq!(nans, all.len() - written, "{layout:?}, {part:?}");
        };
        let edited = both.write(Part(table, 4, OWNER, part), &elements, &old);
        nans_after(&mut both, &edited, elements.len());
        let released = both.release(&mut table, 4, OWNER, &edited);
        nans_after(&mut both, &released, (layout.channels * region.rows * region.columns) as usize);
    }
    both.expect("cube_unpack: 0; regions_edit: 0; regions_release: 0");
}

/// The number of the first rule of an order that is broken, of those whose bits are set; behind them stands `last`, with its index.
fn told(order: &[u32], broken: u32, last: (u32, usize)) -> Answer<()> {
    let (number, fault) = order.get(broken.trailing_zeros() as usize).map_or(last, |&number| (number, 0));
    Err(Refusal { number, fault })
}

/// The rules before the elements', in the order of each call.
const PACK: [u32; 6] = [1, 2, 3, 4, 6, 5];
const EDIT: [u32; 9] = [1, 2, 3, 4, 8, 25, 9, 6, 5];
const WEIGHTS: [u32; 4] = [1, 2, 6, 5];

/// Elements of which one or two are not taken; each rule that stands before them in the order of a call is broken or not, in every mixture. The first
/// that is broken is told; where none is, 7 or 26 with the least index.
#[test]
fn elements_are_last_in_each_order() {
    let (mut g, mut both) = start(113);
    let spoilt = |g: &mut Generator, precision, count| {
        let (mut elements, fault) = (g.elements(precision, count), g.index(count));
        for at in [fault, fault + g.index(count - fault)] {
            elements[at] = g.untaken(precision);
        }
        let number = number_of(precision, elements[fault]);
        (elements, (number, fault))
    };
    let rules = |layout: &mut Layout, broken: u32| {
        let broken = |rule: u32| broken >> rule & 1;
        layout.width *= 1 - broken(0);
        layout.precision += 3 * broken(1);
        layout.line += 16 * broken(2);
        layout.start += broken(3);
    };
    each!(precision in [0, 2], broken in 0..1 << PACK.len(), _ in 0..20 => {
        let mut layout = Layout { precision, ..g.small_layout() };
        let (mut elements, last) = spoilt(&mut g, precision, element_count(layout));
        let bytes = buffer_length(layout) - (broken >> 5 & 1) as usize;
        rules(&mut layout, broken);
        elements.extend(vec![0; (broken >> 4 & 1) as usize]);
        both.writes(&mut g, Cube(layout), &elements, bytes, told(&PACK, broken, last));
        both.starts(&mut g, layout, &elements, bytes, told(&PACK, broken, last));
    });
    each!(precision in [0, 2], broken in 0..1 << EDIT.len(), _ in 0..10 => {
        let mut layout = Layout { precision, ..g.small_layout() };
        let (slot, mut part) = (g.among(0, 15), g.inner_box(layout.channels, layout.height, layout.width));
        let (mut elements, last) = spoilt(&mut g, precision, (part.channels * part.rows * part.columns) as usize);
        let bytes = buffer_length(layout) - (broken >> 8 & 1) as usize;
        let words = [1, OWNER, 0, 0, layout.width, layout.height];
        rules(&mut layout, broken);
        let (table, given) = (with_slot(layout, slot as usize, words), if broken >> 4 & 1 != 0 { (slot + 1) % 16 } else { slot });
        part.channel += layout.channels * (broken >> 6 & 1);
        elements.extend(vec![0; (broken >> 7 & 1) as usize]);
        both.writes(&mut g, Part(table, given, OWNER + (broken >> 5 & 1), part), &elements, bytes, told(&EDIT, broken, last));
    });
    each!(precision in [0, 2], broken in 0..1 << WEIGHTS.len(), _ in 0..40 => {
        let mut weights = Weights::from([g.among(1, 40), g.among(1, 8), g.among(1, 3), g.among(1, 3), precision]);
        let (_, count, length) = Kernels(weights).needs();
        let (mut elements, last) = spoilt(&mut g, precision, count);
        weights.rows *= 1 - (broken & 1);
        weights.precision += 3 * (broken >> 1 & 1);
        elements.extend(vec![0; (broken >> 2 & 1) as usize]);
        both.writes(&mut g, Kernels(weights), &elements, length - (broken >> 3 & 1) as usize, told(&WEIGHTS, broken, last));
    });
    both.expect(
        "cube_pack: 1 2 3 4 5 6 7 26; regions_edit: 1 2 3 4 5 6 7 8 9 25 26; walk_start: 1 2 3 4 5 6 7 26; weights_pack: 1 2 5 6 7 26",
    );
}

/// Lists around 64 elements, of 8,192 and past it: one element that is not taken, first, last or between, alone, with some behind it, or with nothing
/// else behind it.
#[test]
fn the_least_index_of_long_lists() {
    let (mut g, mut both) = start(114);
    let sizes =
        [[1, 1, 1], [2, 1, 1], [63, 1, 1], [64, 1, 1], [65, 1, 1], [129, 1, 1], [8191, 1, 1], [8192, 1, 1], [8192, 1, 2], [91, 91, 1]];
    each!(precision in [0, 2], [width, height, channels] in sizes.into_iter().chain([[3, 2, 67], [100, 30, 40]]) => {
        let layout = g.layout(width, height, channels, precision);
        let (count, weights) = (element_count(layout), Weights::from([width, height * channels, 1, 1, precision]));
        let between = g.index(count);
        let firsts = BTreeSet::from([0, 1, 62, 63, 64, 65, between, count / 2, count.saturating_sub(2), count - 1]);
        each!(first in firsts.into_iter().filter(|&first| first < count), behind in 0..3 => {
            let mut elements = g.elements(precision, count);
            elements[first] = g.untaken(precision);
            match behind {
                0 => {}
                1 => (0..3).for_each(|_| elements[first + g.index(count - first)] = g.untaken(precision)),
                _ => elements[first..].fill_with(|| g.untaken(precision)),
            }
            let number = number_of(precision, elements[first]);
            both.all_calls(&mut g, (layout, weights), &elements, Err(Refusal { number, fault: first }));
        });
    });
    both.expect("cube_pack: 7 26; regions_edit: 7 26; walk_start: 7 26; weights_pack: 7 26");
}

/// What the tests draw: of fp16 every element but NaN, and every NaN where one is asked for.
#[test]
fn drawn_elements() {
    let mut g = Generator::new(115);
    let drawn: BTreeSet<i16> = g.elements(2, 1 << 21).into_iter().collect();
    let taken: BTreeSet<i16> = (i16::MIN..=i16::MAX).filter(|&element| number_of(2, element) == 0).collect();
    assert_eq!(drawn, taken);
    let nans: BTreeSet<i16> = (0..1 << 17).map(|_| g.nan()).collect();
    assert_eq!(nans.len(), 2 * 1023);
    assert!(nans.is_disjoint(&taken) && NANS.iter().all(|nan| nans.contains(nan)));
}
