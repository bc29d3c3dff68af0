//! Packing and unpacking of cubes and weights; edits and reads of boxes.

use crate::both::{start, Both};
use crate::calls::{in_cube, in_cube_by, Cube, Kernels, Part, BOXES, OWNER, WEIGHTS};
use crate::draw::{dense, whole, with_slot, Generator, EDGES, PRECISIONS};
use crate::reference::each;
use olsketina::Weights;

/// Sizes on both sides of larger multiples.
const WIDE: [u32; 12] = [131, 159, 160, 161, 191, 192, 193, 255, 256, 257, 511, 513];

impl Both {
    /// A box's trip, in a region with some room behind it; that is the whole cube, or lies in a cube with some room around it.
    fn box_trip(&mut self, g: &mut Generator, precision: u32, all: bool, part: [u32; 6]) {
        let [channel, row, column, channels, rows, columns] = part;
        let [columns, rows, channels] = [column + columns + g.among(0, 3), row + rows + g.among(0, 1), channel + channels + g.among(0, 9)];
        let [left, top, right] = if all { [0; 3] } else { [g.among(0, 20), g.among(0, 1), g.among(0, 2)] };
        let mut table = self.empty(g.layout(left + columns + right, top + rows, channels, precision));
        let [slot, id] = [g.among(0, 15), g.among(1, 65535)];
        assert!(self.place(&mut table, slot, id, [left, top, columns, rows]));
        self.trip(g, Part(table, slot, id, part.into()));
    }
}

#[test]
#[ignore = "long"]
fn cubes_of_every_width_and_channel_count() {
    let (mut g, mut both) = start(10);
    let others = [1, 2, 7, 8, 15, 16, 17, 31, 32, 33, 48, 63, 64, 65];
    let wide = WIDE.into_iter().flat_map(|wide| others.into_iter().flat_map(move |other| [(wide, other), (other, wide)]));
    let sizes = (1..=130).flat_map(|width| (1..=130).map(move |channels| (width, channels)));
    each!(precision in 0..=2, (width, channels) in sizes.clone().chain(wide.clone()) => {
        let height = g.among(1, 3);
        let layout = g.layout(width, height, channels, precision);
        both.trip(&mut g, Cube(layout));
    });
    both.expect("cube_pack: 0; cube_unpack: 0");
}

#[test]
#[ignore = "long"]
fn boxes_of_every_width_and_channel_count() {
    let (mut g, mut both) = start(11);
    each!(precision in 0..=2, all in [true, false] => {
        each!(columns in 1..=130, channels in 1..=100 => {
            let [channel, row, column, rows] = [g.among(0, 40), g.among(0, 2), g.among(0, 40), g.among(1, 2)];
            both.box_trip(&mut g, precision, all, [channel, row, column, channels, rows, columns]);
        });
        each!(wide in WIDE, other in [1, 3, 8, 16, 17, 32, 33, 64, 65] => {
            let first = g.among(0, 70);
            both.box_trip(&mut g, precision, all, [3, 1, first, other, 1, wide]);
            both.box_trip(&mut g, precision, all, [first, 0, 5, wide, 2, other]);
        });
    });
    both.expect("regions_edit: 0; regions_place: 0; regions_read: 0");
}

/// Every first and count of channels, and every first and count of columns.
#[test]
fn boxes_from_every_channel_and_column() {
    let (mut g, mut both) = start(12);
    each!(precision in 0..=2, first in 0..72, count in 1..=72 - first => {
        let part = g.inner_box(36, 2, 9);
        both.box_trip(&mut g, precision, true, [first, part.row, part.column, count, 1, part.columns]);
        both.box_trip(&mut g, precision, true, [part.channel, 0, first, part.channels, 1, count]);
    });
    both.expect("regions_edit: 0; regions_place: 0; regions_read: 0");
}

/// Every small kernel, kernels and channels around groups and blocks, and some large ones.
#[test]
fn weights_of_many_sizes() {
    let (mut g, mut both) = start(40);
    let mut sizes =
        vec![[3, 65, 32, 32], [17, 3, 32, 1], [33, 66, 1, 32], [8192, 1, 1, 1], [1, 8192, 2, 1], [35, 8192, 1, 1], [8192, 17, 1, 2]];
    each!(rows in 1..=5, columns in 1..=5, kernels in [1, 5, 16, 17, 32, 33], channels in [1, 5, 63, 64, 65] => {
        sizes.push([kernels, channels, rows, columns]);
    });
    let some_kernels = [1, 2, 3, 7, 8, 9, 15, 16, 17, 18, 31, 32, 33, 34, 47, 48, 49, 63, 64, 65];
    let some_channels = [1, 2, 3, 8, 31, 32, 33, 62, 63, 64, 65, 66, 96, 127, 128, 129, 130, 192, 193];
    each!(kernels in some_kernels, channels in some_channels, _ in 0..6 => {
        sizes.push([kernels, channels, g.among(1, 5), g.among(1, 5)]);
    });
    each!(precision in 0..=2, &[kernels, channels, rows, columns] in &sizes => {
        let weights = Kernels(Weights { kernels, channels, rows, columns, precision });
        both.checks(&mut g, weights);
        both.trip(&mut g, weights);
    });
    both.expect("weights_count: 0; weights_extent: 0; weights_pack: 0; weights_position: 0 9; weights_unpack: 0");
}

#[test]
fn larger_cubes() {
    let (mut g, mut both) = start(13);
    let int8 = [[8192, 2, 33], [1, 8192, 33], [3, 2, 8192], [224, 224, 3], [130, 70, 65]];
    let sizes = [&int8[..], &[[8192, 1, 3], [2, 8192, 17], [129, 33, 130]], &[[1, 1, 8192], [300, 50, 40]]];
    each!(precision in 0..=2, &[width, height, channels] in sizes[precision as usize] => {
        let layout = g.layout(width, height, channels, precision);
        let settings = [Cube(layout), in_cube(layout, whole(layout))];
        settings.into_iter().for_each(|setting| both.trip(&mut g, setting));
        for _ in 0..3 {
            let part = g.inner_box(channels, height, width);
            both.trip(&mut g, in_cube(layout, part));
            let (_, count, length) = Cube(layout).needs();
            let (mut elements, bytes) = (g.elements(precision, count), g.bytes(length));
            g.spoil(1, precision, &mut elements);
            settings.into_iter().for_each(|setting| drop(both.write(setting, &elements, &bytes)));
        }
    });
    both.expect("cube_pack: 0 7 26; cube_unpack: 0; regions_edit: 0 7 26; regions_read: 0");
}

/// Settings, counts, lengths and values right and wrong in every mixture.
#[test]
fn refusals_and_their_order() {
    let (mut g, mut both) = start(14);
    for _ in 0..63500 {
        let layout = g.small_layout();
        let part = g.inner_box(layout.channels, layout.height, layout.width);
        let channels = if g.one_in(20) { g.among(60, 70) } else { g.among(1, 8) };
        let weights = Weights::from([g.among(1, 40), channels, g.among(1, 3), g.among(1, 3), g.among(0, 2)]);
        let (other, other_part, mut other_weights) = (g.damaged(2, layout), g.damaged(4, part), g.damaged(3, weights));
        let odd = g.pick(&[0, 31, 32, 33, 8192, u32::MAX]);
        match g.below(10) {
            0 => other_weights.rows = odd,
            1 => other_weights.columns = odd,
            _ => {}
        }
        both.lengths(&mut g, Cube(layout), Cube(other), usize::MAX);
        let other_box = in_cube_by(&mut g, other, other_part);
        both.lengths(&mut g, in_cube(layout, part), other_box, usize::MAX);
        both.lengths(&mut g, Kernels(weights), Kernels(other_weights), usize::MAX);
        both.checks(&mut g, Kernels(other_weights));
    }
    both.expect(&format!("cube_pack: 0 1 2 3 4 5 6 7 26; cube_unpack: 0 1 2 3 4 5 6; {BOXES}; {WEIGHTS}"));
}

/// Each number of elements and bytes beside the exact one; of some weights every number of bytes, past the last fill of 128.
#[test]
fn lengths_beside_the_exact_ones() {
    let (mut g, mut both) = start(15);
    let some_weights = [[3, 65, 1, 2, 0], [17, 1, 1, 1, 1], [16, 8, 1, 1, 0]].map(|words| Kernels(words.into()));
    for round in 0..60 {
        let layout = g.small_layout();
        let part = g.inner_box(layout.channels, layout.height, layout.width);
        for setting in [Cube(layout), in_cube(layout, part), some_weights[round % 3]] {
            let (precision, count, length) = setting.needs();
            let beside = |exact: usize| [0, 1, exact - 1, exact, exact + 1, 2 * exact];
            each!(bytes in beside(length), given in beside(count) => {
                both.write_and_read(setting, &g.elements(precision, given), &g.bytes(bytes));
            });
        }
    }
    for weights in some_weights {
        let (precision, count, length) = weights.needs();
        for bytes in 0..length + 130 {
            both.write_and_read(weights, &g.elements(precision, count), &g.bytes(bytes));
        }
    }
    both.expect(
        "cube_pack: 0 5 6; cube_unpack: 0 5 6; regions_edit: 0 5 6; regions_read: 0 5 6; weights_pack: 0 5 6; weights_unpack: 0 5 6",
    );
}

/// One element at or beside the limits of what is taken at every index, and one behind it that is not taken.
#[test]
fn elements_not_taken_at_every_index() {
    let (mut g, mut both) = start(16);
    for precision in 0..=2 {
        let table = with_slot(g.layout(40, 3, 36, precision), 3, [1, OWNER, 1, 1, 38, 2]);
        let mut settings = vec![Part(table, 3, OWNER, [1, 1, 2, 34, 1, 35].into()), Kernels([33, 3, 2, 2, precision].into())];
        for [width, height, channels] in [[70, 2, 5], [3, 2, 67], [33, 1, 33], [1, 1, 1]] {
            let layout = g.layout(width, height, channels, precision);
            settings.extend([Cube(layout), in_cube(layout, whole(layout))]);
        }
        for setting in settings {
            let (_, count, length) = setting.needs();
            let buffer = g.bytes(length);
            for at in 0..count {
                let mut elements = g.elements(precision, count);
                elements[at] = g.at_limit(precision);
                if g.one_in(2) {
                    elements[at + g.index(count - at)] = g.untaken(precision);
                }
                both.write(setting, &elements, &buffer);
            }
        }
    }
    both.expect("cube_pack: 0 7 26; regions_edit: 0 7 26; weights_pack: 0 7 26");
}

/// Every 16-bit element to its bytes and back, every byte to its element; each one for each precision; lists of every precision.
#[test]
fn every_element() {
    let (mut g, mut both) = start(70);
    let row = |width, precision| Cube(dense(width, 1, 1, precision));
    let all: Vec<i16> = (i16::MIN..=i16::MAX).collect();
    let cube = Cube(dense(8192, 8, 1, 1));
    let packed = both.write(cube, &all, &vec![7; 32 * all.len()]);
    assert_eq!(both.read(cube, &packed, &vec![9; all.len()]), all);
    let mut bytes = vec![0; 256 * 32];
    (0..256).for_each(|byte| bytes[32 * byte] = byte as u8);
    let signed: Vec<i16> = (0..128).chain(-128..0).collect();
    assert_eq!(both.read(row(256, 0), &bytes, &[9; 256]), signed);
    each!(element in all, precision in 0..=2 => {
        both.write(row(2, precision), &[0, element], &[238; 64]);
    });
    for round in 0..40000 {
        let precision = g.pick(&PRECISIONS);
        let count = g.index(if round % 10 == 0 { 600 } else { 70 });
        let mut elements = g.elements(precision, count);
        g.spoil(2, precision, &mut elements);
        both.write(row(count as u32, precision), &elements, &vec![238; 32 * count]);
    }
    both.expect("cube_pack: 0 1 2 7 26; cube_unpack: 0");
}

/// Boxes at and past every side of cubes of every size, sums past 32 bits among them.
#[test]
fn boxes_beside_the_cube() {
    let (mut g, mut both) = start(17);
    let mut cubes = vec![(0, [35, 3, 5]), (1, [35, 3, 5]), (2, [35, 3, 5])];
    each!(axis in 0..3, size in EDGES.into_iter().filter(|size| (1..=8192).contains(size)) => {
        cubes.push((axis, std::array::from_fn(|other| if other == axis { size } else { 1 })));
    });
    for (axis, sizes) in cubes {
        let layout = g.layout(sizes[2], sizes[1], sizes[0], 0);
        let (_, _, length) = Cube(layout).needs();
        let (bytes, elements, size) = (g.bytes(length), g.elements(0, 8192), sizes[axis]);
        let words = [&EDGES[..], &[size - 1, size, size + 1, u32::MAX - size, u32::MAX - 1]].concat();
        each!(&first in &words, &count in &words => {
            let mut part = [0, 0, 0, 1, 1, 1];
            [part[axis], part[axis + 3]] = [first, count];
            let setting = in_cube(layout, part.into());
            both.read(setting, &bytes, &[8]);
            if size < 100 {
                both.write_and_read(setting, &elements[..count.min(size) as usize], &bytes);
            }
        });
    }
    both.expect("regions_edit: 0 9; regions_read: 0 6 9");
}
