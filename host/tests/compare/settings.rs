//! Layouts, weights and images: the limits of their words, the order of their checks, and positions.

use crate::both::{start, Both};
use crate::calls::{in_cube_by, Cube, Kernels, Pixels, Setting, BOXES, WEIGHTS};
use crate::draw::{each_pair, image, whole, Generator, EDGES, PRECISIONS};
use crate::reference::{each, pixels};
use olsketina::Layout;

impl Both {
    /// The calls on a layout, of a box at and beside its limits too.
    fn layout(&mut self, g: &mut Generator, layout: Layout) {
        self.checks(g, Cube(layout));
        let mut part = whole(layout);
        if !g.one_in(3) {
            let [c, h, w] = [layout.channels, layout.height, layout.width].map(|size| size.clamp(1, 8192));
            part = g.inner_box(c, h, w);
        }
        let part = g.damaged(3, part);
        let setting = in_cube_by(g, layout, part);
        self.lengths(g, setting, setting, 1000);
    }

    /// Every position of a small setting, and each index one past its end.
    fn every_position(&mut self, setting: Setting) {
        let sizes = setting.sizes();
        for number in 0..sizes.iter().map(|size| size + 1).product() {
            let (mut rest, mut at): (u32, Vec<u32>) = (number, Vec::new());
            for size in &sizes {
                at.push(rest % (size + 1));
                rest /= size + 1;
            }
            self.position(setting, &at);
        }
    }
}

/// All that the calls answer.
const LAYOUTS: &str = "cube_position: 0 1 2 3 4 9; layout_check: 0 1 2 3 4; layout_extent: 0 1 2 3 4";
const IMAGES: &str = "pixels_position: 0 1 19 20 21 22 23; pixels_setting: 0 1 19 20 21 22";

#[test]
fn limits_of_every_word_and_pair_of_words() {
    let (mut g, mut both) = start(1);
    let layouts = [
        [3, 2, 40, 0, 128, 256, 0],
        [2, 3, 17, 1, 64, 192, 32],
        [8192, 1, 8192, 1, 262144, 262144, 32],
        [1, 8192, 17, 2, 32, 262144, 4294967264],
        [64, 8192, 33, 0, 524256, 4294713216, 64],
        [0, 8193, 0, 3, 31, 33, 1],
    ];
    for base in layouts {
        each_pair(base, |words| both.layout(&mut g, words.into()));
    }
    let base = [3, 5, 2, 1, 0];
    each_pair(base, |words| {
        both.checks(&mut g, Kernels(words.into()));
        both.lengths(&mut g, Kernels(base.into()), Kernels(words.into()), 1000);
    });
    for base in [[0, 64, 2, 1, 0, 31, 32, 96], [8, 8192, 8192, 4, 2, 3, 0, 65568], [17, 0, 8193, 2, 3, 32, 1, 31]] {
        each_pair(base, |words| both.checks(&mut g, Pixels(words.into())));
    }
    both.expect(&format!("{LAYOUTS}; {IMAGES}; {BOXES}; {WEIGHTS}"));
}

/// The order of the checks: each subset of a layout's rules 1 to 4 broken at once.
#[test]
fn several_rules_broken_at_once() {
    let (mut g, mut both) = start(2);
    let beside = [1, 16, u32::MAX, u32::MAX - 31];
    for round in 0..20000 {
        let mut words: [u32; 7] = g.small_layout().into();
        let stride = 4 + g.index(2);
        let strides = beside.map(|off| words[stride].wrapping_add(off));
        let broken: [(usize, &[u32]); 4] =
            [(g.index(3), &[0, 8193, 1 << 31, u32::MAX]), (3, &PRECISIONS), (stride, &strides), (6, &[1, 16, 31, 33, 1 << 31, u32::MAX])];
        for (rule, (at, values)) in broken.into_iter().enumerate() {
            if round >> rule & 1 != 0 {
                words[at] = g.pick(values);
            }
        }
        both.layout(&mut g, words.into());
    }
    both.expect(&format!("{LAYOUTS}; {BOXES}"));
}

/// Strides of cubes at and beside the least; lines of images too, for every width around multiples of 32 bytes.
#[test]
fn strides_at_and_beside_the_least() {
    let (mut g, mut both) = start(3);
    let offs = [0, 1, 32, 31, u32::MAX, u32::MAX - 31];
    each!(_ in 0..4000, line_off in offs, surface_off in offs => {
        let width: u32 = g.pick(&[1, 2, 3, 31, 32, 33, 8191, 8192]);
        let height: u32 = g.pick(&[1, 2, 3, 100, 8191, 8192]);
        let [channels, start] = [g.pick(&[1, 16, 17, 32, 33, 8192]), g.pick(&[0, 32, 1 << 31, u32::MAX - 31])];
        let line = (32 * width).wrapping_add(line_off);
        let surface = (height * 32 * width).wrapping_add((height - 1).wrapping_mul(line_off)).wrapping_add(surface_off);
        both.check(Cube([width, height, channels, g.among(0, 2), line, surface, start].into()));
    });
    for code in 0..17 {
        let [_, bytes, _, greatest] = pixels::format(code).expect("a format");
        each!(width in (1..=70).chain([8191, 8192]), offset in [0, 1, greatest] => {
            let least: u32 = (offset + width) * bytes;
            let round = least.next_multiple_of(32);
            for line in [least, least - 1, round, round - 32, round + 32, round + 1] {
                both.checks(&mut g, Pixels(image(code, width, 3, offset, 0, line)));
            }
        });
    }
    both.expect("layout_check: 0 3; layout_extent: 0 3; pixels_position: 0 22 23; pixels_setting: 0 22");
}

#[test]
fn every_position_of_small_settings() {
    let (mut g, mut both) = start(4);
    for _ in 0..120 {
        both.every_position(Cube(g.small_layout()));
    }
    for _ in 0..60 {
        let words = [g.among(1, 40), g.among(1, 70), g.among(1, 3), g.among(1, 3), g.among(0, 2)];
        both.every_position(Kernels(words.into()));
    }
    for code in 0..17 {
        let [.., greatest] = pixels::format(code).expect("a format");
        for offset in 0..=greatest {
            both.every_position(Pixels(image(code, 5, 3, offset, 96, 320)));
        }
    }
    both.expect("cube_position: 0 9; pixels_position: 0 23; weights_position: 0 9");
}

/// Extents past 32 bits, as whole numbers; a line past 32 bits with the next row has no surface that is valid.
#[test]
fn wide_sums_do_not_wrap() {
    let (_, mut both) = start(5);
    let wide = [([1, 1, 8192, 1, 32, 4294967264, 4294967264], 2194728271936), ([8192, 8192, 8192, 0, 262144, 2147483648, 0], 549755813888)];
    for (words, extent) in wide {
        assert_eq!(Layout::from(words).extent(), Ok(extent));
        both.check(Cube(words.into()));
    }
    for words in EDGES.map(|surface| [1, 2, 1, 0, 4294967264, surface, 0]).into_iter().chain([[1, 1, 1, 0, 0, 32, 0]]) {
        assert_eq!(Layout::from(words).check().map_err(|refusal| refusal.number), Err(3), "{words:?}");
        both.check(Cube(words.into()));
    }
    both.expect("layout_check: 0 3; layout_extent: 0 3");
}

#[test]
fn every_format_with_every_offset_precision_and_channel_count() {
    let (mut g, mut both) = start(50);
    let codes = (0..=18).chain([255, 1 << 31, u32::MAX]);
    each!(code in codes, offset in 0..=33, precision in PRECISIONS, channels in [0, 1, 2, 3, 4, 5, u32::MAX] => {
        both.checks(&mut g, Pixels([code, 640, 480, channels, precision, offset, 64, 8192].into()));
    });
    both.expect("pixels_position: 0 19 20 21 23; pixels_setting: 0 19 20 21");
}

#[test]
fn damaged_images() {
    let (mut g, mut both) = start(51);
    for round in 0..122000 {
        let code = round % 17;
        let [_, bytes, _, greatest] = pixels::format(code).expect("a format");
        let [width, height] = [g.pick(&[1, 2, 3, 31, 32, 33, 640, 8191, 8192]), g.pick(&[1, 2, 480, 8191, 8192])];
        let [offset, start] = [g.among(0, greatest), g.pick(&[0, 32, 1 << 31, u32::MAX - 31])];
        let line = ((offset + width) * bytes).next_multiple_of(32) + g.pick(&[0, 0, 32, 320]);
        let image = g.damaged(2, image(code, width, height, offset, start, line));
        both.checks(&mut g, Pixels(image));
    }
    both.expect(IMAGES);
}
