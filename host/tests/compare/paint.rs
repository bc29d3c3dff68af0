//! A camera's picture into a region: every format and component, every width up to 600, how many components are held, and the order of the checks.

use crate::both::{number, start, Both};
use crate::calls::OWNER;
use crate::draw::{buffer_length, dense, image, pixel_length, with_slot, Generator, FLOATS, IDS, PAINTED, PRECISIONS};
use crate::reference::{each, pixels, regions};
use olsketina::{Conversion, Image, Layout};

/// A call: what is given, and how many bytes of pixels and of the cube are lent.
#[derive(Clone, Copy, Debug)]
struct Painting {
    layout: Layout,
    /// The words of the region's slot.
    region: [u32; regions::SLOT],
    slot: u32,
    id: u32,
    image: Image,
    conversion: Conversion,
    pixels: usize,
    bytes: usize,
}

/// The numbers of the rules, in the order of the checks.
const ORDER: [u32; 16] = [19, 1, 20, 21, 22, 29, 2, 16, 30, 1, 3, 4, 8, 25, 9, 5];

/// All that the call answers.
const PAINT: &str = "parlour_paint: 0 1 2 3 4 5 8 9 16 19 20 21 22 25 29 30";

/// A length below one that is not 0.
fn shorter(g: &mut Generator, exact: usize) -> usize {
    g.pick(&[exact - 1, exact - 1, exact.saturating_sub(32), exact / 2, 0])
}

impl Painting {
    /// One that is accepted, if format and precision are: the region lies anywhere in its cube, with any id in any slot; what is lent may be
    /// longer than it must be.
    fn valid(g: &mut Generator, format: u32, width: u32, height: u32, precision: u32) -> Painting {
        let image = g.image(format, width, height);
        let [left, right, top, below] = [g.among(0, 20), g.among(0, 3), g.among(0, 2), g.among(0, 1)];
        let layout = g.layout(left + width + right, top + height + below, image.channels, precision);
        let [slot, id, placed] = [g.among(0, 15), g.among(1, 65535), g.pick(&[1, 1, 2, 1 << 31, u32::MAX])];
        let [pixels, bytes] = [pixel_length(image), buffer_length(layout)].map(|exact| exact + g.pick(&[0, 0, 1, 31, 64]));
        let region = [placed, id, left, top, width, height];
        Painting { layout, region, slot, id, image, conversion: g.conversion(), pixels, bytes }
    }

    /// Breaks a rule, by its index in the order, and none before it; those after it may have been broken before.
    fn break_rule(&mut self, g: &mut Generator, rule: usize) {
        let (layout, image, region) = (&mut self.layout, &mut self.image, &mut self.region);
        let far = g.pick(&[0, 8193, 1 << 31, u32::MAX]);
        let odd = g.pick(&[1, 16, 31]);
        let other = g.pick(&[1, 2, 3, u32::MAX]);
        let first = g.one_in(2);
        match rule {
            0 => image.format = g.pick(&[17, 18, 255, 1 << 31, u32::MAX]),
            1 if first => image.width = far,
            1 => image.height = far,
            2 if first => image.channels = image.channels.wrapping_add(other),
            2 => image.precision = image.precision.wrapping_add(other),
            3 => image.x_offset = pixels::format(image.format).expect("a format")[3] + g.pick(&[1, 2, 1 << 31]),
            4 if first => image.start += odd,
            4 if g.one_in(2) => image.line += odd,
            4 => image.line = (pixel_length(Image { height: 1, start: 0, ..*image }) as u32 - 1) / 32 * 32,
            5 if first => layout.channels = layout.channels.wrapping_add(other),
            5 => {
                let float = if image.channels == 1 { FLOATS[0] } else { g.pick(&FLOATS[1..]) };
                *image = g.image(float, image.width, image.height);
            }
            6 => layout.precision = g.pick(&PRECISIONS[2..]),
            7 => self.conversion.shift = g.pick(&[32, 33, 63, 64, 128, 1 << 31, u32::MAX]),
            8 => self.pixels = shorter(g, pixel_length(*image)),
            9 if first => layout.width = far,
            9 => layout.height = far,
            10 if first => layout.line = g.pick(&[layout.line + odd, 32 * layout.width - 32]),
            10 => layout.surface = g.pick(&[layout.surface + odd, (layout.height - 1) * layout.line + 32 * layout.width - 32]),
            11 => layout.start += odd,
            12 if first => region[0] = 0,
            12 => self.slot = g.pick(&[16, 17, 1 << 31, u32::MAX]),
            13 if first => self.id = self.id.wrapping_add(g.pick(&[1, 65536, u32::MAX])),
            13 => (self.id, region[1]) = [(0, 0), (70000, 70000)][g.index(2)],
            14 if first => region[2 + g.index(2)] = g.pick(&[8192, u32::MAX]),
            14 => {
                let size = 4 + g.index(2);
                region[size] = g.pick(&[0, region[size] - 1, region[size] + 1, u32::MAX]);
            }
            _ => self.bytes = shorter(g, buffer_length(*layout)),
        }
    }
}

impl Both {
    /// Makes the call with drawn pixels, over drawn bytes.
    fn painting(&mut self, g: &mut Generator, p: &Painting) {
        let table = with_slot(p.layout, p.slot.min(15) as usize, p.region);
        let (pixels, old) = (g.bytes(p.pixels), g.bytes(p.bytes));
        self.paint(&table, [p.slot, p.id], p.image, p.conversion, &pixels, &old);
    }
}

/// Every width up to 600 in every format that is taken; heights, X offsets, starts, gaps, places in the cube and lengths are drawn.
#[test]
fn every_width() {
    let (mut g, mut both) = start(80);
    each!(width in 1..=600, format in PAINTED => {
        let [height, precision] = [g.among(1, 3), g.among(0, 1)];
        let p = Painting::valid(&mut g, format, width, height, precision);
        both.painting(&mut g, &p);
    });
    both.expect("components held: 0 1 2; parlour_paint: 0");
}

/// Every X offset of every format that is taken, widths at and beside powers of two, both precisions.
#[test]
fn every_x_offset() {
    let (mut g, mut both) = start(81);
    let widths = [1, 2, 7, 8, 9, 31, 32, 33, 63, 64, 65, 127, 128, 129, 255, 256, 257, 511, 512, 513];
    each!(format in PAINTED, x_offset in 0..=pixels::format(format).expect("a format")[3], width in widths, precision in 0..=1 => {
        let mut p = Painting::valid(&mut g, format, width, 2, precision);
        p.image = Image { x_offset, line: p.image.line + 32, ..p.image };
        p.pixels = pixel_length(p.image);
        both.painting(&mut g, &p);
    });
    both.expect("components held: 0 1 2; parlour_paint: 0");
}

/// Pictures of all components that a format can have: 256 in a row of T_R8, 65536 in a square of each format of 16 bits.
#[test]
fn every_component() {
    let (mut g, mut both) = start(82);
    let [low, high] = [i16::MIN, i16::MAX];
    let conversions =
        [(0, 1, 0), (128, 1, 0), (0, 1, 8), (low, -1, 8), (high, low, 31), (-1, 3, 1), (77, 0, 0), (9, -1, 31), (low, high, 0)];
    each!(format in PAINTED, precision in 0..=1, (offset, scale, shift) in conversions => {
        let [channels, bytes, ..] = pixels::format(format).expect("a format");
        let height = if bytes == channels { 1 } else { 256 };
        let image = image(format, 256, height, 0, 0, 256 * bytes);
        // Component n of pixel i is i + n.
        let numbers = (0..256 * height).flat_map(|i| (i..i + channels).map(|number| (number as u16).to_le_bytes()));
        let lent: Vec<u8> = numbers.flat_map(|number| number.into_iter().take((bytes / channels) as usize)).collect();
        let layout = dense(256, height, channels, precision);
        let table = with_slot(layout, 3, [1, OWNER, 0, 0, 256, height]);
        let old = g.bytes(buffer_length(layout));
        both.paint(&table, [3, OWNER], image, Conversion { offset, scale, shift }, &lent, &old);
    });
    both.expect("components held: 0 1 2; parlour_paint: 0");
}

/// Pictures of components 254 and 255: half a step lies between 255 and the limit, so that each 255 is held, and no 254. Their number is counted as
/// they are put.
#[test]
fn held_components() {
    let (mut g, mut both) = start(87);
    each!(format in PAINTED, precision in 0..=1, _ in 0..60 => {
        let [width, height] = [g.among(1, 140), g.among(1, 3)];
        let p = Painting::valid(&mut g, format, width, height, precision);
        let [channels, bytes, ..] = pixels::format(format).expect("a format");
        let mut lent = g.bytes(p.pixels);
        let (odds, mut count) = (g.pick(&[0, 1, 2, 9]), 0);
        each!(y in 0..height, x in 0..width, n in 0..channels => {
            let held = odds != 0 && g.one_in(odds);
            count += u64::from(held);
            let at = pixels::position(p.image, x, y).expect("a pixel") as usize + (n * bytes / channels) as usize;
            lent[at] = 254 + u8::from(held);
            if bytes > channels {
                lent[at + 1] = 0;
            }
        });
        // 255 over 2, and 255 * 257 over 2, which is 65535 over 2.
        let conversion = Conversion { offset: 0, scale: [1, 257][precision as usize], shift: 1 };
        let (table, old) = (with_slot(p.layout, p.slot as usize, p.region), g.bytes(p.bytes));
        let (held, _) = both.paint(&table, [p.slot, p.id], p.image, conversion, &lent, &old);
        assert_eq!(held, Some(count), "{p:?}");
    });
    both.expect("components held: 0 1 2; parlour_paint: 0");
}

/// Each rule broken alone and with each later one: the first in the order is told.
#[test]
fn two_rules_broken_at_once() {
    let (mut g, mut both) = start(83);
    each!(first in 0..ORDER.len(), second in first..ORDER.len(), _ in 0..100 => {
        let [format, width] = [g.pick(&PAINTED), g.pick(&[1, 2, 3, 8, 17, 70])];
        let [height, precision] = [g.among(1, 4), g.among(0, 1)];
        let mut p = Painting::valid(&mut g, format, width, height, precision);
        p.break_rule(&mut g, second);
        if first != second {
            p.break_rule(&mut g, first);
        }
        both.painting(&mut g, &p);
        assert_eq!(number(&both.last), ORDER[first], "rules {first} and {second}: {p:?}");
    });
    both.expect(&PAINT.replace(" 0 1", " 1"));
}

/// Words at and beside their limits, unknown precisions, wrong ids, lengths beside the exact ones.
#[test]
fn damaged_paintings() {
    let (mut g, mut both) = start(84);
    for _ in 0..150_000 {
        let [format, precision] = [g.among(0, 16), if g.one_in(8) { g.pick(&PRECISIONS) } else { g.among(0, 1) }];
        let [width, height] = [g.pick(&[1, 2, 5, 16, 33]), g.among(1, 3)];
        let mut p = Painting::valid(&mut g, format, width, height, precision);
        let [exact, fit] = [pixel_length(p.image), buffer_length(p.layout)];
        p.layout = g.damaged(8, p.layout);
        p.image = g.damaged(8, p.image);
        g.damage(8, &mut p.region);
        g.damage(20, std::slice::from_mut(&mut p.conversion.shift));
        g.damage(20, std::slice::from_mut(&mut p.slot));
        if g.one_in(10) {
            p.id = g.pick(&IDS);
        }
        if g.one_in(5) {
            (p.pixels, p.bytes) = (g.length_near(exact), g.length_near(fit));
        }
        both.painting(&mut g, &p);
    }
    both.expect(&format!("components held: 0 1 2; {PAINT}"));
}

/// The readings that the request's words leave to a reader: a frame, its stall, the id that is given, an image, how many bytes of pixels and of
/// the cube, the answer.
#[test]
fn readings() {
    let (mut g, mut both) = start(85);
    let (frame, stall) = ([2, 2, 1, 0, 64, 128, 0], [1, 7, 0, 0, 1, 1]);
    let (gray, square) = ([0, 1, 1, 1, 0, 0, 0, 32], [0, 2, 2, 1, 0, 0, 0, 32]);
    let cases = [
        // T_R8 of one pixel needs one byte, not its line.
        (frame, stall, 7, gray, 1, 128, 0),
        (frame, stall, 7, gray, 0, 128, 30),
        // The last of 33 lines of almost 2^32 bytes: no sum wraps.
        (frame, stall, 7, [0, 1, 33, 1, 0, 0, 1024, 4294967264], 1, 128, 30),
        // The format's precision need not be the frame's.
        (frame, stall, 7, [3, 1, 1, 1, 1, 0, 0, 32], 2, 128, 0),
        ([2, 2, 1, 1, 64, 128, 0], stall, 7, gray, 1, 128, 0),
        ([2, 2, 0, 0, 64, 128, 0], stall, 7, gray, 1, 128, 29),
        ([2, 2, 4, 2, 64, 128, 0], stall, 7, gray, 1, 128, 29),
        ([2, 2, 1, 2, 64, 128, 0], stall, 7, [5, 1, 1, 1, 2, 0, 0, 32], 2, 128, 29),
        ([0, 2, 1, 2, 64, 128, 0], stall, 7, gray, 1, 128, 2),
        ([0, 2, 1, 1, 64, 128, 0], stall, 7, gray, 1, 128, 1),
        ([2, 2, 1, 0, 65, 128, 0], stall, 7, gray, 0, 128, 30),
        ([2, 2, 1, 0, 65, 128, 0], stall, 7, gray, 1, 128, 3),
        // An image of two by two for a stall of one by one.
        (frame, stall, 8, square, 34, 0, 25),
        (frame, stall, 7, square, 34, 0, 9),
        (frame, stall, 7, square, 33, 0, 30),
        (frame, [1, 7, 0, 0, 2, 2], 7, square, 34, 127, 5),
        (frame, [1, 7, 0, 0, 2, 2], 7, square, 34, 128, 0),
        // A stall that reaches out of the frame, and an image of its size.
        (frame, [1, 7, 1, 0, 2, 2], 7, square, 34, 128, 9),
        (frame, [0, 7, 0, 0, 1, 1], 0, square, 34, 0, 8),
    ];
    for (layout, words, id, image, pixels, bytes, answer) in cases {
        let table = with_slot(layout.into(), 4, words);
        let (pixels, old) = (g.bytes(pixels), vec![0xee; bytes]);
        both.paint(&table, [4, id], image.into(), Conversion { offset: 0, scale: 1, shift: 0 }, &pixels, &old);
        assert_eq!(number(&both.last), answer, "{layout:?} {words:?} {image:?}");
    }
    both.expect("components held: 0 1 2; parlour_paint: 0 1 2 3 5 8 9 25 29 30");
}

/// A whole frame of 640×480, and a picture of 8192 columns.
#[test]
fn large_pictures() {
    let (mut g, mut both) = start(86);
    each!((format, width, height) in [(12, 640, 480), (6, 8192, 2), (0, 8192, 3), (4, 1, 8192)], precision in 0..=1 => {
        let image = g.image(format, width, height);
        let layout = g.layout(width, height, image.channels, precision);
        let table = with_slot(layout, 0, [1, OWNER, 0, 0, width, height]);
        let (pixels, old) = (g.bytes(pixel_length(image)), g.bytes(buffer_length(layout)));
        both.paint(&table, [0, OWNER], image, g.conversion(), &pixels, &old);
    });
    both.expect("components held: 0 1 2; parlour_paint: 0");
}
