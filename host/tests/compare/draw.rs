//! A small generator of pseudorandom numbers, and the settings and lengths that the tests draw from it.

use crate::reference::elements::is_nan;
use crate::reference::regions::{self, SLOT};
use crate::reference::{cube, each, pixels};
use olsketina::{Conversion, ElementBox, Image, Layout, Table};

/// Words at and beside the limits.
#[rustfmt::skip]
pub const EDGES: [u32; 30] = [
    0, 1, 2, 3, 4, 5, 15, 16, 17, 31, 32, 33, 63, 64, 65, 96, 128, 256, 8191, 8192, 8193, 65535, 65536, 262144,
    (1 << 31) - 1, 1 << 31, (1 << 31) + 32, u32::MAX - 32, u32::MAX - 31, u32::MAX,
];

/// Precision codes, unknown ones among them.
pub const PRECISIONS: [u32; 7] = [0, 1, 2, 3, 4, 1 << 31, u32::MAX];

/// Owners' ids, most of them valid.
pub const IDS: [u32; 9] = [1, 2, 3, 40000, 65534, 65535, 0, 65536, u32::MAX];

/// The formats that can be painted, and the others.
pub const PAINTED: [u32; 14] = [0, 1, 2, 3, 4, 6, 7, 9, 10, 12, 13, 14, 15, 16];
pub const FLOATS: [u32; 3] = [5, 8, 11];

/// Elements at and beside the limits of int8, and past them.
const INT8_LIMITS: [i16; 6] = [128, -129, i16::MAX, i16::MIN, 127, -128];
const INT8_OUTSIDE: [i16; 8] = [128, -129, 255, 256, 384, -384, i16::MAX, i16::MIN];

/// Bit patterns of fp16: the NaN of least and of greatest fraction, and the infinities, 0x7c00 and 0xfc00; of either sign.
pub const NANS: [i16; 4] = [0x7c01, 0x7fff, -0x03ff, -0x0001];
const INFINITIES: [i16; 2] = [0x7c00, -0x0400];

/// Calls `take` with each copy of `base` in which two words, or one, are at the limits.
pub fn each_pair<const N: usize>(base: [u32; N], mut take: impl FnMut([u32; N])) {
    each!(first in 0..N, second in first..N, one in EDGES, other in EDGES => {
        let mut words = base;
        words[first] = one;
        words[second] = other;
        take(words);
    });
}

/// xorshift64*.
pub struct Generator {
    state: u64,
}

impl Generator {
    pub fn new(seed: u64) -> Generator {
        let mixed = seed.wrapping_add(1).wrapping_mul(0x9e37_79b9_7f4a_7c15);
        Generator { state: mixed.max(1) }
    }

    pub fn word(&mut self) -> u64 {
        self.state ^= self.state >> 12;
        self.state ^= self.state << 25;
        self.state ^= self.state >> 27;
        self.state.wrapping_mul(0x2545_f491_4f6c_dd1d)
    }

    /// A number below n, which is not 0.
    pub fn below(&mut self, n: u64) -> u64 {
        (self.word() >> 11) % n
    }

    /// An index of something so long.
    pub fn index(&mut self, length: usize) -> usize {
        self.below(length as u64) as usize
    }

    /// A number from low to high, both included.
    pub fn between(&mut self, low: i64, high: i64) -> i64 {
        low + self.below((high - low + 1) as u64) as i64
    }

    /// The same for words.
    pub fn among(&mut self, low: u32, high: u32) -> u32 {
        self.between(low.into(), high.into()) as u32
    }

    /// True once in n times.
    pub fn one_in(&mut self, n: u64) -> bool {
        self.below(n) == 0
    }

    pub fn pick<T: Copy>(&mut self, from: &[T]) -> T {
        from[self.index(from.len())]
    }

    pub fn bytes(&mut self, length: usize) -> Vec<u8> {
        let mut bytes: Vec<u8> = (0..length.div_ceil(8)).flat_map(|_| self.word().to_le_bytes()).collect();
        bytes.truncate(length);
        bytes
    }

    /// Elements of any 16-bit value.
    pub fn any_elements(&mut self, count: usize) -> Vec<i16> {
        (0..count).map(|_| (self.word() >> 40) as i16).collect()
    }

    /// Elements that a precision takes, the ends of its range among them; of fp16 about one in 32 is an infinity.
    pub fn elements(&mut self, precision: u32, count: usize) -> Vec<i16> {
        let held = |element| match precision {
            0 => i16::from(element as i8),
            // NaN becomes the infinity of its sign.
            2 if is_nan(element) => INFINITIES[usize::from(element < 0)],
            _ => element,
        };
        self.any_elements(count).into_iter().map(held).collect()
    }

    /// A bit pattern of fp16 that is NaN: one of the four at the ends, or any.
    pub fn nan(&mut self) -> i16 {
        let pattern = 0x7c00 | self.among(1, 0x03ff) as i16;
        let any = if self.one_in(2) { pattern } else { pattern | i16::MIN };
        self.pick(&[any, any, NANS[0], NANS[1], NANS[2], NANS[3]])
    }

    /// An element that a precision does not take; of int16, which takes all, one that another precision does not take.
    pub fn untaken(&mut self, precision: u32) -> i16 {
        let [int8, fp16] = [self.pick(&INT8_OUTSIDE), self.nan()];
        match precision {
            0 => int8,
            2 => fp16,
            _ => self.pick(&[int8, fp16]),
        }
    }

    /// An element at or beside the limits of what a precision takes; of int16 of what the others take.
    pub fn at_limit(&mut self, precision: u32) -> i16 {
        let int8 = self.pick(&INT8_LIMITS);
        let nan = self.nan();
        let fp16 = self.pick(&[nan, nan, nan, INFINITIES[0], INFINITIES[1], 0x7bff, -0x0401, 0, i16::MIN]);
        match precision {
            0 => int8,
            2 => fp16,
            _ => self.pick(&[int8, fp16]),
        }
    }

    /// A valid layout: its lines and surfaces may have gaps after them, and its start may not be 0.
    pub fn layout(&mut self, width: u32, height: u32, channels: u32, precision: u32) -> Layout {
        let mut gap = || 32 * self.pick(&[0, 0, 0, 1, 2, 5]);
        let line = 32 * width + gap();
        let surface = (height - 1) * line + 32 * width + gap();
        Layout { width, height, channels, precision, line, surface, start: gap() }
    }

    /// How many channels a cube has: often as many as a picture.
    pub fn channels(&mut self) -> u32 {
        let any = self.among(1, 70);
        self.pick(&[1, 4, any])
    }

    /// A valid layout of a few columns, rows and channels.
    pub fn small_layout(&mut self) -> Layout {
        let [width, height, channels, precision] = [self.among(1, 12), self.among(1, 4), self.among(1, 40), self.among(0, 2)];
        self.layout(width, height, channels, precision)
    }

    /// A valid image: any X offset of its format; its lines may have gaps after them, and its start may not be 0.
    pub fn image(&mut self, format: u32, width: u32, height: u32) -> Image {
        let [_, bytes, _, greatest] = pixels::format(format).expect("a format");
        let x_offset = self.among(0, greatest);
        let mut gap = || 32 * self.pick(&[0, 0, 0, 1, 2, 5]);
        let line = ((x_offset + width) * bytes).next_multiple_of(32) + gap();
        image(format, width, height, x_offset, gap(), line)
    }

    /// A valid conversion: most often of 8 or 16 bits to about as many.
    pub fn conversion(&mut self) -> Conversion {
        let offset = self.pick(&[0, 128, 512, 2048, i16::MIN, i16::MAX]);
        let conversion = Conversion { offset, scale: self.pick(&[1, 1, -1, 2, 3, 255]), shift: self.among(0, 9) };
        if self.one_in(3) {
            return Conversion { offset: self.word() as i16, scale: self.word() as i16, shift: self.among(0, 31) };
        }
        conversion
    }

    /// The setting; once in `odds` times with one to three words changed to limits, or to a little beside what they were.
    pub fn damaged<const N: usize, S: Into<[u32; N]> + From<[u32; N]>>(&mut self, odds: u64, setting: S) -> S {
        let mut words: [u32; N] = setting.into();
        self.damage(odds, &mut words);
        words.into()
    }

    pub fn damage(&mut self, odds: u64, words: &mut [u32]) {
        let changes = if self.one_in(odds) { self.among(1, 3) } else { 0 };
        for _ in 0..changes {
            let at = self.index(words.len());
            words[at] = match self.below(4) {
                0 => self.pick(&EDGES),
                1 => words[at].wrapping_add(self.pick(&[1, 32, u32::MAX, u32::MAX - 31])),
                2 => self.pick(&[0, 1, 2, 3]),
                _ => self.pick(&[8192, 8193, 1 << 31, u32::MAX - 31, u32::MAX]),
            };
        }
    }

    /// Breaks a rule of a valid layout, of 1 to 4 by its index in that order, and none before it.
    pub fn break_layout(&mut self, rule: usize, layout: &mut Layout) {
        let odd = self.pick(&[1, 16, 31]);
        match rule {
            0 => {
                let size = self.pick(&[0, 8193, 1 << 31, u32::MAX]);
                *[&mut layout.width, &mut layout.height, &mut layout.channels][self.index(3)] = size;
            }
            1 => layout.precision = self.pick(&PRECISIONS[3..]),
            2 if self.one_in(2) => layout.line = self.pick(&[layout.line + odd, 32 * layout.width - 32, 0]),
            2 => layout.surface = self.pick(&[layout.surface + odd, (layout.height - 1) * layout.line + 32 * layout.width - 32]),
            _ => layout.start += odd,
        }
    }

    /// A table of any words: those of the layout, damaged once in `odds` times; placed words that are not 0 or 1; owners that no placing takes; regions
    /// inside the cube and outside, empty ones, sums past 32 bits.
    pub fn any_table(&mut self, layout: Layout, odds: u64) -> Table {
        let mut table = regions::empty(self.damaged(odds, layout));
        for slot in 0..16 {
            let placed = self.pick(&[0, 0, 0, 1, 2, 1 << 31, u32::MAX]);
            let ElementBox { column, row, columns, rows, .. } = self.inner_box(1, layout.height, layout.width);
            let mut words = [placed, self.pick(&IDS), column, row, columns, rows];
            if self.one_in(3) {
                words[2..].iter_mut().for_each(|word| *word = if self.one_in(2) { self.pick(&EDGES) } else { *word });
            }
            table = regions::with_slot(&table, slot, words);
        }
        table
    }

    /// The exact length most often, else one that is short, longer or 0.
    pub fn length_near(&mut self, exact: usize) -> usize {
        let [one_short, atom_short] = [1, 32].map(|short| exact.saturating_sub(short));
        let other = self.pick(&[one_short, exact + 1, 0, exact + 77, atom_short, exact / 2]);
        self.pick(&[exact, other])
    }

    /// Once in `odds` times puts elements that a precision does not take at one to three indices.
    pub fn spoil(&mut self, odds: u64, precision: u32, elements: &mut [i16]) {
        let changes = if !elements.is_empty() && self.one_in(odds) { self.among(1, 3) } else { 0 };
        for _ in 0..changes {
            let any = self.index(elements.len());
            let at = self.pick(&[0, elements.len() - 1, any, any]);
            elements[at] = self.untaken(precision);
        }
    }

    /// A box inside a cube of these sizes.
    pub fn inner_box(&mut self, channels: u32, rows: u32, columns: u32) -> ElementBox {
        let spans = [channels, rows, columns].map(|size| {
            let first = self.among(0, size - 1);
            [first, self.among(1, size - first)]
        });
        let [[channel, channels], [row, rows], [column, columns]] = spans;
        ElementBox { channel, row, column, channels, rows, columns }
    }
}

/// A layout without gaps, from byte 0 on.
pub fn dense(width: u32, height: u32, channels: u32, precision: u32) -> Layout {
    Layout { width, height, channels, precision, line: 32 * width, surface: 32 * width * height, start: 0 }
}

/// How long a buffer a cube needs: start plus extent. Of a layout that is not valid, its start.
pub fn buffer_length(layout: Layout) -> usize {
    layout.start as usize + cube::extent(layout).unwrap_or(0) as usize
}

/// An image in its format's own words.
pub fn image(format: u32, width: u32, height: u32, x_offset: u32, start: u32, line: u32) -> Image {
    let [channels, _, precision, _] = pixels::format(format).expect("a format");
    Image { format, width, height, channels, precision, x_offset, start, line }
}

/// How many bytes of pixels an image needs: up to the end of its last pixel. Of an image that is not valid, any number.
pub fn pixel_length(image: Image) -> usize {
    let [width, height, offset, start, line] = [image.width, image.height, image.x_offset, image.start, image.line].map(u64::from);
    let [_, bytes, ..] = pixels::format(image.format).unwrap_or_default().map(u64::from);
    (start + (height.max(1) - 1) * line + (offset + width) * bytes) as usize
}

pub fn product(sizes: &[u32]) -> usize {
    sizes.iter().fold(1, |count: usize, &size| count.saturating_mul(size as usize))
}

/// How many elements a cube has.
pub fn element_count(layout: Layout) -> usize {
    product(&[layout.width, layout.height, layout.channels])
}

/// The table of a layout, any words, with one slot's words.
pub fn with_slot(layout: Layout, slot: usize, words: [u32; SLOT]) -> Table {
    regions::with_slot(&regions::empty(layout), slot, words)
}

/// The box of all elements.
pub fn whole(layout: Layout) -> ElementBox {
    [0, 0, 0, layout.channels, layout.height, layout.width].into()
}
