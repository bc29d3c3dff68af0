//! The calls on settings and regions, each beside the reference's.

use crate::both::{compare, same, Both};
use crate::draw::{buffer_length, product, with_slot, Generator, EDGES, IDS};
use crate::reference::{cube, parlour, pixels, regions, weights};
use olsketina::{Conversion, ElementBox, Image, Layout, Region, Table, Weights};

/// A setting with positions, and all but an image's with elements and packed bytes.
#[derive(Clone, Copy, Debug)]
#[allow(clippy::large_enum_variant)]
pub enum Setting {
    Cube(Layout),
    Kernels(Weights),
    Pixels(Image),
    /// A box, counted from the corner of the region in a slot; then the id that is given.
    Part(Table, u32, u32, ElementBox),
}
pub use Setting::{Cube, Kernels, Part, Pixels};

impl Setting {
    /// How many there are of each index.
    pub fn sizes(self) -> Vec<u32> {
        match self {
            Cube(of) => vec![of.channels, of.height, of.width],
            Kernels(of) => vec![of.kernels, of.channels, of.rows, of.columns],
            Pixels(of) => vec![of.width, of.height],
            Part(_, _, _, of) => vec![of.channels, of.rows, of.columns],
        }
    }

    /// The precision, and the exact number of elements and bytes; of a setting that is not valid, any numbers.
    pub fn needs(self) -> (u32, usize, usize) {
        let (precision, bytes) = match self {
            Cube(of) => (of.precision, buffer_length(of)),
            Kernels(of) => (of.precision, weights::extent(of).unwrap_or(0) as usize),
            Pixels(of) => (of.precision, 0),
            Part(table, ..) => (table.layout().precision, buffer_length(table.layout())),
        };
        (precision, product(&self.sizes()), bytes)
    }
}

/// All that the calls on weights answer, and those on a box of a whole cube.
pub const WEIGHTS: &str =
    "weights_count: 0 1 2; weights_extent: 0 1 2; weights_pack: 0 1 2 5 6 7 26; weights_position: 0 1 2 9; weights_unpack: 0 1 2 5 6";
pub const BOXES: &str = "regions_edit: 0 1 2 3 4 5 6 7 9 25 26; regions_read: 0 1 2 3 4 5 6 9 25";

/// The owner of the regions that are placed by hand.
pub const OWNER: u32 = 7;

/// A box of a layout's cube, of any words: the region in slot 15 is the whole cube.
pub fn in_cube(layout: Layout, part: ElementBox) -> Setting {
    Part(with_slot(layout, 15, [1, OWNER, 0, 0, layout.width, layout.height]), 15, OWNER, part)
}

/// The same; now and then another id is given.
pub fn in_cube_by(g: &mut Generator, layout: Layout, part: ElementBox) -> Setting {
    let id = if g.one_in(10) { g.pick(&IDS) } else { OWNER };
    match in_cube(layout, part) {
        Part(table, slot, _, part) => Part(table, slot, id, part),
        other => other,
    }
}

impl Both {
    /// The calls that take a setting alone.
    pub fn check(&mut self, setting: Setting) {
        match setting {
            Cube(of) => {
                compare!(self, "layout_check", Layout::check, cube::check, of);
                compare!(self, "layout_extent", Layout::extent, cube::extent, of);
            }
            Kernels(of) => {
                compare!(self, "weights_count", Weights::count, weights::count, of);
                compare!(self, "weights_extent", Weights::extent, weights::extent, of);
            }
            Pixels(of) => drop(compare!(self, "pixels_setting", Image::check, pixels::check, of)),
            Part(table, slot, id, _) => drop(compare!(self, "regions_count", Table::count, regions::count, &table, slot, id)),
        }
    }

    pub fn position(&mut self, setting: Setting, at: &[u32]) {
        match (setting, at) {
            (Cube(of), &[c, h, w]) => compare!(self, "cube_position", Layout::position, cube::position, of, c, h, w),
            (Kernels(of), &[k, c, r, s]) => compare!(self, "weights_position", Weights::position, weights::position, of, k, c, r, s),
            (Pixels(of), &[x, y]) => compare!(self, "pixels_position", Image::position, pixels::position, of, x, y),
            (Part(table, slot, id, _), &[c, h, w]) => {
                compare!(self, "regions_position", Table::position, regions::position, &table, slot, id, c, h, w)
            }
            _ => panic!("no position {at:?} of {setting:?}"),
        };
    }

    /// Packs, or edits; gives the bytes afterwards.
    pub fn write(&mut self, setting: Setting, elements: &[i16], old: &[u8]) -> Vec<u8> {
        let (_, left) = match setting {
            Cube(of) => compare!(self, "cube_pack", Layout::pack, cube::pack, of; elements, old),
            Kernels(of) => compare!(self, "weights_pack", Weights::pack, weights::pack, of; elements, old),
            Part(table, slot, id, part) => {
                compare!(self, "regions_edit", Table::edit, regions::edit, &table, slot, id, part; elements, old)
            }
            Pixels(_) => panic!("{setting:?} has no elements"),
        };
        left
    }

    /// Unpacks, or reads; gives the elements afterwards.
    pub fn read(&mut self, setting: Setting, bytes: &[u8], old: &[i16]) -> Vec<i16> {
        let (_, left) = match setting {
            Cube(of) => compare!(self, "cube_unpack", Layout::unpack, cube::unpack, of; bytes, old),
            Kernels(of) => compare!(self, "weights_unpack", Weights::unpack, weights::unpack, of; bytes, old),
            Part(table, slot, id, part) => compare!(self, "regions_read", Table::read, regions::read, &table, slot, id, part; bytes, old),
            Pixels(_) => panic!("{setting:?} has no elements"),
        };
        left
    }

    pub fn empty(&self, layout: Layout) -> Table {
        let table = Table::empty(layout);
        same("regions_empty", table.words(), regions::empty(layout).words(), format_args!("{layout:?}"));
        table
    }

    /// Whether that was accepted.
    pub fn place(&mut self, table: &mut Table, slot: u32, id: u32, region: impl Into<Region>) -> bool {
        let (before, mut plain, region) = (*table, *table, region.into());
        let case = format_args!("slot {slot} id {id} {region:?} {before:?}");
        self.same("regions_place", table.place(slot, id, region), regions::place(&mut plain, slot, id, region), case);
        same("table", table.words(), plain.words(), case);
        self.last.is_ok()
    }

    /// Releases a region; gives the bytes afterwards.
    pub fn release(&mut self, table: &mut Table, slot: u32, id: u32, old: &[u8]) -> Vec<u8> {
        let (before, mut plain) = (*table, *table);
        let case = format_args!("slot {slot} id {id} {before:?}, lent {} to write", old.len());
        let release = |to: &mut [u8]| table.release(slot, id, to);
        let (_, left) = self.lend("regions_release", old, case, release, |to| regions::release(&mut plain, slot, id, to));
        same("table", table.words(), plain.words(), case);
        left
    }

    /// Paints a region; gives how many components were held, if it was accepted, and the bytes afterwards. Counts where none (0), some (1) or all
    /// (2) were held.
    pub fn paint(
        &mut self, table: &Table, [slot, id]: [u32; 2], image: Image, conversion: Conversion, pixels: &[u8], old: &[u8],
    ) -> (Option<u64>, Vec<u8>) {
        let (held, left) = compare!(self, "parlour_paint", Table::paint, parlour::paint, table, slot, id, image, conversion; pixels, old);
        if let Some(held) = held {
            let all = held as usize == product(&[image.channels, image.height, image.width]);
            self.note("components held", u32::from(held > 0) + u32::from(all), 1);
        }
        (held, left)
    }

    pub fn write_and_read(&mut self, setting: Setting, elements: &[i16], bytes: &[u8]) {
        self.write(setting, elements, bytes);
        self.read(setting, bytes, elements);
    }

    /// Writes over old contents and reads again, both accepted.
    pub fn trip(&mut self, g: &mut Generator, setting: Setting) {
        let (precision, count, length) = setting.needs();
        let elements = g.elements(precision, count);
        let longer = g.pick(&[0, 0, 1, 31, 64, 128]);
        let old = g.bytes(length + longer);
        let written = self.write(setting, &elements, &old);
        let blank = g.any_elements(count);
        assert_eq!(self.read(setting, &written, &blank), elements, "read after write: {setting:?}");
        self.read(setting, &old, &blank);
    }

    /// Writes and reads with nothing, with as much as `fit` needs, which may be the setting before it was damaged, then with lengths beside that
    /// and elements that are not taken; at most so many elements and bytes.
    pub fn lengths(&mut self, g: &mut Generator, fit: Setting, setting: Setting, most: usize) {
        let ((precision, ..), (_, count, length)) = (setting.needs(), fit.needs());
        let [count, length] = [count.min(most), length.min(most)];
        let near = [g.length_near(count), g.length_near(length)];
        let mut elements = g.elements(precision, count.max(near[0]));
        let bytes = g.bytes(length.max(near[1]));
        self.write_and_read(setting, &[], &[]);
        self.write_and_read(setting, &elements[..count], &bytes[..length]);
        g.spoil(3, precision, &mut elements);
        self.write_and_read(setting, &elements[..near[0]], &bytes[..near[1]]);
    }

    /// Checks a setting; then positions in it, at its last index and past it.
    pub fn checks(&mut self, g: &mut Generator, setting: Setting) {
        self.check(setting);
        let sizes = setting.sizes();
        let inside: Vec<u32> = sizes.iter().map(|&size| g.among(0, size.max(1) - 1)).collect();
        let last: Vec<u32> = sizes.iter().map(|size| size.wrapping_sub(1)).collect();
        self.position(setting, &inside);
        self.position(setting, &last);
        for _ in 0..2 {
            let (mut past, at, edge) = (last.clone(), g.index(sizes.len()), g.pick(&EDGES));
            past[at] = g.pick(&[sizes[at], edge, 8192, u32::MAX]);
            self.position(setting, &past);
        }
    }
}
