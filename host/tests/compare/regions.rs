//! Regions of a cube: lists of calls on one table and buffer, beside the plain picture too, and tables of any words.

use crate::both::{number, same, start, Both};
use crate::calls::{Cube, Part, OWNER};
use crate::draw::{buffer_length, element_count, pixel_length, product, with_slot, Generator, EDGES, FLOATS, IDS, PAINTED};
use crate::plain_picture::PlainPicture;
use crate::reference::elements::is_nan;
use crate::reference::{each, parlour};
use olsketina::{Answer, Conversion, ElementBox, Image, Layout, Region, Table};
use std::fmt::Debug;

/// A table and a buffer, alike on both sides after every call, and the cases compared. The plain picture, where there is one, is fed each call.
struct Session {
    table: Table,
    buffer: Vec<u8>,
    /// How much of the buffer the next calls are lent.
    lent: usize,
    picture: Option<PlainPicture>,
    both: Both,
}

fn session(seed: u64) -> (Generator, Session) {
    let (g, both) = start(seed);
    (g, Session { table: Table::from_words([0; Table::WORDS]), buffer: Vec::new(), lent: 0, picture: None, both })
}

impl Session {
    /// Goes on with another table and buffer.
    fn set(&mut self, table: Table, buffer: Vec<u8>) {
        (self.table, self.lent, self.buffer, self.picture) = (table, buffer.len(), buffer, None);
    }

    /// Goes on with an empty table, and the elements packed over a buffer, beside the plain picture. The layout is valid.
    fn pack(&mut self, layout: Layout, elements: Vec<i16>, before: Vec<u8>) {
        let (table, buffer) = (self.both.empty(layout), self.both.write(Cube(layout), &elements, &before));
        self.set(table, buffer);
        self.picture = Some(PlainPicture { layout, before, elements, slots: [None; 16] });
    }

    /// After a call that gave an answer: makes it on the plain picture, with as much of the buffer; the answers agree, and the buffer is what it
    /// must be. No fp16 picture has NaN then, nor has its buffer: none was packed.
    fn beside<V: PartialEq + Debug>(
        &mut self, call: &'static str, answer: Answer<V>, plain: impl FnOnce(&mut PlainPicture, usize) -> Answer<V>,
    ) {
        let Some(picture) = &mut self.picture else { return };
        let case = format_args!("{:?}", self.table);
        self.both.same(call, answer, plain(picture, self.lent), case);
        if picture.layout.precision == 2 {
            let mut unpacked = vec![0; picture.elements.len()];
            assert_eq!(picture.layout.unpack(&self.buffer, &mut unpacked), Ok(()), "{case}");
            for elements in [&unpacked, &picture.elements] {
                assert!(!elements.iter().any(|&element| is_nan(element)), "{call}: a picture has NaN; case: {case}");
            }
            self.both.note("fp16 pictures", 0, 1);
        }
        same("buffer beside the plain picture", &self.buffer, &picture.buffer(), case);
    }

    fn place(&mut self, slot: u32, id: u32, region: impl Into<Region>) -> bool {
        let region = region.into();
        self.both.place(&mut self.table, slot, id, region);
        self.beside("place beside the plain picture", self.both.last, |picture, _| picture.place(slot, id, region));
        self.both.last.is_ok()
    }

    /// Writes a box; whether that was accepted.
    fn edit(&mut self, slot: u32, id: u32, part: ElementBox, elements: &[i16]) -> bool {
        let lent = &mut self.buffer[..self.lent];
        lent.copy_from_slice(&self.both.write(Part(self.table, slot, id, part), elements, lent));
        self.beside("edit beside the plain picture", self.both.last, |picture, bytes| picture.edit(slot, id, part, elements, bytes));
        self.both.last.is_ok()
    }

    /// Reads over old elements; gives the elements afterwards.
    fn read(&mut self, slot: u32, id: u32, part: ElementBox, old: &[i16]) -> Vec<i16> {
        let left = self.both.read(Part(self.table, slot, id, part), &self.buffer[..self.lent], old);
        let mut plain = old.to_vec();
        self.beside("read beside the plain picture", self.both.last, |picture, bytes| {
            let answer = picture.read(slot, id, part, &mut plain, bytes);
            same("elements beside the plain picture", &left, &plain, format_args!("slot {slot} id {id} {part:?}"));
            answer
        });
        left
    }

    /// Releases a region; whether that was accepted.
    fn release(&mut self, slot: u32, id: u32) -> bool {
        let lent = &mut self.buffer[..self.lent];
        lent.copy_from_slice(&self.both.release(&mut self.table, slot, id, lent));
        self.beside("release beside the plain picture", self.both.last, |picture, bytes| picture.release(slot, id, bytes));
        self.both.last.is_ok()
    }

    /// Releases a region; another owner may then be placed in its slot and on its room, and reads zeros there.
    fn next_owner(&mut self, g: &mut Generator, slot: u32, id: u32, part: ElementBox, old: &[i16]) {
        let (before, next) = (self.table, g.among(1, 65535));
        if self.release(slot, id) && g.one_in(2) {
            let (_, region) = before.region(slot).expect("it was placed");
            if self.place(slot, next, region) {
                let left = self.read(slot, next, part, old);
                assert!(self.both.last.is_err() || left.iter().all(|&element| element == 0), "read after release: slot {slot} {part:?}");
            }
        }
    }

    /// Paints a region; whether that was accepted.
    fn paint(&mut self, slot: u32, id: u32, image: Image, conversion: Conversion, pixels: &[u8]) -> bool {
        let lent = &mut self.buffer[..self.lent];
        let (held, left) = self.both.paint(&self.table, [slot, id], image, conversion, pixels, lent);
        lent.copy_from_slice(&left);
        let answer = self.both.last.map(|()| held.expect("it was accepted"));
        self.beside("paint beside the plain picture", answer, |picture, bytes| picture.paint(slot, id, image, conversion, pixels, bytes));
        self.both.last.is_ok()
    }

    /// Paints a region with a picture that most often fits; then reads what it became.
    fn any_picture(&mut self, g: &mut Generator, slot: u32, id: u32) {
        let layout = self.table.layout();
        let (_, Region { columns, rows, .. }) = self.table.region(slot).unwrap_or_default();
        let format = match g.below(10) {
            0 => g.pick(&PAINTED),
            1 => g.pick(&FLOATS),
            _ if layout.channels == 1 => g.pick(&PAINTED[..5]),
            _ => g.pick(&PAINTED[5..]),
        };
        let [width, height] = [columns, rows].map(|size| if g.one_in(30) { g.among(1, 40) } else { size.clamp(1, 200) });
        let image = g.image(format, width, height);
        let exact = pixel_length(image);
        let image = g.damaged(8, image);
        let mut conversion = g.conversion();
        g.damage(20, std::slice::from_mut(&mut conversion.shift));
        let given = if g.one_in(8) { g.length_near(exact) } else { exact };
        let pixels = g.bytes(given);
        if self.paint(slot, id, image, conversion, &pixels) {
            let part = [0, 0, 0, layout.channels, rows, columns].into();
            let elements = parlour::elements(image, conversion, layout.precision, &pixels);
            let old = g.any_elements(elements.len());
            assert_eq!(self.read(slot, id, part, &old), elements, "read after paint: slot {slot} {image:?}");
        }
    }

    /// The id that a call on a slot gives: most often the owner's.
    fn any_id(&mut self, g: &mut Generator, slot: u32) -> u32 {
        let (owner, _) = self.table.region(slot).unwrap_or((g.pick(&IDS), Region::default()));
        match g.below(24) {
            0 => g.pick(&IDS),
            1 => owner.wrapping_add(g.pick(&[1, 65536, u32::MAX])),
            _ => owner,
        }
    }

    /// One call of any kind, refused now and then.
    fn any_call(&mut self, g: &mut Generator) {
        let layout = self.table.layout();
        let placed: Vec<u32> = (0..16).filter(|&slot| self.table.region(slot).is_some()).collect();
        let call = g.below(15);
        let slot = match g.below(16) {
            0 => g.pick(&[16, 17, 1 << 31, u32::MAX]),
            1..=3 => g.among(0, 15),
            _ if call > 2 && !placed.is_empty() => g.pick(&placed),
            _ => g.among(0, 15),
        };
        if call <= 2 {
            let [width, height] = [layout.width, layout.height].map(|size| size.clamp(1, 200));
            let ElementBox { column, row, columns, rows, .. } = g.inner_box(1, height, width);
            let region = [column, row, columns.min(g.among(1, width)), rows.min(g.among(1, height))];
            let id = if g.one_in(12) { g.pick(&IDS) } else { g.among(1, 65535) };
            self.place(slot, id, g.damaged(6, Region::from(region)));
            return;
        }
        let id = self.any_id(g, slot);
        // A byte short, a buffer refuses edits, reads, releases and paintings, and nothing else.
        let short = self.picture.is_some() && g.one_in(20);
        self.lent = if short { buffer_length(layout) - 1 } else { self.buffer.len() };
        let (_, Region { columns, rows, .. }) = self.table.region(slot).unwrap_or_default();
        let [channels, rows, columns] = [layout.channels, rows, columns].map(|size| size.clamp(1, 130));
        let part = g.inner_box(channels, rows, columns);
        let part = g.damaged(8, part);
        let count = product(&[part.channels, part.rows, part.columns]).min(50000);
        let given = if g.one_in(8) { g.length_near(count) } else { count };
        let old = g.any_elements(given);
        match call {
            3..=6 => {
                let mut elements = g.elements(layout.precision, given);
                g.spoil(10, layout.precision, &mut elements);
                if self.edit(slot, id, part, &elements) {
                    assert_eq!(self.read(slot, id, part, &old), elements, "read after edit: slot {slot} {part:?}");
                }
            }
            7..=8 => drop(self.read(slot, id, part, &old)),
            9 => self.both.position(Part(self.table, slot, id, part), &[part.channel, part.row, part.column]),
            10 => self.both.check(Part(self.table, slot, id, part)),
            11..=13 => self.any_picture(g, slot, id),
            _ => self.next_owner(g, slot, id, part, &old),
        }
    }
}

/// What the calls of a list answer.
const LISTS: &str = "components held: 0 1 2; parlour_paint: 0 1 2 3 4 5 8 9 16 19 20 21 22 25 29 30; regions_count: 0 1 2 3 4 8 9 25; \
    regions_edit: 0 1 2 3 4 5 6 7 8 9 25 26; regions_place: 0 1 2 3 4 8 9 10 25; \
    regions_position: 0 1 2 3 4 8 9 25; regions_read: 0 1 2 3 4 5 6 8 9 25; regions_release: 0 1 2 3 4 5 8 9 25";

#[test]
fn lists_of_calls() {
    let (mut g, mut session) = session(20);
    for round in 0..5500 {
        let width = if round % 25 == 0 { g.among(120, 200) } else { g.among(1, 100) };
        let [height, channels, precision] = [g.among(1, 5), g.channels(), g.among(0, 2)];
        let layout = g.layout(width, height, channels, precision);
        let exact = buffer_length(layout);
        let length = if round % 10 == 0 { g.length_near(exact) } else { exact };
        let table = session.both.empty(g.damaged(11, layout));
        session.set(table, g.bytes(length));
        if round % 2 == 0 {
            // An early region, so that the list has something to edit.
            let [columns, rows] = [g.among(1, width), g.among(1, height)];
            session.place(0, OWNER, [width - columns, height - rows, columns, rows]);
        }
        (0..40).for_each(|_| session.any_call(&mut g));
    }
    // The regions that placings take lie inside.
    session
        .both
        .expect(&LISTS.replace("count: 0 1 2 3 4 8 9", "count: 0 1 2 3 4 8").replace("release: 0 1 2 3 4 5 8 9", "release: 0 1 2 3 4 5 8"));
}

#[test]
fn lists_of_calls_beside_the_plain_picture() {
    let (mut g, mut session) = session(30);
    for _ in 0..4200 {
        let [width, height, channels, precision] = [g.among(1, 40), g.among(1, 5), g.channels(), g.among(0, 2)];
        let layout = g.layout(width, height, channels, precision);
        let longer = g.pick(&[0, 1, 40]);
        session.pack(layout, g.elements(precision, element_count(layout)), g.bytes(buffer_length(layout) + longer));
        (0..40).for_each(|_| session.any_call(&mut g));
    }
    session.both.expect(
        "components held: 0 1 2; cube_pack: 0; edit beside the plain picture: 0 5 6 7 8 9 25 26; fp16 pictures: 0; \
         paint beside the plain picture: 0 1 2 5 8 9 16 19 20 21 22 25 29 30; parlour_paint: 0 1 2 5 8 9 16 19 20 21 22 25 29 30; \
         place beside the plain picture: 0 8 9 10 25; \
         read beside the plain picture: 0 5 6 8 9 25; regions_count: 0 8 25; regions_edit: 0 5 6 7 8 9 25 26; \
         regions_place: 0 8 9 10 25; regions_position: 0 8 9 25; regions_read: 0 5 6 8 9 25; regions_release: 0 5 8 25; \
         release beside the plain picture: 0 5 8 25",
    );
}

#[test]
fn tables_of_any_words() {
    let (mut g, mut session) = session(21);
    for _ in 0..15000 {
        let layout = Layout { channels: g.channels(), ..g.small_layout() };
        let length = g.length_near(buffer_length(layout));
        session.set(g.any_table(layout, 5), g.bytes(length));
        (0..12).for_each(|_| session.any_call(&mut g));
    }
    session.both.expect(LISTS);
}

/// The scope paper's frame.
const FRAME: [u32; 7] = [3, 2, 40, 0, 128, 256, 0];

/// Every pair of rectangles in a small cube, the second one also beside it.
#[test]
fn overlap_of_every_pair() {
    let (_, mut both) = start(26);
    each!(column in 0..4, row in 0..3, columns in 1..=4 - column, rows in 1..=3 - row, second in 0..5 * 4 * 6 * 5 => {
        let slot = second % 15;
        let other = if slot < 7 { 15 } else { 2 };
        let mut table = with_slot([4, 3, 2, 0, 128, 384, 0].into(), other, [1, OWNER, column, row, columns, rows]);
        both.place(&mut table, slot, OWNER, [second % 5, second / 5 % 4, second / 20 % 6, second / 120]);
    });
    both.expect("regions_place: 0 9 10");
}

/// A region already placed with words at the limits, and a placing inside the cube.
#[test]
fn overlap_without_wrapping() {
    let (_, mut both) = start(27);
    let words = [0, 1, 2, 3, 4, 1 << 31, u32::MAX - 1, u32::MAX];
    each!(column in words, row in words, columns in words, rows in words, placed in [0, 1, 2, u32::MAX] => {
        let table = with_slot(FRAME.into(), 0, [placed, OWNER, column, row, columns, rows]);
        both.place(&mut table.clone(), 9, OWNER, [1, 1, 1, 1]);
        both.place(&mut table.clone(), 1, OWNER, [0, 0, 3, 1]);
        let whole = Part(table, 0, OWNER, ElementBox::default());
        both.check(whole);
        both.position(whole, &[0, 0, 0]);
        both.release(&mut table.clone(), 0, OWNER, &[9; 480]);
    });
    both.expect("regions_count: 0 8 9; regions_place: 0 10; regions_position: 0 8 9; regions_release: 0 8 9");
}

/// The readings that the paper's words leave to a reader, each with its answer: of a placing beside words of slot 0, of an edit of slot 0, and of
/// calls with an id on a table whose slot 0 has an owner by hand.
#[test]
fn readings() {
    let (_, mut both) = start(28);
    let far = u32::MAX;
    let places = [
        ([1, 1, far, 0, 4, 2], 1, 1, [0, 0, 1, 1], 0),
        ([1, 1, 0, 0, far, far], 1, 1, [0, 0, 1, 1], 10),
        ([1, 1, 0, 0, 0, 9], 1, 1, [0, 0, 1, 1], 0),
        ([1, 1, far, 0, 4, 2], 0, 1, [0, 0, 1, 1], 8),
        ([0, 0, 0, 0, 3, 2], 1, 1, [0, 0, 1, 1], 0),
        ([0; 6], 1, 1, [0, 0, 0, 1], 9),
        ([0; 6], 1, 1, [0, 0, 1, 0], 9),
        ([1, 1, 0, 0, 1, 1], 0, 0, [0, 0, 1, 1], 25),
        ([0; 6], 16, 65536, [0, 0, 0, 1], 25),
        ([0; 6], 16, 65535, [0, 0, 0, 1], 8),
        ([1, 70000, 0, 0, 1, 1], 1, 65535, [1, 1, 1, 1], 0),
    ];
    for (words, slot, id, region, answer) in places {
        both.place(&mut with_slot(FRAME.into(), 0, words), slot, id, region);
        assert_eq!(number(&both.last), answer, "{words:?}");
    }
    let odd = [3, 2, 40, 0, 128, 256, 1];
    let edits: [(_, _, _, _, &[i16], _, _); 10] = [
        (FRAME, [1, 1, 0, 0, 2, 2], 1, [0, 0, 0, 1, 1, 1], &[1], 479, (5, 0)),
        (FRAME, [1, 1, 0, 0, 2, 2], 1, [1, 1, 0, 1, 1, 2], &[0, 200], 480, (7, 1)),
        (FRAME, [1, 1, 0, 0, 2, 2], 1, [far, 0, 0, 2, 1, 1], &[1, 2], 480, (9, 0)),
        (FRAME, [1, 1, 0, 0, 4, 2], 1, [0, 0, 0, 1, 1, 1], &[1], 480, (9, 0)),
        (odd, [0; 6], 0, [0, 0, 0, 1, 1, 1], &[1], 480, (4, 0)),
        (FRAME, [0; 6], 0, [0, 0, 0, 1, 1, 1], &[1], 480, (8, 0)),
        (FRAME, [1, 1, 0, 0, 4, 2], 2, [0, 0, 0, 1, 1, 1], &[1], 480, (25, 0)),
        (FRAME, [1, 0, 0, 0, 2, 2], 0, [0, 0, 0, 1, 1, 1], &[1], 480, (25, 0)),
        (FRAME, [1, 70000, 0, 0, 2, 2], 70000, [0, 0, 0, 1, 1, 1], &[1], 480, (25, 0)),
        (FRAME, [1, 1, 0, 0, 2, 2], 65537, [0, 0, 0, 1, 1, 1], &[1], 480, (25, 0)),
    ];
    for (layout, words, id, part, elements, bytes, answer) in edits {
        let left = both.write(Part(with_slot(layout.into(), 0, words), 0, id, part.into()), elements, &vec![9; bytes]);
        assert_eq!(both.last.map_err(|refusal| (refusal.number, refusal.fault)), Err(answer), "{part:?}");
        assert!(left.iter().all(|&byte| byte == 9));
    }
    both.expect("regions_edit: 4 5 7 8 9 25; regions_place: 0 8 9 10 25");
}

/// A release beside the readings: which one it is, what it leaves in the buffer, and the table.
#[test]
fn releases() {
    let (_, mut both) = start(29);
    let (far, whole) = (u32::MAX, [1, 1, 0, 0, 2, 2]);
    let releases = [
        (FRAME, whole, 0, 1, 480, 0),
        (FRAME, [far, 65535, 2, 0, 1, 1], 0, 65535, 481, 0),
        (FRAME, whole, 0, 1, 479, 5),
        (FRAME, whole, 0, 2, 479, 25),
        (FRAME, [1, 1, 0, 0, 4, 2], 0, 1, 0, 9),
        (FRAME, [1, 1, 0, 0, 4, 2], 0, 0, 0, 25),
        (FRAME, [1, 1, 0, 0, 0, 0], 0, 1, 480, 9),
        (FRAME, [1, 70000, 0, 0, 2, 2], 0, 70000, 480, 25),
        (FRAME, [0, 1, 0, 0, 2, 2], 0, 1, 480, 8),
        (FRAME, whole, 16, 0, 480, 8),
        ([3, 2, 40, 0, 128, 256, 1], whole, 16, 0, 480, 4),
    ];
    for (layout, words, slot, id, bytes, answer) in releases {
        let before = with_slot(layout.into(), 0, words);
        let (mut table, old) = (before, vec![9; bytes]);
        let left = both.release(&mut table, slot, id, &old);
        assert_eq!(number(&both.last), answer, "{words:?}");
        let zeros = left.iter().filter(|&&byte| byte == 0).count();
        let cells = if answer == 0 { 40 * words[4] * words[5] } else { 0 };
        assert_eq!(zeros, cells as usize, "{words:?}");
        assert_eq!(table, if answer == 0 { both.empty(layout.into()) } else { before });
    }
    both.expect("regions_release: 0 4 5 8 9 25");
}

/// Releases of regions of every width up to 200, in a cube with some room around them.
#[test]
fn releases_of_every_width() {
    let (mut g, mut both) = start(24);
    each!(columns in 1..=200, precision in 0..=2, channels in [1, 2, 7, 15, 16, 17, 31, 32, 33, 64, 70] => {
        let [left, right, top, rows, below] = [g.among(0, 20), g.among(0, 2), g.among(0, 1), g.among(1, 3), g.among(0, 1)];
        let layout = g.layout(left + columns + right, top + rows + below, channels, precision);
        let (mut table, [slot, id]) = (both.empty(layout), [g.among(0, 15), g.among(1, 65535)]);
        assert!(both.place(&mut table, slot, id, [left, top, columns, rows]));
        both.release(&mut table, slot, id, &g.bytes(buffer_length(layout)));
        assert_eq!(table, both.empty(layout));
    });
    both.expect("regions_place: 0; regions_release: 0");
}

/// Positions past 32 bits, in regions at and beside the limits of large cubes.
#[test]
fn positions_in_large_cubes() {
    let (mut g, mut both) = start(25);
    let layouts = [
        [8192, 8192, 8192, 1, 262144, 2147483648, 4294967264],
        [1, 1, 8192, 1, 32, 4294967264, 4294967264],
        [8192, 8191, 33, 0, 262176, 4294967264, 32],
        [1, 8192, 17, 2, 524288, 4294967264, 0],
    ];
    each!(layout in layouts.map(Layout::from), _ in 0..2000 => {
        let Layout { width, height, channels, .. } = layout;
        let mut table = both.empty(layout);
        let [column, row] = [width, height].map(|size| g.pick(&[0, size / 2, size - 1]));
        let [columns, rows] = [width, height].map(|size| g.pick(&[1, size / 2 + 1, size, u32::MAX]));
        both.place(&mut table, 0, OWNER, [column, row, columns, rows]);
        both.check(Part(table, 0, OWNER, ElementBox::default()));
        for _ in 0..4 {
            let channel = g.pick(&[0, 1, channels / 2, channels - 1, channels]);
            let [row, column] = [(height, rows), (width, columns)].map(|(size, count)| g.pick(&[0, size / 2, count - 1, count]));
            both.position(Part(table, 0, OWNER, ElementBox::default()), &[channel, row, column]);
        }
    });
    both.expect("regions_count: 0 8; regions_place: 0 9; regions_position: 0 8 9");
}

#[test]
fn empty_tables() {
    let (mut g, mut both) = start(23);
    for _ in 0..5000 {
        let words: [u32; 7] = std::array::from_fn(|_| g.pick(&EDGES));
        let table = both.empty(words.into());
        assert_eq!(table.layout(), words.into());
        assert!((0..17).all(|slot| table.region(slot).is_none()));
        both.note("regions_empty", 0, 1);
    }
    both.expect("regions_empty: 0");
}
