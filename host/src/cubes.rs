//! Feature cubes and the regions of one cube.

use crate::{answered, lent, made, raw, valued, words, Answer};

words! {
    /// A cube's layout (the scope paper's frame): sizes, precision code, then line stride, surface stride and start in bytes.
    Layout[7]: width, height, channels, precision, line, surface, start
}

words! {
    /// A box of elements: its first channel, row and column, then how many of each.
    ElementBox[6]: channel, row, column, channels, rows, columns
}

words! {
    /// A region (the scope paper's stall): first column and row, then how many of each, over all channels.
    Region[4]: column, row, columns, rows
}

impl Layout {
    pub fn check(self) -> Answer<()> {
        answered(|fault| unsafe { raw::olsketina_layout_check(&self.into(), fault) })
    }

    /// Bytes from the start to the end of the last atom.
    pub fn extent(self) -> Answer<u64> {
        valued(u64::MAX, |value, fault| unsafe { raw::olsketina_layout_extent(&self.into(), value, fault) })
    }

    /// The byte at which an element begins.
    pub fn position(self, channel: u32, row: u32, column: u32) -> Answer<u64> {
        valued(u64::MAX, |value, fault| unsafe { raw::olsketina_cube_position(&self.into(), channel, row, column, value, fault) })
    }

    /// Packs a raw tensor: each atom is written whole, its padding as 0; every other byte stays.
    pub fn pack(self, elements: &[i16], buffer: &mut [u8]) -> Answer<()> {
        lent(elements, buffer, |from, m, to, n, fault| unsafe { raw::olsketina_cube_pack(&self.into(), from, m, to, n, fault) })
    }

    /// Reads a packed cube back into raw order.
    pub fn unpack(self, buffer: &[u8], elements: &mut [i16]) -> Answer<()> {
        lent(buffer, elements, |from, m, to, n, fault| unsafe { raw::olsketina_cube_unpack(&self.into(), from, m, to, n, fault) })
    }
}

/// The regions of one cube, in sixteen slots (the scope paper's desk).
#[derive(Clone, Copy, Debug, PartialEq, Eq)]
pub struct Table {
    words: [u32; Table::WORDS],
}

impl Table {
    pub const WORDS: usize = raw::TABLE_WORDS;

    /// The table of a layout with every slot empty; the calls on it check the layout.
    #[must_use]
    pub fn empty(layout: Layout) -> Table {
        Table { words: made([u32::MAX; Table::WORDS], |words| unsafe { raw::olsketina_regions_empty(&layout.into(), words) }) }
    }

    /// A table of any words: those of its layout, then six for each slot: placed (0 is empty, any other is placed), the owner's id, then the
    /// region's.
    #[must_use]
    pub fn from_words(words: [u32; Table::WORDS]) -> Table {
        Table { words }
    }

    #[must_use]
    pub fn words(&self) -> &[u32; Table::WORDS] {
        &self.words
    }

    #[must_use]
    pub fn layout(&self) -> Layout {
        Layout::from(std::array::from_fn(|at| self.words[at]))
    }

    /// The region in a slot and its owner's id, where there is one.
    #[must_use]
    pub fn region(&self, slot: u32) -> Option<(u32, Region)> {
        let slot = self.words[raw::LAYOUT_WORDS..].chunks(raw::SLOT_WORDS).nth(slot as usize)?;
        (slot[0] != 0).then(|| (slot[1], [slot[2], slot[3], slot[4], slot[5]].into()))
    }

    /// Places a region of an owner in an empty slot.
    pub fn place(&mut self, slot: u32, id: u32, region: Region) -> Answer<()> {
        let Region { column, row, columns, rows } = region;
        answered(|fault| unsafe { raw::olsketina_regions_place(&mut self.words, slot, id, column, row, columns, rows, fault) })
    }

    /// Writes the elements of a box, counted from the corner of the owner's region in a slot, and no other byte.
    pub fn edit(&self, slot: u32, id: u32, part: ElementBox, elements: &[i16], buffer: &mut [u8]) -> Answer<()> {
        let (table, part) = (&self.words, part.into());
        lent(elements, buffer, |from, m, to, n, fault| unsafe {
            raw::olsketina_regions_edit(table, slot, id, &part, from, m, to, n, fault)
        })
    }

    /// Reads the elements of a box, counted from the corner of the owner's region in a slot.
    pub fn read(&self, slot: u32, id: u32, part: ElementBox, buffer: &[u8], elements: &mut [i16]) -> Answer<()> {
        let (table, part) = (&self.words, part.into());
        lent(buffer, elements, |from, m, to, n, fault| unsafe {
            raw::olsketina_regions_read(table, slot, id, &part, from, m, to, n, fault)
        })
    }

    /// Releases the owner's region in a slot: its elements become 0, and the slot is empty.
    pub fn release(&mut self, slot: u32, id: u32, buffer: &mut [u8]) -> Answer<()> {
        let (to, n) = (buffer.as_mut_ptr(), buffer.len());
        answered(|fault| unsafe { raw::olsketina_regions_release(&mut self.words, slot, id, to, n, fault) })
    }

    /// The byte at which an element begins, counted from the corner of the owner's region in a slot.
    pub fn position(&self, slot: u32, id: u32, channel: u32, row: u32, column: u32) -> Answer<u64> {
        valued(u64::MAX, |value, fault| unsafe {
            raw::olsketina_regions_position(&self.words, slot, id, channel, row, column, value, fault)
        })
    }

    /// How many elements the owner's region in a slot has.
    pub fn count(&self, slot: u32, id: u32) -> Answer<u64> {
        valued(u64::MAX, |value, fault| unsafe { raw::olsketina_regions_count(&self.words, slot, id, value, fault) })
    }
}
