//! A camera's picture into a region.

use crate::{raw, valued, Answer, Image, Table};

/// What every component of a picture is converted with: (d - offset) * scale over 2^shift, rounded to the nearest, halves away from zero.
#[derive(Clone, Copy, Debug, Default, PartialEq, Eq)]
pub struct Conversion {
    pub offset: i16,
    pub scale: i16,
    pub shift: u32,
}

impl Table {
    /// Paints the owner's region in a slot: component n of pixel (x, y), converted to the cube's precision, becomes the element of channel n,
    /// row y and column x of the region; no other byte is written. Gives how many components were held.
    pub fn paint(&self, slot: u32, id: u32, image: Image, conversion: Conversion, pixels: &[u8], buffer: &mut [u8]) -> Answer<u64> {
        let (table, image) = (self.words(), image.into());
        let Conversion { offset, scale, shift } = conversion;
        let (from, m, to, n) = (pixels.as_ptr(), pixels.len(), buffer.as_mut_ptr(), buffer.len());
        valued(u64::MAX, |held, fault| unsafe {
            raw::olsketina_parlour_paint(table, slot, id, &image, from, m, offset, scale, shift, to, n, held, fault)
        })
    }
}
