//! Direct-convolution weights, pixel images, integer conversion.

use crate::{answered, lent, raw, valued, words, Answer};

words! {
    /// A weight tensor's sizes and precision code.
    Weights[5]: kernels, channels, rows, columns, precision
}

words! {
    /// A pixel image's setting: format code, sizes, precision code, X offset in pixels, start and line stride in bytes.
    Image[8]: format, width, height, channels, precision, x_offset, start, line
}

impl Weights {
    /// How many elements there are.
    pub fn count(self) -> Answer<u64> {
        valued(u64::MAX, |value, fault| unsafe { raw::olsketina_weights_count(&self.into(), value, fault) })
    }

    /// Bytes of the packed surface, filled to a multiple of 128.
    pub fn extent(self) -> Answer<u64> {
        valued(u64::MAX, |value, fault| unsafe { raw::olsketina_weights_extent(&self.into(), value, fault) })
    }

    /// The byte at which an element begins.
    pub fn position(self, kernel: u32, channel: u32, row: u32, column: u32) -> Answer<u64> {
        valued(u64::MAX, |byte, fault| unsafe { raw::olsketina_weights_position(&self.into(), kernel, channel, row, column, byte, fault) })
    }

    /// Packs raw weights, filled with 0 to a multiple of 128 bytes; later bytes stay.
    pub fn pack(self, elements: &[i16], buffer: &mut [u8]) -> Answer<()> {
        lent(elements, buffer, |from, m, to, n, fault| unsafe { raw::olsketina_weights_pack(&self.into(), from, m, to, n, fault) })
    }

    /// Reads packed weights back into raw order.
    pub fn unpack(self, buffer: &[u8], elements: &mut [i16]) -> Answer<()> {
        lent(buffer, elements, |from, m, to, n, fault| unsafe { raw::olsketina_weights_unpack(&self.into(), from, m, to, n, fault) })
    }
}

impl Image {
    pub fn check(self) -> Answer<()> {
        answered(|fault| unsafe { raw::olsketina_pixels_setting(&self.into(), fault) })
    }

    /// The byte at which pixel (x, y) begins.
    pub fn position(self, x: u32, y: u32) -> Answer<u64> {
        valued(u64::MAX, |value, fault| unsafe { raw::olsketina_pixels_position(&self.into(), x, y, value, fault) })
    }
}

/// A converted number, and whether it was held: the rounded value lay beyond a limit of the precision.
#[derive(Clone, Copy, Debug, Default, PartialEq, Eq)]
pub struct Converted {
    pub value: i16,
    pub held: bool,
}

/// (d - offset) * scale over 2^shift, rounded to the nearest whole number, halves away from zero, then held to the precision's range.
pub fn convert(d: i32, offset: i16, scale: i16, shift: u32, precision: u32) -> Answer<Converted> {
    let (value, held) = valued((1234, u32::MAX), |(value, held), fault| unsafe {
        raw::olsketina_quantize_convert(d, offset, scale, shift, precision, value, held, fault)
    })?;
    debug_assert!(held <= 1);
    Ok(Converted { value, held: held != 0 })
}
