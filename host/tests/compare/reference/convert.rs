//! Integer conversion, rounded as change request K5 has it.

use super::require;
use olsketina::{Answer, Converted, Refusal};

/// The least and the greatest value of a precision.
pub fn limits(precision: u32) -> (i128, i128) {
    if precision == 0 {
        (-128, 127)
    } else {
        (-32768, 32767)
    }
}

/// By the magnitude's quotient and remainder; the sign is put back.
pub fn convert(d: i32, offset: i16, scale: i16, shift: u32, precision: u32) -> Answer<Converted> {
    require(precision <= 1, Refusal::PRECISION)?;
    require(shift <= 31, Refusal::SHIFT)?;
    let product = (i128::from(d) - i128::from(offset)) * i128::from(scale);
    let (magnitude, divisor) = (product.abs(), 1 << shift);
    let up = 2 * (magnitude % divisor) >= divisor;
    let nearest = product.signum() * (magnitude / divisor + i128::from(up));
    let (low, high) = limits(precision);
    Ok(Converted { value: nearest.clamp(low, high) as i16, held: nearest < low || nearest > high })
}
