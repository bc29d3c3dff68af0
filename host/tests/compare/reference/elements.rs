//! Elements (the paper's cells) as numbers and as bytes.

use super::require;
use olsketina::{Answer, Refusal};

/// Bytes of one element.
pub fn bytes_of(precision: i128) -> i128 {
    match precision {
        0 => 1,
        _ => 2,
    }
}

/// Writes elements at these bytes, the low byte first.
pub fn write(precision: i128, elements: &[i16], buffer: &mut [u8], positions: impl Iterator<Item = usize>) {
    for (&element, at) in elements.iter().zip(positions) {
        let pattern = i128::from(element).rem_euclid(65536);
        buffer[at] = (pattern % 256) as u8;
        if bytes_of(precision) == 2 {
            buffer[at + 1] = (pattern / 256) as u8;
        }
    }
}

/// Reads the elements at these bytes: one or two bytes as a number in two's complement.
pub fn read(precision: i128, buffer: &[u8], elements: &mut [i16], positions: impl Iterator<Item = usize>) {
    for (element, at) in elements.iter_mut().zip(positions) {
        let low = i32::from(buffer[at]);
        let (pattern, range) = match bytes_of(precision) {
            1 => (low, 256),
            _ => (low + 256 * i32::from(buffer[at + 1]), 65536),
        };
        *element = if pattern >= range / 2 { pattern - range } else { pattern } as i16;
    }
}

/// Refuses another number of elements.
pub fn check_count(given: usize, count: i128) -> Answer<()> {
    require(given as i128 == count, Refusal::ELEMENT_COUNT)
}

/// Whether an fp16 element is NaN (change request K7): its exponent bits, 10 to 14, are all set, and its fraction, bits 0 to 9, is not zero.
pub fn is_nan(element: i16) -> bool {
    let [exponent, fraction] = [0x7c00, 0x03ff];
    element & exponent == exponent && element & fraction != 0
}

/// Refuses the least index of an element that breaks a rule. The first pass has no early exit, so that a compiler can take many at a time.
fn check_each(elements: &[i16], number: u32, broken: impl Fn(i16) -> bool) -> Answer<()> {
    if !elements.iter().fold(false, |any, &element| any | broken(element)) {
        return Ok(());
    }
    let fault = elements.iter().position(|&element| broken(element)).unwrap_or(0);
    Err(Refusal { number, fault })
}

/// Refuses an element that the precision does not take: of int8 one out of range, of fp16 NaN.
pub fn check_values(precision: u32, elements: &[i16]) -> Answer<()> {
    match precision {
        0 => check_each(elements, Refusal::INT8_RANGE, |element| !(-128..=127).contains(&element)),
        2 => check_each(elements, Refusal::FP16_NAN, is_nan),
        _ => Ok(()),
    }
}
