//! Pixel images in one plane: the seventeen formats, a setting's rules, positions.

use super::{refuse, require};
use olsketina::{Answer, Image, Refusal};

/// Channels, bytes a pixel, precision and greatest X offset of a format code (the scope paper's table, row by row, code 5 by change request K2).
pub fn format(code: u32) -> Option<[u32; 4]> {
    match code {
        0 => Some([1, 1, 0, 31]),
        1..=4 => Some([1, 2, 1, 15]),
        5 => Some([1, 2, 2, 15]),
        6 | 7 => Some([4, 8, 1, 3]),
        8 => Some([4, 8, 2, 3]),
        9 | 10 => Some([4, 8, 1, 3]),
        11 => Some([4, 8, 2, 3]),
        12..=16 => Some([4, 4, 0, 7]),
        _ => None,
    }
}

/// The bytes of a pixel, once the setting is checked.
pub fn checked(image: Image) -> Answer<i128> {
    let Some([channels, bytes, precision, greatest]) = format(image.format) else { return refuse(Refusal::PIXEL_FORMAT) };
    let size = |size| (1..=8192).contains(&size);
    require(size(image.width) && size(image.height), Refusal::SIZE)?;
    require(image.channels == channels && image.precision == precision, Refusal::PIXEL_KIND)?;
    require(image.x_offset <= greatest, Refusal::X_OFFSET)?;
    let least = (i128::from(image.x_offset) + i128::from(image.width)) * i128::from(bytes);
    let long = i128::from(image.line) >= least;
    require(image.start.is_multiple_of(32) && image.line.is_multiple_of(32) && long, Refusal::PIXEL_STRIDES)?;
    Ok(bytes.into())
}

pub fn check(image: Image) -> Answer<()> {
    checked(image).map(|_| ())
}

pub fn position(image: Image, x: u32, y: u32) -> Answer<u64> {
    let bytes = checked(image)?;
    require(x < image.width && y < image.height, Refusal::PIXEL_OUTSIDE)?;
    let [x, y, offset, start, line] = [x, y, image.x_offset, image.start, image.line].map(i128::from);
    Ok((start + y * line + (x + offset) * bytes) as u64)
}
