//! A camera's picture into a region (change request K3): each component of a pixel, converted, becomes an element; how many were held (K5).

use super::convert::convert;
use super::elements::write;
use super::regions::{whole, InCube};
use super::{pixels, require};
use olsketina::{Answer, Conversion, Converted, Image, Layout, Refusal, Table};

/// The byte at which pixel (x, y) begins, of so many bytes a pixel.
fn pixel(image: Image, bytes: i128, x: i128, y: i128) -> i128 {
    let [offset, start, line] = [image.x_offset, image.start, image.line].map(i128::from);
    start + y * line + (x + offset) * bytes
}

/// The checks of the picture, for a cube and so many bytes of pixels: 19, 1, 20, 21, 22, then 29, then 2, 16, then 30.
pub fn check_picture(layout: Layout, image: Image, conversion: Conversion, given: usize) -> Answer<()> {
    let bytes = pixels::checked(image)?;
    let float = image.precision == 2;
    require(!float && image.channels == layout.channels, Refusal::IMAGE_KIND)?;
    convert(0, conversion.offset, conversion.scale, conversion.shift, layout.precision)?;
    let last = pixel(image, bytes, i128::from(image.width) - 1, i128::from(image.height) - 1);
    require(last + bytes <= given as i128, Refusal::PIXEL_LENGTH)
}

/// All of the owner's region, once everything is checked: the picture, then 1 to 4, 8, 25, 9 (also of an image that is not as wide and high), 5.
pub fn admitted(table: &Table, slot: u32, id: u32, image: Image, conversion: Conversion, given: usize, bytes: usize) -> Answer<InCube> {
    check_picture(table.layout(), image, conversion, given)?;
    let all = whole(table, slot, id)?;
    let [_, rows, columns] = all.sizes;
    require(rows == image.height.into() && columns == image.width.into(), Refusal::BOUNDS)?;
    all.cube.check_length(bytes)?;
    Ok(all)
}

/// The component of so many bytes that begins at a byte, the low byte first.
fn component(format: u32, size: i128, pixels: &[u8], at: usize) -> i32 {
    let number = match size {
        1 => i32::from(pixels[at]),
        _ => i32::from(pixels[at]) + 256 * i32::from(pixels[at + 1]),
    };
    match format {
        1 => number % (1 << 10),
        2 => number % (1 << 12),
        4 if number >= 1 << 15 => number - (1 << 16),
        _ => number,
    }
}

/// The picture's components, in raw order; all is checked.
pub fn components(image: Image, pixels: &[u8]) -> Vec<i32> {
    let bytes = pixels::checked(image).expect("a valid image");
    let [channels, height, width] = [image.channels, image.height, image.width].map(i128::from);
    let size = bytes / channels;
    let mut components = Vec::new();
    each!(n in 0..channels, y in 0..height, x in 0..width => {
        components.push(component(image.format, size, pixels, (pixel(image, bytes, x, y) + n * size) as usize));
    });
    components
}

/// The same, converted to a precision.
fn converted(image: Image, conversion: Conversion, precision: u32, pixels: &[u8]) -> Vec<Converted> {
    let Conversion { offset, scale, shift } = conversion;
    let component = |d| convert(d, offset, scale, shift, precision).expect("a valid conversion");
    components(image, pixels).into_iter().map(component).collect()
}

/// The elements that the components become, in raw order; all is checked.
pub fn elements(image: Image, conversion: Conversion, precision: u32, pixels: &[u8]) -> Vec<i16> {
    converted(image, conversion, precision, pixels).into_iter().map(|of| of.value).collect()
}

pub fn paint(table: &Table, slot: u32, id: u32, image: Image, conversion: Conversion, pixels: &[u8], buffer: &mut [u8]) -> Answer<u64> {
    let InCube { cube, first, sizes } = admitted(table, slot, id, image, conversion, pixels.len(), buffer.len())?;
    let converted = converted(image, conversion, cube.precision as u32, pixels);
    let elements: Vec<i16> = converted.iter().map(|of| of.value).collect();
    write(cube.precision, &elements, buffer, cube.positions(first, sizes));
    Ok(converted.iter().filter(|of| of.held).count() as u64)
}
