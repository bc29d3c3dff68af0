//! Feature cubes: the layout's rules, the position formula, packing.

use super::elements::{bytes_of, check_count, check_values, read, write};
use super::require;
use olsketina::{Answer, Layout, Refusal};

/// The numbers of a cube's layout (the paper's frame).
#[derive(Clone, Copy)]
pub struct Cube {
    pub width: i128,
    pub height: i128,
    pub channels: i128,
    pub precision: i128,
    line: i128,
    surface: i128,
    start: i128,
}

/// The numbers of a layout, once 1 to 4 are checked.
pub fn checked(layout: Layout) -> Answer<Cube> {
    let [width, height, channels, precision, line, surface, start] = <[u32; 7]>::from(layout).map(i128::from);
    let sizes = [width, height, channels];
    require(sizes.iter().all(|size| (1..=8192).contains(size)), Refusal::SIZE)?;
    require((0..=2).contains(&precision), Refusal::PRECISION)?;
    let apart = line >= 32 * width && surface >= (height - 1) * line + 32 * width;
    require(line % 32 == 0 && surface % 32 == 0 && apart, Refusal::CUBE_STRIDES)?;
    require(start % 32 == 0, Refusal::CUBE_START)?;
    Ok(Cube { width, height, channels, precision, line, surface, start })
}

/// The same, then 6 and 5: of a call that lends so many elements for the whole cube, and so many bytes.
pub fn admitted(layout: Layout, elements: usize, bytes: usize) -> Answer<Cube> {
    let cube = checked(layout)?;
    check_count(elements, cube.channels * cube.height * cube.width)?;
    cube.check_length(bytes)?;
    Ok(cube)
}

impl Cube {
    pub fn surfaces(&self) -> i128 {
        (self.channels * bytes_of(self.precision) + 31) / 32
    }

    fn extent(&self) -> i128 {
        (self.surfaces() - 1) * self.surface + (self.height - 1) * self.line + 32 * self.width
    }

    /// The byte at which element (c, h, w) begins.
    pub fn position(&self, c: i128, h: i128, w: i128) -> usize {
        let offset = c * bytes_of(self.precision);
        (self.start + (offset / 32) * self.surface + h * self.line + w * 32 + offset % 32) as usize
    }

    pub fn check_length(&self, bytes: usize) -> Answer<()> {
        require(self.start + self.extent() <= bytes as i128, Refusal::BUFFER_LENGTH)
    }

    /// Whether a byte is padding: it lies in an atom, past the bytes of the last channel.
    pub fn is_padding(&self, position: i128) -> bool {
        let offset = position - self.start;
        let [surface, in_surface] = [offset / self.surface, offset % self.surface];
        let [row, in_line] = [in_surface / self.line, in_surface % self.line];
        let [column, byte] = [in_line / 32, in_line % 32];
        let in_atom = offset >= 0 && surface < self.surfaces() && row < self.height && column < self.width;
        in_atom && 32 * surface + byte >= self.channels * bytes_of(self.precision)
    }

    /// The bytes at which the elements of a box begin, in raw order over the box.
    pub fn positions(self, [c, h, w]: [i128; 3], [channels, rows, columns]: [i128; 3]) -> impl Iterator<Item = usize> {
        (c..c + channels).flat_map(move |c| (h..h + rows).flat_map(move |h| (w..w + columns).map(move |w| self.position(c, h, w))))
    }

    fn all_positions(self) -> impl Iterator<Item = usize> {
        self.positions([0; 3], [self.channels, self.height, self.width])
    }
}

pub fn check(layout: Layout) -> Answer<()> {
    checked(layout).map(|_| ())
}

pub fn extent(layout: Layout) -> Answer<u64> {
    checked(layout).map(|cube| cube.extent() as u64)
}

pub fn position(layout: Layout, channel: u32, row: u32, column: u32) -> Answer<u64> {
    let cube = checked(layout)?;
    let [c, h, w] = [channel, row, column].map(i128::from);
    require(c < cube.channels && h < cube.height && w < cube.width, Refusal::BOUNDS)?;
    Ok(cube.position(c, h, w) as u64)
}

pub fn pack(layout: Layout, elements: &[i16], buffer: &mut [u8]) -> Answer<()> {
    let cube = admitted(layout, elements.len(), buffer.len())?;
    check_values(layout.precision, elements)?;
    each!(surface in 0..cube.surfaces(), h in 0..cube.height, w in 0..cube.width => {
        let atom = (cube.start + surface * cube.surface + h * cube.line + w * 32) as usize;
        buffer[atom..atom + 32].fill(0);
    });
    write(cube.precision, elements, buffer, cube.all_positions());
    Ok(())
}

pub fn unpack(layout: Layout, buffer: &[u8], elements: &mut [i16]) -> Answer<()> {
    let cube = admitted(layout, elements.len(), buffer.len())?;
    read(cube.precision, buffer, elements, cube.all_positions());
    Ok(())
}
