//! Direct-convolution weights: groups of kernels, blocks of 64 channels.

use super::elements::{bytes_of, check_count, check_values, read, write};
use super::require;
use olsketina::{Answer, Refusal, Weights};

/// The numbers of a setting.
pub struct Numbers {
    kernels: i128,
    channels: i128,
    rows: i128,
    columns: i128,
    precision: i128,
}

/// The numbers of a setting, once 1 and 2 are checked.
fn checked(weights: Weights) -> Answer<Numbers> {
    let [kernels, channels, rows, columns, precision] = <[u32; 5]>::from(weights).map(i128::from);
    let small = |size| (1..=32).contains(&size);
    let large = |size| (1..=8192).contains(&size);
    require(large(kernels) && large(channels) && small(rows) && small(columns), Refusal::SIZE)?;
    require((0..=2).contains(&precision), Refusal::PRECISION)?;
    Ok(Numbers { kernels, channels, rows, columns, precision })
}

/// The same, then 6 and 5: of a call that lends so many elements and bytes.
pub fn admitted(weights: Weights, elements: usize, bytes: usize) -> Answer<Numbers> {
    let numbers = checked(weights)?;
    check_count(elements, numbers.count())?;
    require(bytes as i128 >= numbers.surface(), Refusal::BUFFER_LENGTH)?;
    Ok(numbers)
}

impl Numbers {
    fn count(&self) -> i128 {
        self.kernels * self.channels * self.rows * self.columns
    }

    /// Bytes of the surface, filled up to a multiple of 128.
    fn surface(&self) -> i128 {
        (self.count() * bytes_of(self.precision) + 127) / 128 * 128
    }

    /// The byte at which weight (k, c, r, s) begins.
    fn position(&self, k: i128, c: i128, r: i128, s: i128) -> usize {
        let group_size = if self.precision == 0 { 32 } else { 16 };
        let (group, j) = (k / group_size, k % group_size);
        let kernels_in_group = group_size.min(self.kernels - group * group_size);
        let (block, d) = (c / 64, c % 64);
        let channels_in_block = 64.min(self.channels - block * 64);
        let element = group * group_size * self.rows * self.columns * self.channels
            + block * 64 * self.rows * self.columns * kernels_in_group
            + ((r * self.columns + s) * kernels_in_group + j) * channels_in_block
            + d;
        (element * bytes_of(self.precision)) as usize
    }

    /// The bytes at which the weights begin, in raw order.
    fn positions(&self) -> impl Iterator<Item = usize> {
        let mut positions = Vec::new();
        each!(k in 0..self.kernels, c in 0..self.channels, r in 0..self.rows, s in 0..self.columns => {
            positions.push(self.position(k, c, r, s));
        });
        positions.into_iter()
    }
}

pub fn count(weights: Weights) -> Answer<u64> {
    checked(weights).map(|numbers| numbers.count() as u64)
}

pub fn extent(weights: Weights) -> Answer<u64> {
    checked(weights).map(|numbers| numbers.surface() as u64)
}

pub fn position(weights: Weights, kernel: u32, channel: u32, row: u32, column: u32) -> Answer<u64> {
    let numbers = checked(weights)?;
    let [k, c, r, s] = [kernel, channel, row, column].map(i128::from);
    let inside = k < numbers.kernels && c < numbers.channels && r < numbers.rows && s < numbers.columns;
    require(inside, Refusal::BOUNDS)?;
    Ok(numbers.position(k, c, r, s) as u64)
}

pub fn pack(weights: Weights, elements: &[i16], buffer: &mut [u8]) -> Answer<()> {
    let numbers = admitted(weights, elements.len(), buffer.len())?;
    check_values(weights.precision, elements)?;
    buffer[..numbers.surface() as usize].fill(0);
    write(numbers.precision, elements, buffer, numbers.positions());
    Ok(())
}

pub fn unpack(weights: Weights, buffer: &[u8], elements: &mut [i16]) -> Answer<()> {
    let numbers = admitted(weights, elements.len(), buffer.len())?;
    read(numbers.precision, buffer, elements, numbers.positions());
    Ok(())
}
