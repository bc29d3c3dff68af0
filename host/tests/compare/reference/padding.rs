//! Padding made zero again in a part of a file (change request K8), byte by byte.

use super::cube::{self, Cube};
use super::require;
use olsketina::{Answer, Layout, Refusal};

/// Of a call that lends so many bytes of a file, and so many places for positions and for old values: 1 to 4, then 5 and 18.
pub fn admitted(layout: Layout, [first, length]: [u64; 2], bytes: usize, places: [usize; 2]) -> Answer<Cube> {
    let cube = cube::checked(layout)?;
    cube.check_length(length as usize)?;
    require(i128::from(first) + bytes as i128 <= i128::from(length), Refusal::BUFFER_LENGTH)?;
    require(places.iter().all(|&places| places >= bytes), Refusal::OUTPUT_LENGTH)?;
    Ok(cube)
}

pub fn mend(layout: Layout, first: u64, length: u64, part: &mut [u8], positions: &mut [u64], olds: &mut [u8]) -> Answer<usize> {
    let cube = admitted(layout, [first, length], part.len(), [positions.len(), olds.len()])?;
    let mut count = 0;
    for (byte, position) in part.iter_mut().zip(first.into()..) {
        if *byte != 0 && cube.is_padding(position) {
            (positions[count], olds[count]) = (position as u64, *byte);
            *byte = 0;
            count += 1;
        }
    }
    Ok(count)
}
