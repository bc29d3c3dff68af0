//! The plain picture: a raw tensor and sixteen slots, fed the calls of a list, never the packed bytes.

use crate::draw::{buffer_length, product};
use crate::reference::{convert, cube, each, parlour, refuse, require};
use olsketina::{Answer, Conversion, ElementBox, Image, Layout, Refusal, Region};

/// Its layout is valid.
pub struct PlainPicture {
    pub layout: Layout,
    /// The buffer from before the packing.
    pub before: Vec<u8>,
    pub elements: Vec<i16>,
    /// Owners' ids and regions.
    pub slots: [Option<(u32, Region)>; 16],
}

/// The positions of a region, or of any span of columns and rows.
fn covers(region: Region, x: u64, y: u64) -> bool {
    let [left, top, across, down] = <[u32; 4]>::from(region).map(u64::from);
    (left..left + across).contains(&x) && (top..top + down).contains(&y)
}

/// Whether a component lies half a step or more past a limit of a precision, before it is rounded.
fn beyond(d: i32, conversion: Conversion, precision: u32) -> bool {
    let twice = 2 * (i128::from(d) - i128::from(conversion.offset)) * i128::from(conversion.scale);
    let (low, high) = convert::limits(precision);
    let halves = |count: i128| count << conversion.shift;
    twice >= halves(2 * high + 1) || twice <= halves(2 * low - 1)
}

/// The refusal of an element that a precision does not take, by the element's number: int8 takes -128 to 127; of fp16 NaN is 31745 to 32767 and -1023
/// to -1. 0 where it takes it.
pub fn number_of(precision: u32, element: i16) -> u32 {
    match precision {
        0 if !(-128..=127).contains(&element) => 7,
        2 if element >= 31745 || (-1023..=-1).contains(&element) => 26,
        _ => 0,
    }
}

impl PlainPicture {
    /// What the buffer must be: the raw tensor packed over the bytes from before.
    pub fn buffer(&self) -> Vec<u8> {
        let mut packed = self.before.clone();
        cube::pack(self.layout, &self.elements, &mut packed).expect("a valid layout");
        packed
    }

    pub fn place(&mut self, slot: u32, id: u32, region: Region) -> Answer<()> {
        let [column, row, columns, rows] = <[u32; 4]>::from(region).map(u64::from);
        let [width, height] = [self.layout.width, self.layout.height].map(u64::from);
        require((1..=65535).contains(&id), 25)?;
        require(slot <= 15 && self.slots[slot as usize].is_none(), 8)?;
        require(columns > 0 && rows > 0 && column + columns <= width && row + rows <= height, 9)?;
        each!(y in row..row + rows, x in column..column + columns => {
            require(!self.slots.iter().flatten().any(|&(_, other)| covers(other, x, y)), 10)?;
        });
        self.slots[slot as usize] = Some((id, region));
        Ok(())
    }

    /// The region of a call that gives this id.
    fn region(&self, slot: u32, id: u32) -> Answer<Region> {
        let Some(&Some((owner, region))) = self.slots.get(slot as usize) else { return refuse(8) };
        require(id == owner, 25)?;
        Ok(region)
    }

    /// The raw indices of a box's elements, in raw order over the box; of a call that lends so many elements and bytes.
    fn indices(&self, [slot, id]: [u32; 2], part: ElementBox, given: usize, bytes: usize) -> Answer<Vec<usize>> {
        let [left, top, across, down] = <[u32; 4]>::from(self.region(slot, id)?).map(u64::from);
        let [channel, row, column, channels, rows, columns] = <[u32; 6]>::from(part).map(u64::from);
        let [width, height, depth, ..] = <[u32; 7]>::from(self.layout).map(u64::from);
        let inside = channel + channels <= depth && row + rows <= down && column + columns <= across;
        require(channels > 0 && rows > 0 && columns > 0 && inside, 9)?;
        require(given as u64 == channels * rows * columns, 6)?;
        require(bytes >= buffer_length(self.layout), 5)?;
        let (row, column) = (top + row, left + column);
        let mut indices = Vec::with_capacity(given);
        each!(c in channel..channel + channels, h in row..row + rows, w in column..column + columns => {
            indices.push(((c * height + h) * width + w) as usize);
        });
        Ok(indices)
    }

    pub fn edit(&mut self, slot: u32, id: u32, part: ElementBox, elements: &[i16], bytes: usize) -> Answer<()> {
        let indices = self.indices([slot, id], part, elements.len(), bytes)?;
        let precision = self.layout.precision;
        if let Some(fault) = elements.iter().position(|&element| number_of(precision, element) != 0) {
            return Err(Refusal { number: number_of(precision, elements[fault]), fault });
        }
        for (&index, &element) in indices.iter().zip(elements) {
            self.elements[index] = element;
        }
        Ok(())
    }

    pub fn read(&self, slot: u32, id: u32, part: ElementBox, elements: &mut [i16], bytes: usize) -> Answer<()> {
        let indices = self.indices([slot, id], part, elements.len(), bytes)?;
        for (&index, element) in indices.iter().zip(elements) {
            *element = self.elements[index];
        }
        Ok(())
    }

    /// An edit of the whole region with zeros, which empties the slot.
    pub fn release(&mut self, slot: u32, id: u32, bytes: usize) -> Answer<()> {
        let Region { columns, rows, .. } = self.region(slot, id)?;
        let sizes = [self.layout.channels, rows, columns];
        let part = [0, 0, 0, sizes[0], sizes[1], sizes[2]].into();
        self.edit(slot, id, part, &vec![0; product(&sizes)], bytes)?;
        self.slots[slot as usize] = None;
        Ok(())
    }

    /// An edit of the whole region with the picture's components, converted; gives how many of them are held, counted before they are converted.
    pub fn paint(&mut self, slot: u32, id: u32, image: Image, conversion: Conversion, pixels: &[u8], bytes: usize) -> Answer<u64> {
        parlour::check_picture(self.layout, image, conversion, pixels.len())?;
        let Region { columns, rows, .. } = self.region(slot, id)?;
        require([image.width, image.height] == [columns, rows], 9)?;
        let part = [0, 0, 0, self.layout.channels, rows, columns].into();
        self.edit(slot, id, part, &parlour::elements(image, conversion, self.layout.precision, pixels), bytes)?;
        let components = parlour::components(image, pixels);
        Ok(components.into_iter().filter(|&d| beyond(d, conversion, self.layout.precision)).count() as u64)
    }
}
