//! Regions (the paper's stalls) of one cube in a table of sixteen slots (its desk). A table of any words is taken.

use super::cube::{checked, Cube};
use super::elements::{bytes_of, check_count, check_values, read as read_elements, write};
use super::{refuse, require};
use olsketina::{Answer, ElementBox, Layout, Refusal, Region, Table};

/// First column and row, columns, rows.
fn numbers(region: Region) -> [i128; 4] {
    <[u32; 4]>::from(region).map(i128::from)
}

/// Whether there is something from `first` on, all of it below `size`.
fn span_inside(first: i128, count: i128, size: i128) -> bool {
    count >= 1 && first + count <= size
}

fn inside(region: Region, cube: &Cube) -> bool {
    let [column, row, columns, rows] = numbers(region);
    span_inside(column, columns, cube.width) && span_inside(row, rows, cube.height)
}

/// Whether some (column, row) is in both.
fn overlap(one: Region, other: Region) -> bool {
    let [left, top, columns, rows] = numbers(one);
    let [other_left, other_top, other_columns, other_rows] = numbers(other);
    left.max(other_left) < (left + columns).min(other_left + other_columns) && top.max(other_top) < (top + rows).min(other_top + other_rows)
}

/// Whether it is an owner's id (the paper's pupil's number).
fn valid_id(id: u32) -> bool {
    (1..=65535).contains(&id)
}

/// The words of a slot: placed, the owner's id, then the region's.
pub const SLOT: usize = 6;

/// The layout of a table, and its owners' ids and regions slot by slot.
fn parts(table: &Table) -> (Layout, Vec<Option<(u32, Region)>>) {
    let (layout, slots) = table.words().split_first_chunk::<7>().expect("a layout's words");
    let region = |slot: &[u32]| (slot[0] != 0).then(|| (slot[1], [slot[2], slot[3], slot[4], slot[5]].into()));
    ((*layout).into(), slots.chunks(SLOT).map(region).collect())
}

/// The table with other words in a slot.
pub fn with_slot(table: &Table, slot: usize, words: [u32; SLOT]) -> Table {
    let mut all = *table.words();
    all[7 + SLOT * slot..][..SLOT].copy_from_slice(&words);
    Table::from_words(all)
}

/// The table with a slot as an empty table has it.
pub fn emptied(table: &Table, slot: u32) -> Table {
    with_slot(table, slot as usize, [0; SLOT])
}

/// A box of one cube: its first element and its sizes, by channel, row and column.
pub struct InCube {
    pub cube: Cube,
    pub first: [i128; 3],
    pub sizes: [i128; 3],
}

/// The cube, and all of the owner's region, once 1 to 4, 8, 25 and 9 are checked.
pub fn whole(table: &Table, slot: u32, id: u32) -> Answer<InCube> {
    let (layout, regions) = parts(table);
    let cube = checked(layout)?;
    let Some(&Some((owner, region))) = regions.get(slot as usize) else { return refuse(Refusal::SLOT) };
    require(valid_id(id) && id == owner, Refusal::OWNER_ID)?;
    require(inside(region, &cube), Refusal::BOUNDS)?;
    let [left, top, across, down] = numbers(region);
    Ok(InCube { cube, first: [0, top, left], sizes: [cube.channels, down, across] })
}

/// The cube, and the box counted from the cube's corner, once 1 to 4, 8, 25 and 9 are checked.
fn named(table: &Table, slot: u32, id: u32, part: ElementBox) -> Answer<InCube> {
    let InCube { cube, first: [_, top, left], sizes: [depth, down, across] } = whole(table, slot, id)?;
    let [channel, row, column, channels, rows, columns] = <[u32; 6]>::from(part).map(i128::from);
    let within = span_inside(channel, channels, depth) && span_inside(row, rows, down) && span_inside(column, columns, across);
    require(within, Refusal::BOUNDS)?;
    Ok(InCube { cube, first: [channel, top + row, left + column], sizes: [channels, rows, columns] })
}

/// The same, then 6 and 5: of a call that lends so many elements and bytes.
pub fn admitted(table: &Table, slot: u32, id: u32, part: ElementBox, elements: usize, bytes: usize) -> Answer<InCube> {
    let named = named(table, slot, id, part)?;
    check_count(elements, named.sizes.iter().product())?;
    named.cube.check_length(bytes)?;
    Ok(named)
}

pub fn empty(layout: Layout) -> Table {
    let mut words = [0; Table::WORDS];
    words[..7].copy_from_slice(&<[u32; 7]>::from(layout));
    Table::from_words(words)
}

pub fn place(table: &mut Table, slot: u32, id: u32, region: Region) -> Answer<()> {
    let (layout, regions) = parts(table);
    let cube = checked(layout)?;
    require(valid_id(id), Refusal::OWNER_ID)?;
    require(regions.get(slot as usize).is_some_and(Option::is_none), Refusal::SLOT)?;
    require(inside(region, &cube), Refusal::BOUNDS)?;
    require(!regions.into_iter().flatten().any(|(_, other)| overlap(other, region)), Refusal::OVERLAP)?;
    *table = with_slot(table, slot as usize, [1, id, region.column, region.row, region.columns, region.rows]);
    Ok(())
}

pub fn edit(table: &Table, slot: u32, id: u32, part: ElementBox, elements: &[i16], buffer: &mut [u8]) -> Answer<()> {
    let InCube { cube, first, sizes } = admitted(table, slot, id, part, elements.len(), buffer.len())?;
    check_values(cube.precision as u32, elements)?;
    write(cube.precision, elements, buffer, cube.positions(first, sizes));
    Ok(())
}

pub fn read(table: &Table, slot: u32, id: u32, part: ElementBox, buffer: &[u8], elements: &mut [i16]) -> Answer<()> {
    let InCube { cube, first, sizes } = admitted(table, slot, id, part, elements.len(), buffer.len())?;
    read_elements(cube.precision, buffer, elements, cube.positions(first, sizes));
    Ok(())
}

/// All of the owner's region, once 5 is checked too: of a release that lends so many bytes.
pub fn releasable(table: &Table, slot: u32, id: u32, bytes: usize) -> Answer<InCube> {
    let all = whole(table, slot, id)?;
    all.cube.check_length(bytes)?;
    Ok(all)
}

pub fn release(table: &mut Table, slot: u32, id: u32, buffer: &mut [u8]) -> Answer<()> {
    let InCube { cube, first, sizes } = releasable(table, slot, id, buffer.len())?;
    cube.positions(first, sizes).for_each(|at| buffer[at..][..bytes_of(cube.precision) as usize].fill(0));
    *table = emptied(table, slot);
    Ok(())
}

pub fn position(table: &Table, slot: u32, id: u32, channel: u32, row: u32, column: u32) -> Answer<u64> {
    let InCube { cube, first: [c, h, w], .. } = named(table, slot, id, [channel, row, column, 1, 1, 1].into())?;
    Ok(cube.position(c, h, w) as u64)
}

pub fn count(table: &Table, slot: u32, id: u32) -> Answer<u64> {
    whole(table, slot, id).map(|all| all.sizes.iter().product::<i128>() as u64)
}
