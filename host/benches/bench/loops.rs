//! The plain Rust loops that the benchmark sets beside the library: safe code that shares nothing with it. Settings and checks are the
//! reference's; each function makes them first, in the paper's order, then runs its loops.

use crate::reference::{cube, elements, lookup as plain_lookup, padding, parlour, pixels, regions, weights};
use olsketina::{Answer, Conversion, Counters, ElementBox, Image, Layout, Lookup, Mode, Slope, Table, TableSettings, Weights};
use std::hint::black_box;
use std::iter::repeat;
use std::ops::Range;

const ATOM: usize = 32;

fn element_bytes(precision: u32) -> usize {
    elements::bytes_of(precision.into()) as usize
}

/// Writes each element from byte `at` of its chunk on.
#[inline(always)]
fn write<'a>(precision: u32, to: impl Iterator<Item = &'a mut [u8]>, at: usize, from: impl Iterator<Item = &'a i16>) {
    if precision == 0 {
        to.zip(from).for_each(|(to, &v)| to[at] = v as u8);
    } else {
        to.zip(from).for_each(|(to, &v)| to[at..at + 2].copy_from_slice(&v.to_le_bytes()));
    }
}

/// Reads each element.
#[inline(always)]
fn read<'a>(precision: u32, from: impl Iterator<Item = &'a [u8]>, at: usize, to: impl Iterator<Item = &'a mut i16>) {
    if precision == 0 {
        from.zip(to).for_each(|(from, v)| *v = i16::from(from[at] as i8));
    } else {
        from.zip(to).for_each(|(from, v)| *v = i16::from_le_bytes([from[at], from[at + 1]]));
    }
}

/// Goes through a box, given by its first channel, row and column and how many there are of each: row by row, in each channel by channel. `run`
/// gets the byte of the channel in all channels, the row's atoms and its elements.
fn walk_box(layout: Layout, [first, [channels, rows, columns]]: [[usize; 3]; 2], mut run: impl FnMut(usize, Range<usize>, Range<usize>)) {
    let [start, surface, line] = [layout.start, layout.surface, layout.line].map(|bytes| bytes as usize);
    for h in 0..rows {
        for c in 0..channels {
            let byte = (first[0] + c) * element_bytes(layout.precision);
            let atom = start + byte / ATOM * surface + (first[1] + h) * line + first[2] * ATOM;
            let raw = (c * rows + h) * columns;
            run(byte, atom..atom + ATOM * columns, raw..raw + columns);
        }
    }
}

fn whole(layout: Layout) -> [[usize; 3]; 2] {
    [[0; 3], [layout.channels, layout.height, layout.width].map(|size| size as usize)]
}

fn inside(part: regions::InCube) -> [[usize; 3]; 2] {
    [part.first, part.sizes].map(|numbers| numbers.map(|number| number as usize))
}

/// Writes a box; where it begins an atom that the channels do not fill, it may clear it.
fn write_box(layout: Layout, part: [[usize; 3]; 2], clear: bool, elements: &[i16], buffer: &mut [u8]) -> Answer<()> {
    elements::check_values(layout.precision, elements)?;
    let all = layout.channels as usize * element_bytes(layout.precision);
    walk_box(layout, part, |byte, atoms, raw| {
        let atoms = &mut buffer[atoms];
        if clear && byte % ATOM == 0 && all - byte < ATOM {
            atoms.fill(0);
        }
        write(layout.precision, atoms.chunks_exact_mut(ATOM), byte % ATOM, elements[raw].iter());
    });
    Ok(())
}

#[inline(never)]
pub fn pack(layout: Layout, elements: &[i16], buffer: &mut [u8]) -> Answer<()> {
    cube::admitted(layout, elements.len(), buffer.len())?;
    write_box(layout, whole(layout), true, elements, buffer)
}

/// Atom by atom in scan order: surface, row, column, then the channels of the atom.
#[inline(never)]
pub fn scan(layout: Layout, elements: &[i16], buffer: &mut [u8]) -> Answer<()> {
    cube::admitted(layout, elements.len(), buffer.len())?;
    elements::check_values(layout.precision, elements)?;
    let [_, [channels, rows, columns]] = whole(layout);
    let [start, surface, line] = [layout.start, layout.surface, layout.line].map(|bytes| bytes as usize);
    let bytes = element_bytes(layout.precision);
    for (s, first) in (0..channels).step_by(ATOM / bytes).enumerate() {
        let last = channels.min(first + ATOM / bytes);
        for h in 0..rows {
            for w in 0..columns {
                let atom = &mut buffer[start + s * surface + h * line + w * ATOM..][..ATOM];
                atom.fill(0);
                let from = (first..last).map(|c| &elements[(c * rows + h) * columns + w]);
                write(layout.precision, atom.chunks_exact_mut(bytes), 0, from);
            }
        }
    }
    Ok(())
}

/// Row by row of the last surface, atom by atom: the part of the atom's padding that lies in the part of the file.
#[inline(never)]
pub fn mend(layout: Layout, first: u64, length: u64, part: &mut [u8], positions: &mut [u64], olds: &mut [u8]) -> Answer<usize> {
    padding::admitted(layout, [first, length], part.len(), [positions.len(), olds.len()])?;
    let [_, [channels, rows, columns]] = whole(layout);
    let [start, surface, line] = [layout.start, layout.surface, layout.line].map(|bytes| bytes as usize);
    let bytes = channels * element_bytes(layout.precision);
    let last = (bytes - 1) / ATOM;
    let (used, from, to) = (bytes - last * ATOM, first as usize, first as usize + part.len());
    let corner = start + last * surface;
    let mut count = 0;
    for h in from.saturating_sub(corner) / line..rows {
        let row = corner + h * line;
        if row >= to {
            break;
        }
        for w in from.saturating_sub(row) / ATOM..columns.min((to - row).div_ceil(ATOM)) {
            let atom = row + w * ATOM;
            let [begin, end] = [(atom + used).clamp(from, to), (atom + ATOM).min(to)];
            let padding = &mut part[begin - from..end.max(begin) - from];
            if padding.iter().fold(0, |all, byte| all | byte) == 0 {
                continue;
            }
            for (byte, position) in padding.iter_mut().zip(begin as u64..) {
                if *byte != 0 {
                    (positions[count], olds[count]) = (position, *byte);
                    *byte = 0;
                    count += 1;
                }
            }
        }
    }
    Ok(count)
}

#[inline(never)]
pub fn edit(table: &Table, slot: u32, id: u32, part: ElementBox, elements: &[i16], buffer: &mut [u8]) -> Answer<()> {
    let part = regions::admitted(table, slot, id, part, elements.len(), buffer.len())?;
    write_box(table.layout(), inside(part), false, elements, buffer)
}

#[inline(never)]
pub fn release(table: &mut Table, slot: u32, id: u32, buffer: &mut [u8]) -> Answer<()> {
    let all = regions::releasable(table, slot, id, buffer.len())?;
    let layout = table.layout();
    walk_box(layout, inside(all), |byte, atoms, _| {
        write(layout.precision, buffer[atoms].chunks_exact_mut(ATOM), byte % ATOM, repeat(&0));
    });
    *table = regions::emptied(table, slot);
    Ok(())
}

/// Component n of a pixel.
fn component(format: u32, size: usize, pixel: &[u8], n: usize) -> i64 {
    let number = if size == 1 { i64::from(pixel[n]) } else { i64::from(u16::from_le_bytes([pixel[2 * n], pixel[2 * n + 1]])) };
    match format {
        1 => number & 0x3ff,
        2 => number & 0xfff,
        4 => i64::from(number as i16),
        _ => number,
    }
}

/// (d - offset) * scale over 2^shift to the nearest, halves away from zero: half a step more, below zero one less, unless nothing is shifted out.
#[inline(always)]
fn nearest(d: i64, Conversion { offset, scale, shift }: Conversion) -> i64 {
    let product = (d - i64::from(offset)) * i64::from(scale);
    let half = (1 << shift) >> 1;
    (product + half - ((product >> 63) & half.min(1))) >> shift
}

/// Four components of a byte into int8: the loop for this format alone. Gives how many were held.
fn paint_bytes(
    lines: impl Iterator<Item = (usize, usize)>, columns: usize, conversion: Conversion, pixels: &[u8], buffer: &mut [u8],
) -> u64 {
    let mut held = 0;
    for (from, to) in lines {
        for x in 0..columns {
            let pixel = &pixels[from + 4 * x..][..4];
            let atom = &mut buffer[to + ATOM * x..][..ATOM];
            for n in 0..4 {
                let value = nearest(pixel[n].into(), conversion);
                let inside = value.clamp(-128, 127);
                held += u64::from(inside != value);
                atom[n] = inside as u8;
            }
        }
    }
    held
}

/// Row by row, pixel by pixel, component by component; the channels of a picture fit into one atom. Gives how many components were held.
#[inline(never)]
pub fn paint(table: &Table, slot: u32, id: u32, image: Image, conversion: Conversion, pixels: &[u8], buffer: &mut [u8]) -> Answer<u64> {
    let all = parlour::admitted(table, slot, id, image, conversion, pixels.len(), buffer.len())?;
    let [[_, top, left], [channels, rows, columns]] = inside(all);
    let layout = table.layout();
    let (low, high) = if layout.precision == 0 { (-128, 127) } else { (-32768, 32767) };
    let bytes = pixels::checked(image)? as usize;
    if (bytes, channels, layout.precision) == (4, 4, 0) {
        let lines = (0..rows).map(|y| {
            let from = image.start as usize + y * image.line as usize + image.x_offset as usize * bytes;
            (from, layout.start as usize + (top + y) * layout.line as usize + left * ATOM)
        });
        return Ok(paint_bytes(lines, columns, conversion, pixels, buffer));
    }
    let mut held = 0;
    for y in 0..rows {
        let line = &pixels[image.start as usize + y * image.line as usize..];
        let atoms = layout.start as usize + (top + y) * layout.line as usize + left * ATOM;
        for x in 0..columns {
            let pixel = &line[(x + image.x_offset as usize) * bytes..][..bytes];
            let atom = &mut buffer[atoms + x * ATOM..][..ATOM];
            for n in 0..channels {
                let value = nearest(component(image.format, bytes / channels, pixel, n), conversion);
                let inside = value.clamp(low, high);
                held += u64::from(inside != value);
                if layout.precision == 0 {
                    atom[n] = inside as u8;
                } else {
                    atom[2 * n..2 * n + 2].copy_from_slice(&(inside as i16).to_le_bytes());
                }
            }
        }
    }
    Ok(held)
}

#[inline(never)]
pub fn unpack(layout: Layout, buffer: &[u8], elements: &mut [i16]) -> Answer<()> {
    cube::admitted(layout, elements.len(), buffer.len())?;
    walk_box(layout, whole(layout), |byte, atoms, raw| {
        read(layout.precision, buffer[atoms].chunks_exact(ATOM), byte % ATOM, elements[raw].iter_mut());
    });
    Ok(())
}

/// Goes in the order of the surface: group, block, position in the kernel, kernel. `run` gets the bytes of an element,
/// those of the block's channels, and their elements, of which each `places`th is one of theirs. The answer is the byte after the last.
fn walk_surface(layout: Weights, mut run: impl FnMut(usize, Range<usize>, Range<usize>, usize)) -> usize {
    let [kernels, channels] = [layout.kernels, layout.channels].map(|size| size as usize);
    let places = (layout.rows * layout.columns) as usize;
    let bytes = element_bytes(layout.precision);
    let group = ATOM / bytes;
    let mut at = 0;
    for k0 in (0..kernels).step_by(group) {
        for c0 in (0..channels).step_by(64) {
            let block = (channels - c0).min(64);
            for place in 0..places {
                for k in k0..kernels.min(k0 + group) {
                    let raw = (k * channels + c0) * places + place;
                    run(bytes, at..at + block * bytes, raw..raw + (block - 1) * places + 1, places);
                    at += block * bytes;
                }
            }
        }
    }
    at
}

#[inline(never)]
pub fn pack_weights(layout: Weights, elements: &[i16], buffer: &mut [u8]) -> Answer<()> {
    weights::admitted(layout, elements.len(), buffer.len())?;
    elements::check_values(layout.precision, elements)?;
    let end = walk_surface(layout, |bytes, block, raw, places| {
        write(layout.precision, buffer[block].chunks_mut(bytes), 0, elements[raw].iter().step_by(places));
    });
    buffer[end..end.next_multiple_of(128)].fill(0);
    Ok(())
}

#[inline(never)]
pub fn unpack_weights(layout: Weights, buffer: &[u8], elements: &mut [i16]) -> Answer<()> {
    weights::admitted(layout, elements.len(), buffer.len())?;
    walk_surface(layout, |bytes, block, raw, places| {
        read(layout.precision, buffer[block].chunks(bytes), 0, elements[raw].iter_mut().step_by(places));
    });
    Ok(())
}

#[derive(Clone, Copy)]
enum Side {
    Below,
    Hit,
    Above,
}

fn side(mode: Mode, table: &TableSettings, x: i32) -> Side {
    match mode {
        Mode::Linear if x < table.start => Side::Below,
        Mode::Linear if x > table.end => Side::Above,
        Mode::Linear => Side::Hit,
        Mode::Exponential if i64::from(x) - i64::from(table.start) >= 1 << table.select.max(0) => Side::Hit,
        Mode::Exponential => Side::Below,
    }
}

fn value<const N: usize>(mode: Mode, table: &TableSettings, entries: &[i16; N], side: Side, x: i32) -> i32 {
    let d = i64::from(x) - i64::from(table.start);
    match (side, mode) {
        (Side::Below, _) => extend(entries[0], d, table.below),
        (Side::Above, _) => extend(entries[N - 1], i64::from(x) - i64::from(table.end), table.above),
        (Side::Hit, Mode::Linear) if table.select <= 0 => i32::from(entries[(d << -table.select) as usize]),
        (Side::Hit, Mode::Linear) if x == table.end => i32::from(entries[N - 1]),
        (Side::Hit, Mode::Linear) => {
            let i = (d >> table.select) as usize;
            interpolate(entries[i], entries[i + 1], table.select as u32, d & ((1 << table.select) - 1))
        }
        (Side::Hit, Mode::Exponential) => {
            let p = d.ilog2();
            let i = (p as i32 - table.select) as usize;
            interpolate(entries[i], entries[i + 1], p, d - (1 << p))
        }
    }
}

fn interpolate(low: i16, high: i16, bits: u32, f: i64) -> i32 {
    let (low, high) = (i64::from(low), i64::from(high));
    (((low << bits) + (high - low) * f) >> bits) as i32
}

fn extend(entry: i16, distance: i64, slope: Slope) -> i32 {
    let product = distance * i64::from(slope.scale);
    let step = if slope.shift < 0 { product << -slope.shift } else { product >> slope.shift };
    (i64::from(entry) + step).clamp(i64::from(i32::MIN), i64::from(i32::MAX)) as i32
}

#[inline(never)]
pub fn lookup(l: &Lookup, xs: &[i16], ys: &[i16], samples: &[i32], outputs: &mut [i32], counters: &mut Counters) -> Answer<()> {
    plain_lookup::check(l, xs, ys, samples.len(), outputs.len(), counters)?;
    let xs: &[i16; 65] = xs.try_into().expect("checked");
    let ys: &[i16; 257] = ys.try_into().expect("checked");
    for (output, &x) in outputs.iter_mut().zip(samples) {
        let [in_x, in_y] = [side(l.mode, &l.x, x), side(Mode::Linear, &l.y, x)];
        let (kind, from_y) = match (in_x, in_y) {
            (Side::Hit, Side::Hit) => (4, l.priority),
            (Side::Hit, _) => (0, false),
            (_, Side::Hit) => (1, true),
            (Side::Below, Side::Below) => (2, l.underflow),
            (Side::Above, Side::Above) => (3, l.overflow),
            (Side::Below, Side::Above) | (Side::Above, Side::Below) => (4, l.priority),
        };
        counters[kind] += 1;
        *output = if from_y { value(Mode::Linear, &l.y, ys, in_y, x) } else { value(l.mode, &l.x, xs, in_x, x) };
    }
    Ok(())
}

/// The entries of the Y curve, by the standard library's root. Each index is hidden from the compiler, which could else compute the table itself.
#[inline(never)]
pub fn curve(entries: &mut [i16; 257]) {
    for (entry, i) in entries.iter_mut().zip(0u32..) {
        *entry = (black_box(i) * 1048576).isqrt() as i16;
    }
}
