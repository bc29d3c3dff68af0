//! The atoms of a cube in scan order (change request K6), by the position formula. The request leaves free what a step gives on any other walk or
//! elements; there the meaning of a walk's words decides, as crates/walk/specs/Walks.antt defines it.

use super::cube::{self, Cube};
use super::elements::{bytes_of, check_values, write};
use olsketina::{Answer, Atom, Layout, Walk};
use std::iter::once;

/// Elements of an atom.
fn full(precision: i128) -> i128 {
    32 / bytes_of(precision)
}

/// The raw index of element (c, h, w).
fn index(cube: &Cube, c: i128, h: i128, w: i128) -> usize {
    ((c * cube.height + h) * cube.width + w) as usize
}

/// The words before the first atom: refused as packing into so many bytes is.
pub fn start(layout: Layout, elements: &[i16], bytes: usize) -> Answer<[u64; Walk::WORDS]> {
    let cube = cube::admitted(layout, elements.len(), bytes)?;
    check_values(layout.precision, elements)?;
    let (next, [row, column]) = (full(cube.precision), [cube.height - 1, cube.width - 1]);
    let line = cube.position(0, 1, 0) - cube.position(0, 0, column);
    let surface = cube.position(next, 0, 0) - cube.position(0, row, column);
    let group = index(&cube, next, 0, 0) - index(&cube, 0, row, column);
    let [first, plane] = [cube.position(0, 0, 0), index(&cube, 1, 0, 0)];
    let [width, height, channels, precision] = [layout.width, layout.height, layout.channels, layout.precision].map(|word| word as usize);
    Ok([first, 0, width, height, channels, precision, width, height, plane, line, surface, group].map(|word| word as u64))
}

/// All atoms in their order; all is checked.
pub fn atoms(layout: Layout, elements: &[i16]) -> Vec<Atom> {
    let cube = cube::checked(layout).expect("a valid layout");
    let mut atoms = Vec::new();
    each!(surface in 0..cube.surfaces(), h in 0..cube.height, w in 0..cube.width => {
        let first = surface * full(cube.precision);
        let (position, mut bytes) = (cube.position(first, h, w), [0; Atom::BYTES]);
        for c in first..cube.channels.min(first + full(cube.precision)) {
            let element = elements[index(&cube, c, h, w)];
            write(cube.precision, &[element], &mut bytes, once(cube.position(c, h, w) - position));
        }
        atoms.push(Atom { position: position as u64, bytes });
    });
    atoms
}

/// Why a step goes where it goes: to the next column, row or surface, or behind the last atom; none was left, or a sum would pass 64 bits.
#[derive(Clone, Copy, Debug, PartialEq)]
pub enum Way {
    Column,
    Row,
    Surface,
    End,
    NoneLeft,
    PositionPast,
    IndexPast,
}

/// A step of a walk of any words: the atom, where one is given, and the words behind it.
pub fn step(words: &mut [u64; Walk::WORDS], elements: &[i16]) -> (Way, Option<Atom>) {
    let [position, index, columns, rows, channels, precision, width, height, plane, line, surface, group] = words.map(i128::from);
    let full = full(precision);
    let (way, left, bytes, on) = match (columns > 1, rows > 1, channels > full) {
        (true, _, _) => (Way::Column, [columns - 1, rows, channels], 32, 1),
        (_, true, _) => (Way::Row, [width, rows - 1, channels], line, 1),
        (_, _, true) => (Way::Surface, [width, height, channels - full], surface, group),
        _ => (Way::End, [0; 3], 0, 0),
    };
    let most = i128::from(u64::MAX);
    match (channels, position + bytes > most, index + on > most) {
        (0, _, _) => return (Way::NoneLeft, None),
        (_, true, _) => return (Way::PositionPast, None),
        (_, _, true) => return (Way::IndexPast, None),
        _ => {}
    }
    let mut atom = Atom { position: words[0], bytes: [0; Atom::BYTES] };
    for c in 0..channels.min(full) {
        let at = usize::try_from(index + c * plane).ok();
        let element = at.and_then(|at| elements.get(at)).copied().unwrap_or(0);
        write(precision, &[element], &mut atom.bytes, once((c * bytes_of(precision)) as usize));
    }
    let [columns, rows, channels] = left;
    words[..5].copy_from_slice(&[position + bytes, index + on, columns, rows, channels].map(|word| word as u64));
    (way, Some(atom))
}
