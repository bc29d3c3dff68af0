//! Sheets: records, and the state between the parts of the input.

use super::{cube, refuse, regions};
use olsketina::{Answer, Layout, Refusal, Region, Row, Sheet, Table};

const LONGEST_LINE: u32 = 120;

/// Digits up to 4294967295, no leading zero save 0 itself.
fn number(field: &[u8]) -> Option<u32> {
    let readable = field.iter().all(u8::is_ascii_digit) && (field == b"0" || !field.starts_with(b"0"));
    std::str::from_utf8(field).ok().filter(|_| readable)?.parse().ok()
}

/// The name and the numbers of a line.
fn fields(line: &[u8]) -> Option<(&[u8], Vec<u32>)> {
    let mut fields = line.split(|&byte| byte == b'\t');
    let name = fields.next()?;
    let numbers: Option<Vec<u32>> = fields.map(number).collect();
    Some((name, numbers?))
}

/// The state's words: lines ended (low, high), length of the line in progress, whether a frame was accepted, the table.
const LINES_LOW: usize = 0;
const LINES_HIGH: usize = 1;
const LENGTH: usize = 2;
const FRAMED: usize = 3;
pub const TABLE: usize = 4;

/// The value of a line; an accepted frame, stall or leave changes the state.
fn apply(state: &mut [u32], line: &[u8]) -> Answer<u64> {
    let mut table = Table::from_words(std::array::from_fn(|at| state[TABLE + at]));
    let framed = state[FRAMED] != 0;
    let Some((name, numbers)) = fields(line) else { return refuse(Refusal::SCRIPT_LINE) };
    let value = match (name, &numbers[..]) {
        (b"frame", &[width, height, channels, precision, line, surface, start]) => {
            let layout = Layout { width, height, channels, precision, line, surface, start };
            let extent = cube::extent(layout)?;
            table = regions::empty(layout);
            if !framed {
                state[FRAMED] = 1;
            }
            extent
        }
        (b"stall", [_, _, _, _, _, _]) | (b"cell", [_, _, _, _, _]) | (b"leave", [_, _]) if !framed => return refuse(Refusal::SIZE),
        (b"stall", &[slot, column, row, columns, rows, id]) => {
            regions::place(&mut table, slot, id, Region { column, row, columns, rows })?;
            [columns, rows, table.words()[2]].map(u64::from).iter().product()
        }
        (b"cell", &[slot, channel, row, column, id]) => regions::position(&table, slot, id, channel, row, column)?,
        (b"leave", &[slot, id]) => {
            let cleared = regions::count(&table, slot, id)?;
            table = regions::with_slot(&table, slot as usize, [0; regions::SLOT]);
            cleared
        }
        _ => return refuse(Refusal::SCRIPT_LINE),
    };
    state[TABLE..].copy_from_slice(table.words());
    Ok(value)
}

/// Ends the line in progress.
fn end_line(sheet: &mut Sheet) -> Row {
    let Sheet { state, text } = sheet;
    let length = state[LENGTH];
    let answer = if length <= LONGEST_LINE { apply(state, &text[..length as usize]) } else { refuse(Refusal::SCRIPT_LINE) };
    let lines = u64::from(state[LINES_LOW]) + (u64::from(state[LINES_HIGH]) << 32);
    let line = lines.wrapping_add(1);
    state[LINES_LOW] = (line % (1 << 32)) as u32;
    state[LINES_HIGH] = (line >> 32) as u32;
    state[LENGTH] = 0;
    Row { line, answer }
}

pub fn begin() -> Sheet {
    Sheet { state: [0; TABLE + Table::WORDS], text: [0; LONGEST_LINE as usize] }
}

pub fn feed(sheet: &mut Sheet, part: &[u8]) -> (usize, Option<Row>) {
    for (read, &byte) in part.iter().enumerate() {
        if byte == b'\n' {
            return (read + 1, Some(end_line(sheet)));
        }
        let length = sheet.state[LENGTH];
        if length < LONGEST_LINE {
            sheet.text[length as usize] = byte;
        }
        sheet.state[LENGTH] = length.min(LONGEST_LINE) + 1;
    }
    (part.len(), None)
}

pub fn finish(sheet: &mut Sheet) -> Option<Row> {
    (sheet.state[LENGTH] != 0).then(|| end_line(sheet))
}

/// What a sheet prints of a line.
pub fn text(row: &Row) -> Vec<u8> {
    let (number, value) = match row.answer {
        Ok(value) => (0, value),
        Err(refusal) => (refusal.number, 0),
    };
    format!("{}\t{number}\t{value}\n", row.line).into_bytes()
}
