//! Sheets: whole ones and parts of them, records of every kind, states of any words.

use crate::both::{number, same, start, Both};
use crate::draw::{with_slot, Generator, EDGES};
use crate::reference::{self, each};
use olsketina::{raw, Refusal, Row, Sheet, Table};

/// A sheet in progress, alike on both sides after every part, the rows of its lines, and the counts of their answers.
struct Session {
    sheet: Sheet,
    rows: Vec<Row>,
    both: Both,
}

fn session(seed: u64) -> (Generator, Session) {
    let (g, both) = start(seed);
    (g, Session { sheet: reference::sheet::begin(), rows: Vec::new(), both })
}

impl Session {
    /// Feeds a part, or finishes, on both sides; gives how much was read.
    fn call(&mut self, part: Option<&[u8]>) -> usize {
        let (before, mut theirs) = (self.sheet, self.sheet);
        let (given, plain) = match part {
            Some(part) => (self.sheet.feed(part), reference::sheet::feed(&mut theirs, part)),
            None => ((0, self.sheet.finish()), (0, reference::sheet::finish(&mut theirs))),
        };
        let shown = part.map(<[u8]>::escape_ascii);
        let case = format_args!("{shown:?} on {before:?}");
        same("bytes read, row", &[given], &[plain], case);
        same("state", &self.sheet.state, &theirs.state, case);
        same("text", &self.sheet.text, &theirs.text, case);
        self.both.note("parts", 0, 1);
        if let (_, Some(row)) = given {
            self.both.note("lines", number(&row.answer), 1);
            same("row's text", &row.text(), &reference::sheet::text(&row), case);
            self.rows.push(row);
        }
        given.0
    }

    /// Feeds a part until it is read.
    fn feed(&mut self, mut part: &[u8]) {
        while !part.is_empty() {
            let read = self.call(Some(part));
            part = &part[read..];
        }
    }

    /// A whole sheet in parts that end at these indices, and at its end; gives its rows.
    fn whole(&mut self, input: &[u8], cuts: &[usize]) -> Vec<Row> {
        self.sheet = Sheet::begin();
        assert_eq!(self.sheet, reference::sheet::begin());
        self.rows.clear();
        let mut from = 0;
        for &cut in cuts.iter().chain([&input.len()]) {
            self.feed(&input[from..cut]);
            from = cut;
        }
        self.call(None);
        self.rows.clone()
    }

    /// A line on a sheet; gives its answer.
    fn line(&mut self, sheet: &Sheet, line: &[u8]) -> u32 {
        self.sheet = *sheet;
        self.rows.clear();
        self.feed(&[line, b"\n"].concat());
        number(&self.rows[0].answer)
    }
}

/// All that a line can be answered.
const ANSWERS: &str = "lines: 0 1 2 3 4 8 9 10 24 25; parts: 0";

const FRAME: &str = "frame\t3\t2\t40\t0\t128\t256\t0\n";

/// A sheet that has read the paper's frame and a stall.
fn framed() -> Sheet {
    let (_, mut session) = session(0);
    session.feed(format!("{FRAME}stall\t1\t1\t0\t2\t1\t3\n").as_bytes());
    session.sheet
}

fn joined(name: &str, numbers: &[u32]) -> Vec<u8> {
    let fields: Vec<String> = numbers.iter().map(|number| format!("\t{number}")).collect();
    format!("{name}{}", fields.concat()).into_bytes()
}

/// A record, whose numbers are right most often; damaged one of these numbers of times.
fn any_line(g: &mut Generator, damages: &[u64]) -> Vec<u8> {
    let (name, odds, mut numbers) = match g.below(10) {
        0 => ("frame", 2, <[u32; 7]>::from(g.small_layout()).to_vec()),
        1..=4 => ("stall", 6, vec![g.among(0, 4), g.among(0, 5), g.among(0, 2), g.among(1, 4), g.among(1, 2), g.among(1, 3)]),
        5 => ("leave", 6, vec![g.among(0, 4), g.among(1, 3)]),
        _ => ("cell", 6, vec![g.among(0, 4), g.among(0, 20), g.among(0, 1), g.among(0, 2), g.among(1, 3)]),
    };
    g.damage(odds, &mut numbers);
    let mut line = joined(name, &numbers);
    for _ in 0..g.pick(damages) {
        if !line.is_empty() {
            damage_line(g, &mut line);
        }
    }
    line
}

fn damage_line(g: &mut Generator, line: &mut Vec<u8>) {
    let at = g.index(line.len());
    match g.below(14) {
        0 => line.push(b'\t'),
        1 => line.push(b'\r'),
        2 => line.clear(),
        3 => drop(line.remove(at)),
        4 => line[at] = g.pick(b"\t 0a+-\r\0\xff/:"),
        5 => line.insert(at, g.pick(b"\t 0a9+-\r\0\xff/:")),
        6 => line.extend(b"\t0"),
        7 => line.resize(g.between(119, 124) as usize, b'7'),
        8 => line.resize(g.between(125, 400) as usize, b'\t'),
        // A zero before the first number; no last number.
        9 => line.insert(line.iter().position(|&byte| byte == b'\t').map_or(at, |tab| tab + 1), b'0'),
        10 => line.truncate(line.iter().rposition(|byte| !byte.is_ascii_digit()).map_or(0, |last| last + 1)),
        11 => line.insert(0, g.pick(b"\t fscl")),
        12 => line[0] = line[0].to_ascii_uppercase(),
        _ => line.extend(g.pick(&[&b"4294967296"[..], b"00", b"9", b"\t4294967295"])),
    }
}

/// Lines that end in newlines; the last one may lack its own.
fn any_sheet(g: &mut Generator, count: u64) -> Vec<u8> {
    let mut lines = Vec::new();
    if !g.one_in(4) {
        let precision = g.among(0, 2);
        lines.push(joined("frame", &<[u32; 7]>::from(g.layout(6, 3, 21, precision))));
    }
    lines.extend((0..count).map(|_| any_line(g, &[0, 0, 1])));
    [lines.join(&b'\n'), g.pick(&[&b""[..], b"\n", b"\n", b"\n\n"]).to_vec()].concat()
}

/// One row for each newline, and one for a last line without. Of some sheets each cut in two gives the same rows; so do single bytes and parts of
/// any length.
#[test]
fn whole_sheets_and_their_parts() {
    let (mut g, mut session) = session(100);
    for round in 0..10800 {
        let lines = if round < 200 { 8 } else { g.below(40) };
        let input = any_sheet(&mut g, lines);
        let rows = session.whole(&input, &[]);
        let newlines = input.iter().filter(|&&byte| byte == b'\n').count();
        let unended = input.last().is_some_and(|&byte| byte != b'\n');
        assert!(rows.iter().map(|row| row.line).eq(1..=(newlines + usize::from(unended)) as u64));
        if round < 200 {
            let mut cuts: Vec<Vec<usize>> = (0..=input.len()).map(|cut| vec![cut]).collect();
            cuts.push((0..input.len()).collect());
            cuts.extend((0..20).map(|_| (0..input.len()).filter(|_| g.one_in(9)).collect()));
            cuts.iter().for_each(|cuts| assert_eq!(session.whole(&input, cuts), rows));
        }
    }
    session.both.expect(ANSWERS);
}

/// Lines of every length around 120, of every filling byte, and very long ones; the next line is read as itself.
#[test]
fn long_lines() {
    let (_, mut session) = session(111);
    each!(length in (0..=130).chain([240, 241, 1000, 70000]), byte in [b'0', b'\t', b'x', 0, b'\r', 255], start in [&b""[..], b"frame\t", b"cell\t0\t0\t0\t0\t1"] => {
        let mut line = start.to_vec();
        line.resize(start.len().max(length), byte);
        let input = [FRAME.as_bytes(), &line, b"\nstall\t0\t0\t0\t2\t2\t1\ncell\t0\t33\t1\t1\t1"].concat();
        let rows = session.whole(&input, &[]);
        let cuts: Vec<usize> = (0..input.len()).step_by(50).collect();
        assert_eq!(session.whole(&input, &cuts), rows);
        assert_eq!((rows.len(), rows[3]), (4, Row { line: 4, answer: Ok(417) }));
    });
    session.both.expect("lines: 0 8 24; parts: 0");
}

/// The readings that the paper's words leave to a reader: the answers, line by line.
#[test]
fn readings() {
    let (_, mut session) = session(112);
    let mut answers = |input: &str| -> Vec<u32> {
        let rows = session.whole(input.as_bytes(), &[]);
        rows.iter().map(|row| number(&row.answer)).collect()
    };
    assert_eq!(answers(""), []);
    assert_eq!(answers(FRAME), [0]);
    assert_eq!(answers(&format!("{FRAME}\n")), [0, 24]);
    assert_eq!(answers(&FRAME.replace('\n', "\r\n")), [24]);
    assert_eq!(answers(&FRAME.replace('\n', "\t\n")), [24]);
    assert_eq!(answers("stall\t16\t0\t0\t0\t0\t0\n"), [1]);
    assert_eq!(answers("stall\t16\t0\t0\t0\t0\n"), [24]);
    assert_eq!(answers("frame\t0\t2\t40\t0\t128\t256\t0\ncell\t0\t0\t0\t0\t0\nleave\t16\t0\nleave\t0"), [1, 1, 1, 24]);
    let stall = format!("{FRAME}stall\t0\t0\t0\t2\t2\t5\n");
    let cells = "cell\t0\t33\t1\t1\t5\ncell\t0\t40\t0\t0\t5\ncell\t1\t0\t0\t0\t0\nstall\t1\t0\t0\t0\t1\t5\n";
    assert_eq!(answers(&format!("{stall}frame\t3\t2\t40\t3\t128\t256\t0\n{cells}")), [0, 0, 2, 0, 9, 8, 9]);
    assert_eq!(answers(&format!("{stall}{FRAME}cell\t0\t0\t0\t0\t5\n")), [0, 0, 0, 8]);
    let ids = "stall\t0\t0\t0\t0\t0\t0\nstall\t0\t0\t0\t0\t0\t5\nstall\t1\t0\t0\t0\t0\t65536\ncell\t0\t40\t0\t0\t6\ncell\t1\t0\t0\t0\t0\n";
    assert_eq!(answers(&format!("{stall}{ids}")), [0, 0, 25, 8, 25, 25, 8]);
    let leaves = "leave\t0\t6\nleave\t1\t5\nleave\t0\t5\nleave\t0\t5\nstall\t0\t1\t1\t1\t1\t6\nleave\t0\t6\n";
    assert_eq!(answers(&format!("{stall}{leaves}")), [0, 0, 25, 8, 0, 8, 0, 0]);
    let wide =
        "frame\t1\t1\t8192\t1\t32\t4294967264\t4294967264\nframe\t8192\t8192\t8192\t0\t262144\t2147483648\t0\nstall\t0\t0\t0\t8192\t8192\t65535\nleave\t0\t65535";
    let values = session.whole(wide.as_bytes(), &[]).into_iter().map(|row| row.answer);
    assert!(values.eq([2194728271936, 549755813888, 549755813888, 549755813888].map(Ok)));
    session.both.expect("lines: 0 1 2 8 9 24 25; parts: 0");
}

/// The words before the table (lines that ended, length of the line in progress, whether there is a frame), then the table.
fn state(words: [u32; reference::sheet::TABLE], table: Table) -> [u32; raw::STATE_WORDS] {
    let all = [&words[..], table.words()].concat();
    all.try_into().expect("all words")
}

/// States of any words, with a part of a record as the line in progress.
#[test]
fn hand_made_states() {
    let (mut g, mut session) = session(102);
    for _ in 0..64000 {
        let layout = g.layout(6, 3, 21, 0);
        let line = any_line(&mut g, &[0, 0, 1]);
        let held = g.index(line.len() + 1).min(120);
        let mut rest = line[held..].to_vec();
        let mut text: [u8; 120] = std::array::from_fn(|_| g.word() as u8);
        text[..held].copy_from_slice(&line[..held]);
        let mut length = held as u32;
        if g.one_in(8) {
            length = g.pick(&[0, 1, 119, 120, 121, 122, 5000, 1 << 31, u32::MAX - 1, u32::MAX]);
            rest.truncate(g.pick(&[0, rest.len()]));
        }
        let lines = [g.pick(&[0, 1, u32::MAX - 1, u32::MAX]), g.pick(&[0, 1, u32::MAX])];
        let framed = g.pick(&[0, 1, 2, 1 << 31, u32::MAX]);
        match g.below(3) {
            0 => rest.push(b'\n'),
            1 => rest.extend([b"\n", &any_line(&mut g, &[0, 0, 1])[..]].concat()),
            _ => {}
        }
        session.sheet = Sheet { state: state([lines[0], lines[1], length, framed], g.any_table(layout, 4)), text };
        session.feed(&rest);
        if g.one_in(2) {
            session.call(Some(b""));
        }
        session.call(None);
        session.call(None);
    }
    session.both.expect(ANSWERS);
}

/// An accepted frame on a state of other words: the words that already say so stay, every slot is empty.
#[test]
fn words_that_stay() {
    let (_, mut session) = session(105);
    let lines = [
        FRAME, "frame\t0\t2\t40\t0\t128\t256\t0\n", "stall\t15\t0\t0\t1\t1\t3\n", "cell\t0\t0\t0\t0\t3\n", "leave\t0\t3\n", "none\n",
        "part", "",
    ];
    each!(framed in [0, 1, 2, u32::MAX], placed in [0, 1, 2, u32::MAX], line in lines => {
        let mut table = with_slot([3, 2, 40, 0, 128, 256, 0].into(), 15, [0, 1, 1, 1, 1, 1]);
        for slot in 0..15 {
            table = reference::regions::with_slot(&table, slot, [placed, 3, 1, 1, 1, 1]);
        }
        session.sheet = Sheet { state: state([0, 0, 0, framed], table), text: [b'y'; 120] };
        session.call(Some(line.as_bytes()));
        session.call(None);
    });
    session.both.expect("lines: 0 1 8 24; parts: 0");
}

/// Records good and damaged, each on a sheet of its own.
#[test]
fn records() {
    let (mut g, mut session) = session(103);
    let framed = framed();
    for _ in 0..200_000 {
        session.line(&framed, &any_line(&mut g, &[0, 1, 2]));
    }
    for _ in 0..50_000 {
        let line: Vec<u8> = (0..g.below(140)).map(|_| g.pick(b"framestallcellleave\t\t\t0123456789\n")).collect();
        session.line(&framed, &line);
    }
    session.both.expect(ANSWERS);
}

/// What is printed of rows of any numbers.
#[test]
fn texts() {
    let (mut g, mut both) = start(104);
    each!(digits in 0..64, number in EDGES, _ in 0..10 => {
        let [line, value] = [g.word() >> digits, g.word() >> g.below(64)];
        let answer = if number == 0 { Ok(value) } else { Err(Refusal { number, fault: 0 }) };
        let row = Row { line, answer };
        same("row's text", &row.text(), &reference::sheet::text(&row), format_args!("{row:?}"));
        both.note("script_row_text", 0, 1);
    });
    assert_eq!(Row { line: u64::MAX, answer: Ok(u64::MAX) }.text(), b"18446744073709551615\t0\t18446744073709551615\n");
    both.expect("script_row_text: 0");
}

/// Numbers at and past their limits, in every field of every record.
#[test]
fn numbers_in_every_field() {
    let (_, mut session) = session(114);
    let framed = framed();
    let numbers = "0 1 9 10 00 01 007 4294967295 4294967296 4294967299 4294967300 4300000000 5000000000 9999999999 04294967295 10000000000 \
        42949672950 18446744073709551615 18446744073709551616 18446744073709551617 340282366920938463463374607431768211456 -1 +1 1.0 0x1 1e3 ٣";
    let odd = ["", "1 ", " 1", "1\n", "\r"];
    let good = [("frame", "3 2 40 0 128 256 0"), ("stall", "0 0 0 1 2 3"), ("cell", "1 33 0 1 3"), ("leave", "1 3")];
    for (name, good) in good {
        let right: Vec<&str> = good.split(' ').collect();
        for fields in 0..=right.len() + 2 {
            each!(at in 0..fields, number in numbers.split(' ').chain(odd) => {
                let field = |field| format!("\t{}", if field == at { number } else { right.get(field).unwrap_or(&"3") });
                let line: String = name.to_string() + &(0..fields).map(field).collect::<String>();
                session.line(&framed, line.as_bytes());
            });
            let bare = format!("{name}{}", "\t1".repeat(fields));
            assert_eq!(session.line(&framed, bare.as_bytes()) != 24, fields == right.len(), "{bare:?}");
        }
    }
    let names = [
        "", "f", "fram", "framee", "Frame", "FRAME", "stalls", "stal", "cel", "cells", "cell ", " cell", "frame\0", "cell\r", "call",
        "leav", "leaves", "Leave", "leave ", "leafe",
    ];
    each!(name in names, count in 0..9 => {
        let line = format!("{name}{}", "\t1".repeat(count));
        session.line(&framed, line.as_bytes());
        session.line(&framed, format!("\t{line}").as_bytes());
    });
    session.both.expect(ANSWERS);
}
