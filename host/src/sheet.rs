//! A sheet, fed in parts.

use crate::{made, raw, Answer, Refusal};

/// A sheet in progress: its state in words and the line in progress (include/olsketina.h).
#[derive(Clone, Copy, Debug, PartialEq, Eq)]
pub struct Sheet {
    pub state: [u32; raw::STATE_WORDS],
    pub text: [u8; raw::TEXT_BYTES],
}

/// A line that ended: its number, and its value where it was accepted.
#[derive(Clone, Copy, Debug, PartialEq, Eq)]
#[must_use]
pub struct Row {
    pub line: u64,
    pub answer: Answer<u64>,
}

impl Row {
    fn from_words(words: [u64; 5]) -> Option<Row> {
        let [ended, line, number, fault, value] = words;
        debug_assert!(words == [0; 5] || ended == 1 && (if number == 0 { fault } else { value }) == 0, "zeros, or one answer");
        let answer = if number == 0 { Ok(value) } else { Err(Refusal { number: number as u32, fault: fault as usize }) };
        (ended != 0).then_some(Row { line, answer })
    }

    /// What a sheet prints of it.
    #[must_use]
    pub fn text(&self) -> Vec<u8> {
        let (number, value) = self.answer.map_or_else(|refusal| (refusal.number, 0), |value| (0, value));
        printed(|text| unsafe { raw::olsketina_script_row_text(self.line, number, value, text) })
    }
}

/// What a sheet prints first.
#[must_use]
pub fn header_text() -> Vec<u8> {
    printed(|text| unsafe { raw::olsketina_script_header_text(text) })
}

fn printed(call: impl FnOnce(&mut [u8; raw::TEXT_BYTES]) -> u32) -> Vec<u8> {
    let mut text = [255; raw::TEXT_BYTES];
    let length = call(&mut text) as usize;
    debug_assert!(text[length..].iter().all(|&byte| byte == 0));
    text[..length].to_vec()
}

impl Sheet {
    #[must_use]
    pub fn begin() -> Sheet {
        let before = Sheet { state: [u32::MAX; raw::STATE_WORDS], text: [255; raw::TEXT_BYTES] };
        made(before, |sheet| unsafe { raw::olsketina_script_begin(&mut sheet.state, &mut sheet.text) })
    }

    /// Reads a part of the input up to its first newline, or whole: how many bytes it read, and the line that ended.
    #[must_use]
    pub fn feed(&mut self, part: &[u8]) -> (usize, Option<Row>) {
        let mut row = [u64::MAX; 5];
        let read = unsafe { raw::olsketina_script_feed(&mut self.state, &mut self.text, part.as_ptr(), part.len(), &mut row) };
        (read, Row::from_words(row))
    }

    /// The end of the input: a last line may lack its newline.
    #[must_use]
    pub fn finish(&mut self) -> Option<Row> {
        Row::from_words(made([u64::MAX; 5], |row| unsafe { raw::olsketina_script_finish(&mut self.state, &mut self.text, row) }))
    }
}
