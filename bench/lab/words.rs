//! Lines cut into words: how a header is read, and how the fault of a line is found.

use crate::line::{COUNTS, Form};
use crate::terms::Sizes;

const NO_HEADER: u8 = 1;
const BAD_WORD: u8 = 2;
const BAD_NUMBER: u8 = 3;
const TOO_BIG: u8 = 4;
const NO_NEWLINE: u8 = 5;
const TRAILING_TEXT: u8 = 6;

const ANY: (u64, u64) = (0, u64::MAX);
const WIDTHS: (u64, u64) = (2, 8);

/// The first line of a text without its line feed, or the fault of a line that has none.
fn whole_line(text: &[u8]) -> Result<&[u8], u8> {
    let end = text.iter().position(|byte| *byte == b'\n').ok_or(NO_NEWLINE)?;
    Ok(&text[..end])
}

fn words_of(line: &[u8]) -> Vec<&[u8]> {
    line.split(|byte| *byte == b' ').collect()
}

/// The number that a word writes, within bounds.
fn number(word: Option<&&[u8]>, (least, most): (u64, u64)) -> Result<u64, u8> {
    let word = word.ok_or(BAD_NUMBER)?;
    let led_by_zero = word.len() > 1 && word[0] == b'0';
    if word.is_empty() || led_by_zero || !word.iter().all(u8::is_ascii_digit) {
        return Err(BAD_NUMBER);
    }
    let digits = word.iter().map(|byte| u64::from(byte - b'0'));
    let number = digits.fold(Some(0u64), |sum, digit| sum?.checked_mul(10)?.checked_add(digit));
    match number {
        Some(number) if number < least => Err(BAD_NUMBER),
        Some(number) if number <= most => Ok(number),
        _ => Err(TOO_BIG),
    }
}

/// Reads the header of a text, which begins with this word. The rest of the text stands beside the sizes.
pub fn header<'a>(text: &'a [u8], first: &str, limited: bool) -> Result<(Sizes, &'a [u8]), u8> {
    if text.is_empty() {
        return Err(NO_HEADER);
    }
    let line = whole_line(text)?;
    Ok((sizes_of(&words_of(line), first, limited)?, &text[line.len() + 1..]))
}

/// The sizes that a header names: two fixed words, and then a name before each number.
fn sizes_of(words: &[&[u8]], first: &str, limited: bool) -> Result<Sizes, u8> {
    let version = if words.get(1) == Some(&&b"2"[..]) { "2" } else { "1" };
    let named = [("procs", true), ("limit", limited), ("cap", true), ("width", version == "2")];
    let names: Vec<&str> = named.iter().filter(|name| name.1).map(|name| name.0).collect();
    let is_at = |at: usize, name: &str| words.get(at).is_some_and(|word| *word == name.as_bytes());
    let behind = names.iter().enumerate().all(|(i, name)| is_at(2 + 2 * i, name));
    if !(is_at(0, first) && is_at(1, version) && behind) {
        return Err(NO_HEADER);
    }
    let mut sizes = Sizes { procs: 0, limit: 1, cap: 0, width: 1 };
    for (i, name) in names.iter().enumerate() {
        let word = words.get(3 + 2 * i);
        match *name {
            "procs" => sizes.procs = number(word, ANY)?,
            "limit" => sizes.limit = number(word, ANY)?,
            "cap" => sizes.cap = number(word, ANY)?,
            _ => sizes.width = number(word, WIDTHS)? as usize,
        }
    }
    if words.len() > 2 + 2 * names.len() { Err(TRAILING_TEXT) } else { Ok(sizes) }
}

/// The fault of the line that a text begins with, which could not be read.
#[cold]
pub fn fault_of<F: Form>(text: &[u8], width: usize) -> u8 {
    whole_line(text).and_then(|line| check::<F>(&words_of(line), width)).err().expect("a line that can't be read")
}

fn check<F: Form>(words: &[&[u8]], width: usize) -> Result<(), u8> {
    let first = [words[0], b" "].concat();
    let (form, _) = F::named(&first).ok_or(BAD_WORD)?;
    let mut most = 2 + form.numbers(width);
    for at in 1..most {
        number(words.get(at), ANY)?;
    }
    if form.may_count() && words.len() > most {
        number(words.get(most), COUNTS)?;
        most += 1;
    }
    if words.len() > most { Err(TRAILING_TEXT) } else { Ok(()) }
}
