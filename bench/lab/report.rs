//! Lines written to one buffer of bytes.

use crate::judge::Matter;
use crate::terms::*;
use crate::world::World;

/// Writes a number, after a space.
pub fn number(out: &mut Vec<u8>, number: u64) {
    out.push(b' ');
    digits(out, number);
}

/// Writes digits, two at a time.
fn digits(out: &mut Vec<u8>, number: u64) {
    let digit = |digit| b'0' + digit as u8;
    if number < 10 {
        return out.push(digit(number));
    }
    if number > 99 {
        digits(out, number / 100);
    }
    let two = number % 100;
    out.extend_from_slice(&[digit(two / 10), digit(two % 10)]);
}

/// Writes a line: a word and numbers.
pub fn line(out: &mut Vec<u8>, word: &str, numbers: &[u64]) {
    out.extend_from_slice(word.as_bytes());
    numbers.iter().for_each(|it| number(out, *it));
    out.push(b'\n');
}

/// Writes the line of a deed.
pub fn deed(out: &mut Vec<u8>, act: Act, p: u64, matter: Matter) {
    out.extend_from_slice(act.name().as_bytes());
    number(out, p);
    if act == Act::Show {
        number(out, matter.place);
    }
    matter.message.iter().for_each(|word| number(out, *word));
    out.push(b'\n');
}

/// Writes the line of an answer. The word is what a `get` has read.
pub fn answer(out: &mut Vec<u8>, answer: Answer, p: u64, word: u64) {
    out.extend_from_slice(b"answer");
    number(out, p);
    out.push(b' ');
    out.extend_from_slice(answer.name().as_bytes());
    if answer == Answer::Word {
        number(out, word);
    }
    out.push(b'\n');
}

/// Writes the last words of a report, up to the verdict.
pub fn last_words(out: &mut Vec<u8>, world: &World) {
    for (p, own) in world.lock.iter().enumerate() {
        line(out, "words", &[p as u64, own.choosing, own.number, own.inside]);
    }
    let mail = &world.mail;
    number_behind(out, "mail", mail.count());
    number_behind(out, " closed", mail.closed());
    number_behind(out, " ruined", mail.ruined());
    out.push(b'\n');
    for place in 0..mail.count() {
        number_behind(out, "message", place);
        mail.entry(place).iter().for_each(|word| number(out, *word));
        out.push(b'\n');
    }
}

fn number_behind(out: &mut Vec<u8>, word: &str, it: u64) {
    out.extend_from_slice(word.as_bytes());
    number(out, it);
}
