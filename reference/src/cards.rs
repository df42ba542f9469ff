//! The card program.

use crate::inverting::inverse;
use crate::line::Line;
use crate::shuffle::{arp, spread, Triple, DONE};
use std::io::{self, Write};

pub fn write(input: &[u8], out: &mut impl Write) -> io::Result<()> {
    let mut rest = input;
    while let Some(end) = rest.iter().position(|&byte| byte == b'\n') {
        card(&rest[..end]).write(out)?;
        rest = &rest[end + 1..];
    }
    // Whatever it holds, a last line without its newline is not a line of the form asked for.
    if !rest.is_empty() {
        unreadable().write(out)?;
    }
    Ok(())
}

fn unreadable() -> Line {
    let mut line = Line::new();
    line.add("unreadable");
    line
}

/// The card for one line, given without its newline.
fn card(text: &[u8]) -> Line {
    let Some(t) = read_triple(text) else {
        return unreadable();
    };
    let inverse = inverse(t);
    let mut line = Line::new();
    line.add_all([t.k, t.f1, t.f2]);
    if inverse.number != DONE {
        line.add("refused").add(inverse.number);
        return line;
    }
    let arp = arp(t);
    line.add("ok").add(inverse.degree);
    line.add_all(&inverse.places[..inverse.degree as usize]);
    line.add_all([arp.p, arp.q, spread(t)]);
    line
}

fn read_triple(text: &[u8]) -> Option<Triple> {
    let words: Vec<&[u8]> = text.split(|&byte| byte == b' ').collect();
    match words[..] {
        [k, f1, f2] => Some(Triple::new(read_number(k)?, read_number(f1)?, read_number(f2)?)),
        _ => None,
    }
}

fn read_number(word: &[u8]) -> Option<u32> {
    if word.is_empty() || word.len() > 5 || !word.iter().all(u8::is_ascii_digit) {
        return None;
    }
    Some(word.iter().fold(0, |number, digit| 10 * number + (digit - b'0') as u32))
}
