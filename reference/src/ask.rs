//! The ask program: an answer for each line.

use crate::coding::{encode, row};
use crate::explaining::explain;
use crate::inverting::inverse;
use crate::shuffle::*;
use std::io::{self, Write};

const LONGEST_LINE: usize = 65535;
const LONGEST_LIST: usize = 8200;

pub fn write(input: &[u8], out: &mut impl Write) -> io::Result<()> {
    let mut lines: Vec<&[u8]> = input.split(|&byte| byte == b'\n').collect();
    // What comes after the last newline is a line only if it holds something.
    if lines.last().is_some_and(|line| line.is_empty()) {
        lines.pop();
    }
    for line in lines {
        out.write_all(&answer(line))?;
        out.write_all(b"\n")?;
    }
    Ok(())
}

fn answer(line: &[u8]) -> Vec<u8> {
    if line.len() > LONGEST_LINE {
        return format!("? a line of more than {LONGEST_LINE} bytes").into_bytes();
    }
    let words = line.split(|&byte| byte == b' ').filter(|word| !word.is_empty()).collect();
    let mut words = Words { words, taken: 0 };
    match words.call() {
        Ok(answer) => answer.0.join(&b' '),
        Err(what) => format!("? word {}: {what}", words.taken).into_bytes(),
    }
}

/// The words of an answer.
struct Answer(Vec<Vec<u8>>);

impl Answer {
    fn new(fields: impl IntoIterator<Item = u32>) -> Answer {
        Answer(fields.into_iter().map(|n| n.to_string().into_bytes()).collect())
    }

    fn with<T: ToString>(mut self, list: &[T]) -> Answer {
        let entries: Vec<String> = list.iter().map(T::to_string).collect();
        let word = if list.is_empty() { "-".to_string() } else { entries.join(",") };
        self.0.push(word.into_bytes());
        self
    }

    fn with_text(mut self, text: &[u8]) -> Answer {
        self.0.push(text.to_vec());
        self
    }
}

/// The words of a line, and how many of them were asked for: the last of these is the one that is wrong.
struct Words<'a> {
    words: Vec<&'a [u8]>,
    taken: usize,
}

type Read<T> = Result<T, String>;

fn wrong<T>(what: &str) -> Read<T> {
    Err(what.to_string())
}

impl<'a> Words<'a> {
    fn next(&mut self) -> Read<&'a [u8]> {
        self.taken += 1;
        self.words.get(self.taken - 1).copied().ok_or("too few words".to_string())
    }

    fn end(&mut self) -> Read<()> {
        if self.next().is_ok() {
            return wrong("too many words");
        }
        Ok(())
    }

    fn number(&mut self) -> Read<u32> {
        let word = self.next()?;
        if word.is_empty() || !word.iter().all(u8::is_ascii_digit) {
            return wrong("no number");
        }
        u32::try_from(size(word)).or(wrong("a number above 4294967295"))
    }

    fn triple(&mut self) -> Read<Triple> {
        Ok(Triple::new(self.number()?, self.number()?, self.number()?))
    }

    fn list<T: TryFrom<i64>>(&mut self) -> Read<Vec<T>> {
        let word = self.next()?;
        let mut list = Vec::new();
        if word == b"-" {
            return Ok(list);
        }
        for entry in word.split(|&byte| byte == b',') {
            let (value, count) = split_entry(entry).ok_or("no list".to_string())?;
            if T::try_from(value).is_err() {
                return wrong("an entry out of range");
            }
            if list.len() as u64 + count > LONGEST_LIST as u64 {
                return wrong(&format!("a list of more than {LONGEST_LIST} entries"));
            }
            list.extend((0..count).filter_map(|_| T::try_from(value).ok()));
        }
        Ok(list)
    }

    /// Bytes, and whether they came as a text.
    fn bytes(&mut self) -> Read<(Vec<u8>, bool)> {
        let texts = self.words.get(self.taken).filter(|word| word[0].is_ascii_alphabetic());
        let Some(text) = texts else {
            return Ok((self.list()?, false));
        };
        self.taken += 1;
        if text.len() > LONGEST_LIST {
            return wrong(&format!("a list of more than {LONGEST_LIST} entries"));
        }
        Ok((text.to_vec(), true))
    }

    fn call(&mut self) -> Read<Answer> {
        let name = self.next()?;
        match name {
            b"accept" => self.numbers(|t| vec![t.acceptance()]),
            b"explain" => self.numbers(reason_of),
            b"address" => self.address(),
            b"reciprocal" => self.numbers(|t| [t.reciprocal().0, t.reciprocal().1].to_vec()),
            b"spread" => self.numbers(spread_of),
            b"inverse" => self.numbers(inverse_of),
            b"arp" => self.arp(),
            b"addresses" => self.addresses(),
            b"walker_start" => self.numbers(started),
            b"walker_step" => self.walker_step(),
            b"interleave_u8" => self.move_bytes(Direction::Interleave),
            b"deinterleave_u8" => self.move_bytes(Direction::Deinterleave),
            b"interleave_i16" => self.move_symbols(Direction::Interleave),
            b"deinterleave_i16" => self.move_symbols(Direction::Deinterleave),
            b"turbo_row" => self.turbo_row(),
            b"turbo_encode" => self.turbo_encode(lists_whole),
            b"turbo_encode_crc" => self.turbo_encode(lists_in_short),
            _ => wrong("no such call"),
        }
    }

    fn numbers(&mut self, fields: fn(Triple) -> Vec<u32>) -> Read<Answer> {
        let t = self.triple()?;
        self.end()?;
        Ok(Answer::new(fields(t)))
    }

    fn address(&mut self) -> Read<Answer> {
        let (t, x) = (self.triple()?, self.number()?);
        self.end()?;
        let (number, value) = t.address(x);
        Ok(Answer::new([number, value]))
    }

    fn walker_step(&mut self) -> Read<Answer> {
        let walker = Walker { triple: self.triple()?, at: self.number()? };
        self.end()?;
        let (number, address, next) = step(walker);
        Ok(Answer::new([number, address].into_iter().chain(fields(next))))
    }

    fn arp(&mut self) -> Read<Answer> {
        let (t, mut list) = (self.triple()?, self.list::<u16>()?);
        self.end()?;
        let mut answer = [t.acceptance(), 0, 0];
        if answer[0] == DONE {
            let form = arp(t);
            if list.len() < form.q as usize {
                answer[0] = SHORT_LIST;
            } else {
                answer = [DONE, form.p, form.q];
                for (entry, shift) in list.iter_mut().zip(form.shifts) {
                    *entry = u16::try_from(shift).unwrap();
                }
            }
        }
        Ok(Answer::new(answer).with(&list))
    }

    fn addresses(&mut self) -> Read<Answer> {
        let (t, mut list) = (self.triple()?, self.list()?);
        self.end()?;
        Ok(Answer::new([address_list(t, &mut list)]).with(&list))
    }

    fn move_bytes(&mut self, direction: Direction) -> Read<Answer> {
        let (t, (mut block, is_text), (mut scratch, _)) = (self.triple()?, self.bytes()?, self.bytes()?);
        self.end()?;
        let answer = Answer::new([move_block(t, &mut block, &mut scratch, direction)]);
        let answer = if is_text { answer.with_text(&block) } else { answer.with(&block) };
        Ok(answer.with(&scratch))
    }

    fn move_symbols(&mut self, direction: Direction) -> Read<Answer> {
        let (t, mut block, (mut scratch, _)) = (self.triple()?, self.list::<i16>()?, self.bytes()?);
        self.end()?;
        let answer = Answer::new([move_block(t, &mut block, &mut scratch, direction)]);
        Ok(answer.with(&block).with(&scratch))
    }

    fn turbo_row(&mut self) -> Read<Answer> {
        let k = self.number()?;
        self.end()?;
        Ok(Answer::new(row(k).map_or([NO_ROW, 0, 0], |row| [DONE, row.f1, row.f2])))
    }

    /// The lists are shown in numbers, in whatever form they came.
    fn turbo_encode(&mut self, shown: fn(u32, &[Vec<u8>; 3]) -> Answer) -> Read<Answer> {
        let (k, (input, _)) = (self.number()?, self.bytes()?);
        let mut lists = [self.bytes()?.0, self.bytes()?.0, self.bytes()?.0];
        self.end()?;
        let number = encode(k, &input, &mut lists);
        Ok(shown(number, &lists))
    }
}

fn lists_whole(number: u32, [d0, d1, d2]: &[Vec<u8>; 3]) -> Answer {
    Answer::new([number]).with(d0).with(d1).with(d2)
}

fn lists_in_short(number: u32, [d0, d1, d2]: &[Vec<u8>; 3]) -> Answer {
    Answer::new([number, crc32(d0), crc32(d1), crc32(d2)])
}

/// The common CRC-32: bit by bit, the lowest first, from ones and turned over at the end.
pub fn crc32(bytes: &[u8]) -> u32 {
    let shifted = |rest: u32| if rest % 2 == 1 { (rest / 2) ^ 0xEDB88320 } else { rest / 2 };
    let taken = |rest: u32, byte: &u8| (0..8).fold(rest ^ *byte as u32, |rest, _| shifted(rest));
    !bytes.iter().fold(u32::MAX, taken)
}

/// The number that some digits stand for. Twelve of them are far above every limit, so longer ones are cut to twelve nines.
fn size(digits: &[u8]) -> u64 {
    let text = std::str::from_utf8(digits).unwrap().trim_start_matches('0');
    match text.len() {
        0 => 0,
        1..=12 => text.parse().unwrap(),
        _ => 999_999_999_999,
    }
}

fn is_size(word: &[u8]) -> bool {
    !word.is_empty() && word.iter().all(u8::is_ascii_digit)
}

/// The value of an entry, and how often it stands.
fn split_entry(entry: &[u8]) -> Option<(i64, u64)> {
    let (value, count) = match entry.iter().position(|&byte| byte == b'*') {
        Some(star) => (&entry[..star], &entry[star + 1..]),
        None => (entry, &b"1"[..]),
    };
    let (sign, digits) = match value.strip_prefix(b"-") {
        Some(digits) => (-1, digits),
        None => (1, value),
    };
    (is_size(digits) && is_size(count)).then(|| (sign * size(digits) as i64, size(count)))
}

fn reason_of(t: Triple) -> Vec<u32> {
    let reason = explain(t);
    vec![reason.number, reason.y, reason.x, reason.address, reason.prime]
}

fn spread_of(t: Triple) -> Vec<u32> {
    let number = t.acceptance();
    vec![number, if number == DONE { spread(t) } else { 0 }]
}

fn inverse_of(t: Triple) -> Vec<u32> {
    let answer = inverse(t);
    [answer.number, answer.degree].into_iter().chain(answer.places).collect()
}

fn fields(walker: Walker) -> [u32; 4] {
    let Walker { triple, at } = walker;
    [triple.k, triple.f1, triple.f2, at]
}

fn started(t: Triple) -> Vec<u32> {
    let (number, walker) = start(t);
    [number].into_iter().chain(fields(walker)).collect()
}
