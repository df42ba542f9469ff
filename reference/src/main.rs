//! Writes expected output for the shuffle f(x) = (f1·x + f2·x²) mod K, straight from the definitions.
//! Plain on purpose, and slow. Whether f permutes is seen from all its values; the reciprocal is found by
//! trying every number below K, ARP's Q by trying the divisors of K upwards, the spread by trying s downwards
//! (shuffle.rs); the inverse polynomial by linear algebra over the whole numbers (inverting.rs); why f does not
//! permute by comparing positions, and by trying the primes of K upwards (explaining.rs); the bits of the turbo
//! encoder as sums of earlier ones (coding.rs).

// Remainders are written out as in the definitions.
#![allow(clippy::manual_is_multiple_of)]

mod ask;
mod ask_input;
mod card_input;
mod cards;
mod coding;
mod degrees;
mod explaining;
mod inverting;
mod line;
mod rows;
mod shuffle;

#[cfg(test)]
mod tests;

use std::io::{self, BufWriter, Read, Write};
use std::process::ExitCode;

fn input() -> io::Result<Vec<u8>> {
    let mut input = Vec::new();
    io::stdin().lock().read_to_end(&mut input)?;
    Ok(input)
}

fn run(what: &str, out: &mut impl Write) -> io::Result<bool> {
    match what {
        "ask" => ask::write(&input()?, out)?,
        "ask-input" => ask_input::write(out)?,
        "cards" => cards::write(&input()?, out)?,
        "card-input" => card_input::write(out)?,
        "degrees" => degrees::write(out)?,
        _ => return Ok(false),
    }
    out.flush()?;
    Ok(true)
}

fn main() -> ExitCode {
    let what = std::env::args().nth(1).unwrap_or_default();
    let mut out = BufWriter::new(io::stdout().lock());
    match run(&what, &mut out) {
        Ok(true) => ExitCode::SUCCESS,
        Ok(false) => {
            eprintln!("usage: reference ask|ask-input|cards|card-input|degrees");
            ExitCode::from(2)
        }
        Err(error) => {
            eprintln!("{error}");
            ExitCode::FAILURE
        }
    }
}
