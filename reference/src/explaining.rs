//! Why a triple in range is no shuffle, straight from the definitions: each position is held against all before
//! it, and each prime of K, from the least up, is tried by all values modulo its full power.

use crate::shuffle::{Triple, DONE, NOTHING_TO_EXPLAIN};
use std::collections::BTreeSet;

#[derive(Clone, Copy, Debug, PartialEq, Eq)]
pub struct Reason {
    pub number: u32,
    pub y: u32,
    pub x: u32,
    pub address: u32,
    pub prime: u32,
}

/// Tests 1, 2, 8. There is a pair exactly where a prime fails: the one is held to the other.
pub fn explain(t: Triple) -> Reason {
    let number = t.range_test();
    if number != DONE {
        return refused(number);
    }
    match (first_pair(t), failing_prime(t)) {
        (Some((y, x)), Some(prime)) => Reason { number: DONE, y, x, address: t.f(y), prime },
        (None, None) => refused(NOTHING_TO_EXPLAIN),
        one_alone => panic!("{t:?}: {one_alone:?}"),
    }
}

fn refused(number: u32) -> Reason {
    Reason { number, y: 0, x: 0, address: 0, prime: 0 }
}

/// The smallest position whose address an earlier one has too, and that earlier one.
fn first_pair(t: Triple) -> Option<(u32, u32)> {
    let values = t.values();
    let y = (0..values.len()).find(|&y| values[..y].contains(&values[y]))?;
    let earlier: Vec<usize> = (0..y).filter(|&x| values[x] == values[y]).collect();
    assert_eq!(earlier.len(), 1, "two would themselves be a pair before this one");
    Some((y as u32, earlier[0] as u32))
}

/// The least prime of K at whose full power the quadratic does not permute.
fn failing_prime(t: Triple) -> Option<u32> {
    let divides = |p: &u32| t.k % p == 0;
    let fails = |p: &u32| !permutes_modulo(full_power(*p, t.k), t);
    (2..=t.k).filter(divides).filter(is_prime).find(fails)
}

fn is_prime(n: &u32) -> bool {
    *n >= 2 && (2..*n).all(|d| n % d != 0)
}

/// The power of p that divides k while the next does not.
fn full_power(p: u32, k: u32) -> u32 {
    let is_full = |power: &u32| k % power == 0 && k % (power * p) != 0;
    (1..).map(|exponent| p.pow(exponent)).find(is_full).unwrap()
}

/// Are the values modulo m at 0 to m-1 all different?
fn permutes_modulo(m: u32, t: Triple) -> bool {
    let values: BTreeSet<u32> = Triple { k: m, ..t }.values().into_iter().collect();
    values.len() == m as usize
}
