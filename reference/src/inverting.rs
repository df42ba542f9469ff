//! The inverse polynomial, by linear algebra over the whole numbers, straight from its definition.

use crate::shuffle::{Triple, DONE};
use std::{array, mem};

#[derive(Clone, Copy, Debug, PartialEq, Eq)]
pub struct Inverse {
    pub number: u32,
    pub degree: u32,
    /// a1 to a13.
    pub places: [u32; 13],
}

/// The inverse polynomial: some polynomial that agrees with the inverse at every position, reduced by those
/// that vanish, modulo K, at every position.
///
/// Why this is the one asked for: two polynomials that agree with the inverse differ by one that vanishes,
/// and the leading coefficient of one that vanishes is a whole multiple of that of the row of its degree
/// (`Vanishing`). One of lower degree that agrees, with a constant or without, would differ from the answer
/// by one with the leading coefficient aD, which is below that of row D and not 0. A second one with every
/// place below its row's would differ by one whose leading coefficient is too small in the same way.
///
/// No theorem on vanishing polynomials and no factorial is used on the way: the scope's coefficient limits
/// are only compared with what comes out.
pub fn inverse(t: Triple) -> Inverse {
    let number = t.acceptance();
    if number != DONE {
        return Inverse { number, degree: 0, places: [0; 13] };
    }
    let (agreeing, vanishing) = agreeing_and_vanishing(t);
    let reduced = vanishing.reduce(agreeing);
    assert_eq!(reduced[0], 0, "f(0) is 0, so no constant is left");
    let degree = (1..=13).rev().find(|&place| reduced[place] != 0).expect("0 sends no address back");
    let places = array::from_fn(|i| reduced[i + 1] as u32);
    let answer = Inverse { number, degree: degree as u32, places };
    check_inverse(t, &vanishing, &answer);
    answer
}

/// A polynomial of degree 13 at most that agrees with the inverse of an accepted triple at every position,
/// and all those that vanish there. Both are found from one position to the next.
fn agreeing_and_vanishing(t: Triple) -> (Polynomial, Vanishing) {
    let k = t.k as i64;
    let mut sent_back = vec![0; t.k as usize];
    for x in 0..t.k {
        sent_back[t.f(x) as usize] = x as i64;
    }
    let mut agreeing = [0; 14];
    let mut vanishing = Vanishing::nowhere(k);
    for (y, x) in (0..).zip(&sent_back) {
        // The carrier vanishes before y, so that taking it away does no harm there; and whatever vanishes
        // there has a multiple of its value at y, so that no other polynomial could do more.
        let carrier = vanishing.go_on_to(y);
        let excess = (value(&agreeing, y, k) - x).rem_euclid(k);
        assert_eq!(excess % carrier.value, 0, "some polynomial of degree 13 at most must agree");
        agreeing = modulo(&minus(&agreeing, excess / carrier.value, &carrier.places), k);
    }
    assert!((0..).zip(&sent_back).all(|(y, x)| value(&agreeing, y, k) == *x));
    (agreeing, vanishing)
}

/// The coefficients of y^0 to y^13.
type Polynomial = [i64; 14];

/// The value modulo K, for places that are not negative.
fn value(places: &Polynomial, y: i64, k: i64) -> i64 {
    places.iter().rev().fold(0, |sum, place| (sum * y + place) % k)
}

fn minus(places: &Polynomial, times: i64, other: &Polynomial) -> Polynomial {
    array::from_fn(|place| places[place] - times * other[place])
}

fn modulo(places: &Polynomial, k: i64) -> Polynomial {
    places.map(|place| place.rem_euclid(k))
}

/// A polynomial, and a whole number that is its value, modulo K, at the position in hand.
struct Valued {
    places: Polynomial,
    value: i64,
}

/// All polynomials of degree 13 at most that vanish, are 0 modulo K, at each position gone through so far:
/// the sums of whole multiples of the rows.
///
/// Row j has a leading coefficient above 0 at place j. So the highest row in a sum gives the sum its degree,
/// and its leading coefficient is a multiple of that row's. The other places of a row are kept from 0 to
/// K-1: the multiples of K·y^i vanish everywhere, so that they may be added at will.
struct Vanishing {
    k: i64,
    rows: [Polynomial; 14],
}

impl Vanishing {
    /// Before the first position: 1, y, …, y^13, whose sums are all polynomials.
    fn nowhere(k: i64) -> Vanishing {
        Vanishing { k, rows: array::from_fn(|row| array::from_fn(|place| (row == place) as i64)) }
    }

    /// Goes on to position y. What is given back, the carrier, vanishes before y, and its value at y divides
    /// K and the value at y of all that vanish before y.
    ///
    /// Euclid's steps take a multiple of one polynomial, with its value, from another, so that the sums of
    /// multiples stay the same. At their end the carrier alone has a value other than 0, and the sums that
    /// vanish at y too are those without a share of the carrier: the sums of the new rows.
    fn go_on_to(&mut self, y: i64) -> Valued {
        let k = self.k;
        // Values count modulo K, so the polynomial 0 may come with the value K.
        let mut carrier = Valued { places: [0; 14], value: k };
        for (lead, places) in self.rows.iter_mut().enumerate() {
            let mut row = Valued { places: *places, value: value(places, y, k) };
            if row.value == 0 {
                continue;
            }
            while row.value != 0 {
                let times = carrier.value / row.value;
                carrier.places = minus(&carrier.places, times, &row.places);
                carrier.value -= times * row.value;
                mem::swap(&mut carrier, &mut row);
            }
            // The carrier came without place `lead`, and the row goes with a multiple of what it had there.
            *places = with_lead_above_0(row.places, lead, k);
            carrier.places = modulo(&carrier.places, k);
        }
        carrier
    }

    /// What is left, when every place is brought below its row's leading coefficient from the top down.
    fn reduce(&self, mut places: Polynomial) -> Polynomial {
        for (lead, row) in self.rows.iter().enumerate().rev() {
            places = modulo(&minus(&places, places[lead] / row[lead], row), self.k);
        }
        places
    }
}

/// The row as it is kept. Its leading coefficient must divide K, since K·y^lead vanishes too.
fn with_lead_above_0(places: Polynomial, lead: usize, k: i64) -> Polynomial {
    let sign = places[lead].signum();
    let mut row = modulo(&places.map(|place| sign * place), k);
    row[lead] = sign * places[lead];
    assert!(row[lead] > 0 && k % row[lead] == 0);
    row
}

/// K divided by gcd(K, k!), the gcd found by trying every candidate.
pub fn coefficient_limit(k: u64, degree: u32) -> u64 {
    let factorial: u64 = (1..=degree as u64).product();
    let gcd = (1..=k).rev().find(|d| k % d == 0 && factorial % d == 0).unwrap();
    k / gcd
}

/// g(y) mod K for the places a1 to a13.
pub fn evaluate(places: &[u32; 13], y: u32, k: u32) -> u32 {
    let (y, k) = (y as u64, k as u64);
    places.iter().rev().fold(0, |sum, &place| (sum + place as u64) * y % k) as u32
}

fn check_inverse(t: Triple, vanishing: &Vanishing, answer: &Inverse) {
    let limit = |degree| coefficient_limit(t.k as u64, degree as u32);
    for (lead, row) in vanishing.rows.iter().enumerate() {
        assert_eq!(row[lead] as u64, limit(lead));
    }
    for (i, &place) in answer.places.iter().enumerate() {
        assert!((place as u64) < limit(i + 1));
    }
    for x in 0..t.k {
        assert_eq!(evaluate(&answer.places, t.f(x), t.k), x);
    }
}
