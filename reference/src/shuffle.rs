//! The definitions, all but those of the inverse polynomial, the explanation and the encoder: an answer is computed
//! as it is written there, read off the list of all values, or found by trying the candidates in order.

/// The numbers of refusal.
pub const DONE: u32 = 0;
pub const BAD_K: u32 = 1;
pub const BAD_COEFFICIENT: u32 = 2;
pub const NOT_PERMUTING: u32 = 3;
pub const BAD_BLOCK: u32 = 4;
pub const SHORT_SCRATCH: u32 = 5;
pub const BAD_POSITION: u32 = 6;
pub const SHORT_LIST: u32 = 7;
pub const NOTHING_TO_EXPLAIN: u32 = 8;
pub const NO_ROW: u32 = 9;

#[derive(Clone, Copy, Debug, PartialEq, Eq)]
pub struct Triple {
    pub k: u32,
    pub f1: u32,
    pub f2: u32,
}

impl Triple {
    pub fn new(k: u32, f1: u32, f2: u32) -> Triple {
        Triple { k, f1, f2 }
    }

    /// f(x). Asked only for f1, f2 and x below 8192, so 64 bits are wide enough.
    pub fn f(self, x: u32) -> u32 {
        let (k, f1, f2, x) = (self.k as u64, self.f1 as u64, self.f2 as u64, x as u64);
        ((f1 * x + f2 * x * x) % k) as u32
    }

    /// f(0) to f(K-1).
    pub fn values(self) -> Vec<u32> {
        (0..self.k).map(|x| self.f(x)).collect()
    }

    /// Tests 1 and 2.
    pub fn range_test(self) -> u32 {
        if self.k < 2 || self.k > 8192 {
            BAD_K
        } else if self.f1 >= self.k || self.f2 >= self.k {
            BAD_COEFFICIENT
        } else {
            DONE
        }
    }

    /// Tests 1, 2, 3. The third is the definition itself: no value may be met twice.
    pub fn acceptance(self) -> u32 {
        let number = self.range_test();
        if number != DONE {
            return number;
        }
        let mut met = vec![false; self.k as usize];
        for value in self.values() {
            if met[value as usize] {
                return NOT_PERMUTING;
            }
            met[value as usize] = true;
        }
        DONE
    }

    /// Number and value; tests 1, 2, 3. The position is any that a running counter gives.
    pub fn address(self, x: u32) -> (u32, u32) {
        let number = self.acceptance();
        if number != DONE {
            return (number, 0);
        }
        (DONE, self.f(x % self.k))
    }

    /// The odd form of an accepted triple.
    pub fn odd_form(self) -> Triple {
        if self.k % 2 != 0 || self.f1 % 2 != 0 {
            return self;
        }
        let half = self.k / 2;
        let form = Triple::new(self.k, (self.f1 + half) % self.k, (self.f2 + half) % self.k);
        assert!(self.k % 4 == 2 && form.f1 % 2 == 1 && form.f2 % 2 == 0);
        assert_eq!(form.values(), self.values());
        form
    }

    /// Number and value; every r below K is tried, and just one may serve.
    pub fn reciprocal(self) -> (u32, u32) {
        let number = self.acceptance();
        if number != DONE {
            return (number, 0);
        }
        let f1 = self.odd_form().f1 as u64;
        let serves = |r: &u32| *r as u64 * f1 % self.k as u64 == 1;
        let found: Vec<u32> = (0..self.k).filter(serves).collect();
        assert_eq!(found.len(), 1);
        (DONE, found[0])
    }
}

pub struct Arp {
    pub p: u32,
    pub q: u32,
    pub shifts: Vec<u32>,
}

/// The almost regular form of an accepted triple; its Q is found by trying the divisors of K upwards.
pub fn arp(t: Triple) -> Arp {
    let form = t.odd_form();
    let (k, f2) = (form.k as u64, form.f2 as u64);
    let shift = |i: u64| f2 * i * i % k;
    let repeats = |q: u64| (0..k).all(|i| shift(i) == shift(i + q));
    let q = (1..=k).find(|&q| k % q == 0 && repeats(q)).unwrap();
    let answer = Arp { p: form.f1, q: q as u32, shifts: (0..q).map(|j| shift(j) as u32).collect() };
    check_arp(t, &answer);
    answer
}

fn check_arp(t: Triple, form: &Arp) {
    for i in 0..t.k {
        let shift = form.shifts[(i % form.q) as usize];
        assert_eq!((form.p as u64 * i as u64 + shift as u64) % t.k as u64, t.f(i) as u64);
    }
}

/// The shorter way round modulo K.
pub fn circular(k: u32) -> impl Fn(u32, u32) -> u32 {
    move |a, b| a.abs_diff(b).min(k - a.abs_diff(b))
}

/// The spread of any list of addresses: s is tried from K downwards against the least distance of two addresses
/// whose positions are d apart, for each d below s. The distance of two positions depends on the steps between
/// them alone.
pub fn spread_by(values: &[u32], distance: impl Fn(u32, u32) -> u32) -> u32 {
    let k = values.len() as u32;
    // K stays where no two positions are d apart: no s is above it.
    let mut nearest = vec![k; values.len()];
    for steps in 1..k {
        let pairs = values.iter().zip(&values[steps as usize..]);
        let least = &mut nearest[distance(0, steps) as usize];
        *least = pairs.map(|(&a, &b)| distance(a, b)).fold(*least, u32::min);
    }
    let holds = |s: &u32| (1..*s).all(|d| nearest[d as usize] >= *s);
    (1..=k).rev().find(holds).unwrap()
}

/// The spread of an accepted triple, with positions and addresses round the circle.
pub fn spread(t: Triple) -> u32 {
    spread_by(&t.values(), circular(t.k))
}

#[derive(Clone, Copy, Debug, PartialEq, Eq)]
pub struct Walker {
    pub triple: Triple,
    pub at: u32,
}

const NO_WALKER: Walker = Walker { triple: Triple { k: 0, f1: 0, f2: 0 }, at: 0 };

/// Number and walker; tests 1, 2, 3.
pub fn start(triple: Triple) -> (u32, Walker) {
    let number = triple.acceptance();
    if number == DONE {
        (DONE, Walker { triple, at: 0 })
    } else {
        (number, NO_WALKER)
    }
}

/// Number, address and the walker moved on; tests 1, 2, 6. A walker made by hand need not permute.
pub fn step(walker: Walker) -> (u32, u32, Walker) {
    let Walker { triple, at } = walker;
    let number = triple.range_test();
    if number != DONE {
        (number, 0, NO_WALKER)
    } else if at >= triple.k {
        (BAD_POSITION, 0, NO_WALKER)
    } else {
        let next = if at == triple.k - 1 { 0 } else { at + 1 };
        (DONE, triple.f(at), Walker { triple, at: next })
    }
}

/// Tests 1, 2, 3, 7; entries past K stay.
pub fn address_list(t: Triple, list: &mut [u16]) -> u32 {
    let number = t.acceptance();
    if number != DONE {
        return number;
    }
    if list.len() < t.k as usize {
        return SHORT_LIST;
    }
    for x in 0..t.k {
        list[x as usize] = t.f(x) as u16;
    }
    DONE
}

#[derive(Clone, Copy, Debug, PartialEq, Eq)]
pub enum Direction {
    Interleave,
    Deinterleave,
}

/// Tests 1, 2, 3, 4, 5. The block is moved from a copy, so that no cycle is needed.
pub fn move_block<T: Copy>(t: Triple, block: &mut [T], scratch: &mut [u8], direction: Direction) -> u32 {
    let number = t.acceptance();
    if number != DONE {
        return number;
    }
    let marks = (t.k as usize).div_ceil(8);
    if block.len() != t.k as usize {
        return BAD_BLOCK;
    }
    if scratch.len() < marks {
        return SHORT_SCRATCH;
    }
    let old = block.to_vec();
    for i in 0..old.len() {
        let other = t.f(i as u32) as usize;
        match direction {
            Direction::Interleave => block[i] = old[other],
            Direction::Deinterleave => block[other] = old[i],
        }
    }
    scratch[..marks].fill(0);
    DONE
}
