//! The archive from Rust: the declarations, a safe face over them, and a handful of checks.

/// The functions and structs of include/qpp.h that are used here.
mod c {
    #[repr(C)]
    #[derive(Clone, Copy)]
    pub struct Value {
        pub number: u32,
        pub value: u32,
    }

    #[repr(C)]
    #[derive(Clone, Copy)]
    pub struct Reason {
        pub number: u32,
        pub y: u32,
        pub x: u32,
        pub address: u32,
        pub prime: u32,
    }

    #[repr(C)]
    #[derive(Clone, Copy)]
    pub struct Inverse {
        pub number: u32,
        pub degree: u32,
        pub a: [u32; 13],
    }

    #[repr(C)]
    #[derive(Clone, Copy)]
    pub struct Arp {
        pub number: u32,
        pub p: u32,
        pub q: u32,
    }

    #[repr(C)]
    #[derive(Clone, Copy, Debug, PartialEq)]
    pub struct Walker {
        pub k: u32,
        pub f1: u32,
        pub f2: u32,
        pub at: u32,
    }

    #[repr(C)]
    #[derive(Clone, Copy)]
    pub struct Start {
        pub number: u32,
        pub walker: Walker,
    }

    #[repr(C)]
    #[derive(Clone, Copy)]
    pub struct Step {
        pub number: u32,
        pub address: u32,
        pub walker: Walker,
    }

    extern "C" {
        pub fn qpp_accept(k: u32, f1: u32, f2: u32) -> u32;
        pub fn qpp_explain(k: u32, f1: u32, f2: u32) -> Reason;
        pub fn qpp_address(k: u32, f1: u32, f2: u32, x: u32) -> Value;
        pub fn qpp_reciprocal(k: u32, f1: u32, f2: u32) -> Value;
        pub fn qpp_spread(k: u32, f1: u32, f2: u32) -> Value;
        pub fn qpp_inverse(k: u32, f1: u32, f2: u32) -> Inverse;
        pub fn qpp_arp(k: u32, f1: u32, f2: u32, list: *mut u16, n: usize) -> Arp;
        pub fn qpp_walker_start(k: u32, f1: u32, f2: u32) -> Start;
        pub fn qpp_walker_step(w: Walker) -> Step;
        pub fn qpp_addresses(k: u32, f1: u32, f2: u32, list: *mut u16, n: usize) -> u32;
        pub fn qpp_interleave_u8(k: u32, f1: u32, f2: u32, block: *mut u8, n: usize, scratch: *mut u8, m: usize) -> u32;
        pub fn qpp_deinterleave_u8(k: u32, f1: u32, f2: u32, block: *mut u8, n: usize, scratch: *mut u8, m: usize) -> u32;
        pub fn qpp_interleave_i16(k: u32, f1: u32, f2: u32, block: *mut i16, n: usize, scratch: *mut u8, m: usize) -> u32;
        pub fn qpp_deinterleave_i16(k: u32, f1: u32, f2: u32, block: *mut i16, n: usize, scratch: *mut u8, m: usize) -> u32;
    }
}

/// A number of refusal.
#[derive(Debug, PartialEq)]
struct Refused(u32);

fn answer<T>(number: u32, value: T) -> Result<T, Refused> {
    if number == 0 {
        Ok(value)
    } else {
        Err(Refused(number))
    }
}

/// Any three numbers: the calls test them. Two slices that may be written are apart by Rust's own rule, and carry true
/// lengths; that is all that the calls ask of their caller, so each `unsafe` below is sound.
#[derive(Clone, Copy)]
struct Shuffle(u32, u32, u32);

type Mover<T> = unsafe extern "C" fn(u32, u32, u32, *mut T, usize, *mut u8, usize) -> u32;

impl Shuffle {
    fn accept(self) -> Result<(), Refused> {
        answer(unsafe { c::qpp_accept(self.0, self.1, self.2) }, ())
    }

    /// y, x, the address they share, and the prime.
    fn explain(self) -> Result<(u32, u32, u32, u32), Refused> {
        let r = unsafe { c::qpp_explain(self.0, self.1, self.2) };
        answer(r.number, (r.y, r.x, r.address, r.prime))
    }

    fn address(self, x: u32) -> Result<u32, Refused> {
        let r = unsafe { c::qpp_address(self.0, self.1, self.2, x) };
        answer(r.number, r.value)
    }

    fn reciprocal(self) -> Result<u32, Refused> {
        let r = unsafe { c::qpp_reciprocal(self.0, self.1, self.2) };
        answer(r.number, r.value)
    }

    fn spread(self) -> Result<u32, Refused> {
        let r = unsafe { c::qpp_spread(self.0, self.1, self.2) };
        answer(r.number, r.value)
    }

    /// a1 to aD.
    fn inverse(self) -> Result<Vec<u32>, Refused> {
        let r = unsafe { c::qpp_inverse(self.0, self.1, self.2) };
        answer(r.number, r.a[..r.degree as usize].to_vec())
    }

    /// P and Q, with the shifts written into the list.
    fn arp(self, list: &mut [u16]) -> Result<(u32, u32), Refused> {
        let r = unsafe { c::qpp_arp(self.0, self.1, self.2, list.as_mut_ptr(), list.len()) };
        answer(r.number, (r.p, r.q))
    }

    fn addresses(self, list: &mut [u16]) -> Result<(), Refused> {
        answer(unsafe { c::qpp_addresses(self.0, self.1, self.2, list.as_mut_ptr(), list.len()) }, ())
    }

    fn walk(self) -> Result<Walk, Refused> {
        let r = unsafe { c::qpp_walker_start(self.0, self.1, self.2) };
        answer(r.number, Walk(r.walker))
    }

    fn moved<T>(self, mover: Mover<T>, block: &mut [T], scratch: &mut [u8]) -> Result<(), Refused> {
        let (n, m) = (block.len(), scratch.len());
        answer(unsafe { mover(self.0, self.1, self.2, block.as_mut_ptr(), n, scratch.as_mut_ptr(), m) }, ())
    }
}

/// The addresses, round and round.
struct Walk(c::Walker);

impl Iterator for Walk {
    type Item = u32;

    fn next(&mut self) -> Option<u32> {
        let r = unsafe { c::qpp_walker_step(self.0) };
        self.0 = r.walker;
        (r.number == 0).then_some(r.address)
    }
}

fn round_trip<T: Copy + PartialEq + std::fmt::Debug>(s: Shuffle, there: Mover<T>, back: Mover<T>, symbol: impl Fn(usize) -> T) {
    let old: Vec<T> = (0..s.0 as usize).map(symbol).collect();
    let mut block = old.clone();
    let mut scratch = vec![0xaa; old.len().div_ceil(8) + 1];
    s.moved(there, &mut block, &mut scratch).unwrap();
    assert!((0..s.0).all(|i| block[i as usize] == old[s.address(i).unwrap() as usize]));
    s.moved(back, &mut block, &mut scratch).unwrap();
    assert_eq!(block, old);
    let (last, marks) = scratch.split_last().unwrap();
    assert!(marks.iter().all(|&byte| byte == 0) && *last == 0xaa);
}

fn main() {
    let small = Shuffle(40, 3, 10);
    assert_eq!(small.accept(), Ok(()));
    assert_eq!(small.reciprocal(), Ok(27));
    assert_eq!(small.inverse(), Ok(vec![27, 10]));
    assert_eq!(small.spread(), Ok(3));
    let mut list = [0; 40];
    assert_eq!(small.arp(&mut list), Ok((3, 2)));
    assert_eq!(list[..2], [0, 10]);
    assert_eq!(Shuffle(6016, 23, 94).inverse(), Ok(vec![1831, 2350, 1880, 376]));

    assert_eq!(Shuffle(30, 1, 6).explain(), Ok((10, 4, 10, 5)));
    assert_eq!(Shuffle(8191, 1, 1).explain(), Ok((4096, 4094, 6144, 8191)));

    // a walk, the list and the addresses one by one agree
    small.addresses(&mut list).unwrap();
    let walked: Vec<u32> = small.walk().unwrap().take(80).collect();
    assert!((0..80).all(|x| walked[x] == list[x % 40] as u32 && Ok(walked[x]) == small.address(x as u32)));
    assert_eq!(small.address(u32::MAX), Ok(15)); // f(15)

    for s in [small, Shuffle(6, 2, 3), Shuffle(1504, 23, 94), Shuffle(6144, 263, 480), Shuffle(8192, 1, 2)] {
        round_trip(s, c::qpp_interleave_u8, c::qpp_deinterleave_u8, |i| (i * 7) as u8);
        round_trip(s, c::qpp_interleave_i16, c::qpp_deinterleave_i16, |i| (i * 12345) as i16);
    }

    // each number of refusal
    assert_eq!(Shuffle(8193, 1, 2).accept(), Err(Refused(1)));
    assert_eq!(Shuffle(5, 5, 0).inverse(), Err(Refused(2)));
    assert_eq!(Shuffle(3, 1, 1).spread(), Err(Refused(3)));
    assert_eq!(small.moved(c::qpp_interleave_u8, &mut [0; 39], &mut [0; 5]), Err(Refused(4)));
    assert_eq!(small.moved(c::qpp_interleave_u8, &mut [0; 40], &mut [0; 4]), Err(Refused(5)));
    assert_eq!(unsafe { c::qpp_walker_step(c::Walker { k: 40, f1: 3, f2: 10, at: 40 }) }.number, 6);
    assert_eq!(small.addresses(&mut list[..39]), Err(Refused(7)));
    assert_eq!(small.explain(), Err(Refused(8)));
    assert_eq!(Walk(c::Walker { k: 40, f1: 3, f2: 10, at: 40 }).next(), None);
    println!("rust: all checks passed");
}
