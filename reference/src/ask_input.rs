//! Input for a test of the ask program: many calls, and lines that are none.

use crate::rows::standard_rows;
use crate::shuffle::{start, step, Triple, DONE};
use std::io::{self, Write};
use std::ops::RangeInclusive;

pub fn write(out: &mut impl Write) -> io::Result<()> {
    let mut lines = Lines(Vec::new());
    lines.triples();
    lines.walks();
    lines.lists();
    lines.blocks();
    lines.inverses();
    lines.forms();
    lines.reasons();
    lines.rows();
    lines.encodings();
    lines.encodings_refused();
    lines.language();
    // The last one has no newline.
    out.write_all(&lines.0.join(&b'\n'))
}

/// Both sides of every limit of a coefficient or a walker's position.
const EDGES: [u32; 6] = [0, 1, 2, 8191, 8192, u32::MAX];

/// Both sides of 2 to the 31st, and the last five that a counter comes to.
const LATE: [u32; 7] =
    [(1 << 31) - 1, 1 << 31, u32::MAX - 4, u32::MAX - 3, u32::MAX - 2, u32::MAX - 1, u32::MAX];

/// Triples that the scope names or that are large.
const CHOSEN: [(u32, u32, u32); 9] = [
    (1504, 23, 94),
    (6016, 23, 94),
    (8192, 1, 2),
    (8193, 1, 2),
    (1, 0, 0),
    (5, 0, 0),
    (5, 5, 0),
    (5, 0, 5),
    (9, 1, 3),
];

const MOVERS: [(&str, bool); 4] = [
    ("interleave_u8", false),
    ("deinterleave_u8", false),
    ("interleave_i16", true),
    ("deinterleave_i16", true),
];

/// The worked cases of `explain`.
const EXPLAINED: [(u32, u32, u32); 8] =
    [(8, 2, 4), (4, 0, 1), (4, 1, 1), (30, 1, 6), (36, 5, 4), (45, 2, 3), (8191, 1, 1), (60, 7, 30)];

/// Long ones, with many primes or few, at the first power or at a higher one.
const FACTORED: [u32; 10] = [2310, 4620, 6561, 6930, 8186, 8187, 8188, 8189, 8191, 8192];

/// Lengths beyond the standard's or between them, and some that 16 bits would take for one.
const NO_ROWS: [u32; 14] =
    [0, 1, 2, 8, 32, 520, 1040, 2080, 6208, 8192, 65536, 65536 + 40, 65536 + 6144, u32::MAX];

/// All triples with coefficients below K + `past`.
fn triples_past(lengths: RangeInclusive<u32>, past: u32) -> Vec<Triple> {
    let pairs =
        |k: u32| (0..k + past).flat_map(move |f1| (0..k + past).map(move |f2| Triple::new(k, f1, f2)));
    lengths.flat_map(pairs).collect()
}

pub fn all_triples(lengths: RangeInclusive<u32>) -> Vec<Triple> {
    triples_past(lengths, 0)
}

/// Three times around and one more, and the late ones.
pub fn counter_positions(k: u32) -> Vec<u32> {
    (0..=3 * k).chain(LATE).collect()
}

fn edge_triples() -> Vec<Triple> {
    let pairs = |k: u32| EDGES.into_iter().flat_map(move |f1| EDGES.map(|f2| Triple::new(k, f1, f2)));
    [0, 1, 2, 8192, 8193, u32::MAX].into_iter().flat_map(pairs).collect()
}

fn listed(list: &[(u32, u32, u32)]) -> Vec<Triple> {
    list.iter().map(|&(k, f1, f2)| Triple::new(k, f1, f2)).collect()
}

fn chosen() -> Vec<Triple> {
    listed(&CHOSEN)
}

/// With f1 = 1 an odd prime fails exactly where it does not divide f2, with f2 = 0 exactly where it divides f1: so
/// over all divisors every set of odd primes fails. With f1 = 2 and f2 odd, f permutes modulo 2 and not modulo 4.
fn factored() -> Vec<Triple> {
    let divisors = |k: u32| (1..k).filter(move |d| k % d == 0);
    let of_divisor = |k, d| [(1, d), (1, k - d), (2, d), (d, 0)].map(|(f1, f2)| Triple::new(k, f1, f2));
    FACTORED.into_iter().flat_map(|k| divisors(k).flat_map(move |d| of_divisor(k, d))).collect()
}

/// The symbols of a short block again and again, in numbers.
fn block(length: usize, wide: bool) -> String {
    let symbol = |i: usize| match wide {
        true => (32000 - 3203 * (i as i32 % 20)).to_string(),
        false => ((37 * i + 11) % 256).to_string(),
    };
    (0..length).map(symbol).collect::<Vec<String>>().join(",")
}

/// Bits that come again: Marsaglia's shifts in 32 bits, from a seed for each length.
fn random_bits(k: u32) -> String {
    let mut state = 0x6212_0513 + k;
    let bit = |_| {
        state ^= state << 13;
        state ^= state >> 17;
        state ^= state << 5;
        ["0", "1"][(state >> 31) as usize]
    };
    (0..k).map(bit).collect::<Vec<&str>>().join(",")
}

struct Lines(Vec<Vec<u8>>);

impl Lines {
    fn add(&mut self, line: impl AsRef<[u8]>) {
        self.0.push(line.as_ref().to_vec());
    }

    fn call(&mut self, name: &str, t: Triple) {
        self.add(format!("{name} {} {} {}", t.k, t.f1, t.f2));
    }

    fn call_with(&mut self, name: &str, t: Triple, rest: impl ToString) {
        self.add(format!("{name} {} {} {} {}", t.k, t.f1, t.f2, rest.to_string()));
    }

    fn triple(&mut self, t: Triple, positions: &[u32]) {
        self.call("accept", t);
        self.call("reciprocal", t);
        for x in positions {
            self.call_with("address", t, x);
        }
    }

    /// Each coefficient at K as well.
    fn triples(&mut self) {
        for t in triples_past(1..=24, 1) {
            let positions = if t.acceptance() == DONE { counter_positions(t.k) } else { vec![0, t.k] };
            self.triple(t, &positions);
        }
        for t in edge_triples() {
            self.triple(t, &EDGES);
        }
        for t in chosen() {
            self.triple(t, &[&[0, 1, 8, 9, 1503, 6015, 8191, 8192, 65535, 65536][..], &LATE].concat());
        }
    }

    /// Twice around and one step more, so that the return to position 0 is seen twice; then walkers made by hand.
    fn walks(&mut self) {
        for t in all_triples(2..=12).into_iter().chain(chosen()) {
            self.call("walker_start", t);
            let (number, mut walker) = start(t);
            let steps = if number == DONE && t.k <= 12 { 2 * t.k + 1 } else { 0 };
            for _ in 0..steps {
                self.call_with("walker_step", walker.triple, walker.at);
                walker = step(walker).2;
            }
        }
        for k in [0, 1, 2, 3, 8192, 8193, u32::MAX] {
            for f1 in &EDGES[..5] {
                for f2 in &EDGES[..5] {
                    for at in EDGES {
                        self.call_with("walker_step", Triple::new(k, *f1, *f2), at);
                    }
                }
            }
        }
    }

    /// Lists too short, just long enough, and longer.
    fn lists(&mut self) {
        for t in all_triples(2..=12) {
            for length in [t.k - 1, t.k, t.k + 2] {
                self.call_with("addresses", t, format!("65535*{length}"));
            }
        }
        for (k, f1, f2) in [(1, 0, 0), (8193, 1, 0), (4, 4, 1), (4, 1, 4), (4, 1, 1), (4, 1, 2)] {
            self.call_with("addresses", Triple::new(k, f1, f2), "65535*3");
            self.call_with("addresses", Triple::new(k, f1, f2), "-");
        }
        self.add("addresses 8192 1 2 9*8191");
        self.add("addresses 8192 1 2 9*8193");
    }

    fn moves(&mut self, t: Triple, length: usize, scratch: usize) {
        for (name, wide) in MOVERS {
            self.call_with(name, t, format!("{} 255*{scratch}", block(length, wide)));
        }
    }

    /// A scratch full of ones; for a short shuffle with a byte more than is needed.
    fn blocks(&mut self) {
        for t in all_triples(2..=20) {
            let length = t.k as usize;
            if t.acceptance() == DONE {
                self.moves(t, length, length.div_ceil(8) + 1);
            }
        }
        for length in [8, 9, 10] {
            for scratch in [1, 2, 3] {
                self.moves(Triple::new(9, 1, 3), length, scratch);
            }
        }
        let refused = [(1, 0, 0), (8193, 1, 0), (4, 4, 1), (4, 1, 4), (4, 1, 1), (0, 0, 0), (u32::MAX, 1, 1)];
        for (k, f1, f2) in refused {
            self.moves(Triple::new(k, f1, f2), 4, 1);
        }
        for (k, f1, f2) in [(1504, 23, 94), (6016, 23, 94), (8192, 1, 2)] {
            self.moves(Triple::new(k, f1, f2), k as usize, k as usize / 8);
        }
    }

    fn inverses(&mut self) {
        for t in all_triples(2..=40).into_iter().chain(chosen()).chain(standard_rows()) {
            self.call("inverse", t);
        }
    }

    /// Lists on both sides of the short periods.
    fn forms(&mut self) {
        for t in all_triples(1..=14).into_iter().chain(chosen()) {
            for length in ["-", "65535", "65535*2", "65535*3", "65535*16"] {
                self.call_with("arp", t, length);
            }
            self.call("spread", t);
        }
    }

    /// Each coefficient at K and one above as well; and shuffles, which have nothing to explain.
    fn reasons(&mut self) {
        let long = edge_triples().into_iter().chain(factored()).chain(standard_rows());
        for t in triples_past(0..=40, 2).into_iter().chain(listed(&EXPLAINED)).chain(long) {
            self.call("explain", t);
        }
    }

    fn rows(&mut self) {
        let around = standard_rows().into_iter().flat_map(|row| [row.k - 1, row.k, row.k + 1]);
        for k in around.chain(NO_ROWS) {
            self.add(format!("turbo_row {k}"));
        }
    }

    fn encode(&mut self, name: &str, k: u32, input: &str, lists: [u32; 3]) {
        let [d0, d1, d2] = lists;
        self.add(format!("{name} {k} {input} 9*{d0} 9*{d1} 9*{d2}"));
    }

    /// Zeros, ones and others at every length; where a list is longer, what stays shows.
    fn encodings(&mut self) {
        for row in standard_rows() {
            let (k, n) = (row.k, row.k + 4);
            let cases = [
                (format!("0*{k}"), [n; 3]),
                (format!("1*{k}"), [n + 1; 3]),
                (random_bits(k), [n, n + 1, n + 2]),
            ];
            for (input, lists) in cases {
                self.encode("turbo_encode_crc", k, &input, lists);
                if k == 40 || k == 6144 {
                    self.encode("turbo_encode", k, &input, lists);
                }
            }
        }
    }

    /// Both sides of each limit, then several faults in one call.
    fn encodings_refused(&mut self) {
        let in_short = "turbo_encode_crc";
        for row in standard_rows() {
            for near in [row.k - 1, row.k + 1] {
                self.encode(in_short, near, &format!("0*{near}"), [near + 4; 3]);
                self.encode(in_short, row.k, &format!("1*{near}"), [row.k + 4; 3]);
            }
        }
        for k in NO_ROWS {
            self.encode(in_short, k, &format!("0*{}", k.min(8192)), [8196; 3]);
        }
        for k in [40, 6144] {
            for (place, value) in [0, k / 2, k - 1].into_iter().flat_map(|place| [(place, 2), (place, 255)]) {
                let input = format!("1*{place},{value},0*{}", k - 1 - place);
                self.encode(in_short, k, &input, [k + 4; 3]);
            }
            for choice in 0..27 {
                let lists = [choice / 9, choice / 3 % 3, choice % 3].map(|past| k + 3 + past);
                self.encode(in_short, k, &format!("1*{k}"), lists);
            }
        }
        for k in [40, 41, 48, 0, 65536 + 40] {
            for input in ["1*40", "1*39", "1*41", "1*39,2", "255*40", "-"] {
                for lists in [[44; 3], [43, 44, 44], [44, 43, 44], [44, 44, 43], [0; 3], [52; 3]] {
                    self.encode("turbo_encode", k, input, lists);
                }
            }
        }
    }

    /// The forms of words and lists, good ones and bad ones, and both sides of each limit.
    fn language(&mut self) {
        for line in WORDS {
            self.add(line);
        }
        for byte in STRANGE {
            self.add([b"address 40 3 10 ", &[byte][..]].concat());
            self.add([b"address 40 3 10 7", &[byte][..]].concat());
            self.add([b"address 40 3", &[byte][..], b"10 7"].concat());
            self.add([b"arp 8 1 4 9,", &[byte][..], b"9"].concat());
            self.add([b"arp 8 1 4 9", &[byte][..], b"9"].concat());
            self.add([b"interleave_u8 4 1 2 ", &[byte][..], b"BCD 0"].concat());
            self.add([b"interleave_u8 4 1 2 AB", &[byte][..], b"D 0"].concat());
            self.add([b"accept", &[byte][..], b" 4 1 2"].concat());
        }
        for size in [8200, 8201] {
            self.add(format!("arp 8 1 4 9*{size}"));
            self.add(format!("addresses 4 1 2 9*{},7", size - 1));
            self.add(format!("interleave_u8 4 1 2 7,9*{} 0", size - 1));
            self.add(format!("interleave_u8 4 1 2 {} 0", "x".repeat(size)));
            self.add(format!("interleave_i16 4 1 2 -9*{},-7*2,9 1", size - 3));
            self.add(format!("interleave_i16 4 1 2 1,2,3,4 1*{size}"));
            for place in 0..4 {
                let mut lists = ["1*40", "9*44", "9*44", "9*44"].map(str::to_string);
                lists[place] = format!("1*{size}");
                self.add(format!("turbo_encode_crc 40 {}", lists.join(" ")));
            }
        }
        for (size, filling) in [(65535, " "), (65536, "0")] {
            let rest = size - "accept 4 1 2".len();
            self.add(format!("accept 4 1 {}2", filling.repeat(rest)));
            self.add("accept 4 1 2");
        }
        self.add("walker_step 40 3 10 39");
    }
}

/// Bytes on both sides of the digits and the letters, and others that a loose reader might let pass.
const STRANGE: [u8; 22] = [
    0, 9, 11, 13, 31, 33, b'+', b'.', b'/', b':', b'@', b'A', b'Z', b'[', b'_', b'`', b'a', b'z', b'{', 127,
    160, 255,
];

const WORDS: &[&str] = &[
    "",
    " ",
    "     ",
    "  accept   40  3 10  ",
    " accept 40 3 10",
    "accept 40 3 10 ",
    "accept 0000000000000000000000000040 003 0010",
    "accept",
    "accept 40",
    "accept 40 3",
    "accept 40 3 10 7",
    "accept 40 3 10 accept 40 3 10",
    "address 40 3 10",
    "address 40 3 10 7 7",
    "Accept 40 3 10",
    "accep 40 3 10",
    "accepts 40 3 10",
    "addres 40 3 10 7",
    "interleave_u16 4 1 2 1,2,3,4 0",
    "interleave_u8b 4 1 2 1,2,3,4 0",
    "deinterleave_i16s 4 1 2 1,2,3,4 0",
    "qpp_accept 40 3 10",
    "3 40 3 10",
    "accept3 40 3 10",
    "no_such x y z",
    "? 40 3 10",
    "accept x 3 y",
    "accept 40 -3 10",
    "accept 40 - 10",
    "accept 40 3,1 10",
    "accept 40 3*1 10",
    "accept 4294967295 4294967295 4294967295",
    "accept 4294967296 0 0",
    "accept 40 4294967296 0",
    "accept 40 3 4294967296",
    "accept 40 3 4294967306",
    "accept 40 3 42949672950",
    "accept 40 3 18446744073709551626",
    "accept 40 3 340282366920938463463374607431768211466",
    "accept 99999999999999999999999999999999999999999999999x 3 10",
    "accept x99999999999999999999999999999999999999999999999 3 10",
    "accept 4294967296 x 3 10 7 7",
    "explain",
    "explain 30 1",
    "explain 30 1 6 10",
    "explain 30 1 six",
    "explai 30 1 6",
    "explains 30 1 6",
    "reciprocal 40 3",
    "reciprocal 40 3 10 10",
    "spread 40 3 ten",
    "inverse 40",
    "inverse 40 3 10 0",
    "walker_start 4 1 2 0",
    "walker_step 4 1 2",
    "walker_step 4 1 2 x",
    "arp 8 1 4",
    "arp 8 1 4 9*3 9",
    "arp 8 1 4 ABC",
    "arp 8 1 4 -",
    "arp 8 1 4 --",
    "arp 8 1 4 -,-",
    "arp 8 1 4 ,",
    "arp 8 1 4 ,9",
    "arp 8 1 4 9,",
    "arp 8 1 4 9,,9",
    "arp 8 1 4 9;9",
    "arp 8 1 4 9, 9",
    "arp 8 1 4 9*",
    "arp 8 1 4 *9",
    "arp 8 1 4 *",
    "arp 8 1 4 9**2",
    "arp 8 1 4 9*2*1",
    "arp 8 1 4 9*-2",
    "arp 8 1 4 9*2,",
    "arp 8 1 4 9*0",
    "arp 8 1 4 9*0,8*0,7*0",
    "arp 8 1 4 9*0,8*2,7*0,6",
    "arp 8 1 4 009*003",
    "arp 8 1 4 0,65535,7",
    "arp 8 1 4 0,65536,7",
    "arp 8 1 4 0,-0,7",
    "arp 8 1 4 0,-1,7",
    "arp 8 1 4 0,4294967296,7",
    "arp 8 1 4 0,18446744073709551617,7",
    "arp 8 1 4 0*4294967297",
    "arp 8 1 4 0*18446744073709551617",
    "arp 8 1 4 65536*9000",
    "arp 8 1 4 65536*x",
    "arp 8 1 4 x*9000",
    "arp 8 1 4 1*9000,x",
    "arp 8 1 4 x,1*9000",
    "arp 8 1 4 99999,1*9000",
    "arp 8 1 4 1*9000,99999",
    "addresses 4 1 2 0,0,0,0,0,0",
    "addresses 4 1 2 5*1,6*2,7",
    "interleave_u8 9 1 3 ABCDEFGHI 255*2",
    "deinterleave_u8 9 1 3 ABCDEFGHI 255*2",
    "interleave_u8 9 1 3 ABCDEFGHI 170*3",
    "interleave_u8 9 1 3 ABCDEFGH 255*2",
    "interleave_u8 9 1 3 ABCDEFGHIJ 255*2",
    "interleave_u8 9 1 3 ABCDEFGHI 255",
    "interleave_u8 9 1 3 a,b*9-?! xyz",
    "interleave_u8 9 1 3 zABCDEFGH Zz",
    "deinterleave_u8 9 1 3 1,2,3,4,5,6,7,8,9 AZ",
    "interleave_u8 9 1 3 1ABCDEFGH 255*2",
    "interleave_u8 9 1 3 _ABCDEFGH 255*2",
    "interleave_u8 9 1 3 ABCDEFGHI",
    "interleave_u8 9 1 3 ABCDEFGHI 255*2 255*2",
    "interleave_u8 9 1 3 ABC DEF GHI",
    "interleave_u8 9 1 3 - -",
    "interleave_u8 9 1 3 - 255*2",
    "interleave_u8 9 1 3 ABCDEFGHI -",
    "interleave_u8 4 1 2 0,255,1,254 0",
    "interleave_u8 4 1 2 0,256,1,254 0",
    "interleave_u8 4 1 2 0,-0,1,254 0",
    "interleave_u8 4 1 2 0,-1,1,254 0",
    "interleave_u8 4 1 2 0,1,2,3 255",
    "interleave_u8 4 1 2 0,1,2,3 256",
    "interleave_u8 4 1 2 0,1,2,3 -1",
    "interleave_u8 4 1 2 256 x",
    "interleave_u8 4 x 2 256 x",
    "interleave_i16 4 1 2 -5,7,32767,-32768 0*1",
    "deinterleave_i16 4 1 2 -5,7,32767,-32768 0*1",
    "interleave_i16 4 1 2 -32768*4 9",
    "interleave_i16 4 1 2 -32769,1,2,3 9",
    "interleave_i16 4 1 2 32768,1,2,3 9",
    "interleave_i16 4 1 2 -32767,-1,-0,0 9",
    "interleave_i16 4 1 2 -65536,1,2,3 9",
    "interleave_i16 4 1 2 ABCD 9",
    "interleave_i16 4 1 2 --1,1,2,3 9",
    "interleave_i16 4 1 2 1-,1,2,3 9",
    "interleave_i16 4 1 2 +1,1,2,3 9",
    "interleave_i16 4 1 2 -,1,2,3 9",
    "interleave_i16 4 1 2 1,2,3,4 ABC",
    "interleave_i16 4 1 2 1,2,3,4 256",
    "interleave_i16 4 1 2 - -",
    "turbo_row",
    "turbo_row 40 3",
    "turbo_row  0040 ",
    "turbo_row x",
    "turbo_row -40",
    "turbo_row -",
    "turbo_row 4294967336",
    "turbo_row 40 x",
    "turbo_ro 40",
    "turbo_rows 40",
    "turbo_row40",
    "turbo 40",
    "row 40",
    "turbo_encod 40 1*40 9*44 9*44 9*44",
    "turbo_encodes 40 1*40 9*44 9*44 9*44",
    "turbo_encode_ 40 1*40 9*44 9*44 9*44",
    "turbo_encode_crc32 40 1*40 9*44 9*44 9*44",
    "turbo_encode_cr 40 1*40 9*44 9*44 9*44",
    "encode 40 1*40 9*44 9*44 9*44",
    "turbo_encode",
    "turbo_encode 40",
    "turbo_encode 40 1*40",
    "turbo_encode 40 1*40 9*44",
    "turbo_encode 40 1*40 9*44 9*44",
    "turbo_encode 40 1*40 9*44 9*44 9*44 9*44",
    "turbo_encode 40 1*40 9*44 9*44 9*44 x",
    "  turbo_encode  40   1*40 9*44 9*44   9*44 ",
    "turbo_encode 40 3 10 1*40 9*44 9*44 9*44",
    "turbo_encode x 1*40 9*44 9*44 9*44",
    "turbo_encode - 1*40 9*44 9*44 9*44",
    "turbo_encode 4294967336 1*40 9*44 9*44 9*44",
    "turbo_encode 4294967336 256 9*44 9*44 9*44",
    "turbo_encode 40 256 x*2 x*2 x*2",
    "turbo_encode 40 1*39,-1 9*44 9*44 9*44",
    "turbo_encode 40 1*39,-0 9*44 9*44 9*44",
    "turbo_encode 40 1*39,256 9*44 9*44 9*44",
    "turbo_encode 40 1*40, 9*44 9*44 9*44",
    "turbo_encode 40 _ 9*44 9*44 9*44",
    "turbo_encode 40 1*40 256*44 9*44 9*44",
    "turbo_encode 40 1*40 9*44 256*44 9*44",
    "turbo_encode 40 1*40 9*44 9*44 256*44",
    "turbo_encode 40 1*40 9*44 9*44 9*43,-1",
    "turbo_encode 40 1*40 9;9 9*44 256*44",
    "turbo_encode 40 1*40 9*44 9;9 256*44",
    "turbo_encode 40 1*40 9*44 9*44 9;9",
    "turbo_encode 40 1*40 - - -",
    "turbo_encode 40 1*40 - 9*44 9*44",
    "turbo_encode 40 1*40 9*44 - 9*44",
    "turbo_encode 40 1*40 9*44 9*44 -",
    "turbo_encode 40 - - - -",
    "turbo_encode 0 - 9*4 9*4 9*4",
    "turbo_encode 0 - - - -",
    "turbo_encode 41 1*41 9*2,8*0 - 7",
    "turbo_encode 40 0,1,1,0*36,1 1*44,9 2*44,8,7 3*44",
    "turbo_encode 40 Input a,b d1 Z",
    "turbo_encode 41 Input a,b d1 Z",
    "turbo_encode 40 1*40 abcdefghijklmnopqrstuvwxyzABCDEFGHIJKLMNOPQRSTUVWXYZ 9*44 x9876543210_abcdefghijklmnopqrstuvwxyz_0123456789",
    "turbo_encode 40 ABCDEFGHIJKLMNOPQRSTUVWXYZabcdefghijklmn 9*44 9*44 9*44",
    "turbo_encode_crc",
    "turbo_encode_crc 40 1*40 9*44 9*44",
    "turbo_encode_crc 40 1*40 9*44 9*44 9*44 9*44",
    "turbo_encode_crc 40 x*40 9*44 9*44 9*44",
    "turbo_encode_crc 40 1,*40 9*44 9*44 9*44",
    "turbo_encode_crc 40 1*40 9*44 9*44 256",
    "turbo_encode_crc 40 1*40 - - -",
    "turbo_encode_crc 40 - - - -",
    "turbo_encode_crc 41 A - B1 z23456789",
    "turbo_encode_crc 41 - 49,50,51,52,53,54,55,56,57 0 255",
    "turbo_encode_crc 40 0,1,1,0*36,1 1*44,9 abcdefghijklmnopqrstuvwxyzabcdefghijklmnopqrstuvwxyz 3*44",
];
