//! Input for a test of the card program.

use crate::rows::standard_rows;
use crate::shuffle::Triple;
use std::io::{self, Write};

const SAMPLES: &[u8] = b"40 3 10\n8 1 4\n8 2 4\n9000 1 0\n";

pub fn write(out: &mut impl Write) -> io::Result<()> {
    out.write_all(SAMPLES)?;
    write_small(out)?;
    for t in standard_rows() {
        write_triple(out, t)?;
    }
    write_limits(out)?;
    write_unreadable(out)?;
    out.write_all(b"8 1 4")
}

fn write_triple(out: &mut impl Write, t: Triple) -> io::Result<()> {
    writeln!(out, "{} {} {}", t.k, t.f1, t.f2)
}

/// Every triple with K up to 32, and both coefficients at K as well.
fn write_small(out: &mut impl Write) -> io::Result<()> {
    for k in 1..=32 {
        for f1 in 0..=k {
            for f2 in 0..=k {
                write_triple(out, Triple::new(k, f1, f2))?;
            }
        }
    }
    Ok(())
}

/// Leading zeros, all nines, and the scope's own cases.
const LIMITS: &[&str] = &[
    "99999 99999 99999",
    "8192 8191 8190",
    "8192 99999 99999",
    "0 0 0",
    "00000 00000 00000",
    "00008 1 4",
    "8 00001 4",
    "8 1 00004",
    "00008 00001 00004",
    "08192 00001 00002",
    "08193 00001 00002",
    "1 0 0",
    "5 5 0",
    "5 0 5",
    "5 0 0",
    "2 0 1",
    "2 1 1",
    "3 1 1",
    "4 1 2",
    "4 1 1",
    "6 2 3",
    "9 1 3",
];

/// Both sides of every limit.
fn write_limits(out: &mut impl Write) -> io::Result<()> {
    for k in [0, 1, 2, 8191, 8192, 8193, 99999] {
        for (f1, f2) in [(0, 0), (1, 0), (0, 1), (1, 2), (1, 1)] {
            write_triple(out, Triple::new(k, f1, f2))?;
        }
    }
    for k in [2, 3, 6, 10, 40, 97, 1024, 4095, 8190, 8191, 8192] {
        for (f1, f2) in
            [(k - 1, 0), (k, 0), (1, k - 1), (1, k), (k - 1, k - 1), (k, k), (99999, 1), (1, 99999)]
        {
            write_triple(out, Triple::new(k, f1, f2))?;
        }
    }
    for text in LIMITS {
        writeln!(out, "{text}")?;
    }
    Ok(())
}

/// Unreadable lines written out by hand.
const BROKEN: &[&[u8]] = &[
    b"",
    b" ",
    b"  ",
    b"   ",
    b"\t",
    b"\r",
    b"8",
    b"8 1",
    b"8 1 ",
    b" 8 1 4",
    b"8 1 4 ",
    b"8  1 4",
    b"8 1  4",
    b"  8 1 4",
    b"8 1 4  ",
    b"8\t1\t4",
    b"8 1\t4",
    b"8\t1 4",
    b"\t8 1 4",
    b"8 1 4\t",
    b"8 1 4\r",
    b"8 1\r 4",
    b"\r8 1 4",
    b"000008 1 4",
    b"8 000001 4",
    b"8 1 000004",
    b"100000 1 0",
    b"8 100000 4",
    b"8 1 100000",
    b"4294967296 1 0",
    b"4294967304 1 4",
    b"8 4294967297 4",
    b"18446744073709551624 1 4",
    b"+8 1 4",
    b"8 +1 4",
    b"8 1 +4",
    b"-8 1 4",
    b"8 -1 4",
    b"8 1 -4",
    b"8 1 -0",
    b"8.0 1 4",
    b"8 1 4.",
    b"8,1,4",
    b"8, 1, 4",
    b"8;1;4",
    b"0x8 1 4",
    b"8 1 4e0",
    b"8_0 1 4",
    b"a b c",
    b"eight one four",
    b"8 1 4x",
    b"x8 1 4",
    b"8 x 4",
    b"8 1 4 0",
    b"8 1 4 8 1 4",
    b"8 1 4 ok",
    b"unreadable",
    b"40 3 10 ok 2 27 10 3 2 3",
    b"8 2 4 refused 3",
    b"\"8 1 4\"",
    b"# 8 1 4",
    b"814",
    b"\0",
    b"\0\0\0",
    b"8 1 4\0",
    b"\x008 1 4",
    b"8\x001\x004",
    b"\xff",
    b"\x80\x81\x82",
    b"\xef\xbb\xbf8 1 4",
    b"8\xc2\xa01 4",
    b"8 1 \xd9\xa4",
    b"\xef\xbc\x98 1 4",
    b"8 1 4\xe2\x80\xa8",
    b"8 \xb2 4",
    b"\xc0\xb8 1 4",
];

/// Bytes on both sides of the digits and of the space, and others that a loose reader might let pass.
const STRANGE: [u8; 12] = [0, 9, 11, 13, 31, 33, b'/', b':', 127, 128, 160, 255];

/// Longer than any buffer a reader is likely to keep.
const LONG: usize = 100_000;

pub fn unreadable_lines() -> Vec<Vec<u8>> {
    let mut lines: Vec<Vec<u8>> = BROKEN.iter().map(|line| line.to_vec()).collect();
    for byte in STRANGE {
        lines.push([b"40 3", &[byte][..], b"10"].concat());
        lines.push([b"40 ", &[byte][..], b" 10"].concat());
        lines.push([b"40 3 1", &[byte][..]].concat());
        lines.push([&[byte][..], b"0 3 10"].concat());
    }
    lines.push(vec![b'7'; LONG]);
    let mut long = b"40 3 10 ".to_vec();
    long.resize(LONG, b'5');
    lines.push(long);
    lines
}

/// Good lines stand between the broken ones, so that a reader that loses its place is seen.
fn write_unreadable(out: &mut impl Write) -> io::Result<()> {
    let good = ["40 3 10", "8 1 4", "6 2 3", "9 1 3", "8 2 4", "9000 1 0", "5 5 0"];
    for (i, line) in unreadable_lines().iter().enumerate() {
        out.write_all(line)?;
        out.write_all(b"\n")?;
        if i % 3 == 2 || line.len() == LONG {
            writeln!(out, "{}", good[i / 3 % good.len()])?;
        }
    }
    Ok(())
}
