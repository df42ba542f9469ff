//! The turbo encoder of 3GPP TS 36.212, clause 5.1.3, straight from its two polynomials: each bit of a coder is a sum
//! of earlier ones, over whole sequences and with no state. The answer is held to g0·z = g1·x, which uses no register.

use crate::rows::standard_rows;
use crate::shuffle::{Triple, BAD_BLOCK, DONE, NO_ROW, SHORT_LIST};

/// g0 = 1 + D² + D³, the feedback, and g1 = 1 + D + D³, the output: by how many places each term looks back.
const G0: [usize; 3] = [0, 2, 3];
const G1: [usize; 3] = [0, 1, 3];

/// The bits that bring a coder back to zeros.
const TAIL: usize = 3;

/// The sum modulo 2 of the bits so many places before n. Before time 0 every bit is 0.
fn sum(bits: &[u8], n: usize, back: &[usize]) -> u8 {
    back.iter().filter(|&&places| places <= n).map(|&places| bits[n - places]).sum::<u8>() % 2
}

/// What a coder takes in and gives out, its tail included.
#[derive(Clone, Debug, PartialEq, Eq)]
pub struct Coded {
    pub x: Vec<u8>,
    pub z: Vec<u8>,
}

/// One constituent coder, on a block of any length.
pub fn code(block: &[u8]) -> Coded {
    let (mut x, mut w) = (block.to_vec(), Vec::new());
    for n in 0..block.len() + TAIL {
        let feedback = sum(&w, n, &G0[1..]);
        if n >= block.len() {
            x.push(feedback);
        }
        w.push((x[n] + feedback) % 2);
    }
    let z = (0..w.len()).map(|n| sum(&w, n, &G1)).collect();
    assert_eq!(w[block.len()..], [0; TAIL], "no bit of the block is left in the coder");
    let coded = Coded { x, z };
    check_coded(&coded);
    coded
}

fn check_coded(coded: &Coded) {
    for n in 0..coded.x.len() {
        assert_eq!(sum(&coded.z, n, &G0), sum(&coded.x, n, &G1));
    }
}

/// The standard's row of length K, if there is one.
pub fn row(k: u32) -> Option<Triple> {
    standard_rows().into_iter().find(|row| row.k == k)
}

/// The three lists, K + 4 bits each.
fn streams(row: Triple, block: &[u8]) -> [Vec<u8>; 3] {
    let shuffled: Vec<u8> = row.values().into_iter().map(|address| block[address as usize]).collect();
    let (Coded { x, z }, Coded { x: x2, z: z2 }) = (code(block), code(&shuffled));
    let k = block.len();
    [
        [&x[..k], &[x[k], z[k + 1], x2[k], z2[k + 1]]].concat(),
        [&z[..k], &[z[k], x[k + 2], z2[k], x2[k + 2]]].concat(),
        [&z2[..k], &[x[k + 1], z[k + 2], x2[k + 1], z2[k + 2]]].concat(),
    ]
}

/// Tests 9, 4, 7; entries past K + 4 stay.
pub fn encode(k: u32, input: &[u8], lists: &mut [Vec<u8>; 3]) -> u32 {
    let Some(row) = row(k) else {
        return NO_ROW;
    };
    if input.len() != k as usize || input.iter().any(|&bit| bit > 1) {
        return BAD_BLOCK;
    }
    if lists.iter().any(|list| list.len() < k as usize + 4) {
        return SHORT_LIST;
    }
    for (list, stream) in lists.iter_mut().zip(streams(row, input)) {
        list[..stream.len()].copy_from_slice(&stream);
    }
    DONE
}
