//! The 188 rows of 3GPP TS 36.212, clause 5.1.3.

use crate::shuffle::Triple;

pub fn standard_rows() -> Vec<Triple> {
    let row = |text: &str| {
        let numbers: Vec<u32> = text.split(' ').map(|word| word.parse().unwrap()).collect();
        assert_eq!(numbers.len(), 3);
        Triple::new(numbers[0], numbers[1], numbers[2])
    };
    include_str!("../lte-rows.txt").lines().map(row).collect()
}
