//! Worked cases; the spread on all orders of a few positions; the inverse against all polynomials where they can be
//! listed.

use crate::coding::{code, encode, row};
use crate::explaining::{explain, Reason};
use crate::inverting::{coefficient_limit, evaluate, inverse};
use crate::rows::standard_rows;
use crate::shuffle::*;
use crate::{ask, ask_input, card_input, cards, degrees};
use std::collections::BTreeSet;

fn t(k: u32, f1: u32, f2: u32) -> Triple {
    Triple::new(k, f1, f2)
}

/// D and a1 to aD.
fn coefficients(triple: Triple) -> Vec<u32> {
    let answer = inverse(triple);
    assert_eq!(answer.number, DONE);
    assert!(answer.places[answer.degree as usize..].iter().all(|&a| a == 0));
    answer.places[..answer.degree as usize].to_vec()
}

fn moved(triple: Triple, text: &str, direction: Direction) -> String {
    let mut block = text.as_bytes().to_vec();
    assert_eq!(move_block(triple, &mut block, &mut [170; 2], direction), DONE);
    String::from_utf8(block).unwrap()
}

fn card_output(input: &[u8]) -> String {
    let mut out = Vec::new();
    cards::write(input, &mut out).unwrap();
    String::from_utf8(out).unwrap()
}

#[test]
fn acceptance_cases() {
    for triple in [t(2, 0, 1), t(4, 1, 2), t(6, 2, 3), t(8192, 1, 2)] {
        assert_eq!(triple.acceptance(), DONE);
    }
    for triple in [t(2, 1, 1), t(3, 1, 1), t(4, 1, 1), t(5, 0, 0)] {
        assert_eq!(triple.acceptance(), NOT_PERMUTING);
    }
    assert_eq!(t(1, 0, 0).acceptance(), BAD_K);
    assert_eq!(t(8193, 1, 2).acceptance(), BAD_K);
    assert_eq!(t(5, 5, 0).acceptance(), BAD_COEFFICIENT);
}

#[test]
fn explain_cases() {
    let cases = [
        (t(8, 2, 4), [4, 0, 0, 2]),
        (t(4, 0, 1), [2, 0, 0, 2]), // modulo 2 it permutes, modulo 4 it does not
        (t(4, 1, 1), [2, 1, 2, 2]),
        (t(30, 1, 6), [10, 4, 10, 5]),
        (t(36, 5, 4), [7, 3, 15, 3]),
        (t(45, 2, 3), [10, 1, 5, 5]),
        (t(8191, 1, 1), [4096, 4094, 6144, 8191]),
    ];
    for (triple, [y, x, address, prime]) in cases {
        assert_eq!(explain(triple), Reason { number: DONE, y, x, address, prime });
    }
    let refused = [
        (t(60, 7, 30), NOTHING_TO_EXPLAIN),
        (t(8192, 1, 2), NOTHING_TO_EXPLAIN),
        (t(1, 0, 0), BAD_K),
        (t(8193, 1, 1), BAD_K),
        (t(4, 4, 1), BAD_COEFFICIENT),
        (t(4, 1, 4), BAD_COEFFICIENT),
    ];
    for (triple, number) in refused {
        assert_eq!(explain(triple), Reason { number, y: 0, x: 0, address: 0, prime: 0 });
    }
}

#[test]
fn address_cases() {
    assert_eq!(t(3, 1, 1).values(), [0, 2, 0]);
    assert_eq!(t(4, 1, 2).values(), [0, 3, 2, 1]);
    assert_eq!(t(6, 2, 3).values(), [0, 5, 4, 3, 2, 1]);
    assert_eq!(t(9, 1, 3).address(8), (DONE, 2));
    assert_eq!(t(9, 1, 3).address(9), (DONE, 0));
    assert_eq!(t(9, 1, 3).address(4294967295), (DONE, 3));
    assert_eq!(t(9, 1, 1).address(9), (NOT_PERMUTING, 0));
    assert_eq!(t(40, 3, 10).reciprocal(), (DONE, 27));
}

/// f at the position itself, in 128 bits, and the walker that has made as many steps.
#[test]
fn positions_past_the_block() {
    let wide = |t: Triple, x: u128| (t.f1 as u128 * x + t.f2 as u128 * x * x) % t.k as u128;
    for triple in ask_input::all_triples(2..=24).into_iter().filter(|t| t.acceptance() == DONE) {
        let mut walker = start(triple).1;
        for x in 0..=3 * triple.k {
            let (number, address, next) = step(walker);
            assert_eq!(triple.address(x), (number, address));
            walker = next;
        }
        for x in ask_input::counter_positions(triple.k) {
            assert_eq!(triple.address(x), (DONE, wide(triple, x as u128) as u32));
        }
    }
}

#[test]
fn inverse_cases() {
    assert_eq!(coefficients(t(2, 0, 1)), [1]);
    assert_eq!(coefficients(t(4, 1, 2)), [3]);
    assert_eq!(coefficients(t(6, 2, 3)), [5]);
    assert_eq!(coefficients(t(8, 1, 4)), [5]);
    assert_eq!(coefficients(t(9, 1, 3)), [1, 6]);
    assert_eq!(coefficients(t(40, 3, 10)), [27, 10]);
    assert_eq!(coefficients(t(1504, 23, 94)), [1079, 470, 376]);
    assert_eq!(coefficients(t(6016, 23, 94)), [1831, 2350, 1880, 376]);
}

#[test]
fn arp_case() {
    let form = arp(t(8, 1, 4));
    assert_eq!((form.p, form.q, form.shifts), (1, 2, vec![0, 4]));
}

/// From the definition, s by s and pair by pair, where positions and addresses need not share their distance.
fn largest(values: &[u32], positions: impl Fn(u32, u32) -> u32, addresses: impl Fn(u32, u32) -> u32) -> u32 {
    let k = values.len() as u32;
    let address = |x: u32| values[x as usize];
    let serves = |s: u32, x: u32, y: u32| positions(x, y) >= s || addresses(address(x), address(y)) >= s;
    (1..=k).rev().find(|&s| (0..k).all(|x| (0..x).all(|y| serves(s, x, y)))).unwrap()
}

fn cubic(k: u32, [f1, f2, f3]: [u32; 3]) -> Vec<u32> {
    (0..k).map(|x| (f1 * x + f2 * x * x + f3 * x * x * x) % k).collect()
}

#[test]
fn ways_round() {
    assert_eq!([0, 1, 2, 3, 4, 5].map(|b| circular(6)(b, 0)), [0, 1, 2, 3, 2, 1]);
    assert_eq!([0, 1, 2, 3, 4].map(|b| circular(5)(1, b)), [1, 0, 1, 2, 2]);
}

/// No quadratics, by hand: the spread round the circle; along the line; with the positions alone along the line,
/// so that no pair is across the end; and with the addresses alone along the line.
#[test]
fn spread_cases() {
    let cases = [
        (vec![0, 2, 4, 1, 3, 5], [1, 2, 2, 2]), // 0 and 5 at the ends
        (vec![0, 3, 5, 2, 4, 1], [1, 2, 2, 1]), // 0 and 1 at the ends
        (vec![0, 5, 2, 4, 1, 3], [1, 2, 1, 2]), // 0 and 5 next to each other
        (vec![0, 3, 6, 9, 1, 4, 7, 10, 2, 5, 11, 8], [2, 3, 3, 3]), // 11 and 0 two apart, across the end
        (cubic(11, [0, 0, 10]), [1, 2, 1, 1]),  // 0, 10 at the start and 1 at the end
        (cubic(17, [3, 6, 4]), [1, 2, 2, 2]),   // 0 and 16 at the ends
    ];
    for (values, [round, along, no_pair_across, no_address_across]) in cases {
        let (circle, line) = (circular(values.len() as u32), u32::abs_diff);
        assert_eq!(largest(&values, line, &circle), no_pair_across);
        assert_eq!(largest(&values, &circle, line), no_address_across);
        assert_eq!(spread_by(&values, line), along);
        assert_eq!(spread_by(&values, circle), round);
    }
}

/// Every order of 0 to k-1: the last is put at each place of every order of the others.
fn orders(k: u32) -> Vec<Vec<u32>> {
    (0..k).fold(vec![Vec::new()], |orders, last| {
        let longer = |order: &Vec<u32>| {
            let order = order.clone();
            (0..=order.len()).map(move |place| [&order[..place], &[last], &order[place..]].concat())
        };
        orders.iter().flat_map(longer).collect()
    })
}

/// Up to 3 positions two neighbours stand side by side whatever the order, so that every spread is 1. From 4 on there
/// is an order in which only 0 and the last address do, which are none along the line: 1, 3, 0, 2.
#[test]
fn never_above_the_line() {
    for k in 2..=8 {
        let mut below = 0;
        for values in orders(k) {
            let round = largest(&values, circular(k), circular(k));
            let along = largest(&values, u32::abs_diff, u32::abs_diff);
            assert_eq!(spread_by(&values, circular(k)), round);
            assert_eq!(spread_by(&values, u32::abs_diff), along);
            assert!(round <= along);
            below += (round < along) as u32;
        }
        assert_eq!(below > 0, k >= 4);
    }
}

/// Of quadratics only a refused one has two spreads: 0, 3, 0, 3, where 0 and 3 are neighbours round the circle.
#[test]
fn quadratics_as_along_the_line() {
    for triple in ask_input::all_triples(2..=64).into_iter().filter(|t| t.acceptance() == DONE) {
        assert_eq!(spread(triple), spread_by(&triple.values(), u32::abs_diff));
    }
    let refused = t(4, 0, 3);
    assert_eq!((spread(refused), spread_by(&refused.values(), u32::abs_diff)), (1, 2));
}

#[test]
fn block_cases() {
    assert_eq!(moved(t(6, 2, 3), "ABCDEF", Direction::Interleave), "AFEDCB");
    assert_eq!(moved(t(9, 1, 3), "ABCDEFGHI", Direction::Interleave), "AEFDHIGBC");
    assert_eq!(moved(t(9, 1, 3), "ABCDEFGHI", Direction::Deinterleave), "AHIDBCGEF");
}

#[test]
fn block_and_scratch_lengths() {
    let cases = [(8, 2, BAD_BLOCK), (10, 2, BAD_BLOCK), (8, 1, BAD_BLOCK), (9, 1, SHORT_SCRATCH)];
    for (length, scratch_length, number) in cases {
        let mut block: Vec<u8> = (0..length).collect();
        let mut scratch = vec![170; scratch_length];
        assert_eq!(move_block(t(9, 1, 3), &mut block, &mut scratch, Direction::Interleave), number);
        assert_eq!(block, (0..length).collect::<Vec<u8>>());
        assert_eq!(scratch, vec![170; scratch_length]);
    }
    let mut scratch = [170; 3];
    assert_eq!(move_block(t(9, 1, 3), &mut [7i16; 9], &mut scratch, Direction::Deinterleave), DONE);
    assert_eq!(scratch, [0, 0, 170]);
    assert_eq!(move_block(t(9, 1, 3), &mut [7i16; 9], &mut [1; 2], Direction::Deinterleave), DONE);
}

#[test]
fn walker_and_list() {
    let (number, mut walker) = start(t(6, 2, 3));
    assert_eq!(number, DONE);
    for expected in [0, 5, 4, 3, 2, 1, 0, 5] {
        let (number, address, next) = step(walker);
        assert_eq!((number, address), (DONE, expected));
        walker = next;
    }
    let zeros = Walker { triple: t(0, 0, 0), at: 0 };
    assert_eq!(start(t(4, 1, 1)), (NOT_PERMUTING, zeros));
    assert_eq!(step(Walker { triple: t(4, 1, 1), at: 4 }), (BAD_POSITION, 0, zeros));
    assert_eq!(step(Walker { triple: t(4, 1, 1), at: 3 }), (DONE, 0, Walker { triple: t(4, 1, 1), at: 0 }));
    let mut list = [65535; 5];
    assert_eq!(address_list(t(4, 1, 2), &mut list[..3]), SHORT_LIST);
    assert_eq!(list, [65535; 5]);
    assert_eq!(address_list(t(4, 1, 2), &mut list), DONE);
    assert_eq!(list, [0, 3, 2, 1, 65535]);
}

#[test]
fn sample_cards() {
    let expected = "40 3 10 ok 2 27 10 3 2 3\n8 1 4 ok 1 5 1 2 2\n8 2 4 refused 3\n9000 1 0 refused 1\n";
    assert_eq!(card_output(b"40 3 10\n8 1 4\n8 2 4\n9000 1 0\n"), expected);
}

#[test]
fn unreadable_cards() {
    assert_eq!(card_output(b""), "");
    assert_eq!(card_output(b"8 1 4"), "unreadable\n");
    assert_eq!(card_output(b"\n00008 01 4\n8 1 4\r\n"), "unreadable\n8 1 4 ok 1 5 1 2 2\nunreadable\n");
    for line in ["8 1", "8 1 4 ", " 8 1 4", "8  1 4", "8 1 4 1", "000008 1 4", "+8 1 4", "8 1 \u{664}"] {
        assert_eq!(card_output(format!("{line}\n").as_bytes()), "unreadable\n");
    }
}

#[test]
fn card_input_is_as_meant() {
    let mut input = Vec::new();
    card_input::write(&mut input).unwrap();
    assert!(input.starts_with(b"40 3 10\n8 1 4\n8 2 4\n9000 1 0\n") && input.ends_with(b"\n8 1 4"));
    assert!(input.len() < 600_000);
    for line in card_input::unreadable_lines() {
        assert_eq!(card_output(&[&line[..], b"\n"].concat()), "unreadable\n");
    }
    assert_eq!(standard_rows().len(), 188);
}

fn answers(input: &[u8]) -> Vec<String> {
    let mut out = Vec::new();
    ask::write(input, &mut out).unwrap();
    String::from_utf8_lossy(&out).lines().map(str::to_string).collect()
}

#[test]
fn sample_answers() {
    let cases = [
        ("accept 40 3 10", "0"),
        ("explain 30 1 6", "0 10 4 10 5"),
        ("explain 60 7 30", "8 0 0 0 0"),
        ("address 40 3 10 7", "0 31"),
        ("reciprocal 40 3 10", "0 27"),
        ("spread 40 3 10", "0 3"),
        ("inverse 40 3 10", "0 2 27 10 0 0 0 0 0 0 0 0 0 0 0"),
        ("arp 8 1 4 9*3", "0 1 2 0,4,9"),
        ("addresses 4 1 2 65535*6", "0 0,3,2,1,65535,65535"),
        ("addresses 4 1 2 -", "7 -"),
        ("walker_start 6 2 3", "0 6 2 3 0"),
        ("walker_step 6 2 3 5", "0 1 6 2 3 0"),
        ("walker_step 6 2 3 6", "6 0 0 0 0 0"),
        ("interleave_u8 9 1 3 ABCDEFGHI 255*2", "0 AEFDHIGBC 0,0"),
        ("deinterleave_u8 9 1 3 65,66,67,68,69,70,71,72,73 1,2,3", "0 65,72,73,68,66,67,71,69,70 0,0,3"),
        ("interleave_i16 4 1 2 -5,7,32767,-32768 0*1", "0 -5,-32768,32767,7 0"),
        ("  deinterleave_i16  4 1 2 1,2,3 AB ", "4 1,2,3 65,66"),
        ("turbo_row 40", "0 3 10"),
        ("turbo_row 6144", "0 263 480"),
        ("turbo_row 41", "9 0 0"),
        ("turbo_encode 41 AB 1,2 - Z", "9 1,2 - 90"),
        ("turbo_encode 40 1*39 9*2 8*2 7*2", "4 9,9 8,8 7,7"),
        ("turbo_encode 40 1*40 9*2 8*2 A1", "7 9,9 8,8 65,49"),
        ("turbo_encode_crc 41 - - 49,50,51,52,53,54,55,56,57 -", "9 0 3421780262 0"),
    ];
    for (line, answer) in cases {
        assert_eq!(answers(line.as_bytes()), [answer]);
    }
    assert_eq!(answers(b""), [] as [&str; 0]);
    assert_eq!(answers(b"accept 4 1 1\n\naccept 4 1 2\n"), ["3", "? word 1: too few words", "0"]);
}

#[test]
fn lines_that_are_no_question() {
    let cases = [
        ("acept 4 1 2", "? word 1: no such call"),
        ("accept 4 1", "? word 4: too few words"),
        ("accept 4 1 2 3", "? word 5: too many words"),
        ("accept 4 1 2\r", "? word 4: no number"),
        ("accept 4 -1 2", "? word 3: no number"),
        ("accept 4294967296 x 2", "? word 2: a number above 4294967295"),
        ("arp 8 1 4 ABC", "? word 5: no list"),
        ("arp 8 1 4 1,,2", "? word 5: no list"),
        ("arp 8 1 4 1,65536", "? word 5: an entry out of range"),
        ("interleave_u8 4 1 2 1,2,3,4 -1", "? word 6: an entry out of range"),
        ("interleave_i16 4 1 2 32768 x", "? word 5: an entry out of range"),
        ("addresses 4 1 2 1,1*8200", "? word 5: a list of more than 8200 entries"),
        ("turbo_row 40 3 10", "? word 3: too many words"),
        ("turbo_encode 40 1*40 9*44 9*44", "? word 6: too few words"),
        ("turbo_encode 40 1*40 9*44 256 x,", "? word 5: an entry out of range"),
        ("turbo_encode_crc x 256 9*44 9*44 9*44", "? word 2: no number"),
    ];
    for (line, answer) in cases {
        assert_eq!(answers(line.as_bytes()), [answer]);
    }
    let long = |size: usize| format!("accept 4 1 2{}", " ".repeat(size - 12));
    assert_eq!(answers(long(65535).as_bytes()), ["0"]);
    assert_eq!(answers(long(65536).as_bytes()), ["? a line of more than 65535 bytes"]);
    assert_eq!(answers("interleave_u8 4 1 2 ".to_string().as_bytes()), ["? word 5: too few words"]);
}

/// Every call meets each of its numbers, and every kind of complaint is met.
#[test]
fn ask_input_is_as_meant() {
    let mut input = Vec::new();
    ask_input::write(&mut input).unwrap();
    assert!(!input.ends_with(b"\n") && input.len() < 3_300_000);
    let text = String::from_utf8_lossy(&input);
    let answers = answers(&input);
    let mut numbers = BTreeSet::new();
    let mut complaints = BTreeSet::new();
    for (line, answer) in text.split('\n').zip(&answers) {
        let name = line.split_whitespace().next().unwrap_or_default();
        let first = answer.split(' ').next().unwrap();
        match answer.strip_prefix("? word ") {
            Some(complaint) => complaints.insert(complaint[3..].to_string()),
            None if first == "?" => complaints.insert(answer.clone()),
            None => numbers.insert(format!("{name} {first}")),
        };
    }
    let refusals = [
        ("accept", "0123"),
        ("explain", "0128"),
        ("address", "0123"),
        ("reciprocal", "0123"),
        ("spread", "0123"),
        ("inverse", "0123"),
        ("arp", "01237"),
        ("addresses", "01237"),
        ("walker_start", "0123"),
        ("walker_step", "0126"),
        ("interleave_u8", "012345"),
        ("deinterleave_u8", "012345"),
        ("interleave_i16", "012345"),
        ("deinterleave_i16", "012345"),
        ("turbo_row", "09"),
        ("turbo_encode", "0479"),
        ("turbo_encode_crc", "0479"),
    ];
    let all = refusals.iter().flat_map(|(name, list)| list.chars().map(move |n| format!("{name} {n}")));
    assert_eq!(numbers, all.collect());
    assert_eq!(complaints.len(), 9);
}

/// Table II of source document 001: length, coefficients, and a printed inverse of least degree.
const PRINTED: [(u32, u32, u32, &[u32]); 35] = [
    (928, 15, 58, &[31, 290, 232]),
    (1056, 17, 66, &[1025, 726, 792]),
    (1184, 19, 74, &[779, 74, 296]),
    (1248, 19, 78, &[427, 78, 936]),
    (1312, 21, 82, &[781, 574, 984]),
    (1376, 21, 86, &[557, 602, 344]),
    (1504, 49, 846, &[353, 282, 376]),
    (1632, 25, 102, &[1273, 306, 408]),
    (1696, 55, 954, &[663, 530, 424]),
    (1760, 27, 110, &[163, 990, 1320]),
    (1824, 29, 114, &[1541, 1710, 1368]),
    (1888, 45, 354, &[21, 1534, 472]),
    (1952, 59, 610, &[579, 1586, 488]),
    (2112, 17, 66, &[1025, 1782, 792]),
    (2944, 45, 92, &[1701, 1748, 2208]),
    (4160, 33, 130, &[3057, 1430, 1560]),
    (4288, 33, 134, &[3281, 1474, 2680]),
    (4416, 35, 138, &[347, 2346, 552]),
    (4544, 357, 142, &[4509, 994, 2840]),
    (4672, 37, 146, &[2557, 1022, 4088]),
    (4736, 71, 444, &[2935, 3996, 3552]),
    (4928, 39, 462, &[1927, 1078, 616]),
    (4992, 127, 234, &[511, 2730, 4056, 2184]),
    (5056, 39, 158, &[3079, 2054, 1896]),
    (5184, 31, 96, &[3679, 1632, 1152]),
    (5248, 113, 902, &[2833, 410, 4264, 328]),
    (5312, 41, 166, &[3401, 498, 3320]),
    (5440, 43, 170, &[1107, 1530, 680]),
    (5504, 21, 86, &[2621, 5074, 1032, 5160]),
    (5568, 43, 174, &[1651, 1566, 4872]),
    (5696, 45, 178, &[3829, 5518, 4984]),
    (5824, 89, 182, &[409, 3458, 3640]),
    (5952, 47, 186, &[95, 930, 3720]),
    (6016, 23, 94, &[1831, 3854, 1880, 4888]),
    (6080, 47, 190, &[2943, 950, 2280]),
];

#[test]
fn rows_that_no_quadratic_undoes() {
    let mut out = Vec::new();
    degrees::write(&mut out).unwrap();
    let line = |(k, f1, f2, inverse): (u32, u32, u32, &[u32])| format!("{k} {f1} {f2} {}\n", inverse.len());
    let lines: String = PRINTED.into_iter().map(line).collect();
    assert_eq!(String::from_utf8(out).unwrap(), lines + "35 of 188 rows have D above 2\n");
    for (k, f1, f2, inverse) in PRINTED {
        assert!(undoes(t(k, f1, f2), inverse, 0));
    }
}

#[test]
fn rows_by_their_lengths() {
    let steps = [(40..=512, 8), (528..=1024, 16), (1056..=2048, 32), (2112..=6144, 64)];
    let lengths: Vec<u32> = steps.into_iter().flat_map(|(range, step)| range.step_by(step)).collect();
    assert_eq!(standard_rows().iter().map(|row| row.k).collect::<Vec<u32>>(), lengths);
    for k in 0..=8192 {
        assert_eq!(row(k).is_some(), lengths.contains(&k));
    }
    assert!(standard_rows().into_iter().all(|row| row.acceptance() == DONE));
}

fn bits(text: &str) -> Vec<u8> {
    text.bytes().filter(|&byte| byte != b' ').map(|byte| byte - b'0').collect()
}

/// By long division: 1/g0 is 1011100 again and again, and g1/g0 is 1 and then 1110010 again and again.
#[test]
fn impulse_response() {
    let coded = code(&bits("1000000 0000000 0000000 00"));
    assert_eq!(coded.z[..23], bits("1 1110010 1110010 1110010 1"));
    // 1 + D² + D³ is the feedback itself, which leaves the coder empty: its output is g1.
    let coded = code(&bits("1011 00000"));
    assert_eq!((coded.x, coded.z), (bits("1011 00000 000"), bits("1101 00000 000")));
    // Two ones seven apart: the response ends.
    assert_eq!(code(&bits("1000000 1000")).z, bits("1 1110011 000 000"));
}

/// By hand, with a, b, c the last three bits of w, the latest first: x(K) = b + c, z(K) = a + c, and so on with a 0 in
/// front of them.
#[test]
fn tail_by_hand() {
    for left in all_lists(&[2; 3]) {
        let [a, b, c] = [left[0], left[1], left[2]].map(|bit| bit as u8);
        let coded = code(&[c, b, a ^ c]);
        assert_eq!(coded.x[3..], [b ^ c, a ^ b, a]);
        assert_eq!(coded.z[3..], [a ^ c, b, a]);
    }
}

/// The tail leaves zeros: a coder that went on with zeros would put out zeros.
#[test]
fn tail_leaves_zeros() {
    for block in all_lists(&[2; 10]) {
        let block: Vec<u8> = block.iter().map(|&bit| bit as u8).collect();
        let coded = code(&block);
        let longer = code(&[&coded.x[..], &[0; 9]].concat());
        assert_eq!(longer.x, [&coded.x[..], &[0; 12]].concat());
        assert_eq!(longer.z, [&coded.z[..], &[0; 12]].concat());
    }
}

fn encoded(input: &[u8]) -> [Vec<u8>; 3] {
    let mut lists = [7, 8, 9].map(|byte| vec![byte; input.len() + 5]);
    assert_eq!(encode(input.len() as u32, input, &mut lists), DONE);
    assert_eq!([0, 1, 2].map(|list| lists[list].pop()), [Some(7), Some(8), Some(9)]);
    lists
}

fn single(k: usize, place: usize) -> Vec<u8> {
    (0..k).map(|i| (i == place) as u8).collect()
}

/// One bit in a block of 40, by hand: f(0) = 0, f(26) = 38, f(23) = 39, and the second coder has the bit there.
#[test]
fn encoded_by_hand() {
    let response = bits("1 1110010 1110010 1110010 1110010 1110010 1110");
    let cases = [(0, 0, ["0101"; 3]), (38, 26, ["1110", "0010", "1000"]), (39, 23, ["0010", "1101", "1111"])];
    for (first, second, tails) in cases {
        let input = single(40, first);
        let later = |place: usize| [&vec![0; place][..], &response[..40 - place]].concat();
        let bodies = [input.clone(), later(first), later(second)];
        for ((list, body), tail) in encoded(&input).iter().zip(bodies).zip(tails) {
            assert_eq!(*list, [body, bits(tail)].concat());
        }
    }
}

/// Zeros give zeros, and the sum of two blocks gives the sum of what the two give.
#[test]
fn encoding_adds_up() {
    let plus = |a: &[u8], b: &[u8]| a.iter().zip(b).map(|(a, b)| (a + b) % 2).collect::<Vec<u8>>();
    for k in [40, 504, 6144] {
        let (ones, thirds) = (vec![1; k], (0..k).map(|i| (i % 3 == 0) as u8).collect::<Vec<u8>>());
        let (a, b, both) = (encoded(&ones), encoded(&thirds), encoded(&plus(&ones, &thirds)));
        for list in 0..3 {
            assert_eq!(plus(&a[list], &b[list]), both[list]);
            assert_eq!(encoded(&vec![0; k])[list], vec![0; k + 4]);
        }
    }
}

#[test]
fn encoding_refusals() {
    let cases = [
        (40, 40, 1, [44, 44, 44], DONE),
        (40, 40, 1, [43, 44, 44], SHORT_LIST),
        (40, 40, 1, [44, 43, 44], SHORT_LIST),
        (40, 40, 1, [44, 44, 43], SHORT_LIST),
        (40, 40, 1, [0, 0, 0], SHORT_LIST),
        (40, 40, 2, [44, 44, 44], BAD_BLOCK),
        (40, 40, 255, [43, 43, 43], BAD_BLOCK),
        (40, 39, 1, [44, 44, 44], BAD_BLOCK),
        (40, 41, 1, [0, 0, 0], BAD_BLOCK),
        (39, 39, 1, [43, 43, 43], NO_ROW),
        (41, 40, 2, [0, 0, 0], NO_ROW),
        (0, 0, 0, [4, 4, 4], NO_ROW),
        (6145, 6145, 1, [6149, 6149, 6149], NO_ROW),
    ];
    for (k, length, last, lists, number) in cases {
        let mut input = vec![0; length];
        input.iter_mut().rev().take(1).for_each(|bit| *bit = last);
        let mut lists = lists.map(|length| vec![9; length]);
        let before = lists.clone();
        assert_eq!(encode(k, &input, &mut lists), number);
        assert_eq!(lists == before, number != DONE);
    }
}

#[test]
fn check_value_of_the_crc() {
    assert_eq!(ask::crc32(b"123456789"), 3421780262);
    assert_eq!(ask::crc32(b""), 0);
}

/// Every list of coefficients with the given count of choices at each degree.
fn all_lists(choices: &[u64]) -> Vec<Vec<u32>> {
    choices.iter().fold(vec![Vec::new()], |lists, &count| {
        let longer = |list: &Vec<u32>| {
            let list = list.clone();
            (0..count as u32).map(move |a| [&list[..], &[a]].concat())
        };
        lists.iter().flat_map(longer).collect()
    })
}

/// a1 to a13 for a list that starts at a1.
fn padded(list: &[u32]) -> [u32; 13] {
    let mut places = [0; 13];
    places[..list.len()].copy_from_slice(list);
    places
}

fn undoes(triple: Triple, list: &[u32], constant: u32) -> bool {
    let places = padded(list);
    (0..triple.k).all(|x| (evaluate(&places, triple.f(x), triple.k) + constant) % triple.k == x)
}

/// Inside the limits just one polynomial undoes f, and none of lower degree does, constant or not.
#[test]
fn inverse_is_the_only_one() {
    for k in [2, 3, 4, 5, 6, 8, 9, 10, 12, 15, 16, 18, 24] {
        let limits: Vec<u64> = (1..=13).map(|degree| coefficient_limit(k as u64, degree)).collect();
        let inside = all_lists(&limits);
        for f1 in 0..k {
            for f2 in 0..k {
                let triple = t(k, f1, f2);
                if triple.acceptance() != DONE {
                    continue;
                }
                let answer = inverse(triple);
                let serving: Vec<&Vec<u32>> = inside.iter().filter(|list| undoes(triple, list, 0)).collect();
                assert_eq!(serving, [&answer.places.to_vec()]);
                let lower = all_lists(&vec![k as u64; answer.degree as usize - 1]);
                assert!((0..k).all(|c| lower.iter().all(|list| !undoes(triple, list, c))));
            }
        }
    }
}

/// The scope on 6016, (23,94): source document 001 prints the same map outside the limits.
#[test]
fn printed_inverse_is_the_same_map() {
    let triple = t(6016, 23, 94);
    let printed = [1831, 3854, 1880, 4888];
    let (places, answer) = (padded(&printed), inverse(triple).places);
    assert!((0..6016).all(|y| evaluate(&places, y, 6016) == evaluate(&answer, y, 6016)));
    assert!(undoes(triple, &printed, 0));
    let outside = |degree: &u32| places[*degree as usize - 1] as u64 >= coefficient_limit(6016, *degree);
    assert_eq!((1..=13).filter(outside).collect::<Vec<u32>>(), [2, 4]);
}
