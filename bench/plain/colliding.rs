//! Prints as many integers as the first word says that collide as keys of a job's first table: their tags are one, and their places
//! begin in one sixteenth of the map, so that they fill a single run of places, in which each is compared with those that stand before
//! it. They are the first such from 0 on; or, where a second word `names` follows, the first of nine digits that collide so as names of
//! variables. Places of items are hashed as crates/sno_value/src/key.rt derives it: the table's number in four bytes, which kind of key
//! it is in eight, and the integer in eight; names by their length in eight bytes, and then byte by byte.
use std::io::{BufWriter, Write};

const START: u64 = 0x243F_6A88_85A3_08D3;
const MULTIPLIER: u64 = 0x9E37_79B9_7F4A_7C15;

/// The state after one more value, of so many bytes.
fn hashed(state: u64, value: u64, bytes: u64) -> u64 {
    let product = u128::from(state ^ value) * u128::from(MULTIPLIER ^ 2 * bytes);
    product as u64 ^ (product >> 64) as u64
}

/// The state after the three last digits of a number. A byte by itself is read as the first, the middle and the last.
fn digits_hashed(state: u64, number: u64) -> u64 {
    [100, 10, 1].iter().fold(state, |state, place| hashed(state, 0x1_0101 * (u64::from(b'0') + number / place % 10), 1))
}

fn collides(hash: u64) -> bool {
    let hash = (hash ^ hash >> 32) as u32;
    hash >> 24 == 0x5b && hash >> 10 & 15 == 3
}

/// The integers that collide as keys of the first table, of the second kind, which integers are.
fn keys() -> impl Iterator<Item = u64> {
    let begun = hashed(hashed(START, 0, 4), 1, 8);
    (0..).filter(move |&number| collides(hashed(begun, number, 8)))
}

/// The numbers of nine digits that collide as names. What numbers begin with is hashed once for each thousand.
fn names() -> impl Iterator<Item = u64> {
    let begun = hashed(START, 9, 8);
    (100_000..1_000_000).flat_map(move |thousands| {
        let state = digits_hashed(digits_hashed(begun, thousands / 1000), thousands);
        (0..1000).filter(move |&rest| collides(digits_hashed(state, rest))).map(move |rest| 1000 * thousands + rest)
    })
}

fn main() -> std::io::Result<()> {
    let words: Vec<String> = std::env::args().skip(1).collect();
    let count = words.first().and_then(|word| word.parse().ok()).unwrap_or(0);
    let found: Box<dyn Iterator<Item = u64>> = if words.len() > 1 { Box::new(names()) } else { Box::new(keys()) };
    let mut to = BufWriter::new(std::io::stdout());
    found.take(count).try_for_each(|number| writeln!(to, "{number}"))
}
