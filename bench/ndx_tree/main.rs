//! The same insertions and searches in a `BTreeMap`.

use std::collections::BTreeMap;
use std::hint::black_box;
use std::time::Instant;

const KEYS: u32 = 100_000;

fn next_of(seed: u32) -> u32 {
    seed.wrapping_mul(1_664_525).wrapping_add(1_013_904_223)
}

fn key_of<const N: usize>(seed: u32) -> [u8; N] {
    let mut key = [0; N];
    let mut state = seed;
    for byte in &mut key {
        *byte = (state >> 24) as u8;
        state = next_of(state);
    }
    key
}

fn digits_of(seed: u32) -> [u8; 10] {
    let mut key = [b'0'; 10];
    let mut rest = seed;
    for place in (0..10).rev() {
        key[place] = b'0' + (rest % 10) as u8;
        rest /= 10;
    }
    key
}

fn measure<const N: usize>(key_of: impl Fn(u32) -> [u8; N]) {
    let mut map = BTreeMap::new();
    let start = Instant::now();
    let mut seed = 1;
    for record in 0..KEYS {
        seed = next_of(seed);
        map.insert((key_of(seed), record + 1), ());
    }
    let filled = start.elapsed().as_nanos();
    let start = Instant::now();
    let (mut seed, mut sum) = (1, 0u64);
    for turn in 0..KEYS {
        seed = next_of(seed);
        let sought = if turn % 2 == 0 { seed } else { seed ^ 1 };
        if let Some(((_, record), ())) = map.range((key_of(sought), 0)..).next() {
            sum = sum.wrapping_add(u64::from(*record));
        }
    }
    let sought = start.elapsed().as_nanos();
    println!("{N} {filled} {sought} {}", black_box(sum));
}

fn main() {
    match std::env::args().len() {
        2 => measure(key_of::<30>),
        3 => measure(digits_of),
        _ => measure(key_of::<8>),
    }
}
