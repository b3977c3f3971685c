//! The whole square root beside Rust's own and beside the schoolbook's, digit by digit, over numbers of some lengths.
use crate::clock;
use std::hint::black_box;

const NUMBERS: u64 = 4_096;
const ROUNDS: usize = 101;

extern "C" {
    fn furzeladle_root(n: u64) -> u64;
}

/// A bit of the root at a time, from the highest on: as many steps as the root has bits.
fn schoolbook(n: u64) -> u64 {
    let (mut left, mut root) = (n, 0);
    let mut bit = match n.checked_ilog2() {
        Some(high) => 1 << (high & !1),
        None => 0,
    };
    while bit != 0 {
        if left >= root + bit {
            left -= root + bit;
            root = (root >> 1) + bit;
        } else {
            root >>= 1;
        }
        bit >>= 2;
    }
    root
}

/// Numbers of so many bits, by a small seeded generator.
fn numbers(bits: u32) -> Vec<u64> {
    let mut state = u64::from(bits);
    let mut next = || {
        state = state
            .wrapping_mul(6364136223846793005)
            .wrapping_add(1442695040888963407);
        state ^ (state >> 29)
    };
    (0..NUMBERS)
        .map(|_| (next() | 1 << 63) >> (64 - bits))
        .collect()
}

/// Nanoseconds of one of many roots, the least of several rounds, each by the one and the others in turn.
fn ns_a_root(numbers: &[u64]) -> [f64; 3] {
    let mut least = [f64::INFINITY; 3];
    let root: [fn(&[u64]) -> u64; 3] = [
        |l| l.iter().map(|&n| unsafe { furzeladle_root(n) }).sum(),
        |l| l.iter().map(|&n| n.isqrt()).sum(),
        |l| l.iter().map(|&n| schoolbook(n)).sum(),
    ];
    assert!(root.iter().all(|root| root(numbers) == root_sum(numbers)));
    for _ in 0..ROUNDS {
        for (least, root) in least.iter_mut().zip(root) {
            let ns = clock::ms(|| {
                black_box(root(black_box(numbers)));
            }) * 1e6;
            *least = least.min(ns / NUMBERS as f64);
        }
    }
    least
}

fn root_sum(numbers: &[u64]) -> u64 {
    numbers.iter().map(|&n| n.isqrt()).sum()
}

pub fn run() {
    println!("| Bits of the number | Library, ns | Over Rust's `isqrt` | Over digit by digit |");
    println!("|---|---|---|---|");
    for bits in [8, 12, 16, 20, 26, 31, 32, 33, 48, 64] {
        let [ours, std, school] = ns_a_root(&numbers(bits));
        println!(
            "| {bits} | {ours:.1} | {:.2} | {:.2} |",
            ours / std,
            ours / school
        );
    }
}
