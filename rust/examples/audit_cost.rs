//! Runs one audit many times, so that a profiler can count its instructions.
//!
//! `audit_cost WHO B P S TIMES`: WHO is `library` (slp_audit) or `yardstick` (the same audit written by hand in
//! ordinary Rust, without bounds checks). The pool is full: every piece is in use.

#[allow(dead_code)]
mod by_hand;

use std::env;
use std::hint::black_box;

fn put16(p: &mut [u8], at: usize, v: usize) {
    p[at..at + 2].copy_from_slice(&(v as u16).to_le_bytes());
}

/// A pool in which every piece is in use: S chains of about P / S pieces, spread over the B buffers.
fn full_pool(b: usize, p: usize, s: usize) -> (Vec<u8>, Vec<u8>) {
    let mut pool = vec![0u8; 11 + 4 * s + 10 * p + 2 * b];
    pool[..3].copy_from_slice(b"SLP");
    for (at, v) in [(3, 2), (5, b), (7, p), (9, s)] {
        put16(&mut pool, at, v);
    }
    let pieces = 11 + 4 * s;
    let counts = pieces + 10 * p;
    for d in 0..p {
        let at = pieces + 10 * d;
        let buffer = d % b;
        let next = if d + s < p { d + s + 1 } else { 0 };
        for (k, v) in [1, buffer, 16 * (d / b), 16, next].into_iter().enumerate() {
            put16(&mut pool, at + 2 * k, v);
        }
        let held = counts + 2 * buffer;
        let n = u16::from_le_bytes([pool[held], pool[held + 1]]) as usize;
        put16(&mut pool, held, n + 1);
    }
    for slip in 0..s {
        put16(
            &mut pool,
            11 + 4 * slip,
            if slip < p { slip + 2 } else { 1 },
        );
    }
    (pool, vec![0u8; 512 * b])
}

fn main() {
    let args: Vec<String> = env::args().skip(1).collect();
    let number = |i: usize| args[i].parse::<usize>().expect("a number");
    let (b, p, s, times) = (number(1), number(2), number(3), number(4));
    let (pool, storage) = full_pool(b, p, s);
    let mut codes = 0u64;
    for _ in 0..times {
        let pool = black_box(&pool[..]);
        codes += match args[0].as_str() {
            "library" => fulcrumnest::calls::audit(pool, black_box(&storage[..])).code as u64,
            _ => by_hand::audit(pool, black_box(&storage[..])).code as u64,
        };
    }
    assert_eq!(codes, 0, "the full pool is sound");
}
