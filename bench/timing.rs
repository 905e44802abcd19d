//! Both sides in one run on the same inputs: results are compared first, then rounds of the one and of the other follow each other, and the least
//! time of each is kept.
use crate::rng::Rng;
use std::hint::black_box as bb;
use std::time::Instant;
use vbitmap::Bitmap64;

/// Words of which each bit is set with probability 1/2^k; the last word is not zero.
pub fn random(n: usize, k: u32, seed: u64) -> Vec<u64> {
    let mut g = Rng(seed | 1);
    let mut words: Vec<u64> = (0..n).map(|_| (0..k).fold(!0, |w, _| w & g.next())).collect();
    words[n - 1] |= 1;
    words
}

pub fn head(title: &str) {
    println!("{title}");
    println!("{:<34} {:>9} {:>12} {:>12} {:>7}", "call", "words", "ns a word", "Rust", "ratio");
}

fn report(name: &str, n: usize, ours: f64, theirs: f64) {
    println!("{name:<34} {n:>9} {:>12.4} {:>12.4} {:>7.2}", ours / n as f64, theirs / n as f64, ours / theirs);
}

/// How often a call is repeated within one measurement, and how many measurements are made.
fn plan(mut f: impl FnMut()) -> (u64, usize) {
    f();
    let start = Instant::now();
    f();
    let one = start.elapsed().as_nanos().max(20) as u64;
    ((300_000 / one).clamp(1, 20_000), if one > 20_000_000 { 9 } else { 41 })
}

fn measure(times: u64, f: &mut impl FnMut() -> u64) -> f64 {
    let start = Instant::now();
    for _ in 0..times {
        bb(f());
    }
    start.elapsed().as_nanos() as f64 / times as f64
}

/// The least time of each of two calls that can be repeated on the same input.
pub fn least(mut ours: impl FnMut() -> u64, mut theirs: impl FnMut() -> u64) -> (f64, f64) {
    let (times, rounds) = plan(|| {
        bb(theirs());
    });
    let (mut a, mut b) = (f64::MAX, f64::MAX);
    for _ in 0..rounds {
        a = a.min(measure(times, &mut ours));
        b = b.min(measure(times, &mut theirs));
    }
    (a, b)
}

/// A call that can be repeated on the same input: both sides answer a number that must be the same.
pub fn reading(name: &str, n: usize, mut ours: impl FnMut() -> u64, mut theirs: impl FnMut() -> u64) {
    assert_eq!(ours(), theirs(), "{name}, {n} words");
    let (a, b) = least(ours, theirs);
    report(name, n, a, b);
}

/// Time of one side alone, for calls that the Rust does not have; `items` is what a time is divided by.
pub fn alone(name: &str, items: usize, mut ours: impl FnMut() -> u64) {
    let (times, rounds) = plan(|| {
        bb(ours());
    });
    let least = (0..rounds).map(|_| measure(times, &mut ours)).fold(f64::MAX, f64::min);
    println!("{name:<34} {items:>9} {:>12.2}", least / items as f64);
}

/// A call that changes a bitmap: fresh copies are made outside the timed part, with `spare` words behind.
pub fn changing(
    name: &str,
    source: &[u64],
    spare: usize,
    mut ours: impl FnMut(&mut [u64], &mut usize),
    mut theirs: impl FnMut(&mut Bitmap64),
) {
    let n = source.len();
    let copies = if n <= 1000 { 16 } else { 1 };
    let mut stores: Vec<(Vec<u64>, usize)> = (0..copies).map(|_| (vec![0; n + spare], n)).collect();
    let first = Bitmap64::from_slice(source);
    let mut maps: Vec<Bitmap64> = (0..copies)
        .map(|_| {
            let mut m = Bitmap64::from_slice(source);
            m.resize_bits((n + spare) * 64);
            m
        })
        .collect();
    let (mut a, mut b) = (f64::MAX, f64::MAX);
    for round in 0..if n <= 1000 { 301 } else { 21 } {
        for (words, count) in &mut stores {
            words[..n].copy_from_slice(source);
            words[n..].fill(0);
            *count = n;
        }
        let start = Instant::now();
        for (words, count) in &mut stores {
            ours(bb(words), bb(count));
        }
        a = a.min(start.elapsed().as_nanos() as f64 / copies as f64);
        for m in &mut maps {
            m.copy_from(&first);
        }
        let start = Instant::now();
        for m in &mut maps {
            theirs(bb(m));
        }
        b = b.min(start.elapsed().as_nanos() as f64 / copies as f64);
        if round == 0 {
            assert_eq!(&stores[0].0[..stores[0].1], maps[0].as_words(), "{name}, {n} words");
        }
    }
    report(name, n, a, b);
}
