//! The calls that are timed.
use crate::ffi;
use crate::timing::{changing, random, reading};
use std::hint::black_box as bb;
use vbitmap::{BitSlice, Bitmap64};

/// The densities of the walks and of printed text: each bit is set with probability 1/2^k.
pub const DENSITIES: [(u32, &str); 3] = [(1, "1/2"), (6, "1/64"), (12, "1/4096")];

/// A bitmap on both sides.
pub struct Both {
    pub words: Vec<u64>,
    pub map: Bitmap64,
}

impl Both {
    /// Both copies are written, so that neither is a page of zeros that the system has not made yet.
    pub fn new(words: Vec<u64>) -> Both {
        let map = Bitmap64::from_slice(&words);
        Both { words: map.as_words().to_vec(), map }
    }
}

fn place(found: Option<usize>) -> u64 {
    found.map_or(u64::MAX, |i| i as u64)
}

pub fn scans(n: usize) {
    let a = Both::new(random(n, 1, 1));
    let zero = Both::new(vec![0; n]);
    let ones = Both::new(vec![!0; n]);
    reading("first_set, all zero", n, || place(ffi::first_set(bb(&zero.words))), || place(bb(&zero.map).first_set()));
    reading("last_set, all zero", n, || place(ffi::last_set(bb(&zero.words))), || place(bb(&zero.map).last_set()));
    reading("first_clear, all ones", n, || ffi::first_clear(bb(&ones.words)) as u64, || bb(&ones.map).first_clear() as u64);
    reading("next_clear(1), all ones", n, || ffi::next_clear(bb(&ones.words), 1) as u64, || bb(&ones.map).next_clear(1) as u64);
    let same = Both::new(a.words.clone());
    reading("eq, equal", n, || ffi::eq(bb(&a.words), bb(&same.words)) as u64, || (*bb(&*a.map) == *bb(&*same.map)) as u64);
}

/// The sum of all places that a walk hands back.
fn walked(mut next: impl FnMut(usize) -> Option<usize>) -> u64 {
    let (mut sum, mut at) = (0u64, next(0));
    while let Some(i) = at {
        sum = sum.wrapping_add(i as u64);
        at = next(i + 1);
    }
    sum
}

pub fn walks(n: usize) {
    for (k, name) in DENSITIES {
        let (m, o) = (Both::new(random(n, k, 3)), Both::new(random(n, k, 5)));
        reading(&format!("next_set walk, {name}"), n, || walked(|i| ffi::next_set(bb(&m.words), i)), || walked(|i| bb(&m.map).next_set(i)));
        let ours = || walked(|i| ffi::iter_and(bb(&m.words), bb(&o.words), i));
        reading(&format!("iter_and walk, {name}"), n, ours, || {
            let mut walk = bb(&m.map).iter_and(bb(&o.map));
            walked(|_| walk.next())
        });
        let ours = || walked(|i| ffi::iter_or(bb(&m.words), bb(&o.words), i));
        reading(&format!("iter_or walk, {name}"), n, ours, || {
            let mut walk = bb(&m.map).iter_or(bb(&o.map));
            walked(|_| walk.next())
        });
    }
}

pub fn counts(n: usize) {
    let (a, b) = (Both::new(random(n, 1, 1)), Both::new(random(n, 1, 2)));
    let len = 64 * n;
    let half = a.map.count_set_bits() / 2;
    reading("count_set_bits", n, || ffi::count_set_bits(bb(&a.words)) as u64, || bb(&a.map).count_set_bits() as u64);
    reading("count_clear_bits", n, || ffi::count_clear_bits(bb(&a.words)) as u64, || bb(&a.map).count_clear_bits() as u64);
    reading("count_region(100, length - 200)", n, || ffi::count_region(bb(&a.words), 100, len - 200) as u64, || bb(&a.map).count_region(100, len - 200) as u64);
    reading("rank(length - 1)", n, || ffi::rank(bb(&a.words), len - 1) as u64, || bb(&a.map).rank(len - 1) as u64);
    reading("select, middle rank", n, || place(ffi::select(bb(&a.words), half)), || place(bb(&a.map).select(half)));
    reading("and_count", n, || ffi::and_count(bb(&a.words), bb(&b.words)) as u64, || bb(&a.map).and_count(bb(&b.map)) as u64);
    reading("or_count", n, || ffi::or_count(bb(&a.words), bb(&b.words)) as u64, || bb(&a.map).or_count(bb(&b.map)) as u64);
    reading("xor_count", n, || ffi::xor_count(bb(&a.words), bb(&b.words)) as u64, || bb(&a.map).xor_count(bb(&b.map)) as u64);
    reading("andnot_count", n, || ffi::andnot_count(bb(&a.words), bb(&b.words)) as u64, || bb(&a.map).andnot_count(bb(&b.map)) as u64);
    let less = Both::new(a.words.iter().zip(&b.words).map(|(x, y)| x & y).collect());
    let apart = Both::new(a.words.iter().map(|x| !x).collect());
    reading("is_subset, true", n, || ffi::is_subset(bb(&less.words), bb(&a.words)) as u64, || bb(&less.map).is_subset(bb(&a.map)) as u64);
    reading("is_disjoint, true", n, || ffi::is_disjoint(bb(&apart.words), bb(&a.words)) as u64, || bb(&apart.map).is_disjoint(bb(&a.map)) as u64);
}

pub fn set_operations(n: usize) {
    let (a, b) = (random(n, 1, 1), Both::new(random(n, 1, 2)));
    changing("and", &a, 0, |w, c| ffi::and(w, c, bb(&b.words)), |m| m.and(bb(&b.map)));
    changing("andnot", &a, 0, |w, c| ffi::andnot(w, c, bb(&b.words)), |m| m.andnot(bb(&b.map)));
    changing("or", &a, 0, |w, c| ffi::or(w, c, bb(&b.words)), |m| m.or(bb(&b.map)));
    changing("xor", &a, 0, |w, c| ffi::xor(w, c, bb(&b.words)), |m| m.xor(bb(&b.map)));
    let l = Both::new(a.clone());
    changing("and_from", &a, 0, |w, c| ffi::and_from(w, c, bb(&l.words), bb(&b.words)), |m| m.and_from(bb(&l.map), bb(&b.map)));
    changing("andnot_from", &a, 0, |w, c| ffi::andnot_from(w, c, bb(&l.words), bb(&b.words)), |m| m.andnot_from(bb(&l.map), bb(&b.map)));
    changing("or_from", &a, 0, |w, c| ffi::or_from(w, c, bb(&l.words), bb(&b.words)), |m| m.or_from(bb(&l.map), bb(&b.map)));
    changing("xor_from", &a, 0, |w, c| ffi::xor_from(w, c, bb(&l.words), bb(&b.words)), |m| m.xor_from(bb(&l.map), bb(&b.map)));
    changing("dup_and (the Rust allocates)", &a, 0, |w, c| ffi::dup_and(w, c, bb(&l.words), bb(&b.words)), |m| *m = l.map.dup_and(bb(&b.map)));
    changing("dup_andnot (the Rust allocates)", &a, 0, |w, c| ffi::dup_andnot(w, c, bb(&l.words), bb(&b.words)), |m| *m = l.map.dup_andnot(bb(&b.map)));
    changing("dup_or (the Rust allocates)", &a, 0, |w, c| ffi::dup_or(w, c, bb(&l.words), bb(&b.words)), |m| *m = l.map.dup_or(bb(&b.map)));
    changing("dup_xor (the Rust allocates)", &a, 0, |w, c| ffi::dup_xor(w, c, bb(&l.words), bb(&b.words)), |m| *m = l.map.dup_xor(bb(&b.map)));
    let half = Both::new(random(n / 2, 1, 4));
    changing("and_from, one half as long", &a, 0, |w, c| ffi::and_from(w, c, bb(&l.words), bb(&half.words)), |m| m.and_from(bb(&l.map), bb(&half.map)));
    changing("xor_from, one half as long", &a, 0, |w, c| ffi::xor_from(w, c, bb(&l.words), bb(&half.words)), |m| m.xor_from(bb(&l.map), bb(&half.map)));
    let apart = Both::new(a.iter().map(|x| !x).collect());
    changing("and_from, empty result", &a, 0, |w, c| ffi::and_from(w, c, bb(&l.words), bb(&apart.words)), |m| m.and_from(bb(&l.map), bb(&apart.map)));
}

pub fn moves(n: usize) {
    let a = random(n, 1, 1);
    let mut low = a.clone();
    low[n - 1] = 1;
    for k in [1, 100, 128] {
        changing(&format!("shift_left({k})"), &low, 3, |w, c| ffi::shift_left(w, c, bb(k)), |m| m.shift_left(bb(k)));
        changing(&format!("shift_right({k})"), &a, 3, |w, c| ffi::shift_right(w, c, bb(k)), |m| m.shift_right(bb(k)));
    }
    for k in [1, 100] {
        changing(&format!("BitSlice shift_left({k})"), &a, 0, |w, c| ffi::slice_shift_left(w, c, bb(k)), |m| BitSlice::new_mut(m.as_words_mut()).shift_left(bb(k)));
        changing(&format!("BitSlice shift_right({k})"), &a, 0, |w, c| ffi::slice_shift_right(w, c, bb(k)), |m| BitSlice::new_mut(m.as_words_mut()).shift_right(bb(k)));
    }
    for k in [1, 100, 64 * (n / 3)] {
        changing(&format!("rotate_left({k})"), &a, 0, |w, c| ffi::rotate_left(w, c, bb(k)), |m| m.rotate_left(bb(k)));
        changing(&format!("rotate_right({k})"), &a, 0, |w, c| ffi::rotate_right(w, c, bb(k)), |m| m.rotate_right(bb(k)));
    }
    changing("reverse", &a, 0, |w, c| ffi::reverse(w, c), |m| m.reverse());
    changing("invert", &a, 0, |w, c| ffi::invert(w, c), |m| m.invert());
}

pub fn regions(n: usize) {
    let a = random(n, 1, 1);
    let k = 64 * n - 200;
    changing("set_region(100, true)", &a, 0, |w, c| ffi::set_region(w, c, bb(100), true, bb(k)), |m| m.set_region(bb(100), true, bb(k)));
    changing("set_region(100, false)", &a, 0, |w, c| ffi::set_region(w, c, bb(100), false, bb(k)), |m| m.set_region(bb(100), false, bb(k)));
    for i in [100, 164] {
        changing(&format!("toggle_region({i})"), &a, 0, |w, c| ffi::toggle_region(w, c, bb(i), bb(k)), |m| m.toggle_region(bb(i), bb(k)));
    }
    changing("append", &a, n, |w, c| ffi::append(w, c, bb(&a)), |m| m.append(BitSlice::new(bb(&a[..]))));
    changing("open(100, 10)", &a, 1, |w, c| ffi::open_gap(w, c, bb(100), bb(10)), |m| {
        let mut tail = m.split_off(bb(100));
        tail.shift_left(110);
        m.or(&tail);
    });
    changing("close(100, 10)", &a, 0, |w, c| ffi::close_gap(w, c, bb(100), bb(10)), |m| {
        let mut tail = m.split_off(bb(100));
        tail.shift_right(10);
        tail.shift_left(100);
        m.or(&tail);
    });
}

pub fn lists(n: usize) {
    for (k, name) in DENSITIES {
        let m = Both::new(random(n, k, 4));
        let text = m.map.format_list();
        let mut out = vec![0u8; text.len()];
        let mut line = String::with_capacity(text.len());
        let ours = || {
            let size = ffi::write_list(bb(&m.words), bb(&mut out));
            size as u64 + out[size / 2] as u64
        };
        let theirs = || {
            line.clear();
            bb(&m.map).write_list(&mut line).unwrap();
            line.len() as u64 + line.as_bytes()[line.len() / 2] as u64
        };
        reading(&format!("write_list, {name}"), n, ours, theirs);
        let mut store = vec![0u64; n];
        let ours = || {
            let mut count = 0;
            ffi::from_list(bb(&mut store), &mut count, bb(text.as_bytes()));
            count as u64
        };
        reading(&format!("from_list, {name}"), n, ours, || Bitmap64::from_list(bb(&text)).unwrap().as_words().len() as u64);
        assert_eq!(out, text.as_bytes());
        assert_eq!(store, m.words);
    }
}
