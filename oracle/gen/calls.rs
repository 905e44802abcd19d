//! The calls by number, and what the Rust answers to each.
use std::panic::{AssertUnwindSafe, catch_unwind};
use vbitmap::{BitSlice, Bitmap64, Word, kernels};

/// A kind a row, by what a call takes and answers. A call's number is 16 times its row and its place there.
pub const NAMES: [&[&str]; 16] = [
    &[
        "word::count_ones", "word::trailing_zeros", "word::leading_zeros", "word::reverse_bits", "word::clear_lowest_set", "word::low_mask",
        "word::bit", "word::wrapping_mul",
    ],
    &["arch::first_nonzero", "arch::first_not_ones", "arch::nonzero_len", "arch::is_zero", "arch::count_set_bits", "slice::trimmed"],
    &["arch::fill_region", "arch::fill_words", "select::select_u64", "storage::zero_words", "storage::check"],
    &["scans::first_set", "scans::last_set", "scans::next_set", "bits::select"],
    &["scans::first_clear", "scans::next_clear", "scans::count_set_bits", "bits::count_clear_bits", "bits::count_region", "bits::rank"],
    &["slice::get", "slice::eq", "algebra::is_subset", "algebra::is_disjoint"],
    &["algebra::and_count", "algebra::or_count", "algebra::xor_count", "algebra::andnot_count"],
    &["walk::iter_and", "walk::iter_or", "walk::iter_xor", "walk::iter_andnot"],
    &["bits::toggle", "bits::invert", "bits::reverse", "shift::shift_left", "shift::shift_right", "shift::rotate_left", "shift::rotate_right"],
    &["bitmap::trim", "bitmap::set", "bitmap::unset", "bitmap::andi", "bitmap::andnoti", "bitmap::xori"],
    &["shape::toggle", "shape::shift_left", "shape::shift_right", "shape::truncate_bits", "shape::resize_bits"],
    &["slice::set_field_strict", "bitmap::set_field", "bitmap::set_region", "shape::toggle_region", "gap::open_gap", "gap::close_gap"],
    &["setops::and", "setops::andnot", "setops::or", "setops::xor", "shape::append"],
    &["combine::and_from", "combine::andnot_from", "combine::or_from", "combine::xor_from"],
    &["combine::dup_and", "combine::dup_andnot", "combine::dup_or", "combine::dup_xor"],
    &["slice::get_field", "bitmap::set_many", "shape::split_off", "print::write_list", "text::from_list"],
];

/// A call: its row and its name.
#[derive(Clone, Copy)]
pub struct Op {
    pub kind: usize,
    pub number: u64,
    pub name: &'static str,
}

/// The words in use of up to three stores, in the order of the arguments, then the other arguments.
#[derive(Clone, Default)]
pub struct Args {
    pub a: Vec<u64>,
    pub b: Vec<u64>,
    pub c: Vec<u64>,
    pub x: u64,
    pub y: u64,
    pub z: u64,
    pub list: Vec<u64>,
}

/// Number, tag, value and second value; the words after the call; the second output.
#[derive(Clone, Default)]
pub struct Out {
    pub num: u64,
    pub tag: u64,
    pub val: u64,
    pub also: u64,
    pub r: Vec<u64>,
    pub t: Vec<u64>,
}

pub fn refused(num: u64) -> Out {
    Out { num, ..Out::default() }
}

fn value(val: u64) -> Out {
    Out { tag: 1, val, ..Out::default() }
}

fn found(p: Option<usize>) -> Out {
    p.map_or(Out::default(), |p| value(p as u64))
}

fn word_found(p: Option<(usize, u64)>) -> Out {
    p.map_or(Out::default(), |(k, w)| Out { also: w, ..value(k as u64) })
}

fn changed(r: Vec<u64>) -> Out {
    Out { tag: 2, val: r.len() as u64, r, ..Out::default() }
}

fn filled(words: Vec<u64>) -> Out {
    Out { val: 0, ..changed(words) }
}

fn of_word(op: Op, c: &Args) -> Out {
    let (x, i) = (c.x, c.x as usize);
    value(match op.name {
        "word::count_ones" => Word::count_ones(x) as u64,
        "word::trailing_zeros" => Word::trailing_zeros(x) as u64,
        "word::leading_zeros" => Word::leading_zeros(x) as u64,
        "word::reverse_bits" => Word::reverse_bits(x),
        "word::clear_lowest_set" => Word::clear_lowest_set(x),
        "word::low_mask" => <u64 as Word>::low_mask(i),
        "word::bit" => <u64 as Word>::bit(i % 64), // as its callers do
        _ => x.wrapping_mul(c.y),
    })
}

/// Two edge words by the kernel; else by `set_region`, as far as the words go.
fn fill_region(c: &Args) -> Vec<u64> {
    let (from, end, n) = (c.x as usize, c.y as usize, c.a.len());
    let mut words = c.a.clone();
    if from < end && end <= 64 * n && from / 64 < (end - 1) / 64 {
        kernels::fill_region(&mut words, from / 64, from % 64, (end - 1) / 64, (end - 1) % 64, c.z != 0);
        return words;
    }
    let mut m = Bitmap64::from_slice(&words);
    m.set_region(from, c.z != 0, end.saturating_sub(from));
    let mut words = m.into_words();
    words.truncate(n);
    words
}

fn of_arch(op: Op, c: &Args) -> Out {
    let (x, y) = (c.x as usize, c.y as usize);
    match op.name {
        "arch::first_nonzero" => word_found(kernels::first_nonzero(&c.a)),
        "arch::first_not_ones" => word_found(kernels::first_not_ones(&c.a)),
        "arch::nonzero_len" => value(kernels::nonzero_len(&c.a) as u64),
        "arch::is_zero" => value(kernels::is_zero(&c.a) as u64),
        "arch::count_set_bits" => value(kernels::count_set_bits(&c.a) as u64),
        "arch::fill_region" => filled(fill_region(c)),
        "arch::fill_words" => {
            let mut words = c.a.clone();
            let end = y.min(words.len());
            kernels::fill_words(&mut words[x.min(end)..end], c.z as u8);
            filled(words)
        }
        "select::select_u64" if x < c.z.count_ones() as usize => value(kernels::select_u64(c.z, x) as u64),
        "select::select_u64" => value(64), // by rule: the Rust asks its caller for a bit of this rank
        "storage::zero_words" => filled(kernels::resize_zeroed(&c.a, x, y)),
        _ if y > x => refused(2), // by rule: the Rust has no such test
        _ => Out::default(),
    }
}

fn of_slice(op: Op, c: &Args) -> Out {
    let (s, o) = (BitSlice::new(&c.a), BitSlice::new(&c.b));
    let (x, y) = (c.x as usize, c.y as usize);
    match op.name {
        "slice::get" => value(s.get(x) as u64),
        "slice::get_field" => value(s.get_field(x, y)),
        "scans::first_set" => found(s.first_set()),
        "scans::last_set" => found(s.last_set()),
        "scans::first_clear" => value(s.first_clear() as u64),
        "scans::next_set" => found(s.next_set(x)),
        "scans::next_clear" => value(s.next_clear(x) as u64),
        "scans::count_set_bits" => value(s.count_set_bits() as u64),
        "slice::eq" => value((s == o) as u64),
        "slice::trimmed" => {
            let n = kernels::nonzero_len(&c.a);
            Out { also: if n > 0 { c.a[n - 1] } else { 0 }, ..value(n as u64) }
        }
        "bits::count_clear_bits" => value(s.count_clear_bits() as u64),
        "bits::count_region" => value(s.count_region(x, y) as u64),
        "bits::rank" => value(s.rank(x) as u64),
        "bits::select" => found(s.select(x)),
        "algebra::is_subset" => value(s.is_subset(o) as u64),
        "algebra::is_disjoint" => value(s.is_disjoint(o) as u64),
        "algebra::and_count" => value(s.and_count(o) as u64),
        "algebra::or_count" => value(s.or_count(o) as u64),
        "algebra::xor_count" => value(s.xor_count(o) as u64),
        "algebra::andnot_count" => value(s.andnot_count(o) as u64),
        // `find` steps with `next`, which is published
        "walk::iter_and" => found(s.iter_and(o).find(|&p| p >= x)),
        "walk::iter_or" => found(s.iter_or(o).find(|&p| p >= x)),
        "walk::iter_xor" => found(s.iter_xor(o).find(|&p| p >= x)),
        "walk::iter_andnot" => found(s.iter_andnot(o).find(|&p| p >= x)),
        _ => within(op, c),
    }
}

fn within(op: Op, c: &Args) -> Out {
    let x = c.x as usize;
    let mut words = c.a.clone();
    let s = BitSlice::new_mut(&mut words);
    match op.name {
        "slice::set_field_strict" => s.set_field_strict(x, c.z, c.y as usize),
        "bits::toggle" => s.toggle(x),
        "bits::invert" => s.invert(),
        "bits::reverse" => s.reverse(),
        "shift::shift_left" => s.shift_left(x),
        "shift::shift_right" => s.shift_right(x),
        "shift::rotate_left" => s.rotate_left(x),
        _ => s.rotate_right(x),
    }
    changed(words)
}

fn of_bitmap(op: Op, c: &Args) -> Out {
    let (mut m, o) = (Bitmap64::from_slice(&c.a), BitSlice::new(&c.b));
    let (x, y) = (c.x as usize, c.y as usize);
    match op.name {
        "bitmap::trim" => m.trim(),
        "bitmap::set" => m.set(x),
        "bitmap::unset" => m.unset(x),
        "bitmap::set_many" => m.set_many(c.list.iter().map(|&i| i as usize)),
        "bitmap::set_field" => m.set_field(x, c.z, y),
        "bitmap::set_region" => m.set_region(x, c.z != 0, y),
        "setops::and" => m.and(o),
        "setops::andnot" => m.andnot(o),
        "setops::or" => m.or(o),
        "setops::xor" => m.xor(o),
        "bitmap::andi" => m.andi(x),
        "bitmap::andnoti" => m.andnoti(x),
        _ => m.xori(x),
    }
    changed(m.into_words())
}

fn of_combine(op: Op, c: &Args) -> Out {
    let (l, r) = (Bitmap64::from_slice(&c.b), BitSlice::new(&c.c));
    let mut m = Bitmap64::from_slice(&c.a);
    match op.name {
        "combine::and_from" => m.and_from(&l, r),
        "combine::andnot_from" => m.andnot_from(&l, r),
        "combine::or_from" => m.or_from(&l, r),
        "combine::xor_from" => m.xor_from(&l, r),
        "combine::dup_and" => m = l.dup_and(r),
        "combine::dup_andnot" => m = l.dup_andnot(r),
        "combine::dup_or" => m = l.dup_or(r),
        _ => m = l.dup_xor(r),
    }
    changed(m.into_words())
}

fn of_text(op: Op, c: &Args) -> Out {
    if op.name == "print::write_list" {
        let text = BitSlice::new(&c.a).format_list();
        return Out { t: text.bytes().map(u64::from).collect(), ..value(text.len() as u64) };
    }
    let bytes: Vec<u8> = c.list.iter().map(|&b| b as u8).collect();
    if !bytes.is_ascii() {
        return refused(8); // by rule: the Rust takes UTF-8
    }
    Bitmap64::from_list(std::str::from_utf8(&bytes).unwrap()).map_or(refused(7), |m| changed(m.into_words()))
}

fn of_shape(op: Op, c: &Args) -> Out {
    let (mut m, o) = (Bitmap64::from_slice(&c.a), BitSlice::new(&c.b));
    let (x, y) = (c.x as usize, c.y as usize);
    match op.name {
        "shape::toggle" => m.toggle(x),
        "shape::toggle_region" => m.toggle_region(x, y),
        "shape::shift_left" => m.shift_left(x),
        "shape::shift_right" => m.shift_right(x),
        "shape::truncate_bits" => m.truncate_bits(x),
        "shape::resize_bits" => m.resize_bits(x),
        "shape::split_off" => {
            let t = m.split_off(x).into_words();
            return Out { also: t.len() as u64, t, ..changed(m.into_words()) };
        }
        "shape::append" => m.append(o),
        "gap::open_gap" => {
            let mut t = m.split_off(x);
            if t.last_set().is_some() {
                t.shift_left(x.checked_add(y).expect("bit index overflow"));
            }
            m.or(&t);
        }
        "gap::close_gap" => {
            let mut t = m.split_off(x);
            t.shift_right(y);
            t.shift_left(x);
            m.or(&t);
        }
        _ => return of_text(op, c),
    }
    changed(m.into_words())
}

/// The Rust's answer. Its panics are the refusals 3, 4 and 5.
pub fn run(op: Op, c: &Args) -> Out {
    let done = catch_unwind(AssertUnwindSafe(|| match op.name.split("::").next().unwrap() {
        "word" => of_word(op, c),
        "arch" | "select" | "storage" => of_arch(op, c),
        "slice" | "scans" | "bits" | "shift" | "algebra" | "walk" => of_slice(op, c),
        "bitmap" | "setops" => of_bitmap(op, c),
        "combine" => of_combine(op, c),
        _ => of_shape(op, c),
    }));
    done.unwrap_or_else(|e| {
        let said = e.downcast_ref::<&str>().map(|s| s.to_string()).or_else(|| e.downcast_ref::<String>().cloned()).unwrap();
        match said {
            s if s.contains("n_bits <= 64") => refused(3),
            s if s.contains("bit index overflow") => refused(4),
            s if s.contains("index out of bounds") => refused(5),
            s => panic!("{}: {s}", op.name),
        }
    })
}
