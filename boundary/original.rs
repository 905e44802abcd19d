// The Rust original beside the archive: the published vbitmap, built by oracle/build.sh.
use crate::case::{Case, Out, PLAIN};
use std::panic::{catch_unwind, AssertUnwindSafe};
use vbitmap::{BitSlice, Bitmap64};

// What the original makes of a case: the numbers that it answers, or the words of the result and of a tail or the bytes of a text.
#[derive(Debug, Default, PartialEq)]
pub struct Made {
    values: Vec<u64>,
    words: Vec<u64>,
    tail: Vec<u64>,
    text: Vec<u8>,
}

fn value(v: u64) -> Made {
    Made { values: vec![v], ..Made::default() }
}

fn found(p: Option<usize>) -> Made {
    Made { values: vec![p.is_some() as u64, p.unwrap_or(0) as u64], ..Made::default() }
}

fn read(name: &str, c: &Case) -> Option<Made> {
    let (x, y) = (c.x as usize, c.y as usize);
    let s = BitSlice::new(&c.a[..c.n.min(c.a.len())]);
    let o = BitSlice::new(&c.b[..c.m.min(c.b.len())]);
    Some(match name {
        "get" => value(s.get(x) as u64),
        "get_field" => value(s.get_field(x, y)),
        "first_set" => found(s.first_set()),
        "last_set" => found(s.last_set()),
        "next_set" => found(s.next_set(x)),
        "select" => found(s.select(x)),
        "first_clear" => value(s.first_clear() as u64),
        "next_clear" => value(s.next_clear(x) as u64),
        "count_set_bits" => value(s.count_set_bits() as u64),
        "count_clear_bits" => value(s.count_clear_bits() as u64),
        "count_region" => value(s.count_region(x, y) as u64),
        "rank" => value(s.rank(x) as u64),
        "eq" => value((s == o) as u64),
        "is_subset" => value(s.is_subset(o) as u64),
        "is_disjoint" => value(s.is_disjoint(o) as u64),
        "and_count" => value(s.and_count(o) as u64),
        "or_count" => value(s.or_count(o) as u64),
        "xor_count" => value(s.xor_count(o) as u64),
        "andnot_count" => value(s.andnot_count(o) as u64),
        "iter_and" => found(s.iter_and(o).find(|&p| p >= x)),
        "iter_or" => found(s.iter_or(o).find(|&p| p >= x)),
        "iter_xor" => found(s.iter_xor(o).find(|&p| p >= x)),
        "iter_andnot" => found(s.iter_andnot(o).find(|&p| p >= x)),
        "write_list" => Made { text: s.format_list().into_bytes(), ..Made::default() },
        _ => return None,
    })
}

fn changed(name: &str, c: &Case) -> Option<Made> {
    let (x, y) = (c.x as usize, c.y as usize);
    let mut m = Bitmap64::from_slice(&c.a[..c.n.min(c.a.len())]);
    let o = BitSlice::new(&c.b[..c.m.min(c.b.len())]);
    let d = BitSlice::new(&c.d[..c.l.min(c.d.len())]);
    let mut tail = vec![];
    match name {
        "set" => m.set(x),
        "unset" => m.unset(x),
        "set_many" => m.set_many(c.list.iter().copied()),
        "toggle" => m.toggle(x),
        "slice_toggle" => BitSlice::new_mut(m.as_words_mut()).toggle(x),
        "set_field" => m.set_field(x, c.z, y),
        "set_field_strict" => BitSlice::new_mut(m.as_words_mut()).set_field_strict(x, c.z, y),
        "set_region" => m.set_region(x, c.z as u32 != 0, y),
        "toggle_region" => m.toggle_region(x, y),
        "and" => m.and(o),
        "andnot" => m.andnot(o),
        "or" => m.or(o),
        "xor" => m.xor(o),
        "andi" => m.andi(x),
        "andnoti" => m.andnoti(x),
        "xori" => m.xori(x),
        "shift_left" => m.shift_left(x),
        "shift_right" => m.shift_right(x),
        "slice_shift_left" => BitSlice::new_mut(m.as_words_mut()).shift_left(x),
        "slice_shift_right" => BitSlice::new_mut(m.as_words_mut()).shift_right(x),
        "rotate_left" => m.rotate_left(x),
        "rotate_right" => m.rotate_right(x),
        "reverse" => m.reverse(),
        "invert" => m.invert(),
        "trim" => m.trim(),
        "truncate_bits" => m.truncate_bits(x),
        "resize_bits" => m.resize_bits(x),
        "append" => m.append(o),
        "split_off" => tail = m.split_off(x).into_words(),
        "and_from" => m.and_from(o, d),
        "andnot_from" => m.andnot_from(o, d),
        "or_from" => m.or_from(o, d),
        "xor_from" => m.xor_from(o, d),
        "dup_and" => m = Bitmap64::from_slice(o.as_words()).dup_and(d),
        "dup_andnot" => m = Bitmap64::from_slice(o.as_words()).dup_andnot(d),
        "dup_or" => m = Bitmap64::from_slice(o.as_words()).dup_or(d),
        "dup_xor" => m = Bitmap64::from_slice(o.as_words()).dup_xor(d),
        "from_list" => m = Bitmap64::from_list(std::str::from_utf8(&c.bytes).ok()?).ok()?,
        // as 01 composes them; an amount that passes 2^64 - 1 moves nothing in
        "open_gap" => {
            let mut t = m.split_off(x);
            t.shift_left(x.checked_add(y)?);
            m.or(&t);
        }
        "close_gap" => {
            let mut t = m.split_off(x);
            t.shift_right(y);
            t.shift_left(x);
            m.or(&t);
        }
        _ => return None,
    }
    Some(Made { words: m.into_words(), tail, ..Made::default() })
}

// What the archive's answer must be by the original; nothing where it has no such call.
fn expected(out: &Out) -> impl Fn(&Made) -> bool + '_ {
    move |made| {
        if !made.values.is_empty() {
            return out.outs == made.values;
        }
        let n = out.outs[0] as usize;
        if out.outs.len() == 2 {
            return out.a[..n] == made.words[..] && out.b[..out.outs[1] as usize] == made.tail[..];
        }
        out.a[..n] == made.words[..]
    }
}

// Whether the original says the same. It is asked where the call is done; where it is refused with 3, 4 or 5, and the original must panic; with 7 or
// 16, for which it has one error, and it must find no list; and where the result of a set operation has no space (6), and it must have made more words
// than there are. Elsewhere it may allocate without bound, or has no such call.
pub fn agrees(name: &str, c: &Case, out: &Out) -> Option<bool> {
    let gap = name.ends_with("_gap");
    let sets = ["or", "xor", "append"].contains(&name) || name.ends_with("_from") || name.starts_with("dup_");
    // it has the plain style and no other
    if name.ends_with("_list") && c.style != PLAIN {
        return None;
    }
    if name == "from_list" && [7, 16].contains(&out.number) {
        return Some(std::str::from_utf8(&c.bytes).is_ok_and(|t| Bitmap64::from_list(t).is_err()));
    }
    let asked = out.number == 0 || (3..=5).contains(&out.number) && !gap || out.number == 6 && (sets || name == "split_off");
    if !asked {
        return None;
    }
    let made = catch_unwind(AssertUnwindSafe(|| read(name, c).or_else(|| changed(name, c))));
    match (out.number, made) {
        (_, Ok(None)) => None,
        (3..=5, made) => Some(made.is_err()),
        (_, Err(_)) => Some(false),
        (6, Ok(Some(made))) => Some(if name == "split_off" { made.tail.len() > c.b.len() } else { made.words.len() > c.a.len() }),
        (_, Ok(Some(made))) if name == "write_list" => Some(out.bytes[..out.outs[0] as usize] == made.text[..]),
        (_, Ok(Some(made))) => Some(expected(out)(&made)),
    }
}
