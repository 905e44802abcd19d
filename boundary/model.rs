// A naive model of document 01's bitmaps and list text, with document 02's styles and register: sets as lists of truth values, sums in 128 bits, no words but at the edges.
use crate::case::{Case, Out};
use crate::lists;

pub const LIMIT: usize = 67_108_864;

type Bits = Vec<bool>;

fn bits(words: &[u64]) -> Bits {
    words.iter().flat_map(|w| (0..64).map(move |k| w >> k & 1 == 1)).collect()
}

fn words(s: &Bits) -> Vec<u64> {
    s.chunks(64).map(|c| c.iter().enumerate().fold(0, |w, (k, &v)| w | (v as u64) << k)).collect()
}

fn trimmed(s: &Bits) -> Vec<u64> {
    let mut w = words(s);
    while w.last() == Some(&0) {
        w.pop();
    }
    w
}

fn at(s: &Bits, i: u128) -> bool {
    i < s.len() as u128 && s[i as usize]
}

// The bits f says of each place below n.
fn tabled(n: usize, f: impl Fn(u128) -> bool) -> Bits {
    (0..n as u128).map(f).collect()
}

fn count(s: &Bits) -> u64 {
    s.iter().filter(|&&v| v).count() as u64
}

// What a call comes to: a refusal, numbers, or the words of the result.
pub enum Done {
    Refused(u32),
    Is(u64),
    Found(Option<usize>),
    Words(Vec<u64>),
    Halves(Vec<u64>, Vec<u64>),
    Text(Vec<u8>),
}

use Done::{Found, Halves, Is, Refused, Text, Words};

// The set grown to the word of its last index, or 6.
fn grown(s: &Bits, last: u128, capacity: usize) -> Result<Bits, u32> {
    let n = (last / 64 + 1).max(s.len() as u128 / 64);
    if n > capacity as u128 {
        return Err(6);
    }
    let mut s = s.clone();
    s.resize(64 * n as usize, false);
    Ok(s)
}

fn within(r: Result<Vec<u64>, u32>, capacity: usize) -> Done {
    match r {
        Err(e) => Refused(e),
        Ok(w) if w.len() > capacity => Refused(6),
        Ok(w) => Words(w),
    }
}

// A text that fits its buffer, or 6.
fn put(t: Vec<u8>, c: &Case) -> Done {
    match t {
        t if t.len() > c.bytes.len() => Refused(6),
        t => Text(t),
    }
}

// `Bitmap`'s shift_left.
fn raised(s: &Bits, k: u128, capacity: usize) -> Result<Bits, u32> {
    let Some(top) = s.iter().rposition(|&v| v) else { return Ok(s.clone()) };
    let top = top as u128 + k;
    if top > u64::MAX as u128 {
        return Err(4);
    }
    let grown = grown(s, top, capacity)?;
    Ok(tabled(grown.len(), |i| i >= k && at(s, i - k)))
}

fn lowered(s: &Bits, k: u128) -> Bits {
    tabled(s.len(), |i| at(s, i + k))
}

fn cut(s: &Bits, k: u128) -> Bits {
    tabled(s.len(), |i| i < k && at(s, i))
}

// Open and close as 01 composes them; the capacity counts where the result is put together.
fn gap(s: &Bits, p: u128, k: u128, open: bool, capacity: usize) -> Done {
    let head = bits(&trimmed(&cut(s, p)));
    let tail = bits(&trimmed(&lowered(s, p)));
    let moved = if open { raised(&tail, p + k, capacity) } else { raised(&bits(&trimmed(&lowered(&tail, k))), p, capacity) };
    let both = moved.map(|t| words(&tabled(head.len().max(t.len()), |i| at(&head, i) || at(&t, i))));
    within(both, capacity)
}

fn field(s: &Bits, c: &Case, strict: bool) -> Done {
    let (i, k) = (c.x as u128, c.y as u128);
    if k == 0 {
        return Words(words(s));
    }
    if k > 64 {
        return Refused(3);
    }
    let last = i + k - 1;
    if !strict && last > u64::MAX as u128 {
        return Refused(4);
    }
    if strict && last >= s.len() as u128 {
        return Refused(5);
    }
    let some = (0..k).any(|j| c.z >> j & 1 == 1);
    let g = if !strict && some { grown(s, last, c.a.len()) } else { Ok(s.clone()) };
    let put = |s: Bits| tabled(s.len(), |j| if j >= i && j <= last { c.z >> (j - i) & 1 == 1 } else { at(&s, j) });
    within(g.map(|s| words(&put(s))), c.a.len())
}

// A region that is set, cleared or flipped.
fn region(s: &Bits, c: &Case, grows: bool, f: impl Fn(bool) -> bool) -> Done {
    let (i, k) = (c.x as u128, c.y as u128);
    if k == 0 {
        return Words(words(s));
    }
    let last = i + k - 1;
    if last > u64::MAX as u128 {
        return Refused(4);
    }
    let g = if grows { grown(s, last, c.a.len()) } else { Ok(s.clone()) };
    within(g.map(|s| words(&tabled(s.len(), |j| if j >= i && j <= last { f(at(&s, j)) } else { at(&s, j) }))), c.a.len())
}

// `andi`, `andnoti`, `xori`: trailing zero words go where the word worked on is the last and is then zero.
fn tidied(s: &Bits, i: u128, f: impl Fn(u128) -> bool) -> Vec<u64> {
    let w = words(&tabled(s.len(), f));
    if i / 64 + 1 == w.len() as u128 && w[(i / 64) as usize] == 0 {
        return trimmed(&bits(&w));
    }
    w
}

fn pair(name: &str, s: &Bits, o: &Bits) -> Bits {
    tabled(s.len().max(o.len()), |i| match (at(s, i), at(o, i)) {
        (p, q) if name.contains("andnot") || name.contains("subset") => p && !q,
        (p, q) if name.contains("and") || name.contains("disjoint") => p && q,
        (p, q) if name.contains("xor") || name == "eq" => p != q,
        (p, q) => p || q,
    })
}

fn outcome(name: &str, c: &Case, s: &Bits) -> Done {
    let (i, k, capacity) = (c.x as u128, c.y as u128, c.a.len());
    let len = s.len() as u128;
    let from = |s: &Bits| Found((0..s.len()).find(|&p| p as u128 >= i && s[p]));
    let other = || bits(&c.b[..c.m]);
    match name {
        "get" => Is(at(s, i) as u64),
        "get_field" if k > 64 => Refused(3),
        "get_field" => Is((0..k).fold(0, |v, j| v | (at(s, i + j) as u64) << j)),
        "first_set" => Found(s.iter().position(|&v| v)),
        "last_set" => Found(s.iter().rposition(|&v| v)),
        "next_set" => from(s),
        "select" => Found((0..s.len()).filter(|&p| s[p]).nth(c.x.min(1 << 40) as usize)),
        "first_clear" => Is(s.iter().position(|&v| !v).unwrap_or(s.len()) as u64),
        "next_clear" => Is((0..s.len()).find(|&p| p as u128 >= i && !s[p]).map_or(c.x.max(s.len() as u64), |p| p as u64)),
        "count_set_bits" => Is(count(s)),
        "count_clear_bits" => Is(s.len() as u64 - count(s)),
        "count_region" => Is(count(&tabled(s.len(), |p| p >= i && p < i + k && at(s, p)))),
        "rank" => Is(count(&cut(s, i))),
        "eq" | "is_subset" | "is_disjoint" => Is((count(&pair(name, s, &other())) == 0) as u64),
        "and_count" | "or_count" | "xor_count" | "andnot_count" => Is(count(&pair(name, s, &other()))),
        "iter_and" | "iter_or" | "iter_xor" | "iter_andnot" => from(&pair(name, s, &other())),
        "trim" => Words(trimmed(s)),
        "invert" => Words(words(&tabled(s.len(), |p| !at(s, p)))),
        "reverse" => Words(words(&tabled(s.len(), |p| at(s, len - 1 - p)))),
        "slice_shift_left" => Words(words(&tabled(s.len(), |p| p >= i && at(s, p - i)))),
        "slice_shift_right" => Words(words(&lowered(s, i))),
        "rotate_left" => Words(words(&tabled(s.len(), |p| at(s, (p + len - i % len) % len)))),
        "rotate_right" => Words(words(&tabled(s.len(), |p| at(s, (p + i) % len)))),
        "slice_toggle" if i >= len => Refused(5),
        "slice_toggle" => Words(words(&tabled(s.len(), |p| at(s, p) != (p == i)))),
        "set" => within(grown(s, i, capacity).map(|g| words(&tabled(g.len(), |p| at(s, p) || p == i))), capacity),
        "toggle" => within(grown(s, i, capacity).map(|g| words(&tabled(g.len(), |p| at(s, p) != (p == i)))), capacity),
        "unset" => Words(words(&tabled(s.len(), |p| at(s, p) && p != i))),
        "set_many" => {
            let all = c.list.iter().try_fold(s.clone(), |g, &b| grown(&g, b as u128, capacity));
            within(all.map(|g| words(&tabled(g.len(), |p| at(s, p) || c.list.contains(&(p as usize))))), capacity)
        }
        "andi" => Words(tidied(s, i, |p| at(s, p) && (p / 64 != i / 64 || p == i))),
        "andnoti" => Words(tidied(s, i, |p| at(s, p) && p != i)),
        "xori" => within(grown(s, i, capacity).map(|g| tidied(&g, i, |p| at(s, p) != (p == i))), capacity),
        "set_field" => field(s, c, false),
        "set_field_strict" => field(s, c, true),
        "set_region" => region(s, c, c.z as u32 != 0, |_| c.z as u32 != 0),
        "toggle_region" => region(s, c, true, |v| !v),
        "shift_left" => within(raised(s, i, capacity).map(|r| words(&r)), capacity),
        "shift_right" => Words(trimmed(&lowered(s, i))),
        "truncate_bits" => Words(trimmed(&cut(s, i))),
        "resize_bits" if (i + 63) / 64 > capacity as u128 => Refused(6),
        "resize_bits" => Words(words(&tabled(((i + 63) / 64 * 64) as usize, |p| p < i && at(s, p)))),
        "append" => within(Ok([words(s), c.b[..c.m].to_vec()].concat()), capacity),
        "split_off" => match trimmed(&lowered(s, i)) {
            tail if tail.len() > c.b.len() => Refused(6),
            tail => Halves(trimmed(&cut(s, i)), tail),
        },
        "open_gap" => gap(s, i, k, true, capacity),
        "close_gap" => gap(s, i, k, false, capacity),
        "or" => within(Ok(words(&pair(name, s, &other()))), capacity),
        "and" | "andnot" | "xor" => within(Ok(trimmed(&pair(name, s, &other()))), capacity),
        "or_from" | "dup_or" => within(Ok(words(&pair(name, &other(), &bits(&c.d[..c.l])))), capacity),
        _ if others(name) == 2 => within(Ok(trimmed(&pair(name, &other(), &bits(&c.d[..c.l])))), capacity),
        "from_list" | "write_list" if !lists::allowed(&c.style) => Refused(15),
        "from_list" => lists::read(&c.bytes, &c.style).map_or_else(Refused, |rs| {
            let last = rs.iter().map(|r| r.1).max().expect("a list has a token");
            let held = |p: u128| rs.iter().any(|r| r.0 as u128 <= p && p <= r.1 as u128);
            within(grown(&vec![], last as u128, capacity).map(|g| words(&tabled(g.len(), held))), capacity)
        }),
        "write_list" => put(lists::text(s, &c.style), c),
        "write_register" => put(lists::register(s), c),
        _ => panic!("no model of {name}"),
    }
}

// How many bitmaps are read beside the first store.
fn others(name: &str) -> usize {
    match name {
        "and" | "andnot" | "or" | "xor" | "append" | "eq" | "is_subset" | "is_disjoint" => 1,
        "and_count" | "or_count" | "xor_count" | "andnot_count" | "iter_and" | "iter_or" | "iter_xor" | "iter_andnot" => 1,
        _ if name.ends_with("_from") || name.starts_with("dup_") => 2,
        _ => 0,
    }
}

// 1 and 2 of each store in order; a store with no earlier count gets 1 alone.
fn guards(name: &str, c: &Case) -> Option<u32> {
    let one = |w: &Vec<u64>| (w.len() > LIMIT).then_some(1);
    let two = |w: &Vec<u64>, n: usize| one(w).or((n > w.len()).then_some(2));
    let first = if name.starts_with("dup_") { one(&c.a) } else { two(&c.a, c.n) };
    let second = if others(name) > 0 { two(&c.b, c.m) } else { None };
    let third = if others(name) > 1 { two(&c.d, c.l) } else { None };
    let tail = if name == "split_off" { one(&c.b) } else { None };
    first.or(second).or(third).or(tail)
}

// What the store's words are: the result, zeros where words fell out of use, and the rest as it was.
fn written(store: &mut [u64], old: usize, new: &[u64]) {
    store[..new.len()].copy_from_slice(new);
    if new.len() < old {
        store[new.len()..old].fill(0);
    }
}

fn reads(name: &str) -> usize {
    match name {
        "first_set" | "last_set" | "next_set" | "select" | "iter_and" | "iter_or" | "iter_xor" | "iter_andnot" => 2,
        "get" | "get_field" | "first_clear" | "next_clear" | "rank" | "eq" | "is_subset" | "is_disjoint" => 1,
        "write_list" | "write_register" => 1,
        _ if name.starts_with("count_") || name.ends_with("_count") => 1,
        _ => 0,
    }
}

pub fn run(name: &str, c: &Case) -> Out {
    let dup = name.starts_with("dup_");
    let old = if dup { 0 } else { c.n };
    let mut out = Out { number: 0, outs: vec![], a: c.a.clone(), b: c.b.clone(), d: c.d.clone(), bytes: c.bytes.clone() };
    let read = if others(name) == 2 { 0 } else { c.n };
    let done = guards(name, c).map_or_else(|| outcome(name, c, &bits(&c.a[..read])), Refused);
    match done {
        Refused(e) => {
            out.number = e;
            out.outs = match reads(name) {
                0 if name == "split_off" => vec![c.n as u64, 0],
                0 => vec![old as u64],
                k => vec![0; k],
            };
        }
        Is(v) => out.outs = vec![v],
        Found(p) => out.outs = vec![p.is_some() as u64, p.unwrap_or(0) as u64],
        Words(w) => {
            written(&mut out.a, old, &w);
            out.outs = vec![w.len() as u64];
        }
        Halves(h, t) => {
            written(&mut out.a, old, &h);
            written(&mut out.b, 0, &t);
            out.outs = vec![h.len() as u64, t.len() as u64];
        }
        Text(t) => {
            out.bytes[..t.len()].copy_from_slice(&t);
            out.outs = vec![t.len() as u64];
        }
    }
    out
}
