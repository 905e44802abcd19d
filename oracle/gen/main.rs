//! Prints a list of calls with the Rust's answers, `gen CASES SEED`: at least CASES lines a call. README.md has the lines.
mod calls;
mod grid;
mod random;
#[path = "../rng.rs"]
mod rng;

use calls::{Args, NAMES, Op, Out, refused, run};
use random::F;
use rng::Rng;
use std::collections::HashSet;
use vbitmap::{BitSlice, Word};

/// The most words of a result that a line has room for.
const MOST: usize = 60;

/// Words that a growing call needs, where it is seen without running it: the Rust aborts on a store that no machine has.
fn need(op: Op, c: &Args) -> u64 {
    let word = |i: u64| i / 64 + 1;
    let last = |k: u64| if k > 0 { c.x.checked_add(k - 1).map_or(0, word) } else { 0 };
    let top = BitSlice::new(&c.a).last_set().map(|p| p as u64);
    match op.name {
        "bitmap::set" | "bitmap::xori" | "shape::toggle" => word(c.x),
        "bitmap::set_many" => c.list.iter().map(|&i| word(i)).max().unwrap_or(0),
        "bitmap::set_field" if c.y <= 64 && c.z & <u64 as Word>::low_mask(c.y as usize) != 0 => last(c.y),
        "bitmap::set_region" if c.z != 0 => last(c.y),
        "shape::toggle_region" => last(c.y),
        "shape::shift_left" => top.and_then(|p| p.checked_add(c.x)).map_or(0, word),
        "shape::resize_bits" => c.x.div_ceil(64),
        "gap::open_gap" => top.filter(|&p| p >= c.x).and_then(|p| p.checked_add(c.y)).map_or(0, word),
        _ => 0,
    }
}

/// How much room a result finds.
#[derive(Clone, Copy)]
enum Room {
    Full,
    Short,
    More(usize),
}

/// A capacity for `need` words of which at least `n` are in use.
fn room(how: Room, need: usize, n: usize) -> Option<usize> {
    match how {
        Room::Full => Some(need.max(n)),
        Room::Short => (need > n).then(|| need - 1),
        Room::More(k) => Some(need.max(n) + k),
    }
}

/// Which stores have a count that refusal 2 looks at.
fn counted(op: Op) -> &'static [usize] {
    match op.kind {
        0..=2 => &[],
        5 if op.name == "slice::get" => &[0],
        5..=7 | 12 => &[0, 1],
        13 => &[0, 1, 2],
        14 => &[1, 2],
        _ => &[0],
    }
}

/// Whether a call answers a word count, refused or not.
fn changes(op: Op) -> bool {
    (8..=14).contains(&op.kind) || ["bitmap::set_many", "shape::split_off", "text::from_list"].contains(&op.name)
}

/// Whether the list of a line is an argument.
fn takes_list(op: Op) -> bool {
    op.name == "bitmap::set_many" || op.name == "text::from_list"
}

/// Hexadecimal with no digits for 0, or a tilde and the complement where that is shorter.
fn written(x: u64) -> String {
    let digits = |x: u64| if x == 0 { String::new() } else { format!("{x:x}") };
    let (plain, flipped) = (digits(x), format!("~{}", digits(!x)));
    if flipped.len() < plain.len() { flipped } else { plain }
}

struct Gen {
    g: Rng,
    cases: usize,
    seen: HashSet<String>,
    ruled: usize,
    numbers: [usize; 9],
}

impl Gen {
    fn line(&mut self, op: Op, c: &Args, caps: [usize; 3], counts: [u64; 3], o: &Out) {
        let list = if takes_list(op) { &c.list } else { &o.t };
        let mut line = vec![op.number, 2 * self.g.below(128) + 1, c.x, c.y, c.z, o.num, o.tag, o.val, o.also];
        for k in 0..3 {
            line.extend([caps[k] as u64, counts[k]]);
        }
        line.extend([o.r.len() as u64, list.len() as u64]);
        line.extend(c.a.iter().chain(&c.b).chain(&c.c).chain(&o.r).chain(list));
        let numbers: Vec<String> = line.iter().map(|&x| written(x)).collect();
        if self.seen.insert(numbers[2..].join(",")) {
            self.cases += 1;
            self.numbers[o.num as usize] += 1;
            println!("{}", numbers.join(","));
        }
    }

    /// Makes the call with the room asked for, if there is such a case.
    fn emit(&mut self, op: Op, mut c: Args, how: Room) {
        let aborts = need(op, &c) > 1000;
        let mut o = if aborts { refused(6) } else { run(op, &c) };
        self.ruled += aborts as usize;
        let counts = [c.a.len(), c.b.len(), c.c.len()];
        let mut caps = counts;
        for &k in counted(op) {
            caps[k] += self.g.pick(&[0, 0, 1, 3]);
        }
        if o.t.len() > 400 {
            return;
        }
        if o.r.len() > MOST {
            o = refused(6);
        }
        let second = op.name == "shape::split_off" || op.name == "print::write_list";
        if o.num == 0 && (second || changes(op)) {
            let (need, n) = if second { (o.t.len(), 0) } else { (o.r.len(), counts[0]) };
            let Some(cap) = room(how, need, n) else { return };
            match op.name {
                "shape::split_off" => caps[1] = cap,
                "print::write_list" => c.x = cap as u64,
                _ => caps[0] = cap,
            }
            if cap < need {
                o = refused(6);
            }
        } else if let Room::Short = how {
            return;
        }
        if o.num != 0 && changes(op) {
            o.val = counts[0] as u64;
        }
        self.line(op, &c, caps, counts.map(|n| n as u64), &o);
    }

    /// By rule: a count over its store is refused before anything else is looked at.
    fn over(&mut self, op: Op) {
        for &which in counted(op) {
            for over in [1, 2, F] {
                let mut c = self.g.args(op);
                if over == 2 {
                    (c.x, c.y, c.z) = (F, 65, F);
                    if takes_list(op) {
                        c.list = vec![if op.name == "bitmap::set_many" { F } else { 200 }];
                    }
                }
                let caps = [c.a.len(), c.b.len(), c.c.len()];
                let mut counts = caps.map(|n| n as u64);
                counts[which] = counts[which].saturating_add(over);
                if over == 2 && self.g.below(2) == 0 {
                    counted(op).iter().for_each(|&k| counts[k] = caps[k] as u64 + 1 + self.g.below(3));
                }
                let val = if changes(op) { counts[0] } else { 0 };
                self.line(op, &c, caps, counts, &Out { val, ..refused(2) });
            }
        }
    }

    /// Names the call whose cases stand above.
    fn title(&self, name: &str) {
        let bytes: Vec<String> = name.bytes().map(|b| format!("{b:x}")).collect();
        println!("100,1,,,,,,,,,,,,,,,{:x},{}", bytes.len(), bytes.join(","));
    }

    fn call(&mut self, op: Op, cases: usize) {
        self.seen.clear();
        let from = self.cases;
        for c in grid::args(&mut self.g, op) {
            let more = Room::More(self.g.below(4) as usize);
            let how = if self.g.below(2) == 0 { Room::Full } else { more };
            self.emit(op, c.clone(), how);
            self.emit(op, c, Room::Short);
        }
        self.over(op);
        for _ in 0..20 * cases {
            if self.cases - from >= cases {
                break;
            }
            let c = self.g.args(op);
            let how = self.g.pick(&[Room::Full, Room::Full, Room::Short, Room::More(1), Room::More(3)]);
            self.emit(op, c, how);
        }
    }
}

fn main() {
    std::panic::set_hook(Box::new(|_| {}));
    let args: Vec<u64> = std::env::args().skip(1).map(|s| s.parse().expect("CASES SEED")).collect();
    let [cases, seed] = args[..] else { panic!("usage: gen CASES SEED") };
    let g = Rng(seed.wrapping_mul(0x9e37_79b9_7f4a_7c15) | 1);
    let mut gen_ = Gen { g, cases: 0, seen: HashSet::new(), ruled: 0, numbers: [0; 9] };
    for (kind, names) in NAMES.iter().enumerate() {
        for (k, name) in names.iter().enumerate() {
            gen_.call(Op { kind, number: 16 * kind as u64 + k as u64, name }, cases as usize);
            gen_.title(name);
        }
    }
    eprintln!("{} lines, {} of them with words that no machine has; numbers {:?}", gen_.cases, gen_.ruled, gen_.numbers);
}
