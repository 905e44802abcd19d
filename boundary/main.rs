// Calls every function of the archive with random arguments, far out ones too, beside a naive model of document 01 and the Rust original, and compares
// the number, what goes out, every lent word and byte, and the guards round them. A mismatch prints the smallest case found.
//
// usage: boundary ROUNDS SEED
mod archive;
mod case;
mod far;
#[allow(dead_code)]
#[path = "../rust/src/ffi.rs"]
mod ffi;
mod lists;
mod model;
mod original;
#[path = "../oracle/rng.rs"]
mod rng;
mod sheets;

use archive::{Call, CALLS};
use case::{smaller, Case, Out};
use rng::Rng;
use std::collections::BTreeMap;

fn expected(name: &str, c: &Case) -> Out {
    match name {
        "read" => sheets::read(c),
        "start" | "add" => sheets::write(name, c),
        _ => model::run(name, c),
    }
}

// What is wrong, if anything; else the number, and whether the original was asked.
fn compare(name: &str, call: &Call, c: &Case) -> Result<(u32, bool), &'static str> {
    let Some(out) = archive::run(call, c) else {
        return Err("something outside what is lent was written");
    };
    if out != expected(name, c) {
        return Err("the model differs");
    }
    if out.number == 1 || out.number == 2 {
        return Ok((out.number, false));
    }
    match original::agrees(name, c, &out) {
        Some(false) => Err("the original differs"),
        asked => Ok((out.number, asked.is_some())),
    }
}

// A mismatch with the smallest case that has one.
fn fail(name: &str, call: &Call, mut c: Case) -> ! {
    while let Some(d) = smaller(&c).into_iter().find(|d| compare(name, call, d).is_err()) {
        c = d;
    }
    let why = compare(name, call, &c).unwrap_err();
    println!("MISMATCH in {name}: {why}\n{c:x?}\narchive {:x?}\nmodel   {:x?}", archive::run(call, &c), expected(name, &c));
    std::process::exit(1);
}

fn case(r: &mut Rng, name: &str, most: u64) -> Case {
    match name {
        "read" => {
            let mut c = r.case(name, most);
            c.x = if r.below(20) == 0 { r.pick(&[0, 3, u64::MAX]) } else { 1 + (r.below(4) > 0) as u64 };
            c.bytes = r.sheet(if most > 100 { 40 } else { 6 }, c.b.len());
            c
        }
        "start" => Case { bytes: vec![0xab; r.below(9) as usize], n: r.below(20) as usize, ..Case::default() },
        "add" => {
            let mut c = r.addition(4);
            c.bytes = r.sheet(if most > 100 { 300 } else { 6 }, 4);
            c.n = c.bytes.len();
            match r.below(8) {
                0 => c.n = r.below(c.n as u64 + 1) as usize,
                1 => c.n = r.pick(&[c.n + 1000, usize::MAX]),
                _ => {}
            }
            let more = r.below(40) as usize + if c.payload.len() > 1000 { 65_545 } else { 0 };
            c.bytes.extend(vec![0xcd; more]);
            c
        }
        _ => r.case(name, most),
    }
}

// One call's rounds: short cases, then long ones, with a line of how they went.
fn rounds(name: &str, call: &Call, short: u64, long: u64, r: &mut Rng) {
    let mut numbers = BTreeMap::new();
    let mut beside = 0;
    for k in 0..short + long {
        let c = case(r, name, if k < short { 5 } else { 3000 });
        match compare(name, call, &c) {
            Err(_) => fail(name, call, c),
            Ok((number, asked)) => {
                *numbers.entry(number).or_insert(0) += 1;
                beside += asked as u64;
            }
        }
    }
    let told: Vec<String> = numbers.iter().map(|(n, k)| format!("{n}: {k}")).collect();
    println!("{name}: {} cases, {beside} beside the original; by number {}", short + long, told.join(", "));
}

// Whole lists of calls: the writer's answers and bytes are the plain sheet's, which sees no buffer. Bytes past the sheet may change between calls.
fn sessions(count: u64, r: &mut Rng) {
    let find = |name: &str| &CALLS.iter().find(|c| c.0 == name).expect("a call").1;
    let (start, add) = (find("taxolbin_start"), find("taxolbin_add"));
    let mut calls = 0;
    for _ in 0..count {
        let mut plain = sheets::Plain { records: vec![], started: false };
        let mut buffer: Vec<u8> = (0..r.below(300)).map(|_| r.next() as u8).collect();
        let mut length = 0;
        for _ in 0..r.below(25) {
            let begins = r.below(6) == 0;
            let mut c = r.addition(4);
            (c.bytes, c.n) = (buffer.clone(), length);
            let number = if begins { plain.start(buffer.len()) } else { plain.add(buffer.len(), &c) };
            let out = archive::run(if begins { start } else { add }, &c).expect("nothing outside the buffer is written");
            let sheet = plain.bytes();
            let good = number != 0 || out.bytes[..sheet.len()] == sheet[..] && out.outs[0] == sheet.len() as u64;
            if out.number != number || !good || number != 0 && (out.bytes != buffer || out.outs[0] != length as u64) {
                println!("MISMATCH in a list of calls, at {c:x?}\narchive {out:x?}\nplain sheet {number} {sheet:x?}");
                std::process::exit(1);
            }
            (buffer, length) = (out.bytes, out.outs[0] as usize);
            buffer[length..].iter_mut().for_each(|b| *b = r.next() as u8);
            calls += 1;
        }
    }
    println!("lists of calls: {count} lists, {calls} calls, as the plain sheet answers");
}

fn main() {
    let numbers: Vec<u64> = std::env::args().skip(1).map(|a| a.parse().expect("ROUNDS SEED")).collect();
    let [short, seed] = numbers[..] else { panic!("usage: boundary ROUNDS SEED") };
    std::panic::set_hook(Box::new(|_| {}));
    let mut r = Rng(seed.wrapping_mul(2).wrapping_add(1));
    for (symbol, call) in CALLS {
        let name = symbol.strip_prefix("taxolbin_").expect("the prefix");
        rounds(name, call, short, short / 100 + 1, &mut r);
    }
    sessions(short, &mut r);
    far::beside_itself();
    let huge = far::huge();
    println!("{} calls, no mismatch; {huge} of them with a store over the limit", CALLS.len());
}
