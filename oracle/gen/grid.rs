//! The small arguments, all of them, call by call.
use crate::calls::{Args, Op};
use crate::random::F;
use crate::rng::Rng;

const TWO: &[u64] = &[0x8000_0000_0000_0003, 0xc000_0000_0000_0001];
const SMALL: [&[u64]; 10] = [&[], &[0], &[1], &[F], &[1 << 63], &[1, 0], &[F, F], &[0, 1], &[0, 0], &[F, 1 << 63]];

const TEXTS: &[&[u8]] = &[
    b"", b",", b"1,", b"1,,", b"5-3", b"4294967296", b" 1 - 3 , 2", b"1\xc2\xa0", b"x\x80", b"+5", b"5 - ", b"-5", b"-", b"1-2-3", b"1--2",
    b" ", b"1, ", b"1,\t\x0b\x0c\r\n ", b",1", b"1,,2", b"007", b"0", b"00000000000000000000005", b"1 2", b"1\x00", b"\x0b1\x0c", b"1\x1c",
    b"1\x1f", b"1\x08", b"1\x0e", b"\x7f1", b"3-3", b"0-127", b"63-64", b"64", b"5,1-3", b"5-4294967296", b"4294967296-1",
    b"99999999999999999999999", b"18446744073709551617", b"1-", b"1;2", b"1,-", b"1,a", b"0-0", b"1-1,1-1", b"700,0", b"4294967295",
    b" 4294967295 - 4294967295,0,", b"4294967295,4294967296",
];

fn of(a: &[u64], x: u64, y: u64, z: u64) -> Args {
    Args { a: a.to_vec(), x, y, z, ..Args::default() }
}

/// Up to twenty words, with one bit that differs from all others.
fn lone_bits(g: &mut Rng) -> Vec<Args> {
    let mut v: Vec<Args> = SMALL.iter().map(|a| of(a, 0, 0, 0)).collect();
    for n in 0..=20 {
        for fill in [0, F] {
            let mut a = vec![fill; n];
            v.push(of(&a, 0, 0, 0));
            if n > 0 {
                a[g.below(n as u64) as usize] ^= 1 << 63;
                v.push(of(&a, 0, 0, 0));
            }
        }
    }
    v
}

fn pairs() -> Vec<(&'static [u64], &'static [u64])> {
    let others: [&[u64]; 5] = [&[], &[1], &[F], &[1, 0], &[0, 1]];
    SMALL.iter().flat_map(|a| others.iter().map(move |b| (*a, *b))).collect()
}

fn fields(g: &mut Rng, op: Op) -> Vec<Args> {
    let mut v = vec![];
    for a in [&[F][..], TWO] {
        for x in [0, 8, 60, 63, 64, 127, 128, F] {
            for y in [0, 1, 8, 56, 64, 65] {
                v.push(of(a, x, y, if op.name == "slice::get_field" { 0 } else { g.pick(&[0, 0, F, 1, 1 << 8]) }));
            }
        }
    }
    v
}

fn regions(g: &mut Rng, op: Op) -> Vec<Args> {
    let mut v = vec![];
    for a in [&[F][..], TWO] {
        for x in [0, 1, 63, 64, 128, F] {
            for y in [0, 1, 2, 63, 64, 65, F] {
                v.push(of(a, x, y, if op.name == "bitmap::set_region" { g.below(2) } else { 0 }));
            }
        }
    }
    v
}

fn kernels(op: Op) -> Vec<Args> {
    match op.name {
        "word::low_mask" | "word::bit" => (0..67).map(|k| of(&[], k, 0, 0)).collect(),
        "word::wrapping_mul" => {
            [0, 1, F, 1 << 63, 1 << 32, (1 << 32) - 1].iter().flat_map(|&x| [0, 1, F, 3 << 31].map(|y| of(&[], x, y, 0))).collect()
        }
        _ if op.kind == 0 => (0..64).flat_map(|k| [1 << k, F << k, F >> k].map(|x| of(&[], x, 0, 0))).collect(),
        "arch::fill_region" => [0, 1, 63, 64, 65, 128]
            .iter()
            .flat_map(|&x| [0, 1, 63, 64, 65, 127, 128, 129].map(|y| of(TWO, x, y, (x ^ y) & 1)))
            .collect(),
        "select::select_u64" => (0..64).flat_map(|k| [of(&[], 0, 0, 1 << k), of(&[], k, 0, F)]).collect(),
        _ => vec![],
    }
}

fn lists() -> Vec<Args> {
    let lists: [&[u64]; 7] = [&[], &[0], &[63, 64], &[128, 0], &[1, 1], &[64, F], &[1 << 32]];
    lists.iter().flat_map(|l| SMALL.map(|a| Args { list: l.to_vec(), ..of(a, 0, 0, 0) })).collect()
}

fn texts() -> Vec<Args> {
    let text = |t: &[u8]| t.iter().map(|&b| b as u64).collect();
    TEXTS.iter().flat_map(|t| [&[][..], &[F, F, F]].map(|a| Args { list: text(t), ..of(a, 0, 0, 0) })).collect()
}

pub fn args(g: &mut Rng, op: Op) -> Vec<Args> {
    let indexes = [0, 1, 63, 64, 65, 127, 128, 129, 1 << 32, F];
    match op.name {
        "scans::first_set" | "scans::last_set" | "scans::first_clear" | "scans::count_set_bits" | "bits::count_clear_bits" | "bits::invert"
        | "bits::reverse" | "bitmap::trim" | "print::write_list" => lone_bits(g),
        "slice::get_field" | "slice::set_field_strict" | "bitmap::set_field" => fields(g, op),
        "bits::count_region" => regions(g, op),
        "bitmap::set_many" => lists(),
        "text::from_list" => texts(),
        _ => match op.kind {
            1 => lone_bits(g),
            0 | 2 => kernels(op),
            11 => regions(g, op),
            6 | 7 | 12 => pairs().into_iter().map(|(a, b)| Args { b: b.to_vec(), ..of(a, 0, 0, 0) }).collect(),
            5 if op.name != "slice::get" => pairs().into_iter().map(|(a, b)| Args { b: b.to_vec(), ..of(a, 0, 0, 0) }).collect(),
            13 | 14 => {
                let earlier = |g: &mut Rng| if op.kind == 13 { (0..g.below(4)).map(|_| g.next()).collect() } else { vec![] };
                pairs().into_iter().map(|(b, c)| Args { a: earlier(g), b: b.to_vec(), c: c.to_vec(), ..Args::default() }).collect()
            }
            _ => [&[][..], &[1], &[F], &[1, 0], &[0, 1 << 63], TWO].iter().flat_map(|a| indexes.map(|x| of(a, x, 0, 0))).collect(),
        },
    }
}
