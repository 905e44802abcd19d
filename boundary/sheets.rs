// The change sheet, naively: its reader by 01's order, whose steps are the model's calls; the plain sheet, which holds records and sees no buffer; and
// random sheets, some of them damaged.
use crate::case::{Case, Out};
use crate::rng::Rng;
use crate::model::{self, LIMIT};

// Payload bytes and first edition of the kinds 1 to 11.
const KINDS: [(usize, u64); 11] = [(4, 1), (4, 1), (9, 1), (13, 1), (5, 1), (5, 1), (5, 1), (0, 1), (8, 2), (8, 2), (8, 2)];

// The bits from `at` on, most significant first.
fn field(payload: &[u8], at: usize, width: usize) -> u64 {
    (at..at + width).fold(0, |v, i| v << 1 | (payload[i / 8] >> (7 - i % 8) & 1) as u64)
}

// A duty record's call with its x, y and z, or 12.
fn edit(kind: usize, payload: &[u8]) -> Result<(&'static str, u64, u64, u64), u32> {
    if payload.len() != KINDS[kind - 1].0 {
        return Err(12);
    }
    let get = |at, width| field(payload, at, width);
    let right = |name: [&'static str; 2]| name[get(0, 1) as usize];
    let (used, what) = match kind {
        1 => (32, ("set", get(0, 32), 0, 0)),
        2 => (32, ("unset", get(0, 32), 0, 0)),
        3 => (65, ("set_region", get(1, 32), get(33, 32), get(0, 1))),
        4 if get(32, 7) > 64 => return Err(12),
        4 => (103, ("set_field", get(0, 32), get(32, 7), get(39, 64))),
        5 => (33, (right(["shift_left", "shift_right"]), get(1, 32), 0, 0)),
        6 => (33, (right(["rotate_left", "rotate_right"]), get(1, 32), 0, 0)),
        7 if get(0, 33) > 4_294_967_296 => return Err(12),
        7 => (33, ("resize_bits", get(0, 33), 0, 0)),
        8 => (0, ("reverse", 0, 0, 0)),
        9 => (64, ("toggle_region", get(0, 32), get(32, 32), 0)),
        10 => (64, ("open_gap", get(0, 32), get(32, 32), 0)),
        _ => (64, ("close_gap", get(0, 32), get(32, 32), 0)),
    };
    if (used..8 * payload.len()).any(|i| field(payload, i, 1) == 1) {
        return Err(12);
    }
    Ok(what)
}

// Number, record and the result's words in use, from the old words in use, in a store of `capacity` words.
fn reading(edition: u64, sheet: &[u8], old: &[u64], capacity: usize) -> Result<(u64, Vec<u64>), (u32, u64)> {
    if sheet.len() < 4 || &sheet[..2] != b"NS" {
        return Err((9, 0));
    }
    if old.len() > capacity {
        return Err((6, 0));
    }
    let records = field(sheet, 16, 16);
    let (mut words, mut at) = (old.to_vec(), 4);
    for record in 1..=records {
        let refuse = |number| (number, record);
        let head = sheet.get(at..at + 3).ok_or(refuse(10))?;
        let payload = sheet.get(at + 3..at + 3 + field(head, 8, 16) as usize).ok_or(refuse(10))?;
        at += 3 + payload.len();
        let kind = (head[0] & 127) as usize;
        if head[0] < 128 {
            continue;
        }
        if kind == 0 || kind > 11 || KINDS[kind - 1].1 > edition {
            return Err(refuse(13));
        }
        let (name, x, y, z) = edit(kind, payload).map_err(refuse)?;
        let mut c = Case { a: words.clone(), n: words.len(), x, y, z, ..Case::default() };
        c.a.resize(capacity, 0);
        let out = model::run(name, &c);
        if out.number != 0 {
            return Err(refuse(6));
        }
        words = out.a[..out.outs[0] as usize].to_vec();
    }
    if at < sheet.len() {
        return Err((11, records));
    }
    Ok((records, words))
}

// `read`: edition x, sheet in the bytes, old bitmap a, result store b.
pub fn read(c: &Case) -> Out {
    let mut out = Out { number: 0, outs: vec![0, 0], a: c.a.clone(), b: c.b.clone(), d: c.d.clone(), bytes: c.bytes.clone() };
    out.number = match () {
        _ if c.x != 1 && c.x != 2 => 14,
        _ if c.a.len() > LIMIT => 1,
        _ if c.n > c.a.len() => 2,
        _ if c.b.len() > LIMIT => 1,
        _ => 0,
    };
    if out.number != 0 {
        return out;
    }
    out.b.fill(0);
    match reading(c.x, &c.bytes, &c.a[..c.n], c.b.len()) {
        Err((number, record)) => (out.number, out.outs) = (number, vec![record, 0]),
        Ok((records, words)) => {
            out.b[..words.len()].copy_from_slice(&words);
            out.outs = vec![records, words.len() as u64];
        }
    }
    out
}

// An addition: kind x, width y, value z, size l, duty, p, k and flag f, payload.
#[derive(Clone)]
pub struct Plain {
    pub records: Vec<Vec<u8>>,
    pub started: bool,
}

fn packed(fields: &[(u64, usize)]) -> Vec<u8> {
    let bits: Vec<u8> = fields.iter().flat_map(|&(v, w)| (0..w).rev().map(move |k| (v >> k & 1) as u8)).collect();
    bits.chunks(8).map(|c| c.iter().enumerate().fold(0, |b, (k, v)| b | v << (7 - k))).collect()
}

// The record asked for, or 13, 3, 4 or 12.
fn record(c: &Case) -> Result<Vec<u8>, u32> {
    let [duty, p, k, flag] = c.f.map(u64::from);
    let flag = (flag != 0) as u64;
    let (first, payload) = match (duty != 0, c.x) {
        (true, 0 | 12..) | (false, 128..) => return Err(13),
        (true, 4) if c.y > 64 => return Err(3),
        (true, 7) if c.l > 4_294_967_296 => return Err(4),
        (false, _) if c.payload.len() > 65_535 => return Err(12),
        (false, kind) => (kind, c.payload.clone()),
        (true, kind) => {
            let fields = match kind {
                1 | 2 => vec![(p, 32)],
                3 => vec![(flag, 1), (p, 32), (k, 32)],
                4 => vec![(p, 32), (c.y, 7), (c.z, 64)],
                5 | 6 => vec![(flag, 1), (k, 32)],
                7 => vec![(c.l as u64, 33)],
                8 => vec![],
                _ => vec![(p, 32), (k, 32)],
            };
            (128 + kind, packed(&fields))
        }
    };
    Ok([packed(&[(first, 8), (payload.len() as u64, 16)]), payload].concat())
}

impl Plain {
    pub fn bytes(&self) -> Vec<u8> {
        [b"NS".to_vec(), packed(&[(self.records.len() as u64, 16)]), self.records.concat()].concat()
    }

    pub fn start(&mut self, size: usize) -> u32 {
        if size < 4 {
            return 6;
        }
        *self = Plain { records: vec![], started: true };
        0
    }

    pub fn add(&mut self, size: usize, c: &Case) -> u32 {
        if !self.started {
            return 9;
        }
        match record(c) {
            Err(e) => e,
            Ok(r) if self.records.len() == 65_535 || self.bytes().len() + r.len() > size => 6,
            Ok(r) => {
                self.records.push(r);
                0
            }
        }
    }
}

// The records of a sheet, or 9, 10 or 11.
fn parsed(sheet: &[u8]) -> Result<Plain, u32> {
    if sheet.len() < 4 || &sheet[..2] != b"NS" {
        return Err(9);
    }
    let (mut records, mut at) = (vec![], 4);
    for _ in 0..field(sheet, 16, 16) {
        let head = sheet.get(at..at + 3).ok_or(10u32)?;
        let end = at + 3 + field(head, 8, 16) as usize;
        records.push(sheet.get(at..end).ok_or(10u32)?.to_vec());
        at = end;
    }
    if at < sheet.len() {
        return Err(11);
    }
    Ok(Plain { records, started: true })
}

// The sheets that have one whole record less.
pub fn without_one(sheet: &[u8]) -> Vec<Vec<u8>> {
    let (mut out, mut at) = (vec![], 4);
    while sheet.len() >= at + 3 && sheet[2..4] != [0, 0] {
        let end = at + 3 + field(&sheet[at..], 8, 16) as usize;
        if end > sheet.len() {
            break;
        }
        let less = packed(&[(field(sheet, 16, 16) - 1, 16)]);
        out.push([&sheet[..2], &less[..], &sheet[4..at], &sheet[end..]].concat());
        at = end;
    }
    out
}

// `start` and `add` on any buffer: the first n bytes are the sheet.
pub fn write(name: &str, c: &Case) -> Out {
    let mut out = Out { number: 0, outs: vec![c.n as u64], a: c.a.clone(), b: c.b.clone(), d: c.d.clone(), bytes: c.bytes.clone() };
    let mut plain = Plain { records: vec![], started: false };
    out.number = match name {
        "start" => plain.start(c.bytes.len()),
        _ if c.n > c.bytes.len() => 2,
        _ => match parsed(&c.bytes[..c.n]) {
            Err(e) => e,
            Ok(p) => {
                plain = p;
                plain.add(c.bytes.len(), c)
            }
        },
    };
    if out.number == 0 {
        let sheet = plain.bytes();
        out.bytes[..sheet.len()].copy_from_slice(&sheet);
        out.outs = vec![sheet.len() as u64];
    }
    out
}

impl Rng {
    // Fields of an addition, most of them good.
    pub fn addition(&mut self, capacity: usize) -> Case {
        let mut c = Case { x: 1 + self.below(11), y: self.below(65), z: self.word(), ..Case::default() };
        c.l = self.below(64 * capacity as u64 + 2) as usize;
        let mut small = || match self.below(4) {
            0 => self.index(capacity).min(u32::MAX as u64) as u32,
            _ => self.below(40 * capacity as u64 + 1) as u32,
        };
        c.f = [1, small(), small(), 0];
        c.f[3] = self.pick(&[0, 1, 1 << 31]);
        match self.below(12) {
            0 => c.x = self.pick(&[0, 12, 127, 128, 1 << 32, u64::MAX]),
            1 => c.y = self.pick(&[64, 65, 1 << 40]),
            2 => c.l = self.pick(&[1 << 32, (1 << 32) + 1, usize::MAX]),
            3..=5 => (c.f[0], c.x, c.payload) = (0, self.below(129), (0..self.below(20)).map(|b| b as u8).collect()),
            _ => {}
        }
        if self.below(500) == 0 {
            (c.f[0], c.payload) = (0, vec![7; self.pick(&[65_535, 65_536])]);
        }
        c
    }

    // A duty record of any payload: of its kind's length as a rule, with unused bits, widths and sizes as they come.
    fn raw(&mut self) -> Vec<u8> {
        let kind = self.below(13);
        let bytes = KINDS.get(kind as usize - (kind > 0) as usize).map_or(3, |k| k.0 as u64) + self.below(8) / 7;
        let mut edge = || {
            if self.below(8) == 0 {
                self.next() as u8
            } else {
                self.pick(&[0, 0, 0, 0x80, 0x80, 0x40, 0x82, 1])
            }
        };
        let payload: Vec<u8> = (0..bytes).map(|k| if k == 0 || k + 1 == bytes || k == 4 { edge() } else { 0 }).collect();
        [packed(&[(128 + kind, 8), (bytes, 16)]), payload].concat()
    }

    // A sheet of up to `most` records; one in three is damaged.
    pub fn sheet(&mut self, most: u64, capacity: usize) -> Vec<u8> {
        let mut plain = Plain { records: vec![], started: true };
        for _ in 0..self.below(most + 1) {
            if self.below(8) == 0 {
                plain.records.push(self.raw());
            } else {
                plain.add(usize::MAX, &self.addition(capacity));
            }
        }
        let mut bytes = plain.bytes();
        if self.below(3) == 0 {
            let at = self.below(bytes.len() as u64) as usize;
            match self.below(4) {
                0 => bytes.truncate(at),
                1 => bytes.push(self.next() as u8),
                2 => bytes[at] ^= 1 << self.below(8),
                _ => bytes[3] = bytes[3].wrapping_add(self.pick(&[1, 255])),
            }
        }
        bytes
    }
}
