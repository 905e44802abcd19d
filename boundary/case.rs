// A case: what a call is given. Where a call has no use for a part, it is empty or 0. Random cases, and smaller ones of one that fails.
use crate::rng::Rng;

// A style of list text, as a call takes it: the blank is a truth value.
#[derive(Clone, Copy, Debug, Default, PartialEq)]
pub struct Style {
    pub first: usize,
    pub joiner: usize,
    pub blank: u32,
    pub shortest: usize,
}

pub const PLAIN: Style = Style { first: 0, joiner: 45, blank: 1, shortest: 2 };

// Stores a, b and d with their counts n, m and l; bytes for a text, a sheet or a buffer; numbers; an addition's duty, p, k and flag; and the
// style of a text.
#[derive(Clone, Debug, Default, PartialEq)]
pub struct Case {
    pub a: Vec<u64>,
    pub n: usize,
    pub b: Vec<u64>,
    pub m: usize,
    pub d: Vec<u64>,
    pub l: usize,
    pub bytes: Vec<u8>,
    pub payload: Vec<u8>,
    pub list: Vec<usize>,
    pub x: u64,
    pub y: u64,
    pub z: u64,
    pub f: [u32; 4],
    pub style: Style,
}

// What is returned, what goes out by parameters, in their order, and every store and buffer afterwards.
#[derive(Clone, Debug, PartialEq)]
pub struct Out {
    pub number: u32,
    pub outs: Vec<u64>,
    pub a: Vec<u64>,
    pub b: Vec<u64>,
    pub d: Vec<u64>,
    pub bytes: Vec<u8>,
}

impl Rng {
    pub fn word(&mut self) -> u64 {
        match self.below(8) {
            0 | 1 => 0,
            2 => !0,
            3 => 1 << self.below(64),
            4 => !0 << self.below(64),
            5 => !0 >> self.below(64),
            _ => self.next(),
        }
    }

    // A store of up to `most` words and its count, which is above it now and then; zero words stand at the end of some.
    fn store(&mut self, most: u64) -> (Vec<u64>, usize) {
        let capacity = self.below(most + 1) as usize;
        let mut words: Vec<u64> = (0..capacity).map(|_| self.word()).collect();
        let count = match self.below(16) {
            0 => capacity + 1 + self.below(3) as usize,
            1 => self.pick(&[usize::MAX, 1 << 58, 67_108_865]),
            2..=5 => capacity,
            _ => self.below(capacity as u64 + 1) as usize,
        };
        if self.below(3) == 0 {
            let (from, to) = (self.below(capacity as u64 + 1) as usize, count.min(capacity));
            words[from.min(to)..to].fill(0);
        }
        (words, count)
    }

    // An index or an amount round the edges of a store, or far out.
    pub fn index(&mut self, capacity: usize) -> u64 {
        let length = 64 * capacity as u64;
        match self.below(12) {
            0 => self.pick(&[0, 1, 63, 64, 65, 127, 128]),
            1 => (64 * self.below(capacity as u64 + 2) + self.below(3)).saturating_sub(1),
            2 => length + self.below(200),
            3 => u64::MAX - self.below(200),
            4 => self.pick(&[1 << 32, (1 << 32) - 1, 1 << 38, 1 << 58, 1 << 63, (1 << 63) - 1]),
            5 => self.next(),
            _ => self.below(length + 1),
        }
    }

    // The plain style every other time, else one of the others; some of these are outside the limits by one part or more, also by what a narrower
    // number would not show.
    fn style(&mut self) -> Style {
        if self.below(2) == 0 {
            return PLAIN;
        }
        let mut y = Style { first: self.below(1001) as usize, joiner: 33 + self.below(94) as usize, ..PLAIN };
        if self.below(2) == 0 {
            (y.first, y.joiner) = (self.pick(&[0, 1, 999, 1000]), self.pick(b"!+-/:;A~") as usize);
        }
        (y.blank, y.shortest) = (self.pick(&[0, 0, 1, 2, 1 << 31]), self.pick(&[2, 3, 4, 5, 8, 9]));
        let parts = if self.below(4) == 0 { 1 + self.below(7) } else { 0 };
        if parts & 1 != 0 {
            y.first = self.pick(&[1001, 1 << 16, 1 << 32, (1 << 32) + 1, usize::MAX]);
        }
        if parts & 2 != 0 {
            y.joiner = self.pick(&[0, 9, 10, 32, 44, 48, 57, 127, 128, 255, 256 + 45, (1 << 32) + 45, usize::MAX]);
        }
        if parts & 4 != 0 {
            y.shortest = self.pick(&[0, 1, 10, 256 + 2, (1 << 32) + 2, usize::MAX]);
        }
        y
    }

    // A number just above the upper limit or far above it.
    fn huge(&mut self, first: u64) -> String {
        let value = 4_294_967_296 + first + self.below(3);
        let zeros = self.pick(&["", "", "0", "000000000000000000000000"]);
        match self.below(4) {
            0 => format!("{zeros}{value}{}", "0".repeat(self.below(40) as usize)),
            1 => format!("{zeros}{}", (1u128 << 64) + u128::from(first + self.below(9))),
            _ => format!("{zeros}{value}"),
        }
    }

    // A text of a few tokens in which huge numbers, good ones and slips stand in any order, on either side of a joiner. The greatest number that is
    // good comes last, because the original makes room for it before it looks at the next.
    fn huge_text(&mut self, y: &Style) -> Vec<u8> {
        let (first, joiner) = (y.first.min(1000) as u64, y.joiner as u8);
        let mut text = vec![];
        for _ in 0..1 + self.below(6) {
            let number = match self.below(8) {
                0..=3 => (first + self.below(60)).to_string(),
                4 | 5 => self.huge(first),
                6 => format!("{}{}", self.huge(first), self.pick(&["x", " ", " 5", "\t"])),
                _ => self.pick(&["", " ", "x", "5 5"]).to_string(),
            };
            text.extend(number.bytes());
            text.push(self.pick(&[b',', b',', joiner]));
        }
        match self.below(4) {
            0 => text.extend((4_294_967_295 + first).to_string().bytes()),
            1 => {}
            _ => drop(text.pop()),
        }
        text
    }

    // A text whose numbers fit the store and the style now and then.
    fn text(&mut self, capacity: usize, y: &Style) -> Vec<u8> {
        let n = 1 + self.below(12);
        let good = self.below(2) == 0;
        let (first, joiner) = (y.first.min(1000) as u64, y.joiner as u8);
        let mut text = vec![];
        for _ in 0..n {
            if good {
                let low = first + self.below(60 * capacity as u64 + 1);
                let high = low + self.below(9);
                if self.below(2) == 0 {
                    text.extend(format!("{low}, ").bytes());
                } else {
                    text.extend([format!(" {low} ").as_bytes(), &[joiner], format!("{high},").as_bytes()].concat());
                }
            } else {
                text.push(self.pick(&[&b"0123456789,,--  \t\x0b\x0e\x80\xc2a"[..], &[joiner; 2]].concat()));
            }
        }
        match self.below(16) {
            // round the upper limit, and round the lower one
            0 => text.extend((4_294_967_294 + first + self.below(3)).to_string().bytes()),
            1 => text.extend(format!("00{}", (first + self.below(3)).saturating_sub(1)).bytes()),
            _ => {}
        }
        text
    }

    // A buffer for a text; every fourth is so short that little fits.
    fn buffer(&mut self, long: bool) -> Vec<u8> {
        let size = match self.below(4) {
            0 => 12,
            _ if long => 400_000,
            _ => 900,
        };
        vec![0xab; self.below(size) as usize]
    }

    // Lone bits, as many as fill a page or more, or one less or more.
    fn lone_bits(&mut self) -> Vec<u64> {
        let bits = (49 * self.below(4) + self.below(3)).saturating_sub(1);
        let mut words = vec![0; (bits as usize).div_ceil(32)];
        (0..bits).for_each(|i| words[i as usize / 32] |= 2 << (2 * i % 64));
        words
    }

    // A buffer for so many pages of a register, or one byte less or more.
    fn pages(&mut self, most: u64) -> Vec<u8> {
        let size = 3650 * self.below(most + 1) + self.below(3);
        vec![0xab; size.saturating_sub(1) as usize]
    }

    pub fn case(&mut self, name: &str, most: u64) -> Case {
        let mut c = Case::default();
        (c.a, c.n) = self.store(most);
        (c.b, c.m) = self.store(most);
        (c.d, c.l) = self.store(most);
        if self.below(3) == 0 {
            // the second bitmap near the first, so that tests hold and results are short
            c.b = c.a.clone();
            c.m = c.n;
            let k = self.below(c.b.len() as u64 + 1) as usize;
            if k < c.b.len() {
                c.b[k] ^= self.word();
            }
        }
        c.x = self.index(c.a.len());
        if self.below(3) == 0 && 0 < c.n && c.n <= c.a.len() {
            // one bit in the last word, and the index at it or near: a call may empty that word
            let k = self.below(64);
            c.a[c.n - 1] = 1 << k;
            c.x = (64 * c.n as u64 - 64 + k).saturating_sub(self.pick(&[0, 0, 0, 1, 64]));
        }
        c.y = match name {
            "get_field" | "set_field" | "set_field_strict" => self.pick(&[0, 1, 2, 7, 31, 63, 64, 65, 100, u64::MAX]),
            _ => self.index(c.a.len()),
        };
        c.z = if name == "set_region" { self.pick(&[0, 0, 1, 1, 2, 1 << 31]) } else { self.word() };
        if name.ends_with("_list") {
            c.style = self.style();
        }
        match name {
            "set_many" => c.list = (0..self.below(12)).map(|_| self.below(64 * c.a.len() as u64 + 2) as usize).collect(),
            "from_list" if self.below(4) == 0 => c.bytes = self.huge_text(&c.style),
            "from_list" => c.bytes = self.text(c.a.len(), &c.style),
            "write_list" => c.bytes = self.buffer(most > 100),
            "write_register" => {
                if self.below(2) == 0 {
                    c.a = self.lone_bits();
                    c.n = c.a.len();
                }
                c.bytes = self.pages(if most > 100 { 400 } else { 4 });
            }
            _ => {}
        }
        c
    }
}

fn shorter<T: Clone>(v: &[T]) -> Vec<Vec<T>> {
    let n = v.len();
    [v[..n / 2].to_vec(), v[n / 2..].to_vec(), v[..n.max(1) - 1].to_vec(), v[n.min(1)..].to_vec()].into_iter().filter(|w| w.len() < n).collect()
}

fn lower(x: u64) -> Vec<u64> {
    let (lowest, highest) = (x & x.wrapping_neg(), 1u64.checked_shl(63 - x.leading_zeros().min(63)).unwrap_or(0));
    [0, 1, lowest, x & !highest, x & !lowest, x / 2, x.wrapping_sub(64), x.wrapping_sub(1)].into_iter().filter(|&y| y < x).collect()
}

// The plain style, and those that are nearer to it in one part.
fn plainer(y: Style) -> Vec<Style> {
    let mut out = vec![PLAIN, Style { joiner: PLAIN.joiner, ..y }, Style { blank: PLAIN.blank, ..y }, Style { shortest: PLAIN.shortest, ..y }];
    out.extend(lower(y.first as u64).iter().map(|&v| Style { first: v as usize, ..y }));
    out.retain(|w| *w != y);
    out
}

// Cases that are smaller in one part.
pub fn smaller(c: &Case) -> Vec<Case> {
    let mut out = vec![];
    let mut put = |change: &dyn Fn(&mut Case)| {
        let mut d = c.clone();
        change(&mut d);
        out.push(d);
    };
    for w in shorter(&c.a) {
        put(&|d| (d.n, d.a) = (d.n.min(w.len()), w.clone()));
        put(&|d| d.a = w.clone());
    }
    for w in shorter(&c.b) {
        put(&|d| (d.m, d.b) = (d.m.min(w.len()), w.clone()));
        put(&|d| d.b = w.clone());
    }
    for w in shorter(&c.d) {
        put(&|d| (d.l, d.d) = (d.l.min(w.len()), w.clone()));
    }
    shorter(&c.bytes).iter().chain(&crate::sheets::without_one(&c.bytes)).for_each(|w| put(&|d| d.bytes = w.clone()));
    shorter(&c.payload).iter().for_each(|w| put(&|d| d.payload = w.clone()));
    shorter(&c.list).iter().for_each(|w| put(&|d| d.list = w.clone()));
    for k in 0..c.a.len().min(64) {
        lower(c.a[k]).iter().for_each(|&v| put(&|d| d.a[k] = v));
    }
    for k in 0..c.b.len().min(64) {
        lower(c.b[k]).iter().for_each(|&v| put(&|d| d.b[k] = v));
    }
    lower(c.n as u64).iter().for_each(|&v| put(&|d| d.n = v as usize));
    lower(c.m as u64).iter().for_each(|&v| put(&|d| d.m = v as usize));
    lower(c.l as u64).iter().for_each(|&v| put(&|d| d.l = v as usize));
    lower(c.x).iter().for_each(|&v| put(&|d| d.x = v));
    lower(c.y).iter().for_each(|&v| put(&|d| d.y = v));
    lower(c.z).iter().for_each(|&v| put(&|d| d.z = v));
    plainer(c.style).iter().for_each(|&w| put(&|d| d.style = w));
    for k in 0..4 {
        lower(c.f[k] as u64).iter().for_each(|&v| put(&|d| d.f[k] = v as u32));
    }
    out
}
