//! Random arguments round every boundary.
use crate::calls::{Args, Op};
use crate::rng::Rng;
use vbitmap::BitSlice;

pub const F: u64 = !0;

impl Rng {
    fn word(&mut self) -> u64 {
        match self.below(10) {
            0..=2 => 0,
            3 => F,
            4 => 1,
            5 => 1 << 63,
            6 => 1 << self.below(64),
            7 => F << self.below(64),
            8 => F >> self.below(64),
            _ => self.next(),
        }
    }

    /// Mostly few words; around 8 and 16, where the scans by eights turn; up to 20.
    fn count(&mut self) -> usize {
        (match self.below(10) {
            0..=5 => self.below(5),
            6 | 7 => 7 + self.below(3),
            8 => 15 + self.below(3),
            _ => self.below(21),
        }) as usize
    }

    pub fn words(&mut self) -> Vec<u64> {
        let n = self.count();
        let k = self.below(n as u64) as usize;
        let bit = 1 << self.below(64);
        let mut w = match self.below(8) {
            0 => vec![0; n],
            1 => vec![F; n],
            lone @ 2..=3 if n > 0 => {
                let mut w = vec![if lone == 2 { 0 } else { F }; n];
                w[k] ^= bit;
                w
            }
            _ => (0..n).map(|_| self.word()).collect(),
        };
        if self.below(4) == 0 {
            let k = self.below(n as u64 + 1) as usize;
            w[k..].fill(0);
        }
        w
    }

    /// An index round the boundaries of a bitmap of n words.
    pub fn index(&mut self, n: usize, huge: bool) -> u64 {
        let len = 64 * n as u64;
        match self.below(if huge { 12 } else { 10 }) {
            0 => 0,
            1 => self.pick(&[1, 62, 63, 64, 65, 127, 128]),
            2 | 3 => (64 * self.below(n as u64 + 1) + self.below(3)).saturating_sub(1),
            4 => (len + self.below(3)).saturating_sub(1),
            5 => len + self.below(200),
            6..=9 => self.below(len + 1),
            10 => F - self.below(130),
            _ => self.pick(&[1 << 32, (1 << 32) - 1, 1 << 63, (1 << 63) - 1, F, F - 63, F - 64, 1 << 58, 1 << 38]),
        }
    }

    /// Beside `a`: other words, the same and more zeros, a subset, one bit changed, the complement.
    pub fn beside(&mut self, a: &[u64]) -> Vec<u64> {
        let n = a.len() as u64;
        let mut b = a.to_vec();
        match self.below(5) {
            0 => b.resize(a.len() + self.below(3) as usize, 0),
            1 => b.iter_mut().for_each(|w| *w &= self.next()),
            2 => {
                if n > 0 {
                    b[self.below(n) as usize] ^= 1 << self.below(64);
                }
                let k = self.below(n + 1) as usize;
                if self.below(2) == 0 {
                    b.truncate(k);
                }
            }
            3 => b.iter_mut().for_each(|w| *w = !*w),
            _ => b = self.words(),
        }
        b
    }

    fn width(&mut self) -> u64 {
        match self.below(10) {
            0 => 0,
            1 => 64,
            2 => self.pick(&[65, 66, 100, F]),
            3 => self.pick(&[1, 55, 56, 57, 63]),
            _ => 1 + self.below(64),
        }
    }

    fn length(&mut self, n: usize, huge: bool) -> u64 {
        match self.below(8) {
            0 => 0,
            1 => 64 * self.below(n as u64 + 1),
            2 => self.index(n, huge),
            3 => 1,
            _ => self.below(64 * n as u64 + 70),
        }
    }

    fn blank(&mut self, s: &mut Vec<u8>) {
        if self.below(4) == 0 {
            s.push(self.pick(&[32u8, 9, 10, 11, 12, 13, 32]));
        }
    }

    fn number(&mut self, from: u64, s: &mut Vec<u8>) -> u64 {
        if self.below(8) == 0 {
            s.extend(b"00");
        }
        let v = match self.below(12) {
            0 => 63,
            1 => 64,
            2 => 127,
            3 => self.below(10),
            4 => self.below(700),
            _ => from + self.below(200),
        };
        s.extend(v.to_string().bytes());
        v
    }

    /// List text, sometimes damaged.
    fn text(&mut self) -> Vec<u64> {
        let mut s: Vec<u8> = vec![];
        for t in 0..self.below(5) {
            if t > 0 {
                s.push(b',');
            }
            self.blank(&mut s);
            let a = self.number(0, &mut s);
            self.blank(&mut s);
            if self.below(2) == 0 {
                s.push(b'-');
                self.blank(&mut s);
                self.number(a, &mut s);
                self.blank(&mut s);
            }
        }
        if self.below(6) == 0 {
            s.push(b',');
        }
        if self.below(4) == 0 && !s.is_empty() {
            let i = self.below(s.len() as u64) as usize;
            match self.below(4) {
                0 => drop(s.remove(i)),
                1 => s[i] = self.pick(b",- +a\x00\x08\x0e\x1c\x1f\x7f/:\x80\xff"),
                2 => s.insert(i, self.pick(b",- +a09\t\x0b")),
                _ => s.truncate(i),
            }
        }
        s.into_iter().map(u64::from).collect()
    }

    fn kernel(&mut self, op: Op) -> Args {
        let mut c = Args::default();
        match op.name {
            "word::low_mask" => c.x = if self.below(4) == 0 { self.index(1, true) } else { self.below(66) },
            "word::bit" => c.x = self.index(3, true),
            "word::wrapping_mul" => (c.x, c.y) = (self.word(), if self.below(2) == 0 { self.word() } else { self.next() }),
            _ if op.kind == 0 => c.x = if self.below(2) == 0 { self.word() } else { self.next() & self.next() },
            "select::select_u64" => {
                c.z = if self.below(2) == 0 { self.word() } else { self.next() & self.next() };
                c.x = self.below(c.z.count_ones() as u64 + 1);
            }
            "storage::check" => {
                let few = self.below(1000);
                c.x = self.pick(&[0, few, few, 1, 63, 64, 999, 1000]);
                c.y = self.pick(&[0, few, c.x.saturating_sub(1), c.x, c.x.saturating_add(1), F]);
            }
            "arch::fill_region" => {
                c.a = self.words();
                (c.x, c.y, c.z) = (self.index(c.a.len(), false), self.index(c.a.len(), false), self.below(2));
            }
            _ => {
                c.a = self.words();
                c.x = self.below(c.a.len() as u64 + 2);
                c.y = c.x + self.below(c.a.len() as u64 + 2);
                c.z = self.pick(&[0, F, 0x0101_0101_0101_0101 * 0xa5]);
            }
        }
        c
    }

    fn rank(&mut self, a: &[u64]) -> u64 {
        let k = BitSlice::new(a).count_set_bits() as u64;
        match self.below(6) {
            0 => k,
            1 => k + 1,
            2 => k.saturating_sub(1),
            3 => self.index(a.len(), true),
            _ => self.below(k + 1),
        }
    }

    pub fn args(&mut self, op: Op) -> Args {
        if op.kind <= 2 {
            return self.kernel(op);
        }
        let mut c = Args { a: self.words(), x: 0, ..Args::default() };
        let n = c.a.len();
        match op.name {
            "bits::select" => c.x = self.rank(&c.a),
            "slice::get_field" | "slice::set_field_strict" | "bitmap::set_field" => {
                (c.x, c.y) = (self.index(n, true), self.width());
                let (high, any) = (F << self.below(64), self.next());
                c.z = self.pick(&[0, F, high, any]);
            }
            "bits::count_region" => (c.x, c.y) = (self.index(n, true), self.length(n, true)),
            "bitmap::set_many" => c.list = (0..self.below(6)).map(|_| self.any_index(n)).collect(),
            "text::from_list" => c.list = self.text(),
            "print::write_list" => {}
            _ => match op.kind {
                11 => (c.x, c.y, c.z) = (self.index(n, true), self.length(n, true), self.below(2)),
                5..=7 | 12 => {
                    c.b = self.beside(&c.a);
                    c.x = self.index(n.max(c.b.len()), true);
                }
                13 | 14 => {
                    c.b = c.a;
                    c.c = self.beside(&c.b);
                    c.a = if op.kind == 13 { (0..self.below(6)).map(|_| self.next()).collect() } else { vec![] };
                }
                _ => c.x = self.index(n, true),
            },
        }
        c
    }

    /// Seldom a huge one.
    fn any_index(&mut self, n: usize) -> u64 {
        let huge = self.below(12) == 0;
        self.index(n, huge)
    }
}
