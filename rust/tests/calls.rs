// Each method beside a plain model of bits, on small bitmaps and on arguments near the edges and far out. A fixed seed: each run is the same.
#![allow(clippy::unit_arg)] // `Ok(change)` stands for the change and `Ok(())`

use std::collections::BTreeSet;

use taxolbin::{BitSlice, Bitmap, Error, Style, CAPACITY_MAX, REGISTER_PAGE};

const CASES: usize = 2000;

type Made = Result<(), Error>;

// xorshift64*
struct Random(u64);

impl Random {
    fn word(&mut self) -> u64 {
        self.0 ^= self.0 >> 12;
        self.0 ^= self.0 << 25;
        self.0 ^= self.0 >> 27;
        self.0.wrapping_mul(0x2545_F491_4F6C_DD1D)
    }

    fn below(&mut self, n: usize) -> usize {
        ((self.word() >> 11) % n as u64) as usize
    }

    // Empty, full, sparse and dense words, so that trims, runs and ends come often.
    fn words(&mut self, n: usize) -> Vec<u64> {
        let some = |r: &mut Random| match r.below(6) {
            0 | 1 => 0,
            2 => u64::MAX,
            3 => 1 << r.below(64),
            4 => r.word() & r.word() & r.word(),
            _ => r.word() | r.word(),
        };
        (0..n).map(|_| some(self)).collect()
    }

    // Within the length and just past it, at the ends, and far out.
    fn index(&mut self, length: usize) -> usize {
        match self.below(8) {
            0 => length,
            1 => length.wrapping_sub(1),
            2 => usize::MAX - self.below(70),
            3 => 64 * self.below(6),
            _ => self.below(length + 80),
        }
    }

    fn pick<T: Copy>(&mut self, from: &[T]) -> T {
        from[self.below(from.len())]
    }

    // The plain style, any allowed one, and now and then one that is not, by one part.
    fn style(&mut self) -> Style {
        if self.below(4) == 0 {
            return Style::PLAIN;
        }
        let joiner = usize::from(self.pick(b"--::!+/;A~"));
        let good = Style { first: self.pick(&[0, 1, 7, 999, 1000]), joiner, blank: self.below(2) == 0, shortest: 2 + self.below(8) };
        match self.below(16) {
            0 => Style { first: self.pick(&[1001, 1 << 32, usize::MAX]), ..good },
            1 => Style { joiner: self.pick(&[0, 9, 32, 44, 48, 57, 127, 128, 255, 256 + 45, usize::MAX]), ..good },
            2 => Style { shortest: self.pick(&[0, 1, 10, 256 + 2, usize::MAX]), ..good },
            _ => good,
        }
    }

    fn case(&mut self) -> Case {
        let capacity = self.below(5);
        let count = self.below(capacity + 1);
        Case { store: self.words(capacity), count }
    }
}

fn bits_of(words: &[u64]) -> Vec<bool> {
    (0..64 * words.len()).map(|i| words[i / 64] & (1 << (i % 64)) != 0).collect()
}

fn words_of(bits: &[bool]) -> Vec<u64> {
    bits.chunks(64).map(|chunk| chunk.iter().rev().fold(0, |word, &bit| 2 * word + u64::from(bit))).collect()
}

fn members(bits: &[bool]) -> BTreeSet<usize> {
    (0..bits.len()).filter(|&i| bits[i]).collect()
}

// The least words that hold these members.
fn trimmed(set: &BTreeSet<usize>) -> Vec<bool> {
    let length = set.last().map_or(0, |last| 64 * (last / 64 + 1));
    (0..length).map(|i| set.contains(&i)).collect()
}

fn trim(bits: &mut Vec<bool>) {
    *bits = trimmed(&members(bits));
}

// Makes sure of a word for this bit.
fn grow(bits: &mut Vec<bool>, last: usize, capacity: usize) -> Made {
    if last / 64 >= capacity {
        return Err(Error::NoSpace);
    }
    bits.resize(bits.len().max(64 * (last / 64 + 1)), false);
    Ok(())
}

// ---- Reading ----

#[test]
fn one_bitmap_is_read() {
    let mut r = Random(1);
    for _ in 0..CASES {
        let n = r.below(5);
        let words = r.words(n);
        let (bits, b) = (BitSlice::new(&words).unwrap(), bits_of(&words));
        let set = members(&b);
        let clear = |from: usize| if from < b.len() { (from..b.len()).find(|&j| !b[j]).unwrap_or(b.len()) } else { from };
        let (i, k) = (r.index(b.len()), r.index(b.len()));
        assert_eq!((bits.words(), bits.len_words(), bits.len_bits()), (&words[..], n, b.len()));
        assert_eq!(bits.get(i), set.contains(&i), "get {i}");
        assert_eq!((bits.first_set(), bits.last_set()), (set.first().copied(), set.last().copied()));
        assert_eq!(bits.next_set(i), set.range(i..).next().copied(), "next_set {i}");
        assert_eq!(bits.select(k), set.iter().nth(k).copied(), "select {k}");
        assert_eq!((bits.first_clear(), bits.next_clear(i)), (clear(0), clear(i)), "clear {i}");
        assert_eq!((bits.count_set_bits(), bits.count_clear_bits()), (set.len(), b.len() - set.len()));
        assert_eq!(bits.count_region(i, k), set.range(i..i.saturating_add(k)).count(), "count_region {i} {k}");
        assert_eq!(bits.rank(i), set.range(..i).count(), "rank {i}");
        assert_eq!(bits.is_zero(), set.is_empty());
        assert_eq!(bits.iter().collect::<Vec<_>>(), set.iter().copied().collect::<Vec<_>>());
        assert_eq!(bits.into_iter().collect::<BTreeSet<_>>(), set);
        let mut rest = bits.iter();
        rest.by_ref().take(k % 90).for_each(drop);
        assert_eq!(rest.len(), set.len().saturating_sub(k % 90));
        assert_eq!(format!("{bits:?}"), format!("{set:?}"));
    }
}

#[test]
fn fields_are_read() {
    let mut r = Random(2);
    let mut refused = 0;
    for _ in 0..CASES {
        let n = r.below(5);
        let words = r.words(n);
        let set = members(&bits_of(&words));
        let (i, width) = (r.index(64 * n), r.below(68));
        let bit = |j: usize| i.checked_add(j).is_some_and(|place| set.contains(&place));
        let model = if width > 64 { Err(Error::WidthOver) } else { Ok((0..width).map(|j| u64::from(bit(j)) << j).sum()) };
        refused += usize::from(model.is_err());
        assert_eq!(BitSlice::new(&words).unwrap().get_field(i, width), model, "{i} {width}");
    }
    assert!(refused > 0 && refused < CASES);
}

#[test]
fn two_bitmaps_are_read() {
    let mut r = Random(3);
    let mut equal = 0;
    for case in 0..CASES {
        let (n, m) = (r.below(5), r.below(5));
        let left = r.words(n);
        let mut right = if case % 4 == 0 { left.clone() } else { r.words(m) };
        right.extend(vec![0; r.below(3)]);
        let (a, b) = (members(&bits_of(&left)), members(&bits_of(&right)));
        let (left, right) = (BitSlice::new(&left).unwrap(), BitSlice::new(&right).unwrap());
        equal += usize::from(a == b);
        assert_eq!(left == right, a == b);
        assert_eq!((left.is_subset(right), left.is_disjoint(right)), (a.is_subset(&b), a.is_disjoint(&b)));
        let (and, or, xor, andnot): (BTreeSet<_>, BTreeSet<_>, BTreeSet<_>, BTreeSet<_>) = (&a & &b, &a | &b, &a ^ &b, &a - &b);
        assert_eq!((left.and_count(right), left.or_count(right)), (and.len(), or.len()));
        assert_eq!((left.xor_count(right), left.andnot_count(right)), (xor.len(), andnot.len()));
        for (walk, set) in [(left.iter_and(right), and), (left.iter_or(right), or), (left.iter_xor(right), xor), (left.iter_andnot(right), andnot)] {
            assert_eq!(format!("{walk:?}"), format!("{set:?}"));
            assert_eq!(walk.collect::<Vec<_>>(), set.into_iter().collect::<Vec<_>>());
        }
    }
    assert!(equal > CASES / 8 && equal < CASES / 2);
}

#[test]
fn walks_end_once_and_for_all() {
    let words = [u64::MAX, 1 << 63];
    let bits = BitSlice::new(&words).unwrap();
    let (mut members, mut both) = (bits.iter(), bits.iter_and(bits));
    assert_eq!((members.by_ref().count(), both.by_ref().count()), (65, 65));
    assert_eq!((members.next(), members.next(), both.next(), both.next()), (None, None, None, None));
    assert_eq!(BitSlice::new(&[]).unwrap().iter().next(), None);
    let mut rest = bits.iter();
    rest.nth(63);
    assert_eq!(format!("{:?} {:?}", rest.clone(), rest), "{127} {127}");
}

#[test]
fn lists_are_printed_and_loaded() {
    let mut r = Random(4);
    let mut refused = 0;
    for _ in 0..CASES {
        let (n, style) = (r.below(5), r.style());
        let words = r.words(n);
        let (bits, set) = (BitSlice::new(&words).unwrap(), members(&bits_of(&words)));
        assert_eq!(bits.to_string(), list_of(&set, Style::PLAIN));
        if !allowed(style) {
            let mut out = [b'#'; 4];
            assert_eq!(bits.write_list(&mut out, style), Err(Error::BadStyle), "{style:?}");
            assert_eq!(&out, b"####");
            refused += 1;
            continue;
        }
        let list = list_of(&set, style);
        printed(bits, style, &list);
        let mut store = vec![u64::MAX; n];
        let mut loaded = Bitmap::with_count(&mut store, n).unwrap();
        loaded.load_list(&list, style).unwrap();
        assert_eq!(loaded, *bits);
        assert_eq!(loaded.to_string(), bits.to_string());
        assert_eq!(*bits, loaded);
        let mut second = words.clone();
        let mut whole = Bitmap::with_count(&mut second, n).unwrap();
        assert_eq!(loaded, whole);
        whole.invert();
        assert_eq!(loaded == whole, n == 0);
    }
    assert!(refused > CASES / 20 && refused < CASES / 4);
}

// Into a buffer that is longer, one of exactly its length, and one that is a byte short.
fn printed(bits: &BitSlice, style: Style, list: &str) {
    let mut out = vec![b'#'; list.len() + 3];
    assert_eq!(bits.write_list(&mut out, style), Ok(list));
    assert_eq!(&out[list.len()..], b"###");
    let mut exact = vec![b'#'; list.len()];
    assert_eq!(bits.write_list(&mut exact, style), Ok(list));
    if let Some((_, short)) = exact.split_first_mut() {
        short.fill(b'#');
        assert_eq!(bits.write_list(short, style), Err(Error::NoSpace));
        assert!(short.iter().all(|&byte| byte == b'#'));
    }
}

fn allowed(style: Style) -> bool {
    let joins = style.joiner > 32 && style.joiner < 127 && !b",0123456789".iter().any(|&byte| usize::from(byte) == style.joiner);
    style.first <= 1000 && joins && (2..10).contains(&style.shortest)
}

// Maximal runs, upward; a short one falls apart.
fn list_of(set: &BTreeSet<usize>, style: Style) -> String {
    let joiner = char::from(style.joiner as u8);
    let starts = set.iter().filter(|&&i| i == 0 || !set.contains(&(i - 1)));
    let run = |&start: &usize| {
        let end = (start..).find(|&i| !set.contains(&(i + 1))).unwrap();
        match end - start + 1 {
            size if size < style.shortest => (start..=end).map(|i| format!("{}", i + style.first)).collect(),
            _ => vec![format!("{}{joiner}{}", start + style.first, end + style.first)],
        }
    };
    starts.flat_map(run).collect::<Vec<_>>().join(if style.blank { ", " } else { "," })
}

// A register into a buffer that is longer, one of exactly its length, and one that is a byte short.
fn registered(words: &[u64]) {
    let bits = BitSlice::new(words).unwrap();
    let register = register_of(&members(&bits_of(words)));
    let mut out = vec![b'#'; register.len() + 3];
    assert_eq!(bits.write_register(&mut out), Ok(&register[..]));
    assert_eq!(&out[register.len()..], b"###");
    out.fill(b'#');
    assert_eq!(bits.write_register(&mut out[..register.len()]), Ok(&register[..]));
    out.fill(b'#');
    for size in [0, REGISTER_PAGE - 1, register.len() - 1] {
        assert_eq!(bits.write_register(&mut out[..size]), Err(Error::NoSpace));
        assert!(out.iter().all(|&byte| byte == b'#'));
    }
}

// The lines of the runs, 49 on a page and the last page filled up with blank ones, and under them the foot.
fn register_of(set: &BTreeSet<usize>) -> String {
    let line = |numbers: [usize; 3]| format!("{:<72}\n", numbers.map(|n| format!("{n:>12}")).concat());
    let starts = set.iter().filter(|&&i| i == 0 || !set.contains(&(i - 1)));
    let ends = set.iter().filter(|&&i| !set.contains(&(i + 1)));
    let runs: Vec<_> = starts.zip(ends).map(|(&low, &high)| line([low, high, high - low + 1])).collect();
    let pages = runs.len().div_ceil(49).max(1);
    let row = |k: usize| runs.get(k).cloned().unwrap_or_else(|| " ".repeat(72) + "\n");
    let page = |p: usize| (49 * p..49 * p + 49).map(row).collect::<String>() + &line([p + 1, pages, set.len()]);
    (0..pages).map(page).collect()
}

#[test]
fn registers_are_printed() {
    let mut r = Random(5);
    for case in 0..CASES / 4 {
        let n = if case % 10 == 0 { r.below(40) } else { r.below(5) };
        registered(&r.words(n));
    }
}

// So many runs, each of one bit or over the edge of a word: where a page is full, and where the next begins.
#[test]
fn registers_have_49_runs_a_page() {
    for (runs, pages) in [(0, 1), (1, 1), (48, 1), (49, 1), (50, 2), (98, 2), (99, 3), (147, 3), (148, 4)] {
        let singles: Vec<bool> = (0..2 * runs).map(|i| i % 2 == 1).collect();
        let edges: Vec<bool> = (0..64 * (runs + 1)).map(|i| i >= 60 && (i % 64 >= 60 || i % 64 < 7) && i < 64 * runs + 7).collect();
        for bits in [singles, edges] {
            let words = words_of(&bits);
            assert_eq!(register_of(&members(&bits_of(&words))).len(), pages * REGISTER_PAGE, "{runs}");
            registered(&words);
        }
    }
    registered(&[u64::MAX; 40]);
    registered(&[0; 40]);
}

// The lines as they are seen, typed by hand.
#[test]
fn a_register_is_typed_by_hand() {
    let mut out = [b'#'; 2 * REGISTER_PAGE];
    let lines: Vec<_> = BitSlice::new(&[0x80, 0]).unwrap().write_register(&mut out).unwrap().split('\n').map(str::to_owned).collect();
    assert_eq!(lines.len(), 51);
    assert_eq!(lines[0], "           7           7           1                                    ");
    assert_eq!(lines[49], "           1           1           1                                    ");
    assert!(lines[1..49].iter().all(|line| *line == " ".repeat(72)) && lines[50].is_empty());
    let text = BitSlice::new(&[]).unwrap().write_register(&mut out).unwrap();
    assert_eq!(&text[49 * 73..], "           1           1           0                                    \n");
    let text = BitSlice::new(&[u64::MAX; 200]).unwrap().write_register(&mut out).unwrap();
    assert_eq!(&text[..73], "           0       12799       12800                                    \n");
}

// ---- Changes within the length ----

// Runs a change and its model on many slices.
fn within(seed: u64, one: impl Fn(&mut Random, &mut BitSlice, &mut Vec<bool>)) {
    let mut r = Random(seed);
    let mut changed = 0;
    for _ in 0..CASES {
        let n = r.below(5);
        let old = r.words(n);
        let (mut words, mut bits) = (old.clone(), bits_of(&old));
        one(&mut r, BitSlice::new_mut(&mut words).unwrap(), &mut bits);
        assert_eq!(words, words_of(&bits), "of {old:x?}");
        changed += usize::from(words != old);
    }
    assert!(changed > CASES / 10);
}

// Every bit comes from the place that is told; nothing comes from nowhere.
fn moved(bits: &mut Vec<bool>, from: impl Fn(usize) -> Option<usize>) {
    *bits = (0..bits.len()).map(|i| from(i).and_then(|j| bits.get(j).copied()).unwrap_or(false)).collect();
}

#[test]
fn bits_move_within_the_length() {
    within(10, |_, bits, model| {
        bits.invert();
        model.iter_mut().for_each(|bit| *bit = !*bit);
    });
    within(11, |_, bits, model| {
        bits.reverse();
        model.reverse();
    });
    within(12, |r, bits, model| {
        let k = r.index(model.len());
        bits.shift_left(k);
        moved(model, |i| i.checked_sub(k));
    });
    within(13, |r, bits, model| {
        let k = r.index(model.len());
        bits.shift_right(k);
        moved(model, |i| i.checked_add(k));
    });
    within(14, |r, bits, model| {
        let k = r.index(model.len());
        bits.rotate_left(k);
        let odd = k.checked_rem(model.len()).unwrap_or(0);
        model.rotate_right(odd); // a slice's right is up
    });
    within(15, |r, bits, model| {
        let k = r.index(model.len());
        bits.rotate_right(k);
        let odd = k.checked_rem(model.len()).unwrap_or(0);
        model.rotate_left(odd);
    });
}

#[test]
fn bits_are_written_within_the_length() {
    within(16, |r, bits, model| {
        let i = r.index(model.len());
        let expected = if i < model.len() { Ok(model[i] = !model[i]) } else { Err(Error::PastLength) };
        assert_eq!(bits.toggle(i), expected, "{i}");
    });
    within(17, |r, bits, model| {
        let (i, value, width) = (r.index(model.len()), r.word(), r.below(68));
        let expected = match i.checked_add(width) {
            _ if width > 64 => Err(Error::WidthOver),
            _ if width == 0 => Ok(()),
            Some(end) if end <= model.len() => Ok((0..width).for_each(|j| model[i + j] = value >> j & 1 == 1)),
            _ => Err(Error::PastLength),
        };
        assert_eq!(bits.set_field_strict(i, value, width), expected, "{i} {width}");
    });
}

// ---- Changes that grow and trim ----

struct Case {
    store: Vec<u64>,
    count: usize,
}

impl Case {
    fn length(&self) -> usize {
        64 * self.count
    }

    // What the store must hold after its bits became these: words that fell out of use are zero, words never in use as they were.
    fn after(&self, bits: &[bool]) -> Vec<u64> {
        let mut words = words_of(bits);
        words.extend((words.len()..self.count).map(|_| 0));
        words.extend(&self.store[words.len()..]);
        words
    }

    // Runs the call and the model, which gets the bits and the capacity, and compares all that is left.
    fn run(&self, call: impl FnOnce(&mut Bitmap) -> Made, model: impl FnOnce(&mut Vec<bool>, usize) -> Made) -> Made {
        let old = bits_of(&self.store[..self.count]);
        let mut bits = old.clone();
        let expected =
            model(&mut bits, self.store.len()).and_then(|()| if bits.len() > 64 * self.store.len() { Err(Error::NoSpace) } else { Ok(()) });
        if expected.is_err() {
            bits = old;
        }
        let mut store = self.store.clone();
        let mut bitmap = Bitmap::with_count(&mut store, self.count).unwrap();
        assert_eq!(call(&mut bitmap), expected);
        assert_eq!(bitmap.count(), bits.len() / 64);
        assert_eq!(bitmap.words(), words_of(&bits));
        assert_eq!(bitmap.store(), self.after(&bits));
        expected
    }
}

// Runs many cases, and sees to it that exactly these errors come up among them, besides done.
fn changes(seed: u64, errors: &[Error], one: impl Fn(&mut Random, &Case) -> Made) {
    let mut r = Random(seed);
    let mut seen = BTreeSet::new();
    for _ in 0..CASES {
        let case = r.case();
        seen.insert(one(&mut r, &case).err());
    }
    let expected = errors.iter().map(|&error| Some(error)).chain([None]).collect();
    assert_eq!(seen, expected);
}

// A call that nothing refuses.
fn free(seed: u64, call: impl Fn(&mut Bitmap, usize, usize), model: impl Fn(&mut Vec<bool>, usize, usize)) {
    changes(seed, &[], |r, case| {
        let (i, k) = (r.index(case.length()), r.index(case.length()));
        case.run(|b| Ok(call(b, i, k)), |bits, _| Ok(model(bits, i, k)))
    });
}

// The word of bit i, if it is in use, and whether it is the last: what the three calls on one word look at.
fn on_word(bits: &mut Vec<bool>, i: usize, change: impl Fn(&mut [bool])) {
    let first = i - i % 64;
    if i < bits.len() {
        change(&mut bits[first..first + 64]);
        if first + 64 == bits.len() && !bits[first..].contains(&true) {
            trim(bits);
        }
    }
}

#[test]
fn what_nothing_refuses() {
    free(20, |b, _, _| b.trim(), |bits, _, _| trim(bits));
    free(21, |b, i, _| b.unset(i), |bits, i, _| bits.iter_mut().skip(i).take(1).for_each(|bit| *bit = false));
    free(22, |b, i, _| b.andi(i), |bits, i, _| on_word(bits, i, |word| (0..64).for_each(|j| word[j] &= j == i % 64)));
    free(23, |b, i, _| b.andnoti(i), |bits, i, _| on_word(bits, i, |word| word[i % 64] = false));
    free(
        24,
        |b, k, _| b.shift_right(k),
        |bits, k, _| {
            moved(bits, |i| i.checked_add(k));
            trim(bits);
        },
    );
    free(25, |b, k, _| b.truncate_bits(k), |bits, k, _| *bits = trimmed(&members(bits).range(..k).copied().collect()));
    free(
        26,
        |b, p, k| b.close_gap(p, k),
        |bits, p, k| {
            let kept = members(bits).into_iter().filter_map(|i| match i {
                i if i < p => Some(i),
                i => (i - p >= k).then(|| i - k),
            });
            *bits = trimmed(&kept.collect());
        },
    );
}

#[test]
fn single_bits_are_set_and_flipped() {
    changes(30, &[Error::NoSpace], |r, case| {
        let i = r.index(case.length());
        case.run(|b| b.set(i), |bits, capacity| grow(bits, i, capacity).map(|()| bits[i] = true))
    });
    changes(31, &[Error::NoSpace], |r, case| {
        let i = r.index(case.length());
        case.run(|b| b.toggle(i), |bits, capacity| grow(bits, i, capacity).map(|()| bits[i] = !bits[i]))
    });
    changes(32, &[Error::NoSpace], |r, case| {
        let i = r.index(case.length());
        let flip = |bits: &mut Vec<bool>| on_word(bits, i, |word| word[i % 64] = !word[i % 64]);
        case.run(|b| b.xori(i), |bits, capacity| grow(bits, i, capacity).map(|()| flip(bits)))
    });
    changes(33, &[Error::NoSpace], |r, case| {
        let length = r.below(4);
        let many: Vec<usize> = (0..length).map(|_| r.below(64 * case.store.len() + 10)).collect();
        let model = |bits: &mut Vec<bool>, capacity| {
            many.iter().try_for_each(|&i| grow(bits, i, capacity))?;
            many.iter().for_each(|&i| bits[i] = true);
            Ok(())
        };
        case.run(|b| b.set_many(&many), model)
    });
}

// The last index of k bits from i on.
fn last_of(i: usize, k: usize) -> Result<usize, Error> {
    i.checked_add(k - 1).ok_or(Error::IndexOver)
}

#[test]
fn regions_and_fields_are_written() {
    let (over, full) = (Error::IndexOver, Error::NoSpace);
    changes(40, &[over, full], |r, case| {
        let (i, value, k) = (r.index(case.length()), r.below(2) == 1, r.index(case.length()));
        let model = |bits: &mut Vec<bool>, capacity| {
            let last = if k == 0 { return Ok(()) } else { last_of(i, k)? };
            if value {
                grow(bits, last, capacity)?;
            }
            bits.iter_mut().skip(i).take(k).for_each(|bit| *bit = value);
            Ok(())
        };
        case.run(|b| b.set_region(i, value, k), model)
    });
    changes(41, &[over, full], |r, case| {
        let (i, k) = (r.index(case.length()), r.index(case.length()));
        let model = |bits: &mut Vec<bool>, capacity| {
            let last = if k == 0 { return Ok(()) } else { last_of(i, k)? };
            grow(bits, last, capacity)?;
            bits[i..=last].iter_mut().for_each(|bit| *bit = !*bit);
            Ok(())
        };
        case.run(|b| b.toggle_region(i, k), model)
    });
    changes(42, &[Error::WidthOver, over, full], |r, case| {
        let (i, width) = (r.index(case.length()), r.below(68));
        let value = [0, u64::MAX, r.word(), 1 << r.below(64)][r.below(4)];
        case.run(|b| b.set_field(i, value, width), |bits, capacity| put_field(bits, capacity, i, value, width))
    });
}

fn put_field(bits: &mut Vec<bool>, capacity: usize, i: usize, value: u64, width: usize) -> Made {
    if width > 64 {
        return Err(Error::WidthOver);
    }
    let last = if width == 0 { return Ok(()) } else { last_of(i, width)? };
    if (0..width).any(|j| value >> j & 1 == 1) {
        grow(bits, last, capacity)?;
    }
    (0..width).for_each(|j| bits.iter_mut().skip(i + j).take(1).for_each(|bit| *bit = value >> j & 1 == 1));
    Ok(())
}

#[test]
fn bits_move_up() {
    let (over, full) = (Error::IndexOver, Error::NoSpace);
    changes(50, &[over, full], |r, case| {
        let k = r.index(case.length());
        let model = |bits: &mut Vec<bool>, capacity| {
            let Some(&last) = members(bits).last() else { return Ok(()) };
            grow(bits, last.checked_add(k).ok_or(over)?, capacity)?;
            moved(bits, |i| i.checked_sub(k));
            Ok(())
        };
        case.run(|b| b.shift_left(k), model)
    });
    changes(52, &[over, full], |r, case| {
        let (p, k) = (r.index(case.length()), r.index(case.length()));
        let model = |bits: &mut Vec<bool>, capacity| {
            let set = members(bits);
            if let Some(last) = set.range(p..).last() {
                grow(bits, last.checked_add(k).ok_or(over)?, capacity)?;
            }
            *bits = trimmed(&set.into_iter().map(|i| if i < p { i } else { i + k }).collect());
            Ok(())
        };
        case.run(|b| b.open_gap(p, k), model)
    });
}

#[test]
fn lengths_change() {
    let full = Error::NoSpace;
    changes(51, &[full], |r, case| {
        let k = r.index(case.length());
        let model = |bits: &mut Vec<bool>, capacity| {
            let words = k.div_ceil(64);
            if words > capacity {
                return Err(full);
            }
            bits.iter_mut().skip(k).for_each(|bit| *bit = false);
            bits.resize(64 * words, false);
            Ok(())
        };
        case.run(|b| b.resize_bits(k), model)
    });
    changes(53, &[full], |r, case| {
        let n = r.below(4);
        let other = r.words(n);
        let model = |bits: &mut Vec<bool>, _| Ok(bits.extend(bits_of(&other)));
        case.run(|b| b.append(BitSlice::new(&other).unwrap()), model)
    });
}

#[test]
fn a_bitmap_is_split() {
    let mut r = Random(54);
    let mut seen = BTreeSet::new();
    for _ in 0..CASES {
        let (case, tail, at) = (r.case(), r.case(), r.below(200));
        let at = if at > 190 { usize::MAX } else { at };
        let set = members(&bits_of(&case.store[..case.count]));
        let back = trimmed(&set.range(at..).map(|i| i - at).collect());
        let fits = back.len() <= 64 * tail.store.len();
        let mut second = tail.store.clone();
        let split = |b: &mut Bitmap| {
            let made = b.split_off(at, &mut second)?;
            assert_eq!(made.words(), words_of(&back));
            Ok(())
        };
        let model = |bits: &mut Vec<bool>, _| {
            *bits = trimmed(&set.range(..at).copied().collect());
            if fits {
                Ok(())
            } else {
                Err(Error::NoSpace)
            }
        };
        seen.insert(case.run(split, model).is_ok());
        let untouched = Case { store: tail.store, count: 0 };
        assert_eq!(second, untouched.after(if fits { &back } else { &[] }));
    }
    assert_eq!(seen.len(), 2);
}

// ---- Set operations ----

type Op = fn(bool, bool) -> bool;

const OPS: [(&str, Op); 4] = [("and", |a, b| a & b), ("andnot", |a, b| a & !b), ("or", |a, b| a | b), ("xor", |a, b| a ^ b)];

// What an operation makes of two: as long as the longer for `or`, trimmed for the others.
fn combined((name, op): (&str, Op), a: &[bool], b: &[bool]) -> Vec<bool> {
    let at = |bits: &[bool], i: usize| bits.get(i).copied().unwrap_or(false);
    let mut bits: Vec<bool> = (0..a.len().max(b.len())).map(|i| op(at(a, i), at(b, i))).collect();
    if name != "or" {
        trim(&mut bits);
    }
    bits
}

fn in_place(b: &mut Bitmap, name: &str, other: &BitSlice) -> Made {
    match name {
        "and" => Ok(b.and(other)),
        "andnot" => Ok(b.andnot(other)),
        "or" => b.or(other),
        _ => b.xor(other),
    }
}

fn from(b: &mut Bitmap, name: &str, left: &BitSlice, right: &BitSlice) -> Made {
    match name {
        "and" => b.and_from(left, right),
        "andnot" => b.andnot_from(left, right),
        "or" => b.or_from(left, right),
        _ => b.xor_from(left, right),
    }
}

fn dup<'a>(store: &'a mut [u64], name: &str, left: &BitSlice, right: &BitSlice) -> Result<Bitmap<'a>, Error> {
    match name {
        "and" => Bitmap::dup_and(store, left, right),
        "andnot" => Bitmap::dup_andnot(store, left, right),
        "or" => Bitmap::dup_or(store, left, right),
        _ => Bitmap::dup_xor(store, left, right),
    }
}

#[test]
fn sets_are_combined_in_place() {
    for op in OPS {
        let errors: &[Error] = if op.0.starts_with("and") { &[] } else { &[Error::NoSpace] };
        changes(60, errors, |r, case| {
            let n = r.below(5);
            let other = r.words(n);
            let model = |bits: &mut Vec<bool>, _| Ok(*bits = combined(op, bits, &bits_of(&other)));
            case.run(|b| in_place(b, op.0, BitSlice::new(&other).unwrap()), model)
        });
    }
}

#[test]
fn sets_are_combined_into_another_store() {
    for op in OPS {
        changes(61, &[Error::NoSpace], |r, case| {
            let (n, m) = (r.below(5), r.below(5));
            let (left, right) = (r.words(n), r.words(m));
            let made = combined(op, &bits_of(&left), &bits_of(&right));
            let (left, right) = (BitSlice::new(&left).unwrap(), BitSlice::new(&right).unwrap());
            let done = case.run(|b| from(b, op.0, left, right), |bits, _| Ok(*bits = made.clone()));

            let mut store = case.store.clone();
            let words = dup(&mut store, op.0, left, right).map(|b| b.words().to_vec());
            assert_eq!(words, done.map(|()| words_of(&made)));
            let unused = Case { store: case.store.clone(), count: 0 };
            assert_eq!(store, unused.after(if done.is_ok() { &made } else { &[] }));
            done
        });
    }
}

// ---- Lists ----

const PIECES: [&[u8]; 24] = [
    b"0",
    b"1",
    b"7",
    b"63",
    b"64",
    b"100",
    b"300",
    b"007",
    b"999",
    b"1000",
    b"1064",
    b"4294967295",
    b"4294968295",
    b"4294968296",
    b"18446744073709551621",
    b"999999999999999999999999999999999999999999",
    b"-",
    b":",
    b",",
    b", ",
    b",",
    b"\t\x0b ",
    b"x",
    b"\xC2\xA0",
];

// The ranges of a list, each token by itself; the first bad one decides.
fn ranges(text: &[u8], style: Style) -> Result<Vec<(usize, usize)>, Error> {
    if !text.is_ascii() {
        return Err(Error::NotAscii);
    }
    let text = std::str::from_utf8(text).unwrap();
    let mut tokens: Vec<&str> = text.split(',').map(|token| token.trim_matches(blank)).collect();
    if tokens.len() > 1 && tokens.last() == Some(&"") {
        tokens.pop();
    }
    tokens.into_iter().map(|token| range(token, style)).collect()
}

fn blank(c: char) -> bool {
    matches!(c, '\t'..='\r' | ' ')
}

// Digits only, of any length, above the limit are a number over it; anything else that is no number is no list.
fn number(text: &str, style: Style) -> Result<usize, Error> {
    let text = text.trim_matches(blank);
    if text.is_empty() || !text.bytes().all(|byte| byte.is_ascii_digit()) {
        return Err(Error::NotList);
    }
    let value = text.bytes().fold(0u128, |value, digit| value.saturating_mul(10).saturating_add(u128::from(digit - b'0')));
    match value.checked_sub(style.first as u128) {
        None => Err(Error::NotList),
        Some(bit) if bit > 4_294_967_295 => Err(Error::NumberOver),
        Some(bit) => Ok(bit as usize),
    }
}

// The left number is looked at before the right, and both before which is larger.
fn range(token: &str, style: Style) -> Result<(usize, usize), Error> {
    let (first, last) = token.split_once(char::from(style.joiner as u8)).unwrap_or((token, token));
    let (first, last) = (number(first, style)?, number(last, style)?);
    if first > last {
        return Err(Error::NotList);
    }
    Ok((first, last))
}

#[test]
fn lists_are_read() {
    changes(70, &[Error::NoSpace, Error::NotList, Error::NumberOver, Error::NotAscii, Error::BadStyle], |r, case| {
        let (n, style) = (r.below(7), r.style());
        let mut pieces: Vec<&[u8]> = (0..n).map(|_| r.pick(&PIECES)).collect();
        let joiner = [style.joiner as u8];
        if n > 1 && r.below(2) == 0 {
            pieces[n / 2] = &joiner;
        }
        let text = pieces.concat();
        let model = |bits: &mut Vec<bool>, capacity| {
            if !allowed(style) {
                return Err(Error::BadStyle);
            }
            let ranges = ranges(&text, style)?;
            bits.clear();
            ranges.iter().try_for_each(|&(_, last)| grow(bits, last, capacity))?;
            ranges.iter().for_each(|&(first, last)| bits[first..=last].fill(true));
            Ok(())
        };
        let done = case.run(|b| b.from_list(&text, style), model);
        if allowed(style) && text.iter().all(|&byte| blank(byte.into())) {
            assert_eq!(done, Err(Error::NotList));
            case.run(|b| b.load_list(&text, style), |bits, _| Ok(bits.clear())).unwrap();
        } else {
            assert_eq!(case.run(|b| b.load_list(&text, style), model), done);
        }
        done
    });
}

#[test]
fn lists_of_the_paper() {
    let mut store = [0; 2];
    let mut b = Bitmap::empty(&mut store).unwrap();
    for text in ["", ",", "1,,", "5-3"] {
        assert_eq!(b.from_list(text, Style::PLAIN), Err(Error::NotList), "{text:?}");
    }
    assert_eq!(b.from_list("4294967296", Style::PLAIN), Err(Error::NumberOver));
    assert_eq!(b.from_list("4294967295", Style::PLAIN), Err(Error::NoSpace));
    assert_eq!(b.from_list([0x31, 0xC2, 0xA0], Style::PLAIN), Err(Error::NotAscii));
    for (text, set) in [("1,", vec![1]), (" 1 - 3 , 2", vec![1, 2, 3]), ("120-127", (120..128).collect())] {
        b.from_list(text, Style::PLAIN).unwrap();
        assert_eq!(b.iter().collect::<Vec<_>>(), set, "{text:?}");
    }
}

// A huge number is told from a slip of the finger, the first bad token decides, and its left number before its right.
#[test]
fn huge_numbers_are_told_from_slips() {
    const HUGE: [&str; 14] = [
        "4294967296",
        "4294967296 ",
        "4294967296-",
        "4294967296-x",
        "4294967296-1",
        "5-4294967296",
        "99999999999-5-6",
        "4294967297-4294967296",
        "4294967296,x",
        "4294967296,,",
        "4294967295,4294967296",
        "18446744073709551616",
        "18446744073709551621",
        "340282366920938463463374607431768211456",
    ];
    const SLIPS: [&str; 9] = [
        "4294967296x",
        "4294967296 5",
        "x-4294967296",
        "-4294967296",
        "5-99999999999-6",
        "4294967295-4294967294",
        "x,4294967296",
        "1,,4294967296",
        "5-3,4294967296",
    ];
    let mut store = [6, 7];
    let mut b = Bitmap::with_count(&mut store, 1).unwrap();
    for (texts, error) in [(&HUGE[..], Error::NumberOver), (&SLIPS, Error::NotList)] {
        for text in texts {
            assert_eq!(b.from_list(text, Style::PLAIN), Err(error), "{text:?}");
            assert_eq!(b.load_list(text, Style::PLAIN), Err(error), "{text:?}");
        }
    }
    assert_eq!(b.from_list("5-5000000000", Style { first: 10, ..Style::PLAIN }), Err(Error::NotList));
    assert_eq!(b.from_list(b"4294967296,\xFF", Style::PLAIN), Err(Error::NotAscii));
    assert_eq!((b.count(), b.store()), (1, &[6, 7][..]));
}

// ---- Styles ----

const COLON: Style = Style { first: 0, joiner: b':' as usize, blank: true, shortest: 2 };
const THOUSAND: Style = Style { first: 1000, ..Style::PLAIN };

// Reading looks at the first number and the joiner, and at nothing else.
#[test]
fn styles_are_read() {
    let read = |text: &str, style| {
        let mut store = [0; 2];
        let mut b = Bitmap::empty(&mut store).unwrap();
        b.from_list(text, style).map(|()| b.iter().collect::<Vec<_>>())
    };
    let three = Style { shortest: 3, ..Style::PLAIN };
    let close = Style { blank: false, ..Style::PLAIN };
    assert_eq!(read("4-5", three), Ok(vec![4, 5]));
    assert_eq!(read("1, 2", close), Ok(vec![1, 2]));
    assert_eq!(read("1 : 2", COLON), Ok(vec![1, 2]));
    assert_eq!(read("01000", THOUSAND), Ok(vec![0]));
    assert_eq!(read("1000-1002, 1127", THOUSAND), Ok(vec![0, 1, 2, 127]));
    assert_eq!(read("1A2", Style { joiner: 65, ..Style::PLAIN }), Ok(vec![1, 2]));
    for (text, style) in [("1-2", COLON), ("1:2:3", COLON), ("0999", THOUSAND), ("999-1001", THOUSAND), ("", THOUSAND)] {
        assert_eq!(read(text, style), Err(Error::NotList), "{text:?} {style:?}");
    }
    for (text, style) in [("4294968296", THOUSAND), ("1000-4294968296", THOUSAND), ("4294967296:x", COLON)] {
        assert_eq!(read(text, style), Err(Error::NumberOver), "{text:?} {style:?}");
    }
    for (text, style) in [("4294968295", THOUSAND), ("1128", THOUSAND), ("128", COLON)] {
        assert_eq!(read(text, style), Err(Error::NoSpace), "{text:?} {style:?}");
    }
}

// A bad style comes before everything that is wrong with the text or the buffer.
#[test]
fn styles_are_looked_at() {
    let mut store = [0b110000, 7];
    let mut b = Bitmap::with_count(&mut store, 1).unwrap();
    let plain = Style::PLAIN;
    let firsts = [1001, 1 << 32, usize::MAX].map(|first| Style { first, ..plain });
    let joiners = [0, 32, 44, 48, 57, 127, 256 + 45, usize::MAX].map(|joiner| Style { joiner, ..plain });
    let shortests = [0, 1, 10, usize::MAX].map(|shortest| Style { shortest, ..plain });
    for style in firsts.into_iter().chain(joiners).chain(shortests) {
        for text in [&b"1"[..], b"", b" ", b"x", b"\xFF", b"128", b"4294968297"] {
            assert_eq!(b.from_list(text, style), Err(Error::BadStyle), "{text:?} {style:?}");
            assert_eq!(b.load_list(text, style), Err(Error::BadStyle), "{text:?} {style:?}");
        }
        assert_eq!(b.write_list(&mut [], style), Err(Error::BadStyle), "{style:?}");
        assert_eq!(BitSlice::new(&[0]).unwrap().write_list(&mut [0; 9], style), Err(Error::BadStyle), "{style:?}");
    }
    assert_eq!((b.count(), b.store()), (1, &[0b110000, 7][..]));
    for (shortest, text) in [(2, "4-5"), (3, "4, 5"), (9, "4, 5")] {
        assert_eq!(b.write_list(&mut [0; 9], Style { shortest, ..plain }), Ok(text));
    }
    assert_eq!(Style::default(), plain);
}

// ---- Stores ----

#[test]
fn stores_are_looked_at() {
    let mut store = [3, 5, 7];
    assert_eq!(Bitmap::with_count(&mut store, 4).unwrap_err(), Error::CountOverStore);
    assert_eq!(Bitmap::with_count(&mut store, usize::MAX).unwrap_err(), Error::CountOverStore);
    let mut b = Bitmap::with_count(&mut store, 3).unwrap();
    assert_eq!((b.count(), b.capacity(), b.words()), (3, 3, &[3, 5, 7][..]));
    b.as_bits_mut().shift_right(128);
    assert_eq!((b.count(), b.store()), (3, &[7, 0, 0][..]));
    assert_eq!(b.as_bits(), BitSlice::new(&[7]).unwrap());
    assert_eq!((&b).into_iter().collect::<Vec<_>>(), [0, 1, 2]);
    assert_eq!(format!("{b:?}"), "{0, 1, 2}");
    assert_eq!(b.into_store(), [7, 0, 0]);
    assert_eq!(Bitmap::with_count(&mut store, 2).unwrap().into_words(), [7, 0]);
    assert_eq!(Bitmap::empty(&mut store).unwrap().count(), 0);
}

// What a bitmap has twice: its own grow or trim, the slice's keep the length.
#[test]
fn the_bitmap_s_own_come_first() {
    let mut store = [1 << 63, 0];
    let mut b = Bitmap::with_count(&mut store, 1).unwrap();
    assert_eq!(b.as_bits_mut().toggle(64), Err(Error::PastLength));
    b.as_bits_mut().shift_left(1);
    assert_eq!(b.words(), [0]);
    b.as_bits_mut().shift_right(1);
    assert_eq!(b.words(), [0]);
    b.toggle(64).unwrap();
    assert_eq!(b.words(), [0, 1]);
    b.shift_right(1);
    assert_eq!(b.words(), [1 << 63]);
    b.shift_left(1).unwrap();
    assert_eq!(b.words(), [0, 1]);
}

// The memory is asked for and never touched.
#[test]
fn a_store_may_be_too_long() {
    let mut long = vec![0; CAPACITY_MAX + 1];
    let small = BitSlice::new(&[1]).unwrap();
    assert_eq!(BitSlice::new(&long).unwrap_err(), Error::StoreTooLong);
    assert_eq!(BitSlice::new_mut(&mut long).unwrap_err(), Error::StoreTooLong);
    assert_eq!(Bitmap::empty(&mut long).unwrap_err(), Error::StoreTooLong);
    assert_eq!(Bitmap::with_count(&mut long, usize::MAX).unwrap_err(), Error::StoreTooLong);
    for (name, _) in OPS {
        assert_eq!(dup(&mut long, name, small, small).unwrap_err(), Error::StoreTooLong);
    }
    let mut store = [2];
    let mut b = Bitmap::with_count(&mut store, 1).unwrap();
    assert_eq!(b.split_off(0, &mut long).unwrap_err(), Error::StoreTooLong);
    assert_eq!(b.words(), [2]);
    assert!(!BitSlice::new(&long[..CAPACITY_MAX]).unwrap().get(usize::MAX));
    let mut most = Bitmap::empty(&mut long[..CAPACITY_MAX]).unwrap();
    assert_eq!(most.set(64 * CAPACITY_MAX), Err(Error::NoSpace));
    most.set(3).unwrap();
    assert_eq!(most.count(), 1);
}
