// Stores at the limit and over it: 67,108,865 words are refused with 1 wherever a call takes a store, and 67,108,864 are not. And a bitmap that is read
// beside itself.
use crate::archive::{Call, CALLS};
use crate::model::LIMIT;

// Every call that takes a store is given one over the limit, with counts and numbers that would be refused by other numbers. How many calls that is.
pub fn huge() -> usize {
    let mut words = vec![0u64; LIMIT + 1];
    let (big, w) = (LIMIT + 1, words.as_mut_ptr());
    let mut few = [0u64; 2];
    let s = few.as_mut_ptr();
    let (mut text, bits) = ([b'x'; 8], [0usize; 1]);
    let t = text.as_mut_ptr();
    let mut calls = 0;
    for (name, call) in CALLS {
        let (mut n, mut v, mut u, mut x) = (usize::MAX, 7, 7, 7);
        let first = unsafe {
            match *call {
                Call::Value(f) => f(w, big, n, &mut v),
                Call::ValueAt(f) => f(w, big, n, n, &mut v),
                Call::ValueOf(f) => f(w, big, n, n, n, &mut v),
                Call::Field(f) => f(w, big, n, n, n, &mut x),
                Call::Found(f) => f(w, big, n, &mut v, &mut u),
                Call::FoundAt(f) => f(w, big, n, n, &mut v, &mut u),
                Call::Pair(f) => f(w, big, n, s, 2, 9, &mut v),
                Call::PairAt(f) => f(w, big, n, s, 2, 9, n, &mut v, &mut u),
                Call::Trim(f) => f(w, big, &mut n),
                Call::Change(f) => f(w, big, &mut n),
                Call::ChangeAt(f) => f(w, big, &mut n, usize::MAX),
                Call::ChangeOf(f) => f(w, big, &mut n, usize::MAX, usize::MAX),
                Call::SetField(f) => f(w, big, &mut n, usize::MAX, 1, 65),
                Call::SetRegion(f) => f(w, big, &mut n, usize::MAX, 1, usize::MAX),
                Call::SetMany(f) => f(w, big, &mut n, bits.as_ptr(), 1),
                Call::Other(f) => f(w, big, &mut n, s, 2, 9),
                Call::Both(f) => f(w, big, &mut n, s, 2, 9, s, 2, 9),
                Call::Split(f) => f(w, big, &mut n, 0, s, 2, &mut v),
                Call::FromList(f) => f(w, big, &mut n, t, 8, usize::MAX, 0, 1, 0),
                Call::WriteList(f) => f(w, big, n, t, 8, &mut v, usize::MAX, 0, 1, 0),
                Call::WriteRegister(f) => f(w, big, n, t, 8, &mut v),
                Call::Read(f) => f(1, t, 8, w, big, n, s, 2, &mut v, &mut u),
                Call::Start(_) | Call::Add(_) => continue,
            }
        };
        let kept = if name.contains("dup_") { n == 0 } else { n == usize::MAX };
        assert_at(name, first == 1 && kept);
        calls += 1;
        // behind a first store that is good
        let (mut n, mut v, mut u) = (1, 7, 7);
        let second = unsafe {
            match *call {
                Call::Pair(f) => f(s, 2, n, w, big, 0, &mut v),
                Call::PairAt(f) => f(s, 2, n, w, big, 0, 0, &mut v, &mut u),
                Call::Other(f) => f(s, 2, &mut n, w, big, 0),
                Call::Both(f) => f(s, 2, &mut n, s.add(1), 1, 0, w, big, 0),
                Call::Split(f) => f(s, 2, &mut n, 0, w, big, &mut v),
                Call::Read(f) => f(1, t, 8, s, 2, n, w, big, &mut v, &mut u),
                _ => continue,
            }
        };
        assert_at(name, second == 1);
    }
    assert_at("a refused call", few == [0; 2] && text == *b"xxxxxxxx" && words.iter().all(|&x| x == 0));
    at_limit(&mut words);
    calls
}

// Just the limit: the last bit is set and found, and the one behind it has no space.
fn at_limit(words: &mut [u64]) {
    let (w, last) = (words.as_mut_ptr(), 64 * LIMIT - 1);
    let find = |name: &str| &CALLS.iter().find(|c| c.0 == name).expect("a call").1;
    let (Call::ChangeAt(set), Call::Found(last_set)) = (find("taxolbin_set"), find("taxolbin_last_set")) else { panic!("another form") };
    let (mut n, mut found, mut place) = (0, 7, 7);
    let good = unsafe { set(w, LIMIT, &mut n, last) == 0 && n == LIMIT && set(w, LIMIT, &mut n, last + 1) == 6 && n == LIMIT };
    assert_at("taxolbin_set", good && words[LIMIT] == 0);
    let good = unsafe { last_set(w, LIMIT, n, &mut found, &mut place) == 0 && (found, place) == (1, last) };
    assert_at("taxolbin_last_set", good);
    last_number(words);
    last_page(words);
}

// The greatest number of list text, which has 33 bits: printed, read back, and one more, which is above the limit. The last bit alone is set before
// and after.
fn last_number(words: &mut [u64]) {
    let w = words.as_mut_ptr();
    let find = |name: &str| &CALLS.iter().find(|c| c.0 == name).expect("a call").1;
    let (Call::FromList(read), Call::WriteList(write)) = (find("taxolbin_from_list"), find("taxolbin_write_list")) else { panic!("another form") };
    let (mut text, mut length, mut n) = (*b"xxxxxxxxxxxx", 7, LIMIT);
    let t = text.as_mut_ptr();
    let good = unsafe { write(w, LIMIT, n, t, 12, &mut length, 1000, 45, 1, 2) == 0 };
    assert_at("taxolbin_write_list", good && length == 10 && text == *b"4294968295xx");
    let good = unsafe { read(w, LIMIT, &mut n, text.as_ptr(), 10, 1000, 45, 1, 2) == 0 && n == LIMIT };
    assert_at("taxolbin_from_list", good && words[LIMIT - 1] == 1 << 63 && words[..LIMIT - 1].iter().all(|&x| x == 0));
    text[9] = b'6';
    let good = unsafe { read(w, LIMIT, &mut n, text.as_ptr(), 10, 1000, 45, 1, 2) == 16 && n == LIMIT };
    assert_at("taxolbin_from_list", good && words[LIMIT - 1] == 1 << 63 && words[LIMIT] == 0);
}

// The register of the last bit alone, and then of every bit, whose size has 33 bits: one run on one page.
fn last_page(words: &mut [u64]) {
    let Some((_, Call::WriteRegister(write))) = CALLS.iter().find(|c| c.0 == "taxolbin_write_register") else { panic!("another form") };
    for (fill, run) in [(0, "  4294967295  4294967295           1"), (!0, "           0  4294967295  4294967296")] {
        words[..LIMIT - 1].fill(fill);
        words[LIMIT - 1] |= fill;
        let (mut text, mut length) = ([b'x'; 3651], 7);
        let good = unsafe { write(words.as_ptr(), LIMIT, LIMIT, text.as_mut_ptr(), 3651, &mut length) == 0 && length == 3650 };
        let foot = format!("           1           1{}", &run[24..]);
        let page = format!("{run:72}\n{}{foot:72}\nx", format!("{:72}\n", "").repeat(48));
        assert_at("taxolbin_write_register", good && text == *page.as_bytes());
    }
}

// What is only read may overlap: a bitmap beside itself.
pub fn beside_itself() {
    let words = [0x8000_0000_0000_0001u64, 6];
    let (w, n) = (words.as_ptr(), 2);
    let want = |name: &str| match name {
        "taxolbin_eq" | "taxolbin_is_subset" => 1,
        "taxolbin_and_count" | "taxolbin_or_count" => 4,
        _ => 0,
    };
    for (name, call) in CALLS {
        let (mut v, mut u) = (7, 7);
        let good = unsafe {
            match *call {
                Call::Pair(f) => f(w, n, n, w, n, n, &mut v) == 0 && v == want(name),
                Call::PairAt(f) => {
                    f(w, n, n, w, n, n, 1, &mut v, &mut u) == 0
                        && (v, u) == if name.ends_with("xor") || name.ends_with("not") { (0, 0) } else { (1, 63) }
                }
                _ => continue,
            }
        };
        assert_at(name, good);
    }
}

fn assert_at(name: &str, good: bool) {
    if !good {
        println!("MISMATCH in {name}: a store at the limit or over it, or a bitmap beside itself");
        std::process::exit(1);
    }
}
