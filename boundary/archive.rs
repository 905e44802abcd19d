// The archive's calls, each by its own name, and one way to make them all: on copies of what is lent, with guards before and behind each.
use crate::case::{Case, Out, Style};
use crate::ffi;

type W = *const u64;
type M = *mut u64;
type O = *mut usize;
type B = *const u8;
type T = *mut u8;
type N = usize;

macro_rules! calls {
    ($($kind:ident $sig:tt: $($name:ident)*;)*) => {
        // A call by the form of its parameters.
        pub enum Call {
            $($kind(unsafe extern "C" fn $sig -> u32),)*
        }

        pub const CALLS: &[(&str, Call)] = &[$($((stringify!($name), Call::$kind(ffi::$name)),)*)*];
    };
}

calls! {
    Value(w: W, c: N, n: N, v: O): taxolbin_first_clear taxolbin_count_set_bits taxolbin_count_clear_bits;
    ValueAt(w: W, c: N, n: N, x: N, v: O): taxolbin_get taxolbin_next_clear taxolbin_rank;
    ValueOf(w: W, c: N, n: N, x: N, y: N, v: O): taxolbin_count_region;
    Field(w: W, c: N, n: N, x: N, y: N, v: M): taxolbin_get_field;
    Found(w: W, c: N, n: N, f: O, p: O): taxolbin_first_set taxolbin_last_set;
    FoundAt(w: W, c: N, n: N, x: N, f: O, p: O): taxolbin_next_set taxolbin_select;
    Pair(w: W, c: N, n: N, o: W, oc: N, on: N, v: O): taxolbin_eq taxolbin_is_subset taxolbin_is_disjoint taxolbin_and_count taxolbin_or_count
        taxolbin_xor_count taxolbin_andnot_count;
    PairAt(w: W, c: N, n: N, o: W, oc: N, on: N, x: N, f: O, p: O): taxolbin_iter_and taxolbin_iter_or taxolbin_iter_xor taxolbin_iter_andnot;
    Trim(w: W, c: N, n: O): taxolbin_trim;
    Change(w: M, c: N, n: O): taxolbin_invert taxolbin_reverse;
    ChangeAt(w: M, c: N, n: O, x: N): taxolbin_set taxolbin_unset taxolbin_slice_toggle taxolbin_toggle taxolbin_andi taxolbin_andnoti taxolbin_xori
        taxolbin_slice_shift_left taxolbin_slice_shift_right taxolbin_rotate_left taxolbin_rotate_right taxolbin_shift_left taxolbin_shift_right
        taxolbin_truncate_bits taxolbin_resize_bits;
    ChangeOf(w: M, c: N, n: O, x: N, y: N): taxolbin_toggle_region taxolbin_open_gap taxolbin_close_gap;
    SetField(w: M, c: N, n: O, x: N, z: u64, y: N): taxolbin_set_field taxolbin_set_field_strict;
    SetRegion(w: M, c: N, n: O, x: N, z: u32, y: N): taxolbin_set_region;
    SetMany(w: M, c: N, n: O, l: *const usize, k: N): taxolbin_set_many;
    Other(w: M, c: N, n: O, o: W, oc: N, on: N): taxolbin_and taxolbin_andnot taxolbin_or taxolbin_xor taxolbin_append;
    Both(w: M, c: N, n: O, l: W, lc: N, ln: N, r: W, rc: N, rn: N): taxolbin_and_from taxolbin_andnot_from taxolbin_or_from taxolbin_xor_from
        taxolbin_dup_and taxolbin_dup_andnot taxolbin_dup_or taxolbin_dup_xor;
    Split(w: M, c: N, n: O, x: N, t: M, tc: N, tn: O): taxolbin_split_off;
    FromList(w: M, c: N, n: O, t: B, k: N, first: N, joiner: N, blank: u32, shortest: N): taxolbin_from_list;
    WriteList(w: W, c: N, n: N, t: T, k: N, v: O, first: N, joiner: N, blank: u32, shortest: N): taxolbin_write_list;
    WriteRegister(w: W, c: N, n: N, t: T, k: N, v: O): taxolbin_write_register;
    Read(x: N, s: B, k: N, w: W, c: N, n: N, r: M, rc: N, at: O, rn: O): taxolbin_read;
    Start(b: T, c: N, n: O): taxolbin_start;
    Add(b: T, c: N, n: O, duty: u32, kind: N, p: u32, k: u32, flag: u32, width: N, value: u64, bits: N, l: B, ln: N): taxolbin_add;
}

const GUARD: usize = 3;

// A copy of what is lent, between guards.
struct Lent<T> {
    held: Vec<T>,
    guard: T,
    len: usize,
}

impl<T: Copy + PartialEq> Lent<T> {
    fn new(from: &[T], guard: T) -> Lent<T> {
        let mut held = vec![guard; from.len() + 2 * GUARD];
        held[GUARD..GUARD + from.len()].copy_from_slice(from);
        Lent { held, guard, len: from.len() }
    }

    fn ptr(&self) -> *const T {
        self.held[GUARD..].as_ptr()
    }

    fn ptr_mut(&mut self) -> *mut T {
        self.held[GUARD..].as_mut_ptr()
    }

    // What it is after the call; nothing where a guard was touched.
    fn after(self) -> Option<Vec<T>> {
        let end = GUARD + self.len;
        let kept = self.held[..GUARD].iter().chain(&self.held[end..]).all(|x| *x == self.guard);
        kept.then(|| self.held[GUARD..end].to_vec())
    }
}

// What the call answers and leaves; nothing where it wrote outside what it was lent.
pub fn run(call: &Call, c: &Case) -> Option<Out> {
    let (mut a, mut b, d) = (Lent::new(&c.a, 0xa5a5), Lent::new(&c.b, 0x5a5a), Lent::new(&c.d, 0x1234));
    let (mut bytes, list, payload) = (Lent::new(&c.bytes, 0xee), Lent::new(&c.list, 0x77), Lent::new(&c.payload, 0xdd));
    let (cap, bcap, dcap, size) = (c.a.len(), c.b.len(), c.d.len(), c.bytes.len());
    let (x, y) = (c.x as usize, c.y as usize);
    let Style { first, joiner, blank, shortest } = c.style;
    // a count goes in and out; the others have any value before the call
    let (mut n, mut v, mut u, mut w) = (c.n, 91, 92, 93u64);
    let mut outs = vec![];
    let number = unsafe {
        match *call {
            Call::Value(f) => f(a.ptr(), cap, n, &mut v),
            Call::ValueAt(f) => f(a.ptr(), cap, n, x, &mut v),
            Call::ValueOf(f) => f(a.ptr(), cap, n, x, y, &mut v),
            Call::Field(f) => f(a.ptr(), cap, n, x, y, &mut w),
            Call::Found(f) => f(a.ptr(), cap, n, &mut v, &mut u),
            Call::FoundAt(f) => f(a.ptr(), cap, n, x, &mut v, &mut u),
            Call::Pair(f) => f(a.ptr(), cap, n, b.ptr(), bcap, c.m, &mut v),
            Call::PairAt(f) => f(a.ptr(), cap, n, b.ptr(), bcap, c.m, x, &mut v, &mut u),
            Call::Trim(f) => f(a.ptr(), cap, &mut n),
            Call::Change(f) => f(a.ptr_mut(), cap, &mut n),
            Call::ChangeAt(f) => f(a.ptr_mut(), cap, &mut n, x),
            Call::ChangeOf(f) => f(a.ptr_mut(), cap, &mut n, x, y),
            Call::SetField(f) => f(a.ptr_mut(), cap, &mut n, x, c.z, y),
            Call::SetRegion(f) => f(a.ptr_mut(), cap, &mut n, x, c.z as u32, y),
            Call::SetMany(f) => f(a.ptr_mut(), cap, &mut n, list.ptr(), c.list.len()),
            Call::Other(f) => f(a.ptr_mut(), cap, &mut n, b.ptr(), bcap, c.m),
            Call::Both(f) => f(a.ptr_mut(), cap, &mut n, b.ptr(), bcap, c.m, d.ptr(), dcap, c.l),
            Call::Split(f) => f(a.ptr_mut(), cap, &mut n, x, b.ptr_mut(), bcap, &mut v),
            Call::FromList(f) => f(a.ptr_mut(), cap, &mut n, bytes.ptr(), size, first, joiner, blank, shortest),
            Call::WriteList(f) => f(a.ptr(), cap, n, bytes.ptr_mut(), size, &mut v, first, joiner, blank, shortest),
            Call::WriteRegister(f) => f(a.ptr(), cap, n, bytes.ptr_mut(), size, &mut v),
            Call::Read(f) => f(x, bytes.ptr(), size, a.ptr(), cap, n, b.ptr_mut(), bcap, &mut v, &mut u),
            Call::Start(f) => f(bytes.ptr_mut(), size, &mut n),
            Call::Add(f) => {
                let [duty, p, k, flag] = c.f;
                f(bytes.ptr_mut(), size, &mut n, duty, x, p, k, flag, y, c.z, c.l, payload.ptr(), c.payload.len())
            }
        }
    };
    match *call {
        Call::Field(_) => outs.push(w),
        Call::Value(_) | Call::ValueAt(_) | Call::ValueOf(_) | Call::Pair(_) => outs.push(v as u64),
        Call::WriteList(_) | Call::WriteRegister(_) => outs.push(v as u64),
        Call::Found(_) | Call::FoundAt(_) | Call::PairAt(_) | Call::Read(_) => outs.extend([v as u64, u as u64]),
        Call::Split(_) => outs.extend([n as u64, v as u64]),
        _ => outs.push(n as u64),
    }
    let kept = list.after()? == c.list && payload.after()? == c.payload;
    let out = Out { number, outs, a: a.after()?, b: b.after()?, d: d.after()?, bytes: bytes.after()? };
    kept.then_some(out)
}
