//! The calls of the archive that are timed, all words of a slice in use; a refusal is a mistake of the benchmark.

use crate::raw;

/// `name(words)` and further numbers, which answers a value.
macro_rules! value {
    ($($name:ident $raw:ident ($($arg:ident),*);)*) => {$(
        pub fn $name(w: &[u64] $(, $arg: usize)*) -> usize {
            let mut v = 0;
            assert_eq!(unsafe { raw::$raw(w.as_ptr(), w.len(), w.len() $(, $arg)*, &mut v) }, 0);
            v
        }
    )*};
}

/// `name(words)` and further numbers, which answers a place or nothing.
macro_rules! search {
    ($($name:ident $raw:ident ($($arg:ident),*);)*) => {$(
        pub fn $name(w: &[u64] $(, $arg: usize)*) -> Option<usize> {
            let (mut found, mut place) = (0, 0);
            assert_eq!(unsafe { raw::$raw(w.as_ptr(), w.len(), w.len() $(, $arg)*, &mut found, &mut place) }, 0);
            (found != 0).then_some(place)
        }
    )*};
}

/// A value of two bitmaps.
macro_rules! pair {
    ($($name:ident $raw:ident;)*) => {$(
        pub fn $name(a: &[u64], b: &[u64]) -> usize {
            let mut v = 0;
            assert_eq!(unsafe { raw::$raw(a.as_ptr(), a.len(), a.len(), b.as_ptr(), b.len(), b.len(), &mut v) }, 0);
            v
        }
    )*};
}

/// The least member from i on of two combined bitmaps.
macro_rules! walk {
    ($($name:ident $raw:ident;)*) => {$(
        pub fn $name(a: &[u64], b: &[u64], i: usize) -> Option<usize> {
            let (mut found, mut place) = (0, 0);
            let number = unsafe { raw::$raw(a.as_ptr(), a.len(), a.len(), b.as_ptr(), b.len(), b.len(), i, &mut found, &mut place) };
            assert_eq!(number, 0);
            (found != 0).then_some(place)
        }
    )*};
}

/// A change by numbers.
macro_rules! change {
    ($($name:ident $raw:ident ($($arg:ident),*);)*) => {$(
        pub fn $name(w: &mut [u64], count: &mut usize $(, $arg: usize)*) {
            assert_eq!(unsafe { raw::$raw(w.as_mut_ptr(), w.len(), count $(, $arg)*) }, 0);
        }
    )*};
}

/// A change by another bitmap.
macro_rules! with {
    ($($name:ident $raw:ident;)*) => {$(
        pub fn $name(w: &mut [u64], count: &mut usize, o: &[u64]) {
            assert_eq!(unsafe { raw::$raw(w.as_mut_ptr(), w.len(), count, o.as_ptr(), o.len(), o.len()) }, 0);
        }
    )*};
}

/// A set operation of two bitmaps into another store.
macro_rules! from {
    ($($name:ident $raw:ident;)*) => {$(
        pub fn $name(w: &mut [u64], count: &mut usize, l: &[u64], r: &[u64]) {
            let number = unsafe {
                raw::$raw(w.as_mut_ptr(), w.len(), count, l.as_ptr(), l.len(), l.len(), r.as_ptr(), r.len(), r.len())
            };
            assert_eq!(number, 0);
        }
    )*};
}

value! {
    first_clear taxolbin_first_clear ();
    next_clear taxolbin_next_clear (i);
    count_set_bits taxolbin_count_set_bits ();
    count_clear_bits taxolbin_count_clear_bits ();
    count_region taxolbin_count_region (i, k);
    rank taxolbin_rank (i);
}

search! {
    first_set taxolbin_first_set ();
    last_set taxolbin_last_set ();
    next_set taxolbin_next_set (i);
    select taxolbin_select (r);
}

pair! {
    eq taxolbin_eq;
    is_subset taxolbin_is_subset;
    is_disjoint taxolbin_is_disjoint;
    and_count taxolbin_and_count;
    or_count taxolbin_or_count;
    xor_count taxolbin_xor_count;
    andnot_count taxolbin_andnot_count;
}

walk! {
    iter_and taxolbin_iter_and;
    iter_or taxolbin_iter_or;
}

change! {
    shift_left taxolbin_shift_left (k);
    shift_right taxolbin_shift_right (k);
    slice_shift_left taxolbin_slice_shift_left (k);
    slice_shift_right taxolbin_slice_shift_right (k);
    rotate_left taxolbin_rotate_left (k);
    rotate_right taxolbin_rotate_right (k);
    reverse taxolbin_reverse ();
    invert taxolbin_invert ();
    toggle_region taxolbin_toggle_region (i, k);
    open_gap taxolbin_open_gap (p, k);
    close_gap taxolbin_close_gap (p, k);
}

with! {
    and taxolbin_and;
    andnot taxolbin_andnot;
    or taxolbin_or;
    xor taxolbin_xor;
    append taxolbin_append;
}

from! {
    and_from taxolbin_and_from;
    andnot_from taxolbin_andnot_from;
    or_from taxolbin_or_from;
    xor_from taxolbin_xor_from;
    dup_and taxolbin_dup_and;
    dup_andnot taxolbin_dup_andnot;
    dup_or taxolbin_dup_or;
    dup_xor taxolbin_dup_xor;
}

pub fn set_region(w: &mut [u64], count: &mut usize, i: usize, value: bool, k: usize) {
    assert_eq!(unsafe { raw::taxolbin_set_region(w.as_mut_ptr(), w.len(), count, i, value as u32, k) }, 0);
}

/// List text in the plain style, which is the Rust's: 0, hyphen, blank, 2.
pub fn write_list(w: &[u64], out: &mut [u8]) -> usize {
    let mut length = 0;
    let number = unsafe { raw::taxolbin_write_list(w.as_ptr(), w.len(), w.len(), out.as_mut_ptr(), out.len(), &mut length, 0, 45, 1, 2) };
    assert_eq!(number, 0);
    length
}

pub fn write_register(w: &[u64], out: &mut [u8]) -> usize {
    let mut length = 0;
    assert_eq!(unsafe { raw::taxolbin_write_register(w.as_ptr(), w.len(), w.len(), out.as_mut_ptr(), out.len(), &mut length) }, 0);
    length
}

pub fn from_list(w: &mut [u64], count: &mut usize, text: &[u8]) {
    assert_eq!(unsafe { raw::taxolbin_from_list(w.as_mut_ptr(), w.len(), count, text.as_ptr(), text.len(), 0, 45, 1, 2) }, 0);
}
