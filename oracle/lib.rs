//! Crate root for the published files of vbitmap, which `build.sh` puts beside it unchanged. Only `iter` and `kernels` are ours.
#![allow(dead_code, unused_imports, unused_macros)]

extern crate alloc;

mod algebra;
mod arch;
mod bitmap;
mod bits;
mod iter;
mod shape;
mod shift;
mod slice;
mod storage;
mod text;
mod word;

pub use bitmap::Bitmap;
pub use iter::Ones;
pub use slice::BitSlice;
pub use text::ParseError;
pub use word::Word;

pub type Bitmap64 = Bitmap<u64>;

/// What the published files keep to themselves, on 64-bit words.
pub mod kernels {
    use crate::storage::AlignedWords;

    pub fn first_nonzero(words: &[u64]) -> Option<(usize, u64)> {
        crate::arch::first_nonzero(words)
    }

    pub fn first_not_ones(words: &[u64]) -> Option<(usize, u64)> {
        crate::arch::first_not_ones(words)
    }

    pub fn nonzero_len(words: &[u64]) -> usize {
        crate::arch::nonzero_len(words)
    }

    pub fn is_zero(words: &[u64]) -> bool {
        crate::arch::is_zero(words)
    }

    pub fn count_set_bits(words: &[u64]) -> usize {
        crate::arch::count_set_bits(words)
    }

    /// The edge words are two different ones.
    pub fn fill_region(words: &mut [u64], first: usize, first_offset: usize, last: usize, last_offset: usize, value: bool) {
        crate::arch::fill_region(words, first, first_offset, last, last_offset, value)
    }

    pub fn fill_words(words: &mut [u64], byte: u8) {
        // SAFETY: the words are lent for writing.
        unsafe { crate::arch::fill_words(words.as_mut_ptr(), byte, words.len()) }
    }

    /// `x` has more than `n` set bits.
    pub fn select_u64(x: u64, n: usize) -> usize {
        crate::arch::select_u64(x, n)
    }

    /// The words of a store of which `old` are in use and then `new`, at least as many.
    pub fn resize_zeroed(words: &[u64], old: usize, new: usize) -> Vec<u64> {
        let mut store = AlignedWords::from_slice(words);
        store.truncate(old);
        store.resize_zeroed(new);
        store.overwrite(words.len(), |_| {});
        store.to_vec()
    }
}
