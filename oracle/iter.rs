// In place of the published iter.rs, written from its uses: `iter_ones` of slice.rs builds `Ones` by its fields, `OnesOf::fold` of algebra.rs calls
// `decode_word`.
use crate::Word;

#[derive(Clone)]
pub struct Ones<'a, W: Word> {
    pub(crate) words: &'a [W],
    pub(crate) idx: usize,
    pub(crate) cur: W,
}

impl<W: Word> Iterator for Ones<'_, W> {
    type Item = usize;

    fn next(&mut self) -> Option<usize> {
        while self.cur == W::ZERO {
            if self.idx + 1 >= self.words.len() {
                return None;
            }
            self.idx += 1;
            self.cur = self.words[self.idx];
        }
        let bit = self.cur.trailing_zeros() as usize;
        self.cur = self.cur.clear_lowest_set();
        Some(self.idx * W::BITS + bit)
    }
}

impl<W: Word> core::iter::FusedIterator for Ones<'_, W> {}

/// Folds `f` over `base + b` for each set bit b of `w`, upward.
#[inline(always)]
pub(crate) fn decode_word<W: Word, B>(
    init: B,
    f: &mut impl FnMut(B, usize) -> B,
    w: W,
    base: usize,
) -> B {
    let mut acc = init;
    let mut left = w;
    while left != W::ZERO {
        acc = f(acc, base + left.trailing_zeros() as usize);
        left = left.clear_lowest_set();
    }
    acc
}
