// A store and a count of the words in use: changes that may grow or trim.
use core::fmt;
use core::ops::{Deref, DerefMut};

use crate::bits::{check_capacity, BitSlice, Members};
use crate::error::{done, proved};
use crate::{ffi, Error, Style};

/// A bitmap in a store of words that the caller lends: the words up to the count are in use, and no call touches more words than the store has.
///
/// It derefs to the [`BitSlice`] of its words in use, so that everything read, and every change within the length, is called on it directly. Three
/// names are there twice, and on a `Bitmap` mean its own, which grow or trim: [`toggle`](Bitmap::toggle), [`shift_left`](Bitmap::shift_left) and
/// [`shift_right`](Bitmap::shift_right). The other ones are reached through [`as_bits_mut`](Bitmap::as_bits_mut).
///
/// A word that comes into use is zeroed first, and a word that falls out of use becomes zero.
///
/// ```
/// use taxolbin::Bitmap;
///
/// let mut store = [0u64; 4];
/// let mut notes = Bitmap::empty(&mut store)?;
/// notes.set(70)?;
/// notes.set(3)?;
/// assert_eq!(notes.count(), 2);
/// assert_eq!(notes.iter().collect::<Vec<_>>(), [3, 70]);
/// # Ok::<(), taxolbin::Error>(())
/// ```
///
/// What a call writes is lent to it alone, so that a store that overlaps another is found by the compiler:
///
/// ```compile_fail,E0502
/// # let mut store = [1u64; 4];
/// # let mut notes = taxolbin::Bitmap::with_count(&mut store, 1)?;
/// notes.append(&notes)?;
/// # Ok::<(), taxolbin::Error>(())
/// ```
#[must_use = "a bitmap that is dropped loses its count"]
pub struct Bitmap<'a> {
    // At most CAPACITY_MAX words, and the count is not above their number.
    words: &'a mut [u64],
    count: usize,
}

// The number of a call that changes a bitmap, with the other bitmaps after semicolons and the other arguments after commas. All are names, so that
// nothing else is evaluated in the unsafe block.
macro_rules! change {
    ($call:ident, $map:ident $(; $other:ident)* $(, $i:ident)*) => {{
        $(let $other = $other.words();)*
        let capacity = $map.words.len();
        // SAFETY: each slice's pointer goes with its length, the count is not above the store, and what is written is lent to this call alone.
        unsafe {
            ffi::$call($map.words.as_mut_ptr(), capacity, &mut $map.count, $($other.as_ptr(), $other.len(), $other.len(),)* $($i,)*)
        }
    }};
}

/// Making, measuring, and the two views.
impl<'a> Bitmap<'a> {
    /// The empty bitmap in this store, whatever its words are. `StoreTooLong` where it has more than [`CAPACITY_MAX`](crate::CAPACITY_MAX) words.
    ///
    /// ```
    /// let mut store = [7u64; 2];
    /// let notes = taxolbin::Bitmap::empty(&mut store)?;
    /// assert!(notes.is_zero());
    /// assert_eq!(notes.count(), 0);
    /// # Ok::<(), taxolbin::Error>(())
    /// ```
    pub fn empty(store: &'a mut [u64]) -> Result<Bitmap<'a>, Error> {
        Bitmap::with_count(store, 0)
    }

    /// The bitmap of the first `count` words of this store, as they are. `StoreTooLong` where the store has more than
    /// [`CAPACITY_MAX`](crate::CAPACITY_MAX) words, `CountOverStore` where the count is above its words.
    ///
    /// ```
    /// use taxolbin::{Bitmap, Error};
    ///
    /// let mut store = [0b11, 0b1, 7];
    /// assert_eq!(Bitmap::with_count(&mut store, 4).unwrap_err(), Error::CountOverStore);
    /// let notes = Bitmap::with_count(&mut store, 2)?;
    /// assert_eq!(notes.iter().collect::<Vec<_>>(), [0, 1, 64]);
    /// # Ok::<(), taxolbin::Error>(())
    /// ```
    pub fn with_count(store: &'a mut [u64], count: usize) -> Result<Bitmap<'a>, Error> {
        check_capacity(store.len())?;
        if count > store.len() {
            return Err(Error::CountOverStore);
        }
        Ok(Bitmap { words: store, count })
    }

    // Of a store and the count that a call has handed out for it, or 0 before the call.
    pub(crate) fn of(words: &'a mut [u64], count: usize) -> Bitmap<'a> {
        Bitmap { words, count }
    }

    /// How many words are in use.
    ///
    /// ```
    /// let mut store = [0u64; 4];
    /// let mut notes = taxolbin::Bitmap::empty(&mut store)?;
    /// notes.set(64)?;
    /// assert_eq!(notes.count(), 2);
    /// # Ok::<(), taxolbin::Error>(())
    /// ```
    #[inline]
    pub fn count(&self) -> usize {
        self.count
    }

    /// How many words the store has.
    ///
    /// ```
    /// let mut store = [0u64; 4];
    /// assert_eq!(taxolbin::Bitmap::empty(&mut store)?.capacity(), 4);
    /// # Ok::<(), taxolbin::Error>(())
    /// ```
    #[inline]
    pub fn capacity(&self) -> usize {
        self.words.len()
    }

    /// The whole store, with the words that are not in use.
    ///
    /// ```
    /// let mut store = [5, 6, 7];
    /// let notes = taxolbin::Bitmap::with_count(&mut store, 1)?;
    /// assert_eq!(notes.store(), [5, 6, 7]);
    /// assert_eq!(notes.words(), [5]);
    /// # Ok::<(), taxolbin::Error>(())
    /// ```
    #[inline]
    pub fn store(&self) -> &[u64] {
        self.words
    }

    /// Gives back the words in use, without the rest of the store.
    ///
    /// ```
    /// let mut store = [5, 6, 7];
    /// assert_eq!(taxolbin::Bitmap::with_count(&mut store, 2)?.into_words(), [5, 6]);
    /// # Ok::<(), taxolbin::Error>(())
    /// ```
    pub fn into_words(self) -> &'a mut [u64] {
        &mut self.words[..self.count]
    }

    /// Gives back the whole store, also the words that are not in use; how many are is then the caller's to know.
    ///
    /// ```
    /// use taxolbin::{Bitmap, Error};
    ///
    /// fn first_note(store: &mut [u64]) -> Result<&mut [u64], Error> {
    ///     let mut notes = Bitmap::empty(store)?;
    ///     notes.set(0)?;
    ///     Ok(notes.into_store())
    /// }
    /// assert_eq!(first_note(&mut [0, 9])?, [1, 9]);
    /// # Ok::<(), taxolbin::Error>(())
    /// ```
    pub fn into_store(self) -> &'a mut [u64] {
        self.words
    }

    /// The words in use as a [`BitSlice`].
    ///
    /// ```
    /// let mut store = [1, 0];
    /// let notes = taxolbin::Bitmap::with_count(&mut store, 1)?;
    /// assert_eq!(notes.as_bits().len_bits(), 64);
    /// # Ok::<(), taxolbin::Error>(())
    /// ```
    #[inline]
    pub fn as_bits(&self) -> &BitSlice {
        BitSlice::wrap(&self.words[..self.count])
    }

    /// The words in use as a [`BitSlice`], to be changed within the length.
    ///
    /// ```
    /// use taxolbin::{Bitmap, Error};
    ///
    /// let mut store = [1, 0];
    /// let mut notes = Bitmap::with_count(&mut store, 1)?;
    /// assert_eq!(notes.as_bits_mut().toggle(64), Err(Error::PastLength));
    /// notes.toggle(64)?; // the bitmap's own grows
    /// assert_eq!(notes.count(), 2);
    /// # Ok::<(), taxolbin::Error>(())
    /// ```
    #[inline]
    pub fn as_bits_mut(&mut self) -> &mut BitSlice {
        BitSlice::wrap_mut(&mut self.words[..self.count])
    }
}

/// Changes that grow as needed or trim.
impl Bitmap<'_> {
    /// Drops trailing zero words.
    ///
    /// ```
    /// let mut store = [1, 0, 0];
    /// let mut notes = taxolbin::Bitmap::with_count(&mut store, 3)?;
    /// notes.trim();
    /// assert_eq!(notes.count(), 1);
    /// # Ok::<(), taxolbin::Error>(())
    /// ```
    pub fn trim(&mut self) {
        proved(change!(taxolbin_trim, self));
    }

    /// Sets bit `i`. `NoSpace` where the store has no word for it.
    ///
    /// ```
    /// use taxolbin::{Bitmap, Error};
    ///
    /// let mut store = [0; 2];
    /// let mut notes = Bitmap::empty(&mut store)?;
    /// notes.set(100)?;
    /// assert_eq!(notes.set(128), Err(Error::NoSpace));
    /// assert_eq!(notes.iter().collect::<Vec<_>>(), [100]);
    /// # Ok::<(), taxolbin::Error>(())
    /// ```
    pub fn set(&mut self, i: usize) -> Result<(), Error> {
        done(change!(taxolbin_set, self, i))
    }

    /// Clears bit `i`. It never grows or trims.
    ///
    /// ```
    /// let mut store = [0b11, 1];
    /// let mut notes = taxolbin::Bitmap::with_count(&mut store, 2)?;
    /// notes.unset(64);
    /// notes.unset(1000);
    /// assert_eq!(notes.words(), [0b11, 0]);
    /// # Ok::<(), taxolbin::Error>(())
    /// ```
    pub fn unset(&mut self, i: usize) {
        proved(change!(taxolbin_unset, self, i));
    }

    /// Sets every listed bit. `NoSpace` where one has no word, and then none is set.
    ///
    /// ```
    /// use taxolbin::{Bitmap, Error};
    ///
    /// let mut store = [0; 2];
    /// let mut notes = Bitmap::empty(&mut store)?;
    /// notes.set_many(&[70, 3, 70])?;
    /// assert_eq!(notes.set_many(&[5, 128]), Err(Error::NoSpace));
    /// assert_eq!(notes.iter().collect::<Vec<_>>(), [3, 70]);
    /// # Ok::<(), taxolbin::Error>(())
    /// ```
    pub fn set_many(&mut self, bits: &[usize]) -> Result<(), Error> {
        let (bits, length) = (bits.as_ptr(), bits.len());
        done(change!(taxolbin_set_many, self, bits, length))
    }

    /// Sets the `k` bits from `i` on; clears them, and never grows, where the value is false. A `k` of 0 does nothing. `IndexOver` where the last
    /// index passes 2^64 - 1, `NoSpace` where it has no word.
    ///
    /// ```
    /// let mut store = [0; 2];
    /// let mut notes = taxolbin::Bitmap::empty(&mut store)?;
    /// notes.set_region(60, true, 8)?;
    /// notes.set_region(62, false, 1000)?;
    /// assert_eq!(notes.iter().collect::<Vec<_>>(), [60, 61]);
    /// # Ok::<(), taxolbin::Error>(())
    /// ```
    pub fn set_region(&mut self, i: usize, value: bool, k: usize) -> Result<(), Error> {
        let value = u32::from(value);
        done(change!(taxolbin_set_region, self, i, value, k))
    }

    /// Writes the low `width` bits of the value from bit `i` on; zeros never grow, and width 0 does nothing. `WidthOver` where the width is over 64,
    /// `IndexOver` where the last index passes 2^64 - 1, `NoSpace` where it has no word.
    ///
    /// ```
    /// let mut store = [0; 2];
    /// let mut notes = taxolbin::Bitmap::empty(&mut store)?;
    /// notes.set_field(60, 0xFF, 8)?;
    /// assert_eq!(notes.words(), [0xF << 60, 0xF]);
    /// notes.set_field(1000, 0, 64)?;
    /// assert_eq!(notes.count(), 2);
    /// # Ok::<(), taxolbin::Error>(())
    /// ```
    pub fn set_field(&mut self, i: usize, value: u64, width: usize) -> Result<(), Error> {
        done(change!(taxolbin_set_field, self, i, value, width))
    }

    /// Clears the other 63 bits of the word of bit `i`; it never grows. It trims where that word is the last and is then zero.
    ///
    /// ```
    /// let mut store = [0b111, 0b111];
    /// let mut notes = taxolbin::Bitmap::with_count(&mut store, 2)?;
    /// notes.andi(1);
    /// notes.andi(100);
    /// assert_eq!(notes.words(), [0b010]);
    /// # Ok::<(), taxolbin::Error>(())
    /// ```
    pub fn andi(&mut self, i: usize) {
        proved(change!(taxolbin_andi, self, i));
    }

    /// Clears bit `i`; it never grows. It trims where the word of the bit is the last and is then zero.
    ///
    /// ```
    /// let mut store = [0b111, 0b1];
    /// let mut notes = taxolbin::Bitmap::with_count(&mut store, 2)?;
    /// notes.andnoti(64);
    /// assert_eq!(notes.words(), [0b111]);
    /// # Ok::<(), taxolbin::Error>(())
    /// ```
    pub fn andnoti(&mut self, i: usize) {
        proved(change!(taxolbin_andnoti, self, i));
    }

    /// Flips bit `i`. It trims where the word of the bit is the last and is then zero. `NoSpace` where the store has no word for it.
    ///
    /// ```
    /// let mut store = [1, 0, 0];
    /// let mut notes = taxolbin::Bitmap::with_count(&mut store, 1)?;
    /// notes.xori(130)?;
    /// assert_eq!(notes.count(), 3);
    /// notes.xori(130)?;
    /// assert_eq!(notes.words(), [1]);
    /// # Ok::<(), taxolbin::Error>(())
    /// ```
    pub fn xori(&mut self, i: usize) -> Result<(), Error> {
        done(change!(taxolbin_xori, self, i))
    }

    /// Flips bit `i`, growing as needed; it never trims. `NoSpace` where the store has no word for it.
    ///
    /// The one that stays within the length is [`BitSlice::toggle`]: `bitmap.as_bits_mut().toggle(i)`.
    ///
    /// ```
    /// let mut store = [0; 2];
    /// let mut notes = taxolbin::Bitmap::empty(&mut store)?;
    /// notes.toggle(64)?;
    /// notes.toggle(64)?;
    /// assert_eq!(notes.words(), [0, 0]);
    /// # Ok::<(), taxolbin::Error>(())
    /// ```
    pub fn toggle(&mut self, i: usize) -> Result<(), Error> {
        done(change!(taxolbin_toggle, self, i))
    }

    /// Flips the `k` bits from `i` on, growing as needed; it never trims, and a `k` of 0 does nothing. `IndexOver` where the last index passes
    /// 2^64 - 1, `NoSpace` where it has no word.
    ///
    /// ```
    /// let mut store = [0b0110];
    /// let mut notes = taxolbin::Bitmap::with_count(&mut store, 1)?;
    /// notes.toggle_region(2, 3)?;
    /// assert_eq!(notes.words(), [0b11010]);
    /// # Ok::<(), taxolbin::Error>(())
    /// ```
    pub fn toggle_region(&mut self, i: usize, k: usize) -> Result<(), Error> {
        done(change!(taxolbin_toggle_region, self, i, k))
    }

    /// Moves every bit `k` up, growing so that none is lost. With no bit set it does nothing. `IndexOver` where the greatest bit would pass
    /// 2^64 - 1, `NoSpace` where it would have no word.
    ///
    /// The one that stays within the length is [`BitSlice::shift_left`]: `bitmap.as_bits_mut().shift_left(k)`.
    ///
    /// ```
    /// let mut store = [1 << 63, 0];
    /// let mut notes = taxolbin::Bitmap::with_count(&mut store, 1)?;
    /// notes.shift_left(1)?;
    /// assert_eq!(notes.words(), [0, 1]);
    /// # Ok::<(), taxolbin::Error>(())
    /// ```
    pub fn shift_left(&mut self, k: usize) -> Result<(), Error> {
        done(change!(taxolbin_shift_left, self, k))
    }

    /// Moves every bit `k` down and trims; bits pushed out are lost.
    ///
    /// The one that keeps the length is [`BitSlice::shift_right`]: `bitmap.as_bits_mut().shift_right(k)`.
    ///
    /// ```
    /// let mut store = [0b1101, 1];
    /// let mut notes = taxolbin::Bitmap::with_count(&mut store, 2)?;
    /// notes.shift_right(2);
    /// assert_eq!(notes.words(), [1 << 62 | 0b11]);
    /// # Ok::<(), taxolbin::Error>(())
    /// ```
    pub fn shift_right(&mut self, k: usize) {
        proved(change!(taxolbin_shift_right, self, k));
    }

    /// Clears the bits from `k` on and trims.
    ///
    /// ```
    /// let mut store = [0b111, 0b111];
    /// let mut notes = taxolbin::Bitmap::with_count(&mut store, 2)?;
    /// notes.truncate_bits(2);
    /// assert_eq!(notes.words(), [0b11]);
    /// # Ok::<(), taxolbin::Error>(())
    /// ```
    pub fn truncate_bits(&mut self, k: usize) {
        proved(change!(taxolbin_truncate_bits, self, k));
    }

    /// Clears the bits from `k` on; the count becomes the words that `k` bits need. `NoSpace` where the store has fewer.
    ///
    /// ```
    /// let mut store = [0b111, 0];
    /// let mut notes = taxolbin::Bitmap::with_count(&mut store, 1)?;
    /// notes.resize_bits(100)?;
    /// assert_eq!(notes.words(), [0b111, 0]);
    /// notes.resize_bits(1)?;
    /// assert_eq!(notes.words(), [1]);
    /// # Ok::<(), taxolbin::Error>(())
    /// ```
    pub fn resize_bits(&mut self, k: usize) -> Result<(), Error> {
        done(change!(taxolbin_resize_bits, self, k))
    }

    /// Puts the other bitmap behind the words in use, so its bit 0 comes to a word boundary. `NoSpace` where both have more words than the store.
    ///
    /// ```
    /// use taxolbin::{BitSlice, Bitmap};
    ///
    /// let mut store = [0b11, 0, 0];
    /// let mut notes = Bitmap::with_count(&mut store, 1)?;
    /// notes.append(BitSlice::new(&[0b10])?)?;
    /// assert_eq!(notes.iter().collect::<Vec<_>>(), [0, 1, 65]);
    /// # Ok::<(), taxolbin::Error>(())
    /// ```
    pub fn append(&mut self, other: &BitSlice) -> Result<(), Error> {
        done(change!(taxolbin_append, self; other))
    }

    /// Moves the bits from `at` on into the tail's store, from its bit 0 on, and gives the tail; both are trimmed. `StoreTooLong` for the tail's
    /// store, `NoSpace` where it has too few words.
    ///
    /// ```
    /// use taxolbin::Bitmap;
    ///
    /// let (mut store, mut second) = ([0; 2], [0; 2]);
    /// let mut notes = Bitmap::empty(&mut store)?;
    /// notes.set_many(&[3, 69, 70, 100])?;
    /// let tail = notes.split_off(70, &mut second)?;
    /// assert_eq!(notes.iter().collect::<Vec<_>>(), [3, 69]);
    /// assert_eq!(tail.iter().collect::<Vec<_>>(), [0, 30]);
    /// # Ok::<(), taxolbin::Error>(())
    /// ```
    pub fn split_off<'b>(&mut self, at: usize, tail: &'b mut [u64]) -> Result<Bitmap<'b>, Error> {
        let mut count = 0;
        let (tcapacity, tcount) = (tail.len(), &mut count);
        let words = tail.as_mut_ptr();
        done(change!(taxolbin_split_off, self, at, words, tcapacity, tcount))?;
        Ok(Bitmap::of(tail, count))
    }

    /// Opens `k` clear places at bit `p`: the bits from `p` on move up; trims. `IndexOver` where the greatest bit would pass 2^64 - 1, `NoSpace`
    /// where it would have no word.
    ///
    /// ```
    /// let mut store = [0; 1];
    /// let mut notes = taxolbin::Bitmap::empty(&mut store)?;
    /// notes.set_many(&[4, 5, 8])?;
    /// notes.open_gap(5, 2)?;
    /// assert_eq!(notes.iter().collect::<Vec<_>>(), [4, 7, 10]);
    /// # Ok::<(), taxolbin::Error>(())
    /// ```
    pub fn open_gap(&mut self, p: usize, k: usize) -> Result<(), Error> {
        done(change!(taxolbin_open_gap, self, p, k))
    }

    /// Closes the `k` places from bit `p` on: what is set in them is lost, and the bits behind them move down; trims.
    ///
    /// ```
    /// let mut store = [0; 1];
    /// let mut notes = taxolbin::Bitmap::empty(&mut store)?;
    /// notes.set_many(&[4, 5, 8])?;
    /// notes.close_gap(5, 2);
    /// assert_eq!(notes.iter().collect::<Vec<_>>(), [4, 6]);
    /// # Ok::<(), taxolbin::Error>(())
    /// ```
    pub fn close_gap(&mut self, p: usize, k: usize) {
        proved(change!(taxolbin_close_gap, self, p, k));
    }
}

/// Set operations, in place with another bitmap.
impl Bitmap<'_> {
    /// Keeps the bits that are set in both, and trims.
    ///
    /// ```
    /// use taxolbin::{BitSlice, Bitmap};
    ///
    /// let mut store = [0b011, 1];
    /// let mut notes = Bitmap::with_count(&mut store, 2)?;
    /// notes.and(BitSlice::new(&[0b110])?);
    /// assert_eq!(notes.words(), [0b010]);
    /// # Ok::<(), taxolbin::Error>(())
    /// ```
    pub fn and(&mut self, other: &BitSlice) {
        proved(change!(taxolbin_and, self; other));
    }

    /// Clears the bits that are set in the other, and trims.
    ///
    /// ```
    /// use taxolbin::{BitSlice, Bitmap};
    ///
    /// let mut store = [0b011, 1];
    /// let mut notes = Bitmap::with_count(&mut store, 2)?;
    /// notes.andnot(BitSlice::new(&[0b110, 1])?);
    /// assert_eq!(notes.words(), [0b001]);
    /// # Ok::<(), taxolbin::Error>(())
    /// ```
    pub fn andnot(&mut self, other: &BitSlice) {
        proved(change!(taxolbin_andnot, self; other));
    }

    /// Sets the bits that are set in the other; it then has as many words as the longer. `NoSpace` where the store has fewer.
    ///
    /// ```
    /// use taxolbin::{BitSlice, Bitmap, Error};
    ///
    /// let mut store = [0b011];
    /// let mut notes = Bitmap::with_count(&mut store, 1)?;
    /// notes.or(BitSlice::new(&[0b110])?)?;
    /// assert_eq!(notes.words(), [0b111]);
    /// assert_eq!(notes.or(BitSlice::new(&[0, 0])?), Err(Error::NoSpace));
    /// # Ok::<(), taxolbin::Error>(())
    /// ```
    pub fn or(&mut self, other: &BitSlice) -> Result<(), Error> {
        done(change!(taxolbin_or, self; other))
    }

    /// Keeps the bits that are set in one only, and trims. `NoSpace` where the store has fewer words than the trimmed result.
    ///
    /// ```
    /// use taxolbin::{BitSlice, Bitmap};
    ///
    /// let mut store = [0b011];
    /// let mut notes = Bitmap::with_count(&mut store, 1)?;
    /// notes.xor(BitSlice::new(&[0b110, 0])?)?;
    /// assert_eq!(notes.words(), [0b101]);
    /// # Ok::<(), taxolbin::Error>(())
    /// ```
    pub fn xor(&mut self, other: &BitSlice) -> Result<(), Error> {
        done(change!(taxolbin_xor, self; other))
    }
}

/// Set operations of two bitmaps; the earlier set is discarded.
impl Bitmap<'_> {
    /// Becomes the bits that are set in both, trimmed. `NoSpace` where the store has fewer words than the result.
    ///
    /// ```
    /// use taxolbin::{BitSlice, Bitmap};
    ///
    /// let mut store = [u64::MAX; 2];
    /// let mut notes = Bitmap::with_count(&mut store, 2)?;
    /// notes.and_from(BitSlice::new(&[0b011])?, BitSlice::new(&[0b110, 1])?)?;
    /// assert_eq!(notes.words(), [0b010]);
    /// # Ok::<(), taxolbin::Error>(())
    /// ```
    pub fn and_from(&mut self, left: &BitSlice, right: &BitSlice) -> Result<(), Error> {
        done(change!(taxolbin_and_from, self; left; right))
    }

    /// Becomes the bits that are set in the left only, trimmed. `NoSpace` where the store has fewer words than the result.
    ///
    /// ```
    /// use taxolbin::{BitSlice, Bitmap};
    ///
    /// let mut store = [u64::MAX; 2];
    /// let mut notes = Bitmap::with_count(&mut store, 2)?;
    /// notes.andnot_from(BitSlice::new(&[0b011])?, BitSlice::new(&[0b110, 1])?)?;
    /// assert_eq!(notes.words(), [0b001]);
    /// # Ok::<(), taxolbin::Error>(())
    /// ```
    pub fn andnot_from(&mut self, left: &BitSlice, right: &BitSlice) -> Result<(), Error> {
        done(change!(taxolbin_andnot_from, self; left; right))
    }

    /// Becomes the bits that are set in either, with as many words as the longer. `NoSpace` where the store has fewer.
    ///
    /// ```
    /// use taxolbin::{BitSlice, Bitmap};
    ///
    /// let mut store = [u64::MAX; 2];
    /// let mut notes = Bitmap::with_count(&mut store, 2)?;
    /// notes.or_from(BitSlice::new(&[0b011])?, BitSlice::new(&[0b110, 0])?)?;
    /// assert_eq!(notes.words(), [0b111, 0]);
    /// # Ok::<(), taxolbin::Error>(())
    /// ```
    pub fn or_from(&mut self, left: &BitSlice, right: &BitSlice) -> Result<(), Error> {
        done(change!(taxolbin_or_from, self; left; right))
    }

    /// Becomes the bits that are set in one only, trimmed. `NoSpace` where the store has fewer words than the result.
    ///
    /// ```
    /// use taxolbin::{BitSlice, Bitmap};
    ///
    /// let mut store = [u64::MAX; 2];
    /// let mut notes = Bitmap::with_count(&mut store, 2)?;
    /// notes.xor_from(BitSlice::new(&[0b011, 1])?, BitSlice::new(&[0b110, 1])?)?;
    /// assert_eq!(notes.words(), [0b101]);
    /// # Ok::<(), taxolbin::Error>(())
    /// ```
    pub fn xor_from(&mut self, left: &BitSlice, right: &BitSlice) -> Result<(), Error> {
        done(change!(taxolbin_xor_from, self; left; right))
    }
}

/// Set operations of two bitmaps into a store of their own; its words past the result are untouched.
impl<'a> Bitmap<'a> {
    /// The bits that are set in both, trimmed. `StoreTooLong` for the store, `NoSpace` where it has fewer words than the result.
    ///
    /// ```
    /// use taxolbin::{BitSlice, Bitmap};
    ///
    /// let mut store = [0; 1];
    /// let both = Bitmap::dup_and(&mut store, BitSlice::new(&[0b011])?, BitSlice::new(&[0b110, 1])?)?;
    /// assert_eq!(both.words(), [0b010]);
    /// # Ok::<(), taxolbin::Error>(())
    /// ```
    pub fn dup_and(store: &'a mut [u64], left: &BitSlice, right: &BitSlice) -> Result<Bitmap<'a>, Error> {
        let mut made = Bitmap::of(store, 0);
        done(change!(taxolbin_dup_and, made; left; right))?;
        Ok(made)
    }

    /// The bits that are set in the left only, trimmed. `StoreTooLong` for the store, `NoSpace` where it has fewer words than the result.
    ///
    /// ```
    /// use taxolbin::{BitSlice, Bitmap};
    ///
    /// let mut store = [0; 1];
    /// let gone = Bitmap::dup_andnot(&mut store, BitSlice::new(&[0b011])?, BitSlice::new(&[0b110, 1])?)?;
    /// assert_eq!(gone.words(), [0b001]);
    /// # Ok::<(), taxolbin::Error>(())
    /// ```
    pub fn dup_andnot(store: &'a mut [u64], left: &BitSlice, right: &BitSlice) -> Result<Bitmap<'a>, Error> {
        let mut made = Bitmap::of(store, 0);
        done(change!(taxolbin_dup_andnot, made; left; right))?;
        Ok(made)
    }

    /// The bits that are set in either, with as many words as the longer. `StoreTooLong` for the store, `NoSpace` where it has fewer.
    ///
    /// ```
    /// use taxolbin::{BitSlice, Bitmap, Error};
    ///
    /// let (left, right) = (BitSlice::new(&[0b011])?, BitSlice::new(&[0b110, 1])?);
    /// assert_eq!(Bitmap::dup_or(&mut [0; 1], left, right).unwrap_err(), Error::NoSpace);
    /// assert_eq!(Bitmap::dup_or(&mut [0; 2], left, right)?.words(), [0b111, 1]);
    /// # Ok::<(), taxolbin::Error>(())
    /// ```
    pub fn dup_or(store: &'a mut [u64], left: &BitSlice, right: &BitSlice) -> Result<Bitmap<'a>, Error> {
        let mut made = Bitmap::of(store, 0);
        done(change!(taxolbin_dup_or, made; left; right))?;
        Ok(made)
    }

    /// The bits that are set in one only, trimmed. `StoreTooLong` for the store, `NoSpace` where it has fewer words than the result.
    ///
    /// ```
    /// use taxolbin::{BitSlice, Bitmap};
    ///
    /// let mut store = [0; 2];
    /// let changed = Bitmap::dup_xor(&mut store, BitSlice::new(&[0b011])?, BitSlice::new(&[0b110, 1])?)?;
    /// assert_eq!(changed.words(), [0b101, 1]);
    /// # Ok::<(), taxolbin::Error>(())
    /// ```
    pub fn dup_xor(store: &'a mut [u64], left: &BitSlice, right: &BitSlice) -> Result<Bitmap<'a>, Error> {
        let mut made = Bitmap::of(store, 0);
        done(change!(taxolbin_dup_xor, made; left; right))?;
        Ok(made)
    }
}

/// List text, such as `0-3, 5-7, 11`, in a publisher's [`Style`]; [`BitSlice::write_list`] prints it.
impl Bitmap<'_> {
    /// Becomes the set of the list, read in a style; the earlier set is discarded. `BadStyle` where the style is outside its limits, `NotAscii` where
    /// a byte is 128 or more, `NotList` where the text is no list, a text of no bytes among them, `NumberOver` in its place where a number is above
    /// the limit, `NoSpace` where the store is too short.
    ///
    /// Ranges may overlap and come in any order, blanks may stand around numbers, and a comma may end the text. A number is a bit plus the style's
    /// first number: at least that, and at most 4,294,967,295 above it. The first token (a number or a range between commas) that is wrong decides
    /// between `NotList` and `NumberOver`, its left number before its right; `NumberOver` is for a number of digits only, and a range of two good
    /// numbers that falls is `NotList`.
    ///
    /// ```
    /// use taxolbin::{Bitmap, Error, Style};
    ///
    /// let mut store = [0; 2];
    /// let mut notes = Bitmap::empty(&mut store)?;
    /// notes.from_list(" 1 - 3 , 2", Style::PLAIN)?;
    /// assert_eq!(notes.iter().collect::<Vec<_>>(), [1, 2, 3]);
    /// notes.from_list("1-3", Style { first: 1, ..Style::PLAIN })?;
    /// assert_eq!(notes.iter().collect::<Vec<_>>(), [0, 1, 2]);
    /// assert_eq!(notes.from_list("5-3", Style::PLAIN), Err(Error::NotList));
    /// assert_eq!(notes.from_list("4294967296", Style::PLAIN), Err(Error::NumberOver));
    /// assert_eq!(notes.from_list("4294967296x", Style::PLAIN), Err(Error::NotList));
    /// assert_eq!(notes.from_list(b"1\xC2\xA0", Style::PLAIN), Err(Error::NotAscii));
    /// assert_eq!(notes.from_list("", Style::PLAIN), Err(Error::NotList));
    /// assert_eq!(notes.from_list("", Style { shortest: 10, ..Style::PLAIN }), Err(Error::BadStyle));
    /// # Ok::<(), Error>(())
    /// ```
    #[allow(clippy::wrong_self_convention)] // the name of the call; the store is lent before
    pub fn from_list(&mut self, list: impl AsRef<[u8]>, style: Style) -> Result<(), Error> {
        let list = list.as_ref();
        let (list, length) = (list.as_ptr(), list.len());
        let Style { first, joiner, blank, shortest } = style;
        let blank = u32::from(blank);
        done(change!(taxolbin_from_list, self, list, length, first, joiner, blank, shortest))
    }

    /// As [`from_list`](Bitmap::from_list), but a text of no bytes, or of blanks alone (bytes 9 to 13 and 32), is the empty bitmap: so it reads back
    /// whatever [`BitSlice::write_list`] printed in the same style, given space, also with a line end behind it.
    ///
    /// The text does not carry the word count, on which reversals and rotations depend: see [there](crate#equal-bitmaps-of-different-lengths).
    ///
    /// ```
    /// use taxolbin::{Bitmap, Error, Style};
    ///
    /// let mut store = [0b111];
    /// let mut notes = Bitmap::with_count(&mut store, 1)?;
    /// assert_eq!(notes.load_list("", Style { joiner: 0, ..Style::PLAIN }), Err(Error::BadStyle));
    /// notes.load_list("", Style::PLAIN)?;
    /// assert_eq!(notes.count(), 0);
    /// # Ok::<(), Error>(())
    /// ```
    pub fn load_list(&mut self, list: impl AsRef<[u8]>, style: Style) -> Result<(), Error> {
        let list = list.as_ref();
        match self.from_list(list, style) {
            Err(Error::NotList) if list.iter().all(|byte| matches!(byte, 9..=13 | 32)) => self.resize_bits(0),
            done => done,
        }
    }
}

/// The words in use.
impl Deref for Bitmap<'_> {
    type Target = BitSlice;

    #[inline]
    fn deref(&self) -> &BitSlice {
        self.as_bits()
    }
}

/// The words in use; their number stays.
impl DerefMut for Bitmap<'_> {
    #[inline]
    fn deref_mut(&mut self) -> &mut BitSlice {
        self.as_bits_mut()
    }
}

/// Whether the same bits are set, as of [`BitSlice`].
impl PartialEq for Bitmap<'_> {
    fn eq(&self, other: &Bitmap<'_>) -> bool {
        self.as_bits() == other.as_bits()
    }
}

impl Eq for Bitmap<'_> {}

impl PartialEq<BitSlice> for Bitmap<'_> {
    fn eq(&self, other: &BitSlice) -> bool {
        self.as_bits() == other
    }
}

impl PartialEq<Bitmap<'_>> for BitSlice {
    fn eq(&self, other: &Bitmap<'_>) -> bool {
        self == other.as_bits()
    }
}

/// The list text in the plain style, as of [`BitSlice`].
impl fmt::Display for Bitmap<'_> {
    fn fmt(&self, f: &mut fmt::Formatter<'_>) -> fmt::Result {
        fmt::Display::fmt(self.as_bits(), f)
    }
}

/// The set bits, as a set: `{1, 4}`.
impl fmt::Debug for Bitmap<'_> {
    fn fmt(&self, f: &mut fmt::Formatter<'_>) -> fmt::Result {
        fmt::Debug::fmt(self.as_bits(), f)
    }
}

impl<'b> IntoIterator for &'b Bitmap<'_> {
    type Item = usize;
    type IntoIter = Members<'b>;

    fn into_iter(self) -> Members<'b> {
        self.iter()
    }
}
