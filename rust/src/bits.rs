// Bits within a fixed length: reading, and changes that keep the length.
use core::fmt;
use core::iter::FusedIterator;

use crate::error::{done, proved};
use crate::{ffi, Error, Style, CAPACITY_MAX};

/// The bits of a slice of words, of a fixed length, as `str` is the text of a slice of bytes.
///
/// Bit i is bit i % 64 of word i / 64, lowest first; the length is 64 times the number of words. A `BitSlice` is made by [`BitSlice::new`] or
/// [`BitSlice::new_mut`], and a [`Bitmap`](crate::Bitmap) gives its words in use as one. It never has more than [`CAPACITY_MAX`] words, so the calls
/// here are refused only for an index, a width or the buffer of a text.
///
/// `==` asks whether the same bits are set: trailing zero words play no part. Equal bitmaps may still answer [`reverse`](BitSlice::reverse) and
/// rotations differently, see [there](crate#equal-bitmaps-of-different-lengths).
///
/// ```
/// use taxolbin::BitSlice;
///
/// let short = BitSlice::new(&[1])?;
/// let long = BitSlice::new(&[1, 0])?;
/// assert_eq!(short, long);
/// assert_ne!(short.len_bits(), long.len_bits());
/// assert_eq!(format!("{long:?}"), "{0}");
/// # Ok::<(), taxolbin::Error>(())
/// ```
#[repr(transparent)]
pub struct BitSlice([u64]);

// The value that a reading call hands out, of one bitmap or, after a semicolon, of two. The arguments are names, so that nothing else is evaluated
// in the unsafe block.
macro_rules! ask {
    ($call:ident, $bits:ident $(; $other:ident)? $(, $i:ident)*) => {{
        let (bits, mut value) = (&$bits.0, 0);
        $(let $other = &$other.0;)?
        // SAFETY: a slice's pointer goes with its length, which is capacity and count; the value is a local of its own.
        let number = unsafe {
            ffi::$call(bits.as_ptr(), bits.len(), bits.len(), $($other.as_ptr(), $other.len(), $other.len(),)? $($i,)* &mut value)
        };
        (number, value)
    }};
}

// The same for a search: the place, if there is one.
macro_rules! search {
    ($call:ident, $bits:ident $(; $other:ident)? $(, $i:ident)*) => {{
        let (bits, mut found, mut place) = (&$bits.0, 0, 0);
        $(let $other = &$other.0;)?
        // SAFETY: a slice's pointer goes with its length, which is capacity and count; what is handed out goes to two locals.
        let number = unsafe {
            ffi::$call(bits.as_ptr(), bits.len(), bits.len(), $($other.as_ptr(), $other.len(), $other.len(),)? $($i,)* &mut found, &mut place)
        };
        proved(number);
        (found != 0).then_some(place)
    }};
}

// The number of a call that changes the bits of a slice. The count is a local, because such a call leaves it as it is.
macro_rules! change {
    ($call:ident, $bits:ident $(, $i:ident)*) => {{
        let bits = &mut $bits.0;
        let (capacity, mut count) = (bits.len(), bits.len());
        // SAFETY: a slice's pointer goes with its length, which is capacity and count; the slice is lent to this call alone.
        unsafe { ffi::$call(bits.as_mut_ptr(), capacity, &mut count, $($i),*) }
    }};
}

// A value of a call that the types let nothing refuse.
#[inline]
#[track_caller]
fn sure<T>((number, value): (u32, T)) -> T {
    proved(number);
    value
}

/// Making and measuring.
impl BitSlice {
    /// The bits of these words. `StoreTooLong` where there are more than [`CAPACITY_MAX`].
    ///
    /// ```
    /// let bits = taxolbin::BitSlice::new(&[0b101, 1])?;
    /// assert_eq!(bits.iter().collect::<Vec<_>>(), [0, 2, 64]);
    /// # Ok::<(), taxolbin::Error>(())
    /// ```
    pub fn new(words: &[u64]) -> Result<&BitSlice, Error> {
        check_capacity(words.len())?;
        Ok(BitSlice::wrap(words))
    }

    /// The bits of these words, to be changed in place. `StoreTooLong` where there are more than [`CAPACITY_MAX`].
    ///
    /// ```
    /// let mut words = [0b101];
    /// taxolbin::BitSlice::new_mut(&mut words)?.shift_left(1);
    /// assert_eq!(words, [0b1010]);
    /// # Ok::<(), taxolbin::Error>(())
    /// ```
    pub fn new_mut(words: &mut [u64]) -> Result<&mut BitSlice, Error> {
        check_capacity(words.len())?;
        Ok(BitSlice::wrap_mut(words))
    }

    // Of words whose number was looked at before.
    #[inline]
    pub(crate) fn wrap(words: &[u64]) -> &BitSlice {
        // SAFETY: `BitSlice` is a transparent form of `[u64]`.
        unsafe { &*(words as *const [u64] as *const BitSlice) }
    }

    #[inline]
    pub(crate) fn wrap_mut(words: &mut [u64]) -> &mut BitSlice {
        // SAFETY: `BitSlice` is a transparent form of `[u64]`, and the borrow passes on.
        unsafe { &mut *(words as *mut [u64] as *mut BitSlice) }
    }

    /// The words.
    ///
    /// ```
    /// assert_eq!(taxolbin::BitSlice::new(&[5, 0])?.words(), [5, 0]);
    /// # Ok::<(), taxolbin::Error>(())
    /// ```
    #[inline]
    pub fn words(&self) -> &[u64] {
        &self.0
    }

    /// How many words there are.
    ///
    /// ```
    /// assert_eq!(taxolbin::BitSlice::new(&[5, 0])?.len_words(), 2);
    /// # Ok::<(), taxolbin::Error>(())
    /// ```
    #[inline]
    pub fn len_words(&self) -> usize {
        self.0.len()
    }

    /// The length in bits, 64 a word.
    ///
    /// ```
    /// assert_eq!(taxolbin::BitSlice::new(&[5, 0])?.len_bits(), 128);
    /// # Ok::<(), taxolbin::Error>(())
    /// ```
    #[inline]
    pub fn len_bits(&self) -> usize {
        64 * self.0.len()
    }
}

/// Reading one bitmap.
impl BitSlice {
    /// Whether bit `i` is set; past the length it is not.
    ///
    /// ```
    /// let bits = taxolbin::BitSlice::new(&[0b100])?;
    /// assert!(bits.get(2));
    /// assert!(!bits.get(200));
    /// # Ok::<(), taxolbin::Error>(())
    /// ```
    pub fn get(&self, i: usize) -> bool {
        sure(ask!(taxolbin_get, self, i)) != 0
    }

    /// The `width` bits from bit `i` on, the first one lowest; zeros past the length. `WidthOver` where the width is over 64.
    ///
    /// ```
    /// let bits = taxolbin::BitSlice::new(&[0xF << 60])?;
    /// assert_eq!(bits.get_field(60, 8), Ok(15));
    /// assert_eq!(bits.get_field(0, 65), Err(taxolbin::Error::WidthOver));
    /// # Ok::<(), taxolbin::Error>(())
    /// ```
    pub fn get_field(&self, i: usize, width: usize) -> Result<u64, Error> {
        let (number, value) = ask!(taxolbin_get_field, self, i, width);
        done(number)?;
        Ok(value)
    }

    /// Whether no bit is set.
    ///
    /// ```
    /// assert!(taxolbin::BitSlice::new(&[0, 0])?.is_zero());
    /// # Ok::<(), taxolbin::Error>(())
    /// ```
    pub fn is_zero(&self) -> bool {
        self.first_set().is_none()
    }

    /// The least set bit.
    ///
    /// ```
    /// assert_eq!(taxolbin::BitSlice::new(&[0, 6])?.first_set(), Some(65));
    /// # Ok::<(), taxolbin::Error>(())
    /// ```
    pub fn first_set(&self) -> Option<usize> {
        search!(taxolbin_first_set, self)
    }

    /// The greatest set bit.
    ///
    /// ```
    /// assert_eq!(taxolbin::BitSlice::new(&[6, 0])?.last_set(), Some(2));
    /// # Ok::<(), taxolbin::Error>(())
    /// ```
    pub fn last_set(&self) -> Option<usize> {
        search!(taxolbin_last_set, self)
    }

    /// The least set bit from `i` on.
    ///
    /// ```
    /// let bits = taxolbin::BitSlice::new(&[0b10010])?;
    /// assert_eq!(bits.next_set(2), Some(4));
    /// assert_eq!(bits.next_set(5), None);
    /// # Ok::<(), taxolbin::Error>(())
    /// ```
    pub fn next_set(&self, i: usize) -> Option<usize> {
        search!(taxolbin_next_set, self, i)
    }

    /// The set bit that has exactly `rank` set bits below it.
    ///
    /// ```
    /// let bits = taxolbin::BitSlice::new(&[0b10010])?;
    /// assert_eq!(bits.select(1), Some(4));
    /// assert_eq!(bits.select(2), None);
    /// # Ok::<(), taxolbin::Error>(())
    /// ```
    pub fn select(&self, rank: usize) -> Option<usize> {
        search!(taxolbin_select, self, rank)
    }

    /// The least clear bit; the length where all are set.
    ///
    /// ```
    /// assert_eq!(taxolbin::BitSlice::new(&[0b1011])?.first_clear(), 2);
    /// assert_eq!(taxolbin::BitSlice::new(&[u64::MAX])?.first_clear(), 64);
    /// # Ok::<(), taxolbin::Error>(())
    /// ```
    pub fn first_clear(&self) -> usize {
        sure(ask!(taxolbin_first_clear, self))
    }

    /// The least clear bit from `i` on; `i` itself past the length.
    ///
    /// ```
    /// let bits = taxolbin::BitSlice::new(&[0b1100])?;
    /// assert_eq!(bits.next_clear(2), 4);
    /// assert_eq!(bits.next_clear(200), 200);
    /// # Ok::<(), taxolbin::Error>(())
    /// ```
    pub fn next_clear(&self, i: usize) -> usize {
        sure(ask!(taxolbin_next_clear, self, i))
    }

    /// How many bits are set.
    ///
    /// ```
    /// assert_eq!(taxolbin::BitSlice::new(&[7, 1])?.count_set_bits(), 4);
    /// # Ok::<(), taxolbin::Error>(())
    /// ```
    pub fn count_set_bits(&self) -> usize {
        sure(ask!(taxolbin_count_set_bits, self))
    }

    /// How many bits within the length are clear.
    ///
    /// ```
    /// assert_eq!(taxolbin::BitSlice::new(&[7, 1])?.count_clear_bits(), 124);
    /// # Ok::<(), taxolbin::Error>(())
    /// ```
    pub fn count_clear_bits(&self) -> usize {
        sure(ask!(taxolbin_count_clear_bits, self))
    }

    /// How many of the `k` bits from `i` on are set; it stops at the length.
    ///
    /// ```
    /// let bits = taxolbin::BitSlice::new(&[0b10110])?;
    /// assert_eq!(bits.count_region(1, 3), 2);
    /// assert_eq!(bits.count_region(2, usize::MAX), 2);
    /// # Ok::<(), taxolbin::Error>(())
    /// ```
    pub fn count_region(&self, i: usize, k: usize) -> usize {
        sure(ask!(taxolbin_count_region, self, i, k))
    }

    /// How many bits below `i` are set.
    ///
    /// ```
    /// let bits = taxolbin::BitSlice::new(&[0b10110])?;
    /// assert_eq!(bits.rank(4), 2);
    /// assert_eq!(bits.rank(5), 3);
    /// # Ok::<(), taxolbin::Error>(())
    /// ```
    pub fn rank(&self, i: usize) -> usize {
        sure(ask!(taxolbin_rank, self, i))
    }

    /// The set bits upward.
    ///
    /// ```
    /// let bits = taxolbin::BitSlice::new(&[0b101, 1])?;
    /// let mut members = bits.iter();
    /// assert_eq!(members.next(), Some(0));
    /// assert_eq!(members.collect::<Vec<_>>(), [2, 64]);
    /// # Ok::<(), taxolbin::Error>(())
    /// ```
    pub fn iter(&self) -> Members<'_> {
        Members { bits: self, next: 0 }
    }

    /// Prints the list of the set bits in a style, such as `0-3, 5-7, 11` in the plain one, to the front of the buffer, and gives the text.
    /// `BadStyle` where the style is outside its limits, `NoSpace` where the buffer is too short, and then no byte of it changes; 12 bytes for each
    /// set bit are always enough, in every style. With no bit set the text has no bytes, which [`load_list`](crate::Bitmap::load_list) reads back.
    ///
    /// ```
    /// use taxolbin::{BitSlice, Error, Style};
    ///
    /// let bits = BitSlice::new(&[0b1000_1110_1111])?;
    /// let mut buffer = [0; 20];
    /// assert_eq!(bits.write_list(&mut buffer, Style::PLAIN), Ok("0-3, 5-7, 11"));
    /// assert_eq!(bits.write_list(&mut buffer[..5], Style::PLAIN), Err(Error::NoSpace));
    /// let house = Style { first: 1, joiner: usize::from(b':'), blank: false, shortest: 4 };
    /// assert_eq!(bits.write_list(&mut buffer, house), Ok("1:4,6,7,8,12"));
    /// assert_eq!(bits.write_list(&mut buffer, Style { first: 1001, ..house }), Err(Error::BadStyle));
    /// # Ok::<(), Error>(())
    /// ```
    pub fn write_list<'b>(&self, out: &'b mut [u8], style: Style) -> Result<&'b str, Error> {
        let (bits, mut length) = (&self.0, 0);
        let Style { first, joiner, blank, shortest } = style;
        let (to, size, blank) = (out.as_mut_ptr(), out.len(), u32::from(blank));
        // SAFETY: each slice's pointer goes with its length, and the buffer is lent to this call alone.
        done(unsafe { ffi::taxolbin_write_list(bits.as_ptr(), bits.len(), bits.len(), to, size, &mut length, first, joiner, blank, shortest) })?;
        Ok(core::str::from_utf8(&out[..length]).expect("a list is ASCII"))
    }

    /// Prints the register to the front of the buffer, and gives the text: pages of 50 lines, each line 72 bytes and a line end. A line has one maximal
    /// run of set bits, upward: its first bit, its last and its size, each right-aligned in 12 bytes; the rest is blank. Line 50 has in the same
    /// columns the number of the page, from 1, the number of pages and the count of all set bits. A page has up to 49 runs, and with no bit set there
    /// is one page. `NoSpace` where the buffer is too short, and then no byte of it changes. A page has [`REGISTER_PAGE`](crate::REGISTER_PAGE) bytes;
    /// one page, and one more for each 49 set bits, are always enough.
    ///
    /// ```
    /// use taxolbin::{BitSlice, Error, REGISTER_PAGE};
    ///
    /// let bits = BitSlice::new(&[0b1_1010_0000])?;
    /// let mut page = [0; REGISTER_PAGE];
    /// let lines: Vec<_> = bits.write_register(&mut page)?.lines().collect();
    /// assert_eq!(lines.len(), 50);
    /// assert_eq!(lines[0].trim_end(), "           5           5           1");
    /// assert_eq!(lines[1].trim_end(), "           7           8           2");
    /// assert_eq!(lines[2], " ".repeat(72));
    /// assert_eq!(lines[49].trim_end(), "           1           1           3");
    /// assert_eq!(bits.write_register(&mut page[1..]), Err(Error::NoSpace));
    /// # Ok::<(), Error>(())
    /// ```
    pub fn write_register<'b>(&self, out: &'b mut [u8]) -> Result<&'b str, Error> {
        let (bits, mut length) = (&self.0, 0);
        let (to, size) = (out.as_mut_ptr(), out.len());
        // SAFETY: each slice's pointer goes with its length, and the buffer is lent to this call alone.
        done(unsafe { ffi::taxolbin_write_register(bits.as_ptr(), bits.len(), bits.len(), to, size, &mut length) })?;
        Ok(core::str::from_utf8(&out[..length]).expect("a register is ASCII"))
    }
}

/// Reading two bitmaps, which may have different lengths: bits past a length are clear.
impl BitSlice {
    /// Whether every set bit is set in the other too.
    ///
    /// ```
    /// use taxolbin::BitSlice;
    ///
    /// assert!(BitSlice::new(&[0b100])?.is_subset(BitSlice::new(&[0b110, 1])?));
    /// # Ok::<(), taxolbin::Error>(())
    /// ```
    pub fn is_subset(&self, other: &BitSlice) -> bool {
        sure(ask!(taxolbin_is_subset, self; other)) != 0
    }

    /// Whether no bit is set in both.
    ///
    /// ```
    /// use taxolbin::BitSlice;
    ///
    /// assert!(BitSlice::new(&[0b001])?.is_disjoint(BitSlice::new(&[0b110, 1])?));
    /// # Ok::<(), taxolbin::Error>(())
    /// ```
    pub fn is_disjoint(&self, other: &BitSlice) -> bool {
        sure(ask!(taxolbin_is_disjoint, self; other)) != 0
    }

    /// How many bits are set in both.
    ///
    /// ```
    /// use taxolbin::BitSlice;
    ///
    /// assert_eq!(BitSlice::new(&[0b011])?.and_count(BitSlice::new(&[0b110, 1])?), 1);
    /// # Ok::<(), taxolbin::Error>(())
    /// ```
    pub fn and_count(&self, other: &BitSlice) -> usize {
        sure(ask!(taxolbin_and_count, self; other))
    }

    /// How many bits are set in either.
    ///
    /// ```
    /// use taxolbin::BitSlice;
    ///
    /// assert_eq!(BitSlice::new(&[0b011])?.or_count(BitSlice::new(&[0b110, 1])?), 4);
    /// # Ok::<(), taxolbin::Error>(())
    /// ```
    pub fn or_count(&self, other: &BitSlice) -> usize {
        sure(ask!(taxolbin_or_count, self; other))
    }

    /// How many bits are set in one only.
    ///
    /// ```
    /// use taxolbin::BitSlice;
    ///
    /// assert_eq!(BitSlice::new(&[0b011])?.xor_count(BitSlice::new(&[0b110, 1])?), 3);
    /// # Ok::<(), taxolbin::Error>(())
    /// ```
    pub fn xor_count(&self, other: &BitSlice) -> usize {
        sure(ask!(taxolbin_xor_count, self; other))
    }

    /// How many bits are set here and not in the other.
    ///
    /// ```
    /// use taxolbin::BitSlice;
    ///
    /// assert_eq!(BitSlice::new(&[0b111])?.andnot_count(BitSlice::new(&[0b100, 1])?), 2);
    /// # Ok::<(), taxolbin::Error>(())
    /// ```
    pub fn andnot_count(&self, other: &BitSlice) -> usize {
        sure(ask!(taxolbin_andnot_count, self; other))
    }

    /// The bits that are set in both, upward.
    ///
    /// ```
    /// use taxolbin::BitSlice;
    ///
    /// let (left, right) = (BitSlice::new(&[0b011])?, BitSlice::new(&[0b110, 1])?);
    /// assert_eq!(left.iter_and(right).collect::<Vec<_>>(), [1]);
    /// # Ok::<(), taxolbin::Error>(())
    /// ```
    pub fn iter_and<'a>(&'a self, other: &'a BitSlice) -> Combined<'a> {
        Combined { left: self, right: other, next: 0, step: |left, right, i| search!(taxolbin_iter_and, left; right, i) }
    }

    /// The bits that are set in either, upward.
    ///
    /// ```
    /// use taxolbin::BitSlice;
    ///
    /// let (left, right) = (BitSlice::new(&[0b011])?, BitSlice::new(&[0b110, 1])?);
    /// assert_eq!(left.iter_or(right).collect::<Vec<_>>(), [0, 1, 2, 64]);
    /// # Ok::<(), taxolbin::Error>(())
    /// ```
    pub fn iter_or<'a>(&'a self, other: &'a BitSlice) -> Combined<'a> {
        Combined { left: self, right: other, next: 0, step: |left, right, i| search!(taxolbin_iter_or, left; right, i) }
    }

    /// The bits that are set in one only, upward.
    ///
    /// ```
    /// use taxolbin::BitSlice;
    ///
    /// let (left, right) = (BitSlice::new(&[0b011])?, BitSlice::new(&[0b110, 1])?);
    /// assert_eq!(left.iter_xor(right).collect::<Vec<_>>(), [0, 2, 64]);
    /// # Ok::<(), taxolbin::Error>(())
    /// ```
    pub fn iter_xor<'a>(&'a self, other: &'a BitSlice) -> Combined<'a> {
        Combined { left: self, right: other, next: 0, step: |left, right, i| search!(taxolbin_iter_xor, left; right, i) }
    }

    /// The bits that are set here and not in the other, upward.
    ///
    /// ```
    /// use taxolbin::BitSlice;
    ///
    /// let (left, right) = (BitSlice::new(&[0b011])?, BitSlice::new(&[0b110, 1])?);
    /// assert_eq!(left.iter_andnot(right).collect::<Vec<_>>(), [0]);
    /// # Ok::<(), taxolbin::Error>(())
    /// ```
    pub fn iter_andnot<'a>(&'a self, other: &'a BitSlice) -> Combined<'a> {
        Combined { left: self, right: other, next: 0, step: |left, right, i| search!(taxolbin_iter_andnot, left; right, i) }
    }
}

/// Changes within the length.
impl BitSlice {
    /// Writes the low `width` bits of the value from bit `i` on; width 0 does nothing. `WidthOver` where the width is over 64, `PastLength` where one
    /// of the bits is past the length; nothing is written then.
    ///
    /// ```
    /// use taxolbin::{BitSlice, Error};
    ///
    /// let mut words = [0];
    /// let bits = BitSlice::new_mut(&mut words)?;
    /// bits.set_field_strict(4, 0xAB, 8)?;
    /// assert_eq!(bits.set_field_strict(60, 1, 8), Err(Error::PastLength));
    /// assert_eq!(words, [0xAB0]);
    /// # Ok::<(), taxolbin::Error>(())
    /// ```
    pub fn set_field_strict(&mut self, i: usize, value: u64, width: usize) -> Result<(), Error> {
        done(change!(taxolbin_set_field_strict, self, i, value, width))
    }

    /// Flips bit `i`. `PastLength` past the length.
    ///
    /// ```
    /// use taxolbin::{BitSlice, Error};
    ///
    /// let mut words = [0b11];
    /// let bits = BitSlice::new_mut(&mut words)?;
    /// bits.toggle(0)?;
    /// assert_eq!(bits.toggle(64), Err(Error::PastLength));
    /// assert_eq!(words, [0b10]);
    /// # Ok::<(), taxolbin::Error>(())
    /// ```
    pub fn toggle(&mut self, i: usize) -> Result<(), Error> {
        done(change!(taxolbin_slice_toggle, self, i))
    }

    /// Flips every bit within the length.
    ///
    /// ```
    /// let mut words = [0b11];
    /// taxolbin::BitSlice::new_mut(&mut words)?.invert();
    /// assert_eq!(words, [!0b11]);
    /// # Ok::<(), taxolbin::Error>(())
    /// ```
    pub fn invert(&mut self) {
        proved(change!(taxolbin_invert, self));
    }

    /// Mirrors the bits within the length: the first becomes the last. So the length matters, also between equal bitmaps: see
    /// [there](crate#equal-bitmaps-of-different-lengths).
    ///
    /// ```
    /// let mut words = [1 << 4, 0];
    /// let bits = taxolbin::BitSlice::new_mut(&mut words)?;
    /// bits.reverse();
    /// assert_eq!(bits.first_set(), Some(123));
    /// # Ok::<(), taxolbin::Error>(())
    /// ```
    pub fn reverse(&mut self) {
        proved(change!(taxolbin_reverse, self));
    }

    /// Moves every bit `k` up; bits pushed out of the length are lost.
    ///
    /// ```
    /// let mut words = [1 << 63 | 1];
    /// taxolbin::BitSlice::new_mut(&mut words)?.shift_left(2);
    /// assert_eq!(words, [0b100]);
    /// # Ok::<(), taxolbin::Error>(())
    /// ```
    pub fn shift_left(&mut self, k: usize) {
        proved(change!(taxolbin_slice_shift_left, self, k));
    }

    /// Moves every bit `k` down; bits pushed out are lost.
    ///
    /// ```
    /// let mut words = [0b1101, 1];
    /// taxolbin::BitSlice::new_mut(&mut words)?.shift_right(2);
    /// assert_eq!(words, [1 << 62 | 0b11, 0]);
    /// # Ok::<(), taxolbin::Error>(())
    /// ```
    pub fn shift_right(&mut self, k: usize) {
        proved(change!(taxolbin_slice_shift_right, self, k));
    }

    /// Turns all bits of the length `k` up: what is pushed out comes in at bit 0. So the length matters, also between equal bitmaps: see
    /// [there](crate#equal-bitmaps-of-different-lengths).
    ///
    /// ```
    /// let mut words = [1 << 63 | 1];
    /// taxolbin::BitSlice::new_mut(&mut words)?.rotate_left(2);
    /// assert_eq!(words, [0b110]);
    /// # Ok::<(), taxolbin::Error>(())
    /// ```
    pub fn rotate_left(&mut self, k: usize) {
        proved(change!(taxolbin_rotate_left, self, k));
    }

    /// Turns all bits of the length `k` down: what is pushed out comes in at the last bit. So the length matters, also between equal bitmaps: see
    /// [there](crate#equal-bitmaps-of-different-lengths).
    ///
    /// ```
    /// let (mut short, mut long) = ([1], [1, 0]);
    /// taxolbin::BitSlice::new_mut(&mut short)?.rotate_right(1);
    /// taxolbin::BitSlice::new_mut(&mut long)?.rotate_right(1);
    /// assert_eq!((short, long), ([1 << 63], [0, 1 << 63]));
    /// # Ok::<(), taxolbin::Error>(())
    /// ```
    pub fn rotate_right(&mut self, k: usize) {
        proved(change!(taxolbin_rotate_right, self, k));
    }
}

// The one thing that a store is refused for.
pub(crate) fn check_capacity(words: usize) -> Result<(), Error> {
    ffi::linked();
    if words > CAPACITY_MAX {
        Err(Error::StoreTooLong)
    } else {
        Ok(())
    }
}

/// Whether the same bits are set; trailing zero words play no part. What equal bitmaps may still answer differently is
/// [there](crate#equal-bitmaps-of-different-lengths).
impl PartialEq for BitSlice {
    fn eq(&self, other: &BitSlice) -> bool {
        sure(ask!(taxolbin_eq, self; other)) != 0
    }
}

impl Eq for BitSlice {}

/// The list text that [`BitSlice::write_list`] prints in the plain style, without a buffer of one's own.
///
/// ```
/// assert_eq!(taxolbin::BitSlice::new(&[0b1000_1110_1111])?.to_string(), "0-3, 5-7, 11");
/// # Ok::<(), taxolbin::Error>(())
/// ```
impl fmt::Display for BitSlice {
    fn fmt(&self, f: &mut fmt::Formatter<'_>) -> fmt::Result {
        let (mut between, mut from) = ("", 0);
        while let Some(first) = self.next_set(from) {
            from = self.next_clear(first);
            match from - 1 {
                last if last == first => write!(f, "{between}{first}")?,
                last => write!(f, "{between}{first}-{last}")?,
            }
            between = ", ";
        }
        Ok(())
    }
}

/// The set bits, as a set: `{1, 4}`.
impl fmt::Debug for BitSlice {
    fn fmt(&self, f: &mut fmt::Formatter<'_>) -> fmt::Result {
        f.debug_set().entries(self).finish()
    }
}

impl<'a> IntoIterator for &'a BitSlice {
    type Item = usize;
    type IntoIter = Members<'a>;

    fn into_iter(self) -> Members<'a> {
        self.iter()
    }
}

/// The set bits of a bitmap, upward: what [`BitSlice::iter`] gives.
///
/// ```
/// let bits = taxolbin::BitSlice::new(&[0b10110])?;
/// let members: taxolbin::Members<'_> = bits.iter();
/// assert_eq!(members.sum::<usize>(), 7);
/// # Ok::<(), taxolbin::Error>(())
/// ```
#[derive(Clone)]
#[must_use = "a walk does nothing until it is asked for its members"]
pub struct Members<'a> {
    bits: &'a BitSlice,
    next: usize,
}

impl Iterator for Members<'_> {
    type Item = usize;

    fn next(&mut self) -> Option<usize> {
        let place = self.bits.next_set(self.next);
        self.next = after(place);
        place
    }

    fn size_hint(&self) -> (usize, Option<usize>) {
        let left = self.bits.count_region(self.next, usize::MAX);
        (left, Some(left))
    }
}

impl ExactSizeIterator for Members<'_> {}

impl FusedIterator for Members<'_> {}

impl fmt::Debug for Members<'_> {
    fn fmt(&self, f: &mut fmt::Formatter<'_>) -> fmt::Result {
        f.debug_set().entries(self.clone()).finish()
    }
}

/// The set bits of two combined bitmaps, upward: what [`BitSlice::iter_and`] and its kin give.
///
/// ```
/// use taxolbin::BitSlice;
///
/// let (left, right) = (BitSlice::new(&[0b011])?, BitSlice::new(&[0b110])?);
/// let mut one_only: taxolbin::Combined<'_> = left.iter_xor(right);
/// assert_eq!(one_only.next(), Some(0));
/// assert_eq!(format!("{one_only:?}"), "{2}");
/// # Ok::<(), taxolbin::Error>(())
/// ```
#[derive(Clone)]
#[must_use = "a walk does nothing until it is asked for its members"]
pub struct Combined<'a> {
    left: &'a BitSlice,
    right: &'a BitSlice,
    next: usize,
    step: fn(&BitSlice, &BitSlice, usize) -> Option<usize>,
}

impl Iterator for Combined<'_> {
    type Item = usize;

    fn next(&mut self) -> Option<usize> {
        let place = (self.step)(self.left, self.right, self.next);
        self.next = after(place);
        place
    }
}

impl FusedIterator for Combined<'_> {}

impl fmt::Debug for Combined<'_> {
    fn fmt(&self, f: &mut fmt::Formatter<'_>) -> fmt::Result {
        f.debug_set().entries(self.clone()).finish()
    }
}

// Where a walk goes on: a place is below 2^32, so the next one is a number, and the end of all places is past every length.
fn after(place: Option<usize>) -> usize {
    place.map_or(usize::MAX, |place| place + 1)
}
