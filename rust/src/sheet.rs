// The change sheet: edits, the sheet that is being written, and the reading.
use core::fmt;

use crate::bits::BitSlice;
use crate::error::done;
use crate::{ffi, Bitmap, Error};

/// An edition of the sheet's reader. A later one holds all of an earlier one.
///
/// ```
/// use taxolbin::Edition;
///
/// assert!(Edition::One < Edition::LATEST);
/// ```
#[derive(Debug, Clone, Copy, PartialEq, Eq, PartialOrd, Ord, Hash)]
#[non_exhaustive]
pub enum Edition {
    /// Kinds 1 to 8: set to reverse.
    One = 1,
    /// Kinds 1 to 11: toggle a region, open and close too.
    Two = 2,
}

impl Edition {
    /// The newest edition.
    pub const LATEST: Edition = Edition::Two;

    /// Its number.
    ///
    /// ```
    /// assert_eq!(taxolbin::Edition::Two.number(), 2);
    /// ```
    pub const fn number(self) -> usize {
        self as usize
    }
}

/// The edition of a number. `NoEdition` where there is none.
///
/// ```
/// use taxolbin::{Edition, Error};
///
/// assert_eq!(Edition::try_from(1), Ok(Edition::One));
/// assert_eq!(Edition::try_from(3), Err(Error::NoEdition));
/// ```
impl TryFrom<usize> for Edition {
    type Error = Error;

    fn try_from(number: usize) -> Result<Edition, Error> {
        match number {
            1 => Ok(Edition::One),
            2 => Ok(Edition::Two),
            _ => Err(Error::NoEdition),
        }
    }
}

/// Where a shift or a rotation goes.
#[derive(Debug, Clone, Copy, PartialEq, Eq, PartialOrd, Ord, Hash)]
pub enum Direction {
    /// Up, to greater bits.
    Left = 0,
    /// Down, to lesser bits.
    Right = 1,
}

/// A duty record of a sheet: what it does to the bitmap. `p` is a position, `k` an amount.
///
/// What one does is what the method of [`Bitmap`] of that name does, which grows or trims.
///
/// ```
/// use taxolbin::{Direction, Edit, Edition};
///
/// assert_eq!(Edit::Shift { direction: Direction::Left, k: 64 }.edition(), Edition::One);
/// assert_eq!(Edit::Open { p: 5, k: 2 }.edition(), Edition::Two);
/// ```
#[derive(Debug, Clone, Copy, PartialEq, Eq, Hash)]
#[non_exhaustive]
pub enum Edit {
    /// Sets a bit: [`Bitmap::set`].
    Set {
        /// The bit.
        p: u32,
    },
    /// Clears a bit: [`Bitmap::unset`].
    Unset {
        /// The bit.
        p: u32,
    },
    /// Sets or clears a region: [`Bitmap::set_region`].
    SetRegion {
        /// Whether the bits are set.
        value: bool,
        /// The first bit.
        p: u32,
        /// How many bits.
        k: u32,
    },
    /// Writes a field: [`Bitmap::set_field`].
    SetField {
        /// The first bit.
        p: u32,
        /// How many bits, at most 64.
        width: usize,
        /// Their values, the first one lowest.
        value: u64,
    },
    /// Moves all bits: [`Bitmap::shift_left`] or [`Bitmap::shift_right`].
    Shift {
        /// Up or down.
        direction: Direction,
        /// How far.
        k: u32,
    },
    /// Turns all bits of the length: [`BitSlice::rotate_left`] or [`BitSlice::rotate_right`]. Equal bitmaps of different word counts turn
    /// differently: see [there](crate#equal-bitmaps-of-different-lengths).
    Rotate {
        /// Up or down.
        direction: Direction,
        /// How far.
        k: u32,
    },
    /// Makes the bitmap as long as so many bits need: [`Bitmap::resize_bits`].
    ResizeBits {
        /// How many bits, at most [`RESIZE_MAX`](crate::RESIZE_MAX).
        bits: usize,
    },
    /// Mirrors all bits of the length: [`BitSlice::reverse`]. Equal bitmaps of different word counts are mirrored differently: see
    /// [there](crate#equal-bitmaps-of-different-lengths).
    Reverse,
    /// Flips a region: [`Bitmap::toggle_region`]. Edition 2.
    ToggleRegion {
        /// The first bit.
        p: u32,
        /// How many bits.
        k: u32,
    },
    /// Opens clear places: [`Bitmap::open_gap`]. Edition 2.
    Open {
        /// Where.
        p: u32,
        /// How many.
        k: u32,
    },
    /// Closes places: [`Bitmap::close_gap`]. Edition 2.
    Close {
        /// Where.
        p: u32,
        /// How many.
        k: u32,
    },
}

// What an addition is given; a kind uses its own.
#[derive(Default)]
struct Fields {
    p: u32,
    k: u32,
    flag: u32,
    width: usize,
    value: u64,
    bits: usize,
}

impl Edit {
    /// The first edition that knows it.
    ///
    /// ```
    /// use taxolbin::{Edit, Edition};
    ///
    /// assert_eq!(Edit::Reverse.edition(), Edition::One);
    /// assert_eq!(Edit::ToggleRegion { p: 0, k: 8 }.edition(), Edition::Two);
    /// ```
    pub const fn edition(&self) -> Edition {
        match self {
            Edit::ToggleRegion { .. } | Edit::Open { .. } | Edit::Close { .. } => Edition::Two,
            _ => Edition::One,
        }
    }

    // The kind's number and its fields; a flag is a value, or 1 for right.
    fn parts(self) -> (usize, Fields) {
        let none = Fields::default();
        match self {
            Edit::Set { p } => (1, Fields { p, ..none }),
            Edit::Unset { p } => (2, Fields { p, ..none }),
            Edit::SetRegion { value, p, k } => (3, Fields { p, k, flag: value.into(), ..none }),
            Edit::SetField { p, width, value } => (4, Fields { p, width, value, ..none }),
            Edit::Shift { direction, k } => (5, Fields { k, flag: direction as u32, ..none }),
            Edit::Rotate { direction, k } => (6, Fields { k, flag: direction as u32, ..none }),
            Edit::ResizeBits { bits } => (7, Fields { bits, ..none }),
            Edit::Reverse => (8, none),
            Edit::ToggleRegion { p, k } => (9, Fields { p, k, ..none }),
            Edit::Open { p, k } => (10, Fields { p, k, ..none }),
            Edit::Close { p, k } => (11, Fields { p, k, ..none }),
        }
    }
}

/// A sheet that is being written, at the front of a lent buffer.
///
/// ```
/// use taxolbin::{Edit, Sheet};
///
/// let mut buffer = [0u8; 32];
/// let mut sheet = Sheet::start(&mut buffer)?;
/// sheet.edit(Edit::Reverse)?;
/// sheet.remark(1, b"hi")?;
/// assert_eq!(sheet.bytes(), b"NS\x00\x02\x88\x00\x00\x01\x00\x02hi");
/// # Ok::<(), taxolbin::Error>(())
/// ```
pub struct Sheet<'a> {
    // The length is not above the buffer's.
    buffer: &'a mut [u8],
    length: usize,
}

impl<'a> Sheet<'a> {
    /// A sheet of no records. `NoSpace` where the buffer has fewer than 4 bytes.
    ///
    /// ```
    /// use taxolbin::{Error, Sheet};
    ///
    /// assert_eq!(Sheet::start(&mut [0; 4])?.bytes(), b"NS\0\0");
    /// assert_eq!(Sheet::start(&mut [0; 3]).unwrap_err(), Error::NoSpace);
    /// # Ok::<(), Error>(())
    /// ```
    pub fn start(buffer: &'a mut [u8]) -> Result<Sheet<'a>, Error> {
        ffi::linked();
        let (size, mut length) = (buffer.len(), 0);
        // SAFETY: the buffer's pointer goes with its size, and it is lent to this call alone.
        done(unsafe { ffi::taxolbin_start(buffer.as_mut_ptr(), size, &mut length) })?;
        Ok(Sheet { buffer, length })
    }

    /// The sheet that stands in the first `length` bytes of the buffer, to be added to. `CountOverStore` where the length is above the buffer's.
    ///
    /// The bytes are not looked at here: an addition to what is no sheet is refused with `NotSheet`, `CutRecord` or `BytesRemain`.
    ///
    /// ```
    /// use taxolbin::{Edit, Sheet};
    ///
    /// let mut buffer = [0u8; 32];
    /// let length = Sheet::start(&mut buffer)?.bytes().len();
    /// let mut sheet = Sheet::resume(&mut buffer, length)?;
    /// sheet.edit(Edit::Reverse)?;
    /// assert_eq!(sheet.bytes(), b"NS\x00\x01\x88\x00\x00");
    /// # Ok::<(), taxolbin::Error>(())
    /// ```
    pub fn resume(buffer: &'a mut [u8], length: usize) -> Result<Sheet<'a>, Error> {
        ffi::linked();
        if length > buffer.len() {
            return Err(Error::CountOverStore);
        }
        Ok(Sheet { buffer, length })
    }

    /// Adds an edit at the end. `NotSheet`, `CutRecord` or `BytesRemain` where a resumed sheet is none, `WidthOver` for a field's width over 64,
    /// `IndexOver` for a resize over [`RESIZE_MAX`](crate::RESIZE_MAX), `NoSpace` where the buffer is full or there are
    /// [`RECORDS_MAX`](crate::RECORDS_MAX) records.
    ///
    /// ```
    /// use taxolbin::{Edit, Error, Sheet};
    ///
    /// let mut buffer = [0u8; 32];
    /// let mut sheet = Sheet::start(&mut buffer)?;
    /// sheet.edit(Edit::Set { p: 7 })?;
    /// assert_eq!(sheet.bytes(), b"NS\x00\x01\x81\x00\x04\x00\x00\x00\x07");
    /// assert_eq!(sheet.edit(Edit::SetField { p: 0, width: 65, value: 0 }), Err(Error::WidthOver));
    /// # Ok::<(), Error>(())
    /// ```
    pub fn edit(&mut self, edit: Edit) -> Result<(), Error> {
        let (kind, fields) = edit.parts();
        self.add(1, kind, fields, &[])
    }

    /// Adds a remark at the end, which has no effect in any edition. `NotSheet`, `CutRecord` or `BytesRemain` where a resumed sheet is none,
    /// `NewerKind` for a kind over 127, `BadPayload` for more than [`PAYLOAD_MAX`](crate::PAYLOAD_MAX) bytes, `NoSpace` as of an edit.
    ///
    /// ```
    /// use taxolbin::{Error, Sheet};
    ///
    /// let mut buffer = [0u8; 32];
    /// let mut sheet = Sheet::start(&mut buffer)?;
    /// sheet.remark(1, b"hi")?;
    /// assert_eq!(sheet.bytes(), b"NS\x00\x01\x01\x00\x02hi");
    /// assert_eq!(sheet.remark(128, b""), Err(Error::NewerKind));
    /// # Ok::<(), Error>(())
    /// ```
    pub fn remark(&mut self, kind: u8, payload: &[u8]) -> Result<(), Error> {
        self.add(0, kind.into(), Fields::default(), payload)
    }

    fn add(&mut self, duty: u32, kind: usize, fields: Fields, payload: &[u8]) -> Result<(), Error> {
        let Fields { p, k, flag, width, value, bits } = fields;
        let (size, plength) = (self.buffer.len(), payload.len());
        let (buffer, length, payload) = (self.buffer.as_mut_ptr(), &mut self.length, payload.as_ptr());
        // SAFETY: each slice's pointer goes with its length, and buffer and length are lent to this call alone.
        done(unsafe { ffi::taxolbin_add(buffer, size, length, duty, kind, p, k, flag, width, value, bits, payload, plength) })
    }

    /// The sheet's bytes.
    ///
    /// ```
    /// assert_eq!(taxolbin::Sheet::start(&mut [0; 9])?.bytes(), b"NS\0\0");
    /// # Ok::<(), taxolbin::Error>(())
    /// ```
    pub fn bytes(&self) -> &[u8] {
        &self.buffer[..self.length]
    }

    /// The sheet's bytes, for as long as the buffer is lent.
    ///
    /// ```
    /// use taxolbin::{Edit, Error, Sheet};
    ///
    /// fn make(buffer: &mut [u8]) -> Result<&mut [u8], Error> {
    ///     let mut sheet = Sheet::start(buffer)?;
    ///     sheet.edit(Edit::Reverse)?;
    ///     Ok(sheet.into_bytes())
    /// }
    /// assert_eq!(make(&mut [0; 9])?, b"NS\x00\x01\x88\x00\x00");
    /// # Ok::<(), Error>(())
    /// ```
    pub fn into_bytes(self) -> &'a mut [u8] {
        &mut self.buffer[..self.length]
    }
}

/// The sheet's bytes, without the rest of the buffer.
impl fmt::Debug for Sheet<'_> {
    fn fmt(&self, f: &mut fmt::Formatter<'_>) -> fmt::Result {
        f.debug_tuple("Sheet").field(&self.bytes()).finish()
    }
}

/// The sheet's bytes, as to write them to a file.
impl AsRef<[u8]> for Sheet<'_> {
    fn as_ref(&self) -> &[u8] {
        self.bytes()
    }
}

/// What an accepted sheet has made of the old bitmap.
///
/// ```
/// use taxolbin::{read, BitSlice, Edition, Reading};
///
/// # fn main() -> Result<(), Box<dyn std::error::Error>> {
/// let mut result = [0; 1];
/// let Reading { bitmap, records } = read(Edition::One, b"NS\x00\x01\x88\x00\x00", BitSlice::new(&[1])?, &mut result)?;
/// assert_eq!((bitmap.last_set(), records), (Some(63), 1));
/// # Ok(())
/// # }
/// ```
#[derive(Debug, PartialEq, Eq)]
#[must_use = "the sheet's effect is in the bitmap"]
pub struct Reading<'a> {
    /// The bitmap, in the result's store.
    pub bitmap: Bitmap<'a>,
    /// How many records the sheet has, remarks too.
    pub records: usize,
}

/// Why a sheet is refused, and at which record.
///
/// ```
/// use taxolbin::{read, BitSlice, Edition};
///
/// let refused = read(Edition::One, b"no sheet", BitSlice::new(&[])?, &mut []).unwrap_err();
/// assert_eq!(refused.to_string(), "the bytes are not a sheet: fewer than 4, or the first two are not N and S (9)");
/// # Ok::<(), taxolbin::Error>(())
/// ```
#[derive(Debug, Clone, Copy, PartialEq, Eq, Hash)]
pub struct ReadError {
    /// Why.
    pub error: Error,
    /// The number of the refused record, from 1 on; 0 where it is no record's fault.
    pub record: usize,
}

/// `record 5: ` before the error's own text, which stands alone where it is no record's fault.
impl fmt::Display for ReadError {
    fn fmt(&self, f: &mut fmt::Formatter<'_>) -> fmt::Result {
        match self.record {
            0 => self.error.fmt(f),
            record => write!(f, "record {record}: {}", self.error),
        }
    }
}

impl core::error::Error for ReadError {
    fn source(&self) -> Option<&(dyn core::error::Error + 'static)> {
        Some(&self.error)
    }
}

/// Reads a sheet in an edition: the old bitmap, changed by the sheet's edits in order, into the result's store.
///
/// An earlier edition gives a later one's whole answer, or refuses and names the first record that is too new for it. Errors are, with record 0,
/// `StoreTooLong` for the result's store, `NotSheet`, and `NoSpace` where the old bitmap has more words than the result's store; at a record
/// `CutRecord`, `NewerKind`, `BadPayload` and `NoSpace`, and at the last one `BytesRemain`.
///
/// A refused reading leaves the result's store all zero, whatever it held; with `StoreTooLong` alone it leaves it as it was. Of the C call
/// `CountOverStore` and `NoEdition` leave it too, but what they stand for cannot be handed in here.
///
/// ```
/// use taxolbin::{read, BitSlice, Edit, Edition, Error, Sheet};
///
/// # fn main() -> Result<(), Box<dyn std::error::Error>> {
/// let mut buffer = [0u8; 32];
/// let mut sheet = Sheet::start(&mut buffer)?;
/// sheet.edit(Edit::Close { p: 0, k: 1 })?;
/// let (old, mut result) = (BitSlice::new(&[0b110])?, [9]);
///
/// let refused = read(Edition::One, sheet.bytes(), old, &mut result).unwrap_err();
/// assert_eq!((refused.error, refused.record, result), (Error::NewerKind, 1, [0]));
/// let reading = read(Edition::Two, sheet.bytes(), old, &mut result)?;
/// assert_eq!(reading.bitmap.words(), [0b11]);
/// # Ok(())
/// # }
/// ```
pub fn read<'a>(edition: Edition, sheet: &[u8], old: &BitSlice, result: &'a mut [u64]) -> Result<Reading<'a>, ReadError> {
    let (edition, words, rcapacity) = (edition.number(), old.words(), result.len());
    let (count, out) = (words.len(), result.as_mut_ptr());
    let (mut record, mut rcount) = (0, 0);
    // SAFETY: each slice's pointer goes with its length, and the result's store is lent to this call alone.
    let number =
        unsafe { ffi::taxolbin_read(edition, sheet.as_ptr(), sheet.len(), words.as_ptr(), count, count, out, rcapacity, &mut record, &mut rcount) };
    done(number).map_err(|error| ReadError { error, record })?;
    Ok(Reading { bitmap: Bitmap::of(result, rcount), records: record })
}
