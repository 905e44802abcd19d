// Written by include/numbers.py from numbers.txt.

/// Why a call is refused.
///
/// The number of each is the one that the C header has; [`Error::why`] is the sentence for a user.
///
/// ```
/// use taxolbin::{Bitmap, Error, Style};
///
/// let mut store = [0u64; 2];
/// let mut notes = Bitmap::empty(&mut store)?;
/// assert_eq!(notes.set(128), Err(Error::NoSpace));
/// assert_eq!(notes.from_list("5-3", Style::PLAIN).unwrap_err().why(), "the text is not a list in its style");
/// # Ok::<(), Error>(())
/// ```
#[derive(Debug, Clone, Copy, PartialEq, Eq, PartialOrd, Ord, Hash)]
#[non_exhaustive]
pub enum Error {
    /// A store has more than 67,108,864 words.
    /// Brought about by the calling program.
    StoreTooLong = 1,
    /// A word count is above its store, or a sheet's length above its buffer.
    /// Brought about by the calling program.
    CountOverStore = 2,
    /// A field is wider than 64 bits.
    /// Brought about by the calling program.
    WidthOver = 3,
    /// The last index passes 2^64 - 1, or a resize in a sheet is over 4,294,967,296 bits.
    /// Brought about by the calling program.
    IndexOver = 4,
    /// A bit is past the bitmap's length.
    /// Brought about by the calling program.
    PastLength = 5,
    /// The result needs more words or bytes than were lent, or the sheet already has 65,535 records.
    /// Brought about by whoever lends the memory.
    NoSpace = 6,
    /// The text is not a list in its style.
    /// Brought about by whoever typed the list.
    NotList = 7,
    /// The text has a byte of 128 or more.
    /// Brought about by whoever typed the list.
    NotAscii = 8,
    /// The bytes are not a sheet: fewer than 4, or the first two are not N and S.
    /// Brought about by whoever made the sheet.
    NotSheet = 9,
    /// A record runs past the end of the sheet.
    /// Brought about by whoever made the sheet.
    CutRecord = 10,
    /// Bytes remain after the sheet's last record.
    /// Brought about by whoever made the sheet.
    BytesRemain = 11,
    /// A record's payload is wrong for its kind (length, unused bits, width or resize), or a remark is over 65,535 bytes.
    /// Brought about by whoever made the sheet.
    BadPayload = 12,
    /// A record's kind is newer than the edition, or there is no such kind.
    /// Brought about by whoever made the sheet.
    NewerKind = 13,
    /// The edition is neither 1 nor 2.
    /// Brought about by the calling program.
    NoEdition = 14,
    /// A style of list text is outside its limits: a first number over 1,000, a joiner that is not printable or is a digit, a comma or a blank, or a shortest range that is not 2 to 9.
    /// Brought about by the calling program.
    BadStyle = 15,
    /// A number of the list is above the limit, which is 4,294,967,295 plus the style's first number.
    /// Brought about by whoever typed the list.
    NumberOver = 16,
}

impl Error {
    pub(crate) const ALL: [Error; 16] = [
        Error::StoreTooLong,
        Error::CountOverStore,
        Error::WidthOver,
        Error::IndexOver,
        Error::PastLength,
        Error::NoSpace,
        Error::NotList,
        Error::NotAscii,
        Error::NotSheet,
        Error::CutRecord,
        Error::BytesRemain,
        Error::BadPayload,
        Error::NewerKind,
        Error::NoEdition,
        Error::BadStyle,
        Error::NumberOver,
    ];

    /// The refusal in words.
    pub const fn why(self) -> &'static str {
        match self {
            Error::StoreTooLong => "a store has more than 67,108,864 words",
            Error::CountOverStore => "a word count is above its store, or a sheet's length above its buffer",
            Error::WidthOver => "a field is wider than 64 bits",
            Error::IndexOver => "the last index passes 2^64 - 1, or a resize in a sheet is over 4,294,967,296 bits",
            Error::PastLength => "a bit is past the bitmap's length",
            Error::NoSpace => "the result needs more words or bytes than were lent, or the sheet already has 65,535 records",
            Error::NotList => "the text is not a list in its style",
            Error::NotAscii => "the text has a byte of 128 or more",
            Error::NotSheet => "the bytes are not a sheet: fewer than 4, or the first two are not N and S",
            Error::CutRecord => "a record runs past the end of the sheet",
            Error::BytesRemain => "bytes remain after the sheet's last record",
            Error::BadPayload => "a record's payload is wrong for its kind (length, unused bits, width or resize), or a remark is over 65,535 bytes",
            Error::NewerKind => "a record's kind is newer than the edition, or there is no such kind",
            Error::NoEdition => "the edition is neither 1 nor 2",
            Error::BadStyle => {
                "a style of list text is outside its limits: a first number over 1,000, a joiner that is not printable or is a digit, a comma or a blank, or a shortest range that is not 2 to 9"
            }
            Error::NumberOver => "a number of the list is above the limit, which is 4,294,967,295 plus the style's first number",
        }
    }
}
