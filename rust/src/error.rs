// The number of an error and its text, and how a number of the archive becomes a result.
use core::fmt;

use crate::numbers::Error;

impl Error {
    /// The number that the C calls return for it, 1 to 16.
    ///
    /// ```
    /// assert_eq!(taxolbin::Error::NewerKind.number(), 13);
    /// ```
    pub const fn number(self) -> u32 {
        self as u32
    }

    /// The error of a number; `None` for 0, which is done, and for a number that there is not.
    ///
    /// ```
    /// use taxolbin::Error;
    ///
    /// assert_eq!(Error::from_number(6), Some(Error::NoSpace));
    /// assert_eq!(Error::from_number(0), None);
    /// ```
    pub fn from_number(number: u32) -> Option<Error> {
        Error::ALL.into_iter().find(|error| error.number() == number)
    }
}

/// The sentence and the number: `the text is not a list in its style (7)`.
impl fmt::Display for Error {
    fn fmt(&self, f: &mut fmt::Formatter<'_>) -> fmt::Result {
        write!(f, "{} ({})", self.why(), self.number())
    }
}

impl core::error::Error for Error {}

const OTHER: &str = "the archive is of another version";

// The result of a call that can be refused.
#[inline]
#[track_caller]
pub(crate) fn done(number: u32) -> Result<(), Error> {
    match number {
        0 => Ok(()),
        _ => Err(Error::from_number(number).expect(OTHER)),
    }
}

// A call whose refusals the types rule out: that it then returns 0 is proved, of the archive that this package is for.
#[inline]
#[track_caller]
pub(crate) fn proved(number: u32) {
    assert!(number == 0, "{OTHER}");
}
