// How a publisher writes list text.

/// The style of list text: how a publisher writes page lists.
///
/// A field may have any value. A call that is given a style outside the limits below is refused with [`Error::BadStyle`](crate::Error::BadStyle),
/// whatever its text, its bitmap and its buffer are. What an allowed style reads depends on `first` and `joiner` alone:
/// blanks may stand around numbers and short runs may be ranges in every style.
///
/// A publisher who numbers from 1, joins runs with a colon and writes none of fewer than 3 numbers as a range:
///
/// ```
/// use taxolbin::{Bitmap, Error, Style};
///
/// let house = Style { first: 1, joiner: usize::from(b':'), shortest: 3, ..Style::PLAIN };
/// let (mut store, mut text) = ([0; 2], [0; 64]);
/// let mut notes = Bitmap::empty(&mut store)?;
/// notes.from_list("4:5, 7:9", house)?;
/// assert_eq!(notes.write_list(&mut text, house), Ok("4, 5, 7:9"));
/// assert_eq!(notes.write_list(&mut text, Style::PLAIN), Ok("3-4, 6-8"));
/// assert_eq!(notes.from_list("7-9", house), Err(Error::NotList));
/// assert_eq!(notes.from_list("0", house), Err(Error::NotList));
/// assert_eq!(notes.from_list("4", Style { shortest: 1, ..house }), Err(Error::BadStyle));
/// # Ok::<(), Error>(())
/// ```
#[derive(Clone, Copy, Debug, PartialEq, Eq, Hash)]
pub struct Style {
    /// A number of the text is a bit plus this, 0 to 1,000. A smaller number is [`Error::NotList`](crate::Error::NotList), and one that is larger by
    /// more than 4,294,967,295 is [`Error::NumberOver`](crate::Error::NumberOver).
    pub first: usize,
    /// The byte between the two numbers of a range: 33 to 126, but no comma (44) and no digit (48 to 57). A value over
    /// 255 is refused too, and not cut to a byte before it is looked at.
    pub joiner: usize,
    /// Whether a blank is printed after a comma.
    pub blank: bool,
    /// A run of at least so many numbers is printed as a range, a shorter one number by number; 2 to 9.
    pub shortest: usize,
}

impl Style {
    /// The style in which `0-3, 5-7, 11` is written: bits as they are, a hyphen, a blank, and every run of two or more as a range.
    ///
    /// ```
    /// use taxolbin::Style;
    ///
    /// assert_eq!(Style::PLAIN, Style { first: 0, joiner: usize::from(b'-'), blank: true, shortest: 2 });
    /// assert_eq!(Style::PLAIN, Style::default());
    /// ```
    pub const PLAIN: Style = Style { first: 0, joiner: b'-' as usize, blank: true, shortest: 2 };
}

/// The plain style.
impl Default for Style {
    fn default() -> Style {
        Style::PLAIN
    }
}
