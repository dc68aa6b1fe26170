//! Why a label is turned away.

use std::error::Error;
use std::fmt;

/// A refusal: its number, the record that it names, and words for people.
///
/// | No. | Exactly when |
/// |---|---|
/// | 1 | width or height is above 4,096 |
/// | 2 | the band's start is above its end, or its end above height |
/// | 3 | pitch is below width or above 65,536 |
/// | 4 | the band has rows and the mask is shorter than pitch · (rows − 1) + width |
/// | 5 | the workspace has fewer words than there are rows to draw |
/// | 6 | a number of the transform or of the offset is NaN or infinite |
/// | 7 | the list is longer than 65,536 bytes |
/// | 8 | a record is cut: 1 to 3 bytes are left, or its body passes the end |
/// | 9 | a kind is not 1 to 5 |
/// | 10 | a length is not the kind's |
/// | 11 | the list begins with another record than a MoveTo |
/// | 12 | the point rule refuses a point |
/// | 13 | the distinct places (column, row) that are stored outnumber the pool's |
/// | 18 | a LineTo, QuadTo or CurveTo stands directly after a Close |
///
/// The point rule: transformed and moved by the offset, both parts are finite and, times 256 and
/// cut toward zero, at most 1,048,576 either way: 4096.0034 passes and 4096.00390625 fails.
///
/// 1 to 7 are judged in this order; then each record, from the first on, up to one that is refused: a
/// cut header (8), 9, 10, a cut body (8), 11, 18, 12. 13 comes last. 14 to 17 are not given. Which of
/// them a function gives is said by its *Errors*.
///
/// 8 to 12 and 18 name the record at fault. 13 names the one that is being drawn when a place first
/// finds no room: so many records, from the front, still fit. A place is stored when the pen leaves
/// it, so the record that leaves it counts, not the one that inked it; a MoveTo closes what is still
/// open, and leaves a place too. Where it is the end that closes or stores, 13 has the number of
/// records and the list's length:
///
/// ```
/// use mosszephyr::{draw_band, Label, Path, Refusal};
///
/// let mut path = Path::new();
/// path.move_to((1.0, 1.0)).line_to((3.0, 1.0)).line_to((3.0, 2.0)).line_to((1.0, 2.0)).close();
/// let drawn = |places: usize| {
///     let (mut mask, mut words) = ([0; 12], vec![0; 3 + 4 * places]);
///     draw_band(&path, &Label::new(4, 3), 0..3, &mut mask, &mut words)
/// };
/// let refusal = drawn(0).unwrap_err();
/// assert_eq!((refusal.record(), refusal.byte()), (Some(2), Some(24)));
/// let refusal = drawn(1).unwrap_err();
/// assert!(matches!(refusal, Refusal::Room { at_end: true, .. }));
/// assert_eq!((refusal.record(), refusal.byte()), (Some(5), Some(path.len())));
/// assert!(drawn(2).is_ok());
/// ```
///
/// As text, by `{}` and by `{:?}`, a refusal is what a person can use, so a `main` that returns it
/// tells enough:
///
/// ```
/// use mosszephyr::{draw, Label, Path, Refusal};
///
/// let mut path = Path::new();
/// path.move_to((0.0, 0.0)).line_to((f32::NAN, 0.0));
/// let refusal = draw(&path, &Label::new(1, 1)).unwrap_err();
/// assert!(matches!(refusal, Refusal::Point(Some(_))));
/// assert_eq!((refusal.record(), refusal.byte()), (Some(1), Some(12)));
/// assert!(refusal.to_string().starts_with("refused with 12 at record 1 (byte 12): a point is NaN"));
/// ```
#[derive(Clone, Copy, PartialEq, Eq, Hash)]
#[non_exhaustive]
pub enum Refusal {
    /// 1: a width or height above 4,096.
    Size,
    /// 2: a band that does not lie within the label.
    Band,
    /// 3: a pitch below the width or above 65,536.
    Pitch,
    /// 4: a mask too short for the band.
    Mask,
    /// 5: fewer words than rows.
    Workspace,
    /// 6: a transform or an offset with a number that is not finite.
    Float,
    /// 7: a list longer than 65,536 bytes.
    List,
    /// 8: a cut record.
    Cut(At),
    /// 9: a kind that is not 1 to 5.
    Kind(At),
    /// 10: a length that is not the kind's.
    Length(At),
    /// 11: a first record that is not MoveTo.
    Start(At),
    /// 12: a point that fails the point rule. No record is at fault where it is the offset of an
    /// empty path's placement.
    Point(Option<At>),
    /// 13: more places than the pool holds.
    Room {
        /// The record that is being drawn when a place first finds no room.
        at: At,
        /// Whether that is the list's end, behind the last record.
        at_end: bool,
    },
    /// 18: a LineTo, QuadTo or CurveTo directly after a Close, with no MoveTo between.
    AfterClose(At),
    /// A number that this version of the crate has no words for, from a library newer than it.
    Unknown(u32),
}

/// Where in a list a record stands, or, for 13, the list's end: where one more record would.
#[derive(Clone, Copy, Debug, PartialEq, Eq, Hash)]
pub struct At {
    /// The record's index, from 0.
    pub record: usize,
    /// Where it starts in the list: how many bytes stand before it.
    pub byte: usize,
}

impl Refusal {
    /// The refusal with this number, by the library's judgement of a list.
    pub(crate) fn new(number: u32, record: usize, list: &[u8]) -> Refusal {
        let at = At::new(record, list);
        match number {
            1 => Refusal::Size,
            2 => Refusal::Band,
            3 => Refusal::Pitch,
            4 => Refusal::Mask,
            5 => Refusal::Workspace,
            6 => Refusal::Float,
            7 => Refusal::List,
            8 => Refusal::Cut(at),
            9 => Refusal::Kind(at),
            10 => Refusal::Length(at),
            11 => Refusal::Start(at),
            12 => Refusal::Point((!list.is_empty()).then_some(at)),
            13 => Refusal::Room {
                at,
                at_end: at.byte == list.len(),
            },
            18 => Refusal::AfterClose(at),
            unknown => Refusal::Unknown(unknown),
        }
    }

    /// The refusal's number, 1 to 13 or 18.
    #[must_use]
    pub const fn number(&self) -> u32 {
        match *self {
            Refusal::Size => 1,
            Refusal::Band => 2,
            Refusal::Pitch => 3,
            Refusal::Mask => 4,
            Refusal::Workspace => 5,
            Refusal::Float => 6,
            Refusal::List => 7,
            Refusal::Cut(_) => 8,
            Refusal::Kind(_) => 9,
            Refusal::Length(_) => 10,
            Refusal::Start(_) => 11,
            Refusal::Point(_) => 12,
            Refusal::Room { .. } => 13,
            Refusal::AfterClose(_) => 18,
            Refusal::Unknown(number) => number,
        }
    }

    /// The index of the record that is named, from 0, where one is; the number of records for the
    /// list's end.
    #[must_use]
    pub fn record(&self) -> Option<usize> {
        self.at().map(|at| at.record)
    }

    /// Where the record that is named starts: how many bytes of the list stand before it, all of them
    /// before the list's end.
    #[must_use]
    pub fn byte(&self) -> Option<usize> {
        self.at().map(|at| at.byte)
    }

    /// What is wrong, in words.
    #[must_use]
    pub const fn words(&self) -> &'static str {
        match self {
            Refusal::Size => "the width or the height is above 4,096 pixels",
            Refusal::Band => "the band does not lie within the label",
            Refusal::Pitch => "the pitch is below the width or above 65,536 bytes",
            Refusal::Mask => "the mask is too short for the band",
            Refusal::Workspace => "the workspace has fewer words than there are rows to draw",
            Refusal::Float => "a transform entry or an offset part is NaN or infinite",
            Refusal::List => "the path list is longer than 65,536 bytes",
            Refusal::Cut(_) => "the end of the list cuts the record",
            Refusal::Kind(_) => "the record's kind is not 1 to 5",
            Refusal::Length(_) => "the record's length is not its kind's",
            Refusal::Start(_) => "the first record is not a MoveTo",
            Refusal::Point(_) => {
                "a point is NaN, infinite, or 1/256 of a pixel or more beyond 4,096 from zero"
            }
            Refusal::Room { .. } => "the drawing needs more places than the workspace has room for",
            Refusal::AfterClose(_) => {
                "the record draws directly after a Close, with no MoveTo between"
            }
            Refusal::Unknown(_) => "an unknown refusal",
        }
    }

    const fn at(&self) -> Option<At> {
        match *self {
            Refusal::Cut(at)
            | Refusal::Kind(at)
            | Refusal::Length(at)
            | Refusal::Start(at)
            | Refusal::Room { at, .. }
            | Refusal::AfterClose(at) => Some(at),
            Refusal::Point(at) => at,
            _ => None,
        }
    }
}

impl At {
    /// Where a record starts whose forerunners were judged good: behind them, each being two bytes
    /// longer than it says. Other bytes have an answer too, within 65,537 bytes of the list's end.
    fn new(record: usize, list: &[u8]) -> At {
        let mut byte = 0;
        for _ in 0..record {
            let Some(&[low, high]) = list.get(byte..byte + 2) else {
                break;
            };
            byte += 2 + usize::from(u16::from_le_bytes([low, high]));
        }
        At { record, byte }
    }
}

impl fmt::Display for Refusal {
    fn fmt(&self, f: &mut fmt::Formatter<'_>) -> fmt::Result {
        write!(f, "refused with {}", self.number())?;
        if let Some(At { record, byte }) = self.at() {
            let end = match self {
                Refusal::Room { at_end: true, .. } => "the list's end, ",
                _ => "",
            };
            write!(f, " at {end}record {record} (byte {byte})")?;
        }
        write!(f, ": {}", self.words())
    }
}

/// As [`Display`](fmt::Display) says it, for `unwrap` and for a `main` that returns a refusal.
impl fmt::Debug for Refusal {
    fn fmt(&self, f: &mut fmt::Formatter<'_>) -> fmt::Result {
        fmt::Display::fmt(self, f)
    }
}

impl Error for Refusal {}

#[cfg(test)]
mod tests {
    use super::*;

    /// Three records of 12, 4 and 20 bytes.
    fn list() -> Vec<u8> {
        let mut list = vec![0; 36];
        (list[0], list[12], list[16]) = (10, 2, 18);
        list
    }

    #[test]
    fn numbers_are_kept_whatever_they_are() {
        for number in (1..=20).chain([u32::MAX]) {
            assert_eq!(Refusal::new(number, 0, &list()).number(), number);
        }
        for number in [14, 15, 16, 17, 19, 20] {
            let unknown = Refusal::new(number, 2, &list());
            assert_eq!(unknown, Refusal::Unknown(number));
            let said = format!("refused with {number}: an unknown refusal");
            assert_eq!(unknown.to_string(), said);
        }
    }

    #[test]
    fn bytes_are_those_before_the_record() {
        for (record, byte) in [(0, 0), (1, 12), (2, 16), (3, 36)] {
            for number in (8..=13).chain([18]) {
                let refusal = Refusal::new(number, record, &list());
                assert_eq!(
                    (refusal.record(), refusal.byte()),
                    (Some(record), Some(byte))
                );
            }
        }
        let last = Refusal::new(12, 2, &list()).to_string();
        assert!(last.starts_with("refused with 12 at record 2 (byte 16): a point"));
        let last = Refusal::new(18, 2, &list()).to_string();
        assert!(last.starts_with("refused with 18 at record 2 (byte 16): the record draws"));
    }

    #[test]
    fn only_8_to_13_and_18_have_a_record() {
        for number in 0..=20 {
            let refusal = Refusal::new(number, 1, &list());
            let named = (8..=13).contains(&number) || number == 18;
            let expected = named.then_some((1, 12));
            assert_eq!(refusal.record().zip(refusal.byte()), expected, "{number}");
        }
        assert_eq!(Refusal::new(12, 0, &[]), Refusal::Point(None));
    }

    /// Behind the last of three records there is the end.
    #[test]
    fn the_end_is_told_from_a_record() {
        for (record, byte) in [(1, 12), (2, 16), (3, 36)] {
            let (at, at_end) = (At { record, byte }, record == 3);
            let refusal = Refusal::new(13, record, &list());
            assert_eq!(refusal, Refusal::Room { at, at_end });
        }
        let words = "the drawing needs more places than the workspace has room for";
        let said = format!("refused with 13 at record 2 (byte 16): {words}");
        assert_eq!(Refusal::new(13, 2, &list()).to_string(), said);
        let said = format!("refused with 13 at the list's end, record 3 (byte 36): {words}");
        assert_eq!(Refusal::new(13, 3, &list()).to_string(), said);
    }

    /// A record that no list can have, and bytes that are no list.
    #[test]
    fn any_record_of_any_bytes_has_an_answer() {
        for list in [&list()[..], &[255; 9], &[0; 3], &[7], &[]] {
            for record in [0, 1, 2, 3, 100, usize::MAX] {
                let at = At::new(record, list);
                assert_eq!(at.record, record);
                assert!(at.byte <= list.len() + 65_537);
            }
        }
    }
}
