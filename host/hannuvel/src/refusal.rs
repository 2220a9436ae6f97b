//! The grounds for turning a call down, and the answer of a C call taken apart.

use std::error::Error;
use std::fmt;

/// Why a call is turned down: one of nine grounds, in checking order. Where a call has two, the lower number is given.
///
/// ```
/// use hannuvel::{Refusal, Table, parse_overrides};
///
/// let mut table = Table::<4>::new();
/// let refusal = parse_overrides(r"\pos(x,1e9)", &mut table).unwrap_err();
/// assert_eq!(refusal, Refusal::NumeralTooLong(7));
/// assert_eq!((refusal.number(), refusal.place(), refusal.count()), (3, Some(7), None));
/// assert_eq!(refusal.to_string(), "a numeral is too long, at byte 7");
/// ```
#[derive(Clone, Copy, Debug, PartialEq, Eq, Hash)]
pub enum Refusal {
    /// 1: the text has more than [`MOST_BYTES`](crate::MOST_BYTES) bytes.
    TextTooLong,
    /// 2: a byte is 128 or more. Holds the place of the first.
    NotAscii(usize),
    /// 3: a numeral, written out without its exponent, has over nine digits before or after its point, or its exponent
    /// has over two digits; in a drawing also `inf`, `infinity` or `nan`. Holds the place of its first byte.
    NumeralTooLong(usize),
    /// 4: a time of a \fade lies beyond [`MOST_MS`](crate::MOST_MS). Holds the place of the \fade's backslash.
    FadeTooFar(usize),
    /// 5: the table is not well formed. Holds the first record at fault.
    TableMalformed(usize),
    /// 6: an instant or a duration lies beyond [`MOST_MS`](crate::MOST_MS).
    TimeOutOfRange,
    /// 7: a drawing's scale exponent is above [`MOST_EXPONENT`](crate::MOST_EXPONENT).
    ScaleTooLarge,
    /// 8: a name ends beyond the text.
    NameBeyondText,
    /// 9: what was lent has fewer places than needed. Holds how many records, spans or commands are needed.
    NoRoom(usize),
}

impl Refusal {
    /// The ground's number, 1 to 9.
    ///
    /// ```
    /// assert_eq!(hannuvel::Refusal::NoRoom(12).number(), 9);
    /// ```
    pub fn number(self) -> u8 {
        match self {
            Refusal::TextTooLong => 1,
            Refusal::NotAscii(_) => 2,
            Refusal::NumeralTooLong(_) => 3,
            Refusal::FadeTooFar(_) => 4,
            Refusal::TableMalformed(_) => 5,
            Refusal::TimeOutOfRange => 6,
            Refusal::ScaleTooLarge => 7,
            Refusal::NameBeyondText => 8,
            Refusal::NoRoom(_) => 9,
        }
    }

    /// The byte of the text, or for a malformed table the record, that is at fault, counted from 0.
    ///
    /// ```
    /// assert_eq!(hannuvel::Refusal::NotAscii(5).place(), Some(5));
    /// assert_eq!(hannuvel::Refusal::TextTooLong.place(), None);
    /// ```
    pub fn place(self) -> Option<usize> {
        match self {
            Refusal::NotAscii(place)
            | Refusal::NumeralTooLong(place)
            | Refusal::FadeTooFar(place)
            | Refusal::TableMalformed(place) => Some(place),
            _ => None,
        }
    }

    /// How many records, spans or commands the whole input needs, where there was no room for them.
    ///
    /// ```
    /// use hannuvel::parse_overrides;
    ///
    /// let refusal = parse_overrides(r"\b1\i1\u1", &mut [0; 16]).unwrap_err();
    /// assert_eq!(refusal.count(), Some(3));
    /// ```
    pub fn count(self) -> Option<usize> {
        match self {
            Refusal::NoRoom(count) => Some(count),
            _ => None,
        }
    }

    /// The refusal of a ground's number with its place or count, 0 where it has none.
    fn of(number: u64, place: usize) -> Refusal {
        match number {
            1 => Refusal::TextTooLong,
            2 => Refusal::NotAscii(place),
            3 => Refusal::NumeralTooLong(place),
            4 => Refusal::FadeTooFar(place),
            5 => Refusal::TableMalformed(place),
            6 => Refusal::TimeOutOfRange,
            7 => Refusal::ScaleTooLarge,
            8 => Refusal::NameBeyondText,
            9 => Refusal::NoRoom(place),
            _ => unreachable!("the library has nine grounds"),
        }
    }
}

impl fmt::Display for Refusal {
    fn fmt(&self, f: &mut fmt::Formatter) -> fmt::Result {
        match self {
            Refusal::TextTooLong => write!(f, "the text has more than 12288 bytes"),
            Refusal::NotAscii(place) => write!(f, "a byte is 128 or more, at byte {place}"),
            Refusal::NumeralTooLong(place) => write!(f, "a numeral is too long, at byte {place}"),
            Refusal::FadeTooFar(place) => {
                write!(f, "a time of a \\fade lies beyond 1000000000 ms, at byte {place}")
            }
            Refusal::TableMalformed(place) => {
                write!(f, "the table is not well formed, at record {place}")
            }
            Refusal::TimeOutOfRange => {
                write!(f, "an instant or a duration lies beyond 1000000000 ms")
            }
            Refusal::ScaleTooLarge => write!(f, "a drawing's scale exponent is above 32"),
            Refusal::NameBeyondText => write!(f, "a name ends beyond the text"),
            Refusal::NoRoom(count) => write!(f, "there is no room: {count} places are needed"),
        }
    }
}

impl Error for Refusal {}

/// What a C call answered: its value and its extra.
#[derive(Clone, Copy, Debug, PartialEq, Eq)]
pub struct Answer {
    pub value: u32,
    pub extra: u16,
}

impl Answer {
    /// Takes apart what a C call returned: bits 48 to 63 the ground, 32 to 47 the extra, 0 to 31 the value.
    pub fn of(returned: u64) -> Result<Answer, Refusal> {
        let (ground, extra, value) = (returned >> 48, (returned >> 32) as u16, returned as u32);
        match ground {
            0 => Ok(Answer { value, extra }),
            _ => Err(Refusal::of(ground, value as usize)),
        }
    }
}

#[cfg(test)]
mod tests {
    use super::*;

    const ALL: [Refusal; 9] = [
        Refusal::TextTooLong,
        Refusal::NotAscii(17),
        Refusal::NumeralTooLong(17),
        Refusal::FadeTooFar(17),
        Refusal::TableMalformed(17),
        Refusal::TimeOutOfRange,
        Refusal::ScaleTooLarge,
        Refusal::NameBeyondText,
        Refusal::NoRoom(17),
    ];

    #[test]
    fn an_answer_is_its_value_and_extra() {
        assert_eq!(Answer::of(0), Ok(Answer { value: 0, extra: 0 }));
        let (value, extra) = (u32::MAX, u16::MAX);
        assert_eq!(Answer::of(0x0000_FFFF_FFFF_FFFF), Ok(Answer { value, extra }));
    }

    #[test]
    fn every_ground_has_its_number_place_and_count() {
        for (refusal, number) in ALL.into_iter().zip(1u8..) {
            let stated = refusal.place().or(refusal.count()).unwrap_or(0);
            let returned = u64::from(number) << 48 | stated as u64;
            assert_eq!(Answer::of(returned), Err(refusal));
            assert_eq!(refusal.number(), number);
        }
    }

    #[test]
    fn every_ground_is_one_sentence() {
        for refusal in ALL {
            let sentence = refusal.to_string();
            let stated = refusal.place().or(refusal.count());
            assert_eq!(sentence.contains("17"), stated.is_some(), "{sentence}");
            assert!(!sentence.ends_with('.') && !sentence.contains('\n'), "{sentence}");
            let _: &dyn Error = &refusal;
        }
    }
}
