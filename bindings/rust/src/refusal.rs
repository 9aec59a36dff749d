//! Why a call refuses.

use std::fmt;

/// Why a call refuses: the cause, and its place.
///
/// It says itself in words:
///
/// ```
/// use chaloenpik::{accept, Cause, Kind, Refusal};
///
/// let refusal = accept(Kind::LoginResponse, &[0, 0, 0, 3, 0, 3, 0]).unwrap_err();
/// assert_eq!(refusal, Refusal { cause: Cause::LeftOver, place: 6 });
/// assert_eq!(refusal.number(), 4);
/// assert_eq!(refusal.to_string(), "bytes are left after the last field (refusal 4) at byte 6");
/// ```
#[derive(Clone, Copy, Debug, PartialEq, Eq, Hash)]
pub struct Refusal {
    /// What is wrong.
    pub cause: Cause,
    /// Where. In a message or an area that is read, the byte that [`Cause`] names; in one that is written, the writer's position before the
    /// step. Of [`Cause::ShortOutput`] the bytes that are needed; of [`Cause::BadCard`] a byte of the card. Of [`Cause::NoColumn`],
    /// [`Cause::CardMisfit`] and [`Cause::PastEnd`] it is 0 and means nothing.
    pub place: usize,
}

/// The paper's causes of a refusal, by its numbers. `docs/NUMBERS.md` in the repository says of each which calls give it.
#[derive(Clone, Copy, Debug, PartialEq, Eq, Hash)]
#[repr(u8)]
pub enum Cause {
    /// A field, or a counted body, doesn't fit its room: at the field, and for a body at its length field.
    NoRoom = 1,
    /// A length or count is negative and not a permitted -1, or the message length is 0: at that field.
    Negative = 2,
    /// A limit is passed: at that length or count.
    OverLimit = 3,
    /// Bytes are left in a room after its last field: at the first such byte.
    LeftOver = 4,
    /// The version or the hash version is not 0 or 1: at that byte.
    Version = 5,
    /// A wire type is unknown, or not permitted there, or not that of the column or array that a value is written to: at that byte.
    WireType = 6,
    /// The output is too short: the place is how many bytes are needed, by a writer to carry out this step.
    ShortOutput = 8,
    /// No column has that name.
    NoColumn = 9,
    /// A well-formed card doesn't fit the table: another column stands at its position, or none. [`card_fit`](crate::card_fit) says why.
    CardMisfit = 10,
    /// There is no such table, row, column, parameter, element, ring, vertex, field or byte, or a column's name isn't inside the lent names, or
    /// a whole row's cell not inside the lent bytes.
    PastEnd = 11,
    /// A card breaks its form: at its first wrong byte; for a wrong size, the smaller of the sizes.
    BadCard = 12,
    /// A step of a writer comes at a stage that doesn't permit it: at the writer's position.
    WrongStage = 13,
    /// A text isn't well-formed UTF-8: at the first byte that begins no well-formed sequence. Only what is read is refused so, and bytes that
    /// [`ReplyWriter::whole_row`](crate::ReplyWriter::whole_row) is lent: else writers take `&str`.
    BadText = 20,
    /// A decimal is neither from -(10^38 - 1) to 10^38 - 1 units nor null: at its first byte.
    BadDecimal = 21,
    /// A point is neither a position, from -180 to 180 and from -90 to 90 degrees, nor null: at its first byte.
    BadPoint = 22,
    /// The flag byte of a response has a bit set other than 32, 64 and 128: at that byte. Only what is read is refused so: the flags that
    /// are written follow from [`ReplyHead`](crate::ReplyHead).
    BadFlags = 23,
    /// The name of a column has a byte above 127: at the first such byte.
    BadName = 24,
    /// A geography is empty: at its length field. In an area the third byte isn't 0 or 1 or doesn't fit the ring count, or there are too
    /// few rings or vertices: at that byte or count.
    BadGeography = 25,
    /// The archive answered what its header doesn't describe. The proved functions never do; it means that another archive was linked
    /// than this crate is written for. The paper has no number for it.
    UnknownAnswer = 0,
}

/// The paper's causes. Its numbers have gaps.
const CAUSES: [Cause; 18] = [
    Cause::NoRoom,
    Cause::Negative,
    Cause::OverLimit,
    Cause::LeftOver,
    Cause::Version,
    Cause::WireType,
    Cause::ShortOutput,
    Cause::NoColumn,
    Cause::CardMisfit,
    Cause::PastEnd,
    Cause::BadCard,
    Cause::WrongStage,
    Cause::BadText,
    Cause::BadDecimal,
    Cause::BadPoint,
    Cause::BadFlags,
    Cause::BadName,
    Cause::BadGeography,
];

impl Cause {
    /// The paper's number, 1 to 6, 8 to 13 or 20 to 25; 0 for [`Cause::UnknownAnswer`].
    pub fn number(self) -> u8 {
        self as u8
    }

    fn from_number(number: u8) -> Cause {
        CAUSES.into_iter().find(|cause| cause.number() == number).unwrap_or(Cause::UnknownAnswer)
    }

    fn words(self) -> &'static str {
        match self {
            Cause::NoRoom => "a field or a counted body doesn't fit its room",
            Cause::Negative => "a length or count is negative, or the message length is 0",
            Cause::OverLimit => "a length or count passes its limit",
            Cause::LeftOver => "bytes are left after the last field",
            Cause::Version => "a version or hash version is not 0 or 1",
            Cause::WireType => "a wire type is unknown or not permitted there",
            Cause::ShortOutput => "the output is too short",
            Cause::NoColumn => "no column has that name",
            Cause::CardMisfit => "the card doesn't fit the table",
            Cause::PastEnd => "what is asked for is past the end",
            Cause::BadCard => "the card breaks its form",
            Cause::WrongStage => "the writer's stage doesn't permit this step",
            Cause::BadText => "a text isn't well-formed UTF-8",
            Cause::BadDecimal => "a decimal is out of its range and isn't null",
            Cause::BadPoint => "a point is neither a position nor null",
            Cause::BadFlags => "the flag byte has a bit set other than 32, 64 and 128",
            Cause::BadName => "a column's name has a byte above 127",
            Cause::BadGeography => "a geography is empty, or has too few rings or vertices or a wrong third byte",
            Cause::UnknownAnswer => "the linked archive gave an answer that its header doesn't describe",
        }
    }
}

impl fmt::Display for Cause {
    fn fmt(&self, f: &mut fmt::Formatter<'_>) -> fmt::Result {
        f.pad(self.words())
    }
}

impl Refusal {
    pub(crate) const PAST_END: Refusal = Refusal { cause: Cause::PastEnd, place: 0 };
    pub(crate) const NO_COLUMN: Refusal = Refusal { cause: Cause::NoColumn, place: 0 };
    pub(crate) const UNKNOWN_ANSWER: Refusal = Refusal { cause: Cause::UnknownAnswer, place: 0 };

    /// The paper's number of the cause: [`Cause::number`].
    pub fn number(&self) -> u8 {
        self.cause.number()
    }
}

impl fmt::Display for Refusal {
    fn fmt(&self, f: &mut fmt::Formatter<'_>) -> fmt::Result {
        write!(f, "{} (refusal {})", self.cause, self.number())?;
        match self.cause {
            Cause::NoColumn | Cause::CardMisfit | Cause::PastEnd | Cause::UnknownAnswer => Ok(()),
            Cause::ShortOutput => write!(f, ": {} bytes are needed", self.place),
            Cause::BadCard => write!(f, " at byte {} of the card", self.place),
            Cause::WrongStage => write!(f, " at position {}", self.place),
            _ => write!(f, " at byte {}", self.place),
        }
    }
}

impl std::error::Error for Refusal {}

/// An answer of a foreign function taken apart: what was found, or the refusal.
pub(crate) fn found(answer: u64) -> Result<usize, Refusal> {
    let above = (answer >> 8) as usize;
    match (answer & 255) as u8 {
        0 => Ok(above),
        number => Err(Refusal { cause: Cause::from_number(number), place: above }),
    }
}

#[cfg(test)]
mod tests {
    use super::*;

    #[test]
    fn every_answer_is_taken_apart() {
        assert_eq!(found(30 << 8), Ok(30));
        for number in (1..=6).chain(8..=13).chain(20..=25) {
            let refusal = found(30 << 8 | u64::from(number)).unwrap_err();
            assert_eq!((refusal.number(), refusal.place), (number, 30));
        }
        for number in [7].into_iter().chain(14..=19).chain(26..=255) {
            assert_eq!(found(number).map_err(|no| no.cause), Err(Cause::UnknownAnswer));
        }
    }

    #[test]
    fn refusals_say_themselves() {
        let words = |cause| Refusal { cause, place: 30 }.to_string();
        assert_eq!(words(Cause::Negative), "a length or count is negative, or the message length is 0 (refusal 2) at byte 30");
        assert_eq!(words(Cause::ShortOutput), "the output is too short (refusal 8): 30 bytes are needed");
        assert_eq!(words(Cause::NoColumn), "no column has that name (refusal 9)");
        assert_eq!(words(Cause::BadCard), "the card breaks its form (refusal 12) at byte 30 of the card");
        assert_eq!(words(Cause::WrongStage), "the writer's stage doesn't permit this step (refusal 13) at position 30");
        assert_eq!(words(Cause::BadText), "a text isn't well-formed UTF-8 (refusal 20) at byte 30");
        assert_eq!(words(Cause::BadDecimal), "a decimal is out of its range and isn't null (refusal 21) at byte 30");
    }
}
