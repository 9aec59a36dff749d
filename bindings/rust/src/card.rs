//! Shortcut cards: a column kept by its position, type and name, to be found again without a search.

use crate::foreign;
use crate::refusal::{found, Refusal};
use std::fmt;
use std::ops::Deref;

/// A near card's size, and the first position that a far card holds.
const NEAR_SIZE: usize = 36;
const FAR_POSITION: usize = 64;

/// A shortcut card. It is plain bytes, to be kept in a file or wherever, and to be opened from there by [`open_card`].
///
/// There are two kinds, near and far, by the column's position: that of a column below 64 has 36 bytes, as each card had up to 0.4.0, and a
/// card that was kept then opens the same column still. Any other has [`Card::MOST_SIZE`].
///
/// ```
/// use chaloenpik::{make_card, open_card};
///
/// let report = include_bytes!("../../../samples/4-big-report.bin");
/// let near = make_card(report, 0, "ENGINE_ID")?;
/// let far = make_card(report, 0, "THROTTLE_LIMIT")?;
/// assert_eq!((near.len(), far.len()), (36, 37));
///
/// let kept: Vec<u8> = far.to_vec();
/// assert_eq!(open_card(report, 0, &kept)?, 257);
/// # Ok::<(), chaloenpik::Refusal>(())
/// ```
#[derive(Clone, Copy, PartialEq, Eq, Hash)]
pub struct Card {
    /// The card, and zeros behind it: so two that are equal have equal bytes throughout.
    bytes: [u8; Card::MOST_SIZE],
    size: usize,
}

impl Card {
    /// The most bytes that a card has.
    pub const MOST_SIZE: usize = 37;
}

impl Deref for Card {
    type Target = [u8];

    fn deref(&self) -> &[u8] {
        &self.bytes[..self.size]
    }
}

impl AsRef<[u8]> for Card {
    fn as_ref(&self) -> &[u8] {
        self
    }
}

impl fmt::Debug for Card {
    fn fmt(&self, f: &mut fmt::Formatter<'_>) -> fmt::Result {
        f.debug_tuple("Card").field(&&**self).finish()
    }
}

/// The card of the first column of a name in a table of a response. Refused 3, at the name's length in the message: it is longer than 32
/// bytes, and has no card.
pub fn make_card(message: &[u8], table: usize, name: impl AsRef<[u8]>) -> Result<Card, Refusal> {
    let name = name.as_ref();
    let mut bytes = [0; Card::MOST_SIZE];
    // SAFETY: pointers and lengths are those of slices; the card is lent for writing and is nobody else's.
    let position = found(unsafe {
        foreign::chaloenpik_make_card(message.as_ptr(), message.len(), table, name.as_ptr(), name.len(), bytes.as_mut_ptr(), bytes.len())
    })?;
    Ok(Card { bytes, size: if position < FAR_POSITION { NEAR_SIZE } else { Card::MOST_SIZE } })
}

/// The position of the column that a card stands for, if the table still has it there; if not, [`card_fit`] says why. Any bytes may be given as
/// a card.
pub fn open_card(message: &[u8], table: usize, card: &[u8]) -> Result<usize, Refusal> {
    // SAFETY: as above; both slices are only read.
    found(unsafe { foreign::chaloenpik_open_card(message.as_ptr(), message.len(), table, card.as_ptr(), card.len()) })
}

/// How a card fits a table, as [`card_fit`] tells it. It says itself in words, a card that doesn't fit by its reason.
#[derive(Clone, Copy, Debug, PartialEq, Eq, Hash)]
pub enum Fit {
    /// It fits: [`open_card`] opens it.
    Fits,
    /// It doesn't.
    Stale {
        /// Why.
        reason: Reason,
        /// The first position where a column of the card's name and type stands now, if there is one.
        now: Option<usize>,
    },
}

/// Why a card doesn't fit a table, by the header's numbers: the first that holds.
#[derive(Clone, Copy, Debug, PartialEq, Eq, Hash)]
#[repr(u8)]
pub enum Reason {
    /// Its position is past the last column.
    Past = 1,
    /// The column at its position has another type, whatever its name is.
    OtherType = 2,
    /// The column at its position has another name, and the card's type.
    OtherName = 3,
}

/// How a card fits a table of a response. It is refused as [`open_card`] is, but never because the card doesn't fit.
///
/// It opens nothing: who wants the column at its new place makes a new card.
///
/// ```
/// use chaloenpik::{card_fit, make_card, open_card, Cause, Fit, Reason};
///
/// let reply = include_bytes!("../../../samples/4-engines.bin");
/// let report = include_bytes!("../../../samples/4-big-report.bin");
/// let card = make_card(report, 0, "THROTTLE_LIMIT")?;
/// assert_eq!(card_fit(report, 0, &card)?, Fit::Fits);
///
/// assert_eq!(open_card(reply, 0, &card).unwrap_err().cause, Cause::CardMisfit);
/// let fit = card_fit(reply, 0, &card)?;
/// assert_eq!(fit, Fit::Stale { reason: Reason::Past, now: Some(3) });
/// assert_eq!(fit.to_string(), "its position is past the last column");
/// # Ok::<(), chaloenpik::Refusal>(())
/// ```
pub fn card_fit(message: &[u8], table: usize, card: &[u8]) -> Result<Fit, Refusal> {
    let mut numbers = [0; 3];
    // SAFETY: as above; the numbers are lent for writing and are nobody else's.
    found(unsafe { foreign::chaloenpik_card_fit(message.as_ptr(), message.len(), table, card.as_ptr(), card.len(), &mut numbers) })?;
    Fit::from_numbers(numbers)
}

impl Fit {
    /// The answer in numbers: 0 or a reason; 1 if the column stands somewhere, and where.
    fn from_numbers(numbers: [u64; 3]) -> Result<Fit, Refusal> {
        let stale = |reason, now| Ok(Fit::Stale { reason: Reason::from_number(reason)?, now });
        match numbers {
            [0, 0, 0] => Ok(Fit::Fits),
            [reason, 0, 0] => stale(reason, None),
            [reason, 1, now] => stale(reason, Some(now as usize)),
            _ => Err(Refusal::UNKNOWN_ANSWER),
        }
    }
}

impl Reason {
    const ALL: [Reason; 3] = [Reason::Past, Reason::OtherType, Reason::OtherName];

    fn from_number(number: u64) -> Result<Reason, Refusal> {
        Reason::ALL.into_iter().find(|reason| *reason as u64 == number).ok_or(Refusal::UNKNOWN_ANSWER)
    }
}

impl fmt::Display for Fit {
    fn fmt(&self, f: &mut fmt::Formatter<'_>) -> fmt::Result {
        match self {
            Fit::Fits => f.pad("it fits"),
            Fit::Stale { reason, .. } => reason.fmt(f),
        }
    }
}

impl fmt::Display for Reason {
    fn fmt(&self, f: &mut fmt::Formatter<'_>) -> fmt::Result {
        f.pad(match self {
            Reason::Past => "its position is past the last column",
            Reason::OtherType => "the column at its position has another type",
            Reason::OtherName => "the column at its position has another name",
        })
    }
}

#[cfg(test)]
mod tests {
    use super::*;

    #[test]
    fn every_answer_has_its_fit() {
        assert_eq!(Fit::from_numbers([0, 0, 0]), Ok(Fit::Fits));
        for reason in Reason::ALL {
            assert_eq!(Fit::from_numbers([reason as u64, 0, 0]), Ok(Fit::Stale { reason, now: None }));
            for now in [0, 1, 1023] {
                assert_eq!(Fit::from_numbers([reason as u64, 1, now as u64]), Ok(Fit::Stale { reason, now: Some(now) }));
            }
        }
    }

    #[test]
    fn what_the_header_does_not_have_is_unknown() {
        for numbers in [[4, 0, 0], [4, 1, 0], [257, 0, 0], [u64::MAX, 0, 0], [0, 1, 0], [0, 0, 1], [1, 0, 1], [1, 2, 0], [3, u64::MAX, 0]] {
            assert_eq!(Fit::from_numbers(numbers), Err(Refusal::UNKNOWN_ANSWER), "{numbers:?}");
        }
    }

    #[test]
    fn fits_say_themselves() {
        let told = |reason| Fit::Stale { reason, now: Some(3) }.to_string();
        assert_eq!(Fit::Fits.to_string(), "it fits");
        assert_eq!(told(Reason::Past), "its position is past the last column");
        assert_eq!(told(Reason::OtherType), "the column at its position has another type");
        assert_eq!(told(Reason::OtherName), "the column at its position has another name");
        assert_eq!(format!("{:>8}|{:45}|", Fit::Fits, Reason::OtherName), " it fits|the column at its position has another name  |");
    }
}
