//! The field list: which bytes of a message, or of an area, say what.

use crate::foreign;
use crate::refusal::{found, Refusal};
use crate::Kind;
use std::ops::Range;

/// A field of a message or an area: where it stands, how long it is, its number in the paper and its three indices.
#[derive(Clone, Copy, Debug, PartialEq, Eq, Hash)]
pub struct Field {
    /// Its first byte in the message, or in the area's body.
    pub offset: usize,
    /// How many bytes it has.
    pub size: usize,
    /// What it is, by the paper's number: [`Field::ROW_COUNT`], [`Field::CELL`] and so on.
    pub number: u8,
    /// Of the fields of a table: table, row and column; of a parameter: parameter and element; of an area: ring, vertex and axis. Those
    /// that don't apply are 0.
    pub indices: [usize; 3],
}

/// How many numbers an entry of the list has.
const ENTRY: usize = 6;

impl Field {
    /// Its bytes in the message or the body.
    pub fn place(&self) -> Range<usize> {
        self.offset..self.offset + self.size
    }

    pub(crate) fn from_entry(entry: [u64; ENTRY]) -> Field {
        let [offset, size, number, first, second, third] = entry;
        Field { offset: offset as usize, size: size as usize, number: number as u8, indices: [first, second, third].map(|n| n as usize) }
    }
}

/// The paper's number of each field, by its name. A counted thing has two, that of its length and that of its body; a body of no bytes isn't
/// listed. `docs/NUMBERS.md` in the repository says of each field its size and its indices.
#[allow(missing_docs)] // the names say it
impl Field {
    pub const MESSAGE_LENGTH: u8 = 1;
    pub const VERSION: u8 = 2;
    // of a login request
    pub const HASH_VERSION: u8 = 3;
    pub const SERVICE_LENGTH: u8 = 4;
    pub const SERVICE: u8 = 5;
    pub const USER_LENGTH: u8 = 6;
    pub const USER: u8 = 7;
    pub const HASH: u8 = 8;
    // of a login response
    pub const RESULT: u8 = 10;
    pub const HOST: u8 = 11;
    pub const CONNECTION: u8 = 12;
    pub const START: u8 = 13;
    pub const LEADER: u8 = 14;
    pub const BUILD_LENGTH: u8 = 15;
    pub const BUILD: u8 = 16;
    // of an invocation; the client data of a response too
    pub const PROCEDURE_LENGTH: u8 = 20;
    pub const PROCEDURE: u8 = 21;
    pub const CLIENT_DATA: u8 = 22;
    pub const PARAMETER_COUNT: u8 = 23;
    pub const WIRE_TYPE: u8 = 24;
    pub const ELEMENT_TYPE: u8 = 25;
    pub const ELEMENT_COUNT: u8 = 26;
    pub const VALUE_LENGTH: u8 = 27;
    pub const VALUE: u8 = 28;
    // of a response
    pub const FLAGS: u8 = 30;
    pub const STATUS: u8 = 31;
    pub const STATUS_STRING_LENGTH: u8 = 32;
    pub const STATUS_STRING: u8 = 33;
    pub const APPLICATION_STATUS: u8 = 34;
    pub const APPLICATION_STRING_LENGTH: u8 = 35;
    pub const APPLICATION_STRING: u8 = 36;
    pub const ROUND_TRIP: u8 = 37;
    pub const EXCEPTION_LENGTH: u8 = 38;
    pub const EXCEPTION: u8 = 39;
    pub const TABLE_COUNT: u8 = 40;
    // of its tables
    pub const TABLE_LENGTH: u8 = 41;
    pub const METADATA_LENGTH: u8 = 42;
    pub const TABLE_STATUS: u8 = 43;
    pub const COLUMN_COUNT: u8 = 44;
    pub const COLUMN_TYPE: u8 = 45;
    pub const COLUMN_NAME_LENGTH: u8 = 46;
    pub const COLUMN_NAME: u8 = 47;
    pub const ROW_COUNT: u8 = 48;
    pub const ROW_LENGTH: u8 = 49;
    pub const CELL_LENGTH: u8 = 50;
    pub const CELL: u8 = 51;
    // of an area, which has a list of its own
    pub const AREA_EDITION: u8 = 60;
    pub const AREA_INTERNAL: u8 = 61;
    pub const AREA_HOLES: u8 = 62;
    pub const RING_COUNT: u8 = 63;
    pub const RING_MARK: u8 = 64;
    pub const VERTEX_COUNT: u8 = 65;
    pub const COORDINATE: u8 = 66;
    pub const RING_KEPT: u8 = 67;
    pub const AREA_KEPT: u8 = 68;
}

/// All fields of a message of a kind, in wire order. They tile the message: every byte belongs to one.
pub fn fields(kind: Kind, message: &[u8]) -> Result<Vec<Field>, Refusal> {
    Ok(each_field(kind, message)?.collect())
}

/// A field of the list, by its number in it, from 0. Each call goes through the message: for many ask [`fields`].
pub fn field(kind: Kind, message: &[u8], number: usize) -> Result<Field, Refusal> {
    let mut entry = [0; ENTRY];
    // SAFETY: the pointer and the length are those of a slice, which is only read; the entry is lent for writing and is nobody else's.
    found(unsafe { foreign::chaloenpik_fields(kind as u8, message.as_ptr(), message.len(), number, entry.as_mut_ptr(), ENTRY) })?;
    Ok(Field::from_entry(entry))
}

/// The number, in the list of fields, of the one that owns a byte.
///
/// ```
/// use chaloenpik::{field, owner, Field, Kind};
///
/// let reply = include_bytes!("../../../samples/4-engines.bin");
/// let number = owner(Kind::Response, reply, 240)?;
/// let owner = field(Kind::Response, reply, number)?;
/// assert_eq!((owner.place(), owner.number, owner.indices), (238..254, Field::CELL, [0, 1, 3]));
/// # Ok::<(), chaloenpik::Refusal>(())
/// ```
pub fn owner(kind: Kind, message: &[u8], offset: usize) -> Result<usize, Refusal> {
    // SAFETY: as above.
    found(unsafe { foreign::chaloenpik_owner(kind as u8, message.as_ptr(), message.len(), offset) })
}

/// All fields of a message, one after the other.
pub(crate) fn each_field(kind: Kind, message: &[u8]) -> Result<impl Iterator<Item = Field>, Refusal> {
    // SAFETY: as above.
    let count = unsafe { foreign::chaloenpik_field_count(kind as u8, message.as_ptr(), message.len()) };
    // SAFETY: as above; `out` has room for `size` numbers, which are lent for writing and are nobody else's.
    let list = entries(count, |out, size| unsafe { foreign::chaloenpik_fields(kind as u8, message.as_ptr(), message.len(), 0, out, size) });
    Ok(list?.into_iter().map(Field::from_entry))
}

/// A whole list, by the answer that says how many entries it has, and a call that writes them to a place with room for so many numbers.
pub(crate) fn entries(count: u64, write: impl FnOnce(*mut u64, usize) -> u64) -> Result<Vec<[u64; ENTRY]>, Refusal> {
    let count = found(count)?;
    let mut entries = vec![[0; ENTRY]; count]; // whose numbers stand one behind the other
    let taken = found(write(entries.as_mut_ptr().cast(), ENTRY * count))?;
    entries.truncate(taken);
    Ok(entries)
}
