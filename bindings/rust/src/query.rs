//! Questions about the tables of a response. Each call goes through the message; [`crate::Table`] does so when it is opened.

use crate::foreign;
use crate::refusal::{found, Refusal};
use crate::value::{answered_type, part, Value, WireType};
use std::ops::Range;

/// How many tables a response has.
pub fn tables(message: &[u8]) -> Result<usize, Refusal> {
    // SAFETY: the pointer and the length are those of a slice, which is only read.
    found(unsafe { foreign::chaloenpik_tables(message.as_ptr(), message.len()) })
}

/// How many rows a table of a response has.
pub fn rows(message: &[u8], table: usize) -> Result<usize, Refusal> {
    // SAFETY: as above.
    found(unsafe { foreign::chaloenpik_rows(message.as_ptr(), message.len(), table) })
}

/// How many columns a table of a response has.
pub fn columns(message: &[u8], table: usize) -> Result<usize, Refusal> {
    // SAFETY: as above.
    found(unsafe { foreign::chaloenpik_columns(message.as_ptr(), message.len(), table) })
}

/// The wire type of a column of a table.
pub fn column_type(message: &[u8], table: usize, column: usize) -> Result<WireType, Refusal> {
    // SAFETY: as above.
    let number = found(unsafe { foreign::chaloenpik_column_type(message.as_ptr(), message.len(), table, column) })?;
    answered_type(number as u64)
}

/// The name of a column of a table, as that part of the message.
pub fn column_name(message: &[u8], table: usize, column: usize) -> Result<&[u8], Refusal> {
    let mut place = [0; 2];
    // SAFETY: as above; the numbers are lent for writing and are nobody else's.
    found(unsafe { foreign::chaloenpik_column_name(message.as_ptr(), message.len(), table, column, &mut place) })?;
    part(message, place[0], place[1])
}

/// The position of the first column of a table whose name is equal, byte for byte.
pub fn find_column(message: &[u8], table: usize, name: impl AsRef<[u8]>) -> Result<usize, Refusal> {
    let name = name.as_ref();
    // SAFETY: as above, for both slices.
    found(unsafe { foreign::chaloenpik_find_column(message.as_ptr(), message.len(), table, name.as_ptr(), name.len()) })
}

/// A cell of a table of a response.
///
/// This is the proved answer, and each call goes through the message. For all cells of a table take [`crate::Table`].
///
/// ```
/// use chaloenpik::{cell, find_column, Value};
///
/// let reply = include_bytes!("../../../samples/4-engines.bin");
/// let vessel = find_column(reply, 0, "VESSEL")?;
/// assert_eq!(cell(reply, 0, 1, vessel)?, Value::from("Bodil"));
/// # Ok::<(), chaloenpik::Refusal>(())
/// ```
pub fn cell(message: &[u8], table: usize, row: usize, column: usize) -> Result<Value<'_>, Refusal> {
    let mut numbers = [0; 4];
    // SAFETY: as above; the numbers are lent for writing and are nobody else's.
    found(unsafe { foreign::chaloenpik_cell(message.as_ptr(), message.len(), table, row, column, &mut numbers) })?;
    Value::from_numbers(message, numbers)
}

/// Where a cell of a table stands in the message: the bytes listed for it, of a text or binary cell with its length field.
///
/// Each call goes through the message, as [`cell`] does.
///
/// ```
/// use chaloenpik::{cell, cell_place, find_column};
///
/// let reply = include_bytes!("../../../samples/4-engines.bin");
/// let limit = find_column(reply, 0, "THROTTLE_LIMIT")?;
/// assert_eq!(cell(reply, 0, 1, limit)?.to_string(), "0.8");
/// assert_eq!(cell_place(reply, 0, 1, limit)?, 238..254);
/// # Ok::<(), chaloenpik::Refusal>(())
/// ```
pub fn cell_place(message: &[u8], table: usize, row: usize, column: usize) -> Result<Range<usize>, Refusal> {
    let mut place = [0; 2];
    // SAFETY: as above.
    found(unsafe { foreign::chaloenpik_cell_place(message.as_ptr(), message.len(), table, row, column, &mut place) })?;
    let size = part(message, place[0], place[1])?.len();
    let start = place[0] as usize;
    Ok(start..start + size)
}
