//! A table of a response, read at once.

use crate::field::{each_field, Field};
use crate::query::{rows, tables};
use crate::refusal::Refusal;
use crate::value::{Value, WireType};
use crate::Kind;
use std::fmt;
use std::ops::Range;

/// A column of a table: its name and its type.
#[derive(Clone, Copy, Debug, PartialEq, Eq, Hash)]
pub struct Column<'m> {
    /// Its name, of bytes 0 to 127.
    pub name: &'m [u8],
    /// The type of its cells.
    pub wire_type: WireType,
}

impl<'m, N: AsRef<[u8]> + ?Sized> From<(&'m N, WireType)> for Column<'m> {
    fn from((name, wire_type): (&'m N, WireType)) -> Self {
        Column { name: name.as_ref(), wire_type }
    }
}

impl<'m, N: AsRef<[u8]> + ?Sized> From<&(&'m N, WireType)> for Column<'m> {
    fn from(&column: &(&'m N, WireType)) -> Self {
        column.into()
    }
}

impl<'m> From<&Column<'m>> for Column<'m> {
    fn from(column: &Column<'m>) -> Self {
        *column
    }
}

/// A table of a response over its message: columns, rows and cells, and where each cell stands.
///
/// Opening it goes through the message, to have its field list; after that no call does. A table holds 8 bytes for each of its cells;
/// while it is opened 48 more are needed for each field of the message.
///
/// That the message is accepted, which fields it has and where they stand is the proved library's answer, and by the theorem
/// `cell_reads_its_bytes` a cell reads as exactly the bytes listed for it. What these bytes say, as a [`Value`], is put together
/// outside the proof; tests hold it against the proved [`crate::cell`].
///
/// ```
/// use chaloenpik::{Table, WireType};
///
/// let reply = include_bytes!("../../../samples/4-engines.bin");
/// let table = Table::new(reply, 0)?;
/// assert_eq!(table.columns()[1].name, b"VESSEL");
/// assert_eq!(table.columns()[1].wire_type, WireType::String);
///
/// let (engine, limit) = (table.find("ENGINE_ID")?, table.find("THROTTLE_LIMIT")?);
/// let mut limits = Vec::new();
/// for row in table.rows() {
///     limits.push(format!("{}: {}", row.cell(engine)?.value, row.cell(limit)?.value));
/// }
/// assert_eq!(limits, ["1: 0.85", "2: 0.8", "7: null", "9: 1"]);
/// # Ok::<(), chaloenpik::Refusal>(())
/// ```
#[derive(Clone)]
pub struct Table<'m> {
    message: &'m [u8],
    columns: Vec<Column<'m>>,
    rows: usize,
    /// Where each cell starts and ends, row by row. A message has no more than 4 MB, so 32 bits hold a place in it.
    cells: Vec<(u32, u32)>,
}

/// Without the message, which may be long.
impl fmt::Debug for Table<'_> {
    fn fmt(&self, f: &mut fmt::Formatter<'_>) -> fmt::Result {
        f.debug_struct("Table").field("columns", &self.columns).field("rows", &self.rows).finish_non_exhaustive()
    }
}

/// A row of a table.
#[derive(Clone, Copy, Debug)]
pub struct Row<'t, 'm> {
    table: &'t Table<'m>,
    number: usize,
}

/// A cell: what it says, and the bytes of the message that say it.
#[derive(Clone, Debug, PartialEq)]
pub struct Cell<'m> {
    /// What it says.
    pub value: Value<'m>,
    /// Its bytes in the message; of a text or binary cell with its length field.
    pub place: Range<usize>,
}

impl<'m> Table<'m> {
    /// A table of a response, by its number from 0.
    pub fn new(message: &'m [u8], number: usize) -> Result<Self, Refusal> {
        rows(message, number)?; // refused: the message, or there is no such table
        let mut table = Table::empty(message);
        for field in each_field(Kind::Response, message)?.filter(|field| field.indices[0] == number) {
            table.take(field)?;
        }
        table.cells.shrink_to_fit();
        Ok(table)
    }

    /// All tables of a response, from one field list.
    pub fn all(message: &'m [u8]) -> Result<Vec<Self>, Refusal> {
        let mut all = vec![Table::empty(message); tables(message)?];
        for field in each_field(Kind::Response, message)? {
            if let Some(table) = all.get_mut(field.indices[0]) {
                table.take(field)?;
            }
        }
        all.iter_mut().for_each(|table| table.cells.shrink_to_fit());
        Ok(all)
    }

    /// The columns, by their positions.
    pub fn columns(&self) -> &[Column<'m>] {
        &self.columns
    }

    /// The position of the first column whose name is equal, byte for byte. Refused 9: no column has that name.
    pub fn find(&self, name: impl AsRef<[u8]>) -> Result<usize, Refusal> {
        let name = name.as_ref();
        self.columns.iter().position(|column| column.name == name).ok_or(Refusal::NO_COLUMN)
    }

    /// The rows in their order. Their number is the iterator's `len()`.
    pub fn rows<'t>(&'t self) -> impl DoubleEndedIterator<Item = Row<'t, 'm>> + ExactSizeIterator + 't {
        (0..self.rows).map(move |number| Row { table: self, number })
    }

    /// A row, by its number from 0. Refused 11: there is no such one.
    pub fn row(&self, number: usize) -> Result<Row<'_, 'm>, Refusal> {
        (number < self.rows).then_some(Row { table: self, number }).ok_or(Refusal::PAST_END)
    }

    fn empty(message: &'m [u8]) -> Self {
        Table { message, columns: Vec::new(), rows: 0, cells: Vec::new() }
    }

    /// Takes in the next field of the list. All types of columns come before their names, and an empty name has no field.
    fn take(&mut self, field: Field) -> Result<(), Refusal> {
        let [_, row, column] = field.indices;
        match field.number {
            Field::COLUMN_TYPE => {
                let wire_type = self.bytes(field.place())?.first().copied().and_then(WireType::from_byte);
                self.columns.push(Column { name: &[], wire_type: wire_type.ok_or(Refusal::UNKNOWN_ANSWER)? });
            }
            Field::COLUMN_NAME => self.columns.get_mut(column).ok_or(Refusal::UNKNOWN_ANSWER)?.name = self.bytes(field.place())?,
            Field::ROW_LENGTH => self.rows += 1,
            Field::CELL_LENGTH | Field::CELL => self.take_cell(row * self.columns.len() + column, field.place()),
            _ => {}
        }
        Ok(())
    }

    /// A cell has one field, or a length and then perhaps a body.
    fn take_cell(&mut self, number: usize, place: Range<usize>) {
        let (start, end) = (place.start as u32, place.end as u32);
        match self.cells.get_mut(number) {
            Some(begun) => begun.1 = end,
            None => self.cells.push((start, end)),
        }
    }

    fn bytes(&self, place: Range<usize>) -> Result<&'m [u8], Refusal> {
        self.message.get(place).ok_or(Refusal::UNKNOWN_ANSWER)
    }
}

impl<'t, 'm> Row<'t, 'm> {
    /// Its number in the table, from 0.
    pub fn number(&self) -> usize {
        self.number
    }

    /// The cell of a column, by the column's position. Refused 11: there is no such one.
    pub fn cell(&self, column: usize) -> Result<Cell<'m>, Refusal> {
        let columns = &self.table.columns;
        let wire_type = columns.get(column).ok_or(Refusal::PAST_END)?.wire_type;
        let &(start, end) = self.table.cells.get(self.number * columns.len() + column).ok_or(Refusal::UNKNOWN_ANSWER)?;
        let place = start as usize..end as usize;
        let value = Value::from_bytes(wire_type, self.table.bytes(place.clone())?).ok_or(Refusal::UNKNOWN_ANSWER)?;
        Ok(Cell { value, place })
    }

    /// Its cells in the order of the columns.
    pub fn cells(self) -> impl DoubleEndedIterator<Item = Result<Cell<'m>, Refusal>> + ExactSizeIterator + 't {
        (0..self.table.columns.len()).map(move |column| self.cell(column))
    }

    /// The cell of the first column of a name. Refused 9: no column has that name.
    pub fn get(&self, name: impl AsRef<[u8]>) -> Result<Cell<'m>, Refusal> {
        self.cell(self.table.find(name)?)
    }
}
