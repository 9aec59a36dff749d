//! Responses: what a message says before its tables, and writing one step by step.

use crate::foreign::{self, State, Types, NULL_SIZE};
use crate::refusal::{found, Cause, Refusal};
use crate::table::Column;
use crate::value::{part, text, Form, Value, WireType};
use crate::written;
use std::borrow::Cow;
use std::fmt;
use std::mem::MaybeUninit;

/// A status string: a flag lets it be absent, and it may be null.
#[derive(Clone, Copy, Debug, Default, PartialEq, Eq)]
pub enum Optional<'m> {
    /// The message has no such string.
    #[default]
    Absent,
    /// It has one, and that is null.
    Null,
    /// It has one.
    There(&'m str),
}

/// All that a response has before its table count. The flag byte says which strings, and whether an exception, are there, and so it
/// follows from them.
#[derive(Clone, Copy, Debug, Default, PartialEq, Eq)]
pub struct ReplyHead<'m> {
    /// 0 or 1.
    pub version: u8,
    /// The client's own bytes, as the invocation had them.
    pub client: [u8; 8],
    /// The status of the call; any is accepted.
    pub status: i8,
    /// The status in words.
    pub status_string: Optional<'m>,
    /// The application's own status.
    pub app_status: i8,
    /// That in words.
    pub app_string: Optional<'m>,
    /// The time from the server to its partitions and back.
    pub round_trip: i32,
    /// An exception, serialised.
    pub exception: Option<&'m [u8]>,
}

/// What a response says before its tables.
#[derive(Clone, Copy, Debug, PartialEq, Eq)]
pub struct Response<'m> {
    /// All before the table count.
    pub head: ReplyHead<'m>,
    /// How many tables there are.
    pub tables: usize,
    /// Where the first one begins in the message.
    pub tables_at: usize,
}

/// What a response says before its tables.
pub fn response(message: &[u8]) -> Result<Response<'_>, Refusal> {
    let mut n = [0; 17];
    // SAFETY: the pointer and the length are those of a slice, which is only read; the numbers are lent for writing and are nobody else's.
    found(unsafe { foreign::chaloenpik_response(message.as_ptr(), message.len(), &mut n) })?;
    let head = ReplyHead {
        version: n[0] as u8,
        client: n[1].to_be_bytes(),
        status: n[3] as i8,
        status_string: optional(message, n[4], n[5], n[6])?,
        app_status: n[7] as i8,
        app_string: optional(message, n[8], n[9], n[10])?,
        round_trip: n[11] as i32,
        exception: match n[12] {
            ABSENT => None,
            THERE => Some(part(message, n[13], n[14])?),
            _ => return Err(Refusal::UNKNOWN_ANSWER),
        },
    };
    Ok(Response { head, tables: n[15] as usize, tables_at: n[16] as usize })
}

/// The forms of a string or an exception in numbers: none, a null, one that is there.
const ABSENT: u64 = 0;
const NULL: u64 = 1;
const THERE: u64 = 2;

fn optional(message: &[u8], form: u64, start: u64, size: u64) -> Result<Optional<'_>, Refusal> {
    match form {
        ABSENT => Ok(Optional::Absent),
        NULL => Ok(Optional::Null),
        THERE => text(message, start, size).map(Optional::There),
        _ => Err(Refusal::UNKNOWN_ANSWER),
    }
}

impl<'m> Optional<'m> {
    /// Whether it is null, and its bytes, as the foreign function takes them.
    fn parts(self) -> (bool, &'m [u8]) {
        match self {
            Optional::There(text) => (false, text.as_bytes()),
            Optional::Absent | Optional::Null => (true, &[]),
        }
    }
}

/// The paper's flags.
const STATUS_STRING: u8 = 32;
const EXCEPTION: u8 = 64;
const APP_STRING: u8 = 128;

impl ReplyHead<'_> {
    fn flags(&self) -> u8 {
        let flag = |is_there, flag| if is_there { flag } else { 0 };
        flag(self.status_string != Optional::Absent, STATUS_STRING)
            | flag(self.exception.is_some(), EXCEPTION)
            | flag(self.app_string != Optional::Absent, APP_STRING)
    }
}

/// A column of a table to be opened, whose name stands in lent bytes: its type, and where the name starts and how long it is.
#[derive(Clone, Copy, Debug, PartialEq, Eq)]
pub struct ColumnEntry {
    /// The type of its cells.
    pub wire_type: WireType,
    /// Where its name starts in the lent bytes.
    pub start: usize,
    /// How many bytes its name has.
    pub size: usize,
}

/// A response that is being written into a lent buffer.
///
/// Each step gives the writer back, so that steps can be chained. A refused step changes nothing, and another may be tried.
/// [`ReplyWriter::finish`] consumes the writer and gives the message.
///
/// ```
/// use chaloenpik::{Decimal, Optional, ReplyHead, ReplyWriter, Table, Value, WireType};
///
/// let head = ReplyHead { status: 1, status_string: Optional::There("ok"), ..ReplyHead::default() };
/// let limits = [(1, 850_000_000_000), (2, 800_000_000_000)];
///
/// let mut out = [0; 200];
/// let mut reply = ReplyWriter::begin(&mut out, head)?;
/// reply.open_table(0, [("ENGINE_ID", WireType::Integer), ("THROTTLE_LIMIT", WireType::Decimal)])?;
/// for (engine, units) in limits {
///     reply.row([Value::Integer(engine), Value::Decimal(Decimal::from_units(units))])?;
/// }
/// reply.close_table()?;
/// let message = reply.finish()?;
///
/// let table = Table::new(message, 0)?;
/// assert_eq!(table.row(1)?.get("THROTTLE_LIMIT")?.value, Value::Decimal(Decimal::from_units(800_000_000_000)));
/// # Ok::<(), chaloenpik::Refusal>(())
/// ```
#[must_use = "before it is finished there is no message"]
pub struct ReplyWriter<'b> {
    out: &'b mut [u8],
    state: State,
    /// The types of the open table's columns. Opening a table sets as many as it has, and the steps inside it read no other, so that they need
    /// no value before. There is room for all that a table may have: in a box, so that moving the writer doesn't copy it, and not lent by the
    /// caller, who has nothing to do with it. That is one allocation for a reply, and none for a step inside a table.
    types: Box<MaybeUninit<Types>>,
    /// The same ones, for [`ReplyWriter::row`], whose values say their types.
    columns: Vec<WireType>,
    position: usize,
}

/// The cells of a whole row in numbers, and the bytes among which those of text and binary cells stand.
struct Cells<'v> {
    numbers: Vec<u64>,
    bytes: Cow<'v, [u8]>,
}

impl<'v> Cells<'v> {
    fn with_room_for(columns: usize) -> Self {
        Cells { numbers: Vec::with_capacity(2 * columns), bytes: Cow::Borrowed(&[]) }
    }

    fn push(&mut self, value: Value<'v>) {
        let pair = match value.form() {
            Form::Fixed(bits) => [(bits >> 64) as u64, bits as u64],
            Form::Body(Some(body)) => [self.lend(body) as u64, body.len() as u64],
            Form::Body(None) => [0, NULL_SIZE],
        };
        self.numbers.extend(pair);
    }

    /// Where the bytes start that are lent with the others. One value's are lent as they stand; those of several have to be brought together.
    fn lend(&mut self, body: &'v [u8]) -> usize {
        let start = self.bytes.len();
        if start == 0 {
            self.bytes = Cow::Borrowed(body);
        } else {
            self.bytes.to_mut().extend_from_slice(body);
        }
        start
    }
}

/// A step inside a table, which is lent the types of its columns.
type TableStep = unsafe extern "C" fn(*mut u8, usize, *mut State, *const Types) -> u64;

/// Without the buffer, which may be long.
impl fmt::Debug for ReplyWriter<'_> {
    fn fmt(&self, f: &mut fmt::Formatter<'_>) -> fmt::Result {
        f.debug_struct("ReplyWriter").field("position", &self.position).finish_non_exhaustive()
    }
}

impl<'b> ReplyWriter<'b> {
    /// Begins a response.
    pub fn begin(out: &'b mut [u8], head: ReplyHead<'_>) -> Result<Self, Refusal> {
        let (status_null, status) = head.status_string.parts();
        let (app_null, app) = head.app_string.parts();
        let exception = head.exception.unwrap_or_default();
        let mut state = State::default();
        // SAFETY: pointers and lengths are those of slices; what is written, buffer and state, is lent alone.
        let position = found(unsafe {
            foreign::chaloenpik_begin_reply(
                out.as_mut_ptr(),
                out.len(),
                &mut state,
                head.version,
                &head.client,
                head.flags(),
                head.status as u8,
                status_null,
                status.as_ptr(),
                status.len(),
                head.app_status as u8,
                app_null,
                app.as_ptr(),
                app.len(),
                head.round_trip as u32,
                exception.as_ptr(),
                exception.len(),
            )
        })?;
        Ok(ReplyWriter { out, state, types: Box::new(MaybeUninit::uninit()), columns: Vec::new(), position })
    }

    /// How many bytes are written.
    pub fn position(&self) -> usize {
        self.position
    }

    /// Opens a table with columns of these names and types: pairs of both, or the columns of a [`crate::Table`]. Refused 3: they are more than
    /// 1,024.
    pub fn open_table<'c, C: Into<Column<'c>>>(&mut self, status: i8, columns: impl IntoIterator<Item = C>) -> Result<&mut Self, Refusal> {
        let (mut entries, mut names) = (Vec::new(), Vec::new());
        for Column { name, wire_type } in columns.into_iter().map(Into::into) {
            entries.push(ColumnEntry { wire_type, start: names.len(), size: name.len() });
            names.extend_from_slice(name);
        }
        self.open_table_named(status, &entries, &names)
    }

    /// Opens a table with columns whose names stand in `names`. Refused 11: one of them doesn't.
    pub fn open_table_named(&mut self, status: i8, columns: &[ColumnEntry], names: &[u8]) -> Result<&mut Self, Refusal> {
        let numbers: Vec<u64> = columns.iter().flat_map(|c| [c.wire_type.byte().into(), c.start as u64, c.size as u64]).collect();
        // SAFETY: as above; the types are lent alone too.
        let answer = unsafe {
            foreign::chaloenpik_open_table(
                self.out.as_mut_ptr(),
                self.out.len(),
                &mut self.state,
                self.types.as_mut_ptr(),
                status as u8,
                numbers.as_ptr(),
                numbers.len(),
                names.as_ptr(),
                names.len(),
            )
        };
        self.position = found(answer)?;
        self.columns.clear();
        self.columns.extend(columns.iter().map(|column| column.wire_type));
        Ok(self)
    }

    /// A whole row: opened, filled and closed, in one step. It is refused as the first of these would be, and then changes nothing.
    pub fn row<'v>(&mut self, values: impl IntoIterator<Item = Value<'v>>) -> Result<&mut Self, Refusal> {
        let columns = self.columns.len();
        let mut cells = Cells::with_room_for(columns);
        for (column, value) in values.into_iter().take(columns + 1).enumerate() {
            if self.columns.get(column).map_or(false, |&wire_type| wire_type != value.wire_type()) {
                return Err(self.of_another_type(cells));
            }
            cells.push(value);
        }
        self.whole_row(&cells.numbers, &cells.bytes)
    }

    /// The refusal of a row in which these cells come before one that isn't of its column's type. With these alone it has too few, and is refused
    /// for that where the other cell would come, unless it is before.
    fn of_another_type(&mut self, cells: Cells<'_>) -> Refusal {
        let row_at = self.position;
        match self.whole_row(&cells.numbers, &cells.bytes) {
            Err(Refusal { cause: Cause::WrongStage, place }) if place != row_at => Refusal { cause: Cause::WireType, place },
            Err(refusal) => refusal,
            Ok(_) => Refusal::UNKNOWN_ANSWER,
        }
    }

    /// A whole row by numbers, two for each cell, and by bytes among which its text and binary cells stand; one number left over is ignored.
    /// [`ReplyWriter::row`] makes both from values: this is for who has them already, and needs no copy of the bytes.
    ///
    /// A cell has its column's type. If that has a fixed size they are its upper and its lower 64 bits, without a sign; else where its bytes
    /// start and how many they are, or for a null any number and [`NULL_SIZE`]. Refused 6: the number has more bits than its type; 11: the bytes
    /// aren't among those that are lent; 13: there are too few cells, or too many; 20: a text isn't UTF-8. A refusal changes nothing.
    ///
    /// ```
    /// use chaloenpik::{cell, ReplyHead, ReplyWriter, Value, WireType, NULL_SIZE};
    ///
    /// let vessels = b"BodilTug 9";
    /// let mut out = [0; 200];
    /// let mut reply = ReplyWriter::begin(&mut out, ReplyHead::default())?;
    /// reply.open_table(0, [("ENGINE_ID", WireType::Integer), ("VESSEL", WireType::String)])?;
    /// reply.whole_row(&[0, 2, 0, 5], vessels)?.whole_row(&[0, 9, 5, 5], vessels)?.whole_row(&[0, 11, 0, NULL_SIZE], vessels)?;
    /// reply.close_table()?;
    /// let message = reply.finish()?;
    /// assert_eq!(cell(message, 0, 1, 1)?, Value::from("Tug 9"));
    /// assert_eq!(cell(message, 0, 2, 1)?, Value::Text(None));
    /// # Ok::<(), chaloenpik::Refusal>(())
    /// ```
    pub fn whole_row(&mut self, cells: &[u64], bytes: &[u8]) -> Result<&mut Self, Refusal> {
        // SAFETY: as above.
        let answer = unsafe {
            foreign::chaloenpik_whole_row(
                self.out.as_mut_ptr(),
                self.out.len(),
                &mut self.state,
                self.types.as_ptr(),
                cells.as_ptr(),
                cells.len(),
                bytes.as_ptr(),
                bytes.len(),
            )
        };
        self.reached(answer)
    }

    /// Opens a row of the open table.
    pub fn open_row(&mut self) -> Result<&mut Self, Refusal> {
        self.in_table(foreign::chaloenpik_open_row)
    }

    /// The next cell of the open row. Refused 6: it isn't of its column's type; 13: the row has all its cells.
    pub fn cell<'v>(&mut self, value: impl Into<Value<'v>>) -> Result<&mut Self, Refusal> {
        let value = value.into();
        let (out, size, state, types) = (self.out.as_mut_ptr(), self.out.len(), &mut self.state, self.types.as_ptr());
        let wire_type = value.wire_type().byte();
        let answer = match value.form() {
            // SAFETY: as above.
            Form::Fixed(bits) => unsafe {
                foreign::chaloenpik_fixed_cell(out, size, state, types, wire_type, (bits >> 64) as u64, bits as u64)
            },
            Form::Body(bytes) => {
                let body = bytes.unwrap_or_default();
                // SAFETY: as above.
                unsafe { foreign::chaloenpik_body_cell(out, size, state, types, wire_type, bytes.is_none(), body.as_ptr(), body.len()) }
            }
        };
        self.reached(answer)
    }

    /// Closes the open row. Refused 13: it hasn't got all its cells.
    pub fn close_row(&mut self) -> Result<&mut Self, Refusal> {
        self.in_table(foreign::chaloenpik_close_row)
    }

    /// Closes the open table.
    pub fn close_table(&mut self) -> Result<&mut Self, Refusal> {
        self.in_table(foreign::chaloenpik_close_table)
    }

    /// Finishes the response, and gives the message, which stands in front of the buffer.
    ///
    /// Refused 13: a table is open. The writer is consumed then too, and what it wrote is no message.
    pub fn finish(mut self) -> Result<&'b [u8], Refusal> {
        // SAFETY: as above.
        let answer = unsafe { foreign::chaloenpik_finish_reply(self.out.as_mut_ptr(), self.out.len(), &mut self.state) };
        self.reached(answer)?;
        written(self.out, self.position)
    }

    fn reached(&mut self, answer: u64) -> Result<&mut Self, Refusal> {
        self.position = found(answer)?;
        Ok(self)
    }

    fn in_table(&mut self, step: TableStep) -> Result<&mut Self, Refusal> {
        // SAFETY: as above.
        let answer = unsafe { step(self.out.as_mut_ptr(), self.out.len(), &mut self.state, self.types.as_ptr()) };
        self.reached(answer)
    }
}
