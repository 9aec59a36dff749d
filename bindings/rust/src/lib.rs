//! Reads and writes messages of the VoltDB client wire protocol, and says which bytes of a message say what.
//!
//! A safe wrapper over the C interface of the proved library Chaloenpik (`include/chaloenpik.h`). A message is accepted exactly if it
//! encodes a record of its kind, every byte of an accepted message has one owner, and every call ends on every input, with its result
//! or one [`Refusal`], which says itself in words.
//!
//! # Is this a message?
//!
//! ```
//! use chaloenpik::{accept, Kind};
//!
//! let reply = include_bytes!("../../../samples/4-engines.bin");
//! accept(Kind::Response, reply)?;
//!
//! let refusal = accept(Kind::LoginResponse, reply).unwrap_err();
//! assert_eq!(refusal.to_string(), "a length or count passes its limit (refusal 3) at byte 30");
//! # Ok::<(), chaloenpik::Refusal>(())
//! ```
//!
//! # Which bytes set the limit of engine 2?
//!
//! A [`Table`] goes through the message when it is opened, and then knows the place of each of its cells.
//!
//! ```
//! use chaloenpik::{Table, Value};
//!
//! let reply = include_bytes!("../../../samples/4-engines.bin");
//! let table = Table::new(reply, 0)?;
//! let engine = table.find("ENGINE_ID")?;
//! let row = table.rows().find(|row| matches!(row.cell(engine), Ok(cell) if cell.value == Value::Integer(2)));
//! let limit = row.expect("there is an engine 2").get("THROTTLE_LIMIT")?;
//! assert_eq!(limit.value.to_string(), "0.8");
//! assert_eq!(limit.place, 238..254);
//! # Ok::<(), chaloenpik::Refusal>(())
//! ```
//!
//! # A name that arrives torn
//!
//! Text is `&str`. A message in which some isn't well-formed UTF-8 is refused as a whole, at the first byte that begins no character.
//!
//! ```
//! use chaloenpik::{cell, find_column, Value};
//!
//! let mut reply = include_bytes!("../../../samples/4-engines.bin").to_vec();
//! let vessel = find_column(&reply, 0, "VESSEL")?;
//! assert_eq!(cell(&reply, 0, 2, vessel)?, Value::Text(Some("\u{c6}r\u{f8}")));
//!
//! reply[302] = b'?'; // the last byte of that name
//! let refusal = cell(&reply, 0, 2, vessel).unwrap_err();
//! assert_eq!(refusal.to_string(), "a text isn't well-formed UTF-8 (refusal 20) at byte 301");
//! # Ok::<(), chaloenpik::Refusal>(())
//! ```
//!
//! # A column that may move
//!
//! A card keeps a column by its position, type and name. It opens where the column still stands, and never gives another's position. Why one
//! doesn't open, and where its column stands now, is a question of its own.
//!
//! ```
//! use chaloenpik::{card_fit, make_card, open_card, Fit, Reason, Table};
//!
//! let reply = include_bytes!("../../../samples/4-engines.bin");
//! let card = make_card(reply, 0, "THROTTLE_LIMIT")?;
//! let column = open_card(reply, 0, &card)?;
//! assert_eq!(Table::new(reply, 0)?.row(1)?.cell(column)?.place, 238..254);
//!
//! let vessel_dropped = include_bytes!("../../../samples/4-engines-without-vessel.bin");
//! let refusal = open_card(vessel_dropped, 0, &card).unwrap_err();
//! assert_eq!(refusal.to_string(), "the card doesn't fit the table (refusal 10)");
//! let fit = card_fit(vessel_dropped, 0, &card)?;
//! assert_eq!(fit, Fit::Stale { reason: Reason::OtherType, now: Some(2) });
//! # Ok::<(), chaloenpik::Refusal>(())
//! ```
//!
//! # Writing a call, and a reply
//!
//! A writer fills a lent buffer step by step; finishing consumes it, and gives the message.
//!
//! ```
//! use chaloenpik::{invocation, CallWriter, ReplyHead, ReplyWriter, Table, Value, WireType};
//!
//! let mut out = [0; 200];
//! let mut call = CallWriter::begin(&mut out, 0, "EngineLimits", 42u64.to_be_bytes())?;
//! call.param("Bodil")?.array(WireType::Integer, [1, 2])?;
//! let message = call.finish()?;
//! assert_eq!(invocation(message)?.parameters, 2);
//!
//! let mut reply = ReplyWriter::begin(&mut out, ReplyHead { status: 1, ..ReplyHead::default() })?;
//! reply.open_table(0, [("ENGINE_ID", WireType::Integer), ("COOLANT_C", WireType::Float)])?;
//! reply.row([2.into(), 81.5.into()])?;
//! reply.close_table()?;
//! let message = reply.finish()?;
//! assert_eq!(Table::new(message, 0)?.row(0)?.get("COOLANT_C")?.value, Value::Float(81.5));
//! # Ok::<(), chaloenpik::Refusal>(())
//! ```
//!
//! # Inside a geography
//!
//! A message keeps the body of a geography as it is. By itself it is an [`Area`]: rings of vertices on the unit sphere.
//!
//! ```
//! use chaloenpik::{turn_holes, Area, Table, Value};
//!
//! let reply = include_bytes!("../../../samples/4-areas.bin");
//! if let Value::Geography(Some(body)) = Table::new(reply, 0)?.row(0)?.get("AREA")?.value {
//!     let area = Area::new(body)?;
//!     assert_eq!((area.rings(), area.ring(1)?.vertices), (2, 4));
//!
//!     let mut turned = body.to_vec();
//!     turn_holes(&mut turned)?;
//!     assert_eq!(Area::new(&turned)?.vertex(1, 1)?, area.vertex(1, 3)?);
//! }
//! # Ok::<(), chaloenpik::Refusal>(())
//! ```
//!
//! # The rest
//!
//! | To | Take |
//! |---|---|
//! | list a message's fields, ask for a byte's owner | [`fields`], [`field()`], [`owner`] |
//! | read what a message says | [`login_request`], [`login_response`], [`invocation`], [`response`] |
//! | read tables; parameters | [`Table`], or [`cell`] and [`cell_place`] for one cell; [`parameter`] and [`element`] |
//! | keep a column on a card; ask why it doesn't fit | [`make_card`], [`open_card`]; [`card_fit`] |
//! | write a message | [`write_login_request`], [`write_login_response`], [`CallWriter`], [`ReplyWriter`] |
//! | read and write the body of a geography; turn its holes | [`Area`], [`AreaWriter`]; [`turn_holes`] |
//!
//! # What is proved
//!
//! The functions of the archive are, and each call here is one or a few of them. Outside the proof are this crate's own lines, which are
//! tested: numbers and text become Rust's types, and a [`Table`] takes its values from the bytes that the proved field list gives them, as
//! [`Area::vertices`] does from those behind a ring's place.
//!
//! # What is unsafe
//!
//! Only the calls of foreign functions. They ask nothing of their arguments but that each pointer has so many elements as its length
//! says, and that memory lent for writing overlaps nothing else: slices and references have both by Rust's own rules. A writer's state
//! can't be reached from outside; and whatever stood in it, a step would be carried out or refused, and would stay inside its buffer. The
//! types of a table's columns stand in memory that has no value before a table is opened: a step reads those that opening it has set.

#![warn(missing_docs)]

mod area;
mod call;
mod card;
mod field;
mod foreign;
mod login;
mod query;
mod refusal;
mod reply;
mod table;
mod value;

pub use area::{turn_holes, Area, AreaWriter, Ring, Vertex};
pub use call::{element, invocation, parameter, CallWriter, Invocation, Parameter};
pub use card::{card_fit, make_card, open_card, Card, Fit, Reason};
pub use field::{field, fields, owner, Field};
pub use foreign::{AREA_KEPT, NULL_SIZE, RING_KEPT};
pub use login::{login_request, login_response, write_login_request, write_login_response, LoginRequest, LoginResponse, Welcome};
pub use query::{cell, cell_place, column_name, column_type, columns, find_column, rows, tables};
pub use refusal::{Cause, Refusal};
pub use reply::{response, ColumnEntry, Optional, ReplyHead, ReplyWriter, Response};
pub use table::{Cell, Column, Row, Table};
pub use value::{Decimal, Value, WireType};

/// The four kinds of messages, by the paper's numbers.
#[derive(Clone, Copy, Debug, PartialEq, Eq, Hash)]
#[repr(u8)]
pub enum Kind {
    /// What a client sends first.
    LoginRequest = 1,
    /// What the server answers to that.
    LoginResponse = 2,
    /// A call of a procedure.
    Invocation = 3,
    /// What the server answers to that, with tables.
    Response = 4,
}

/// Whether a message of a kind is accepted.
pub fn accept(kind: Kind, message: &[u8]) -> Result<(), Refusal> {
    // SAFETY: the pointer and the length are those of a slice, which is only read.
    refusal::found(unsafe { foreign::chaloenpik_accept(kind as u8, message.as_ptr(), message.len()) }).map(|_| ())
}

/// The message, or the body of an area, that was written in front of a buffer.
fn written(out: &[u8], size: usize) -> Result<&[u8], Refusal> {
    out.get(..size).ok_or(Refusal::UNKNOWN_ANSWER)
}

/// The examples of the README, as tests.
#[cfg(doctest)]
#[doc = include_str!("../README.md")]
struct Readme;
