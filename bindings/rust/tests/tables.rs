//! The reader over a table, held against the proved functions that answer for one cell at a time.

use chaloenpik::{
    accept, cell, cell_place, column_name, column_type, columns, fields, find_column, rows, tables, Cause, Cell, Decimal, Field, Kind,
    Refusal, ReplyHead, ReplyWriter, Table, Value, WireType,
};
use std::ops::Range;

const LOGIN: &[u8] = include_bytes!("../../../samples/1-login.bin");
const LOGIN_REPLY: &[u8] = include_bytes!("../../../samples/2-login-reply.bin");
const CALL: &[u8] = include_bytes!("../../../samples/3-engine-limits.bin");
const REPLY: &[u8] = include_bytes!("../../../samples/4-engines.bin");
const WITHOUT_VESSEL: &[u8] = include_bytes!("../../../samples/4-engines-without-vessel.bin");
const BIG_REPORT: &[u8] = include_bytes!("../../../samples/4-big-report.bin");

/// The bytes that the field list has for a cell: the entries of its length and its body, which have its indices.
fn listed(list: &[Field], indices: [usize; 3]) -> Range<usize> {
    let mut own = list.iter().filter(|field| field.indices == indices && matches!(field.number, Field::CELL_LENGTH | Field::CELL));
    let first = own.next().unwrap().place();
    first.start..own.next().map_or(first.end, |body| body.place().end)
}

/// Equal with every bit: NaN too, and -0.0 is not 0.0.
fn assert_same(one: Value<'_>, other: Value<'_>) {
    let bits = |value| match value {
        Value::Float(x) => Some([x.to_bits(), 0]),
        Value::Point { longitude, latitude } => Some([longitude.to_bits(), latitude.to_bits()]),
        _ => None,
    };
    assert_eq!((one.wire_type(), bits(one)), (other.wire_type(), bits(other)));
    assert!(bits(one).is_some() || one == other, "{one:?} is not {other:?}");
}

/// All that the reader says of a message's tables is what the proved functions answer.
fn hold_against_the_proved(message: &[u8]) -> Result<(), Refusal> {
    let list = fields(Kind::Response, message)?;
    let all = Table::all(message)?;
    assert_eq!(all.len(), tables(message)?);
    for (number, table) in all.into_iter().enumerate() {
        for table in [table, Table::new(message, number)?] {
            hold_columns(message, number, &table)?;
            hold_cells(message, number, &table, &list)?;
        }
    }
    let past = tables(message)?;
    assert_eq!(Table::new(message, past).map(|_| ()), rows(message, past).map(|_| ()));
    Ok(())
}

fn hold_columns(message: &[u8], number: usize, table: &Table<'_>) -> Result<(), Refusal> {
    assert_eq!(table.columns().len(), columns(message, number)?);
    for (position, column) in table.columns().iter().enumerate() {
        assert_eq!(column.wire_type, column_type(message, number, position)?);
        assert_eq!(column.name, column_name(message, number, position)?);
        assert_eq!(table.find(column.name), find_column(message, number, column.name));
    }
    assert_eq!(table.find("no such name"), find_column(message, number, "no such name"));
    Ok(())
}

fn hold_cells(message: &[u8], number: usize, table: &Table<'_>, list: &[Field]) -> Result<(), Refusal> {
    assert_eq!(table.rows().len(), rows(message, number)?);
    for row in table.rows() {
        for (position, shown) in row.cells().enumerate() {
            let Cell { value, place } = shown?;
            assert_same(value, cell(message, number, row.number(), position)?);
            assert_eq!(place, listed(list, [number, row.number(), position]));
            assert_eq!(place, cell_place(message, number, row.number(), position)?);
        }
        let past = table.columns().len();
        assert_eq!(row.cell(past).map(|shown| shown.value), cell(message, number, row.number(), past));
    }
    let past = table.rows().len();
    assert_eq!(table.row(past).map(|_| ()), cell(message, number, past, 0).map(|_| ()));
    Ok(())
}

#[test]
fn the_samples() -> Result<(), Refusal> {
    hold_against_the_proved(REPLY)?;
    hold_against_the_proved(WITHOUT_VESSEL)?;
    hold_against_the_proved(BIG_REPORT)?;
    for other in [LOGIN, LOGIN_REPLY, CALL] {
        let refusal = accept(Kind::Response, other).unwrap_err();
        assert_eq!(Table::new(other, 0).map(|_| ()), Err(refusal));
        assert_eq!(Table::all(other).map(|_| ()), Err(refusal));
    }
    Ok(())
}

#[test]
fn the_insurer_s_question() -> Result<(), Refusal> {
    let table = Table::new(REPLY, 0)?;
    let limit = table.row(1)?.get("THROTTLE_LIMIT")?;
    assert_eq!(limit.value, Value::Decimal(Decimal::from_units(800_000_000_000)));
    assert_eq!(limit.place, 238..254);
    let vessel = table.row(1)?.get("VESSEL")?;
    assert_eq!((vessel.value, &REPLY[vessel.place]), (Value::from("Bodil"), &b"\0\0\0\x05Bodil"[..]));

    let table = Table::new(BIG_REPORT, 0)?;
    assert_eq!((table.columns().len(), table.find("THROTTLE_LIMIT")?), (400, 257));
    let limit = table.row(1)?.get("THROTTLE_LIMIT")?;
    assert_eq!((limit.value.to_string().as_str(), limit.place), ("0.8", 12021..12037));
    Ok(())
}

/// Four values of every type: the ends of its range, nulls, and what floats alone can be.
fn values_by_type() -> [[Value<'static>; 4]; 11] {
    let decimal = |units| Value::Decimal(Decimal::from_units(units));
    let point = |longitude, latitude| Value::Point { longitude, latitude };
    let most = 10i128.pow(38) - 1;
    [
        [i8::MIN, i8::MAX, 0, -5].map(Value::Tinyint),
        [i16::MIN, i16::MAX, 0, -300].map(Value::Smallint),
        [i32::MIN, i32::MAX, 0, -70_000].map(Value::Integer),
        [i64::MIN, i64::MAX, 0, -1].map(Value::Bigint),
        [f64::NAN, f64::from_bits(0xfff4_0000_0000_0001), -0.0, f64::NEG_INFINITY].map(Value::Float),
        [None, Some(""), Some("\u{10ffff}\0"), Some("Bodil")].map(Value::Text),
        [i64::MIN, i64::MAX, 0, -1].map(Value::Timestamp),
        [most, -most, i128::MIN, -1].map(decimal),
        [None, Some(&b""[..]), Some(&[255; 4]), Some(&[0, 255])].map(Value::Binary),
        [point(180.0, 90.0), point(-180.0, -90.0), point(-0.0, 0.0), Value::NullPoint],
        [None, Some(&[0][..]), Some(&[1, 2]), Some(&[255; 4])].map(Value::Geography),
    ]
}

/// A table of these values, then one of no columns and two rows, then one of no rows.
#[test]
fn values_of_every_type() -> Result<(), Refusal> {
    let columns = values_by_type();
    let mut out = vec![0; 2000];
    let mut w = ReplyWriter::begin(&mut out, ReplyHead::default())?;
    w.open_table(0, columns.map(|values| ("", values[0].wire_type())))?;
    for row in 0..4 {
        w.row(columns.map(|values| values[row]))?;
    }
    w.close_table()?.open_table::<(&str, WireType)>(1, [])?.row([])?.row([])?;
    w.close_table()?.open_table(2, [("A", WireType::Point)])?.close_table()?;
    let message = w.finish()?;
    hold_against_the_proved(message)?;

    let all = Table::all(message)?;
    assert_eq!(all.iter().map(|table| table.rows().len()).collect::<Vec<_>>(), [4, 2, 0]);
    for row in all[0].rows() {
        for (column, values) in columns.iter().enumerate() {
            assert_same(row.cell(column)?.value, values[row.number()]);
        }
    }
    Ok(())
}

#[test]
fn of_two_columns_of_a_name_the_first_is_found() -> Result<(), Refusal> {
    let mut out = [0; 100];
    let mut w = ReplyWriter::begin(&mut out, ReplyHead::default())?;
    w.open_table(0, [("A", WireType::Integer), ("B", WireType::Integer), ("B", WireType::Integer)])?;
    w.row([1, 2, 3].map(Value::Integer))?.close_table()?;
    let message = w.finish()?;
    hold_against_the_proved(message)?;
    assert_eq!(Table::new(message, 0)?.row(0)?.get("B")?.value, Value::Integer(2));
    assert_eq!(Table::new(message, 0)?.row(0)?.get("C").unwrap_err().cause, Cause::NoColumn);
    Ok(())
}

#[test]
fn no_tables() -> Result<(), Refusal> {
    let mut out = [0; 100];
    let message = ReplyWriter::begin(&mut out, ReplyHead::default())?.finish()?;
    hold_against_the_proved(message)
}

/// Rows are many here: one pass for each cell would take minutes.
#[test]
fn fifty_thousand_rows() -> Result<(), Refusal> {
    let mut out = vec![0; 4_000_000];
    let mut w = ReplyWriter::begin(&mut out, ReplyHead::default())?;
    w.open_table(0, [("ENGINE_ID", WireType::Integer), ("VESSEL", WireType::String)])?;
    let names = ["Bodil", "", "Karen"];
    let vessel = |number: usize| Value::Text(names.get(number % 4).copied());
    for number in 0..50_000 {
        w.row([Value::Integer(number as i32), vessel(number)])?;
    }
    w.close_table()?;
    let table = Table::new(w.finish()?, 0)?;
    assert_eq!(table.rows().len(), 50_000);
    for row in table.rows() {
        assert_eq!(row.cell(0)?.value, Value::Integer(row.number() as i32));
        assert_eq!(row.get("VESSEL")?.value, vessel(row.number()));
    }
    Ok(())
}
