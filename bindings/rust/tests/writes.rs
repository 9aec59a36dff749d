use chaloenpik::{
    cell, columns, element, find_column, login_response, parameter, response, rows, write_login_request, write_login_response, CallWriter,
    Cause, Cell, ColumnEntry, Decimal, LoginRequest, Optional, Parameter, Refusal, ReplyHead, ReplyWriter, Table, Value, Welcome, WireType,
    NULL_SIZE,
};

const LOGIN: &[u8] = include_bytes!("../../../samples/1-login.bin");
const LOGIN_REPLY: &[u8] = include_bytes!("../../../samples/2-login-reply.bin");
const CALL: &[u8] = include_bytes!("../../../samples/3-engine-limits.bin");
const REPLY: &[u8] = include_bytes!("../../../samples/4-engines.bin");
const CLIENT: [u8; 8] = 42u64.to_be_bytes();
const NULL_POINT: [u8; 16] = [0x40, 0x76, 0x80, 0, 0, 0, 0, 0, 0x40, 0x76, 0x80, 0, 0, 0, 0, 0];

/// The cause of a step's refusal; the step may not be carried out.
fn cause<T>(step: Result<T, Refusal>) -> Cause {
    step.map(|_| ()).expect_err("carried out").cause
}

#[test]
fn the_logins() {
    let hash: Vec<u8> = (0..20).collect();
    let login = LoginRequest { version: 1, hash_version: Some(0), service: "database", user: "harbour", hash: &hash };
    let mut out = [7; 100];
    assert_eq!(write_login_request(&mut out, login), Ok(LOGIN));
    assert!(out[LOGIN.len()..].iter().all(|&b| b == 7));

    let welcome = login_response(LOGIN_REPLY).unwrap().welcome.unwrap();
    assert_eq!(write_login_response(&mut out, 1, 0, welcome), Ok(LOGIN_REPLY));

    assert_eq!(cause(write_login_request(&mut out, LoginRequest { hash_version: Some(1), ..login })), Cause::NoRoom);
    assert_eq!(cause(write_login_request(&mut out, LoginRequest { hash_version: None, ..login })), Cause::Version);
    assert!(write_login_request(&mut out, LoginRequest { version: 0, hash_version: None, ..login }).is_ok());
    let short = Refusal { cause: Cause::ShortOutput, place: 6 };
    assert_eq!(write_login_response(&mut out[..5], 0, 3, Welcome::default()), Err(short));
    assert_eq!(write_login_response(&mut out, 0, 3, Welcome::default()), Ok(&[0, 0, 0, 2, 0, 3][..]));
}

#[test]
fn the_sample_call() -> Result<(), Refusal> {
    let mut out = [0; 200];
    let mut w = CallWriter::begin(&mut out, 0, "EngineLimits", CLIENT)?;
    w.param("Bodil")?;
    w.open_array(WireType::Integer)?.element(1)?;
    assert_eq!(cause(w.element(1i64)), Cause::WireType);
    w.element(2)?;
    assert_eq!(cause(w.null()), Cause::WrongStage);
    w.close_array()?.bytes(&[1, 2])?.null()?;
    assert_eq!(w.position(), CALL.len());
    assert_eq!(w.finish()?, CALL);
    Ok(())
}

#[test]
fn a_refused_array_leaves_the_writer_as_it_was() -> Result<(), Refusal> {
    let mut out = [0; 200];
    let mut w = CallWriter::begin(&mut out, 0, "EngineLimits", CLIENT)?;
    w.param("Bodil")?;
    let position = w.position();
    assert_eq!(cause(w.array(WireType::Integer, [Value::Integer(1), Value::Bigint(2)])), Cause::WireType);
    assert_eq!(cause(w.array(WireType::Tinyint, [1i8, 2])), Cause::WireType);
    assert_eq!(cause(w.array(WireType::Integer, [0; 100])), Cause::ShortOutput);
    assert_eq!(w.position(), position);
    w.array(WireType::Integer, [1, 2])?.bytes(&[1, 2])?.null()?;
    assert_eq!(w.finish()?, CALL);
    Ok(())
}

#[test]
fn what_is_open_can_t_be_finished() -> Result<(), Refusal> {
    let mut out = [0; 200];
    let mut call = CallWriter::begin(&mut out, 1, "P", CLIENT)?;
    call.open_array(WireType::Float)?;
    assert_eq!(cause(call.finish()), Cause::WrongStage);

    let mut reply = ReplyWriter::begin(&mut out, ReplyHead::default())?;
    reply.open_table(0, [("A", WireType::Float)])?;
    assert_eq!(cause(reply.finish()), Cause::WrongStage);
    Ok(())
}

fn sample_head() -> ReplyHead<'static> {
    let status_string = Optional::There("ok");
    ReplyHead { client: CLIENT, status: 1, status_string, app_status: -128, round_trip: 2, ..ReplyHead::default() }
}

/// The sample's table, copied: each name by its place in lent bytes, and each cell as it is read.
#[test]
fn the_sample_reply() -> Result<(), Refusal> {
    use WireType::{Decimal, Float, Integer, Point, String, Timestamp};
    let names = b"ENGINE_IDVESSELENGINETHROTTLE_LIMITCOOLANT_CBERTHSERVICED";
    let types = [(Integer, 9), (String, 6), (String, 6), (Decimal, 14), (Float, 9), (Point, 5), (Timestamp, 8)];
    let mut start = 0;
    let table = types.map(|(wire_type, size)| {
        start += size;
        ColumnEntry { wire_type, start: start - size, size }
    });
    assert_eq!(find_column(REPLY, 0, &names[21..35]), Ok(3));

    let mut out = vec![0; REPLY.len()];
    let mut w = ReplyWriter::begin(&mut out, sample_head())?;
    assert_eq!(cause(w.open_table_named(0, &table, &names[1..])), Cause::PastEnd);
    w.open_table_named(0, &table, names)?;
    for row in 0..rows(REPLY, 0)? {
        w.open_row()?;
        for column in 0..columns(REPLY, 0)? {
            assert_eq!(cause(w.close_row()), Cause::WrongStage);
            w.cell(cell(REPLY, 0, row, column)?)?;
        }
        w.close_row()?;
    }
    w.close_table()?;
    assert_eq!(w.finish()?, REPLY);
    Ok(())
}

/// The sample once more, copied in the short way: head, columns and rows as they are read. Then with a null for its second row's berth.
#[test]
fn a_reply_is_copied() -> Result<(), Refusal> {
    let mut without_berth = REPLY.to_vec();
    without_berth[262..278].copy_from_slice(&NULL_POINT);
    for reply in [REPLY, &without_berth] {
        let table = Table::new(reply, 0)?;
        let mut out = vec![0; reply.len()];
        assert_eq!(response(reply)?.head, sample_head());
        let mut w = ReplyWriter::begin(&mut out, response(reply)?.head)?;
        w.open_table(0, table.columns())?;
        for row in table.rows() {
            let cells: Vec<Cell> = row.cells().collect::<Result<_, _>>()?;
            w.row(cells.iter().map(|cell| cell.value))?;
        }
        w.close_table()?;
        assert_eq!(w.finish()?, reply);
    }
    Ok(())
}

/// A call with a point for a parameter and for an element.
fn call_with<'b>(out: &'b mut [u8], point: Value<'_>) -> Result<&'b [u8], Refusal> {
    let mut w = CallWriter::begin(out, 1, "P", CLIENT)?;
    w.param(point)?.array(WireType::Point, [point])?;
    w.finish()
}

/// The bits are the value: 360 twice is the null, however it is given, and what comes near is refused.
#[test]
fn null_points() -> Result<(), Refusal> {
    let twice_360 = Value::Point { longitude: 360.0, latitude: 360.0 };
    let (mut one, mut other) = ([0; 200], [0; 200]);
    let message = call_with(&mut one, Value::NullPoint)?;
    assert_eq!(call_with(&mut other, twice_360)?, message);
    assert!(message.ends_with(&NULL_POINT));
    assert_eq!(parameter(message, 0), Ok(Parameter::One(Value::NullPoint)));
    assert_eq!(element(message, 1, 0), Ok(Value::NullPoint));

    let mut w = ReplyWriter::begin(&mut one, ReplyHead::default())?;
    w.open_table(0, [("POSITION", WireType::Point)])?.row([Value::NullPoint])?.row([twice_360])?.open_row()?;
    let place = w.position();
    for (longitude, latitude) in [(360.0, 0.0), (0.0, 360.0), (-360.0, -360.0)] {
        let step = w.cell(Value::Point { longitude, latitude }).map(|_| ());
        assert_eq!(step, Err(Refusal { cause: Cause::BadPoint, place }));
    }
    w.cell(Value::NullPoint)?.close_row()?.close_table()?;
    let table = Table::new(w.finish()?, 0)?;
    let positions: Vec<_> = table.rows().map(|row| row.get("POSITION").map(|cell| cell.value)).collect();
    assert_eq!(positions, [Ok(Value::NullPoint); 3]);
    Ok(())
}

#[test]
fn columns_are_given_as_pairs_of_any_names() -> Result<(), Refusal> {
    const LENT: &[(&[u8], WireType)] = &[(b"A", WireType::Integer), (b"B", WireType::Float)];
    let (mut one, mut other) = ([0; 100], [0; 100]);
    let mut w = ReplyWriter::begin(&mut one, ReplyHead::default())?;
    w.open_table(0, [("A", WireType::Integer), ("B", WireType::Float)])?.close_table()?;
    let by_value = w.finish()?;
    let mut w = ReplyWriter::begin(&mut other, ReplyHead::default())?;
    w.open_table(0, LENT)?.close_table()?;
    assert_eq!(w.finish()?, by_value);
    assert_eq!(find_column(by_value, 0, "B"), Ok(1));
    Ok(())
}

/// As many columns as a table may have, and one more; then a table of few, which has nothing of those before it.
#[test]
fn the_most_columns() -> Result<(), Refusal> {
    const MOST: usize = 1024;
    let names: Vec<String> = (0..=MOST).map(|column| format!("C{column}")).collect();
    let all: Vec<(&str, WireType)> = names.iter().map(|name| (name.as_str(), WireType::Smallint)).collect();
    let mut out = vec![0; 20_000];
    let mut w = ReplyWriter::begin(&mut out, ReplyHead::default())?;
    let place = w.position();
    assert_eq!(w.open_table(0, &all).map(|_| ()), Err(Refusal { cause: Cause::OverLimit, place }));
    w.open_table(0, &all[..MOST])?.row((0..MOST).map(|column| Value::Smallint(column as i16)))?;
    assert_eq!(cause(w.row([Value::Smallint(0)])), Cause::WrongStage);
    w.close_table()?.open_table(0, [("A", WireType::Integer)])?.row([Value::Integer(1)])?;
    assert_eq!(cause(w.row([Value::Smallint(1)])), Cause::WireType);
    w.close_table()?;
    let message = w.finish()?;

    let table = Table::new(message, 0)?;
    assert_eq!(table.columns().len(), MOST);
    for (column, name) in names[..MOST].iter().enumerate() {
        assert_eq!(table.row(0)?.get(name)?.value, Value::Smallint(column as i16));
        assert_eq!(cell(message, 0, 0, column), Ok(Value::Smallint(column as i16)));
    }
    assert_eq!(cell(message, 1, 0, 0), Ok(Value::Integer(1)));
    Ok(())
}

/// The room for the types of as many columns as a table may have isn't moved with the writer.
#[test]
fn a_writer_is_small() {
    assert!(std::mem::size_of::<ReplyWriter<'_>>() < 200);
}

#[test]
fn a_refused_row_leaves_the_writer_as_it_was() -> Result<(), Refusal> {
    let mut out = [0; 100];
    let mut w = ReplyWriter::begin(&mut out, ReplyHead::default())?;
    w.open_table(0, [("A", WireType::Integer), ("B", WireType::String)])?;
    w.row([1.into(), "one".into()])?;
    let position = w.position();
    assert_eq!(cause(w.row([1.into()])), Cause::WrongStage);
    assert_eq!(cause(w.row([1.into(), "one".into(), 1.into()])), Cause::WrongStage);
    assert_eq!(cause(w.row([1.into(), 1.into()])), Cause::WireType);
    assert_eq!(cause(w.row([1.into(), "x".repeat(100).as_str().into()])), Cause::ShortOutput);
    assert_eq!(w.position(), position);
    w.row([2.into(), Value::Text(None)])?.close_table()?;
    let message = w.finish()?;
    assert_eq!(rows(message, 0), Ok(2));
    assert_eq!(cell(message, 0, 1, 0), Ok(Value::Integer(2)));
    Ok(())
}

/// A row written in some way into a table of these types, in so much room: what that was answered, where the writer stands then, and the whole buffer.
fn written_row(
    room: usize, types: &[WireType], write: impl FnOnce(&mut ReplyWriter<'_>) -> Result<(), Refusal>,
) -> (Result<(), Refusal>, usize, Vec<u8>) {
    let mut out = vec![7; room];
    let mut w = ReplyWriter::begin(&mut out, ReplyHead::default()).unwrap();
    w.open_table(0, types.iter().map(|&wire_type| ("", wire_type))).unwrap();
    let (written, position) = (write(&mut w), w.position());
    (written, position, out)
}

fn by_steps(w: &mut ReplyWriter<'_>, values: &[Value<'_>]) -> Result<(), Refusal> {
    w.open_row()?;
    for &value in values {
        w.cell(value)?;
    }
    w.close_row().map(|_| ())
}

/// Rows of every type that are right, too short, too long, and with a value in each column that is wrong or of another type; in room that ends at
/// each of their bytes. What is refused is what the first step would be, and nothing is written then.
#[test]
fn a_row_is_the_run_of_its_steps() {
    let every = [
        Value::Tinyint(-5),
        Value::Text(Some("\u{c6}r\u{f8}")),
        Value::Smallint(-300),
        Value::Integer(-70_000),
        Value::Binary(Some(&[0, 255])),
        Value::Bigint(-1),
        Value::Float(-0.0),
        Value::Text(None),
        Value::Timestamp(-1),
        Value::Decimal(Decimal::from_units(-1)),
        Value::Point { longitude: -12.25, latitude: 55.5 },
        Value::Geography(Some(&[192, 1])),
        Value::Binary(Some(b"")),
    ];
    let types = every.map(|value| value.wire_type());
    let mut tried = vec![every.to_vec(), every[..12].to_vec(), [&every[..], &every[..2]].concat(), vec![]];
    let others = [
        Value::Tinyint(1),
        Value::Bigint(1),
        Value::Timestamp(1),
        Value::Text(Some("x")),
        Value::Binary(None),
        Value::Decimal(Decimal::from_units(i128::MAX)),
        Value::NullPoint,
        Value::Point { longitude: 360.0, latitude: 0.0 },
        Value::Geography(Some(b"")),
    ];
    for column in 0..every.len() {
        for other in others {
            let mut row = every.to_vec();
            row[column] = other;
            tried.push(row);
        }
    }
    let table = written_row(500, &types, |_| Ok(())).1;
    let end = written_row(500, &types, |w| by_steps(w, &every)).1;
    for values in &tried {
        for room in (table..=end + 20).step_by(if values[..] == every { 1 } else { 7 }) {
            let (wanted, stepped_to, stepped) = written_row(room, &types, |w| by_steps(w, values));
            let (written, position, out) = written_row(room, &types, |w| w.row(values.iter().copied()).map(|_| ()));
            assert_eq!(written, wanted, "{values:?} in {room} bytes");
            let (position_wanted, left) =
                if wanted.is_ok() { (stepped_to, stepped) } else { (table, written_row(room, &types, |_| Ok(())).2) };
            assert_eq!((position, out), (position_wanted, left), "{values:?} in {room} bytes");
        }
    }
}

/// Where no row may be opened, its values aren't looked at; and of endless ones not all.
#[test]
fn a_row_without_its_table() -> Result<(), Refusal> {
    let mut out = [0; 100];
    let mut w = ReplyWriter::begin(&mut out, ReplyHead::default())?;
    let wrong_stage = |place| Err(Refusal { cause: Cause::WrongStage, place });
    let place = w.position();
    assert_eq!(w.row([Value::Integer(1)]).map(|_| ()), wrong_stage(place));
    w.open_table(0, [("A", WireType::Integer)])?.open_row()?;
    let place = w.position();
    assert_eq!(w.row([Value::Integer(1)]).map(|_| ()), wrong_stage(place));
    assert_eq!(w.row([Value::Bigint(1)]).map(|_| ()), wrong_stage(place));
    w.cell(1)?.close_row()?;
    let place = w.position();
    assert_eq!(w.row(std::iter::repeat(Value::Integer(1))).map(|_| ()), wrong_stage(place + 8));
    w.close_table()?;
    assert_eq!(w.row([Value::Bigint(1)]).map(|_| ()), wrong_stage(place));
    Ok(())
}

/// Whole rows by numbers: bodies anywhere among the lent bytes, nulls, a number left over; and what is refused, which changes nothing.
#[test]
fn rows_by_numbers() -> Result<(), Refusal> {
    let lent = "b\u{e9}c".as_bytes();
    let mut out = [0; 200];
    let mut w = ReplyWriter::begin(&mut out, ReplyHead::default())?;
    w.open_table(0, [("A", WireType::Smallint), ("B", WireType::String), ("C", WireType::Decimal), ("D", WireType::Varbinary)])?;
    w.whole_row(&[0, 0xfffe, 1, 2, u64::MAX, u64::MAX, 0, 4], lent)?;
    w.whole_row(&[0, 0, u64::MAX, NULL_SIZE, 1 << 63, 0, 4, 0, 9], lent)?;
    let position = w.position();
    for (cells, bytes, cause, place) in [
        (&[0, 1 << 16, 4, 9, 0, 0, 0, 9][..], lent, Cause::WireType, position + 4),
        (&[0, 0, 4, 1, 0, 0, 0, 0], lent, Cause::PastEnd, 0),
        (&[0, 0, u64::MAX, 1, 0, 0, 0, 0], lent, Cause::PastEnd, 0),
        (&[0, 0, 0, 0, 0, 0, 0, 1], b"", Cause::PastEnd, 0),
        (&[0, 0, 1, 1, 0, 0, 0, 9], lent, Cause::BadText, position + 6),
        (&[0, 0, 0, 0, u64::MAX >> 1, 0, 0, 9], lent, Cause::BadDecimal, position + 10),
        (&[0, 0, 0, 0, 0, 0, 0], lent, Cause::WrongStage, position + 26),
        (&[0, 0, 0, 0, 0, 0, 0, 0, 0, 0], lent, Cause::WrongStage, position + 30),
        (&[], lent, Cause::WrongStage, position + 4),
    ] {
        assert_eq!(w.whole_row(cells, bytes).map(|_| ()), Err(Refusal { cause, place }), "{cells:?}");
        assert_eq!(w.position(), position);
    }
    w.close_table()?;
    let message = w.finish()?;
    let table = Table::new(message, 0)?;
    let rows: Vec<Vec<Value>> = table.rows().map(|row| row.cells().map(|cell| cell.unwrap().value).collect()).collect();
    let first = vec![Value::Smallint(-2), Value::from("\u{e9}"), Value::Decimal(Decimal::from_units(-1)), Value::Binary(Some(lent))];
    let second = vec![Value::Smallint(0), Value::Text(None), Value::Decimal(None), Value::Binary(Some(b""))];
    assert_eq!(rows, [first, second]);
    Ok(())
}

/// The sample's rows, passed on by the places of their cells, so that none of its bytes is copied on the way.
#[test]
fn a_reply_is_passed_on_by_its_places() -> Result<(), Refusal> {
    let table = Table::new(REPLY, 0)?;
    let mut out = vec![0; REPLY.len()];
    let mut w = ReplyWriter::begin(&mut out, sample_head())?;
    w.open_table(0, table.columns())?;
    for row in table.rows() {
        let mut cells = Vec::new();
        for cell in row.cells() {
            let Cell { value, place, .. } = cell?;
            let bits = || REPLY[place.clone()].iter().fold(0, |bits: u128, &byte| bits << 8 | u128::from(byte));
            cells.extend(match value {
                Value::Text(None) => [0, NULL_SIZE],
                Value::Text(Some(text)) => [place.start as u64 + 4, text.len() as u64],
                _ => [(bits() >> 64) as u64, bits() as u64],
            });
        }
        w.whole_row(&cells, REPLY)?;
    }
    w.close_table()?;
    assert_eq!(w.finish()?, REPLY);
    Ok(())
}

/// Each string and the exception, absent, null and there: the flags follow from them.
#[test]
fn heads_read_back_as_they_were_written() -> Result<(), Refusal> {
    let strings = [Optional::Absent, Optional::Null, Optional::There(""), Optional::There("why")];
    for status_string in strings {
        for app_string in strings {
            for exception in [None, Some(&b""[..]), Some(&[0xc3])] {
                let head = ReplyHead { version: 1, status_string, app_string, exception, ..sample_head() };
                let mut out = [0; 100];
                let message = ReplyWriter::begin(&mut out, head)?.finish()?;
                assert_eq!(response(message)?.head, head);
            }
        }
    }
    Ok(())
}

/// A value of each type, negative where it has a sign, reads back as it was written.
#[test]
fn values_of_every_type() -> Result<(), Refusal> {
    let values = [
        Value::Tinyint(-5),
        Value::Smallint(-300),
        Value::Integer(-70_000),
        Value::Bigint(i64::MIN),
        Value::Float(-0.0),
        Value::Text(Some("")),
        Value::Text(None),
        Value::Timestamp(-1),
        Value::Decimal(Decimal::from_units(-800_000_000_000)),
        Value::Decimal(None),
        Value::Binary(Some(&[0, 255])),
        Value::Binary(None),
        Value::Point { longitude: -12.25, latitude: 55.5 },
        Value::NullPoint,
        Value::Geography(Some(&[192, 1])),
        Value::Geography(None),
    ];
    let mut out = [0; 300];
    let mut w = CallWriter::begin(&mut out, 1, "Every", CLIENT)?;
    for value in values {
        w.param(value)?;
    }
    assert_eq!(cause(w.param(Decimal::from_units(10i128.pow(38)).unwrap())), Cause::BadDecimal);
    assert_eq!(cause(w.param(Value::Geography(Some(b"")))), Cause::BadGeography);
    let message = w.finish()?;
    for (number, value) in values.into_iter().enumerate() {
        assert_eq!(parameter(message, number), Ok(Parameter::One(value)));
    }
    Ok(())
}

#[test]
fn rust_s_own_types_are_values() {
    assert_eq!(Value::from(1i8), Value::Tinyint(1));
    assert_eq!(Value::from(1i16), Value::Smallint(1));
    assert_eq!(Value::from(1i32), Value::Integer(1));
    assert_eq!(Value::from(1i64), Value::Bigint(1));
    assert_eq!(Value::from(1.0), Value::Float(1.0));
    assert_eq!(Value::from("1"), Value::Text(Some("1")));
    let one = Decimal::from_units(1);
    assert_eq!(one.map(Value::from), Some(Value::Decimal(one)));
}
