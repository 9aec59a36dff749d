use chaloenpik::{
    accept, card_fit, cell, cell_place, column_name, column_type, columns, element, field, fields, find_column, invocation, login_request,
    login_response, make_card, open_card, owner, parameter, response, rows, tables, Card, Cause, Decimal, Field, Fit, Kind, Optional,
    Parameter, Reason, Refusal, Value, Welcome, WireType,
};

const LOGIN: &[u8] = include_bytes!("../../../samples/1-login.bin");
const LOGIN_REPLY: &[u8] = include_bytes!("../../../samples/2-login-reply.bin");
const CALL: &[u8] = include_bytes!("../../../samples/3-engine-limits.bin");
const REPLY: &[u8] = include_bytes!("../../../samples/4-engines.bin");
const AREAS: &[u8] = include_bytes!("../../../samples/4-areas.bin");
const WITHOUT_VESSEL: &[u8] = include_bytes!("../../../samples/4-engines-without-vessel.bin");
const BIG_REPORT: &[u8] = include_bytes!("../../../samples/4-big-report.bin");
const PAST_END: Refusal = Refusal { cause: Cause::PastEnd, place: 0 };
const NO_COLUMN: Refusal = Refusal { cause: Cause::NoColumn, place: 0 };

fn refused<T>(cause: Cause, place: usize) -> Result<T, Refusal> {
    Err(Refusal { cause, place })
}

#[test]
fn the_papers_cases() {
    let kind = Kind::LoginResponse;
    assert_eq!(accept(kind, &[0, 0, 0, 2, 0, 3]), Ok(()));
    assert_eq!(accept(kind, &[0, 0, 0, 3, 0, 3, 0]), refused(Cause::LeftOver, 6));
    assert_eq!(accept(kind, &[]), refused(Cause::NoRoom, 0));
    assert_eq!(accept(kind, &[0, 0, 0, 0]), refused(Cause::Negative, 0));
    assert_eq!(accept(kind, &[0, 0, 0, 2, 2, 3]), refused(Cause::Version, 4));
    assert_eq!(accept(kind, &[0, 0, 0, 2, 0, 0]), refused(Cause::NoRoom, 6));
    assert_eq!(accept(kind, &[0, 0, 0, 5, 0, 3]), refused(Cause::NoRoom, 0));
    assert_eq!(accept(Kind::Invocation, &[0, 0, 0, 5, 0, 255, 255, 255, 255]), refused(Cause::Negative, 5));
}

#[test]
fn the_sample_reply() {
    assert_eq!(accept(Kind::Response, REPLY), Ok(()));
    assert_eq!(accept(Kind::Response, &REPLY[..REPLY.len() - 1]), refused(Cause::NoRoom, 0));
}

#[test]
fn the_sample_s_table() {
    assert_eq!(tables(REPLY), Ok(1));
    assert_eq!(rows(REPLY, 0), Ok(4));
    assert_eq!(columns(REPLY, 0), Ok(7));
    assert_eq!(find_column(REPLY, 0, "THROTTLE_LIMIT"), Ok(3));
    assert_eq!(find_column(REPLY, 0, b"THROTTLE_LIMIT"), Ok(3));
    assert_eq!(column_type(REPLY, 0, 3), Ok(WireType::Decimal));
    assert_eq!(column_name(REPLY, 0, 3), Ok(&b"THROTTLE_LIMIT"[..]));
    assert_eq!(column_name(REPLY, 0, 7), Err(PAST_END));
    assert_eq!(find_column(REPLY, 0, "LIMIT"), Err(NO_COLUMN));
    assert_eq!(rows(REPLY, 1), Err(PAST_END));
}

#[test]
fn every_byte_has_one_owner() {
    let list = fields(Kind::Response, REPLY).unwrap();
    assert_eq!(list.len(), 75);
    let mut next = 0;
    for (number, entry) in list.iter().enumerate() {
        assert_eq!(entry.offset, next);
        next = entry.place().end;
        assert_eq!(owner(Kind::Response, REPLY, entry.offset), Ok(number));
        assert_eq!(owner(Kind::Response, REPLY, next - 1), Ok(number));
        assert_eq!(field(Kind::Response, REPLY, number), Ok(*entry));
    }
    assert_eq!(next, REPLY.len());
    assert_eq!(owner(Kind::Response, REPLY, REPLY.len()), Err(PAST_END));
    assert_eq!(field(Kind::Response, REPLY, list.len()), Err(PAST_END));
}

#[test]
fn the_sample_s_cells() {
    let shown = |row, column| cell(REPLY, 0, row, column).unwrap();
    assert_eq!(shown(1, 0), Value::Integer(2));
    assert_eq!(shown(1, 1), Value::from("Bodil"));
    assert_eq!(shown(1, 3), Value::Decimal(Decimal::from_units(800_000_000_000)));
    assert_eq!(shown(1, 4), Value::Float(84.5));
    assert_eq!(shown(1, 5), Value::Point { longitude: 12.5683, latitude: 55.6761 });
    assert_eq!(shown(1, 6), Value::Timestamp(1_761_000_000_000_000));
    assert_eq!(shown(2, 3), Value::Decimal(None));
    assert_eq!(shown(3, 2), Value::Text(None));
    assert!(shown(2, 3).is_null() && shown(3, 2).is_null() && !shown(1, 3).is_null());
    assert_eq!(cell_place(REPLY, 0, 1, 1), Ok(216..225));
    assert_eq!(cell_place(REPLY, 0, 4, 0), Err(PAST_END));
    assert_eq!(cell(REPLY, 0, 4, 0), Err(PAST_END));
    assert_eq!(cell(REPLY, 0, 0, 7), Err(PAST_END));
}

/// Where the berth of the sample's second row starts.
const BERTH: usize = 262;

/// The sample with another berth there.
fn with_berth(longitude: f64, latitude: f64) -> Vec<u8> {
    let mut reply = REPLY.to_vec();
    reply[BERTH..BERTH + 8].copy_from_slice(&longitude.to_be_bytes());
    reply[BERTH + 8..BERTH + 16].copy_from_slice(&latitude.to_be_bytes());
    reply
}

#[test]
fn a_point_is_a_position_or_null() {
    let null = with_berth(360.0, 360.0);
    assert_eq!(cell(&null, 0, 1, 5), Ok(Value::NullPoint));
    assert_eq!(cell_place(&null, 0, 1, 5), Ok(BERTH..BERTH + 16));
    assert_eq!(fields(Kind::Response, &null), fields(Kind::Response, REPLY));
    assert_eq!(cell(&with_berth(180.0, -90.0), 0, 1, 5), Ok(Value::Point { longitude: 180.0, latitude: -90.0 }));
    for (longitude, latitude) in [(360.0, 0.0), (0.0, 360.0), (-360.0, -360.0), (360.0, -360.0), (-360.0, 360.0)] {
        assert_eq!(accept(Kind::Response, &with_berth(longitude, latitude)), refused(Cause::BadPoint, BERTH));
    }
}

/// Whether a reply is accepted with other bytes at a place.
fn accept_with(reply: &[u8], place: usize, bytes: &[u8]) -> Result<(), Refusal> {
    let mut changed = reply.to_vec();
    changed[place..place + bytes.len()].copy_from_slice(bytes);
    accept(Kind::Response, &changed)
}

/// Where a reply's first field of a number starts.
fn first(reply: &[u8], number: u8) -> usize {
    fields(Kind::Response, reply).unwrap().iter().find(|field| field.number == number).unwrap().offset
}

#[test]
fn each_value_that_breaks_its_rule_has_its_own_cause() {
    let limit = cell_place(REPLY, 0, 0, 3).unwrap().start;
    assert_eq!(accept_with(REPLY, limit, &[0x7f]), refused(Cause::BadDecimal, limit));
    assert_eq!(accept_with(REPLY, limit, &[0x80]), refused(Cause::BadDecimal, limit)); // beside the null
    let flags = first(REPLY, Field::FLAGS);
    assert_eq!(accept_with(REPLY, flags, &[33]), refused(Cause::BadFlags, flags));
    let name = first(REPLY, Field::COLUMN_NAME);
    assert_eq!(accept_with(REPLY, name, &[127, 128]), refused(Cause::BadName, name + 1));
    let area = cell_place(AREAS, 0, 0, find_column(AREAS, 0, "AREA").unwrap()).unwrap().start;
    assert_eq!(accept_with(AREAS, area, &[0; 4]), refused(Cause::BadGeography, area));
}

#[test]
fn the_sample_s_parameters() {
    assert_eq!(parameter(CALL, 0), Ok(Parameter::One(Value::from("Bodil"))));
    assert_eq!(parameter(CALL, 1), Ok(Parameter::Array { wire_type: WireType::Integer, count: 2 }));
    assert_eq!(element(CALL, 1, 1), Ok(Value::Integer(2)));
    assert_eq!(element(CALL, 1, 2), Err(PAST_END));
    assert_eq!(parameter(CALL, 2), Ok(Parameter::Array { wire_type: WireType::Tinyint, count: 2 }));
    assert_eq!(element(CALL, 2, 0), Ok(Value::Tinyint(1)));
    assert_eq!(element(CALL, 0, 0).map_err(|no| no.cause), Err(Cause::WireType));
    assert_eq!(parameter(CALL, 3), Ok(Parameter::Null));
    assert_eq!(parameter(CALL, 4), Err(PAST_END));
}

#[test]
fn a_card_fits_while_its_column_stays() {
    let card = make_card(REPLY, 0, "THROTTLE_LIMIT").unwrap();
    assert_eq!(&card[..4], &[1, 3, WireType::Decimal.byte(), 14]);
    assert_eq!(open_card(REPLY, 0, &card), Ok(3));
    assert_eq!(open_card(WITHOUT_VESSEL, 0, &card), refused(Cause::CardMisfit, 0));
    assert_eq!(open_card(REPLY, 0, &card[..35]), refused(Cause::BadCard, 35));
    assert_eq!(make_card(REPLY, 0, "LIMIT"), Err(NO_COLUMN));
}

/// A card with other bytes at a place.
fn card_with(card: Card, place: usize, bytes: &[u8]) -> Vec<u8> {
    let mut changed = card.to_vec();
    changed[place..place + bytes.len()].copy_from_slice(bytes);
    changed
}

#[test]
fn near_and_far_cards() {
    let (near, far) = (make_card(BIG_REPORT, 0, "ENGINE_ID").unwrap(), make_card(BIG_REPORT, 0, "THROTTLE_LIMIT").unwrap());
    assert_eq!((near.len(), far.len()), (36, Card::MOST_SIZE));
    assert_eq!(&near[..4], &[1, 0, WireType::Integer.byte(), 9]);
    assert_eq!(&far[..5], &[2, 1, 1, WireType::Decimal.byte(), 14]);
    assert_eq!((open_card(BIG_REPORT, 0, &near), open_card(BIG_REPORT, 0, &far)), (Ok(0), Ok(257)));
    assert_eq!((open_card(REPLY, 0, &near), open_card(REPLY, 0, &far)), (Ok(0), refused(Cause::CardMisfit, 0)));

    for (broken, place) in [
        (near[..35].to_vec(), 35),
        (far[..36].to_vec(), 36),
        ([&near[..], &[0]].concat(), 36),
        ([&far[..], &[0]].concat(), 37),
        (card_with(far, 0, &[3]), 0),
        (card_with(near, 1, &[64]), 1),
        (card_with(far, 1, &[0, 63]), 1),
        (card_with(far, 1, &[4, 0]), 1),
        (card_with(far, 3, &[0]), 3),
        (card_with(far, 4, &[33]), 4),
        (card_with(far, 36, &[1]), 36),
    ] {
        assert_eq!(open_card(BIG_REPORT, 0, &broken), refused(Cause::BadCard, place));
    }
}

fn stale(reason: Reason, now: Option<usize>) -> Result<Fit, Refusal> {
    Ok(Fit::Stale { reason, now })
}

#[test]
fn why_a_card_is_stale() {
    let (near, far) = (make_card(REPLY, 0, "THROTTLE_LIMIT").unwrap(), make_card(BIG_REPORT, 0, "THROTTLE_LIMIT").unwrap());
    assert_eq!((card_fit(REPLY, 0, &near), card_fit(BIG_REPORT, 0, &far)), (Ok(Fit::Fits), Ok(Fit::Fits)));
    assert_eq!(card_fit(REPLY, 0, &far), stale(Reason::Past, Some(3)));
    assert_eq!(card_fit(BIG_REPORT, 0, &near), stale(Reason::OtherType, Some(257)));
    assert_eq!(card_fit(WITHOUT_VESSEL, 0, &near), stale(Reason::OtherType, Some(2)));
    assert_eq!(card_fit(AREAS, 0, &far), stale(Reason::Past, None));

    let vessel = make_card(REPLY, 0, "VESSEL").unwrap();
    assert_eq!(card_fit(WITHOUT_VESSEL, 0, &vessel), stale(Reason::OtherName, None));
    assert_eq!(card_fit(REPLY, 0, &card_with(vessel, 1, &[2])), stale(Reason::OtherName, Some(1)));
    assert_eq!(card_fit(REPLY, 0, &card_with(vessel, 1, &[6])), stale(Reason::OtherType, Some(1)));
    assert_eq!(card_fit(REPLY, 0, &card_with(vessel, 1, &[7])), stale(Reason::Past, Some(1)));
    assert_eq!(card_fit(REPLY, 0, &card_with(vessel, 2, &[WireType::Varbinary.byte()])), stale(Reason::OtherType, None));
}

#[test]
fn a_card_s_fit_is_refused_as_its_opening() {
    let card = make_card(REPLY, 0, "THROTTLE_LIMIT").unwrap();
    assert_eq!(card_fit(REPLY, 1, &card), Err(PAST_END));
    assert_eq!(card_fit(REPLY, 1, &card[..35]), refused(Cause::BadCard, 35));
    assert_eq!(card_fit(LOGIN, 1, &[]), Err(accept(Kind::Response, LOGIN).unwrap_err()));
}

#[test]
fn a_card_is_its_bytes() {
    let (near, far) = (make_card(BIG_REPORT, 0, "ENGINE_ID").unwrap(), make_card(BIG_REPORT, 0, "THROTTLE_LIMIT").unwrap());
    assert_eq!(near, make_card(REPLY, 0, "ENGINE_ID").unwrap());
    assert_ne!(near, far);
    assert_eq!(near.as_ref(), &near[..]);
    assert_eq!(format!("{near:?}"), format!("Card({:?})", &near[..]));
}

#[test]
fn records() {
    let login = login_request(LOGIN).unwrap();
    assert_eq!((login.version, login.hash_version, login.service, login.user), (1, Some(0), "database", "harbour"));
    assert_eq!(login.hash.len(), 20);

    let reply = login_response(LOGIN_REPLY).unwrap();
    let welcome = Welcome { host: 3, connection: 12, start: 1_760_000_000_000, leader: [10, 0, 0, 1], build: "6.0 harbour" };
    assert_eq!((reply.version, reply.result, reply.welcome), (1, 0, Some(welcome)));
    let failed = login_response(&[0, 0, 0, 2, 0, 253]).unwrap();
    assert_eq!((failed.version, failed.result, failed.welcome), (0, -3, None));

    let call = invocation(CALL).unwrap();
    assert_eq!((call.procedure, call.client, call.parameters), ("EngineLimits", 42u64.to_be_bytes(), 4));

    let reply = response(REPLY).unwrap();
    let head = reply.head;
    assert_eq!((head.version, head.client, head.status, head.app_status, head.round_trip), (0, 42u64.to_be_bytes(), 1, -128, 2));
    assert_eq!((head.status_string, head.app_string, head.exception), (Optional::There("ok"), Optional::Absent, None));
    assert_eq!(reply.tables, 1);
    assert_eq!(response(LOGIN), Err(accept(Kind::Response, LOGIN).unwrap_err()));
}
