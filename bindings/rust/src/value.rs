//! Wire types and values.

use crate::refusal::Refusal;
use std::{fmt, str};

/// A wire type, by the paper's number.
#[derive(Clone, Copy, Debug, PartialEq, Eq, Hash)]
#[repr(i8)]
pub enum WireType {
    /// Elements of one type; among parameters alone.
    Array = -99,
    /// Nothing; among parameters alone.
    Null = 1,
    /// A number of 1 byte.
    Tinyint = 3,
    /// A number of 2 bytes.
    Smallint = 4,
    /// A number of 4 bytes.
    Integer = 5,
    /// A number of 8 bytes.
    Bigint = 6,
    /// 8 bytes of IEEE 754.
    Float = 8,
    /// Text, which is UTF-8, with its length.
    String = 9,
    /// Microseconds, in 8 bytes.
    Timestamp = 11,
    /// Units of 10^-12, in 16 bytes.
    Decimal = 22,
    /// Bytes with their length.
    Varbinary = 25,
    /// Longitude and latitude, two floats; a null is both 360.
    Point = 26,
    /// A shape on the earth, with its length.
    Geography = 27,
}

impl WireType {
    /// All wire types.
    pub const ALL: [WireType; 13] = [
        WireType::Array,
        WireType::Null,
        WireType::Tinyint,
        WireType::Smallint,
        WireType::Integer,
        WireType::Bigint,
        WireType::Float,
        WireType::String,
        WireType::Timestamp,
        WireType::Decimal,
        WireType::Varbinary,
        WireType::Point,
        WireType::Geography,
    ];

    /// The byte that stands for the type in a message.
    pub fn byte(self) -> u8 {
        self as i8 as u8
    }

    /// The type that a byte stands for, if it is one's.
    pub fn from_byte(byte: u8) -> Option<WireType> {
        WireType::ALL.into_iter().find(|wire_type| wire_type.byte() == byte)
    }

    /// Whether its values are bytes with their length before them.
    fn is_counted(self) -> bool {
        matches!(self, WireType::String | WireType::Varbinary | WireType::Geography)
    }
}

/// The type in an answer of a foreign function.
pub(crate) fn answered_type(number: u64) -> Result<WireType, Refusal> {
    u8::try_from(number).ok().and_then(WireType::from_byte).ok_or(Refusal::UNKNOWN_ANSWER)
}

/// A value, by its wire type. Text and binary values read from a message are parts of it.
///
/// A boat whose plotter is off has a null for its position:
///
/// ```
/// use chaloenpik::{parameter, CallWriter, Parameter, Value};
///
/// let mut out = [0; 100];
/// let mut call = CallWriter::begin(&mut out, 0, "Report", 42u64.to_be_bytes())?;
/// call.param(Value::Point { longitude: 12.5683, latitude: 55.6761 })?.param(Value::NullPoint)?;
/// let message = call.finish()?;
/// assert_eq!(parameter(message, 1)?, Parameter::One(Value::NullPoint));
/// assert!(Value::NullPoint.is_null());
/// # Ok::<(), chaloenpik::Refusal>(())
/// ```
#[derive(Clone, Copy, Debug, PartialEq)]
pub enum Value<'m> {
    /// A number of 1 byte.
    Tinyint(i8),
    /// A number of 2 bytes.
    Smallint(i16),
    /// A number of 4 bytes.
    Integer(i32),
    /// A number of 8 bytes.
    Bigint(i64),
    /// A float, with every bit as in the message, those of a NaN too.
    Float(f64),
    /// A string, or its null.
    Text(Option<&'m str>),
    /// Microseconds.
    Timestamp(i64),
    /// A decimal, or its null.
    Decimal(Option<Decimal>),
    /// A varbinary, or its null.
    Binary(Option<&'m [u8]>),
    /// A point on the earth, in degrees. With both 360 it is written as the null, and reads back as [`Value::NullPoint`].
    Point {
        /// From -180 to 180.
        longitude: f64,
        /// From -90 to 90.
        latitude: f64,
    },
    /// The null of a point.
    NullPoint,
    /// A geography, which a message keeps as it is, or its null; [`crate::Area`] looks into one.
    Geography(Option<&'m [u8]>),
}

/// A value as the foreign functions take it: the bits of one of a fixed size, or the bytes of another, or its null.
pub(crate) enum Form<'m> {
    Fixed(u128),
    Body(Option<&'m [u8]>),
}

/// The forms of a value in numbers: one of a fixed size, a text or binary one that is there, a null.
const FIXED: u64 = 0;
const BYTES: u64 = 1;
const NONE: u64 = 2;

/// The bits of a null point: those of 360.0 twice.
const NULL_POINT: u128 = 0x4076_8000_0000_0000_4076_8000_0000_0000;

/// The length field of a null.
const NULL_LENGTH: [u8; 4] = (-1i32).to_be_bytes();

impl<'m> Value<'m> {
    /// The value's wire type.
    pub fn wire_type(&self) -> WireType {
        match self {
            Value::Tinyint(_) => WireType::Tinyint,
            Value::Smallint(_) => WireType::Smallint,
            Value::Integer(_) => WireType::Integer,
            Value::Bigint(_) => WireType::Bigint,
            Value::Float(_) => WireType::Float,
            Value::Text(_) => WireType::String,
            Value::Timestamp(_) => WireType::Timestamp,
            Value::Decimal(_) => WireType::Decimal,
            Value::Binary(_) => WireType::Varbinary,
            Value::Point { .. } | Value::NullPoint => WireType::Point,
            Value::Geography(_) => WireType::Geography,
        }
    }

    /// Whether it is the null of its type.
    pub fn is_null(&self) -> bool {
        matches!(self, Value::Text(None) | Value::Decimal(None) | Value::Binary(None) | Value::NullPoint | Value::Geography(None))
    }

    /// Each number is brought to its own width without a sign, so none is cut.
    pub(crate) fn form(self) -> Form<'m> {
        match self {
            Value::Tinyint(n) => Form::Fixed((n as u8).into()),
            Value::Smallint(n) => Form::Fixed((n as u16).into()),
            Value::Integer(n) => Form::Fixed((n as u32).into()),
            Value::Bigint(n) | Value::Timestamp(n) => Form::Fixed((n as u64).into()),
            Value::Float(x) => Form::Fixed(x.to_bits().into()),
            Value::Decimal(decimal) => Form::Fixed(decimal.map_or(Decimal::NULL, Decimal::units) as u128),
            Value::Point { longitude, latitude } => Form::Fixed(u128::from(longitude.to_bits()) << 64 | u128::from(latitude.to_bits())),
            Value::NullPoint => Form::Fixed(NULL_POINT),
            Value::Text(text) => Form::Body(text.map(str::as_bytes)),
            Value::Binary(bytes) | Value::Geography(bytes) => Form::Body(bytes),
        }
    }

    /// The value that a foreign function shows in numbers: wire type, form, and two that the form decides.
    pub(crate) fn from_numbers(message: &'m [u8], numbers: [u64; 4]) -> Result<Self, Refusal> {
        let [wire_type, form, upper, lower] = numbers;
        let wire_type = answered_type(wire_type)?;
        let value = match form {
            FIXED => Value::fixed(wire_type, u128::from(upper) << 64 | u128::from(lower)),
            BYTES => Value::counted(wire_type, Some(part(message, upper, lower)?)),
            NONE if wire_type == WireType::Point => Some(Value::NullPoint),
            NONE => Value::counted(wire_type, None),
            _ => None,
        };
        value.ok_or(Refusal::UNKNOWN_ANSWER)
    }

    /// The value of a type that its bytes in an accepted message say, a length field among them.
    pub(crate) fn from_bytes(wire_type: WireType, bytes: &'m [u8]) -> Option<Self> {
        if wire_type.is_counted() {
            let (length, body) = (bytes.get(..4)?, bytes.get(4..)?);
            return Value::counted(wire_type, (length != NULL_LENGTH).then_some(body));
        }
        let mut wide = [0; 16];
        let zeros = wide.len().checked_sub(bytes.len())?;
        wide[zeros..].copy_from_slice(bytes);
        Value::fixed(wire_type, u128::from_be_bytes(wide))
    }

    /// A value of a fixed size, by its bits.
    fn fixed(wire_type: WireType, bits: u128) -> Option<Self> {
        let (upper, lower) = ((bits >> 64) as u64, bits as u64);
        Some(match wire_type {
            WireType::Tinyint => Value::Tinyint(lower as i8),
            WireType::Smallint => Value::Smallint(lower as i16),
            WireType::Integer => Value::Integer(lower as i32),
            WireType::Bigint => Value::Bigint(lower as i64),
            WireType::Float => Value::Float(f64::from_bits(lower)),
            WireType::Timestamp => Value::Timestamp(lower as i64),
            WireType::Decimal => Value::Decimal(Decimal::from_units(bits as i128)),
            WireType::Point if bits == NULL_POINT => Value::NullPoint,
            WireType::Point => Value::Point { longitude: f64::from_bits(upper), latitude: f64::from_bits(lower) },
            _ => return None,
        })
    }

    /// A text or binary value.
    fn counted(wire_type: WireType, body: Option<&'m [u8]>) -> Option<Self> {
        match wire_type {
            WireType::String => Some(Value::Text(body.map(str::from_utf8).transpose().ok()?)),
            WireType::Varbinary => Some(Value::Binary(body)),
            WireType::Geography => Some(Value::Geography(body)),
            _ => None,
        }
    }
}

/// For people: numbers and decimals by their digits, text in quotes, bytes in hexadecimal, a point by its longitude and latitude.
impl fmt::Display for Value<'_> {
    fn fmt(&self, f: &mut fmt::Formatter<'_>) -> fmt::Result {
        match self {
            Value::Tinyint(n) => n.fmt(f),
            Value::Smallint(n) => n.fmt(f),
            Value::Integer(n) => n.fmt(f),
            Value::Bigint(n) | Value::Timestamp(n) => n.fmt(f),
            Value::Float(x) => x.fmt(f),
            Value::Decimal(Some(decimal)) => decimal.fmt(f),
            Value::Point { longitude, latitude } => write!(f, "{longitude} {latitude}"),
            Value::Text(Some(text)) => write!(f, "{text:?}"),
            Value::Binary(Some(bytes)) | Value::Geography(Some(bytes)) => bytes.iter().try_for_each(|byte| write!(f, "{byte:02x}")),
            Value::Text(None) | Value::Decimal(None) | Value::Binary(None) | Value::NullPoint | Value::Geography(None) => f.pad("null"),
        }
    }
}

/// A part of the message, by its start and size.
pub(crate) fn part(message: &[u8], start: u64, size: u64) -> Result<&[u8], Refusal> {
    let (start, size) = (start as usize, size as usize);
    message.get(start..).and_then(|rest| rest.get(..size)).ok_or(Refusal::UNKNOWN_ANSWER)
}

/// A text of the message, by its start and size. An accepted message has only well-formed ones.
pub(crate) fn text(message: &[u8], start: u64, size: u64) -> Result<&str, Refusal> {
    str::from_utf8(part(message, start, size)?).map_err(|_| Refusal::UNKNOWN_ANSWER)
}

impl From<i8> for Value<'_> {
    fn from(n: i8) -> Self {
        Value::Tinyint(n)
    }
}

impl From<i16> for Value<'_> {
    fn from(n: i16) -> Self {
        Value::Smallint(n)
    }
}

impl From<i32> for Value<'_> {
    fn from(n: i32) -> Self {
        Value::Integer(n)
    }
}

impl From<i64> for Value<'_> {
    fn from(n: i64) -> Self {
        Value::Bigint(n)
    }
}

impl From<f64> for Value<'_> {
    fn from(x: f64) -> Self {
        Value::Float(x)
    }
}

impl<'m> From<&'m str> for Value<'m> {
    fn from(text: &'m str) -> Self {
        Value::Text(Some(text))
    }
}

impl From<Decimal> for Value<'_> {
    fn from(decimal: Decimal) -> Self {
        Value::Decimal(Some(decimal))
    }
}

/// A decimal that is no null: a signed number of units of 10^-12.
///
/// ```
/// use chaloenpik::Decimal;
///
/// let limit = Decimal::from_units(800_000_000_000).unwrap();
/// assert_eq!(limit.to_string(), "0.8");
/// ```
#[derive(Clone, Copy, Debug, PartialEq, Eq, PartialOrd, Ord, Hash)]
pub struct Decimal(i128);

impl Decimal {
    /// The units of the null.
    const NULL: i128 = i128::MIN;

    /// The decimal of so many units of 10^-12; `None` for -2^127, which in a message is the null. One of more than 38 digits can't be
    /// written: that is refused 21.
    pub fn from_units(units: i128) -> Option<Decimal> {
        (units != Decimal::NULL).then_some(Decimal(units))
    }

    /// How many units of 10^-12 it is.
    pub fn units(self) -> i128 {
        self.0
    }
}

/// All digits that it has, without zeros behind them.
impl fmt::Display for Decimal {
    fn fmt(&self, f: &mut fmt::Formatter<'_>) -> fmt::Result {
        const ONE: u128 = 1_000_000_000_000;
        let units = self.0.unsigned_abs();
        let digits = format!("{}.{:012}", units / ONE, units % ONE);
        f.pad_integral(self.0 >= 0, "", digits.trim_end_matches('0').trim_end_matches('.'))
    }
}

#[cfg(test)]
mod tests {
    use super::*;

    #[test]
    fn bytes_stand_for_types_and_back() {
        for wire_type in WireType::ALL {
            assert_eq!(WireType::from_byte(wire_type.byte()), Some(wire_type));
        }
        assert_eq!((0..=255).filter_map(WireType::from_byte).count(), WireType::ALL.len());
    }

    #[test]
    fn decimals_have_all_their_digits() {
        let digits = |units| Decimal::from_units(units).unwrap().to_string();
        assert_eq!(digits(0), "0");
        assert_eq!(digits(1), "0.000000000001");
        assert_eq!(digits(-800_000_000_000), "-0.8");
        assert_eq!(digits(100_000_000_000_000), "100");
        assert_eq!(digits(10i128.pow(38) - 1), "99999999999999999999999999.999999999999");
        assert_eq!(Decimal::from_units(i128::MIN), None);
    }

    #[test]
    fn values_are_shown_to_people() {
        let shown = |value: Value<'_>| value.to_string();
        assert_eq!(shown(Value::Tinyint(-5)), "-5");
        assert_eq!(shown(Value::Float(81.5)), "81.5");
        assert_eq!(shown(Value::Decimal(Decimal::from_units(850_000_000_000))), "0.85");
        assert_eq!(shown(Value::from("\u{c6}r\u{f8}\n")), "\"\u{c6}r\u{f8}\\n\"");
        assert_eq!(shown(Value::Binary(Some(&[0, 255]))), "00ff");
        assert_eq!(shown(Value::Point { longitude: -12.25, latitude: 55.5 }), "-12.25 55.5");
        assert_eq!(shown(Value::Text(None)), "null");
        assert_eq!(shown(Value::NullPoint), "null");
    }

    #[test]
    fn a_point_is_null_by_both_its_numbers() {
        let is_null = |longitude: f64, latitude: f64| {
            let bytes = [longitude.to_be_bytes(), latitude.to_be_bytes()].concat();
            Value::from_bytes(WireType::Point, &bytes).unwrap().is_null()
        };
        assert!(is_null(360.0, 360.0));
        assert!(!is_null(360.0, 0.0) && !is_null(0.0, 360.0) && !is_null(-360.0, -360.0) && !is_null(-0.0, 0.0));
        assert_eq!(Value::from_numbers(&[], [26, NONE, 0, 0]), Ok(Value::NullPoint));
        assert_eq!(Value::from_numbers(&[], [26, FIXED, 0, 0]), Ok(Value::Point { longitude: 0.0, latitude: 0.0 }));
        assert!(matches!(Value::NullPoint.form(), Form::Fixed(NULL_POINT)));
        assert!(matches!(Value::Point { longitude: 360.0, latitude: 360.0 }.form(), Form::Fixed(NULL_POINT)));
    }

    #[test]
    fn bytes_of_no_value_have_none() {
        for wire_type in WireType::ALL {
            assert_eq!(Value::from_bytes(wire_type, &[0; 17]).is_some(), wire_type.is_counted());
        }
        assert_eq!(Value::from_bytes(WireType::String, &[0; 3]), None);
        assert_eq!(Value::from_bytes(WireType::Null, &[]), None);
        assert_eq!(Value::from_numbers(&[], [7, 0, 0, 0]), Err(Refusal::UNKNOWN_ANSWER));
        assert_eq!(Value::from_numbers(&[1], [9, BYTES, 1, 1]), Err(Refusal::UNKNOWN_ANSWER));
        assert_eq!(Value::from_numbers(&[1], [9, BYTES, u64::MAX, u64::MAX]), Err(Refusal::UNKNOWN_ANSWER));
        assert_eq!(Value::from_numbers(&[0xc3], [9, BYTES, 0, 1]), Err(Refusal::UNKNOWN_ANSWER));
        assert_eq!(Value::from_bytes(WireType::String, &[0, 0, 0, 1, 0xc3]), None);
        assert_eq!(text(&[0xc3], 0, 1), Err(Refusal::UNKNOWN_ANSWER));
        for (wire_type, form) in [(26, BYTES), (9, FIXED), (22, NONE), (9, 4)] {
            assert_eq!(Value::from_numbers(&[], [wire_type, form, 0, 0]), Err(Refusal::UNKNOWN_ANSWER));
        }
    }
}
