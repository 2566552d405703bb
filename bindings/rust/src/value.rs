//! One value of a column.

use crate::abi::Taken;
use crate::cut;

/// One value of a column. Strings, BLOB, SET, BIT, DECIMAL, JSON, geometry and VECTOR are bytes, as the server stored them. The strings of
/// an ENUM's number and of a SET's bytes are in [`TableColumn::strings`](crate::TableColumn::strings).
#[derive(Clone, Copy, Debug, PartialEq)]
#[non_exhaustive]
pub enum Value<'a> {
    /// NULL.
    Null,
    /// An integer of a column that is not flagged unsigned.
    Int(i64),
    /// An integer of a column that is flagged unsigned, or the number of an ENUM's string.
    Uint(u64),
    /// FLOAT.
    Float(f32),
    /// DOUBLE.
    Double(f64),
    /// TIMESTAMP.
    Seconds {
        /// Seconds since 1970.
        seconds: u32,
        /// Microseconds.
        micros: u32,
    },
    /// YEAR: 0 for the year 0000, else 1901 to 2155.
    Year(u16),
    /// DATE.
    Date {
        /// 0 to 9999.
        year: u16,
        /// 0 to 12.
        month: u8,
        /// 0 to 31.
        day: u8,
    },
    /// DATETIME.
    Datetime {
        /// 0 to 9999.
        year: u16,
        /// 0 to 12.
        month: u8,
        /// 0 to 31.
        day: u8,
        /// 0 to 23.
        hour: u8,
        /// 0 to 59.
        minute: u8,
        /// 0 to 59.
        second: u8,
        /// Microseconds.
        micros: u32,
    },
    /// TIME.
    Time {
        /// Whether the time is negative.
        negative: bool,
        /// 0 to 838.
        hours: u16,
        /// 0 to 59.
        minutes: u8,
        /// 0 to 59.
        seconds: u8,
        /// Microseconds.
        micros: u32,
    },
    /// All else.
    Bytes(&'a [u8]),
}

/// How many numbers a value is read as: its kind and seven parts.
pub(crate) const NUMBERS: usize = 8;

const NULL: u64 = 1;
const INT: u64 = 2;
const UINT: u64 = 3;
const FLOAT: u64 = 4;
const DOUBLE: u64 = 5;
const SECONDS: u64 = 6;
const YEAR: u64 = 7;
const DATE: u64 = 8;
const DATETIME: u64 = 9;
const TIME: u64 = 10;
const BYTES: u64 = 11;

impl<'a> Value<'a> {
    /// The value of a kind and its parts, which the library answers within the widths that they are cut to here.
    #[inline(always)]
    pub(crate) fn from_numbers(numbers: &[u64; NUMBERS], image: &'a [u8]) -> Option<Value<'a>> {
        let [kind, a, b, c, d, e, f, g] = *numbers;
        Some(match kind {
            NULL => Value::Null,
            INT => Value::Int(a as i64),
            UINT => Value::Uint(a),
            FLOAT => Value::Float(f32::from_bits(a as u32)),
            DOUBLE => Value::Double(f64::from_bits(a)),
            SECONDS => Value::Seconds {
                seconds: a as u32,
                micros: b as u32,
            },
            YEAR => Value::Year(a as u16),
            DATE => Value::Date {
                year: a as u16,
                month: b as u8,
                day: c as u8,
            },
            DATETIME => Value::Datetime {
                year: a as u16,
                month: b as u8,
                day: c as u8,
                hour: d as u8,
                minute: e as u8,
                second: f as u8,
                micros: g as u32,
            },
            TIME => Value::Time {
                negative: a != 0,
                hours: b as u16,
                minutes: c as u8,
                seconds: d as u8,
                micros: e as u32,
            },
            BYTES => Value::Bytes(cut(image, a, b)?),
            _ => return None,
        })
    }

    /// The value's kind and parts.
    pub(crate) fn taken(&self) -> Taken<'a> {
        let (kind, parts) = match *self {
            Value::Null => (NULL, [0; 7]),
            Value::Int(n) => (INT, [n as u64, 0, 0, 0, 0, 0, 0]),
            Value::Uint(n) => (UINT, [n, 0, 0, 0, 0, 0, 0]),
            Value::Float(x) => (FLOAT, [u64::from(x.to_bits()), 0, 0, 0, 0, 0, 0]),
            Value::Double(x) => (DOUBLE, [x.to_bits(), 0, 0, 0, 0, 0, 0]),
            Value::Seconds { seconds, micros } => (
                SECONDS,
                [u64::from(seconds), u64::from(micros), 0, 0, 0, 0, 0],
            ),
            Value::Year(year) => (YEAR, [u64::from(year), 0, 0, 0, 0, 0, 0]),
            Value::Date { year, month, day } => (
                DATE,
                [
                    u64::from(year),
                    u64::from(month),
                    u64::from(day),
                    0,
                    0,
                    0,
                    0,
                ],
            ),
            Value::Datetime {
                year,
                month,
                day,
                hour,
                minute,
                second,
                micros,
            } => (
                DATETIME,
                [
                    u64::from(year),
                    u64::from(month),
                    u64::from(day),
                    u64::from(hour),
                    u64::from(minute),
                    u64::from(second),
                    u64::from(micros),
                ],
            ),
            Value::Time {
                negative,
                hours,
                minutes,
                seconds,
                micros,
            } => (
                TIME,
                [
                    u64::from(negative),
                    u64::from(hours),
                    u64::from(minutes),
                    u64::from(seconds),
                    u64::from(micros),
                    0,
                    0,
                ],
            ),
            Value::Bytes(bytes) => (BYTES, [0, bytes.len() as u64, 0, 0, 0, 0, 0]),
        };
        let lent = match *self {
            Value::Bytes(bytes) => bytes,
            _ => &[],
        };
        Taken { kind, parts, lent }
    }

    /// Bytes that are enough to store the value: no number, date or time takes more than 8, no length more than 4.
    pub(crate) fn room(&self) -> usize {
        match *self {
            Value::Bytes(bytes) => bytes.len().saturating_add(4),
            _ => 8,
        }
    }
}
