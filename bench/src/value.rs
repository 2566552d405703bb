//! What the two Rust readers answer: values and refusals, as document 01 names them.

/// One value of a column.
#[derive(Clone, Copy, Debug, PartialEq)]
pub enum Value<'a> {
    Null,
    Int(i64),
    Uint(u64),
    /// The bits of a float.
    Float(u32),
    /// The bits of a double.
    Double(u64),
    Seconds {
        seconds: u32,
        micros: u32,
    },
    Year(u16),
    Date {
        year: u16,
        month: u8,
        day: u8,
    },
    Datetime {
        year: u16,
        month: u8,
        day: u8,
        hour: u8,
        minute: u8,
        second: u8,
        micros: u32,
    },
    Time {
        negative: bool,
        hours: u16,
        minutes: u8,
        seconds: u8,
        micros: u32,
    },
    Bytes(&'a [u8]),
}

/// Number, place and part of a refusal.
#[derive(Clone, Copy, Debug, PartialEq, Eq)]
pub struct Refusal {
    pub number: u64,
    pub place: u64,
    pub part: u64,
}

impl Refusal {
    pub fn short(column: usize) -> Refusal {
        Refusal {
            number: 9,
            place: column as u64,
            part: 0,
        }
    }

    pub fn out_of_range(column: usize, part: Part) -> Refusal {
        Refusal {
            number: 10,
            place: column as u64,
            part: part as u64,
        }
    }

    pub fn record() -> Refusal {
        Refusal {
            number: 11,
            place: 0,
            part: 0,
        }
    }

    pub fn bits() -> Refusal {
        Refusal {
            number: 12,
            place: 0,
            part: 0,
        }
    }
}

/// The part of a date or time that is out of range, by its number.
#[derive(Clone, Copy, Debug, PartialEq, Eq)]
pub enum Part {
    Year = 1,
    Month = 2,
    Day = 3,
    Hour = 4,
    Minute = 5,
    Second = 6,
    Fraction = 7,
    Negative = 8,
}

impl Value<'_> {
    /// Its sort and seven parts, as the calls of the port tell them. Bytes are told by where they start in the images.
    pub fn numbers(self, images: &[u8]) -> [u64; 8] {
        match self {
            Value::Null => [1, 0, 0, 0, 0, 0, 0, 0],
            Value::Int(n) => [2, n as u64, 0, 0, 0, 0, 0, 0],
            Value::Uint(n) => [3, n, 0, 0, 0, 0, 0, 0],
            Value::Float(bits) => [4, bits.into(), 0, 0, 0, 0, 0, 0],
            Value::Double(bits) => [5, bits, 0, 0, 0, 0, 0, 0],
            Value::Seconds { seconds, micros } => [6, seconds.into(), micros.into(), 0, 0, 0, 0, 0],
            Value::Year(year) => [7, year.into(), 0, 0, 0, 0, 0, 0],
            Value::Date { year, month, day } => {
                [8, year.into(), month.into(), day.into(), 0, 0, 0, 0]
            }
            Value::Datetime {
                year,
                month,
                day,
                hour,
                minute,
                second,
                micros,
            } => [
                9,
                year.into(),
                month.into(),
                day.into(),
                hour.into(),
                minute.into(),
                second.into(),
                micros.into(),
            ],
            Value::Time {
                negative,
                hours,
                minutes,
                seconds,
                micros,
            } => [
                10,
                negative.into(),
                hours.into(),
                minutes.into(),
                seconds.into(),
                micros.into(),
                0,
                0,
            ],
            Value::Bytes(bytes) => [
                11,
                start_in(images, bytes),
                bytes.len() as u64,
                0,
                0,
                0,
                0,
                0,
            ],
        }
    }

    /// The sum of its sort and parts: the light digest of a value.
    #[inline(always)]
    pub fn sum(self, images: &[u8]) -> u64 {
        match self {
            Value::Null => 1,
            Value::Int(n) => 2u64.wrapping_add(n as u64),
            Value::Uint(n) => 3u64.wrapping_add(n),
            Value::Float(bits) => 4 + u64::from(bits),
            Value::Double(bits) => 5u64.wrapping_add(bits),
            Value::Seconds { seconds, micros } => 6 + u64::from(seconds) + u64::from(micros),
            Value::Year(year) => 7 + u64::from(year),
            Value::Date { year, month, day } => {
                8 + u64::from(year) + u64::from(month) + u64::from(day)
            }
            Value::Datetime {
                year,
                month,
                day,
                hour,
                minute,
                second,
                micros,
            } => {
                let date = u64::from(year) + u64::from(month) + u64::from(day);
                let clock = u64::from(hour) + u64::from(minute) + u64::from(second);
                9 + date + clock + u64::from(micros)
            }
            Value::Time {
                negative,
                hours,
                minutes,
                seconds,
                micros,
            } => {
                let clock = u64::from(hours) + u64::from(minutes) + u64::from(seconds);
                10 + u64::from(negative) + clock + u64::from(micros)
            }
            Value::Bytes(bytes) => 11 + start_in(images, bytes) + bytes.len() as u64,
        }
    }
}

/// Where bytes that are a part of the images start in them.
fn start_in(images: &[u8], bytes: &[u8]) -> u64 {
    (bytes.as_ptr() as usize - images.as_ptr() as usize) as u64
}
