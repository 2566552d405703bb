//! The first baseline: a plain Rust iterator, written from document 01. The record is parsed once; each row is an iterator over its columns, which
//! yields a value or why there is none.

use crate::record::{present_columns, Column, Storage};
use crate::value::{Part, Refusal, Value};

pub struct Reader {
    columns: Vec<Column>,
}

impl Reader {
    pub fn new(record: &[u8], presence: &[u8]) -> Result<Reader, Refusal> {
        Ok(Reader {
            columns: present_columns(record, presence)?,
        })
    }

    /// The row at the front of the bytes.
    pub fn row<'a>(&'a self, image: &'a [u8]) -> Result<Row<'a>, Refusal> {
        let null_bytes = self.columns.len().div_ceil(8);
        let (nulls, rest) = image
            .split_at_checked(null_bytes)
            .ok_or(Refusal::short(0))?;
        Ok(Row {
            columns: self.columns.iter().enumerate(),
            nulls,
            bytes: Bytes(rest),
        })
    }
}

/// The walk over one row.
pub struct Row<'a> {
    columns: std::iter::Enumerate<std::slice::Iter<'a, Column>>,
    nulls: &'a [u8],
    bytes: Bytes<'a>,
}

impl<'a> Row<'a> {
    /// The bytes behind what was read.
    pub fn rest(&self) -> &'a [u8] {
        self.bytes.0
    }
}

impl<'a> Iterator for Row<'a> {
    type Item = Result<(usize, Value<'a>), Refusal>;

    #[inline(always)]
    fn next(&mut self) -> Option<Self::Item> {
        let (rank, column) = self.columns.next()?;
        if self.nulls[rank / 8] >> (rank % 8) & 1 == 1 {
            return Some(Ok((column.number, Value::Null)));
        }
        Some(match self.bytes.value(column.storage) {
            Ok(value) => Ok((column.number, value)),
            Err(Fault::Short) => Err(Refusal::short(column.number)),
            Err(Fault::Out(part)) => Err(Refusal::out_of_range(column.number, part)),
        })
    }
}

/// Why a value was not read.
enum Fault {
    Short,
    Out(Part),
}

/// Refuses with the part unless it is at most so much.
fn at_most<T: PartialOrd>(part: T, most: T, which: Part) -> Result<T, Fault> {
    if part <= most {
        Ok(part)
    } else {
        Err(Fault::Out(which))
    }
}

/// The bytes that are left of an image.
struct Bytes<'a>(&'a [u8]);

impl<'a> Bytes<'a> {
    fn take<const N: usize>(&mut self) -> Result<[u8; N], Fault> {
        let (taken, rest) = self.0.split_first_chunk().ok_or(Fault::Short)?;
        self.0 = rest;
        Ok(*taken)
    }

    fn slice(&mut self, length: usize) -> Result<&'a [u8], Fault> {
        let (taken, rest) = self.0.split_at_checked(length).ok_or(Fault::Short)?;
        self.0 = rest;
        Ok(taken)
    }

    #[inline(always)]
    fn value(&mut self, storage: Storage) -> Result<Value<'a>, Fault> {
        Ok(match storage {
            Storage::I8 => Value::Int(i8::from_le_bytes(self.take()?).into()),
            Storage::I16 => Value::Int(i16::from_le_bytes(self.take()?).into()),
            Storage::I24 => {
                let [a, b, c] = self.take()?;
                Value::Int((i32::from_le_bytes([0, a, b, c]) >> 8).into())
            }
            Storage::I32 => Value::Int(i32::from_le_bytes(self.take()?).into()),
            Storage::I64 => Value::Int(i64::from_le_bytes(self.take()?)),
            Storage::U8 => Value::Uint(u8::from_le_bytes(self.take()?).into()),
            Storage::U16 => Value::Uint(u16::from_le_bytes(self.take()?).into()),
            Storage::U24 => Value::Uint(self.u24()?.into()),
            Storage::U32 => Value::Uint(u32::from_le_bytes(self.take()?).into()),
            Storage::U64 => Value::Uint(u64::from_le_bytes(self.take()?)),
            Storage::Float => Value::Float(u32::from_le_bytes(self.take()?)),
            Storage::Double => Value::Double(u64::from_le_bytes(self.take()?)),
            Storage::Year => year(u8::from_le_bytes(self.take()?)),
            Storage::Date => date(self.u24()?)?,
            Storage::OldTimestamp => Value::Seconds {
                seconds: u32::from_le_bytes(self.take()?),
                micros: 0,
            },
            Storage::OldTime => old_time(self.u24()?)?,
            Storage::OldDatetime => old_datetime(u64::from_le_bytes(self.take()?))?,
            Storage::Timestamp(digits) => {
                let seconds = u32::from_be_bytes(self.take()?);
                let micros = at_most(self.fraction(digits)?, 999_999, Part::Fraction)?;
                Value::Seconds { seconds, micros }
            }
            Storage::Datetime(digits) => {
                let [a, b, c, d, e] = self.take()?;
                let micros = self.fraction(digits)?;
                datetime(u64::from_be_bytes([0, 0, 0, a, b, c, d, e]), micros)?
            }
            Storage::Time(digits) => self.time(digits)?,
            Storage::Counted(k) => {
                let length = self.slice(k.into())?;
                let length = length
                    .iter()
                    .rev()
                    .fold(0, |sum, &byte| sum << 8 | usize::from(byte));
                Value::Bytes(self.slice(length)?)
            }
            Storage::Fixed(n) => Value::Bytes(self.slice(n.into())?),
        })
    }

    fn u24(&mut self) -> Result<u32, Fault> {
        let [a, b, c] = self.take()?;
        Ok(u32::from_le_bytes([a, b, c, 0]))
    }

    /// Microseconds, in 0 to 3 bytes.
    fn fraction(&mut self, digits: u8) -> Result<u32, Fault> {
        Ok(match digits {
            0 => 0,
            1 | 2 => u32::from(u8::from_be_bytes(self.take()?)) * 10_000,
            3 | 4 => u32::from(u16::from_be_bytes(self.take()?)) * 100,
            _ => {
                let [a, b, c] = self.take()?;
                u32::from_be_bytes([0, a, b, c])
            }
        })
    }

    /// A time is one number below or above the middle of its range; what it lies off splits in a whole part and a fraction.
    fn time(&mut self, digits: u8) -> Result<Value<'a>, Fault> {
        let [a, b, c] = self.take()?;
        Ok(match digits {
            0 => {
                let (negative, off) = off_middle(i64::from(u32::from_be_bytes([0, a, b, c])), 23);
                time(negative, off, 0)?
            }
            1 | 2 => {
                let [d] = self.take()?;
                let (negative, off) = off_middle(i64::from(u32::from_be_bytes([a, b, c, d])), 31);
                time(negative, off >> 8, (off & 0xff) as u32 * 10_000)?
            }
            3 | 4 => {
                let [d, e] = self.take()?;
                let (negative, off) = off_middle(i64::from_be_bytes([0, 0, 0, a, b, c, d, e]), 39);
                time(negative, off >> 16, (off & 0xffff) as u32 * 100)?
            }
            _ => {
                let [d, e, f] = self.take()?;
                let (negative, off) = off_middle(i64::from_be_bytes([0, 0, a, b, c, d, e, f]), 47);
                time(negative, off >> 24, (off & 0xff_ffff) as u32)?
            }
        })
    }
}

/// On which side of 2^bits a number lies, and how far off.
fn off_middle(stored: i64, bits: u32) -> (bool, u64) {
    let off = stored - (1 << bits);
    (off < 0, off.unsigned_abs())
}

fn time(negative: bool, whole: u64, micros: u32) -> Result<Value<'static>, Fault> {
    Ok(Value::Time {
        negative,
        hours: at_most(whole >> 12, 838, Part::Hour)? as u16,
        minutes: at_most((whole >> 6 & 63) as u8, 59, Part::Minute)?,
        seconds: at_most((whole & 63) as u8, 59, Part::Second)?,
        micros: at_most(micros, 999_999, Part::Fraction)?,
    })
}

fn datetime(stored: u64, micros: u32) -> Result<Value<'static>, Fault> {
    let whole = stored
        .checked_sub(1 << 39)
        .ok_or(Fault::Out(Part::Negative))?;
    let months = whole >> 22;
    Ok(Value::Datetime {
        year: at_most((months / 13) as u16, 9999, Part::Year)?,
        month: (months % 13) as u8,
        day: (whole >> 17 & 31) as u8,
        hour: at_most((whole >> 12 & 31) as u8, 23, Part::Hour)?,
        minute: at_most((whole >> 6 & 63) as u8, 59, Part::Minute)?,
        second: at_most((whole & 63) as u8, 59, Part::Second)?,
        micros: at_most(micros, 999_999, Part::Fraction)?,
    })
}

// Byte 0 is the year 0000, the others are 1901 to 2155.
fn year(byte: u8) -> Value<'static> {
    Value::Year(if byte == 0 { 0 } else { 1900 + u16::from(byte) })
}

fn date(stored: u32) -> Result<Value<'static>, Fault> {
    Ok(Value::Date {
        year: at_most((stored >> 9) as u16, 9999, Part::Year)?,
        month: at_most((stored >> 5 & 15) as u8, 12, Part::Month)?,
        day: (stored & 31) as u8,
    })
}

fn old_time(stored: u32) -> Result<Value<'static>, Fault> {
    Ok(Value::Time {
        negative: false,
        hours: at_most(stored / 10_000, 838, Part::Hour)? as u16,
        minutes: at_most((stored / 100 % 100) as u8, 59, Part::Minute)?,
        seconds: at_most((stored % 100) as u8, 59, Part::Second)?,
        micros: 0,
    })
}

fn old_datetime(stored: u64) -> Result<Value<'static>, Fault> {
    let (day, clock) = (stored / 1_000_000, stored % 1_000_000);
    Ok(Value::Datetime {
        year: at_most(day / 10_000, 9999, Part::Year)? as u16,
        month: at_most((day / 100 % 100) as u8, 12, Part::Month)?,
        day: at_most((day % 100) as u8, 31, Part::Day)?,
        hour: at_most((clock / 10_000) as u8, 23, Part::Hour)?,
        minute: at_most((clock / 100 % 100) as u8, 59, Part::Minute)?,
        second: at_most((clock % 100) as u8, 59, Part::Second)?,
        micros: 0,
    })
}
