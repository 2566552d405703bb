//! The second baseline: the strongest loop that was found, written from document 01. The record is parsed once, into one code for each
//! column that fixes every width; one dispatch on it reads the value with loads of fixed width and hands it to a closure. All is inlined, so
//! that no value is ever built in memory. All ranges are tested.

use crate::record::{present_columns, Column, Storage};
use crate::value::{Part, Refusal, Value};

pub struct Plan {
    items: Vec<Item>,
    null_bytes: usize,
}

struct Item {
    code: Code,
    column: u16,
}

/// How a value is stored, all widths fixed: of temporals the number is that of the fraction's bytes.
#[derive(Clone, Copy)]
enum Code {
    I8,
    I16,
    I24,
    I32,
    I64,
    U8,
    U16,
    U24,
    U32,
    U64,
    Float,
    Double,
    Year,
    Date,
    OldTimestamp,
    OldTime,
    OldDatetime,
    Timestamp0,
    Timestamp1,
    Timestamp2,
    Timestamp3,
    Datetime0,
    Datetime1,
    Datetime2,
    Datetime3,
    Time0,
    Time1,
    Time2,
    Time3,
    Counted(u8),
    Fixed(u8),
}

impl Code {
    fn of(storage: Storage) -> Code {
        match storage {
            Storage::I8 => Code::I8,
            Storage::I16 => Code::I16,
            Storage::I24 => Code::I24,
            Storage::I32 => Code::I32,
            Storage::I64 => Code::I64,
            Storage::U8 => Code::U8,
            Storage::U16 => Code::U16,
            Storage::U24 => Code::U24,
            Storage::U32 => Code::U32,
            Storage::U64 => Code::U64,
            Storage::Float => Code::Float,
            Storage::Double => Code::Double,
            Storage::Year => Code::Year,
            Storage::Date => Code::Date,
            Storage::OldTimestamp => Code::OldTimestamp,
            Storage::OldTime => Code::OldTime,
            Storage::OldDatetime => Code::OldDatetime,
            Storage::Timestamp(0) => Code::Timestamp0,
            Storage::Timestamp(1 | 2) => Code::Timestamp1,
            Storage::Timestamp(3 | 4) => Code::Timestamp2,
            Storage::Timestamp(_) => Code::Timestamp3,
            Storage::Datetime(0) => Code::Datetime0,
            Storage::Datetime(1 | 2) => Code::Datetime1,
            Storage::Datetime(3 | 4) => Code::Datetime2,
            Storage::Datetime(_) => Code::Datetime3,
            Storage::Time(0) => Code::Time0,
            Storage::Time(1 | 2) => Code::Time1,
            Storage::Time(3 | 4) => Code::Time2,
            Storage::Time(_) => Code::Time3,
            Storage::Counted(k) => Code::Counted(k),
            Storage::Fixed(n) => Code::Fixed(n),
        }
    }
}

impl Plan {
    pub fn new(record: &[u8], presence: &[u8]) -> Result<Plan, Refusal> {
        let columns = present_columns(record, presence)?;
        let item = |c: &Column| Item {
            code: Code::of(c.storage),
            column: c.number as u16,
        };
        Ok(Plan {
            items: columns.iter().map(item).collect(),
            null_bytes: columns.len().div_ceil(8),
        })
    }

    /// Tells every value of the images, which are laid end to end.
    ///
    /// The values go to `told` through a closure, which is inlined for each code; `&mut told` in its place is not.
    #[inline(always)]
    #[allow(clippy::redundant_closure)]
    pub fn each<'a>(
        &self,
        images: &'a [u8],
        mut told: impl FnMut(Value<'a>),
    ) -> Result<(), Refusal> {
        let mut image = images;
        while !image.is_empty() {
            let (nulls, mut rest) = image
                .split_at_checked(self.null_bytes)
                .ok_or(Refusal::short(0))?;
            for (items, &nulls) in self.items.chunks(8).zip(nulls) {
                let mut nulls = nulls;
                for item in items {
                    if nulls & 1 == 1 {
                        told(Value::Null);
                    } else {
                        match read(item.code, rest, |value| told(value)) {
                            Ok(behind) => rest = behind,
                            Err(fault) => return Err(fault.at(item.column)),
                        }
                    }
                    nulls >>= 1;
                }
            }
            // where no column is present an image takes no bytes, and any byte is left over
            if self.items.is_empty() {
                return Err(Refusal::short(0));
            }
            image = rest;
        }
        Ok(())
    }
}

/// Why a value was not read.
enum Fault {
    Short,
    Out(Part),
}

impl Fault {
    #[cold]
    fn at(self, column: u16) -> Refusal {
        match self {
            Fault::Short => Refusal::short(column.into()),
            Fault::Out(part) => Refusal::out_of_range(column.into(), part),
        }
    }
}

/// Tells the value at the front, and answers the bytes behind it.
#[inline(always)]
fn read<'a>(code: Code, s: &'a [u8], told: impl FnOnce(Value<'a>)) -> Result<&'a [u8], Fault> {
    /// The first bytes, and those behind them.
    #[inline(always)]
    fn cut<const N: usize>(s: &[u8]) -> Result<([u8; N], &[u8]), Fault> {
        s.split_first_chunk()
            .map(|(front, behind)| (*front, behind))
            .ok_or(Fault::Short)
    }
    macro_rules! number {
        ($value:ident, $type:ty) => {{
            let (bytes, behind) = cut(s)?;
            told(Value::$value(<$type>::from_le_bytes(bytes).into()));
            behind
        }};
    }
    macro_rules! judged {
        ([$($byte:ident),*] => $value:expr) => {{
            let ([$($byte),*], behind) = cut(s)?;
            told($value?);
            behind
        }};
    }
    Ok(match code {
        Code::I8 => number!(Int, i8),
        Code::I16 => number!(Int, i16),
        Code::I24 => {
            judged!([a, b, c] => Ok(Value::Int((i32::from_le_bytes([0, a, b, c]) >> 8).into())))
        }
        Code::I32 => number!(Int, i32),
        Code::I64 => number!(Int, i64),
        Code::U8 => number!(Uint, u8),
        Code::U16 => number!(Uint, u16),
        Code::U24 => judged!([a, b, c] => Ok(Value::Uint(u32::from_le_bytes([a, b, c, 0]).into()))),
        Code::U32 => number!(Uint, u32),
        Code::U64 => number!(Uint, u64),
        Code::Float => number!(Float, u32),
        Code::Double => number!(Double, u64),
        Code::Year => judged!([a] => Ok(year(a))),
        Code::Date => judged!([a, b, c] => date(u32::from_le_bytes([a, b, c, 0]))),
        Code::OldTimestamp => judged!([a, b, c, d] => seconds(u32::from_le_bytes([a, b, c, d]), 0)),
        Code::OldTime => judged!([a, b, c] => old_time(u32::from_le_bytes([a, b, c, 0]))),
        Code::OldDatetime => {
            judged!([a, b, c, d, e, f, g, h] => old_datetime(u64::from_le_bytes([a, b, c, d, e, f, g, h])))
        }
        Code::Timestamp0 => judged!([a, b, c, d] => seconds(u32::from_be_bytes([a, b, c, d]), 0)),
        Code::Timestamp1 => {
            judged!([a, b, c, d, e] => seconds(u32::from_be_bytes([a, b, c, d]), u32::from(e) * 10_000))
        }
        Code::Timestamp2 => {
            judged!([a, b, c, d, e, f] => seconds(u32::from_be_bytes([a, b, c, d]), u32::from(u16::from_be_bytes([e, f])) * 100))
        }
        Code::Timestamp3 => {
            judged!([a, b, c, d, e, f, g] => seconds(u32::from_be_bytes([a, b, c, d]), u32::from_be_bytes([0, e, f, g])))
        }
        Code::Datetime0 => {
            judged!([a, b, c, d, e] => datetime(u64::from_be_bytes([0, 0, 0, a, b, c, d, e]), 0))
        }
        Code::Datetime1 => {
            judged!([a, b, c, d, e, f] => datetime(u64::from_be_bytes([0, 0, 0, a, b, c, d, e]), u32::from(f) * 10_000))
        }
        Code::Datetime2 => {
            judged!([a, b, c, d, e, f, g] => datetime(u64::from_be_bytes([0, 0, 0, a, b, c, d, e]), u32::from(u16::from_be_bytes([f, g])) * 100))
        }
        Code::Datetime3 => {
            judged!([a, b, c, d, e, f, g, h] => datetime(u64::from_be_bytes([0, 0, 0, a, b, c, d, e]), u32::from_be_bytes([0, f, g, h])))
        }
        Code::Time0 => {
            judged!([a, b, c] => time::<0>(u64::from_be_bytes([0, 0, 0, 0, 0, a, b, c]), 1_000_000))
        }
        Code::Time1 => {
            judged!([a, b, c, d] => time::<8>(u64::from_be_bytes([0, 0, 0, 0, a, b, c, d]), 10_000))
        }
        Code::Time2 => {
            judged!([a, b, c, d, e] => time::<16>(u64::from_be_bytes([0, 0, 0, a, b, c, d, e]), 100))
        }
        Code::Time3 => {
            judged!([a, b, c, d, e, f] => time::<24>(u64::from_be_bytes([0, 0, a, b, c, d, e, f]), 1))
        }
        Code::Counted(k) => {
            let (length, behind) = s.split_at_checked(k.into()).ok_or(Fault::Short)?;
            let length = length
                .iter()
                .rev()
                .fold(0, |sum, &byte| sum << 8 | usize::from(byte));
            let (bytes, behind) = behind.split_at_checked(length).ok_or(Fault::Short)?;
            told(Value::Bytes(bytes));
            behind
        }
        Code::Fixed(n) => {
            let (bytes, behind) = s.split_at_checked(n.into()).ok_or(Fault::Short)?;
            told(Value::Bytes(bytes));
            behind
        }
    })
}

/// Refuses with the part unless it is at most so much.
#[inline(always)]
fn at_most(part: u64, most: u64, which: Part) -> Result<u64, Fault> {
    if part <= most {
        Ok(part)
    } else {
        Err(Fault::Out(which))
    }
}

#[inline(always)]
fn seconds(seconds: u32, micros: u32) -> Result<Value<'static>, Fault> {
    at_most(micros.into(), 999_999, Part::Fraction)?;
    Ok(Value::Seconds { seconds, micros })
}

// Byte 0 is the year 0000, the others are 1901 to 2155.
#[inline(always)]
fn year(byte: u8) -> Value<'static> {
    Value::Year(if byte == 0 { 0 } else { 1900 + u16::from(byte) })
}

#[inline(always)]
fn date(stored: u32) -> Result<Value<'static>, Fault> {
    let stored = u64::from(stored);
    let year = at_most(stored >> 9, 9999, Part::Year)? as u16;
    let month = at_most(stored >> 5 & 15, 12, Part::Month)? as u8;
    Ok(Value::Date {
        year,
        month,
        day: (stored & 31) as u8,
    })
}

#[inline(always)]
fn datetime(stored: u64, micros: u32) -> Result<Value<'static>, Fault> {
    let whole = stored
        .checked_sub(1 << 39)
        .ok_or(Fault::Out(Part::Negative))?;
    let months = (whole >> 22) as u32;
    let (year, month) = (months / 13, months % 13);
    let clock = whole as u32;
    Ok(Value::Datetime {
        year: at_most(year.into(), 9999, Part::Year)? as u16,
        month: month as u8,
        day: (clock >> 17 & 31) as u8,
        hour: at_most((clock >> 12 & 31).into(), 23, Part::Hour)? as u8,
        minute: at_most((clock >> 6 & 63).into(), 59, Part::Minute)? as u8,
        second: at_most((clock & 63).into(), 59, Part::Second)? as u8,
        micros: at_most(micros.into(), 999_999, Part::Fraction)? as u32,
    })
}

/// A time with a fraction of so many bits, in units of so many microseconds.
#[inline(always)]
fn time<const BITS: u32>(stored: u64, unit: u32) -> Result<Value<'static>, Fault> {
    let off = stored as i64 - (1 << (23 + BITS));
    let packed = off.unsigned_abs();
    let whole = packed >> BITS;
    let micros = (packed & ((1 << BITS) - 1)) as u32 * unit;
    Ok(Value::Time {
        negative: off < 0,
        hours: at_most(whole >> 12, 838, Part::Hour)? as u16,
        minutes: at_most(whole >> 6 & 63, 59, Part::Minute)? as u8,
        seconds: at_most(whole & 63, 59, Part::Second)? as u8,
        micros: at_most(micros.into(), 999_999, Part::Fraction)? as u32,
    })
}

#[inline(always)]
fn old_time(stored: u32) -> Result<Value<'static>, Fault> {
    Ok(Value::Time {
        negative: false,
        hours: at_most((stored / 10_000).into(), 838, Part::Hour)? as u16,
        minutes: at_most((stored / 100 % 100).into(), 59, Part::Minute)? as u8,
        seconds: at_most((stored % 100).into(), 59, Part::Second)? as u8,
        micros: 0,
    })
}

#[inline(always)]
fn old_datetime(stored: u64) -> Result<Value<'static>, Fault> {
    let (day, clock) = (stored / 1_000_000, stored % 1_000_000);
    Ok(Value::Datetime {
        year: at_most(day / 10_000, 9999, Part::Year)? as u16,
        month: at_most(day / 100 % 100, 12, Part::Month)? as u8,
        day: at_most(day % 100, 31, Part::Day)? as u8,
        hour: at_most(clock / 10_000, 23, Part::Hour)? as u8,
        minute: at_most(clock / 100 % 100, 59, Part::Minute)? as u8,
        second: at_most(clock % 100, 59, Part::Second)? as u8,
        micros: 0,
    })
}
