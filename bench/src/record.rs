//! A record parsed once: its present columns, and how the values of each are stored.

use crate::value::Refusal;

/// How the values of a column are stored.
#[derive(Clone, Copy, Debug, PartialEq, Eq)]
pub enum Storage {
    I8,
    I16,
    I24,
    I32,
    I64,
    U8,
    U16,
    U24,
    U32,
    U64,
    Float,
    Double,
    Year,
    Date,
    /// The temporals of old, without a fraction.
    OldTimestamp,
    OldTime,
    OldDatetime,
    /// Those of today, with as many digits.
    Timestamp(u8),
    Datetime(u8),
    Time(u8),
    /// Bytes behind a length of so many bytes.
    Counted(u8),
    /// So many bytes.
    Fixed(u8),
}

/// A column that images have a value of.
#[derive(Clone, Copy, Debug, PartialEq, Eq)]
pub struct Column {
    pub number: usize,
    pub storage: Storage,
}

const MOST_COLUMNS: usize = 4096;

const UNSIGNED: u8 = 1;
const SIGN_KNOWN: u8 = 4;
const FLAGS: u8 = 15;

/// The present columns of a record, or 11 for a record that is not valid and 12 for presence bits of another length.
pub fn present_columns(record: &[u8], presence: &[u8]) -> Result<Vec<Column>, Refusal> {
    let entries = entries_of(record).ok_or(Refusal::record())?;
    let storages: Option<Vec<Storage>> = entries.chunks_exact(6).map(storage_of).collect();
    let storages = storages.ok_or(Refusal::record())?;
    if presence.len() != storages.len().div_ceil(8) {
        return Err(Refusal::bits());
    }
    let columns = storages.into_iter().enumerate();
    let columns = columns.map(|(number, storage)| Column { number, storage });
    Ok(columns.filter(|c| is_set(presence, c.number)).collect())
}

pub fn is_set(bits: &[u8], at: usize) -> bool {
    bits[at / 8] >> (at % 8) & 1 == 1
}

/// What stands behind the head, if the head is right: length, kind and count, two bytes each.
fn entries_of(record: &[u8]) -> Option<&[u8]> {
    let (head, entries) = record.split_first_chunk::<6>()?;
    let number = |i| usize::from(u16::from_le_bytes([head[i], head[i + 1]]));
    let (length, kind, count) = (number(0), number(2), number(4));
    let kind_for_count = if count <= 255 { 1 } else { 2 };
    let right = length == record.len()
        && kind == kind_for_count
        && count <= MOST_COLUMNS
        && entries.len() == 6 * count;
    right.then_some(entries)
}

/// What an entry says of its column, if the entry is valid: real type, flags, m0, m1, charset in two bytes.
fn storage_of(entry: &[u8]) -> Option<Storage> {
    let &[kind, flags, m0, m1, charset_low, charset_high] = entry else {
        return None;
    };
    let numeric = matches!(kind, 1 | 2 | 3 | 4 | 5 | 8 | 9 | 246);
    let has_charset = matches!(kind, 15 | 252 | 253 | 254 | 247 | 248);
    let sign_known = flags & SIGN_KNOWN != 0;
    let unsigned = flags & UNSIGNED != 0;
    if flags > FLAGS || (sign_known && !numeric) || (unsigned && !sign_known) {
        return None;
    }
    if [charset_low, charset_high] != [0, 0] && !has_charset {
        return None;
    }
    storage_by(kind, unsigned, m0, m1)
}

/// The table of accepted metadata.
fn storage_by(kind: u8, unsigned: bool, m0: u8, m1: u8) -> Option<Storage> {
    let signed = !unsigned;
    let storage = match (kind, m0, m1) {
        (1, 0, 0) => {
            if signed {
                Storage::I8
            } else {
                Storage::U8
            }
        }
        (2, 0, 0) => {
            if signed {
                Storage::I16
            } else {
                Storage::U16
            }
        }
        (9, 0, 0) => {
            if signed {
                Storage::I24
            } else {
                Storage::U24
            }
        }
        (3, 0, 0) => {
            if signed {
                Storage::I32
            } else {
                Storage::U32
            }
        }
        (8, 0, 0) => {
            if signed {
                Storage::I64
            } else {
                Storage::U64
            }
        }
        (4, 4, 0) => Storage::Float,
        (5, 8, 0) => Storage::Double,
        (7, 0, 0) => Storage::OldTimestamp,
        (11, 0, 0) => Storage::OldTime,
        (12, 0, 0) => Storage::OldDatetime,
        (13, 0, 0) => Storage::Year,
        (14, 0, 0) => Storage::Date,
        (17, 0..=6, 0) => Storage::Timestamp(m0),
        (18, 0..=6, 0) => Storage::Datetime(m0),
        (19, 0..=6, 0) => Storage::Time(m0),
        (242 | 249..=252 | 255, 1..=4, 0) => Storage::Counted(m0),
        (245, 4, 0) => Storage::Counted(4),
        (15 | 253, _, _) => Storage::Counted(if m1 == 0 { 1 } else { 2 }),
        (16, 0..=7, _) => Storage::Fixed(bit_bytes(m0, m1)?),
        (246, 1..=65, 0..=30) if m1 <= m0 => {
            Storage::Fixed(decimal_bytes(m0 - m1) + decimal_bytes(m1))
        }
        (247, _, 1) => Storage::U8,
        (247, _, 2) => Storage::U16,
        (248, _, 1..=4 | 8) => Storage::Fixed(m1),
        (254, _, _) if m0 | 0x30 == 254 => {
            let declared = u16::from(m1) + 16 * u16::from((m0 & 0x30) ^ 0x30);
            Storage::Counted(if declared < 256 { 1 } else { 2 })
        }
        _ => return None,
    };
    Some(storage)
}

/// The bytes of a BIT column of 8·m1 + m0 bits.
fn bit_bytes(m0: u8, m1: u8) -> Option<u8> {
    let bits = 8 * u16::from(m1) + u16::from(m0);
    (1..=64).contains(&bits).then_some(bits.div_ceil(8) as u8)
}

/// The bytes of so many digits on one side of the point: 4 for each nine, and those of the digits left over.
fn decimal_bytes(digits: u8) -> u8 {
    const LEFTOVER: [u8; 9] = [0, 1, 1, 2, 2, 3, 3, 4, 4];
    digits / 9 * 4 + LEFTOVER[usize::from(digits % 9)]
}
