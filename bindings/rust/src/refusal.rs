//! Why a call did not answer: [`Refusal`], and the numbers of refusals, as C has them.

use std::error::Error;
use std::fmt;

/// Bytes end inside a part of the event, an optional field, or an item of a list. Place: its first byte, or its length's.
pub const SHORT: u64 = 1;
/// First byte 251 or 255 of a packed integer. Place: that byte.
pub const NOT_PACKED: u64 = 2;
/// More than 4,096 columns. Place: 0.
pub const TOO_MANY_COLUMNS: u64 = 3;
/// A column type that is not taken. Place: the column.
pub const TYPE_NOT_TAKEN: u64 = 4;
/// Metadata short, not accepted, or left over. Place: the column, or the number of columns if left over.
pub const BAD_METADATA: u64 = 5;
/// An optional field of unknown type. Place: its type byte.
pub const UNKNOWN_FIELD: u64 = 6;
/// Contents of an optional field break a rule. Place: its type byte, or the repeated key.
pub const BAD_FIELD: u64 = 7;
/// A lent buffer is too small. Place: 0. The crate lends enough.
pub const NO_ROOM: u64 = 8;
/// The image ends early. Place: the column, or 0 in the null bits.
pub const IMAGE_SHORT: u64 = 9;
/// A part of a date or time is out of range. Place: the column. Part: the first such one, a [`Part`].
pub const OUT_OF_RANGE: u64 = 10;
/// The record is not valid. Place: 0.
pub const BAD_RECORD: u64 = 11;
/// Presence bits have the wrong length, or there are more or fewer values than present columns. Place: 0.
pub const BAD_BITS: u64 = 12;
/// A value that the column cannot hold. Place: the column, or 0 if no column can.
pub const NOT_TAKEN: u64 = 13;
/// There is no such column. Place: the column asked.
pub const NO_COLUMN: u64 = 14;
/// The length of a rows event's extra data is below 2. Place: where that length stands, 8.
pub const BAD_EXTRA: u64 = 15;
/// A rows event of another code, another table id, or another number of columns. Place: 0 for code and table id, else where the event's
/// column count stands.
pub const OTHER_EVENT: u64 = 16;
/// The carry of an image that arrives in blocks has fewer than 1,024 bytes. Place: 0.
pub const SMALL_CARRY: u64 = 20;
/// A call after a refusal or after the end call, or with a state that is unfit. Place: 0.
pub const UNFIT_STATE: u64 = 21;

/// Why a call did not answer. Printed, it is a sentence with its number; [`number`](Refusal::number), [`place`](Refusal::place) and
/// [`part`](Refusal::part) are what C is told. A place is an offset in the given bytes, or a column counted from 0.
#[derive(Clone, Copy, Debug, PartialEq, Eq, Hash)]
#[non_exhaustive]
pub enum Refusal {
    /// [`SHORT`]: bytes end inside a part of the event, an optional field, or an item of a list.
    Short {
        /// Its first byte, or its length's.
        place: usize,
    },
    /// [`NOT_PACKED`]: first byte 251 or 255 of a packed integer.
    NotPacked {
        /// That byte.
        place: usize,
    },
    /// [`TOO_MANY_COLUMNS`]: more than 4,096 columns.
    TooManyColumns,
    /// [`TYPE_NOT_TAKEN`]: a column type that is not taken.
    TypeNotTaken {
        /// The column.
        column: usize,
    },
    /// [`BAD_METADATA`]: metadata short, not accepted, or left over.
    BadMetadata {
        /// The column, or the number of columns if metadata is left over.
        column: usize,
    },
    /// [`UNKNOWN_FIELD`]: an optional field of unknown type.
    UnknownField {
        /// Its type byte.
        place: usize,
    },
    /// [`BAD_FIELD`]: contents of an optional field break a rule.
    BadField {
        /// Its type byte, or the repeated key.
        place: usize,
    },
    /// [`NO_ROOM`]: a buffer is too small, or memory is not to be had.
    NoRoom,
    /// [`IMAGE_SHORT`]: the image ends early, or bytes are left over where no column is present.
    ImageShort {
        /// The column; 0 in the null bits and for bytes left over.
        column: usize,
    },
    /// [`OUT_OF_RANGE`]: a part of a date or time is out of range.
    OutOfRange {
        /// The column.
        column: usize,
        /// The first part that is out of range.
        part: Part,
    },
    /// [`BAD_RECORD`]: the record is not valid.
    BadRecord,
    /// [`BAD_BITS`]: presence bits have the wrong length, or there are more or fewer values than present columns.
    BadBits,
    /// [`NOT_TAKEN`]: a value that the column cannot hold.
    NotTaken {
        /// The column, or 0 if no column can.
        column: usize,
    },
    /// [`NO_COLUMN`]: there is no such column.
    NoColumn {
        /// The column asked.
        column: usize,
    },
    /// [`BAD_EXTRA`]: the length of a rows event's extra data is below 2.
    BadExtra {
        /// Where that length stands.
        place: usize,
    },
    /// [`OTHER_EVENT`]: a rows event of another code, another table id, or another number of columns.
    OtherEvent {
        /// 0 for code and table id, else where the event's column count stands.
        place: usize,
    },
    /// [`SMALL_CARRY`]: the carry of an image that arrives in blocks has fewer than 1,024 bytes.
    SmallCarry,
    /// [`UNFIT_STATE`]: a call after a refusal or after the end call, or with a state that is unfit.
    UnfitState,
    /// Numbers that this crate has no name for. The library that it was made with tells none.
    Other {
        /// The number.
        number: u64,
        /// The place.
        place: usize,
        /// The part.
        part: u64,
    },
}

/// The parts of dates and times that a refusal can name. A datetime below zero is told first, and then the others in their order.
#[derive(Clone, Copy, Debug, PartialEq, Eq, Hash)]
#[non_exhaustive]
pub enum Part {
    /// The year, over 9999.
    Year,
    /// The month, over 12.
    Month,
    /// The day, over 31.
    Day,
    /// The hour, over 23, or over 838 in a time.
    Hour,
    /// The minute, over 59.
    Minute,
    /// The second, over 59.
    Second,
    /// The fraction of a second, of 1,000,000 microseconds or more.
    Fraction,
    /// A datetime below zero.
    Negative,
}

impl Part {
    const fn of(number: u64) -> Option<Part> {
        Some(match number {
            1 => Part::Year,
            2 => Part::Month,
            3 => Part::Day,
            4 => Part::Hour,
            5 => Part::Minute,
            6 => Part::Second,
            7 => Part::Fraction,
            8 => Part::Negative,
            _ => return None,
        })
    }

    /// The part's number, 1 to 8, as C is told it.
    pub const fn number(self) -> u64 {
        match self {
            Part::Year => 1,
            Part::Month => 2,
            Part::Day => 3,
            Part::Hour => 4,
            Part::Minute => 5,
            Part::Second => 6,
            Part::Fraction => 7,
            Part::Negative => 8,
        }
    }
}

/// The part in words: `month`, `negative datetime`.
impl fmt::Display for Part {
    fn fmt(&self, f: &mut fmt::Formatter<'_>) -> fmt::Result {
        f.pad(match self {
            Part::Year => "year",
            Part::Month => "month",
            Part::Day => "day",
            Part::Hour => "hour",
            Part::Minute => "minute",
            Part::Second => "second",
            Part::Fraction => "fraction",
            Part::Negative => "negative datetime",
        })
    }
}

impl Refusal {
    /// The refusal of a number that names no part.
    pub(crate) const fn at(number: u64, place: u64) -> Refusal {
        Refusal::of(number, place, 0)
    }

    /// The refusal that C is told by these three numbers. Whatever they are, [`number`](Refusal::number), [`place`](Refusal::place) and
    /// [`part`](Refusal::part) give them back.
    pub const fn of(number: u64, place: u64, part: u64) -> Refusal {
        let other = Refusal::Other {
            number,
            place: place as usize,
            part,
        };
        let named = match part {
            0 => Refusal::without_part(number, place as usize),
            _ => Refusal::with_part(number, place as usize, Part::of(part)),
        };
        match named {
            Some(refusal) => refusal,
            None => other,
        }
    }

    const fn with_part(number: u64, column: usize, part: Option<Part>) -> Option<Refusal> {
        match (number, part) {
            (OUT_OF_RANGE, Some(part)) => Some(Refusal::OutOfRange { column, part }),
            _ => None,
        }
    }

    const fn without_part(number: u64, place: usize) -> Option<Refusal> {
        let column = place;
        Some(match number {
            SHORT => Refusal::Short { place },
            NOT_PACKED => Refusal::NotPacked { place },
            TOO_MANY_COLUMNS if place == 0 => Refusal::TooManyColumns,
            TYPE_NOT_TAKEN => Refusal::TypeNotTaken { column },
            BAD_METADATA => Refusal::BadMetadata { column },
            UNKNOWN_FIELD => Refusal::UnknownField { place },
            BAD_FIELD => Refusal::BadField { place },
            NO_ROOM if place == 0 => Refusal::NoRoom,
            IMAGE_SHORT => Refusal::ImageShort { column },
            BAD_RECORD if place == 0 => Refusal::BadRecord,
            BAD_BITS if place == 0 => Refusal::BadBits,
            NOT_TAKEN => Refusal::NotTaken { column },
            NO_COLUMN => Refusal::NoColumn { column },
            BAD_EXTRA => Refusal::BadExtra { place },
            OTHER_EVENT => Refusal::OtherEvent { place },
            SMALL_CARRY if place == 0 => Refusal::SmallCarry,
            UNFIT_STATE if place == 0 => Refusal::UnfitState,
            _ => return None,
        })
    }

    /// The number, one of those in [`refusal`](crate::refusal).
    pub const fn number(&self) -> u64 {
        match *self {
            Refusal::Short { .. } => SHORT,
            Refusal::NotPacked { .. } => NOT_PACKED,
            Refusal::TooManyColumns => TOO_MANY_COLUMNS,
            Refusal::TypeNotTaken { .. } => TYPE_NOT_TAKEN,
            Refusal::BadMetadata { .. } => BAD_METADATA,
            Refusal::UnknownField { .. } => UNKNOWN_FIELD,
            Refusal::BadField { .. } => BAD_FIELD,
            Refusal::NoRoom => NO_ROOM,
            Refusal::ImageShort { .. } => IMAGE_SHORT,
            Refusal::OutOfRange { .. } => OUT_OF_RANGE,
            Refusal::BadRecord => BAD_RECORD,
            Refusal::BadBits => BAD_BITS,
            Refusal::NotTaken { .. } => NOT_TAKEN,
            Refusal::NoColumn { .. } => NO_COLUMN,
            Refusal::BadExtra { .. } => BAD_EXTRA,
            Refusal::OtherEvent { .. } => OTHER_EVENT,
            Refusal::SmallCarry => SMALL_CARRY,
            Refusal::UnfitState => UNFIT_STATE,
            Refusal::Other { number, .. } => number,
        }
    }

    /// The place: an offset in the given bytes, or a column; 0 where the refusal has none.
    pub const fn place(&self) -> usize {
        match *self {
            Refusal::Short { place }
            | Refusal::NotPacked { place }
            | Refusal::UnknownField { place }
            | Refusal::BadField { place }
            | Refusal::BadExtra { place }
            | Refusal::OtherEvent { place }
            | Refusal::Other { place, .. } => place,
            Refusal::TypeNotTaken { column }
            | Refusal::BadMetadata { column }
            | Refusal::ImageShort { column }
            | Refusal::OutOfRange { column, .. }
            | Refusal::NotTaken { column }
            | Refusal::NoColumn { column } => column,
            Refusal::TooManyColumns
            | Refusal::NoRoom
            | Refusal::BadRecord
            | Refusal::BadBits
            | Refusal::SmallCarry
            | Refusal::UnfitState => 0,
        }
    }

    /// The number of the part that is out of range, 0 where the refusal names none. [`OutOfRange`](Refusal::OutOfRange) has it as a
    /// [`Part`].
    pub const fn part(&self) -> u64 {
        match *self {
            Refusal::OutOfRange { part, .. } => part.number(),
            Refusal::Other { part, .. } => part,
            _ => 0,
        }
    }
}

/// A sentence, and the number: `the month of column 4 is out of range (refusal 10)`.
impl fmt::Display for Refusal {
    fn fmt(&self, f: &mut fmt::Formatter<'_>) -> fmt::Result {
        match *self {
            Refusal::Short { place } => {
                write!(f, "the bytes end inside what starts at byte {place}")
            }
            Refusal::NotPacked { place } => {
                write!(f, "no packed integer starts as byte {place} does")
            }
            Refusal::TooManyColumns => f.write_str("the map has more than 4,096 columns"),
            Refusal::TypeNotTaken { column } => {
                write!(f, "column {column} is of a type that is not taken")
            }
            Refusal::BadMetadata { column } => {
                write!(
                    f,
                    "the metadata is short, wrong or left over at column {column}"
                )
            }
            Refusal::UnknownField { place } => {
                write!(f, "the optional field at byte {place} is of no known type")
            }
            Refusal::BadField { place } => {
                write!(f, "the optional field or key at byte {place} breaks a rule")
            }
            Refusal::NoRoom => f.write_str("there is no room for the answer"),
            Refusal::ImageShort { column } => {
                write!(
                    f,
                    "the image ends early, or has bytes left over, at column {column}"
                )
            }
            Refusal::OutOfRange {
                column,
                part: Part::Negative,
            } => write!(f, "the datetime of column {column} is below zero"),
            Refusal::OutOfRange { column, part } => {
                write!(f, "the {part} of column {column} is out of range")
            }
            Refusal::BadRecord => f.write_str("the record is not valid"),
            Refusal::BadBits => {
                f.write_str("there are not as many bits or values as there are columns")
            }
            Refusal::NotTaken { column } => {
                write!(f, "the value is none that column {column} can hold")
            }
            Refusal::NoColumn { column } => write!(f, "there is no column {column}"),
            Refusal::BadExtra { place } => {
                write!(
                    f,
                    "the length of the extra data, at byte {place}, is below 2"
                )
            }
            Refusal::OtherEvent { place } => write!(
                f,
                "the event is of another code, table or number of columns (byte {place})"
            ),
            Refusal::SmallCarry => f.write_str("the carry has fewer than 1,024 bytes"),
            Refusal::UnfitState => {
                f.write_str("the image was refused or its end told before, or the state is unfit")
            }
            Refusal::Other { place, part, .. } => {
                write!(f, "it was refused at {place}, part {part}")
            }
        }?;
        write!(f, " (refusal {})", self.number())
    }
}

impl Error for Refusal {}
