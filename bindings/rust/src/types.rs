//! Types of columns, and of geometry columns, by name.

use std::fmt;

/// The type of a column, by MySQL's name for its number (`MYSQL_TYPE_TINY` is [`Tiny`](ColumnType::Tiny)). A record has real types: 247
/// for an ENUM, whatever type byte the map has for it, and 14 for a DATE.
#[derive(Clone, Copy, Debug, PartialEq, Eq, Hash)]
#[non_exhaustive]
#[repr(u8)]
pub enum ColumnType {
    /// TINYINT.
    Tiny = 1,
    /// SMALLINT.
    Short = 2,
    /// INT.
    Long = 3,
    /// FLOAT.
    Float = 4,
    /// DOUBLE.
    Double = 5,
    /// TIMESTAMP of old.
    Timestamp = 7,
    /// BIGINT.
    LongLong = 8,
    /// MEDIUMINT.
    Int24 = 9,
    /// DATE as a map has it. In a record it is [`NewDate`](ColumnType::NewDate).
    Date = 10,
    /// TIME of old.
    Time = 11,
    /// DATETIME of old.
    Datetime = 12,
    /// YEAR.
    Year = 13,
    /// DATE.
    NewDate = 14,
    /// VARCHAR, VARBINARY.
    Varchar = 15,
    /// BIT.
    Bit = 16,
    /// TIMESTAMP.
    Timestamp2 = 17,
    /// DATETIME.
    Datetime2 = 18,
    /// TIME.
    Time2 = 19,
    /// VECTOR.
    Vector = 242,
    /// JSON.
    Json = 245,
    /// DECIMAL.
    NewDecimal = 246,
    /// ENUM.
    Enum = 247,
    /// SET.
    Set = 248,
    /// TINYBLOB, TINYTEXT.
    TinyBlob = 249,
    /// MEDIUMBLOB, MEDIUMTEXT.
    MediumBlob = 250,
    /// LONGBLOB, LONGTEXT.
    LongBlob = 251,
    /// BLOB, TEXT of any size.
    Blob = 252,
    /// VARCHAR, VARBINARY.
    VarString = 253,
    /// CHAR, BINARY.
    String = 254,
    /// A geometry.
    Geometry = 255,
}

/// Each type with its name.
const TYPES: [(ColumnType, &str); 30] = [
    (ColumnType::Tiny, "TINY"),
    (ColumnType::Short, "SHORT"),
    (ColumnType::Long, "LONG"),
    (ColumnType::Float, "FLOAT"),
    (ColumnType::Double, "DOUBLE"),
    (ColumnType::Timestamp, "TIMESTAMP"),
    (ColumnType::LongLong, "LONGLONG"),
    (ColumnType::Int24, "INT24"),
    (ColumnType::Date, "DATE"),
    (ColumnType::Time, "TIME"),
    (ColumnType::Datetime, "DATETIME"),
    (ColumnType::Year, "YEAR"),
    (ColumnType::NewDate, "NEWDATE"),
    (ColumnType::Varchar, "VARCHAR"),
    (ColumnType::Bit, "BIT"),
    (ColumnType::Timestamp2, "TIMESTAMP2"),
    (ColumnType::Datetime2, "DATETIME2"),
    (ColumnType::Time2, "TIME2"),
    (ColumnType::Vector, "VECTOR"),
    (ColumnType::Json, "JSON"),
    (ColumnType::NewDecimal, "NEWDECIMAL"),
    (ColumnType::Enum, "ENUM"),
    (ColumnType::Set, "SET"),
    (ColumnType::TinyBlob, "TINY_BLOB"),
    (ColumnType::MediumBlob, "MEDIUM_BLOB"),
    (ColumnType::LongBlob, "LONG_BLOB"),
    (ColumnType::Blob, "BLOB"),
    (ColumnType::VarString, "VAR_STRING"),
    (ColumnType::String, "STRING"),
    (ColumnType::Geometry, "GEOMETRY"),
];

impl ColumnType {
    /// The type of a number, if it is one that is taken.
    pub fn from_number(number: u8) -> Option<ColumnType> {
        let mut all = TYPES.iter().map(|(kind, _)| *kind);
        all.find(|kind| kind.number() == number)
    }

    /// The type's number.
    pub const fn number(self) -> u8 {
        self as u8
    }

    /// MySQL's name for it, as `LONGLONG`.
    pub fn name(self) -> &'static str {
        let found = TYPES.iter().find(|(kind, _)| *kind == self);
        found.map_or("", |(_, name)| name)
    }
}

/// Its [name](ColumnType::name).
impl fmt::Display for ColumnType {
    fn fmt(&self, f: &mut fmt::Formatter<'_>) -> fmt::Result {
        f.pad(self.name())
    }
}

/// Which geometries a column takes.
#[derive(Clone, Copy, Debug, PartialEq, Eq, Hash)]
#[non_exhaustive]
pub enum GeometryType {
    /// GEOMETRY: any.
    Geometry,
    /// POINT.
    Point,
    /// LINESTRING.
    LineString,
    /// POLYGON.
    Polygon,
    /// MULTIPOINT.
    MultiPoint,
    /// MULTILINESTRING.
    MultiLineString,
    /// MULTIPOLYGON.
    MultiPolygon,
    /// GEOMETRYCOLLECTION.
    GeometryCollection,
}

/// They are numbered by their places, from 0 on.
const GEOMETRIES: [GeometryType; 8] = [
    GeometryType::Geometry,
    GeometryType::Point,
    GeometryType::LineString,
    GeometryType::Polygon,
    GeometryType::MultiPoint,
    GeometryType::MultiLineString,
    GeometryType::MultiPolygon,
    GeometryType::GeometryCollection,
];

impl GeometryType {
    /// The geometry type of a number, 0 to 7.
    pub fn from_number(number: u64) -> Option<GeometryType> {
        GEOMETRIES.get(usize::try_from(number).ok()?).copied()
    }

    /// The geometry type's number.
    pub const fn number(self) -> u64 {
        self as u64
    }
}
