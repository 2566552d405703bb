//! MySQL's table map event, rows events and row images, through the proved library libfeed_abi.a.
//!
//! An event is given WITHOUT its header of 19 bytes and WITHOUT its checksum. No call can tell a checksum from rows: left on, it is read as
//! rows, and [`RowsEvent`] shows what comes of it.
//!
//! A map is checked once. [`table`] gives a [`Table`]: whose map it is, its columns with their names and types, the strings of ENUM and SET
//! columns, the primary key, and its [`Record`]. [`check`] gives the record alone, which may be stored. With a table, or a record and the
//! map's table id, rows events are read row by row ([`Table::rows_event`], [`Record::rows_event`]). Row images are read value by value
//! ([`Record::row`]) and written ([`Record::write_row`]); one that arrives in blocks is read as it comes ([`Record::blocks`]). Every call
//! answers or refuses; none panics, whatever bytes it is given.
//!
//! The library is proved; this crate is not. It is for x86-64 Linux, as the library is. docs/ABI.md tells what each refusal means.
#![warn(missing_docs)]
#![deny(unsafe_code)]

#[allow(unsafe_code)]
mod abi;
mod batch;
mod blocks;
mod event;
mod fields;
mod images;
mod plan;
pub mod refusal;
mod row;
mod table;
mod types;
mod value;

pub use blocks::{Arrival, Blocks, LEAST_CARRY};
pub use event::{code, ChangedRow, Image, Rows, RowsEvent};
pub use fields::{field_type, fields, groups, integers, pairs, strings};
pub use fields::{Field, Fields, Group, Groups, Integers, Pairs, Strings};
pub use images::Images;
pub use refusal::{Part, Refusal};
pub use row::Row;
pub use table::{table, KeyPart, Table, TableColumn};
pub use types::{ColumnType, GeometryType};
pub use value::Value;

use abi::Answer;
use plan::Plans;

/// Which columns a server counts where its map has a bit or a charset per column. Use the one of the server that wrote the map.
#[derive(Clone, Copy, Debug, PartialEq, Eq)]
pub enum Dialect {
    /// The specification to the letter: refuses or misreads real maps with YEAR, VECTOR or geometry columns.
    Document,
    /// Maps of MySQL.
    Mysql,
    /// Maps of MariaDB.
    Mariadb,
}

impl Dialect {
    fn number(self) -> u8 {
        match self {
            Dialect::Document => 0,
            Dialect::Mysql => 1,
            Dialect::Mariadb => 2,
        }
    }
}

/// Bytes of the longest record there is, of 4,096 columns.
const RECORD_MOST: usize = 6 + 6 * 4096;

/// What an accepted map says of its columns, as bytes that may be stored and taken up again. Beside them it keeps how rows are read and
/// written under each set of presence bits that came, 64 at most, so keep the record of a map as long as its rows come.
#[derive(Clone, Debug, PartialEq, Eq)]
pub struct Record {
    bytes: Vec<u8>,
    plans: Plans,
}

impl Record {
    fn of(bytes: Vec<u8>) -> Record {
        Record {
            bytes,
            plans: Plans::default(),
        }
    }
}

/// One column of a record.
#[derive(Clone, Copy, Debug, PartialEq, Eq)]
pub struct Column {
    /// The real type, as ENUM, whatever type byte the map has for it.
    pub real_type: ColumnType,
    /// Only if `sign_known`.
    pub unsigned: bool,
    /// Whether the column may hold NULL.
    pub nullable: bool,
    /// Whether the map tells the signedness of this column.
    pub sign_known: bool,
    /// Whether `SELECT *` shows the column.
    pub visible: bool,
    /// The first metadata byte, 0 if the type has none.
    pub m0: u8,
    /// The second metadata byte, 0 if the type has none.
    pub m1: u8,
    /// The number of the collation, 0 if none was given.
    pub charset: u16,
}

/// Whose map a table map event is, and the bytes that it has for its columns. They are not judged; [`check`] does that.
#[derive(Clone, Copy, Debug, PartialEq, Eq)]
pub struct Map<'a> {
    /// The table id, which rows events of the table have too.
    pub id: u64,
    /// The event's flags.
    pub flags: u16,
    /// The name of the database, as a part of the event.
    pub database: &'a [u8],
    /// The name of the table, as a part of the event.
    pub table: &'a [u8],
    /// A type byte for each column, as the map has it: 254 for an ENUM or SET, whose real type is in the metadata.
    pub types: &'a [u8],
    /// The metadata of the columns, one behind the other: as many bytes for each as its type has.
    pub metadata: &'a [u8],
    /// A bit for each column, lowest first, set if it can be NULL. [`Map::is_nullable`] looks one up.
    pub nullable: &'a [u8],
    /// The optional fields. [`fields`] walks over them.
    pub optional: &'a [u8],
}

/// Tells whose map it is, and where the bytes for its columns stand. `event` and `post_header` are as for [`check`].
pub fn map(event: &[u8], post_header: u8) -> Result<Map<'_>, Refusal> {
    let whose = abi::map(event, post_header)?;
    let parts = abi::parts(event, post_header)?;
    Ok(Map::told(event, &whose, &parts))
}

impl<'a> Map<'a> {
    /// What the library told of an event: whose it is, and its parts.
    fn told(event: &'a [u8], whose: &Answer, parts: &Answer) -> Map<'a> {
        let part = |start, length| cut(event, start, length).unwrap_or(&[]);
        Map {
            id: whose[0],
            flags: whose[1] as u16,
            database: part(whose[2], whose[3]),
            table: part(whose[4], whose[5]),
            types: part(parts[0], parts[1]),
            metadata: part(parts[2], parts[3]),
            nullable: part(parts[4], parts[5]),
            optional: part(parts[6], parts[7]),
        }
    }

    /// Whether a column can be NULL, counted from 0; not so for one that there is not.
    pub fn is_nullable(&self, column: usize) -> bool {
        column < self.types.len() && plan::is_set(self.nullable, column)
    }
}

/// Checks the body of a table map event: what follows the 19-byte event header, without a checksum. `post_header` is the event's
/// post-header length: 8, or 6 in very old logs.
pub fn check(event: &[u8], post_header: u8, dialect: Dialect) -> Result<Record, Refusal> {
    let mut bytes = vec![0; RECORD_MOST];
    let out = abi::check(event, post_header, dialect.number(), &mut bytes)?;
    bytes.truncate(out[0] as usize);
    Ok(Record::of(bytes))
}

impl Record {
    /// Takes up a record that was stored. It is refused with 11 if it is not valid.
    pub fn from_bytes(bytes: Vec<u8>) -> Result<Record, Refusal> {
        // no record has this column, so a valid one is refused with 14
        match abi::column(&bytes, usize::MAX) {
            Err(why) if why.number() != refusal::NO_COLUMN => Err(why),
            _ => Ok(Record::of(bytes)),
        }
    }

    /// The record's bytes.
    pub fn as_bytes(&self) -> &[u8] {
        &self.bytes
    }

    /// How many columns there are.
    pub fn columns(&self) -> usize {
        self.bytes.len().saturating_sub(6) / 6
    }

    /// One column, counted from 0.
    pub fn column(&self, column: usize) -> Result<Column, Refusal> {
        let out = abi::column(&self.bytes, column)?;
        let flags = out[1];
        // a valid record has only types that there are
        let real_type = ColumnType::from_number(out[0] as u8);
        Ok(Column {
            real_type: real_type.ok_or(Refusal::TypeNotTaken { column })?,
            unsigned: flags & 1 != 0,
            nullable: flags & 2 != 0,
            sign_known: flags & 4 != 0,
            visible: flags & 8 != 0,
            m0: out[2] as u8,
            m1: out[3] as u8,
            charset: out[4] as u16,
        })
    }
}

/// The list of column names in an event: `Some`, which may be empty, if it has one; `None` if its optional fields come to their end without
/// one. It is refused if the event is, or an optional field before the names, as in a map that is asked in another dialect than its
/// server's: its names are not known then, and a list of your own does not stand in for them. What stands behind the names is not looked
/// at.
pub fn names(event: &[u8], post_header: u8, dialect: Dialect) -> Result<Option<&[u8]>, Refusal> {
    let out = abi::names(event, post_header, dialect.number())?;
    Ok(if out[0] == 0 {
        None
    } else {
        cut(event, out[1], out[2])
    })
}

/// The name of a column in a list of names, or in `fallback` if that list is empty: a list of your own in the same layout, each name a
/// length byte (for up to 250 bytes) and its bytes.
pub fn name<'a>(names: &'a [u8], fallback: &'a [u8], column: usize) -> Result<&'a [u8], Refusal> {
    let out = abi::name(names, fallback, column)?;
    let list = if names.is_empty() { fallback } else { names };
    cut(list, out[0], out[1]).ok_or(Refusal::at(refusal::NO_COLUMN, column as u64))
}

/// The name of a column in an event. It is refused with 14 if the event has no names, or fewer, and as [`names`] if they are not known.
pub fn column_name(
    event: &[u8],
    post_header: u8,
    dialect: Dialect,
    column: usize,
) -> Result<&[u8], Refusal> {
    let list = names(event, post_header, dialect)?.unwrap_or(&[]);
    name(list, &[], column)
}

/// A part of some bytes. The library answers no part that is not there, so this is `Some` for all its answers.
fn cut(bytes: &[u8], start: u64, length: u64) -> Option<&[u8]> {
    let start = start as usize;
    bytes.get(start..start.checked_add(length as usize)?)
}
