//! A checked map with all that it says of its columns.

use crate::abi::{self, Answer};
use crate::fields::{field_type, Fields, Group};
use crate::{check, cut, fields, groups, integers, pairs, strings};
use crate::{Column, ColumnType, Dialect, GeometryType, Map, Record, Refusal, RowsEvent};

/// A checked map, as bytes of its own: whose it is, its record, its columns by name and type, and its primary key. [`table`] makes it.
#[derive(Clone, Debug)]
pub struct Table {
    event: Vec<u8>,
    // what the library told of the event: whose it is, and its parts
    whose: Answer,
    parts: Answer,
    record: Record,
    columns: Vec<Told>,
    key: Vec<KeyPart>,
}

/// One column of a table. What is `Option` is `None` where the map does not tell it: a MySQL server logs names, strings and keys only with
/// `binlog_row_metadata=FULL`.
#[derive(Clone, Copy, Debug, PartialEq, Eq)]
#[non_exhaustive]
pub struct TableColumn<'a> {
    /// Its name.
    pub name: Option<&'a [u8]>,
    /// What the record says of it: its type, whether it can be NULL, signedness, charset.
    pub column: Column,
    /// The strings of an ENUM or SET.
    pub strings: Option<Group<'a>>,
    /// Which geometries a geometry column takes.
    pub geometry: Option<GeometryType>,
    /// How many dimensions a VECTOR has at most.
    pub dimensions: Option<u64>,
}

/// One column of a primary key.
#[derive(Clone, Copy, Debug, PartialEq, Eq)]
pub struct KeyPart {
    /// The column, counted from 0.
    pub column: usize,
    /// How much of its start is in the key, in characters, or bytes where it has no charset; `None` for the whole column.
    pub prefix: Option<u64>,
}

/// Checks the body of a table map event, as [`check`], and takes up all that it says of its columns. The table keeps the event's bytes.
pub fn table(
    event: impl Into<Vec<u8>>,
    post_header: u8,
    dialect: Dialect,
) -> Result<Table, Refusal> {
    let event = event.into();
    let record = check(&event, post_header, dialect)?;
    let lists = Lists::read(fields(&event, post_header, dialect)?)?;
    let columns = columns(&record, &lists, &event)?;
    let key = key(&lists, &event)?;
    Ok(Table {
        whose: abi::map(&event, post_header)?,
        parts: abi::parts(&event, post_header)?,
        event,
        record,
        columns,
        key,
    })
}

impl Table {
    /// Whose map it is.
    pub fn map(&self) -> Map<'_> {
        Map::told(&self.event, &self.whose, &self.parts)
    }

    /// The record, which row images are read and written under.
    pub fn record(&self) -> &Record {
        &self.record
    }

    /// The columns, in order.
    pub fn columns(&self) -> impl ExactSizeIterator<Item = TableColumn<'_>> {
        self.columns.iter().map(|told| told.of(&self.event))
    }

    /// One column, counted from 0.
    pub fn column(&self, column: usize) -> Option<TableColumn<'_>> {
        Some(self.columns.get(column)?.of(&self.event))
    }

    /// The primary key, in its order; empty if the map tells none. A MySQL server without one logs a unique key that cannot be NULL.
    pub fn primary_key(&self) -> &[KeyPart] {
        &self.key
    }

    /// Reads a rows event of this table, as [`Record::rows_event`] with the map's table id.
    pub fn rows_event<'a>(&'a self, code: u8, event: &'a [u8]) -> Result<RowsEvent<'a>, Refusal> {
        self.record.rows_event(code, self.map().id, event)
    }
}

/// Where some bytes stand in the event.
#[derive(Clone, Copy, Debug)]
struct Span {
    start: usize,
    length: usize,
}

impl Span {
    fn of(self, event: &[u8]) -> &[u8] {
        cut(event, self.start as u64, self.length as u64).unwrap_or(&[])
    }
}

/// A column, with places in the event for what is a part of it.
#[derive(Clone, Copy, Debug)]
struct Told {
    column: Column,
    name: Option<Span>,
    // the value of its field, and its group in that
    strings: Option<(Span, (u64, usize))>,
    geometry: Option<GeometryType>,
    dimensions: Option<u64>,
}

impl Told {
    fn of<'a>(&self, event: &'a [u8]) -> TableColumn<'a> {
        let group = |(value, told): (Span, _)| Group::told(value.of(event), told);
        TableColumn {
            name: self.name.map(|name| name.of(event)),
            column: self.column,
            strings: self.strings.map(group),
            geometry: self.geometry,
            dimensions: self.dimensions,
        }
    }
}

/// Where the fields stand that tell something of columns which the record does not. An accepted map has each once at most; one that it
/// has not is empty here.
struct Lists {
    names: Span,
    set_strings: Span,
    enum_strings: Span,
    geometry_types: Span,
    simple_key: Span,
    prefix_key: Span,
    dimensions: Span,
}

impl Lists {
    fn read(mut fields: Fields) -> Result<Lists, Refusal> {
        let none = Span {
            start: 0,
            length: 0,
        };
        let mut lists = Lists {
            names: none,
            set_strings: none,
            enum_strings: none,
            geometry_types: none,
            simple_key: none,
            prefix_key: none,
            dimensions: none,
        };
        while let Some((kind, start, length)) = fields.step()? {
            let list = match kind {
                field_type::COLUMN_NAME => &mut lists.names,
                field_type::SET_STR_VALUE => &mut lists.set_strings,
                field_type::ENUM_STR_VALUE => &mut lists.enum_strings,
                field_type::GEOMETRY_TYPE => &mut lists.geometry_types,
                field_type::SIMPLE_PRIMARY_KEY => &mut lists.simple_key,
                field_type::PRIMARY_KEY_WITH_PREFIX => &mut lists.prefix_key,
                field_type::VECTOR_DIMENSIONALITY => &mut lists.dimensions,
                // the record tells these
                _ => continue,
            };
            *list = Span { start, length };
        }
        Ok(lists)
    }
}

/// The columns of a record, each with its own item of the lists: names are one for each column, and the other lists have one for each
/// column of their type, in order.
fn columns(record: &Record, lists: &Lists, event: &[u8]) -> Result<Vec<Told>, Refusal> {
    let mut names = strings(lists.names.of(event));
    let mut of_sets = groups(lists.set_strings.of(event));
    let mut of_enums = groups(lists.enum_strings.of(event));
    let mut geometries = integers(lists.geometry_types.of(event));
    let mut dimensions = integers(lists.dimensions.of(event));
    let mut columns = Vec::with_capacity(record.columns());
    for i in 0..record.columns() {
        let column = record.column(i)?;
        let mut told = Told {
            column,
            name: names.step().transpose()?.map(|(start, length)| Span {
                start: lists.names.start + start as usize,
                length: length as usize,
            }),
            strings: None,
            geometry: None,
            dimensions: None,
        };
        match column.real_type {
            ColumnType::Set => {
                let group = of_sets.step().transpose()?;
                told.strings = group.map(|group| (lists.set_strings, group));
            }
            ColumnType::Enum => {
                let group = of_enums.step().transpose()?;
                told.strings = group.map(|group| (lists.enum_strings, group));
            }
            ColumnType::Geometry => {
                let number = geometries.next().transpose()?;
                told.geometry = number.and_then(GeometryType::from_number);
            }
            ColumnType::Vector => told.dimensions = dimensions.next().transpose()?,
            _ => {}
        }
        columns.push(told);
    }
    Ok(columns)
}

fn key(lists: &Lists, event: &[u8]) -> Result<Vec<KeyPart>, Refusal> {
    let part = |column, prefix| KeyPart {
        column: column as usize,
        prefix: Some(prefix).filter(|length| *length != 0),
    };
    let whole = integers(lists.simple_key.of(event)).map(|key| Ok(part(key?, 0)));
    let prefixed = pairs(lists.prefix_key.of(event)).map(|key| {
        let (column, prefix) = key?;
        Ok(part(column, prefix))
    });
    whole.chain(prefixed).collect()
}
