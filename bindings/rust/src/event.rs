//! Rows events: their parts, and their rows one after the other.

use crate::abi::{self, Answer};
use crate::refusal;
use crate::{cut, Record, Refusal, Row};
use std::iter::FusedIterator;

/// The codes of rows events, as an event's header has them.
pub mod code {
    /// Rows that were inserted.
    pub const WRITE_ROWS: u8 = 30;
    /// Rows that were changed, each with its image before and after.
    pub const UPDATE_ROWS: u8 = 31;
    /// Rows that were deleted.
    pub const DELETE_ROWS: u8 = 32;
    /// Rows that were inserted, in the first edition, which MariaDB logs.
    pub const WRITE_ROWS_V1: u8 = 23;
    /// Rows that were changed, in the first edition, which MariaDB logs.
    pub const UPDATE_ROWS_V1: u8 = 24;
    /// Rows that were deleted, in the first edition, which MariaDB logs.
    pub const DELETE_ROWS_V1: u8 = 25;
}

/// A rows event under the record of its map. [`Record::rows_event`] reads it.
///
/// The bytes are the event's body WITHOUT its header of 19 bytes and WITHOUT its checksum, which no call can tell from rows. Left on, it is
/// read as rows: under one TINYINT column, an event with the row 5 and behind it the checksum d2 41 9c 07 is accepted, with three rows, 5,
/// 65 and 7.
#[derive(Clone, Copy, Debug)]
pub struct RowsEvent<'a> {
    record: &'a Record,
    event: &'a [u8],
    code: u8,
    told: Answer,
}

/// One row of an event: `before` and `after` of an update, `after` alone of an insert, `before` alone of a delete.
#[derive(Clone, Copy, Debug)]
pub struct ChangedRow<'a> {
    /// The row as it was.
    pub before: Option<Image<'a>>,
    /// The row as it is now.
    pub after: Option<Image<'a>>,
}

/// One row image of an event.
#[derive(Clone, Copy, Debug)]
pub struct Image<'a> {
    record: &'a Record,
    /// The presence bits that the image stands under, as a part of the event.
    pub presence: &'a [u8],
    /// The image, as a part of the event.
    pub bytes: &'a [u8],
}

/// The walk over the rows of an event. After a refusal there is nothing more, and a `before` whose `after` is refused is not given; only an
/// event whose walk ends without one is accepted.
#[derive(Clone, Debug)]
pub struct Rows<'a> {
    rows: RowsEvent<'a>,
    // the next cursor, unless the walk has ended
    at: Option<(usize, u64)>,
}

/// What the library never leaves to this crate to find: an image that does not lie in its event, or an end behind a `before`.
const MISSING: Refusal = Refusal::at(refusal::IMAGE_SHORT, 0);

impl Record {
    /// Reads a rows event of this record's table. `code` is the event's type from its header, `table` the [`id`](crate::Map::id) of its
    /// map. `event` is its body WITHOUT its header and WITHOUT its checksum: see [`RowsEvent`].
    pub fn rows_event<'a>(
        &'a self,
        code: u8,
        table: u64,
        event: &'a [u8],
    ) -> Result<RowsEvent<'a>, Refusal> {
        let told = abi::rows(u64::from(code), self.as_bytes(), table, event)?;
        Ok(RowsEvent {
            record: self,
            event,
            code,
            told,
        })
    }
}

impl<'a> RowsEvent<'a> {
    /// The event's flags.
    pub fn flags(&self) -> u16 {
        self.told[0] as u16
    }

    /// The extra data without its length. The first edition has none.
    pub fn extra(&self) -> Option<&'a [u8]> {
        if self.told[1] == 0 {
            return None;
        }
        cut(self.event, self.told[2], self.told[3])
    }

    /// The rows, in order.
    pub fn rows(&self) -> Rows<'a> {
        Rows {
            rows: *self,
            at: Some((self.told[9] as usize, 0)),
        }
    }

    fn is_update(&self) -> bool {
        self.told[6] != 0
    }

    fn is_delete(&self) -> bool {
        matches!(self.code, code::DELETE_ROWS | code::DELETE_ROWS_V1)
    }

    /// The image that an answer of the library tells, which lies in the event.
    fn image(&self, out: &Answer) -> Option<Image<'a>> {
        let (start, length) = match out[3] {
            0 => (self.told[4], self.told[5]),
            _ => (self.told[7], self.told[8]),
        };
        Some(Image {
            record: self.record,
            presence: cut(self.event, start, length)?,
            bytes: cut(self.event, out[1], out[2])?,
        })
    }
}

impl<'a> Image<'a> {
    /// The values: each present column with its value.
    pub fn values(&self) -> Result<Row<'a>, Refusal> {
        self.record.row(self.presence, self.bytes)
    }
}

impl<'a> Rows<'a> {
    /// The image at the cursor, and the cursor moves on; none at the end.
    fn step(&mut self) -> Result<Option<Image<'a>>, Refusal> {
        // what it is after the end and after a refusal; an image sets it anew
        let Some(at) = self.at.take() else {
            return Ok(None);
        };
        let rows = &self.rows;
        let out = abi::image(rows.record.as_bytes(), rows.event, &rows.told, at)?;
        if out[0] == 0 {
            return Ok(None);
        }
        let image = rows.image(&out).ok_or(MISSING)?;
        self.at = Some((out[4] as usize, out[5]));
        Ok(Some(image))
    }

    fn row(&mut self) -> Result<Option<ChangedRow<'a>>, Refusal> {
        let Some(first) = self.step()? else {
            return Ok(None);
        };
        let (before, after) = if self.rows.is_update() {
            let second = self.step()?.ok_or(MISSING)?;
            (Some(first), Some(second))
        } else if self.rows.is_delete() {
            (Some(first), None)
        } else {
            (None, Some(first))
        };
        Ok(Some(ChangedRow { before, after }))
    }
}

impl<'a> Iterator for Rows<'a> {
    type Item = Result<ChangedRow<'a>, Refusal>;

    fn next(&mut self) -> Option<Self::Item> {
        self.row().transpose()
    }
}

impl FusedIterator for Rows<'_> {}
