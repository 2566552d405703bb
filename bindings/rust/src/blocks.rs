//! Row images that arrive in blocks.

use std::fmt;

use crate::abi::{self, Answer, State};
use crate::refusal;
use crate::row::buffer;
use crate::value::{Value, NUMBERS};
use crate::{Record, Refusal};

/// The least bytes of a carry: with fewer an image is refused with 20.
pub const LEAST_CARRY: usize = 1024;

/// The bytes of a carry if the caller names none.
const CARRY: usize = 65_536;

/// What arrives beside values.
const END: u64 = 0;
const MORE: u64 = 12;
const LONG: u64 = 13;
const PART: u64 = 14;

/// Where the numbers of an answer stand: the next state before them.
const KIND: usize = 5;
const COLUMN: usize = 6;
const TAKEN: usize = 7;
const PARTS: usize = 8;

/// With this state every call is refused with 21.
const CLOSED: State = [2, 0, 0, 0, 0];

/// A row image of which block after block is given. It keeps the null bits and the value in progress in a buffer of its own, the carry, so
/// a block is done with when it has been given.
///
/// ```no_run
/// # fn f(record: feed::Record, presence: &[u8], downlink: Vec<Vec<u8>>) -> Result<(), feed::Refusal> {
/// let mut row = record.blocks(presence)?;
/// for received in &downlink {
///     let mut block = &received[..];
///     while let Some(arrival) = row.give(&mut block)? {
///         println!("{arrival:?}");
///     }
/// }
/// let used = row.end()?;
/// # Ok(())
/// # }
/// ```
///
/// Each call costs as much as the record has columns, whatever the block has: give blocks of some hundred bytes, and not single bytes.
#[derive(Clone)]
pub struct Blocks<'r> {
    record: &'r Record,
    presence: Vec<u8>,
    carry: Vec<u8>,
    state: State,
    // once the image has come to its end
    used: Option<usize>,
}

/// The state, and of the carry its length alone: it may have many thousand bytes.
impl fmt::Debug for Blocks<'_> {
    fn fmt(&self, f: &mut fmt::Formatter<'_>) -> fmt::Result {
        f.debug_struct("Blocks")
            .field("presence", &self.presence)
            .field("carry", &self.carry.len())
            .field("state", &self.state)
            .field("used", &self.used)
            .finish_non_exhaustive()
    }
}

/// One thing that arrived.
#[derive(Clone, Copy, Debug, PartialEq)]
#[non_exhaustive]
pub enum Arrival<'a> {
    /// The value of a column, NULL too. Bytes are borrowed from the carry.
    Value {
        /// The column.
        column: usize,
        /// Its value.
        value: Value<'a>,
    },
    /// The value of a column is too long for the carry: its bytes follow in parts.
    Long {
        /// The column.
        column: usize,
        /// How many bytes all parts have together.
        length: usize,
    },
    /// The next bytes of a long value, never empty, borrowed from the block.
    Part {
        /// The column.
        column: usize,
        /// The bytes.
        bytes: &'a [u8],
    },
}

impl Record {
    /// Begins a row image that arrives in blocks, with a carry of 65,536 bytes. `presence` is as for [`row`](Record::row).
    pub fn blocks(&self, presence: &[u8]) -> Result<Blocks<'_>, Refusal> {
        self.blocks_with_carry(presence, CARRY)
    }

    /// The same with a carry of so many bytes, [`LEAST_CARRY`] at least. A value that takes more than what the null bits leave of it, its
    /// length bytes included, arrives as [`Arrival::Long`] and in parts; all others arrive whole.
    pub fn blocks_with_carry(&self, presence: &[u8], carry: usize) -> Result<Blocks<'_>, Refusal> {
        let mut begun = Blocks {
            record: self,
            presence: presence.to_vec(),
            carry: buffer(carry)?,
            state: CLOSED,
            used: None,
        };
        begun.next_image()?;
        Ok(begun)
    }
}

impl Blocks<'_> {
    /// Takes bytes from the front of a block, as many as one answer needs: `block` is then what is left of it. Call it again until there is
    /// `None`: then all of the block was taken and more is due, or the image has come to its end ([`bytes_used`](Blocks::bytes_used) tells
    /// it) and what is left of the block is not the image's. After a refusal every call is refused with 21.
    pub fn give<'a, 'b: 'a>(
        &'a mut self,
        block: &mut &'b [u8],
    ) -> Result<Option<Arrival<'a>>, Refusal> {
        let given = abi::give(
            &self.record.bytes,
            &self.presence,
            &mut self.carry,
            block,
            self.state,
        );
        let out = self.keep(given)?;
        let column = out[COLUMN] as usize;
        // the library takes no more than there is
        let (front, rest) = block.split_at((out[TAKEN] as usize).min(block.len()));
        *block = rest;
        Ok(match out[KIND] {
            END => {
                self.used = Some(out[PARTS] as usize);
                None
            }
            MORE => None,
            LONG => Some(Arrival::Long {
                column,
                length: out[PARTS] as usize,
            }),
            PART => Some(Arrival::Part {
                column,
                bytes: front,
            }),
            kind => Some(Arrival::Value {
                column,
                value: value(kind, &out, &self.carry, column)?,
            }),
        })
    }

    /// How many bytes the image took, once [`give`](Blocks::give) has met its end.
    pub fn bytes_used(&self) -> Option<usize> {
        self.used
    }

    /// Tells that no more bytes come: the bytes that the image took, or refusal 9 if it is not at its end. NULLs that were not asked for
    /// are not missed.
    pub fn end(self) -> Result<usize, Refusal> {
        let out = abi::end(&self.record.bytes, &self.presence, &self.carry, self.state)?;
        Ok(out[PARTS] as usize)
    }

    /// Begins the next image under the same presence bits, whatever became of this one.
    pub fn next_image(&mut self) -> Result<(), Refusal> {
        self.used = None;
        let begun = abi::begin(&self.record.bytes, &self.presence, &self.carry);
        self.keep(begun).map(|_| ())
    }

    /// The next state is the one that an answer tells; a refusal closes.
    fn keep(&mut self, answer: Result<Answer, Refusal>) -> Result<Answer, Refusal> {
        self.state = CLOSED;
        let out = answer?;
        self.state = [out[0], out[1], out[2], out[3], out[4]];
        Ok(out)
    }
}

/// The value that was told. The library answers only the kinds that it names, and bytes that lie in the carry.
fn value<'a>(
    kind: u64,
    out: &Answer,
    carry: &'a [u8],
    column: usize,
) -> Result<Value<'a>, Refusal> {
    let mut numbers = [kind; NUMBERS];
    numbers[1..].copy_from_slice(&out[PARTS..]);
    Value::from_numbers(&numbers, carry).ok_or(Refusal::at(refusal::IMAGE_SHORT, column as u64))
}
