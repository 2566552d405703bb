//! Row images: read and written.

use crate::abi;
use crate::batch::{self, Values};
use crate::plan::Lent;
use crate::refusal;
use crate::value::Value;
use crate::{Record, Refusal};
use std::iter::FusedIterator;

/// The walk over one row image: each present column with its value. After a refusal there is nothing more.
#[derive(Clone, Debug)]
pub struct Row<'a> {
    plan: Lent<'a>,
    image: &'a [u8],
    // how many values were read, and which of them to give next
    values: Values,
    read: usize,
    next: usize,
    // how many values were given
    given: usize,
    // the item to read next, and the offset of its value
    item: usize,
    offset: usize,
    state: State,
}

#[derive(Clone, Copy, Debug)]
enum State {
    On,
    Ended,
    Refused,
}

impl Row<'_> {
    /// How many bytes of the image the row took, once the walk has come to its end. The next row of an event starts there.
    #[inline]
    pub fn bytes_used(&self) -> Option<usize> {
        match self.state {
            State::Ended => Some(self.offset),
            _ => None,
        }
    }

    /// Reads on, no further than the row goes: nothing at its end. A refusal comes only if it is the next value's.
    fn read_on(&mut self) -> Option<Result<(), Refusal>> {
        let State::On = self.state else {
            return None;
        };
        let left = self.plan.columns.len() - self.given;
        if left == 0 {
            self.state = State::Ended;
            return None;
        }
        let at = (0, self.item, self.offset);
        let read = batch::read(&self.plan, self.image, at, left, &mut self.values);
        let (count, (_, item, offset)) = match read {
            Ok(read) => read,
            Err(why) => return Some(Err(self.stop(why))),
        };
        // the library takes no bytes for the end of all images; here an image is due
        if count == 0 {
            return Some(Err(self.stop(Refusal::at(refusal::IMAGE_SHORT, 0))));
        }
        self.read = count;
        self.next = 0;
        self.item = item;
        self.offset = offset;
        Some(Ok(()))
    }

    /// Ends the walk, for a refusal.
    #[cold]
    fn stop(&mut self, why: Refusal) -> Refusal {
        self.state = State::Refused;
        self.next = self.read;
        why
    }
}

impl<'a> Iterator for Row<'a> {
    type Item = Result<(usize, Value<'a>), Refusal>;

    // inlined, so that whoever takes the value apart again finds it in registers
    #[inline(always)]
    fn next(&mut self) -> Option<Self::Item> {
        if self.next == self.read {
            if let Err(why) = self.read_on()? {
                return Some(Err(why));
            }
        }
        let column = self.plan.columns[self.given];
        let numbers = &self.values[self.next];
        self.next += 1;
        self.given += 1;
        // the library answers only the kinds that it names, and bytes that lie in the image
        match Value::from_numbers(numbers, self.image) {
            Some(value) => Some(Ok((column, value))),
            None => Some(Err(
                self.stop(Refusal::at(refusal::IMAGE_SHORT, column as u64))
            )),
        }
    }
}

impl FusedIterator for Row<'_> {}

impl Drop for Row<'_> {
    #[inline]
    fn drop(&mut self) {
        batch::take_back(std::mem::take(&mut self.values));
    }
}

impl Record {
    /// Reads a row image. `presence` has a bit for each column, lowest first: set where the column is in the image. The image may be longer
    /// than the row.
    #[inline]
    pub fn row<'a>(&'a self, presence: &'a [u8], image: &'a [u8]) -> Result<Row<'a>, Refusal> {
        let plan = self.plans.get(&self.bytes, self.columns(), presence)?;
        let offset = plan.columns.len().div_ceil(8);
        Ok(Row {
            plan,
            image,
            values: batch::lend(),
            read: 0,
            next: 0,
            given: 0,
            item: 0,
            offset,
            state: State::On,
        })
    }

    /// The most bytes that a row image under these presence bits can take, null bits and length bytes included. A string counts as long as
    /// its length bytes can tell, and not as long as the column declares.
    pub fn image_room(&self, presence: &[u8]) -> Result<u64, Refusal> {
        abi::room(&self.bytes, presence).map(|out| out[0])
    }

    /// Writes a row image of these values, one for each present column in order. The spare null bits are set.
    pub fn write_row(&self, presence: &[u8], values: &[Value]) -> Result<Vec<u8>, Refusal> {
        let plan = self.plans.get(&self.bytes, self.columns(), presence)?;
        if values.len() != plan.columns.len() {
            return Err(Refusal::at(refusal::BAD_BITS, 0));
        }
        let nulls = null_bits(values);
        let mut image = room_for(&nulls, values)?;
        let [_, mut offset, ..] = abi::start(&self.bytes, presence, &nulls, &mut image)?;
        for (item, value) in values.iter().enumerate() {
            let at = (item, offset as usize);
            [_, offset] = abi::put_item(&plan.bytes, &nulls, at, &value.taken(), &mut image)?;
        }
        image.truncate(offset as usize);
        Ok(image)
    }
}

/// A buffer that the image fits in, for the null bits and the values.
fn room_for(nulls: &[u8], values: &[Value]) -> Result<Vec<u8>, Refusal> {
    buffer(
        values
            .iter()
            .fold(nulls.len(), |sum, v| sum.saturating_add(v.room())),
    )
}

/// A buffer of so many bytes. Memory that is not to be had is a refusal too.
pub(crate) fn buffer(len: usize) -> Result<Vec<u8>, Refusal> {
    let mut bytes = Vec::new();
    match bytes.try_reserve_exact(len) {
        Ok(()) => bytes.resize(len, 0),
        Err(_) => return Err(Refusal::at(refusal::NO_ROOM, 0)),
    }
    Ok(bytes)
}

/// A bit for each value, lowest first, set where it is NULL.
fn null_bits(values: &[Value]) -> Vec<u8> {
    values
        .chunks(8)
        .map(|eight| {
            let bits = eight.iter().enumerate();
            bits.fold(0, |byte, (i, v)| {
                byte | u8::from(matches!(v, Value::Null)) << i
            })
        })
        .collect()
}
