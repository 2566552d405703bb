//! Many row images laid end to end, read as one run of values.

use crate::batch::{self, At, Values};
use crate::plan::{Lent, Plan};
use crate::refusal;
use crate::value::Value;
use crate::{Record, Refusal};
use std::iter::FusedIterator;

/// The walk over row images laid end to end, all under the same presence bits: each present column with its value, row after row. A row
/// ends behind its last present column. After a refusal there is nothing more.
///
/// One buffer serves all rows, and a row costs nothing but its values: where many rows stand in one piece this is faster than a
/// [`Row`](crate::Row) for each.
#[derive(Clone, Debug)]
pub struct Images<'a> {
    plan: Lent<'a>,
    images: &'a [u8],
    // how many values were read, and which of them to give next, with its item
    values: Values,
    read: usize,
    next: usize,
    item: usize,
    // where to read on, unless the walk has ended
    at: Option<At>,
}

impl Images<'_> {
    /// How many values a row has: one for each present column.
    pub fn row_len(&self) -> usize {
        self.plan.columns.len()
    }
}

/// What was read at once: so many values, and where to read on, or why there are no more.
struct Batch {
    values: Values,
    read: usize,
    next: Result<At, Option<Refusal>>,
}

/// Reads on. All goes in and out by value, so that whoever loops over the values keeps its place in registers.
#[inline(never)]
fn read_on(plan: &Plan, images: &[u8], at: At, mut values: Values) -> Batch {
    let (read, next) = match batch::read(plan, images, at, usize::MAX, &mut values) {
        Ok((0, (start, ..))) if start == images.len() => (0, Err(None)),
        // where no column is present an image takes no bytes, and all are left over
        Ok((0, _)) => (0, Err(Some(Refusal::at(refusal::IMAGE_SHORT, 0)))),
        Ok((read, next)) => (read, Ok(next)),
        Err(why) => (0, Err(Some(why))),
    };
    Batch { values, read, next }
}

impl<'a> Iterator for Images<'a> {
    type Item = Result<(usize, Value<'a>), Refusal>;

    // inlined, so that whoever takes the value apart again finds it in registers
    #[inline(always)]
    fn next(&mut self) -> Option<Self::Item> {
        if self.next == self.read {
            let at = self.at?;
            let batch = read_on(
                &self.plan,
                self.images,
                at,
                std::mem::take(&mut self.values),
            );
            self.values = batch.values;
            self.read = batch.read;
            self.next = 0;
            self.at = batch.next.ok();
            if let Err(why) = batch.next {
                return why.map(Err);
            }
        }
        // behind the last item of a row stands the first of the next
        if self.item == self.plan.columns.len() {
            self.item = 0;
        }
        let column = self.plan.columns[self.item];
        let numbers = &self.values[self.next];
        self.next += 1;
        self.item += 1;
        // the library answers only the kinds that it names, and bytes that lie in the images
        match Value::from_numbers(numbers, self.images) {
            Some(value) => Some(Ok((column, value))),
            None => {
                self.at = None;
                self.next = self.read;
                Some(Err(Refusal::at(refusal::IMAGE_SHORT, column as u64)))
            }
        }
    }
}

impl FusedIterator for Images<'_> {}

impl Record {
    /// Reads row images laid end to end, all under the same presence bits, as [`row`](Record::row) reads one. They end where the bytes end.
    pub fn images<'a>(
        &'a self,
        presence: &'a [u8],
        images: &'a [u8],
    ) -> Result<Images<'a>, Refusal> {
        let plan = self.plans.get(&self.bytes, self.columns(), presence)?;
        let offset = plan.columns.len().div_ceil(8);
        Ok(Images {
            plan,
            images,
            values: Values::new(),
            read: 0,
            next: 0,
            item: 0,
            at: Some((0, 0, offset)),
        })
    }
}
