//! What is measured: sides that read the same images.

use crate::input::Lent;
use crate::iterator::Reader;
use crate::strongest::Plan;
use crate::value::{Refusal, Value};

/// Whether all images were read to their end.
pub type Ended = Result<(), Refusal>;

pub trait Side {
    fn name(&self) -> &'static str;

    /// Whether a row costs the square of its columns, so that it is measured on fewer rows.
    fn is_square(&self) -> bool {
        false
    }

    /// Tells sort and parts of each value in order; none if the side tells a sum alone.
    fn walk(&self, _lent: Lent, _told: &mut dyn FnMut([u64; 8])) -> Option<Ended> {
        None
    }

    /// The sum of sort and parts of all values: the light digest, which is timed.
    fn sum(&self, lent: Lent) -> (u64, Ended);
}

/// The first baseline.
pub struct Iterated;

impl Iterated {
    #[inline(always)]
    fn each(lent: Lent, mut told: impl FnMut(Value)) -> Ended {
        let reader = Reader::new(lent.record, lent.presence)?;
        let mut image = lent.images;
        while !image.is_empty() {
            let mut row = reader.row(image)?;
            for item in &mut row {
                let (_, value) = item?;
                told(value);
            }
            // where no column is present an image takes no bytes, and all are left over
            if row.rest().len() == image.len() {
                return Err(Refusal::short(0));
            }
            image = row.rest();
        }
        Ok(())
    }
}

impl Side for Iterated {
    fn name(&self) -> &'static str {
        "iterator"
    }

    fn walk(&self, lent: Lent, told: &mut dyn FnMut([u64; 8])) -> Option<Ended> {
        Some(Iterated::each(lent, |value| {
            told(value.numbers(lent.images))
        }))
    }

    fn sum(&self, lent: Lent) -> (u64, Ended) {
        let mut sum = 0u64;
        let ended = Iterated::each(lent, |value| sum = sum.wrapping_add(value.sum(lent.images)));
        (sum, ended)
    }
}

/// The second baseline.
pub struct Strongest;

impl Side for Strongest {
    fn name(&self) -> &'static str {
        "strongest"
    }

    fn walk(&self, lent: Lent, told: &mut dyn FnMut([u64; 8])) -> Option<Ended> {
        let plan = Plan::new(lent.record, lent.presence);
        Some(plan.and_then(|plan| plan.each(lent.images, |value| told(value.numbers(lent.images)))))
    }

    fn sum(&self, lent: Lent) -> (u64, Ended) {
        let mut sum = 0u64;
        let plan = Plan::new(lent.record, lent.presence);
        let ended = plan.and_then(|plan| {
            plan.each(lent.images, |value| {
                sum = sum.wrapping_add(value.sum(lent.images))
            })
        });
        (sum, ended)
    }
}

/// The second baseline in the form of `feed_run`: sort and seven parts of each value are stored in a buffer, which is summed up when it is
/// full. It tells what that form costs, whoever reads.
pub struct Stored;

impl Side for Stored {
    fn name(&self) -> &'static str {
        "stored"
    }

    fn sum(&self, lent: Lent) -> (u64, Ended) {
        let mut sum = 0u64;
        let mut values = [[0; 8]; BATCH];
        let mut count = 0;
        let plan = Plan::new(lent.record, lent.presence);
        let ended = plan.and_then(|plan| {
            plan.each(lent.images, |value| {
                values[count] = value.numbers(lent.images);
                count += 1;
                if count == BATCH {
                    sum = sum.wrapping_add(sum_of(values.as_flattened()));
                    count = 0;
                }
            })
        });
        (
            sum.wrapping_add(sum_of(values[..count].as_flattened())),
            ended,
        )
    }
}

/// How many values a buffer holds that is filled with their numbers: 16 kilobytes.
pub const BATCH: usize = 256;

/// The light digest of numbers: their sum.
#[inline(always)]
pub fn sum_of(numbers: &[u64]) -> u64 {
    numbers.iter().fold(0, |sum, &n| sum.wrapping_add(n))
}
