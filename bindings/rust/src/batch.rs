//! Values read by a plan, many at once.

use crate::abi;
use crate::plan::Plan;
use crate::value::NUMBERS;
use crate::Refusal;
use std::cell::RefCell;

/// How many values are read at once.
const BATCH: usize = 256;

/// Room for values, each as its numbers.
pub(crate) type Values = Vec<[u64; NUMBERS]>;

/// Where the next value stands: the start of its image, its item and its offset.
pub(crate) type At = (usize, usize, usize);

/// Reads on, so many values at most: how many they are, and where the next stands. A refusal comes only if it is the first one's.
#[inline(always)]
pub(crate) fn read(
    plan: &Plan,
    images: &[u8],
    at: At,
    most: usize,
    values: &mut Values,
) -> Result<(usize, At), Refusal> {
    if values.is_empty() {
        values.resize(BATCH, [0; NUMBERS]);
    }
    let room = values[..most.min(BATCH)].as_flattened_mut();
    let [read, start, item, offset] = abi::run(&plan.bytes, images, at, room)?;
    let next = (start as usize, item as usize, offset as usize);
    Ok((read as usize, next))
}

/// How many buffers a thread keeps: as many as it has rows at once, which are the two of an update and seldom more.
const KEPT: usize = 8;

thread_local! {
    // making a buffer would cost a row as much as many values
    static SPARE: RefCell<Vec<Values>> = const { RefCell::new(Vec::new()) };
}

/// A buffer that was kept, with any numbers in it, or one without room, which is made when values are read.
pub(crate) fn lend() -> Values {
    // a thread that is ending has none
    let spare = SPARE.try_with(|spare| spare.borrow_mut().pop());
    spare.ok().flatten().unwrap_or_default()
}

/// Keeps a buffer for a row to come.
pub(crate) fn take_back(buffer: Values) {
    if buffer.is_empty() {
        return;
    }
    let _ = SPARE.try_with(|spare| {
        let mut spare = spare.borrow_mut();
        if spare.len() < KEPT {
            spare.push(buffer);
        }
    });
}
