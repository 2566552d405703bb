//! Plans, by which rows are read and written: each is made once, of a record and presence bits.

use crate::abi;
use crate::Refusal;
use std::ops::Deref;
use std::sync::OnceLock;

/// Bytes of a plan for each present column.
const ITEM_BYTES: usize = 3;

/// How many plans a record keeps, so that a log with other presence bits in every row takes no memory without end. The images of an event
/// stand under one or two sets of presence bits, and a log that leaves columns out comes back to the same ones.
const KEPT: usize = 64;

/// The plan of a record and presence bits.
#[derive(Clone, Debug)]
pub(crate) struct Plan {
    presence: Vec<u8>,
    /// The bytes that the library reads and writes rows by.
    pub(crate) bytes: Vec<u8>,
    /// The present columns, in order: one for each item.
    pub(crate) columns: Vec<usize>,
}

impl Plan {
    fn new(record: &[u8], columns: usize, presence: &[u8]) -> Result<Plan, Refusal> {
        let columns: Vec<_> = (0..columns).filter(|&c| is_set(presence, c)).collect();
        let mut bytes = vec![0; ITEM_BYTES * columns.len()];
        abi::plan(record, presence, &mut bytes)?;
        Ok(Plan {
            presence: presence.to_vec(),
            bytes,
            columns,
        })
    }
}

/// The plan of a row: one that its record keeps, or its own. Either is behind a pointer, so that it costs no test to look at.
#[derive(Clone, Debug)]
pub(crate) enum Lent<'a> {
    Kept(&'a Plan),
    Own(Box<Plan>),
}

impl Deref for Lent<'_> {
    type Target = Plan;

    #[inline(always)]
    fn deref(&self) -> &Plan {
        match self {
            Lent::Kept(plan) => plan,
            Lent::Own(plan) => plan,
        }
    }
}

/// The plans of a record, in the order in which their presence bits came. Each stays as long as the record, so that a row borrows its plan:
/// to find it no lock is taken, and nothing is counted. They are no part of what a record says: a copy begins with none, and records are
/// equal whatever plans they have.
#[derive(Debug, Default)]
pub(crate) struct Plans(OnceLock<Box<Kept>>);

#[derive(Debug)]
struct Kept {
    plan: Plan,
    more: Plans,
}

impl Clone for Plans {
    fn clone(&self) -> Plans {
        Plans::default()
    }
}

impl PartialEq for Plans {
    fn eq(&self, _: &Plans) -> bool {
        true
    }
}

impl Eq for Plans {}

impl Plans {
    /// The plan for these presence bits, made if it is not kept. Where no more are kept it is made for this row alone.
    #[inline]
    pub(crate) fn get(
        &self,
        record: &[u8],
        columns: usize,
        presence: &[u8],
    ) -> Result<Lent<'_>, Refusal> {
        // mostly it is the first one's
        match self.0.get() {
            Some(first) if first.plan.presence == presence => Ok(Lent::Kept(&first.plan)),
            _ => self.find(record, columns, presence),
        }
    }

    #[inline(never)]
    fn find(&self, record: &[u8], columns: usize, presence: &[u8]) -> Result<Lent<'_>, Refusal> {
        let mut plans = self;
        for _ in 0..KEPT {
            let kept = match plans.0.get() {
                Some(kept) => kept,
                None => plans.keep(Plan::new(record, columns, presence)?),
            };
            if kept.plan.presence == presence {
                return Ok(Lent::Kept(&kept.plan));
            }
            plans = &kept.more;
        }
        let plan = Plan::new(record, columns, presence)?;
        Ok(Lent::Own(Box::new(plan)))
    }

    /// Keeps a plan as the last, unless another thread was first: then that one's.
    #[cold]
    fn keep(&self, plan: Plan) -> &Kept {
        let more = Plans::default();
        self.0.get_or_init(|| Box::new(Kept { plan, more }))
    }
}

/// Whether bit `at` is set, from the lowest of the first byte on; one past the bytes is not.
pub(crate) fn is_set(bits: &[u8], at: usize) -> bool {
    bits.get(at / 8)
        .is_some_and(|byte| byte >> (at % 8) & 1 == 1)
}
