//! The optional fields of a map, one after the other, and the lists in their values.

use crate::abi;
use crate::plan::is_set;
use crate::refusal;
use crate::{cut, Dialect, Refusal};
use std::iter::FusedIterator;

/// The types of optional fields, and what stands in the value of each. Bits run from the highest down.
pub mod field_type {
    /// A bit for each column that has one in the dialect: set if it is unsigned.
    pub const SIGNEDNESS: u8 = 1;
    /// A charset for character columns, and pairs (rank, charset) for those that have another.
    pub const DEFAULT_CHARSET: u8 = 2;
    /// Integers: a charset for each character column.
    pub const COLUMN_CHARSET: u8 = 3;
    /// Strings: a name for each column.
    pub const COLUMN_NAME: u8 = 4;
    /// Groups of strings, one for each SET column.
    pub const SET_STR_VALUE: u8 = 5;
    /// Groups of strings, one for each ENUM column.
    pub const ENUM_STR_VALUE: u8 = 6;
    /// Integers: a geometry type for each geometry column.
    pub const GEOMETRY_TYPE: u8 = 7;
    /// Integers: the columns of the primary key, in its order.
    pub const SIMPLE_PRIMARY_KEY: u8 = 8;
    /// Pairs: the same, each with the length of its prefix, 0 for the whole column.
    pub const PRIMARY_KEY_WITH_PREFIX: u8 = 9;
    /// As [`DEFAULT_CHARSET`], for ENUM and SET columns together.
    pub const ENUM_AND_SET_DEFAULT_CHARSET: u8 = 10;
    /// As [`COLUMN_CHARSET`], for ENUM and SET columns together.
    pub const ENUM_AND_SET_COLUMN_CHARSET: u8 = 11;
    /// A bit for each column: set if it is visible.
    pub const COLUMN_VISIBILITY: u8 = 12;
    /// Integers: how many dimensions each VECTOR column has.
    pub const VECTOR_DIMENSIONALITY: u8 = 13;
}

/// One optional field.
#[derive(Clone, Copy, Debug, PartialEq, Eq)]
pub struct Field<'a> {
    /// Its type, one of [`field_type`].
    pub kind: u8,
    /// Its value, as a part of the event.
    pub value: &'a [u8],
}

/// The walk over the optional fields of a map. After a refusal there is nothing more.
#[derive(Clone, Debug)]
pub struct Fields<'a> {
    event: &'a [u8],
    numeric: usize,
    columns: usize,
    // the next offset, unless the walk has ended
    at: Option<usize>,
}

/// What the library never leaves to this crate to find: a part that does not lie in the bytes.
const MISSING: Refusal = Refusal::at(refusal::SHORT, 0);

/// The optional fields of a map. Each is judged as far as the walk judges: its type is known, and 1 and 12 have as many bits as there are
/// columns. Whether all of them are good is for [`check`](crate::check). `event` and `post_header` are as there.
pub fn fields(event: &[u8], post_header: u8, dialect: Dialect) -> Result<Fields<'_>, Refusal> {
    let out = abi::fields(event, post_header, dialect.number())?;
    Ok(Fields {
        event,
        numeric: out[1] as usize,
        columns: out[2] as usize,
        at: Some(out[0] as usize),
    })
}

impl Fields<'_> {
    /// The type of the next field, and start and length of its value in the event.
    pub(crate) fn step(&mut self) -> Result<Option<(u8, usize, usize)>, Refusal> {
        // what it is after the end and after a refusal; a field sets it anew
        let Some(at) = self.at.take() else {
            return Ok(None);
        };
        let out = abi::field(self.event, at, self.numeric, self.columns)?;
        if out[0] == 0 {
            return Ok(None);
        }
        self.at = Some(out[4] as usize);
        Ok(Some((out[1] as u8, out[2] as usize, out[3] as usize)))
    }
}

impl<'a> Iterator for Fields<'a> {
    type Item = Result<Field<'a>, Refusal>;

    fn next(&mut self) -> Option<Self::Item> {
        let step = self.step().transpose()?;
        Some(step.and_then(|(kind, start, length)| {
            let value = cut(self.event, start as u64, length as u64).ok_or(MISSING)?;
            Ok(Field { kind, value })
        }))
    }
}

impl FusedIterator for Fields<'_> {}

/// A step over any list in a value, by the list's number.
#[derive(Clone, Debug)]
struct List<'a> {
    number: u64,
    value: &'a [u8],
    // the next offset, unless the walk has ended
    at: Option<usize>,
}

impl<'a> List<'a> {
    fn new(number: u64, value: &'a [u8], at: usize) -> List<'a> {
        List {
            number,
            value,
            at: Some(at),
        }
    }

    /// The two numbers of the next item.
    fn step(&mut self) -> Option<Result<(u64, u64), Refusal>> {
        let at = self.at.take()?;
        match abi::item(self.number, self.value, at) {
            Ok(out) if out[0] == 0 => None,
            Ok(out) => {
                self.at = Some(out[3] as usize);
                Some(Ok((out[1], out[2])))
            }
            Err(why) => Some(Err(why)),
        }
    }
}

/// The walk over a list of integers: fields 3, 7, 8, 11 and 13. After a refusal there is nothing more.
#[derive(Clone, Debug)]
pub struct Integers<'a>(List<'a>);

/// The integers in the value of a field.
pub fn integers(value: &[u8]) -> Integers<'_> {
    Integers(List::new(1, value, 0))
}

impl Iterator for Integers<'_> {
    type Item = Result<u64, Refusal>;

    fn next(&mut self) -> Option<Self::Item> {
        Some(self.0.step()?.map(|(integer, _)| integer))
    }
}

impl FusedIterator for Integers<'_> {}

/// The walk over a list of pairs: field 9, and fields 2 and 10 behind their default. After a refusal there is nothing more.
#[derive(Clone, Debug)]
pub struct Pairs<'a>(List<'a>);

/// The pairs in the value of a field.
pub fn pairs(value: &[u8]) -> Pairs<'_> {
    Pairs(List::new(2, value, 0))
}

impl Iterator for Pairs<'_> {
    type Item = Result<(u64, u64), Refusal>;

    fn next(&mut self) -> Option<Self::Item> {
        self.0.step()
    }
}

impl FusedIterator for Pairs<'_> {}

/// The walk over a list of strings: field 4. After a refusal there is nothing more.
#[derive(Clone, Debug)]
pub struct Strings<'a>(List<'a>);

/// The strings in the value of a field.
pub fn strings(value: &[u8]) -> Strings<'_> {
    Strings(List::new(3, value, 0))
}

impl Strings<'_> {
    /// Start and length of the next string in the value.
    pub(crate) fn step(&mut self) -> Option<Result<(u64, u64), Refusal>> {
        self.0.step()
    }
}

impl<'a> Iterator for Strings<'a> {
    type Item = Result<&'a [u8], Refusal>;

    fn next(&mut self) -> Option<Self::Item> {
        let step = self.step()?;
        Some(step.and_then(|(start, length)| cut(self.0.value, start, length).ok_or(MISSING)))
    }
}

impl FusedIterator for Strings<'_> {}

/// The walk over a list of groups of strings: fields 5 and 6. After a refusal there is nothing more.
#[derive(Clone, Debug)]
pub struct Groups<'a>(List<'a>);

/// The groups in the value of a field.
pub fn groups(value: &[u8]) -> Groups<'_> {
    Groups(List::new(4, value, 0))
}

impl Groups<'_> {
    /// How many strings the next group has, and where the first stands in the value.
    pub(crate) fn step(&mut self) -> Option<Result<(u64, usize), Refusal>> {
        let step = self.0.step()?;
        Some(step.map(|(count, first)| (count, first as usize)))
    }
}

impl<'a> Iterator for Groups<'a> {
    type Item = Result<Group<'a>, Refusal>;

    fn next(&mut self) -> Option<Self::Item> {
        let value = self.0.value;
        Some(self.step()?.map(|told| Group::told(value, told)))
    }
}

impl FusedIterator for Groups<'_> {}

/// The strings of an ENUM or SET column, which are all there. They are in the column's charset.
#[derive(Clone, Copy, Debug, PartialEq, Eq)]
pub struct Group<'a> {
    value: &'a [u8],
    count: u64,
    first: usize,
}

impl<'a> Group<'a> {
    /// What a step over the groups of a value told.
    pub(crate) fn told(value: &'a [u8], (count, first): (u64, usize)) -> Group<'a> {
        Group {
            value,
            count,
            first,
        }
    }

    /// How many there are.
    pub fn count(&self) -> u64 {
        self.count
    }

    /// The strings, in order.
    pub fn strings(&self) -> impl Iterator<Item = &'a [u8]> {
        let mut list = Strings(List::new(3, self.value, self.first));
        let mut left = self.count;
        std::iter::from_fn(move || {
            left = left.checked_sub(1)?;
            list.next()?.ok()
        })
    }

    /// The string of an ENUM's number, counted from 1. There is none for 0, the number of a value that was not among them.
    pub fn of_enum(&self, number: u64) -> Option<&'a [u8]> {
        let before = number.checked_sub(1)?;
        self.strings().nth(usize::try_from(before).ok()?)
    }

    /// The strings of a SET's bytes, in order: bit i, from the lowest of the first byte on, is for string i.
    pub fn of_set<'b>(&self, bits: &'b [u8]) -> impl Iterator<Item = &'a [u8]> + 'b
    where
        'a: 'b,
    {
        let all = self.strings().enumerate();
        all.filter(|(i, _)| is_set(bits, *i))
            .map(|(_, string)| string)
    }
}
