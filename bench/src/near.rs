//! Small inputs in and near what is accepted: columns of all types, any presence bits, a few rows whose values lie in their ranges or just
//! outside, bytes that are changed or cut off, and rarely a record or presence bits that are not valid.

use crate::input::{Lent, Random};
use crate::record::{is_set, present_columns, Storage};

#[derive(Debug)]
pub struct Near {
    record: Vec<u8>,
    presence: Vec<u8>,
    images: Vec<u8>,
}

const TYPES: [u8; 29] = [
    1, 2, 3, 4, 5, 7, 8, 9, 11, 12, 13, 14, 15, 16, 17, 18, 19, 242, 245, 246, 247, 248, 249, 250,
    251, 252, 253, 254, 255,
];

/// One part in so many is drawn from all that its bits can hold.
const RARE: u64 = 24;

/// One input in so many has more than 255 columns.
const RARELY_WIDE: u64 = 256;

impl Near {
    pub fn new(random: &mut Random) -> Near {
        let columns = match random.below(RARELY_WIDE) {
            0 => 250 + random.below(64) as usize,
            _ => 1 + random.below(24) as usize,
        };
        let mut record = record_of(columns, random);
        let mut presence = presence_of(columns, random);
        let images = images_of(&record, &presence, random);
        if random.below(RARE) == 0 {
            let at = random.below(record.len() as u64) as usize;
            record[at] = random.next() as u8;
        }
        if random.below(RARE) == 0 {
            presence.push(0xff);
        }
        Near {
            record,
            presence,
            images,
        }
    }

    pub fn lent(&self) -> Lent<'_> {
        Lent {
            record: &self.record,
            presence: &self.presence,
            images: &self.images,
        }
    }
}

/// Presence bits with a column at least; the spare bits are any.
fn presence_of(columns: usize, random: &mut Random) -> Vec<u8> {
    let any = random.below(2) == 0;
    let mut presence: Vec<u8> = (0..columns.div_ceil(8))
        .map(|_| if any { random.next() as u8 } else { 0xff })
        .collect();
    let at = random.below(columns as u64) as usize;
    presence[at / 8] |= 1 << (at % 8);
    presence
}

/// A valid record: entries are drawn until they are accepted.
fn record_of(columns: usize, random: &mut Random) -> Vec<u8> {
    let kind = if columns <= 255 { 1 } else { 2 };
    let head = [6 + 6 * columns, kind, columns];
    let mut record: Vec<u8> = head
        .iter()
        .flat_map(|&n| (n as u16).to_le_bytes())
        .collect();
    for _ in 0..columns {
        record.extend(entry(random));
    }
    record
}

fn entry(random: &mut Random) -> [u8; 6] {
    loop {
        let kind = TYPES[random.below(TYPES.len() as u64) as usize];
        let small = |random: &mut Random| {
            if random.below(2) == 0 {
                random.below(9) as u8
            } else {
                random.next() as u8
            }
        };
        let entry = [
            kind,
            random.below(16) as u8,
            small(random),
            small(random),
            0,
            0,
        ];
        let alone = [&[12, 0, 1, 0, 1, 0], &entry[..]].concat();
        if present_columns(&alone, &[1]).is_ok() {
            return entry;
        }
    }
}

fn images_of(record: &[u8], presence: &[u8], random: &mut Random) -> Vec<u8> {
    let columns = present_columns(record, presence).expect("the record is valid");
    let mut images = Vec::new();
    for _ in 0..1 + random.below(4) {
        let nulls: Vec<u8> = (0..columns.len().div_ceil(8))
            .map(|_| random.next() as u8 & random.next() as u8)
            .collect();
        images.extend_from_slice(&nulls);
        for (rank, column) in columns.iter().enumerate() {
            if !is_set(&nulls, rank) {
                put(column.storage, &mut images, random);
            }
        }
    }
    if random.below(4) == 0 {
        let at = random.below(images.len() as u64) as usize;
        images[at] = random.next() as u8;
    }
    if random.below(4) == 0 {
        // one byte is left at least: of no bytes some sides ask nothing
        images.truncate(1 + random.below(images.len() as u64) as usize);
    }
    images
}

/// A number below `most`, or rarely one below `all`.
fn mostly(most: u64, all: u64, random: &mut Random) -> u64 {
    if random.below(RARE) == 0 {
        random.next() % all
    } else {
        random.below(most)
    }
}

fn put(storage: Storage, image: &mut Vec<u8>, random: &mut Random) {
    let mut put_le =
        |number: u64, bytes: usize| image.extend_from_slice(&number.to_le_bytes()[..bytes]);
    match storage {
        Storage::I8 | Storage::U8 | Storage::Year => put_le(random.next(), 1),
        Storage::I16 | Storage::U16 => put_le(random.next(), 2),
        Storage::I24 | Storage::U24 => put_le(random.next(), 3),
        Storage::I32 | Storage::U32 | Storage::Float | Storage::OldTimestamp => {
            put_le(random.next(), 4)
        }
        Storage::I64 | Storage::U64 | Storage::Double => put_le(random.next(), 8),
        Storage::Date => put_le(
            mostly(10_000, 1 << 15, random) << 9 | mostly(13, 16, random) << 5 | random.below(32),
            3,
        ),
        Storage::OldTime => put_le(
            mostly(839, 1677, random) * 10_000
                + mostly(60, 100, random) * 100
                + mostly(60, 100, random),
            3,
        ),
        Storage::OldDatetime => {
            let day = (mostly(10_000, 1 << 30, random) * 100 + mostly(13, 100, random)) * 100
                + mostly(32, 100, random);
            let clock = (mostly(24, 100, random) * 100 + mostly(60, 100, random)) * 100
                + mostly(60, 100, random);
            put_le(day.wrapping_mul(1_000_000).wrapping_add(clock), 8);
        }
        Storage::Timestamp(digits) => {
            put_be(image, random.next() >> 32, 4);
            put_be(image, fraction(digits, random), fraction_bytes(digits));
        }
        Storage::Datetime(digits) => {
            let month = mostly(10_000, 10_083, random) * 13 + random.below(13);
            let clock =
                mostly(24, 32, random) << 12 | mostly(60, 64, random) << 6 | mostly(60, 64, random);
            let whole = month << 22 | random.below(32) << 17 | clock;
            let middle = if random.below(RARE) == 0 { 0 } else { 1 << 39 };
            put_be(image, middle + whole, 5);
            put_be(image, fraction(digits, random), fraction_bytes(digits));
        }
        Storage::Time(digits) => {
            let bits = 8 * fraction_bytes(digits);
            let clock = mostly(839, 1025, random) << 12
                | mostly(60, 64, random) << 6
                | mostly(60, 64, random);
            let off = clock << bits | fraction(digits, random);
            let middle: u64 = 1 << (23 + bits);
            let stored = if random.below(2) == 0 {
                middle + off
            } else {
                middle.wrapping_sub(off)
            };
            put_be(image, stored, 3 + bits / 8);
        }
        Storage::Counted(k) => {
            let length = mostly(12, 300, random);
            put_le(length, k.into());
            (0..length).for_each(|_| image.push(random.next() as u8));
        }
        Storage::Fixed(n) => (0..n).for_each(|_| image.push(random.next() as u8)),
    }
}

fn fraction_bytes(digits: u8) -> usize {
    usize::from(digits).div_ceil(2)
}

fn fraction(digits: u8, random: &mut Random) -> u64 {
    let bytes = fraction_bytes(digits);
    mostly([1, 100, 10_000, 1_000_000][bytes], 1 << (8 * bytes), random)
}

fn put_be(image: &mut Vec<u8>, number: u64, bytes: usize) {
    image.extend_from_slice(&number.to_be_bytes()[8 - bytes..]);
}
