//! The measured input, made from a seed: a record, presence bits, and row images laid end to end.

/// What all sides are lent: a record, presence bits, and row images laid end to end.
#[derive(Clone, Copy)]
pub struct Lent<'a> {
    pub record: &'a [u8],
    pub presence: &'a [u8],
    pub images: &'a [u8],
}

/// The measured input. Every column is present.
pub struct Input {
    pub columns: usize,
    pub rows: usize,
    pub record: Vec<u8>,
    pub presence: Vec<u8>,
    pub images: Vec<u8>,
}

/// The columns, which a wider row repeats and a narrower one cuts off. Integers and temporals take turns, so that each cut has both.
const COLUMNS: [Column; 20] = [
    Column::signed(1),
    Column::of(DATETIME2, 0),
    Column::unsigned(2),
    Column::of(TIME2, 0),
    Column::signed(3),
    Column::of(TIMESTAMP2, 0),
    Column::unsigned(4),
    Column::of(DATE, 0),
    Column::signed(8),
    Column::of(YEAR, 0),
    Column::unsigned(1),
    Column::of(DATETIME2, 3),
    Column::signed(2),
    Column::of(TIME2, 2),
    Column::unsigned(3),
    Column::of(TIMESTAMP2, 6),
    Column::signed(4),
    Column::of(DATETIME2, 6),
    Column::unsigned(8),
    Column::of(TIME2, 6),
];

const YEAR: u8 = 13;
const DATE: u8 = 14;
const TIMESTAMP2: u8 = 17;
const DATETIME2: u8 = 18;
const TIME2: u8 = 19;

const NULLABLE: u8 = 2;
const VISIBLE: u8 = 8;
const UNSIGNED: u8 = 1;
const SIGN_KNOWN: u8 = 4;

/// A column as its entry in a record says it. `width` is that of an integer, else 0.
#[derive(Clone, Copy)]
pub struct Column {
    real_type: u8,
    flags: u8,
    digits: u8,
    width: usize,
}

impl Column {
    const fn signed(width: usize) -> Column {
        let real_type = match width {
            1 => 1,
            2 => 2,
            3 => 9,
            4 => 3,
            _ => 8,
        };
        Column {
            real_type,
            flags: NULLABLE | VISIBLE | SIGN_KNOWN,
            digits: 0,
            width,
        }
    }

    const fn unsigned(width: usize) -> Column {
        let column = Column::signed(width);
        Column {
            flags: column.flags | UNSIGNED,
            ..column
        }
    }

    const fn of(real_type: u8, digits: u8) -> Column {
        Column {
            real_type,
            flags: NULLABLE | VISIBLE,
            digits,
            width: 0,
        }
    }

    /// A table of so many columns.
    pub fn table(columns: usize) -> Vec<Column> {
        COLUMNS.iter().copied().cycle().take(columns).collect()
    }

    /// The type byte that a map has for the column: that of a DATE is not its real type.
    pub fn type_byte(&self) -> u8 {
        match self.real_type {
            DATE => 10,
            real_type => real_type,
        }
    }

    /// The metadata that a map has for the column.
    pub fn metadata(&self) -> Option<u8> {
        matches!(self.real_type, TIMESTAMP2 | DATETIME2 | TIME2).then_some(self.digits)
    }

    /// Whether a column is unsigned, if MySQL's maps have a bit of signedness for it.
    pub fn is_unsigned(&self) -> Option<bool> {
        match self.real_type {
            YEAR => Some(true),
            _ if self.flags & SIGN_KNOWN != 0 => Some(self.flags & UNSIGNED != 0),
            _ => None,
        }
    }

    fn entry(&self) -> [u8; 6] {
        [self.real_type, self.flags, self.digits, 0, 0, 0]
    }

    /// Stores a value that the column can hold.
    fn put(&self, image: &mut Vec<u8>, random: &mut Random) {
        match self.real_type {
            YEAR => image.push(random.below(255) as u8 + 1),
            DATE => {
                let day = random.below(10_000) << 9 | random.below(13) << 5 | random.below(32);
                image.extend_from_slice(&day.to_le_bytes()[..3]);
            }
            TIMESTAMP2 => {
                put_be(image, random.next() >> 32, 4);
                put_be(
                    image,
                    random.fraction(self.digits),
                    fraction_bytes(self.digits),
                );
            }
            DATETIME2 => {
                let month = random.below(10_000) * 13 + random.below(13);
                let day = month << 5 | random.below(32);
                let clock = random.below(24) << 12 | random.below(60) << 6 | random.below(60);
                put_be(image, (1 << 39) + (day << 17 | clock), 5);
                put_be(
                    image,
                    random.fraction(self.digits),
                    fraction_bytes(self.digits),
                );
            }
            TIME2 => {
                let bytes = fraction_bytes(self.digits);
                let clock = random.below(839) << 12 | random.below(60) << 6 | random.below(60);
                let time = clock << (8 * bytes) | random.fraction(self.digits);
                let middle = 1 << (23 + 8 * bytes);
                let stored = if random.below(2) == 0 {
                    middle + time
                } else {
                    middle - time
                };
                put_be(image, stored, 3 + bytes);
            }
            _ => image.extend_from_slice(&random.next().to_le_bytes()[..self.width]),
        }
    }
}

/// Bytes of a fraction of so many digits.
fn fraction_bytes(digits: u8) -> usize {
    usize::from(digits).div_ceil(2)
}

/// Stores the lowest bytes of a number, the highest of them first.
fn put_be(image: &mut Vec<u8>, number: u64, bytes: usize) {
    image.extend_from_slice(&number.to_be_bytes()[8 - bytes..]);
}

impl Input {
    /// So many rows of so many columns. A sixteenth of the values is NULL.
    pub fn new(seed: u64, columns: usize, rows: usize) -> Input {
        let mut random = Random(seed);
        let table = Column::table(columns);
        let mut images = Vec::new();
        for _ in 0..rows {
            put_row(&mut images, &table, &mut random);
        }
        Input {
            columns,
            rows,
            record: record_of(&table),
            presence: vec![0xff; columns.div_ceil(8)],
            images,
        }
    }

    pub fn lent(&self) -> Lent<'_> {
        Lent {
            record: &self.record,
            presence: &self.presence,
            images: &self.images,
        }
    }

    /// How many values there are, NULL too.
    pub fn values(&self) -> usize {
        self.columns * self.rows
    }
}

fn put_row(images: &mut Vec<u8>, table: &[Column], random: &mut Random) {
    let start = images.len();
    images.resize(start + table.len().div_ceil(8), 0);
    for (i, column) in table.iter().enumerate() {
        if random.below(16) == 0 {
            images[start + i / 8] |= 1 << (i % 8);
        } else {
            column.put(images, random);
        }
    }
}

/// A record: its length, kind 1 or 2 by the number of columns, that number, and the entries.
fn record_of(table: &[Column]) -> Vec<u8> {
    let kind = if table.len() <= 255 { 1 } else { 2 };
    let head = [6 + 6 * table.len(), kind, table.len()];
    let mut record: Vec<u8> = head
        .iter()
        .flat_map(|&n| (n as u16).to_le_bytes())
        .collect();
    record.extend(table.iter().flat_map(Column::entry));
    record
}

/// The numbers that follow from a seed (splitmix64).
pub struct Random(pub u64);

impl Random {
    pub fn next(&mut self) -> u64 {
        self.0 = self.0.wrapping_add(0x9e37_79b9_7f4a_7c15);
        let mut z = self.0;
        z = (z ^ z >> 30).wrapping_mul(0xbf58_476d_1ce4_e5b9);
        z = (z ^ z >> 27).wrapping_mul(0x94d0_49bb_1331_11eb);
        z ^ z >> 31
    }

    /// A number below this one, which is small.
    pub fn below(&mut self, most: u64) -> u64 {
        ((self.next() >> 32) * most) >> 32
    }

    /// A fraction of a second, in units of its stored bytes.
    fn fraction(&mut self, digits: u8) -> u64 {
        self.below([1, 100, 10_000, 1_000_000][fraction_bytes(digits)])
    }
}
