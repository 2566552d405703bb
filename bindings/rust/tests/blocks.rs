//! Row images that arrive in blocks: however they are cut, the same values and the same end as of the whole image.

use feed::{refusal, Arrival, Blocks, Part, Record, Refusal, Value, LEAST_CARRY};

// the crate has built the library in; these are calls as a program in C makes them
extern "C" {
    fn feed_begin(
        profile: *const u8,
        profile_length: usize,
        presence: *const u8,
        presence_length: usize,
        carry: *const u8,
        carry_length: usize,
        out: *mut u64,
        out_length: usize,
    ) -> u64;

    fn feed_give(
        profile: *const u8,
        profile_length: usize,
        presence: *const u8,
        presence_length: usize,
        carry: *mut u8,
        carry_length: usize,
        block: *const u8,
        block_length: usize,
        phase: u64,
        column: usize,
        held: usize,
        left: usize,
        used: usize,
        out: *mut u64,
        out_length: usize,
    ) -> u64;

    fn feed_end(
        profile: *const u8,
        profile_length: usize,
        presence: *const u8,
        presence_length: usize,
        carry: *const u8,
        carry_length: usize,
        phase: u64,
        column: usize,
        held: usize,
        left: usize,
        used: usize,
        out: *mut u64,
        out_length: usize,
    ) -> u64;
}

type State = [u64; 5];

fn begin(record: &Record, presence: &[u8], carry: &[u8], out: &mut [u64]) -> u64 {
    let r = record.as_bytes();
    unsafe {
        feed_begin(
            r.as_ptr(),
            r.len(),
            presence.as_ptr(),
            presence.len(),
            carry.as_ptr(),
            carry.len(),
            out.as_mut_ptr(),
            out.len(),
        )
    }
}

fn give(
    record: &Record,
    presence: &[u8],
    carry: &mut [u8],
    block: &[u8],
    [phase, column, held, left, used]: State,
    out: &mut [u64],
) -> u64 {
    let r = record.as_bytes();
    unsafe {
        feed_give(
            r.as_ptr(),
            r.len(),
            presence.as_ptr(),
            presence.len(),
            carry.as_mut_ptr(),
            carry.len(),
            block.as_ptr(),
            block.len(),
            phase,
            column as usize,
            held as usize,
            left as usize,
            used as usize,
            out.as_mut_ptr(),
            out.len(),
        )
    }
}

fn end(
    record: &Record,
    presence: &[u8],
    carry: &[u8],
    [phase, column, held, left, used]: State,
    out: &mut [u64],
) -> u64 {
    let r = record.as_bytes();
    unsafe {
        feed_end(
            r.as_ptr(),
            r.len(),
            presence.as_ptr(),
            presence.len(),
            carry.as_ptr(),
            carry.len(),
            phase,
            column as usize,
            held as usize,
            left as usize,
            used as usize,
            out.as_mut_ptr(),
            out.len(),
        )
    }
}

// INT, VARCHAR(20), TINYINT UNSIGNED: -2, 'ab', 200
const IMAGE: &[u8] = &[0xf8, 0xfe, 0xff, 0xff, 0xff, 2, b'a', b'b', 0xc8];

fn three() -> Record {
    record_of(&[[3, 12, 0, 0], [15, 10, 20, 0], [1, 13, 0, 0]])
}

// a record of columns, each real type, flags, m0 and m1
fn record_of(columns: &[[u8; 4]]) -> Record {
    let length = 6 + 6 * columns.len() as u16;
    let mut bytes = length.to_le_bytes().to_vec();
    bytes.extend([1, 0, columns.len() as u8, 0]);
    for column in columns {
        bytes.extend(column);
        bytes.extend([0, 0]);
    }
    Record::from_bytes(bytes).unwrap()
}

// numbers that look random and are the same each time
fn next(seed: &mut u64) -> u64 {
    *seed ^= *seed << 13;
    *seed ^= *seed >> 7;
    *seed ^= *seed << 17;
    *seed
}

/// A value that outlives what it was borrowed from: bytes, or all else in words.
#[derive(Clone, Debug, PartialEq)]
enum Owned {
    Bytes(Vec<u8>),
    Other(String),
}

fn owned(value: Value) -> Owned {
    match value {
        Value::Bytes(bytes) => Owned::Bytes(bytes.to_vec()),
        other => Owned::Other(format!("{other:?}")),
    }
}

type Told = (Vec<(usize, Owned)>, Result<usize, Refusal>);

/// What the blocks tell, long values joined, and how they end.
fn arrived(mut row: Blocks, blocks: &[&[u8]]) -> Told {
    let mut values = Vec::new();
    // column, length and bytes of a long value that is not whole
    let mut long = None;
    for received in blocks {
        let mut block = *received;
        loop {
            let arrival = match row.give(&mut block) {
                Ok(Some(arrival)) => arrival,
                Ok(None) => break,
                Err(why) => {
                    // only the end call tells that bytes are missing
                    assert!(!matches!(why, Refusal::ImageShort { .. }), "{why}");
                    return (values, Err(why));
                }
            };
            match arrival {
                Arrival::Value { column, value } => values.push((column, owned(value))),
                Arrival::Long { column, length } => long = Some((column, length, Vec::new())),
                Arrival::Part { column, bytes } => {
                    let (of, length, mut got) = long.take().expect("a part behind its length");
                    assert!(column == of && !bytes.is_empty());
                    got.extend(bytes);
                    if got.len() == length {
                        values.push((column, Owned::Bytes(got)));
                    } else {
                        long = Some((of, length, got));
                    }
                }
                other => panic!("{other:?}"),
            }
        }
        assert!(block.is_empty() || row.bytes_used().is_some());
    }
    let used = row.bytes_used();
    let end = row.end();
    assert!(used.is_none() || end == Ok(used.unwrap()));
    (values, end)
}

/// What the whole image tells.
fn whole(record: &Record, presence: &[u8], image: &[u8]) -> Told {
    let mut row = record.row(presence, image).unwrap();
    let mut values = Vec::new();
    for item in row.by_ref() {
        match item {
            Ok((column, value)) => values.push((column, owned(value))),
            Err(why) => return (values, Err(why)),
        }
    }
    (values, Ok(row.bytes_used().unwrap()))
}

fn at_once(record: &Record, presence: &[u8], image: &[u8]) -> Told {
    arrived(record.blocks(presence).unwrap(), &[image])
}

#[test]
fn an_image_cut_at_every_place_is_the_whole_image() {
    let record = three();
    let wanted = whole(&record, &[7], IMAGE);
    let values = [
        (0, Owned::Other("Int(-2)".into())),
        (1, Owned::Bytes(b"ab".to_vec())),
        (2, Owned::Other("Uint(200)".into())),
    ];
    assert_eq!(wanted, (values.to_vec(), Ok(9)));
    assert_eq!(at_once(&record, &[7], IMAGE), wanted);
    for first in 0..=IMAGE.len() {
        for second in first..=IMAGE.len() {
            let blocks = [&IMAGE[..first], &IMAGE[first..second], &IMAGE[second..]];
            let row = record.blocks(&[7]).unwrap();
            assert_eq!(arrived(row, &blocks), wanted, "{first} {second}");
        }
    }
    let bytes: Vec<_> = IMAGE.chunks(1).collect();
    assert_eq!(arrived(record.blocks(&[7]).unwrap(), &bytes), wanted);
}

#[test]
fn an_image_that_ends_early_is_refused_by_the_end_alone() {
    let record = three();
    for length in 0..IMAGE.len() {
        let image = &IMAGE[..length];
        let wanted = whole(&record, &[7], image);
        let column = [0, 0, 0, 0, 0, 1, 1, 1, 2][length];
        assert_eq!(wanted.1, Err(Refusal::ImageShort { column }));
        assert_eq!(at_once(&record, &[7], image), wanted, "{length}");
    }
    // NULLs that were not asked for are not missed
    let mut row = record.blocks(&[7]).unwrap();
    assert_eq!(row.clone().end(), Err(Refusal::ImageShort { column: 0 }));
    let mut block = &[0b101, 2, b'a', b'b'][..];
    row.give(&mut block).unwrap();
    row.give(&mut block).unwrap();
    assert_eq!((row.bytes_used(), row.end()), (None, Ok(4)));
}

// a column of each form that values have
fn many_forms() -> Record {
    record_of(&[
        [3, 12, 0, 0],
        [15, 8, 20, 0],
        [1, 13, 0, 0],
        [4, 8, 4, 0],
        [5, 8, 8, 0],
        [17, 8, 6, 0],
        [13, 8, 0, 0],
        [14, 8, 0, 0],
        [18, 8, 6, 0],
        [19, 8, 2, 0],
        [9, 12, 0, 0],
        [8, 13, 0, 0],
        [247, 8, 247, 2],
        [246, 8, 10, 2],
        [252, 8, 2, 0],
        [16, 8, 3, 1],
        [2, 12, 0, 0],
        [254, 8, 254, 8],
        [7, 8, 0, 0],
        [12, 8, 0, 0],
    ])
}

#[test]
fn images_of_any_bytes_arrive_as_the_row_reads_them() {
    let record = many_forms();
    let mut seed = 10;
    let (mut ended, mut cut, mut wrong) = (0, 0, 0);
    for _ in 0..2000 {
        let presence = (next(&mut seed) & next(&mut seed)).to_le_bytes();
        let presence = &presence[..3];
        let length = next(&mut seed) % 60;
        // mostly small bytes: lengths, months and hours that are taken
        let image: Vec<u8> = (0..length)
            .map(|_| (next(&mut seed) & next(&mut seed) & next(&mut seed) & 0xff) as u8)
            .collect();
        let mut blocks = Vec::new();
        let mut rest = &image[..];
        while !rest.is_empty() {
            let (block, behind) = rest.split_at((next(&mut seed) % 9) as usize % (rest.len() + 1));
            blocks.push(block);
            rest = behind;
        }
        let wanted = whole(&record, presence, &image);
        let row = record.blocks_with_carry(presence, LEAST_CARRY).unwrap();
        assert_eq!(arrived(row, &blocks), wanted, "{presence:?} {image:?}");
        match wanted.1 {
            Ok(_) => ended += 1,
            Err(Refusal::ImageShort { .. }) => cut += 1,
            Err(_) => wrong += 1,
        }
    }
    assert!(
        ended > 200 && cut > 200 && wrong > 20,
        "{ended} {cut} {wrong}"
    );
}

// BLOB and TINYINT: so many bytes, and 5
fn long_image(length: u16) -> Vec<u8> {
    let mut image = vec![0xfc];
    image.extend(length.to_le_bytes());
    image.extend((0..length).map(|i| (i % 251) as u8));
    image.push(5);
    image
}

#[test]
fn a_long_value_arrives_in_parts() {
    let record = record_of(&[[252, 8, 2, 0], [1, 12, 0, 0]]);
    let image = long_image(3000);
    let wanted = whole(&record, &[3], &image);
    assert_eq!(wanted.1, Ok(3004));
    let row = || record.blocks_with_carry(&[3], LEAST_CARRY).unwrap();
    for size in [1, 2, 3, 100, 512, 1024, 2999, 3000, 3004] {
        let blocks: Vec<_> = image.chunks(size).collect();
        assert_eq!(arrived(row(), &blocks), wanted, "{size}");
    }
    // cut short in a part
    let short = whole(&record, &[3], &image[..2000]);
    assert_eq!(short, (vec![], Err(Refusal::ImageShort { column: 0 })));
    assert_eq!(arrived(row(), &[&image[..2000]]), short);
    // its length comes first, and each part is what stands at the front of the block
    let mut row = row();
    let mut block = &image[..500];
    let long = Arrival::Long {
        column: 0,
        length: 3000,
    };
    assert_eq!(row.give(&mut block), Ok(Some(long)));
    assert_eq!(block, &image[3..500]);
    let part = Arrival::Part {
        column: 0,
        bytes: &image[3..500],
    };
    assert_eq!(row.give(&mut block), Ok(Some(part)));
    assert_eq!(row.give(&mut block), Ok(None));
    assert!(block.is_empty());
}

#[test]
fn what_fits_the_carry_arrives_whole() {
    let record = record_of(&[[252, 8, 2, 0], [1, 12, 0, 0]]);
    // a byte of null bits and two of length leave 1,021
    for length in [1020, 1021, 1022] {
        let image = long_image(length);
        let mut row = record.blocks_with_carry(&[3], LEAST_CARRY).unwrap();
        let mut block = &image[..];
        let value = match row.give(&mut block).unwrap().unwrap() {
            Arrival::Value { column: 0, value } => Some(owned(value)),
            Arrival::Long { column: 0, length } => {
                assert_eq!(length, 1022);
                None
            }
            other => panic!("{other:?}"),
        };
        let bytes = Owned::Bytes(image[3..image.len() - 1].to_vec());
        assert_eq!(value, (length < 1022).then_some(bytes));
    }
    // the carry that is had without asking holds more
    let image = long_image(3000);
    let mut row = record.blocks(&[3]).unwrap();
    let mut block = &image[..];
    let value = Value::Bytes(&image[3..3003]);
    let wanted = Arrival::Value { column: 0, value };
    assert_eq!(row.give(&mut block), Ok(Some(wanted)));
}

#[test]
fn bytes_behind_an_image_stay_unread() {
    let record = three();
    let two = [IMAGE, &[0xf9, 1, b'c', 7], &[1, 2, 3]].concat();
    let mut row = record.blocks(&[7]).unwrap();
    let mut block = &two[..];
    while row.give(&mut block).unwrap().is_some() {}
    assert_eq!((row.bytes_used(), block), (Some(9), &two[9..]));
    // and again
    assert_eq!(row.give(&mut block), Ok(None));
    assert_eq!(block, &two[9..]);
    // the next image under the same bits
    row.next_image().unwrap();
    assert_eq!(row.bytes_used(), None);
    let mut values = Vec::new();
    while let Some(Arrival::Value { column, value }) = row.give(&mut block).unwrap() {
        values.push((column, owned(value)));
    }
    let wanted = whole(&record, &[7], &two[9..13]);
    assert_eq!((values, row.bytes_used().ok_or(())), (wanted.0, Ok(4)));
    assert_eq!(block, [1, 2, 3]);
    assert_eq!(row.end(), Ok(4));
    // of no column there is nothing to take
    let mut row = record.blocks(&[0]).unwrap();
    let mut block = &[1][..];
    assert_eq!(row.give(&mut block), Ok(None));
    assert_eq!((row.bytes_used(), block), (Some(0), &[1][..]));
}

#[test]
fn a_value_out_of_range_is_refused_with_its_last_byte() {
    // two DATEs, the second of the month 13
    let record = record_of(&[[14, 8, 0, 0], [14, 8, 0, 0]]);
    let image = [0, 0x21, 0, 0, 0xa0, 1, 0];
    let month = Refusal::OutOfRange {
        column: 1,
        part: Part::Month,
    };
    let bytes: Vec<_> = image.chunks(1).collect();
    let wanted = whole(&record, &[3], &image);
    assert_eq!(wanted.1, Err(month));
    assert_eq!(arrived(record.blocks(&[3]).unwrap(), &bytes), wanted);
    let mut row = record.blocks(&[3]).unwrap();
    let mut block = &image[..6];
    assert!(matches!(row.give(&mut block), Ok(Some(_))));
    assert_eq!(row.give(&mut block), Ok(None));
    assert_eq!(row.clone().end(), Err(Refusal::ImageShort { column: 1 }));
    block = &image[6..];
    assert_eq!(row.give(&mut block), Err(month));
    assert_eq!(block, [0]);
    // a refusal closes
    assert_eq!(row.give(&mut block), Err(Refusal::UnfitState));
    assert_eq!(row.clone().end(), Err(Refusal::UnfitState));
    row.next_image().unwrap();
    assert_eq!(row.give(&mut block), Ok(None));
    assert_eq!(row.end(), Err(Refusal::ImageShort { column: 0 }));
}

#[test]
fn what_is_lent_is_tested_first() {
    let record = three();
    let refused = |presence: &[u8], carry| record.blocks_with_carry(presence, carry).err();
    assert_eq!(refused(&[7], 1023), Some(Refusal::SmallCarry));
    assert_eq!(refused(&[7], 1024), None);
    assert_eq!(refused(&[7, 0], 1023), Some(Refusal::BadBits));
    assert_eq!(refused(&[7], usize::MAX), Some(Refusal::NoRoom));
    assert_eq!(Refusal::SmallCarry.number(), refusal::SMALL_CARRY);
    assert_eq!(Refusal::UnfitState.number(), refusal::UNFIT_STATE);
}

#[test]
fn blocks_are_shown_without_their_carry() {
    let shown = "Blocks { presence: [7], carry: 65536, state: [0, 0, 0, 0, 0], used: None, .. }";
    assert_eq!(format!("{:?}", three().blocks(&[7]).unwrap()), shown);
}

const KEPT: u64 = 77;

#[test]
fn the_calls_tell_a_state_and_what_arrived() {
    let record = three();
    let mut carry = vec![9; 1024];
    let mut out = [KEPT; 15];
    assert_eq!(begin(&record, &[7], &carry, &mut out[..5]), 0);
    assert_eq!(out[..6], [0, 0, 0, 0, 0, KEPT]);
    // the first column, and two bytes of the next
    assert_eq!(
        give(&record, &[7], &mut carry, &IMAGE[..7], [0; 5], &mut out),
        0
    );
    let int = [0, 1, 1, 0, 5, 2, 0, 5, (-2i64) as u64, 0, 0, 0, 0, 0, 0];
    assert_eq!(out, int);
    let state = [0, 1, 1, 0, 5];
    assert_eq!(
        give(&record, &[7], &mut carry, &IMAGE[5..7], state, &mut out),
        0
    );
    assert_eq!(out, [0, 1, 3, 0, 7, 12, 0, 2, 0, 0, 0, 0, 0, 0, 0]);
    assert_eq!(carry[..6], [0xf8, 2, b'a', 0xff, 0xff, 9]);
    let state = [0, 1, 3, 0, 7];
    assert_eq!(
        give(&record, &[7], &mut carry, &IMAGE[7..], state, &mut out),
        0
    );
    assert_eq!(out, [0, 2, 1, 0, 8, 11, 1, 1, 2, 2, 0, 0, 0, 0, 0]);
    assert_eq!(carry[2..4], *b"ab");
    // the end closes, and is told like all else
    let state = [0, 3, 1, 0, 9];
    assert_eq!(end(&record, &[7], &carry, state, &mut out), 0);
    assert_eq!(out, [2, 0, 0, 0, 0, 0, 0, 0, 9, 0, 0, 0, 0, 0, 0]);
}

/// Whether a state is refused with 21, by both calls, all being left as it was. The carry has these bytes at its front, and then zeros.
fn unfit(record: &Record, presence: &[u8], front: &[u8], state: State) -> bool {
    let mut lent = front.to_vec();
    lent.resize(LEAST_CARRY, 0);
    let mut carry = lent.clone();
    let mut out = [KEPT; 15];
    let ended = end(record, presence, &carry, state, &mut out) == 21;
    assert!(!ended || is_place_0(&out), "{state:?}");
    out = [KEPT; 15];
    let given = give(record, presence, &mut carry, IMAGE, state, &mut out) == 21;
    assert!(!given || is_place_0(&out) && carry == lent, "{state:?}");
    assert_eq!(given, ended, "{state:?}");
    given
}

fn is_place_0(out: &[u64]) -> bool {
    out[..2] == [0, 0] && out[2..].iter().all(|&number| number == KEPT)
}

#[test]
fn an_unfit_state_is_refused_and_all_is_left_as_it_was() {
    let record = three();
    let states = [
        [2, 0, 0, 0, 0],        // closed
        [3, 0, 0, 0, 0],        // no phase
        [u64::MAX, 0, 0, 0, 0], // no phase
        [0, 4, 1, 0, 1],        // no column
        [0, 1, 0, 0, 0],        // a column in the null bits
        [0, 0, 0, 0, 1],        // used unlike held there
        [0, 0, 0, 1, 0],        // bytes left there
        [0, 0, 5, 0, 5],        // a whole value held
        [0, 3, 2, 0, 2],        // bytes held of no column
        [0, 1, 1, 0, 0],        // less used than held
        [0, 1, 1, 1, 1],        // bytes left of no long value
        [0, 0, 2, 1, 2],        // the same, in a value
        [0, 1, 1, 0, 263],      // more used than an image takes
        [1, 1, 2, 1, 2],        // not a long value
        [1, 0, 1, 1, 1],        // a column that is never long
    ];
    for state in states {
        assert!(unfit(&record, &[7], &[], state), "{state:?}");
    }
    // their neighbours are obeyed, made up as they are
    let states = [
        [0, 0, 0, 0, 0],
        [0, 0, 4, 0, 4],
        [0, 3, 1, 0, 1],
        [0, 1, 1, 0, 262],
    ];
    for state in states {
        assert!(!unfit(&record, &[7], &[], state), "{state:?}");
    }
    // a byte held of the first column, which is there, is NULL, or is absent
    let state = [0, 0, 2, 0, 2];
    assert!(!unfit(&record, &[7], &[0], state));
    assert!(unfit(&record, &[7], &[1], state));
    assert!(unfit(&record, &[6], &[0], state));
}

#[test]
fn an_unfit_state_of_a_long_value_is_refused() {
    let record = record_of(&[[252, 8, 2, 0], [1, 12, 0, 0], [252, 8, 2, 0]]);
    // null bits, and the length 3,000
    let long = [0, 0xb8, 0x0b];
    let states = [
        [1, 0, 3, 0, 3],          // nothing left
        [1, 0, 3, 3001, 3],       // more left than it has
        [1, 0, 2, 3000, 2],       // a part of its length held
        [1, 0, 4, 2999, 4],       // a byte of it held
        [1, 0, 0, 3000, 3],       // no null bits held
        [1, 1, 3, 3000, 3],       // of another column
        [1, 3, 3, 3000, 3],       // of no column
        [1, 0, 3, 3000, 2],       // less used than held
        [1, 0, 3, 3000, 131_077], // more used than an image takes
        [0, 0, 3, 0, 3],          // a long value told, and not begun
        [0, 0, 1025, 0, 1025],    // more held than there is
    ];
    for state in states {
        assert!(unfit(&record, &[7], &long, state), "{state:?}");
    }
    let states = [[1, 0, 3, 3000, 3], [1, 0, 3, 1, 131_076], [0, 0, 2, 0, 2]];
    for state in states {
        assert!(!unfit(&record, &[7], &long, state), "{state:?}");
    }
    // the column is NULL, is absent, or has a value that is not long
    let state = [1, 0, 3, 3, 3];
    assert!(!unfit(&record, &[7], &long, state));
    assert!(unfit(&record, &[7], &[1, 0xb8, 0x0b], state));
    assert!(unfit(&record, &[6], &long, state));
    assert!(unfit(&record, &[7], &[0, 3, 0], state));
}

#[test]
fn a_short_carry_or_a_short_buffer_of_numbers_changes_nothing() {
    let record = three();
    let mut out = [KEPT; 15];
    let mut carry = vec![9; 1024];
    assert_eq!(
        give(&record, &[7], &mut carry, IMAGE, [0; 5], &mut out[..14]),
        8
    );
    assert_eq!(end(&record, &[7], &carry, [0; 5], &mut out[..14]), 8);
    assert_eq!(begin(&record, &[7], &carry, &mut out[..4]), 8);
    assert!(out == [KEPT; 15] && carry.iter().all(|&byte| byte == 9));
    // 20 comes before 21
    carry.pop();
    assert_eq!(begin(&record, &[7], &carry, &mut out), 20);
    assert_eq!(give(&record, &[7], &mut carry, IMAGE, [2; 5], &mut out), 20);
    assert_eq!(end(&record, &[7], &carry, [2; 5], &mut out), 20);
    assert_eq!(out[..3], [0, 0, KEPT]);
    assert!(carry.iter().all(|&byte| byte == 9));
}
