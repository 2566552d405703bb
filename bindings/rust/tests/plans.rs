//! Rows read and written by plans: what the crate gives, and what the calls that it stands on leave, against the steps and puts that test
//! the record each time.

use feed::{code, refusal, Part, Record, Refusal, Value};

// the crate has built the library in; these are calls as a program in C makes them
extern "C" {
    fn feed_first(
        profile: *const u8,
        profile_length: usize,
        presence: *const u8,
        presence_length: usize,
        out: *mut u64,
        out_length: usize,
    ) -> u64;

    fn feed_step(
        profile: *const u8,
        profile_length: usize,
        presence: *const u8,
        presence_length: usize,
        image: *const u8,
        image_length: usize,
        column: usize,
        offset: usize,
        out: *mut u64,
        out_length: usize,
    ) -> u64;

    fn feed_plan(
        profile: *const u8,
        profile_length: usize,
        presence: *const u8,
        presence_length: usize,
        plan: *mut u8,
        plan_length: usize,
        out: *mut u64,
        out_length: usize,
    ) -> u64;

    fn feed_run(
        plan: *const u8,
        plan_length: usize,
        images: *const u8,
        images_length: usize,
        start: usize,
        item: usize,
        offset: usize,
        values: *mut u64,
        values_length: usize,
        out: *mut u64,
        out_length: usize,
    ) -> u64;

    fn feed_put_item(
        plan: *const u8,
        plan_length: usize,
        nulls: *const u8,
        nulls_length: usize,
        item: usize,
        offset: usize,
        kind: u64,
        parts: *const u64,
        parts_length: usize,
        lent: *const u8,
        lent_length: usize,
        image: *mut u8,
        image_length: usize,
        out: *mut u64,
        out_length: usize,
    ) -> u64;

    fn feed_start(
        profile: *const u8,
        profile_length: usize,
        presence: *const u8,
        presence_length: usize,
        nulls: *const u8,
        nulls_length: usize,
        image: *mut u8,
        image_length: usize,
        out: *mut u64,
        out_length: usize,
    ) -> u64;

    fn feed_put(
        profile: *const u8,
        profile_length: usize,
        presence: *const u8,
        presence_length: usize,
        nulls: *const u8,
        nulls_length: usize,
        column: usize,
        offset: usize,
        kind: u64,
        parts: *const u64,
        parts_length: usize,
        lent: *const u8,
        lent_length: usize,
        image: *mut u8,
        image_length: usize,
        out: *mut u64,
        out_length: usize,
    ) -> u64;
}

type Numbers = [u64; 11];

fn answered(status: u64, out: Numbers) -> Result<Numbers, Refusal> {
    match status {
        0 => Ok(out),
        number => Err(Refusal::of(number, out[0], out[1])),
    }
}

fn first(record: &Record, presence: &[u8]) -> Result<Numbers, Refusal> {
    let r = record.as_bytes();
    let mut out = [0; 11];
    let status = unsafe {
        feed_first(
            r.as_ptr(),
            r.len(),
            presence.as_ptr(),
            presence.len(),
            out.as_mut_ptr(),
            out.len(),
        )
    };
    answered(status, out)
}

fn step(
    record: &Record,
    presence: &[u8],
    image: &[u8],
    column: u64,
    offset: u64,
) -> Result<Numbers, Refusal> {
    let r = record.as_bytes();
    let mut out = [0; 11];
    let status = unsafe {
        feed_step(
            r.as_ptr(),
            r.len(),
            presence.as_ptr(),
            presence.len(),
            image.as_ptr(),
            image.len(),
            column as usize,
            offset as usize,
            out.as_mut_ptr(),
            out.len(),
        )
    };
    answered(status, out)
}

fn plan(record: &Record, presence: &[u8], room: usize) -> Result<Vec<u8>, Refusal> {
    let r = record.as_bytes();
    let mut out = [0; 11];
    let mut plan = vec![0; room];
    let status = unsafe {
        feed_plan(
            r.as_ptr(),
            r.len(),
            presence.as_ptr(),
            presence.len(),
            plan.as_mut_ptr(),
            plan.len(),
            out.as_mut_ptr(),
            out.len(),
        )
    };
    let out = answered(status, out)?;
    assert_eq!(out[0], 3 * out[1]);
    plan.truncate(out[0] as usize);
    Ok(plan)
}

type Cursor = (usize, usize, usize);

// the values that a run stores with room for so many, and the next cursor
fn run(
    plan: &[u8],
    images: &[u8],
    (start, item, offset): Cursor,
    room: usize,
) -> Result<(Vec<[u64; 8]>, Cursor), Refusal> {
    let mut out = [0; 11];
    let mut values = vec![UNTOUCHED; 8 * room];
    let status = unsafe {
        feed_run(
            plan.as_ptr(),
            plan.len(),
            images.as_ptr(),
            images.len(),
            start,
            item,
            offset,
            values.as_mut_ptr(),
            values.len(),
            out.as_mut_ptr(),
            out.len(),
        )
    };
    let stored = match status {
        0 => 8 * out[0] as usize,
        _ => 0,
    };
    assert!(values[stored..].iter().all(|&n| n == UNTOUCHED));
    let out = answered(status, out)?;
    let values = values[..stored].chunks(8);
    let values = values.map(|eight| eight.try_into().unwrap()).collect();
    Ok((values, (out[1] as usize, out[2] as usize, out[3] as usize)))
}

const UNTOUCHED: u64 = 0x5555_5555_5555_5555;

// a row: its values with their columns, and then the bytes that it took or why there is no further one
type Read<T> = (Vec<(usize, T)>, Result<usize, Refusal>);

fn by_steps(record: &Record, presence: &[u8], image: &[u8]) -> Read<[u64; 8]> {
    let mut values = Vec::new();
    let mut at = first(record, presence).map(|out| (out[0], out[1]));
    loop {
        let out =
            match at.and_then(|(column, offset)| step(record, presence, image, column, offset)) {
                Ok(out) => out,
                Err(why) => return (values, Err(why)),
            };
        if out[0] == 0 {
            return (values, Ok(out[3] as usize));
        }
        let mut numbers = [out[0]; 8];
        numbers[1..].copy_from_slice(&out[4..]);
        values.push((out[1] as usize, numbers));
        at = Ok((out[2], out[3]));
    }
}

fn by_crate<'a>(record: &'a Record, presence: &'a [u8], image: &'a [u8]) -> Read<Value<'a>> {
    let mut row = match record.row(presence, image) {
        Ok(row) => row,
        Err(why) => return (Vec::new(), Err(why)),
    };
    let mut values = Vec::new();
    for item in row.by_ref() {
        match item {
            Ok(value) => values.push(value),
            Err(why) => {
                assert_eq!(row.next(), None);
                assert_eq!(row.bytes_used(), None);
                return (values, Err(why));
            }
        }
    }
    assert_eq!(row.next(), None);
    (values, Ok(row.bytes_used().unwrap()))
}

// the value of a kind and parts, as feed.h lists them
fn value_of([kind, a, b, c, d, e, f, g]: [u64; 8], bytes: &[u8]) -> Value<'_> {
    match kind {
        1 => Value::Null,
        2 => Value::Int(a as i64),
        3 => Value::Uint(a),
        4 => Value::Float(f32::from_bits(a as u32)),
        5 => Value::Double(f64::from_bits(a)),
        6 => Value::Seconds {
            seconds: a as u32,
            micros: b as u32,
        },
        7 => Value::Year(a as u16),
        8 => Value::Date {
            year: a as u16,
            month: b as u8,
            day: c as u8,
        },
        9 => Value::Datetime {
            year: a as u16,
            month: b as u8,
            day: c as u8,
            hour: d as u8,
            minute: e as u8,
            second: f as u8,
            micros: g as u32,
        },
        10 => Value::Time {
            negative: a == 1,
            hours: b as u16,
            minutes: c as u8,
            seconds: d as u8,
            micros: e as u32,
        },
        11 => Value::Bytes(&bytes[a as usize..][..b as usize]),
        _ => panic!("no kind {kind}"),
    }
}

// as text, since a FLOAT or DOUBLE that is not a number equals nothing
fn shown(read: &Read<Value>) -> String {
    format!("{read:?}")
}

fn same_as_steps(record: &Record, presence: &[u8], image: &[u8]) -> Read<[u64; 8]> {
    let steps = by_steps(record, presence, image);
    let values = steps.0.iter();
    let values = values.map(|&(column, numbers)| (column, value_of(numbers, image)));
    let wanted = (values.collect(), steps.1);
    let got = by_crate(record, presence, image);
    assert_eq!(
        shown(&got),
        shown(&wanted),
        "{presence:?} {image:?} {record:?}"
    );
    steps
}

// a record of these columns: real type, flags, m0, m1
fn record_of(columns: &[[u8; 4]]) -> Record {
    let count = columns.len() as u16;
    let head = [6 + 6 * count, if count < 256 { 1 } else { 2 }, count];
    let mut bytes: Vec<u8> = head.iter().flat_map(|n| n.to_le_bytes()).collect();
    for [real_type, flags, m0, m1] in columns {
        bytes.extend([*real_type, *flags, *m0, *m1, 0, 0]);
    }
    Record::from_bytes(bytes).unwrap()
}

// a column of nearly every form that values are stored in
fn many_forms() -> Record {
    record_of(&[
        [3, 12, 0, 0],
        [15, 8, 20, 0],
        [1, 13, 0, 0],
        [4, 8, 4, 0],
        [5, 8, 8, 0],
        [17, 8, 6, 0],
        [13, 8, 0, 0],
        [14, 8, 0, 0],
        [18, 8, 6, 0],
        [19, 8, 2, 0],
        [9, 12, 0, 0],
        [8, 13, 0, 0],
        [247, 8, 247, 2],
        [246, 8, 10, 2],
        [252, 8, 2, 0],
        [16, 8, 3, 1],
        [2, 12, 0, 0],
        [254, 8, 254, 8],
        [7, 8, 0, 0],
        [12, 8, 0, 0],
    ])
}

// numbers that look random and are the same each time
fn next(seed: &mut u64) -> u64 {
    *seed ^= *seed << 13;
    *seed ^= *seed >> 7;
    *seed ^= *seed << 17;
    *seed
}

#[test]
fn rows_of_any_bytes_are_read_as_the_steps_read_them() {
    let record = many_forms();
    let mut seed = 20;
    let (mut whole, mut cut) = (0, 0);
    for _ in 0..3000 {
        let presence = (next(&mut seed) & next(&mut seed)).to_le_bytes();
        let length = next(&mut seed) % 60;
        // mostly small bytes: lengths, months and hours that are taken
        let image: Vec<u8> = (0..length)
            .map(|_| (next(&mut seed) & next(&mut seed) & next(&mut seed) & 0xff) as u8)
            .collect();
        match same_as_steps(&record, &presence[..3], &image).1 {
            Ok(_) => whole += 1,
            Err(_) => cut += 1,
        }
    }
    assert!(whole > 300 && cut > 300, "{whole} {cut}");
}

#[test]
fn a_refusal_inside_a_row_comes_behind_the_values_before_it() {
    // 40 DATEs, of which the one in column 25 has the month 13; column 3 is absent, and column 4 is NULL
    let record = record_of(&[[14, 8, 0, 0]; 40]);
    let presence = [0xf7, 0xff, 0xff, 0xff, 0xff];
    let mut image = vec![0b1000, 0, 0, 0, 0];
    for column in (0..3).chain(5..40) {
        image.extend(if column == 25 {
            [0xa0, 1, 0]
        } else {
            [0x21, 0, 0]
        });
    }
    let (values, why) = same_as_steps(&record, &presence, &image);
    let columns: Vec<_> = values.iter().map(|value| value.0).collect();
    assert_eq!(columns, [&[0, 1, 2][..], &Vec::from_iter(4..25)].concat());
    assert_eq!(values[3].1, [1, 0, 0, 0, 0, 0, 0, 0]);
    let month = Refusal::OutOfRange {
        column: 25,
        part: Part::Month,
    };
    assert_eq!(why, Err(month));
    // a run stores what stands before it, and is refused where it stands
    let plan = plan(&record, &presence, 3 * 40).unwrap();
    let (stored, at) = run(&plan, &image, (0, 0, 5), 39).unwrap();
    assert_eq!(
        stored,
        values.iter().map(|value| value.1).collect::<Vec<_>>()
    );
    assert_eq!(at, (0, 24, 5 + 3 * 23));
    assert_eq!(run(&plan, &image, at, 39), Err(month));
}

#[test]
fn a_run_goes_on_through_the_images() {
    // INT and VARCHAR(20): -2 and 'ab', 7 and NULL, NULL and 'xyz'
    let record = record_of(&[[3, 12, 0, 0], [15, 8, 20, 0]]);
    let images = [
        &[0, 0xfe, 0xff, 0xff, 0xff, 2, b'a', b'b'][..],
        &[2, 7, 0, 0, 0],
        &[1, 3, b'x', b'y', b'z'],
    ];
    let all = images.concat();
    let plan = plan(&record, &[3], 6).unwrap();
    let int = |n: i64| [2, n as u64, 0, 0, 0, 0, 0, 0];
    let null = [1, 0, 0, 0, 0, 0, 0, 0];
    // bytes start in the images
    let bytes = |start, length| [11, start, length, 0, 0, 0, 0, 0];
    let values = [int(-2), bytes(6, 2), int(7), null, null, bytes(15, 3)];
    assert_eq!(
        run(&plan, &all, (0, 0, 1), 9),
        Ok((values.to_vec(), (18, 0, 1)))
    );
    // with room for less, in any parts
    for room in 1..=6 {
        let mut at = (0, 0, 1);
        let mut got = Vec::new();
        loop {
            let (some, next) = run(&plan, &all, at, room).unwrap();
            if some.is_empty() {
                break;
            }
            assert!(some.len() == room || next == (18, 0, 1));
            got.extend(some);
            at = next;
        }
        assert_eq!(got, values, "{room}");
    }
    // from the second image on; and by the crate, whose rows are those of an event
    assert_eq!(
        run(&plan, &all, (8, 0, 1), 2),
        Ok((values[2..4].to_vec(), (8, 2, 5)))
    );
    let event = [&[42, 0, 0, 0, 0, 0, 1, 0, 2, 0, 2, 3][..], &all].concat();
    let event = record.rows_event(code::WRITE_ROWS, 42, &event).unwrap();
    let mut rows = event.rows().map(|row| row.unwrap().after.unwrap());
    for (image, two) in images.into_iter().zip(values.chunks(2)) {
        let row = rows.next().unwrap();
        assert_eq!(row.bytes, image);
        let got: Vec<_> = row.values().unwrap().map(Result::unwrap).collect();
        let wanted = [0, 1].map(|k| (k, value_of(two[k], &all)));
        assert_eq!(got, wanted);
    }
    assert!(rows.next().is_none());
}

#[test]
fn a_made_up_plan_is_read_as_it_stands() {
    let refused = |number, place| Err(Refusal::of(number, place, 0));
    let byte = |n| [3, n, 0, 0, 0, 0, 0, 0];
    // two unsigned bytes said to be the columns 700 and 9; the byte behind the last whole item is none
    let plan = [2, 0xbc, 2, 2, 9, 0, 77];
    let images = [0, 5, 6, 0, 7];
    assert_eq!(
        run(&plan, &images, (0, 0, 1), 3),
        Ok((vec![byte(5), byte(6), byte(7)], (3, 1, 2)))
    );
    assert_eq!(
        run(&plan, &images, (3, 1, 2), 3),
        refused(refusal::IMAGE_SHORT, 9)
    );
    // no accepted column has the op 0
    assert_eq!(
        run(&[0, 3, 0], &images, (0, 0, 1), 3),
        refused(refusal::BAD_RECORD, 3)
    );
    // cursors that no run told: the place is the item
    assert_eq!(
        run(&plan, &images, (0, 3, 1), 3),
        refused(refusal::NO_COLUMN, 3)
    );
    assert_eq!(
        run(&plan, &images, (0, 1, 6), 3),
        refused(refusal::IMAGE_SHORT, 1)
    );
    assert_eq!(
        run(&plan, &images, (6, 0, 0), 3),
        refused(refusal::IMAGE_SHORT, 0)
    );
    let far = usize::MAX;
    assert_eq!(
        run(&plan, &images, (far, 2, far), 3),
        refused(refusal::IMAGE_SHORT, 0)
    );
    // the plan of a SMALLINT, for the image of two TINYINTs
    let record = record_of(&[[2, 13, 0, 0]]);
    let other = self::plan(&record, &[1], 3).unwrap();
    assert_eq!(
        run(&other, &images[..3], (0, 0, 1), 3),
        Ok((vec![byte(0x0605)], (3, 0, 1)))
    );
}

#[test]
fn room_that_is_missing_is_told() {
    let record = many_forms();
    let no_room = Refusal::NoRoom;
    let all = [0xff; 3];
    assert_eq!(plan(&record, &all, 3 * 20 - 1), Err(no_room));
    assert_eq!(plan(&record, &all, 3 * 20).unwrap().len(), 3 * 20);
    assert_eq!(plan(&record, &[1, 0, 0], 3).unwrap().len(), 3);
    let bad = plan(&record, &[0xff; 2], 60).unwrap_err();
    assert_eq!(bad, Refusal::BadBits);
    // room for no value, and no room for the answer: nothing is changed
    let plan = [2, 0, 0];
    assert_eq!(run(&plan, &[0, 1], (0, 0, 1), 0), Err(no_room));
    let (mut values, mut out) = ([UNTOUCHED; 8], [UNTOUCHED; 3]);
    let status = unsafe {
        feed_run(
            plan.as_ptr(),
            plan.len(),
            [0, 1].as_ptr(),
            2,
            0,
            0,
            1,
            values.as_mut_ptr(),
            values.len(),
            out.as_mut_ptr(),
            out.len(),
        )
    };
    assert_eq!(status, refusal::NO_ROOM);
    assert_eq!((values, out), ([UNTOUCHED; 8], [UNTOUCHED; 3]));
}

#[test]
fn presence_bits_may_change_with_every_row() {
    let record = record_of(&[[1, 13, 0, 0]; 20]);
    let image = [&[0; 3][..], &Vec::from_iter(3..23)].concat();
    // more sets than plans are kept, each met again; bits behind the last column are ignored
    for k in (0..40).chain(0..40) {
        let presence = (0x00f0_a55au32.rotate_left(k)).to_le_bytes();
        let (values, used) = same_as_steps(&record, &presence[..3], &image);
        assert_eq!(used, Ok(values.len().div_ceil(8) + values.len()));
    }
    let copy = record.clone();
    assert_eq!(copy, record);
    let none = record.row(&[0; 3], &image).unwrap();
    assert_eq!(none.count(), 0);
    assert_eq!(same_as_steps(&record, &[0; 3], &[]), (vec![], Ok(0)));
    let wrong = record.row(&[0; 2], &image).unwrap_err();
    assert_eq!(wrong, Refusal::BadBits);
}

#[test]
fn a_hundred_sets_are_met_twice() {
    let record = record_of(&[[1, 13, 0, 0]; 20]);
    let image = [&[0; 3][..], &Vec::from_iter(3..23)].concat();
    for k in (1..100).chain(1..100) {
        let presence = (0x0009_a55bu32 * k).to_le_bytes();
        let (values, used) = same_as_steps(&record, &presence[..3], &image);
        assert_eq!(used, Ok(values.len().div_ceil(8) + values.len()));
    }
}

#[test]
fn threads_share_a_record() {
    let record = record_of(&[[1, 13, 0, 0]; 20]);
    let image = [&[0; 3][..], &Vec::from_iter(3..23)].concat();
    let read = |record: &Record, k: usize| {
        let presence = (0x0009_a55b * k as u32).to_le_bytes();
        let row = record.row(&presence[..3], &image).unwrap();
        format!("{:?}", row.collect::<Vec<_>>())
    };
    let alone: Vec<_> = (0..99).map(|k| read(&record, k)).collect();
    // a copy has no plans: each is made by whichever thread comes first
    let copy = record.clone();
    std::thread::scope(|threads| {
        for first in [0, 25, 50, 75] {
            let (read, alone, copy) = (&read, &alone, &copy);
            threads.spawn(move || {
                for k in (first..99).chain(0..first) {
                    assert_eq!(read(copy, k), alone[k]);
                }
            });
        }
    });
}

// all values of images laid end to end, read a row at a time, and why there is no further one
fn by_rows<'a>(
    record: &'a Record,
    presence: &'a [u8],
    images: &'a [u8],
) -> (Vec<(usize, Value<'a>)>, Option<Refusal>) {
    let (mut values, mut rest) = (Vec::new(), images);
    while !rest.is_empty() {
        let (row, ended) = by_crate(record, presence, rest);
        values.extend(row);
        match ended {
            // where no column is present an image takes no bytes
            Ok(0) => return (values, Some(Refusal::of(9, 0, 0))),
            Ok(used) => rest = &rest[used..],
            Err(why) => return (values, Some(why)),
        }
    }
    (values, None)
}

fn same_as_rows(record: &Record, presence: &[u8], images: &[u8]) -> (usize, Option<Refusal>) {
    let mut all = match record.images(presence, images) {
        Ok(all) => all,
        Err(why) => {
            assert_eq!(by_rows(record, presence, images).1, Some(why));
            return (0, Some(why));
        }
    };
    let (mut values, mut stop) = (Vec::new(), None);
    for item in all.by_ref() {
        match item {
            Ok(value) => values.push(value),
            Err(why) => stop = Some(why),
        }
    }
    assert_eq!(all.next(), None);
    let wanted = by_rows(record, presence, images);
    let got = (values, stop);
    assert_eq!(
        format!("{got:?}"),
        format!("{wanted:?}"),
        "{presence:?} {images:?}"
    );
    (got.0.len(), stop)
}

#[test]
fn images_laid_end_to_end_are_read_as_their_rows_are() {
    let record = many_forms();
    let mut seed = 21;
    let (mut whole, mut cut) = (0, 0);
    for _ in 0..2000 {
        let presence = (next(&mut seed) & next(&mut seed)).to_le_bytes();
        let length = next(&mut seed) % 200;
        let images: Vec<u8> = (0..length)
            .map(|_| (next(&mut seed) & next(&mut seed) & next(&mut seed) & 0xff) as u8)
            .collect();
        match same_as_rows(&record, &presence[..3], &images).1 {
            None => whole += 1,
            Some(_) => cut += 1,
        }
    }
    assert!(whole > 10 && cut > 300, "{whole} {cut}");
}

#[test]
fn images_are_more_than_a_buffer_holds() {
    let record = record_of(&[[3, 12, 0, 0], [18, 8, 6, 0], [13, 8, 0, 0]]);
    let values = [
        Value::Int(-7),
        Value::Datetime {
            year: 2024,
            month: 2,
            day: 29,
            hour: 23,
            minute: 59,
            second: 58,
            micros: 999_999,
        },
        Value::Null,
    ];
    let image = record.write_row(&[7], &values).unwrap();
    let mut images = image.repeat(1000);
    assert_eq!(same_as_rows(&record, &[7], &images), (3000, None));
    assert_eq!(record.images(&[7], &images).unwrap().row_len(), 3);
    // the last row ends early, or a part of it is out of range
    let last = images.len();
    images.truncate(last - 1);
    let short = Refusal::of(9, 1, 0);
    assert_eq!(same_as_rows(&record, &[7], &images), (2998, Some(short)));
    images.push(0x40);
    images[last - 3..].fill(0xff);
    let fraction = Refusal::of(10, 1, 7);
    assert_eq!(same_as_rows(&record, &[7], &images), (2998, Some(fraction)));
}

#[test]
fn no_present_column_leaves_the_images_over() {
    let record = record_of(&[[3, 12, 0, 0]]);
    assert_eq!(same_as_rows(&record, &[0], &[]), (0, None));
    assert_eq!(
        same_as_rows(&record, &[0], &[1]),
        (0, Some(Refusal::of(9, 0, 0)))
    );
    assert_eq!(
        same_as_rows(&record, &[2, 0], &[1]),
        (0, Some(Refusal::of(12, 0, 0)))
    );
}

// a value as a put is lent it
#[derive(Clone, Copy, Debug)]
struct Given<'a> {
    kind: u64,
    parts: &'a [u64],
    lent: &'a [u8],
}

impl<'a> Given<'a> {
    fn new(kind: u64, parts: &'a [u64], lent: &'a [u8]) -> Given<'a> {
        Given { kind, parts, lent }
    }

    fn of(numbers: &'a [u64; 8], lent: &'a [u8]) -> Given<'a> {
        Given::new(numbers[0], &numbers[1..], lent)
    }
}

// a column or item, and the offset of its value
type Place = (usize, usize);

// what a writer told; it has changed nothing but the bytes from where it was to where it said, and nothing if it refused
fn wrote(
    status: u64,
    out: Numbers,
    from: usize,
    before: &[u8],
    image: &[u8],
) -> Result<Place, Refusal> {
    assert!(out[2..].iter().all(|&n| n == UNTOUCHED));
    let told = answered(status, out).map(|out| (out[0] as usize, out[1] as usize));
    let (from, to) = told.map_or((0, 0), |(_, to)| (from, to));
    let kept = |bytes: &[u8]| {
        let (from, to) = (from.min(bytes.len()), to.min(bytes.len()));
        [&bytes[..from], &bytes[to..]].concat()
    };
    assert!(kept(image) == kept(before), "{told:?}");
    told
}

fn start(
    record: &Record,
    presence: &[u8],
    nulls: &[u8],
    image: &mut [u8],
) -> Result<Place, Refusal> {
    let r = record.as_bytes();
    let before = image.to_vec();
    let mut out = [UNTOUCHED; 11];
    let status = unsafe {
        feed_start(
            r.as_ptr(),
            r.len(),
            presence.as_ptr(),
            presence.len(),
            nulls.as_ptr(),
            nulls.len(),
            image.as_mut_ptr(),
            image.len(),
            out.as_mut_ptr(),
            out.len(),
        )
    };
    wrote(status, out, 0, &before, image)
}

fn put(
    record: &Record,
    presence: &[u8],
    nulls: &[u8],
    (column, offset): Place,
    given: Given,
    image: &mut [u8],
) -> Result<Place, Refusal> {
    let r = record.as_bytes();
    let before = image.to_vec();
    let mut out = [UNTOUCHED; 11];
    let status = unsafe {
        feed_put(
            r.as_ptr(),
            r.len(),
            presence.as_ptr(),
            presence.len(),
            nulls.as_ptr(),
            nulls.len(),
            column,
            offset,
            given.kind,
            given.parts.as_ptr(),
            given.parts.len(),
            given.lent.as_ptr(),
            given.lent.len(),
            image.as_mut_ptr(),
            image.len(),
            out.as_mut_ptr(),
            out.len(),
        )
    };
    wrote(status, out, offset, &before, image)
}

fn put_item(
    plan: &[u8],
    nulls: &[u8],
    (item, offset): Place,
    given: Given,
    image: &mut [u8],
) -> Result<Place, Refusal> {
    let before = image.to_vec();
    let mut out = [UNTOUCHED; 11];
    let status = unsafe {
        feed_put_item(
            plan.as_ptr(),
            plan.len(),
            nulls.as_ptr(),
            nulls.len(),
            item,
            offset,
            given.kind,
            given.parts.as_ptr(),
            given.parts.len(),
            given.lent.as_ptr(),
            given.lent.len(),
            image.as_mut_ptr(),
            image.len(),
            out.as_mut_ptr(),
            out.len(),
        )
    };
    wrote(status, out, offset, &before, image)
}

// the kind and parts of a value; bytes start at 0
fn numbers_of(value: Value) -> [u64; 8] {
    let wide = u64::from;
    let (kind, parts) = match value {
        Value::Null => (1, vec![]),
        Value::Int(n) => (2, vec![n as u64]),
        Value::Uint(n) => (3, vec![n]),
        Value::Float(x) => (4, vec![x.to_bits().into()]),
        Value::Double(x) => (5, vec![x.to_bits()]),
        Value::Seconds { seconds, micros } => (6, vec![seconds.into(), micros.into()]),
        Value::Year(year) => (7, vec![year.into()]),
        Value::Date { year, month, day } => (8, vec![year.into(), wide(month), wide(day)]),
        Value::Datetime {
            year,
            month,
            day,
            hour,
            minute,
            second,
            micros,
        } => {
            let small = [month, day, hour, minute, second].map(wide);
            (9, [&[year.into()], &small[..], &[micros.into()]].concat())
        }
        Value::Time {
            negative,
            hours,
            minutes,
            seconds,
            micros,
        } => {
            let small = [minutes, seconds].map(wide);
            let long = [negative.into(), hours.into()];
            (10, [&long, &small[..], &[micros.into()]].concat())
        }
        Value::Bytes(bytes) => (11, vec![0, bytes.len() as u64]),
        other => panic!("{other:?}"),
    };
    let mut numbers = [0; 8];
    numbers[0] = kind;
    numbers[1..=parts.len()].copy_from_slice(&parts);
    numbers
}

fn present(record: &Record, presence: &[u8]) -> Vec<usize> {
    let is_present = |&column: &usize| presence[column / 8] >> (column % 8) & 1 == 1;
    (0..record.columns()).filter(is_present).collect()
}

// the image of a row by the puts of the record
fn by_puts(record: &Record, presence: &[u8], values: &[Value]) -> Result<Vec<u8>, Refusal> {
    first(record, presence)?;
    if values.len() != present(record, presence).len() {
        return Err(Refusal::BadBits);
    }
    let mut nulls = vec![0; values.len().div_ceil(8)];
    let mut room = nulls.len();
    for (i, value) in values.iter().enumerate() {
        nulls[i / 8] |= u8::from(*value == Value::Null) << (i % 8);
        room += match value {
            Value::Bytes(bytes) => bytes.len() + 4,
            _ => 8,
        };
    }
    let mut image = vec![0; room];
    let mut at = start(record, presence, &nulls, &mut image)?;
    for value in values {
        let lent = match *value {
            Value::Bytes(bytes) => bytes,
            _ => &[],
        };
        let numbers = numbers_of(*value);
        let given = Given::of(&numbers, lent);
        at = put(record, presence, &nulls, at, given, &mut image)?;
    }
    image.truncate(at.1);
    Ok(image)
}

// a column of each type, and of each width and number of digits that is stored otherwise
const FORMS: [[u8; 4]; 49] = [
    [1, 12, 0, 0],
    [1, 13, 0, 0],
    [2, 12, 0, 0],
    [2, 13, 0, 0],
    [9, 12, 0, 0],
    [9, 13, 0, 0],
    [3, 12, 0, 0],
    [3, 13, 0, 0],
    [8, 12, 0, 0],
    [8, 13, 0, 0],
    [4, 12, 4, 0],
    [5, 12, 8, 0],
    [246, 12, 10, 2],
    [246, 12, 65, 30],
    [246, 12, 1, 0],
    [16, 8, 3, 1],
    [16, 8, 0, 8],
    [16, 8, 1, 0],
    [13, 8, 0, 0],
    [14, 8, 0, 0],
    [17, 8, 0, 0],
    [17, 8, 1, 0],
    [17, 8, 4, 0],
    [17, 8, 6, 0],
    [18, 8, 0, 0],
    [18, 8, 2, 0],
    [18, 8, 3, 0],
    [18, 8, 5, 0],
    [19, 8, 0, 0],
    [19, 8, 2, 0],
    [19, 8, 4, 0],
    [19, 8, 6, 0],
    [7, 8, 0, 0],
    [12, 8, 0, 0],
    [11, 8, 0, 0],
    [15, 8, 20, 0],
    [15, 8, 0, 1],
    [253, 8, 255, 0],
    [254, 8, 254, 8],
    [254, 8, 238, 0],
    [247, 8, 247, 1],
    [247, 8, 247, 2],
    [248, 8, 248, 3],
    [249, 8, 1, 0],
    [250, 8, 3, 0],
    [252, 8, 2, 0],
    [245, 8, 4, 0],
    [255, 8, 4, 0],
    [242, 8, 4, 0],
];

// for each form the record of such a column alone, and images of it that are read
struct Drawn(Vec<(Record, Vec<Vec<u8>>)>);

impl Drawn {
    fn new(seed: &mut u64) -> Drawn {
        let alone = FORMS.map(|form| {
            let record = record_of(&[form]);
            let images = (0..32).map(|_| read_alone(&record, seed)).collect();
            (record, images)
        });
        Drawn(alone.into())
    }

    fn any(&self, form: usize, seed: &mut u64) -> (&Record, &[u8]) {
        let (record, images) = &self.0[form];
        (record, &images[next(seed) as usize % images.len()])
    }

    // a value that a column of the form takes
    fn value(&self, form: usize, seed: &mut u64) -> Value<'_> {
        let (record, image) = self.any(form, seed);
        let mut row = record.row(&[1], image).unwrap();
        row.next().unwrap().unwrap().1
    }

    // the same in numbers, with the bytes that they may point into
    fn numbers(&self, form: usize, seed: &mut u64) -> ([u64; 8], &[u8]) {
        let (record, image) = self.any(form, seed);
        (by_steps(record, &[1], image).0[0].1, image)
    }
}

// an image of one value that is not NULL, if it is read: any bytes, or mostly small ones, with which lengths and dates are read sooner
fn any_image(length: usize, seed: &mut u64) -> Vec<u8> {
    let any = if next(seed) & 1 == 0 { 0xff } else { 0 };
    let byte = |_| (next(seed) & (next(seed) & next(seed) | any)) as u8;
    Vec::from_iter([0].into_iter().chain((1..length).map(byte)))
}

fn read_alone(record: &Record, seed: &mut u64) -> Vec<u8> {
    loop {
        let image = any_image(64, seed);
        if record.row(&[1], &image).unwrap().next().unwrap().is_ok() {
            return image;
        }
    }
}

// any of the forms
fn any_form(seed: &mut u64) -> usize {
    next(seed) as usize % FORMS.len()
}

// the record of columns of these forms
fn record_in(forms: &[usize]) -> Record {
    record_of(&Vec::from_iter(forms.iter().map(|&form| FORMS[form])))
}

#[test]
fn rows_are_written_as_the_puts_of_the_record_write_them() {
    let mut seed = 22;
    let drawn = Drawn::new(&mut seed);
    let long = vec![b'x'; 65_536];
    let (mut written, mut not_taken, mut bad_bits) = (0, 0, 0);
    let mut kinds = [0; 12];
    for case in 0..1500 {
        let columns = match case % 100 {
            0 => 250 + next(&mut seed) % 50,
            _ => next(&mut seed) % 25,
        };
        let forms = Vec::from_iter((0..columns).map(|_| any_form(&mut seed)));
        let record = record_in(&forms);
        let all = if next(&mut seed) & 1 == 0 { 0xff } else { 0 };
        let byte = |_| next(&mut seed) as u8 | all;
        let mut presence = Vec::from_iter((0..forms.len().div_ceil(8)).map(byte));
        let columns = present(&record, &presence);
        let mut values = Vec::new();
        for &column in &columns {
            values.push(match next(&mut seed) % 64 {
                0 => drawn.value(any_form(&mut seed), &mut seed),
                1 => Value::Bytes(&long[..[255, 256, 65_535, 65_536][case % 4]]),
                2..=7 => Value::Null,
                _ => drawn.value(forms[column], &mut seed),
            });
        }
        match next(&mut seed) % 32 {
            0 => presence.push(0),
            1 => values.push(Value::Null),
            2 => drop(values.pop()),
            _ => {}
        }
        let got = record.write_row(&presence, &values);
        let wanted = by_puts(&record, &presence, &values);
        assert_eq!(got, wanted, "{presence:?} {values:?} {record:?}");
        match got {
            Ok(image) => {
                written += 1;
                for value in &values {
                    kinds[numbers_of(*value)[0] as usize] += 1;
                }
                let row = (columns.into_iter().zip(values).collect(), Ok(image.len()));
                let back = by_crate(&record, &presence, &image);
                assert_eq!(shown(&back), shown(&row));
            }
            Err(Refusal::NotTaken { .. }) => not_taken += 1,
            Err(Refusal::BadBits) => bad_bits += 1,
            Err(why) => panic!("{why:?}"),
        }
    }
    assert!(
        written > 500 && not_taken > 150 && bad_bits > 50,
        "{written} {not_taken} {bad_bits}"
    );
    assert!(kinds[1..].iter().all(|&count| count > 50), "{kinds:?}");
}

#[test]
fn a_put_by_a_plan_is_the_put_of_its_column() {
    let mut seed = 23;
    let drawn = Drawn::new(&mut seed);
    let mut ended = [0; 15];
    for _ in 0..8000 {
        let count = 1 + next(&mut seed) as usize % 20;
        let forms = Vec::from_iter((0..count).map(|_| any_form(&mut seed)));
        let record = record_in(&forms);
        let mut presence = Vec::from_iter((0..count.div_ceil(8)).map(|_| next(&mut seed) as u8));
        presence[0] |= 1;
        let columns = present(&record, &presence);
        let plan = plan(&record, &presence, 3 * columns.len()).unwrap();
        let item = next(&mut seed) as usize % columns.len();
        // mostly what the column takes, with all parts, and with null bits that agree
        let form = match next(&mut seed) % 16 {
            0 => any_form(&mut seed),
            _ => forms[columns[item]],
        };
        let (mut numbers, lent) = drawn.numbers(form, &mut seed);
        match next(&mut seed) % 32 {
            0..=3 => numbers[0] = 1,
            4..=6 => numbers[0] = next(&mut seed) % 14,
            at @ 7..=13 => numbers[at as usize - 6] = next(&mut seed) >> (next(&mut seed) % 64),
            _ => {}
        }
        let parts = match next(&mut seed) % 8 {
            0 => next(&mut seed) as usize % 8,
            _ => 7,
        };
        let given = Given::new(numbers[0], &numbers[1..][..parts], lent);
        let count = match next(&mut seed) % 16 {
            0 => next(&mut seed) as usize % 4,
            _ => columns.len().div_ceil(8),
        };
        let mut nulls = Vec::from_iter((0..count).map(|_| next(&mut seed) as u8));
        if let Some(byte) = nulls.get_mut(item / 8) {
            let is_null = (given.kind == 1) != (next(&mut seed) & 15 == 0);
            *byte = *byte & !(1 << (item % 8)) | u8::from(is_null) << (item % 8);
        }
        let offset = match next(&mut seed) % 32 {
            0 => next(&mut seed) as usize,
            1 => usize::MAX - next(&mut seed) as usize % 9,
            _ => next(&mut seed) as usize % 80,
        };
        let mut one = vec![0x77; next(&mut seed) as usize % 120];
        let mut two = one.clone();
        let at = (columns[item], offset);
        let wanted = put(&record, &presence, &nulls, at, given, &mut one);
        let wanted = wanted.map(|(_, offset)| (item + 1, offset));
        let got = put_item(&plan, &nulls, (item, offset), given, &mut two);
        let of = (item, offset, given, &nulls, &record);
        assert_eq!((got, two), (wanted, one), "{of:?}");
        ended[got.map_or_else(|why| why.number(), |_| 0) as usize] += 1;
    }
    let counts = [0, refusal::NO_ROOM, refusal::BAD_BITS, refusal::NOT_TAKEN];
    let counts = counts.map(|number| ended[number as usize]);
    assert!(counts.iter().all(|&count| count > 200), "{counts:?}");
    assert_eq!(counts.iter().sum::<usize>(), 8000, "{ended:?}");
}

#[test]
fn what_a_put_by_a_plan_refuses() {
    let refused = |number, place| Err(Refusal::of(number, place, 0));
    // INT, VARCHAR(20), DATE, TINYINT UNSIGNED, of which the second and the last are present
    let record = record_of(&[[3, 12, 0, 0], [15, 8, 20, 0], [14, 8, 0, 0], [1, 13, 0, 0]]);
    let plan = plan(&record, &[0b1010], 6).unwrap();
    let mut image = [0x77; 6];
    let lent = b"abcd";
    let text = Given::new(11, &[1, 2], lent);
    let byte = Given::new(3, &[200], &[]);
    let null = Given::new(1, &[], &[]);
    let mut item = |nulls: &[u8], at, given: Given| put_item(&plan, nulls, at, given, &mut image);
    // a kind that there is not, fewer parts than it has, a part that is too great; with all else wrong too
    for (kind, parts) in [
        (0, &[0; 7][..]),
        (12, &[0; 7]),
        (u64::MAX, &[0; 7]),
        (11, &[1]),
        (3, &[]),
        (8, &[2000, 256, 1]),
        (10, &[2, 0, 0, 0, 0]),
    ] {
        let given = Given::new(kind, parts, lent);
        assert_eq!(item(&[0], (0, 1), given), refused(refusal::NOT_TAKEN, 0));
        assert_eq!(item(&[], (9, 99), given), refused(refusal::NOT_TAKEN, 0));
    }
    // null bits of another length, also for an item that there is not
    for nulls in [&[][..], &[0; 2]] {
        assert_eq!(item(nulls, (0, 1), text), refused(refusal::BAD_BITS, 0));
        assert_eq!(item(nulls, (2, 99), text), refused(refusal::BAD_BITS, 0));
    }
    // an item that there is not, also where no room is left
    for at in [2, 3, usize::MAX / 3, usize::MAX] {
        let no_item = refused(refusal::NO_COLUMN, at as u64);
        assert_eq!(item(&[0], (at, 1), byte), no_item);
        assert_eq!(item(&[0], (at, usize::MAX), null), no_item);
    }
    // value and null bit disagree, also where no room is left; the place is the column
    assert_eq!(item(&[0], (0, 1), null), refused(refusal::NOT_TAKEN, 1));
    assert_eq!(item(&[1], (0, 1), text), refused(refusal::NOT_TAKEN, 1));
    assert_eq!(item(&[1], (1, 1), null), refused(refusal::NOT_TAKEN, 3));
    assert_eq!(item(&[2], (1, 99), byte), refused(refusal::NOT_TAKEN, 3));
    // a value that the column does not take
    let date = Given::new(8, &[2000, 1, 1], &[]);
    assert_eq!(item(&[0], (0, 1), date), refused(refusal::NOT_TAKEN, 1));
    assert_eq!(item(&[0], (0, 99), byte), refused(refusal::NOT_TAKEN, 1));
    let above = Given::new(3, &[256], &[]);
    assert_eq!(item(&[0], (1, 1), above), refused(refusal::NOT_TAKEN, 3));
    let long = Given::new(11, &[0, 256], &[b'x'; 256]);
    assert_eq!(item(&[0], (0, 1), long), refused(refusal::NOT_TAKEN, 1));
    // bytes that are not all in what was lent
    for parts in [[3, 2], [5, 0], [u64::MAX, 2], [0, u64::MAX]] {
        let given = Given::new(11, &parts, lent);
        assert_eq!(item(&[0], (0, 1), given), refused(refusal::NOT_TAKEN, 1));
    }
    // no room: 'bc' takes three bytes
    for at in [4, 5, 6, 7, usize::MAX - 2, usize::MAX] {
        assert_eq!(item(&[0], (0, at), text), refused(refusal::NO_ROOM, 0));
    }
    assert_eq!(item(&[0], (1, 6), byte), refused(refusal::NO_ROOM, 0));
    // NULL takes no bytes, but none behind the image either
    assert_eq!(item(&[1], (0, 6), null), Ok((1, 6)));
    assert_eq!(item(&[1], (0, 7), null), refused(refusal::NO_ROOM, 0));
    // and what is taken; the spare null bits are nobody's
    assert_eq!(item(&[0xfc], (0, 1), text), Ok((1, 4)));
    assert_eq!(item(&[0xfd], (0, 1), null), Ok((1, 1)));
    assert_eq!(item(&[0xfc], (1, 5), byte), Ok((2, 6)));
    assert_eq!(image, [0x77, 2, b'b', b'c', 0x77, 200]);
}

#[test]
fn a_put_by_a_plan_without_room_for_its_answer_does_nothing() {
    let (plan, parts) = ([2, 0, 0], [5]);
    for numbers in [0, 1] {
        let (mut image, mut out) = ([0x77; 4], [UNTOUCHED; 2]);
        let status = unsafe {
            feed_put_item(
                plan.as_ptr(),
                plan.len(),
                [0].as_ptr(),
                1,
                0,
                1,
                3,
                parts.as_ptr(),
                parts.len(),
                [].as_ptr(),
                0,
                image.as_mut_ptr(),
                image.len(),
                out.as_mut_ptr(),
                numbers,
            )
        };
        assert_eq!(status, refusal::NO_ROOM);
        assert_eq!((image, out), ([0x77; 4], [UNTOUCHED; 2]));
    }
}

#[test]
fn a_made_up_plan_is_written_by_as_it_stands() {
    let refused = |number, place| Err(Refusal::of(number, place, 0));
    let uint = |n: &'static [u64]| Given::new(3, n, &[]);
    let null = Given::new(1, &[], &[]);
    let mut image = [0x77; 6];
    // two unsigned bytes said to be the columns 700 and 9; the bytes behind the last whole item are none
    let plan = [2, 0xbc, 2, 2, 9, 0, 2, 1];
    let mut item =
        |plan: &[u8], nulls: &[u8], at, given| put_item(plan, nulls, at, given, &mut image);
    for plan in [&plan[..6], &plan[..7], &plan] {
        assert_eq!(item(plan, &[0], (0, 1), uint(&[5])), Ok((1, 2)));
        assert_eq!(item(plan, &[0], (1, 2), uint(&[6])), Ok((2, 3)));
        assert_eq!(
            item(plan, &[0], (2, 3), uint(&[7])),
            refused(refusal::NO_COLUMN, 2)
        );
        assert_eq!(
            item(plan, &[0], (0, 1), uint(&[256])),
            refused(refusal::NOT_TAKEN, 700)
        );
        assert_eq!(
            item(plan, &[0], (1, 1), null),
            refused(refusal::NOT_TAKEN, 9)
        );
    }
    // no accepted column has the op 0
    let plan = [2, 4, 0, 0, 3, 0];
    assert_eq!(
        item(&plan, &[0], (1, 1), uint(&[5])),
        refused(refusal::BAD_RECORD, 3)
    );
    assert_eq!(
        item(&plan, &[0], (1, 99), Given::new(11, &[0, 0], &[])),
        refused(refusal::BAD_RECORD, 3)
    );
    assert_eq!(item(&plan, &[0], (0, 3), uint(&[7])), Ok((1, 4)));
    // but NULL is NULL, as it is for a run
    assert_eq!(item(&plan, &[2], (1, 4), null), Ok((2, 4)));
    // no item: no null bits, and none that is asked
    for plan in [&[][..], &[2], &[2, 0]] {
        assert_eq!(
            item(plan, &[], (0, 0), null),
            refused(refusal::NO_COLUMN, 0)
        );
        assert_eq!(
            item(plan, &[0], (0, 0), null),
            refused(refusal::BAD_BITS, 0)
        );
    }
    // eight items have one byte of null bits, nine have two
    let plan = [2, 1, 0].repeat(9);
    assert_eq!(item(&plan[..24], &[0x80], (7, 2), null), Ok((8, 2)));
    assert_eq!(
        item(&plan, &[0], (7, 2), null),
        refused(refusal::BAD_BITS, 0)
    );
    assert_eq!(item(&plan, &[0xff, 0], (8, 4), uint(&[8])), Ok((9, 5)));
    // the plan of a SMALLINT, in the image of two TINYINTs
    let small = self::plan(&record_of(&[[2, 13, 0, 0]]), &[1], 3).unwrap();
    assert_eq!(item(&small, &[0], (0, 1), uint(&[0x0605])), Ok((1, 3)));
    assert_eq!(image, [0x77, 5, 6, 7, 8, 0x77]);
}

#[test]
fn what_is_read_by_any_op_is_written_by_it() {
    let mut seed = 25;
    for op in 1..=255 {
        let plan = [op, 9, 1];
        let mut written = 0;
        // a DATETIME of old, op 23, is read of one image in some thousands
        for _ in 0..100_000 {
            let image = any_image(16 + usize::from(op), &mut seed);
            let Ok((values, (_, _, end))) = run(&plan, &image, (0, 0, 1), 1) else {
                continue;
            };
            let mut back = vec![0; image.len()];
            let given = Given::of(&values[0], &image);
            let told = put_item(&plan, &[0], (0, 1), given, &mut back);
            assert_eq!(told, Ok((1, end)), "{op} {values:?}");
            assert_eq!(back[..end], image[..end], "{op} {values:?}");
            written += 1;
            if written == 10 {
                break;
            }
        }
        assert_eq!(written, 10, "{op}");
    }
}

#[test]
fn a_row_of_as_many_columns_as_there_may_be_is_written() {
    let mut seed = 24;
    let drawn = Drawn::new(&mut seed);
    let forms = Vec::from_iter((0..FORMS.len()).cycle().take(4096));
    let record = record_in(&forms);
    assert_eq!(record.columns(), 4096);
    // all columns, and five of each eight; a tenth is NULL
    for (byte, count) in [(0xff, 4096), (0b0110_1101, 2560)] {
        let presence = [byte; 512];
        let columns = present(&record, &presence);
        assert_eq!(columns.len(), count);
        let value = |&column: &usize| match column % 10 {
            7 => Value::Null,
            _ => drawn.value(forms[column], &mut seed),
        };
        let mut values = Vec::from_iter(columns.iter().map(value));
        let image = record.write_row(&presence, &values).unwrap();
        let back = by_crate(&record, &presence, &image);
        let row = columns.iter().copied().zip(values.clone()).collect();
        assert_eq!(shown(&back), shown(&(row, Ok(image.len()))));
        // the year 1900, which no column takes, in the last one
        *values.last_mut().unwrap() = Value::Year(1900);
        let column = columns[count - 1] as u64;
        assert_eq!(
            record.write_row(&presence, &values),
            Err(Refusal::of(refusal::NOT_TAKEN, column, 0))
        );
    }
}
