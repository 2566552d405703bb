//! The calls of the crate, on the worked readings of the specification, on maps that a server logged, and on bytes that are refused.

use feed::{
    check, code, column_name, map, name, names, refusal, Column, ColumnType, Dialect, Image, Map,
    Part, Record, Refusal, Value,
};

// three columns: INT, VARCHAR(20), TINYINT UNSIGNED
const EVENT: &[u8] = &[
    0x2a, 0, 0, 0, 0, 0, 1, 0, 1, b't', 0, 1, b'r', 0, 3, 3, 0x0f, 1, 2, 0x14, 0, 2, 1, 1, 0x40,
];
const RECORD: &[u8] = &[
    0x18, 0, 1, 0, 3, 0, 3, 0x0c, 0, 0, 0, 0, 0x0f, 0x0a, 0x14, 0, 0, 0, 1, 0x0d, 0, 0, 0, 0,
];
const IMAGE: &[u8] = &[0xf8, 0xfe, 0xff, 0xff, 0xff, 2, b'a', b'b', 0xc8];

// a rows event of the table, of the newer edition, with that image alone
const ROWS: &[u8] = &[
    0x2a, 0, 0, 0, 0, 0, 1, 0, 2, 0, 3, 7, 0xf8, 0xfe, 0xff, 0xff, 0xff, 2, b'a', b'b', 0xc8,
];
const TABLE: u64 = 42;

// MySQL 9.7.4: INT, YEAR, INT UNSIGNED, TINYINT, with their names
const YEAR_EVENT: &[u8] = &[
    0xdb, 0, 0, 0, 0, 0, 1, 0, 7, b'c', b'a', b'p', b'f', b'u', b'l', b'l', 0, 13, b'y', b'e',
    b'a', b'r', b'_', b's', b'i', b'l', b'e', b'n', b't', b'_', b'a', 0, 4, 3, 13, 3, 1, 0, 0x0f,
    1, 1, 0x60, 4, 12, 2, b'c', b'0', 2, b'c', b'1', 2, b'c', b'2', 2, b'c', b'3', 12, 1, 0xf0,
];

fn record() -> Record {
    check(EVENT, 8, Dialect::Document).unwrap()
}

fn refused<T>(number: u64, place: u64) -> Result<T, Refusal> {
    Err(Refusal::of(number, place, 0))
}

fn out_of_range<T>(column: usize, part: Part) -> Result<T, Refusal> {
    Err(Refusal::OutOfRange { column, part })
}

#[test]
fn a_map_gives_its_record() {
    assert_eq!(record().as_bytes(), RECORD);
    assert_eq!(record().columns(), 3);
    let tiny = Column {
        real_type: ColumnType::Tiny,
        unsigned: true,
        nullable: false,
        sign_known: true,
        visible: true,
        m0: 0,
        m1: 0,
        charset: 0,
    };
    assert_eq!(record().column(2), Ok(tiny));
    assert_eq!(record().column(3), refused(refusal::NO_COLUMN, 3));
}

#[test]
fn the_dialect_decides_whose_bits_are_whose() {
    let unsigned = |dialect| {
        let record = check(YEAR_EVENT, 8, dialect).unwrap();
        [0, 2, 3].map(|column| record.column(column).unwrap().unsigned)
    };
    assert_eq!(unsigned(Dialect::Mysql), [false, true, false]);
    assert_eq!(unsigned(Dialect::Mariadb), [false, true, false]);
    assert_eq!(unsigned(Dialect::Document), [false, true, true]);
}

#[test]
fn a_map_that_ends_early_is_refused() {
    assert_eq!(check(&[], 8, Dialect::Mysql), refused(refusal::SHORT, 0));
    for length in 0..EVENT.len() {
        let got = check(&EVENT[..length], 8, Dialect::Mysql);
        // the optional fields may be missing as a whole
        assert_eq!(got.is_ok(), length == 22, "{length}");
    }
}

#[test]
fn a_stored_record_is_taken_up() {
    assert_eq!(Record::from_bytes(RECORD.to_vec()), Ok(record()));
    let mut wrong = RECORD.to_vec();
    wrong[2] = 9;
    assert_eq!(Record::from_bytes(wrong), refused(refusal::BAD_RECORD, 0));
    assert_eq!(
        Record::from_bytes(Vec::new()),
        refused(refusal::BAD_RECORD, 0)
    );
}

#[test]
fn an_image_gives_its_values() {
    let record = record();
    let mut longer = IMAGE.to_vec();
    longer.push(7);
    let mut row = record.row(&[7], &longer).unwrap();
    assert_eq!(row.bytes_used(), None);
    assert_eq!(row.next(), Some(Ok((0, Value::Int(-2)))));
    assert_eq!(row.next(), Some(Ok((1, Value::Bytes(b"ab")))));
    assert_eq!(row.next(), Some(Ok((2, Value::Uint(200)))));
    assert_eq!(row.next(), None);
    assert_eq!(row.next(), None);
    assert_eq!(row.bytes_used(), Some(9));
}

#[test]
fn absent_columns_and_nulls_are_told_apart() {
    let record = record();
    let row = record.row(&[0b101], &[0b01, 0xc8]).unwrap();
    let got: Vec<_> = row.map(Result::unwrap).collect();
    assert_eq!(got, [(0, Value::Null), (2, Value::Uint(200))]);
}

#[test]
fn an_image_that_ends_early_is_refused_once() {
    let record = record();
    let mut row = record.row(&[7], &IMAGE[..7]).unwrap();
    assert_eq!(row.next(), Some(Ok((0, Value::Int(-2)))));
    assert_eq!(row.next(), Some(refused(refusal::IMAGE_SHORT, 1)));
    assert_eq!(row.next(), None);
    assert_eq!(row.bytes_used(), None);
    assert_eq!(
        record.row(&[7, 7], IMAGE).err(),
        refused::<()>(refusal::BAD_BITS, 0).err()
    );
}

#[test]
fn a_row_is_written() {
    let values = [Value::Int(-2), Value::Bytes(b"ab"), Value::Uint(200)];
    assert_eq!(record().write_row(&[7], &values), Ok(IMAGE.to_vec()));
    let nulls = [Value::Null, Value::Uint(200)];
    assert_eq!(
        record().write_row(&[0b101], &nulls),
        Ok(vec![0b1111_1101, 0xc8])
    );
}

#[test]
fn a_row_that_no_image_can_hold_is_refused() {
    let record = record();
    let row = |values: &[Value]| record.write_row(&[7], values);
    assert_eq!(row(&[]), refused(refusal::BAD_BITS, 0));
    assert_eq!(row(&[Value::Null; 4]), refused(refusal::BAD_BITS, 0));
    assert_eq!(row(&[Value::Null; 300]), refused(refusal::BAD_BITS, 0));
    let year = [Value::Int(1), Value::Year(2000), Value::Null];
    assert_eq!(row(&year), refused(refusal::NOT_TAKEN, 1));
    let long = vec![b'x'; 256];
    let long = [Value::Int(1), Value::Bytes(&long), Value::Null];
    assert_eq!(row(&long), refused(refusal::NOT_TAKEN, 1));
}

#[test]
fn every_kind_goes_there_and_back() {
    // one column for each kind: FLOAT, DOUBLE, TIMESTAMP2(6), YEAR, DATE, DATETIME2(6), TIME2(6), BIGINT, ENUM
    let columns: [[u8; 3]; 9] = [
        [4, 4, 0],
        [5, 8, 0],
        [17, 6, 0],
        [13, 0, 0],
        [14, 0, 0],
        [18, 6, 0],
        [19, 6, 0],
        [8, 0, 0],
        [247, 0xf7, 2],
    ];
    let mut bytes = vec![6 + 6 * 9, 0, 1, 0, 9, 0];
    for [real_type, m0, m1] in columns {
        bytes.extend([real_type, 8, m0, m1, 0, 0]);
    }
    let record = Record::from_bytes(bytes).unwrap();
    let values = [
        Value::Float(-1.5),
        Value::Double(0.1),
        Value::Seconds {
            seconds: u32::MAX,
            micros: 999_999,
        },
        Value::Year(2155),
        Value::Date {
            year: 9999,
            month: 12,
            day: 31,
        },
        Value::Datetime {
            year: 2024,
            month: 2,
            day: 29,
            hour: 23,
            minute: 59,
            second: 58,
            micros: 1,
        },
        Value::Time {
            negative: true,
            hours: 838,
            minutes: 59,
            seconds: 58,
            micros: 999_999,
        },
        Value::Int(i64::MIN),
        Value::Uint(65_535),
    ];
    let image = record.write_row(&[0xff, 0xff], &values).unwrap();
    let mut row = record.row(&[0xff, 0xff], &image).unwrap();
    let back: Vec<_> = row.by_ref().map(|item| item.unwrap().1).collect();
    assert_eq!(back, values);
    assert_eq!(row.bytes_used(), Some(image.len()));
}

#[test]
fn names_come_from_the_map_or_else_from_the_list_beside_it() {
    assert_eq!(
        column_name(YEAR_EVENT, 8, Dialect::Mysql, 2),
        Ok(&b"c2"[..])
    );
    assert_eq!(
        column_name(YEAR_EVENT, 8, Dialect::Mysql, 4),
        refused(refusal::NO_COLUMN, 4)
    );
    assert_eq!(
        column_name(EVENT, 8, Dialect::Mysql, 0),
        refused(refusal::NO_COLUMN, 0)
    );
    assert_eq!(name(b"", b"\x02id\x01v", 1), Ok(&b"v"[..]));
    assert_eq!(
        name(b"\x01a", b"\x02id\x01v", 1),
        refused(refusal::NO_COLUMN, 1)
    );
    assert_eq!(name(b"\x05ab", b"", 0), refused(refusal::SHORT, 0));
}

// a map with one YEAR, and these optional fields
fn year_map(optional: &[u8]) -> Vec<u8> {
    [
        &[1, 0, 0, 0, 0, 0, 1, 0, 1, b't', 0, 1, b'r', 0, 1, 13, 0, 0],
        optional,
    ]
    .concat()
}

#[test]
fn no_names_and_empty_names_and_names_behind_a_refusal_are_three_answers() {
    let asked = |optional: &[u8], dialect| {
        let event = year_map(optional);
        names(&event, 8, dialect).map(|found| found.map(<[u8]>::to_vec))
    };
    assert_eq!(
        asked(&[4, 2, 1, b'y'], Dialect::Mysql),
        Ok(Some(vec![1, b'y']))
    );
    assert_eq!(asked(&[4, 0], Dialect::Mysql), Ok(Some(vec![])));
    assert_eq!(asked(&[1, 1, 0x80], Dialect::Mysql), Ok(None));
    assert_eq!(
        asked(&[14, 0, 4, 0], Dialect::Mysql),
        refused(refusal::UNKNOWN_FIELD, 18)
    );
    // by the letter a YEAR has no signedness bit
    let named = [1, 1, 0x80, 4, 2, 1, b'y'];
    assert_eq!(asked(&named, Dialect::Mysql), Ok(Some(vec![1, b'y'])));
    assert_eq!(
        asked(&named, Dialect::Document),
        refused(refusal::BAD_FIELD, 18)
    );
    assert_eq!(
        column_name(&year_map(&named), 8, Dialect::Document, 0),
        refused(refusal::BAD_FIELD, 18)
    );
    // what stands behind the names is not looked at
    assert_eq!(asked(&[4, 0, 14, 0], Dialect::Mysql), Ok(Some(vec![])));
    assert_eq!(
        names(&[1, 2], 8, Dialect::Mysql),
        refused(refusal::SHORT, 0)
    );
}

// a record of one column, which is visible
fn one_column(real_type: u8, m0: u8) -> Record {
    Record::from_bytes(vec![12, 0, 1, 0, 1, 0, real_type, 8, m0, 0, 0, 0]).unwrap()
}

fn values_of<'a>(image: Option<Image<'a>>) -> Vec<(usize, Value<'a>)> {
    let row = image.unwrap().values().unwrap();
    row.map(Result::unwrap).collect()
}

#[test]
fn a_map_tells_whose_it_is() {
    let whose = Map {
        id: TABLE,
        flags: 1,
        database: b"t",
        table: b"r",
        types: &[3, 15, 1],
        metadata: &[20, 0],
        nullable: &[2],
        optional: &[1, 1, 0x40],
    };
    assert_eq!(map(EVENT, 8), Ok(whose));
    assert_eq!(map(&EVENT[..7], 8), refused(refusal::SHORT, 6));
    let logged = map(YEAR_EVENT, 8).unwrap();
    assert_eq!(logged.id, 219);
    assert_eq!(logged.database, b"capfull");
    assert_eq!(logged.table, b"year_silent_a");
}

#[test]
fn a_rows_event_gives_its_rows() {
    let record = record();
    let event = record.rows_event(code::WRITE_ROWS, TABLE, ROWS).unwrap();
    assert_eq!((event.flags(), event.extra()), (1, Some(&[][..])));
    let mut rows = event.rows();
    let row = rows.next().unwrap().unwrap();
    assert!(row.before.is_none());
    assert_eq!(row.after.unwrap().bytes, IMAGE);
    let values = [
        (0, Value::Int(-2)),
        (1, Value::Bytes(b"ab")),
        (2, Value::Uint(200)),
    ];
    assert_eq!(values_of(row.after), values);
    assert!(rows.next().is_none());
    assert!(rows.next().is_none());
    // the first edition has no extra data
    let older = [&ROWS[..8], &ROWS[10..]].concat();
    let event = record
        .rows_event(code::DELETE_ROWS_V1, TABLE, &older)
        .unwrap();
    assert_eq!(event.extra(), None);
    let row = event.rows().next().unwrap().unwrap();
    assert_eq!(values_of(row.before), values);
    assert!(row.after.is_none());
}

#[test]
fn an_update_gives_pairs() {
    // TIME(2): 00:00:00.00 becomes -00:00:01.50
    let record = one_column(19, 2);
    let body = [
        0x2a, 0, 0, 0, 0, 0, 1, 0, 2, 0, 1, 1, 1, 0, 0x80, 0, 0, 0, 0, 0x7f, 0xff, 0xfe, 0xce,
    ];
    let event = record.rows_event(code::UPDATE_ROWS, TABLE, &body).unwrap();
    let rows: Vec<_> = event.rows().map(Result::unwrap).collect();
    assert_eq!(rows.len(), 1);
    let time = |negative, seconds, micros| Value::Time {
        negative,
        hours: 0,
        minutes: 0,
        seconds,
        micros,
    };
    assert_eq!(values_of(rows[0].before), [(0, time(false, 0, 0))]);
    assert_eq!(values_of(rows[0].after), [(0, time(true, 1, 500_000))]);
    // an image before a change, and none after it
    let event = record
        .rows_event(code::UPDATE_ROWS, TABLE, &body[..18])
        .unwrap();
    let mut rows = event.rows();
    assert_eq!(
        rows.next().unwrap().err(),
        refused::<()>(refusal::IMAGE_SHORT, 0).err()
    );
    assert!(rows.next().is_none());
}

#[test]
fn a_rows_event_of_another_table_is_refused() {
    let record = record();
    let other = |code, table, event: &[u8]| record.rows_event(code, table, event).err();
    let why = |number, place| refused::<()>(number, place).err();
    assert_eq!(
        other(code::WRITE_ROWS, 43, ROWS),
        why(refusal::OTHER_EVENT, 0)
    );
    assert_eq!(other(39, TABLE, ROWS), why(refusal::OTHER_EVENT, 0));
    let mut columns = ROWS.to_vec();
    columns[10] = 4;
    assert_eq!(
        other(code::WRITE_ROWS, TABLE, &columns),
        why(refusal::OTHER_EVENT, 10)
    );
    let mut extra = ROWS.to_vec();
    extra[8] = 1;
    assert_eq!(
        other(code::WRITE_ROWS, TABLE, &extra),
        why(refusal::BAD_EXTRA, 8)
    );
}

#[test]
fn an_image_cut_in_its_event_is_refused_once() {
    let record = record();
    let cut = &ROWS[..ROWS.len() - 1];
    let event = record.rows_event(code::WRITE_ROWS, TABLE, cut).unwrap();
    let mut rows = event.rows();
    assert_eq!(
        rows.next().unwrap().err(),
        refused::<()>(refusal::IMAGE_SHORT, 2).err()
    );
    assert!(rows.next().is_none());
}

// a map of so many TINYINTs
fn wide_map(columns: u16) -> Vec<u8> {
    let count = [&[252], &columns.to_le_bytes()[..]].concat();
    let columns = usize::from(columns);
    [
        &EVENT[..14],
        &count,
        &vec![1; columns],
        &[0],
        &vec![0; columns.div_ceil(8)],
    ]
    .concat()
}

#[test]
fn a_map_of_many_columns_gives_a_record_of_kind_2() {
    let head =
        |columns| check(&wide_map(columns), 8, Dialect::Mysql).map(|r| r.as_bytes()[..6].to_vec());
    // length, kind, and how many columns
    assert_eq!(head(255), Ok(vec![0, 6, 1, 0, 255, 0]));
    assert_eq!(head(256), Ok(vec![6, 6, 2, 0, 0, 1]));
    assert_eq!(head(4096), Ok(vec![6, 0x60, 2, 0, 0, 16]));
    assert_eq!(head(4097), refused(refusal::TOO_MANY_COLUMNS, 0));
    let record = check(&wide_map(900), 8, Dialect::Mysql).unwrap();
    assert_eq!(record.columns(), 900);
    assert_eq!(record.column(899).unwrap().real_type, ColumnType::Tiny);
    assert_eq!(record.column(900), refused(refusal::NO_COLUMN, 900));
    assert_eq!(Record::from_bytes(record.as_bytes().to_vec()), Ok(record));
    // a kind 2 of so few columns is no record
    let mut few = RECORD.to_vec();
    few[2] = 2;
    assert_eq!(Record::from_bytes(few), refused(refusal::BAD_RECORD, 0));
}

#[test]
fn a_row_of_many_columns_goes_there_and_back() {
    let record = check(&wide_map(300), 8, Dialect::Mysql).unwrap();
    let mut presence = [0xff; 38];
    presence[32] = 0;
    let values: Vec<_> = (0..292).map(|n| Value::Int(n % 128)).collect();
    let image = record.write_row(&presence, &values).unwrap();
    assert_eq!(image.len(), 37 + 292);
    let row: Result<Vec<_>, _> = record.row(&presence, &image).unwrap().collect();
    let row = row.unwrap();
    assert_eq!(row[255], (255, Value::Int(127)));
    assert_eq!(row[256], (264, Value::Int(0)));
    assert_eq!(row.last(), Some(&(299, Value::Int(35))));
    // in an event the columns are counted by a packed integer
    let head = [0x2a, 0, 0, 0, 0, 0, 1, 0, 2, 0, 252, 44, 1];
    let body = [&head[..], &presence, &image, &image].concat();
    let event = record.rows_event(code::WRITE_ROWS, TABLE, &body).unwrap();
    let rows: Vec<_> = event.rows().map(|row| row.unwrap().after).collect();
    assert_eq!(rows.len(), 2);
    assert_eq!(values_of(rows[1]), row);
}

#[test]
fn the_room_for_an_image_is_told() {
    let record = record();
    // a byte of null bits, INT, VARCHAR(20), TINYINT
    assert_eq!(record.image_room(&[7]), Ok(1 + 4 + 256 + 1));
    // spare presence bits are nobody's
    assert_eq!(record.image_room(&[0b1111_1010]), Ok(1 + 256));
    assert_eq!(record.image_room(&[0]), Ok(0));
    assert_eq!(record.image_room(&[]), refused(refusal::BAD_BITS, 0));
    let long = vec![b'x'; 255];
    let values = [Value::Int(-2), Value::Bytes(&long), Value::Uint(200)];
    assert_eq!(record.write_row(&[7], &values).unwrap().len(), 262);
    // as many columns as there may be, of those that take most
    let entry = [252, 8, 4, 0, 0, 0];
    let widest = [&[6, 0x60, 2, 0, 0, 16], &entry.repeat(4096)[..]].concat();
    let widest = Record::from_bytes(widest).unwrap();
    let most = 512 + 4096 * ((1 << 32) + 3);
    assert_eq!(widest.image_room(&[0xff; 512]), Ok(most));
    assert_eq!(one_column(252, 4).image_room(&[1]), Ok((1 << 32) + 4));
}

// the only value of an image of one column, or why there is none
fn lone(real_type: u8, m0: u8, stored: &[u8]) -> Result<(), Refusal> {
    let image = [&[0], stored].concat();
    let record = one_column(real_type, m0);
    let mut row = record.row(&[1], &image).unwrap();
    row.next().unwrap().map(|_| ())
}

#[test]
fn the_first_part_out_of_range_is_named() {
    // DATE: the year 10000, the month 13, and both
    assert_eq!(lone(14, 0, &[0, 0x20, 0x4e]), out_of_range(0, Part::Year));
    assert_eq!(lone(14, 0, &[0xa0, 1, 0]), out_of_range(0, Part::Month));
    assert_eq!(
        lone(14, 0, &[0xa0, 0x21, 0x4e]),
        out_of_range(0, Part::Year)
    );
    // DATETIME of old: the day 32
    let day = 32_000_000u64.to_le_bytes();
    assert_eq!(lone(12, 0, &day), out_of_range(0, Part::Day));
    // TIME: 839 hours, 60 minutes, 60 seconds, the last two together, and a second less 1,000,000 microseconds below zero
    assert_eq!(lone(19, 0, &[0xb4, 0x70, 0]), out_of_range(0, Part::Hour));
    assert_eq!(lone(19, 0, &[0x80, 0x0f, 0]), out_of_range(0, Part::Minute));
    assert_eq!(lone(19, 0, &[0x80, 0, 0x3c]), out_of_range(0, Part::Second));
    assert_eq!(
        lone(19, 0, &[0x80, 0x0f, 0x3c]),
        out_of_range(0, Part::Minute)
    );
    assert_eq!(
        lone(19, 2, &[0x7f, 0xff, 0xff, 0x9c]),
        out_of_range(0, Part::Fraction)
    );
    // DATETIME below zero, whatever its other parts are
    assert_eq!(lone(18, 0, &[0; 5]), out_of_range(0, Part::Negative));
    // bytes that are missing come first
    assert_eq!(lone(14, 0, &[0xa0, 1]), refused(refusal::IMAGE_SHORT, 0));
}

#[test]
fn a_part_is_passed_on_by_images_and_rows_events() {
    // DATE and TIME(2): the month 13, and then a fraction that is out of range too
    let record = Record::from_bytes(vec![
        18, 0, 1, 0, 2, 0, 14, 8, 0, 0, 0, 0, 19, 8, 2, 0, 0, 0,
    ])
    .unwrap();
    let month = [0, 0xa0, 1, 0, 0x7f, 0xff, 0xff, 0x9c];
    let fraction = [0, 0x21, 0, 0, 0x7f, 0xff, 0xff, 0x9c];
    let last = |image| record.row(&[3], image).unwrap().last().unwrap();
    assert_eq!(last(&month), out_of_range(0, Part::Month));
    assert_eq!(last(&fraction), out_of_range(1, Part::Fraction));
    let head = [0x2a, 0, 0, 0, 0, 0, 1, 0, 2, 0, 2, 3];
    let good = [0, 0x21, 0, 0, 0x80, 0, 0, 0];
    let body = [&head[..], &good, &fraction].concat();
    let event = record.rows_event(code::WRITE_ROWS, TABLE, &body).unwrap();
    let mut rows = event.rows();
    assert!(rows.next().unwrap().is_ok());
    assert_eq!(
        rows.next().unwrap().err(),
        out_of_range::<()>(1, Part::Fraction).err()
    );
    assert!(rows.next().is_none());
}

#[test]
fn a_writer_names_no_part() {
    let month = Value::Date {
        year: 2000,
        month: 13,
        day: 1,
    };
    assert_eq!(
        one_column(14, 0).write_row(&[1], &[month]),
        refused(refusal::NOT_TAKEN, 0)
    );
}

#[test]
fn a_refusal_is_a_sentence_with_its_number() {
    let month = Refusal::OutOfRange {
        column: 4,
        part: Part::Month,
    };
    assert_eq!((month.number(), month.place(), month.part()), (10, 4, 2));
    let texts = [
        (
            Refusal::of(1, 14, 0),
            "the bytes end inside what starts at byte 14 (refusal 1)",
        ),
        (
            Refusal::of(7, 9, 0),
            "the optional field or key at byte 9 breaks a rule (refusal 7)",
        ),
        (
            Refusal::of(9, 1, 0),
            "the image ends early, or has bytes left over, at column 1 (refusal 9)",
        ),
        (month, "the month of column 4 is out of range (refusal 10)"),
        (
            Refusal::of(10, 0, 8),
            "the datetime of column 0 is below zero (refusal 10)",
        ),
        (
            Refusal::of(11, 0, 0),
            "the record is not valid (refusal 11)",
        ),
        (
            Refusal::of(17, 3, 5),
            "it was refused at 3, part 5 (refusal 17)",
        ),
    ];
    for (refusal, text) in texts {
        assert_eq!(refusal.to_string(), text);
    }
    let source: &dyn std::error::Error = &month;
    assert!(source.source().is_none());
    let names = [
        "year",
        "month",
        "day",
        "hour",
        "minute",
        "second",
        "fraction",
        "negative datetime",
    ];
    for (part, name) in (1..).zip(names) {
        match Refusal::of(refusal::OUT_OF_RANGE, 0, part) {
            Refusal::OutOfRange { column: 0, part } => assert_eq!(part.to_string(), name),
            other => panic!("{other:?}"),
        }
    }
}

#[test]
fn whatever_the_numbers_are_a_refusal_has_them() {
    let mut texts = std::collections::HashSet::new();
    for number in 0..=23 {
        for place in [0, 1, 8, u64::MAX] {
            for part in [0, 1, 8, 9, u64::MAX] {
                let refusal = Refusal::of(number, place, part);
                let told = (refusal.number(), refusal.place() as u64, refusal.part());
                assert_eq!(told, (number, place, part));
                texts.insert(refusal.to_string());
            }
        }
        // every number that is known has a name of its own, where place and part are as the library tells them
        let part = u64::from(number == refusal::OUT_OF_RANGE);
        let named = !matches!(Refusal::of(number, 0, part), Refusal::Other { .. });
        let known = (1..=16).contains(&number) || (20..=21).contains(&number);
        assert_eq!(named, known, "{number}");
    }
    // and no two say the same
    assert_eq!(texts.len(), 24 * 4 * 5);
}

#[test]
fn a_checksum_left_on_is_read_as_rows() {
    let record = one_column(1, 0);
    let body = [
        0x2a, 0, 0, 0, 0, 0, 1, 0, 2, 0, 1, 1, 0, 5, 0xd2, 0x41, 0x9c, 7,
    ];
    let ints = |event| {
        let event = record.rows_event(code::WRITE_ROWS, TABLE, event).unwrap();
        let rows = event.rows().map(|row| values_of(row.unwrap().after)[0].1);
        rows.collect::<Vec<_>>()
    };
    assert_eq!(ints(&body[..14]), [Value::Int(5)]);
    assert_eq!(
        ints(&body[..]),
        [Value::Int(5), Value::Int(65), Value::Int(7)]
    );
}
