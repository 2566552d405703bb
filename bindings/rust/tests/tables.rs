//! Tables: the columns, the key and the optional fields of maps, those that a server logged and those that are refused.

use feed::{
    code, field_type, fields, groups, integers, map, pairs, strings, table, ColumnType, Dialect,
    Field, GeometryType, KeyPart, Refusal, Table, TableColumn, Value,
};

// MySQL 9.7.4, with binlog_row_metadata=FULL: id INT and a column of each type, c00 to c29
const ALL_TYPES: &str = "\
    0d010000000001000763617066756c6c000d616c6c74797065735f706b5f30001f0301020903080405f6100d0a131211fe0ffe0ffcfcfcfcfefef5ffff1301f21e04\
    0814090501020603fe282c01fe05050001020304f701f8010404040604feffff7f01022840020b3f00fcff00010805210708070201070d0104047b02696403633030\
    0363303103633032036330330363303403633035036330360363303703633038036330390363313003633131036331320363313303633134036331350363313603\
    633137036331380363313903633230036332310363323203633233036332340363323503633236036332370363323803633239\
    0a0108050703017001710172060502017801790801000c04fffffffe";

// the same server: a INT, t BLOB, v VARCHAR, d INT, with the primary key (a, t(10), v(7))
const PREFIXES: &str = "\
    fc000000000001000763617066756c6c0009706b5f707265666978000403fc0f030302b00408010100030408fcff000408016101740176016409060000010a02070c01f0";

// the same server: c0 INT, c1 ENUM('a', 'b'), c2 SET('a', 'b'), c3 INT
const CHOICES: &str = "\
    cd000000000001000763617066756c6c000763735f6e6f6e65000403fefe0304f701f8010f010100040c0263300263310263320263330a01080505020161016206\
    0502016101620c01f0";

fn bytes(hex: &str) -> Vec<u8> {
    let digits: Vec<u32> = hex.chars().map(|c| c.to_digit(16).unwrap()).collect();
    digits
        .chunks(2)
        .map(|two| (two[0] * 16 + two[1]) as u8)
        .collect()
}

// a map with these type bytes, metadata and optional fields
fn map_of(types: &[u8], metadata: &[u8], optional: &[u8]) -> Vec<u8> {
    let nullable = vec![0; types.len().div_ceil(8)];
    let head = [1, 0, 0, 0, 0, 0, 1, 0, 1, b't', 0, 1, b'r', 0];
    [
        &head[..],
        &[types.len() as u8],
        types,
        &[metadata.len() as u8],
        metadata,
        &nullable,
        optional,
    ]
    .concat()
}

fn all<T>(items: impl Iterator<Item = Result<T, Refusal>>) -> Vec<T> {
    items.map(Result::unwrap).collect()
}

fn named<'a>(table: &'a Table, name: &str) -> TableColumn<'a> {
    let found = table.columns().find(|c| c.name == Some(name.as_bytes()));
    found.unwrap()
}

#[test]
fn a_table_has_its_columns_by_name_and_type() {
    let event = bytes(ALL_TYPES);
    let table = table(event, 8, Dialect::Mysql).unwrap();
    assert_eq!(table.map().table, b"alltypes_pk_0");
    assert_eq!(table.columns().len(), 31);
    assert_eq!(table.record().columns(), 31);
    let types: Vec<_> = table.columns().map(|c| c.column.real_type).collect();
    let mysql = [
        "LONG",
        "TINY",
        "SHORT",
        "INT24",
        "LONG",
        "LONGLONG",
        "FLOAT",
        "DOUBLE",
        "NEWDECIMAL",
        "BIT",
        "YEAR",
        "NEWDATE",
        "TIME2",
        "DATETIME2",
        "TIMESTAMP2",
        "STRING",
        "VARCHAR",
        "STRING",
        "VARCHAR",
        "BLOB",
        "BLOB",
        "BLOB",
        "BLOB",
        "ENUM",
        "SET",
        "JSON",
        "GEOMETRY",
        "GEOMETRY",
        "TIME2",
        "TINY",
        "VECTOR",
    ];
    assert_eq!(types.iter().map(|t| t.name()).collect::<Vec<_>>(), mysql);
    let id = named(&table, "id").column;
    assert_eq!(
        (id.nullable, id.unsigned, id.sign_known),
        (false, false, true)
    );
    let c01 = named(&table, "c01").column;
    assert_eq!(
        (c01.nullable, c01.unsigned, c01.sign_known),
        (true, true, true)
    );
    // as information_schema has them: utf8mb4_0900_ai_ci, latin1_swedish_ci, none
    let charsets = ["c14", "c15", "c22", "c09"].map(|c| named(&table, c).column.charset);
    assert_eq!(charsets, [255, 8, 8, 0]);
}

#[test]
fn lists_are_those_of_the_columns_of_their_type() {
    let event = bytes(ALL_TYPES);
    let table = table(event, 8, Dialect::Mysql).unwrap();
    for column in table.columns() {
        let kind = column.column.real_type;
        let choice = matches!(kind, ColumnType::Enum | ColumnType::Set);
        assert_eq!(column.strings.is_some(), choice, "{kind}");
        let geometry = kind == ColumnType::Geometry;
        assert_eq!(column.geometry.is_some(), geometry, "{kind}");
        let vector = kind == ColumnType::Vector;
        assert_eq!(column.dimensions.is_some(), vector, "{kind}");
    }
    let strings = |name| named(&table, name).strings.unwrap();
    assert_eq!(strings("c22").count(), 2);
    assert_eq!(strings("c22").strings().collect::<Vec<_>>(), [b"x", b"y"]);
    assert_eq!(
        strings("c23").strings().collect::<Vec<_>>(),
        [b"p", b"q", b"r"]
    );
    let geometry = |name| named(&table, name).geometry;
    assert_eq!(geometry("c25"), Some(GeometryType::Point));
    assert_eq!(geometry("c26"), Some(GeometryType::GeometryCollection));
    assert_eq!(named(&table, "c29").dimensions, Some(4));
    let whole = KeyPart {
        column: 0,
        prefix: None,
    };
    assert_eq!(table.primary_key(), [whole]);
}

#[test]
fn a_row_is_matched_to_its_table() {
    let event = bytes(CHOICES);
    let table = table(event, 8, Dialect::Mysql).unwrap();
    // 0, 'a', no string, 0; and 1, 'b', 'a', 1; and 2, 'a', 'a,b', 2
    let rows = bytes("cd00000000001100020004ff00000000000100000000000001000000020101000000000200000001030200000000");
    let rows = &rows[..rows.len() - 1];
    let mut read = Vec::new();
    for row in table.rows_event(code::WRITE_ROWS, rows).unwrap().rows() {
        for item in row.unwrap().after.unwrap().values().unwrap() {
            let (column, value) = item.unwrap();
            let told = table.column(column).unwrap();
            let strings = told.strings.map(|group| match value {
                Value::Uint(number) => group.of_enum(number).into_iter().collect(),
                Value::Bytes(bits) => group.of_set(bits).collect::<Vec<_>>(),
                other => panic!("{other:?}"),
            });
            read.push((told.name.unwrap(), strings));
        }
    }
    let (a, b) = (&b"a"[..], &b"b"[..]);
    let row = |of_enum: &[&'static [u8]], of_set: &[&'static [u8]]| {
        [
            (&b"c0"[..], None),
            (b"c1", Some(of_enum.to_vec())),
            (b"c2", Some(of_set.to_vec())),
            (b"c3", None),
        ]
    };
    let expected = [row(&[a], &[]), row(&[b], &[a]), row(&[a], &[a, b])];
    assert_eq!(read, expected.concat());
    // a rows event of another table
    let mut other = rows.to_vec();
    other[0] = 0xce;
    assert_eq!(
        table.rows_event(code::WRITE_ROWS, &other).err(),
        Some(Refusal::OtherEvent { place: 0 })
    );
}

#[test]
fn numbers_without_a_string_have_none() {
    let event = bytes(CHOICES);
    let table = table(event, 8, Dialect::Mysql).unwrap();
    let group = table.column(1).unwrap().strings.unwrap();
    assert_eq!(group.of_enum(0), None);
    assert_eq!(group.of_enum(2), Some(&b"b"[..]));
    assert_eq!(group.of_enum(3), None);
    assert_eq!(group.of_enum(u64::MAX), None);
    assert_eq!(group.of_set(&[]).count(), 0);
    assert_eq!(group.of_set(&[0xfc, 0xff]).count(), 0);
    assert_eq!(group.of_set(&[0xff]).count(), 2);
}

#[test]
fn a_key_may_have_prefixes() {
    let event = bytes(PREFIXES);
    let table = table(event, 8, Dialect::Mysql).unwrap();
    let key = |column, prefix| KeyPart { column, prefix };
    let expected = [key(0, None), key(1, Some(10)), key(2, Some(7))];
    assert_eq!(table.primary_key(), expected);
}

#[test]
fn a_map_that_tells_little_is_a_table_too() {
    // an ENUM, a VECTOR and a POINT, and no optional fields
    let event = map_of(&[0xfe, 0xf2, 0xff], &[0xf7, 1, 4, 4], &[]);
    let table = table(event, 8, Dialect::Mysql).unwrap();
    assert_eq!(table.primary_key(), []);
    for column in table.columns() {
        assert_eq!(column.name, None);
        assert_eq!(column.strings, None);
        assert_eq!((column.geometry, column.dimensions), (None, None));
    }
    assert_eq!(table.column(0).unwrap().column.real_type, ColumnType::Enum);
    assert_eq!(table.column(3), None);
    // a map without columns
    let event = map_of(&[], &[], &[]);
    let empty = feed::table(event, 8, Dialect::Mysql).unwrap();
    assert_eq!(empty.columns().len(), 0);
}

#[test]
fn a_map_that_the_check_refuses_is_no_table() {
    let refused = |optional: &[u8]| {
        let event = map_of(&[0xfe], &[0xf7, 1], optional);
        table(event, 8, Dialect::Mysql).err()
    };
    assert_eq!(refused(&[6, 2, 1, 0]), None);
    // a group too many, a group too few, a string cut short, and a column of the key that there is not
    let bad = Some(Refusal::BadField { place: 20 });
    assert_eq!(refused(&[6, 4, 1, 0, 1, 0]), bad);
    assert_eq!(refused(&[6, 0]), bad);
    assert_eq!(refused(&[6, 2, 1, 1]), bad);
    assert_eq!(refused(&[8, 1, 1]), bad);
    assert_eq!(refused(&[14, 0]), Some(Refusal::UnknownField { place: 20 }));
    let short = table([1, 2], 8, Dialect::Mysql).err();
    assert_eq!(short, Some(Refusal::Short { place: 0 }));
}

#[test]
fn a_map_tells_its_type_bytes_and_nullable_bits() {
    let event = bytes(CHOICES);
    let told = map(&event, 8).unwrap();
    assert_eq!(told.types, [3, 0xfe, 0xfe, 3]);
    assert_eq!(told.metadata, [0xf7, 1, 0xf8, 1]);
    assert_eq!(told.nullable, [0x0f]);
    assert_eq!(told.optional, &event[event.len() - told.optional.len()..]);
    assert_eq!([0, 3, 4].map(|c| told.is_nullable(c)), [true, true, false]);
    // the bits are not judged: spare ones are of no column
    let mut event = map_of(&[3], &[], &[]);
    *event.last_mut().unwrap() = 0xfe;
    let told = map(&event, 8).unwrap();
    assert_eq!([0, 1, 8].map(|c| told.is_nullable(c)), [false; 3]);
}

#[test]
fn fields_are_walked_in_order() {
    let event = bytes(PREFIXES);
    let walked = all(fields(&event, 8, Dialect::Mysql).unwrap());
    let kinds: Vec<_> = walked.iter().map(|field| field.kind).collect();
    assert_eq!(kinds, [1, 3, 4, 9, 12]);
    let key = Field {
        kind: field_type::PRIMARY_KEY_WITH_PREFIX,
        value: &[0, 0, 1, 10, 2, 7],
    };
    assert_eq!(walked[3], key);
    assert_eq!(all(pairs(key.value)), [(0, 0), (1, 10), (2, 7)]);
    assert_eq!(all(integers(walked[1].value)), [8, 255]);
    assert_eq!(all(strings(walked[2].value)), [b"a", b"t", b"v", b"d"]);
}

#[test]
fn a_walk_is_refused_once() {
    // a YEAR has a signedness bit in MySQL and none by the letter
    let event = map_of(&[13], &[], &[1, 1, 0x80, 4, 2, 1, b'y']);
    assert_eq!(all(fields(&event, 8, Dialect::Mysql).unwrap()).len(), 2);
    let mut walk = fields(&event, 8, Dialect::Document).unwrap();
    assert_eq!(walk.next(), Some(Err(Refusal::BadField { place: 18 })));
    assert_eq!(walk.next(), None);
    let no_event = fields(&[1, 2], 8, Dialect::Mysql).err();
    assert_eq!(no_event, Some(Refusal::Short { place: 0 }));
    let mut walk = integers(&[5, 251, 5]);
    assert_eq!(walk.next(), Some(Ok(5)));
    assert_eq!(walk.next(), Some(Err(Refusal::NotPacked { place: 1 })));
    assert_eq!(walk.next(), None);
    // a hostile count is believed only as far as the bytes go
    let hostile = [
        0xfe, 0xff, 0xff, 0xff, 0xff, 0xff, 0xff, 0xff, 0xff, 1, b'a',
    ];
    assert_eq!(
        groups(&hostile).next(),
        Some(Err(Refusal::Short { place: 11 }))
    );
    let mut walk = strings(&[1, b'a', 2, b'b']);
    assert_eq!(walk.next(), Some(Ok(&b"a"[..])));
    assert_eq!(walk.next(), Some(Err(Refusal::Short { place: 2 })));
    assert_eq!(walk.next(), None);
}

#[test]
fn every_beginning_of_a_map_ends() {
    // whatever is left of a map, each walk comes to an end or is refused
    for hex in [ALL_TYPES, PREFIXES, CHOICES] {
        let event = bytes(hex);
        for length in 0..event.len() {
            let event = &event[..length];
            for dialect in [Dialect::Document, Dialect::Mysql, Dialect::Mariadb] {
                let walk = fields(event, 8, dialect);
                assert_eq!(walk.is_ok(), map(event, 8).is_ok(), "{length}");
                for field in walk.into_iter().flatten().flatten() {
                    integers(field.value).for_each(drop);
                    pairs(field.value).for_each(drop);
                    strings(field.value).for_each(drop);
                    groups(field.value)
                        .flatten()
                        .for_each(|g| g.strings().for_each(drop));
                }
                assert_eq!(
                    table(event, 8, dialect).err(),
                    feed::check(event, 8, dialect).err(),
                    "{length}"
                );
            }
        }
    }
}

#[test]
fn type_numbers_have_names() {
    let known: Vec<u8> = (0..=255)
        .filter(|n| ColumnType::from_number(*n).is_some())
        .collect();
    let taken: Vec<u8> = [1..=5, 7..=19, 242..=242, 245..=255]
        .into_iter()
        .flatten()
        .collect();
    assert_eq!(known, taken);
    let mut names = std::collections::HashSet::new();
    for number in known {
        let kind = ColumnType::from_number(number).unwrap();
        assert_eq!(kind.number(), number);
        assert!(names.insert(kind.to_string()), "{kind}");
    }
    assert_eq!(ColumnType::NewDecimal.name(), "NEWDECIMAL");
    for number in 0..8 {
        let kind = GeometryType::from_number(number).unwrap();
        assert_eq!(kind.number(), number);
    }
    assert_eq!(GeometryType::from_number(8), None);
    assert_eq!(GeometryType::from_number(u64::MAX), None);
}
