// The table map event, its optional fields and their lists: binlog/events/table_map_event.rs.
use bitvec::prelude::*;

use crate::{
    ERROR,
    binlog::{
        BinlogCtx, BinlogStruct,
        consts::BinlogVersion,
        events::{FormatDescriptionEvent, table_map_event::*},
    },
    caught,
    constants::ColumnType,
    hex,
    io::{BufMutExt, ParseBuf, ReadMysqlExt},
    proto::MySerialize,
};

// What is done with an event that the Rust reads.
fn with_event(
    post_header: u8,
    bytes: &[u8],
    f: impl FnOnce(&TableMapEvent<'_>) -> String,
) -> String {
    let fde = FormatDescriptionEvent { post_header };
    match ParseBuf(bytes).parse::<TableMapEvent>(BinlogCtx { fde: &fde }) {
        Ok(event) => f(&event),
        Err(_) => ERROR.into(),
    }
}

fn written_by<T: MySerialize>(x: &T) -> Vec<u8> {
    let mut bytes = Vec::new();
    x.serialize(&mut bytes);
    bytes
}

// The parts of an event, the event written again, and what `len` says of its size. Flags, metadata and optional bytes have no call of their own: they are cut out of what the Rust writes.
pub fn event(post_header: u8, bytes: &[u8]) -> String {
    with_event(post_header, bytes, |event| {
        let all = written_by(event);
        let len = BinlogStruct::len(event, BinlogVersion::Version4);
        format!("{} | {} | {len}", parts(event, &all), hex(&all))
    })
}

fn parts(event: &TableMapEvent<'_>, all: &[u8]) -> String {
    let (db, table) = (event.database_name_raw(), event.table_name_raw());
    let n = event.columns_count() as usize;
    let flags = u16::from_le_bytes([all[6], all[7]]);
    let mut rest = &all[8 + db.len() + 2 + table.len() + 2..];
    rest.read_lenenc_int().expect("the count of columns");
    let (types, mut rest) = rest.split_at(n);
    let len = rest.read_lenenc_int().expect("the length of the metadata") as usize;
    let (metadata, rest) = rest.split_at(len);
    let (bits, optional) = rest.split_at(n.div_ceil(8));
    let nullable = event.null_bitmask();
    assert!((0..n).all(|j| nullable[j] == (bits[j / 8] >> (j % 8) & 1 == 1)));
    let id = event.table_id();
    let words = [db, table, types, metadata, bits, optional]
        .map(hex)
        .join(" ");
    format!("ok {id} {flags} {words}")
}

// An event of these columns, with these optional bytes.
fn event_of(types: &[u8], optional: &[u8]) -> Vec<u8> {
    let mut bytes = vec![0; 12];
    bytes.put_lenenc_int(types.len() as u64);
    bytes.extend_from_slice(types);
    bytes.push(0);
    bytes.resize(bytes.len() + types.len().div_ceil(8), 0);
    bytes.extend_from_slice(optional);
    bytes
}

fn bits(bits: &BitSlice<u8, Msb0>) -> String {
    let mut bytes = vec![0; bits.len().div_ceil(8)];
    for at in bits.iter_ones() {
        bytes[at / 8] |= 128 >> (at % 8);
    }
    hex(&bytes)
}

// Each field as its type and its contents, as the Rust writes them: bits without the spare ones, a default charset in its shortest form, all else as it stands. To the first error.
pub fn fields(types: &[u8], optional: &[u8]) -> String {
    with_event(8, &event_of(types, optional), |event| {
        let mut words = Vec::new();
        for field in event.iter_optional_meta() {
            let Ok(field) = field else {
                words.push(ERROR.into());
                return words.join(" ");
            };
            use OptionalMetadataField::*;
            let (kind, contents) = match &field {
                Signedness(x) => (1, bits(x)),
                DefaultCharset(x) => (2, hex(&written_by(x))),
                ColumnCharset(x) => (3, hex(&written_by(x))),
                ColumnName(x) => (4, hex(&written_by(x))),
                SetStrValue(x) => (5, hex(&written_by(x))),
                EnumStrValue(x) => (6, hex(&written_by(x))),
                GeometryType(x) => (7, hex(&written_by(x))),
                SimplePrimaryKey(x) => (8, hex(&written_by(x))),
                PrimaryKeyWithPrefix(x) => (9, hex(&written_by(x))),
                EnumAndSetDefaultCharset(x) => (10, hex(&written_by(x))),
                EnumAndSetColumnCharset(x) => (11, hex(&written_by(x))),
                ColumnVisibility(x) => (12, bits(x)),
                Dimensionality(x) => (13, hex(&written_by(x))),
            };
            words.push(format!("{kind}:{contents}"));
        }
        words.push("end".into());
        words.join(" ")
    })
}

// The items of a walk, to the first error.
fn items<T>(walk: impl Iterator<Item = std::io::Result<T>>, item: impl Fn(T) -> String) -> String {
    let mut words = Vec::new();
    for x in walk {
        match x {
            Ok(x) => words.push(item(x)),
            Err(_) => {
                words.push(ERROR.into());
                return words.join(" ");
            }
        }
    }
    words.push("end".into());
    words.join(" ")
}

fn defaults(field: &DefaultCharset<'_>) -> String {
    let pairs = items(field.iter_non_default(), |x| {
        format!("{}:{}", x.column_index(), x.charset())
    });
    format!("default:{} {pairs}", field.default_charset())
}

// The answers of each type of field that has such a list.
pub fn lists(name: &str, value: &[u8]) -> String {
    let kinds: &[u8] = match name {
        "integers" => &[8, 13, 3, 11, 7],
        "pairs" => &[9],
        "charsets" => &[2, 10],
        "strings" => &[4],
        "groups" => &[5, 6],
        other => panic!("no such list: {other}"),
    };
    let answers: Vec<String> = kinds
        .iter()
        .map(|kind| caught(|| list(*kind, value)))
        .collect();
    answers.join(" | ")
}

// The items of a field of this type with this value. A group is its count, and its strings behind a slash each.
fn list(kind: u8, value: &[u8]) -> String {
    let mut optional = vec![kind];
    optional.put_lenenc_str(value);
    with_event(8, &event_of(&[], &optional), |event| {
        let Some(Ok(field)) = event.iter_optional_meta().next() else {
            return ERROR.into();
        };
        use OptionalMetadataField::*;
        match &field {
            DefaultCharset(x) | EnumAndSetDefaultCharset(x) => defaults(x),
            ColumnCharset(x) | EnumAndSetColumnCharset(x) => {
                items(x.iter_charsets(), |c| c.to_string())
            }
            ColumnName(x) => items(x.iter_names(), |name| hex(name.name_raw())),
            SetStrValue(x) => items(x.iter_values(), |group| {
                let strings = group
                    .values()
                    .iter()
                    .map(|s| format!("/{}", hex(s.value_raw())));
                group.num_variants().to_string() + &strings.collect::<String>()
            }),
            EnumStrValue(x) => items(x.iter_values(), |group| {
                let strings = group
                    .values()
                    .iter()
                    .map(|s| format!("/{}", hex(s.value_raw())));
                group.num_variants().to_string() + &strings.collect::<String>()
            }),
            GeometryType(x) => items(x.iter_geometry_types(), |g| (g as u8).to_string()),
            SimplePrimaryKey(x) => items(x.iter_indexes(), |i| i.to_string()),
            PrimaryKeyWithPrefix(x) => items(x.iter_keys(), |k| {
                format!("{}:{}", k.column_index(), k.prefix_length())
            }),
            Dimensionality(x) => items(x.iter_dimensionalities(), |d| d.to_string()),
            Signedness(_) | ColumnVisibility(_) => ERROR.into(),
        }
    })
}

// What the fields of a map say of its columns, by their rank in a class, and of their visibility by place.
struct Columns {
    signs: Option<Vec<bool>>,
    visible: Option<Vec<bool>>,
    charsets: Vec<u16>,
    enum_charsets: Vec<u16>,
}

// How many columns of each class went before.
#[derive(Default)]
struct Ranks {
    numeric: usize,
    character: usize,
    enum_or_set: usize,
}

impl Columns {
    // Flags 1 and 4. The record has no room for the sign of a YEAR, nor of a DECIMAL of old.
    fn sign_flags(&self, kind: ColumnType, ranks: &Ranks) -> u8 {
        match &self.signs {
            Some(signs) if kind.is_numeric_type() && !matches!(kind as u8, 0 | 13) => {
                4 | signs[ranks.numeric] as u8
            }
            _ => 0,
        }
    }

    fn charset(&self, kind: ColumnType, ranks: &Ranks) -> u16 {
        let found = if kind.is_character_type() {
            self.charsets.get(ranks.character)
        } else if kind.is_enum_or_set_type() {
            self.enum_charsets.get(ranks.enum_or_set)
        } else {
            None
        };
        found.copied().unwrap_or(0)
    }
}

// The charset of each column of a class, by rank.
fn charsets(size: usize, field: &OptionalMetadataField<'_>) -> std::io::Result<Vec<u16>> {
    use OptionalMetadataField::*;
    match field {
        DefaultCharset(x) | EnumAndSetDefaultCharset(x) => {
            let mut all = vec![x.default_charset(); size];
            for pair in x.iter_non_default() {
                let pair = pair?;
                if let Some(charset) = all.get_mut(pair.column_index() as usize) {
                    *charset = pair.charset();
                }
            }
            Ok(all)
        }
        ColumnCharset(x) | EnumAndSetColumnCharset(x) => x.iter_charsets().collect(),
        _ => Ok(Vec::new()),
    }
}

fn columns_of(event: &TableMapEvent<'_>, real: &[ColumnType]) -> std::io::Result<Columns> {
    use OptionalMetadataField::*;
    let characters = real.iter().filter(|t| t.is_character_type()).count();
    let enums = real.iter().filter(|t| t.is_enum_or_set_type()).count();
    let mut columns = Columns {
        signs: None,
        visible: None,
        charsets: Vec::new(),
        enum_charsets: Vec::new(),
    };
    for field in event.iter_optional_meta() {
        let field = field?;
        match &field {
            Signedness(bits) => columns.signs = Some(bits.iter().by_vals().collect()),
            ColumnVisibility(bits) => columns.visible = Some(bits.iter().by_vals().collect()),
            DefaultCharset(_) | ColumnCharset(_) => {
                columns.charsets = charsets(characters, &field)?
            }
            EnumAndSetDefaultCharset(_) | EnumAndSetColumnCharset(_) => {
                columns.enum_charsets = charsets(enums, &field)?
            }
            _ => {}
        }
    }
    Ok(columns)
}

fn entry(
    event: &TableMapEvent<'_>,
    columns: &Columns,
    ranks: &Ranks,
    j: usize,
    kind: ColumnType,
) -> Option<[u8; 6]> {
    let metadata = event.get_column_metadata(j)?;
    let mut flags = columns.sign_flags(kind, ranks);
    if event.null_bitmask()[j] {
        flags |= 2;
    }
    if columns.visible.as_ref().is_none_or(|bits| bits[j]) {
        flags |= 8;
    }
    let byte = |at: usize| metadata.get(at).copied().unwrap_or(0);
    let [low, high] = columns.charset(kind, ranks).to_le_bytes();
    Some([kind as u8, flags, byte(0), byte(1), low, high])
}

// A map of more has no record.
const MOST_COLUMNS: u16 = 4096;

fn record_of(event: &TableMapEvent<'_>) -> Option<Vec<u8>> {
    let n = u16::try_from(event.columns_count()).ok()?;
    if n > MOST_COLUMNS {
        return None;
    }
    let real: Option<Vec<ColumnType>> = (0..n as usize)
        .map(|j| event.get_column_type(j).ok().flatten())
        .collect();
    let real = real?;
    let columns = columns_of(event, &real).ok()?;
    let kind = if n <= u8::MAX.into() { 1 } else { 2 };
    let mut record: Vec<u8> = [6 + 6 * n, kind, n]
        .iter()
        .flat_map(|number| number.to_le_bytes())
        .collect();
    let mut ranks = Ranks::default();
    for (j, kind) in real.into_iter().enumerate() {
        record.extend_from_slice(&entry(event, &columns, &ranks, j, kind)?);
        ranks.numeric += kind.is_numeric_type() as usize;
        ranks.character += kind.is_character_type() as usize;
        ranks.enum_or_set += kind.is_enum_or_set_type() as usize;
    }
    Some(record)
}

// The record that a user of the Rust would make of a map, by its own classes of columns and its own real types.
pub fn record(post_header: u8, bytes: &[u8]) -> String {
    with_event(post_header, bytes, |event| match record_of(event) {
        Some(record) => format!("ok {}", hex(&record)),
        None => ERROR.into(),
    })
}
