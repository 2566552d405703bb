//! read_rows FILE: prints the tables of FILE, whose lines rows.txt explains: the columns with their types, the primary key, then a line for
//! each row, and for a rows event a line for each of its images, with the names of the columns that it has. Values of ENUM and SET columns
//! are shown as the strings that the map has for them.
//! Every row is also written again from its values, and must have the bytes that it was read from, but for the spare null bits.

use feed::{Dialect, Image, Table, TableColumn, Value};
use std::error::Error;
use std::{env, fs, process};

const POST_HEADER: u8 = 8;

fn from_hex(word: Option<&str>) -> Result<Vec<u8>, Box<dyn Error>> {
    let word = word.ok_or("a word is missing")?;
    word.as_bytes()
        .chunks(2)
        .map(|two| match two {
            [_, _] => Ok(u8::from_str_radix(std::str::from_utf8(two)?, 16)?),
            _ => Err("a word is not hexadecimal".into()),
        })
        .collect()
}

fn hex(bytes: &[u8]) -> String {
    bytes.iter().map(|byte| format!("{byte:02x}")).collect()
}

/// 'text' where every byte is a plain character, else x'hexadecimal'
fn shown_bytes(bytes: &[u8]) -> String {
    let plain = |byte: &u8| (b' '..=b'~').contains(byte) && *byte != b'\'';
    if bytes.iter().all(plain) {
        return format!("'{}'", String::from_utf8_lossy(bytes));
    }
    format!("x'{}'", hex(bytes))
}

fn shown_strings<'a>(strings: impl Iterator<Item = &'a [u8]>) -> String {
    let words: Vec<_> = strings.map(shown_bytes).collect();
    format!("({})", words.join(", "))
}

fn shown(column: &TableColumn, value: &Value) -> String {
    match (column.strings, *value) {
        // number 0, which has no string, is shown as the empty one
        (Some(group), Value::Uint(number)) => shown_bytes(group.of_enum(number).unwrap_or(&[])),
        (Some(group), Value::Bytes(bits)) => shown_strings(group.of_set(bits)),
        (_, value) => shown_plain(&value),
    }
}

fn shown_plain(value: &Value) -> String {
    match *value {
        Value::Null => "NULL".to_string(),
        Value::Int(n) => n.to_string(),
        Value::Uint(n) => n.to_string(),
        Value::Year(year) => year.to_string(),
        Value::Float(x) => format!("bits {:016x}", x.to_bits()),
        Value::Double(x) => format!("bits {:016x}", x.to_bits()),
        Value::Seconds { seconds, micros } => format!("{seconds}.{micros:06}"),
        Value::Date { year, month, day } => format!("{year:04}-{month:02}-{day:02}"),
        Value::Datetime {
            year,
            month,
            day,
            hour,
            minute,
            second,
            micros,
        } => format!("{year:04}-{month:02}-{day:02} {hour:02}:{minute:02}:{second:02}.{micros:06}"),
        Value::Time {
            negative,
            hours,
            minutes,
            seconds,
            micros,
        } => {
            let sign = if negative { "-" } else { "" };
            format!("{sign}{hours:02}:{minutes:02}:{seconds:02}.{micros:06}")
        }
        Value::Bytes(bytes) => shown_bytes(bytes),
        other => format!("{other:?}"),
    }
}

fn name(table: &Table, column: usize) -> Result<String, Box<dyn Error>> {
    let told = table.column(column).ok_or("there is no such column")?;
    let name = told.name.ok_or("a map has no names")?;
    Ok(String::from_utf8_lossy(name).into_owned())
}

/// The columns, with their real types, the strings of an ENUM or SET, and whether they are known to be unsigned and cannot be NULL.
fn print_columns(table: &Table) -> Result<(), Box<dyn Error>> {
    let mut words = Vec::new();
    for (i, told) in table.columns().enumerate() {
        let column = told.column;
        let strings = told.strings.map(|group| shown_strings(group.strings()));
        let sign = if column.unsigned { " unsigned" } else { "" };
        let null = if column.nullable { "" } else { " not null" };
        words.push(format!(
            "{} {}{}{sign}{null}",
            name(table, i)?,
            column.real_type,
            strings.unwrap_or_default()
        ));
    }
    println!("{}", words.join(" | "));
    Ok(())
}

/// The columns of the primary key, those with a prefix with its length.
fn print_key(table: &Table) -> Result<(), Box<dyn Error>> {
    let mut words = Vec::new();
    for key in table.primary_key() {
        let prefix = key.prefix.map(|length| format!("({length})"));
        words.push(name(table, key.column)? + &prefix.unwrap_or_default());
    }
    if !words.is_empty() {
        println!("  key {}", words.join(", "));
    }
    Ok(())
}

fn print_row(table: &Table, values: &[(usize, Value)]) {
    let words = table.columns().enumerate().map(|(i, told)| {
        let found = values.iter().find(|(column, _)| *column == i);
        found.map_or("absent".to_string(), |(_, value)| shown(&told, value))
    });
    println!("{}", words.collect::<Vec<_>>().join(" | "));
}

/// Whether two images of so many present columns are the same but for the spare bits in the last byte of their null bits.
fn same_row(a: &[u8], b: &[u8], present: usize) -> bool {
    let mask = |i: usize| match present % 8 {
        left if left != 0 && i == present / 8 => (1 << left) - 1,
        _ => 0xffu8,
    };
    a.len() == b.len() && (0..a.len()).all(|i| a[i] & mask(i) == b[i] & mask(i))
}

fn do_row(table: &Table, presence: &[u8], image: &[u8], show: bool) -> Result<(), Box<dyn Error>> {
    let record = table.record();
    let mut row = record.row(presence, image)?;
    let values = row.by_ref().collect::<Result<Vec<_>, _>>()?;
    print_row(table, &values);
    if row.bytes_used() != Some(image.len()) {
        return Err("the row does not take its whole image".into());
    }
    let alone: Vec<Value> = values.iter().map(|(_, value)| *value).collect();
    let written = record.write_row(presence, &alone)?;
    if record.image_room(presence)? < written.len() as u64 {
        return Err("an image is larger than its room".into());
    }
    if !same_row(image, &written, alone.len()) {
        return Err("the row that was written is not the one that was read".into());
    }
    if show {
        println!("  logged  {}", hex(image));
        println!("  written {}", hex(&written));
    }
    Ok(())
}

/// An image of an event: the values that it has, with their names.
fn print_image(table: &Table, image: &Image, what: &str) -> Result<(), Box<dyn Error>> {
    let mut words = Vec::new();
    for item in image.values()? {
        let (column, value) = item?;
        let told = table.column(column).ok_or("there is no such column")?;
        words.push(format!(
            "{} = {}",
            name(table, column)?,
            shown(&told, &value)
        ));
    }
    println!("  {what:6} {}", words.join(", "));
    Ok(())
}

/// A rows event: its body, without header and checksum.
fn do_event(table: &Table, code: u8, body: &[u8]) -> Result<(), Box<dyn Error>> {
    let whose = table.map();
    let event = table.rows_event(code, body)?;
    let [database, name] = [whose.database, whose.table].map(String::from_utf8_lossy);
    println!("event {code} of {database}.{name}");
    for row in event.rows() {
        let row = row?;
        if let Some(image) = row.before {
            print_image(table, &image, "before")?;
        }
        if let Some(image) = row.after {
            print_image(table, &image, "after")?;
        }
    }
    Ok(())
}

fn dialect_of(server: Option<&str>) -> Result<Dialect, Box<dyn Error>> {
    match server {
        Some("mysql") => Ok(Dialect::Mysql),
        Some("mariadb") => Ok(Dialect::Mariadb),
        _ => Err("a server is mysql or mariadb".into()),
    }
}

fn run() -> Result<(), Box<dyn Error>> {
    let path = env::args().nth(1).ok_or("usage: read_rows FILE")?;
    let text = fs::read_to_string(path)?;
    let mut dialect = Dialect::Document;
    let mut table: Option<Table> = None;
    let mut first = false;
    let mut rows = 0;
    for line in text.lines() {
        let mut words = line.split_whitespace();
        match (words.next(), &table) {
            (None, _) => {}
            (Some(word), _) if word.starts_with('#') => {}
            (Some("server"), _) => dialect = dialect_of(words.next())?,
            (Some("map"), _) => {
                let checked = feed::table(from_hex(words.next())?, POST_HEADER, dialect)?;
                print_columns(&checked)?;
                print_key(&checked)?;
                table = Some(checked);
                first = true;
            }
            (Some("row"), Some(table)) => {
                let presence = from_hex(words.next())?;
                let image = from_hex(words.next())?;
                do_row(table, &presence, &image, first)?;
                first = false;
                rows += 1;
            }
            (Some("event"), Some(table)) => {
                let code = words.next().ok_or("a word is missing")?.parse()?;
                do_event(table, code, &from_hex(words.next())?)?;
            }
            _ => {
                return Err("a line is none of server, map, row and event, or a row or event has no map before it".into())
            }
        }
    }
    println!("{rows} rows read, and written again: the same bytes but for the spare null bits");
    Ok(())
}

fn main() {
    if let Err(why) = run() {
        eprintln!("read_rows: {why}");
        process::exit(1);
    }
}
