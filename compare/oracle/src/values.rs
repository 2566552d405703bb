// Values of columns: the reader of binlog/value.rs.
use crate::{
    ERROR, binlog::value::BinlogValue, constants::ColumnType, hex, io::ParseBuf, value::Value,
};

// A value as `cases` writes it.
fn told(kind: u8, unsigned: bool, value: BinlogValue<'_>) -> String {
    let value = match value {
        BinlogValue::Value(value) => value,
        BinlogValue::Jsonb(_) => return "json".into(),
        BinlogValue::JsonDiff(_) => return "diff".into(),
    };
    match value {
        Value::NULL => "null".into(),
        Value::Int(x) if kind == 7 => format!("seconds:{x}:0"),
        Value::Int(x) if kind == 247 || unsigned => format!("uint:{x}"),
        Value::Int(x) => format!("int:{x}"),
        Value::UInt(x) => format!("uint:{x}"),
        Value::Float(x) => format!("float:{}", x.to_bits()),
        Value::Double(x) => format!("double:{}", x.to_bits()),
        Value::Date(y, m, d, ..) if kind == 14 => format!("date:{y}:{m}:{d}"),
        Value::Date(y, m, d, h, i, s, us) => format!("datetime:{y}:{m}:{d}:{h}:{i}:{s}:{us}"),
        Value::Time(negative, days, h, m, s, us) => {
            let sign = if negative { "-" } else { "+" };
            format!("time:{sign}:{}:{m}:{s}:{us}", 24 * days + h as u32)
        }
        Value::Bytes(text) if kind == 13 => format!("year:{}", String::from_utf8_lossy(&text)),
        Value::Bytes(text) if kind == 17 => seconds(&String::from_utf8_lossy(&text)),
        Value::Bytes(bytes) => format!("bytes:{}", hex(&bytes)),
    }
}

// A timestamp, which the Rust gives as text.
fn seconds(text: &str) -> String {
    let (whole, micros) = text.split_once('.').unwrap_or((text, "0"));
    format!(
        "seconds:{whole}:{}",
        micros.parse::<i64>().expect("microseconds")
    )
}

// The next value. What is read borrows from the metadata's lifetime too: the Rust has one for both.
fn read<'a>(
    kind: u8,
    metadata: &'a [u8],
    unsigned: bool,
    buf: &mut ParseBuf<'a>,
) -> Option<String> {
    let column = ColumnType::try_from(kind).ok()?;
    let value = buf.parse::<BinlogValue>((column, metadata, unsigned, false));
    value.ok().map(|value| told(kind, unsigned, value))
}

pub fn lone(kind: u8, metadata: &[u8], unsigned: bool, bytes: &[u8]) -> String {
    let mut buf = ParseBuf(bytes);
    match read(kind, metadata, unsigned, &mut buf) {
        Some(value) => format!("ok {value} {}", bytes.len() - buf.len()),
        None => ERROR.into(),
    }
}

fn bit(bits: &[u8], at: usize) -> bool {
    bits[at / 8] >> (at % 8) & 1 == 1
}

// What is stepped over by document 01's rules, for the Rust's own are not supplied (decimals) or read more than a length (JSON).
fn stepped_over<'a>(kind: u8, m0: u8, m1: u8, buf: &mut ParseBuf<'a>) -> Option<String> {
    if kind == 245 {
        let len = buf.checked_eat_u32_le()?;
        return buf.checked_eat(len as usize).map(|_| "json".into());
    }
    let digits = |d: usize| 4 * (d / 9) + [0, 1, 1, 2, 2, 3, 3, 4, 4][d % 9];
    let size = digits((m0 - m1) as usize) + digits(m1 as usize);
    buf.checked_eat(size).map(|_| "decimal".into())
}

// The rows event is not supplied: which column is present and which is NULL is decided here, the Rust reads the values.
pub fn image(record: &[u8], presence: &[u8], image: &[u8]) -> String {
    let columns: Vec<&[u8]> = record[6..].chunks(6).collect();
    let present: Vec<usize> = (0..columns.len()).filter(|j| bit(presence, *j)).collect();
    let nulls = present.len().div_ceil(8);
    if image.len() < nulls {
        return ERROR.into();
    }
    let mut buf = ParseBuf(&image[nulls..]);
    let mut words = Vec::new();
    for (rank, j) in present.iter().enumerate() {
        if bit(image, rank) {
            words.push("null".into());
            continue;
        }
        let entry = columns[*j];
        let value = match entry[0] {
            245 | 246 => stepped_over(entry[0], entry[2], entry[3], &mut buf),
            kind => read(kind, &entry[2..4], entry[1] & 1 == 1, &mut buf),
        };
        match value {
            Some(value) => words.push(value),
            None => {
                words.push(ERROR.into());
                return words.join(" ");
            }
        }
    }
    words.push(format!("end {}", image.len() - buf.len()));
    words.join(" ")
}
