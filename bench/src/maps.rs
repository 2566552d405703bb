//! Table map events of the measured tables, and how long their check takes.

use crate::input::{Column, Input};
use crate::port;
use crate::time::nanos;
use std::hint::black_box;

/// The body of a table map event whose record is the input's. Besides signedness it has names, and so many of its columns are keys.
pub fn event(columns: usize, keys: usize) -> Vec<u8> {
    let table = Column::table(columns);
    let mut event = vec![42, 0, 0, 0, 0, 0, 1, 0];
    event.extend_from_slice(b"\x04feed\0\x04rows\0");
    put_packed(&mut event, columns);
    event.extend(table.iter().map(Column::type_byte));
    let metadata: Vec<u8> = table.iter().flat_map(Column::metadata).collect();
    put_packed(&mut event, metadata.len());
    event.extend(metadata);
    event.extend(vec![0xff; columns.div_ceil(8)]);
    put_field(&mut event, 1, &signedness(&table));
    put_field(&mut event, 4, &names(columns));
    let mut list = Vec::new();
    (0..keys).for_each(|key| put_packed(&mut list, key));
    put_field(&mut event, 8, &list);
    event
}

fn put_field(event: &mut Vec<u8>, kind: u8, value: &[u8]) {
    event.push(kind);
    put_packed(event, value.len());
    event.extend_from_slice(value);
}

/// A packed integer below 2^24, in its shortest form.
fn put_packed(bytes: &mut Vec<u8>, number: usize) {
    let stored = number.to_le_bytes();
    match number {
        0..=250 => bytes.push(number as u8),
        251..=0xffff => bytes.extend_from_slice(&[252, stored[0], stored[1]]),
        _ => bytes.extend_from_slice(&[253, stored[0], stored[1], stored[2]]),
    }
}

/// A bit for each column that MySQL counts as numeric, the highest first, set where it is unsigned.
fn signedness(table: &[Column]) -> Vec<u8> {
    let numeric: Vec<bool> = table.iter().filter_map(Column::is_unsigned).collect();
    let byte = |eight: &[bool]| {
        eight
            .iter()
            .enumerate()
            .fold(0, |byte, (i, &bit)| byte | u8::from(bit) << (7 - i))
    };
    numeric.chunks(8).map(byte).collect()
}

/// Names of eight bytes.
fn names(columns: usize) -> Vec<u8> {
    (0..columns)
        .flat_map(|i| format!("\x08col_{i:04}").into_bytes())
        .collect()
}

/// Prints how long the check of a map takes, the best of so many rounds.
pub fn table(rounds: usize, columns: &[usize]) -> Result<(), String> {
    println!("| columns | keys | bytes of the map | best, microseconds | nanoseconds a column |");
    println!("|---|---|---|---|---|");
    for &columns in columns {
        for keys in [1, columns] {
            let event = event(columns, keys);
            let best = best_nanos(&event, rounds)?;
            let micros = best / 1000.0;
            let a_column = best / columns as f64;
            println!(
                "| {columns} | {keys} | {} | {micros:.1} | {a_column:.1} |",
                event.len()
            );
        }
    }
    Ok(())
}

/// Checks a map so many times, and tells the best time.
pub fn best_nanos(event: &[u8], times: usize) -> Result<f64, String> {
    let mut record = room();
    let mut best = f64::INFINITY;
    for _ in 0..times {
        let (checked, took) = nanos(|| port::check(black_box(event), &mut record));
        checked.map_err(|why| format!("the check refused a measured map: {why:?}"))?;
        best = best.min(took);
    }
    Ok(best)
}

/// Room for any record.
fn room() -> Vec<u8> {
    vec![0; 6 + 6 * 4096]
}

/// Whether the check accepts the maps of the measured tables, and writes the records that the input is made with.
pub fn compare() -> Result<(), String> {
    for columns in [5, 20, 255, 900, 4096] {
        for keys in [1, columns] {
            let mut record = room();
            let checked = port::check(&event(columns, keys), &mut record);
            let length = checked
                .map_err(|why| format!("the map of {columns} columns is refused: {why:?}"))?;
            if record[..length] != Input::new(1, columns, 0).record {
                return Err(format!(
                    "the record of the map of {columns} columns is not the input's"
                ));
            }
        }
    }
    println!("maps of 5, 20, 255, 900 and 4096 columns, with one key and with all: each accepted, with the record that the rows are made with");
    Ok(())
}
