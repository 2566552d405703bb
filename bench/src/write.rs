//! How long it takes to write rows of the measured tables. The values of the measured input are read, which is not timed, and written anew.

use crate::input::Input;
use crate::port;
use crate::side::Side;
use crate::time::nanos;
use crate::value::Refusal;
use std::hint::black_box;

/// What the rows are made from.
const SEED: u64 = 1;

/// How many values there are to write: so few that they stay in the processor's caches, as do those of a row that was just made.
const VALUES: usize = 10_000;

/// How many values are written in a timed run, the same rows again and again.
const WRITTEN: usize = 1_000_000;

/// The rows to write, all of one table.
struct Rows<'a> {
    input: &'a Input,
    record: &'a feed::Record,
    rows: Vec<Row<'a>>,
}

/// A row as it is lent: its null bits and its values, in numbers and as the crate has them; and the image that is to come of it.
struct Row<'a> {
    nulls: &'a [u8],
    numbers: Vec<[u64; 8]>,
    values: Vec<feed::Value<'a>>,
    image: Vec<u8>,
}

impl<'a> Rows<'a> {
    fn read(input: &'a Input, record: &'a feed::Record) -> Result<Rows<'a>, Refusal> {
        let mut numbers = Vec::new();
        let told = port::Run.walk(input.lent(), &mut |value| numbers.push(value));
        told.expect("a run tells its values")?;
        let mut rest = &input.images[..];
        let mut rows = Vec::new();
        for numbers in numbers.chunks(input.columns) {
            let mut row = record
                .row(&input.presence, rest)
                .map_err(port::our_refusal)?;
            let values: Result<Vec<_>, _> = row.by_ref().map(|item| Ok(item?.1)).collect();
            let used = row.bytes_used().unwrap_or(0);
            rows.push(Row {
                nulls: &rest[..input.columns.div_ceil(8)],
                numbers: numbers.to_vec(),
                values: values.map_err(port::our_refusal)?,
                image: with_spare_bits(&rest[..used], input.columns),
            });
            rest = &rest[used..];
        }
        Ok(Rows {
            input,
            record,
            rows,
        })
    }

    /// So many rows: all, and then all again.
    fn cycle(&self, count: usize) -> impl Iterator<Item = &Row<'a>> {
        self.rows.iter().cycle().take(count)
    }

    /// Room for an image: no value takes more than eight bytes.
    fn room(&self) -> Vec<u8> {
        vec![0; self.input.presence.len() + 8 * self.input.columns]
    }
}

/// An image with the spare null bits set, as a writer sets them.
fn with_spare_bits(image: &[u8], columns: usize) -> Vec<u8> {
    let mut image = image.to_vec();
    for bit in columns..8 * columns.div_ceil(8) {
        image[bit / 8] |= 1 << (bit % 8);
    }
    image
}

trait Writer {
    fn name(&self) -> &'static str;

    /// Whether a row costs the square of its columns, so that it is measured on fewer rows.
    fn is_square(&self) -> bool {
        false
    }

    /// Writes so many rows, and tells the image of each.
    fn write(&self, rows: &Rows, count: usize, told: &mut dyn FnMut(&[u8])) -> Result<(), Refusal>;
}

/// The writer of document 01: `feed_start`, and `feed_put` for each value.
struct Put;

impl Writer for Put {
    fn name(&self) -> &'static str {
        "put"
    }

    fn is_square(&self) -> bool {
        true
    }

    fn write(&self, rows: &Rows, count: usize, told: &mut dyn FnMut(&[u8])) -> Result<(), Refusal> {
        let (record, presence) = (&rows.input.record, &rows.input.presence);
        let mut image = rows.room();
        for row in rows.cycle(count) {
            let mut at = port::start(record, presence, row.nulls, &mut image)?;
            for value in &row.numbers {
                at = port::put(record, presence, row.nulls, at, value, &mut image)?;
            }
            told(&image[..at[1] as usize]);
        }
        Ok(())
    }
}

/// The plan made once, and then `feed_start`, and `feed_put_item` for each value.
struct PutItem;

impl Writer for PutItem {
    fn name(&self) -> &'static str {
        "put-item"
    }

    fn write(&self, rows: &Rows, count: usize, told: &mut dyn FnMut(&[u8])) -> Result<(), Refusal> {
        let (record, presence) = (&rows.input.record, &rows.input.presence);
        let plan = port::plan(record, presence)?;
        let mut image = rows.room();
        for row in rows.cycle(count) {
            let [_, offset] = port::start(record, presence, row.nulls, &mut image)?;
            let mut at = [0, offset];
            for value in &row.numbers {
                at = port::put_item(&plan, row.nulls, at, value, &mut image)?;
            }
            told(&image[..at[1] as usize]);
        }
        Ok(())
    }
}

/// The Rust crate in bindings/rust, which makes null bits and image itself.
struct Crate;

impl Writer for Crate {
    fn name(&self) -> &'static str {
        "crate"
    }

    fn write(&self, rows: &Rows, count: usize, told: &mut dyn FnMut(&[u8])) -> Result<(), Refusal> {
        // a copy has no plans: making one counts here too
        let record = rows.record.clone();
        for row in rows.cycle(count) {
            let image = record.write_row(&rows.input.presence, &row.values);
            told(&image.map_err(port::our_refusal)?);
        }
        Ok(())
    }
}

const WRITERS: [&dyn Writer; 3] = [&Put, &PutItem, &Crate];

/// Holds what all sides write against the input, and prints what a value takes: the best of so many rounds, all sides in turn.
pub fn table(rounds: usize, columns: &[usize]) -> Result<(), String> {
    if rounds == 0 || columns.contains(&0) {
        return Err("0 rounds, or rows of 0 columns, measure nothing".to_string());
    }
    let mut lines = WRITERS.map(|writer| format!("| `{}` |", writer.name()));
    for &columns in columns {
        for (line, best) in lines.iter_mut().zip(measured(rounds, columns)?) {
            let digits = if best < 100.0 { 2 } else { 0 };
            line.push_str(&format!(" {best:.digits$} |"));
        }
    }
    println!();
    let heads: Vec<String> = columns.iter().map(|n| format!(" {n} columns |")).collect();
    println!("| side |{}", heads.concat());
    println!("|---|{}", "---|".repeat(columns.len()));
    lines.iter().for_each(|line| println!("{line}"));
    Ok(())
}

/// The best time a value of each side, in nanoseconds, if all sides write the images of the input.
fn measured(rounds: usize, columns: usize) -> Result<[f64; WRITERS.len()], String> {
    let input = Input::new(SEED, columns, (VALUES / columns).max(2));
    let record = feed::Record::from_bytes(input.record.clone())
        .map_err(|why| format!("the measured record is refused: {why}"))?;
    let rows = Rows::read(&input, &record)
        .map_err(|why| format!("the measured input is refused: {why:?}"))?;
    for writer in WRITERS {
        compare(writer, &rows)?;
    }
    println!(
        "{columns} columns, {} rows: each side writes the images that were read, with the spare null bits set",
        input.rows
    );
    let mut best = [f64::INFINITY; WRITERS.len()];
    for round in 0..=rounds {
        for i in 0..WRITERS.len() {
            // each round begins with another side; the first round warms up
            let at = (round + i) % WRITERS.len();
            let nanos = nanos_a_value(WRITERS[at], &rows)?;
            if round > 0 {
                best[at] = best[at].min(nanos);
            }
        }
    }
    Ok(best)
}

/// Whether a side writes each row as its image was.
fn compare(writer: &dyn Writer, rows: &Rows) -> Result<(), String> {
    let (mut written, mut others) = (0, 0);
    let mut images = rows.rows.iter().map(|row| &row.image[..]);
    let done = writer.write(rows, rows.rows.len(), &mut |image| {
        written += 1;
        others += usize::from(images.next() != Some(image));
    });
    done.map_err(|why| refused(writer, why))?;
    if written != rows.rows.len() || others != 0 {
        return Err(format!(
            "{} columns: {} writes {others} of {written} rows otherwise than they were read",
            rows.input.columns,
            writer.name()
        ));
    }
    Ok(())
}

fn refused(writer: &dyn Writer, why: Refusal) -> String {
    format!("{} refused the measured values: {why:?}", writer.name())
}

fn nanos_a_value(writer: &dyn Writer, rows: &Rows) -> Result<f64, String> {
    let columns = rows.input.columns;
    let count = if writer.is_square() {
        WRITTEN / columns / columns
    } else {
        WRITTEN / columns
    };
    let count = count.max(2);
    let (done, took) = nanos(|| {
        writer.write(black_box(rows), count, &mut |image| {
            black_box(image);
        })
    });
    done.map_err(|why| refused(writer, why))?;
    Ok(took / (count * columns) as f64)
}
