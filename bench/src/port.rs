//! The sides of the port: its calls for C and Rust, and the Rust crate over them. All their `unsafe` is here.

use crate::input::Lent;
use crate::side::{sum_of, Ended, Side, BATCH};
use crate::value::{Refusal, Value};

/// Numbers that are enough for the answer of any call.
const NUMBERS: usize = 11;

/// The kind of a step that tells the end of an image.
const END: u64 = 0;

/// The kind of a value of bytes.
const BYTES: u64 = 11;

// libfeed_abi.a comes with the crate `feed`
extern "C" {
    fn feed_check(
        event: *const u8,
        event_length: usize,
        post_header: u8,
        dialect: u8,
        profile: *mut u8,
        profile_length: usize,
        out: *mut u64,
        out_length: usize,
    ) -> u64;

    fn feed_first(
        profile: *const u8,
        profile_length: usize,
        presence: *const u8,
        presence_length: usize,
        out: *mut u64,
        out_length: usize,
    ) -> u64;

    fn feed_step(
        profile: *const u8,
        profile_length: usize,
        presence: *const u8,
        presence_length: usize,
        image: *const u8,
        image_length: usize,
        column: usize,
        offset: usize,
        out: *mut u64,
        out_length: usize,
    ) -> u64;

    fn feed_plan(
        profile: *const u8,
        profile_length: usize,
        presence: *const u8,
        presence_length: usize,
        plan: *mut u8,
        plan_length: usize,
        out: *mut u64,
        out_length: usize,
    ) -> u64;

    fn feed_run(
        plan: *const u8,
        plan_length: usize,
        images: *const u8,
        images_length: usize,
        start: usize,
        item: usize,
        offset: usize,
        values: *mut u64,
        values_length: usize,
        out: *mut u64,
        out_length: usize,
    ) -> u64;

    fn feed_put_item(
        plan: *const u8,
        plan_length: usize,
        nulls: *const u8,
        nulls_length: usize,
        item: usize,
        offset: usize,
        kind: u64,
        parts: *const u64,
        parts_length: usize,
        lent: *const u8,
        lent_length: usize,
        image: *mut u8,
        image_length: usize,
        out: *mut u64,
        out_length: usize,
    ) -> u64;

    fn feed_start(
        profile: *const u8,
        profile_length: usize,
        presence: *const u8,
        presence_length: usize,
        nulls: *const u8,
        nulls_length: usize,
        image: *mut u8,
        image_length: usize,
        out: *mut u64,
        out_length: usize,
    ) -> u64;

    fn feed_put(
        profile: *const u8,
        profile_length: usize,
        presence: *const u8,
        presence_length: usize,
        nulls: *const u8,
        nulls_length: usize,
        column: usize,
        offset: usize,
        kind: u64,
        parts: *const u64,
        parts_length: usize,
        lent: *const u8,
        lent_length: usize,
        image: *mut u8,
        image_length: usize,
        out: *mut u64,
        out_length: usize,
    ) -> u64;
}

// bench/rows.c
#[link(name = "rows", kind = "static")]
extern "C" {
    fn rows_by_steps(
        profile: *const u8,
        profile_length: usize,
        presence: *const u8,
        presence_length: usize,
        images: *const u8,
        images_length: usize,
        out: *mut u64,
    ) -> u64;

    fn rows_by_run(
        profile: *const u8,
        profile_length: usize,
        presence: *const u8,
        presence_length: usize,
        images: *const u8,
        images_length: usize,
        out: *mut u64,
    ) -> u64;
}

/// What a call answered: its numbers, or the refusal that they tell.
fn answered<const N: usize>(status: u64, out: [u64; N]) -> Result<[u64; N], Refusal> {
    match status {
        0 => Ok(out),
        number => Err(Refusal {
            number,
            place: out[0],
            part: out[1],
        }),
    }
}

/// Checks a map of MySQL, and tells the length of its record.
pub fn check(event: &[u8], record: &mut [u8]) -> Result<usize, Refusal> {
    const POST_HEADER: u8 = 8;
    const MYSQL: u8 = 1;
    let mut out = [0; NUMBERS];
    // SAFETY: pointers and lengths are those of slices
    let status = unsafe {
        feed_check(
            event.as_ptr(),
            event.len(),
            POST_HEADER,
            MYSQL,
            record.as_mut_ptr(),
            record.len(),
            out.as_mut_ptr(),
            out.len(),
        )
    };
    Ok(answered(status, out)?[0] as usize)
}

/// The plan of a record and presence bits.
pub fn plan(record: &[u8], presence: &[u8]) -> Result<Vec<u8>, Refusal> {
    let mut out = [0; NUMBERS];
    let mut plan = vec![0; 3 * 8 * presence.len()];
    // SAFETY: pointers and lengths are those of slices
    let status = unsafe {
        feed_plan(
            record.as_ptr(),
            record.len(),
            presence.as_ptr(),
            presence.len(),
            plan.as_mut_ptr(),
            plan.len(),
            out.as_mut_ptr(),
            out.len(),
        )
    };
    plan.truncate(answered(status, out)?[0] as usize);
    Ok(plan)
}

/// Begins an image with its null bits, and tells the cursor of its first value: column and offset.
#[inline(always)]
pub fn start(
    record: &[u8],
    presence: &[u8],
    nulls: &[u8],
    image: &mut [u8],
) -> Result<[u64; 2], Refusal> {
    let mut out = [0; 2];
    // SAFETY: pointers and lengths are those of slices
    let status = unsafe {
        feed_start(
            record.as_ptr(),
            record.len(),
            presence.as_ptr(),
            presence.len(),
            nulls.as_ptr(),
            nulls.len(),
            image.as_mut_ptr(),
            image.len(),
            out.as_mut_ptr(),
            out.len(),
        )
    };
    answered(status, out)
}

/// Stores a value that has no bytes of its own, and tells the next cursor: column and offset.
#[inline(always)]
pub fn put(
    record: &[u8],
    presence: &[u8],
    nulls: &[u8],
    [column, offset]: [u64; 2],
    [kind, parts @ ..]: &[u64; 8],
    image: &mut [u8],
) -> Result<[u64; 2], Refusal> {
    let mut out = [0; 2];
    let lent: &[u8] = &[];
    // SAFETY: pointers and lengths are those of slices
    let status = unsafe {
        feed_put(
            record.as_ptr(),
            record.len(),
            presence.as_ptr(),
            presence.len(),
            nulls.as_ptr(),
            nulls.len(),
            column as usize,
            offset as usize,
            *kind,
            parts.as_ptr(),
            parts.len(),
            lent.as_ptr(),
            lent.len(),
            image.as_mut_ptr(),
            image.len(),
            out.as_mut_ptr(),
            out.len(),
        )
    };
    answered(status, out)
}

/// The same by a plan: the next item, and its offset.
#[inline(always)]
pub fn put_item(
    plan: &[u8],
    nulls: &[u8],
    [item, offset]: [u64; 2],
    [kind, parts @ ..]: &[u64; 8],
    image: &mut [u8],
) -> Result<[u64; 2], Refusal> {
    let mut out = [0; 2];
    let lent: &[u8] = &[];
    // SAFETY: pointers and lengths are those of slices
    let status = unsafe {
        feed_put_item(
            plan.as_ptr(),
            plan.len(),
            nulls.as_ptr(),
            nulls.len(),
            item as usize,
            offset as usize,
            *kind,
            parts.as_ptr(),
            parts.len(),
            lent.as_ptr(),
            lent.len(),
            image.as_mut_ptr(),
            image.len(),
            out.as_mut_ptr(),
            out.len(),
        )
    };
    answered(status, out)
}

/// The bytes behind an image of so many. An image of none, where no column is present, leaves all over.
fn behind(image: &[u8], used: u64) -> Result<&[u8], Refusal> {
    match used {
        0 => Err(Refusal::short(0)),
        _ => Ok(&image[used as usize..]),
    }
}

/// The public steps of document 01: `feed_first` and `feed_step`.
pub struct Steps;

impl Steps {
    #[inline(always)]
    fn each(lent: Lent, mut told: impl FnMut(&[u64; NUMBERS])) -> Ended {
        let Lent {
            record,
            presence,
            images,
        } = lent;
        let mut image = images;
        while !image.is_empty() {
            let mut out = [0; NUMBERS];
            // SAFETY: pointers and lengths are those of slices
            let status = unsafe {
                feed_first(
                    record.as_ptr(),
                    record.len(),
                    presence.as_ptr(),
                    presence.len(),
                    out.as_mut_ptr(),
                    out.len(),
                )
            };
            let [mut column, mut offset, ..] = answered(status, out)?;
            loop {
                // SAFETY: as above
                let status = unsafe {
                    feed_step(
                        record.as_ptr(),
                        record.len(),
                        presence.as_ptr(),
                        presence.len(),
                        image.as_ptr(),
                        image.len(),
                        column as usize,
                        offset as usize,
                        out.as_mut_ptr(),
                        out.len(),
                    )
                };
                let mut out = answered(status, out)?;
                [_, _, column, offset, ..] = out;
                match out[0] {
                    END => break,
                    // a step tells where they start in its image
                    BYTES => out[4] += (images.len() - image.len()) as u64,
                    _ => {}
                }
                told(&out);
            }
            image = behind(image, offset)?;
        }
        Ok(())
    }
}

impl Side for Steps {
    fn name(&self) -> &'static str {
        "steps"
    }

    fn is_square(&self) -> bool {
        true
    }

    fn walk(&self, lent: Lent, told: &mut dyn FnMut([u64; 8])) -> Option<Ended> {
        Some(Steps::each(lent, |&[kind, _, _, _, a, b, c, d, e, f, g]| {
            told([kind, a, b, c, d, e, f, g])
        }))
    }

    fn sum(&self, lent: Lent) -> (u64, Ended) {
        let mut sum = 0u64;
        let ended = Steps::each(lent, |out| {
            sum = sum.wrapping_add(out[0]).wrapping_add(sum_of(&out[4..]))
        });
        (sum, ended)
    }
}

/// The same from C, which tells a sum alone.
pub struct StepsFromC;

impl Side for StepsFromC {
    fn name(&self) -> &'static str {
        "steps-c"
    }

    fn is_square(&self) -> bool {
        true
    }

    fn sum(&self, lent: Lent) -> (u64, Ended) {
        from_c(rows_by_steps, lent)
    }
}

type RowsInC =
    unsafe extern "C" fn(*const u8, usize, *const u8, usize, *const u8, usize, *mut u64) -> u64;

/// What a function of rows.c answers: its status, and in three numbers the sum, and place and part of a refusal.
fn from_c(rows: RowsInC, lent: Lent) -> (u64, Ended) {
    let Lent {
        record,
        presence,
        images,
    } = lent;
    let mut out = [0; 3];
    // SAFETY: pointers and lengths are those of slices, and three numbers are written
    let status = unsafe {
        rows(
            record.as_ptr(),
            record.len(),
            presence.as_ptr(),
            presence.len(),
            images.as_ptr(),
            images.len(),
            out.as_mut_ptr(),
        )
    };
    let [sum, place, part] = out;
    match status {
        0 => (sum, Ok(())),
        number => (
            sum,
            Err(Refusal {
                number,
                place,
                part,
            }),
        ),
    }
}

/// The iterator of the Rust crate in bindings/rust.
pub struct Crate;

impl Crate {
    #[inline(always)]
    fn each(lent: Lent, mut told: impl FnMut(Value)) -> Ended {
        let record = feed::Record::from_bytes(lent.record.to_vec()).map_err(our_refusal)?;
        let mut image = lent.images;
        while !image.is_empty() {
            let mut row = record.row(lent.presence, image).map_err(our_refusal)?;
            for item in &mut row {
                let (_, value) = item.map_err(our_refusal)?;
                told(our_value(value));
            }
            let used = row
                .bytes_used()
                .expect("a row that is not refused comes to its end");
            image = behind(image, used as u64)?;
        }
        Ok(())
    }
}

/// The same crate's iterator over all images at once.
pub struct CrateImages;

impl CrateImages {
    #[inline(always)]
    fn each(lent: Lent, mut told: impl FnMut(Value)) -> Ended {
        let record = feed::Record::from_bytes(lent.record.to_vec()).map_err(our_refusal)?;
        let images = record
            .images(lent.presence, lent.images)
            .map_err(our_refusal)?;
        for item in images {
            let (_, value) = item.map_err(our_refusal)?;
            told(our_value(value));
        }
        Ok(())
    }
}

impl Side for CrateImages {
    fn name(&self) -> &'static str {
        "crate-images"
    }

    fn walk(&self, lent: Lent, told: &mut dyn FnMut([u64; 8])) -> Option<Ended> {
        Some(CrateImages::each(lent, |value| {
            told(value.numbers(lent.images))
        }))
    }

    fn sum(&self, lent: Lent) -> (u64, Ended) {
        let mut sum = 0u64;
        let ended = CrateImages::each(lent, |value| sum = sum.wrapping_add(value.sum(lent.images)));
        (sum, ended)
    }
}

pub fn our_refusal(theirs: feed::Refusal) -> Refusal {
    Refusal {
        number: theirs.number(),
        place: theirs.place() as u64,
        part: theirs.part(),
    }
}

#[inline(always)]
fn our_value(theirs: feed::Value) -> Value {
    match theirs {
        feed::Value::Null => Value::Null,
        feed::Value::Int(n) => Value::Int(n),
        feed::Value::Uint(n) => Value::Uint(n),
        feed::Value::Float(x) => Value::Float(x.to_bits()),
        feed::Value::Double(x) => Value::Double(x.to_bits()),
        feed::Value::Seconds { seconds, micros } => Value::Seconds { seconds, micros },
        feed::Value::Year(year) => Value::Year(year),
        feed::Value::Date { year, month, day } => Value::Date { year, month, day },
        feed::Value::Datetime {
            year,
            month,
            day,
            hour,
            minute,
            second,
            micros,
        } => Value::Datetime {
            year,
            month,
            day,
            hour,
            minute,
            second,
            micros,
        },
        feed::Value::Time {
            negative,
            hours,
            minutes,
            seconds,
            micros,
        } => Value::Time {
            negative,
            hours,
            minutes,
            seconds,
            micros,
        },
        feed::Value::Bytes(bytes) => Value::Bytes(bytes),
        other => unreachable!("a value of a later crate: {other:?}"),
    }
}

impl Side for Crate {
    fn name(&self) -> &'static str {
        "crate"
    }

    fn walk(&self, lent: Lent, told: &mut dyn FnMut([u64; 8])) -> Option<Ended> {
        Some(Crate::each(lent, |value| told(value.numbers(lent.images))))
    }

    fn sum(&self, lent: Lent) -> (u64, Ended) {
        let mut sum = 0u64;
        let ended = Crate::each(lent, |value| sum = sum.wrapping_add(value.sum(lent.images)));
        (sum, ended)
    }
}

/// The plan made once, and values as many as a lent buffer holds: `feed_plan` and `feed_run`.
pub struct Run;

impl Run {
    #[inline(always)]
    fn each(lent: Lent, mut told: impl FnMut(&[u64])) -> Ended {
        let Lent {
            record,
            presence,
            images,
        } = lent;
        let plan = plan(record, presence)?;
        let present = plan.len() as u64 / 3;
        let mut out = [0; NUMBERS];
        let mut values = vec![0; 8 * BATCH];
        let (mut start, mut item, mut offset) = (0, 0, present.div_ceil(8));
        loop {
            // SAFETY: pointers and lengths are those of slices
            let status = unsafe {
                feed_run(
                    plan.as_ptr(),
                    plan.len(),
                    images.as_ptr(),
                    images.len(),
                    start as usize,
                    item as usize,
                    offset as usize,
                    values.as_mut_ptr(),
                    values.len(),
                    out.as_mut_ptr(),
                    out.len(),
                )
            };
            let count;
            [count, start, item, offset, ..] = answered(status, out)?;
            if count == 0 {
                return Ok(());
            }
            told(&values[..8 * count as usize]);
        }
    }
}

impl Side for Run {
    fn name(&self) -> &'static str {
        "run"
    }

    fn walk(&self, lent: Lent, told: &mut dyn FnMut([u64; 8])) -> Option<Ended> {
        let ended = Run::each(lent, |values| {
            for value in values.chunks_exact(8) {
                told(value.try_into().expect("eight numbers"));
            }
        });
        Some(ended)
    }

    fn sum(&self, lent: Lent) -> (u64, Ended) {
        let mut sum = 0u64;
        let ended = Run::each(lent, |values| sum = sum.wrapping_add(sum_of(values)));
        (sum, ended)
    }
}

/// The same from C, which tells a sum alone.
pub struct RunFromC;

impl Side for RunFromC {
    fn name(&self) -> &'static str {
        "run-c"
    }

    fn sum(&self, lent: Lent) -> (u64, Ended) {
        from_c(rows_by_run, lent)
    }
}
