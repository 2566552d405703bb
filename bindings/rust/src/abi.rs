//! The calls of libfeed_abi.a that the crate makes, as feed.h declares them, and for each one a function on slices. All `unsafe` of the
//! crate is here.

use crate::Refusal;

/// Numbers that are enough for the answer of any call.
const NUMBERS: usize = 15;

/// The numbers of an answer, from the first on; those that a call has not are 0.
pub(crate) type Answer = [u64; NUMBERS];

/// A value as the calls take it apart: kind, parts, and the bytes that a value of bytes points into.
pub(crate) struct Taken<'a> {
    pub(crate) kind: u64,
    pub(crate) parts: [u64; 7],
    pub(crate) lent: &'a [u8],
}

/// What one call over blocks leaves for the next: phase, column, held, left, used.
pub(crate) type State = [u64; 5];

#[link(name = "feed_abi", kind = "static")]
extern "C" {
    fn feed_map(
        event: *const u8,
        event_length: usize,
        post_header: u8,
        out: *mut u64,
        out_length: usize,
    ) -> u64;

    fn feed_check(
        event: *const u8,
        event_length: usize,
        post_header: u8,
        dialect: u8,
        profile: *mut u8,
        profile_length: usize,
        out: *mut u64,
        out_length: usize,
    ) -> u64;

    fn feed_column(
        profile: *const u8,
        profile_length: usize,
        column: usize,
        out: *mut u64,
        out_length: usize,
    ) -> u64;

    fn feed_plan(
        profile: *const u8,
        profile_length: usize,
        presence: *const u8,
        presence_length: usize,
        plan: *mut u8,
        plan_length: usize,
        out: *mut u64,
        out_length: usize,
    ) -> u64;

    fn feed_run(
        plan: *const u8,
        plan_length: usize,
        images: *const u8,
        images_length: usize,
        start: usize,
        item: usize,
        offset: usize,
        values: *mut u64,
        values_length: usize,
        out: *mut u64,
        out_length: usize,
    ) -> u64;

    fn feed_put_item(
        plan: *const u8,
        plan_length: usize,
        nulls: *const u8,
        nulls_length: usize,
        item: usize,
        offset: usize,
        kind: u64,
        parts: *const u64,
        parts_length: usize,
        lent: *const u8,
        lent_length: usize,
        image: *mut u8,
        image_length: usize,
        out: *mut u64,
        out_length: usize,
    ) -> u64;

    fn feed_start(
        profile: *const u8,
        profile_length: usize,
        presence: *const u8,
        presence_length: usize,
        nulls: *const u8,
        nulls_length: usize,
        image: *mut u8,
        image_length: usize,
        out: *mut u64,
        out_length: usize,
    ) -> u64;

    fn feed_room(
        profile: *const u8,
        profile_length: usize,
        presence: *const u8,
        presence_length: usize,
        out: *mut u64,
        out_length: usize,
    ) -> u64;

    fn feed_begin(
        profile: *const u8,
        profile_length: usize,
        presence: *const u8,
        presence_length: usize,
        carry: *const u8,
        carry_length: usize,
        out: *mut u64,
        out_length: usize,
    ) -> u64;

    fn feed_give(
        profile: *const u8,
        profile_length: usize,
        presence: *const u8,
        presence_length: usize,
        carry: *mut u8,
        carry_length: usize,
        block: *const u8,
        block_length: usize,
        phase: u64,
        column: usize,
        held: usize,
        left: usize,
        used: usize,
        out: *mut u64,
        out_length: usize,
    ) -> u64;

    fn feed_end(
        profile: *const u8,
        profile_length: usize,
        presence: *const u8,
        presence_length: usize,
        carry: *const u8,
        carry_length: usize,
        phase: u64,
        column: usize,
        held: usize,
        left: usize,
        used: usize,
        out: *mut u64,
        out_length: usize,
    ) -> u64;

    fn feed_names(
        event: *const u8,
        event_length: usize,
        post_header: u8,
        dialect: u8,
        out: *mut u64,
        out_length: usize,
    ) -> u64;

    fn feed_name(
        names: *const u8,
        names_length: usize,
        fallback: *const u8,
        fallback_length: usize,
        column: usize,
        out: *mut u64,
        out_length: usize,
    ) -> u64;

    fn feed_parts(
        event: *const u8,
        event_length: usize,
        post_header: u8,
        out: *mut u64,
        out_length: usize,
    ) -> u64;

    fn feed_fields(
        event: *const u8,
        event_length: usize,
        post_header: u8,
        dialect: u8,
        out: *mut u64,
        out_length: usize,
    ) -> u64;

    fn feed_field(
        event: *const u8,
        event_length: usize,
        offset: usize,
        numeric: usize,
        columns: usize,
        out: *mut u64,
        out_length: usize,
    ) -> u64;

    fn feed_item(
        list: u64,
        value: *const u8,
        value_length: usize,
        offset: usize,
        out: *mut u64,
        out_length: usize,
    ) -> u64;

    fn feed_rows(
        code: u64,
        profile: *const u8,
        profile_length: usize,
        table: u64,
        event: *const u8,
        event_length: usize,
        out: *mut u64,
        out_length: usize,
    ) -> u64;

    fn feed_image(
        profile: *const u8,
        profile_length: usize,
        event: *const u8,
        event_length: usize,
        first_start: usize,
        first_length: usize,
        has_second: u64,
        second_start: usize,
        second_length: usize,
        offset: usize,
        second: u64,
        out: *mut u64,
        out_length: usize,
    ) -> u64;
}

// One comment for all the calls below. SAFETY: each pointer comes with the length of the slice it was taken from, so the library reads and
// writes only what was lent; a `&mut` overlaps nothing else; the library keeps no pointer; and its functions ask nothing else of a caller.

pub(crate) fn map(event: &[u8], post_header: u8) -> Result<Answer, Refusal> {
    let mut out = [0; NUMBERS];
    let status = unsafe {
        feed_map(
            event.as_ptr(),
            event.len(),
            post_header,
            out.as_mut_ptr(),
            out.len(),
        )
    };
    answered(status, out)
}

pub(crate) fn check(
    event: &[u8],
    post_header: u8,
    dialect: u8,
    profile: &mut [u8],
) -> Result<Answer, Refusal> {
    let mut out = [0; NUMBERS];
    let status = unsafe {
        feed_check(
            event.as_ptr(),
            event.len(),
            post_header,
            dialect,
            profile.as_mut_ptr(),
            profile.len(),
            out.as_mut_ptr(),
            out.len(),
        )
    };
    answered(status, out)
}

pub(crate) fn column(profile: &[u8], column: usize) -> Result<Answer, Refusal> {
    let mut out = [0; NUMBERS];
    let status = unsafe {
        feed_column(
            profile.as_ptr(),
            profile.len(),
            column,
            out.as_mut_ptr(),
            out.len(),
        )
    };
    answered(status, out)
}

pub(crate) fn room(profile: &[u8], presence: &[u8]) -> Result<Answer, Refusal> {
    let mut out = [0; NUMBERS];
    let status = unsafe {
        feed_room(
            profile.as_ptr(),
            profile.len(),
            presence.as_ptr(),
            presence.len(),
            out.as_mut_ptr(),
            out.len(),
        )
    };
    answered(status, out)
}

pub(crate) fn plan(profile: &[u8], presence: &[u8], plan: &mut [u8]) -> Result<Answer, Refusal> {
    let mut out = [0; NUMBERS];
    let status = unsafe {
        feed_plan(
            profile.as_ptr(),
            profile.len(),
            presence.as_ptr(),
            presence.len(),
            plan.as_mut_ptr(),
            plan.len(),
            out.as_mut_ptr(),
            out.len(),
        )
    };
    answered(status, out)
}

/// How many values a run stored, and where the next stands: the start of its image, item and offset.
pub(crate) type Ran = [u64; 4];

/// Values of images laid end to end, from where an image starts, an item of it and its offset on.
pub(crate) fn run(
    plan: &[u8],
    images: &[u8],
    (start, item, offset): (usize, usize, usize),
    values: &mut [u64],
) -> Result<Ran, Refusal> {
    let mut out = [0; 4];
    let status = unsafe {
        feed_run(
            plan.as_ptr(),
            plan.len(),
            images.as_ptr(),
            images.len(),
            start,
            item,
            offset,
            values.as_mut_ptr(),
            values.len(),
            out.as_mut_ptr(),
            out.len(),
        )
    };
    answered(status, out)
}

/// The item that comes next, and where its value goes.
pub(crate) type Put = [u64; 2];

/// Stores the value of an item of the plan, at an offset of its image.
pub(crate) fn put_item(
    plan: &[u8],
    nulls: &[u8],
    (item, offset): (usize, usize),
    value: &Taken,
    image: &mut [u8],
) -> Result<Put, Refusal> {
    let mut out = [0; 2];
    let status = unsafe {
        feed_put_item(
            plan.as_ptr(),
            plan.len(),
            nulls.as_ptr(),
            nulls.len(),
            item,
            offset,
            value.kind,
            value.parts.as_ptr(),
            value.parts.len(),
            value.lent.as_ptr(),
            value.lent.len(),
            image.as_mut_ptr(),
            image.len(),
            out.as_mut_ptr(),
            out.len(),
        )
    };
    answered(status, out)
}

pub(crate) fn start(
    profile: &[u8],
    presence: &[u8],
    nulls: &[u8],
    image: &mut [u8],
) -> Result<Answer, Refusal> {
    let mut out = [0; NUMBERS];
    let status = unsafe {
        feed_start(
            profile.as_ptr(),
            profile.len(),
            presence.as_ptr(),
            presence.len(),
            nulls.as_ptr(),
            nulls.len(),
            image.as_mut_ptr(),
            image.len(),
            out.as_mut_ptr(),
            out.len(),
        )
    };
    answered(status, out)
}

pub(crate) fn begin(profile: &[u8], presence: &[u8], carry: &[u8]) -> Result<Answer, Refusal> {
    let mut out = [0; NUMBERS];
    let status = unsafe {
        feed_begin(
            profile.as_ptr(),
            profile.len(),
            presence.as_ptr(),
            presence.len(),
            carry.as_ptr(),
            carry.len(),
            out.as_mut_ptr(),
            out.len(),
        )
    };
    answered(status, out)
}

pub(crate) fn give(
    profile: &[u8],
    presence: &[u8],
    carry: &mut [u8],
    block: &[u8],
    [phase, column, held, left, used]: State,
) -> Result<Answer, Refusal> {
    let mut out = [0; NUMBERS];
    let status = unsafe {
        feed_give(
            profile.as_ptr(),
            profile.len(),
            presence.as_ptr(),
            presence.len(),
            carry.as_mut_ptr(),
            carry.len(),
            block.as_ptr(),
            block.len(),
            phase,
            column as usize,
            held as usize,
            left as usize,
            used as usize,
            out.as_mut_ptr(),
            out.len(),
        )
    };
    answered(status, out)
}

pub(crate) fn end(
    profile: &[u8],
    presence: &[u8],
    carry: &[u8],
    [phase, column, held, left, used]: State,
) -> Result<Answer, Refusal> {
    let mut out = [0; NUMBERS];
    let status = unsafe {
        feed_end(
            profile.as_ptr(),
            profile.len(),
            presence.as_ptr(),
            presence.len(),
            carry.as_ptr(),
            carry.len(),
            phase,
            column as usize,
            held as usize,
            left as usize,
            used as usize,
            out.as_mut_ptr(),
            out.len(),
        )
    };
    answered(status, out)
}

pub(crate) fn names(event: &[u8], post_header: u8, dialect: u8) -> Result<Answer, Refusal> {
    let mut out = [0; NUMBERS];
    let status = unsafe {
        feed_names(
            event.as_ptr(),
            event.len(),
            post_header,
            dialect,
            out.as_mut_ptr(),
            out.len(),
        )
    };
    answered(status, out)
}

pub(crate) fn name(names: &[u8], fallback: &[u8], column: usize) -> Result<Answer, Refusal> {
    let mut out = [0; NUMBERS];
    let status = unsafe {
        feed_name(
            names.as_ptr(),
            names.len(),
            fallback.as_ptr(),
            fallback.len(),
            column,
            out.as_mut_ptr(),
            out.len(),
        )
    };
    answered(status, out)
}

pub(crate) fn parts(event: &[u8], post_header: u8) -> Result<Answer, Refusal> {
    let mut out = [0; NUMBERS];
    let status = unsafe {
        feed_parts(
            event.as_ptr(),
            event.len(),
            post_header,
            out.as_mut_ptr(),
            out.len(),
        )
    };
    answered(status, out)
}

pub(crate) fn fields(event: &[u8], post_header: u8, dialect: u8) -> Result<Answer, Refusal> {
    let mut out = [0; NUMBERS];
    let status = unsafe {
        feed_fields(
            event.as_ptr(),
            event.len(),
            post_header,
            dialect,
            out.as_mut_ptr(),
            out.len(),
        )
    };
    answered(status, out)
}

pub(crate) fn field(
    event: &[u8],
    offset: usize,
    numeric: usize,
    columns: usize,
) -> Result<Answer, Refusal> {
    let mut out = [0; NUMBERS];
    let status = unsafe {
        feed_field(
            event.as_ptr(),
            event.len(),
            offset,
            numeric,
            columns,
            out.as_mut_ptr(),
            out.len(),
        )
    };
    answered(status, out)
}

pub(crate) fn item(list: u64, value: &[u8], offset: usize) -> Result<Answer, Refusal> {
    let mut out = [0; NUMBERS];
    let status = unsafe {
        feed_item(
            list,
            value.as_ptr(),
            value.len(),
            offset,
            out.as_mut_ptr(),
            out.len(),
        )
    };
    answered(status, out)
}

pub(crate) fn rows(code: u64, profile: &[u8], table: u64, event: &[u8]) -> Result<Answer, Refusal> {
    let mut out = [0; NUMBERS];
    let status = unsafe {
        feed_rows(
            code,
            profile.as_ptr(),
            profile.len(),
            table,
            event.as_ptr(),
            event.len(),
            out.as_mut_ptr(),
            out.len(),
        )
    };
    answered(status, out)
}

/// The image at a cursor. `told` is what [`rows`] answered for the event.
pub(crate) fn image(
    profile: &[u8],
    event: &[u8],
    told: &Answer,
    (offset, second): (usize, u64),
) -> Result<Answer, Refusal> {
    let mut out = [0; NUMBERS];
    let status = unsafe {
        feed_image(
            profile.as_ptr(),
            profile.len(),
            event.as_ptr(),
            event.len(),
            told[4] as usize,
            told[5] as usize,
            told[6],
            told[7] as usize,
            told[8] as usize,
            offset,
            second,
            out.as_mut_ptr(),
            out.len(),
        )
    };
    answered(status, out)
}

/// A status with what the call left in its numbers.
fn answered<const N: usize>(status: u64, out: [u64; N]) -> Result<[u64; N], Refusal> {
    if status == 0 {
        return Ok(out);
    }
    Err(Refusal::of(status, out[0], out[1]))
}
