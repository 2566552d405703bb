//! Times of all sides, taken in turn.

use crate::input::Input;
use crate::side::Side;
use std::hint::black_box;
use std::os::raw::{c_int, c_long};

/// How many values are read in a timed run, whatever the number of columns: those of 100,000 rows of twenty.
const VALUES: usize = 2_000_000;

/// The rows that a timed run reads; where a row costs the square of its columns, fewer.
pub fn input(seed: u64, columns: usize, is_square: bool) -> Input {
    let rows = VALUES / columns;
    Input::new(
        seed,
        columns,
        if is_square {
            (rows / columns).max(2)
        } else {
            rows
        },
    )
}

/// Prints a table: for each side the best time a value, and its times to those of both baselines, which are the first two sides: the best
/// to the best, and the median of the ratios of each round.
pub fn table(
    sides: &[Box<dyn Side>],
    seed: u64,
    rounds: usize,
    columns: usize,
) -> Result<(), String> {
    if rounds == 0 {
        return Err("0 rounds measure nothing".to_string());
    }
    let whole = input(seed, columns, false);
    let fewer = input(seed, columns, true);
    let mut times = vec![Vec::new(); sides.len()];
    for round in 0..=rounds {
        for i in 0..sides.len() {
            // each round begins with another side; the first round warms up
            let at = (round + i) % sides.len();
            let input = if sides[at].is_square() {
                &fewer
            } else {
                &whole
            };
            let nanos = nanos_a_value(sides[at].as_ref(), input)?;
            if round > 0 {
                times[at].push(nanos);
            }
        }
    }
    println!(
        "{columns} columns, {} rows; public steps {} rows; {rounds} rounds, seed {seed}",
        whole.rows, fewer.rows
    );
    println!();
    println!(
        "| side | ns a value, best | to `{0}`: best, median | to `{1}`: best, median |",
        sides[0].name(),
        sides[1].name()
    );
    println!("|---|---|---|---|");
    for (side, own) in sides.iter().zip(&times) {
        let to = |base: &Vec<f64>| {
            format!(
                "{}, {}",
                shown(best(own) / best(base)),
                shown(median_ratio(own, base))
            )
        };
        println!(
            "| `{}` | {:.2} | {} | {} |",
            side.name(),
            best(own),
            to(&times[0]),
            to(&times[1])
        );
    }
    println!();
    Ok(())
}

/// The processor's time that something takes, in nanoseconds. Another process on the same processor adds nothing to it but what it does to
/// the caches.
pub fn nanos<T>(run: impl FnOnce() -> T) -> (T, f64) {
    let began = processor_nanos();
    let done = black_box(run());
    (done, (processor_nanos() - began) as f64)
}

/// The time that this thread has had of its processor.
fn processor_nanos() -> i64 {
    #[repr(C)]
    struct Time {
        seconds: c_long,
        nanos: c_long,
    }
    extern "C" {
        fn clock_gettime(clock: c_int, time: *mut Time) -> c_int;
    }
    const THREAD: c_int = 3;
    let mut time = Time {
        seconds: 0,
        nanos: 0,
    };
    // SAFETY: the C library stores a time of this layout, which 64-bit Linux has
    let status = unsafe { clock_gettime(THREAD, &mut time) };
    assert_eq!(status, 0, "Linux tells the time of a thread");
    time.seconds * 1_000_000_000 + time.nanos
}

fn nanos_a_value(side: &dyn Side, input: &Input) -> Result<f64, String> {
    let ((_, ended), took) = nanos(|| side.sum(black_box(input.lent())));
    ended.map_err(|why| format!("{} refused the measured input: {why:?}", side.name()))?;
    Ok(took / input.values() as f64)
}

fn best(times: &[f64]) -> f64 {
    times.iter().copied().fold(f64::INFINITY, f64::min)
}

fn median_ratio(own: &[f64], base: &[f64]) -> f64 {
    let mut ratios: Vec<f64> = own.iter().zip(base).map(|(own, base)| own / base).collect();
    ratios.sort_by(f64::total_cmp);
    let half = ratios.len() / 2;
    if ratios.len() % 2 == 1 {
        ratios[half]
    } else {
        (ratios[half - 1] + ratios[half]) / 2.0
    }
}

fn shown(ratio: f64) -> String {
    if ratio < 10.0 {
        format!("{ratio:.2}")
    } else {
        format!("{ratio:.0}")
    }
}

/// How many values are read in a counted run; where a row costs the square of its columns, a tenth.
const COUNTED: usize = 40_000;

/// Reads the same rows again and again, and prints how many values one pass reads: the difference of two runs, counted in instructions, is
/// the cost of the passes that one of them has more.
pub fn repeat(side: &dyn Side, columns: usize, times: usize) -> Result<(), String> {
    let values = if side.is_square() {
        COUNTED / 10
    } else {
        COUNTED
    };
    let input = Input::new(1, columns, values / columns);
    for _ in 0..times {
        nanos_a_value(side, &input)?;
    }
    println!("{}", input.values());
    Ok(())
}
