//! Whether all sides answer the same: every value's sort and parts, and where a refusal is met, its number, place and part.

use crate::input::{Lent, Random};
use crate::near::Near;
use crate::side::{Ended, Side};
use crate::time;

/// Holds all sides against the first on the inputs that are timed, by a digest of all values.
pub fn measured(sides: &[Box<dyn Side>], seed: u64) -> Result<(), String> {
    for columns in [5, 20, 255, 900] {
        // the first side reads both inputs, any other the one that it is timed on
        for is_square in [false, true] {
            let input = time::input(seed, columns, is_square);
            let right = Told::of(sides[0].as_ref(), input.lent())?;
            let Some((values, digest)) = right.values.filter(|_| right.ended.is_ok()) else {
                return Err(format!(
                    "{} did not read the measured input",
                    sides[0].name()
                ));
            };
            if values != input.values() {
                return Err(format!("{values} values were read of {}", input.values()));
            }
            let mut same = vec![sides[0].name()];
            for side in sides[1..]
                .iter()
                .filter(|side| side.is_square() == is_square)
            {
                if !Told::of(side.as_ref(), input.lent())?.is_like(&right) {
                    return Err(format!(
                        "{columns} columns, seed {seed}: {} tells other values",
                        side.name()
                    ));
                }
                same.push(side.name());
            }
            println!(
                "{columns} columns, {values} values, digest {digest:016x}: {}",
                same.join(", ")
            );
        }
    }
    Ok(())
}

/// Holds all sides against the first on small inputs in and near what is accepted.
pub fn near(sides: &[Box<dyn Side>], seed: u64, cases: usize) -> Result<(), String> {
    let mut random = Random(seed);
    let mut refused = [0; 13];
    let mut parts = [0; 9];
    for case in 0..cases {
        let near = Near::new(&mut random);
        let right = Told::of(sides[0].as_ref(), near.lent())?;
        if let Err(why) = right.ended {
            refused[why.number as usize] += 1;
            parts[why.part as usize] += 1;
        }
        for side in &sides[1..] {
            let told = Told::of(side.as_ref(), near.lent())?;
            if !told.is_like(&right) {
                let (one, other) = (sides[0].name(), side.name());
                return Err(format!("case {case} of seed {seed}: {one} tells {right:x?}, {other} {told:x?}, of {near:x?}"));
            }
        }
    }
    let [.., short, out_of_range, record, bits] = refused;
    let read = cases - refused.iter().sum::<usize>();
    println!("{cases} small inputs, the same on all sides: {read} read; refused {short} with 9, {out_of_range} with 10, {record} with 11, {bits} with 12");
    println!("refused with 10 for parts 1 to 8: {:?}", &parts[1..]);
    Ok(())
}

/// What a side told: how many values and a digest of all their numbers, where it tells them; the light digest; and how it ended.
#[derive(Debug)]
struct Told {
    values: Option<(usize, u64)>,
    sum: u64,
    ended: Ended,
}

impl Told {
    fn of(side: &dyn Side, lent: Lent) -> Result<Told, String> {
        let (sum, ended) = side.sum(lent);
        let (mut values, mut digest) = (0, 0u64);
        let walked = side.walk(lent, &mut |numbers| {
            values += 1;
            for n in numbers {
                digest = (digest ^ n)
                    .wrapping_mul(0x9e37_79b9_7f4a_7c15)
                    .rotate_left(29);
            }
        });
        let values = match walked {
            None => None,
            Some(end) if end == ended => Some((values, digest)),
            Some(end) => {
                return Err(format!(
                    "{} ends its walk with {end:?} and its sum with {ended:?}",
                    side.name()
                ))
            }
        };
        Ok(Told { values, sum, ended })
    }

    /// Whether both told the same, as far as both tell it.
    fn is_like(&self, other: &Told) -> bool {
        let values = self.values.is_none() || other.values.is_none() || self.values == other.values;
        values && self.sum == other.sum && self.ended == other.ended
    }
}
