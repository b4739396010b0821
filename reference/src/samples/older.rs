//! The older storage model, edition 3: calls of a step in which the place of the idle loss decides, and runs and
//! damaged files of every edition.

use super::sticks::{self, Field};
use super::units::{self, beside, StepCall};
use super::{limits, roofs, Draw};
use crate::ranges::IDLE_LOSS;
use crate::stick::{Run, FLEET, LIMITED_UNIT, UNIT};
use crate::storage::Unit;

/// The largest idle loss.
pub const MOST: u32 = *IDLE_LOSS.end();

/// The steps of figure D5: 900 W out of just as much energy as they take, 1,000 W in, and none; and the first with a
/// joule less.
pub fn figure_steps() -> Vec<StepCall> {
    let step = |available, request| {
        let unit = units::figure_unit(available);
        StepCall { edition: 3, seconds: 60, unit, request }
    };
    vec![step(75_000, 900), step(0, -1_000), step(0, 0), step(74_999, 900)]
}

/// Sets an idle loss, or the most that there is.
fn lose(call: &mut StepCall, watts: i64) {
    call.unit.idle_loss = watts.clamp(0, MOST.into()) as u32;
}

/// Idle losses at the ends of their range, and about what is asked and about S.
pub const ENDS: [fn(&mut StepCall); 9] = [
    |call| lose(call, 0),
    |call| lose(call, 1),
    |call| lose(call, MOST.into()),
    |call| lose(call, i64::from(call.request).abs() - 1),
    |call| lose(call, i64::from(call.request).abs()),
    |call| lose(call, i64::from(call.request).abs() + 1),
    |call| lose(call, i64::from(call.unit.kva) - 1),
    |call| lose(call, call.unit.kva.into()),
    |call| lose(call, i64::from(call.unit.kva) + 1),
];

/// Sets an idle loss, an inverter efficiency and a kVA rating that need not fit each other.
fn set(call: &mut StepCall, idle_loss: u32, inverter: u16, kva: u32) {
    (call.unit.idle_loss, call.unit.inverter) = (idle_loss, inverter);
    call.set_kva_alone(kva);
}

/// Idle losses whose draw would be above S: by far, by one, and by rounding up alone. Editions 1 and 2 refuse them.
pub const BEYOND: [fn(&mut StepCall); 6] = [
    |call| set(call, MOST, call.unit.inverter, 1),
    |call| set(call, MOST, call.unit.inverter, call.unit.kva.min(MOST - 1)),
    |call| set(call, MOST, 1_000, 99_999_999),
    |call| set(call, MOST, 10_000, MOST - 1),
    |call| set(call, 10, 9_999, 10),
    |call| set(call, 2, call.unit.inverter, 1),
];

/// The changes to a unit with limits that an edition takes: values at the ends of their ranges, and in edition 3 any
/// idle loss.
pub fn ends(edition: u8) -> Vec<fn(&mut StepCall)> {
    let mut ends = [units::ENDS.as_slice(), &limits::ENDS].concat();
    if edition == 3 {
        ends.extend(ENDS.iter().chain(&BEYOND));
    }
    ends
}

/// Those that it refuses.
pub fn bad_values(edition: u8) -> Vec<fn(&mut StepCall)> {
    let own: &[_] = if edition == 3 { &[] } else { &BEYOND };
    [units::bad_values(edition), &limits::BAD_VALUES, own].concat()
}

/// What the check says of a run's fields in a file that says this edition: the length of its units is another one's, or
/// a value is outside its range.
pub fn number_in(edition: u8, run: &Run) -> u32 {
    let known = (1..=3).contains(&edition);
    match known {
        true if (edition == 1) != (run.site.edition == 1) => 3,
        true if run.site.units.iter().all(|unit| unit.in_range(edition)) => 0,
        _ => 5,
    }
}

/// An idle loss: nothing, one, the most that there is, about so many watts or beyond them, about S, or little.
fn idle_loss(unit: &Unit, watts: u64, draw: &mut Draw) -> u32 {
    let most = u64::from(MOST);
    let (near, kva) = (beside(watts, draw), beside(unit.kva.into(), draw));
    let beyond = draw.within(watts.min(most), most);
    let little = draw.below(watts / 20 + 1);
    draw.one_of(&[0, 1, most, near, near, beyond, kva, little, little]).min(most) as u32
}

/// A call of edition 3 that is not to be refused.
pub fn step_call(draw: &mut Draw) -> StepCall {
    let mut call = limits::step_call(draw);
    call.edition = 3;
    call.unit.idle_loss = idle_loss(&call.unit, call.request.unsigned_abs().into(), draw);
    units::set_stores(&mut call, draw);
    call
}

/// The run in edition 3, with limits for each of its units.
pub fn older(run: Run, draw: &mut Draw) -> Run {
    let mut run = limits::limited(run, draw);
    run.site.edition = 3;
    for unit in &mut run.site.units {
        let watts = draw.below(u64::from(unit.rating.min(unit.kva)) + 1);
        unit.idle_loss = idle_loss(unit, watts, draw);
    }
    run
}

/// A run of edition 1 in an edition, with limits for each of its units where there are any.
pub fn in_edition(edition: u8, run: Run, draw: &mut Draw) -> Run {
    match edition {
        1 => run,
        2 => limits::limited(run, draw),
        _ => older(run, draw),
    }
}

/// A run of edition 1 in edition 2 or 3, with limits for each of its units.
pub fn limited(run: Run, draw: &mut Draw) -> Run {
    let editions: [fn(Run, &mut Draw) -> Run; 2] = [limits::limited, older];
    draw.one_of(&editions)(run, draw)
}

/// The run as it is, or in edition 3.
fn or_older(run: Run, draw: &mut Draw) -> Run {
    match draw.below(5) {
        0 | 1 => older(run, draw),
        _ => run,
    }
}

/// A run of edition 1 in any edition.
pub fn any_edition(run: Run, draw: &mut Draw) -> Run {
    let run = limits::either_edition(run, draw);
    or_older(run, draw)
}

/// A run of any edition, with inverters or without, that is not to be refused.
pub fn run(units: usize, inverters: usize, steps: usize, draw: &mut Draw) -> Run {
    let run = limits::run(units, inverters, steps, draw);
    or_older(run, draw)
}

/// A run of any edition of a few units, up to two inverters and a few steps, so that its file is small.
pub fn small_run(draw: &mut Draw) -> Run {
    let run = limits::small_run(draw);
    or_older(run, draw)
}

/// One piece of damage to a file's fields at the field of a number: to the place of the idle loss or to the idle loss
/// itself, or any that a file with var limits knows.
pub fn damage(fields: &mut Vec<Field>, at: usize, draw: &mut Draw) {
    let at = at.min(fields.len() - 1);
    let (tag, length) = (fields[at].tag, fields[at].value.len());
    match draw.below(8) {
        // A unit that for the most part edition 3 alone takes.
        0 => fields[at] = sticks::unit_field(3, &step_call(draw).with(draw_beyond(draw)).unit),
        1..=3 if tag == FLEET && length != 0 => fields[at].value[0] = draw.one_of(&[2, 3]),
        1..=3 if tag == UNIT && length == usize::from(LIMITED_UNIT) => {
            let watts = draw.one_of(&[0, 1, MOST, MOST + 1, MOST << 1, u32::MAX]);
            fields[at].value[32..36].copy_from_slice(&watts.to_be_bytes());
        }
        _ => limits::damage(fields, at, draw),
    }
}

/// An idle loss at an end, or one beyond S.
fn draw_beyond(draw: &mut Draw) -> fn(&mut StepCall) {
    let end = draw.one_of(&ENDS);
    let beyond = draw.one_of(&BEYOND);
    draw.one_of(&[end, beyond, beyond])
}

/// A small file of any edition with a few pieces of damage, and its end cut off or not.
pub fn damaged_file(draw: &mut Draw) -> Vec<u8> {
    roofs::damaged(sticks::fields(&small_run(draw)), damage, draw)
}

/// Fields of the list in any order, in a file of any edition, with good values for the most part.
pub fn shuffled_file(draw: &mut Draw) -> Vec<u8> {
    roofs::shuffled(&small_run(draw), draw)
}

#[cfg(test)]
mod tests {
    use super::*;
    use crate::stick;
    use std::collections::BTreeMap;

    #[test]
    fn no_call_is_outside_its_ranges() {
        let mut draw = Draw::from_seed(120);
        let mut refused = 0;
        for _ in 0..30_000 {
            let call = step_call(&mut draw);
            assert!(call.edition == 3 && call.unit.in_range(3) && call.step().is_ok(), "{call:?}");
            refused += u32::from(call.with(|call| call.edition = 2).step() == Err(5));
        }
        assert!((5_000..25_000).contains(&refused), "{refused}");
        assert!(figure_steps().iter().all(|call| call.step().is_ok()));
    }

    #[test]
    fn no_run_is_refused() {
        let mut draw = Draw::from_seed(121);
        let mut editions = [0; 3];
        for round in 0..2_000 {
            let run = run(1 + round % 4, round % 3, round % 5, &mut draw);
            editions[usize::from(run.site.edition) - 1] += 1;
            let said = stick::read(&sticks::file(&run)).unwrap();
            assert_eq!(said.site, run.site);
        }
        assert!(editions.iter().all(|&count| count > 300), "{editions:?}");
    }

    /// Every refusal, in every edition; of units also in edition 3, and a unit that it alone takes.
    #[test]
    fn every_refusal_is_among_the_damages() {
        let mut draw = Draw::from_seed(122);
        let mut met = BTreeMap::new();
        for round in 0..100_000 {
            let file = if round % 4 == 0 { shuffled_file(&mut draw) } else { damaged_file(&mut draw) };
            let answer = stick::check(&file);
            let edition = file.get(3).copied().unwrap_or(0);
            let tag = file.get(answer.place as usize).copied().filter(|&tag| tag == UNIT);
            *met.entry((edition, answer.number, tag)).or_insert(0u32) += 1;
            if edition == 3 && answer.number == 0 {
                let in_2 = sticks::with(&stick::read(&file).unwrap(), |run| run.site.edition = 2);
                let number = stick::check(&sticks::file(&in_2)).number;
                *met.entry((2, 100 + number, None)).or_default() += 1;
            }
        }
        let count = |edition, number, tag| met.get(&(edition, number, tag)).copied().unwrap_or(0);
        for edition in 1..=3 {
            for number in [0, 8, 9] {
                assert!(count(edition, number, None) > 150, "{number} in edition {edition}: {met:?}");
            }
            for number in [1, 3, 4, 5] {
                assert!(count(edition, number, Some(UNIT)) > 150, "{number} in edition {edition}: {met:?}");
            }
        }
        assert!(count(2, 105, None) > 1_000 && count(2, 100, None) > 300, "{met:?}");
        assert!(count(4, 5, None) > 100, "{met:?}");
    }
}
