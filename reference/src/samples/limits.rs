//! Var limits: calls of a step in which they decide, runs of editions 1 and 2, and every kind of damage that can come
//! over the edition of a file and over the units that have limits.

use super::sticks::{self, Field};
use super::units::{self, beside, either_sign, StepCall};
use super::{roofs, Draw};
use crate::ranges::VAR_REQUEST;
use crate::stick::{Run, FLEET, LIMITED_UNIT, UNIT};
use crate::storage::Unit;

/// The unit of figure D4: 1,000 VA, of which it may provide 600 var and absorb 300, and no idle loss.
pub fn figure_unit() -> Unit {
    Unit { kva: 1_000, idle_loss: 0, provide: 600, absorb: 300, ..units::figure_unit(500_000) }
}

/// The steps of figure D4: vars beyond either limit, asked of a unit at rest, and of one that gives vars first and is
/// asked for 1,000 W.
pub fn figure_steps() -> Vec<StepCall> {
    let step = |var_request, priority, request| {
        let unit = Unit { var_request, priority, ..figure_unit() };
        StepCall { edition: 2, seconds: 60, unit, request }
    };
    vec![step(700, 0, 0), step(-700, 0, 0), step(700, 1, 1_000), step(-700, 1, 1_000)]
}

fn set(call: &mut StepCall, provide: u32, absorb: u32) {
    (call.unit.provide, call.unit.absorb) = (provide, absorb);
}

/// Asks for so many vars, or for the most that can be asked.
fn ask(call: &mut StepCall, vars: i64) {
    call.unit.var_request = vars.clamp((*VAR_REQUEST.start()).into(), (*VAR_REQUEST.end()).into()) as i32;
}

/// The limits at the ends of their ranges and beside them, and var requests at each limit and beside it.
pub const ENDS: [fn(&mut StepCall); 20] = [
    |call| call.unit.provide = 0,
    |call| call.unit.provide = 1,
    |call| call.unit.provide = call.unit.kva - 1,
    |call| call.unit.provide = call.unit.kva,
    |call| call.unit.absorb = 0,
    |call| call.unit.absorb = 1,
    |call| call.unit.absorb = call.unit.kva - 1,
    |call| call.unit.absorb = call.unit.kva,
    |call| set(call, 0, 0),
    |call| set(call, 1, 1),
    |call| set(call, call.unit.kva, 0),
    |call| set(call, 0, call.unit.kva),
    |call| set(call, call.unit.kva, call.unit.kva),
    |call| set(call, call.unit.absorb, call.unit.provide),
    |call| ask(call, i64::from(call.unit.provide) - 1),
    |call| ask(call, i64::from(call.unit.provide)),
    |call| ask(call, i64::from(call.unit.provide) + 1),
    |call| ask(call, 1 - i64::from(call.unit.absorb)),
    |call| ask(call, -i64::from(call.unit.absorb)),
    |call| ask(call, -1 - i64::from(call.unit.absorb)),
];

/// The limits one beyond S, and as far as they go. In edition 1 none of them is looked at.
pub const BAD_VALUES: [fn(&mut StepCall); 11] = [
    |call| call.unit.provide = call.unit.kva + 1,
    |call| call.unit.absorb = call.unit.kva + 1,
    |call| set(call, call.unit.kva + 1, call.unit.kva + 1),
    |call| set(call, 0, call.unit.kva + 1),
    |call| set(call, call.unit.kva + 1, 0),
    |call| call.unit.provide = 100_000_001,
    |call| call.unit.absorb = 100_000_001,
    |call| call.unit.provide = call.unit.kva | 1 << 31,
    |call| call.unit.absorb = call.unit.kva | 1 << 31,
    |call| call.unit.provide = u32::MAX,
    |call| call.unit.absorb = u32::MAX,
];

/// A limit: nothing, one, all of S or one less, about so many vars, or any.
fn limit(kva: u32, vars: u64, draw: &mut Draw) -> u32 {
    let kva = u64::from(kva);
    let near = beside(vars, draw).min(kva);
    let any = draw.below(kva + 1);
    draw.one_of(&[0, 0, 1, kva - 1, kva, near, near, any, any, any]) as u32
}

/// Limits for a unit, at or about what is asked of it or not; or a var request at, beside or beyond one of them.
pub fn set_limits(unit: &mut Unit, draw: &mut Draw) {
    let vars = unit.var_request.unsigned_abs().into();
    unit.provide = limit(unit.kva, vars, draw);
    unit.absorb = limit(unit.kva, vars, draw);
    let (most, sign) = draw.one_of(&[(unit.provide, 1), (unit.absorb, -1)]);
    let most = u64::from(most);
    let end = *VAR_REQUEST.end();
    match draw.below(6) {
        0 | 1 => unit.var_request = sign * beside(most, draw).min(end as u64) as i32,
        2 => unit.var_request = sign * draw.within(most, end as u64) as i32,
        3 => unit.var_request = either_sign(vars, draw),
        _ => (),
    }
}

/// A call of edition 2 that is not to be refused.
pub fn step_call(draw: &mut Draw) -> StepCall {
    let mut call = units::step_call(draw);
    call.edition = 2;
    set_limits(&mut call.unit, draw);
    call
}

/// The run in edition 2, with limits for each of its units.
pub fn limited(mut run: Run, draw: &mut Draw) -> Run {
    run.site.edition = 2;
    run.site.units.iter_mut().for_each(|unit| set_limits(unit, draw));
    run
}

/// The run as it is, or for the most part in edition 2.
pub fn either_edition(run: Run, draw: &mut Draw) -> Run {
    match draw.below(3) {
        0 => run,
        _ => limited(run, draw),
    }
}

/// A run of edition 1 or 2, with inverters or without, that is not to be refused.
pub fn run(units: usize, inverters: usize, steps: usize, draw: &mut Draw) -> Run {
    let run = roofs::run(units, inverters, steps, draw);
    either_edition(run, draw)
}

/// A run of edition 1 or 2 of a few units, up to two inverters and a few steps, so that its file is small.
pub fn small_run(draw: &mut Draw) -> Run {
    let makers: [fn(&mut Draw) -> Run; 2] = [sticks::small_run, roofs::small_run];
    let run = draw.one_of(&makers)(draw);
    either_edition(run, draw)
}

/// The same fields in a file that says another edition.
pub fn in_edition(edition: u8, fields: &[Field]) -> Vec<Field> {
    let mut fields = fields.to_vec();
    fields[0].value[0] = edition;
    fields
}

/// A unit's field of edition 1 or 2 whose values are good in some file.
fn any_unit(draw: &mut Draw) -> Field {
    let edition = 1 + draw.below(2) as u8;
    sticks::unit_field(edition, &step_call(draw).unit)
}

/// One piece of damage to a file's fields at the field of a number: to the edition, to a unit's length or to its
/// limits, or any that a file with inverters knows.
pub fn damage(fields: &mut Vec<Field>, at: usize, draw: &mut Draw) {
    let at = at.min(fields.len() - 1);
    let (tag, length) = (fields[at].tag, fields[at].value.len());
    match draw.below(10) {
        0 => fields.insert(at, any_unit(draw)),
        1 => fields[at] = any_unit(draw),
        2..=5 if tag == FLEET && length != 0 => {
            fields[at].value[0] = draw.one_of(&[0, 1, 2, 3, 4, 128, 130, 255]);
        }
        2 | 3 if tag == UNIT => spoil_length(&mut fields[at], draw),
        4..=7 if tag == UNIT && length == usize::from(LIMITED_UNIT) => {
            spoil_limits(&mut fields[at].value, draw);
        }
        _ => roofs::damage(fields, at, draw),
    }
}

/// Gives a unit's field the length of another edition, or one about it; with so many bytes, or with those that it had.
fn spoil_length(field: &mut Field, draw: &mut Draw) {
    let length = draw.one_of(&[49, 49, 57, 57, 48, 50, 53, 56, 58]);
    match draw.below(3) {
        0 => field.length = length,
        1 => field.value.resize(length.into(), 0),
        _ => {
            field.length = length;
            field.value.resize(length.into(), 0);
        }
    }
}

/// Sets a limit at S or beside it, or far from it, or exchanges the two.
fn spoil_limits(value: &mut [u8], draw: &mut Draw) {
    let kva = u32::from_be_bytes(value[28..32].try_into().expect("four bytes"));
    let other = draw.one_of(&[0, kva - kva.min(1), kva, kva.saturating_add(1), kva.swap_bytes(), u32::MAX]);
    match draw.below(4) {
        0 => value[49..57].rotate_left(4),
        _ => {
            let at = draw.one_of(&[49, 53]);
            value[at..at + 4].copy_from_slice(&other.to_be_bytes());
        }
    }
}

/// A small file of edition 1 or 2 with a few pieces of damage, and its end cut off or not.
pub fn damaged_file(draw: &mut Draw) -> Vec<u8> {
    roofs::damaged(sticks::fields(&small_run(draw)), damage, draw)
}

/// Fields of the list in any order, in a file of edition 1 or 2, with good values for the most part.
pub fn shuffled_file(draw: &mut Draw) -> Vec<u8> {
    roofs::shuffled(&small_run(draw), draw)
}

#[cfg(test)]
mod tests {
    use super::*;
    use crate::stick;
    use std::collections::BTreeMap;

    #[test]
    fn no_call_is_outside_its_ranges() {
        let mut draw = Draw::from_seed(110);
        for _ in 0..30_000 {
            let call = step_call(&mut draw);
            assert!(call.edition == 2 && call.unit.in_range(2) && call.step().is_ok(), "{call:?}");
        }
        assert!(figure_steps().iter().all(|call| call.step().is_ok()));
    }

    /// Limits of every kind, in the request's own direction, with requests of both signs at each of them, beside it and
    /// beyond it.
    #[test]
    fn calls_in_which_a_limit_decides() {
        let mut draw = Draw::from_seed(111);
        let mut met = BTreeMap::new();
        for _ in 0..60_000 {
            let Unit { kva, var_request, provide, absorb, .. } = step_call(&mut draw).unit;
            let limit = if var_request < 0 { absorb } else { provide };
            let by = i64::from(var_request).abs() - i64::from(limit);
            for (kind, holds) in [0, 1, kva - 1, kva].into_iter().map(|kind| kind == limit).enumerate() {
                let key = (kind, var_request.signum(), by.clamp(-2, 2));
                *met.entry(key).or_insert(0u32) += u32::from(holds);
            }
        }
        for kind in 0..4 {
            for sign in [-1, 1] {
                // No request of a sign is below a limit of nothing, and none that is not 0 is one below a limit of one.
                for by in if kind == 0 {
                    1..=2
                } else if kind == 1 {
                    0..=2
                } else {
                    -2..=2
                } {
                    let count = met.get(&(kind, sign, by)).copied().unwrap_or(0);
                    assert!(count > 80, "kind {kind}, sign {sign}, by {by}: {count}");
                }
            }
        }
    }

    #[test]
    fn no_run_is_refused() {
        let mut draw = Draw::from_seed(112);
        let mut editions = [0; 2];
        for round in 0..2_000 {
            let run = run(1 + round % 4, round % 3, round % 5, &mut draw);
            editions[usize::from(run.site.edition) - 1] += 1;
            let file = sticks::file(&run);
            let said = stick::read(&file).unwrap();
            assert_eq!(said.site, run.site);
            assert_eq!(sticks::file(&said), file);
        }
        assert!(editions.iter().all(|&count| count > 500), "{editions:?}");
    }

    #[test]
    fn every_refusal_is_among_the_damages() {
        let mut draw = Draw::from_seed(113);
        let mut met = BTreeMap::new();
        for round in 0..60_000 {
            let file = if round % 4 == 0 { shuffled_file(&mut draw) } else { damaged_file(&mut draw) };
            let answer = stick::check(&file);
            let tag =
                file.get(answer.place as usize).copied().filter(|_| ![0, 8, 9].contains(&answer.number));
            let edition = file.get(3).copied().unwrap_or(0).min(4);
            *met.entry((answer.number, tag, edition)).or_insert(0u32) += 1;
        }
        for edition in 1..=2 {
            for number in [0, 8, 9] {
                let count = met.get(&(number, None, edition)).copied().unwrap_or(0);
                assert!(count > 150, "{number} in edition {edition}: {count}");
            }
            for number in [1, 3, 4, 5] {
                let count = met.get(&(number, Some(UNIT), edition)).copied().unwrap_or(0);
                assert!(count > 150, "{number} of a unit in edition {edition}: {count}");
            }
        }
        for edition in [0, 4] {
            let count = met.get(&(5, Some(FLEET), edition)).copied().unwrap_or(0);
            assert!(count > 150, "edition {edition}: {count}");
        }
    }
}
