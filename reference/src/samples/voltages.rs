//! Functions and voltages: volt-var curves, voltages where their rules part, runs that a function leads, and every kind
//! of damage that can come over the fields of both.

use super::sticks::{self, Field};
use super::{currents, curves, inverters, older, roofs, Draw};
use crate::curve::{Curve, VOLT_VAR};
use crate::octets::put_u16;
use crate::ranges::VOLTAGE as RANGE;
use crate::stick::{Run, CURVE, FUNCTION, VOLTAGE, WEATHER};
use crate::volt_var::Function;

/// The two fields of a function.
pub fn function_fields(function: &Function) -> [Field; 2] {
    [Field::new(FUNCTION, vec![function.base]), roofs::curve_field(&function.curve)]
}

pub fn voltage_field(voltage: u16) -> Field {
    let mut value = Vec::new();
    put_u16(&mut value, voltage);
    Field::new(VOLTAGE, value)
}

/// A curve as a grid's operator has it: vars to lift a low voltage and to lower a high one, none about 1 per unit.
pub fn operators_curve() -> Curve {
    Curve::through(&[(9_200, 10_000), (9_800, 0), (10_200, 0), (10_800, -10_000)])
}

/// A function that is not to be refused, of either base.
pub fn function(draw: &mut Draw) -> Function {
    let curve = match draw.below(5) {
        0 => operators_curve(),
        1 => Curve { y: (0..2).map(|_| draw.one_of(&[-10_000, 10_000])).collect(), x: vec![0, 20_000] },
        _ => curves::curve(&VOLT_VAR, draw),
    };
    Function { base: draw.below(2) as u8, curve }
}

/// A voltage: at an end of its range, at a point, beside it, between two, beyond all of them, or any.
pub fn voltage(curve: &Curve, draw: &mut Draw) -> u16 {
    let x = match draw.below(8) {
        0 => draw.one_of(&[0, 20_000]),
        1 => draw.below(20_001) as i64,
        _ => curves::x_of(curve, draw),
    };
    x.clamp((*RANGE.start()).into(), (*RANGE.end()).into()) as u16
}

/// A voltage of one of these steps, or none.
fn voltages(steps: usize, curve: &Curve, draw: &mut Draw) -> Vec<Option<u16>> {
    let bare = draw.one_of(&[1, 2, 2, 3, 30]);
    let mut all = Vec::new();
    for _ in 0..steps {
        let voltage = voltage(curve, draw);
        all.push((bare == 1 || draw.below(bare) != 0).then_some(voltage));
    }
    // The first step is where a missing voltage is met least.
    match draw.below(12) {
        0 => all.fill(None),
        1..=3 => all.iter_mut().take(1).for_each(|first| *first = None),
        _ => (),
    }
    all
}

/// The run with a function, and voltages in some of its steps.
pub fn led(mut run: Run, draw: &mut Draw) -> Run {
    let function = function(draw);
    run.voltages = voltages(run.readings.len(), &function.curve, draw);
    run.site.function = Some(function);
    run
}

/// The run as it is for the most part, or with a function.
pub fn or_led(run: Run, draw: &mut Draw) -> Run {
    match draw.below(4) {
        0 => led(run, draw),
        _ => run,
    }
}

/// The run without its function and its voltages.
pub fn without(run: &Run) -> Run {
    sticks::with(run, |run| {
        run.site.function = None;
        run.voltages.clear();
    })
}

/// The run with a change to its function.
pub fn with_function(run: &Run, change: impl Fn(&mut Function)) -> Run {
    sticks::with(run, |run| change(run.site.function.as_mut().expect("a run that is led")))
}

/// The run with a voltage, good or bad, in one of its steps.
pub fn with_voltage(run: &Run, step: usize, voltage: u16) -> Run {
    let mut run = run.clone();
    run.voltages.resize(run.readings.len(), None);
    run.voltages[step] = Some(voltage);
    run
}

/// A run that a function leads, in one of these modes and of any edition, that is not to be refused; with connections
/// in some of the modes that need none.
pub fn run_in(modes: &[u8], units: usize, inverters: usize, steps: usize, draw: &mut Draw) -> Run {
    let mut run = currents::plain_run(modes, units, inverters, steps, draw);
    if !run.site.settings.by_current() && draw.below(4) != 0 {
        run.site.connections.clear();
    }
    let run = older::any_edition(run, draw);
    led(run, draw)
}

/// The same in any mode.
pub fn run(units: usize, inverters: usize, steps: usize, draw: &mut Draw) -> Run {
    run_in(&[1, 1, 2, 2, 3, 3, 4, 5], units, inverters, steps, draw)
}

/// A run of one or two units, up to two inverters and a few steps, so that its file is small.
pub fn small_run(draw: &mut Draw) -> Run {
    let units = draw.one_of(&[1, 1, 1, 2]);
    let inverters = draw.one_of(&[0, 0, 1, 1, 2]);
    let steps = draw.below(5) as usize;
    run(units, inverters, steps, draw)
}

/// Where the function's fields are among a run's fields.
pub fn first_function(run: &Run) -> usize {
    roofs::first_step(run) - 2
}

/// A change to a function.
pub type Change = fn(&mut Function);

/// Gives the function the curve through these points.
fn through(function: &mut Function, points: &[(i32, i32)]) {
    function.curve = Curve::through(points);
}

/// Bases and curves at the ends of their ranges.
pub const ENDS: [Change; 9] = [
    |function| function.base = 0,
    |function| function.base = 1,
    |function| function.curve.y.fill(-10_000),
    |function| function.curve.y.fill(10_000),
    |function| function.curve.y.fill(0),
    |function| through(function, &[(0, -10_000), (20_000, 10_000)]),
    |function| through(function, &[(0, 10_000), (1, -10_000)]),
    |function| through(function, &[(19_999, -1), (20_000, 1)]),
    |function| *function.curve.y.last_mut().expect("a point") = -10_000,
];

/// Bases outside their range.
pub const BAD_BASES: [Change; 5] = [
    |function| function.base = 2,
    |function| function.base = 3,
    |function| function.base = 128,
    |function| function.base = 129,
    |function| function.base = u8::MAX,
];

/// Curves whose points are outside their ranges or do not rise.
pub const BAD_CURVES: [Change; 14] = [
    |function| function.curve.x[0] = -1,
    |function| function.curve.x[0] = i32::MIN,
    |function| *function.curve.x.last_mut().expect("a point") = 20_001,
    |function| *function.curve.x.last_mut().expect("a point") = i32::MAX,
    |function| function.curve.x[1] = function.curve.x[0],
    |function| function.curve.x.reverse(),
    |function| function.curve.x.swap(0, 1),
    |function| function.curve.y[0] = 10_001,
    |function| function.curve.y[0] = -10_001,
    |function| function.curve.y[1] = 20_000,
    |function| function.curve.y[1] = i32::MAX,
    |function| *function.curve.y.last_mut().expect("a point") = i32::MIN,
    |function| *function.curve.y.last_mut().expect("a point") = 10_001,
    |function| through(function, &[(-1, 0), (20_001, 0)]),
];

/// Voltages one beyond the end of their range, and as far as they go.
pub const BAD_VOLTAGES: [u16; 6] = [20_001, 20_002, 1 << 15, 40_000, u16::MAX - 1, u16::MAX];

/// A field of a function, of its curve or of a voltage whose values are good in some file.
pub fn any_field(draw: &mut Draw) -> Field {
    let function = function(draw);
    let [base, curve] = function_fields(&function);
    match draw.below(4) {
        0 => base,
        1 => curve,
        _ => voltage_field(voltage(&function.curve, draw)),
    }
}

/// One piece of damage to a file's fields at the field of a number: to the function, to its curve or to a voltage, or
/// any that a file of any edition and mode knows.
pub fn damage(fields: &mut Vec<Field>, at: usize, draw: &mut Draw) {
    let at = at.min(fields.len() - 1);
    let other = draw.below(fields.len() as u64) as usize;
    let tag = fields[at].tag;
    match draw.below(14) {
        0 => fields.insert(at, any_field(draw)),
        1 => fields[at] = any_field(draw),
        2 => fields.insert(at, voltage_field(draw.one_of(&BAD_VOLTAGES))),
        3 if [FUNCTION, VOLTAGE, WEATHER].contains(&tag) => fields.swap(at, other),
        4 if [FUNCTION, VOLTAGE].contains(&tag) => fields.insert(at, fields[at].clone()),
        5 if [FUNCTION, VOLTAGE].contains(&tag) => drop(fields.remove(at)),
        6 if tag == VOLTAGE => fields.insert(at + 1, roofs::weather_field(inverters::weather(draw))),
        7 if tag == FUNCTION => without_function(fields),
        4..=10 => spoil(&mut fields[at], draw),
        _ => currents::damage(fields, at, draw),
    }
}

/// The fields without the function and the curve behind it.
pub fn without_function(fields: &mut Vec<Field>) {
    if let Some(at) = fields.iter().position(|field| field.tag == FUNCTION) {
        fields.drain(at..(at + 2).min(fields.len()));
    }
}

/// Sets a base or a voltage at an end of its range or beside it, gives the field another length, or where it is of
/// another tag a bit that has flipped.
pub fn spoil(field: &mut Field, draw: &mut Draw) {
    let length = field.value.len();
    match (field.tag, length) {
        (FUNCTION | VOLTAGE, _) if draw.below(4) == 0 => {
            field.length = draw.one_of(&[0, 1, 2, 3, 129, 256, 512]);
            field.value.resize(usize::from(field.length) % 200, 0);
        }
        (FUNCTION, 1) => field.value[0] = draw.one_of(&[0, 1, 2, 3, 128, 255]),
        (VOLTAGE, 2) => {
            let bad = draw.one_of(&BAD_VOLTAGES);
            let voltage = draw.one_of(&[0, 1, 19_999, 20_000, bad, bad]);
            *field = voltage_field(voltage);
        }
        (CURVE, 129) => roofs::spoil_curve(&mut field.value, draw),
        (_, 0) => field.tag = draw.any() as u8,
        _ => field.value[draw.below(length as u64) as usize] ^= 1 << draw.below(8),
    }
}

/// A small file with a few pieces of damage, and its end cut off or not.
pub fn damaged_file(draw: &mut Draw) -> Vec<u8> {
    let run = small_run(draw);
    let mut fields = sticks::fields(&run);
    // For the most part something of the function or of a step is among it.
    if draw.below(3) != 0 {
        let behind = fields.len() - first_function(&run);
        let at = first_function(&run) + draw.below(behind as u64) as usize;
        damage(&mut fields, at, draw);
    }
    roofs::damaged(fields, damage, draw)
}

/// Fields of the list in any order, with good values for the most part.
pub fn shuffled_file(draw: &mut Draw) -> Vec<u8> {
    roofs::shuffled(&small_run(draw), draw)
}

#[cfg(test)]
mod tests {
    use super::*;
    use crate::season;
    use crate::stick::{self, Answer, INVERTER};
    use std::collections::BTreeMap;

    /// Curves of 2 to 16 points with y of both signs and at both ends, x at both ends, and voltages at every place of
    /// their curve.
    #[test]
    fn functions_and_voltages_of_every_kind() {
        let mut draw = Draw::from_seed(160);
        let mut met = BTreeMap::new();
        let mut note = |what: &'static str, holds: bool| *met.entry(what).or_insert(0) += u32::from(holds);
        for _ in 0..20_000 {
            let Function { base, curve } = function(&mut draw);
            assert!(Function { base, curve: curve.clone() }.in_range() && curve.lengths_fit(), "{curve:?}");
            note("base 0", base == 0);
            note("base 1", base == 1);
            note("two points", curve.x.len() == 2);
            note("sixteen points", curve.x.len() == 16);
            note("y below zero", curve.y.iter().any(|&y| y < 0));
            note("y above zero", curve.y.iter().any(|&y| y > 0));
            note("both ends of y", curve.y.contains(&-10_000) && curve.y.contains(&10_000));
            note("both ends of x", curve.x.contains(&0) && curve.x.contains(&20_000));
            let at = voltage(&curve, &mut draw);
            let (x, first, last) = (i32::from(at), curve.x[0], curve.x[curve.x.len() - 1]);
            note("voltage 0", at == 0);
            note("voltage 20,000", at == 20_000);
            note("before the first point", x < first);
            note("after the last point", x > last);
            note("at a point", curve.x.contains(&x));
            note("beside a point", !curve.x.contains(&x) && curve.x.iter().any(|p| (p - x).abs() == 1));
            note("between points", first < x && x < last && !curve.x.contains(&x));
        }
        assert!(met.len() == 15 && met.values().all(|&count| count > 500), "{met:?}");
    }

    #[test]
    fn no_run_is_refused() {
        let mut draw = Draw::from_seed(161);
        let mut met = BTreeMap::new();
        for round in 0..3_000 {
            let run = run(1 + round % 4, round % 3, round % 5, &mut draw);
            let file = sticks::file(&run);
            let said = stick::read(&file).unwrap();
            assert_eq!(said.site, run.site);
            assert_eq!(sticks::file(&said), file);
            assert!((0..run.readings.len()).all(|step| said.voltage_of(step) == run.voltage_of(step)));
            assert_eq!(sticks::fields(&run)[first_function(&run)].tag, FUNCTION);
            let base = run.site.function.as_ref().map(|function| function.base);
            *met.entry((run.site.settings.mode, run.site.edition, base)).or_insert(0u32) += 1;
            let plain = without(&run);
            assert!(
                stick::check(&sticks::file(&plain)).number == 0 && season::steps(&plain).len() == round % 5
            );
        }
        assert!(met.len() == 30 && met.values().all(|&count| count > 20), "{met:?}");
    }

    #[test]
    fn changes_at_the_ends_and_beyond_them() {
        let mut draw = Draw::from_seed(162);
        for _ in 0..300 {
            let run = run(1, 0, 1, &mut draw);
            let whole = |change: &Change| stick::check(&sticks::file(&with_function(&run, change))).number;
            assert!(ENDS.iter().all(|change| whole(change) == 0));
            assert!(BAD_BASES.iter().chain(&BAD_CURVES).all(|change| whole(change) == 5));
            for voltage in BAD_VOLTAGES {
                assert_eq!(stick::check(&sticks::file(&with_voltage(&run, 0, voltage))).number, 5);
            }
        }
    }

    /// Every refusal of the new fields.
    #[test]
    fn every_refusal_is_among_the_damages() {
        let mut draw = Draw::from_seed(163);
        let mut met = BTreeMap::new();
        for round in 0..80_000 {
            let file = if round % 4 == 0 { shuffled_file(&mut draw) } else { damaged_file(&mut draw) };
            let Answer { number, place, .. } = stick::check(&file);
            let tag = file.get(place as usize).copied().filter(|_| ![0, 8, 9].contains(&number));
            *met.entry((number, tag)).or_insert(0u32) += 1;
        }
        let count = |number, tag| met.get(&(number, tag)).copied().unwrap_or(0);
        for tag in [FUNCTION, VOLTAGE] {
            // Few of them are long enough to be cut.
            assert!(count(1, Some(tag)) > 5, "1 of {tag}: {met:?}");
            for number in [3, 4, 5] {
                assert!(count(number, Some(tag)) > 500, "{number} of {tag}: {met:?}");
            }
        }
        for number in [1, 3, 4, 5] {
            assert!(count(number, Some(CURVE)) > 50, "{number} of a curve: {met:?}");
        }
        assert!(count(4, Some(INVERTER)) > 100 && count(4, Some(WEATHER)) > 100, "{met:?}");
        assert!(count(0, None) > 4_000 && count(9, None) > 100, "{met:?}");
    }
}
