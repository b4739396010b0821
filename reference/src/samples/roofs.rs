//! Runs of a site with inverters, weather in some of their steps, and every kind of damage that can come over the
//! fields of both.

use super::inverters::{self, SolarCall};
use super::sticks::{self, Damage, Field};
use super::{currents, curves, seasons, voltages, Draw};
use crate::curve::{Curve, Kind, EFF, WARM};
use crate::octets::{put_f64, put_i32, put_u16, put_u32, put_u8};
use crate::ranges::MOST_INVERTERS;
use crate::solar::{Inverter, Weather};
use crate::stick::{length_of, Run, CURVE, FUNCTION, INVERTER, TAGS, VOLTAGE, WEATHER};

/// The points that a curve's field has room for.
const ROOM: usize = 16;

/// An inverter's values before its curves, in the order of its field.
pub fn put_plate(value: &mut Vec<u8>, inverter: &Inverter) {
    for number in [inverter.array, inverter.kva] {
        put_u32(value, number);
    }
    for parts in [inverter.cut_in, inverter.cut_out, inverter.limit] {
        put_u16(value, parts);
    }
    put_i32(value, inverter.var_request);
    put_u8(value, inverter.priority);
}

/// A curve of up to 16 points, as in its field.
pub fn put_curve(value: &mut Vec<u8>, curve: &Curve) {
    assert!(curve.x.len() <= ROOM && curve.x.len() == curve.y.len(), "a curve that a field has room for");
    put_u8(value, curve.x.len() as u8);
    for point in 0..ROOM {
        put_i32(value, curve.x.get(point).copied().unwrap_or(0));
        put_i32(value, curve.y.get(point).copied().unwrap_or(0));
    }
}

pub fn put_weather(value: &mut Vec<u8>, weather: Weather) {
    put_f64(value, weather.irradiance);
    put_f64(value, weather.temperature);
}

pub fn curve_field(curve: &Curve) -> Field {
    let mut value = Vec::new();
    put_curve(&mut value, curve);
    Field::new(CURVE, value)
}

/// The three fields of an inverter.
pub fn inverter_fields(inverter: &Inverter) -> [Field; 3] {
    let mut value = Vec::new();
    put_plate(&mut value, inverter);
    [Field::new(INVERTER, value), curve_field(&inverter.warm), curve_field(&inverter.eff)]
}

pub fn weather_field(weather: Weather) -> Field {
    let mut value = Vec::new();
    put_weather(&mut value, weather);
    Field::new(WEATHER, value)
}

/// An inverter of round numbers: level curves, as many VA as watts, and cut-in and cut-out at whole thousandths of
/// irradiance, so that DC power meets them exactly.
fn round(draw: &mut Draw) -> Inverter {
    let array = 1_000 * (1 + draw.below(60) as u32);
    let cut_in = 10 * draw.below(60) as u16;
    let level = |y| Curve::through(&[(0, y), (1_000, y)]);
    Inverter {
        array,
        kva: array,
        cut_in,
        cut_out: draw.one_of(&[0, cut_in, cut_in / 20 * 10]),
        limit: draw.one_of(&[10_000, 10_000, 7_000]),
        var_request: array as i32 / 10 * draw.one_of(&[0, 3, -3, 6, 10, -12]),
        priority: draw.below(2) as u8,
        warm: level(10_000),
        eff: level(draw.one_of(&[10_000, 9_600])),
    }
}

/// An inverter as a farm has it, with curves of its own.
fn ordinary(draw: &mut Draw) -> Inverter {
    let array = 1 + draw.one_of(&[1_000, 30_000, 2_000_000]) as u32 * (1 + draw.below(40) as u32);
    let kva = (u64::from(array) * (70 + draw.below(50)) / 100).max(1) as u32;
    let cut_in = draw.below(1_500) as u16;
    let any = draw.below(u64::from(kva) + 1) as i32;
    Inverter {
        array,
        kva,
        cut_in,
        cut_out: draw.below(u64::from(cut_in) + 1) as u16,
        limit: draw.one_of(&[10_000, 10_000, 10_000, 8_000, 500, 0]),
        var_request: draw.one_of(&[0, any, -any, any / 4, -any / 4]),
        priority: draw.below(2) as u8,
        warm: either(curves::document_warm(), &WARM, draw),
        eff: either(curves::document_eff(), &EFF, draw),
    }
}

/// A curve of the document's, or one of its own.
fn either(document: Curve, kind: &Kind, draw: &mut Draw) -> Curve {
    if draw.below(2) == 0 {
        document
    } else {
        curves::curve(kind, draw)
    }
}

/// An inverter that is not to be refused.
pub fn inverter(draw: &mut Draw) -> Inverter {
    match draw.below(5) {
        0 => inverters::solar_call(draw).inverter,
        1 | 2 => round(draw),
        _ => ordinary(draw),
    }
}

/// A weather in which an inverter is about at its cut-in or its cut-out, in a day's sun, in the dark, or any.
fn weather(all: &[Inverter], draw: &mut Draw) -> Weather {
    let temperature = draw.one_of(&[25.0, 25.0, 0.0, -12.5, 50.0, 61.3]);
    let irradiance = match draw.below(8) {
        0 => return inverters::weather(draw),
        1 => 0.0,
        2..=4 if !all.is_empty() => {
            let inverter = &all[draw.below(all.len() as u64) as usize];
            let parts = draw.one_of(&[inverter.cut_in, inverter.cut_in, inverter.cut_out]);
            let level = u128::from(parts) * u128::from(inverter.kva) * 1_000;
            let factor = inverter.warm.at((temperature * 1_000.0) as i64).max(1) as u128;
            let at = level / (u128::from(inverter.array) * factor);
            inverters::thousandths(at.min(100_000_000) as i64 + draw.below(4) as i64 - 1).max(0.0)
        }
        _ => inverters::thousandths(draw.below(1_200) as i64),
    };
    Weather { irradiance, temperature }
}

/// A run with inverters that is not to be refused, in a mode of power; now and then a function leads it.
pub fn run(units: usize, inverters: usize, steps: usize, draw: &mut Draw) -> Run {
    let run = plain_run(units, inverters, steps, draw);
    voltages::or_led(run, draw)
}

/// The same without a function.
pub fn plain_run(units: usize, inverters: usize, steps: usize, draw: &mut Draw) -> Run {
    let run = seasons::run(units, steps, draw);
    with_roof(run, inverters, draw)
}

/// The run with so many inverters, and weather in some of its steps.
pub fn with_roof(mut run: Run, inverters: usize, draw: &mut Draw) -> Run {
    run.site.inverters = (0..inverters).map(|_| inverter(draw)).collect();
    let bare = draw.one_of(&[1, 2, 4, 4, 30]);
    for _ in 0..run.readings.len() {
        let weather = weather(&run.site.inverters, draw);
        run.weather.push((draw.below(bare) != 0 || bare == 1).then_some(weather));
    }
    if bare == 2 && draw.below(3) == 0 {
        run.weather.fill(None);
    }
    run
}

/// A number of inverters: none, one, a few, or any that there can be.
pub fn count(draw: &mut Draw) -> usize {
    let any = draw.below(MOST_INVERTERS as u64 + 1) as usize;
    draw.one_of(&[0, 1, 1, 1, 2, 2, 3, 4, 5, any])
}

/// A run of one or two units, up to two inverters and a few steps, so that its file is small.
pub fn small_run(draw: &mut Draw) -> Run {
    let units = draw.one_of(&[1, 1, 1, 2]);
    let inverters = draw.one_of(&[0, 1, 1, 1, 2]);
    let steps = draw.below(5) as usize;
    run(units, inverters, steps, draw)
}

/// The run with a change to one of its inverters.
pub fn with_inverter(run: &Run, inverter: usize, change: impl Fn(&mut SolarCall)) -> Run {
    let mut run = run.clone();
    run.site.inverters[inverter] = inverters::with(&run.site.inverters[inverter], change);
    run
}

/// The run with a weather, good or bad, in one of its steps.
pub fn with_weather(run: &Run, step: usize, weather: Weather) -> Run {
    let mut run = run.clone();
    run.weather.resize(run.readings.len(), None);
    run.weather[step] = Some(weather);
    run
}

/// Where the fields of inverters begin among a run's fields.
pub fn first_inverter(run: &Run) -> usize {
    run.site.units.len() + 2 + usize::from(!run.site.connections.is_empty())
}

/// Where the fields of steps begin among a run's fields.
pub fn first_step(run: &Run) -> usize {
    let of_function = if run.site.function.is_some() { 2 } else { 0 };
    first_inverter(run) + 3 * run.site.inverters.len() + of_function
}

/// Curve fields that are to be refused for what no list of points can say: a count that is none, or another than that
/// of the points, and something past them.
pub fn bad_curves(curve: &Curve, draw: &mut Draw) -> Vec<Field> {
    let right = curve_field(curve);
    let points = curve.x.len();
    let (x, y) = (curve.x[points - 1], curve.y[points - 1]);
    let changed = |at: usize, byte: u8| {
        let mut field = right.clone();
        field.value[at] = byte;
        field
    };
    let mut found = [0, 1, 17, 18, 128, 128 + points as u8, 255].map(|count| changed(0, count)).to_vec();
    if points < ROOM {
        let past = 1 + 8 * points;
        let any = past + draw.below((129 - past) as u64) as usize;
        found.extend([past, past + 3, past + 7, 128, any].map(|at| changed(at, 1 + draw.below(255) as u8)));
    }
    // One point more is all 0, and is right of the last only if that is left of 0.
    if points < ROOM && x >= 0 {
        found.push(changed(0, points as u8 + 1));
    }
    // One point less leaves the last one past the points, unless that is all 0.
    if points > 2 && (x, y) != (0, 0) {
        found.push(changed(0, points as u8 - 1));
    }
    found
}

/// A field of any tag of the list whose values are good in some file.
pub fn any_field(draw: &mut Draw) -> Field {
    let three = inverter_fields(&inverter(draw));
    match draw.below(12) {
        0 | 1 => three[0].clone(),
        2 => three[1].clone(),
        3 => three[2].clone(),
        4 | 5 => weather_field(inverters::weather(draw)),
        6 => sticks::reading_field(&currents::current_reading(draw)),
        7 => currents::any_connections(draw),
        8 | 9 => voltages::any_field(draw),
        _ => sticks::any_field(draw),
    }
}

/// One piece of damage to a file's fields at the field of a number; to the fields of inverters, weather, functions and
/// voltages, one of theirs for the most part.
pub fn damage(fields: &mut Vec<Field>, at: usize, draw: &mut Draw) {
    let at = at.min(fields.len() - 1);
    let whole = length_of(fields[at].tag).map_or(false, |length| fields[at].value.len() == length.into());
    match draw.below(12) {
        0 => fields.insert(at, any_field(draw)),
        1 => fields[at] = any_field(draw),
        2 => {
            let (tag, length) = draw.one_of(&TAGS);
            fields[at].tag = tag;
            fields[at].length = length;
            fields[at].value.resize(length.into(), 0);
        }
        3 => {
            let wrong = draw.one_of(&[15, 16, 17, 18, 19, 20, 128, 129, 130, 137]);
            fields[at].length = wrong;
            fields[at].value.resize(wrong.into(), 0);
        }
        4..=9 if whole && fields[at].tag == CURVE => spoil_curve(&mut fields[at].value, draw),
        4..=9 if whole && fields[at].tag == INVERTER => spoil_plate(&mut fields[at].value, draw),
        4..=9 if whole && fields[at].tag == WEATHER => {
            fields[at] = weather_field(inverters::bad_weather(draw));
        }
        4..=9 if whole && [FUNCTION, VOLTAGE].contains(&fields[at].tag) => {
            voltages::spoil(&mut fields[at], draw);
        }
        _ => sticks::damage(fields, at, draw),
    }
}

/// Sets the count, a point's x or y, or bytes past the points to something else, mostly near what it was.
pub fn spoil_curve(value: &mut [u8], draw: &mut Draw) {
    let place = 1 + 4 * draw.below(32) as usize;
    let word = i32::from_be_bytes(value[place..place + 4].try_into().expect("four bytes"));
    let other = draw.one_of(&[0, word - word.signum(), word.wrapping_neg(), 10_001, 20_001, -1, 100_000_001]);
    match draw.below(4) {
        0 => value[0] = draw.one_of(&[0, 1, 2, 15, 16, 17, 255]),
        1 => value[place + 3] ^= 1 << draw.below(8),
        2 => value[place..place + 4].copy_from_slice(&other.to_be_bytes()),
        // Two neighbouring points exchanged.
        _ => {
            let point = 1 + 8 * draw.below(15) as usize;
            value[point..point + 16].rotate_left(8);
        }
    }
}

/// Sets one of the values of an inverter's field beside an end of its range, on one side or the other.
fn spoil_plate(value: &mut [u8], draw: &mut Draw) {
    let wide = draw.one_of(&[0u32, 1, 100_000_000, 100_000_001, u32::MAX, -100_000_001i32 as u32]);
    let narrow = draw.one_of(&[0u16, 1, 9_999, 10_000, 10_001, u16::MAX]);
    match draw.below(5) {
        0 => value[18] = draw.one_of(&[0, 1, 2, 255]),
        1 | 2 => {
            let at = draw.one_of(&[0, 4, 14]);
            value[at..at + 4].copy_from_slice(&wide.to_be_bytes());
        }
        _ => {
            let at = draw.one_of(&[8, 10, 12]);
            value[at..at + 2].copy_from_slice(&narrow.to_be_bytes());
        }
    }
}

/// The bytes of these fields after a few pieces of damage of a kind, with the end cut off or not.
pub fn damaged(mut fields: Vec<Field>, damage: Damage, draw: &mut Draw) -> Vec<u8> {
    sticks::damage_some(&mut fields, damage, draw);
    let mut file = sticks::bytes(&fields);
    match draw.below(12) {
        0 => file.truncate(draw.below(file.len() as u64 + 1) as usize),
        1 => file.extend((0..1 + draw.below(8)).map(|_| draw.any() as u8)),
        _ => (),
    }
    file
}

/// A small file with a few pieces of damage, at one field or at several, and its end cut off or not.
pub fn damaged_file(draw: &mut Draw) -> Vec<u8> {
    damaged(sticks::fields(&small_run(draw)), damage, draw)
}

/// The file of a run with its fields in any order, with good values for the most part.
pub fn shuffled(run: &Run, draw: &mut Draw) -> Vec<u8> {
    let mut fields = sticks::fields(run);
    match draw.below(4) {
        // Anything behind a good beginning.
        0 => {
            fields.truncate(first_inverter(run) + draw.below(4) as usize);
            fields.extend((0..draw.below(7)).map(|_| any_field(draw)));
        }
        way => sticks::reorder(&mut fields, way == 1, draw),
    }
    sticks::bytes(&fields)
}

/// Fields of the list in any order, with good values for the most part.
pub fn shuffled_file(draw: &mut Draw) -> Vec<u8> {
    shuffled(&small_run(draw), draw)
}

#[cfg(test)]
mod tests {
    use super::*;
    use crate::season;
    use crate::stick;

    #[test]
    fn no_run_is_refused() {
        let mut draw = Draw::from_seed(107);
        for round in 0..2_000 {
            let inverters = if round < 65 { round } else { count(&mut draw) };
            let run = run(1 + round % 3, inverters, round % 5, &mut draw);
            let file = sticks::file(&run);
            assert_eq!(stick::check(&file).number, 0);
            let said = stick::read(&file).unwrap();
            assert_eq!((said.site.inverters.len(), &said.site), (inverters, &run.site));
            assert_eq!(sticks::file(&said), file);
            assert!(run.site.inverters.iter().all(Inverter::in_range));
        }
    }

    /// The inverters of these runs turn on and off, and are held between cut-out and cut-in in both states.
    #[test]
    fn runs_in_which_something_happens() {
        let mut draw = Draw::from_seed(108);
        let (mut turned_on, mut turned_off, mut held, mut at) = (0, 0, [0; 2], [0; 2]);
        for _ in 0..1_000 {
            let run = run(1, 3, 12, &mut draw);
            let mut before = [false; 3];
            for step in season::steps(&run) {
                for (i, record) in step.solar.iter().enumerate() {
                    let inverter = &run.site.inverters[i];
                    let level = |parts: u16| u128::from(parts) * u128::from(inverter.kva);
                    let dc = u128::from(record.produced.dc) * 10_000;
                    let on = record.produced.on;
                    turned_on += u32::from(on && !before[i]);
                    turned_off += u32::from(!on && before[i]);
                    let between = level(inverter.cut_out) <= dc && dc <= level(inverter.cut_in);
                    held[usize::from(on)] += u32::from(between);
                    at[0] += u32::from(dc == level(inverter.cut_in));
                    at[1] += u32::from(dc == level(inverter.cut_out));
                    before[i] = on;
                }
            }
        }
        assert!(turned_on > 3_000 && turned_off > 2_000, "{turned_on} {turned_off}");
        assert!(held.iter().chain(&at).all(|&n| n > 500), "{held:?} {at:?}");
    }

    #[test]
    fn every_refusal_is_among_the_damages() {
        let mut draw = Draw::from_seed(109);
        let mut met = std::collections::BTreeMap::new();
        for round in 0..60_000 {
            let file = if round % 4 == 0 { shuffled_file(&mut draw) } else { damaged_file(&mut draw) };
            let answer = stick::check(&file);
            let tag =
                file.get(answer.place as usize).copied().filter(|_| ![0, 8, 9].contains(&answer.number));
            *met.entry((answer.number, tag)).or_insert(0u32) += 1;
        }
        for expected in [(5, INVERTER), (5, CURVE), (6, WEATHER), (4, INVERTER), (4, CURVE), (4, WEATHER)] {
            let count = met.get(&(expected.0, Some(expected.1))).copied().unwrap_or(0);
            assert!(count > 300, "{expected:?}: {count} of {met:?}");
        }
        for tag in [INVERTER, CURVE, WEATHER] {
            assert!(met.get(&(3, Some(tag))).copied().unwrap_or(0) > 300, "{met:?}");
        }
    }
}
