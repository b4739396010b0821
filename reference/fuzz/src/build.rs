//! Files for the fuzzer: built field by field by the reference's samples, and changed in their values, their fields and
//! their bytes.

use yesbrulka_reference::ranges;
use yesbrulka_reference::reading::Reading;
use yesbrulka_reference::samples::sticks::{self, Damage, Field};
use yesbrulka_reference::samples::{currents, inverters, limits, older, roofs, voltages, wrecks, Draw};
use yesbrulka_reference::stick::{self, Run, CURRENT, END, FLEET, HEAD, MISSING, POWER, UNIT};

/// A changed file has no more bytes than these; the reference takes its time over many steps.
pub const MOST_CHANGED: usize = 4_096;

type Maker = fn(&mut Draw) -> Vec<u8>;

/// Complete files, of every mode and edition.
const SMALL_RUNS: [fn(&mut Draw) -> Run; 6] = [
    sticks::small_run,
    roofs::small_run,
    limits::small_run,
    older::small_run,
    currents::small_run,
    voltages::small_run,
];

/// Files that were damaged, or whose fields stand in any order.
const DAMAGED: [Maker; 14] = [
    sticks::damaged_file,
    roofs::damaged_file,
    limits::damaged_file,
    older::damaged_file,
    currents::damaged_file,
    voltages::damaged_file,
    sticks::shuffled_file,
    roofs::shuffled_file,
    limits::shuffled_file,
    older::shuffled_file,
    currents::shuffled_file,
    voltages::shuffled_file,
    |draw| wrecks::wreck(draw).file,
    |draw| wrecks::wreck(draw).file,
];

const DAMAGES: [Damage; 6] =
    [sticks::damage, roofs::damage, limits::damage, older::damage, currents::damage, voltages::damage];

/// A file from the samples alone.
pub fn fresh(draw: &mut Draw) -> Vec<u8> {
    match draw.below(64) {
        0 => sticks::file(&large_run(draw)),
        1 => sticks::noise(200, draw),
        2..=23 => sticks::file(&draw.one_of(&SMALL_RUNS)(draw)),
        24..=35 => {
            let run = draw.one_of(&SMALL_RUNS)(draw);
            with_value(run, draw)
        }
        _ => draw.one_of(&DAMAGED)(draw),
    }
}

/// A run of many units, many inverters or many steps.
fn large_run(draw: &mut Draw) -> Run {
    let makers = [older::run, currents::run, voltages::run];
    let many = 1 + draw.below(64) as usize;
    let (units, inverters, steps) =
        draw.one_of(&[(many, 1, 2), (1, many, 2), (64, 0, 1), (1, 64, 1), (2, 1, 60)]);
    draw.one_of(&makers)(units, inverters, steps, draw)
}

/// A file of one byte more than the calls take that are lent a file whole.
pub fn too_long(draw: &mut Draw) -> Vec<u8> {
    let mut file = sticks::file(&older::small_run(draw));
    file.resize(ranges::MOST_BYTES + 1, MISSING);
    file
}

/// A file made of a kept one, and now and then of a part of another; of the beginnings of long ones.
pub fn changed(file: &[u8], other: &[u8], draw: &mut Draw) -> Vec<u8> {
    let [file, other] = [file, other].map(|file| &file[..file.len().min(MOST_CHANGED)]);
    let changed = match draw.below(8) {
        0 | 1 => match stick::read(file) {
            Ok(run) => with_value(run, draw),
            Err(_) => with_fields(file, other, draw),
        },
        2 | 3 => with_bytes(file, other, draw),
        _ => with_fields(file, other, draw),
    };
    match changed.len() {
        0..=MOST_CHANGED => changed,
        _ => fresh(draw),
    }
}

fn any_of(length: usize, draw: &mut Draw) -> usize {
    draw.below(length as u64) as usize
}

/// The file of a run with a value at an end of its range, one beside it or far outside.
fn with_value(run: Run, draw: &mut Draw) -> Vec<u8> {
    let steps = run.readings.len();
    let unit = any_of(run.site.units.len(), draw);
    let edition = run.site.edition;
    let run = match draw.below(10) {
        0 | 1 => sticks::with_unit(&run, unit, draw.one_of(&older::ends(edition))),
        2 => sticks::with_unit(&run, unit, draw.one_of(&older::bad_values(edition))),
        3 => sticks::with(&run, draw.one_of(&sticks::SETTINGS_ENDS)),
        4 => sticks::with(&run, draw.one_of(&sticks::BAD_SETTINGS)),
        5 => currents::in_mode(1 + draw.below(5) as u8, run, draw),
        6 if !run.site.inverters.is_empty() => with_inverter(&run, draw),
        7 if run.site.function.is_some() => with_function(&run, draw),
        8 => return with_fleet(&run, draw),
        _ if steps > 0 => with_step(run, draw),
        _ => currents::connected(run, draw),
    };
    sticks::file(&run)
}

fn with_inverter(run: &Run, draw: &mut Draw) -> Run {
    let inverter = any_of(run.site.inverters.len(), draw);
    let end = draw.one_of(&inverters::ENDS);
    let plate = draw.one_of(&inverters::BAD_PLATES);
    let (warm, eff) = (draw.one_of(&inverters::BAD_WARMS), draw.one_of(&inverters::BAD_EFFS));
    roofs::with_inverter(run, inverter, draw.one_of(&[end, end, plate, warm, eff]))
}

fn with_function(run: &Run, draw: &mut Draw) -> Run {
    let (end, base) = (draw.one_of(&voltages::ENDS), draw.one_of(&voltages::BAD_BASES));
    let curve = draw.one_of(&voltages::BAD_CURVES);
    voltages::with_function(run, draw.one_of(&[end, end, base, curve]))
}

/// Another fleet field, good in another file at best.
fn with_fleet(run: &Run, draw: &mut Draw) -> Vec<u8> {
    let mut fields = sticks::fields(run);
    let fleets = sticks::bad_fleets(run);
    fields[0] = match draw.below(3) {
        0 => sticks::fleet_field(1 + draw.below(3) as u8, run.site.units.len() as u8, run.site.seconds),
        1 => sticks::fleet_field(run.site.edition, draw.below(66) as u8, draw.one_of(&[1, 86_400])),
        _ => fleets[any_of(fleets.len(), draw)].clone(),
    };
    sticks::bytes(&fields)
}

/// Another weather, voltage or reading in a step, good or bad, or steps that come again.
fn with_step(mut run: Run, draw: &mut Draw) -> Run {
    let step = any_of(run.readings.len(), draw);
    match draw.below(8) {
        0 => return roofs::with_weather(&run, step, inverters::weather(draw)),
        1 => return roofs::with_weather(&run, step, inverters::bad_weather(draw)),
        2 => {
            let bad = draw.one_of(&voltages::BAD_VOLTAGES);
            let any = draw.below(20_001) as u16;
            return voltages::with_voltage(&run, step, draw.one_of(&[0, 20_000, any, any, bad]));
        }
        3 => run.readings[step] = currents::unusable_reading(&run.site.settings, draw),
        4 => run.readings[step] = currents::misfit_reading(&run.site.settings, draw),
        5 => run.readings[step] = Reading::Missing,
        6 => run.readings[step] = currents::fitting_reading(&run.site.settings, draw),
        _ => {
            let again = run.readings[step];
            run.readings.extend((0..draw.below(20)).map(|_| again));
        }
    }
    run
}

/// The fields that a file seems to have, and the one or two bytes behind them.
fn fields_of(file: &[u8]) -> (Vec<Field>, &[u8]) {
    let (mut fields, mut place) = (Vec::new(), 0);
    while file.len() - place >= HEAD {
        let part = stick::value_part(file, place as u64);
        let length = u16::from_be_bytes([file[place + 1], file[place + 2]]);
        fields.push(Field { tag: file[place], length, value: file[part.clone()].to_vec() });
        place = part.end;
    }
    (fields, &file[place..])
}

/// The file with a few of its fields damaged, repeated, exchanged or from another one; mended or not.
fn with_fields(file: &[u8], other: &[u8], draw: &mut Draw) -> Vec<u8> {
    let (mut fields, rest) = fields_of(file);
    for _ in 0..1 + draw.below(3) {
        if fields.is_empty() {
            return fresh(draw);
        }
        let at = any_of(fields.len(), draw);
        match draw.below(10) {
            0 => splice(&mut fields, &fields_of(other).0, draw),
            1 => repeat(&mut fields, draw),
            2 => sticks::reorder(&mut fields, false, draw),
            3 if !fields[at].value.is_empty() => sticks::set_any_bits(&mut fields[at].value, draw),
            _ => draw.one_of(&DAMAGES)(&mut fields, at, draw),
        }
    }
    if draw.below(2) == 0 {
        mend(&mut fields);
    }
    let mut file = sticks::bytes(&fields);
    if draw.below(2) == 0 {
        file.extend_from_slice(rest);
    }
    file
}

/// Puts a part of another file's fields in the place of a part.
fn splice(fields: &mut Vec<Field>, other: &[Field], draw: &mut Draw) {
    let [from, to] = sorted([(); 2].map(|()| any_of(fields.len() + 1, draw)));
    let [start, end] = sorted([(); 2].map(|()| any_of(other.len() + 1, draw)));
    fields.splice(from..to, other[start..end].iter().cloned());
}

/// Repeats a part of a few fields, such as a step with its weather.
fn repeat(fields: &mut Vec<Field>, draw: &mut Draw) {
    let from = any_of(fields.len(), draw);
    let to = fields.len().min(from + 1 + any_of(4, draw));
    let part = fields[from..to].to_vec();
    for _ in 0..1 + draw.below(6) {
        fields.splice(to..to, part.iter().cloned());
    }
}

fn sorted([one, two]: [usize; 2]) -> [usize; 2] {
    [one.min(two), one.max(two)]
}

/// Counts units and steps anew where they are said, so that a changed file may still be a good one.
fn mend(fields: &mut [Field]) {
    let count = |tags: &[u8]| fields.iter().filter(|field| tags.contains(&field.tag)).count();
    let (units, steps) = (count(&[UNIT]) as u8, count(&[POWER, MISSING, CURRENT]) as u32);
    for field in fields {
        match (field.tag, &mut field.value[..]) {
            (FLEET, [_, said, ..]) => *said = units,
            (END, said) if said.len() == 4 => said.copy_from_slice(&steps.to_be_bytes()),
            _ => (),
        }
    }
}

/// The file with a few of its bytes changed, left out or put in, cut, longer, or with bytes of another.
fn with_bytes(file: &[u8], other: &[u8], draw: &mut Draw) -> Vec<u8> {
    let mut file = file.to_vec();
    for _ in 0..1 + draw.below(4) {
        let at = any_of(file.len() + 1, draw);
        match draw.below(9) {
            0 => file.truncate(at),
            1 => file.extend(sticks::noise(8, draw)),
            2 => file.insert(at, draw.any() as u8),
            3 => drop(file.splice(at.., other[other.len().min(at)..].iter().copied())),
            4 => {
                let to = file.len().min(at + any_of(30, draw));
                file.extend_from_within(at..to);
            }
            _ if at == file.len() => file.push(draw.any() as u8),
            5 => drop(file.remove(at)),
            6 => file[at] = draw.one_of(&[0, 1, 127, 128, 255]),
            7 => file[at] = file[at].wrapping_add(draw.one_of(&[1, 255])),
            _ => file[at] ^= 1 << draw.below(8),
        }
    }
    file
}

/// The file without half of its fields, a quarter, and so on to a single one, counted anew or not; and a short file
/// without single bytes.
pub fn smaller(file: &[u8]) -> Vec<Vec<u8>> {
    let (fields, rest) = fields_of(file);
    let halves = std::iter::successors(Some(fields.len() / 2), |part| Some(part / 2));
    let mut found = Vec::new();
    // An inverter and its curves are three.
    for part in halves.take_while(|&part| part > 3).chain([3, 2, 1]) {
        for at in (0..fields.len()).step_by(1 + part / 4) {
            let to = fields.len().min(at + part);
            let mut fewer = [&fields[..at], &fields[to..]].concat();
            found.push([&sticks::bytes(&fewer), rest].concat());
            mend(&mut fewer);
            found.push([&sticks::bytes(&fewer), rest].concat());
        }
    }
    let places = (0..file.len()).filter(|_| file.len() < 400);
    found.extend(places.map(|at| [&file[..at], &file[at + 1..]].concat()));
    found.retain(|smaller| smaller.len() < file.len());
    found
}
