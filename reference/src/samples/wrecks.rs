//! Sticks with several faults in their steps: readings that cannot be used, and then something at which a rescue ends;
//! and sticks of any size.

use super::sticks::{self, Field};
use super::{currents, inverters, older, roofs, voltages, Draw};
use crate::reading::Reading;
use crate::site::Site;
use crate::stick::{Run, MISSING, VOLTAGE};

/// A damaged file, and the run that is left of it.
#[derive(Clone, Debug)]
pub struct Wreck {
    pub file: Vec<u8>,
    pub left: Run,
}

/// The run's first steps.
fn first_steps(run: &Run, steps: usize) -> Run {
    sticks::with(run, |run| run.readings.truncate(steps))
}

/// The run with some of its readings such as cannot be used, and with the same ones missing.
fn spoiled(run: Run, draw: &mut Draw) -> (Run, Run) {
    let (mut spoiled, mut left) = (run.clone(), run);
    let often = draw.one_of(&[1, 2, 3, 8]);
    for step in 0..left.readings.len() {
        if draw.below(often) == 0 {
            spoiled.readings[step] = currents::unusable_reading(&left.site.settings, draw);
            left.readings[step] = Reading::Missing;
        }
    }
    (spoiled, left)
}

/// A field that may not stand among the steps. Where none has begun, connections, an inverter, a curve or a function
/// would be refused.
fn stray(first: bool, draw: &mut Draw) -> Field {
    let run = currents::plain_run(&[1, 4], 1, 1, 0, draw);
    let run = voltages::led(run, draw);
    let most = if first { roofs::first_inverter(&run) - 1 } else { roofs::first_step(&run) };
    let at = draw.below(most as u64) as usize;
    sticks::fields(&run)[at].clone()
}

/// A voltage that may not stand where it is put, before the last field of a step, or has no good value; where a
/// function leads the run it takes the place of the one that is there.
fn bad_voltage(fields: &mut Vec<Field>, site: &Site, draw: &mut Draw) {
    let last = fields.len() - 1;
    if site.function.is_none() {
        fields.insert(last, voltages::voltage_field(draw.below(20_001) as u16));
        return;
    }
    let bad = voltages::voltage_field(draw.one_of(&voltages::BAD_VOLTAGES));
    match fields.iter().position(|field| field.tag == VOLTAGE) {
        Some(at) if draw.below(2) == 0 => fields[at] = bad,
        // A second one.
        Some(at) => fields.insert(at, fields[at].clone()),
        None => fields.insert(last, bad),
    }
}

/// A weather, a voltage or both without their reading.
fn unread(site: &Site, steps: u32, draw: &mut Draw) -> Vec<Field> {
    let weather = roofs::weather_field(inverters::weather(draw));
    let voltage = voltages::voltage_field(draw.below(20_001) as u16);
    let mut fields = match draw.below(3) {
        _ if site.function.is_none() => vec![weather],
        0 => vec![weather],
        1 => vec![voltage],
        _ => vec![weather, voltage],
    };
    fields.push(sticks::end_field(steps));
    fields
}

/// The fields of a step, or the end field, with a fault at which a rescue ends and leaves the steps before it; behind
/// them the rest of the file, where there is more of it.
fn broken(mut fields: Vec<Field>, site: &Site, steps: u32, rest: &[Field], draw: &mut Draw) -> Vec<u8> {
    let at = draw.below(fields.len() as u64) as usize;
    let last = fields.len() - 1;
    match draw.below(9) {
        0 => {
            // The copy stopped here, between two fields or within one.
            let (edge, mut bytes) = (sticks::bytes(&fields[..at]).len(), sticks::bytes(&fields));
            let any = draw.below(bytes.len() as u64) as usize;
            bytes.truncate(draw.one_of(&[edge, any]));
            return bytes;
        }
        1 => fields[at].tag |= 0x80,
        2 => fields[at].length ^= 1 << draw.below(10),
        3 => fields.insert(at, stray(steps == 0 && at == 0, draw)),
        4 => fields[0] = roofs::weather_field(inverters::bad_weather(draw)),
        5 => fields[last] = sticks::end_field(draw.one_of(&sticks::bad_counts(steps))),
        // The meter was set to another kind.
        6 => fields[last] = sticks::reading_field(&currents::misfit_reading(&site.settings, draw)),
        7 => bad_voltage(&mut fields, site, draw),
        _ => fields = unread(site, steps, draw),
    }
    sticks::bytes(&[&fields, rest].concat())
}

/// A small stick of any edition and mode, with readings that cannot be used, and for the most part broken off at one of
/// its steps or at its end.
pub fn wreck(draw: &mut Draw) -> Wreck {
    let (units, steps) = (1 + draw.below(2) as usize, draw.below(9) as usize);
    let inverters = draw.one_of(&[0, 0, 1, 2]);
    let makers = [older::run, older::run, currents::run, voltages::run];
    let run = draw.one_of(&makers)(units, inverters, steps, draw);
    let (spoiled, left) = spoiled(run, draw);
    let fields = sticks::fields(&spoiled);
    if draw.below(4) == 0 {
        let most = draw.one_of(&[0, 20]);
        let behind = sticks::noise(most, draw);
        return Wreck { file: [sticks::bytes(&fields), behind].concat(), left };
    }
    let step = draw.below(steps as u64 + 1) as usize;
    // The end field of the steps before stands where the next begins.
    let begins = |step: usize| sticks::fields(&first_steps(&spoiled, step)).len() - 1;
    let (from, to) = (begins(step), if step < steps { begins(step + 1) } else { fields.len() });
    let broken = broken(fields[from..to].to_vec(), &left.site, step as u32, &fields[to..], draw);
    Wreck { file: [sticks::bytes(&fields[..from]), broken].concat(), left: first_steps(&left, step) }
}

/// A file of just so many bytes that lacks its end field, and how many steps it has: those of the run, and then
/// as many of all four lengths that a step without a voltage can have as there is room for.
pub fn of_bytes(run: &Run, bytes: usize, draw: &mut Draw) -> (Vec<u8>, u32) {
    let missing = [MISSING, 0, 0];
    let weather = sticks::bytes(&[roofs::weather_field(inverters::weather(draw))]);
    let reading = currents::fitting_reading(&run.site.settings, draw);
    let reading = sticks::bytes(&[sticks::reading_field(&reading)]);
    let fields = sticks::fields(run);
    let mut file = sticks::bytes(&fields[..fields.len() - 1]);
    let mut steps = run.readings.len() as u32;
    let mut put = |file: &mut Vec<u8>, step: &[&[u8]]| {
        step.iter().for_each(|field| file.extend_from_slice(field));
        steps += 1;
    };
    put(&mut file, &[&reading]);
    assert!(file.len() + 2 * 22 <= bytes, "bytes for the run and for steps of all lengths");
    // What is left has room for two of 22 bytes, and no more of these are needed until it is a number of threes.
    while bytes - file.len() >= 46 + 2 * 22 {
        put(&mut file, &[&weather, &reading]);
    }
    while (bytes - file.len()) % 3 != 0 {
        put(&mut file, &[&weather, &missing]);
    }
    while file.len() < bytes {
        put(&mut file, &[&missing]);
    }
    (file, steps)
}

/// A file that was damaged in any place, by turns in each of the editions and modes, or only in its steps.
pub fn damaged_by_turns(draw: &mut Draw, turn: usize) -> Vec<u8> {
    match turn % 4 {
        0 => older::damaged_file(draw),
        1 => currents::damaged_file(draw),
        2 => voltages::damaged_file(draw),
        _ => wreck(draw).file,
    }
}

#[cfg(test)]
mod tests {
    use super::*;
    use crate::stick::{self, Answer};
    use std::collections::BTreeMap;

    /// A wreck's first fault is one in its steps or behind them, and what is left of it is accepted. Every refusal that
    /// there can be is met with steps before it and without.
    #[test]
    fn wrecks_are_broken_in_their_steps() {
        let mut draw = Draw::from_seed(140);
        let mut met = BTreeMap::new();
        for _ in 0..20_000 {
            let Wreck { file, left } = wreck(&mut draw);
            let Answer { number, place, steps } = stick::check(&file);
            let site = sticks::bytes(&sticks::fields(&left)[..roofs::first_step(&left)]);
            assert!(place >= site.len() as u64 && file.starts_with(&site));
            assert_eq!(stick::check(&sticks::file(&left)).number, 0);
            *met.entry((number, steps > 0)).or_insert(0u32) += 1;
        }
        for number in 0..=9 {
            for some in [false, true] {
                let count = met.get(&(number, some)).copied().unwrap_or(0);
                assert!(count > 50, "{number} {some}: {met:?}");
            }
        }
    }

    #[test]
    fn files_of_every_length() {
        let mut draw = Draw::from_seed(141);
        for bytes in (450..850).chain([2_097_151, 2_097_152]) {
            let run = draw.one_of(&[older::run, currents::run])(1, 0, 2, &mut draw);
            let (file, steps) = of_bytes(&run, bytes, &mut draw);
            assert_eq!(stick::check(&file), Answer { number: 8, place: bytes as u64, steps });
            assert_eq!(file.len(), bytes);
        }
    }
}
