//! Runs in which something happens: energies of a few steps, so that units run empty and full, and readings
//! about the target and of the fleet's size, so that requests rise and fall.

use super::{currents, Draw};
use crate::connection::Connection;
use crate::controller::Settings;
use crate::ranges::{CURRENT, RATED, TARGET};
use crate::reading::{Phases, Reading};
use crate::site::Site;
use crate::stick::Run;
use crate::storage::Unit;

/// A run of edition 1 that is not to be refused, in a mode of power.
pub fn run(units: usize, steps: usize, draw: &mut Draw) -> Run {
    run_in(&[1, 2, 3], units, steps, draw)
}

/// The same in one of these modes; where it buys by current, with connections and readings of currents.
pub fn run_in(modes: &[u8], units: usize, steps: usize, draw: &mut Draw) -> Run {
    let any = 1 + draw.below(86_400) as u32;
    let seconds = draw.one_of(&[1, 60, 900, 3_600, 3_600, 86_400, any]);
    let scale = draw.one_of(&[5, 100, 10_000, 10_000, 1_000_000, 100_000_000]);
    let mut settings = Settings { mode: draw.one_of(modes), target: 0, band: 0, factor: 1 };
    let charges = settings.charges();
    let units: Vec<Unit> = (0..units).map(|_| unit(seconds, scale, charges, draw)).collect();
    let power = units.iter().map(|unit| u64::from(unit.rating)).sum::<u64>().min(100_000_000);
    let mut connections = Vec::new();
    let mut size = power;
    if settings.by_current() {
        connections = currents::connections(units.len(), draw);
        size = milliamperes(power, draw.one_of(&connections));
    }
    set_levels(&mut settings, size, draw);
    let phase = draw.below(6) as u8;
    let readings = readings(steps, &settings, phase, size as i64, draw);
    let site = Site {
        edition: 1,
        seconds,
        units,
        settings,
        phase,
        connections,
        inverters: Vec::new(),
        function: None,
    };
    Run { site, readings, weather: Vec::new(), voltages: Vec::new() }
}

/// The current that a power is to a connection, or the largest that a target can be.
fn milliamperes(power: u64, connection: Connection) -> u64 {
    let volts = u64::from(connection.phases) * u64::from(connection.volts);
    (1_000 * power / volts).clamp(1, *TARGET.end() as u64)
}

fn efficiency(draw: &mut Draw) -> u16 {
    let any = draw.within(1_000, 10_000) as u16;
    draw.one_of(&[10_000, 9_000, 9_500, 9_700, any, any])
}

fn unit(seconds: u32, scale: u64, charges: bool, draw: &mut Draw) -> Unit {
    let rating = 1 + draw.below(scale) as u32;
    let kva = match draw.below(5) {
        0 => rating,
        1 => 1 + draw.below(scale) as u32,
        2 => 1 + rating / 2,
        _ => rating + rating / 10,
    }
    .min(100_000_000);
    let any = draw.below(u64::from(kva) + 1) as i32;
    let beyond = 2 * kva.min(50_000_000) as i32;
    let var_request = draw.one_of(&[0, 0, any, -any, any / 3, -any / 3, kva as i32, beyond, -beyond]);
    let inverter = efficiency(draw);
    let most_idle = u64::from(rating.min(kva)) * u64::from(inverter) / 10_000;
    let most_idle = most_idle.min(10_000_000);
    let idle_loss = match draw.below(8) {
        0..=2 => 0,
        3 => draw.below(most_idle + 1),
        _ => draw.below(most_idle / 30 + 1),
    } as u32;
    let mut unit = Unit {
        rated: 1,
        reserve: 0,
        stored: 0,
        rating,
        kva,
        idle_loss,
        var_request,
        weight: draw.one_of(&[1, 1, 1, 2, 3, 10, 9_999, 10_000]),
        inverter,
        charge: efficiency(draw),
        discharge: efficiency(draw),
        priority: draw.below(2) as u8,
        provide: kva,
        absorb: kva,
    };
    set_energies(&mut unit, seconds, charges, draw);
    unit
}

/// A rated energy of a tenth of a step at full power to many steps, and a store from which the mode has a good
/// part of it to move, or all, little or nothing.
fn set_energies(unit: &mut Unit, seconds: u32, charges: bool, draw: &mut Draw) {
    let power = unit.rating.min(unit.kva).into();
    let moved = if charges { unit.added(1, power, seconds) } else { unit.removed(1, power, seconds) };
    let tenths = draw.one_of(&[1, 3, 8, 10, 11, 15, 25, 40, 80, 200]);
    let rated = (moved * tenths / 10).clamp(1, i128::from(*RATED.end())) as u64;
    unit.rated = rated;
    let any = draw.below(rated + 1);
    unit.reserve = draw.one_of(&[0, rated / 10, rated / 5, rated / 2, any]);
    let (reserve, above) = (unit.reserve, draw.below(rated - unit.reserve + 1));
    let moves = if charges { rated - above } else { reserve + above };
    let room = if charges { 0 } else { rated };
    unit.stored = match draw.below(12) {
        0 => reserve,
        1 => draw.below(reserve + 1),
        2 => rated,
        3 => any,
        4..=7 => room,
        _ => moves,
    };
}

/// Target, band and factor of a fleet of this size, in the unit of the mode. A target below zero has little to say
/// where no measure is.
fn set_levels(settings: &mut Settings, size: u64, draw: &mut Draw) {
    let near = draw.below(2 * size + 1) as i32 - size as i32;
    let any = 1 + draw.below(1_000) as u16;
    let near = if settings.by_current() && draw.below(8) != 0 { near.abs() } else { near };
    settings.target = draw.one_of(&[0, near, near, near / 4]);
    settings.band = draw.one_of(&[0, 0, size / 20, size / 5, size / 3]) as u32;
    settings.factor = draw.one_of(&[1_000, 1_000, 1_000, 500, 300, any]);
}

fn readings(steps: usize, settings: &Settings, phase: u8, size: i64, draw: &mut Draw) -> Vec<Reading> {
    let missing = draw.one_of(&[2, 3, 6, 30]);
    let mut readings = Vec::new();
    for _ in 0..steps {
        readings.push(match draw.below(12 * missing) {
            n if n < 12 => Reading::Missing,
            12 => currents::fitting_reading(settings, draw),
            _ => reading_of(measure(settings, size, draw), settings, phase, draw),
        });
    }
    // The first and the last are where a missing reading is met least.
    if steps > 0 {
        match draw.below(8) {
            0 => readings[0] = Reading::Missing,
            1 => readings[steps - 1] = Reading::Missing,
            2 => (readings[0], readings[steps - 1]) = (Reading::Missing, Reading::Missing),
            _ => (),
        }
    }
    readings
}

/// A measure whose need is mostly in the mode's own direction, and part of what the fleet can do.
fn measure(settings: &Settings, size: i64, draw: &mut Draw) -> i64 {
    let part = draw.below(size as u64 + 1) as i64;
    let need = draw.one_of(&[0, 1, part, part, part, part / 8, part / 8, -part / 4, -part, 2 * part]);
    let need = if settings.charges() { -need } else { need };
    let target = i64::from(settings.target);
    let measure = if settings.mode == 2 { need - target } else { need + target };
    measure.clamp(-100_000_000, 100_000_000)
}

/// A reading that fits the mode, from which the phase choice takes this measure, or where there is none the nearest
/// that there is; what it does not take is something else.
fn reading_of(measure: i64, settings: &Settings, phase: u8, draw: &mut Draw) -> Reading {
    let most = draw.one_of(&[2, 256, 1 << 20]);
    let [one, two] = [(); 2].map(|()| draw.below(most) as i64);
    let three = match phase {
        0 => [one, measure - one - two, two],
        4 => [measure - one, measure, measure - two],
        5 => [measure + one, measure + two, measure],
        chosen => {
            let mut three = [one, -two, measure / 2];
            three[usize::from(chosen) - 1] = measure;
            three
        }
    };
    let least = if settings.by_current() { i64::from(*CURRENT.start()) } else { -100_000_000 };
    let phases = Phases::of(three.map(|whole| whole.clamp(least, 100_000_000) as f64 / 1000.0));
    if settings.by_current() {
        Reading::Current(phases)
    } else {
        Reading::Power(phases)
    }
}

#[cfg(test)]
mod tests {
    use super::*;

    #[test]
    fn a_reading_gives_its_measure_in_every_phase_choice() {
        let mut draw = Draw::from_seed(91);
        let mode = |mode| Settings { mode, target: 0, band: 0, factor: 1 };
        for _ in 0..2_000 {
            let measure = draw.below(190_000_001) as i64 - 95_000_000;
            for phase in 0..6 {
                let reading = reading_of(measure, &mode(1), phase, &mut draw);
                assert_eq!(reading.measure(phase), Ok(Some(measure)));
                // A current that is no smaller than the others can be.
                let measure = measure.abs() + (1 << 21);
                let reading = reading_of(measure, &mode(4), phase, &mut draw);
                assert_eq!(reading.measure(phase), Ok(Some(measure)));
            }
        }
    }

    #[test]
    fn no_run_is_outside_its_ranges() {
        let mut draw = Draw::from_seed(92);
        for units in (1..=64).chain(1..=64) {
            for run in [run(units, 3, &mut draw), run_in(&[4, 5], units, 3, &mut draw)] {
                assert!(run.site.units.iter().all(|unit| unit.in_range(1)) && run.site.settings.in_range());
                assert!(run.site.connections.iter().all(Connection::in_range));
            }
        }
    }
}
