//! Voltage-led vars beside the reference, over the C surface: checks and runs of files with functions and voltages,
//! such files fed in cuts, and the rescue of damaged ones.

mod checks;
mod fed;
mod frames;
mod host;
mod rescued;
mod runs;

use rescued::kinds;
use yesbrulka_reference::curve::Curve;
use yesbrulka_reference::feed::{self, MOST_SITE, SITE, SIZE, VARS};
use yesbrulka_reference::reading::Reading;
use yesbrulka_reference::samples::inverters::document_inverter;
use yesbrulka_reference::samples::sticks::{self, Field};
use yesbrulka_reference::samples::wrecks::{wreck, Wreck};
use yesbrulka_reference::samples::{currents, inverters, limits, older, roofs, units, voltages, Draw};
use yesbrulka_reference::season::{self, Step};
use yesbrulka_reference::solar::Weather;
use yesbrulka_reference::stick::{self, Run, CURVE, END, FUNCTION, INVERTER, TAGS, VOLTAGE, WEATHER};
use yesbrulka_reference::volt_var::Function;

/// What every kind of led run must have met, for the most part of each base, before a test says that it has shown
/// something.
fn met_all(met: &runs::Met, often: u32) {
    met.more_than(often, "led, by base", 0..=1);
    met.more_than(often / 4, "led, by edition and base", [10, 11, 20, 21, 30, 31]);
    met.more_than(often, "led unit's step, by base", 0..=1);
    met.more_than(often, "led inverter's step, by base", 0..=1);
    met.more_than(often, "a step without a voltage, by base", 0..=1);
    met.more_than(often / 4, "led by watts that the store cut, by base", 0..=1);
    met.more_than(often / 4, "led beyond a limit, by edition", 2..=3);
    met.more_than(often / 4, "led beyond a limit, by base", 0..=1);
    met.more_than(often / 4, "led and cut by the circle, by base", 0..=1);
    met.more_than(often / 4, "kept though less was given, by base", 0..=1);
    met.more_than(often / 4, "off and requested, by base", 0..=1);
    met.all_of(
        often / 4,
        &["off, with vars kept", "kept vars given once it is on", "vars first under base 1"],
    );
    met.all_of(often / 4, &["led vars first", "first step without a voltage"]);
    met.all_of(often / 4, &["led vars below zero", "led vars above zero", "y below zero", "y above zero"]);
    met.all_of(often / 8, &["voltage 0", "voltage 20,000", "y at its lowest", "y at its highest"]);
    met.all_of(
        often / 8,
        &["before the first point", "after the last point", "at a point", "beside a point"],
    );
    met.all_of(often / 8, &["between two points"]);
    met.more_than(0, "points", 2..=16);
}

/// Files of as many units and inverters as there can be, and of some: each step is one of every unit and inverter.
#[test]
fn steps_of_units_and_inverters() {
    let mut draw = Draw::from_seed(1_501);
    let mut all = runs::Comparison::start(1_501);
    let mut steps = [0; 2];
    for round in 0..900 {
        let (units, inverters) = match round % 9 {
            0 => (64, 64),
            1 => (64, 0),
            2 => (1, 64),
            _ => (1 + draw.below(64) as usize, draw.below(40) as usize),
        };
        let run = voltages::run(units, inverters, 6, &mut draw);
        let base = run.site.function.as_ref().map_or(0, |function| function.base);
        steps[usize::from(base)] += 6 * (units + inverters);
        all.run_of(&run, runs::Room::Exact);
    }
    assert!(steps.iter().all(|&count| count > 130_000) && steps[0] + steps[1] > 300_000, "{steps:?}");
    let met = all.end(900);
    met.more_than(80_000, "led unit's step, by base", 0..=1);
    met.more_than(40_000, "led inverter's step, by base", 0..=1);
    met.more_than(2_000, "led by watts that the store cut, by base", 0..=1);
    met.more_than(1_000, "led and cut by the circle, by base", 0..=1);
    met.more_than(2_000, "led beyond a limit, by edition", 2..=3);
    met.more_than(2_000, "kept though less was given, by base", 0..=1);
    met.more_than(2_000, "off and requested, by base", 0..=1);
    met.all_of(2_000, &["off, with vars kept", "kept vars given once it is on", "vars first under base 1"]);
    met.all_of(2_000, &["led vars below zero", "led vars above zero", "led vars first"]);
}

/// A few units, inverters or none, and a few steps, in every edition and mode.
#[test]
fn many_small_runs() {
    let mut draw = Draw::from_seed(1_502);
    let mut all = runs::Comparison::start(1_502);
    for _ in 0..30_000 {
        let units = draw.one_of(&[1, 1, 2, 3]);
        let (inverters, steps) = (draw.one_of(&[0, 0, 1, 1, 2]), draw.below(9) as usize);
        all.run_of(&voltages::run(units, inverters, steps, &mut draw), runs::Room::any(&mut draw));
    }
    let met = all.end(30_000);
    met.more_than(20_000, "number", [0]);
    met.more_than(2_000, "number", [11]);
    met.more_than(1_500, "mode", 1..=5);
    met.more_than(1_000, "rule", 3..=6);
    met.all_of(15_000, &["a run with voltages"]);
    met_all(&met, 4_000);
}

/// The steps of each unit alone, of every kind that a call has: the file's unit, a request by its mode and reading.
#[test]
fn units_of_every_kind() {
    let mut draw = Draw::from_seed(1_503);
    let mut all = runs::Comparison::start(1_503);
    for round in 0..20_000 {
        let maker = [units::step_call, limits::step_call, older::step_call][round % 3];
        let mut run = voltages::run_in(&[1 + round as u8 % 3], 1, 0, 3, &mut draw);
        let call = maker(&mut draw);
        (run.site.edition, run.site.seconds, run.site.units) = (call.edition, call.seconds, vec![call.unit]);
        all.run_of(&run, runs::Room::Exact);
    }
    let met = all.end(20_000);
    met.more_than(2_500, "led, by edition and base", [10, 11, 20, 21, 30, 31]);
    met.all_of(15_000, &["a run with voltages"]);
    met.more_than(1_000, "led beyond a limit, by base", 0..=1);
    met.more_than(1_000, "led and cut by the circle, by base", 0..=1);
    met.all_of(1_000, &["vars first under base 1", "led vars first", "first step without a voltage"]);
}

/// Figures by hand: 1,000 VA, of which 600 may be provided, over watts from none to all, for every y of a few and both
/// bases, at a voltage and then without one.
#[test]
fn figures_by_hand() {
    let mut all = runs::Comparison::start(1_504);
    for (edition, base) in (1..=3).flat_map(|edition| [0, 1].map(|base| (edition, base))) {
        for y in [-10_000, -9_999, -5_000, -1, 0, 1, 3_333, 5_000, 9_999, 10_000] {
            for watts in [0, 1, 3, 300, 600, 866, 999, 1_000] {
                let run = sticks::with(&sticks::whole_case(), |run| {
                    let of_site = &mut run.site;
                    of_site.edition = edition;
                    of_site.units[0] = limits::figure_unit();
                    of_site.units[0].priority = (y & 1) as u8;
                    let curve = Curve::through(&[(0, y), (20_000, y)]);
                    of_site.function = Some(Function { base, curve });
                    of_site.inverters = vec![document_inverter()];
                    let power = sticks::power_of(f64::from(watts) / 1000.0);
                    run.readings = vec![power, Reading::Missing, Reading::Missing, Reading::Missing];
                    let sun = Weather { irradiance: f64::from(watts) / 1000.0, temperature: 25.0 };
                    run.weather = vec![Some(sun), None, Some(sun), Some(sun)];
                    run.voltages = vec![None, Some(10_000), None, Some(20_000)];
                });
                all.run_of(&run, runs::Room::Exact);
            }
        }
    }
    let met = all.end(480);
    met.more_than(200, "led, by base", 0..=1);
    met.all_of(40, &["off, with vars kept", "vars first under base 1", "led vars first"]);
}

/// Every voltage of a curve's range and a few others, over one step each.
#[test]
fn every_voltage() {
    let mut draw = Draw::from_seed(1_505);
    let mut all = runs::Comparison::start(1_505);
    for base in 0..=1 {
        let mut run = voltages::run(1, 1, 0, &mut draw);
        let function = Function { base, curve: voltages::operators_curve() };
        run.site.function = Some(function);
        run.readings = vec![Reading::Missing; 20_001];
        run.voltages = (0..=20_000).map(Some).collect();
        all.run_of(&run, runs::Room::Exact);
    }
    for _ in 0..40 {
        let run = voltages::run(1, 0, 0, &mut draw);
        let curve = &run.site.function.as_ref().expect("a run that is led").curve;
        let near = |x: &i32| (x - 2..=x + 2).filter(|x| (0..=20_000).contains(x)).map(|x| Some(x as u16));
        let at: Vec<Option<u16>> = curve.x.iter().flat_map(near).chain([Some(0), Some(20_000)]).collect();
        let mut run = sticks::with(&run, |run| run.voltages = at.clone());
        run.readings = vec![Reading::Missing; run.voltages.len()];
        all.run_of(&run, runs::Room::Exact);
    }
    let met = all.end(42);
    met.all_of(30, &["at a point", "beside a point", "between two points", "voltage 0", "voltage 20,000"]);
}

/// Every pattern of missing readings and of missing voltages over four steps and fewer.
#[test]
fn every_row_of_missing_voltages() {
    let mut draw = Draw::from_seed(1_506);
    let mut all = runs::Comparison::start(1_506);
    for _ in 0..16 {
        let steps = 1 + draw.below(4) as usize;
        let mut run = voltages::run_in(&[1, 2, 3], 1, 1, steps, &mut draw);
        let curve = run.site.function.as_ref().expect("a run that is led").curve.clone();
        for step in 0..steps {
            run.readings[step] = sticks::power_reading(&mut draw);
            run.voltages[step].get_or_insert(voltages::voltage(&curve, &mut draw));
        }
        for pattern in 0..1 << (2 * steps) {
            let masked = sticks::with(&run, |run| {
                for step in 0..steps {
                    if pattern >> step & 1 == 1 {
                        run.readings[step] = Reading::Missing;
                    }
                    if pattern >> (steps + step) & 1 == 1 {
                        run.voltages[step] = None;
                    }
                }
            });
            all.run_of(&masked, runs::Room::Exact);
        }
    }
    all.end(400).more_than(100, "a step without a voltage, by base", 0..=1);
}

/// The same figures with the function and without it, with either base, and in every edition.
#[test]
fn the_same_run_with_a_function_and_without() {
    let mut draw = Draw::from_seed(1_507);
    let mut all = runs::Comparison::start(1_507);
    let mut other = [0; 2];
    for round in 0..3_000 {
        let run = voltages::run(1 + round % 3, round % 3, 5, &mut draw);
        let plain = voltages::without(&run);
        all.run_of(&plain, runs::Room::Exact);
        let [zero, one] = [0, 1].map(|base| voltages::with_function(&run, |function| function.base = base));
        for led in [&zero, &one] {
            all.run_of(led, runs::Room::Exact);
        }
        other[0] += u32::from(season::steps(&zero) != season::steps(&one));
        other[1] += u32::from(season::steps(&zero) != season::steps(&plain));
        for edition in 1..=3 {
            let fits = run.site.units.iter().all(|unit| unit.in_range(edition));
            if fits {
                all.run_of(&sticks::with(&run, |run| run.site.edition = edition), runs::Room::Exact);
            }
        }
    }
    assert!(other.iter().all(|&count| count > 1_000), "{other:?}");
    all.end(12_000);
}

/// Refused files write nothing, in rooms of every kind; and complete ones in rooms of every length.
#[test]
fn damaged_files_run() {
    let mut draw = Draw::from_seed(1_508);
    let mut all = runs::Comparison::start(1_508);
    for round in 0..12_000 {
        let file = match round % 4 {
            0 => voltages::shuffled_file(&mut draw),
            _ => voltages::damaged_file(&mut draw),
        };
        all.run(file, runs::Room::any_for_refused(&mut draw));
    }
    for _ in 0..3 {
        all.run_in_every_room(&voltages::run(2, 1, 2, &mut draw));
    }
    // What is wrong comes after good steps, and there is room for all of them.
    for round in 0..60 {
        let run = voltages::run(1, 2, 3, &mut draw);
        let bad = voltages::with_voltage(&run, round % 3, draw.one_of(&voltages::BAD_VOLTAGES));
        assert_eq!(all.run(sticks::file(&bad), runs::Room::Of((40 + 2 * 29) * 3 + 7)), 5);
    }
    let met = all.end(12_700);
    met.more_than(40, "number", (0..=9).chain([11]));
    met.all_of(100, &["a room one short", "an empty room"]);
}

/// As many steps as there can be, each with a voltage, and as many inverters.
#[test]
fn the_longest_runs() {
    let mut draw = Draw::from_seed(1_509);
    let mut all = runs::Comparison::start(1_509);
    for (units, inverters, steps) in [(1, 64, 2_000), (64, 64, 1_000), (2, 2, 40_000)] {
        all.run_of(&voltages::run(units, inverters, steps, &mut draw), runs::Room::Exact);
    }
    let mut run = voltages::run_in(&[1, 2, 3], 1, 0, 0, &mut draw);
    run.readings = (0..65_535).map(|_| Reading::Missing).collect();
    run.readings[0] = sticks::power_reading(&mut draw);
    run.voltages = (0..65_535).map(|step: u32| (step % 5 != 3).then_some((step % 20_001) as u16)).collect();
    all.run_of(&run, runs::Room::Exact);
    all.end(4);
}

/// One unit with a function, a reading of its mode with a weather and a voltage, and a missing one with a voltage; with
/// an inverter or without.
fn smallest(mode: u8, inverters: usize, draw: &mut Draw) -> Run {
    let mut run = voltages::run_in(&[mode], 1, inverters, 0, draw);
    run.readings = vec![currents::fitting_reading(&run.site.settings, draw), Reading::Missing];
    run.weather = vec![Some(inverters::weather(draw))];
    run.voltages = vec![Some(10_000), Some(20_000)];
    run
}

#[test]
fn complete_files_of_every_kind() {
    let mut draw = Draw::from_seed(1_510);
    let mut files = checks::Comparison::start();
    for round in 0..12_000 {
        let (units, inverters) = match round % 40 {
            0 => (64, 64),
            1 => (1 + draw.below(64) as usize, draw.below(65) as usize),
            _ => (1 + draw.below(3) as usize, draw.below(3) as usize),
        };
        files.check_is(0, sticks::file(&voltages::run(units, inverters, draw.below(5) as usize, &mut draw)));
    }
    files.end();
}

#[test]
fn damaged_files_checked() {
    let mut draw = Draw::from_seed(1_511);
    let mut files = checks::Comparison::start();
    for round in 0..40_000 {
        files.check(match round % 4 {
            0 => voltages::shuffled_file(&mut draw),
            _ => voltages::damaged_file(&mut draw),
        });
    }
    let arms = files.end();
    for number in 0..=9 {
        assert!(checks::met(&arms, number) > 200, "number {number}: {arms:?}");
    }
    for arm in [(3, FUNCTION), (4, FUNCTION), (5, FUNCTION), (3, VOLTAGE), (4, VOLTAGE), (5, VOLTAGE)] {
        assert!(arms[&(arm.0, Some(arm.1))] > 200, "{arm:?} in {arms:?}");
    }
    for arm in [(4, CURVE), (5, CURVE), (4, INVERTER), (4, WEATHER), (4, END)] {
        assert!(arms[&(arm.0, Some(arm.1))] > 200, "{arm:?} in {arms:?}");
    }
}

/// Every cut of files of every mode, and all 255 other values at every place of two.
#[test]
fn files_cut_and_changed_at_every_byte() {
    let mut draw = Draw::from_seed(1_512);
    let mut files = checks::Comparison::start();
    for mode in 1..=5 {
        for inverters in 0..=2 {
            files.check_cuts(&sticks::file(&smallest(mode, inverters, &mut draw)));
            files.check_cuts(&sticks::file(&voltages::run_in(&[mode], 2, inverters, 3, &mut draw)));
        }
    }
    let ends = voltages::with_function(&smallest(1, 0, &mut draw), |function| {
        function.curve = Curve::through(&[(0, -10_000), (20_000, 10_000)]);
    });
    let sixteen = voltages::with_function(&smallest(4, 0, &mut draw), |function| {
        let points: Vec<_> = (0..16).map(|k| (1_250 * k + 1, 10_000 - 1_333 * k)).collect();
        function.curve = Curve::through(&points);
    });
    for run in [ends, sixteen] {
        files.check_bytes(&sticks::file(&run));
    }
    let arms = files.end();
    assert!(arms.values().sum::<u32>() > 120_000);
    for number in [0, 1, 2, 3, 5, 6, 7, 8] {
        assert!(checks::met(&arms, number) > 100, "number {number}: {arms:?}");
    }
    for (arm, often) in [((5, FUNCTION), 500), ((5, CURVE), 20_000), ((5, VOLTAGE), 300)] {
        assert!(arms[&(arm.0, Some(arm.1))] > often, "{arm:?} in {arms:?}");
    }
}

/// Every field left out, repeated, exchanged with every other, and every field of the list put in at every place, in
/// files with a function and in the same ones without it.
#[test]
fn files_with_their_fields_in_another_order() {
    let mut draw = Draw::from_seed(1_513);
    let mut files = checks::Comparison::start();
    for round in 0..20 {
        let mode = 1 + round as u8 % 5;
        let run = smallest(mode, round % 3, &mut draw);
        let fields = sticks::fields(&run);
        let mut kinds = roofs::inverter_fields(&document_inverter()).to_vec();
        kinds.extend(voltages::function_fields(&voltages::function(&mut draw)));
        kinds.extend([0, 10_000, 20_001].map(voltages::voltage_field));
        kinds.push(roofs::weather_field(inverters::weather(&mut draw)));
        kinds.push(sticks::reading_field(&Reading::Missing));
        kinds.push(sticks::reading_field(&sticks::power_reading(&mut draw)));
        kinds.push(sticks::reading_field(&currents::current_reading(&mut draw)));
        kinds.push(sticks::connections_field(&currents::connections(1, &mut draw)));
        kinds.extend([sticks::end_field(2), sticks::end_field(0)]);
        kinds.extend_from_slice(&fields[..3]);
        files.check_orders(&fields, fields.len(), &kinds);
        let mut without = fields.clone();
        voltages::without_function(&mut without);
        files.check_orders(&without, without.len(), &kinds);
    }
    let arms = files.end();
    for (tag, _) in TAGS {
        assert!(arms[&(4, Some(tag))] > 200, "tag {tag} out of order: {arms:?}");
    }
}

/// Two things wrong with one field: the first in the rules' order is the answer.
#[test]
fn fields_with_two_things_wrong() {
    let mut draw = Draw::from_seed(1_514);
    let mut files = checks::Comparison::start();
    for _ in 0..120 {
        let run = smallest(1, 1, &mut draw);
        let run = sticks::with(&run, |run| run.site.connections.clear());
        let fields = sticks::fields(&run);
        // From 6 on: the function, its curve, the weather, the voltage, the reading, the voltage, the missing one, the
        // end.
        for at in 6..fields.len() {
            for (tag, _) in TAGS {
                let length = stick::length_in(run.site.edition, 1, tag).expect("a tag of the list");
                let bad = files.check_spoiled(&fields[..at], tag, length, &mut draw);
                let allowed: &[u8] = match at {
                    6 => &[4, 5, 6, 8, 9, 0x0B, 0x7F],
                    7 => &[7],
                    9 => &[4, 5, 9, 0x0C],
                    10 | 12 => &[4, 5, 9],
                    _ => &[4, 5, 8, 9, 0x0C, 0x7F],
                };
                let number = match tag {
                    _ if !allowed.contains(&tag) => 4,
                    4 | 8 => 6,
                    5 => 8,
                    0x7F => 7,
                    _ => 5,
                };
                files.check_is(number, checks::ending(&fields[..at], &bad, usize::MAX));
            }
        }
    }
    files.end();
}

/// Each value of a function and of a voltage at the ends of its range and beside them.
#[test]
fn values_at_their_ends_or_beside_them() {
    let mut draw = Draw::from_seed(1_515);
    let mut files = checks::Comparison::start();
    for round in 0..200 {
        let run = voltages::run(1 + round % 3, round % 4, 2, &mut draw);
        let first = voltages::first_function(&run);
        let fields = sticks::fields(&run);
        let place = sticks::bytes(&fields[..first]).len() as u64;
        let mut is = |number, run: &Run| files.check_is(number, sticks::file(run));
        for end in voltages::ENDS {
            is(0, &voltages::with_function(&run, end));
        }
        for spoil in voltages::BAD_BASES {
            assert_eq!(is(5, &voltages::with_function(&run, spoil)).place, place);
        }
        for spoil in voltages::BAD_CURVES {
            assert_eq!(is(5, &voltages::with_function(&run, spoil)).place, place + 4);
        }
        for step in 0..2 {
            for voltage in voltages::BAD_VOLTAGES {
                assert_eq!(is(5, &voltages::with_voltage(&run, step, voltage)).steps, step as u32);
            }
            for voltage in [0, 1, 255, 256, 19_999, 20_000] {
                is(0, &voltages::with_voltage(&run, step, voltage));
            }
        }
        let curve = &run.site.function.as_ref().expect("a run that is led").curve;
        for bad in roofs::bad_curves(curve, &mut draw) {
            let file = sticks::bytes(&[&fields[..first + 1], &[bad], &fields[first + 2..]].concat());
            assert_eq!(files.check_is(5, file).place, place + 4);
        }
    }
    files.end();
}

/// A file fed in chunks that are cut at a few places.
fn cut_at_random(files: &mut fed::Comparison, file: &[u8], draw: &mut Draw) {
    let count = draw.below(5) as usize;
    let mut cuts: Vec<usize> = (0..count).map(|_| draw.below(file.len() as u64 + 1) as usize).collect();
    cuts.sort_unstable();
    files.cut(file, &cuts, draw);
}

/// Complete files of every mode and edition, cut in two at every byte, and files of every kind in a few chunks.
#[test]
fn files_fed_in_cuts() {
    let mut draw = Draw::from_seed(1_516);
    let mut files = fed::Comparison::start();
    for round in 0..15 {
        let mode = 1 + round as u8 % 5;
        let run = voltages::led(currents::plain_run(&[mode], 1, round % 2, 3, &mut draw), &mut draw);
        let file = sticks::file(&older::in_edition(1 + round as u8 % 3, run, &mut draw));
        for cut in 0..=file.len() {
            files.cut(&file, &[cut], &mut draw);
        }
    }
    for round in 0..12_000 {
        let file = match round % 4 {
            0 | 1 => sticks::file(&voltages::small_run(&mut draw)),
            2 => voltages::shuffled_file(&mut draw),
            _ => voltages::damaged_file(&mut draw),
        };
        cut_at_random(&mut files, &file, &mut draw);
    }
    let met = files.end(16_000);
    met.more_than(5_000, "number", [0]);
    met.more_than(10, "number", 1..=9);
}

/// The state after the first bytes of a file that have no fault.
fn state_after(bytes: &[u8]) -> Vec<u8> {
    let mut state = vec![0; SIZE];
    feed::start(&mut state).expect("a state has its length");
    feed::feed(&mut state, bytes, &mut vec![0; 1 << 17]).expect("the bytes have no fault");
    state
}

/// What is changed in a state, by the number of the round.
fn change(state: &mut [u8], round: usize, draw: &mut Draw) {
    match round {
        0 => (),
        1..=14 => state[13] = round as u8 - 1,
        15..=24 => {
            let voltage = draw.one_of(&[0, 1, 19_999, 20_000, 20_001, 65_535]);
            state[25..27].copy_from_slice(&u16::to_be_bytes(voltage));
        }
        25..=50 => {
            let at = draw.one_of(&[VARS, VARS + 4, VARS + 8, VARS + 12, SITE - 4]);
            let vars =
                draw.one_of(&[0, 1, -1, 100_000_000, 100_000_001, -100_000_000, -100_000_001, i32::MIN]);
            state[at..at + 4].copy_from_slice(&vars.to_be_bytes());
        }
        51..=62 => {
            let place = u64::from_be_bytes(state[1..9].try_into().expect("eight bytes"));
            let place = place + draw.one_of(&[0, 1, 5, 19, 20, 24, 27]) - draw.one_of(&[0, 1, 5, 19]);
            state[1..9].copy_from_slice(&place.to_be_bytes());
        }
        63..=70 => state[17 + draw.below(10) as usize] ^= 1 << draw.below(8),
        _ => state[draw.below(SIZE as u64) as usize] ^= 1 << draw.below(8),
    }
}

/// States at every place of files with functions and voltages, as they are and with something changed, of two units and
/// an inverter and of the largest site; and what the rest of the file makes of them.
#[test]
fn states_about_functions_and_voltages() {
    let mut draw = Draw::from_seed(1_517);
    let mut files = fed::Comparison::start();
    for round in 0..40 {
        let mode = 1 + round as u8 % 5;
        let (units, inverters) = if round < 2 { (64, 64) } else { (2, round % 3) };
        let run = currents::plain_run(&[mode], units, inverters, 3, &mut draw);
        let run = voltages::led(older::in_edition(3 - round as u8 % 3, run, &mut draw), &mut draw);
        let run = voltages::with_voltage(&run, 1, 10_500);
        let (fields, file) = (sticks::fields(&run), sticks::file(&run));
        let first = voltages::first_function(&run);
        // Before and behind each field from the function on, and in the middle of one.
        for at in first..fields.len() {
            let edge = sticks::bytes(&fields[..at]).len();
            let length = draw.one_of(&[edge, edge, edge + 1, edge + 3]);
            assert!(units < 64 || at > first + 1 || length <= MOST_SITE);
            let state = state_after(&file[..length]);
            for round in 0..90 {
                let mut changed = state.clone();
                change(&mut changed, round, &mut draw);
                let mut row = fed::Row::of(&changed);
                if round % 6 == 0 {
                    row.ask_all();
                }
                let number = row.feed(&file[length..], frames::Room::Exact);
                assert!(number == 10 || feed::decode(row.state()).is_some(), "a call leaves a state");
                row.end(frames::Room::Exact);
                files.add(row);
            }
        }
    }
    let met = files.end(10_000);
    met.more_than(2_000, "any number", [0, 10]);
    met.more_than(20, "any number", [4]);
}

/// Sixty-five thousand steps with everything that a step can have: longer than a lent file may be, and one step more.
#[test]
fn the_longest_file_fed() {
    let mut draw = Draw::from_seed(1_518);
    let mut files = fed::Comparison::start();
    let mut run = voltages::run_in(&[1], 1, 1, 0, &mut draw);
    run.readings = vec![sticks::power_reading(&mut draw); 65_535];
    run.weather = vec![Some(Weather { irradiance: 0.5, temperature: 20.0 }); 65_535];
    run.voltages = (0..65_535).map(|step: u32| Some((step * 7 % 20_001) as u16)).collect();
    let file = sticks::file(&run);
    assert_eq!(stick::check(&file).number, 12);
    let mut row = fed::Row::start(&mut draw);
    for chunk in file.chunks(65_536) {
        assert_eq!(row.feed(chunk, frames::Room::Exact), 0);
    }
    assert_eq!(row.end(frames::Room::Exact), 0);
    files.add(row);
    files.end(1);
}

/// Wrecks, damaged files, every cut of small ones, and files with a voltage that is not good.
#[test]
fn files_rescued() {
    let mut draw = Draw::from_seed(1_519);
    let mut files = rescued::Comparison::start(1_519);
    let mut led = 0;
    for _ in 0..12_000 {
        let Wreck { file, left } = wreck(&mut draw);
        led += u32::from(left.site.function.is_some());
        let rescued = files.rescue(file).expect("a wreck has all that is due before its steps");
        assert!(rescued.output == sticks::file(&left));
    }
    assert!(led > 4_000, "{led}");
    for round in 0..12_000 {
        let _ = files.rescue(match round % 4 {
            0 => voltages::shuffled_file(&mut draw),
            _ => voltages::damaged_file(&mut draw),
        });
    }
    for mode in [1, 2, 3, 4, 5] {
        let file = sticks::file(&smallest(mode, usize::from(mode % 2), &mut draw));
        for length in 0..=file.len() {
            let _ = files.rescue(&file[..length]);
        }
    }
    bad_voltages(&mut files, &mut draw);
    let met = files.end(26_000);
    met.more_than(8, "number", [0, 1, 2, 3, 4, 5, 8, 11]);
    met.more_than(300, "fault", 0..=9);
    met.more_than(3_000, "kind", [1, 2]);
    met.more_than(200, "kinds", [&[][..], &[1], &[2], &[3], &[1, 2], &[1, 3]].map(kinds));
    met.more_than(300, "weather dropped with its reading", [1]);
    met.more_than(300, "voltage dropped with its reading", [1, 2]);
}

/// A voltage out of range ends a rescue at the first field of its step; without a function so does a good one; a
/// function that is not good is refused.
fn bad_voltages(files: &mut rescued::Comparison, draw: &mut Draw) {
    for round in 0..400 {
        let run = voltages::run(1 + round % 2, round % 2, 3, draw);
        let step = round % 3;
        let bad = voltages::with_voltage(&run, step, draw.one_of(&voltages::BAD_VOLTAGES));
        let ended = files.rescue(sticks::file(&bad)).expect("a voltage out of range ends it");
        assert_eq!((ended.steps, ended.changes.len()), (step as u32, 1));
        assert!(ended.output == sticks::file(&sticks::with(&run, |run| run.readings.truncate(step))));
        let mut fields = sticks::fields(&voltages::with_voltage(&run, step, 9_999));
        voltages::without_function(&mut fields);
        assert!(files.rescue(sticks::bytes(&fields)).is_ok());
        for spoil in [draw.one_of(&voltages::BAD_BASES), draw.one_of(&voltages::BAD_CURVES)] {
            let refused = files.rescue(sticks::file(&voltages::with_function(&run, spoil)));
            assert_eq!(refused.map_err(|refused| (refused.number, refused.steps)).err(), Some((5, 0)));
        }
    }
}

/// All 255 other values at every place of a small file with a function and voltages, rescued.
#[test]
fn every_single_byte_changed_and_rescued() {
    let mut draw = Draw::from_seed(1_520);
    let mut files = rescued::Comparison::start(1_520);
    let run = voltages::with_function(&smallest(1, 0, &mut draw), |function| {
        function.curve = Curve::through(&[(0, -10_000), (20_000, 10_000)]);
    });
    for file in sticks::other_bytes(&sticks::file(&run)) {
        let _ = files.rescue(file);
    }
    let met = files.end(60_000);
    met.more_than(300, "fault", [0, 2, 3, 5, 6, 7]);
    met.more_than(100, "voltage dropped with its reading", [1, 2]);
}

/// The steps of a run that a test of counts looks at have what it is to be compared for: vars that are kept and differ
/// from those given are those requested, in the file's own result.
#[test]
fn what_is_kept_is_what_was_requested() {
    let mut draw = Draw::from_seed(1_521);
    let mut all = runs::Comparison::start(1_521);
    let mut kept = 0;
    while kept < 200 {
        let run = voltages::run(1, 1, 4, &mut draw);
        let run = sticks::with(&run, |run| {
            let first = run.voltages[0].unwrap_or(0);
            run.voltages = vec![Some(first), None, None, None];
        });
        let steps = season::steps(&run);
        let less = |step: &Step| step.records[0].stepped.vars != step.records[0].vars_asked;
        if steps[..2].iter().any(less) {
            let first = steps[0].records[0].vars_asked;
            assert!(steps.iter().all(|step| step.records[0].vars_asked == first));
            all.run_of(&run, runs::Room::Exact);
            kept += 1;
        }
    }
    all.end(200).more_than(100, "kept though less was given, by base", 0..=1);
}

/// The fields of a function before any fleet, and in a file of no other fields.
#[test]
fn files_that_begin_with_a_function_or_a_voltage() {
    let mut draw = Draw::from_seed(1_522);
    let mut files = checks::Comparison::start();
    for _ in 0..300 {
        let function: [Field; 2] = voltages::function_fields(&voltages::function(&mut draw));
        files.check_is(4, sticks::bytes(&function));
        files.check_is(4, sticks::bytes(&[voltages::voltage_field(draw.any() as u16)]));
        let run = smallest(1, 0, &mut draw);
        files.check_is(4, sticks::bytes(&[&function[..], &sticks::fields(&run)].concat()));
    }
    files.end();
}
