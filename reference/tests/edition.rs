//! Runs and checks of files of every edition beside the reference, over the C surface. What such a file says of its
//! units and their var limits is in `site.rs`.

mod checks;
mod host;
mod runs;

use std::ops::RangeInclusive;

use runs::{Met, Room};
use yesbrulka_reference::ranges::MOST_BYTES;
use yesbrulka_reference::reading::Reading;
use yesbrulka_reference::samples::inverters::document_inverter;
use yesbrulka_reference::samples::sticks::{self, Field};
use yesbrulka_reference::samples::{currents, inverters, limits, older, roofs, seasons, voltages, Draw};
use yesbrulka_reference::season;
use yesbrulka_reference::stick::{self, Run, FLEET, MISSING, TAGS, UNIT};
use yesbrulka_reference::storage::Unit;

/// One unit with limits, an inverter, and a power reading and a missing one, of which the first has a weather.
fn smallest(draw: &mut Draw) -> Run {
    let power = sticks::power_reading(draw);
    let weather = inverters::weather(draw);
    let run = older::limited(roofs::run(1, 1, 0, draw), draw);
    sticks::with(&run, |run| {
        run.readings = vec![power, Reading::Missing];
        run.weather = vec![Some(weather)];
    })
}

/// Checks a file, and notes the number that it gets by the edition that it says, of which those that there are not are
/// one.
fn check(files: &mut checks::Comparison, met: &mut Met, file: Vec<u8>) -> u32 {
    let edition = file.get(3).copied().unwrap_or(0).min(4);
    let number = files.check(file).number;
    met.note("number in an edition", 100 * u32::from(edition) + number);
    number
}

/// Each of these numbers was given more than so often in each of these editions.
fn met_in(met: &Met, editions: RangeInclusive<u32>, count: u32, numbers: RangeInclusive<u32>) {
    for edition in editions {
        met.more_than(count, "number in an edition", numbers.clone().map(|number| 100 * edition + number));
    }
}

/// The whole case with figure D4's unit, of which vars are asked at each limit, beside it and beyond it, in every
/// edition; in edition 3 with idle losses.
#[test]
fn the_whole_case_with_limits() {
    let mut all = runs::Comparison::start(920);
    for (edition, idle_loss) in [(1, 0), (2, 0), (3, 0), (3, 1), (3, 1_001), (3, 10_000_000)] {
        for var_request in [0, 599, 600, 601, 700, 1_001, -299, -300, -301, -700, -1_001] {
            for priority in 0..=1 {
                let run = sticks::with(&sticks::whole_case(), |run| {
                    run.site.edition = edition;
                    run.site.units =
                        vec![Unit { idle_loss, var_request, priority, ..limits::figure_unit() }; 2];
                });
                for room in [Room::Exact, Room::OneShort, Room::Longer(1), Room::Longer(1_000), Room::Empty] {
                    all.run_of(&run, room);
                    all.run_of(&sticks::with(&run, |run| run.readings.clear()), room);
                }
            }
        }
    }
    let met = all.end(1_320);
    met.more_than(500, "number", [0, 11]);
    met.more_than(100, "edition", 1..=3);
    met.all_of(50, &["no idle loss at the grid", "the most idle loss", "an idle draw above S"]);
    met.all_of(10, &["vars above the provide limit", "vars beyond the absorb limit"]);
}

#[test]
fn runs_of_every_fleet_size() {
    let mut draw = Draw::from_seed(921);
    let mut all = runs::Comparison::start(921);
    for units in 1..=64 {
        for round in 0..20 {
            let steps = if round % 8 == 0 { 0 } else { 1 + draw.below(6) as usize };
            let run = older::limited(seasons::run(units, steps, &mut draw), &mut draw);
            all.run_of(&run, Room::any(&mut draw));
        }
        let inverters = 1 + units % 5;
        let run = older::limited(roofs::run(units, inverters, 3, &mut draw), &mut draw);
        all.run_of(&run, Room::Exact);
    }
    let met = all.end(1_340);
    met.more_than(8, "units", 1..=64);
    met.more_than(100, "number", [0, 11]);
    met.more_than(300, "edition", 2..=3);
    met.all_of(1_000, &["vars above the provide limit", "vars beyond the absorb limit"]);
}

/// A few units, inverters or none, and a few steps, in every edition.
#[test]
fn many_small_runs() {
    let mut draw = Draw::from_seed(922);
    let mut all = runs::Comparison::start(922);
    for _ in 0..45_000 {
        let units = draw.one_of(&[1, 1, 1, 2, 2, 3, 4]);
        let (inverters, steps) = (draw.one_of(&[0, 0, 1, 2]), draw.below(9) as usize);
        all.run_of(&older::run(units, inverters, steps, &mut draw), Room::any(&mut draw));
    }
    let met = all.end(45_000);
    met.more_than(20_000, "number", [0]);
    met.more_than(4_000, "number", [11]);
    met.more_than(5_000, "edition", 1..=3);
    for what in ["idle", "gave", "took", "idle without a reading"] {
        met.more_than(2_000, what, 1..=3);
    }
    met.all_of(3_000, &["no idle loss at the grid", "the most idle loss", "an idle draw above S"]);
    met.all_of(3_000, &["gave less than its idle loss", "gave more than its idle loss"]);
    met.all_of(3_000, &["drew more than it was asked", "idle with all its vars"]);
    met.more_than(10_000, "priority", 0..=1);
    met.more_than(1_000, "rule", 3..=6);
    met.more_than(3_000, "inverters", 0..=2);
    met.all_of(5_000, &["vars above the provide limit", "vars beyond the absorb limit"]);
    met.all_of(1_000, &["vars cut by limit and circle", "watts that a limit left", "watts cut by vars"]);
    met.all_of(
        1_000,
        &["vars cut", "vars below zero", "gave it all", "took it all", "ran empty", "ran full"],
    );
}

/// A file of edition 1 and the same in edition 2 with limits of S have one result; and so has one of edition 3, where
/// there is no idle loss.
#[test]
fn the_same_run_in_every_edition() {
    let mut draw = Draw::from_seed(923);
    let mut all = runs::Comparison::start(923);
    for round in 0..2_000 {
        let run = roofs::run(1 + round % 3, round % 2, 1 + round % 7, &mut draw);
        let none = sticks::with(&run, |run| run.site.units.iter_mut().for_each(|unit| unit.idle_loss = 0));
        for (run, last) in [(&run, 2), (&none, 3)] {
            let first = season::steps(run);
            for edition in 1..=last {
                let run = sticks::with(run, |run| run.site.edition = edition);
                assert!(season::steps(&run) == first);
                all.run_of(&run, Room::Exact);
            }
        }
    }
    all.end(10_000).more_than(1_999, "edition", 1..=3);
}

/// Every room from none to more than is needed.
#[test]
fn rooms_of_every_length() {
    let mut draw = Draw::from_seed(924);
    let mut all = runs::Comparison::start(924);
    for (units, inverters, steps) in [(1, 0, 0), (1, 0, 1), (2, 1, 1), (1, 2, 3), (3, 0, 2), (64, 0, 0)] {
        let run = older::limited(roofs::run(units, inverters, steps, &mut draw), &mut draw);
        all.run_in_every_room(&run);
    }
    let met = all.end(900);
    met.more_than(300, "number", [0, 11]);
    met.more_than(50, "edition", 2..=3);
    met.all_of(4, &["an empty room", "a room one short", "an exact room"]);
}

/// Each value at the ends of its range, limits and requests at and beside each other, and several at once.
#[test]
fn runs_at_the_ends_of_the_ranges() {
    let mut draw = Draw::from_seed(925);
    let mut all = runs::Comparison::start(925);
    for _ in 0..60 {
        let (count, steps) = (1 + draw.below(3) as usize, 1 + draw.below(4) as usize);
        let run = older::limited(seasons::run(count, steps, &mut draw), &mut draw);
        let unit = draw.below(count as u64) as usize;
        for end in older::ends(run.site.edition) {
            let run = sticks::with_unit(&run, unit, end);
            all.run_of(&run, Room::Exact);
            all.run_of(&sticks::with_unit(&run, unit, draw.one_of(&limits::ENDS)), Room::any(&mut draw));
        }
        for end in sticks::SETTINGS_ENDS {
            all.run_of(&sticks::with(&run, end), Room::Exact);
        }
    }
    let met = all.end(7_000);
    met.more_than(2_000, "edition", 2..=3);
    met.all_of(2_000, &["an idle draw above S", "the most idle loss"]);
    met.all_of(500, &["vars above the provide limit", "vars beyond the absorb limit"]);
    met.all_of(100, &["vars cut by limit and circle", "watts that a limit left"]);
}

/// A refused file leaves the room as it was, however long that is.
#[test]
fn refused_files() {
    let mut draw = Draw::from_seed(926);
    let mut all = runs::Comparison::start(926);
    for round in 0..20_000 {
        let file =
            if round % 5 == 0 { older::shuffled_file(&mut draw) } else { older::damaged_file(&mut draw) };
        all.run(file, Room::any_for_refused(&mut draw));
    }
    let room = Room::Of(2 * 69 + 7);
    for _ in 0..100 {
        let run = smallest(&mut draw);
        for spoil in older::bad_values(run.site.edition) {
            assert_eq!(all.run(sticks::file(&sticks::with_unit(&run, 0, spoil)), room), 5);
        }
        let fields = sticks::fields(&run);
        for edition in [0, 1, 2, 3, 4, 255] {
            let number = all.run(sticks::bytes(&limits::in_edition(edition, &fields)), room);
            assert_eq!(number, older::number_in(edition, &run));
        }
    }
    let file = sticks::file(&smallest(&mut draw));
    for length in 0..file.len() {
        all.run(&file[..length], room);
    }
    let met = all.end(25_000);
    met.more_than(80, "number", (0..=9).chain([11]));
    met.more_than(40, "edition", 1..=3);
}

/// As many units as there can be over a year of hours, and as many steps as there can be.
#[test]
fn the_longest_runs() {
    let mut draw = Draw::from_seed(927);
    let mut all = runs::Comparison::start(927);
    for (units, inverters, steps) in [(64, 0, 8_760), (8, 2, 8_760), (1, 0, 40_000)] {
        let run = roofs::run(units, inverters, steps, &mut draw);
        all.run_of(&limits::limited(run.clone(), &mut draw), Room::Exact);
        all.run_of(&older::older(run, &mut draw), Room::Exact);
    }
    for limited in [limits::limited, older::older] {
        let mut run = limited(seasons::run(1, 0, &mut draw), &mut draw);
        run.readings = vec![sticks::power_reading(&mut draw); 65_535];
        all.run_of(&run, Room::Exact);
        all.run_of(&run, Room::OneShort);
    }
    all.end(10).more_than(3, "edition", 2..=3);
}

#[test]
fn complete_files_of_every_fleet_size() {
    let mut draw = Draw::from_seed(931);
    let (mut files, mut met) = (checks::Comparison::start(), Met::default());
    for units in 1..=64 {
        for round in 0..100 {
            let steps = if round % 8 == 0 { 0 } else { draw.below(6) as usize };
            let run = match round % 4 {
                0 => older::run(units, round % 3, steps, &mut draw),
                1 => older::limited(seasons::run(units, steps, &mut draw), &mut draw),
                _ => older::limited(sticks::run(units, steps, &mut draw), &mut draw),
            };
            assert_eq!(check(&mut files, &mut met, sticks::file(&run)), 0);
        }
    }
    files.end();
    met_in(&met, 1..=3, 200, 0..=0);
}

/// Every cut, those inside the limits among them.
#[test]
fn files_cut_at_every_byte() {
    let mut draw = Draw::from_seed(932);
    let mut files = checks::Comparison::start();
    for (units, inverters) in [(1, 0), (1, 0), (1, 1), (2, 0), (3, 1), (20, 0)] {
        for limited in [limits::limited, older::older] {
            for steps in [0, 1, 3] {
                let run = limited(roofs::run(units, inverters, steps, &mut draw), &mut draw);
                let file = sticks::file(&run);
                files.check_cuts(&file);
                // In a unit's field, and in its limits, the place is the unit's.
                for (unit, within) in (0..units).flat_map(|unit| (1..60).map(move |within| (unit, within))) {
                    let answer = stick::check(&file[..9 + 60 * unit + within]);
                    assert_eq!((answer.number, answer.place), (1, 9 + 60 * unit as u64));
                }
            }
        }
    }
    let arms = files.end();
    assert!(checks::met(&arms, 8) > 100 && arms[&(1, Some(UNIT))] > 3_000, "{arms:?}");
}

/// All 255 other values at every place.
#[test]
fn files_with_every_single_byte_changed() {
    let mut draw = Draw::from_seed(933);
    let mut files = checks::Comparison::start();
    let plain = limits::limited(sticks::run(1, 2, &mut draw), &mut draw);
    let older = older::older(sticks::run(1, 2, &mut draw), &mut draw);
    let two = older::older(sticks::run(2, 3, &mut draw), &mut draw);
    for run in [smallest(&mut draw), plain, older, two] {
        files.check_bytes(&sticks::file(&run));
    }
    let arms = files.end();
    assert!(arms.values().sum::<u32>() > 150_000);
    for arm in [(3, UNIT), (5, UNIT), (5, FLEET)] {
        assert!(arms[&(arm.0, Some(arm.1))] > 500, "{arm:?} in {arms:?}");
    }
    assert!(checks::met(&arms, 0) > 5_000, "{arms:?}");
}

/// Every edition that a byte can say, over units of 49 and of 57 bytes, with inverters and without; and units of either
/// length before any fleet and behind the last unit.
#[test]
fn units_of_either_length_in_every_edition() {
    let mut draw = Draw::from_seed(934);
    let mut files = checks::Comparison::start();
    for round in 0..60 {
        let count = 1 + round % 4;
        let short_run = roofs::run(count, round % 3, 2, &mut draw);
        let long_run = older::limited(short_run.clone(), &mut draw);
        let (long, short) = (sticks::fields(&long_run), sticks::fields(&short_run));
        for (fields, run) in [(&short, &short_run), (&long, &long_run)] {
            for edition in 0..=255 {
                let number = older::number_in(edition, run);
                let answer = files.check_is(number, sticks::bytes(&limits::in_edition(edition, fields)));
                // Another length at the first unit, an idle draw above S at any of them, an edition at the fleet.
                let known = (1..=3).contains(&edition);
                assert!(number != 3 || answer.place == 9);
                assert!(number != 5 || known == (answer.place >= 9));
            }
            let unit_bytes = if run.site.edition == 1 { 52 } else { 60 };
            for (unit, length) in [(&short[1], 49), (&long[1], 57)] {
                let unit = std::slice::from_ref(unit);
                // Before any fleet 49 is the length, and the order is tested behind it.
                let first = files
                    .check_is(if length == 49 { 4 } else { 3 }, sticks::bytes(&[unit, &fields[..]].concat()));
                assert_eq!(first.place, 0);
                let right = length + 3 == unit_bytes;
                let (before, after) = fields.split_at(count + 1);
                let answer =
                    files.check_is(if right { 4 } else { 3 }, sticks::bytes(&[before, unit, after].concat()));
                assert_eq!(answer.place, 9 + unit_bytes * count as u64);
                // One unit of the other length among the others.
                let at = 1 + draw.below(count as u64) as usize;
                let mut mixed = fields.clone();
                mixed[at] = unit[0].clone();
                let answer = files.check_is(if right { 0 } else { 3 }, sticks::bytes(&mixed));
                assert!(right || answer.place == 9 + unit_bytes * (at as u64 - 1));
            }
        }
    }
    files.end();
}

/// Every field left out, repeated, exchanged with every other, replaced by every other, and every field of the list
/// put in at every place, units of both lengths among them.
#[test]
fn files_with_their_fields_in_another_order() {
    let mut draw = Draw::from_seed(935);
    let mut files = checks::Comparison::start();
    for round in 0..16 {
        let run = older::limited(roofs::run(1 + round % 2, round % 3, 2, &mut draw), &mut draw);
        let fields = sticks::fields(&run);
        let unit = &run.site.units[0];
        let mut kinds = [1, 2, 3].map(|edition| limits::in_edition(edition, &fields).remove(0)).to_vec();
        kinds.extend([1, 2].map(|edition| sticks::unit_field(edition, unit)));
        kinds.push(fields[roofs::first_inverter(&run) - 1].clone());
        kinds.extend(roofs::inverter_fields(&document_inverter()));
        kinds.push(roofs::weather_field(inverters::weather(&mut draw)));
        kinds.push(sticks::reading_field(&Reading::Missing));
        kinds.push(sticks::reading_field(&sticks::power_reading(&mut draw)));
        kinds.extend([sticks::end_field(2), sticks::end_field(0)]);
        kinds.push(sticks::reading_field(&currents::current_reading(&mut draw)));
        kinds.push(sticks::connections_field(&currents::connections(1, &mut draw)));
        files.check_orders(&fields, fields.len(), &kinds);
    }
    for _ in 0..15_000 {
        files.check(older::shuffled_file(&mut draw));
    }
    let arms = files.end();
    for (tag, _) in TAGS {
        assert!(arms[&(4, Some(tag))] > 100, "tag {tag} out of order: {arms:?}");
    }
    assert!(arms[&(3, Some(UNIT))] > 100, "{arms:?}");
}

/// Each value of the fleet, of a unit and of the settings at the ends of its range and beside them.
#[test]
fn files_with_values_at_their_ends_or_beside_them() {
    let mut draw = Draw::from_seed(936);
    let mut files = checks::Comparison::start();
    for round in 0..120 {
        let count = if round < 64 { round + 1 } else { 1 + draw.below(3) as usize };
        let run = older::limited(sticks::run(count, 2, &mut draw), &mut draw);
        let any = draw.below(count as u64) as usize;
        for unit in [0, any, count - 1] {
            let place = 9 + 60 * unit as u64;
            for end in older::ends(run.site.edition) {
                files.check_is(0, sticks::file(&sticks::with_unit(&run, unit, end)));
            }
            for spoil in older::bad_values(run.site.edition) {
                let spoiled = sticks::with_unit(&run, unit, spoil);
                let answer = files.check_is(5, sticks::file(&spoiled));
                let place = if spoiled.site.seconds == run.site.seconds { place } else { 0 };
                assert_eq!((answer.place, answer.steps), (place, 0));
            }
        }
        for end in sticks::SETTINGS_ENDS {
            files.check_is(0, sticks::file(&sticks::with(&run, end)));
        }
        for spoil in sticks::BAD_SETTINGS {
            let answer = files.check_is(5, sticks::file(&sticks::with(&run, spoil)));
            assert_eq!(answer.place, 9 + 60 * count as u64);
        }
        let fields = sticks::fields(&run);
        for fleet in sticks::bad_fleets(&run) {
            assert_eq!(files.check_is(5, sticks::bytes(&[&[fleet], &fields[1..]].concat())).place, 0);
        }
    }
    files.end();
}

/// Any bits in a unit, in its limits for the most part, or in the fleet.
#[test]
fn files_with_any_bits_in_a_unit_or_in_the_fleet() {
    let mut draw = Draw::from_seed(937);
    let (mut files, mut met) = (checks::Comparison::start(), Met::default());
    for round in 0..60_000 {
        let mut fields = sticks::fields(&older::limited(sticks::run(1, 0, &mut draw), &mut draw));
        let at = usize::from(round % 4 != 0);
        let first = if round % 4 > 1 { 49 } else { 0 };
        sticks::set_any_bits(&mut fields[at].value[first..], &mut draw);
        check(&mut files, &mut met, sticks::bytes(&fields));
    }
    for edition in 2..=3 {
        met_in(&met, edition..=edition, 2_000, 0..=0);
        met_in(&met, edition..=edition, 2_000, 5..=5);
    }
    let arms = files.end();
    for arm in [(5, UNIT), (5, FLEET)] {
        assert!(arms[&(arm.0, Some(arm.1))] > 1_500, "{arm:?} in {arms:?}");
    }
    assert!(arms[&(0, None)] > 2_000, "{arms:?}");
}

/// Two things wrong with one field: the first in the document's order is the answer.
#[test]
fn fields_with_two_things_wrong() {
    let mut draw = Draw::from_seed(938);
    let mut files = checks::Comparison::start();
    for _ in 0..200 {
        let run = smallest(&mut draw);
        let fields = sticks::fields(&run);
        // The fleet, before which no edition is said; the unit; and the settings behind it.
        for at in 0..3 {
            let then = |field: &Field, left: usize| checks::ending(&fields[..at], field, left);
            for (tag, _) in TAGS {
                let edition = if at == 0 { 1 } else { run.site.edition };
                let length = stick::length_in(edition, at.min(1), tag).expect("a tag of the list");
                let bad = files.check_spoiled(&fields[..at], tag, length, &mut draw);
                let number = if tag == fields[at].tag { 5 } else { 4 };
                files.check_is(number, then(&bad, usize::MAX));
            }
            // The other edition's length comes before the bytes that are missing, the order and the values.
            let other = if at == 0 { 57 } else { 49 };
            let unit = Field::new(UNIT, vec![0xFF; other]);
            for left in [3, 4, 52, usize::MAX] {
                files.check_is(3, then(&unit, left));
            }
        }
    }
    files.end();
}

#[test]
fn files_with_damage_in_several_places() {
    let mut draw = Draw::from_seed(939);
    let (mut files, mut met) = (checks::Comparison::start(), Met::default());
    for _ in 0..120_000 {
        check(&mut files, &mut met, older::damaged_file(&mut draw));
    }
    met_in(&met, 1..=3, 60, 0..=9);
    met_in(&met, 4..=4, 500, 5..=5);
    // Damage to a fleet of any size.
    for _ in 0..2_000 {
        let units = 1 + draw.below(64) as usize;
        let mut fields = sticks::fields(&older::run(units, 1, 2, &mut draw));
        let at = draw.below(fields.len() as u64) as usize;
        older::damage(&mut fields, at, &mut draw);
        files.check(sticks::bytes(&fields));
    }
    let arms = files.end();
    for number in 0..=9 {
        assert!(checks::met(&arms, number) > 300, "number {number}: {arms:?}");
    }
    for arm in [(1, UNIT), (3, UNIT), (4, UNIT), (5, UNIT), (5, FLEET)] {
        assert!(arms[&(arm.0, Some(arm.1))] > 500, "{arm:?} in {arms:?}");
    }
}

/// As many units, inverters, steps and bytes as there can be in editions 2 and 3, and more.
#[test]
fn the_largest_files() {
    let mut draw = Draw::from_seed(940);
    let mut files = checks::Comparison::start();
    for limited in [limits::limited, older::older] {
        let run = voltages::led(roofs::plain_run(64, 64, 0, &mut draw), &mut draw);
        let run = limited(run, &mut draw);
        let complete = sticks::file(&run);
        let head = &complete[..complete.len() - 7];
        assert_eq!(head.len(), 24 + 60 * 64 + 286 * 64 + 136);
        let steps = |count: u32| {
            let end = sticks::bytes(&[sticks::end_field(count)]);
            [head, &[MISSING, 0, 0].repeat(count as usize), &end].concat()
        };
        files.check_is(0, steps(65_535));
        let answer = files.check_is(12, steps(65_536));
        assert_eq!((answer.place, answer.steps), (head.len() as u64 + 3 * 65_535, 65_535));
        let mut large = complete;
        large.resize(MOST_BYTES, 0);
        files.check_is(9, large.clone());
        large.push(0);
        files.check_is(12, large);
        // One unit too many, and one too few.
        let mut many = sticks::with(&run, |run| run.site.units.push(run.site.units[0]));
        files.check_is(5, sticks::file(&many));
        many.site.units.truncate(63);
        let mut few = sticks::fields(&many);
        few[0].value[1] = 64;
        assert_eq!(files.check_is(4, sticks::bytes(&few)).place, 9 + 60 * 63);
    }
    files.end();
}
