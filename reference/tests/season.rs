//! The proved run beside the reference, over the C surface: number, room needed, and every byte of the lent
//! room after the call.

mod host;
mod runs;

use host::{lent_room, refuses_cut_rows, Host};
use runs::{Comparison, Room, ANSWER};
use yesbrulka_reference::ranges::MOST_BYTES;
use yesbrulka_reference::reading::{Phases, Reading};
use yesbrulka_reference::samples::{seasons, sticks, units, Draw};
use yesbrulka_reference::stick::MISSING;

#[test]
fn the_whole_case() {
    let mut runs = Comparison::start(500);
    let run = sticks::whole_case();
    for room in [Room::Exact, Room::OneShort, Room::Longer(1), Room::Longer(1_000), Room::Empty] {
        runs.run_of(&run, room);
        runs.run_of(&sticks::with(&run, |run| run.readings.clear()), room);
    }
    let met = runs.end(10);
    met.more_than(3, "number", [0, 11]);
    met.all_of(2, &["no steps"]);
}

#[test]
fn runs_of_every_fleet_size() {
    let mut draw = Draw::from_seed(501);
    let mut runs = Comparison::start(501);
    for units in 1..=64 {
        for round in 0..24 {
            let steps = if round % 8 == 0 { 0 } else { 1 + draw.below(8) as usize };
            runs.run_of(&seasons::run(units, steps, &mut draw), Room::any(&mut draw));
        }
        runs.run_of(&seasons::run(units, 3, &mut draw), Room::Exact);
    }
    let met = runs.end(1_600);
    met.more_than(10, "units", 1..=64);
    met.more_than(200, "number", [0, 11]);
    met.all_of(100, &["no steps", "an exact room", "a longer room", "a room one short"]);
    met.all_of(500, &["ran empty", "was empty", "ran full", "empty and not asked", "full and not asked"]);
    met.all_of(50, &["was full"]);
}

/// A few units and a few steps, in every mode and phase choice.
#[test]
fn many_small_runs() {
    let mut draw = Draw::from_seed(502);
    let mut runs = Comparison::start(502);
    for _ in 0..20_000 {
        let units = draw.one_of(&[1, 1, 1, 2, 2, 3, 4]);
        let steps = draw.below(14) as usize;
        runs.run_of(&seasons::run(units, steps, &mut draw), Room::any(&mut draw));
    }
    let met = runs.end(20_000);
    met.more_than(15_000, "number", [0]);
    met.more_than(3_000, "number", [11]);
    for mode in 1..=3 {
        met.more_than(300, "mode and phase", (0..=5).map(|phase| 10 * mode + phase));
    }
    met.more_than(10_000, "priority", 0..=1);
    met.more_than(1_000, "rule", 3..=6);
    met.all_of(500, &["no steps", "first reading missing", "last reading missing"]);
    met.all_of(1_000, &["requests stood", "a request taken back"]);
    met.all_of(200, &["an exhausted fleet stopped"]);
    met.all_of(1_000, &["a request at its rating", "a request beyond S", "watts cut by vars", "vars cut"]);
    met.all_of(1_000, &["vars below zero", "gave it all", "ran empty", "was empty", "empty and not asked"]);
    met.all_of(
        500,
        &["took it all", "ran full", "full and not asked", "had too little room", "neither gave nor took"],
    );
    met.all_of(100, &["was full"]);
}

/// Days of quarter hours and the like, over which a store goes from one end to the other.
#[test]
fn runs_of_some_length() {
    let mut draw = Draw::from_seed(503);
    let mut runs = Comparison::start(503);
    for round in 0..400 {
        let steps = 40 + draw.below(160) as usize;
        runs.run_of(&seasons::run(1 + round % 5, steps, &mut draw), Room::any(&mut draw));
    }
    let met = runs.end(400);
    met.all_of(100, &["ran empty", "ran full"]);
    met.all_of(2_000, &["was empty", "empty and not asked", "full and not asked", "requests stood"]);
    met.all_of(20, &["was full"]);
    met.all_of(20, &["an exhausted fleet stopped"]);
}

/// Every room from none to more than is needed.
#[test]
fn rooms_of_every_length() {
    let mut draw = Draw::from_seed(504);
    let mut runs = Comparison::start(504);
    for (units, steps) in [(1, 0), (1, 1), (2, 1), (1, 3), (3, 2), (64, 0)] {
        runs.run_in_every_room(&seasons::run(units, steps, &mut draw));
    }
    let met = runs.end(840);
    met.more_than(300, "number", [0, 11]);
    met.all_of(5, &["an empty room", "a room one short", "an exact room"]);
}

/// Every pattern of missing readings over six steps and fewer.
#[test]
fn every_row_of_missing_readings() {
    let mut draw = Draw::from_seed(505);
    let mut runs = Comparison::start(505);
    for _ in 0..24 {
        let units = 1 + draw.below(3) as usize;
        let steps = 1 + draw.below(6) as usize;
        let run = seasons::run(units, steps, &mut draw);
        for pattern in 0..1 << steps {
            let masked = sticks::with(&run, |run| {
                let holes = (0..steps).filter(|step| pattern >> step & 1 == 1);
                holes.for_each(|step| run.readings[step] = Reading::Missing);
            });
            runs.run_of(&masked, Room::Exact);
        }
    }
    let met = runs.end(300);
    met.all_of(150, &["first reading missing", "last reading missing", "requests stood"]);
}

/// Each value at the ends of its range, and units, settings and readings of every kind.
#[test]
fn runs_at_the_ends_of_the_ranges() {
    let mut draw = Draw::from_seed(506);
    let mut runs = Comparison::start(506);
    for _ in 0..40 {
        let count = 1 + draw.below(3) as usize;
        let steps = 1 + draw.below(4) as usize;
        let run = seasons::run(count, steps, &mut draw);
        let unit = draw.below(count as u64) as usize;
        for end in units::ENDS {
            runs.run_of(&sticks::with_unit(&run, unit, end), Room::Exact);
        }
        for end in sticks::SETTINGS_ENDS {
            runs.run_of(&sticks::with(&run, end), Room::Exact);
            runs.run_of(&sticks::with_unit(&run, unit, draw.one_of(&units::ENDS)), Room::any(&mut draw));
        }
    }
    // The largest need there is, of either sign, over units of every size.
    for round in 0..300 {
        let mut run = seasons::run(1 + round % 9, 2, &mut draw);
        let sign = if run.site.settings.mode == 3 { -1 } else { 1 };
        let first = 100_000.0 * f64::from(sign);
        run.site.phase = 0;
        run.site.settings.target = if run.site.settings.mode == 2 { sign } else { -sign } * 100_000_000;
        run.readings = vec![Reading::Power(Phases { first, second: first, third: first }); 2];
        runs.run_of(&run, Room::Exact);
    }
    for _ in 0..3_000 {
        let units = draw.one_of(&[1, 1, 2, 3, 5]);
        let steps = draw.below(6) as usize;
        runs.run_of(&sticks::run(units, steps, &mut draw), Room::any(&mut draw));
    }
    let met = runs.end(5_000);
    met.more_than(500, "rule", 3..=6);
    met.all_of(100, &["ran empty", "was empty", "ran full", "empty and not asked", "full and not asked"]);
    met.all_of(30, &["was full"]);
}

/// A refused file leaves the room as it was, however long that is.
#[test]
fn refused_files() {
    let mut draw = Draw::from_seed(507);
    let mut runs = Comparison::start(507);
    for round in 0..6_000 {
        let file = match round % 6 {
            0 => sticks::shuffled_file(&mut draw),
            1 => sticks::noise(80, &mut draw),
            _ => sticks::damaged_file(&mut draw),
        };
        runs.run(file, Room::any_for_refused(&mut draw));
    }
    // What is wrong comes after good steps, and there is room for all of them.
    for _ in 0..12 {
        let run = seasons::run(2, 3, &mut draw);
        let room = Room::Of(40 * 2 * 4 + 7);
        for bits in sticks::bad_powers(&mut draw) {
            let (at, phase) = (draw.below(4) as usize, draw.below(3) as usize);
            let bad = sticks::bad_reading(phase, bits, &mut draw);
            let file = sticks::file(&sticks::with(&run, |run| run.readings.insert(at, bad)));
            assert_eq!(runs.run(file, room), 6);
        }
        let mut fields = sticks::fields(&run);
        fields.pop();
        for count in sticks::bad_counts(3) {
            let file = sticks::bytes(&[&fields[..], &[sticks::end_field(count)]].concat());
            assert_eq!(runs.run(file, room), 7);
        }
    }
    // A file that is cut, and one that goes on after its end.
    let file = sticks::file(&seasons::run(2, 3, &mut draw));
    for length in 0..file.len() {
        runs.run(&file[..length], Room::Of(40 * 6 + 7));
    }
    for after in 1..30 {
        runs.run([&file[..], &vec![after; after.into()]].concat(), Room::Of(40 * 6 + 7));
    }
    let met = runs.end(6_400);
    met.more_than(80, "number", (0..=9).chain([11]));
}

/// A file or a season above its size.
#[test]
fn files_too_large() {
    let mut draw = Draw::from_seed(508);
    let mut runs = Comparison::start(508);
    let complete = sticks::file(&seasons::run(1, 4, &mut draw));
    let head = &complete[..9 + 52 + 15];
    let steps = |count: usize| [head, &[MISSING, 0, 0].repeat(count)].concat();
    let room = Room::Of(40 * 65_536 + 7);
    assert_eq!(runs.run([steps(65_536), sticks::bytes(&[sticks::end_field(65_536)])].concat(), room), 12);
    assert_eq!(runs.run(steps(65_536), Room::Empty), 12);
    assert_eq!(runs.run([steps(65_535), sticks::bytes(&[sticks::end_field(65_534)])].concat(), room), 7);
    let mut large = complete;
    large.resize(MOST_BYTES, 0);
    assert_eq!(runs.run(large.clone(), Room::Of(1_000)), 9);
    large.push(0);
    for length in [0, 1_000] {
        assert_eq!(runs.run(large.clone(), Room::Of(length)), 12);
    }
    runs.end(6).more_than(3, "number", [12]);
}

/// As many steps as there can be, of one unit, and a year of hours of as many units as there can be.
#[test]
fn the_longest_runs() {
    let mut draw = Draw::from_seed(509);
    let mut runs = Comparison::start(509);
    for (units, steps, mode) in [(1, 65_535, 1), (64, 8_760, 2), (6, 8_760, 3)] {
        let mut run = seasons::run(units, steps, &mut draw);
        while run.site.settings.mode != mode || run.site.seconds > 3_600 {
            run = seasons::run(units, steps, &mut draw);
        }
        // Stores for so many hours at full power that some last for all of the run and others do not.
        for unit in &mut run.site.units {
            let power = u64::from(unit.rating.min(unit.kva)) * u64::from(run.site.seconds);
            unit.rated = (power * (1 + draw.below(steps as u64))).min(10_000_000_000_000);
            unit.reserve = unit.rated / 10;
            unit.stored = if mode == 3 { 0 } else { unit.rated };
        }
        runs.run_of(&run, Room::Exact);
        if units == 1 {
            runs.run_of(&run, Room::OneShort);
            runs.run_of(&run, Room::Longer(100));
        }
    }
    let met = runs.end(5);
    met.more_than(0, "units", [1, 6, 64]);
    met.more_than(10_000, "rule", 5..=6);
    met.all_of(10_000, &["requests stood", "a request taken back", "gave it all", "took it all"]);
    met.all_of(10, &["ran empty"]);
}

/// The comparison is worth nothing if the host answers frames that it has not understood.
#[test]
fn the_host_takes_no_malformed_run() {
    let row = [&[9, 0, 0, 0, 5][..], &[4, 0, 0, 0], &[0; 4]].concat();
    let message = "host: op R: the payload is no row of rooms and files\n";
    refuses_cut_rows(b'R', &row, &[1, 4, 5, 8, row.len() - 1], message);
    let mut host = Host::start();
    let answer = host.call(b'R', &row);
    assert_eq!(answer[ANSWER..], lent_room(9, 5));
    assert!(host.end().0.success());
    let mut host = Host::start_quietly();
    host.send(b'R', &[1, 0, 0, 4, 0, 0, 0, 0, 0]);
    let (status, messages) = host.end();
    assert_eq!((status.code(), messages.as_str()), (Some(1), "host: op R: a room is too long\n"));
}
