//! Runs of sites that buy by current beside the reference, over the C surface: of whole files and fed in cuts, and the
//! rescue of damaged ones.

mod fed;
mod frames;
mod host;
mod rescued;
mod runs;

use frames::Room;
use rescued::kinds;
use yesbrulka_reference::feed::{self, LARGEST_FIELD, MOST_SITE, MOST_TAIL, SIZE, TAIL};
use yesbrulka_reference::ranges::MOST_BYTES;
use yesbrulka_reference::reading::{Phases, Reading};
use yesbrulka_reference::rescue::Kind;
use yesbrulka_reference::samples::wrecks::{self, wreck, Wreck};
use yesbrulka_reference::samples::{currents, limits, older, sticks, voltages, Draw};

#[test]
fn runs_of_every_fleet_size() {
    let mut draw = Draw::from_seed(1_401);
    let mut all = runs::Comparison::start(1_401);
    for units in 1..=64 {
        for round in 0..16 {
            let steps = if round % 8 == 0 { 0 } else { 1 + draw.below(6) as usize };
            let run = currents::run_in(&[4, 5], units, round % 4 / 3, steps, &mut draw);
            all.run_of(&run, runs::Room::any(&mut draw));
        }
    }
    let met = all.end(1_024);
    met.more_than(4, "units", 1..=64);
    met.more_than(100, "number", [0, 11]);
    met.more_than(200, "mode", 4..=5);
}

/// A few units, inverters or none, and a few steps, in every edition and phase choice.
#[test]
fn many_small_runs() {
    let mut draw = Draw::from_seed(1_402);
    let mut all = runs::Comparison::start(1_402);
    for _ in 0..30_000 {
        let units = draw.one_of(&[1, 1, 2, 2, 3, 4]);
        let (inverters, steps) = (draw.one_of(&[0, 0, 0, 1, 2]), draw.below(11) as usize);
        all.run_of(&currents::run(units, inverters, steps, &mut draw), runs::Room::any(&mut draw));
    }
    let met = all.end(30_000);
    met.more_than(20_000, "number", [0]);
    met.more_than(3_000, "number", [11]);
    for mode in 4..=5 {
        met.more_than(1_000, "mode and phase", (0..=5).map(|phase| 10 * mode + phase));
    }
    met.more_than(3_000, "edition", 1..=3);
    met.more_than(1_000, "rule", 3..=6);
    met.more_than(2_000, "inverters", 0..=2);
    for what in ["idle", "gave", "took", "idle without a reading"] {
        met.more_than(500, what, 1..=3);
    }
    met.all_of(500, &["no steps", "first reading missing", "last reading missing", "requests stood"]);
    met.all_of(500, &["a request taken back", "a request at its rating", "a weather and no reading"]);
    met.all_of(100, &["an exhausted fleet stopped", "empty and not asked", "full and not asked"]);
    met.all_of(300, &["gave it all", "took it all", "ran empty", "ran full"]);
}

/// Refused files write nothing, in rooms of every kind; and complete ones in rooms of every length.
#[test]
fn damaged_files() {
    let mut draw = Draw::from_seed(1_418);
    let mut all = runs::Comparison::start(1_418);
    for round in 0..12_000 {
        let file = match round % 4 {
            0 => currents::shuffled_file(&mut draw),
            _ => currents::damaged_file(&mut draw),
        };
        all.run(file, runs::Room::any_for_refused(&mut draw));
    }
    for mode in [1, 4, 5] {
        all.run_in_every_room(&currents::run_in(&[mode], 2, 1, 2, &mut draw));
    }
    let met = all.end(12_700);
    met.more_than(50, "number", (0..=9).chain([11]));
    met.all_of(100, &["a room one short", "an empty room"]);
}

/// In modes 1 to 3 connections may stand, and the run is the one without them.
#[test]
fn runs_by_power_with_connections() {
    let mut draw = Draw::from_seed(1_403);
    let mut all = runs::Comparison::start(1_403);
    for round in 0..3_000 {
        let run = currents::run_in(&[1, 2, 3], 1 + round % 4, round % 3, round % 6, &mut draw);
        all.run_of(&run, runs::Room::Exact);
        all.run_of(&sticks::with(&run, |run| run.site.connections.clear()), runs::Room::Exact);
    }
    // The same figures in every mode, with readings of its kind.
    for round in 0..2_000 {
        let run = currents::run(1 + round % 3, 0, 4, &mut draw);
        for mode in 1..=5 {
            all.run_of(&currents::in_mode(mode, run.clone(), &mut draw), runs::Room::Exact);
        }
    }
    let met = all.end(16_000);
    met.more_than(1_900, "mode", 1..=5);
    met.more_than(1_000, "rule", 3..=6);
}

/// Needs as large as there are, over units of every size and connections at their ends.
#[test]
fn runs_with_the_largest_needs() {
    let mut draw = Draw::from_seed(1_404);
    let mut all = runs::Comparison::start(1_404);
    for round in 0..400 {
        let mut run = currents::run(1 + round % 9, 0, 0, &mut draw);
        let high = !run.site.settings.charges();
        run.site.phase = 0;
        run.site.settings.target = if high { -100_000_000 } else { 100_000_000 };
        run.site.connections.iter_mut().for_each(|unit| {
            unit.phases = draw.one_of(&[1, 3]);
            unit.volts = draw.one_of(&[1, 40_000]);
        });
        let amperes = if high { 100_000.0 } else { -0.0 };
        run.readings = vec![Reading::Current(Phases::of([amperes; 3])); 3];
        all.run_of(&run, runs::Room::Exact);
    }
    all.end(400).more_than(100, "mode", 4..=5);
}

/// A file fed in chunks that are cut at these places.
fn cut_at_random(files: &mut fed::Comparison, file: &[u8], draw: &mut Draw) {
    let count = draw.below(5) as usize;
    let mut cuts: Vec<usize> = (0..count).map(|_| draw.below(file.len() as u64 + 1) as usize).collect();
    cuts.sort_unstable();
    files.cut(file, &cuts, draw);
}

/// Complete files of every mode and edition, cut in two at every byte, and files of every kind in a few chunks.
#[test]
fn files_fed_in_cuts() {
    let mut draw = Draw::from_seed(1_414);
    let mut files = fed::Comparison::start();
    for round in 0..30 {
        let mode = 1 + round as u8 % 5;
        let run = currents::plain_run(&[mode], 1 + round % 3, 0, round % 4, &mut draw);
        let file = sticks::file(&older::in_edition(1 + round as u8 % 3, run, &mut draw));
        for cut in 0..=file.len() {
            files.cut(&file, &[cut], &mut draw);
        }
    }
    for round in 0..14_000 {
        let file = match round % 4 {
            0 => sticks::file(&currents::small_run(&mut draw)),
            1 => currents::shuffled_file(&mut draw),
            _ => currents::damaged_file(&mut draw),
        };
        cut_at_random(&mut files, &file, &mut draw);
    }
    let met = files.end(20_000);
    met.more_than(5_000, "number", [0]);
    met.more_than(20, "number", 1..=9);
}

/// The largest site, with as long a tail as there can be, and states about the connections with bytes changed.
#[test]
fn states_about_the_connections() {
    let mut draw = Draw::from_seed(1_415);
    let mut files = fed::Comparison::start();
    let mut short = 0;
    for mode in 1..=5 {
        let run = voltages::led(currents::plain_run(&[mode], 64, 64, 1, &mut draw), &mut draw);
        let file = sticks::file(&older::in_edition(3, run, &mut draw));
        let settings = 9 + 64 * 60 + 15;
        let lengths = [0, 1, 3, 4, MOST_TAIL - 1, MOST_TAIL, LARGEST_FIELD].map(|more| settings + more);
        for length in lengths.into_iter().chain([MOST_SITE - 1, MOST_SITE, MOST_SITE + 1]) {
            let mut state = vec![0; SIZE];
            feed::start(&mut state).expect("a state has its length");
            feed::feed(&mut state, &file[..length], &mut []).expect("the bytes have no fault");
            for round in 0..120 {
                let mut changed = state.clone();
                // The stage, the tail's length, the tail, the mode and the last fields of the site part.
                match round {
                    0 => (),
                    1..=14 => changed[13] = round - 1,
                    15 => changed[16] = changed[16].wrapping_add(1),
                    16 => changed[16] = changed[16].wrapping_sub(1),
                    17 => changed[16] = MOST_TAIL as u8 + 1,
                    18..=23 => changed[feed::SITE + settings - 12] = round - 18,
                    24..=40 => changed[TAIL + draw.below(6) as usize] ^= 1 << draw.below(8),
                    41..=80 => {
                        let from = feed::SITE + length.min(MOST_SITE) - 1;
                        changed[from - draw.below(200) as usize] ^= 1 << draw.below(8);
                    }
                    _ => changed[draw.below(SIZE as u64) as usize] ^= 1 << draw.below(8),
                }
                let mut row = fed::Row::of(&changed);
                if round % 4 == 0 {
                    row.ask_all();
                }
                let number = row.feed(&file[length..], Room::Exact);
                assert!(number == 10 || feed::decode(row.state()).is_some(), "a call leaves a state");
                row.end(Room::Exact);
                short += u32::from(length < settings + LARGEST_FIELD);
                files.add(row);
            }
        }
    }
    assert!(short > 3_000);
    let met = files.end(6_000);
    met.more_than(300, "any number", [0, 10]);
    met.more_than(20, "any number", [5]);
}

/// Wrecks, damaged files and files with a reading of the wrong kind, whole and without their connections.
#[test]
fn files_rescued() {
    let mut draw = Draw::from_seed(1_416);
    let mut files = rescued::Comparison::start(1_416);
    let mut currents_lost = 0;
    for _ in 0..12_000 {
        let Wreck { file, left } = wreck(&mut draw);
        let rescued = files.rescue(file).expect("a wreck has all that is due before its steps");
        assert!(rescued.output == sticks::file(&left));
        let missing = rescued.changes.iter().filter(|change| change.kind == Kind::MadeMissing).count();
        currents_lost += if left.site.settings.by_current() { missing } else { 0 };
    }
    assert!(currents_lost > 3_000, "{currents_lost}");
    for round in 0..16_000 {
        let _ = files.rescue(match round % 3 {
            0 => currents::shuffled_file(&mut draw),
            _ => currents::damaged_file(&mut draw),
        });
    }
    for round in 0..2_000 {
        let run = currents::run(1 + round % 3, round % 2, 3, &mut draw);
        let complete = files.rescue(sticks::file(&run)).expect("a complete file is not refused");
        assert!(complete.changes.is_empty());
        let refused = files.rescue(sticks::bytes(&currents::without_connections(&run)));
        let refused = refused.expect_err("the connections are due before the steps");
        assert_eq!((refused.number, refused.steps), (4, 0));
        let other = sticks::with(&run, |run| {
            run.readings[1] =
                currents::misfit_reading(&run.site.settings, &mut Draw::from_seed(round as u64));
        });
        let ended = files.rescue(sticks::file(&other)).expect("a reading of the wrong kind ends it");
        assert_eq!((ended.steps, ended.changes.len(), ended.changes[0].kind), (1, 1, Kind::EndedHere));
    }
    let met = files.end(34_000);
    met.more_than(50, "number", [0, 1, 2, 3, 4, 5, 8, 11]);
    met.more_than(500, "fault", 0..=9);
    met.more_than(3_000, "kind", [1, 2]);
    let together = [&[][..], &[1], &[2], &[3], &[1, 2], &[1, 3]];
    met.more_than(200, "kinds", together.map(kinds));
    met.more_than(500, "weather dropped with its reading", [1]);
}

/// Files as large as they can be and one byte larger, and outputs that would be.
#[test]
fn files_at_the_size_limit() {
    let mut draw = Draw::from_seed(1_417);
    let mut files = rescued::Comparison::start(1_417);
    let run = limits::limited(currents::plain_run(&[4], 2, 1, 2, &mut draw), &mut draw);
    for short in [0, 6, 7, 8] {
        let (file, _) = wrecks::of_bytes(&run, MOST_BYTES - short, &mut draw);
        for behind in [0, short, short + 1] {
            let got = files.rescue([&file[..], &vec![0xFF; behind]].concat());
            assert_eq!(got.is_ok(), short >= 7 && behind <= short);
        }
    }
    files.end(12).more_than(3, "number", [0, 12]);
}
