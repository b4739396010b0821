//! The check of files of sites that buy by current beside the reference, over the C surface. Their runs, whole and
//! fed, and their rescue are in `current_run.rs`, passes of such sites in `current_pass.rs`, and what such a file says
//! of its units' connections in `site.rs`.

mod checks;
mod host;

use yesbrulka_reference::controller::Settings;
use yesbrulka_reference::ranges::MOST_BYTES;
use yesbrulka_reference::reading::Reading;
use yesbrulka_reference::samples::inverters::document_inverter;
use yesbrulka_reference::samples::sticks::{self, Field};
use yesbrulka_reference::samples::{
    beside, currents, inverters, metered, nans, near_the_end, near_tie, roofs, tie, voltages, with_exponent,
    Draw,
};
use yesbrulka_reference::stick::{
    self, Run, CONNECTIONS, CURRENT, CURVE, END, FUNCTION, INVERTER, MISSING, POWER, TAGS, WEATHER,
};

/// One unit with its connection, an inverter, and a reading that fits the mode and a missing one, of which the first
/// has a weather.
fn smallest(mode: u8, draw: &mut Draw) -> Run {
    let mut run = voltages::without(&currents::run_in(&[mode], 1, 1, 0, draw));
    run.readings = vec![currents::fitting_reading(&run.site.settings, draw), Reading::Missing];
    run.weather = vec![Some(inverters::weather(draw))];
    run
}

/// The same without an inverter and a weather.
fn plain(mode: u8, draw: &mut Draw) -> Run {
    sticks::with(&smallest(mode, draw), |run| {
        run.site.inverters.clear();
        run.weather.clear();
    })
}

#[test]
fn files_cut_and_changed_at_every_byte() {
    let mut draw = Draw::from_seed(1_405);
    let mut files = checks::Comparison::start();
    for mode in 1..=5 {
        for units in [1, 2, 3, 5] {
            let run = currents::run_in(&[mode], units, 1, 3, &mut draw);
            files.check_cuts(&sticks::file(&run));
        }
    }
    for mode in [2, 4, 5] {
        files.check_bytes(&sticks::file(&plain(mode, &mut draw)));
    }
    let arms = files.end();
    assert!(arms.values().sum::<u32>() > 100_000);
    for number in 0..=8 {
        assert!(checks::met(&arms, number) > 100, "number {number}: {arms:?}");
    }
}

/// Every field left out, repeated, exchanged with every other, replaced by every other, and every field of the list
/// put in at every place; connections missing, twice, displaced and of another fleet's length among them.
#[test]
fn files_with_their_fields_in_another_order() {
    let mut draw = Draw::from_seed(1_406);
    let mut files = checks::Comparison::start();
    for round in 0..20 {
        let mode = 1 + round as u8 % 5;
        let units = 1 + round % 3;
        let mut run = currents::run_in(&[mode], units, 1 + round % 2, 2, &mut draw);
        run.weather[0].get_or_insert(inverters::weather(&mut draw));
        let fields = sticks::fields(&run);
        let mut all = fields[..2].to_vec();
        all.extend_from_slice(&fields[units + 1..units + 3]);
        all.extend((1..=4).map(|units| sticks::connections_field(&currents::connections(units, &mut draw))));
        all.extend(roofs::inverter_fields(&document_inverter()));
        all.push(roofs::weather_field(inverters::weather(&mut draw)));
        let readings =
            [Reading::Missing, sticks::power_reading(&mut draw), currents::current_reading(&mut draw)];
        all.extend(readings.iter().map(sticks::reading_field));
        all.extend([sticks::end_field(2), sticks::end_field(0)]);
        files.check_orders(&fields, fields.len(), &all);
        let missing = sticks::bytes(&currents::without_connections(&run));
        files.check_is(if mode > 3 { 4 } else { 0 }, missing);
    }
    for _ in 0..15_000 {
        files.check(currents::shuffled_file(&mut draw));
    }
    let arms = files.end();
    for (tag, _) in TAGS {
        assert!(arms[&(4, Some(tag))] > 100, "tag {tag} out of order: {arms:?}");
    }
    for arm in [(3, CONNECTIONS), (5, POWER), (5, CURRENT)] {
        assert!(arms[&(arm.0, Some(arm.1))] > 150, "{arm:?} in {arms:?}");
    }
}

/// Lengths of connections in fleets of every size: their own, those of all others, and beside.
#[test]
fn connections_of_every_length() {
    let mut draw = Draw::from_seed(1_407);
    let mut files = checks::Comparison::start();
    for units in 1..=64 {
        let mode = draw.one_of(&[1, 3, 4, 5]);
        let run = currents::plain_run(&[mode], units, 0, 1, &mut draw);
        let fields = sticks::fields(&run);
        let at = units + 2;
        assert_eq!(fields[at].tag, CONNECTIONS);
        for length in (0..=200).chain([255, 256, 256 + 3 * units as u16, 3 << 8, u16::MAX]) {
            let right = usize::from(length) == 3 * units;
            let mut other = fields.clone();
            other[at].length = length;
            files.check_is(if right { 0 } else { 3 }, sticks::bytes(&other));
            other[at].value = vec![1; usize::from(length) % 512];
            let answer = files.check_is(if right { 0 } else { 3 }, sticks::bytes(&other));
            assert!(right || answer.place == 24 + 52 * units as u64);
        }
    }
    // Before the fleet they have no bytes, and the order comes behind the length.
    for (number, bytes) in
        [(4, &[0x0A, 0, 0][..]), (3, &[0x0A, 0, 3]), (3, &[0x0A, 0, 1, 1]), (1, &[0x0A, 0])]
    {
        files.check_is(number, bytes);
    }
    files.end();
}

/// Each value of the connections at the ends of its range and beside them, of every unit of fleets of every size; and
/// the mode.
#[test]
fn connections_at_their_ends_or_beside_them() {
    let mut draw = Draw::from_seed(1_408);
    let mut files = checks::Comparison::start();
    for round in 0..160 {
        let units = if round < 64 { round + 1 } else { 1 + draw.below(4) as usize };
        let run = currents::run_in(&[1, 2, 3, 4, 5], units, 0, 1, &mut draw);
        for unit in [0, draw.below(units as u64) as usize, units - 1] {
            for phases in (0..8).chain([127, 128, 129, 131, 255]) {
                let changed = sticks::with(&run, |run| run.site.connections[unit].phases = phases);
                files.check_is(if [1, 3].contains(&phases) { 0 } else { 5 }, sticks::file(&changed));
            }
            for volts in [0, 1, 2, 255, 256, 32_768, 39_999, 40_000, 40_001, u16::MAX] {
                let changed = sticks::with(&run, |run| run.site.connections[unit].volts = volts);
                files.check_is(if (1..=40_000).contains(&volts) { 0 } else { 5 }, sticks::file(&changed));
            }
        }
        for end in &sticks::SETTINGS_ENDS[3..] {
            files.check_is(0, sticks::file(&sticks::with(&run, end)));
        }
        for spoil in sticks::BAD_SETTINGS {
            files.check_is(5, sticks::file(&sticks::with(&run, spoil)));
        }
        for mode in 0..=255 {
            let changed = currents::in_mode(mode, run.clone(), &mut draw);
            files.check_is(if (1..=5).contains(&mode) { 0 } else { 5 }, sticks::file(&changed));
        }
    }
    files.end();
}

/// A file of this head, some missing readings, this reading and the end.
fn with_reading(head: &[u8], missing: u32, reading: &Reading) -> Vec<u8> {
    let end = sticks::end_field(missing + 1);
    let last = sticks::bytes(&[sticks::reading_field(reading), end]);
    [head, &[MISSING, 0, 0].repeat(missing as usize), &last].concat()
}

/// The fields before the steps of a small site in a mode.
fn head(mode: u8, draw: &mut Draw) -> Vec<u8> {
    let mut file = sticks::file(&currents::run_in(&[mode], 1, 0, 0, draw));
    file.truncate(file.len() - 7);
    file
}

/// Readings of both kinds in every mode, good and bad: one that does not fit is 5 whatever it says.
#[test]
fn readings_of_the_wrong_kind() {
    let mut draw = Draw::from_seed(1_409);
    let mut files = checks::Comparison::start();
    for round in 0..600 {
        let mode = 1 + round as u8 % 5;
        let head = head(mode, &mut draw);
        let settings = Settings { mode, target: 0, band: 0, factor: 1 };
        let other = Settings { mode: if mode < 4 { 4 } else { 1 }, ..settings };
        let missing = draw.below(3) as u32;
        for (number, reading) in [
            (0, currents::fitting_reading(&settings, &mut draw)),
            (6, currents::unusable_reading(&settings, &mut draw)),
            (5, currents::misfit_reading(&settings, &mut draw)),
            (5, currents::unusable_reading(&other, &mut draw)),
            (0, Reading::Missing),
        ] {
            let answer = files.check_is(number, with_reading(&head, missing, &reading));
            assert_eq!(answer.steps, if number == 0 { missing + 1 } else { missing });
            // Behind a weather it is the same.
            let weather = sticks::bytes(&[roofs::weather_field(inverters::weather(&mut draw))]);
            files.check_is(number, with_reading(&[&head[..], &weather].concat(), 0, &reading));
        }
    }
    let arms = files.end();
    assert!(arms[&(5, Some(POWER))] > 300 && arms[&(5, Some(CURRENT))] > 300, "{arms:?}");
    assert!(arms[&(6, Some(POWER))] > 300 && arms[&(6, Some(CURRENT))] > 200, "{arms:?}");
}

/// Currents in the three places of a reading: at every exponent, at and beside 0 and the largest, at ties and beside
/// them, and what is no number.
#[test]
fn files_with_currents_at_the_edge() {
    let mut draw = Draw::from_seed(1_410);
    let mut files = checks::Comparison::start();
    let heads = [head(4, &mut draw), head(5, &mut draw)];
    let ends =
        [0.0, -0.0, -0.0001, -0.0004, -0.000_5, -0.0006, -0.001, 100_000.0, 100_000.000_5, 100_000.001];
    let ends: Vec<u64> = ends.iter().flat_map(|r: &f64| beside(r.to_bits())).collect();
    let nans = nans();
    for i in 0..36_000u64 {
        let bits = match i % 8 {
            0 => with_exponent(i / 8 % 2_048, &mut draw),
            1 => near_tie(&mut draw),
            2 => near_the_end(&mut draw),
            3 => tie(&mut draw),
            4 => draw.one_of(&ends),
            5 => draw.one_of(&currents::bad_currents(&mut Draw::from_seed(0))),
            6 => draw.one_of(&nans),
            _ => metered(&mut draw),
        };
        let reading = currents::bad_reading(draw.below(3) as usize, bits, &mut draw);
        files.check(with_reading(&heads[i as usize % 2], i as u32 % 3, &reading));
    }
    let arms = files.end();
    assert!(arms[&(0, None)] > 10_000 && arms[&(6, Some(CURRENT))] > 10_000, "{arms:?}");
}

/// Two things wrong with one field: the first in the document's order is the answer.
#[test]
fn fields_with_two_things_wrong() {
    let mut draw = Draw::from_seed(1_411);
    let mut files = checks::Comparison::start();
    for round in 0..250 {
        let mode = 1 + round as u8 % 5;
        let run = smallest(mode, &mut draw);
        let fields = sticks::fields(&run);
        // From 3 on: the connections, the inverter, its curves, the weather, the reading behind it, the missing one,
        // the end.
        for at in 3..fields.len() {
            let then = |field: &Field| checks::ending(&fields[..at], field, usize::MAX);
            for (tag, _) in TAGS {
                let length = stick::length_in(run.site.edition, 1, tag).expect("a tag of the list");
                let bad = files.check_spoiled(&fields[..at], tag, length, &mut draw);
                let reading = [POWER, MISSING, CURRENT].contains(&tag);
                let step = reading || tag == WEATHER || tag == END;
                let site = [INVERTER, FUNCTION].contains(&tag);
                let allowed = match at {
                    3 => tag == CONNECTIONS || mode < 4 && (step || site),
                    4 | 7 => step || site,
                    5 | 6 => tag == CURVE,
                    8 => reading,
                    _ => step,
                };
                let number = match tag {
                    _ if !allowed => 4,
                    POWER if mode < 4 => 6,
                    CURRENT if mode > 3 => 6,
                    WEATHER => 6,
                    MISSING => 8,
                    END => 7,
                    _ => 5,
                };
                files.check_is(number, then(&bad));
            }
        }
    }
    files.end();
}

#[test]
fn files_with_damage_in_several_places() {
    let mut draw = Draw::from_seed(1_412);
    let mut files = checks::Comparison::start();
    for _ in 0..80_000 {
        files.check(currents::damaged_file(&mut draw));
    }
    // Damage to a fleet of any size.
    for _ in 0..2_000 {
        let units = 1 + draw.below(64) as usize;
        let mut fields = sticks::fields(&currents::run(units, 0, 2, &mut draw));
        sticks::damage_some(&mut fields, currents::damage, &mut draw);
        files.check(sticks::bytes(&fields));
    }
    let arms = files.end();
    for number in 0..=9 {
        assert!(checks::met(&arms, number) > 300, "number {number}: {arms:?}");
    }
    for arm in
        [(3, CONNECTIONS), (4, CONNECTIONS), (5, CONNECTIONS), (4, CURRENT), (5, CURRENT), (6, CURRENT)]
    {
        assert!(arms[&(arm.0, Some(arm.1))] > 300, "{arm:?} in {arms:?}");
    }
    assert!(arms[&(5, Some(POWER))] > 300, "{arms:?}");
}

/// 65,535 steps are accepted; the next one is 12, also one of the wrong kind.
#[test]
fn files_of_as_many_steps_as_there_can_be() {
    let mut draw = Draw::from_seed(1_413);
    let mut files = checks::Comparison::start();
    for mode in [3, 4, 5] {
        let settings = Settings { mode, target: 0, band: 0, factor: 1 };
        let good = sticks::reading_field(&currents::fitting_reading(&settings, &mut draw));
        let misfit = sticks::reading_field(&currents::misfit_reading(&settings, &mut draw));
        let bad = sticks::reading_field(&currents::unusable_reading(&settings, &mut draw));
        let missing = Field::new(MISSING, vec![]);
        let most = [head(mode, &mut draw), sticks::bytes(&vec![good.clone(); 65_534])].concat();
        let mut then = |number: u32, steps: u32, fields: &[&Field]| {
            let mut file = most.clone();
            fields.iter().for_each(|field| field.put(&mut file));
            assert_eq!(files.check_is(number, file).steps, steps);
        };
        then(0, 65_535, &[&good, &sticks::end_field(65_535)]);
        then(5, 65_534, &[&misfit, &good]);
        then(6, 65_534, &[&bad, &good]);
        for last in [&good, &missing] {
            for more in [&good, &misfit, &bad, &missing] {
                then(12, 65_535, &[last, more]);
            }
        }
    }
    // A file of the wrong kind of readings is looked at once it is small enough.
    let wrong = [head(4, &mut draw), vec![0; MOST_BYTES]].concat();
    files.check_is(12, wrong);
    files.end();
}
