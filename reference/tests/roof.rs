//! Runs and checks of files with inverters and weather beside the reference, over the C surface.

mod checks;
mod host;
mod runs;

use runs::Room;
use yesbrulka_reference::curve::Curve;
use yesbrulka_reference::ranges::MOST_BYTES;
use yesbrulka_reference::reading::Reading;
use yesbrulka_reference::samples::inverters::{self, document_inverter, Change};
use yesbrulka_reference::samples::sticks::{self, Field};
use yesbrulka_reference::samples::{currents, roofs, Draw};
use yesbrulka_reference::solar::Weather;
use yesbrulka_reference::stick::{self, Run, CURVE, INVERTER, MISSING, WEATHER};

/// One unit, one inverter, and a power reading and a missing one, of which the first has a weather.
fn smallest(draw: &mut Draw) -> Run {
    let power = sticks::power_reading(draw);
    let weather = inverters::weather(draw);
    sticks::with(&roofs::plain_run(1, 1, 0, draw), |run| {
        run.readings = vec![power, Reading::Missing];
        run.weather = vec![Some(weather)];
    })
}

/// The whole case with the document's inverter on its roof, in a day's sun.
#[test]
fn the_whole_case_under_the_sun() {
    let mut all = runs::Comparison::start(800);
    let sun = |irradiance| Some(Weather { irradiance, temperature: 25.0 });
    let run = sticks::with(&sticks::whole_case(), |run| {
        run.site.inverters = vec![document_inverter()];
        run.readings = vec![Reading::Missing; 9];
        run.weather = [0.0, 0.08, 0.081, 1.0, 0.08, 0.04, 0.039, 0.08].map(sun).to_vec();
    });
    for room in [Room::Exact, Room::OneShort, Room::Longer(1), Room::Longer(1_000), Room::Empty] {
        all.run_of(&run, room);
        all.run_of(&sticks::with(&run, |run| run.readings.clear()), room);
        all.run_of(&sticks::with(&run, |run| run.weather.clear()), room);
        all.run_of(&sticks::with(&run, |run| run.site.inverters.clear()), room);
    }
    let met = all.end(20);
    met.more_than(5, "number", [0, 11]);
    met.all_of(2, &["turned on", "turned off", "held on", "held off", "at cut-in", "at cut-out"]);
    met.all_of(2, &["a weather without inverters", "a weather and no reading"]);
}

#[test]
fn runs_of_every_number_of_inverters() {
    let mut draw = Draw::from_seed(801);
    let mut all = runs::Comparison::start(801);
    for inverters in 0..=64 {
        for round in 0..16 {
            let units = draw.one_of(&[1, 1, 2, 3, 5]);
            let steps = if round % 8 == 0 { 0 } else { 1 + draw.below(6) as usize };
            all.run_of(&roofs::run(units, inverters, steps, &mut draw), Room::any(&mut draw));
        }
        let units = 1 + draw.below(64) as usize;
        all.run_of(&roofs::run(units, inverters, 3, &mut draw), Room::Exact);
    }
    let met = all.end(1_100);
    met.more_than(6, "inverters", 0..=64);
    met.more_than(100, "number", [0, 11]);
    met.all_of(
        1_000,
        &["turned on", "turned off", "held on", "held off", "on before a step without weather"],
    );
}

/// A few units, a few inverters and a few steps.
#[test]
fn many_small_runs() {
    let mut draw = Draw::from_seed(802);
    let mut all = runs::Comparison::start(802);
    for _ in 0..30_000 {
        let units = draw.one_of(&[1, 1, 1, 2, 3]);
        let inverters = if draw.below(3) == 0 { roofs::count(&mut draw) } else { draw.below(4) as usize };
        let steps = draw.below(9) as usize;
        all.run_of(&roofs::run(units, inverters, steps, &mut draw), Room::any(&mut draw));
    }
    let met = all.end(30_000);
    met.more_than(20_000, "number", [0]);
    met.more_than(4_000, "number", [11]);
    met.more_than(3_000, "inverters", 0..=3);
    met.more_than(3, "inverters", 4..=64);
    met.all_of(2_000, &["a weather", "a weather without inverters", "a weather and no reading"]);
    met.all_of(
        2_000,
        &["turned on", "turned off", "held on", "held off", "on before a step without weather"],
    );
    met.all_of(
        1_000,
        &["at cut-in", "at cut-out", "watts cut by the limit", "watts cut by the inverter's circle"],
    );
    met.all_of(2_000, &["an inverter's vars cut", "an inverter's vars below zero"]);
    met.more_than(10_000, "inverter's priority", 0..=1);
    met.more_than(1_000, "rule", 3..=6);
}

/// Every room from none to more than is needed.
#[test]
fn rooms_of_every_length() {
    let mut draw = Draw::from_seed(803);
    let mut all = runs::Comparison::start(803);
    for (units, inverters, steps) in [(1, 1, 0), (1, 1, 1), (2, 3, 1), (1, 2, 3), (3, 1, 2), (1, 64, 0)] {
        all.run_in_every_room(&roofs::run(units, inverters, steps, &mut draw));
    }
    let met = all.end(1_000);
    met.more_than(300, "number", [0, 11]);
    met.all_of(4, &["an empty room", "a room one short", "an exact room"]);
}

/// Every pattern of missing readings and of missing weather over four steps and fewer.
#[test]
fn every_row_of_missing_weather() {
    let mut draw = Draw::from_seed(804);
    let mut all = runs::Comparison::start(804);
    for _ in 0..12 {
        let (inverters, steps) = (1 + draw.below(3) as usize, 1 + draw.below(4) as usize);
        let mut run = roofs::run(1, inverters, steps, &mut draw);
        for step in 0..steps {
            run.readings[step] = sticks::power_reading(&mut draw);
            run.weather[step].get_or_insert(inverters::weather(&mut draw));
        }
        for pattern in 0..1 << (2 * steps) {
            let masked = sticks::with(&run, |run| {
                for step in 0..steps {
                    if pattern >> step & 1 == 1 {
                        run.readings[step] = Reading::Missing;
                    }
                    if pattern >> (steps + step) & 1 == 1 {
                        run.weather[step] = None;
                    }
                }
            });
            all.run_of(&masked, Room::Exact);
        }
    }
    let met = all.end(400);
    met.all_of(100, &["a weather", "a weather and no reading", "on before a step without weather"]);
}

/// Each value at the ends of its range, weather of every kind, and several ends at once.
#[test]
fn runs_at_the_ends_of_the_ranges() {
    let mut draw = Draw::from_seed(805);
    let mut all = runs::Comparison::start(805);
    for _ in 0..60 {
        let (count, steps) = (1 + draw.below(3) as usize, 1 + draw.below(4) as usize);
        let run = roofs::run(1, count, steps, &mut draw);
        let at = draw.below(count as u64) as usize;
        for end in inverters::ENDS {
            let run = roofs::with_inverter(&run, at, end);
            all.run_of(&run, Room::Exact);
            all.run_of(&roofs::with_inverter(&run, at, draw.one_of(&inverters::ENDS)), Room::Exact);
        }
        let edges =
            [(0.0, 100_000.0), (100_000.0, -100_000.0), (-0.0001, 0.0), (100_000.0, 100_000.0), (-0.0, -0.0)];
        for (irradiance, temperature) in edges {
            let step = draw.below(steps as u64) as usize;
            all.run_of(&roofs::with_weather(&run, step, Weather { irradiance, temperature }), Room::Exact);
        }
    }
    // The most DC power that there can be, into the smallest and the largest S.
    let largest = |kva| {
        let mut inverter = document_inverter();
        (inverter.array, inverter.kva) = (100_000_000, kva);
        inverter.warm = Curve::through(&[(-100_000_000, 20_000), (100_000_000, 20_000)]);
        inverter
    };
    let run = sticks::with(&roofs::run(1, 0, 2, &mut draw), |run| {
        run.site.inverters = vec![largest(1), largest(100_000_000)];
        run.weather = vec![Some(Weather { irradiance: 100_000.0, temperature: 0.0 }); 2];
    });
    all.run_of(&run, Room::Exact);
    let met = all.end(3_000);
    met.all_of(300, &["turned on", "held on", "held off", "watts cut by the limit"]);
}

/// A refused file leaves the room as it was, however long that is.
#[test]
fn refused_files() {
    let mut draw = Draw::from_seed(806);
    let mut all = runs::Comparison::start(806);
    for round in 0..6_000 {
        let file =
            if round % 5 == 0 { roofs::shuffled_file(&mut draw) } else { roofs::damaged_file(&mut draw) };
        all.run(file, Room::any_for_refused(&mut draw));
    }
    // What is wrong comes after good steps, and there is room for all of them.
    for _ in 0..40 {
        let run = roofs::run(1, 2, 3, &mut draw);
        for step in 0..3 {
            let bad = roofs::with_weather(&run, step, inverters::bad_weather(&mut draw));
            assert_eq!(all.run(sticks::file(&bad), Room::Of((40 + 2 * 29) * 3 + 7)), 6);
        }
    }
    let file = sticks::file(&smallest(&mut draw));
    for length in 0..file.len() {
        all.run(&file[..length], Room::Of(2 * 69 + 7));
    }
    let met = all.end(6_500);
    met.more_than(80, "number", (0..=8).chain([11]));
}

/// As many inverters as there can be over a year of hours, and as many steps as there can be.
#[test]
fn the_longest_runs() {
    let mut draw = Draw::from_seed(807);
    let mut all = runs::Comparison::start(807);
    for (units, inverters, steps) in [(1, 64, 8_760), (64, 64, 2_000), (1, 2, 45_000)] {
        let run = roofs::run(units, inverters, steps, &mut draw);
        all.run_of(&run, Room::Exact);
        if inverters == 2 {
            all.run_of(&run, Room::OneShort);
        }
    }
    // 65,535 steps, of which so many have a weather that the file is as long as it may be.
    let mut run = roofs::run(1, 1, 0, &mut draw);
    run.readings = vec![sticks::power_reading(&mut draw); 65_535];
    let room = (MOST_BYTES - sticks::file(&run).len()) / 19;
    run.weather = (0..room).map(|_| Some(inverters::weather(&mut draw))).collect();
    assert!((MOST_BYTES - 18..=MOST_BYTES).contains(&sticks::file(&run).len()));
    all.run_of(&run, Room::Exact);
    let met = all.end(5);
    met.all_of(50_000, &["turned on", "turned off"]);
}

#[test]
fn complete_files_of_every_number_of_inverters() {
    let mut draw = Draw::from_seed(811);
    let mut files = checks::Comparison::start();
    for inverters in 0..=64 {
        for round in 0..40 {
            let steps = if round % 8 == 0 { 0 } else { draw.below(6) as usize };
            let units = 1 + draw.below(4) as usize;
            files.check_is(0, sticks::file(&roofs::run(units, inverters, steps, &mut draw)));
        }
        // One more than there can be, wherever it is.
        if inverters > 60 {
            let mut run = roofs::run(1, inverters, 2, &mut draw);
            while run.site.inverters.len() < 65 {
                run.site.inverters.push(document_inverter());
            }
            let answer = files.check_is(4, sticks::file(&run));
            assert_eq!((answer.place, answer.steps), (76 + 64 * 286, 0));
        }
    }
    files.end();
}

#[test]
fn files_cut_at_every_byte() {
    let mut draw = Draw::from_seed(812);
    let mut files = checks::Comparison::start();
    for inverters in [1, 1, 1, 2, 3] {
        for steps in [0, 1, 3] {
            let file = sticks::file(&roofs::run(1, inverters, steps, &mut draw));
            files.check_cuts(&file);
        }
    }
    let arms = files.end();
    assert!(checks::met(&arms, 8) > 100 && checks::met(&arms, 1) > 5_000);
}

/// All 255 other values at every place.
#[test]
fn files_with_every_single_byte_changed() {
    let mut draw = Draw::from_seed(813);
    let mut files = checks::Comparison::start();
    let two_points = sticks::with(&smallest(&mut draw), |run| {
        run.site.inverters[0].warm = Curve::through(&[(-100_000_000, 20_000), (100_000_000, 0)]);
        run.site.inverters[0].eff = Curve::through(&[(0, 10_000), (100_000_000, 0)]);
    });
    let document = sticks::with(&smallest(&mut draw), |run| run.site.inverters = vec![document_inverter()]);
    for run in [two_points, document] {
        files.check_bytes(&sticks::file(&run));
    }
    let arms = files.end();
    assert!(arms.values().sum::<u32>() > 200_000);
    for number in [0, 2, 3, 4, 5, 6, 7] {
        assert!(checks::met(&arms, number) > 100, "number {number}: {arms:?}");
    }
    for arm in [(5, INVERTER), (5, CURVE), (6, WEATHER)] {
        assert!(arms[&(arm.0, Some(arm.1))] > 200, "{arm:?} in {arms:?}");
    }
}

/// Every field left out, repeated, exchanged with every other, replaced by every other, and every field of the list
/// put in at every place.
#[test]
fn files_with_their_fields_in_another_order() {
    let mut draw = Draw::from_seed(814);
    let mut files = checks::Comparison::start();
    for _ in 0..16 {
        let inverters = 1 + draw.below(2) as usize;
        let mut run = roofs::run(1, inverters, 2, &mut draw);
        run.weather[0].get_or_insert(inverters::weather(&mut draw));
        let fields = sticks::fields(&run);
        let mut kinds = fields[..6].to_vec();
        kinds.push(roofs::weather_field(inverters::weather(&mut draw)));
        kinds.push(sticks::reading_field(&Reading::Missing));
        kinds.push(sticks::reading_field(&sticks::power_reading(&mut draw)));
        kinds.extend([sticks::end_field(2), sticks::end_field(0)]);
        kinds.push(sticks::reading_field(&currents::current_reading(&mut draw)));
        kinds.push(sticks::connections_field(&currents::connections(1, &mut draw)));
        files.check_orders(&fields, fields.len(), &kinds);
    }
    for _ in 0..15_000 {
        files.check(roofs::shuffled_file(&mut draw));
    }
    let arms = files.end();
    for (tag, _) in stick::TAGS {
        assert!(arms[&(4, Some(tag))] > 100, "tag {tag} out of order: {arms:?}");
    }
}

/// Each value of an inverter, of a curve and of a weather at the ends of its range and beside them.
#[test]
fn files_with_values_at_their_ends_or_beside_them() {
    let mut draw = Draw::from_seed(815);
    let mut files = checks::Comparison::start();
    for round in 0..100 {
        let count = if round < 64 { round % 5 + 1 } else { 1 };
        let run = roofs::run(1, count, 2, &mut draw);
        let at = draw.below(count as u64) as usize;
        let place = 76 + 286 * at as u64;
        for end in inverters::ENDS {
            files.check_is(0, sticks::file(&roofs::with_inverter(&run, at, end)));
        }
        let bad: [(&[Change], u64); 3] =
            [(&inverters::BAD_PLATES, 0), (&inverters::BAD_WARMS, 22), (&inverters::BAD_EFFS, 154)];
        for (list, behind) in bad {
            for spoil in list {
                let answer = files.check_is(5, sticks::file(&roofs::with_inverter(&run, at, spoil)));
                assert_eq!((answer.place, answer.steps), (place + behind, 0));
            }
        }
        let fields = sticks::fields(&run);
        let first = roofs::first_inverter(&run) + 3 * at;
        let curves = [&run.site.inverters[at].warm, &run.site.inverters[at].eff];
        for (which, curve) in curves.into_iter().enumerate() {
            for bad in roofs::bad_curves(curve, &mut draw) {
                let mut fields = fields.clone();
                fields[first + 1 + which] = bad;
                let answer = files.check_is(5, sticks::bytes(&fields));
                assert_eq!(answer.place, place + 22 + 132 * which as u64);
            }
        }
        for step in 0..2 {
            for _ in 0..12 {
                let bad = roofs::with_weather(&run, step, inverters::bad_weather(&mut draw));
                assert_eq!(files.check_is(6, sticks::file(&bad)).steps, step as u32);
                let good = roofs::with_weather(&run, step, inverters::weather(&mut draw));
                files.check_is(0, sticks::file(&good));
            }
        }
    }
    files.end();
}

/// Any bits in an inverter, in a curve or in a weather.
#[test]
fn files_with_any_bits_in_an_inverter_or_a_weather() {
    let mut draw = Draw::from_seed(816);
    let mut files = checks::Comparison::start();
    for _ in 0..40_000 {
        let run = smallest(&mut draw);
        let mut fields = sticks::fields(&run);
        let at = 3 + draw.below(4) as usize;
        sticks::set_any_bits(&mut fields[at].value, &mut draw);
        files.check(sticks::bytes(&fields));
    }
    let arms = files.end();
    for arm in [(5, INVERTER), (5, CURVE), (6, WEATHER)] {
        assert!(arms[&(arm.0, Some(arm.1))] > 1_500, "{arm:?} in {arms:?}");
    }
    assert!(arms[&(0, None)] > 2_000, "{arms:?}");
}

/// A weather's doubles at every exponent and at every edge of the conversion.
#[test]
fn files_with_weather_at_the_edge() {
    use yesbrulka_reference::samples::with_exponent;
    let mut draw = Draw::from_seed(817);
    let mut files = checks::Comparison::start();
    let complete = sticks::file(&roofs::run(1, 1, 0, &mut draw));
    let head = &complete[..complete.len() - 7];
    for i in 0..24_000 {
        let bits =
            if i % 3 == 0 { with_exponent(i / 3 % 2_048, &mut draw) } else { inverters::edge(&mut draw) };
        let mut field = roofs::weather_field(inverters::weather(&mut draw));
        let at = 8 * draw.below(2) as usize;
        field.value[at..at + 8].copy_from_slice(&bits.to_be_bytes());
        let mut file = head.to_vec();
        field.put(&mut file);
        file.extend([MISSING, 0, 0]);
        sticks::end_field(1).put(&mut file);
        files.check(file);
    }
    let arms = files.end();
    assert!(arms[&(0, None)] > 8_000 && arms[&(6, Some(WEATHER))] > 5_000, "{arms:?}");
}

/// Two things wrong with one field: the first in the document's order is the answer.
#[test]
fn fields_with_two_things_wrong() {
    let mut draw = Draw::from_seed(818);
    let mut files = checks::Comparison::start();
    for _ in 0..200 {
        let fields = sticks::fields(&smallest(&mut draw));
        // The inverter, its curves, the weather, and the readings behind it.
        for at in 3..fields.len() {
            let right = &fields[at];
            let then = |field: &Field, left: usize| checks::ending(&fields[..at], field, left);
            for (tag, _) in stick::TAGS {
                let length = stick::length_in(1, 1, tag).expect("a tag of the list");
                let bad = files.check_spoiled(&fields[..at], tag, length, &mut draw);
                // What may stand at each of these places: by the order, or by its values.
                let allowed: &[u8] = match at {
                    3 => &[4, 5, 6, 8, 9, 0x0A, 0x0B, 0x7F],
                    4 | 5 => &[7],
                    6 => &[4, 5, 6, 8, 9, 0x0B, 0x7F],
                    7 => &[4, 5, 9],
                    _ => &[4, 5, 8, 9, 0x7F],
                };
                let number = match tag {
                    _ if !allowed.contains(&tag) => 4,
                    4 | 8 => 6,
                    5 => 8,
                    0x7F => 7,
                    _ => 5,
                };
                files.check_is(number, then(&bad, usize::MAX));
            }
            files.check_is(2, then(&Field { tag: 0x0D, ..right.clone() }, 3));
            files.check_is(1, then(right, 2));
        }
    }
    files.end();
}

#[test]
fn files_with_damage_in_several_places() {
    let mut draw = Draw::from_seed(819);
    let mut files = checks::Comparison::start();
    for _ in 0..60_000 {
        files.check(roofs::damaged_file(&mut draw));
    }
    // Damage to a site with many inverters.
    for _ in 0..2_000 {
        let (units, inverters) = (1 + draw.below(3) as usize, draw.below(65) as usize);
        let mut fields = sticks::fields(&roofs::run(units, inverters, 2, &mut draw));
        let at = draw.below(fields.len() as u64) as usize;
        roofs::damage(&mut fields, at, &mut draw);
        files.check(sticks::bytes(&fields));
    }
    let arms = files.end();
    for number in 0..=8 {
        assert!(checks::met(&arms, number) > 300, "number {number}: {arms:?}");
    }
    for arm in [(5, INVERTER), (5, CURVE), (6, WEATHER), (4, INVERTER), (4, CURVE), (4, WEATHER)] {
        assert!(arms[&(arm.0, Some(arm.1))] > 500, "{arm:?} in {arms:?}");
    }
}

/// A file with so many weathers that it is as long as it may be, and one that is longer.
#[test]
fn files_of_as_many_bytes_as_there_can_be() {
    let mut draw = Draw::from_seed(820);
    let mut files = checks::Comparison::start();
    let head = sticks::file(&roofs::run(64, 64, 0, &mut draw));
    let head = &head[..head.len() - 7];
    let power = sticks::reading_field(&sticks::power_reading(&mut draw));
    let step = sticks::bytes(&[roofs::weather_field(inverters::weather(&mut draw)), power]);
    let most = (MOST_BYTES - head.len() - 7) / step.len();
    let whole = |steps: usize, more: usize| {
        let end = sticks::bytes(&[sticks::end_field((steps + more) as u32)]);
        [head, &step.repeat(steps), &[MISSING, 0, 0].repeat(more), &end].concat()
    };
    let more = (MOST_BYTES - head.len() - 7) % step.len() / 3;
    assert_eq!(files.check_is(0, whole(most, more)).steps as usize, most + more);
    let answer = files.check_is(12, whole(most, more + 1));
    assert_eq!((answer.place, answer.steps), (0, 0));
    files.end();
}
