//! The proved check of a run file beside the reference, over the C surface.

mod checks;
mod host;

use checks::{ending, long, met, shown, Comparison, ANSWER, ANSWERS};
use host::{refuses_cut_rows, Host};
use yesbrulka_reference::ranges::MOST_BYTES;
use yesbrulka_reference::reading::Reading;
use yesbrulka_reference::samples::sticks::{self, Field};
use yesbrulka_reference::samples::{currents, inverters, roofs, units, voltages, Draw};
use yesbrulka_reference::stick::{
    self, Run, CONNECTIONS, CURRENT, CURVE, END, FUNCTION, INVERTER, MISSING, POWER, SETTINGS, TAGS, UNIT,
    VOLTAGE, WEATHER,
};

/// One unit, and a power reading and a missing one, with the settings of a farm.
fn smallest(draw: &mut Draw) -> Run {
    let power = sticks::power_reading(draw);
    sticks::with(&sticks::run(1, 0, draw), |run| run.readings = vec![power, Reading::Missing])
}

#[test]
fn complete_files_of_every_fleet_size() {
    let mut draw = Draw::from_seed(401);
    let mut files = Comparison::start();
    for units in 1..=64 {
        for round in 0..150 {
            let steps = if round % 8 == 0 { 0 } else { draw.below(12) as usize };
            files.check_is(0, sticks::file(&sticks::run(units, steps, &mut draw)));
        }
    }
    // Runs of some length: a year of days, a day of minutes, a year of hours.
    for (units, steps) in [(1, 365), (3, 1_440), (2, 8_760), (64, 8_760)] {
        files.check_is(0, sticks::file(&sticks::run(units, steps, &mut draw)));
    }
    files.end();
}

/// A file whose bytes run out is not complete, wherever that is.
#[test]
fn files_cut_at_every_byte() {
    let mut draw = Draw::from_seed(402);
    let mut files = Comparison::start();
    for units in [1, 1, 1, 1, 2, 2, 3, 4, 5, 64] {
        for steps in [0, 1, 2, 5] {
            let file = sticks::file(&sticks::run(units, steps, &mut draw));
            files.check_cuts(&file);
            if units == 64 {
                break;
            }
        }
    }
    let arms = files.end();
    assert!(met(&arms, 8) > 150 && met(&arms, 1) > 5_000);
}

/// All 255 other values at every place.
#[test]
fn files_with_every_single_byte_changed() {
    let mut draw = Draw::from_seed(403);
    let mut files = Comparison::start();
    let runs = [smallest(&mut draw), smallest(&mut draw), smallest(&mut draw), sticks::run(2, 3, &mut draw)];
    for run in runs {
        files.check_bytes(&sticks::file(&run));
    }
    let arms = files.end();
    assert!(arms.values().sum::<u32>() > 120_000);
    for number in [0, 2, 3, 4, 5, 6, 7] {
        assert!(met(&arms, number) > 200, "number {number}: {arms:?}");
    }
}

#[test]
fn files_with_bytes_left_out_or_put_in() {
    let mut draw = Draw::from_seed(404);
    let mut files = Comparison::start();
    for _ in 0..12 {
        let file = sticks::file(&smallest(&mut draw));
        for place in 0..=file.len() {
            let (before, after) = file.split_at(place);
            for more in [&[0][..], &[draw.any() as u8], &[5, 0, 0]] {
                files.check([before, more, after].concat());
            }
            for less in 1..=after.len().min(3) {
                files.check([before, &after[less..]].concat());
            }
        }
        // Two bytes of other values, anywhere.
        for _ in 0..1_500 {
            let mut file = file.clone();
            for _ in 0..2 {
                let place = draw.below(file.len() as u64) as usize;
                file[place] = draw.sized() as u8;
            }
            files.check(file);
        }
    }
    files.end();
}

/// Every field left out, repeated, exchanged with every other, replaced by every other, and every field of
/// the list put in at every place, those of inverters, weather and currents too.
#[test]
fn files_with_their_fields_in_another_order() {
    let mut draw = Draw::from_seed(405);
    let mut files = Comparison::start();
    let mut of_roofs = roofs::inverter_fields(&inverters::document_inverter()).to_vec();
    of_roofs.push(roofs::weather_field(inverters::weather(&mut Draw::from_seed(405))));
    of_roofs.extend(voltages::function_fields(&voltages::function(&mut draw)));
    of_roofs.push(voltages::voltage_field(10_000));
    for round in 0..40 {
        let units = if round == 0 { 64 } else { 1 + draw.below(4) as usize };
        let run = sticks::run(units, 3, &mut draw);
        let fields = sticks::fields(&run);
        let kinds: Vec<Field> = [0, 1, units + 1]
            .map(|at| fields[at].clone())
            .into_iter()
            .chain([
                sticks::reading_field(&Reading::Missing),
                sticks::reading_field(&sticks::power_reading(&mut draw)),
            ])
            .chain([sticks::end_field(3), sticks::end_field(0)])
            .chain(of_roofs.clone())
            .chain([
                sticks::reading_field(&currents::current_reading(&mut draw)),
                sticks::connections_field(&currents::connections(units, &mut draw)),
            ])
            .collect();
        files.check_orders(&fields, fields.len().min(12), &kinds);
    }
    for _ in 0..15_000 {
        files.check(sticks::shuffled_file(&mut draw));
    }
    let arms = files.end();
    for (tag, _) in TAGS {
        assert!(arms[&(4, Some(tag))] > 500, "tag {tag} out of order: {arms:?}");
    }
}

/// The fleet says another number of units than there are.
#[test]
fn files_with_another_unit_count() {
    let mut draw = Draw::from_seed(406);
    let mut files = Comparison::start();
    for units in (1..=64).chain([1, 2, 3]) {
        let run = sticks::run(units, 1, &mut draw);
        let fields = sticks::fields(&run);
        for count in 0..=255 {
            if units > 8 && (count as usize).abs_diff(units) > 2 && draw.below(8) != 0 {
                continue;
            }
            let fleet = sticks::fleet_field(1, count, run.site.seconds);
            let number = if usize::from(count) == units {
                0
            } else if (1..=64).contains(&count) {
                4
            } else {
                5
            };
            files.check_is(number, sticks::bytes(&[&[fleet], &fields[1..]].concat()));
        }
    }
    files.end();
}

/// Tags and lengths, with the value that was there or one of the length that is said.
#[test]
fn files_with_wrong_tags_and_lengths() {
    let mut draw = Draw::from_seed(407);
    let mut files = Comparison::start();
    for _ in 0..6 {
        let fields = sticks::fields(&smallest(&mut draw));
        for at in 0..fields.len() {
            let mut lengths = sticks::bad_lengths(fields[at].tag);
            lengths.extend((0..20).map(|_| draw.sized() as u16));
            for tag in 0..=255 {
                let mut fields = fields.clone();
                fields[at].tag = tag;
                files.check(sticks::bytes(&fields));
                let length = stick::length_in(1, at.min(1), tag).unwrap_or_else(|| draw.below(60) as u16);
                fields[at] = Field::new(tag, vec![0; length.into()]);
                files.check(sticks::bytes(&fields));
            }
            for length in lengths {
                let mut fields = fields.clone();
                fields[at].length = length;
                files.check(sticks::bytes(&fields));
                fields[at].value.resize(length.into(), 0);
                files.check(sticks::bytes(&fields));
            }
            for tag in [INVERTER, CURVE, WEATHER, CURRENT, CONNECTIONS, FUNCTION, VOLTAGE] {
                for length in sticks::bad_lengths(tag) {
                    let mut fields = fields.clone();
                    fields[at] = Field::new(tag, vec![0; length.into()]);
                    files.check_is(3, sticks::bytes(&fields));
                }
            }
        }
    }
    let arms = files.end();
    for (tag, _) in TAGS {
        assert!(arms[&(3, Some(tag))] > 100, "tag {tag}, wrong length: {arms:?}");
    }
    assert!((0..=255u8).all(|tag| stick::length_of(tag).is_some() || arms[&(2, Some(tag))] > 20));
}

/// Each value of each field at the ends of its range and beside them, in fleets of every size.
#[test]
fn files_with_values_at_their_ends_or_beside_them() {
    let mut draw = Draw::from_seed(408);
    let mut files = Comparison::start();
    for round in 0..160 {
        let count = if round < 64 { round + 1 } else { 1 + draw.below(3) as usize };
        let run = sticks::run(count, 2, &mut draw);
        let any = draw.below(count as u64) as usize;
        for unit in [0, any, count - 1] {
            for end in units::ENDS {
                files.check_is(0, sticks::file(&sticks::with_unit(&run, unit, end)));
            }
            for spoil in units::BAD_VALUES {
                files.check_is(5, sticks::file(&sticks::with_unit(&run, unit, spoil)));
            }
            let ends = [(); 3].map(|()| draw.one_of(&units::ENDS));
            let several = ends.iter().fold(run.clone(), |run, end| sticks::with_unit(&run, unit, end));
            files.check_is(0, sticks::file(&several));
        }
        for end in sticks::SETTINGS_ENDS {
            files.check_is(0, sticks::file(&sticks::with(&run, end)));
        }
        for spoil in sticks::BAD_SETTINGS {
            files.check_is(5, sticks::file(&sticks::with(&run, spoil)));
        }
        let fields = sticks::fields(&run);
        for fleet in sticks::bad_fleets(&run) {
            files.check_is(5, sticks::bytes(&[&[fleet], &fields[1..]].concat()));
        }
        for count in sticks::bad_counts(2) {
            files.check_is(
                7,
                sticks::bytes(&[&fields[..fields.len() - 1], &[sticks::end_field(count)]].concat()),
            );
        }
        for bits in sticks::bad_powers(&mut draw) {
            for phase in 0..3 {
                let bad = sticks::bad_reading(phase, bits, &mut draw);
                let step = draw.below(3) as usize;
                files.check_is(6, sticks::file(&sticks::with(&run, |run| run.readings.insert(step, bad))));
            }
        }
    }
    files.end();
}

/// A unit's values as any bits at all.
#[test]
fn files_with_any_bits_in_a_unit_or_in_the_settings() {
    let mut draw = Draw::from_seed(409);
    let mut files = Comparison::start();
    for _ in 0..30_000 {
        let mut fields = sticks::fields(&sticks::run(1, 0, &mut draw));
        let at = 1 + draw.below(2) as usize;
        sticks::set_any_bits(&mut fields[at].value, &mut draw);
        files.check(sticks::bytes(&fields));
    }
    let arms = files.end();
    assert!(arms[&(0, None)] > 3_000 && arms[&(5, Some(UNIT))] > 3_000 && arms[&(5, Some(SETTINGS))] > 3_000);
}

/// Powers in the three places of a reading, at every exponent and around the ends of the range.
#[test]
fn files_with_readings_at_the_edge() {
    let mut draw = Draw::from_seed(410);
    let mut files = Comparison::start();
    let head = sticks::file(&sticks::run(1, 0, &mut draw));
    let head = &head[..head.len() - 7];
    for i in 0..30_000 {
        use yesbrulka_reference::samples::{metered, near_the_end, near_tie, with_exponent};
        let mut field = sticks::reading_field(&sticks::power_reading(&mut draw));
        let bits = match i % 4 {
            0 => with_exponent(i / 4 % 2_048, &mut draw),
            1 => near_tie(&mut draw),
            2 => near_the_end(&mut draw),
            _ => metered(&mut draw),
        };
        let at = draw.below(3) as usize * 8;
        field.value[at..at + 8].copy_from_slice(&bits.to_be_bytes());
        let mut file = head.to_vec();
        file.extend([MISSING, 0, 0].repeat(i as usize % 3));
        field.put(&mut file);
        sticks::end_field(i as u32 % 3 + 1).put(&mut file);
        files.check(file);
    }
    let arms = files.end();
    assert!(arms[&(0, None)] > 10_000 && arms[&(6, Some(POWER))] > 3_000, "{arms:?}");
}

#[test]
fn files_with_bytes_after_the_end() {
    let mut draw = Draw::from_seed(411);
    let mut files = Comparison::start();
    for _ in 0..200 {
        let run = sticks::small_run(&mut draw);
        let file = sticks::file(&run);
        let place = file.len() as u64;
        let fields = sticks::fields(&run);
        let mut tails = vec![file.clone(), sticks::bytes(&fields[fields.len() - 1..])];
        tails.extend((0..=255).step_by(15).map(|byte| vec![byte]));
        tails.extend([vec![0x7F, 0], vec![5, 0, 0], vec![4, 0, 24, 1], vec![0; 1_000]]);
        tails.extend((0..20).map(|_| sticks::noise(12, &mut draw)).filter(|tail| !tail.is_empty()));
        for tail in tails {
            let answer = files.check_is(9, [&file[..], &tail].concat());
            assert_eq!((answer.place, answer.steps), (place, run.readings.len() as u32));
        }
    }
    files.end();
}

/// Two things wrong with one field: the first in the document's order is the answer.
#[test]
fn fields_with_two_things_wrong() {
    let mut draw = Draw::from_seed(412);
    let mut files = Comparison::start();
    for _ in 0..300 {
        let run = smallest(&mut draw);
        let fields = sticks::fields(&run);
        for (at, right) in fields.iter().enumerate() {
            let then = |field: &Field, left: usize| ending(&fields[..at], field, left);
            let unknown = Field { tag: draw.any() as u8 | 0x80, ..right.clone() };
            let wrong = Field { length: right.length + 1, ..right.clone() };
            // Header bytes, then the tag, the length and the value bytes.
            for left in 1..3 {
                files.check_is(1, then(&unknown, left));
                files.check_is(1, then(&wrong, left));
            }
            files.check_is(2, then(&Field { length: 9, ..unknown.clone() }, 3));
            files.check_is(2, then(&unknown, 4));
            files.check_is(3, then(&wrong, 3));
            files.check_is(3, then(&wrong, 3 + right.value.len()));
            // Every tag at every point: with a wrong length, with bytes missing, out of order, with bad values.
            for (tag, _) in TAGS {
                // There is no unit before the fleet, and one behind it.
                let length = stick::length_in(1, at.min(1), tag).expect("a tag of the list");
                let bad = files.check_spoiled(&fields[..at], tag, length, &mut draw);
                let in_steps = [POWER, MISSING, CURRENT, WEATHER, END].contains(&tag);
                let next = at == 3 && [INVERTER, CONNECTIONS, FUNCTION].contains(&tag);
                match tag {
                    _ if !(right.tag == tag || at >= 3 && in_steps || next) => {
                        files.check_is(4, then(&bad, usize::MAX))
                    }
                    POWER | WEATHER => files.check_is(6, then(&bad, usize::MAX)),
                    END => files.check_is(7, then(&bad, usize::MAX)),
                    MISSING => files.check_is(8, then(&bad, usize::MAX)),
                    _ => files.check_is(5, then(&bad, usize::MAX)),
                };
            }
        }
    }
    files.end();
}

/// Two fields wrong: the first in the file is the answer.
#[test]
fn files_with_damage_in_several_places() {
    let mut draw = Draw::from_seed(413);
    let mut files = Comparison::start();
    for _ in 0..50_000 {
        files.check(sticks::damaged_file(&mut draw));
    }
    let arms = files.end();
    for number in (0..10).filter(|&number| number != 9) {
        assert!(met(&arms, number) > 300, "number {number}: {arms:?}");
    }
    assert!(met(&arms, 9) > 100, "{arms:?}");
}

#[test]
fn files_of_no_meaning() {
    let mut draw = Draw::from_seed(414);
    let mut files = Comparison::start();
    files.check_is(8, []);
    for first in 0..=255u8 {
        files.check_is(1, [first]);
        for second in 0..=255u8 {
            files.check_is(1, [first, second]);
        }
    }
    for _ in 0..25_000 {
        files.check(sticks::noise(80, &mut draw));
        // After some good fields.
        let mut file = sticks::file(&smallest(&mut draw));
        file.truncate(draw.one_of(&[9, 61, 76, 103, 106]));
        file.extend(sticks::noise(40, &mut draw));
        files.check(file);
    }
    for _ in 0..40 {
        files.check(sticks::noise(100_000, &mut draw));
    }
    files.end();
}

/// 65,535 steps are accepted; the next one is not, whatever its values are.
#[test]
fn files_of_as_many_steps_as_there_can_be() {
    let mut draw = Draw::from_seed(415);
    let mut files = Comparison::start();
    for (units, power) in [(1, 0), (3, 50), (64, 1)] {
        let mut head = sticks::fields(&sticks::run(units, 0, &mut draw));
        head.pop();
        let reading = sticks::reading_field(&sticks::power_reading(&mut draw));
        let mut file = sticks::bytes(&head);
        for step in 0..65_534 {
            if power != 0 && step % power == 0 {
                reading.put(&mut file);
            } else {
                file.extend([MISSING, 0, 0]);
            }
        }
        let missing = Field::new(MISSING, vec![]);
        let unusable = Field::new(POWER, vec![0xFF; 24]);
        let mut then = |number: u32, steps: u32, fields: &[&Field], cut: usize| {
            let mut file = file.clone();
            fields.iter().for_each(|field| field.put(&mut file));
            file.truncate(file.len() - cut);
            let answer = files.check_is(number, file);
            assert_eq!(answer.steps, steps);
        };
        let end = sticks::end_field;
        then(0, 65_534, &[&end(65_534)], 0);
        then(0, 65_535, &[&missing, &end(65_535)], 0);
        then(0, 65_535, &[&reading, &end(65_535)], 0);
        then(8, 65_535, &[&missing], 0);
        then(7, 65_535, &[&missing, &end(65_534)], 0);
        then(7, 65_535, &[&missing, &end(0)], 0);
        then(6, 65_534, &[&unusable, &end(65_535)], 0);
        then(9, 65_535, &[&missing, &end(65_535), &missing], 0);
        // The 65,536th step.
        then(12, 65_535, &[&missing, &missing], 0);
        then(12, 65_535, &[&missing, &missing, &end(65_536)], 0);
        then(12, 65_535, &[&missing, &missing, &end(0)], 0);
        then(12, 65_535, &[&reading, &reading, &reading, &end(65_537)], 0);
        then(12, 65_535, &[&missing, &unusable], 0);
        then(1, 65_535, &[&missing, &unusable], 1);
        then(1, 65_535, &[&missing, &missing], 1);
        then(3, 65_535, &[&missing, &Field { length: 1, ..missing.clone() }], 0);
        then(2, 65_535, &[&missing, &Field { tag: 0x0D, ..missing.clone() }], 0);
        // A current is of the wrong kind here, and that is no matter before its order and the limit.
        let current = sticks::reading_field(&currents::current_reading(&mut Draw::from_seed(0)));
        then(5, 65_534, &[&current], 0);
        then(12, 65_535, &[&missing, &current], 0);
        then(4, 65_535, &[&missing, &head[1]], 0);
        // A weather after the last step, before which the limit is not tested.
        let weather = roofs::weather_field(inverters::weather(&mut Draw::from_seed(0)));
        let no_weather = Field::new(WEATHER, vec![0xFF; 16]);
        then(0, 65_535, &[&weather, &missing, &end(65_535)], 0);
        then(8, 65_535, &[&missing, &weather], 0);
        then(4, 65_535, &[&missing, &weather, &end(65_535)], 0);
        then(4, 65_535, &[&missing, &weather, &weather], 0);
        then(12, 65_535, &[&missing, &weather, &missing], 0);
        then(12, 65_535, &[&missing, &weather, &unusable], 0);
        then(6, 65_535, &[&missing, &no_weather], 0);
        then(1, 65_535, &[&missing, &weather], 1);
        let [plate, ..] = roofs::inverter_fields(&inverters::document_inverter());
        then(4, 65_535, &[&missing, &plate], 0);
    }
    files.end();
}

/// A file above its size is refused before anything is looked at; one byte less is looked at.
#[test]
fn files_of_as_many_bytes_as_there_can_be() {
    let mut draw = Draw::from_seed(416);
    let mut files = Comparison::start();
    let complete = sticks::file(&sticks::run(2, 5, &mut draw));
    let steps = sticks::file(&sticks::run(2, 0, &mut draw));
    let steps = [&steps[..steps.len() - 7], &[MISSING, 0, 0].repeat(65_536)].concat();
    let readings = sticks::reading_field(&sticks::power_reading(&mut draw));
    let mut readings = sticks::bytes(&vec![readings; 65_536]);
    readings.splice(..0, complete[..9 + 2 * 52 + 15].iter().copied());
    for (number, start) in
        [(9, &complete), (12, &steps), (12, &readings), (2, &vec![]), (4, &complete[9..].to_vec())]
    {
        for fill in [0, 0xFF] {
            let mut file = start.clone();
            file.resize(MOST_BYTES - 1, fill);
            let place = files.check_is(number, file.clone()).place;
            file.push(fill);
            assert_eq!(files.check_is(number, file.clone()).place, place);
            for more in [1, 2, 3_000] {
                file.resize(MOST_BYTES + more, fill);
                let answer = files.check_is(12, file.clone());
                assert_eq!((answer.place, answer.steps), (0, 0));
            }
        }
    }
    // The largest complete file without weather is below the limit.
    let largest = sticks::run(64, 0, &mut draw);
    let power = sticks::power_reading(&mut draw);
    let file = sticks::file(&sticks::with(&largest, |run| run.readings = vec![power; 65_535]));
    assert_eq!(file.len(), 1_772_804);
    files.check_is(0, file);
    files.check_is(12, vec![0; 2 * MOST_BYTES]);
    files.check_is(12, vec![0xFF; 4 * MOST_BYTES]);
    files.end();
}

/// Asks for value parts of the archive and of the reference, and compares.
fn compare_parts(calls: impl IntoIterator<Item = (u64, Vec<u8>)>) -> u32 {
    let mut host = Host::start();
    let (mut all, mut wrong) = (0, 0);
    let mut calls = calls.into_iter();
    loop {
        let frame: Vec<(u64, Vec<u8>)> = calls.by_ref().take(2_048).collect();
        if frame.is_empty() {
            break;
        }
        let mut payload = Vec::new();
        for (place, file) in &frame {
            payload.extend(place.to_le_bytes());
            payload.extend((file.len() as u32).to_le_bytes());
            payload.extend_from_slice(file);
        }
        let answer = host.call(b'V', &payload);
        assert_eq!(answer.len(), ANSWER * frame.len(), "an answer for each place");
        for ((place, file), answer) in frame.iter().zip(answer.chunks(ANSWER)) {
            let part = stick::value_part(file, *place);
            let expected = (part.start as u64, part.len() as u64, 0);
            let got = (long(answer, 0), long(answer, 8), answer[16]);
            all += 1;
            if got != expected {
                wrong += 1;
                if wrong <= 10 {
                    eprintln!(
                        "place {place} of {}\n  archive   {got:?}\n  reference {expected:?}",
                        shown(file)
                    );
                }
            }
        }
    }
    assert!(host.end().0.success(), "the host ended badly");
    assert_eq!(wrong, 0, "wrong parts of {all}");
    all
}

#[test]
fn value_parts_at_every_place() {
    let mut draw = Draw::from_seed(417);
    let mut calls = Vec::new();
    let past = |length: usize| {
        let n = length as u64;
        let wide = [1 << 31, (1 << 32) - 1, 1 << 32, (1 << 32) + 1, (1 << 32) + 9, 1 << 63];
        (0..=n + 4).chain(wide).chain((0..5).map(|k| u64::MAX - k)).chain([u64::MAX - n, u64::MAX - n - 3])
    };
    for round in 0..150 {
        let file = match round % 5 {
            0 => sticks::file(&sticks::small_run(&mut draw)),
            1 | 2 => sticks::damaged_file(&mut draw),
            _ => sticks::noise(120, &mut draw),
        };
        calls.extend(past(file.len()).map(|place| (place, file.clone())));
    }
    for file in
        [vec![], vec![0], vec![0xFF; 2], vec![0xFF; 3], vec![1, 0, 0], vec![1, 0, 1], vec![1, 0, 1, 7]]
    {
        calls.extend(past(file.len()).map(|place| (place, file.clone())));
    }
    assert!(compare_parts(calls) > 15_000);
}

/// The last field cut at every byte, as the support screen gets it.
#[test]
fn value_parts_of_refused_fields() {
    let mut draw = Draw::from_seed(418);
    let mut calls = Vec::new();
    for _ in 0..30 {
        let file = sticks::file(&smallest(&mut draw));
        for length in 0..=file.len() {
            calls.push((stick::check(&file[..length]).place, file[..length].to_vec()));
        }
    }
    for _ in 0..10_000 {
        let file = sticks::damaged_file(&mut draw);
        calls.push((stick::check(&file).place, file));
    }
    // Lengths of two bytes, of which all, some or none are there.
    for length in [255, 256, 257, 32_767, 32_768, 65_534, 65_535] {
        for there in [0, 1, length - 1, length, length + 1, length + 1_000] {
            let mut file = vec![0; 3];
            Field { tag: 2, length: length as u16, value: vec![7; there] }.put(&mut file);
            calls.push((3, file));
        }
    }
    // A file above its size.
    let mut large = sticks::file(&smallest(&mut draw));
    large.resize(MOST_BYTES + 1, 0);
    calls.extend(
        [0, 9, MOST_BYTES as u64 - 3, MOST_BYTES as u64 - 2, u64::MAX].map(|place| (place, large.clone())),
    );
    compare_parts(calls);
}

/// The comparison is worth nothing if the host answers frames that it has not understood.
#[test]
fn the_host_takes_no_malformed_file() {
    let rows = [
        (
            b'C',
            ANSWERS,
            [&[4, 0, 0, 0][..], &[0; 4]].concat(),
            "host: op C: the payload is no row of files\n",
        ),
        (
            b'V',
            ANSWER,
            [&[0; 8][..], &[4, 0, 0, 0], &[0; 4]].concat(),
            "host: op V: the payload is no row of places and files\n",
        ),
    ];
    for (op, answer, payload, message) in rows {
        refuses_cut_rows(op, &payload, &[1, payload.len() - 5, payload.len() - 1], message);
        let mut host = Host::start();
        assert_eq!(host.call(op, &payload).len(), answer);
        assert!(host.end().0.success());
    }
}
