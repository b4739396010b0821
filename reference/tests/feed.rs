//! The proved run fed in chunks beside the reference, over the C surface: of every call the number, the bytes written,
//! the rest of the room, and the state that it leaves.

mod fed;
mod frames;
mod host;

use fed::{Comparison, Row};
use frames::Room;
use host::{refuses_cut_rows, Host};
use yesbrulka_reference::feed::{
    self, Going, Stage, State, CLOSE, FLAGS, LARGEST_FIELD, LONGEST, MOST_PLACE, MOST_SITE, MOST_TAIL,
    OF_END, OF_VARS, OF_VOLTAGE, OF_WEATHER, SHORTEST, SITE, SIZE, STAGES, STANDING, TAIL, UNITS, VARS,
};
use yesbrulka_reference::reading::Reading;
use yesbrulka_reference::samples::{currents, inverters, older, roofs, seasons, sticks, voltages, Draw};
use yesbrulka_reference::season::Standing;
use yesbrulka_reference::solar::{Sun, Weather};
use yesbrulka_reference::stick::{self, Answer, Run, MISSING};

/// The state after the first bytes of a file that have no fault.
fn state_after(bytes: &[u8]) -> Vec<u8> {
    let mut state = vec![0; SIZE];
    feed::start(&mut state).expect("a state has its length");
    let mut room = vec![0; 14 * bytes.len() + 100_000];
    feed::feed(&mut state, bytes, &mut room).expect("the bytes have no fault");
    state
}

/// A run of an edition without inverters, with weather or not.
fn plain(edition: u8, units: usize, steps: usize, draw: &mut Draw) -> Run {
    let run = roofs::plain_run(units, 0, steps, draw);
    older::in_edition(edition, run, draw)
}

/// A small file of any edition that is to be refused, or is not for all that was done to it.
fn damaged(draw: &mut Draw) -> Vec<u8> {
    match draw.below(11) {
        0 => older::shuffled_file(draw),
        1 => sticks::noise(60, draw),
        2 => {
            let bits = draw.one_of(&sticks::bad_powers(&mut Draw::from_seed(0)));
            let mut run = sticks::small_run(draw);
            run.readings.push(sticks::bad_reading(2, bits, draw));
            sticks::file(&run)
        }
        3 => {
            let run = plain(1 + draw.below(3) as u8, 1, 3, draw);
            let weather = inverters::bad_weather(draw);
            sticks::file(&roofs::with_weather(&run, 1, weather))
        }
        4 => {
            let mut fields = sticks::fields(&sticks::small_run(draw));
            let steps = fields.len() as u32;
            *fields.last_mut().expect("an end") = sticks::end_field(steps + 7);
            sticks::bytes(&fields)
        }
        5 => [sticks::file(&sticks::small_run(draw)), vec![draw.any() as u8; 3]].concat(),
        6 => sticks::damaged_file(draw),
        7 => currents::damaged_file(draw),
        8 => voltages::damaged_file(draw),
        9 => {
            // Cut before its end or in it.
            let file = sticks::file(&voltages::small_run(draw));
            file[..file.len() - draw.one_of(&[7, 7, 6, 1, 12])].to_vec()
        }
        _ => older::damaged_file(draw),
    }
}

/// A file of any kind.
fn any_file(draw: &mut Draw) -> Vec<u8> {
    match draw.below(8) {
        0 | 1 => damaged(draw),
        2 => {
            let run = seasons::run(1 + draw.below(3) as usize, draw.below(6) as usize, draw);
            sticks::file(&run)
        }
        3 => sticks::file(&currents::small_run(draw)),
        4 => sticks::file(&voltages::small_run(draw)),
        _ => sticks::file(&older::small_run(draw)),
    }
}

/// So many places of a file in order.
fn cuts(count: usize, file: &[u8], draw: &mut Draw) -> Vec<usize> {
    let mut cuts: Vec<usize> = (0..count).map(|_| draw.below(file.len() as u64 + 1) as usize).collect();
    cuts.sort_unstable();
    cuts
}

#[test]
fn the_whole_case_cut_in_every_way() {
    let mut draw = Draw::from_seed(1_101);
    let mut runs = Comparison::start();
    let file = sticks::file(&sticks::whole_case());
    for first in 0..=file.len() {
        runs.cut(&file, &[first], &mut draw);
        for second in first..=file.len() {
            runs.cut(&file, &[first, second], &mut draw);
        }
    }
    runs.end(3_900).more_than(3_900, "number", [0]);
}

/// Complete files of every edition, without inverters and with them, and files that are not complete.
#[test]
fn every_cut_in_two() {
    let mut draw = Draw::from_seed(1_102);
    let mut runs = Comparison::start();
    let mut files = Vec::new();
    for edition in 1..=3 {
        for steps in [0, 1, 1, 2, 2, 3, 3, 4, 5] {
            for units in [1, 1, 1, 2] {
                files.push(sticks::file(&plain(edition, units, steps, &mut draw)));
            }
        }
        for steps in [0, 1, 2, 3, 4] {
            let run = roofs::run(1, 1, steps, &mut draw);
            files.push(sticks::file(&older::in_edition(edition, run, &mut draw)));
        }
        let run = roofs::run(2, 2, 3, &mut draw);
        files.push(sticks::file(&older::in_edition(edition, run, &mut draw)));
    }
    files.extend((0..110).map(|_| damaged(&mut draw)));
    // One whose end is missing.
    let whole = sticks::file(&plain(2, 1, 3, &mut draw));
    files.push(whole[..whole.len() - 7].to_vec());
    for file in &files {
        for cut in 0..=file.len() {
            runs.cut(file, &[cut], &mut draw);
        }
    }
    let met = runs.end(45_000);
    met.more_than(20_000, "number", [0]);
    met.more_than(50, "number", 1..=9);
}

#[test]
fn cuts_in_three_and_more() {
    let mut draw = Draw::from_seed(1_103);
    let mut runs = Comparison::start();
    // Every pair of places: a power with a weather, and a missing one.
    for edition in 2..=3 {
        let mut run = plain(edition, 1, 0, &mut draw);
        run.readings = vec![sticks::power_reading(&mut draw), Reading::Missing];
        run.weather = vec![Some(Weather { irradiance: 0.5, temperature: -3.25 })];
        let file = sticks::file(&run);
        for first in 84..=file.len() {
            for second in first..=file.len() {
                runs.cut(&file, &[first, second], &mut draw);
            }
        }
    }
    for _ in 0..9_000 {
        let file = any_file(&mut draw);
        let count = 2 + draw.below(4) as usize;
        runs.cut(&file, &cuts(count, &file, &mut draw), &mut draw);
    }
    let met = runs.end(11_000);
    met.more_than(20, "number", 0..=9);
}

#[test]
fn one_byte_at_a_time() {
    let mut draw = Draw::from_seed(1_104);
    let mut runs = Comparison::start();
    for round in 0..90 {
        let file = match round % 9 {
            0 => {
                let run = roofs::run(1, 1, 3, &mut draw);
                sticks::file(&older::in_edition(1 + round as u8 / 9 % 3, run, &mut draw))
            }
            1..=3 => damaged(&mut draw),
            _ => sticks::file(&plain(1 + round as u8 % 3, 1, 3, &mut draw)),
        };
        let mut row = Row::start(&mut draw);
        for byte in file.chunks(1) {
            if row.feed(byte, Room::Exact) != 0 {
                break;
            }
        }
        row.end(Room::Exact);
        runs.add(row);
    }
    let met = runs.end(90);
    met.more_than(10_000, "call", [1]);
    met.more_than(40, "number", [0]);
}

/// Chunks of no bytes before, between and after the others, and instead of any.
#[test]
fn empty_chunks() {
    let mut draw = Draw::from_seed(1_105);
    let mut runs = Comparison::start();
    for _ in 0..2_500 {
        let file = any_file(&mut draw);
        let mut row = Row::start(&mut draw);
        let mut from = 0;
        let middle = cuts(draw.below(3) as usize, &file, &mut draw);
        for to in middle.into_iter().chain([file.len()]) {
            for _ in 0..draw.below(3) {
                row.feed(&[], Room::any(&mut draw));
            }
            row.feed(&file[from..to], Room::Exact);
            from = to;
        }
        row.feed(&[], Room::Exact);
        row.feed(&[], Room::Of(9));
        row.end(Room::Exact);
        row.feed(&[], Room::Of(9));
        runs.add(row);
    }
    // Nothing at all.
    for count in 0..4 {
        let mut row = Row::start(&mut draw);
        (0..count).for_each(|_| assert_eq!(row.feed(&[], Room::Exact), 0));
        assert_eq!(row.end(Room::Of(7)), 8);
        runs.add(row);
    }
    let met = runs.end(2_500);
    met.more_than(1_000, "number", [9]);
}

/// At every call a room that is one byte short, and then one that fits or is longer.
#[test]
fn rooms_that_are_short() {
    let mut draw = Draw::from_seed(1_106);
    let mut runs = Comparison::start();
    for _ in 0..2_500 {
        let file = if draw.below(4) == 0 { damaged(&mut draw) } else { any_file(&mut draw) };
        let mut row = Row::start(&mut draw);
        if draw.below(3) == 0 {
            row.ask_all();
        }
        let mut from = 0;
        let middle = cuts(draw.below(3) as usize, &file, &mut draw);
        for to in middle.into_iter().chain([file.len()]) {
            let chunk = &file[from..to];
            let (any, more) = (draw.below(90) as usize, draw.below(90) as usize);
            row.feed(chunk, Room::OneShort);
            // Where nothing is to be written no room is short, and the chunk has been taken.
            let taken = chunk.is_empty() || feed::place(row.state()) != from as u64;
            if !taken && row.feed(chunk, Room::Of(any)) == 11 {
                row.feed(chunk, draw.one_of(&[Room::Exact, Room::Longer(more)]));
            }
            from = to;
        }
        for length in [0, 6, draw.below(12) as usize, 7] {
            row.end(Room::Of(length));
        }
        runs.add(row);
    }
    // Every room from none to more than is needed, for a chunk and for the end.
    let file = sticks::file(&seasons::run(2, 2, &mut draw));
    let (all, ended) = (state_after(&file[..file.len() - 7]), state_after(&file));
    for length in 0..200 {
        for (state, chunk) in [(&ended, None), (&all, Some(&[MISSING, 0, 0, MISSING, 0, 0][..]))] {
            let mut row = Row::of(state);
            match chunk {
                Some(chunk) => row.feed(chunk, Room::Of(length)),
                None => row.end(Room::Of(length)),
            };
            runs.add(row);
        }
    }
    let met = runs.end(2_900);
    met.more_than(1_000, "any number", [0, 9, 11]);
}

/// Calls after a refusal, after a refused end and after an end: the same number, and nothing is written.
#[test]
fn calls_after_a_refusal_and_after_the_end() {
    let mut draw = Draw::from_seed(1_107);
    let mut runs = Comparison::start();
    for _ in 0..2_500 {
        let file = any_file(&mut draw);
        let any = draw.below(file.len() as u64 + 1) as usize;
        let length = draw.one_of(&[file.len(), file.len(), any]);
        let mut row = Row::start(&mut draw);
        let middle = draw.below(length as u64 + 1) as usize;
        row.feed(&file[..middle], Room::Exact);
        row.feed(&file[middle..length], Room::Exact);
        row.end(Room::Exact);
        row.ask_all();
        for _ in 0..2 {
            match draw.below(5) {
                0 => row.feed(&[], Room::Of(30)),
                1 => row.feed(&file, Room::Of(400)),
                2 => row.feed(&file[length..], Room::Of(400)),
                3 => row.end(Room::Of(0)),
                _ => row.end(Room::Of(12)),
            };
        }
        if draw.below(8) == 0 {
            // And the whole file anew, over what is there.
            row.restart();
            row.feed(&file, Room::Exact);
            row.end(Room::Exact);
        }
        runs.add(row);
    }
    let met = runs.end(2_500);
    met.more_than(5, "number", 1..=9);
}

/// Files of every kind in one chunk or a few, in rooms of every kind.
#[test]
fn many_files() {
    let mut draw = Draw::from_seed(1_108);
    let mut runs = Comparison::start();
    for _ in 0..31_000 {
        let file = any_file(&mut draw);
        let count = draw.one_of(&[0, 0, 0, 1, 2]);
        let mut row = Row::start(&mut draw);
        let mut from = 0;
        for to in cuts(count, &file, &mut draw).into_iter().chain([file.len()]) {
            row.feed(&file[from..to], Room::any(&mut draw));
            from = to;
        }
        row.end(Room::any(&mut draw));
        runs.add(row);
    }
    let met = runs.end(31_000);
    met.more_than(50, "any number", (0..=9).chain([11]));
}

/// Fleets and roofs of every size, up to the largest.
#[test]
fn large_sites() {
    let mut draw = Draw::from_seed(1_109);
    let mut runs = Comparison::start();
    for round in 0..66 {
        let (units, inverters) = match round {
            0 => (64, 64),
            1 => (64, 0),
            2 => (1, 64),
            _ => (1 + draw.below(64) as usize, draw.below(20) as usize),
        };
        let run = match round % 2 {
            0 => currents::plain_run(&[1, 4, 5], units, inverters, 3, &mut draw),
            _ => roofs::run(units, inverters, 3, &mut draw),
        };
        let file = sticks::file(&older::in_edition(3 - round % 3, run, &mut draw));
        let count = draw.below(5) as usize;
        runs.cut(&file, &cuts(count, &file, &mut draw), &mut draw);
        let mut row = Row::start(&mut draw);
        for chunk in file.chunks(700 + draw.below(2_000) as usize) {
            row.feed(chunk, Room::any(&mut draw));
        }
        row.end(Room::Of(7));
        runs.add(row);
        // An inverter too many where there are 64, and a unit too many.
        let more = [&file[..file.len() - 7], &[6, 0, 19][..], &[1; 19]].concat();
        runs.cut(&more, &[file.len() / 2], &mut draw);
    }
    runs.end(190).more_than(100, "any number", [0]);
}

/// A request that stands, for a unit that runs empty, and then missing readings up to the most steps.
fn longest(draw: &mut Draw) -> Run {
    let mut run = sticks::whole_case();
    run.readings = vec![Reading::Missing; 65_535];
    run.readings[0] = sticks::power_reading(draw);
    for round in 0..400 {
        run.readings[65_000 - 97 * round] = sticks::power_reading(draw);
    }
    run.site.units[0].idle_loss = 10;
    run.site.units[0].rated = 10_000_000_000_000;
    run.site.units[0].stored = 9_000_000_000_000;
    run
}

/// As many steps as there can be, in chunks of every size from 1 to 200. The first 62,535 steps are the reference's:
/// each size goes on from the state that it has there, over the last 3,000 steps to the end. Some sizes, and 65,536,
/// are fed from the first byte on.
#[test]
fn as_many_steps_as_there_can_be() {
    let mut draw = Draw::from_seed(1_110);
    let mut runs = Comparison::start();
    let run = longest(&mut draw);
    let file = sticks::file(&run);
    // From there on there are missing readings and a few powers.
    let before = sticks::file(&sticks::with(&run, |run| run.readings.truncate(62_535))).len() - 7;
    let state = state_after(&file[..before]);
    assert_eq!(feed::steps(&state), 62_535);
    for size in 1..=200 {
        let mut row = Row::of(&state);
        for chunk in file[before..].chunks(size) {
            assert_eq!(row.feed(chunk, Room::Exact), 0);
        }
        assert_eq!(row.end(Room::Exact), 0);
        runs.add(row);
    }
    for size in [132, LARGEST_FIELD, 1_000, 4_096, 65_536, 1 << 20] {
        let mut row = Row::start(&mut draw);
        for chunk in file.chunks(size) {
            assert_eq!(row.feed(chunk, Room::Exact), 0);
        }
        assert_eq!(row.end(Room::Exact), 0);
        runs.add(row);
    }
    // One step too many, in every chunk in which it can come.
    let most = state_after(&file[..file.len() - 7]);
    let weather = sticks::bytes(&[roofs::weather_field(Weather { irradiance: 1.0, temperature: 1.0 })]);
    for more in [vec![MISSING, 0, 0], [&weather[..], &[MISSING, 0, 0]].concat(), vec![4, 0, 24]] {
        let more = [more, vec![0; 24]].concat();
        for size in 1..=more.len() {
            let mut row = Row::of(&most);
            row.ask_all();
            for chunk in more.chunks(size) {
                row.feed(chunk, Room::Of(100));
            }
            assert_eq!(row.feed(&[], Room::Of(0)), 12);
            runs.add(row);
        }
    }
    // And an end that counts other steps.
    for count in sticks::bad_counts(65_535) {
        let mut row = Row::of(&most);
        assert_eq!(row.feed(&sticks::bytes(&[sticks::end_field(count)]), Room::Exact), 7);
        runs.add(row);
    }
    runs.end(300).more_than(1, "number", [7]);
}

/// Files that are longer than a lent file may be, complete and not.
#[test]
fn files_above_the_size_of_a_lent_file() {
    let mut draw = Draw::from_seed(1_111);
    let mut runs = Comparison::start();
    let mut run = seasons::run(1, 65_535, &mut draw);
    run.weather = (0..65_535).map(|step| (step % 31 != 0).then_some(inverters::weather(&mut draw))).collect();
    for (step, reading) in run.readings.iter_mut().enumerate() {
        if step % 9 != 0 && matches!(reading, Reading::Missing) {
            *reading = sticks::power_reading(&mut draw);
        }
    }
    let file = sticks::file(&run);
    assert!(file.len() > 2_097_152 + 500_000 && stick::check(&file).number == 12);
    for size in [65_536, file.len()] {
        let mut row = Row::start(&mut draw);
        for chunk in file.chunks(size) {
            assert_eq!(row.feed(chunk, Room::Exact), 0);
        }
        assert_eq!(row.end(Room::Exact), 0);
        runs.add(row);
    }
    // A fault behind the limit, bytes after the end, and no end.
    let state = state_after(&file[..2_097_152]);
    let rest = &file[2_097_152..];
    let mut broken = rest.to_vec();
    let place = broken.len() - 20;
    broken[place..].fill(0xAA);
    for (rest, numbers) in
        [(rest, 0), (&broken, 2), (&[rest, &[0][..]].concat()[..], 9), (&rest[..90_000], 1)]
    {
        let mut row = Row::of(&state);
        row.ask_all();
        for chunk in rest.chunks(100_000) {
            row.feed(chunk, Room::Longer(3));
        }
        let number = row.end(Room::Of(7));
        assert!(number == numbers || numbers == 1 && number == 8, "{number}");
        runs.add(row);
    }
    runs.end(6);
}

/// Bytes that follow a state: those that complete what it holds and a step, and others.
fn what_follows(state: &[u8], file: &[u8], draw: &mut Draw) -> Vec<u8> {
    let place = (feed::place(state) as usize).min(file.len());
    match draw.below(3) {
        0 => file[place..].to_vec(),
        1 => file[place..file.len().min(place + 40)].to_vec(),
        _ => Vec::new(),
    }
}

/// Each byte of some states is given other values: the call is 10, or what the definition says of such a state.
#[test]
fn states_with_every_byte_changed() {
    let mut draw = Draw::from_seed(1_112);
    let mut runs = Comparison::start();
    let run = voltages::led(roofs::plain_run(2, 1, 6, &mut draw), &mut draw);
    let run = sticks::with(&run, |run| {
        run.weather = vec![Some(Weather { irradiance: 0.25, temperature: 10.0 }); 6];
        run.voltages = vec![None, Some(10_000), Some(0), None, None, Some(20_000)];
        run.readings[5] = Reading::Missing;
    });
    let file = sticks::file(&run);
    let last = file.len() - 7 - 3;
    let (mut refused, mut broken) = (vec![0; SIZE], file.clone());
    feed::start(&mut refused).expect("a state has its length");
    broken[last] = 0xAA;
    assert_eq!(feed::feed(&mut refused, &broken, &mut [0; 2_000]), Err(2));
    // A curve half there; a step under way with two bytes of its reading; the end; a refusal.
    let states = [state_after(&file[..200]), state_after(&file[..last + 2]), state_after(&file), refused];
    for (which, state) in states.into_iter().enumerate() {
        let rest = &file[(feed::place(&state) as usize).min(file.len())..];
        for at in 0..SIZE {
            // One bit for the most part; in the numbers, the stage and the tail other values too.
            let changes = if at < SITE && at % 8 == 0 || at < 40 { 3 } else { 1 };
            for change in 0..changes {
                let mut changed = state.clone();
                changed[at] ^= if change == 0 { 1 } else { 1 + draw.below(255) as u8 };
                let mut row = Row::of(&changed);
                match which {
                    2 => row.end(Room::Of(7)),
                    _ => row.feed(rest, Room::Exact),
                };
                runs.add(row);
            }
        }
    }
    let met = runs.end(4 * SIZE as u32);
    met.more_than(80_000, "number", [10]);
    met.more_than(100, "number", [0]);
}

/// The same of the largest site, at some of its bytes.
#[test]
fn large_states_with_bytes_changed() {
    let mut draw = Draw::from_seed(1_113);
    let mut runs = Comparison::start();
    let run = voltages::led(currents::plain_run(&[4], 64, 64, 2, &mut draw), &mut draw);
    let file = sticks::file(&older::in_edition(3, run, &mut draw));
    let states = [file.len() - 1, file.len() - 9, MOST_SITE - 100].map(|length| state_after(&file[..length]));
    for round in 0..1_200 {
        let state = &states[round % 3];
        let mut changed = state.clone();
        for _ in 0..draw.below(3) {
            changed[draw.below(SIZE as u64) as usize] ^= 1 << draw.below(8);
        }
        let mut row = Row::of(&changed);
        row.feed(&file[feed::place(state) as usize..], Room::Exact);
        runs.add(row);
    }
    let met = runs.end(1_200);
    met.more_than(200, "number", [0, 10]);
}

/// Sets a number of a state, the highest byte first.
fn set(state: &mut [u8], at: usize, width: usize, number: u64) {
    state[at..at + width].copy_from_slice(&number.to_be_bytes()[8 - width..]);
}

/// Each number of a state at the ends of its range and beside them.
#[test]
fn states_with_numbers_at_their_ends_or_beside_them() {
    let mut draw = Draw::from_seed(1_114);
    let mut runs = Comparison::start();
    for round in 0..24 {
        let run = sticks::with(&roofs::run(2, round % 2, 4, &mut draw), |run| {
            run.weather = vec![Some(Weather { irradiance: 0.25, temperature: 10.0 }); 4];
            run.voltages.clear();
            run.readings.fill(Reading::Missing);
        });
        let run = older::in_edition(1 + round as u8 % 3, run, &mut draw);
        let file = sticks::file(&run);
        let first = file.len() - 7 - 4 * 22;
        // Before the steps, after a weather, between steps with a tail, between steps, ended.
        let lengths = [first - 40, first + 19, first + 23, first + 44, file.len()];
        for length in lengths {
            let state = state_after(&file[..length]);
            let mut changes: Vec<(usize, usize, u64)> = Vec::new();
            let steps = u64::from(feed::steps(&state));
            let but_steps = feed::place(&state) - 22 * steps;
            for place in [but_steps + SHORTEST * steps, but_steps + LONGEST * steps] {
                changes.extend([place.wrapping_sub(1), place, place + 1].map(|place| (1, 8, place)));
            }
            changes.extend([0, 1, 1 << 32, 1 << 63, u64::MAX].map(|place| (1, 8, place)));
            changes.extend([0, 1, 2, 3, 4, 65_535, 65_536, 1 << 31].map(|steps| (9, 4, steps)));
            changes.extend((0..=12).chain([255]).map(|number| (0, 1, number)));
            changes.extend((0..=STAGES.len() as u64).chain([255]).map(|stage| (13, 1, stage)));
            let site = u64::from(state[14]) << 8 | u64::from(state[15]);
            let most = (MOST_SITE + CLOSE.len()) as u64;
            let lengths = [site - 1, site + 1, 0, 7, MOST_SITE as u64, most, most + 1, 65_535];
            changes.extend(lengths.map(|n| (14, 2, n)));
            let tail = MOST_TAIL as u64;
            changes.extend([0, 1, 2, 3, 4, 131, tail - 1, tail, tail + 1, 255].map(|tail| (16, 1, tail)));
            let sun = [0, 1, 99_999_999, 100_000_000, 100_000_001, 1 << 31, -1i64 as u64];
            changes.extend(sun.map(|sun| (17, 4, sun)));
            changes.extend(sun.map(|sun| (21, 4, sun)));
            changes.extend([-100_000_000i64, -100_000_001].map(|sun| (21, 4, sun as u64)));
            changes.extend([0, 1, 20_000, 20_001, 65_535].map(|voltage| (25, 2, voltage)));
            for (i, unit) in run.site.units.iter().enumerate() {
                let at = UNITS + STANDING * i;
                let rated = unit.rated;
                changes.extend([0, rated - 1, rated, rated + 1, u64::MAX].map(|stored| (at, 8, stored)));
                let rating = i64::from(unit.rating);
                let asked = [0, 1, -1, rating, rating + 1, -rating, -rating - 1, i64::from(i32::MIN)];
                changes.extend(asked.map(|asked| (at + 8, 4, asked as u64)));
            }
            for at in [0, 1, 2, 3, 127].map(|i| VARS + i * OF_VARS) {
                let ends = [0, 1, 100_000_000, 100_000_001, -100_000_000, -100_000_001, i64::from(i32::MIN)];
                changes.extend(ends.map(|vars| (at, OF_VARS, vars as u64)));
            }
            changes.extend([UNITS + 24, FLAGS, FLAGS + 1, FLAGS + 63].map(|at| (at, 1, 1)));
            changes.push((FLAGS, 1, 2));
            for (at, width, number) in changes {
                let mut changed = state.clone();
                set(&mut changed, at, width, number);
                let mut row = Row::of(&changed);
                if draw.below(3) == 0 {
                    row.ask_all();
                }
                row.feed(&file[length..], Room::Exact);
                row.end(Room::Exact);
                runs.add(row);
            }
        }
    }
    let met = runs.end(12_000);
    met.more_than(1_000, "any number", [0, 10]);
}

/// What a unit may hold and be asked, with requests of one sign for the most part.
fn any_standing(run: &Run, draw: &mut Draw) -> Standing {
    let sign = draw.one_of(&[-1, 1]);
    let stray = draw.below(6) == 0;
    let request = |rating: u32, draw: &mut Draw| {
        let size = draw.within(0, rating.into()) as i32;
        let size = draw.one_of(&[0, size, size, size]);
        if stray {
            size * draw.one_of(&[-1, 1])
        } else {
            size * sign
        }
    };
    let vars = |draw: &mut Draw| draw.within(0, 200_000_000) as i32 - 100_000_000;
    Standing {
        stored: run.site.units.iter().map(|unit| draw.within(0, unit.rated)).collect(),
        requests: run.site.units.iter().map(|unit| request(unit.rating, draw)).collect(),
        unit_vars: run.site.units.iter().map(|_| vars(draw)).collect(),
        on: run.site.inverters.iter().map(|_| draw.below(2) == 0).collect(),
        inverter_vars: run.site.inverters.iter().map(|_| vars(draw)).collect(),
    }
}

/// States that no call makes: any that are well formed get the definition's answer, and go on from there.
#[test]
fn states_that_no_call_makes() {
    let mut draw = Draw::from_seed(1_115);
    let mut runs = Comparison::start();
    for _ in 0..6_000 {
        let maker = draw.one_of(&[older::run, voltages::run]);
        let run = maker(1 + draw.below(3) as usize, draw.below(3) as usize, 3, &mut draw);
        let file = sticks::file(&run);
        let fields = sticks::fields(&run);
        let site = sticks::bytes(&fields[..roofs::first_step(&run)]);
        let stages = [Stage::Steps, Stage::AfterWeather, Stage::AfterVoltage, Stage::Ended, Stage::Steps];
        let stage = draw.one_of(&stages);
        let any = draw.below(65_536) as u32;
        let steps = draw.one_of(&[0, 1, 2, 65_534, 65_535, any]);
        let tail =
            draw.one_of(&[&[][..], &[], &[4], &[9, 9], &[5, 0], &[4, 0, 24], &[7, 0, 129, 1], &[6, 0, 18]]);
        let tail = draw.one_of(&[tail, tail, tail, &[12, 0, 2, 1], &[11, 0, 1]]);
        let tail = if stage == Stage::Ended { &[] } else { tail };
        let open = match stage {
            Stage::AfterWeather => OF_WEATHER,
            Stage::AfterVoltage => draw.one_of(&[OF_VOLTAGE, OF_VOLTAGE + OF_WEATHER]),
            Stage::Ended => OF_END,
            _ => 0,
        };
        let least = (site.len() + tail.len()) as u64 + open + SHORTEST * u64::from(steps);
        let sun = Sun {
            irradiance: draw.within(0, 100_000_000) as i32,
            temperature: draw.within(0, 200_000_000) as i32 - 100_000_000,
        };
        let state = State::Going(Going {
            place: least + draw.below((LONGEST - SHORTEST) * u64::from(steps) + 1),
            steps,
            stage,
            site,
            tail: tail.to_vec(),
            sun: [Stage::AfterWeather, Stage::AfterVoltage].contains(&stage).then_some(sun),
            voltage: (stage == Stage::AfterVoltage).then_some(draw.within(0, 20_000) as u16),
            standing: Some(any_standing(&run, &mut draw)),
        });
        let mut row = Row::of(&feed::encode(&state));
        if draw.below(3) == 0 {
            row.ask_all();
        }
        let steps_of = sticks::bytes(&fields[roofs::first_step(&run)..fields.len() - 1]);
        let from = if tail.is_empty() { 0 } else { tail.len().min(steps_of.len()) };
        row.feed(&steps_of[from..], Room::any(&mut draw));
        if draw.below(2) == 0 {
            let more = what_follows(row.state(), &file, &mut draw);
            row.feed(&more, Room::Exact);
        }
        row.end(Room::any(&mut draw));
        runs.add(row);
    }
    // Refusals of every number, with places and steps in their ranges and beyond them.
    for number in 0..=255u8 {
        let of_most = MOST_PLACE + LONGEST * 65_535;
        for (steps, place) in [
            (0, 0),
            (0, MOST_PLACE),
            (0, MOST_PLACE + 1),
            (3, MOST_PLACE + 3 * LONGEST),
            (65_535, of_most),
            (65_535, of_most + 1),
            (65_536, 9),
        ] {
            let mut state = feed::encode(&State::Over(Answer { number: 1, place, steps }));
            state[0] = number;
            let mut row = Row::of(&state);
            row.ask_all();
            row.feed(&[1, 0, 6], Room::Of(10));
            row.end(Room::Of(10));
            runs.add(row);
        }
    }
    let met = runs.end(7_500);
    met.more_than(200, "any number", [0, 8, 9, 10]);
    met.more_than(100, "any number", [11]);
}

/// No field of a step may lie among those before the steps, at any stage.
#[test]
fn states_with_a_field_of_a_step_in_the_site_part() {
    let mut runs = Comparison::start();
    let head = &sticks::file(&sticks::whole_case())[..76];
    let weather = sticks::bytes(&[roofs::weather_field(Weather { irradiance: 0.0, temperature: 0.0 })]);
    for more in [&weather[..], &[12, 0, 2, 0, 0], &[MISSING, 0, 0], &CLOSE] {
        for close in [&[][..], &CLOSE] {
            let part = [head, more, close].concat();
            for (stage, _) in STAGES.iter().enumerate() {
                for (place, steps) in [(76, 0), (81, 0), (95, 0), (114, 0), (83, 0), (79, 1), (82, 1)] {
                    let mut state = vec![0; SIZE];
                    set(&mut state, 1, 8, place);
                    set(&mut state, 9, 4, steps);
                    state[13] = stage as u8;
                    set(&mut state, 14, 2, part.len() as u64);
                    state[SITE..SITE + part.len()].copy_from_slice(&part);
                    let mut row = Row::of(&state);
                    row.ask_all();
                    row.feed(&[MISSING, 0, 0], Room::Of(100));
                    row.end(Room::Of(7));
                    runs.add(row);
                }
            }
        }
    }
    runs.end(300);
}

/// Bytes that are no state: of another length, or of any kind.
#[test]
fn bytes_that_are_no_state() {
    let mut draw = Draw::from_seed(1_116);
    let mut runs = Comparison::start();
    let file = sticks::file(&sticks::whole_case());
    let good = state_after(&file[..80]);
    // One that had no room for the connections among them, and one that had none for the function.
    let others = [SITE - 1, SITE, 23_163, 23_421, SIZE - 1, SIZE + 1, SIZE + 7, 2 * SIZE];
    for length in [0, 1, 12, 13, 14, TAIL].into_iter().chain(others) {
        let mut state = good.clone();
        state.resize(length, 0);
        let mut row = Row::of(&state);
        row.ask_all();
        assert_eq!(row.feed(&file[80..], Room::Of(100)), 10);
        assert_eq!((row.end(Room::Of(7)), row.restart()), (10, 10));
        runs.add(row);
    }
    for _ in 0..300 {
        let likely = draw.below(2) == 0;
        let state: Vec<u8> =
            (0..SIZE).map(|_| if likely { draw.below(3) as u8 / 2 } else { draw.any() as u8 }).collect();
        let mut row = Row::of(&state);
        row.feed(&file, Room::Of(100));
        row.end(Room::Of(7));
        row.restart();
        row.feed(&file, Room::Exact);
        assert_eq!(row.end(Room::Exact), 0);
        runs.add(row);
    }
    runs.end(300).more_than(500, "any number", [10]);
}

/// The comparison is worth nothing if the host answers frames that it has not understood.
#[test]
fn the_host_takes_no_malformed_row() {
    // A state of two bytes with a piece of one, and a call of a chunk of one byte in a room of four.
    let row =
        [&[2, 0, 0, 0, 0, 1, 0, 0, 0, 1, 0, 0, 0, 1, 0, 0, 0, 9][..], &[1, 0, 0, 0], &[1, 0, 4, 0, 0, 0, 7]];
    let row = [row.concat(), vec![1, 0, 0, 0, 5]].concat();
    let message = "host: op E: the payload is no row of fed runs\n";
    refuses_cut_rows(b'E', &row, &[1, 4, 5, 9, 13, 17, 18, 22, 23, 29, row.len() - 1], message);
    let mut host = Host::start();
    let answer = host.call(b'E', &row);
    assert_eq!(answer[..12], [&(SIZE as u64).to_le_bytes()[..], &[10, 0, 0, 0]].concat());
    assert!(host.end().0.success());
    let changes: [(usize, u8, &str); 4] = [
        (8, 4, "host: op E: a state is too long\n"),
        (9, 2, "host: op E: a piece of a state lies outside it\n"),
        (22, 3, "host: op E: no such call\n"),
        (27, 4, "host: op E: a room is too long\n"),
    ];
    for (at, byte, message) in changes {
        let mut row = row.clone();
        // The highest byte of the state's length is the fourth.
        row[if at == 8 { 3 } else { at }] = byte;
        if byte == 4 {
            row[if at == 8 { 0 } else { 24 }] = 1;
        }
        let mut host = Host::start_quietly();
        host.send(b'E', &row);
        let (status, messages) = host.end();
        assert_eq!((status.code(), messages.as_str()), (Some(1), message));
    }
}
