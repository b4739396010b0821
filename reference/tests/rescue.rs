//! The proved rescue of a damaged stick beside the reference, over the C surface: what each of its calls returns, and
//! every byte of both lent rooms after it.

mod frames;
mod host;
mod rescued;

use frames::Room;
use host::{refuses_cut_rows, Host};
use rescued::{both, kinds, Comparison, EMPTY, EXACT, LONGER, ONE_SHORT, SHORTER, TOO_LARGE_AT_0};
use yesbrulka_reference::ranges::MOST_BYTES;
use yesbrulka_reference::reading::Reading;
use yesbrulka_reference::rescue::{Kind, CHANGE};
use yesbrulka_reference::samples::inverters::{self, Change};
use yesbrulka_reference::samples::sticks::{self, Field};
use yesbrulka_reference::samples::wrecks::{self, wreck, Wreck};
use yesbrulka_reference::samples::{currents, older, roofs, voltages, Draw};
use yesbrulka_reference::stick::{self, Run, END, MISSING, POWER, TAGS, WEATHER};

/// One unit, and a power, a missing reading and a power, the first and the last with a weather or none with one.
fn small(edition: u8, inverters: usize, weather: bool, draw: &mut Draw) -> Run {
    let mut run = roofs::plain_run(1, inverters, 0, draw);
    run.readings = vec![sticks::power_reading(draw), Reading::Missing, sticks::power_reading(draw)];
    if weather {
        run.weather = vec![Some(inverters::weather(draw)), None, Some(inverters::weather(draw))];
    }
    older::in_edition(edition, run, draw)
}

/// The same under a function, the first and the last with a voltage.
fn led(edition: u8, inverters: usize, weather: bool, draw: &mut Draw) -> Run {
    let run = small(edition, inverters, weather, draw);
    let run = voltages::led(run, draw);
    sticks::with(&run, |run| run.voltages = vec![Some(10_300), None, Some(0)])
}

/// Small sticks of every edition, with and without inverters, weather and a function.
fn small_sticks(draw: &mut Draw) -> Vec<Run> {
    let kinds = [(0, false), (0, true), (1, false), (1, true), (2, true)];
    let mut all = Vec::new();
    for edition in 1..=3 {
        all.extend(kinds.map(|(inverters, weather)| small(edition, inverters, weather, draw)));
        all.extend(
            [(0, true), (1, false)].map(|(inverters, weather)| led(edition, inverters, weather, draw)),
        );
    }
    all
}

#[test]
fn complete_files_come_back() {
    let mut draw = Draw::from_seed(1_201);
    let mut files = Comparison::start(1_201);
    for round in 0..3_000 {
        let (units, inverters) = match round {
            0 => (64, 64),
            1 => (64, 0),
            2 => (1, 64),
            _ => (1 + draw.below(4) as usize, draw.below(3) as usize),
        };
        let file = sticks::file(&older::run(units, inverters, draw.below(6) as usize, &mut draw));
        let rescued = files.rescue(file.clone()).expect("a complete file is not refused");
        assert!(rescued.output == file && rescued.changes.is_empty());
    }
    let met = files.end(3_000);
    met.more_than(2_900, "kinds", [kinds(&[])]);
    met.more_than(2_500, "number", [0]);
}

/// All 255 other values at every place.
#[test]
fn every_single_byte_changed() {
    let mut draw = Draw::from_seed(1_202);
    let mut files = Comparison::start(1_202);
    for (edition, inverters, weather) in [(1, 0, false), (3, 0, true), (2, 1, true)] {
        let file = sticks::file(&small(edition, inverters, weather, &mut draw));
        for file in sticks::other_bytes(&file) {
            let _ = files.rescue(file);
        }
    }
    let met = files.end(200_000);
    met.more_than(1_000, "fault", [0, 2, 3, 5, 6, 7]);
    met.more_than(1_000, "number", [0, 2, 3, 5]);
    met.more_than(100, "number", [4]);
    met.more_than(1_000, "kind", [1, 2]);
    met.more_than(500, "weather dropped with its reading", [1]);
}

/// Sticks that end early, wherever that is.
#[test]
fn files_cut_at_every_byte() {
    let mut draw = Draw::from_seed(1_203);
    let mut files = Comparison::start(1_203);
    for run in small_sticks(&mut draw) {
        let file = sticks::file(&run);
        for length in 0..=file.len() {
            let _ = files.rescue(&file[..length]);
        }
    }
    // Readings that cannot be used before the cut.
    for _ in 0..40 {
        let file = wreck(&mut draw).file;
        for length in 0..=file.len() {
            let _ = files.rescue(&file[..length]);
        }
    }
    let met = files.end(20_000);
    met.more_than(1_000, "number", [0, 1]);
    met.more_than(100, "number", [8]);
    met.more_than(100, "fault", [1, 6, 8]);
    met.more_than(100, "kinds", [kinds(&[2]), kinds(&[1, 2])]);
    met.more_than(500, "weather dropped with its reading", [1]);
}

/// Every field left out, repeated, exchanged with every other, and a field of every tag put in at every place.
#[test]
fn fields_in_another_order() {
    let mut draw = Draw::from_seed(1_204);
    let mut files = Comparison::start(1_204);
    for run in small_sticks(&mut draw) {
        let fields = sticks::fields(&run);
        let mut all: Vec<Field> = roofs::inverter_fields(&inverters::document_inverter()).to_vec();
        all.push(roofs::weather_field(inverters::weather(&mut draw)));
        all.push(roofs::weather_field(inverters::bad_weather(&mut draw)));
        all.push(Field::new(POWER, vec![0xFF; 24]));
        all.extend([0, 2, 3, 4].map(sticks::end_field));
        all.extend_from_slice(&fields[..3]);
        all.extend_from_slice(&fields[fields.len() - 4..]);
        for file in sticks::orders(&fields, fields.len(), &all) {
            let _ = files.rescue(file);
        }
    }
    for _ in 0..4_000 {
        let _ = files.rescue(older::shuffled_file(&mut draw));
    }
    let met = files.end(14_000);
    met.more_than(1_000, "number", [0, 4]);
    met.more_than(20, "fault", [0, 4, 5, 6, 7, 8, 9]);
    met.more_than(100, "kind", [1, 2, 3]);
    met.more_than(500, "weather dropped with its reading", [1]);
}

/// Tags and lengths, with the value that was there or one of the length that is said.
#[test]
fn wrong_tags_and_lengths() {
    let mut draw = Draw::from_seed(1_205);
    let mut files = Comparison::start(1_205);
    for run in small_sticks(&mut draw) {
        let fields = sticks::fields(&run);
        for (at, field) in fields.iter().enumerate() {
            let mut with = |field: Field| {
                let _ = files.rescue(sticks::bytes(&[&fields[..at], &[field], &fields[at + 1..]].concat()));
            };
            let tags = TAGS.map(|(tag, _)| tag).into_iter().chain((0..10).map(|_| draw.any() as u8));
            for tag in tags.collect::<Vec<_>>() {
                with(Field { tag, ..field.clone() });
                let length = stick::length_in(run.site.edition, 1, tag).unwrap_or(7);
                with(Field::new(tag, vec![0; length.into()]));
            }
            for length in sticks::bad_lengths(field.tag) {
                with(Field { length, ..field.clone() });
                with(Field::new(field.tag, vec![0; usize::from(length) % 512]));
            }
        }
    }
    let met = files.end(9_000);
    met.more_than(500, "number", [0, 2, 3, 4]);
    met.more_than(500, "fault", [2, 3, 4]);
    met.more_than(500, "kinds", [kinds(&[2])]);
}

/// Readings that cannot be used, and then anything; what is left of a stick comes back as it is.
#[test]
fn several_faults_in_one_file() {
    let mut draw = Draw::from_seed(1_206);
    let mut files = Comparison::start(1_206);
    for round in 0..30_000 {
        let Wreck { file, left } = wreck(&mut draw);
        let rescued = files.rescue(file).expect("a wreck has all that is due before its steps");
        assert!(rescued.output == sticks::file(&left));
        if round % 4 == 0 {
            let again = files.rescue(rescued.output.clone()).expect("what is left is not refused");
            assert!(again.output == rescued.output && again.changes.is_empty());
        }
    }
    for _ in 0..15_000 {
        let _ = files.rescue(older::damaged_file(&mut draw));
    }
    let met = files.end(52_000);
    met.more_than(100, "number", [0, 1, 2, 3, 4, 5, 11]);
    met.more_than(10, "number", [8]);
    met.more_than(500, "fault", 0..=9);
    met.more_than(10_000, "kind", [1, 2]);
    met.more_than(1_000, "kind", [3]);
    let together = [&[][..], &[1], &[2], &[3], &[1, 2], &[1, 3]];
    met.more_than(500, "kinds", together.map(kinds));
    met.more_than(2_000, "weather dropped with its reading", [1]);
}

/// The files of a run with one of its inverters, or a curve of it, made such as is out of range.
fn with_bad_inverter(run: &Run, at: usize, draw: &mut Draw) -> Vec<Vec<u8>> {
    let groups: [&[Change]; 3] = [&inverters::BAD_PLATES, &inverters::BAD_WARMS, &inverters::BAD_EFFS];
    let spoil = |spoil: &Change| sticks::file(&roofs::with_inverter(run, at, spoil));
    let mut files: Vec<Vec<u8>> = groups.iter().copied().flatten().map(spoil).collect();
    let fields = sticks::fields(run);
    let curves = [&run.site.inverters[at].warm, &run.site.inverters[at].eff];
    for (which, curve) in curves.into_iter().enumerate() {
        let (before, after) = fields.split_at(roofs::first_inverter(run) + 3 * at + 1 + which);
        for bad in roofs::bad_curves(curve, draw) {
            files.push(sticks::bytes(&[before, &[bad], &after[1..]].concat()));
        }
    }
    files
}

/// The files of a run with a field left out, with the file's end in it or before it, and with another tag or length.
fn without_field(fields: &[Field], at: usize, draw: &mut Draw) -> Vec<Vec<u8>> {
    let (before, whole) = (sticks::bytes(&fields[..at]), sticks::bytes(&fields[at..]));
    let own = 3 + fields[at].value.len();
    let any = 1 + draw.below(own as u64 - 1) as usize;
    let mut rests =
        [&whole[own..], &whole[..any], &whole[..2], &whole[..3], &[]].map(<[u8]>::to_vec).to_vec();
    for at in 0..3 {
        let mut whole = whole.clone();
        whole[at] ^= 1 << draw.below(8);
        rests.push(whole);
    }
    rests.into_iter().map(|rest| [&before[..], &rest].concat()).collect()
}

/// Inverters and curves that are not good: the check's refusal, whatever the steps behind them are. Behind a weather or
/// a step they are the end like any other fault.
#[test]
fn inverters_and_curves_damaged() {
    let mut draw = Draw::from_seed(1_207);
    let mut files = Comparison::start(1_207);
    for _ in 0..48 {
        let count = 1 + draw.below(3) as usize;
        let run = older::run(1, count, 3, &mut draw);
        let at = draw.below(count as u64) as usize;
        for file in with_bad_inverter(&run, at, &mut draw) {
            let refused = files.rescue(file).expect_err("a field before the steps is not good");
            assert_eq!((refused.number, refused.steps), (5, 0));
        }
        let (fields, first) = (sticks::fields(&run), roofs::first_inverter(&run) + 3 * at);
        for file in (first..first + 3).flat_map(|field| without_field(&fields, field, &mut draw)) {
            let _ = files.rescue(file);
        }
        let begun = [Field::new(MISSING, vec![]), roofs::weather_field(inverters::weather(&mut draw))];
        for begun in begun.chunks(1) {
            let whole = sticks::bytes(&[&fields[..first], begun, &fields[first..]].concat());
            assert!(files.rescue(whole).is_ok());
        }
    }
    let met = files.end(3_500);
    met.more_than(2_000, "number", [5]);
    met.more_than(50, "number", [0, 1, 2, 3, 4, 8]);
    met.more_than(50, "fault", [1, 2, 3, 4, 5, 8]);
    met.more_than(20, "weather dropped with its reading", [1]);
}

/// What can stand where a field is due in a file of an edition and of two units: nothing, a piece of a field, and of
/// every tag a field with another length, of which bytes are missing, without a good value, and with one.
fn due(edition: u8, draw: &mut Draw) -> Vec<Vec<u8>> {
    let mut due = vec![Vec::new()];
    for tag in 0..=255 {
        due.extend([vec![tag], vec![tag, 0, draw.below(30) as u8]]);
    }
    for (tag, _) in TAGS {
        let length = stick::length_in(edition, 2, tag).expect("a tag of the list").into();
        let bad = Field::new(tag, vec![0xFF; length]);
        let bytes = sticks::bytes(std::slice::from_ref(&bad));
        due.extend([2, 3, bytes.len() - 1].map(|left| bytes[..left.min(bytes.len())].to_vec()));
        due.push(sticks::bytes(&[Field { length: bad.length ^ 1, ..bad }]));
        due.push(bytes);
    }
    due.extend((0..30).map(|_| sticks::bytes(&[roofs::any_field(draw)])));
    due.push(sticks::bytes(&[sticks::connections_field(&currents::connections(2, draw))]));
    due
}

/// The stage of the connections by watts, which has no number of its own.
const BY_WATTS: u32 = 13;

/// The stages by their numbers, each with the refusals that a fault can have.
const STAGES: [(u32, &[u32]); 14] = [
    (0, &[9]),
    (1, &[1, 2, 3, 4, 5, 8]),
    (2, &[1, 2, 3, 4, 5, 8]),
    (3, &[1, 2, 3, 4, 5, 8]),
    (4, &[1, 2, 3, 4, 5, 6, 7, 8]),
    (5, &[1, 2, 3, 4, 5, 6, 7, 8]),
    (6, &[1, 2, 3, 4, 5, 8]),
    (7, &[1, 2, 3, 4, 5, 8]),
    (8, &[1, 2, 3, 4, 5, 6, 8]),
    (9, &[1, 2, 3, 4, 5, 8]),
    (10, &[1, 2, 3, 4, 5, 8]),
    (11, &[1, 2, 3, 4, 5, 6, 8]),
    (12, &[1, 2, 3, 4, 5, 6, 7, 8]),
    (BY_WATTS, &[1, 2, 3, 4, 5, 6, 7, 8]),
];

#[test]
fn faults_at_every_stage() {
    let mut draw = Draw::from_seed(1_208);
    let mut files = Comparison::start(1_208);
    // The fleet, two units and the settings; connections or none; two inverters; a function or none; then a weather and
    // its reading, a missing reading, a weather and its reading, with voltages under a function; the end.
    let site: [(u8, &[u32]); 2] = [(1, &[1, 2, 2, 3, BY_WATTS]), (4, &[1, 2, 2, 3, 9, 5])];
    let steps: [&[u32]; 2] = [&[8, 4, 4, 8, 4, 0], &[10, 12, 8, 11, 4, 4, 8, 11, 4, 0]];
    let all = (1..=3).flat_map(|edition| site.map(|site| (edition, site)));
    for (edition, (mode, site)) in all {
        for (of, steps) in [small, led].into_iter().zip(steps) {
            let run = sticks::with(&of(edition, 2, true, &mut Draw::from_seed(edition.into())), |run| {
                run.site.units = vec![run.site.units[0]; 2];
            });
            let run = currents::in_mode(mode, run, &mut draw);
            faults_of_stages(&mut files, &run, &[site, &[6, 7, 5, 6, 7, 5], steps].concat(), &mut draw);
        }
    }
    let met = files.end(120_000);
    for (stage, numbers) in STAGES {
        met.more_than(2, "stage and fault", numbers.iter().map(|number| 100 * stage + number));
    }
    met.more_than(50, "number", [0, 1, 2, 3, 4, 5, 8]);
    met.more_than(1_000, "kind", [2, 3]);
    met.more_than(20, "kind", [1]);
    met.more_than(1_000, "weather dropped with its reading", [1]);
    met.more_than(1_000, "voltage dropped with its reading", [2]);
}

/// Every fault at each field of a run whose stages these are.
fn faults_of_stages(files: &mut Comparison, run: &Run, stages: &[u32], draw: &mut Draw) {
    let fields = sticks::fields(run);
    assert_eq!(stages.len(), fields.len() + 1);
    for (before, &stage) in stages.iter().enumerate() {
        let (head, rest) = (sticks::bytes(&fields[..before]), sticks::bytes(&fields[before..]));
        for due in due(run.site.edition, draw) {
            // Nothing stands there only where nothing comes behind it.
            let alone = due.is_empty() || draw.below(2) == 0;
            let file = [&head[..], &due, if alone { &[] } else { &rest }].concat();
            let fault = stick::check(&file);
            if fault.place == head.len() as u64 {
                files.met.note("stage and fault", 100 * stage + fault.number);
            }
            let rescued = files.rescue(file);
            // Before the steps a fault is refused, and behind that stage it never is.
            let before_steps = [1, 2, 3, 6, 7, 9, 10].contains(&stage);
            assert!(!before_steps || rescued.is_err() || fault.place > head.len() as u64);
            assert!(![0, 4, 8, 11].contains(&stage) || rescued.is_ok());
        }
    }
}

/// Files as large as they can be and one byte larger, and outputs that would be.
#[test]
fn files_at_the_size_limit() {
    let mut draw = Draw::from_seed(1_209);
    let mut files = Comparison::start(1_209);
    let run = older::in_edition(2, roofs::run(2, 1, 2, &mut draw), &mut draw);
    let run = sticks::with(&run, |run| run.readings.fill(Reading::Missing));
    // As many bytes are behind the last step as the file is short of its size, or one less or more, or none.
    for short in [0, 1, 5, 6, 7, 8, 26] {
        let (file, _) = wrecks::of_bytes(&run, MOST_BYTES - short, &mut draw);
        for behind in [0, short.saturating_sub(1), short, short + 1] {
            let got = files.rescue([&file[..], &vec![0xFF; behind]].concat());
            assert_eq!(got.err(), (short < 7 || behind > short).then_some(TOO_LARGE_AT_0));
        }
    }
    // An end field that counts right or wrong, and what is behind it.
    let (file, steps) = wrecks::of_bytes(&run, MOST_BYTES - 8, &mut draw);
    for count in [steps, steps + 1] {
        for behind in 0..3 {
            let file = [&file[..], &sticks::bytes(&[sticks::end_field(count)]), &vec![END; behind]].concat();
            assert_eq!(files.rescue(file).is_ok(), behind < 2);
        }
    }
    // A reading that is made missing makes room for an end field, and none for a file that is too large.
    let first = sticks::file(&run).len() - 7;
    for short in [0, 1] {
        let (mut file, _) = wrecks::of_bytes(&run, MOST_BYTES - short, &mut draw);
        assert_eq!(file[first], POWER);
        file[first + 3..first + 11].fill(0xFF);
        let rescued = files.rescue(file.clone()).expect("the output is small enough");
        assert_eq!(rescued.changes.iter().map(|change| change.kind).collect::<Vec<_>>(), BOTH);
        let larger = [&file[..], &[0, 0]].concat();
        assert_eq!(files.rescue(larger), Err(TOO_LARGE_AT_0));
    }
    for length in [MOST_BYTES, MOST_BYTES + 1, 2 * MOST_BYTES] {
        assert!(files.rescue(vec![0; length]).is_err());
    }
    let met = files.end(40);
    met.more_than(10, "number", [0, 12]);
    met.more_than(10, "bytes too many", [0, 1]);
    met.more_than(0, "kinds", [&[][..], &[2], &[3], &[1, 2]].map(kinds));
}

const BOTH: [Kind; 2] = [Kind::MadeMissing, Kind::EndedHere];

/// 65,535 steps are left; one more is not, nor its weather.
#[test]
fn as_many_steps_as_there_can_be() {
    let mut draw = Draw::from_seed(1_210);
    let mut files = Comparison::start(1_210);
    let mut start = sticks::file(&sticks::run(1, 0, &mut draw));
    start.truncate(start.len() - 7);
    start.extend([MISSING, 0, 0].repeat(65_534));
    let power = sticks::reading_field(&sticks::power_reading(&mut draw));
    let (missing, bad) = (Field::new(MISSING, vec![]), Field::new(POWER, vec![0xFF; 24]));
    let weather = roofs::weather_field(inverters::weather(&mut draw));
    let bad_weather = Field::new(WEATHER, vec![0xFF; 16]);
    let end = sticks::end_field;
    let last = [&missing, &power, &bad];
    let behind: [&[&Field]; 9] = [
        &[],
        &[&missing],
        &[&bad, &end(65_536)],
        &[&power, &power],
        &[&weather],
        &[&weather, &missing],
        &[&weather, &bad],
        &[&bad_weather],
        &[&end(65_535), &missing],
    ];
    for last in last {
        for behind in behind {
            for weather in [&[][..], &[&weather]] {
                let fields = [weather, &[last], behind].concat();
                let mut file = start.clone();
                fields.iter().for_each(|field| field.put(&mut file));
                let rescued = files.rescue(file).expect("the steps are kept");
                assert_eq!(rescued.steps, 65_535);
            }
        }
    }
    // As many readings as fit, none of which can be used.
    let all = [&start[..start.len() - 3 * 65_534], &sticks::bytes(&vec![bad; 65_535])].concat();
    let rescued = files.rescue(all).expect("the steps are kept");
    assert_eq!((rescued.steps, rescued.changes.len()), (65_535, 65_536));
    let met = files.end(55);
    met.more_than(3, "fault", [6, 8, 9, 12]);
    met.more_than(1, "kinds", [&[2][..], &[3], &[1, 2], &[1, 3]].map(kinds));
    met.more_than(10, "weather dropped with its reading", [1]);
}

/// Rooms that fit, are longer, one byte short, empty or of any length, each beside each.
#[test]
fn rooms_of_every_kind() {
    let mut draw = Draw::from_seed(1_211);
    let mut files = Comparison::start(1_211);
    for _ in 0..500 {
        let file = wreck(&mut draw).file;
        let [any, other, more] = [300, 40, 60].map(|most| draw.below(most) as usize);
        for out in [Room::Exact, Room::Longer(1 + more), Room::OneShort, Room::Of(0), Room::Of(any)] {
            for list in [Room::Exact, Room::Longer(1 + more), Room::OneShort, Room::Of(0), Room::Of(other)] {
                let _ = files.rescue_in(file.clone(), out, list);
            }
        }
    }
    // A file that is refused, in rooms of any length.
    for _ in 0..2_000 {
        let file = sticks::file(&small(1, 1, true, &mut draw));
        let cut = draw.below(360) as usize;
        let [out, list] = [600, 100].map(|most| Room::Of(draw.below(most) as usize));
        let _ = files.rescue_in(&file[..cut], out, list);
    }
    // Every length from none to more than is needed.
    let start = sticks::file(&small(1, 0, true, &mut draw));
    let mut file = start[..start.len() - 7 - 12].to_vec();
    file[76 + 19 + 3..76 + 19 + 11].fill(0xFF);
    let rescued = files.rescue(file.clone()).expect("a reading is made missing, and the last is cut");
    assert_eq!(rescued.changes.iter().map(|change| change.kind).collect::<Vec<_>>(), BOTH);
    for length in 0..rescued.output.len() + 40 {
        let _ = files.rescue_in(file.clone(), Room::Of(length), Room::Exact);
    }
    for length in 0..2 * CHANGE + 40 {
        let _ = files.rescue_in(file.clone(), Room::Exact, Room::Of(length));
    }
    let met = files.end(14_000);
    let fits = [EXACT, LONGER];
    let short = [ONE_SHORT, EMPTY, SHORTER];
    let all = || fits.into_iter().chain(short);
    met.more_than(100, "rooms", all().flat_map(|out| all().map(move |list| both(out, list))));
    met.more_than(1_000, "number", [0, 1, 11]);
}

#[test]
fn files_of_no_meaning() {
    let mut draw = Draw::from_seed(1_212);
    let mut files = Comparison::start(1_212);
    let _ = files.rescue([]);
    for first in 0..=255u8 {
        let _ = files.rescue([first]);
    }
    for round in 0..12_000 {
        let noise = sticks::noise(60, &mut draw);
        // After all that is due before the steps, or after some steps.
        let run = small(1, round % 2, true, &mut draw);
        let fields = sticks::fields(&run);
        let good = roofs::first_step(&run) + draw.below(3) as usize;
        let _ = files.rescue([sticks::bytes(&fields[..good]), noise.clone()].concat());
        let _ = files.rescue(noise);
    }
    let met = files.end(24_000);
    met.more_than(1_000, "number", [0, 2, 3]);
    met.more_than(100, "number", [1, 8]);
    met.more_than(10_000, "kinds", [kinds(&[2])]);
}

/// The comparison is worth nothing if the host answers frames that it has not understood.
#[test]
fn the_host_takes_no_malformed_row() {
    // A room of four bytes, a list of two, and a file of one byte.
    let row = [4, 0, 0, 0, 7, 2, 0, 0, 0, 9, 1, 0, 0, 0, 1];
    let message = "host: op H: the payload is no row of rooms and files\n";
    refuses_cut_rows(b'H', &row, &[1, 4, 5, 9, 10, 13, row.len() - 1], message);
    let mut host = Host::start();
    let answer = host.call(b'H', &row);
    // It is cut short, needs nothing, and both rooms are as they were lent.
    let numbers = [&[0; 20][..], &[1, 0, 0, 0], &[0]].concat();
    assert_eq!(answer, [&numbers[..], &[7, 14, 21, 28], &[9, 16]].concat());
    assert!(host.end().0.success());
    for (at, message) in [(3, "host: op H: a room is too long\n"), (8, "host: op H: a list is too long\n")] {
        let mut row = row;
        row[at] = 5;
        let mut host = Host::start_quietly();
        host.send(b'H', &row);
        let (status, messages) = host.end();
        assert_eq!((status.code(), messages.as_str()), (Some(1), message));
    }
}
