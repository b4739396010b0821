//! The proved check of a partner's result beside the reference, over the C surface: its number, what is shown, and that
//! a refusal leaves the lent numbers alone.

mod frames;
mod host;

use std::fmt;
use std::ops::Range;

use frames::{put_file, shown, Met, Rest, FRAME};
use host::{refuses_cut_rows, Host, LEFT_ALONE};
use yesbrulka_reference::octets::u32_at;
use yesbrulka_reference::partner::{partner, Field, Ours, Shown, Verdict};
use yesbrulka_reference::ranges::MOST_BYTES;
use yesbrulka_reference::reading::Reading;
use yesbrulka_reference::samples::sticks::{self, power_reading};
use yesbrulka_reference::samples::wrecks::{self, wreck};
use yesbrulka_reference::samples::{currents, inverters, older, roofs, voltages, Draw};
use yesbrulka_reference::season::{LAST, RECORD, SOLAR};
use yesbrulka_reference::stick::{self, Answer, Run, CURRENT, END, MISSING, POWER};

/// What an out-number of eight bytes holds that a call did not write.
const LONG_LEFT_ALONE: u64 = (LEFT_ALONE as u64) << 32 | LEFT_ALONE as u64;

/// What a call returns and leaves.
#[derive(PartialEq, Eq)]
struct Left {
    number: u32,
    disturbed: bool,
    verdict: u8,
    start: u64,
    len: u64,
}

impl Left {
    /// What it must leave.
    fn of(said: Result<Shown, Answer>) -> Left {
        let (number, verdict, start, len) = match said {
            Ok(Shown { verdict, start, len }) => (0, verdict as u8, start, len),
            Err(refused) => (refused.number, LEFT_ALONE as u8, LONG_LEFT_ALONE, LONG_LEFT_ALONE),
        };
        Left { number, disturbed: false, verdict, start, len }
    }

    /// What the archive left.
    fn take(rest: &mut Rest) -> Left {
        Left {
            number: u32::from_le_bytes(rest.take()),
            disturbed: rest.take() != [0],
            verdict: u8::from_le_bytes(rest.take()),
            start: u64::from_le_bytes(rest.take()),
            len: u64::from_le_bytes(rest.take()),
        }
    }
}

impl fmt::Display for Left {
    fn fmt(&self, f: &mut fmt::Formatter) -> fmt::Result {
        let Left { number, verdict, start, len, .. } = self;
        write!(f, "number {number}, verdict {verdict}, start {start}, len {len}")?;
        if self.disturbed {
            write!(f, ", a file or a guard was written")?;
        }
        Ok(())
    }
}

/// A run, its file and our result.
struct Stick {
    run: Run,
    file: Vec<u8>,
    ours: Ours,
}

impl Stick {
    fn of(run: Run) -> Stick {
        let file = sticks::file(&run);
        let ours = Ours::of(&file).expect("the run is not refused");
        Stick { run, file, ours }
    }

    /// The field of our result that a place lies in.
    fn field_at(&self, place: usize) -> &Field {
        let holds = |field: &&Field| field.place.contains(&place);
        self.ours.fields.iter().find(holds).expect("a place of our result")
    }

    /// The fields of our result as a list that can be put in another order.
    fn fields(&self) -> Vec<sticks::Field> {
        let result = &self.ours.result;
        let value = |field: &Field| result[field.place.start + 3..field.place.end].to_vec();
        let one = |field: &Field| sticks::Field::new(result[field.place.start], value(field));
        self.ours.fields.iter().map(one).collect()
    }
}

fn wrong(part: Range<usize>) -> Shown {
    Shown { verdict: Verdict::Wrong, start: part.start as u64, len: part.len() as u64 }
}

fn lacking(part: &Range<usize>) -> Shown {
    Shown { verdict: Verdict::Lacking, ..wrong(part.clone()) }
}

const RIGHT: Shown = Shown { verdict: Verdict::Right, start: 0, len: 0 };

/// What stands before the reading of a step, in the tally.
const A_WEATHER: u32 = 1;
const A_VOLTAGE: u32 = 2;

/// A host, the frame that grows for it, and what its answers were.
struct Comparison {
    host: Host,
    payload: Vec<u8>,
    pairs: Vec<(Vec<u8>, Vec<u8>, Left)>,
    met: Met,
    all: u32,
    wrong: u32,
}

impl Comparison {
    fn start() -> Comparison {
        let (payload, pairs, met) = Default::default();
        Comparison { host: Host::start(), payload, pairs, met, all: 0, wrong: 0 }
    }

    /// Holds a result beside the file of a run, with the archive and with the reference; gives what the reference says.
    fn beside(&mut self, stick: &Stick, result: impl Into<Vec<u8>>) -> Shown {
        let result = result.into();
        let shown = stick.ours.beside(&result);
        self.note(stick, &result, shown);
        self.add(&stick.file, result, Ok(shown));
        shown
    }

    /// The same of a result of which is known beforehand what is said.
    fn is(&mut self, said: Shown, stick: &Stick, result: impl Into<Vec<u8>>) {
        let result = result.into();
        assert_eq!(stick.ours.beside(&result), said, "the reference on {}", shown(&result));
        self.beside(stick, result);
    }

    /// The same beside a file of any kind.
    fn beside_any(&mut self, file: &[u8], result: impl Into<Vec<u8>>) -> Result<Shown, Answer> {
        let result = result.into();
        let said = partner(file, &result);
        match said {
            Ok(shown) => self.met.note("verdict", shown.verdict as u32),
            Err(refused) => assert_eq!(refused, stick::check(file), "a refusal is the check's"),
        }
        self.add(file, result, said);
        said
    }

    /// The tally: the verdict, by edition and mode and by whether the run is led (1); and bytes behind the last field.
    fn note(&mut self, stick: &Stick, result: &[u8], shown: Shown) {
        let (site, verdict) = (&stick.run.site, shown.verdict as u32);
        let (edition, mode) = (u32::from(site.edition), u32::from(site.settings.mode));
        self.met.note("verdict", verdict);
        self.met.note("verdict, edition and mode", 100 * verdict + 10 * edition + mode);
        self.met.note("verdict, led or not", 10 * verdict + u32::from(site.function.is_some()));
        match shown.verdict {
            Verdict::Right => (),
            Verdict::Wrong if shown.start == stick.ours.result.len() as u64 => {
                self.met.note("verdict for bytes behind", verdict);
            }
            Verdict::Wrong => self.note_field(stick, shown.start as usize, result, shown),
            Verdict::Lacking => self.note_field(stick, result.len(), result, shown),
        }
    }

    /// The tally of our field at a place: whether it is one of a later step (1) than the first; its tag, where it is
    /// wrong, and where it is cut short too; or where it is lacking, with the tag of what lacks it, and what stands
    /// before that in its step. Also a field that is wrong though its tag and length are right (1).
    fn note_field(&mut self, stick: &Stick, place: usize, result: &[u8], shown: Shown) {
        let Stick { run, file, ours } = stick;
        let (tag, field) = (ours.result[place], stick.field_at(place));
        let step = u32_at(&ours.result, place + 3).filter(|_| tag != LAST);
        self.met.note("in a later step", step.map_or(0, |step| step.min(1)));
        if shown.verdict == Verdict::Wrong {
            self.met.note("wrong", tag.into());
            let head = place..place + 3;
            self.met.note("wrong in its value", (result.get(head.clone()) == ours.result.get(head)).into());
            if shown.len < field.place.len() as u64 {
                self.met.note("cut short", tag.into());
            }
            return;
        }
        self.met.note("lacking", tag.into());
        self.met.note("what lacks it", file[shown.start as usize].into());
        if let Some(step) = step {
            let weather = run.weather_of(step as usize).map_or(0, |_| A_WEATHER);
            let voltage = run.voltage_of(step as usize).map_or(0, |_| A_VOLTAGE);
            self.met.note("before what lacks it", weather + voltage);
        }
    }

    fn add(&mut self, file: &[u8], result: Vec<u8>, said: Result<Shown, Answer>) {
        put_file(&mut self.payload, file);
        put_file(&mut self.payload, &result);
        self.met.note("number", said.map_or_else(|refused| refused.number, |_| 0));
        self.pairs.push((file.to_vec(), result, Left::of(said)));
        if self.payload.len() > FRAME {
            self.compare();
        }
    }

    fn compare(&mut self) {
        let answer = self.host.call(b'J', &self.payload);
        let mut rest = Rest(&answer);
        for (file, result, expected) in std::mem::take(&mut self.pairs) {
            let got = Left::take(&mut rest);
            self.all += 1;
            if got != expected {
                self.wrong += 1;
                if self.wrong <= 5 {
                    eprintln!("{}\n{}", shown(&file), shown(&result));
                    eprintln!("  archive   {got}\n  reference {expected}");
                }
            }
        }
        assert!(rest.0.is_empty(), "no answer but for a pair");
        self.payload.clear();
    }

    /// Compares what is left, of no fewer pairs than these, and gives what was met.
    fn end(mut self, least: u32) -> Met {
        self.compare();
        assert!(self.host.end().0.success(), "the host ended badly");
        assert_eq!(self.wrong, 0, "wrong answers of {}", self.all);
        assert!(self.all >= least, "{} pairs", self.all);
        println!("{} pairs of a run file and a result", self.all);
        self.met
    }
}

/// A reading with a weather, a missing one, and a reading with a weather, or the first of these.
fn small(edition: u8, mode: u8, (units, inverters, steps): (usize, usize, usize), draw: &mut Draw) -> Run {
    let mut run = roofs::plain_run(units, inverters, 0, draw);
    run.readings = vec![power_reading(draw), Reading::Missing, power_reading(draw)];
    run.readings.truncate(steps);
    run.weather = vec![Some(inverters::weather(draw)), None, Some(inverters::weather(draw))];
    let run = older::in_edition(edition, run, draw);
    currents::in_mode(mode, run, draw)
}

/// The same under a function, with a voltage in every step but the first.
fn led(edition: u8, mode: u8, counts: (usize, usize, usize), draw: &mut Draw) -> Run {
    let run = voltages::led(small(edition, mode, counts, draw), draw);
    sticks::with(&run, |run| run.voltages = vec![None, Some(10_300), Some(0)])
}

/// Results of some hundred bytes, of every edition, with and without inverters and a function.
fn smallest(draw: &mut Draw) -> [Stick; 4] {
    let runs = [
        small(1, 1, (1, 0, 3), draw),
        led(2, 4, (1, 1, 2), draw),
        small(3, 3, (2, 1, 1), draw),
        led(3, 2, (1, 2, 1), draw),
    ];
    runs.map(Stick::of)
}

/// Small sticks of every edition and mode, with and without inverters and a function, also of no steps.
fn small_sticks(draw: &mut Draw) -> Vec<Stick> {
    let mut all = Vec::new();
    for (edition, mode) in (1..=3).flat_map(|edition| (1..=5).map(move |mode| (edition, mode))) {
        for counts in [(1, 0, 3), (2, 0, 2), (1, 1, 3), (2, 2, 3), (1, 1, 0)] {
            all.extend([small, led].map(|of| Stick::of(of(edition, mode, counts, draw))));
        }
    }
    all
}

/// A run of any edition and mode, with inverters or without, now and then led.
fn any_run(units: usize, inverters: usize, steps: usize, draw: &mut Draw) -> Run {
    let makers = [older::run, currents::run, voltages::run];
    draw.one_of(&makers)(units, inverters, steps, draw)
}

fn any_small(draw: &mut Draw) -> Run {
    let makers = [older::small_run, currents::small_run, voltages::small_run];
    draw.one_of(&makers)(draw)
}

/// Our own results.
#[test]
fn right_results() {
    let mut draw = Draw::from_seed(1_601);
    let mut pairs = Comparison::start();
    for round in 0..8_000 {
        let (units, inverters) = match round {
            0 => (64, 64),
            1 => (64, 0),
            2 => (1, 64),
            _ => (1 + draw.below(4) as usize, draw.below(3) as usize),
        };
        let steps = draw.below(6) as usize;
        let stick = Stick::of(any_run(units, inverters, steps, &mut draw));
        pairs.is(RIGHT, &stick, stick.ours.result.clone());
    }
    let met = pairs.end(8_000);
    met.more_than(7_900, "verdict", [0]);
    met.more_than(100, "verdict, edition and mode", all_of_verdict(0));
    met.more_than(1_000, "verdict, led or not", [0, 1]);
}

/// A verdict in every edition and mode, as the tally has it.
fn all_of_verdict(verdict: u32) -> impl Iterator<Item = u32> {
    (1..=3).flat_map(move |edition| (1..=5).map(move |mode| 100 * verdict + 10 * edition + mode))
}

/// All 255 other values at every place: the field is shown, all of it.
#[test]
fn every_single_byte_changed() {
    let mut draw = Draw::from_seed(1_602);
    let mut pairs = Comparison::start();
    for stick in smallest(&mut draw) {
        for (count, result) in sticks::other_bytes(&stick.ours.result).enumerate() {
            pairs.is(wrong(stick.field_at(count / 255).place.clone()), &stick, result);
        }
    }
    let met = pairs.end(120_000);
    met.more_than(100_000, "verdict", [1]);
    met.more_than(5_000, "wrong", [RECORD, SOLAR, LAST].map(u32::from));
    met.more_than(20_000, "in a later step", [1]);
    met.more_than(2_000, "wrong in its value", [0, 1]);
}

/// All 256 values put in before every byte and behind the last. What they move is wrong, unless it is like what was
/// there.
#[test]
fn every_byte_put_in() {
    let mut draw = Draw::from_seed(1_603);
    let mut pairs = Comparison::start();
    for stick in smallest(&mut draw) {
        let ours = &stick.ours.result;
        for place in 0..=ours.len() {
            for byte in 0..=255 {
                let result = [&ours[..place], &[byte], &ours[place..]].concat();
                let said = pairs.beside(&stick, result);
                assert!(said.verdict == Verdict::Wrong && said.start + said.len > place as u64);
            }
        }
    }
    let met = pairs.end(120_000);
    met.more_than(5_000, "wrong", [RECORD, SOLAR, LAST].map(u32::from));
    met.more_than(1_000, "verdict for bytes behind", [1]);
}

/// Results that end early, wherever that is; and those that lack any one byte, or more in a row.
#[test]
fn results_cut_at_every_byte() {
    let mut draw = Draw::from_seed(1_604);
    let mut pairs = Comparison::start();
    for stick in small_sticks(&mut draw) {
        let ours = &stick.ours.result;
        for length in 0..ours.len() {
            let Field { place, source } = stick.field_at(length);
            let said = if place.start == length { lacking(source) } else { wrong(place.start..length) };
            pairs.is(said, &stick, &ours[..length]);
            for rest in [length + 1, length + 2 + draw.below(40) as usize] {
                pairs.beside(&stick, [&ours[..length], ours.get(rest..).unwrap_or_default()].concat());
            }
        }
        pairs.is(RIGHT, &stick, ours.clone());
    }
    let met = pairs.end(60_000);
    met.more_than(140, "verdict", [0]);
    met.more_than(100, "what lacks it", [POWER, MISSING, CURRENT, END].map(u32::from));
    met.more_than(100, "lacking", [RECORD, SOLAR, LAST].map(u32::from));
    met.more_than(100, "before what lacks it", [0, A_WEATHER, A_VOLTAGE, A_WEATHER + A_VOLTAGE]);
    met.more_than(1_000, "cut short", [RECORD, SOLAR, LAST].map(u32::from));
    met.more_than(30, "verdict, edition and mode", all_of_verdict(2));
    met.more_than(1_000, "verdict, edition and mode", all_of_verdict(1));
    met.more_than(500, "in a later step", [0, 1]);
}

/// Every field left out, repeated, exchanged with every other, and each of them put in at every place.
#[test]
fn fields_in_another_order() {
    let mut draw = Draw::from_seed(1_605);
    let mut pairs = Comparison::start();
    for stick in small_sticks(&mut draw) {
        let fields = stick.fields();
        assert!(sticks::bytes(&fields) == stick.ours.result);
        let mut kinds = fields.clone();
        kinds.extend([sticks::end_field(3), sticks::Field::new(LAST, vec![0, 0, 0, 9])]);
        for result in sticks::orders(&fields, fields.len(), &kinds) {
            pairs.beside(&stick, result);
        }
    }
    let met = pairs.end(35_000);
    met.more_than(1_000, "verdict", [0, 1]);
    met.more_than(500, "verdict", [2]);
    met.more_than(1_000, "wrong", [RECORD, SOLAR].map(u32::from));
    met.more_than(500, "wrong", [LAST.into()]);
    met.more_than(100, "verdict for bytes behind", [1]);
    met.more_than(100, "lacking", [RECORD, SOLAR, LAST].map(u32::from));
    met.more_than(500, "cut short", [RECORD, SOLAR].map(u32::from));
}

/// The run with one thing in it another: in a unit, the settings, an inverter, or a step. It may be such as is refused.
fn other_run(run: &Run, draw: &mut Draw) -> Run {
    let mut other = run.clone();
    let mut any = |count: usize| draw.below(count.max(1) as u64) as usize;
    let (unit, inverter, step) =
        (any(run.site.units.len()), any(run.site.inverters.len()), any(run.readings.len()));
    let (units, steps) = (&mut other.site.units, run.readings.len());
    match any(9) {
        0 => units[unit].stored /= 2,
        1 => units[unit].var_request ^= 1,
        2 => other.site.settings.target ^= 1,
        3 => other.site.settings.factor ^= 1,
        4 => other.site.phase ^= 1,
        5 => other.site.inverters.iter_mut().skip(inverter).for_each(|inverter| inverter.limit /= 2),
        6 => other.weather.iter_mut().skip(step).for_each(|weather| *weather = None),
        7 if steps != 0 => other.readings[step] = Reading::Missing,
        _ => other.readings.truncate(step),
    }
    other
}

/// The results of other runs: of one that is nearly the same, and of one that has nothing to do with it.
#[test]
fn results_of_another_stick() {
    let mut draw = Draw::from_seed(1_606);
    let mut pairs = Comparison::start();
    for _ in 0..4_000 {
        let [units, inverters, steps] = [2, 3, 9].map(|most| draw.below(most) as usize);
        let stick = Stick::of(any_run(1 + units, inverters, steps, &mut draw));
        for _ in 0..3 {
            let other = other_run(&stick.run, &mut draw);
            if let Ok(other) = Ours::of(&sticks::file(&other)) {
                pairs.beside(&stick, other.result);
            }
        }
        let other = Stick::of(any_small(&mut draw));
        pairs.beside(&stick, other.ours.result);
        pairs.beside(&stick, stick.file.clone());
    }
    let met = pairs.end(16_000);
    met.more_than(1_000, "verdict", [0, 1]);
    met.more_than(500, "wrong", [RECORD, SOLAR, LAST].map(u32::from));
    met.more_than(1_000, "in a later step", [1]);
    // The end of a shorter run stands where a step of ours begins.
    met.more_than(100, "cut short", [RECORD.into()]);
    met.more_than(50, "verdict, edition and mode", all_of_verdict(1));
}

/// A result with something done to it: to a bit, to a byte, or to its end, which may come to lie at the edge of one of
/// our fields.
fn spoil(result: &mut Vec<u8>, ours: &Ours, draw: &mut Draw) {
    let place = draw.below(result.len() as u64 + 1) as usize;
    let edge = ours.fields[draw.below(ours.fields.len() as u64) as usize].place.start;
    match (draw.below(7), result.get_mut(place)) {
        (0 | 1, Some(byte)) => *byte ^= 1 << draw.below(8),
        (2, Some(_)) => drop(result.remove(place)),
        (3, _) => result.insert(place, draw.any() as u8),
        (4, _) => result.truncate(place),
        (5, _) => result.truncate(edge),
        _ => result.extend(sticks::noise(60, draw)),
    }
}

#[test]
fn several_things_wrong() {
    let mut draw = Draw::from_seed(1_607);
    let mut pairs = Comparison::start();
    for _ in 0..3_000 {
        let stick = Stick::of(any_small(&mut draw));
        for _ in 0..6 {
            let mut result = stick.ours.result.clone();
            (0..1 + draw.below(3)).for_each(|_| spoil(&mut result, &stick.ours, &mut draw));
            pairs.beside(&stick, result);
        }
    }
    let met = pairs.end(18_000);
    met.more_than(20, "verdict", [0]);
    met.more_than(1_000, "verdict", [1, 2]);
    met.more_than(500, "wrong", [RECORD, SOLAR, LAST].map(u32::from));
    met.more_than(200, "cut short", [RECORD, SOLAR, LAST].map(u32::from));
    met.more_than(500, "verdict for bytes behind", [1]);
}

/// Results of no bytes, and of no meaning, beside runs of steps and of none; and bytes behind the end.
#[test]
fn results_of_no_meaning() {
    let mut draw = Draw::from_seed(1_608);
    let mut pairs = Comparison::start();
    for round in 0..4_000 {
        let run = any_small(&mut draw);
        let stick = match round % 3 {
            0 => Stick::of(sticks::with(&run, |run| run.readings.clear())),
            _ => Stick::of(run),
        };
        let (ours, first) = (&stick.ours.result, &stick.ours.fields[0]);
        pairs.is(lacking(&first.source), &stick, []);
        let noise = sticks::noise(200, &mut draw);
        pairs.beside(&stick, noise.clone());
        let place = draw.below(ours.len() as u64) as usize;
        pairs.beside(&stick, [&ours[..place], &noise].concat());
        let behind = [&[draw.any() as u8], &noise[..]].concat();
        pairs.is(wrong(ours.len()..ours.len() + behind.len()), &stick, [&ours[..], &behind].concat());
        pairs.is(wrong(ours.len()..2 * ours.len()), &stick, ours.repeat(2));
    }
    let met = pairs.end(20_000);
    met.more_than(4_000, "verdict", [1, 2]);
    met.more_than(1_000, "lacking", [RECORD, LAST].map(u32::from));
    met.more_than(1_000, "what lacks it", [END.into()]);
    met.more_than(200, "what lacks it", [POWER, MISSING, CURRENT].map(u32::from));
    met.more_than(8_000, "verdict for bytes behind", [1]);
}

/// A run file that is refused gets no verdict, also where the result is that of the file before the damage.
#[test]
fn damaged_run_files() {
    let mut draw = Draw::from_seed(1_609);
    let mut pairs = Comparison::start();
    for round in 0..30_000 {
        let makers = [older::damaged_file, currents::damaged_file, voltages::damaged_file];
        let others = [older::shuffled_file, currents::shuffled_file, voltages::shuffled_file];
        let file = match round % 5 {
            0 => wreck(&mut draw).file,
            1 => draw.one_of(&others)(&mut draw),
            _ => draw.one_of(&makers)(&mut draw),
        };
        let result = Ours::of(&file).map_or_else(|_| sticks::noise(100, &mut draw), |ours| ours.result);
        let said = pairs.beside_any(&file, result);
        assert!(said.map_or(true, |shown| shown == RIGHT));
    }
    // Every cut, and every place with another value, under a right result.
    for stick in smallest(&mut draw) {
        for length in 0..stick.file.len() {
            assert!(pairs.beside_any(&stick.file[..length], stick.ours.result.clone()).is_err());
        }
        for place in 0..stick.file.len() {
            let mut file = stick.file.clone();
            file[place] ^= 1 << draw.below(8);
            let _ = pairs.beside_any(&file, stick.ours.result.clone());
        }
    }
    let met = pairs.end(32_000);
    met.more_than(200, "number", 0..=9);
    met.more_than(1_000, "verdict", [0]);
    met.more_than(50, "verdict", [1]);
}

/// A file of as many bytes as it can have, and of more.
#[test]
fn files_at_the_size_limit() {
    let mut draw = Draw::from_seed(1_610);
    let mut pairs = Comparison::start();
    let run = older::in_edition(2, roofs::run(2, 1, 2, &mut draw), &mut draw);
    let (mut file, steps) = wrecks::of_bytes(&run, MOST_BYTES - 7, &mut draw);
    file.extend(sticks::bytes(&[sticks::end_field(steps)]));
    let stick = Stick::of(stick::read(&file).expect("a file may be as long"));
    assert!(stick.file == file && file.len() == MOST_BYTES);
    let ours = stick.ours.result.clone();
    pairs.is(RIGHT, &stick, ours.clone());
    pairs.is(lacking(&(MOST_BYTES - 7..MOST_BYTES)), &stick, &ours[..ours.len() - 7]);
    pairs.is(wrong(ours.len()..ours.len() + 1), &stick, [&ours[..], &[0]].concat());
    let too_large = Err(Answer { number: 12, place: 0, steps: 0 });
    for more in [1, 2, MOST_BYTES] {
        for result in [&[][..], &ours] {
            assert_eq!(pairs.beside_any(&[&file[..], &vec![0; more]].concat(), result), too_large);
        }
    }
    pairs.end(9).more_than(5, "number", [12]);
}

/// 65,535 steps, and fleets and roofs as large as they can be: wrong at the end, in the midst, and nowhere.
#[test]
fn the_longest_runs() {
    let mut draw = Draw::from_seed(1_611);
    let mut pairs = Comparison::start();
    let mut most = voltages::run_in(&[1, 2, 3], 1, 0, 0, &mut draw);
    most.readings = vec![Reading::Missing; 65_535];
    most.voltages = (0..65_535).map(|step: u32| (step % 3 != 0).then_some((step % 20_001) as u16)).collect();
    let runs = [
        most,
        any_run(64, 64, 300, &mut draw),
        any_run(64, 0, 500, &mut draw),
        any_run(1, 64, 500, &mut draw),
    ];
    for stick in runs.map(Stick::of) {
        let (ours, fields) = (&stick.ours.result, &stick.ours.fields);
        pairs.is(RIGHT, &stick, ours.clone());
        pairs.is(wrong(ours.len()..ours.len() + 100_000), &stick, [&ours[..], &[0x11; 100_000]].concat());
        let any = draw.below(fields.len() as u64) as usize;
        for at in [0, 1, fields.len() / 2, any, fields.len() - 3, fields.len() - 2, fields.len() - 1] {
            let Field { place, source } = &fields[at];
            let mut result = ours.clone();
            result[place.end - 1] ^= 1;
            pairs.is(wrong(place.clone()), &stick, result);
            pairs.is(wrong(place.start..place.end - 1), &stick, &ours[..place.end - 1]);
            pairs.is(lacking(source), &stick, &ours[..place.start]);
        }
    }
    let met = pairs.end(90);
    met.more_than(3, "verdict", [0]);
    met.more_than(20, "verdict", [1, 2]);
    met.more_than(5, "wrong", [RECORD, SOLAR].map(u32::from));
    met.more_than(3, "lacking", [RECORD, SOLAR, LAST].map(u32::from));
}

/// The comparison is worth nothing if the host answers frames that it has not understood.
#[test]
fn the_host_takes_no_malformed_row() {
    // A run file of one byte, and a result of two.
    let row = [1, 0, 0, 0, 1, 2, 0, 0, 0, 0x1F, 0];
    let message = "host: op J: the payload is no row of run files and results\n";
    refuses_cut_rows(b'J', &row, &[1, 4, 5, 8, 9, row.len() - 1], message);
    let mut host = Host::start();
    // It is cut short, and the three numbers are as they were lent.
    assert_eq!(host.call(b'J', &row), [&[1, 0, 0, 0][..], &[0], &[0x5A; 17]].concat());
    assert!(host.end().0.success());
}
