//! The proved figures of a season beside the reference, over the C surface: every number returned, and what everything
//! lent holds after the call.

mod frames;
mod host;

use frames::{put_file, shown, Met, Rest, FRAME};
use host::{refuses_cut_rows, Host};
use yesbrulka_reference::controller::Settings;
use yesbrulka_reference::peaks::{self, FIGURES};
use yesbrulka_reference::ranges::MOST_BYTES;
use yesbrulka_reference::reading::Reading;
use yesbrulka_reference::samples::sticks::{self, whole_case};
use yesbrulka_reference::samples::wrecks::{self, wreck};
use yesbrulka_reference::samples::{currents, limits, older, roofs, seasons, voltages, Draw};
use yesbrulka_reference::season::{self, Record, Step};
use yesbrulka_reference::site::Site;
use yesbrulka_reference::stick::{self, Run};
use yesbrulka_reference::storage::Unit;

type Figures = [i64; FIGURES];

/// Where a figure stands among the seventeen.
const STEPS: usize = 0;
const MISSING: usize = 1;
const MOST: usize = 4;
const MOST_STEP: usize = 5;
const OUTSIDE: usize = 6;
const NET_MOST: usize = 9;
const NET_MOST_STEP: usize = 10;
const NET_OUTSIDE: usize = 11;
const STORE: usize = 12;
const STORE_STEP: usize = 13;
const LOSS_MJ: usize = 14;
const NOT_MET: usize = 16;

/// What a call returns and leaves in the list.
#[derive(Debug, PartialEq)]
struct Left {
    number: u32,
    disturbed: u8,
    list: Vec<i64>,
}

impl Left {
    /// What it must leave in a list that holds this.
    fn of(said: Result<Figures, u32>, list: &[i64]) -> Left {
        match said {
            Ok(figures) => Left { number: 0, disturbed: 0, list: figures.to_vec() },
            Err(number) => Left { number, disturbed: 0, list: list.to_vec() },
        }
    }

    /// What the archive left.
    fn take(rest: &mut Rest, length: usize) -> Left {
        Left {
            number: u32::from_le_bytes(rest.take()),
            disturbed: u8::from_le_bytes(rest.take()),
            list: (0..length).map(|_| i64::from_le_bytes(rest.take())).collect(),
        }
    }
}

fn put_season(payload: &mut Vec<u8>, target: i32, list: &[i64], file: &[u8]) {
    payload.extend(target.to_le_bytes());
    payload.extend((list.len() as u32).to_le_bytes());
    payload.extend(list.iter().flat_map(|number| number.to_le_bytes()));
    put_file(payload, file);
}

/// A call, and what the reference says to it.
struct Asked {
    file: Vec<u8>,
    target: i32,
    expected: Left,
}

/// A host, the frame that grows for it, and what its answers were.
struct Comparison {
    host: Host,
    draw: Draw,
    /// The file that the next calls are about.
    file: Vec<u8>,
    payload: Vec<u8>,
    calls: Vec<Asked>,
    met: Met,
    files: u32,
    all: u32,
    wrong: u32,
}

impl Comparison {
    /// The seed is that of what the lent lists hold.
    fn start(seed: u64) -> Comparison {
        let (file, payload, calls, met) = Default::default();
        let (host, draw) = (Host::start(), Draw::from_seed(seed));
        Comparison { host, draw, file, payload, calls, met, files: 0, all: 0, wrong: 0 }
    }

    fn over(&mut self, file: impl Into<Vec<u8>>) {
        self.file = file.into();
        self.files += 1;
    }

    /// Asks for the figures of the file with the archive and with the reference, in a list of this length; gives what
    /// the reference says.
    fn ask_in(&mut self, length: usize, target: i32) -> Result<Figures, u32> {
        let said = peaks::peaks(&self.file, target, length);
        let list: Vec<i64> = (0..length).map(|_| self.draw.any() as i64).collect();
        self.met.note("number", said.err().unwrap_or(0));
        put_season(&mut self.payload, target, &list, &self.file);
        self.calls.push(Asked { file: self.file.clone(), target, expected: Left::of(said, &list) });
        if self.payload.len() > FRAME {
            self.compare();
        }
        said
    }

    /// The same in a list that fits.
    fn ask(&mut self, target: i32) -> Result<Figures, u32> {
        self.ask_in(FIGURES, target)
    }

    /// The figures of a run, for a target that is in range, and the tally of what there is in it.
    fn ask_of(&mut self, run: &Run, target: i32) -> Figures {
        let figures = self.ask(target).expect("the run is not refused, nor is the target");
        note_site(&mut self.met, run);
        note_figures(&mut self.met, run, &figures);
        note_slips(&mut self.met, run, target, &figures);
        figures
    }

    fn compare(&mut self) {
        let answer = self.host.call(b'G', &self.payload);
        let mut rest = Rest(&answer);
        for Asked { file, target, expected } in self.calls.drain(..) {
            let got = Left::take(&mut rest, expected.list.len());
            self.all += 1;
            if got != expected {
                self.wrong += 1;
                if self.wrong <= 5 {
                    eprintln!("target {target}, over {}", shown(&file));
                    eprintln!("  archive   {got:?}\n  reference {expected:?}");
                }
            }
        }
        assert!(rest.0.is_empty(), "an answer for each call and nothing more");
        self.payload.clear();
    }

    /// Compares what is left, of no fewer files and calls than these, and gives what was met.
    fn end(mut self, least_files: u32, least: u32) -> Met {
        self.compare();
        assert!(self.host.end().0.success(), "the host ended badly");
        assert_eq!(self.wrong, 0, "wrong answers of {}", self.all);
        assert!(self.files >= least_files && self.all >= least, "{} calls, {} files", self.all, self.files);
        println!("{} calls, {} files", self.all, self.files);
        self.met
    }
}

/// The tally of what a file says before its steps and beside its readings: edition and mode, and 1 or 0 for each of the
/// things that it may have.
fn note_site(met: &mut Met, run: &Run) {
    let Site { edition, settings, connections, inverters, function, phase, .. } = &run.site;
    let mode = u32::from(settings.mode);
    met.note("edition and mode", 10 * u32::from(*edition) + mode);
    met.note("phase", (*phase).into());
    met.note("led", function.is_some().into());
    met.note("inverters", (!inverters.is_empty()).into());
    met.note("connections in a mode by watts", u32::from(!connections.is_empty() && mode <= 3));
    met.note("weather", run.weather.iter().any(Option::is_some).into());
    met.note("voltages", run.voltages.iter().any(Option::is_some).into());
}

/// The tally of what the figures say, by the mode.
fn note_figures(met: &mut Met, run: &Run, figures: &Figures) {
    let mode = u32::from(run.site.settings.mode);
    let mut note = |what, is: bool| {
        if is {
            met.note(what, mode);
        }
    };
    let [steps, missing] = [figures[STEPS], figures[MISSING]];
    note("no steps", steps == 0);
    note("a reading missing", missing > 0 && missing < steps);
    note("all readings missing", missing == steps && steps > 0);
    note("outside", figures[OUTSIDE] > 0);
    note("outside by net measure", figures[NET_OUTSIDE] > 0);
    note("all held by the fleet", figures[OUTSIDE] > 0 && figures[NET_OUTSIDE] == 0);
    note("a lower peak", figures[NET_MOST] < figures[MOST]);
    note("a peak in another step", figures[NET_MOST_STEP] != figures[MOST_STEP]);
    note("a store that falls", figures[STORE_STEP] > 0);
    note("a megajoule", figures[LOSS_MJ] > 0);
    note("not met", figures[NOT_MET] > 0);
    note("all met", figures[NOT_MET] == 0 && figures[OUTSIDE] > 0);
}

/// The steps of a run for a target, with their measures.
fn measured(run: &Run, target: i32) -> Vec<(Option<i64>, Step)> {
    let run = sticks::with(run, |run| run.site.settings.target = target);
    let measures = run.readings.iter().map(|reading| reading.measure(run.site.phase).expect("accepted"));
    measures.zip(season::steps(&run)).collect()
}

/// The tally of wrong readings of the rules that would be seen in these figures: a comparison over inputs in which they
/// make no difference shows nothing.
fn note_slips(met: &mut Met, run: &Run, target: i32, figures: &Figures) {
    let steps = measured(run, target);
    let mut seen = |what, other: i64, which: usize| {
        if other != figures[which] {
            met.note(what, run.site.settings.mode.into());
        }
    };
    let last = steps.iter().rposition(|(measure, _)| *measure == Some(figures[MOST]));
    seen("the last of the largest", last.unwrap_or(0) as i64, MOST_STEP);
    let held = |step: &Step| step.records.iter().map(|of| of.stepped.stored as i64).sum::<i64>();
    let last = steps.iter().rposition(|(_, step)| held(step) == figures[STORE]);
    seen("the last of the stores", last.unwrap_or(0) as i64, STORE_STEP);
    note_unmet_slips(&mut seen, run, &steps);
    let measures: Vec<_> = steps.iter().filter_map(|(measure, _)| *measure).collect();
    note_outside_slips(&mut seen, OF_MEASURES, run, target, &measures);
    if !run.site.settings.by_current() {
        note_net_slips(&mut seen, &steps);
        let watts = |step: &Step| step.records.iter().map(|of| i64::from(of.stepped.watts)).sum::<i64>();
        let nets: Vec<_> =
            steps.iter().filter_map(|(measure, step)| Some((*measure)? - watts(step))).collect();
        note_outside_slips(&mut seen, OF_NETS, run, target, &nets);
    }
}

type Seen<'a> = dyn FnMut(&'static str, i64, usize) + 'a;

/// Requests that are held against the watts at the grid, and those that are counted by the unit.
fn note_unmet_slips(seen: &mut Seen, run: &Run, steps: &[(Option<i64>, Step)]) {
    let is_unmet = |of: &Record, more: u32| {
        of.request != 0 && i64::from(of.request) != i64::from(of.stepped.watts) + i64::from(more)
    };
    let at_the_grid = |step: &Step| step.records.iter().any(|of| is_unmet(of, 0));
    seen("met at the grid", steps.iter().filter(|(_, step)| at_the_grid(step)).count() as i64, NOT_MET);
    let grid_loss = |of: &Record| run.site.units[usize::from(of.unit)].grid_loss(run.site.edition);
    let units = steps.iter().flat_map(|(_, step)| &step.records);
    seen("unmet units", units.filter(|of| is_unmet(of, grid_loss(of))).count() as i64, NOT_MET);
}

/// What the slips are called by which steps are outside, and the figure that counts these.
type Outside = ([&'static str; 3], usize);

const OF_MEASURES: Outside =
    (["half the band is outside", "the whole band is inside", "either side is outside"], OUTSIDE);
const OF_NETS: Outside = (
    ["net: half the band is outside", "net: the whole band is inside", "net: either side is outside"],
    NET_OUTSIDE,
);

/// Steps that are outside where their need is half the band, only beyond the whole of it, or on either side.
fn note_outside_slips(seen: &mut Seen, (names, which): Outside, run: &Run, target: i32, numbers: &[i64]) {
    let Settings { mode, band, .. } = run.site.settings;
    let target = i64::from(if mode == 2 { -target } else { target });
    let count = |by: fn(i64, i64) -> bool| {
        let needs = numbers.iter().map(|number| number - target);
        let needs = needs.map(|need| if run.site.settings.charges() { -need } else { need });
        needs.filter(|&need| by(need, band.into())).count() as i64
    };
    seen(names[0], count(|need, band| need > 0 && 2 * need >= band), which);
    seen(names[1], count(|need, band| need > band), which);
    seen(names[2], count(|need, band| 2 * need.abs() > band), which);
}

/// Net measures from which goes what was asked, or what the roof gives too.
fn note_net_slips(seen: &mut Seen, steps: &[(Option<i64>, Step)]) {
    let most = |power: fn(&Step) -> i64| {
        let nets = steps.iter().filter_map(|(measure, step)| Some((*measure)? - power(step)));
        nets.max().unwrap_or(0)
    };
    let asked = |step: &Step| step.records.iter().map(|of| i64::from(of.request)).sum();
    seen("less what was asked", most(asked), NET_MOST);
    let with_roof = |step: &Step| {
        let roof: i64 = step.solar.iter().map(|of| i64::from(of.produced.watts)).sum();
        roof + step.records.iter().map(|of| i64::from(of.stepped.watts)).sum::<i64>()
    };
    seen("less the roof", most(with_roof), NET_MOST);
}

/// A run of any edition and mode; for the most part one in which something happens.
fn any_run(draw: &mut Draw) -> Run {
    let [units, inverters, steps] = [4, 3, 12].map(|most| draw.below(most) as usize);
    match draw.below(8) {
        0 => draw.one_of(&[sticks::small_run, roofs::small_run, limits::small_run, older::small_run])(draw),
        1 | 2 => voltages::run(1 + units, inverters, steps, draw),
        3..=5 => currents::run_in(&[1, 2, 3, 4, 4, 4, 5, 5, 5], 1 + units, inverters, steps, draw),
        _ => {
            let run = roofs::with_roof(seasons::run(1 + units, steps, draw), inverters, draw);
            older::any_edition(run, draw)
        }
    }
}

/// Every edition with every mode, as the tally has them.
fn all_editions() -> impl Iterator<Item = u32> {
    (1..=3).flat_map(|edition| (1..=5).map(move |mode| 10 * edition + mode))
}

#[test]
fn seasons_with_their_own_target() {
    let mut draw = Draw::from_seed(1_701);
    let mut seasons = Comparison::start(1_701);
    for round in 0..20_000 {
        let run = match round {
            0 => voltages::run(64, 64, 3, &mut draw),
            1 => currents::run(64, 0, 9, &mut draw),
            2 => older::run(1, 64, 9, &mut draw),
            _ => any_run(&mut draw),
        };
        seasons.over(sticks::file(&run));
        seasons.ask_of(&run, run.site.settings.target);
    }
    let met = seasons.end(20_000, 20_000);
    met.more_than(300, "edition and mode", all_editions());
    met.more_than(1_000, "phase", 0..=5);
    for what in ["led", "inverters", "connections in a mode by watts", "weather", "voltages"] {
        met.more_than(1_000, what, 0..=1);
    }
    for what in ["no steps", "all readings missing", "all met"] {
        met.more_than(100, what, 1..=5);
    }
    for what in ["a reading missing", "outside", "a megajoule", "not met"] {
        met.more_than(500, what, 1..=5);
    }
    met.more_than(1_000, "outside by net measure", 1..=3);
    met.more_than(50, "all held by the fleet", 1..=3);
    met.more_than(500, "a lower peak", 1..=2);
    met.more_than(100, "a peak in another step", 1..=3);
    met.more_than(500, "a store that falls", [1, 2, 4]);
    met.more_than(100, "met at the grid", 1..=5);
    met.more_than(200, "unmet units", 1..=5);
    met.more_than(100, "the last of the largest", 1..=5);
    met.more_than(200, "the last of the stores", 1..=5);
    met.more_than(1_000, "less what was asked", 1..=3);
    met.more_than(500, "less the roof", 1..=3);
}

/// A target in range: an end or beside it, any, near the run's own, or such as has a measure of the run at an edge of
/// the band or beside it.
fn good_target(run: &Run, draw: &mut Draw) -> i32 {
    let Settings { mode, target, band, .. } = run.site.settings;
    let any = draw.within(0, 200_000_000) as i32 - 100_000_000;
    let near = target / 2 + draw.below(2_000) as i32;
    let readings: Vec<_> =
        run.readings.iter().filter_map(|r| r.measure(run.site.phase).ok().flatten()).collect();
    let edge = match readings.len() {
        0 => any,
        length => {
            let measure = readings[draw.below(length as u64) as usize];
            let half = i64::from(band) / 2 + draw.one_of(&[-1, 0, 0, 1]);
            let target = if run.site.settings.charges() { measure + half } else { measure - half };
            (if mode == 2 { -target } else { target }).clamp(-100_000_000, 100_000_000) as i32
        }
    };
    draw.one_of(&[any, near, edge, edge, edge, -100_000_000, 100_000_000, target])
}

#[test]
fn seasons_with_another_target() {
    let mut draw = Draw::from_seed(1_702);
    let mut seasons = Comparison::start(1_702);
    for _ in 0..10_000 {
        let run = any_run(&mut draw);
        seasons.over(sticks::file(&run));
        let own = seasons.ask_of(&run, run.site.settings.target);
        for _ in 0..2 {
            let target = good_target(&run, &mut draw);
            let figures = seasons.ask_of(&run, target);
            seasons.met.note("figures of another season", (figures != own).into());
        }
        for target in [-100_000_001, 100_000_001, i32::MIN, i32::MAX] {
            assert_eq!(seasons.ask(target), Err(5));
        }
        let beyond = draw.any() as i32;
        let refused = seasons.ask(beyond).err();
        assert_eq!(refused, (beyond.unsigned_abs() > 100_000_000).then_some(5));
    }
    let met = seasons.end(10_000, 10_000 * 8);
    met.more_than(30_000, "number", [0, 5]);
    met.more_than(5_000, "figures of another season", 0..=1);
    met.more_than(500, "edition and mode", all_editions());
    met.more_than(500, "outside", 1..=5);
    met.more_than(500, "not met", 1..=5);
    met.more_than(100, "half the band is outside", 1..=5);
    met.more_than(200, "the whole band is inside", 1..=5);
    met.more_than(500, "either side is outside", 1..=5);
    met.more_than(20, "net: half the band is outside", 1..=3);
    met.more_than(200, "net: the whole band is inside", 1..=3);
    met.more_than(500, "net: either side is outside", 1..=3);
}

/// The list's length is refused before the target is looked at.
#[test]
fn lists_of_another_length() {
    let mut draw = Draw::from_seed(1_703);
    let mut seasons = Comparison::start(1_703);
    for _ in 0..3_000 {
        let run = any_run(&mut draw);
        let own = run.site.settings.target;
        seasons.over(sticks::file(&run));
        let any = draw.below(300) as usize;
        for length in [0, 1, 16, 17, 18, 33, 34, any] {
            for target in [own, draw.one_of(&[-100_000_001, 100_000_001, i32::MIN, i32::MAX])] {
                let number = match (length, target == own) {
                    (17, true) => None,
                    (17, false) => Some(5),
                    _ => Some(10),
                };
                assert_eq!(seasons.ask_in(length, target).err(), number);
            }
        }
    }
    seasons.end(3_000, 48_000).more_than(2_000, "number", [0, 5, 10]);
}

/// Files of every kind of damage, of several faults, and of no meaning: the check's number comes first, whatever is
/// asked.
#[test]
fn damaged_files() {
    let mut draw = Draw::from_seed(1_704);
    let mut seasons = Comparison::start(1_704);
    let makers = [
        sticks::damaged_file,
        roofs::damaged_file,
        limits::damaged_file,
        older::damaged_file,
        currents::damaged_file,
        voltages::damaged_file,
    ];
    let others =
        [sticks::shuffled_file, older::shuffled_file, currents::shuffled_file, voltages::shuffled_file];
    for round in 0..30_000 {
        let file = match round % 8 {
            0 | 1 => wreck(&mut draw).file,
            2 => draw.one_of(&others)(&mut draw),
            3 if round % 16 == 3 => sticks::noise(300, &mut draw),
            _ => draw.one_of(&makers)(&mut draw),
        };
        let number = stick::check(&file).number;
        seasons.over(file);
        let any = draw.within(0, 200_000_000) as i32 - 100_000_000;
        let (target, length) =
            draw.one_of(&[(any, 16), (any, 18), (any, 0), (i32::MIN, 17), (100_000_001, 3)]);
        let answers = [seasons.ask(any).err(), seasons.ask_in(length, target).err()];
        match number {
            0 => assert_eq!(answers, [None, Some(if length == FIGURES { 5 } else { 10 })]),
            _ => assert_eq!(answers, [Some(number); 2]),
        }
    }
    let met = seasons.end(30_000, 60_000);
    met.more_than(500, "number", 0..=10);
}

/// A small file cut at every byte, with bytes behind it, and with a bit changed at every byte. What is accepted then is
/// another season.
#[test]
fn every_byte_of_small_files() {
    let mut draw = Draw::from_seed(1_705);
    let mut seasons = Comparison::start(1_705);
    for (edition, mode) in (1..=3).flat_map(|edition| (1..=5).map(move |mode| (edition, mode))) {
        let run =
            roofs::with_roof(seasons::run_in(&[mode], 2, 3, &mut draw), usize::from(mode % 2), &mut draw);
        let run = older::in_edition(edition, run, &mut draw);
        let run = if mode == edition { voltages::led(run, &mut draw) } else { run };
        let (file, target) = (sticks::file(&run), run.site.settings.target);
        seasons.over(file.clone());
        seasons.ask_of(&run, target);
        for length in 0..file.len() {
            seasons.over(&file[..length]);
            assert!(seasons.ask(target).is_err());
            let mut changed = file.clone();
            changed[length] ^= 1 << draw.below(8);
            seasons.over(changed);
            let _ = seasons.ask(target);
        }
        for more in 1..4 {
            seasons.over([&file[..], &[0x7F; 3][..more]].concat());
            assert_eq!(seasons.ask(target), Err(9));
        }
    }
    let met = seasons.end(12_000, 12_000);
    met.more_than(1_000, "number", [0, 1]);
    met.more_than(40, "number", [2, 3, 5, 8, 9]);
}

/// As many steps, units, inverters and bytes as there can be, and more.
#[test]
fn the_largest_files() {
    let mut draw = Draw::from_seed(1_706);
    let mut seasons = Comparison::start(1_706);
    let mut longest = seasons::run_in(&[1], 1, 3_000, &mut draw);
    let readings = longest.readings.clone();
    longest.readings = readings.iter().cycle().take(65_535).copied().collect();
    let led = voltages::run(64, 64, 300, &mut draw);
    for run in [longest, led, older::run(64, 0, 500, &mut draw), currents::run(64, 0, 500, &mut draw)] {
        seasons.over(sticks::file(&run));
        for target in [run.site.settings.target, good_target(&run, &mut draw)] {
            seasons.ask_of(&run, target);
        }
    }
    let run = older::in_edition(2, roofs::run(2, 1, 2, &mut draw), &mut draw);
    let (mut file, steps) = wrecks::of_bytes(&run, MOST_BYTES - 7, &mut draw);
    file.extend(sticks::bytes(&[sticks::end_field(steps)]));
    seasons.over(file.clone());
    assert_eq!(seasons.ask(0).map(|figures| figures[STEPS]), Ok(i64::from(steps)));
    for more in [1, MOST_BYTES] {
        seasons.over([&file[..], &vec![0; more]].concat());
        assert_eq!((seasons.ask(0), seasons.ask_in(0, i32::MIN)), (Err(12), Err(12)));
    }
    let met = seasons.end(7, 13);
    met.more_than(3, "number", [0, 12]);
}

/// 64 units that draw 99,999,990 W each, for 86,399 s and 65,535 steps: more joules than 64 bits hold.
#[test]
fn a_loss_beyond_64_bits() {
    let mut seasons = Comparison::start(1_707);
    let run = sticks::with(&whole_case(), |run| {
        let unit = Unit { kva: 100_000_000, idle_loss: 9_999_999, inverter: 1_000, ..run.site.units[0] };
        run.site.units = vec![unit; 64];
        run.site.seconds = 86_399;
        run.readings = vec![Reading::Missing; 65_535];
    });
    seasons.over(sticks::file(&run));
    let figures = seasons.ask(0).expect("the file is not refused");
    assert_eq!(figures[LOSS_MJ..NOT_MET], [36_237_810_552_218, 582_400]);
    seasons.end(1, 1);
}

/// The comparison is worth nothing if the host answers frames that it has not understood.
#[test]
fn the_host_takes_no_malformed_row() {
    let mut row = Vec::new();
    put_season(&mut row, 7, &[5, -5], &[0; 4]);
    let message = "host: op G: the payload is no row of targets, lists and files\n";
    refuses_cut_rows(b'G', &row, &[1, 4, 7, 8, 15, 23, 24, 27, row.len() - 1], message);
    let mut host = Host::start();
    // The tag is unknown, and the list is as it was lent.
    assert_eq!(host.call(b'G', &row), [&[2, 0, 0, 0][..], &[0], &row[8..24]].concat());
    assert!(host.end().0.success());
}
