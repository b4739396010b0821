//! The proved study over a file beside the reference, over the C surface: every number returned, and what everything
//! lent holds after the call.

mod frames;
mod host;

use frames::{put_file, said_units, shown, Met, Rest, FRAME};
use host::{refuses_cut_rows, Host, LEFT_ALONE};
use yesbrulka_reference::ranges::MOST_BYTES;
use yesbrulka_reference::samples::{currents, fleets, inverters, older, roofs, sticks, Draw};
use yesbrulka_reference::site::{self, Site};
use yesbrulka_reference::stick::MISSING;

/// What `yb_study` returns and leaves behind.
#[derive(Debug, PartialEq)]
struct StudyLeft {
    number: u32,
    disturbed: u8,
    settled: u8,
    passes: u32,
    requests: Vec<i32>,
}

fn expected_study(file: &[u8], load: i64, budget: u32, requests: &[i32]) -> StudyLeft {
    let mut requests = requests.to_vec();
    let (number, settled, passes) = match site::study(file, load, budget, &mut requests) {
        Ok(study) => (0, study.settled.into(), study.passes),
        Err(number) => (number, LEFT_ALONE as u8, LEFT_ALONE as u32),
    };
    StudyLeft { number, disturbed: 0, settled, passes, requests }
}

fn left_study(rest: &mut Rest, length: usize) -> StudyLeft {
    StudyLeft {
        number: u32::from_le_bytes(rest.take()),
        disturbed: u8::from_le_bytes(rest.take()),
        settled: u8::from_le_bytes(rest.take()),
        passes: u32::from_le_bytes(rest.take()),
        requests: (0..length).map(|_| i32::from_le_bytes(rest.take())).collect(),
    }
}

fn put_study(payload: &mut Vec<u8>, load: i64, budget: u32, requests: &[i32], file: &[u8]) {
    payload.extend(load.to_le_bytes());
    payload.extend(budget.to_le_bytes());
    payload.extend((requests.len() as u32).to_le_bytes());
    payload.extend(requests.iter().flat_map(|request| request.to_le_bytes()));
    put_file(payload, file);
}

/// A study over a file, and what the reference says to it.
struct Studied {
    file: Vec<u8>,
    load: i64,
    budget: u32,
    expected: StudyLeft,
}

/// A host, the frame that grows for it, and what its answers were.
struct Studies {
    host: Host,
    draw: Draw,
    /// The file that the next studies are over.
    file: Vec<u8>,
    payload: Vec<u8>,
    calls: Vec<Studied>,
    met: Met,
    files: u32,
    all: u32,
    wrong: u32,
}

impl Studies {
    /// The seed is that of what the lent requests hold.
    fn start(seed: u64) -> Studies {
        Studies {
            host: Host::start(),
            draw: Draw::from_seed(seed),
            file: Vec::new(),
            payload: Vec::new(),
            calls: Vec::new(),
            met: Met::default(),
            files: 0,
            all: 0,
            wrong: 0,
        }
    }

    fn over(&mut self, file: impl Into<Vec<u8>>) {
        self.file = file.into();
        self.files += 1;
    }

    /// Makes a study over the file with the archive and with the reference, in a list of this length; gives the
    /// number.
    fn study(&mut self, load: i64, budget: u32, length: usize) -> u32 {
        let requests: Vec<i32> = (0..length).map(|_| self.draw.any() as i32).collect();
        let expected = expected_study(&self.file, load, budget, &requests);
        let number = expected.number;
        self.met.note("number", number);
        if number == 0 {
            self.met.note("settled", expected.settled.into());
            self.met.note("more than four passes", (expected.passes > 4).into());
        }
        put_study(&mut self.payload, load, budget, &requests, &self.file);
        self.calls.push(Studied { file: self.file.clone(), load, budget, expected });
        if self.payload.len() > FRAME {
            self.compare();
        }
        number
    }

    fn compare(&mut self) {
        let answer = self.host.call(b'Y', &self.payload);
        let mut rest = Rest(&answer);
        for Studied { file, load, budget, expected } in self.calls.drain(..) {
            let length = expected.requests.len();
            let got = left_study(&mut rest, length);
            self.all += 1;
            if got != expected {
                self.wrong += 1;
                if self.wrong <= 5 {
                    eprintln!(
                        "load {load}, budget {budget}, {length} requests, over {}\n  archive   {got:?}\n  \
                         reference {expected:?}",
                        shown(&file)
                    );
                }
            }
        }
        assert!(rest.0.is_empty(), "an answer for each study and nothing more");
        self.payload.clear();
    }

    /// Compares what is left, of no fewer files and studies than these, and gives what was met.
    fn end(mut self, least_files: u32, least: u32) -> Met {
        self.compare();
        assert!(self.host.end().0.success(), "the host ended badly");
        assert_eq!(self.wrong, 0, "wrong studies of {}", self.all);
        assert!(self.files >= least_files && self.all >= least, "{} studies, {} files", self.all, self.files);
        println!("{} studies, {} files", self.all, self.files);
        self.met
    }
}

/// The document's figure C1, whatever the file's mode is.
#[test]
fn the_documents_study_over_files_in_every_mode() {
    let mut draw = Draw::from_seed(610);
    let mut studies = Studies::start(610);
    for mode in 1..=5 {
        for phase in 0..=5 {
            let call = fleets::figure_study(5);
            let run = sticks::study_run(&call, 2, &mut draw);
            let mut run = currents::in_mode(mode, run, &mut draw);
            run.site.phase = phase;
            let file = sticks::file(&run);
            let left = StudyLeft { number: 0, disturbed: 0, settled: 1, passes: 4, requests: vec![100, 193] };
            assert_eq!(expected_study(&file, 1_000, 5, &[-1, 1]), left);
            studies.over(file);
            for budget in (1..8).chain([10_000]) {
                studies.study(1_000, budget, 2);
            }
        }
    }
    studies.end(30, 240).more_than(50, "settled", 0..=1);
}

/// The requests of passes over a fixed load in the file's own mode, which takes it for a current where it buys by one.
fn in_its_own_mode(site: &Site, load: i64, budget: u32) -> Vec<i32> {
    let mut requests = vec![0; site.units.len()];
    for _ in 0..budget {
        let given = requests.iter().map(|&request| i64::from(request)).sum::<i64>();
        let least = if site.settings.by_current() { 0 } else { i64::MIN };
        let passed = site.pass((load - given).max(least), &site.units, &mut requests);
        if !passed.expect("an accepted fleet takes a pass").changed {
            break;
        }
    }
    requests
}

#[test]
fn studies_over_files_of_any_size() {
    let mut draw = Draw::from_seed(611);
    let mut studies = Studies::start(611);
    for round in 0..12_000 {
        let most = if round % 4 == 0 { 64 } else { 5 };
        let call = fleets::study_call(most, 40, &mut draw);
        let steps = draw.below(3) as usize;
        let mut run = sticks::study_run(&call, steps, &mut draw);
        if round % 3 == 0 {
            run = older::limited(run, &mut draw);
        }
        if round % 4 == 1 {
            let mode = 4 + draw.below(2) as u8;
            run = currents::in_mode(mode, run, &mut draw);
        }
        let file = sticks::file(&run);
        let left = expected_study(&file, call.load, call.budget, &call.requests);
        let mode = u32::from(run.site.settings.mode);
        studies.met.note("mode", mode);
        studies.met.note("edition", run.site.edition.into());
        if in_its_own_mode(&run.site, call.load, call.budget) != left.requests {
            studies.met.note("another in its own mode", mode);
        }
        studies.over(file);
        assert_eq!(studies.study(call.load, call.budget, call.requests.len()), 0);
    }
    let met = studies.end(12_000, 12_000);
    met.more_than(1_000, "mode", 1..=5);
    met.more_than(1_000, "edition", 1..=3);
    met.more_than(300, "another in its own mode", 2..=5);
    met.more_than(500, "settled", 0..=1);
    met.more_than(500, "more than four passes", 0..=1);
}

/// The fleet's study is the same whatever is on the roof.
#[test]
fn studies_over_files_with_inverters() {
    let mut draw = Draw::from_seed(616);
    let mut studies = Studies::start(616);
    for round in 0..1_500 {
        let call = fleets::study_call(6, 20, &mut draw);
        let mut run = sticks::study_run(&call, 2, &mut draw);
        let plain = sticks::file(&run);
        run.site.inverters = (0..round % 65).map(|_| roofs::inverter(&mut draw)).collect();
        run.weather = vec![Some(inverters::weather(&mut draw)); round % 3];
        let file = sticks::file(&run);
        let study = |file: &[u8]| expected_study(file, call.load, call.budget, &call.requests);
        assert_eq!(study(&file), study(&plain));
        studies.over(file);
        assert_eq!(studies.study(call.load, call.budget, call.requests.len()), 0);
    }
    studies.end(1_500, 1_500).more_than(100, "settled", 0..=1);
}

/// The load and the budget at the ends of their ranges, beside them and far from them.
#[test]
fn studies_with_a_load_or_a_budget_at_an_end_or_beside_it() {
    let mut draw = Draw::from_seed(612);
    let mut studies = Studies::start(612);
    let mut long = 0;
    for round in 0..300 {
        let mut call = fleets::study_call(if round % 8 == 0 { 64 } else { 6 }, 12, &mut draw);
        let run = sticks::study_run(&call, 1, &mut draw);
        let file = sticks::file(&run);
        let (load, budget, length) = (call.load, call.budget, call.requests.len());
        studies.met.note("mode", run.site.settings.mode.into());
        studies.over(file);
        for load in [0, 1, 99_999_999, 100_000_000] {
            assert_eq!(studies.study(load, budget, length), 0);
        }
        for load in [-1, 100_000_001, 1 << 31, 1 << 32 | load, -load - 1, 1 << 63, i64::MAX] {
            assert_eq!(studies.study(load, budget, length), 5);
        }
        for budget in [0, 10_001, 1 << 16 | budget, 1 << 24 | budget, 1 << 31, u32::MAX] {
            assert_eq!(studies.study(load, budget, length), 5);
            assert_eq!(studies.study(-1, budget, length), 5);
        }
        // At the pass that settles and beside it. Not many are to be long.
        call.budget = 10_000;
        let passes = call.settle().expect("a study that is not refused").passes;
        if passes > 300 && (long == 20 || length > 6) {
            continue;
        }
        long += u32::from(passes > 300);
        for budget in [1, 2, passes, passes + 1, passes + 2, 9_999, 10_000] {
            assert_eq!(studies.study(load, budget.clamp(1, 10_000), length), 0);
        }
    }
    assert!(long > 3, "{long} long ones");
    let met = studies.end(300, 300 * 23);
    met.more_than(60, "mode", 1..=3);
    met.more_than(1_000, "number", [0, 5]);
    met.more_than(300, "settled", 0..=1);
}

/// The list's length is refused before the load and the budget are looked at.
#[test]
fn studies_with_a_list_of_another_length() {
    let mut draw = Draw::from_seed(613);
    let mut studies = Studies::start(613);
    for units in (1..=64).flat_map(|units| [units; 4]) {
        let steps = draw.below(3) as usize;
        let run = sticks::run(units, steps, &mut draw);
        studies.met.note("mode", run.site.settings.mode.into());
        studies.over(sticks::file(&run));
        for length in [0, units - 1, units, units + 1, 65, 2 * units, units + 64, units + 256] {
            let right = length == units;
            for (load, budget) in [(0, 1), (100_000_000, 3), (-1, 1), (100_000_001, 1), (5, 0), (5, 10_001)] {
                let good = (0..=100_000_000).contains(&load) && (1..=10_000).contains(&budget);
                let number = match (right, good) {
                    (true, true) => 0,
                    (true, false) => 5,
                    (false, _) => 10,
                };
                assert_eq!(studies.study(load, budget, length), number);
            }
        }
    }
    let met = studies.end(256, 256 * 48);
    met.more_than(50, "mode", 1..=3);
    met.more_than(500, "number", [0, 5, 10]);
}

/// The check's number comes before anything else, and the list stays as it is.
#[test]
fn studies_over_damaged_files() {
    let mut draw = Draw::from_seed(614);
    let mut studies = Studies::start(614);
    for round in 0..9_000 {
        let file = match round % 8 {
            0 => sticks::shuffled_file(&mut draw),
            1 => sticks::noise(80, &mut draw),
            2 => {
                // A fleet that a study would be made over, and one thing wrong somewhere.
                let call = fleets::study_call(64, 10, &mut draw);
                let mut fields = sticks::fields(&sticks::study_run(&call, 2, &mut draw));
                let at = draw.below(fields.len() as u64) as usize;
                sticks::damage(&mut fields, at, &mut draw);
                sticks::bytes(&fields)
            }
            _ => sticks::damaged_file(&mut draw),
        };
        let units = said_units(&file);
        let checked = site::of(&file).err();
        studies.over(file);
        let any = draw.below(80) as usize;
        for length in [units, draw.one_of(&[0, units.saturating_sub(1), units + 1, 65, any])] {
            for (load, budget) in
                [(100_000_000, 7), draw.one_of(&[(-1, 7), (100_000_001, 7), (9, 0), (9, 10_001)])]
            {
                let number = studies.study(load, budget, length);
                assert!(checked.map_or(true, |checked| number == checked));
            }
        }
    }
    let met = studies.end(9_000, 36_000);
    met.more_than(100, "number", (0..=8).chain([10]));
    met.more_than(20, "number", [9]);
}

/// As many steps and as many bytes as there can be, and more.
#[test]
fn studies_over_the_largest_files() {
    let mut draw = Draw::from_seed(615);
    let mut studies = Studies::start(615);
    for units in [1, 64] {
        let complete = sticks::file(&sticks::run(units, 0, &mut draw));
        let head = &complete[..complete.len() - 7];
        for (count, number) in [(65_535, 0), (65_536, 12)] {
            let end = sticks::bytes(&[sticks::end_field(count)]);
            studies.over([head, &[MISSING, 0, 0].repeat(count as usize), &end].concat());
            assert_eq!(studies.study(100_000_000, 20, units), number);
        }
        for (length, number) in [(MOST_BYTES, 9), (MOST_BYTES + 1, 12)] {
            let mut large = complete.clone();
            large.resize(length, 0);
            studies.over(large);
            assert_eq!(studies.study(100_000_000, 20, units), number);
            assert_eq!(studies.study(-1, 0, 0), number);
        }
    }
    studies.end(8, 12);
}

/// The comparison is worth nothing if the host answers frames that it has not understood.
#[test]
fn the_host_takes_no_malformed_study() {
    let mut study = Vec::new();
    put_study(&mut study, 0, 1, &[5, -5], &[0; 4]);
    let message = "host: op Y: the payload is no row of studies and files\n";
    refuses_cut_rows(b'Y', &study, &[1, 15, 16, 24, 31], message);
    let mut host = Host::start();
    assert_eq!(host.call(b'Y', &study).len(), 18);
    assert!(host.end().0.success());
}
