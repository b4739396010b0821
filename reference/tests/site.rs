//! What the proved library says of a file's site beside the reference, over the C surface: every number returned,
//! and what everything lent holds after the call.

mod frames;
mod host;

use frames::{put_file, said_units, shown, Met, Rest, FRAME};
use host::{refuses_cut_rows, Host, LEFT_ALONE};
use yesbrulka_reference::connection::Connection;
use yesbrulka_reference::controller::Settings;
use yesbrulka_reference::ranges::{MOST_BYTES, UNITS};
use yesbrulka_reference::samples::{currents, limits, older, roofs, seasons, sticks, units, Draw};
use yesbrulka_reference::site::{self, Site};
use yesbrulka_reference::stick::{Run, MISSING};
use yesbrulka_reference::storage::Unit;

/// What the host leaves in out-numbers that a call did not write, by their widths.
const LEFT_1: u8 = LEFT_ALONE as u8;
const LEFT_2: u16 = LEFT_ALONE as u16;
const LEFT_4: u32 = LEFT_ALONE as u32;
const LEFT_8: u64 = (LEFT_ALONE as u64) << 32 | LEFT_ALONE as u64;

const SETTINGS_LEFT: Settings = Settings { mode: LEFT_1, target: LEFT_ALONE, band: LEFT_4, factor: LEFT_2 };

const UNIT_LEFT: Unit = Unit {
    rated: LEFT_8,
    reserve: LEFT_8,
    stored: LEFT_8,
    rating: LEFT_4,
    kva: LEFT_4,
    idle_loss: LEFT_4,
    var_request: LEFT_ALONE,
    weight: LEFT_2,
    inverter: LEFT_2,
    charge: LEFT_2,
    discharge: LEFT_2,
    priority: LEFT_1,
    provide: LEFT_4,
    absorb: LEFT_4,
};

/// What `yb_units`, `yb_inverters` and `yb_seconds` return, and what `yb_settings` returns and leaves behind.
#[derive(Debug, PartialEq)]
struct SiteLeft {
    units: u32,
    inverters: u32,
    seconds: u32,
    number: u32,
    disturbed: u8,
    settings: Settings,
    phase: u8,
}

/// What `yb_unit` returns and leaves behind, and then what `yb_var_limits` does; the limits are those of the second.
#[derive(Debug, PartialEq)]
struct UnitLeft {
    numbers: [u32; 2],
    disturbed: [u8; 2],
    unit: Unit,
}

/// What `yb_connection` returns and leaves behind.
#[derive(Debug, PartialEq)]
struct ConnectionLeft {
    number: u32,
    disturbed: u8,
    connection: Connection,
}

fn expected_site(site: &Result<Site, u32>) -> SiteLeft {
    match site {
        Ok(Site { seconds, units, settings, phase, inverters, .. }) => SiteLeft {
            units: units.len() as u32,
            inverters: inverters.len() as u32,
            seconds: *seconds,
            number: 0,
            disturbed: 0,
            settings: *settings,
            phase: *phase,
        },
        Err(number) => SiteLeft {
            units: 0,
            inverters: 0,
            seconds: 0,
            number: *number,
            disturbed: 0,
            settings: SETTINGS_LEFT,
            phase: LEFT_1,
        },
    }
}

fn expected_unit(site: &Result<Site, u32>, number: u32) -> UnitLeft {
    let found = site.as_ref().map_err(|&refused| refused).and_then(|site| site.unit(number));
    let (number, unit) = match found {
        Ok(unit) => (0, unit),
        Err(refused) => (refused, UNIT_LEFT),
    };
    UnitLeft { numbers: [number; 2], disturbed: [0; 2], unit }
}

fn expected_connection(site: &Result<Site, u32>, number: u32) -> ConnectionLeft {
    let found = site.as_ref().map_err(|&refused| refused).and_then(|site| site.connection(number));
    let (number, connection) = match found {
        Ok(connection) => (0, connection),
        Err(refused) => (refused, Connection { phases: LEFT_1, volts: LEFT_2 }),
    };
    ConnectionLeft { number, disturbed: 0, connection }
}

fn left_site(rest: &mut Rest) -> SiteLeft {
    SiteLeft {
        units: u32::from_le_bytes(rest.take()),
        inverters: u32::from_le_bytes(rest.take()),
        seconds: u32::from_le_bytes(rest.take()),
        number: u32::from_le_bytes(rest.take()),
        disturbed: u8::from_le_bytes(rest.take()),
        settings: Settings {
            mode: u8::from_le_bytes(rest.take()),
            target: i32::from_le_bytes(rest.take()),
            band: u32::from_le_bytes(rest.take()),
            factor: u16::from_le_bytes(rest.take()),
        },
        phase: u8::from_le_bytes(rest.take()),
    }
}

fn left_unit(rest: &mut Rest) -> UnitLeft {
    let (number, disturbed) = (u32::from_le_bytes(rest.take()), u8::from_le_bytes(rest.take()));
    let unit = Unit {
        rated: u64::from_le_bytes(rest.take()),
        reserve: u64::from_le_bytes(rest.take()),
        stored: u64::from_le_bytes(rest.take()),
        rating: u32::from_le_bytes(rest.take()),
        kva: u32::from_le_bytes(rest.take()),
        idle_loss: u32::from_le_bytes(rest.take()),
        var_request: i32::from_le_bytes(rest.take()),
        weight: u16::from_le_bytes(rest.take()),
        inverter: u16::from_le_bytes(rest.take()),
        charge: u16::from_le_bytes(rest.take()),
        discharge: u16::from_le_bytes(rest.take()),
        priority: u8::from_le_bytes(rest.take()),
        provide: LEFT_4,
        absorb: LEFT_4,
    };
    let numbers = [number, u32::from_le_bytes(rest.take())];
    let disturbed = [disturbed, u8::from_le_bytes(rest.take())];
    let (provide, absorb) = (u32::from_le_bytes(rest.take()), u32::from_le_bytes(rest.take()));
    UnitLeft { numbers, disturbed, unit: Unit { provide, absorb, ..unit } }
}

fn left_connection(rest: &mut Rest) -> ConnectionLeft {
    ConnectionLeft {
        number: u32::from_le_bytes(rest.take()),
        disturbed: u8::from_le_bytes(rest.take()),
        connection: Connection {
            phases: u8::from_le_bytes(rest.take()),
            volts: u16::from_le_bytes(rest.take()),
        },
    }
}

fn put_unit_numbers(payload: &mut Vec<u8>, numbers: &[u32], file: &[u8]) {
    payload.extend((numbers.len() as u32).to_le_bytes());
    payload.extend(numbers.iter().flat_map(|number| number.to_le_bytes()));
    put_file(payload, file);
}

/// Unit numbers about a fleet's size and about the most units, and such as are within the fleet by some of
/// their bytes alone.
fn about(file: &[u8]) -> Vec<u32> {
    let units = said_units(file) as u32;
    let last = units.saturating_sub(1);
    let mut numbers = vec![0, last, units, last / 2, 63, 64, 255, 256, 256 + last, u32::MAX];
    numbers.extend([1 << 16 | last, 1 << 24, 1 << 31 | last]);
    numbers
}

/// A file, what the reference says of its site, and the unit numbers that it is asked for.
struct Asked {
    file: Vec<u8>,
    site: Result<Site, u32>,
    numbers: Vec<u32>,
}

/// A host, the frames that grow for it, and what its answers were.
struct Sites {
    host: Host,
    /// The files by themselves, and with their unit numbers.
    payload: [Vec<u8>; 2],
    files: Vec<Asked>,
    met: Met,
    all: u32,
    units: u32,
    wrong: u32,
}

impl Sites {
    fn start() -> Sites {
        Sites {
            host: Host::start(),
            payload: [Vec::new(), Vec::new()],
            files: Vec::new(),
            met: Met::default(),
            all: 0,
            units: 0,
            wrong: 0,
        }
    }

    /// Asks the archive and the reference for a file's site and for these units; gives the number of the check.
    fn ask(&mut self, file: impl Into<Vec<u8>>, numbers: impl IntoIterator<Item = u32>) -> u32 {
        let file = file.into();
        let numbers: Vec<u32> = numbers.into_iter().collect();
        let site = site::of(&file);
        if let Ok(Site { edition, units, settings, phase, connections, inverters, .. }) = &site {
            self.met.note(
                "connections in a mode",
                10 * u32::from(settings.mode) + u32::from(!connections.is_empty()),
            );
            self.met.note("edition", (*edition).into());
            self.met.note("units", units.len() as u32);
            self.met.note("inverters", inverters.len() as u32);
            self.met.note("mode and phase", u32::from(settings.mode) * 10 + u32::from(*phase));
        }
        let number = site.as_ref().err().copied().unwrap_or(0);
        self.met.note("number", number);
        put_file(&mut self.payload[0], &file);
        put_unit_numbers(&mut self.payload[1], &numbers, &file);
        self.files.push(Asked { file, site, numbers });
        if self.payload[1].len() > FRAME {
            self.compare();
        }
        number
    }

    /// The same for the usual unit numbers.
    fn site(&mut self, file: impl Into<Vec<u8>>) -> u32 {
        let file = file.into();
        let numbers = about(&file);
        self.ask(file, numbers)
    }

    /// The same of a file that is accepted.
    fn site_of(&mut self, run: &Run) {
        assert_eq!(self.site(sticks::file(run)), 0, "the reference refused a run");
    }

    fn compare(&mut self) {
        let sites = self.host.call(b'F', &self.payload[0]);
        let units = self.host.call(b'U', &self.payload[1]);
        let connections = self.host.call(b'N', &self.payload[1]);
        let (mut sites, mut units, mut connections) = (Rest(&sites), Rest(&units), Rest(&connections));
        for Asked { file, site, numbers } in self.files.drain(..) {
            let mut differ = Vec::new();
            let (got, expected) = (left_site(&mut sites), expected_site(&site));
            if got != expected {
                differ.push(format!("  archive   {got:?}\n  reference {expected:?}"));
            }
            for number in numbers {
                let (got, expected) = (left_unit(&mut units), expected_unit(&site, number));
                if got != expected {
                    differ.push(format!("  unit {number}\n  archive   {got:?}\n  reference {expected:?}"));
                }
                let (got, connected) =
                    (left_connection(&mut connections), expected_connection(&site, number));
                if got != connected {
                    differ.push(format!("  unit {number}\n  archive   {got:?}\n  reference {connected:?}"));
                }
                self.met.note("connection number", connected.number);
                self.units += 1;
                self.met.note("unit number", expected.numbers[0]);
                if expected.numbers[0] == 0 {
                    let Unit { kva, provide, absorb, .. } = expected.unit;
                    self.met.note("a limit below S", u32::from(provide < kva) + 2 * u32::from(absorb < kva));
                }
            }
            self.all += 1;
            if !differ.is_empty() {
                self.wrong += 1;
                if self.wrong <= 5 {
                    eprintln!("{}\n{}", shown(&file), differ[..differ.len().min(3)].join("\n"));
                }
            }
        }
        let rest = [sites.0, units.0, connections.0].concat();
        assert!(rest.is_empty(), "no answer but for a file and its units");
        self.payload.iter_mut().for_each(Vec::clear);
    }

    /// Compares what is left, of no fewer files and units than these, and gives what was met.
    fn end(mut self, least_files: u32, least_units: u32) -> Met {
        self.compare();
        assert!(self.host.end().0.success(), "the host ended badly");
        assert_eq!(self.wrong, 0, "files with wrong answers, of {}", self.all);
        assert!(
            self.all >= least_files && self.units >= least_units,
            "{} files, {} units",
            self.all,
            self.units
        );
        println!("{} files, {} units", self.all, self.units);
        self.met
    }
}

#[test]
fn the_whole_case() {
    let run = sticks::whole_case();
    let file = sticks::file(&run);
    let site = site::of(&file);
    let settings = Settings { mode: 1, target: 0, band: 0, factor: 1_000 };
    let said = SiteLeft { units: 1, inverters: 0, seconds: 60, number: 0, disturbed: 0, settings, phase: 0 };
    assert_eq!(expected_site(&site), said);
    let first = UnitLeft { numbers: [0; 2], disturbed: [0; 2], unit: run.site.units[0] };
    assert_eq!((first.unit.provide, first.unit.absorb), (5_000, 5_000));
    assert_eq!(expected_unit(&site, 0), first);
    let none = UnitLeft { numbers: [10; 2], disturbed: [0; 2], unit: UNIT_LEFT };
    assert_eq!(expected_unit(&site, 1), none);

    let mut sites = Sites::start();
    sites.site(&file[..]);
    sites.site(&file[..9]);
    sites.site([]);
    let met = sites.end(3, 39);
    met.more_than(0, "number", [0, 8]);
}

#[test]
fn complete_files_of_every_fleet_size() {
    let mut draw = Draw::from_seed(601);
    let mut sites = Sites::start();
    for units in 1..=64 {
        for round in 0..60 {
            let steps = if round % 4 == 0 { 0 } else { draw.below(7) as usize };
            sites.site_of(&match round % 3 {
                0 => seasons::run(units, steps, &mut draw),
                _ => sticks::run(units, steps, &mut draw),
            });
        }
    }
    let met = sites.end(3_840, 49_920);
    met.more_than(50, "units", 1..=64);
    for mode in 1..=3 {
        met.more_than(100, "mode and phase", (0..=5).map(|phase| 10 * mode + phase));
    }
    met.more_than(10_000, "unit number", [0, 10]);
}

/// Files with every number of inverters, complete, cut and damaged.
#[test]
fn files_with_inverters() {
    let mut draw = Draw::from_seed(609);
    let mut sites = Sites::start();
    for inverters in 0..=64 {
        for round in 0..12 {
            let (units, steps) = (1 + draw.below(3) as usize, draw.below(4) as usize);
            let run = roofs::run(units, inverters, steps, &mut draw);
            sites.site_of(&run);
            if round == 0 {
                let file = sticks::file(&run);
                assert_ne!(sites.site(&file[..file.len() - 1]), 0);
                assert_eq!(sites.site([&file[..], &[0]].concat()), 9);
            }
        }
    }
    let mut run = roofs::run(2, 64, 1, &mut draw);
    run.site.inverters.push(run.site.inverters[0].clone());
    assert_eq!(sites.site(sticks::file(&run)), 4);
    for round in 0..6_000 {
        sites.site(match round % 3 {
            0 => roofs::shuffled_file(&mut draw),
            _ => roofs::damaged_file(&mut draw),
        });
    }
    let met = sites.end(6_900, 89_000);
    met.more_than(10, "inverters", 0..=64);
    met.more_than(100, "number", [0, 2, 3, 4, 5, 6]);
}

/// Files of every edition, with inverters and without: complete, cut, damaged, and in another edition than theirs.
#[test]
fn files_with_limits() {
    let mut draw = Draw::from_seed(620);
    let mut sites = Sites::start();
    for units in 1..=64 {
        for round in 0..40 {
            let (inverters, steps) = (round % 3, draw.below(4) as usize);
            let run = older::run(units, inverters, steps, &mut draw);
            assert_eq!(sites.ask(sticks::file(&run), 0..units as u32 + 1), 0);
            if round == 0 {
                let file = sticks::file(&run);
                assert_ne!(sites.site(&file[..file.len() - 1]), 0);
                assert_eq!(sites.site([&file[..], &[0]].concat()), 9);
            }
        }
    }
    for _ in 0..200 {
        let run = older::run(2, 1, 1, &mut draw);
        let fields = sticks::fields(&run);
        for edition in [0, 1, 2, 3, 4, 255] {
            let number = sites.site(sticks::bytes(&limits::in_edition(edition, &fields)));
            assert_eq!(number, older::number_in(edition, &run));
        }
        let limited = older::limited(roofs::run(2, 1, 1, &mut draw), &mut draw);
        for end in older::ends(limited.site.edition) {
            sites.site_of(&sticks::with_unit(&limited, 1, end));
        }
        for spoil in older::bad_values(limited.site.edition) {
            assert_eq!(sites.site(sticks::file(&sticks::with_unit(&limited, 1, spoil))), 5);
        }
    }
    for round in 0..12_000 {
        sites.site(match round % 4 {
            0 => older::shuffled_file(&mut draw),
            _ => older::damaged_file(&mut draw),
        });
    }
    let met = sites.end(20_000, 300_000);
    met.more_than(500, "edition", 1..=3);
    met.more_than(5_000, "a limit below S", 0..=3);
    met.more_than(100, "number", [0, 1, 2, 3, 4, 5, 6, 7, 8, 9]);
}

/// Files of every mode with connections and of modes 1 to 3 without: complete, cut, damaged, and with their connections
/// left out.
#[test]
fn files_with_connections() {
    let mut draw = Draw::from_seed(621);
    let mut sites = Sites::start();
    for units in 1..=64 {
        for mode in 1..=5 {
            for round in 0..6 {
                let steps = draw.below(4) as usize;
                let run = currents::run_in(&[mode], units, round % 2, steps, &mut draw);
                assert_eq!(sites.ask(sticks::file(&run), 0..units as u32 + 1), 0);
                let without = sticks::with(&run, |run| run.site.connections.clear());
                assert_eq!(sites.site(sticks::file(&without)), if mode > 3 { 4 } else { 0 });
            }
        }
        let file = sticks::file(&currents::run(units, 0, 2, &mut draw));
        assert_ne!(sites.site(&file[..file.len() - 1]), 0);
        assert_eq!(sites.site([&file[..], &[0]].concat()), 9);
    }
    for round in 0..12_000 {
        sites.site(match round % 4 {
            0 => currents::shuffled_file(&mut draw),
            _ => currents::damaged_file(&mut draw),
        });
    }
    let met = sites.end(15_900, 240_000);
    met.more_than(200, "connections in a mode", [10, 11, 20, 21, 30, 31, 41, 51]);
    met.more_than(10_000, "connection number", [0, 10]);
    met.more_than(1_000, "connection number", [3, 4, 5]);
    met.more_than(100, "number", 0..=9);
}

/// Every number that a byte can say and some more, of complete files of every size and of refused ones.
#[test]
fn unit_numbers_one_by_one() {
    let mut draw = Draw::from_seed(602);
    let mut sites = Sites::start();
    for units in (1..=64).chain(1..=64) {
        let steps = draw.below(4) as usize;
        let run = sticks::run(units, steps, &mut draw);
        assert_eq!(sites.ask(sticks::file(&run), 0..=320), 0);
    }
    let mut refused = 0;
    while refused < 60 {
        let file = match refused % 3 {
            0 => sticks::shuffled_file(&mut draw),
            1 => sticks::damaged_file(&mut draw),
            _ => {
                let units = 1 + draw.below(64) as usize;
                let mut file = sticks::file(&sticks::run(units, 2, &mut draw));
                file.pop();
                file
            }
        };
        refused += u32::from(sites.ask(file, 0..=320) != 0);
    }
    let met = sites.end(188, 188 * 321);
    met.more_than(1, "units", 1..=64);
    met.more_than(4_000, "unit number", [0, 10]);
}

/// Each value of each field at the ends of its range and beside them, in fleets of every size.
#[test]
fn files_with_values_at_their_ends_or_beside_them() {
    let mut draw = Draw::from_seed(603);
    let mut sites = Sites::start();
    for round in 0..48 {
        let count = if round % 4 == 0 { 1 + draw.below(64) as usize } else { 1 + draw.below(3) as usize };
        let run = sticks::run(count, 2, &mut draw);
        let any = draw.below(count as u64) as usize;
        let unit = draw.one_of(&[0, any, count - 1]);
        let mut ask = |number, file: Vec<u8>| {
            let numbers = about(&file).into_iter().chain([unit as u32]);
            assert_eq!(sites.ask(file, numbers), number);
        };
        for end in units::ENDS {
            ask(0, sticks::file(&sticks::with_unit(&run, unit, end)));
        }
        for spoil in units::BAD_VALUES {
            ask(5, sticks::file(&sticks::with_unit(&run, unit, spoil)));
        }
        for end in sticks::SETTINGS_ENDS {
            ask(0, sticks::file(&sticks::with(&run, end)));
        }
        for spoil in sticks::BAD_SETTINGS {
            ask(5, sticks::file(&sticks::with(&run, spoil)));
        }
        let fields = sticks::fields(&run);
        for fleet in sticks::bad_fleets(&run) {
            ask(5, sticks::bytes(&[&[fleet], &fields[1..]].concat()));
        }
        // All that is said of the site is good, and what comes after it is not.
        for count in sticks::bad_counts(2) {
            let end = sticks::end_field(count);
            ask(7, sticks::bytes(&[&fields[..fields.len() - 1], &[end]].concat()));
        }
        for bits in sticks::bad_powers(&mut draw) {
            let (step, phase) = (draw.below(3) as usize, draw.below(3) as usize);
            let bad = sticks::bad_reading(phase, bits, &mut draw);
            ask(6, sticks::file(&sticks::with(&run, |run| run.readings.insert(step, bad))));
        }
        ask(9, [sticks::file(&run), vec![0]].concat());
    }
    let met = sites.end(6_500, 90_000);
    met.more_than(40, "number", [0, 5, 6, 7, 9]);
}

/// The fleet says another number of units than there are.
#[test]
fn files_with_another_unit_count() {
    let mut draw = Draw::from_seed(604);
    let mut sites = Sites::start();
    for units in 1..=64usize {
        let run = sticks::run(units, 1, &mut draw);
        let fields = sticks::fields(&run);
        let any = draw.any() as u8;
        for count in [0, 1, units as u8 - 1, units as u8, units as u8 + 1, 63, 64, 65, 128, 255, any] {
            let fleet = sticks::fleet_field(1, count, run.site.seconds);
            let file = sticks::bytes(&[&[fleet], &fields[1..]].concat());
            let numbers = about(&file).into_iter().chain([units as u32 - 1, units as u32]);
            let number = sites.ask(file, numbers);
            let right = match usize::from(count) {
                n if n == units => 0,
                n if UNITS.contains(&n) => 4,
                _ => 5,
            };
            assert_eq!(number, right);
        }
    }
    let met = sites.end(704, 704 * 15);
    met.more_than(60, "number", [0, 4, 5]);
}

/// Any bits in the fleet, in a unit or in the settings: those that are accepted are to be said as they are.
#[test]
fn files_with_any_bits_in_their_site() {
    let mut draw = Draw::from_seed(605);
    let mut sites = Sites::start();
    for _ in 0..9_000 {
        let units = draw.one_of(&[1, 1, 2, 3]);
        let mut fields = sticks::fields(&sticks::run(units, 0, &mut draw));
        let at = draw.below(units as u64 + 2) as usize;
        sticks::set_any_bits(&mut fields[at].value, &mut draw);
        sites.site(sticks::bytes(&fields));
    }
    let met = sites.end(9_000, 117_000);
    met.more_than(1_500, "number", [0, 5]);
}

/// A file whose bytes run out says nothing, wherever that is; and single bytes changed everywhere.
#[test]
fn files_cut_and_changed_at_every_byte() {
    let mut draw = Draw::from_seed(606);
    let mut sites = Sites::start();
    for units in [1, 1, 2, 3, 20] {
        let file = sticks::file(&sticks::run(units, 3, &mut draw));
        for length in 0..file.len() {
            assert_ne!(sites.site(&file[..length]), 0);
        }
    }
    for units in [1, 1, 1, 2, 3] {
        let file = sticks::file(&sticks::run(units, 4, &mut draw));
        for place in 0..file.len() {
            let any = 1 + draw.below(255) as u8;
            for change in (0..8).map(|bit| 1 << bit).chain([0xFF, any]) {
                let mut file = file.clone();
                file[place] ^= change;
                sites.site(file);
            }
        }
    }
    let met = sites.end(8_000, 104_000);
    met.more_than(100, "number", [0, 1, 2, 3, 5, 6]);
    met.more_than(20, "number", [7, 8]);
}

#[test]
fn damaged_files() {
    let mut draw = Draw::from_seed(607);
    let mut sites = Sites::start();
    for round in 0..14_000 {
        sites.site(match round % 7 {
            0 => sticks::shuffled_file(&mut draw),
            1 => sticks::noise(80, &mut draw),
            2 => {
                // Damage to a fleet of any size.
                let (units, steps) = (1 + draw.below(64) as usize, draw.below(5) as usize);
                let mut fields = sticks::fields(&sticks::run(units, steps, &mut draw));
                let at = draw.below(fields.len() as u64) as usize;
                sticks::damage(&mut fields, at, &mut draw);
                sticks::bytes(&fields)
            }
            _ => sticks::damaged_file(&mut draw),
        });
    }
    let met = sites.end(14_000, 182_000);
    met.more_than(50, "number", 0..=8);
    met.more_than(20, "number", [9]);
}

/// As many steps and as many bytes as there can be, and more.
#[test]
fn the_largest_files() {
    let mut draw = Draw::from_seed(608);
    let mut sites = Sites::start();
    for units in [1, 64] {
        let complete = sticks::file(&sticks::run(units, 0, &mut draw));
        let head = &complete[..complete.len() - 7];
        let steps = |count: u32| {
            let end = sticks::bytes(&[sticks::end_field(count)]);
            [head, &[MISSING, 0, 0].repeat(count as usize), &end].concat()
        };
        let last = units as u32 - 1;
        assert_eq!(sites.ask(steps(65_535), [0, last, last + 1]), 0);
        assert_eq!(sites.ask(steps(65_536), [0, last, last + 1]), 12);
        let mut large = complete;
        large.resize(MOST_BYTES, 0);
        assert_eq!(sites.ask(large.clone(), [0, last, last + 1]), 9);
        large.push(0);
        assert_eq!(sites.ask(large, [0, last, last + 1]), 12);
    }
    sites.end(8, 24).more_than(3, "number", [12]);
}

/// The comparison is worth nothing if the host answers frames that it has not understood.
#[test]
fn the_host_takes_no_malformed_site() {
    let (mut site, mut units) = (Vec::new(), Vec::new());
    put_file(&mut site, &[0; 4]);
    put_unit_numbers(&mut units, &[0, 1], &[0; 4]);
    let connections = units.clone();
    let rows = [
        (b'F', site, &[1, 4, 7][..], 29, "host: op F: the payload is no row of files\n"),
        (
            b'U',
            units,
            &[1, 4, 11, 12, 19],
            134,
            "host: op U: the payload is no row of unit numbers and files\n",
        ),
        (
            b'N',
            connections,
            &[1, 4, 11, 12, 19],
            16,
            "host: op N: the payload is no row of unit numbers and files\n",
        ),
    ];
    for (op, payload, cuts, answer, message) in rows {
        refuses_cut_rows(op, &payload, cuts, message);
        let mut host = Host::start();
        assert_eq!(host.call(op, &payload).len(), answer);
        assert!(host.end().0.success());
    }
}
