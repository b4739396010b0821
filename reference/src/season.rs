//! The season: a run over all steps of a file, and the result file.

use crate::controller::Passed;
use crate::octets::{put_f64, put_i32, put_u16, put_u32, put_u64, put_u8};
use crate::reading::{kw, Reading};
use crate::site::Site;
use crate::solar::{Produced, Sun, DARK};
use crate::stick::{self, Answer, Run};
use crate::storage::{self, Stepped, Unit};
use crate::volt_var::{InverterStep, UnitStep};
use crate::ROOM_TOO_SHORT;

pub const RECORD: u8 = 0x11;
pub const SOLAR: u8 = 0x12;
pub const LAST: u8 = 0x1F;

/// The lengths of their values.
const RECORD_LENGTH: u16 = 37;
const SOLAR_LENGTH: u16 = 26;
const LAST_LENGTH: u16 = 4;

/// What one unit was asked in a step, and what became of it.
#[derive(Clone, Copy, Debug, PartialEq, Eq)]
pub struct Record {
    /// From 0.
    pub step: u32,
    /// From 0.
    pub unit: u8,
    /// As the controller left it, also where it is beyond what the unit can do.
    pub request: i32,
    /// The vars that were requested, also where they are beyond what the unit can do; no part of the result.
    pub vars_asked: i32,
    pub stepped: Stepped,
}

/// What one inverter did in a step.
#[derive(Clone, Copy, Debug, PartialEq, Eq)]
pub struct SolarRecord {
    /// From 0.
    pub step: u32,
    /// From 0.
    pub inverter: u8,
    /// The vars that were requested, also of an inverter that is off; no part of the result.
    pub vars_asked: i32,
    pub produced: Produced,
}

/// One step of a site: what the pass reported, none where the reading is missing, a record of each unit, and one of
/// each inverter.
#[derive(Clone, Debug, PartialEq, Eq)]
pub struct Step {
    pub passed: Option<Passed>,
    pub records: Vec<Record>,
    pub solar: Vec<SolarRecord>,
}

/// What stands between two steps: of each unit its store, its request and the vars last requested; and of each inverter
/// whether it is on, and the vars last requested. Without a function these are the own var requests, and are not used.
#[derive(Clone, Debug, PartialEq, Eq)]
pub struct Standing {
    pub stored: Vec<u64>,
    pub requests: Vec<i32>,
    pub unit_vars: Vec<i32>,
    pub on: Vec<bool>,
    pub inverter_vars: Vec<i32>,
}

impl Standing {
    /// Before the first step: the stores of the units' fields, requests of zero, inverters that are off, and the var
    /// requests of the fields.
    pub fn at_first(site: &Site) -> Standing {
        Standing {
            stored: site.units.iter().map(|unit| unit.stored).collect(),
            requests: vec![0; site.units.len()],
            unit_vars: site.units.iter().map(|unit| unit.var_request).collect(),
            on: vec![false; site.inverters.len()],
            inverter_vars: site.inverters.iter().map(|inverter| inverter.var_request).collect(),
        }
    }
}

/// What a step has beside its reading: its sun, and its voltage where there is one.
#[derive(Clone, Copy, Debug, PartialEq, Eq)]
pub struct Around {
    pub sun: Sun,
    pub voltage: Option<u16>,
}

/// One step of a site from what stands, which becomes what stands after it: the reading is one pass, or none where it is
/// missing; then comes one step of every unit, and then one of every inverter in the step's sun. A function leads the
/// vars of both.
///
/// # Panics
///
/// If a value is outside its range, which no accepted file's is.
pub fn step(site: &Site, standing: &mut Standing, step: u32, reading: &Reading, around: Around) -> Step {
    let Standing { stored, requests, .. } = standing;
    let with_store = |(unit, &stored): (&Unit, &u64)| Unit { stored, ..*unit };
    let units: Vec<Unit> = site.units.iter().zip(&*stored).map(with_store).collect();
    let measure = reading.measure(site.phase).expect("an accepted reading converts");
    let passed =
        measure.map(|measure| site.pass(measure, &units, requests).expect("an accepted fleet takes a pass"));
    let mut records = Vec::new();
    for (i, unit) in units.iter().enumerate() {
        let (stepped, vars_asked) = step_unit(site, standing, i, unit, around.voltage);
        records.push(Record { step, unit: i as u8, request: standing.requests[i], vars_asked, stepped });
    }
    let mut solar = Vec::new();
    for i in 0..site.inverters.len() {
        let (produced, vars_asked) = step_inverter(site, standing, i, around);
        solar.push(SolarRecord { step, inverter: i as u8, vars_asked, produced });
    }
    Step { passed, records, solar }
}

/// The step of the unit of a number, with the store that stands: what it leaves, and the vars requested. Its store and
/// under a function these vars stand next.
fn step_unit(
    site: &Site,
    standing: &mut Standing,
    i: usize,
    unit: &Unit,
    voltage: Option<u16>,
) -> (Stepped, i32) {
    let Site { edition, seconds, .. } = *site;
    let request = standing.requests[i];
    let (stepped, vars) = match &site.function {
        None => {
            let stepped = storage::step_as(edition, seconds, unit, request);
            (stepped.expect("a pass keeps to the ratings"), unit.var_request)
        }
        Some(function) => {
            let step = UnitStep { edition, seconds, unit, request };
            let left = function.step_unit(step, voltage, standing.unit_vars[i]);
            standing.unit_vars[i] = left.1;
            left
        }
    };
    standing.stored[i] = stepped.stored;
    (stepped, vars)
}

/// The same of an inverter: whether it is on, and under a function the vars requested, stand next.
fn step_inverter(site: &Site, standing: &mut Standing, i: usize, around: Around) -> (Produced, i32) {
    let (inverter, on) = (&site.inverters[i], standing.on[i]);
    let (produced, vars) = match &site.function {
        None => (inverter.produce(around.sun, on), inverter.var_request),
        Some(function) => {
            let step = InverterStep { inverter, sun: around.sun, on };
            let left = function.step_inverter(step, around.voltage, standing.inverter_vars[i]);
            standing.inverter_vars[i] = left.1;
            left
        }
    };
    standing.on[i] = produced.on;
    (produced, vars)
}

/// The steps of a run that an accepted file says, in order. Requests start at zero and inverters start off.
///
/// # Panics
///
/// If a value is outside its range, which no accepted file's is.
pub fn each_step(run: &Run) -> impl Iterator<Item = Step> + '_ {
    let mut standing = Standing::at_first(&run.site);
    run.readings.iter().enumerate().map(move |(number, reading)| {
        let weather = run.weather_of(number);
        let sun = weather.map_or(DARK, |weather| weather.converted().expect("an accepted weather converts"));
        let around = Around { sun, voltage: run.voltage_of(number) };
        step(&run.site, &mut standing, number as u32, reading, around)
    })
}

/// All of them.
pub fn steps(run: &Run) -> Vec<Step> {
    each_step(run).collect()
}

fn put_record(result: &mut Vec<u8>, record: &Record) {
    put_u8(result, RECORD);
    put_u16(result, RECORD_LENGTH);
    put_u32(result, record.step);
    put_u8(result, record.unit);
    put_i32(result, record.request);
    put_f64(result, kw(record.stepped.watts));
    put_i32(result, record.stepped.vars);
    put_u64(result, record.stepped.stored);
    put_u64(result, record.stepped.loss);
}

fn put_solar(result: &mut Vec<u8>, record: &SolarRecord) {
    put_u8(result, SOLAR);
    put_u16(result, SOLAR_LENGTH);
    put_u32(result, record.step);
    put_u8(result, record.inverter);
    put_u8(result, record.produced.on.into());
    put_f64(result, kw(record.produced.watts));
    put_i32(result, record.produced.vars);
    put_u64(result, record.produced.dc);
}

/// The records of a step, after what is written already.
pub fn put_step(result: &mut Vec<u8>, step: &Step) {
    step.records.iter().for_each(|record| put_record(result, record));
    step.solar.iter().for_each(|record| put_solar(result, record));
}

/// The end of a result of so many steps.
pub fn put_last(result: &mut Vec<u8>, steps: u32) {
    put_u8(result, LAST);
    put_u16(result, LAST_LENGTH);
    put_u32(result, steps);
}

/// The result file of a run's steps.
pub fn result(steps: &[Step]) -> Vec<u8> {
    let mut result = Vec::new();
    steps.iter().for_each(|step| put_step(&mut result, step));
    put_last(&mut result, steps.len() as u32);
    result
}

/// The bytes of a run's result.
fn length(run: &Run) -> usize {
    (40 * run.site.units.len() + 29 * run.site.inverters.len()) * run.readings.len() + 7
}

/// The bytes of room that a file's result needs; 0 for a refused file.
pub fn room_needed(file: &[u8]) -> u64 {
    stick::read(file).map_or(0, |run| length(&run) as u64)
}

/// What an accepted file says, if a room of so many bytes holds its result; or the refusal.
pub fn accepted(file: &[u8], room: usize) -> Result<Run, Answer> {
    let run = stick::read(file)?;
    if room < length(&run) {
        let steps = run.readings.len() as u32;
        return Err(Answer { number: ROOM_TOO_SHORT, place: file.len() as u64, steps });
    }
    Ok(run)
}

/// The whole run: from a file and the length of the lent room to the result's bytes, or to the refusal.
pub fn run(file: &[u8], room: usize) -> Result<Vec<u8>, Answer> {
    accepted(file, room).map(|run| result(&steps(&run)))
}

#[cfg(test)]
mod tests {
    use super::*;
    use crate::connection::Connection;
    use crate::controller::Settings;
    use crate::curve::Curve;
    use crate::octets::{f64_at, i32_at, u16_at, u32_at, u64_at, u8_at};
    use crate::reading::Phases;
    use crate::samples::inverters::document_inverter;
    use crate::samples::sticks::{self, whole_case};
    use crate::samples::units::figure_unit;
    use crate::samples::{currents, limits, older, roofs, seasons, voltages, Draw};
    use crate::solar::{self, Inverter, Weather};
    use crate::volt_var::Function;

    fn hex(bytes: &[u8]) -> String {
        bytes.iter().map(|byte| format!("{byte:02X}")).collect()
    }

    /// A reading of so many kW on the first phase.
    fn power(kw: f64) -> Reading {
        Reading::Power(Phases { first: kw, second: 0.0, third: 0.0 })
    }

    #[test]
    fn the_whole_case() {
        let file = sticks::file(&whole_case());
        let expected = concat!(
            "110025000000000000000000BFF000000000000000000000000000000036EE80000000000000EA60",
            "1F000400000001"
        );
        assert_eq!(room_needed(&file), 47);
        assert_eq!(hex(&run(&file, 47).unwrap()), expected);
        assert_eq!(hex(&run(&file, usize::MAX).unwrap()), expected);
    }

    #[test]
    fn zero_steps() {
        let file = sticks::file(&sticks::with(&whole_case(), |run| run.readings.clear()));
        assert_eq!(room_needed(&file), 7);
        assert_eq!(hex(&run(&file, 7).unwrap()), "1F000400000000");
        assert_eq!(run(&file, 6), Err(Answer { number: 11, place: file.len() as u64, steps: 0 }));
    }

    #[test]
    fn a_room_one_byte_short_is_refused_after_the_whole_file_is_accepted() {
        let file = sticks::file(&whole_case());
        for room in [0, 1, 7, 40, 46] {
            assert_eq!(run(&file, room), Err(Answer { number: 11, place: file.len() as u64, steps: 1 }));
        }
        let mut wrong = file.clone();
        wrong.push(0);
        assert_eq!((run(&wrong, 0), room_needed(&wrong)), (Err(stick::check(&wrong)), 0));
        assert_eq!(stick::check(&wrong).number, 9);
        assert_eq!((run(&[], 100), room_needed(&[])), (Err(Answer { number: 8, place: 0, steps: 0 }), 0));
    }

    /// A site that buys by current, two units alike but for their connections: 10 A above the target call one for half
    /// of 2,300 W and the other for half of 6,900 W; then the reading is missing, and then the current is below the
    /// target.
    #[test]
    fn a_run_by_current() {
        let of = |amperes: f64| Reading::Current(Phases::of([amperes, 0.0, 0.0]));
        let run = sticks::with(&whole_case(), |run| {
            let unit = Unit { idle_loss: 0, ..run.site.units[0] };
            run.site.units = vec![unit; 2];
            run.site.settings = Settings { mode: 4, target: 20_000, band: 100, factor: 1_000 };
            run.site.connections =
                vec![Connection { phases: 1, volts: 230 }, Connection { phases: 3, volts: 230 }];
            run.readings = vec![of(30.0), Reading::Missing, of(18.0), of(20.05)];
        });
        let all = steps(&run);
        assert_eq!(all, steps(&stick::read(&sticks::file(&run)).unwrap()));
        let asked: Vec<_> =
            all.iter().map(|step| step.records.iter().map(|r| r.request).collect::<Vec<_>>()).collect();
        assert_eq!(asked, [[1_150, 3_450], [1_150, 3_450], [920, 2_760], [920, 2_760]]);
        let needs: Vec<_> =
            all.iter().map(|step| step.passed.map(|passed| (passed.need, passed.rule))).collect();
        assert_eq!(needs, [Some((10_000, 6)), None, Some((-2_000, 6)), Some((50, 5))]);
        assert_eq!(all[0].records[1].stepped.stored, 3_600_000 - 60 * 3_450);
    }

    /// Connections in a mode of power change no byte of the result.
    #[test]
    fn connections_do_nothing_where_power_is_bought() {
        let mut draw = Draw::from_seed(89);
        for round in 0..300 {
            let run = currents::run_in(&[1, 2, 3], 1 + round % 4, round % 2, 5, &mut draw);
            let without = sticks::with(&run, |run| run.site.connections.clear());
            assert!(steps(&run) == steps(&without));
            assert_ne!(sticks::file(&run), sticks::file(&without));
        }
    }

    /// Requests and watts of each unit, step by step.
    fn asked_and_given(run: &Run) -> Vec<Vec<(i32, i32)>> {
        let of = |step: &Step| step.records.iter().map(|r| (r.request, r.stepped.watts)).collect();
        steps(run).iter().map(of).collect()
    }

    /// A missing first reading leaves the requests at zero, a later one leaves them as they stand.
    #[test]
    fn requests_stand_where_a_reading_is_missing() {
        let run = Run {
            site: Site {
                edition: 1,
                seconds: 60,
                units: vec![figure_unit(500_000)],
                settings: Settings { mode: 1, target: 700, band: 20, factor: 1_000 },
                phase: 0,
                connections: Vec::new(),
                inverters: Vec::new(),
                function: None,
            },
            readings: vec![
                Reading::Missing,
                power(1.1),
                Reading::Missing,
                power(0.6),
                Reading::Missing,
                power(0.2),
                Reading::Missing,
            ],
            weather: Vec::new(),
            voltages: Vec::new(),
        };
        // The idle draw is 12 W; a request of 400 W falls by what the load is below the target, and to 0.
        let asked = [0, 400, 400, 300, 300, 0, 0];
        let given = [-12, 400, 400, 300, 300, -12, -12];
        let both: Vec<_> = asked.into_iter().zip(given).map(|both| vec![both]).collect();
        assert_eq!(asked_and_given(&run), both);
        assert!(steps(&run)[2].passed.is_none());
    }

    /// The pass sees the stores that the step before left: the fleet stops when it has run empty.
    #[test]
    fn a_fleet_runs_down_to_its_reserve_and_stops() {
        let mut run = Run {
            site: Site {
                edition: 1,
                seconds: 60,
                units: vec![figure_unit(75_750 + 75_749)],
                settings: Settings { mode: 1, target: 0, band: 0, factor: 1_000 },
                phase: 1,
                connections: Vec::new(),
                inverters: Vec::new(),
                function: None,
            },
            readings: vec![power(0.9), power(0.0001), power(0.0001), power(1.0)],
            weather: Vec::new(),
            voltages: Vec::new(),
        };
        // The second step has one joule too few for 900 W and leaves some; the fleet is not yet exhausted.
        assert_eq!(asked_and_given(&run)[..2], [[(900, 900)], [(900, 899)]]);
        let left = steps(&run)[1].records[0].stepped.stored;
        assert!(left > 100_000);
        assert_eq!(asked_and_given(&run)[2..], [[(900, -12)], [(1_900, -12)]]);

        // Stored and reserve are equal after one step: rule 4 takes the request back.
        run.site.units = vec![figure_unit(75_750)];
        assert_eq!(asked_and_given(&run), [[(900, 900)], [(0, -12)], [(0, -12)], [(0, -12)]]);
        assert_eq!(steps(&run)[1].passed.unwrap().rule, 4);
    }

    /// The request of the record is the controller's, also beyond S.
    #[test]
    fn the_record_holds_the_request_and_not_what_is_left_of_it() {
        let unit = Unit { kva: 300, var_request: -400, ..figure_unit(500_000) };
        let run = Run {
            site: Site {
                edition: 1,
                seconds: 60,
                units: vec![unit, Unit { priority: 1, ..unit }],
                settings: Settings { mode: 2, target: 1_000, band: 0, factor: 1_000 },
                phase: 5,
                connections: Vec::new(),
                inverters: Vec::new(),
                function: None,
            },
            readings: vec![power(0.0)],
            weather: Vec::new(),
            voltages: Vec::new(),
        };
        let file = sticks::file(&run);
        let bytes = super::run(&file, 87).unwrap();
        let number = |at: usize| (u32_at(&bytes, at + 3), u8_at(&bytes, at + 7), i32_at(&bytes, at + 8));
        assert_eq!((number(0), number(40)), ((Some(0), Some(0), Some(500)), (Some(0), Some(1), Some(500))));
        assert_eq!((f64_at(&bytes, 12), i32_at(&bytes, 20)), (Some(0.3), Some(0)));
        assert_eq!((f64_at(&bytes, 52), i32_at(&bytes, 60)), (Some(-0.012), Some(-299)));
    }

    /// Every step goes on from the step before: its stores, and where a reading is missing its requests.
    #[test]
    fn each_step_goes_on_from_the_one_before() {
        let mut draw = Draw::from_seed(81);
        let (mut standing, mut moved) = (0, 0);
        for round in 0..600 {
            let run = seasons::run(1 + round % 8, 2 + round % 20, &mut draw);
            let steps = steps(&run);
            assert_eq!(steps.len(), run.readings.len());
            let mut stored: Vec<u64> = run.site.units.iter().map(|unit| unit.stored).collect();
            let mut requests = vec![0; run.site.units.len()];
            for (reading, step) in run.readings.iter().zip(&steps) {
                let new: Vec<i32> = step.records.iter().map(|record| record.request).collect();
                if let Reading::Missing = reading {
                    assert_eq!(new, requests);
                    standing += u32::from(new.iter().any(|&request| request != 0));
                }
                for (unit, record) in run.site.units.iter().zip(&step.records) {
                    let before = Unit { stored: stored[usize::from(record.unit)], ..*unit };
                    assert_eq!(storage::step(run.site.seconds, &before, record.request), Ok(record.stepped));
                    moved += u32::from(before.stored != record.stepped.stored);
                }
                stored = step.records.iter().map(|record| record.stepped.stored).collect();
                requests = new;
            }
        }
        assert!(standing > 500 && moved > 5_000, "{standing} {moved}");
    }

    /// The rules that hold for every file: the length, the order of the records, and the end.
    #[test]
    fn the_form_of_a_result() {
        let mut draw = Draw::from_seed(82);
        for units in 1..=64 {
            let count = draw.below(6) as usize;
            let run = seasons::run(units, count, &mut draw);
            let file = sticks::file(&run);
            let bytes = super::run(&file, 40 * units * count + 7).unwrap();
            assert_eq!((bytes.len(), room_needed(&file)), (40 * units * count + 7, bytes.len() as u64));
            for (i, record) in bytes.chunks(40).take(units * count).enumerate() {
                assert_eq!((u8_at(record, 0), u16_at(record, 1)), (Some(0x11), Some(37)));
                let place = (u32_at(record, 3).unwrap() as usize, usize::from(u8_at(record, 7).unwrap()));
                assert_eq!(place, (i / units, i % units));
                assert!(u64_at(record, 24).unwrap() <= run.site.units[i % units].rated);
            }
            let end = &bytes[bytes.len() - 7..];
            assert_eq!((&end[..3], u32_at(end, 3)), (&[0x1F, 0, 4][..], Some(count as u32)));
        }
    }

    /// The whole case with document 003's inverter on its roof: a step without weather, one at cut-in, one above it, one
    /// between the two and one without weather again.
    #[test]
    fn an_inverter_over_five_steps() {
        let sun = |irradiance| Some(Weather { irradiance, temperature: 50.0 });
        let run = sticks::with(&whole_case(), |run| {
            run.site.inverters = vec![document_inverter()];
            run.readings = vec![Reading::Missing; 5];
            run.weather = vec![None, sun(0.0888888), sun(0.6), sun(0.0666), None];
        });
        let file = sticks::file(&run);
        assert_eq!(room_needed(&file), 5 * (40 + 29) + 7);
        let bytes = super::run(&file, 352).unwrap();
        // 0.089 x 50 kW x 0.9 is 4,005 W, above cut-in; 0.067 is 3,015 W, between cut-out and cut-in.
        let made = [(0, 0, 0), (1, 3_444, 4_005), (1, 25_604, 27_000), (1, 2_592, 3_015), (0, 0, 0)];
        for (step, (on, watts, dc)) in made.into_iter().enumerate() {
            let record = &bytes[69 * step + 40..69 * step + 69];
            let kw = kw(watts).to_bits();
            let expected = format!("12001A{step:08X}00{on:02X}{kw:016X}00000000{dc:016X}");
            assert_eq!(hex(record), expected);
        }
        assert_eq!(hex(&bytes[345..]), "1F000400000005");
        assert_eq!(super::run(&file, 351), Err(Answer { number: 11, place: file.len() as u64, steps: 5 }));
    }

    /// Units do not see the sun: with inverters and weather their records are those of the run without.
    #[test]
    fn the_records_of_units_are_the_same_without_inverters() {
        let mut draw = Draw::from_seed(83);
        for round in 0..300 {
            let run = roofs::run(1 + round % 3, round % 7, round % 9, &mut draw);
            let plain = sticks::with(&run, |run| {
                run.site.inverters.clear();
                run.weather.clear();
            });
            let (all, plain) = (steps(&run), steps(&plain));
            assert_eq!(all.len(), plain.len());
            assert!(all.iter().zip(&plain).all(|(one, other)| one.records == other.records));
            assert!(plain.iter().all(|step| step.solar.is_empty()));
        }
    }

    /// Every inverter starts off and goes on from the step before, in a sun of none where a step has no weather.
    #[test]
    fn each_inverter_goes_on_from_the_step_before() {
        let mut draw = Draw::from_seed(84);
        let (mut dark, mut held) = (0, 0);
        for round in 0..600 {
            let run = roofs::plain_run(1, 1 + round % 5, 2 + round % 20, &mut draw);
            let mut on = vec![0; run.site.inverters.len()];
            for (k, step) in steps(&run).iter().enumerate() {
                assert_eq!(step.solar.len(), run.site.inverters.len());
                let none = Weather { irradiance: 0.0, temperature: -7.0 };
                let weather = run.weather_of(k).unwrap_or(none);
                for (i, record) in step.solar.iter().enumerate() {
                    assert_eq!((record.step, usize::from(record.inverter)), (k as u32, i));
                    let alone = solar::step(&run.site.inverters[i], weather, on[i]);
                    assert_eq!(alone, Ok(record.produced));
                    dark += u32::from(on[i] == 1 && run.weather_of(k).is_none());
                    held += u32::from(on[i] == 1 && record.produced.on);
                    on[i] = u8::from(record.produced.on);
                }
            }
        }
        assert!(dark > 500 && held > 1_000, "{dark} {held}");
    }

    /// Figure D4's unit over two steps without a reading, providing and absorbing.
    #[test]
    fn the_limits_of_a_file() {
        let of = |edition, var_request| {
            let run = sticks::with(&whole_case(), |run| {
                run.site.edition = edition;
                run.site.units = vec![Unit { var_request, ..limits::figure_unit() }];
            });
            let bytes = super::run(&sticks::file(&run), 47).unwrap();
            assert_eq!(f64_at(&bytes, 12), Some(0.0));
            i32_at(&bytes, 20).unwrap()
        };
        assert_eq!([of(2, 700), of(2, -700), of(2, 600), of(2, -299)], [600, -300, 600, -299]);
        assert_eq!([of(1, 700), of(1, -700), of(1, 1_001)], [700, -700, 1_000]);
    }

    /// A run of edition 1 gives the same bytes in edition 2 where both limits are S.
    #[test]
    fn limits_of_s_change_no_byte() {
        let mut draw = Draw::from_seed(86);
        for round in 0..600 {
            let run = roofs::run(1 + round % 4, round % 3, 1 + round % 9, &mut draw);
            let [one, two] = [1, 2].map(|edition| {
                let file = sticks::file(&sticks::with(&run, |run| run.site.edition = edition));
                super::run(&file, usize::MAX).unwrap()
            });
            assert!(one == two);
        }
    }

    /// A run of edition 3 that rests, gives and takes: the kW is that of the grid, and the idle loss is in the loss.
    #[test]
    fn the_older_model_of_a_file() {
        let of = |idle_loss, mode, reading| {
            let run = sticks::with(&whole_case(), |run| {
                (run.site.edition, run.site.settings.mode) = (3, mode);
                run.site.units = vec![Unit { idle_loss, ..figure_unit(500_000) }];
                run.readings = vec![reading];
            });
            let bytes = super::run(&sticks::file(&run), 47).unwrap();
            (f64_at(&bytes, 12).unwrap(), u64_at(&bytes, 24).unwrap(), u64_at(&bytes, 32).unwrap())
        };
        assert_eq!(of(10, 1, Reading::Missing), (-0.01, 600_000, 600));
        assert_eq!(of(10, 1, power(0.9)), (0.89, 525_000, 21_600));
        assert_eq!(of(10, 3, power(-1.0)), (-1.01, 643_200, 17_400));
        assert_eq!(of(900, 1, power(0.9)), (0.0, 525_000, 75_000));
        assert_eq!(of(1_000, 1, power(0.9)), (-0.1, 525_000, 81_000));
    }

    /// Requests and stores of a run in edition 3 are those of edition 2 without idle losses, and each kW is less by the
    /// unit's idle loss.
    #[test]
    fn an_older_run_is_one_without_idle_losses() {
        let mut draw = Draw::from_seed(88);
        let mut idle = 0;
        for round in 0..600 {
            let run = older::older(seasons::run(1 + round % 5, 12, &mut draw), &mut draw);
            let none = sticks::with(&run, |run| {
                run.site.edition = 2;
                run.site.units.iter_mut().for_each(|unit| unit.idle_loss = 0);
            });
            for (step, none) in steps(&run).iter().zip(steps(&none)) {
                assert_eq!(step.passed, none.passed);
                for (record, none) in step.records.iter().zip(none.records) {
                    let idle_loss = run.site.units[usize::from(record.unit)].idle_loss;
                    let Stepped { watts, vars, stored, loss } = record.stepped;
                    assert_eq!((watts + idle_loss as i32, vars, stored), {
                        let Stepped { watts, vars, stored, .. } = none.stepped;
                        (watts, vars, stored)
                    });
                    let seconds = u64::from(run.site.seconds);
                    assert_eq!(loss, none.stepped.loss + u64::from(idle_loss) * seconds);
                    idle += u32::from(step.passed.is_none() && none.stepped.watts == 0 && idle_loss > 0);
                }
            }
        }
        assert!(idle > 300, "{idle}");
    }

    /// The vars of each record are within the limits of its unit; requests, and the stores of units that give watts
    /// first, are those without limits.
    #[test]
    fn limits_hold_over_a_run() {
        let mut draw = Draw::from_seed(87);
        let mut cut = 0;
        for round in 0..600 {
            let mut run = limits::limited(seasons::run(1 + round % 5, 12, &mut draw), &mut draw);
            run.site.units.iter_mut().for_each(|unit| unit.priority = 0);
            let none = sticks::with(&run, |run| run.site.edition = 1);
            for (step, none) in steps(&run).iter().zip(steps(&none)) {
                assert_eq!(step.passed, none.passed);
                for (record, none) in step.records.iter().zip(none.records) {
                    let unit = &run.site.units[usize::from(record.unit)];
                    let vars = i64::from(record.stepped.vars);
                    assert!(-i64::from(unit.absorb) <= vars && vars <= unit.provide.into());
                    let same = |stepped: &Stepped| (stepped.watts, stepped.stored, stepped.loss);
                    assert_eq!(same(&record.stepped), same(&none.stepped));
                    cut += u32::from(record.stepped.vars != none.stepped.vars);
                }
            }
        }
        assert!(cut > 3_000, "{cut}");
    }

    /// Vars given and vars requested of the unit and of the inverter, step by step.
    fn vars(run: &Run) -> Vec<[(i32, i32); 2]> {
        let file = sticks::file(run);
        let steps = steps(&stick::read(&file).unwrap());
        let bytes = super::run(&file, usize::MAX).unwrap();
        let of = |step: &Step| {
            let (unit, inverter) = (step.records[0], step.solar[0]);
            let from = 69 * unit.step as usize;
            assert_eq!(i32_at(&bytes, from + 20), Some(unit.stepped.vars));
            assert_eq!(i32_at(&bytes, from + 40 + 17), Some(inverter.produced.vars));
            [(unit.stepped.vars, unit.vars_asked), (inverter.produced.vars, inverter.vars_asked)]
        };
        steps.iter().map(of).collect()
    }

    /// A unit of 1,000 VA and edition 2 that may provide 600 var, without losses, and document 003's inverter, under a
    /// function that asks for all of its base below 1 per unit, and for the same to be absorbed above 1.1. In turn: no
    /// voltage yet; a low one, in the dark; none; 600 W and a high one; 950 W and none; a voltage of 0.
    fn led(base: u8) -> Run {
        sticks::with(&whole_case(), |run| {
            run.site.edition = 2;
            let unit = Unit { kva: 1_000, idle_loss: 0, var_request: -70, priority: 1, ..run.site.units[0] };
            run.site.units = vec![Unit { provide: 600, absorb: 1_000, ..unit }];
            run.site.inverters = vec![Inverter { var_request: 4_000, ..document_inverter() }];
            let curve = Curve::through(&[(10_000, 10_000), (11_000, -10_000)]);
            run.site.function = Some(Function { base, curve });
            let missing = Reading::Missing;
            run.readings = vec![missing, missing, missing, power(0.6), power(0.35), missing];
            let noon = Weather { irradiance: 0.6, temperature: 25.0 };
            run.weather = vec![None, None, Some(noon), Some(noon), None, Some(noon)];
            run.voltages = vec![None, Some(9_000), None, Some(12_000), None, Some(0)];
        })
    }

    /// The inverter's 28,599 W leave 27,965 var of 40,000. Beside 600 W there are 800 var of 1,000, and 312 beside 950.
    #[test]
    fn vars_led_by_the_voltage() {
        assert_eq!(28_599u64.pow(2) + 27_966u64.pow(2), 1_599_999_957);
        let of_s = vec![
            [(-70, -70), (0, 4_000)],
            [(600, 1_000), (0, 40_000)],
            [(600, 1_000), (27_966, 40_000)],
            [(-1_000, -1_000), (-27_966, -40_000)],
            [(-1_000, -1_000), (0, -40_000)],
            [(600, 1_000), (27_966, 40_000)],
        ];
        assert_eq!(vars(&led(0)), of_s);
        let of_the_leg = vec![
            [(-70, -70), (0, 4_000)],
            [(600, 1_000), (0, 40_000)],
            [(600, 1_000), (27_966, 40_000)],
            [(-800, -800), (-27_966, -27_966)],
            [(-312, -800), (0, -27_966)],
            [(312, 312), (27_966, 27_966)],
        ];
        assert_eq!(vars(&led(1)), of_the_leg);
        // Vars first leave no watts where the base is S; with the leg watts come first in every step.
        let watts = |base| asked_and_given(&led(base))[3..].iter().map(|step| step[0].1).collect::<Vec<_>>();
        assert_eq!((watts(0), watts(1)), (vec![0, 0, 800], vec![600, 950, 950]));
    }

    /// Requests, and where the priority is of watts watts and stores, are those without a function; so are vars before
    /// the first voltage.
    #[test]
    fn a_function_leads_nothing_but_vars() {
        let mut draw = Draw::from_seed(90);
        let (mut led, mut own) = (0, 0);
        for round in 0..600 {
            let mut run = voltages::run(1 + round % 4, round % 3, 8, &mut draw);
            run.site.units.iter_mut().for_each(|unit| unit.priority = 0);
            run.site.inverters.iter_mut().for_each(|inverter| inverter.priority = 0);
            let plain = steps(&voltages::without(&run));
            let first = (0..8).find(|&step| run.voltage_of(step).is_some()).unwrap_or(8);
            for (k, (step, plain)) in steps(&run).iter().zip(&plain).enumerate() {
                assert_eq!(step.passed, plain.passed);
                assert!(k >= first || step == plain);
                own += u32::from(k < first);
                for (one, other) in step.records.iter().zip(&plain.records) {
                    assert_eq!((one.request, one.stepped.watts), (other.request, other.stepped.watts));
                    assert_eq!(
                        (one.stepped.stored, one.stepped.loss),
                        (other.stepped.stored, other.stepped.loss)
                    );
                    led += u32::from(one.stepped.vars != other.stepped.vars);
                }
                for (one, other) in step.solar.iter().zip(&plain.solar) {
                    assert_eq!(Produced { vars: 0, ..one.produced }, Produced { vars: 0, ..other.produced });
                    led += u32::from(one.produced.vars != other.produced.vars);
                }
            }
        }
        assert!(led > 3_000 && own > 500, "{led} {own}");
    }

    /// Every step of a led run is that of the function alone, from the vars requested before.
    #[test]
    fn each_led_step_goes_on_from_the_one_before() {
        let mut draw = Draw::from_seed(91);
        let (mut kept, mut off) = (0, 0);
        for round in 0..400 {
            let run = voltages::run(1 + round % 4, round % 3, 2 + round % 12, &mut draw);
            let function = run.site.function.as_ref().unwrap();
            let Site { edition, seconds, ref units, ref inverters, .. } = run.site;
            let mut standing = Standing::at_first(&run.site);
            for (k, step) in steps(&run).iter().enumerate() {
                let (voltage, weather) = (run.voltage_of(k), run.weather_of(k));
                let sun = weather.map_or(DARK, |weather| weather.converted().unwrap());
                for (i, record) in step.records.iter().enumerate() {
                    let unit = &Unit { stored: standing.stored[i], ..units[i] };
                    let unit_step = UnitStep { edition, seconds, unit, request: record.request };
                    let left = function.step_unit(unit_step, voltage, standing.unit_vars[i]);
                    assert_eq!(left, (record.stepped, record.vars_asked));
                    kept += u32::from(voltage.is_none() && record.stepped.vars != record.vars_asked);
                    (standing.stored[i], standing.unit_vars[i]) = (left.0.stored, left.1);
                }
                for (i, record) in step.solar.iter().enumerate() {
                    let inverter_step = InverterStep { inverter: &inverters[i], sun, on: standing.on[i] };
                    let left = function.step_inverter(inverter_step, voltage, standing.inverter_vars[i]);
                    assert_eq!(left, (record.produced, record.vars_asked));
                    off += u32::from(!record.produced.on && record.vars_asked != 0);
                    (standing.on[i], standing.inverter_vars[i]) = (left.0.on, left.1);
                }
            }
        }
        assert!(kept > 300 && off > 300, "{kept} {off}");
    }

    /// The length, the order of the records of both kinds, and the end.
    #[test]
    fn the_form_of_a_result_with_inverters() {
        let mut draw = Draw::from_seed(85);
        for inverters in 0..=64 {
            let (units, count) = (1 + inverters % 4, draw.below(4) as usize);
            let run = roofs::run(units, inverters, count, &mut draw);
            let file = sticks::file(&run);
            let each = 40 * units + 29 * inverters;
            let bytes = super::run(&file, each * count + 7).unwrap();
            assert_eq!((bytes.len(), room_needed(&file)), (each * count + 7, bytes.len() as u64));
            for (k, step) in bytes.chunks(each).take(count).enumerate() {
                let (of_units, of_inverters) = step.split_at(40 * units);
                for (i, record) in of_units.chunks(40).enumerate() {
                    assert_eq!((record[0], u16_at(record, 1)), (0x11, Some(37)));
                    assert_eq!((u32_at(record, 3), usize::from(record[7])), (Some(k as u32), i));
                }
                for (i, record) in of_inverters.chunks(29).enumerate() {
                    assert_eq!((record[0], u16_at(record, 1)), (0x12, Some(26)));
                    assert_eq!((u32_at(record, 3), usize::from(record[7])), (Some(k as u32), i));
                    assert!(record[8] == 1 || record[8] == 0 && record[9..21].iter().all(|&byte| byte == 0));
                }
            }
            assert_eq!(&bytes[each * count..each * count + 3], [0x1F, 0, 4]);
        }
    }
}
