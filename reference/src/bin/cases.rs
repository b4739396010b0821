//! Writes the stored cases: `cases CASES ANSWERS`.
//!
//! CASES is a row of records, each a kind byte, a two-byte length and the payload, all big-endian.
//! ANSWERS has a line for each record: the refusal number, and where it is 0 the results after it; of kinds
//! 'C' and 'R' always three numbers. The same files come out every time, so that the gate can compare them with
//! the stored ones.

use std::fmt::Display;
use std::process::ExitCode;
use std::{env, fs};

use yesbrulka_reference::connection::Connection;
use yesbrulka_reference::controller::{self, Fleet, Settings};
use yesbrulka_reference::curve::Curve;
use yesbrulka_reference::octets::{put_i32, put_u16, put_u32, put_u64, put_u8};
use yesbrulka_reference::reading::{self, Phases, Reading};
use yesbrulka_reference::samples::fleets::{self, PassCall, StudyCall};
use yesbrulka_reference::samples::inverters::{self, SolarCall};
use yesbrulka_reference::samples::sticks::{self, Field};
use yesbrulka_reference::samples::units::{self, StepCall};
use yesbrulka_reference::samples::{self, currents, limits, older, roofs, seasons, voltages, Draw};
use yesbrulka_reference::season;
use yesbrulka_reference::solar::{Inverter, Produced, Weather};
use yesbrulka_reference::stick::{self, Answer, Run};
use yesbrulka_reference::storage::{self, Stepped, Unit};
use yesbrulka_reference::volt_var::Function;
use yesbrulka_reference::whole;

/// What the Rattle program has room for: a file's payload, and the room that it lends.
const MOST_PAYLOAD: usize = 16_384;
const MOST_ROOM: usize = 8_192;

/// The two files as they grow.
#[derive(Default)]
struct Cases {
    records: Vec<u8>,
    answers: String,
}

impl Cases {
    fn add<T: Display>(&mut self, kind: u8, payload: &[u8], answer: Result<&[T], u32>) {
        let mut line = match answer {
            Ok(_) => 0,
            Err(number) => number,
        }
        .to_string();
        for result in answer.unwrap_or_default() {
            line.push_str(&format!(" {result}"));
        }
        self.add_line(kind, payload, &line);
    }

    fn add_line(&mut self, kind: u8, payload: &[u8], line: &str) {
        put_u8(&mut self.records, kind);
        put_u16(&mut self.records, u16::try_from(payload.len()).expect("a payload fits its length"));
        self.records.extend_from_slice(payload);
        self.answers.push_str(line);
        self.answers.push('\n');
    }

    /// 'W': a kW double's bits; the watts.
    fn watts(&mut self, bits: u64) {
        let mut payload = Vec::new();
        put_u64(&mut payload, bits);
        self.add(b'W', &payload, one(&reading::watts(f64::from_bits(bits))));
    }

    /// 'M': the phase choice and three kW doubles' bits; the measure.
    fn measure(&mut self, phase: u8, [first, second, third]: [u64; 3]) {
        let phases = Phases {
            first: f64::from_bits(first),
            second: f64::from_bits(second),
            third: f64::from_bits(third),
        };
        let mut payload = Vec::new();
        put_u8(&mut payload, phase);
        for bits in [first, second, third] {
            put_u64(&mut payload, bits);
        }
        self.add(b'M', &payload, one(&reading::measure(phase, phases)));
    }

    /// 'K': a watt count; the bits of its kW.
    fn kw(&mut self, watts: i32) {
        let mut payload = Vec::new();
        put_i32(&mut payload, watts);
        self.add(b'K', &payload, Ok(&[reading::kw(watts).to_bits()]));
    }

    /// 'L': S and y; the largest leg.
    fn leg(&mut self, s: u32, y: u32) {
        let mut payload = Vec::new();
        put_u32(&mut payload, s);
        put_u32(&mut payload, y);
        self.add(b'L', &payload, Ok(&[whole::largest_leg(s, y)]));
    }

    /// 'U': two whole numbers; the quotient rounded up.
    fn up(&mut self, a: u64, b: u64) {
        let mut payload = Vec::new();
        put_u64(&mut payload, a);
        put_u64(&mut payload, b);
        self.add(b'U', &payload, Ok(&[whole::quotient_up(a, b)]));
    }

    /// 'Z': a signed number and a divisor from 1 to 2^62; the quotient cut toward zero.
    fn cut(&mut self, a: i64, b: u64) {
        let mut payload = Vec::new();
        put_u64(&mut payload, a as u64);
        put_u64(&mut payload, b);
        self.add(b'Z', &payload, Ok(&[whole::quotient_cut(a, b)]));
    }

    /// 'P': mode u8, target i32, band u32, factor u16, measure i64, the number of units u8, and for each
    /// unit rated, reserve and stored u64, rating u32, weight u16, request i32; the need, whether a request
    /// changed as 0 or 1, and the requests.
    fn pass(&mut self, call: &PassCall) {
        let mut payload = Vec::new();
        put_u8(&mut payload, call.settings.mode);
        put_i32(&mut payload, call.settings.target);
        put_u32(&mut payload, call.settings.band);
        put_u16(&mut payload, call.settings.factor);
        put_u64(&mut payload, call.measure as u64);
        put_u8(&mut payload, u8::try_from(call.requests.len()).expect("a fleet's size fits a byte"));
        for (unit, &request) in call.requests.iter().enumerate() {
            put_unit(&mut payload, &call.fleet, unit);
            put_i32(&mut payload, request);
        }
        let mut requests = call.requests.clone();
        let passed = controller::pass(&call.settings, call.measure, &call.fleet, &mut requests);
        let answer = passed.map(|passed| with_requests(&[passed.need, passed.changed.into()], &requests));
        self.add(b'P', &payload, list(&answer));
    }

    /// 'T': load i64, target i32, band u32, factor u16, budget u32, the number of units u8, and for each
    /// unit what a pass has without the request; whether it settled as 0 or 1, the passes that changed a
    /// request, and the requests.
    fn study(&mut self, call: &StudyCall) {
        let mut payload = Vec::new();
        put_u64(&mut payload, call.load as u64);
        put_i32(&mut payload, call.target);
        put_u32(&mut payload, call.band);
        put_u16(&mut payload, call.factor);
        put_u32(&mut payload, call.budget);
        put_u8(&mut payload, u8::try_from(call.requests.len()).expect("a fleet's size fits a byte"));
        for unit in 0..call.requests.len() {
            put_unit(&mut payload, &call.fleet, unit);
        }
        let mut call = call.clone();
        let answer = call
            .settle()
            .map(|study| with_requests(&[study.settled.into(), study.passes.into()], &call.requests));
        self.add(b'T', &payload, list(&answer));
    }

    /// 'S': seconds u32, a unit's twelve values as in its field of edition 1, and the request i32; the
    /// watts, the vars, the energy stored after, and the loss.
    fn step(&mut self, call: &StepCall) {
        let mut payload = Vec::new();
        put_u32(&mut payload, call.seconds);
        sticks::put_unit(&mut payload, &call.unit);
        put_i32(&mut payload, call.request);
        let stepped = storage::step(call.seconds, &call.unit, call.request);
        let answer = stepped.map(|Stepped { watts, vars, stored, loss }| {
            vec![i128::from(watts), vars.into(), stored.into(), loss.into()]
        });
        self.add(b'S', &payload, list(&answer));
    }

    /// 'I': the 19 bytes of an inverter's field, the 129 of its temperature curve's and the 129 of its efficiency
    /// curve's, of 2 to 16 points each; the 16 bytes of a weather's field; and whether it was on, u8, 0 or 1. Whether it
    /// is on as 0 or 1, the watts, the vars, and the DC power.
    fn solar(&mut self, call: &SolarCall) {
        let mut payload = Vec::new();
        roofs::put_plate(&mut payload, &call.inverter);
        roofs::put_curve(&mut payload, &call.inverter.warm);
        roofs::put_curve(&mut payload, &call.inverter.eff);
        roofs::put_weather(&mut payload, call.weather);
        put_u8(&mut payload, call.on);
        let answer = call.step().map(|Produced { on, watts, vars, dc }| {
            vec![i128::from(on), watts.into(), vars.into(), dc.into()]
        });
        self.add(b'I', &payload, list(&answer));
    }

    /// 'C': a file's bytes; the check's number, place and steps, also where the number is 0.
    fn check(&mut self, file: &[u8]) {
        assert!(file.len() <= MOST_PAYLOAD, "a file that the program has room for");
        let Answer { number, place, steps } = stick::check(file);
        self.add_line(b'C', file, &format!("{number} {place} {steps}"));
    }

    /// 'V': a place u32, and a file's bytes; where the value bytes of the field at the place start, and how
    /// many are there.
    fn value_part(&mut self, place: u32, file: &[u8]) {
        let mut payload = Vec::new();
        put_u32(&mut payload, place);
        payload.extend_from_slice(file);
        let part = stick::value_part(file, place.into());
        self.add(b'V', &payload, Ok(&[part.start, part.len()]));
    }

    /// 'R': the length of the lent room u16, and a file's bytes; the run's number, place and steps, and where
    /// the number is 0 the result's bytes, two lower-case hexadecimal digits each.
    fn run(&mut self, room: usize, file: &[u8]) {
        assert!(room <= MOST_ROOM && file.len() + 2 <= MOST_PAYLOAD, "a run that the program has room for");
        let mut payload = Vec::new();
        put_u16(&mut payload, room as u16);
        payload.extend_from_slice(file);
        let result = season::run(file, room);
        let Answer { number, place, steps } =
            result.as_ref().err().copied().unwrap_or_else(|| stick::check(file));
        let mut line = format!("{number} {place} {steps}");
        if let Ok(result) = result {
            line.push(' ');
            line.extend(result.iter().map(|byte| format!("{byte:02x}")));
        }
        self.add_line(b'R', &payload, &line);
    }

    /// The same of a run and so much more room than it needs, or less.
    fn run_of(&mut self, more: isize, run: &Run) {
        let file = sticks::file(run);
        let room = season::room_needed(&file) as isize + more;
        self.run(room.max(0) as usize, &file);
    }
}

fn put_unit(payload: &mut Vec<u8>, fleet: &Fleet, unit: usize) {
    put_u64(payload, fleet.rated[unit]);
    put_u64(payload, fleet.reserve[unit]);
    put_u64(payload, fleet.stored[unit]);
    put_u32(payload, fleet.rating[unit]);
    put_u16(payload, fleet.weight[unit]);
}

/// Results and the requests after them.
fn with_requests(results: &[i64], requests: &[i32]) -> Vec<i64> {
    results.iter().copied().chain(requests.iter().map(|&request| request.into())).collect()
}

fn list<T>(answer: &Result<Vec<T>, u32>) -> Result<&[T], u32> {
    answer.as_deref().map_err(|&number| number)
}

/// A single result as a list of one.
fn one<T>(answer: &Result<T, u32>) -> Result<&[T], u32> {
    answer.as_ref().map(std::slice::from_ref).map_err(|&number| number)
}

fn watts_cases(cases: &mut Cases) {
    let mut draw = Draw::from_seed(1);
    for bits in samples::corners().into_iter().chain(samples::nans()) {
        cases.watts(bits);
    }
    for field in 0..2_048 {
        cases.watts(samples::with_exponent(field, &mut draw));
    }
    // The exponents from the smallest that can reach half a watt to the first past the range.
    for field in 1_010..1_042 {
        for _ in 0..20 {
            cases.watts(samples::with_exponent(field, &mut draw));
        }
    }
    for _ in 0..400 {
        let tie = samples::tie(&mut draw);
        let near_tie = samples::near_tie(&mut draw);
        for bits in samples::beside(tie).into_iter().chain(samples::beside(near_tie)) {
            cases.watts(bits);
        }
    }
    for _ in 0..300 {
        cases.watts(samples::near_the_end(&mut draw));
        cases.watts(samples::metered(&mut draw));
        cases.watts(draw.any() & !(0x7ff << 52));
    }
}

fn measure_cases(cases: &mut Cases) {
    let mut draw = Draw::from_seed(2);
    let half_watt_beside =
        [0.9995f64, 1.0, 1.0004, 1.0005, -0.9995, -1.0, -1.0004, -1.0005].map(f64::to_bits);
    let refused = [
        0x7ff8_0000_0000_0000,
        0xfff0_0000_0000_0001,
        f64::INFINITY.to_bits(),
        f64::NEG_INFINITY.to_bits(),
        100_000.062_5_f64.to_bits(),
        f64::MIN.to_bits(),
    ];
    let phases = [0, 1, 2, 3, 4, 5, 6, 255];
    // Ends of the measure's range, and every phase choice with a refused value in each place or in all.
    for phase in phases {
        for end in [100_000f64, -100_000.0, 0.0, -0.0] {
            cases.measure(phase, [end.to_bits(); 3]);
        }
        for bad in refused {
            cases.measure(phase, [bad; 3]);
            for place in 0..3 {
                let mut three = [1.5f64.to_bits(), (-2.5f64).to_bits(), 0.0625f64.to_bits()];
                three[place] = bad;
                cases.measure(phase, three);
            }
        }
    }
    // Powers that differ as doubles and are equal, or nearly so, as watts.
    for _ in 0..500 {
        let phase = draw.one_of(&phases);
        let three = [(); 3].map(|()| draw.one_of(&half_watt_beside));
        cases.measure(phase, three);
    }
    for _ in 0..1_280 {
        let phase = if draw.below(16) == 0 { draw.any() as u8 } else { draw.below(6) as u8 };
        let three = [(); 3].map(|()| match draw.below(8) {
            0 => samples::tie(&mut draw),
            1 => samples::near_tie(&mut draw),
            2 => samples::near_the_end(&mut draw),
            _ => samples::metered(&mut draw),
        });
        cases.measure(phase, three);
    }
}

fn kw_cases(cases: &mut Cases) {
    let mut draw = Draw::from_seed(3);
    for watts in -100..=100 {
        cases.kw(watts);
    }
    for end in [100_000_000, i32::MAX - 3] {
        for watts in end - 3..=end + 3 {
            cases.kw(watts);
            cases.kw(-watts);
        }
    }
    cases.kw(i32::MIN);
    for _ in 0..700 {
        cases.kw(draw.below(200_000_001) as i32 - 100_000_000);
    }
    for _ in 0..300 {
        cases.kw(draw.any() as i32);
        cases.kw((draw.any() as i32) >> draw.below(31));
    }
}

fn leg_cases(cases: &mut Cases) {
    let mut draw = Draw::from_seed(4);
    for s in 0..=16 {
        for y in 0..=s + 2 {
            cases.leg(s, y);
        }
    }
    for s in 17..=50 {
        for y in [0, 1, s / 2, s - 1, s, s + 1, s + 2] {
            cases.leg(s, y);
        }
        cases.leg(s, draw.below(u64::from(s)) as u32);
    }
    // Right triangles in whole numbers, where the circle is met exactly, and the numbers beside them.
    for _ in 0..60 {
        let m = 2 + draw.below(6_000) as u32;
        let n = 1 + draw.below(u64::from(m) - 1) as u32;
        let (s, y) = (m * m + n * n, draw.one_of(&[2 * m * n, m * m - n * n]));
        for (s, y) in [(s, y), (s, y - 1), (s, y + 1), (s - 1, y), (s + 1, y)] {
            cases.leg(s, y);
        }
    }
    for s in [99_999_999, 100_000_000, 1 << 31, u32::MAX - 1, u32::MAX] {
        for y in [0, 1, 2, s / 2, s - 2, s - 1, s, s.saturating_add(1), u32::MAX] {
            cases.leg(s, y);
        }
    }
    for _ in 0..250 {
        let s = 1 + draw.below(100_000_000) as u32;
        cases.leg(s, draw.below(u64::from(s) + 1) as u32);
        cases.leg(draw.any() as u32, draw.any() as u32);
        cases.leg(draw.sized() as u32, draw.sized() as u32);
    }
}

fn up_cases(cases: &mut Cases) {
    let mut draw = Draw::from_seed(5);
    let ends = [0, 1, 2, 3, 9_999, 10_000, 10_001, 1 << 32, u64::MAX - 1, u64::MAX];
    for a in ends {
        for b in ends {
            cases.up(a, b);
        }
    }
    for _ in 0..200 {
        let b = 1 + draw.below(10_000);
        cases.up(draw.below(1_000_000_000_000) * b + draw.below(3), b);
        cases.up(draw.sized(), draw.sized());
    }
}

fn cut_cases(cases: &mut Cases) {
    let mut draw = Draw::from_seed(6);
    let dividends = [0, 1, -1, 2, -2, 99, 100, -99, -100, i64::MAX, -i64::MAX, i64::MIN];
    let divisors = [1, 2, 3, 100, 1_000, (1 << 62) - 1, 1 << 62];
    for a in dividends {
        for b in divisors {
            cases.cut(a, b);
        }
    }
    for _ in 0..210 {
        // The sizes of a share: need times weight times factor, by the weight sum times a thousand.
        let a = draw.below(70_000_000_000_000_000) as i64;
        let b = 1_000 * (1 + draw.below(640_000));
        cases.cut(if draw.below(2) == 0 { a } else { -a }, b);
        let size = draw.below(64);
        cases.cut(draw.any() as i64 >> size, 1 + draw.sized() / 4);
    }
}

/// Fleets are small for the most part, to keep the stored files so.
fn pass_cases(cases: &mut Cases) {
    let mut draw = Draw::from_seed(7);
    for call in fleets::figure_passes() {
        cases.pass(&call);
    }
    for most in [1, 2, 3, 4] {
        let call = fleets::pass_call(most, &mut draw);
        let unit = draw.below(call.requests.len() as u64) as usize;
        for end in fleets::PASS_ENDS.iter().chain(&fleets::BAD_PASS) {
            cases.pass(&call.with(end));
        }
        for end in fleets::FLEET_ENDS {
            cases.pass(&call.with(|call| call.fleet_value(end, unit)));
        }
        for spoil in fleets::BAD_FLEET {
            cases.pass(&call.with(|call| spoil(&mut call.fleet, unit)));
        }
        for spoil in fleets::BAD_REQUEST {
            cases.pass(&call.with(|call| spoil(call, unit)));
        }
        // Two things wrong: the value comes before the request, and the lengths come before both.
        for spoil in fleets::BAD_REQUEST {
            let mut call = call.with(|call| spoil(call, unit));
            draw.one_of(&fleets::BAD_FLEET)(&mut call.fleet, unit);
            cases.pass(&call);
        }
        for units in [0, 65] {
            let mut call = call.clone();
            if most % 2 == 0 {
                draw.one_of(&fleets::BAD_PASS)(&mut call);
            }
            call.resize([units; 6], &mut draw);
            cases.pass(&call);
        }
    }
    for _ in 0..1_100 {
        cases.pass(&fleets::pass_call(4, &mut draw));
    }
    for _ in 0..80 {
        cases.pass(&fleets::pass_call(64, &mut draw));
    }
}

fn study_cases(cases: &mut Cases) {
    let mut draw = Draw::from_seed(8);
    for budget in [1, 2, 3, 4, 5, 6, 10_000] {
        cases.study(&fleets::figure_study(budget));
    }
    for most in [1, 3] {
        let call = fleets::study_call(most, 20, &mut draw);
        let unit = draw.below(call.requests.len() as u64) as usize;
        for end in fleets::STUDY_ENDS.iter().chain(&fleets::BAD_STUDY) {
            cases.study(&call.with(end));
        }
        for end in fleets::FLEET_ENDS.iter().chain(&fleets::BAD_FLEET) {
            cases.study(&call.with(|call| end(&mut call.fleet, unit)));
        }
        for units in [0, 65] {
            let mut call = call.with(|call| call.load = if most == 1 { -1 } else { call.load });
            call.resize([units; 6], &mut draw);
            cases.study(&call);
        }
    }
    for _ in 0..170 {
        cases.study(&fleets::study_call(4, 30, &mut draw));
    }
    for _ in 0..15 {
        cases.study(&fleets::study_call(64, 20, &mut draw));
    }
    // Long ones: a small factor, and a budget that is reached or not.
    for budget in [1_000, 9_999, 10_000] {
        cases.study(&StudyCall {
            load: 100_000_000,
            target: 0,
            band: 0,
            factor: 1,
            budget,
            fleet: fleets::half_full(&[100_000_000], &[1]),
            requests: vec![0],
        });
    }
}

fn step_cases(cases: &mut Cases) {
    let mut draw = Draw::from_seed(9);
    for call in units::figure_steps() {
        cases.step(&call);
    }
    for _ in 0..3 {
        let call = units::step_call(&mut draw);
        for change in units::ENDS.iter().chain(&units::BAD_VALUES).chain(&units::BAD_REQUESTS) {
            cases.step(&call.with(change));
        }
        // A wrong value comes before a wrong request.
        for spoil in units::BAD_REQUESTS {
            cases.step(&call.with(spoil).with(draw.one_of(&units::BAD_VALUES)));
        }
    }
    // Values at their ends, several at once.
    for _ in 0..250 {
        let call = units::step_call(&mut draw);
        let [first, second, third] = [(); 3].map(|()| draw.one_of(&units::ENDS));
        cases.step(&call.with(first).with(second).with(third));
    }
    for _ in 0..1_500 {
        cases.step(&units::step_call(&mut draw));
    }
}

/// Document 003's curves first, then the ends of the ranges and what is beside them, weather at the edges of its
/// conversion, and any.
fn solar_cases(cases: &mut Cases) {
    let mut draw = Draw::from_seed(13);
    for call in inverters::document_steps() {
        cases.solar(&call);
    }
    for _ in 0..3 {
        let call = inverters::solar_call(&mut draw);
        for change in inverters::ENDS.iter().chain(&inverters::WEATHER_ENDS) {
            cases.solar(&call.with(change));
        }
        let bad = inverters::BAD_PLATES.iter().chain(&inverters::BAD_WARMS).chain(&inverters::BAD_EFFS);
        for spoil in bad.clone() {
            cases.solar(&call.with(spoil));
        }
        // A wrong value comes before a wrong weather.
        for spoil in bad.step_by(7) {
            let weather = inverters::bad_weather(&mut draw);
            cases.solar(&SolarCall { weather, ..call.with(spoil) });
        }
    }
    let call = inverters::solar_call(&mut draw);
    for bits in inverters::bad_irradiances(&mut draw) {
        let weather = Weather { irradiance: f64::from_bits(bits), ..call.weather };
        cases.solar(&SolarCall { weather, ..call.clone() });
    }
    for bits in inverters::bad_temperatures(&mut draw) {
        let weather = Weather { temperature: f64::from_bits(bits), ..call.weather };
        cases.solar(&SolarCall { weather, ..call.clone() });
    }
    for round in 0..160 {
        let mut call = inverters::solar_call(&mut draw);
        let edge = f64::from_bits(inverters::edge(&mut draw));
        match round % 2 {
            0 => call.weather.irradiance = edge,
            _ => call.weather.temperature = edge,
        }
        cases.solar(&call);
    }
    // Values at their ends, several at once.
    for _ in 0..150 {
        let call = inverters::solar_call(&mut draw);
        let [first, second, third] = [(); 3].map(|()| draw.one_of(&inverters::ENDS));
        cases.solar(&call.with(first).with(second).with(third));
    }
    for _ in 0..900 {
        cases.solar(&inverters::solar_call(&mut draw));
    }
}

/// The file with another field in the place of one.
fn instead(fields: &[Field], at: usize, field: Field) -> Vec<u8> {
    let mut fields = fields.to_vec();
    fields[at] = field;
    sticks::bytes(&fields)
}

/// A field left out, said twice, of one of the tags or of another length, and any of them in its place as the last.
fn field_cases(cases: &mut Cases, fields: &[Field], at: usize, tags: &[u8], draw: &mut Draw) {
    cases.check(&sticks::bytes(&[&fields[..at], &fields[at + 1..]].concat()));
    cases.check(&sticks::bytes(&[&fields[..=at], &fields[at..]].concat()));
    for &tag in tags {
        cases.check(&instead(fields, at, Field { tag, ..fields[at].clone() }));
    }
    let lengths = sticks::bad_lengths(fields[at].tag);
    for length in [lengths[0], lengths[1], draw.one_of(&lengths)] {
        cases.check(&instead(fields, at, Field { length, ..fields[at].clone() }));
    }
    for other in fields.chunks(1) {
        cases.check(&sticks::bytes(&[&fields[..at], other].concat()));
    }
}

/// Files are small, to keep the stored ones so; those of number 12 are too large to be among them.
fn check_cases(cases: &mut Cases) {
    let mut draw = Draw::from_seed(10);
    cases.check(&[]);
    // One unit and three readings, one of them missing.
    let run = sticks::with(&sticks::run(1, 3, &mut draw), |run| {
        let mut draw = Draw::from_seed(10);
        run.readings =
            vec![sticks::power_reading(&mut draw), Reading::Missing, sticks::power_reading(&mut draw)];
    });
    let fields = sticks::fields(&run);
    let file = sticks::bytes(&fields);
    for length in 1..=file.len() {
        cases.check(&file[..length]);
    }
    for after in [&[0][..], &[0x7F, 0], &[5, 0, 0], &[0xFF; 4], &file] {
        cases.check(&[&file, after].concat());
    }
    // Each field left out, said twice, of another tag or length, or any of them after any number of others.
    for at in 0..fields.len() {
        let tags = [0, 6, 9, 0x7E, 0x81, 0xFF, draw.any() as u8];
        field_cases(cases, &fields, at, &tags, &mut draw);
    }
    // Values at the ends of their ranges and beside them.
    let short = sticks::with(&run, |run| run.readings.truncate(1));
    for change in units::ENDS.iter().chain(&units::BAD_VALUES) {
        cases.check(&sticks::file(&sticks::with_unit(&short, 0, change)));
    }
    for change in sticks::SETTINGS_ENDS.iter().chain(&sticks::BAD_SETTINGS) {
        cases.check(&sticks::file(&sticks::with(&short, change)));
    }
    for fleet in sticks::bad_fleets(&run) {
        cases.check(&instead(&fields, 0, fleet));
    }
    // Counts that a fleet may have, but not this one.
    for count in [2, 3, 63, 64] {
        cases.check(&instead(&fields, 0, sticks::fleet_field(1, count, run.site.seconds)));
    }
    for (i, bits) in sticks::bad_powers(&mut draw).into_iter().enumerate() {
        let bad = sticks::bad_reading(i % 3, bits, &mut draw);
        cases.check(&sticks::file(&sticks::with(&short, |run| run.readings.push(bad))));
    }
    for count in sticks::bad_counts(3) {
        cases.check(&instead(&fields, fields.len() - 1, sticks::end_field(count)));
    }
    // Several things wrong at once, foreign bytes, and fleets of other sizes.
    for _ in 0..120 {
        cases.check(&sticks::damaged_file(&mut draw));
    }
    for _ in 0..20 {
        cases.check(&sticks::shuffled_file(&mut draw));
        cases.check(&sticks::noise(40, &mut draw));
    }
    for units in 2..=6 {
        let run = sticks::run(units, 2, &mut draw);
        cases.check(&sticks::file(&run));
        let mut fields = sticks::fields(&run);
        fields.remove(units);
        cases.check(&sticks::bytes(&fields));
    }
}

/// Files with inverters and weather. A 65th inverter would be more than the program has room for.
fn roof_check_cases(cases: &mut Cases) {
    let mut draw = Draw::from_seed(14);
    // One unit, document 003's inverter, and two steps of which the first has a weather.
    let run = sticks::with(&roofs::plain_run(1, 1, 0, &mut draw), |run| {
        let mut draw = Draw::from_seed(14);
        run.site.inverters = vec![inverters::document_inverter()];
        run.readings = vec![sticks::power_reading(&mut draw), Reading::Missing];
        run.weather = vec![Some(Weather { irradiance: 0.8, temperature: 25.0 })];
    });
    let fields = sticks::fields(&run);
    let file = sticks::bytes(&fields);
    for length in 76..=file.len() {
        cases.check(&file[..length]);
    }
    // From the inverter on, each field left out, said twice, of another tag or length, or any of them after any
    // number of others.
    for at in 3..fields.len() {
        field_cases(cases, &fields, at, &[9, 0x0C, 0x86], &mut draw);
    }
    // A weather behind the last reading, and two in one step.
    let weather = roofs::weather_field(Weather { irradiance: 0.0, temperature: -5.0 });
    for at in 3..fields.len() {
        let (before, after) = fields.split_at(at);
        cases.check(&sticks::bytes(&[before, std::slice::from_ref(&weather), after].concat()));
    }
    // Values at the ends of their ranges and beside them.
    let bad = inverters::BAD_PLATES.iter().chain(&inverters::BAD_WARMS).chain(&inverters::BAD_EFFS);
    for change in inverters::ENDS.iter().chain(bad) {
        cases.check(&sticks::file(&roofs::with_inverter(&run, 0, change)));
    }
    let curves = [&run.site.inverters[0].warm, &run.site.inverters[0].eff];
    for (which, curve) in curves.into_iter().enumerate() {
        for bad in roofs::bad_curves(curve, &mut draw) {
            cases.check(&instead(&fields, 4 + which, bad));
        }
    }
    for step in 0..2 {
        for _ in 0..12 {
            let weather = inverters::bad_weather(&mut draw);
            cases.check(&sticks::file(&roofs::with_weather(&run, step, weather)));
            let weather = inverters::weather(&mut draw);
            cases.check(&sticks::file(&roofs::with_weather(&run, step, weather)));
        }
    }
    // Several things wrong at once, and roofs of other sizes.
    for _ in 0..200 {
        cases.check(&roofs::damaged_file(&mut draw));
    }
    for _ in 0..60 {
        cases.check(&roofs::shuffled_file(&mut draw));
    }
    for inverters in [2, 3, 4, 8, 31, 55] {
        let run = roofs::run(1, inverters, 3, &mut draw);
        cases.check(&sticks::file(&run));
        let mut fields = sticks::fields(&run);
        fields.remove(roofs::first_step(&run) - 1);
        cases.check(&sticks::bytes(&fields));
    }
}

/// What the stored files of units with var limits are made with, up to an edition.
struct Limited {
    limited: fn(Run, &mut Draw) -> Run,
    run: fn(usize, usize, usize, &mut Draw) -> Run,
    damaged: fn(&mut Draw) -> Vec<u8>,
    shuffled: fn(&mut Draw) -> Vec<u8>,
    ends: Vec<fn(&mut StepCall)>,
    bad_values: Vec<fn(&mut StepCall)>,
    /// Editions and idle losses of the whole case.
    whole: Vec<(u8, u32)>,
}

/// Editions 1 and 2.
fn up_to_2() -> Limited {
    Limited {
        limited: limits::limited,
        run: limits::run,
        damaged: limits::damaged_file,
        shuffled: limits::shuffled_file,
        ends: [units::ENDS.as_slice(), &limits::ENDS].concat(),
        bad_values: [units::BAD_VALUES.as_slice(), &limits::BAD_VALUES].concat(),
        whole: vec![(1, 0), (2, 0)],
    }
}

/// Edition 3, and the others beside it.
fn up_to_3() -> Limited {
    Limited {
        limited: older::older,
        run: older::run,
        damaged: older::damaged_file,
        shuffled: older::shuffled_file,
        ends: older::ends(3),
        bad_values: older::bad_values(3),
        whole: vec![(3, 0), (3, 1), (3, 1_001), (3, older::MOST)],
    }
}

/// Files of several editions: units of either length, and var limits and idle losses at their ends and beside them.
fn limits_check_cases(cases: &mut Cases, seed: u64, kind: &Limited) {
    let mut draw = Draw::from_seed(seed);
    // One unit and two steps, one of them missing.
    let run = sticks::with(&(kind.limited)(sticks::run(1, 0, &mut draw), &mut draw), |run| {
        run.readings = vec![sticks::power_reading(&mut Draw::from_seed(seed)), Reading::Missing];
    });
    let long = sticks::fields(&run);
    let short = sticks::fields(&sticks::with(&run, |run| run.site.edition = 1));
    let file = sticks::bytes(&long);
    for length in 9..=file.len() {
        cases.check(&file[..length]);
    }
    for fields in [&short, &long] {
        for edition in [0, 1, 2, 3, 4, 128, 129, 130, 255] {
            cases.check(&sticks::bytes(&limits::in_edition(edition, fields)));
        }
        // A unit of either length before the fleet, instead of the unit, behind it, and behind the settings.
        for unit in [&short[1..2], &long[1..2]] {
            cases.check(&instead(fields, 1, unit[0].clone()));
            for (before, after) in [0, 1, 2, 3].map(|at| fields.split_at(at)) {
                cases.check(&sticks::bytes(&[before, unit, after].concat()));
            }
        }
    }
    for at in 0..3 {
        field_cases(cases, &long, at, &[0, 3, 0x0A], &mut draw);
    }
    for change in kind.ends.iter().chain(&kind.bad_values) {
        cases.check(&sticks::file(&sticks::with_unit(&run, 0, change)));
    }
    for fleet in sticks::bad_fleets(&run) {
        cases.check(&instead(&long, 0, fleet));
    }
    // Several things wrong at once, and fleets of other sizes.
    for _ in 0..160 {
        cases.check(&(kind.damaged)(&mut draw));
    }
    for _ in 0..40 {
        cases.check(&(kind.shuffled)(&mut draw));
    }
    for units in [2, 3, 4, 31, 64] {
        let run = (kind.limited)(roofs::run(units, units % 3, 2, &mut draw), &mut draw);
        cases.check(&sticks::file(&run));
        let mut fields = sticks::fields(&run);
        fields.remove(units);
        cases.check(&sticks::bytes(&fields));
    }
}

fn value_part_cases(cases: &mut Cases) {
    let mut draw = Draw::from_seed(11);
    let file = sticks::file(&sticks::run(1, 1, &mut draw));
    let length = file.len() as u32;
    for place in (0..64).chain(length - 12..=length + 2).chain([u32::MAX - 2, u32::MAX]) {
        cases.value_part(place, &file);
    }
    // Every place of a last field that is cut short at every byte.
    for length in 64..=76 {
        for place in [61, 62, 63, 64] {
            cases.value_part(place, &file[..length]);
        }
    }
    for place in 0..3 {
        cases.value_part(place, &[]);
        cases.value_part(place, &[1]);
        cases.value_part(place, &[0xFF, 0xFF]);
        cases.value_part(place, &[0xFF, 0xFF, 0xFF]);
        cases.value_part(place, &[2, 0, 1, 7, 7]);
    }
    for _ in 0..50 {
        let file = sticks::noise(60, &mut draw);
        cases.value_part(draw.below(file.len() as u64 + 4) as u32, &file);
    }
}

/// Runs of few steps, to keep the stored files small.
fn run_cases(cases: &mut Cases) {
    let mut draw = Draw::from_seed(12);
    let whole = sticks::whole_case();
    let none = sticks::with(&whole, |run| run.readings.clear());
    for more in [0, -1, 1, 1_000, -1_000] {
        cases.run_of(more, &whole);
        cases.run_of(more, &none);
    }
    cases.run(MOST_ROOM, &sticks::file(&whole));
    // Fleets of many sizes, the largest with as many steps as the room takes.
    for units in (1..=12).chain([16, 24, 31, 32, 33, 48, 63, 64]) {
        let steps = if units == 64 { 3 } else { 1 + units % 3 };
        cases.run_of(0, &seasons::run(units, steps, &mut draw));
    }
    // Every mode and phase choice, with energies that run out.
    for mode in 1..=3 {
        for phase in 0..=5 {
            let run = loop {
                let run = seasons::run(2, 5, &mut draw);
                if (run.site.settings.mode, run.site.phase) == (mode, phase) {
                    break run;
                }
            };
            cases.run_of(0, &run);
        }
    }
    // Every row of missing readings over three steps.
    let steady = loop {
        let run = seasons::run(1, 3, &mut draw);
        let asked = |step: &season::Step| step.passed.is_some() && step.records[0].request != 0;
        if season::steps(&run).iter().all(asked) {
            break run;
        }
    };
    for pattern in 0..8 {
        let masked = sticks::with(&steady, |run| {
            let missing = (0..3).filter(|step| pattern >> step & 1 == 1);
            missing.for_each(|step| run.readings[step] = Reading::Missing);
        });
        cases.run_of(0, &masked);
    }
    // Values at the ends of their ranges.
    let run = seasons::run(1, 2, &mut draw);
    for end in units::ENDS {
        cases.run_of(0, &sticks::with_unit(&run, 0, end));
    }
    for end in sticks::SETTINGS_ENDS {
        cases.run_of(0, &sticks::with(&run, end));
    }
    // Rooms that fit, are longer, or fall short.
    for round in 0..90 {
        let (units, steps) = (1 + round % 3, draw.below(7) as usize);
        let more = draw.one_of(&[0, 0, 0, 1, 40, -1, -40]);
        cases.run_of(more, &seasons::run(units, steps, &mut draw));
    }
    // Refused files, where the room would do.
    for _ in 0..24 {
        cases.run(400, &sticks::damaged_file(&mut draw));
        cases.run(draw.below(300) as usize, &sticks::shuffled_file(&mut draw));
    }
    let file = sticks::file(&steady);
    let (end, room) = (file.len() - 7, 127);
    for length in [0, 2, 9, 61, 75, 76, 103, end - 1, end, end + 6] {
        cases.run(room, &file[..length]);
    }
    cases.run(room, &[&file[..], &[0]].concat());
    cases.run(0, &[&file[..], &file[..]].concat());
    for (i, bits) in sticks::bad_powers(&mut draw).into_iter().enumerate() {
        let bad = sticks::bad_reading(i % 3, bits, &mut draw);
        cases.run(room, &sticks::file(&sticks::with(&steady, |run| run.readings[i % 3] = bad)));
    }
    for count in sticks::bad_counts(3) {
        cases.run(room, &[&file[..end], &sticks::bytes(&[sticks::end_field(count)])].concat());
    }
    for _ in 0..6 {
        let spoil = draw.one_of(&units::BAD_VALUES);
        cases.run(room, &sticks::file(&sticks::with_unit(&steady, 0, spoil)));
        cases.run(room, &sticks::file(&sticks::with(&steady, draw.one_of(&sticks::BAD_SETTINGS))));
    }
}

/// Runs of few inverters for the most part, to keep the stored files small.
fn roof_run_cases(cases: &mut Cases) {
    let mut draw = Draw::from_seed(15);
    let sun = |irradiance| Some(Weather { irradiance, temperature: 25.0 });
    // The whole case with document 003's inverter on its roof.
    let whole = sticks::with(&sticks::whole_case(), |run| {
        run.site.inverters = vec![inverters::document_inverter()];
        run.readings = vec![Reading::Missing; 9];
        run.weather = [0.0, 0.08, 0.081, 1.0, 0.08, 0.04, 0.039, 0.08].map(sun).to_vec();
    });
    for more in [0, -1, 1, 1_000, -10_000] {
        cases.run_of(more, &whole);
        cases.run_of(more, &sticks::with(&whole, |run| run.readings.clear()));
        cases.run_of(more, &sticks::with(&whole, |run| run.weather.clear()));
        cases.run_of(more, &sticks::with(&whole, |run| run.site.inverters.clear()));
    }
    for inverters in (0..=12).chain([16, 24, 32, 48, 55]) {
        cases.run_of(0, &roofs::run(1 + inverters % 2, inverters, 1 + inverters % 4, &mut draw));
    }
    // Every row of missing weather over four steps.
    let run = loop {
        let run = roofs::run(1, 2, 4, &mut draw);
        let on = |step: &season::Step| step.solar.iter().any(|record| record.produced.on);
        if run.weather.iter().all(Option::is_some) && season::steps(&run).iter().all(on) {
            break run;
        }
    };
    for pattern in 0..16 {
        let masked = sticks::with(&run, |run| {
            let dark = (0..4).filter(|step| pattern >> step & 1 == 1);
            dark.for_each(|step| run.weather[step] = None);
        });
        cases.run_of(0, &masked);
    }
    // Values at the ends of their ranges.
    for end in inverters::ENDS {
        cases.run_of(0, &roofs::with_inverter(&run, 1, end));
    }
    // Rooms that fit, are longer, or fall short.
    for round in 0..150 {
        let (inverters, steps) = (1 + round % 3, draw.below(9) as usize);
        let more = draw.one_of(&[0, 0, 0, 1, 29, -1, -29]);
        cases.run_of(more, &roofs::run(1 + round % 2, inverters, steps, &mut draw));
    }
    // Refused files, where the room would do.
    for _ in 0..40 {
        cases.run(600, &roofs::damaged_file(&mut draw));
    }
    let file = sticks::file(&run);
    let (end, room) = (file.len() - 7, 4 * (40 + 2 * 29) + 7);
    for length in [76, 77, 98, 230, 361, 362, 648, 666, 667, end - 1, end, end + 6] {
        cases.run(room, &file[..length]);
    }
    cases.run(room, &[&file[..], &[0]].concat());
    for step in 0..4 {
        for _ in 0..4 {
            let weather = inverters::bad_weather(&mut draw);
            cases.run(room, &sticks::file(&roofs::with_weather(&run, step, weather)));
        }
    }
    for _ in 0..6 {
        let plate = draw.one_of(&inverters::BAD_PLATES);
        for spoil in [plate, draw.one_of(&inverters::BAD_WARMS), draw.one_of(&inverters::BAD_EFFS)] {
            cases.run(room, &sticks::file(&roofs::with_inverter(&run, 0, spoil)));
        }
    }
}

/// Runs of several editions, of few steps, to keep the stored files small.
fn limits_run_cases(cases: &mut Cases, seed: u64, kind: &Limited) {
    let mut draw = Draw::from_seed(seed);
    // The whole case with figure D4's unit.
    for &(edition, idle_loss) in &kind.whole {
        for var_request in [0, 599, 600, 601, 700, -299, -300, -301, -700, 1_001, -1_001] {
            let run = sticks::with(&sticks::whole_case(), |run| {
                run.site.edition = edition;
                run.site.units = vec![Unit { idle_loss, var_request, ..limits::figure_unit() }];
            });
            cases.run_of(0, &run);
        }
    }
    for units in (1..=8).chain([16, 33, 64]) {
        let steps = if units == 64 { 3 } else { 1 + units % 3 };
        cases.run_of(0, &(kind.limited)(seasons::run(units, steps, &mut draw), &mut draw));
    }
    // Values at the ends of their ranges, and the limits about each other and the request.
    let run = (kind.limited)(seasons::run(2, 2, &mut draw), &mut draw);
    for end in &kind.ends {
        cases.run_of(0, &sticks::with_unit(&run, 1, end));
    }
    // Rooms that fit, are longer, or fall short, with inverters or without.
    for round in 0..160 {
        let (units, steps) = (1 + round % 3, draw.below(6) as usize);
        let more = draw.one_of(&[0, 0, 0, 1, 40, -1, -40]);
        cases.run_of(more, &(kind.run)(units, round % 2, steps, &mut draw));
    }
    // Refused files, where the room would do.
    for _ in 0..40 {
        cases.run(600, &(kind.damaged)(&mut draw));
    }
    for spoil in limits::BAD_VALUES {
        cases.run(400, &sticks::file(&sticks::with_unit(&run, 1, spoil)));
    }
    let fields = sticks::fields(&run);
    for edition in [0, 1, 2, 3, 4, 255] {
        cases.run(400, &sticks::bytes(&limits::in_edition(edition, &fields)));
    }
}

/// Runs of figure D5's unit in edition 3: it gives, takes and rests, with idle losses at and beside the watts.
fn older_figure_cases(cases: &mut Cases) {
    for idle_loss in [0, 1, 10, 899, 900, 901, 10_000, older::MOST] {
        for (mode, kw) in [(1, 0.9), (3, -1.0)] {
            let run = sticks::with(&sticks::whole_case(), |run| {
                (run.site.edition, run.site.settings.mode) = (3, mode);
                run.site.units = vec![Unit { idle_loss, ..units::figure_unit(75_000) }];
                let power = Reading::Power(Phases { first: kw, second: 0.0, third: 0.0 });
                run.readings = vec![Reading::Missing, power, Reading::Missing];
            });
            cases.run_of(0, &run);
        }
    }
}

/// A stick of one unit in a mode, with its connection, and two steps that fit it, one of them missing.
fn connected_run(mode: u8, draw: &mut Draw) -> Run {
    let mut run = currents::plain_run(&[mode], 1, 0, 0, draw);
    run.readings = vec![currents::fitting_reading(&run.site.settings, draw), Reading::Missing];
    run
}

/// Files of sites that buy by current, and of others with connections. A pass of such a site has no record of its own:
/// the runs are its cases.
fn current_check_cases(cases: &mut Cases) {
    let mut draw = Draw::from_seed(20);
    let run = connected_run(4, &mut draw);
    let fields = sticks::fields(&run);
    let file = sticks::bytes(&fields);
    for length in 61..=file.len() {
        cases.check(&file[..length]);
    }
    // From the settings on, each field left out, said twice, of another tag or length, or any of them after any number
    // of others.
    for at in 2..fields.len() {
        field_cases(cases, &fields, at, &[4, 5, 9, 0x0A, 0x0B, 0x8A], &mut draw);
    }
    // The connections missing, twice, and before and behind every field, in every mode.
    for mode in 1..=5 {
        let run = connected_run(mode, &mut draw);
        let without = currents::without_connections(&run);
        let connections = sticks::connections_field(&run.site.connections);
        cases.check(&sticks::bytes(&without));
        for at in 0..=without.len() {
            let (before, after) = without.split_at(at);
            cases.check(&sticks::bytes(&[before, &[connections.clone()], after].concat()));
        }
        cases.check(&sticks::bytes(&[&sticks::fields(&run)[..4], &[connections.clone()]].concat()));
        reading_kind_cases(cases, &run, &mut draw);
    }
    connection_value_cases(cases, &run, &mut draw);
    // Several things wrong at once, and fleets of other sizes.
    for _ in 0..220 {
        cases.check(&currents::damaged_file(&mut draw));
    }
    for _ in 0..60 {
        cases.check(&currents::shuffled_file(&mut draw));
    }
    for units in [2, 3, 4, 21, 22, 63, 64] {
        let run = currents::run_in(&[1, 4, 5], units, units % 3, 2, &mut draw);
        cases.check(&sticks::file(&run));
        cases.check(&sticks::bytes(&currents::without_connections(&run)));
    }
}

/// Readings of both kinds behind this run's, good and bad.
fn reading_kind_cases(cases: &mut Cases, run: &Run, draw: &mut Draw) {
    let settings = &run.site.settings;
    let other = Settings { mode: if settings.by_current() { 1 } else { 4 }, ..*settings };
    let readings = [
        currents::fitting_reading(settings, draw),
        currents::misfit_reading(settings, draw),
        currents::unusable_reading(settings, draw),
        currents::unusable_reading(&other, draw),
    ];
    for reading in readings {
        cases.check(&sticks::file(&sticks::with(run, |run| run.readings.push(reading))));
        let weather = Weather { irradiance: 0.5, temperature: 1.0 };
        let sunny = sticks::with(run, |run| run.readings[0] = reading);
        cases.check(&sticks::file(&roofs::with_weather(&sunny, 0, weather)));
    }
}

/// Connections, modes and currents at the ends of their ranges and beside them.
fn connection_value_cases(cases: &mut Cases, run: &Run, draw: &mut Draw) {
    for phases in (0..=5).chain([128, 129, 131, 255]) {
        cases.check(&sticks::file(&sticks::with(run, |run| run.site.connections[0].phases = phases)));
    }
    for volts in [0, 1, 230, 256, 39_999, 40_000, 40_001, 1 << 15, u16::MAX] {
        cases.check(&sticks::file(&sticks::with(run, |run| run.site.connections[0].volts = volts)));
    }
    for mode in (0..=6).chain([132, 255]) {
        cases.check(&sticks::file(&sticks::with(run, |run| run.site.settings.mode = mode)));
    }
    for change in sticks::SETTINGS_ENDS[3..].iter().chain(&sticks::BAD_SETTINGS) {
        cases.check(&sticks::file(&sticks::with(run, change)));
    }
    let ends =
        [0.0, -0.0, -0.0001, -0.0004, -0.0005, -0.0006, 0.0625, 0.1875, -0.0625, 100_000.0, 100_000.000_5];
    let ends = ends.iter().flat_map(|r: &f64| samples::beside(r.to_bits()));
    for (i, bits) in ends.chain(currents::bad_currents(draw)).enumerate() {
        let reading = currents::bad_reading(i % 3, bits, draw);
        cases.check(&sticks::file(&sticks::with(run, |run| run.readings[0] = reading)));
    }
}

/// Runs in which each step is a pass of a site that buys by current. Few steps, to keep the stored files small.
fn current_run_cases(cases: &mut Cases) {
    let mut draw = Draw::from_seed(21);
    current_figure_cases(cases);
    for units in (1..=8).chain([16, 33, 64]) {
        let steps = if units == 64 { 3 } else { 1 + units % 4 };
        cases.run_of(0, &currents::run_in(&[4, 5], units, 0, steps, &mut draw));
    }
    // Every mode and phase choice, with energies that run out; in modes 1 to 3 the connections change nothing.
    for mode in 1..=5 {
        for phase in 0..=5 {
            let run =
                sticks::with(&currents::plain_run(&[mode], 2, 0, 5, &mut draw), |run| run.site.phase = phase);
            cases.run_of(0, &run);
        }
    }
    let run = currents::plain_run(&[4], 2, 1, 4, &mut draw);
    for phases in [1, 3] {
        for volts in [1, 2, 230, 10_000, 39_999, 40_000] {
            let connection = Connection { phases, volts };
            for mode in [4, 5] {
                let run = sticks::with(&run, |run| {
                    (run.site.settings.mode, run.site.connections[1]) = (mode, connection);
                });
                cases.run_of(0, &run);
            }
        }
    }
    // Rooms that fit, are longer, or fall short, with inverters or without.
    for round in 0..200 {
        let (units, steps) = (1 + round % 3, draw.below(7) as usize);
        let more = draw.one_of(&[0, 0, 0, 1, 40, -1, -40]);
        cases.run_of(more, &currents::run(units, round % 2, steps, &mut draw));
    }
    // Refused files, where the room would do.
    for _ in 0..50 {
        cases.run(600, &currents::damaged_file(&mut draw));
    }
    cases.run(600, &sticks::bytes(&currents::without_connections(&run)));
    let misfit = currents::misfit_reading(&run.site.settings, &mut draw);
    cases.run(600, &sticks::file(&sticks::with(&run, |run| run.readings[2] = misfit)));
}

/// The settings, connections and currents of the passes by hand, in runs of two like units.
fn current_figure_cases(cases: &mut Cases) {
    for (call, _) in currents::figure_passes() {
        let run = sticks::with(&sticks::whole_case(), |run| {
            let unit =
                Unit { rating: 100_000, kva: 100_000, idle_loss: 0, stored: 1_800_000, ..run.site.units[0] };
            run.site.units = vec![unit; 2];
            run.site.settings = call.pass.settings;
            let units = call.units.units();
            run.site.connections = units.collect();
            let of =
                |milliamperes: i64| Reading::Current(Phases::of([milliamperes as f64 / 1000.0, 0.0, 0.0]));
            let measure = call.pass.measure;
            run.readings =
                vec![of(measure), Reading::Missing, of(measure / 2), of(2 * measure), of(0), of(measure)];
        });
        cases.run_of(0, &run);
    }
}

/// One unit under a function, and three steps: one with a weather and a voltage, one with a voltage, and a missing one
/// with neither.
fn led_run(draw: &mut Draw) -> Run {
    let mut run = voltages::led(roofs::plain_run(1, 0, 0, draw), draw);
    run.readings = vec![sticks::power_reading(draw), sticks::power_reading(draw), Reading::Missing];
    run.weather = vec![Some(Weather { irradiance: 0.8, temperature: 25.0 })];
    run.voltages = vec![Some(10_100), Some(20_000)];
    run
}

/// Files with functions and voltages.
fn voltage_check_cases(cases: &mut Cases) {
    let mut draw = Draw::from_seed(22);
    let run = led_run(&mut draw);
    let fields = sticks::fields(&run);
    let first = voltages::first_function(&run);
    // The file's end before each field from the function on, and within it.
    for at in first..fields.len() {
        let (before, through) = (sticks::bytes(&fields[..at]), sticks::bytes(&fields[..=at]));
        for length in [before.len(), before.len() + 1, before.len() + 2, through.len() - 1] {
            cases.check(&through[..length]);
        }
    }
    // Function, curve and first voltage left out, said twice, of another tag or length, or any field in their place.
    for at in [first, first + 1, first + 3] {
        field_cases(cases, &fields, at, &[6, 8, 0x0A, 0x8B], &mut draw);
    }
    // A voltage and a function before and behind every field, in a file with a function and in one without.
    let more = [fields[first].clone(), voltages::voltage_field(9_900)];
    for fields in [&fields, &sticks::fields(&voltages::without(&run))] {
        for at in 2..=fields.len() {
            for more in more.chunks(1) {
                cases.check(&sticks::bytes(&[&fields[..at], more, &fields[at..]].concat()));
            }
        }
    }
    voltage_value_cases(cases, &run, &mut draw);
    // Several things wrong at once.
    for _ in 0..50 {
        cases.check(&voltages::damaged_file(&mut draw));
    }
    for _ in 0..12 {
        cases.check(&voltages::shuffled_file(&mut draw));
    }
}

/// Functions, their curves and voltages at the ends of their ranges and beside them.
fn voltage_value_cases(cases: &mut Cases, run: &Run, draw: &mut Draw) {
    let bad = voltages::BAD_BASES.iter().chain(&voltages::BAD_CURVES);
    for change in voltages::ENDS.iter().chain(bad) {
        cases.check(&sticks::file(&voltages::with_function(run, change)));
    }
    for voltage in voltages::BAD_VOLTAGES.into_iter().chain([0, 1, 19_999, 20_000]) {
        cases.check(&sticks::file(&voltages::with_voltage(run, 1, voltage)));
    }
    let curve = &run.site.function.as_ref().expect("a run that is led").curve;
    for bad in roofs::bad_curves(curve, draw) {
        cases.check(&instead(&sticks::fields(run), voltages::first_function(run) + 1, bad));
    }
}

/// Runs by hand of a unit and an inverter whose watts and vars the voltage parts: before the first voltage, at and
/// beside each point, beyond both ends, and without one.
fn voltage_figure_cases(cases: &mut Cases) {
    for (edition, base) in [(1, 0), (1, 1), (2, 0), (2, 1), (3, 0), (3, 1)] {
        let run = sticks::with(&sticks::whole_case(), |run| {
            let unit = Unit { kva: 1_000, idle_loss: 90, var_request: -70, priority: 1, ..run.site.units[0] };
            run.site.edition = edition;
            run.site.units = vec![Unit { provide: 600, absorb: 900, ..unit }];
            run.site.inverters =
                vec![Inverter { var_request: 4_000, priority: 1, ..inverters::document_inverter() }];
            let curve = Curve::through(&[(9_200, 10_000), (9_800, 1), (10_200, -3), (10_800, -10_000)]);
            run.site.function = Some(Function { base, curve });
            let power = Reading::Power(Phases { first: 0.6, second: 0.0, third: 0.0 });
            run.readings = [vec![Reading::Missing; 6], vec![power; 6]].concat();
            let noon = Some(Weather { irradiance: 0.6, temperature: 25.0 });
            run.weather = vec![None, None, noon, noon, None, noon, noon, noon, noon, None, noon, noon];
            let at = |voltage| Some(voltage);
            run.voltages = vec![None, at(0), None, at(9_200), at(9_201), at(9_799), at(9_800), at(10_201)];
            run.voltages.extend([at(10_799), None, at(10_800), at(20_000)]);
        });
        cases.run_of(0, &run);
    }
}

/// Runs under functions, of few steps, to keep the stored files small.
fn voltage_run_cases(cases: &mut Cases) {
    let mut draw = Draw::from_seed(23);
    voltage_figure_cases(cases);
    let run = voltages::run(2, 1, 3, &mut draw);
    for end in voltages::ENDS {
        cases.run_of(0, &voltages::with_function(&run, end));
    }
    // Rooms that fit, are longer, or fall short, with inverters or without.
    for round in 0..70 {
        let (units, steps) = (1 + round % 2, 1 + draw.below(4) as usize);
        let more = draw.one_of(&[0, 0, 0, 0, 1, 40, -1]);
        cases.run_of(more, &voltages::run(units, round % 3 / 2, steps, &mut draw));
    }
    cases.run_of(0, &voltages::run(64, 1, 2, &mut draw));
    cases.run_of(0, &voltages::run(1, 32, 2, &mut draw));
    // Refused files, where the room would do.
    for _ in 0..20 {
        cases.run(600, &voltages::damaged_file(&mut draw));
    }
    let mut fields = sticks::fields(&voltages::with_voltage(&run, 1, 10_000));
    voltages::without_function(&mut fields);
    cases.run(600, &sticks::bytes(&fields));
}

fn main() -> ExitCode {
    let names: Vec<_> = env::args_os().skip(1).collect();
    if names.len() != 2 {
        eprintln!("usage: cases CASES ANSWERS");
        return ExitCode::from(2);
    }
    let mut cases = Cases::default();
    watts_cases(&mut cases);
    measure_cases(&mut cases);
    kw_cases(&mut cases);
    leg_cases(&mut cases);
    up_cases(&mut cases);
    cut_cases(&mut cases);
    pass_cases(&mut cases);
    study_cases(&mut cases);
    step_cases(&mut cases);
    solar_cases(&mut cases);
    check_cases(&mut cases);
    roof_check_cases(&mut cases);
    limits_check_cases(&mut cases, 16, &up_to_2());
    value_part_cases(&mut cases);
    run_cases(&mut cases);
    roof_run_cases(&mut cases);
    limits_run_cases(&mut cases, 17, &up_to_2());
    limits_check_cases(&mut cases, 18, &up_to_3());
    limits_run_cases(&mut cases, 19, &up_to_3());
    older_figure_cases(&mut cases);
    current_check_cases(&mut cases);
    current_run_cases(&mut cases);
    voltage_check_cases(&mut cases);
    voltage_run_cases(&mut cases);
    for (name, bytes) in names.iter().zip([cases.records.as_slice(), cases.answers.as_bytes()]) {
        if let Err(error) = fs::write(name, bytes) {
            eprintln!("cases: {}: {error}", name.to_string_lossy());
            return ExitCode::from(2);
        }
    }
    ExitCode::SUCCESS
}
