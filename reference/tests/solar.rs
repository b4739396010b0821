//! The proved step of a solar inverter beside the reference, over the C surface.

mod host;

use std::collections::BTreeMap;

use host::{refuses_cut_rows, Host, LEFT_ALONE};
use yesbrulka_reference::curve::Curve;
use yesbrulka_reference::samples::inverters::{self, SolarCall};
use yesbrulka_reference::samples::{self, Draw};
use yesbrulka_reference::solar::{Inverter, Produced, Weather};

/// Steps go over in frames of this many.
const FRAME: usize = 2_048;

/// The bytes of a step's answer.
const ANSWER: usize = 22;

/// What a step returns and leaves behind.
#[derive(Debug, PartialEq)]
struct Left {
    number: u32,
    disturbed: u8,
    on: u8,
    watts: i32,
    vars: i32,
    dc: u64,
}

/// What the host leaves where a call is refused.
fn refused(number: u32) -> Left {
    let dc = (LEFT_ALONE as u64) << 32 | LEFT_ALONE as u64;
    Left { number, disturbed: 0, on: LEFT_ALONE as u8, watts: LEFT_ALONE, vars: LEFT_ALONE, dc }
}

/// By the reference.
fn expected(call: &SolarCall) -> Left {
    match call.step() {
        Ok(Produced { on, watts, vars, dc }) => {
            Left { number: 0, disturbed: 0, on: on.into(), watts, vars, dc }
        }
        Err(number) => refused(number),
    }
}

fn put_call(payload: &mut Vec<u8>, call: &SolarCall) {
    let Inverter { array, kva, cut_in, cut_out, limit, var_request, priority, ref warm, ref eff } =
        call.inverter;
    for number in [array, kva] {
        payload.extend(number.to_le_bytes());
    }
    for parts in [cut_in, cut_out, limit] {
        payload.extend(parts.to_le_bytes());
    }
    payload.extend(var_request.to_le_bytes());
    payload.push(priority);
    let lists = [&warm.x, &warm.y, &eff.x, &eff.y];
    payload.extend(lists.iter().flat_map(|list| (list.len() as u32).to_le_bytes()));
    payload.extend(lists.iter().flat_map(|list| list.iter().flat_map(|n| n.to_le_bytes())));
    for r in [call.weather.irradiance, call.weather.temperature] {
        payload.extend(r.to_bits().to_le_bytes());
    }
    payload.push(call.on);
}

fn left(answer: &[u8]) -> Left {
    let word = |at: usize| answer[at..at + 4].try_into().expect("four bytes");
    Left {
        number: u32::from_le_bytes(word(0)),
        disturbed: answer[4],
        on: answer[5],
        watts: i32::from_le_bytes(word(6)),
        vars: i32::from_le_bytes(word(10)),
        dc: u64::from_le_bytes(answer[14..22].try_into().expect("eight bytes")),
    }
}

/// What was met, and how often.
#[derive(Default)]
struct Met(BTreeMap<(&'static str, i64), u32>);

impl Met {
    fn note(&mut self, what: &'static str, which: i64) {
        *self.0.entry((what, which)).or_default() += 1;
    }

    fn note_if(&mut self, holds: bool, what: &'static str) {
        if holds {
            self.note(what, 0);
        }
    }

    /// Each of these was met more than so often.
    fn more_than(&self, count: u32, what: &'static str, which: impl IntoIterator<Item = i64>) {
        for which in which {
            let met = self.0.get(&(what, which)).copied().unwrap_or(0);
            assert!(met > count, "{what} {which} was met only {met} times");
        }
    }

    fn all_of(&self, count: u32, list: &[&'static str]) {
        list.iter().for_each(|what| self.more_than(count, what, [0]));
    }

    fn call(&mut self, call: &SolarCall, left: &Left) {
        self.note("number", left.number.into());
        let SolarCall { inverter, weather, on } = call;
        let sun = match weather.converted() {
            Ok(sun) if left.number == 0 => sun,
            _ => return,
        };
        // DC power beside cut-in and cut-out, in whole watts where these are some.
        let (dc, kva) = (i128::from(left.dc) * 10_000, i128::from(inverter.kva));
        let beside = |parts: u16| {
            let by = dc - i128::from(parts) * kva;
            (by % 10_000 == 0 && by.abs() <= 10_000).then_some((by / 10_000) as i64)
        };
        for (parts, names) in [
            (inverter.cut_in, ["watts to cut-in, off", "watts to cut-in, on"]),
            (inverter.cut_out, ["watts to cut-out, off", "watts to cut-out, on"]),
        ] {
            if let Some(by) = beside(parts) {
                self.note(names[usize::from(*on)], by);
            }
        }
        let between = i128::from(inverter.cut_out) * kva < dc && dc < i128::from(inverter.cut_in) * kva;
        self.note_if(between && *on == 0, "between, off");
        self.note_if(between && *on == 1, "between, on");
        self.note(["stays off", "turns on", "turns off", "stays on"][usize::from(2 * *on + left.on)], 0);
        self.curve(&inverter.warm, sun.temperature.into(), ["factor's points", "factor at", "factor cut"]);
        if left.on == 1 {
            let x = inverter.per_kva(left.dc);
            self.curve(&inverter.eff, x, ["efficiency's points", "efficiency at", "efficiency cut"]);
            self.output(inverter, left);
        }
    }

    /// The points of a curve; where it was read: 0 at a point, -1 and 1 beside one, 2 left of all, 3 right of all, 4
    /// elsewhere; and where the change was cut: 1 of a rise, -1 of a fall.
    fn curve(&mut self, curve: &Curve, x: i64, [points, at, cut]: [&'static str; 3]) {
        self.note(points, curve.x.len() as i64);
        let by = |near: i64| curve.x.iter().any(|&point| i64::from(point) == x - near);
        let right = curve.x.iter().position(|&point| i64::from(point) > x);
        for near in [-1, 0, 1] {
            if by(near) {
                self.note(at, near);
            }
        }
        match right {
            Some(0) => self.note(at, 2),
            None => self.note(at, 3),
            Some(right) => {
                self.note(at, 4);
                let (x0, x1) = (i64::from(curve.x[right - 1]), i64::from(curve.x[right]));
                let rise = i64::from(curve.y[right]) - i64::from(curve.y[right - 1]);
                if rise * (x - x0) % (x1 - x0) != 0 {
                    self.note(cut, rise.signum());
                }
            }
        }
    }

    /// What decided the watts and the vars of an inverter that is on.
    fn output(&mut self, inverter: &Inverter, left: &Left) {
        let ac = inverter.ac(left.dc);
        let (limit, kva) = (inverter.most_watts(), u64::from(inverter.kva));
        let (watts, vars) = (left.watts as u64, left.vars.unsigned_abs());
        let asked = inverter.var_request.unsigned_abs();
        let priority = inverter.priority.into();
        self.note("limit", i64::from(inverter.limit) / 10_000);
        self.note_if(inverter.limit == 0, "a limit of nothing");
        self.note_if(ac > limit && watts == limit, "the limit decided");
        self.note_if(ac == limit, "what it makes is the limit");
        self.note_if(ac.min(limit) > kva && watts == kva, "S decided");
        self.note_if(ac.min(limit).min(kva) > watts, "vars cut watts");
        self.note_if(watts == ac && ac > 0, "gave it all");
        self.note_if(left.dc == 0, "on in the dark");
        if u64::from(asked) > kva {
            self.note("vars beyond S", priority);
        }
        if vars < asked.min(inverter.kva) {
            self.note("vars cut", priority);
        }
        if vars != 0 {
            self.note("vars of a sign", left.vars.signum().into());
        }
    }
}

/// A host, the frame that grows for it, and what its answers were.
struct Steps {
    host: Host,
    payload: Vec<u8>,
    calls: Vec<SolarCall>,
    met: Met,
    all: u32,
    wrong: u32,
}

impl Steps {
    fn start() -> Steps {
        Steps {
            host: Host::start(),
            payload: Vec::new(),
            calls: Vec::new(),
            met: Met::default(),
            all: 0,
            wrong: 0,
        }
    }

    /// Makes a step with the archive and with the reference.
    fn step(&mut self, call: SolarCall) {
        put_call(&mut self.payload, &call);
        self.calls.push(call);
        if self.calls.len() == FRAME {
            self.compare();
        }
    }

    /// The same, of a call whose answer's number is known beforehand.
    fn step_is(&mut self, number: u32, call: SolarCall) {
        assert_eq!(call.step().err().unwrap_or(0), number, "the reference on {call:?}");
        self.step(call);
    }

    fn compare(&mut self) {
        let answer = self.host.call(b'I', &self.payload);
        assert_eq!(answer.len(), ANSWER * self.calls.len(), "an answer for each step");
        for (call, answer) in self.calls.drain(..).zip(answer.chunks(ANSWER)) {
            let (got, expected) = (left(answer), expected(&call));
            self.all += 1;
            if got != expected {
                self.wrong += 1;
                if self.wrong <= 10 {
                    eprintln!("{call:?}\n  archive   {got:?}\n  reference {expected:?}");
                }
            }
            self.met.call(&call, &expected);
        }
        self.payload.clear();
    }

    /// Compares what is left, of no fewer steps than these, and gives what was met.
    fn end(mut self, least: u32) -> Met {
        self.compare();
        assert!(self.host.end().0.success(), "the host ended badly");
        assert_eq!(self.wrong, 0, "wrong steps of {}", self.all);
        assert!(self.all >= least, "{} steps", self.all);
        println!("{} steps", self.all);
        self.met
    }
}

/// Document 003's curves at their points and midway, cut-in and cut-out, limits and the circle.
#[test]
fn steps_of_the_documents_curves() {
    let mut steps = Steps::start();
    let calls = inverters::document_steps();
    let first = Left { number: 0, disturbed: 0, on: 1, watts: 34_678, vars: 0, dc: 36_000 };
    assert_eq!(expected(&calls[0]), first);
    calls.into_iter().for_each(|call| steps.step_is(0, call));
    let met = steps.end(40);
    for name in
        ["watts to cut-in, off", "watts to cut-in, on", "watts to cut-out, off", "watts to cut-out, on"]
    {
        met.more_than(0, name, [0]);
    }
    met.more_than(0, "factor at", [0, 2, 3, 4]);
}

#[test]
fn steps_where_cuts_curves_limit_or_circle_decide() {
    let mut draw = Draw::from_seed(701);
    let mut steps = Steps::start();
    for _ in 0..330_000 {
        steps.step(inverters::solar_call(&mut draw));
    }
    let met = steps.end(330_000);
    met.more_than(329_999, "number", [0]);
    met.all_of(10_000, &["turns on", "turns off", "stays on", "stays off", "between, off", "between, on"]);
    for name in
        ["watts to cut-in, off", "watts to cut-in, on", "watts to cut-out, off", "watts to cut-out, on"]
    {
        met.more_than(3_000, name, -1..=1);
    }
    for name in ["factor at", "efficiency at"] {
        met.more_than(5_000, name, -1..=4);
    }
    for name in ["factor's points", "efficiency's points"] {
        met.more_than(1_000, name, 2..=16);
        met.more_than(15_000, name, [2, 16]);
    }
    for name in ["factor cut", "efficiency cut"] {
        met.more_than(3_000, name, [-1, 1]);
    }
    met.all_of(1_500, &["what it makes is the limit"]);
    met.all_of(
        5_000,
        &["a limit of nothing", "the limit decided", "S decided", "vars cut watts", "gave it all"],
    );
    met.all_of(2_000, &["on in the dark"]);
    met.more_than(20_000, "limit", [0, 1]);
    met.more_than(5_000, "vars beyond S", 0..=1);
    met.more_than(5_000, "vars cut", [0]);
    met.more_than(20_000, "vars of a sign", [-1, 1]);
}

/// The same inverter through many weathers, each step from the state that the one before left.
#[test]
fn steps_in_a_row() {
    let mut draw = Draw::from_seed(702);
    let mut steps = Steps::start();
    for _ in 0..1_000 {
        let mut call = inverters::solar_call(&mut draw);
        let at = call.weather.irradiance;
        for _ in 0..40 {
            let near = at + inverters::thousandths(draw.below(9) as i64 - 4);
            let any = inverters::weather(&mut draw).irradiance;
            call.weather.irradiance = draw.one_of(&[near, near, near, any, 0.0]).clamp(0.0, 100_000.0);
            steps.step_is(0, call.clone());
            call.on = expected(&call).on;
        }
    }
    let met = steps.end(40_000);
    met.all_of(1_000, &["stays on", "stays off", "turns on", "turns off", "between, off", "between, on"]);
}

/// Every x from left of a curve to right of it, for curves of a few dozen thousandths.
#[test]
fn steps_over_every_x_of_a_curve() {
    let mut draw = Draw::from_seed(703);
    let mut steps = Steps::start();
    let mut curves = 0;
    while curves < 600 {
        let call = inverters::solar_call(&mut draw);
        let warm = &call.inverter.warm;
        let (first, last) = (i64::from(warm.x[0]), i64::from(warm.x[warm.x.len() - 1]));
        if last - first > 130 {
            continue;
        }
        curves += 1;
        for x in first - 2..=last + 2 {
            let temperature = inverters::thousandths(x);
            steps.step(SolarCall { weather: Weather { temperature, ..call.weather }, ..call.clone() });
        }
    }
    let met = steps.end(20_000);
    met.more_than(500, "factor at", -1..=4);
    met.more_than(3_000, "factor cut", [-1, 1]);
}

/// Doubles at every edge of the conversion, in either place.
#[test]
fn steps_in_weather_at_the_edge() {
    let mut draw = Draw::from_seed(704);
    let mut steps = Steps::start();
    let mut doubles = samples::corners();
    doubles.extend(samples::nans().into_iter().step_by(5));
    doubles.extend(
        [-0.0001f64, -0.0005, -0.000_499_999_9, 100_000.0, 100_000.000_4, 99_999.999_9].map(f64::to_bits),
    );
    doubles.extend(inverters::bad_irradiances(&mut draw));
    doubles.extend((0..30_000).map(|_| inverters::edge(&mut draw)));
    doubles.extend((0..2_048).map(|field| samples::with_exponent(field, &mut draw)));
    let mut call = inverters::solar_call(&mut draw);
    for (i, &bits) in doubles.iter().enumerate() {
        if i % 64 == 0 {
            call = inverters::solar_call(&mut draw);
        }
        let r = f64::from_bits(bits);
        let weather = match i % 3 {
            0 => Weather { irradiance: r, ..call.weather },
            1 => Weather { temperature: r, ..call.weather },
            _ => Weather { irradiance: r.abs(), temperature: f64::from_bits(draw.one_of(&doubles)) },
        };
        steps.step(SolarCall { weather, ..call.clone() });
    }
    let met = steps.end(32_000);
    met.more_than(5_000, "number", [0, 6]);
}

#[test]
fn steps_with_values_at_their_ends_or_beside_them() {
    let mut draw = Draw::from_seed(705);
    let mut steps = Steps::start();
    let bad = || {
        let values = inverters::BAD_PLATES.iter().chain(&inverters::BAD_WARMS);
        values.chain(&inverters::BAD_EFFS).chain(&inverters::BAD_STATES)
    };
    for _ in 0..400 {
        let call = inverters::solar_call(&mut draw);
        for end in inverters::ENDS.iter().chain(&inverters::WEATHER_ENDS) {
            steps.step_is(0, call.with(end));
        }
        for spoil in bad() {
            steps.step_is(5, call.with(spoil));
        }
        // A wrong value comes before a wrong weather.
        let weather = inverters::bad_weather(&mut draw);
        steps.step_is(6, SolarCall { weather, ..call.clone() });
        for spoil in bad() {
            steps.step_is(5, SolarCall { weather, ..call.with(spoil) });
        }
        // Several values at their ends at once.
        for _ in 0..30 {
            let ends = [(); 3].map(|()| draw.one_of(&inverters::ENDS));
            steps.step_is(0, ends.iter().fold(call.clone(), |call, end| call.with(end)));
        }
    }
    let met = steps.end(60_000);
    met.more_than(20_000, "number", [0, 5]);
    met.more_than(399, "number", [6]);
}

/// The lists' lengths come before everything else.
#[test]
fn steps_with_lists_of_wrong_lengths() {
    let mut draw = Draw::from_seed(706);
    let mut steps = Steps::start();
    for round in 0..500 {
        let mut call = inverters::solar_call(&mut draw);
        match round % 4 {
            1 => call.weather = inverters::bad_weather(&mut draw),
            2 => call = call.with(draw.one_of(&inverters::BAD_PLATES)),
            3 => call = call.with(draw.one_of(&inverters::BAD_EFFS)).with(|call| call.on = 7),
            _ => (),
        }
        for lengths in inverters::bad_lengths(&call.inverter, &mut draw) {
            let mut call = call.clone();
            inverters::resize(&mut call.inverter, lengths, &mut draw);
            steps.step_is(10, call);
        }
    }
    steps.end(20_000).more_than(20_000, "number", [10]);
}

/// Any bits at all in every number, and lists of any length; most of these are refused.
#[test]
fn steps_over_any_bits() {
    let mut draw = Draw::from_seed(707);
    let mut steps = Steps::start();
    for round in 0..60_000 {
        let good = inverters::solar_call(&mut draw);
        let any = Inverter {
            array: draw.sized() as u32,
            kva: draw.sized() as u32,
            cut_in: draw.sized() as u16,
            cut_out: draw.sized() as u16,
            limit: draw.sized() as u16,
            var_request: draw.any() as i32 >> draw.below(32),
            priority: draw.any() as u8 >> draw.below(8),
            warm: good.inverter.warm.clone(),
            eff: good.inverter.eff.clone(),
        };
        let mut call = match round % 4 {
            0 => SolarCall { inverter: any, ..good },
            1 => SolarCall { on: draw.any() as u8 >> draw.below(8), ..good },
            _ => good,
        };
        if round % 3 == 0 {
            // Numbers of any bits in one of the lists or in all.
            let which = draw.below(5) as usize;
            for (i, list) in inverters::lists(&mut call.inverter).into_iter().enumerate() {
                if i == which || which == 4 {
                    list.iter_mut().for_each(|n| *n = draw.any() as i32 >> draw.below(32));
                }
            }
        }
        if round % 7 == 0 {
            call.weather.irradiance = f64::from_bits(draw.any());
            call.weather.temperature = f64::from_bits(draw.any());
        }
        steps.step(call);
    }
    let met = steps.end(60_000);
    met.more_than(1_000, "number", [0, 5, 6]);
}

/// The comparison is worth nothing if the host answers frames that it has not understood.
#[test]
fn the_host_takes_no_malformed_step() {
    let mut step = Vec::new();
    put_call(&mut step, &inverters::document_steps()[0]);
    let message = "host: op I: the payload is no row of inverters\n";
    refuses_cut_rows(b'I', &step, &[1, 18, 19, 22, 34, 35, 100, step.len() - 9, step.len() - 1], message);
    let mut host = Host::start();
    assert_eq!(host.call(b'I', &step).len(), ANSWER);
    assert!(host.end().0.success());
}
