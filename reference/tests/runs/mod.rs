//! What the tests share that run files: the frames of rooms and files that grow, what the runs must leave, and a tally
//! of what was met in them.

use std::collections::BTreeMap;

use crate::host::{lent_room, Host};
use yesbrulka_reference::reading::Reading;
use yesbrulka_reference::samples::{sticks, Draw};
use yesbrulka_reference::season::{self, Record, SolarRecord, Step};
use yesbrulka_reference::solar::Inverter;
use yesbrulka_reference::stick::Run;
use yesbrulka_reference::storage::Unit;
use yesbrulka_reference::volt_var::Function;
use yesbrulka_reference::whole::largest_leg;

/// Files and rooms go over in frames of about this many bytes.
const FRAME: usize = 1 << 20;

/// The bytes of an answer before those of the room.
pub const ANSWER: usize = 13;

/// What was met, and how often. A test says what it must have met, so that it cannot go on passing over
/// inputs that no longer show anything.
#[derive(Default)]
pub struct Met(BTreeMap<(&'static str, u32), u32>);

impl Met {
    pub fn note(&mut self, what: &'static str, which: u32) {
        *self.0.entry((what, which)).or_default() += 1;
    }

    pub fn note_if(&mut self, holds: bool, what: &'static str) {
        if holds {
            self.note(what, 0);
        }
    }

    fn note_if_in(&mut self, edition: u8, holds: bool, what: &'static str) {
        if holds {
            self.note(what, edition.into());
        }
    }

    /// Each of these was met more than so often.
    pub fn more_than(&self, count: u32, what: &'static str, which: impl IntoIterator<Item = u32>) {
        for which in which {
            let met = self.0.get(&(what, which)).copied().unwrap_or(0);
            assert!(met > count, "{what} {which} was met only {met} times");
        }
    }

    /// Each of these was met more than so often, of those that have no number.
    pub fn all_of(&self, count: u32, list: &[&'static str]) {
        list.iter().for_each(|what| self.more_than(count, what, [0]));
    }

    fn run(&mut self, run: &Run, steps: &[Step]) {
        self.note("edition", run.site.edition.into());
        self.note("units", run.site.units.len() as u32);
        self.note("mode", run.site.settings.mode.into());
        self.note("phase", run.site.phase.into());
        self.note("mode and phase", u32::from(run.site.settings.mode) * 10 + u32::from(run.site.phase));
        let missing = |reading: Option<&Reading>| matches!(reading, Some(Reading::Missing));
        self.note_if(steps.is_empty(), "no steps");
        self.note_if(missing(run.readings.first()), "first reading missing");
        self.note_if(missing(run.readings.last()), "last reading missing");
        let mut stored: Vec<u64> = run.site.units.iter().map(|unit| unit.stored).collect();
        for (k, step) in steps.iter().enumerate() {
            match step.passed {
                Some(passed) => {
                    self.note("rule", passed.rule.into());
                    self.note_if(passed.rule == 4 && passed.changed, "an exhausted fleet stopped");
                }
                None => self.note_if(step.records.iter().any(|r| r.request != 0), "requests stood"),
            }
            let charges = run.site.settings.charges();
            for (i, (unit, record)) in run.site.units.iter().zip(&step.records).enumerate() {
                if step.passed.is_some_and(|passed| passed.rule == 6) {
                    let helpless = if charges { stored[i] == unit.rated } else { stored[i] <= unit.reserve };
                    assert!(!helpless || record.request == 0);
                    self.note_if(helpless && charges, "full and not asked");
                    self.note_if(helpless && !charges, "empty and not asked");
                }
                let before = if k == 0 { 0 } else { steps[k - 1].records[i].request };
                self.note_if(record.request.unsigned_abs() < before.unsigned_abs(), "a request taken back");
                let asked = asked_of(run, unit, record);
                self.unit_step(run.site.edition, &asked, stored[i], record);
                let idle = stored[i] == record.stepped.stored;
                self.note_if_in(run.site.edition, idle && step.passed.is_none(), "idle without a reading");
                stored[i] = record.stepped.stored;
            }
        }
        self.roof(run, steps);
        if let Some(function) = &run.site.function {
            self.led(run, function, steps);
        }
    }

    /// What the weather and the inverters came to.
    fn roof(&mut self, run: &Run, steps: &[Step]) {
        self.note("inverters", run.site.inverters.len() as u32);
        let mut on = vec![false; run.site.inverters.len()];
        for (k, step) in steps.iter().enumerate() {
            let weather = run.weather_of(k).is_some();
            self.note_if(weather, "a weather");
            self.note_if(weather && on.is_empty(), "a weather without inverters");
            self.note_if(weather && step.passed.is_none(), "a weather and no reading");
            for (i, inverter) in run.site.inverters.iter().enumerate() {
                self.note_if(!weather && on[i], "on before a step without weather");
                let function = run.site.function.as_ref();
                let priority = function.map_or(inverter.priority, |led| led.priority(inverter.priority));
                self.solar_step(inverter, priority, on[i], &step.solar[i]);
                on[i] = step.solar[i].produced.on;
            }
        }
    }

    /// What decided an inverter's step.
    fn solar_step(&mut self, inverter: &Inverter, priority: u8, before: bool, record: &SolarRecord) {
        let made = record.produced;
        let (dc, kva) = (u128::from(made.dc) * 10_000, u128::from(inverter.kva));
        let (cut_in, cut_out) = (u128::from(inverter.cut_in) * kva, u128::from(inverter.cut_out) * kva);
        let held = cut_out <= dc && dc <= cut_in;
        self.note_if(made.on && !before, "turned on");
        self.note_if(!made.on && before, "turned off");
        self.note_if(held && made.on, "held on");
        self.note_if(held && !made.on, "held off");
        self.note_if(dc == cut_in, "at cut-in");
        self.note_if(dc == cut_out, "at cut-out");
        if made.on {
            let asked = inverter.ac(made.dc).min(inverter.most_watts());
            let vars = record.vars_asked.unsigned_abs();
            self.note("inverter's priority", priority.into());
            self.note_if(asked < inverter.ac(made.dc), "watts cut by the limit");
            self.note_if((made.watts as u64) < asked, "watts cut by the inverter's circle");
            self.note_if(made.vars.unsigned_abs() < vars, "an inverter's vars cut");
            self.note_if(made.vars < 0, "an inverter's vars below zero");
        }
    }

    /// What decided a unit's step. The classes of a unit that is asked and is cut are of those whose request
    /// the circle left something of.
    fn unit_step(&mut self, edition: u8, unit: &Unit, stored: u64, record: &Record) {
        let Record { request, stepped, .. } = *record;
        let asked = request.unsigned_abs().min(unit.kva);
        let vars = unit.var_request.unsigned_abs();
        let limited = unit.limited_vars().unsigned_abs();
        let beside = |vars: u32| asked.min(largest_leg(unit.kva, vars));
        let size = if unit.priority == 0 { asked } else { beside(limited) };
        let watts = stepped.watts + unit.grid_loss(edition) as i32;
        let given = watts.unsigned_abs();
        let still = stepped.stored == stored;
        self.note_if_in(edition, still, "idle");
        self.note_if_in(edition, !still && watts > 0, "gave");
        self.note_if_in(edition, !still && watts < 0, "took");
        self.older_step(edition, unit, watts, record);
        self.note("priority", unit.priority.into());
        self.note_if(request.unsigned_abs() == unit.rating, "a request at its rating");
        self.note_if(request.unsigned_abs() > unit.kva, "a request beyond S");
        self.note_if(size < asked, "watts cut by vars");
        self.note_if(stepped.vars.unsigned_abs() < vars, "vars cut");
        self.note_if(stepped.vars < 0, "vars below zero");
        let by_limit = limited < vars.min(unit.kva);
        self.note_if(by_limit && unit.var_request > 0, "vars above the provide limit");
        self.note_if(by_limit && unit.var_request < 0, "vars beyond the absorb limit");
        self.note_if(by_limit && stepped.vars.unsigned_abs() < limited, "vars cut by limit and circle");
        self.note_if(unit.priority == 1 && size > beside(vars.min(unit.kva)), "watts that a limit left");
        self.note_if(watts == 0, "neither gave nor took");
        if request > 0 && size > 0 {
            self.note_if(!still && given == size, "gave it all");
            self.note_if(!still && given < size, "ran empty");
            self.note_if(still && stored >= unit.reserve, "was empty");
            assert!(stored >= unit.reserve, "no run asks a unit below its reserve");
        }
        if request < 0 && size > 0 {
            self.note_if(!still && given == size, "took it all");
            self.note_if(!still && given < size, "ran full");
            self.note_if(still && stored == unit.rated, "was full");
            self.note_if(still && stored < unit.rated, "had too little room");
        }
    }
}

/// A unit as a step has it: with the vars that were requested, and the priority that counts.
fn asked_of(run: &Run, unit: &Unit, record: &Record) -> Unit {
    let function = run.site.function.as_ref();
    let priority = function.map_or(unit.priority, |function| function.priority(unit.priority));
    Unit { var_request: record.vars_asked, priority, ..*unit }
}

impl Met {
    /// What a function and the voltages came to.
    fn led(&mut self, run: &Run, function: &Function, steps: &[Step]) {
        let base = function.base.into();
        self.note("led, by base", base);
        self.note("led, by edition and base", 10 * u32::from(run.site.edition) + base);
        self.note_if(!steps.is_empty() && run.voltage_of(0).is_none(), "first step without a voltage");
        let some = (0..steps.len()).any(|step| run.voltage_of(step).is_some());
        self.note_if(some, "a run with voltages");
        for (k, step) in steps.iter().enumerate() {
            let voltage = run.voltage_of(k);
            match voltage {
                Some(voltage) => self.voltage(function, voltage),
                None => self.note("a step without a voltage, by base", base),
            }
            for (i, (unit, record)) in run.site.units.iter().zip(&step.records).enumerate() {
                self.led_unit(run, function, voltage, &asked_of(run, unit, record), record);
                let before = k.checked_sub(1).map(|before| steps[before].records[i]);
                let less = |before: &Record| before.stepped.vars != before.vars_asked;
                if voltage.is_none() && before.as_ref().map_or(false, less) {
                    self.note("kept though less was given, by base", base);
                }
                let first = unit.priority == 1 && record.request != 0;
                self.note_if(first && base == 1, "vars first under base 1");
            }
            for (inverter, record) in run.site.inverters.iter().zip(&step.solar) {
                self.note("led inverter's step, by base", base);
                let off = !record.produced.on && record.vars_asked != 0;
                let kept = off && voltage.is_none() && record.vars_asked != inverter.var_request;
                if off {
                    self.note("off and requested, by base", base);
                }
                self.note_if(kept, "off, with vars kept");
                self.note_if(
                    record.produced.on && off_before(steps, k, record),
                    "kept vars given once it is on",
                );
            }
        }
    }

    /// Where a voltage lies beside the curve's points, and what the curve says there.
    fn voltage(&mut self, function: &Function, voltage: u16) {
        let (x, points) = (i32::from(voltage), &function.curve.x);
        let (first, last) = (points[0], points[points.len() - 1]);
        self.note_if(voltage == 0, "voltage 0");
        self.note_if(voltage == 20_000, "voltage 20,000");
        self.note_if(x < first, "before the first point");
        self.note_if(x > last, "after the last point");
        self.note_if(points.contains(&x), "at a point");
        self.note_if(points.contains(&(x - 1)) || points.contains(&(x + 1)), "beside a point");
        self.note_if(first < x && x < last && !points.contains(&x), "between two points");
        self.note("points", points.len() as u32);
        let y = function.curve.at(x.into());
        self.note_if(y < 0, "y below zero");
        self.note_if(y > 0, "y above zero");
        self.note_if(y == -10_000, "y at its lowest");
        self.note_if(y == 10_000, "y at its highest");
    }

    /// What decided the vars of a led unit.
    fn led_unit(
        &mut self,
        run: &Run,
        function: &Function,
        voltage: Option<u16>,
        unit: &Unit,
        record: &Record,
    ) {
        let (base, edition) = (u32::from(function.base), run.site.edition);
        let Record { request, stepped, .. } = *record;
        self.note("led unit's step, by base", base);
        let of_edition = unit.of_edition(edition);
        let limited = of_edition.limited_vars();
        let watts = (stepped.watts + unit.grid_loss(edition) as i32).unsigned_abs();
        let beside = |vars: u32| unit.kva.min(largest_leg(unit.kva, vars));
        let most = if unit.priority == 1 { beside(limited.unsigned_abs()) } else { unit.kva };
        let asked = request.unsigned_abs().min(most);
        let by_limit = limited.unsigned_abs() < record.vars_asked.unsigned_abs().min(unit.kva);
        let by_circle = stepped.vars.unsigned_abs() < limited.unsigned_abs();
        if voltage.is_some() {
            // Watts of an idle unit are others than those asked.
            if request != 0 && watts != asked {
                self.note("led by watts that the store cut, by base", base);
            }
            if by_limit {
                self.note("led beyond a limit, by edition", edition.into());
                self.note("led beyond a limit, by base", base);
            }
            assert!(base == 0 || !by_circle, "what the circle leaves is not cut by it");
        }
        if by_circle {
            self.note("led and cut by the circle, by base", base);
        }
        self.note_if(
            base == 0 && unit.priority == 1 && asked < request.unsigned_abs().min(unit.kva),
            "led vars first",
        );
        self.note_if(stepped.vars < 0, "led vars below zero");
        self.note_if(stepped.vars > 0, "led vars above zero");
    }
}

/// The inverter was off in the step before, and what is requested is what was requested there.
fn off_before(steps: &[Step], k: usize, record: &SolarRecord) -> bool {
    let before = k.checked_sub(1).map(|before| steps[before].solar[usize::from(record.inverter)]);
    before.map_or(false, |before| {
        !before.produced.on && before.vars_asked == record.vars_asked && record.vars_asked != 0
    })
}

impl Met {
    /// What an idle loss at the grid connection came to.
    fn older_step(&mut self, edition: u8, unit: &Unit, watts: i32, record: &Record) {
        let Record { request, stepped, .. } = *record;
        if edition != 3 {
            return;
        }
        self.note_if(unit.idle_loss == 0, "no idle loss at the grid");
        self.note_if(unit.idle_loss == 10_000_000, "the most idle loss");
        self.note_if(unit.idle_draw(2) > unit.kva.into(), "an idle draw above S");
        self.note_if(watts > 0 && stepped.watts < 0, "gave less than its idle loss");
        self.note_if(watts > 0 && stepped.watts > 0, "gave more than its idle loss");
        self.note_if(watts < 0 && stepped.watts < request, "drew more than it was asked");
        self.note_if(watts == 0 && stepped.vars == unit.limited_vars(), "idle with all its vars");
    }
}

/// What a run must leave: its number, the room needed, and the room's bytes.
struct Expected {
    file: Vec<u8>,
    number: u32,
    needed: u64,
    room: Vec<u8>,
}

impl Expected {
    /// The answer's first difference from it, for a message; none where there is none.
    fn difference(&self, answer: &[u8]) -> Option<String> {
        let needed = u64::from_le_bytes(answer[..8].try_into().expect("eight bytes"));
        let number = u32::from_le_bytes(answer[8..12].try_into().expect("four bytes"));
        let room = &answer[ANSWER..];
        if (number, needed) != (self.number, self.needed) {
            return Some(format!(
                "number {number}, room needed {needed}; the reference {}, {}",
                self.number, self.needed
            ));
        }
        if answer[12] != 0 {
            return Some("the file or a guard was written".to_string());
        }
        let at = (0..room.len()).find(|&at| room[at] != self.room[at])?;
        let from = at / 40 * 40;
        let part = |bytes: &[u8]| hex(&bytes[from..bytes.len().min(from + 40)]);
        Some(format!(
            "number {number}: byte {at} of the room\n  archive   {}\n  reference {}",
            part(room),
            part(&self.room)
        ))
    }
}

fn hex(bytes: &[u8]) -> String {
    bytes.iter().map(|byte| format!("{byte:02X}")).collect()
}

/// A room's length beside what a file needs.
#[derive(Clone, Copy)]
#[allow(dead_code)] // not every test lends rooms of every kind
pub enum Room {
    Exact,
    OneShort,
    Empty,
    Longer(usize),
    Of(usize),
}

impl Room {
    /// Mostly exact or longer, so that there is a result.
    pub fn any(draw: &mut Draw) -> Room {
        let longer = draw.below(120) as usize;
        let any = draw.below(400) as usize;
        let longer = Room::Longer(longer);
        draw.one_of(&[
            Room::Exact,
            Room::Exact,
            longer,
            longer,
            Room::Exact,
            longer,
            Room::OneShort,
            Room::Of(any),
        ])
    }

    /// Of every kind, for a file that may be refused.
    pub fn any_for_refused(draw: &mut Draw) -> Room {
        let any = draw.below(1_000) as usize;
        draw.one_of(&[Room::Empty, Room::Of(7), Room::Of(any), Room::Longer(any), Room::OneShort])
    }

    fn length(self, needed: u64) -> usize {
        let needed = needed as usize;
        match self {
            Room::Exact => needed,
            Room::OneShort => needed.saturating_sub(1),
            Room::Empty => 0,
            Room::Longer(more) => needed + more,
            Room::Of(length) => length,
        }
    }
}

/// A host, the frame that grows for it, and what its answers were.
pub struct Comparison {
    host: Host,
    draw: Draw,
    payload: Vec<u8>,
    runs: Vec<Expected>,
    size: usize,
    met: Met,
    all: u32,
    wrong: u32,
}

impl Comparison {
    /// The seed is that of the rooms' fills.
    pub fn start(seed: u64) -> Comparison {
        Comparison {
            host: Host::start(),
            draw: Draw::from_seed(seed),
            payload: Vec::new(),
            runs: Vec::new(),
            size: 0,
            met: Met::default(),
            all: 0,
            wrong: 0,
        }
    }

    /// Runs a file with the archive and with the reference.
    pub fn run(&mut self, file: impl Into<Vec<u8>>, room: Room) -> u32 {
        let file = file.into();
        let needed = season::room_needed(&file);
        let length = room.length(needed);
        let fill = self.draw.any() as u8;
        let mut room = lent_room(length, fill);
        let number = match season::accepted(&file, length) {
            Ok(run) => {
                let steps = season::steps(&run);
                let result = season::result(&steps);
                room[..result.len()].copy_from_slice(&result);
                self.met.run(&run, &steps);
                self.met.note_if(length == result.len(), "an exact room");
                self.met.note_if(length > result.len(), "a longer room");
                0
            }
            Err(answer) => {
                self.met.note_if(answer.number == 11 && length as u64 + 1 == needed, "a room one short");
                self.met.note_if(answer.number == 11 && length == 0, "an empty room");
                answer.number
            }
        };
        self.met.note("number", number);
        self.payload.extend((length as u32).to_le_bytes());
        self.payload.push(fill);
        self.payload.extend((file.len() as u32).to_le_bytes());
        self.payload.extend_from_slice(&file);
        self.size += file.len() + 2 * length;
        self.runs.push(Expected { file, number, needed, room });
        if self.size > FRAME {
            self.compare();
        }
        number
    }

    /// The same of a run that is not refused, but for its room.
    pub fn run_of(&mut self, run: &Run, room: Room) {
        let number = self.run(sticks::file(run), room);
        assert!(number == 0 || number == 11, "the reference refused a run: {number}");
    }

    /// The same in every room from none to more than is needed.
    pub fn run_in_every_room(&mut self, run: &Run) {
        let needed = season::room_needed(&sticks::file(run)) as usize;
        (0..needed + 54).for_each(|length| self.run_of(run, Room::Of(length)));
    }

    fn compare(&mut self) {
        let answer = self.host.call(b'R', &self.payload);
        let mut rest = &answer[..];
        for expected in self.runs.drain(..) {
            let length = ANSWER + expected.room.len();
            assert!(rest.len() >= length, "an answer for each run");
            let (answer, after) = rest.split_at(length);
            rest = after;
            self.all += 1;
            if let Some(difference) = expected.difference(answer) {
                self.wrong += 1;
                if self.wrong <= 5 {
                    let file = &expected.file[..expected.file.len().min(400)];
                    eprintln!("{} ({} bytes)\n  {difference}", hex(file), expected.file.len());
                }
            }
        }
        assert!(rest.is_empty(), "no answer but for a run");
        self.payload.clear();
        self.size = 0;
    }

    /// Compares what is left, of no fewer runs than these, and gives what was met.
    pub fn end(mut self, least: u32) -> Met {
        self.compare();
        assert!(self.host.end().0.success(), "the host ended badly");
        assert_eq!(self.wrong, 0, "wrong answers of {}", self.all);
        assert!(self.all >= least, "{} runs", self.all);
        println!("{} runs", self.all);
        self.met
    }
}
