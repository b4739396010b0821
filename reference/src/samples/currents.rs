//! Sites that buy by current: calls of a pass in which the connections decide, readings of currents at the edges of
//! their conversion, runs in modes 4 and 5, and every kind of damage that can come over the fields of both.

use super::fleets::{self, PassCall};
use super::sticks::{self, Field};
use super::{older, roofs, seasons, voltages, Draw};
use crate::connection::{Connection, Connections};
use crate::controller::{pass_current, Passed, Settings};
use crate::ranges::{BAND, CURRENT_MEASURE, TARGET};
use crate::reading::{self, Phases, Reading};
use crate::stick::{Run, CONNECTION, CONNECTIONS, CURRENT, MISSING, POWER, SETTINGS};

/// All that one pass of a site that buys by current is handed.
#[derive(Clone, Debug)]
pub struct CurrentCall {
    pub pass: PassCall,
    pub units: Connections,
}

/// The lengths of the lists, in the order of the call: rated, reserve, stored, rating, weight, phases, volts, requests.
pub type Lengths = [usize; 8];

impl CurrentCall {
    /// The same call with a change.
    pub fn with(&self, change: impl Fn(&mut CurrentCall)) -> CurrentCall {
        let mut call = self.clone();
        change(&mut call);
        call
    }

    /// The same call with a change to what any pass is handed. Where that gives the fleet more units they are connected
    /// like the first.
    pub fn with_pass(&self, change: impl Fn(&mut PassCall)) -> CurrentCall {
        let mut call = self.with(|call| change(&mut call.pass));
        let units = call.pass.requests.len();
        call.units.phases.resize(units, self.units.phases[0]);
        call.units.volts.resize(units, self.units.volts[0]);
        call
    }

    pub fn resize(&mut self, lengths: Lengths, draw: &mut Draw) {
        let [rated, reserve, stored, rating, weight, phases, volts, requests] = lengths;
        self.pass.resize([rated, reserve, stored, rating, weight, requests], draw);
        fleets::resize_list(&mut self.units.phases, phases, 1, draw);
        fleets::resize_list(&mut self.units.volts, volts, 1, draw);
    }

    /// What the reference says to it.
    pub fn pass(&mut self) -> Result<Passed, u32> {
        let PassCall { settings, measure, fleet, requests } = &mut self.pass;
        pass_current(settings, *measure, fleet, &self.units, requests)
    }
}

/// Values of a call, a unit's for the most part, at the ends of their ranges.
pub const ENDS: [fn(&mut CurrentCall, usize); 15] = [
    |call, _| call.pass.settings.mode = 4,
    |call, _| call.pass.settings.mode = 5,
    |call, _| call.pass.settings.target = -100_000_000,
    |call, _| call.pass.settings.target = 100_000_000,
    |call, _| call.pass.settings.band = 0,
    |call, _| call.pass.settings.band = 200_000_000,
    |call, _| call.pass.settings.factor = 1,
    |call, _| call.pass.settings.factor = 1_000,
    |call, _| call.pass.measure = 0,
    |call, _| call.pass.measure = 300_000_000,
    |call, unit| call.units.phases[unit] = 1,
    |call, unit| call.units.phases[unit] = 3,
    |call, unit| call.units.volts[unit] = 1,
    |call, unit| call.units.volts[unit] = 40_000,
    |call, unit| (call.units.phases[unit], call.units.volts[unit]) = (3, 40_000),
];

/// Values one beyond the ends of their ranges, and as far as they go.
pub const BAD_VALUES: [fn(&mut CurrentCall, usize); 33] = [
    |call, _| call.pass.settings.mode = 0,
    |call, _| call.pass.settings.mode = 1,
    |call, _| call.pass.settings.mode = 2,
    |call, _| call.pass.settings.mode = 3,
    |call, _| call.pass.settings.mode = 6,
    |call, _| call.pass.settings.mode = 128 + 4,
    |call, _| call.pass.settings.mode = u8::MAX,
    |call, _| call.pass.settings.target = -100_000_001,
    |call, _| call.pass.settings.target = 100_000_001,
    |call, _| call.pass.settings.target = i32::MIN,
    |call, _| call.pass.settings.target = i32::MAX,
    |call, _| call.pass.settings.band = 200_000_001,
    |call, _| call.pass.settings.band = u32::MAX,
    |call, _| call.pass.settings.factor = 0,
    |call, _| call.pass.settings.factor = 1_001,
    |call, _| call.pass.settings.factor = u16::MAX,
    |call, _| call.pass.measure = -1,
    |call, _| call.pass.measure = 300_000_001,
    |call, _| call.pass.measure = -300_000_000,
    |call, _| call.pass.measure = 1 << 32,
    |call, _| call.pass.measure = -1 << 32,
    |call, _| call.pass.measure = i64::MIN,
    |call, _| call.pass.measure = i64::MAX,
    |call, unit| call.units.phases[unit] = 0,
    |call, unit| call.units.phases[unit] = 2,
    |call, unit| call.units.phases[unit] = 4,
    |call, unit| call.units.phases[unit] = 128 + 1,
    |call, unit| call.units.phases[unit] = 128 + 3,
    |call, unit| call.units.phases[unit] = u8::MAX,
    |call, unit| call.units.volts[unit] = 0,
    |call, unit| call.units.volts[unit] = 40_001,
    |call, unit| call.units.volts[unit] = 1 << 15 | 1 << 14,
    |call, unit| call.units.volts[unit] = u16::MAX,
];

/// One or three phases, of a house, of a line, at the ends of their volts, or any.
fn connection(draw: &mut Draw) -> Connection {
    let any = 1 + draw.below(40_000) as u16;
    let volts = draw.one_of(&[230, 230, 240, 400, 10_000, 1, 2, 39_999, 40_000, any]);
    Connection { phases: draw.one_of(&[1, 3]), volts }
}

/// A connection for each of so many units: all alike, or each its own.
pub fn connections(units: usize, draw: &mut Draw) -> Vec<Connection> {
    let all = connection(draw);
    let alike = draw.below(4) == 0;
    (0..units).map(|_| if alike { all } else { connection(draw) }).collect()
}

/// A field of the connections of a few units.
pub fn any_connections(draw: &mut Draw) -> Field {
    let units = 1 + draw.below(3) as usize;
    sticks::connections_field(&connections(units, draw))
}

/// The watts that a milliampere and a thousand of them are to a connection.
fn volts(connection: Connection) -> i64 {
    i64::from(connection.phases) * i64::from(connection.volts)
}

/// A band: none, the widest, any, one that is next to nothing to a unit, or about twice a unit's need.
fn band(need: i64, connection: Connection, draw: &mut Draw) -> u32 {
    let most = i64::from(*BAND.end());
    let of_watts = |watts: i64| 1_000 * watts / volts(connection);
    let band = match draw.below(10) {
        0 => 0,
        1 => most,
        2 => draw.below(most as u64 + 1) as i64,
        3 | 4 => draw.below(of_watts(1) as u64 + 2) as i64,
        5 => draw.below(100) as i64,
        _ => of_watts(2 * need.abs()) + draw.below(7) as i64 - 3,
    };
    band.clamp(0, most) as u32
}

/// A call of a pass that is not to be refused, over a fleet of at most `most` units. One of them has a need of its own
/// that is none, little, about what the fleet gives or takes now, or any.
pub fn pass_call(most: usize, draw: &mut Draw) -> CurrentCall {
    let (fleet, requests) = fleets::asked_fleet(most, &fleets::ANY_FILL, draw);
    let connections = connections(requests.len(), draw);
    let mut settings =
        Settings { mode: 4 + draw.below(2) as u8, target: 0, band: 0, factor: fleets::factor(draw) };
    let fleet_power: i64 = requests.iter().map(|&request| i64::from(request)).sum();
    let against = if settings.charges() { fleet_power > 0 } else { fleet_power < 0 };
    let one = draw.one_of(&connections);
    let need = fleets::need_of(settings.charges(), fleet_power, draw);
    let own = need - if against { fleet_power } else { 0 };
    let plain = 1_000 * own / volts(one) + draw.below(3) as i64 - 1;

    // No measure is below zero: a need that is has a target above it.
    let target = match draw.below(8) {
        0 => draw.one_of(&[-100_000_000, 100_000_000]),
        1 => 0,
        2 => draw.below(200_000_001) as i64 - 100_000_000,
        _ => draw.below(2_001) as i64 - 1_000,
    };
    let target = target.max(-plain).clamp((*TARGET.start()).into(), (*TARGET.end()).into());
    let measure = match draw.below(20) {
        0 => *CURRENT_MEASURE.start(),
        1 => *CURRENT_MEASURE.end(),
        _ => (plain + target).clamp(*CURRENT_MEASURE.start(), *CURRENT_MEASURE.end()),
    };
    settings.target = target as i32;
    settings.band = band(need, one, draw);
    let pass = PassCall { settings, measure, fleet, requests };
    CurrentCall { pass, units: Connections::of(&connections) }
}

/// A pass by hand: mode, target, band, measure, what two units are asked, and how they are connected. Both hold enough,
/// have room, and are of the same weight.
pub fn figure_call(mode: u8, levels: [i64; 3], requests: [i32; 2], units: [(u8, u16); 2]) -> CurrentCall {
    let [target, band, measure] = levels;
    let settings = Settings { mode, target: target as i32, band: band as u32, factor: 1_000 };
    let fleet = fleets::half_full(&[1_000_000; 2], &[1, 1]);
    let pass = PassCall { settings, measure, fleet, requests: requests.to_vec() };
    let units = units.map(|(phases, volts)| Connection { phases, volts });
    CurrentCall { pass, units: Connections::of(&units) }
}

/// Passes by hand, each with its need, whether it changed a request, the rule that decided, and the new requests.
pub fn figure_passes() -> Vec<(CurrentCall, (i64, bool, u8, [i32; 2]))> {
    let low = [(1, 230), (3, 230)];
    let mixed = [(1, 230), (3, 10_000)];
    vec![
        // 10 A above the target are 2,300 W to one and 6,900 W to the other, of which each has half as its share.
        (figure_call(4, [20_000, 0, 30_000], [0, 0], low), (10_000, true, 6, [1_150, 3_450])),
        (figure_call(5, [30_000, 0, 20_000], [0, 0], low), (-10_000, true, 6, [-1_150, -3_450])),
        // 13 mA are 2.99 W and 8.97 W: each is cut, and then its half.
        (figure_call(4, [0, 0, 13], [0, 0], low), (13, true, 6, [1, 4])),
        // Of two units that charge at 5,000 W together, 10 A call the second alone; the need that is reported is the
        // current's. The first has -2,700 W of need, the second 1,900 W.
        (figure_call(4, [20_000, 0, 30_000], [-2_000, -3_000], low), (10_000, true, 6, [0, 0])),
        // 7 A call neither: 1,610 W and 4,830 W are less than they take now.
        (figure_call(4, [20_000, 0, 27_000], [-2_000, -3_000], low), (7_000, false, 3, [-2_000, -3_000])),
        // The same of units that give, where the mode charges.
        (figure_call(5, [30_000, 0, 20_000], [2_000, 3_000], low), (-10_000, true, 6, [0, 0])),
        (figure_call(5, [27_000, 0, 20_000], [2_000, 3_000], low), (-7_000, false, 3, [2_000, 3_000])),
        // F comes behind the conversion: 4 mA are nothing to one unit, and F is all of its need.
        (figure_call(4, [0, 0, 4], [-1, -1], mixed), (4, true, 6, [0, 58])),
        // A band of 4 mA is nothing to the first unit, 120 W to the second; half of it is 2 mA, or 60 W.
        (figure_call(4, [0, 4, 2], [0, 0], mixed), (2, false, 5, [0, 0])),
        (figure_call(4, [0, 4, 3], [0, 0], mixed), (3, true, 6, [0, 45])),
        // 9 mA are 2 W to the first, whose band is nothing; the second is within its own. Both have their shares.
        (figure_call(4, [0, 4, 9], [8, 8], [(1, 230), (1, 1)]), (9, true, 6, [9, 8])),
        // A fleet in the mode's own state has no rule 3, and a need below zero takes back.
        (figure_call(4, [30_000, 0, 20_000], [2_000, 3_000], low), (-10_000, true, 6, [850, 0])),
    ]
}

/// The three phases of a current reading that is not to be refused; a few are such as become 0 from below.
fn amperes(draw: &mut Draw) -> [f64; 3] {
    [(); 3].map(|()| match draw.below(8) {
        0 => draw.one_of(&[0.0, -0.0, -0.0001, -0.0004, 100_000.0]),
        _ => sticks::converted_by(reading::milliamperes, draw),
    })
}

/// A current reading that is not to be refused.
pub fn current_reading(draw: &mut Draw) -> Reading {
    Reading::Current(Phases::of(amperes(draw)))
}

/// A reading of the kind that a mode takes, not to be refused.
pub fn fitting_reading(settings: &Settings, draw: &mut Draw) -> Reading {
    if settings.by_current() {
        current_reading(draw)
    } else {
        sticks::power_reading(draw)
    }
}

/// A reading of the kind that a mode does not take.
pub fn misfit_reading(settings: &Settings, draw: &mut Draw) -> Reading {
    if settings.by_current() {
        sticks::power_reading(draw)
    } else {
        current_reading(draw)
    }
}

/// Doubles that the conversion of currents refuses, by their bits: those that none takes, and such as are below zero
/// once they are converted.
pub fn bad_currents(draw: &mut Draw) -> Vec<u64> {
    let below = [-0.0006, -0.001, -0.0625, -1.0, -16.5, -100_000.0].map(f64::to_bits);
    [sticks::bad_powers(draw), below.to_vec()].concat()
}

/// A current reading that is refused for one of its three currents.
pub fn bad_reading(phase: usize, bits: u64, draw: &mut Draw) -> Reading {
    let mut three = amperes(draw);
    three[phase] = f64::from_bits(bits);
    Reading::Current(Phases::of(three))
}

/// A reading of the kind that a mode takes, refused for one of its phases.
pub fn unusable_reading(settings: &Settings, draw: &mut Draw) -> Reading {
    let phase = draw.below(3) as usize;
    if settings.by_current() {
        let bits = draw.one_of(&bad_currents(&mut Draw::from_seed(0)));
        bad_reading(phase, bits, draw)
    } else {
        let bits = draw.one_of(&sticks::bad_powers(&mut Draw::from_seed(0)));
        sticks::bad_reading(phase, bits, draw)
    }
}

/// The run with connections, where it has none.
pub fn connected(mut run: Run, draw: &mut Draw) -> Run {
    if run.site.connections.is_empty() {
        run.site.connections = connections(run.site.units.len(), draw);
    }
    run
}

/// The run in a mode, with readings of the kind that it takes, and with connections where it needs them.
pub fn in_mode(mode: u8, mut run: Run, draw: &mut Draw) -> Run {
    run.site.settings.mode = mode;
    for reading in &mut run.readings {
        if !matches!(reading, Reading::Missing) {
            *reading = fitting_reading(&run.site.settings, draw);
        }
    }
    if run.site.settings.by_current() {
        connected(run, draw)
    } else {
        run
    }
}

/// A run of edition 1 in one of these modes that is not to be refused, with connections in all of them.
pub fn plain_run(modes: &[u8], units: usize, inverters: usize, steps: usize, draw: &mut Draw) -> Run {
    let run = seasons::run_in(modes, units, steps, draw);
    let run = roofs::with_roof(run, inverters, draw);
    connected(run, draw)
}

/// The same of any edition; now and then a function leads it.
pub fn run_in(modes: &[u8], units: usize, inverters: usize, steps: usize, draw: &mut Draw) -> Run {
    let run = plain_run(modes, units, inverters, steps, draw);
    let run = voltages::or_led(run, draw);
    older::any_edition(run, draw)
}

/// A run of a site that buys by current that is not to be refused, of any edition.
pub fn run(units: usize, inverters: usize, steps: usize, draw: &mut Draw) -> Run {
    run_in(&[4, 5], units, inverters, steps, draw)
}

/// A run of a few units, up to two inverters and a few steps, so that its file is small; for the most part of a site
/// that buys by current.
pub fn small_run(draw: &mut Draw) -> Run {
    let units = draw.one_of(&[1, 1, 1, 2, 3]);
    let inverters = draw.one_of(&[0, 0, 1, 2]);
    let steps = draw.below(5) as usize;
    run_in(&[4, 4, 4, 5, 5, 5, 1, 2, 3], units, inverters, steps, draw)
}

/// The run's fields without its connections.
pub fn without_connections(run: &Run) -> Vec<Field> {
    let mut fields = sticks::fields(run);
    fields.retain(|field| field.tag != CONNECTIONS);
    fields
}

/// One piece of damage to a file's fields at the field of a number: to the mode, to the connections, or to the kind or
/// the values of a reading, or any that a file of any edition knows.
pub fn damage(fields: &mut Vec<Field>, at: usize, draw: &mut Draw) {
    let at = at.min(fields.len() - 1);
    let other = draw.below(fields.len() as u64) as usize;
    let (tag, length) = (fields[at].tag, fields[at].value.len());
    match draw.below(16) {
        0 => fields.insert(at, any_connections(draw)),
        1 => fields[at] = sticks::reading_field(&current_reading(draw)),
        2 => fields.insert(at, sticks::reading_field(&current_reading(draw))),
        3 => fields[at] = sticks::reading_field(&sticks::power_reading(draw)),
        4..=8 if tag == SETTINGS && length != 0 => fields[at].value[0] = draw.below(8) as u8,
        4..=10 if [POWER, CURRENT].contains(&tag) => spoil_reading(&mut fields[at], draw),
        4 if tag == CONNECTIONS => drop(fields.remove(at)),
        5 if tag == CONNECTIONS => fields.insert(at, fields[at].clone()),
        6 if tag == CONNECTIONS => fields.swap(at, other),
        7 | 8 if tag == CONNECTIONS => spoil_length(&mut fields[at], draw),
        9..=12 if tag == CONNECTIONS && length != 0 => spoil_connection(&mut fields[at].value, draw),
        _ => older::damage(fields, at, draw),
    }
}

/// Gives a reading the other kind's tag, no value, or a phase that is at or beside an end or none.
fn spoil_reading(field: &mut Field, draw: &mut Draw) {
    let whole = field.value.len() == 24;
    match draw.below(8) {
        0 => field.tag ^= POWER ^ CURRENT,
        1 => *field = Field::new(MISSING, Vec::new()),
        _ if whole => {
            let bits = draw.one_of(&bad_currents(&mut Draw::from_seed(0)));
            let ends = [-0.0, -0.0004, -0.0001, 100_000.0, 0.0625, 0.1875].map(f64::to_bits);
            let end = draw.one_of(&ends);
            let bits = draw.one_of(&[bits, bits, end]);
            let place = 8 * draw.below(3) as usize;
            field.value[place..place + 8].copy_from_slice(&bits.to_be_bytes());
        }
        _ => field.value.clear(),
    }
}

/// Gives connections the length of another fleet's, or one about theirs; with so many bytes, or with those that they
/// had.
fn spoil_length(field: &mut Field, draw: &mut Draw) {
    let own = field.value.len() as u16;
    let beside =
        [own.wrapping_sub(CONNECTION), own + CONNECTION, own + 1, own.wrapping_sub(1), 0, 1, 3, 192, 195];
    let length = draw.one_of(&beside);
    if draw.below(3) != 0 {
        field.value.resize(usize::from(length) % 512, 1);
    }
    field.length = length;
}

/// Sets the phases or the volts of a unit at an end of their range or beside it.
fn spoil_connection(value: &mut [u8], draw: &mut Draw) {
    let at = usize::from(CONNECTION) * draw.below(value.len() as u64 / u64::from(CONNECTION) + 1) as usize;
    let volts: u16 = draw.one_of(&[0, 1, 2, 39_999, 40_000, 40_001, u16::MAX]);
    let phases = draw.one_of(&[0, 1, 2, 3, 4, 131, 255]);
    match value.get_mut(at..at + usize::from(CONNECTION)) {
        Some(unit) if draw.below(2) == 0 => unit[0] = phases,
        Some(unit) => unit[1..].copy_from_slice(&volts.to_be_bytes()),
        None => value[0] = phases,
    }
}

/// A small file with a few pieces of damage, and its end cut off or not.
pub fn damaged_file(draw: &mut Draw) -> Vec<u8> {
    roofs::damaged(sticks::fields(&small_run(draw)), damage, draw)
}

/// Fields of the list in any order, with good values for the most part.
pub fn shuffled_file(draw: &mut Draw) -> Vec<u8> {
    roofs::shuffled(&small_run(draw), draw)
}

#[cfg(test)]
mod tests {
    use super::*;
    use crate::stick::{self, Answer};
    use std::collections::BTreeMap;

    #[test]
    fn no_call_is_refused() {
        let mut draw = Draw::from_seed(151);
        for round in 0..30_000 {
            let mut call = pass_call(if round % 8 == 0 { 64 } else { 5 }, &mut draw);
            assert!(call.pass().is_ok(), "{call:?}");
        }
    }

    #[test]
    fn no_run_is_refused() {
        let mut draw = Draw::from_seed(152);
        let mut met = BTreeMap::new();
        for round in 0..3_000 {
            let run = run_in(&[1, 2, 3, 4, 5], 1 + round % 4, round % 3, round % 5, &mut draw);
            let said = stick::read(&sticks::file(&run)).unwrap();
            assert_eq!(said.site, run.site);
            assert_eq!(sticks::file(&said), sticks::file(&run));
            *met.entry((run.site.settings.mode, run.site.edition)).or_insert(0u32) += 1;
        }
        assert!(met.len() == 15 && met.values().all(|&count| count > 50), "{met:?}");
    }

    /// Every refusal of the new fields, in the modes in which it can be.
    #[test]
    fn every_refusal_is_among_the_damages() {
        let mut draw = Draw::from_seed(153);
        let mut met = BTreeMap::new();
        for round in 0..80_000 {
            let file = if round % 4 == 0 { shuffled_file(&mut draw) } else { damaged_file(&mut draw) };
            let Answer { number, place, .. } = stick::check(&file);
            let tag = file.get(place as usize).copied().filter(|_| ![0, 8, 9].contains(&number));
            *met.entry((number, tag)).or_insert(0u32) += 1;
        }
        let count = |number, tag| met.get(&(number, tag)).copied().unwrap_or(0);
        for number in [1, 3, 4, 5] {
            assert!(count(number, Some(CONNECTIONS)) > 50, "{number} of connections: {met:?}");
        }
        for number in [1, 3, 4, 5, 6] {
            assert!(count(number, Some(CURRENT)) > 100, "{number} of a current: {met:?}");
        }
        for number in [4, 5, 6] {
            assert!(count(number, Some(POWER)) > 100, "{number} of a power: {met:?}");
        }
        assert!(count(4, Some(MISSING)) > 100 && count(0, None) > 4_000, "{met:?}");
    }
}
