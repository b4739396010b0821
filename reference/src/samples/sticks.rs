//! Run files: complete ones, and every kind of damage that can come over one.

use super::fleets::{self, StudyCall};
use super::units::{self, StepCall};
use super::{roofs, voltages, Draw};
use crate::connection::Connection;
use crate::controller::Settings;
use crate::octets::{put_f64, put_i32, put_u16, put_u32, put_u64, put_u8};
use crate::reading::{self, Phases, Reading};
use crate::site::Site;
use crate::stick::{length_of, Run, CONNECTIONS, CURRENT, END, FLEET, MISSING, POWER, SETTINGS, UNIT};
use crate::storage::Unit;

/// A field as it is to be written. The length is said apart from the value, so that it can be wrong.
#[derive(Clone, Debug, PartialEq, Eq)]
pub struct Field {
    pub tag: u8,
    pub length: u16,
    pub value: Vec<u8>,
}

impl Field {
    /// A field whose length is that of its value.
    pub fn new(tag: u8, value: Vec<u8>) -> Field {
        let length = u16::try_from(value.len()).expect("a value fits its length");
        Field { tag, length, value }
    }

    pub fn put(&self, file: &mut Vec<u8>) {
        put_u8(file, self.tag);
        put_u16(file, self.length);
        file.extend_from_slice(&self.value);
    }
}

pub fn fleet_field(edition: u8, count: u8, seconds: u32) -> Field {
    let mut value = vec![edition, count];
    put_u32(&mut value, seconds);
    Field::new(FLEET, value)
}

/// A unit's twelve values without the var limits, in the order of its field.
pub fn put_unit(value: &mut Vec<u8>, unit: &Unit) {
    for joules in [unit.rated, unit.reserve, unit.stored] {
        put_u64(value, joules);
    }
    for number in [unit.rating, unit.kva, unit.idle_loss] {
        put_u32(value, number);
    }
    put_i32(value, unit.var_request);
    for number in [unit.weight, unit.inverter, unit.charge, unit.discharge] {
        put_u16(value, number);
    }
    put_u8(value, unit.priority);
}

/// A unit's field in a file of an edition.
pub fn unit_field(edition: u8, unit: &Unit) -> Field {
    let mut value = Vec::new();
    put_unit(&mut value, unit);
    if edition != 1 {
        put_u32(&mut value, unit.provide);
        put_u32(&mut value, unit.absorb);
    }
    Field::new(UNIT, value)
}

pub fn reading_field(reading: &Reading) -> Field {
    let (tag, phases) = match reading {
        Reading::Missing => return Field::new(MISSING, Vec::new()),
        Reading::Power(phases) => (POWER, phases),
        Reading::Current(phases) => (CURRENT, phases),
    };
    let mut value = Vec::new();
    for r in [phases.first, phases.second, phases.third] {
        put_f64(&mut value, r);
    }
    Field::new(tag, value)
}

pub fn connections_field(connections: &[Connection]) -> Field {
    let mut value = Vec::new();
    for connection in connections {
        put_u8(&mut value, connection.phases);
        put_u16(&mut value, connection.volts);
    }
    Field::new(CONNECTIONS, value)
}

pub fn end_field(count: u32) -> Field {
    let mut value = Vec::new();
    put_u32(&mut value, count);
    Field::new(END, value)
}

/// The fields that say a run.
pub fn fields(run: &Run) -> Vec<Field> {
    let Site { edition, seconds, units, settings, phase, connections, inverters, function } = &run.site;
    let mut fields = vec![fleet_field(*edition, units.len() as u8, *seconds)];
    fields.extend(units.iter().map(|unit| unit_field(*edition, unit)));
    let mut value = vec![settings.mode];
    put_i32(&mut value, settings.target);
    put_u32(&mut value, settings.band);
    put_u16(&mut value, settings.factor);
    put_u8(&mut value, *phase);
    fields.push(Field::new(SETTINGS, value));
    if !connections.is_empty() {
        fields.push(connections_field(connections));
    }
    fields.extend(inverters.iter().flat_map(roofs::inverter_fields));
    fields.extend(function.iter().flat_map(voltages::function_fields));
    for (step, reading) in run.readings.iter().enumerate() {
        fields.extend(run.weather_of(step).map(roofs::weather_field));
        fields.extend(run.voltage_of(step).map(voltages::voltage_field));
        fields.push(reading_field(reading));
    }
    fields.push(end_field(run.readings.len() as u32));
    fields
}

pub fn bytes(fields: &[Field]) -> Vec<u8> {
    let mut file = Vec::new();
    fields.iter().for_each(|field| field.put(&mut file));
    file
}

/// The file that says a run.
pub fn file(run: &Run) -> Vec<u8> {
    bytes(&fields(run))
}

/// The document's whole case.
pub fn whole_case() -> Run {
    let unit = Unit {
        rated: 3_600_000,
        reserve: 0,
        stored: 3_600_000,
        rating: 5_000,
        kva: 5_000,
        idle_loss: 1_000,
        var_request: 0,
        weight: 1,
        inverter: 10_000,
        charge: 10_000,
        discharge: 10_000,
        priority: 0,
        provide: 5_000,
        absorb: 5_000,
    };
    Run {
        site: Site {
            edition: 1,
            seconds: 60,
            units: vec![unit],
            settings: Settings { mode: 1, target: 0, band: 0, factor: 1_000 },
            phase: 0,
            connections: Vec::new(),
            inverters: Vec::new(),
            function: None,
        },
        readings: vec![Reading::Missing],
        weather: Vec::new(),
        voltages: Vec::new(),
    }
}

/// A double of a phase that a conversion does not refuse.
pub fn converted_by(convert: fn(f64) -> Result<i32, u32>, draw: &mut Draw) -> f64 {
    loop {
        let bits = match draw.below(10) {
            0 => super::tie(draw),
            1 => super::near_tie(draw),
            2 => super::near_the_end(draw),
            3 => draw.one_of(&[0, 1 << 63, 1, 100_000f64.to_bits(), (-100_000f64).to_bits()]),
            4 => {
                let field = draw.below(1_040);
                super::with_exponent(field, draw)
            }
            _ => super::metered(draw),
        };
        let r = f64::from_bits(bits);
        if convert(r).is_ok() {
            return r;
        }
    }
}

/// The three phase powers of a reading that is not to be refused.
fn powers(draw: &mut Draw) -> [f64; 3] {
    [(); 3].map(|()| converted_by(reading::watts, draw))
}

/// A power reading of so many kW in the first phase and none in the others.
pub fn power_of(kw: f64) -> Reading {
    Reading::Power(Phases::of([kw, 0.0, 0.0]))
}

/// A power reading that is not to be refused.
pub fn power_reading(draw: &mut Draw) -> Reading {
    Reading::Power(Phases::of(powers(draw)))
}

/// A run of edition 1 that is not to be refused.
pub fn run(units: usize, steps: usize, draw: &mut Draw) -> Run {
    let calls: Vec<StepCall> = (0..units).map(|_| units::step_call(draw)).collect();
    let missing = draw.one_of(&[1, 2, 2, 3, 100]);
    Run {
        site: Site {
            edition: 1,
            seconds: calls[0].seconds,
            units: calls.iter().map(|call| call.unit).collect(),
            settings: fleets::pass_call(1, draw).settings,
            phase: draw.below(6) as u8,
            connections: Vec::new(),
            inverters: Vec::new(),
            function: None,
        },
        readings: (0..steps)
            .map(|_| if draw.below(missing) == 0 { Reading::Missing } else { power_reading(draw) })
            .collect(),
        weather: Vec::new(),
        voltages: Vec::new(),
    }
}

/// A run of up to three units and a few steps, so that its file is small.
pub fn small_run(draw: &mut Draw) -> Run {
    let units = draw.one_of(&[1, 1, 1, 2, 3]);
    let steps = draw.below(5) as usize;
    run(units, steps, draw)
}

/// A run whose fleet, target, band and factor are a study's; the rest of it is any.
pub fn study_run(call: &StudyCall, steps: usize, draw: &mut Draw) -> Run {
    let StudyCall { target, band, factor, ref fleet, .. } = *call;
    let mut run = run(fleet.rated.len(), steps, draw);
    for (i, unit) in run.site.units.iter_mut().enumerate() {
        unit.rated = fleet.rated[i];
        unit.reserve = fleet.reserve[i];
        unit.stored = fleet.stored[i];
        unit.rating = fleet.rating[i];
        unit.weight = fleet.weight[i];
    }
    run.site.settings = Settings { target, band, factor, ..run.site.settings };
    run
}

/// Settings and phase at the ends of their ranges.
pub const SETTINGS_ENDS: [fn(&mut Run); 15] = [
    |run| run.site.settings.mode = 1,
    |run| run.site.settings.mode = 2,
    |run| run.site.settings.mode = 3,
    |run| run.site.settings.target = -100_000_000,
    |run| run.site.settings.target = 100_000_000,
    |run| run.site.settings.band = 0,
    |run| run.site.settings.band = 200_000_000,
    |run| run.site.settings.factor = 1,
    |run| run.site.settings.factor = 1_000,
    |run| run.site.phase = 0,
    |run| run.site.phase = 1,
    |run| run.site.phase = 2,
    |run| run.site.phase = 3,
    |run| run.site.phase = 4,
    |run| run.site.phase = 5,
];

/// Settings and phase one beyond the ends of their ranges, and as far as they go.
pub const BAD_SETTINGS: [fn(&mut Run); 19] = [
    |run| run.site.settings.mode = 0,
    |run| run.site.settings.mode = 6,
    |run| run.site.settings.mode = 128 + 1,
    |run| run.site.settings.mode = u8::MAX,
    |run| run.site.settings.target = -100_000_001,
    |run| run.site.settings.target = 100_000_001,
    |run| run.site.settings.target = i32::MIN,
    |run| run.site.settings.target = i32::MAX,
    |run| run.site.settings.band = 200_000_001,
    |run| run.site.settings.band = 1 << 31,
    |run| run.site.settings.band = u32::MAX,
    |run| run.site.settings.factor = 0,
    |run| run.site.settings.factor = 1_001,
    |run| run.site.settings.factor = 1 << 15,
    |run| run.site.settings.factor = u16::MAX,
    |run| run.site.phase = 6,
    |run| run.site.phase = 7,
    |run| run.site.phase = 128,
    |run| run.site.phase = u8::MAX,
];

/// The run with a change to one of its units or to the length of its steps.
pub fn with_unit(run: &Run, unit: usize, change: impl Fn(&mut StepCall)) -> Run {
    let Site { edition, seconds, ref units, .. } = run.site;
    let call = StepCall { edition, seconds, unit: units[unit], request: 0 }.with(change);
    let mut run = run.clone();
    run.site.seconds = call.seconds;
    run.site.units[unit] = call.unit;
    run
}

/// The run with a change.
pub fn with(run: &Run, change: impl Fn(&mut Run)) -> Run {
    let mut run = run.clone();
    change(&mut run);
    run
}

/// Editions outside their range.
const BAD_EDITIONS: [u8; 8] = [0, 4, 5, 128, 129, 130, 131, 255];

/// Fleet fields that are to be refused: an edition, a unit count or seconds outside their ranges.
pub fn bad_fleets(run: &Run) -> Vec<Field> {
    let count = run.site.units.len() as u8;
    let mut found = Vec::new();
    let Site { edition, seconds, .. } = run.site;
    found.extend(BAD_EDITIONS.map(|edition| fleet_field(edition, count, seconds)));
    found.extend(
        [0, 65, 66, 128, count + 64, count + 128, 255].map(|count| fleet_field(edition, count, seconds)),
    );
    let seconds = [0, 86_401, 1 << 17, 1 << 24, 1 << 31, u32::MAX];
    found.extend(seconds.map(|seconds| fleet_field(edition, count, seconds)));
    found
}

/// Doubles that the conversion refuses, by their bits.
pub fn bad_powers(draw: &mut Draw) -> Vec<u64> {
    let nans = super::nans();
    let mut found = super::both_signs(&[f64::INFINITY, 100_000.062_5, f64::MAX].map(f64::to_bits));
    found.extend(super::both_signs(&[100_000.000_5_f64.to_bits() + 1]));
    found.extend((0..4).map(|_| draw.one_of(&nans)));
    found
}

/// A power reading that is refused for one of its three powers.
pub fn bad_reading(phase: usize, bits: u64, draw: &mut Draw) -> Reading {
    let mut three = powers(draw);
    three[phase] = f64::from_bits(bits);
    Reading::Power(Phases::of(three))
}

/// End counts that differ from the steps: beside them, and of other bytes or the same in another order.
pub fn bad_counts(steps: u32) -> Vec<u32> {
    let near = [0, 1, steps.wrapping_sub(1), steps + 1, 65_535, 65_536, u32::MAX];
    let far = [steps + (1 << 16), steps | 1 << 31, steps << 8, steps << 16, steps.swap_bytes()];
    near.into_iter().chain(far).filter(|&count| count != steps).collect()
}

/// The tags of a file without inverters and weather.
const PLAIN_TAGS: [u8; 6] = [FLEET, UNIT, SETTINGS, POWER, MISSING, END];

/// Lengths that are not the tag's: beside it, of the plain tags, and of other bytes or the same in another order.
pub fn bad_lengths(tag: u8) -> Vec<u16> {
    let right = length_of(tag).expect("a tag of the list");
    let beside = [right.wrapping_sub(1), right + 1, right + 256, right | 1 << 15, right << 8, 255, u16::MAX];
    let others = PLAIN_TAGS.iter().filter_map(|&tag| length_of(tag));
    beside.into_iter().chain(others).filter(|&length| length != right).collect()
}

/// A field of any of the plain tags whose values are good in some file.
pub fn any_field(draw: &mut Draw) -> Field {
    let run = run(1, 1, draw);
    let count = draw.below(4) as u32;
    let tag = draw.below(6) as usize;
    match tag {
        0 => fleet_field(1, 1 + draw.below(3) as u8, run.site.seconds),
        5 => end_field(count),
        4 => Field::new(MISSING, Vec::new()),
        3 => reading_field(&power_reading(draw)),
        _ => fields(&run)[tag].clone(),
    }
}

/// One piece of damage to a file's fields, mostly at the field of a number; what is put in is of the plain tags.
pub fn damage(fields: &mut Vec<Field>, at: usize, draw: &mut Draw) {
    let at = at.min(fields.len() - 1);
    let other = draw.below(fields.len() as u64) as usize;
    match draw.below(14) {
        0 if fields.len() > 1 => {
            fields.remove(at);
        }
        1 => fields.insert(at, fields[at].clone()),
        2 => fields.swap(at, other),
        3 => fields.insert(at, any_field(draw)),
        4 => fields[at] = any_field(draw),
        // Another tag, of the list or any, and a value of the length that is said or not.
        5 => fields[at].tag = draw.any() as u8,
        6 => fields[at].tag = draw.one_of(&PLAIN_TAGS),
        7 => {
            let tag = draw.one_of(&PLAIN_TAGS);
            let length = length_of(tag).expect("a tag of the list");
            fields[at].tag = tag;
            fields[at].length = length;
            fields[at].value.resize(length.into(), 0);
        }
        8 => fields[at].length = draw.sized() as u16,
        9 => {
            let tag = draw.one_of(&PLAIN_TAGS);
            let length = draw.one_of(&bad_lengths(tag)) % 512;
            fields[at].length = length;
            fields[at].value.resize(length.into(), 0);
        }
        10 => {
            let length = fields[at].value.len() as u64;
            fields[at].value.truncate(draw.below(length + 1) as usize);
        }
        11 if fields[at].tag == POWER && fields[at].value.len() == 24 => {
            let bits = draw.one_of(&bad_powers(&mut Draw::from_seed(0)));
            let place = 8 * draw.below(3) as usize;
            fields[at].value[place..place + 8].copy_from_slice(&bits.to_be_bytes());
        }
        // A value's byte or bit.
        _ if fields[at].value.is_empty() => fields[at].tag = draw.any() as u8,
        11 | 12 => {
            let place = draw.below(fields[at].value.len() as u64) as usize;
            fields[at].value[place] = draw.any() as u8;
        }
        _ => {
            let place = draw.below(fields[at].value.len() as u64) as usize;
            fields[at].value[place] ^= 1 << draw.below(8);
        }
    }
}

/// One piece of damage to a file's fields at the field of a number.
pub type Damage = fn(&mut Vec<Field>, usize, &mut Draw);

/// A few pieces of damage of a kind, at one field or at several.
pub fn damage_some(fields: &mut Vec<Field>, damage: Damage, draw: &mut Draw) {
    let field = draw.below(fields.len() as u64) as usize;
    for _ in 0..1 + draw.below(3) {
        let other = draw.below(fields.len() as u64) as usize;
        damage(fields, draw.one_of(&[field, field, other]), draw);
    }
}

/// Any bits in one to eight neighbouring bytes of a value.
pub fn set_any_bits(value: &mut [u8], draw: &mut Draw) {
    let from = draw.below(value.len() as u64) as usize;
    let to = from + 1 + draw.below((value.len() - from).min(8) as u64) as usize;
    value[from..to].iter_mut().for_each(|byte| *byte = draw.sized() as u8);
}

/// A small file with a few pieces of damage, and its end cut off or not.
pub fn damaged_file(draw: &mut Draw) -> Vec<u8> {
    let mut fields = fields(&small_run(draw));
    damage_some(&mut fields, damage, draw);
    let mut file = bytes(&fields);
    match draw.below(8) {
        0 => file.truncate(draw.below(file.len() as u64 + 1) as usize),
        // The last field, or what has become of it, loses some bytes.
        1 => {
            let length = fields.last().map_or(0, |field| field.value.len()) as u64 + 3;
            file.truncate(file.len() - draw.below(length.min(file.len() as u64)) as usize);
        }
        2 => file.extend((0..1 + draw.below(8)).map(|_| draw.any() as u8)),
        _ => (),
    }
    file
}

/// Lets the fields begin at any of them, with those before it put last, or moves up to three of them.
pub fn reorder(fields: &mut Vec<Field>, turn: bool, draw: &mut Draw) {
    if turn {
        let first = draw.below(fields.len() as u64) as usize;
        fields.rotate_left(first);
        return;
    }
    for _ in 0..1 + draw.below(3) {
        let [from, to] = [(); 2].map(|()| draw.below(fields.len() as u64) as usize);
        let field = fields.remove(from);
        fields.insert(to, field);
    }
}

/// Fields of the list in any order, with good values for the most part.
pub fn shuffled_file(draw: &mut Draw) -> Vec<u8> {
    let mut fields = fields(&small_run(draw));
    match draw.below(4) {
        0 => fields = (0..draw.below(9)).map(|_| any_field(draw)).collect(),
        way => reorder(&mut fields, way == 1, draw),
    }
    bytes(&fields)
}

/// The file with each of the 255 other values at every place.
pub fn other_bytes(file: &[u8]) -> impl Iterator<Item = Vec<u8>> + '_ {
    (0..file.len()).flat_map(move |place| {
        (1..=255).map(move |other| {
            let mut file = file.to_vec();
            file[place] ^= other;
            file
        })
    })
}

/// The files of these fields with each left out, repeated and exchanged with the first ones, and with each kind put in
/// at each place: for the field there, before it, and as the last.
pub fn orders(fields: &[Field], first: usize, kinds: &[Field]) -> Vec<Vec<u8>> {
    let mut files = Vec::new();
    for at in 0..fields.len() {
        let (before, after) = fields.split_at(at);
        files.push(bytes(&[before, &after[1..]].concat()));
        files.push(bytes(&[before, &after[..1], after].concat()));
        for other in 0..first {
            let mut fields = fields.to_vec();
            fields.swap(at, other);
            files.push(bytes(&fields));
        }
        for kind in kinds.chunks(1) {
            files.push(bytes(&[before, kind, &after[1..]].concat()));
            files.push(bytes(&[before, kind, after].concat()));
            files.push(bytes(&[before, kind].concat()));
        }
    }
    files
}

/// Bytes of no meaning: any, or mostly such as tags and lengths are made of.
pub fn noise(most: u64, draw: &mut Draw) -> Vec<u8> {
    let length = draw.below(most + 1);
    let likely = draw.below(2) == 0;
    let mut file = Vec::new();
    for _ in 0..length {
        let any = draw.any() as u8;
        file.push(if likely {
            draw.one_of(&[0, 0, 1, 2, 3, 4, 5, 6, 9, 10, 12, 24, 49, 0x7F, any])
        } else {
            any
        });
    }
    file
}
