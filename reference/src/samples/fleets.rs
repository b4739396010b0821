//! Calls of a pass and of a settling study: fleets and settings where the rules part, and calls that are
//! to be refused.

use super::Draw;
use crate::controller::{settle, Fleet, Settings, Study};
use crate::ranges::{BAND, MEASURE, TARGET};

/// All that one pass is handed.
#[derive(Clone, Debug)]
pub struct PassCall {
    pub settings: Settings,
    pub measure: i64,
    pub fleet: Fleet,
    pub requests: Vec<i32>,
}

/// All that one study is handed, with what the lent requests hold before it.
#[derive(Clone, Debug)]
pub struct StudyCall {
    pub load: i64,
    pub target: i32,
    pub band: u32,
    pub factor: u16,
    pub budget: u32,
    pub fleet: Fleet,
    pub requests: Vec<i32>,
}

/// Units that hold more than their reserve and less than they can.
pub fn half_full(rating: &[u32], weight: &[u16]) -> Fleet {
    let all = |joules| vec![joules; rating.len()];
    Fleet {
        rated: all(1_000),
        reserve: all(100),
        stored: all(500),
        rating: rating.to_vec(),
        weight: weight.to_vec(),
    }
}

/// The passes of the document's figures B1 to B5 and C1, in that order, and then three with a unit that cannot help.
pub fn figure_passes() -> Vec<PassCall> {
    let pass = |mode, target, band, factor, measure, fleet: &Fleet, requests: &[i32]| PassCall {
        settings: Settings { mode, target, band, factor },
        measure,
        fleet: fleet.clone(),
        requests: requests.to_vec(),
    };
    let three = half_full(&[1_000; 3], &[1; 3]);
    let two = half_full(&[1_000; 2], &[2, 1]);
    let one = half_full(&[1_000], &[1]);
    let unlike = half_full(&[100, 1_000], &[1, 1]);
    // Seven units, of which the fifth is at its reserve, or full.
    let mut seven = half_full(&[1_000; 7], &[1; 7]);
    seven.stored[4] = 100;
    let mut full = seven.clone();
    full.stored[4] = 1_000;
    vec![
        pass(1, 0, 0, 1_000, 100, &three, &[0; 3]),
        pass(3, 0, 0, 1_000, -100, &three, &[0; 3]),
        pass(1, 0, 0, 1_000, 100, &two, &[0; 2]),
        pass(2, 0, 0, 500, 100, &three, &[0; 3]),
        pass(1, 0, 20, 1_000, 10, &one, &[0]),
        pass(1, 0, 20, 1_000, 11, &one, &[0]),
        pass(1, 100, 20, 1_000, 600, &one, &[-600]),
        pass(1, 100, 20, 1_000, 800, &one, &[-600]),
        pass(1, 700, 20, 1_000, 1_000, &unlike, &[0, 0]),
        pass(1, 700, 20, 1_000, 750, &unlike, &[100, 150]),
        pass(1, 700, 20, 1_000, 725, &unlike, &[100, 175]),
        pass(1, 700, 20, 1_000, 713, &unlike, &[100, 187]),
        pass(1, 700, 20, 1_000, 707, &unlike, &[100, 193]),
        pass(1, 0, 0, 1_000, -350, &seven, &[500; 7]),
        pass(2, 0, 0, 1_000, 707, &seven, &[500; 7]),
        pass(3, 0, 0, 1_000, -707, &full, &[-500; 7]),
    ]
}

/// The study of the document's figure C1.
pub fn figure_study(budget: u32) -> StudyCall {
    StudyCall {
        load: 1_000,
        target: 700,
        band: 20,
        factor: 1_000,
        budget,
        fleet: half_full(&[100, 1_000], &[1, 1]),
        requests: vec![-1, 1],
    }
}

/// The lengths of the lists, in the order of the calls: rated, reserve, stored, rating, weight, requests.
pub type Lengths = [usize; 6];

impl PassCall {
    /// The same call with a change.
    pub fn with(&self, change: impl Fn(&mut PassCall)) -> PassCall {
        let mut call = self.clone();
        change(&mut call);
        call
    }

    /// Sets a value of one unit, and brings its request back within its rating.
    pub fn fleet_value(&mut self, set: fn(&mut Fleet, usize), unit: usize) {
        set(&mut self.fleet, unit);
        let rating = self.fleet.rating[unit] as i32;
        self.requests[unit] = self.requests[unit].clamp(-rating, rating);
    }

    pub fn resize(&mut self, lengths: Lengths, draw: &mut Draw) {
        resize(&mut self.fleet, &mut self.requests, lengths, draw);
    }
}

impl StudyCall {
    /// The same call with a change.
    pub fn with(&self, change: impl Fn(&mut StudyCall)) -> StudyCall {
        let mut call = self.clone();
        change(&mut call);
        call
    }

    pub fn resize(&mut self, lengths: Lengths, draw: &mut Draw) {
        resize(&mut self.fleet, &mut self.requests, lengths, draw);
    }

    /// What the reference says to it.
    pub fn settle(&mut self) -> Result<Study, u32> {
        let StudyCall { load, target, band, factor, budget, ref fleet, ref mut requests } = *self;
        settle(load, target, band, factor, budget, fleet, requests)
    }
}

/// Shortens a list, or goes on with elements of it, or with `first` where it has none.
pub(super) fn resize_list<T: Copy>(list: &mut Vec<T>, length: usize, first: T, draw: &mut Draw) {
    list.truncate(length);
    while list.len() < length {
        list.push(if list.is_empty() { first } else { draw.one_of(list) });
    }
}

fn resize(fleet: &mut Fleet, requests: &mut Vec<i32>, lengths: Lengths, draw: &mut Draw) {
    resize_list(&mut fleet.rated, lengths[0], 1, draw);
    resize_list(&mut fleet.reserve, lengths[1], 0, draw);
    resize_list(&mut fleet.stored, lengths[2], 0, draw);
    resize_list(&mut fleet.rating, lengths[3], 1, draw);
    resize_list(&mut fleet.weight, lengths[4], 1, draw);
    resize_list(requests, lengths[5], 0, draw);
}

/// Lengths of so many lists that are to be refused, from a fleet's right ones: all empty, all above 64, and each list
/// alone empty, shorter, longer, twice as long, and longer than a length of one or two bytes can say.
pub fn bad_lengths<const LISTS: usize>(units: usize, draw: &mut Draw) -> Vec<[usize; LISTS]> {
    let any = 66 + draw.below(100) as usize;
    let mut found: Vec<[usize; LISTS]> = [0, 65, any, 256 + units].map(|length| [length; LISTS]).to_vec();
    for list in 0..LISTS {
        let mut but_one = |all: usize, one: usize| {
            let mut lengths = [all; LISTS];
            lengths[list] = one;
            found.push(lengths);
        };
        for length in [0, units - 1, units + 1, 2 * units, 65, units + 256] {
            but_one(units, length);
        }
        // The others are too long, or empty, and this one is right.
        for length in [0, 65] {
            but_one(length, units);
        }
        // 64 and 65, either way round.
        but_one(64, 65);
        but_one(65, 64);
    }
    found
}

/// Settings and measure at the ends of their ranges.
pub const PASS_ENDS: [fn(&mut PassCall); 11] = [
    |call| call.settings.mode = 1,
    |call| call.settings.mode = 2,
    |call| call.settings.mode = 3,
    |call| call.settings.target = -100_000_000,
    |call| call.settings.target = 100_000_000,
    |call| call.settings.band = 0,
    |call| call.settings.band = 200_000_000,
    |call| call.settings.factor = 1,
    |call| call.settings.factor = 1_000,
    |call| call.measure = -300_000_000,
    |call| call.measure = 300_000_000,
];

/// Settings and measure one beyond the ends of their ranges, and as far as they go.
pub const BAD_PASS: [fn(&mut PassCall); 20] = [
    |call| call.settings.mode = 0,
    |call| call.settings.mode = 4,
    |call| call.settings.mode = 5,
    |call| call.settings.mode = 128 + 1,
    |call| call.settings.mode = u8::MAX,
    |call| call.settings.target = -100_000_001,
    |call| call.settings.target = 100_000_001,
    |call| call.settings.target = i32::MIN,
    |call| call.settings.target = i32::MAX,
    |call| call.settings.band = 200_000_001,
    |call| call.settings.band = u32::MAX,
    |call| call.settings.factor = 0,
    |call| call.settings.factor = 1_001,
    |call| call.settings.factor = u16::MAX,
    |call| call.measure = -300_000_001,
    |call| call.measure = 300_000_001,
    |call| call.measure = 1 << 32,
    |call| call.measure = -1 << 32,
    |call| call.measure = i64::MIN,
    |call| call.measure = i64::MAX,
];

/// A study's own values at the ends of their ranges.
pub const STUDY_ENDS: [fn(&mut StudyCall); 10] = [
    |call| call.load = 0,
    |call| call.load = 100_000_000,
    |call| call.target = -100_000_000,
    |call| call.target = 100_000_000,
    |call| call.band = 0,
    |call| call.band = 200_000_000,
    |call| call.factor = 1,
    |call| call.factor = 1_000,
    |call| call.budget = 1,
    // The need of a wide band and no load ends this study at once; the budget is not used up.
    |call| (call.budget, call.load, call.target) = (10_000, 0, 0),
];

/// A study's own values one beyond the ends of their ranges, and as far as they go.
pub const BAD_STUDY: [fn(&mut StudyCall); 17] = [
    |call| call.load = -1,
    |call| call.load = 100_000_001,
    |call| call.load = 1 << 32,
    |call| call.load = i64::MIN,
    |call| call.load = i64::MAX,
    |call| call.target = -100_000_001,
    |call| call.target = 100_000_001,
    |call| call.target = i32::MIN,
    |call| call.target = i32::MAX,
    |call| call.band = 200_000_001,
    |call| call.band = u32::MAX,
    |call| call.factor = 0,
    |call| call.factor = 1_001,
    |call| call.factor = u16::MAX,
    |call| call.budget = 0,
    |call| call.budget = 10_001,
    |call| call.budget = u32::MAX,
];

/// A unit's values at the ends of their ranges.
pub const FLEET_ENDS: [fn(&mut Fleet, usize); 11] = [
    |fleet, unit| (fleet.rated[unit], fleet.reserve[unit], fleet.stored[unit]) = (1, 0, 1),
    |fleet, unit| (fleet.rated[unit], fleet.reserve[unit], fleet.stored[unit]) = (1, 1, 0),
    |fleet, unit| fleet.rated[unit] = 10_000_000_000_000,
    |fleet, unit| fleet.reserve[unit] = 0,
    |fleet, unit| fleet.reserve[unit] = fleet.rated[unit],
    |fleet, unit| fleet.stored[unit] = 0,
    |fleet, unit| fleet.stored[unit] = fleet.rated[unit],
    |fleet, unit| fleet.rating[unit] = 1,
    |fleet, unit| fleet.rating[unit] = 100_000_000,
    |fleet, unit| fleet.weight[unit] = 1,
    |fleet, unit| fleet.weight[unit] = 10_000,
];

/// A unit's values one beyond the ends of their ranges, and as far as they go.
pub const BAD_FLEET: [fn(&mut Fleet, usize); 16] = [
    |fleet, unit| (fleet.rated[unit], fleet.reserve[unit], fleet.stored[unit]) = (0, 0, 0),
    |fleet, unit| fleet.rated[unit] = 10_000_000_000_001,
    |fleet, unit| fleet.rated[unit] = 1 << 63,
    |fleet, unit| fleet.rated[unit] = u64::MAX,
    |fleet, unit| fleet.reserve[unit] = fleet.rated[unit] + 1,
    |fleet, unit| fleet.reserve[unit] = 1 << 63,
    |fleet, unit| fleet.reserve[unit] = u64::MAX,
    |fleet, unit| fleet.stored[unit] = fleet.rated[unit] + 1,
    |fleet, unit| fleet.stored[unit] = 1 << 63,
    |fleet, unit| fleet.stored[unit] = u64::MAX,
    |fleet, unit| fleet.rating[unit] = 0,
    |fleet, unit| fleet.rating[unit] = 100_000_001,
    |fleet, unit| fleet.rating[unit] = u32::MAX,
    |fleet, unit| fleet.weight[unit] = 0,
    |fleet, unit| fleet.weight[unit] = 10_001,
    |fleet, unit| fleet.weight[unit] = u16::MAX,
];

/// Requests that are to be refused: one beyond its unit's rating, alone or among others, or both signs.
pub const BAD_REQUEST: [fn(&mut PassCall, usize); 7] = [
    |call, unit| call.requests[unit] = call.fleet.rating[unit] as i32 + 1,
    |call, unit| call.requests[unit] = -(call.fleet.rating[unit] as i32) - 1,
    |call, unit| call.requests[unit] = i32::MAX,
    |call, unit| call.requests[unit] = i32::MIN,
    |call, unit| {
        call.requests.fill(0);
        call.requests[unit] = call.fleet.rating[unit] as i32 + 1;
    },
    |call, unit| {
        call.requests.fill(0);
        call.requests[unit] = -(call.fleet.rating[unit] as i32) - 1;
    },
    both_signs,
];

/// One watt each way, at a unit and at another; a fleet of one is given a second unit like the first.
fn both_signs(call: &mut PassCall, unit: usize) {
    let units = call.requests.len();
    if units == 1 {
        resize(&mut call.fleet, &mut call.requests, [2; 6], &mut Draw::from_seed(0));
        return both_signs(call, unit);
    }
    call.requests[unit] = 1;
    call.requests[(unit + units / 2) % units] = -1;
}

/// The number of units: one, a few, all that there can be, or any number up to `most`.
fn size(most: usize, draw: &mut Draw) -> usize {
    let any = 1 + draw.below(most as u64) as usize;
    draw.one_of(&[1, 2, 3, 4, 5, 8, any, any, most - 1, most]).clamp(1, most)
}

/// How full a fleet is, as a pass meets it.
pub(super) const ANY_FILL: [Fill; 12] = [
    Fill::Beside,
    Fill::Any,
    Fill::Above,
    Fill::Above,
    Fill::Above,
    Fill::AtReserve,
    Fill::OneAbove,
    Fill::OneBelow,
    Fill::AllAtReserve,
    Fill::Full,
    Fill::OneShort,
    Fill::Empty,
];

/// How full a fleet is, as a study meets it; one at its reserve has little to show.
const STUDY_FILL: [Fill; 10] = [
    Fill::Beside,
    Fill::Beside,
    Fill::Any,
    Fill::Above,
    Fill::Above,
    Fill::Above,
    Fill::Above,
    Fill::AtReserve,
    Fill::OneAbove,
    Fill::OneAbove,
];

#[derive(Clone, Copy)]
pub(super) enum Fill {
    Any,
    Above,
    /// The total at the total reserve, or beside it, with single units on either side.
    AtReserve,
    OneAbove,
    OneBelow,
    AllAtReserve,
    Full,
    OneShort,
    Empty,
    /// Each unit at its reserve or at its rated energy, one joule beside one of them, or between.
    Beside,
}

/// Where a unit stands to its reserve and its rated energy, if it is near one of them: the store less it.
pub fn beside(fleet: &Fleet, unit: usize) -> Option<(&'static str, i64)> {
    let (stored, rated, reserve) = (fleet.stored[unit], fleet.rated[unit], fleet.reserve[unit]);
    let near = |name, end: u64| {
        let by = stored as i64 - end as i64;
        (by.abs() <= 1).then_some((name, by))
    };
    near("reserve", reserve).or(near("rated", rated))
}

fn fleet(units: usize, fills: &[Fill], draw: &mut Draw) -> Fleet {
    let mut fleet = Fleet::default();
    let any = draw.below(10_000) as u16 + 1;
    let weights = draw.below(6);
    let most_rating = draw.one_of(&[10, 1_000, 100_000, 100_000_000, 100_000_000]);
    for _ in 0..units {
        fleet.rating.push(draw.within(1, most_rating) as u32);
        fleet.weight.push(match weights {
            0 => 1,
            1 => 10_000,
            2 => any,
            3 => draw.one_of(&[1, 10_000]),
            4 => 1 + draw.below(4) as u16,
            _ => draw.within(1, 10_000) as u16,
        });
        fleet.rated.push(draw.within(1, 10_000_000_000_000));
    }
    for &rated in &fleet.rated {
        fleet.reserve.push(draw.within(0, rated));
    }
    let fill = draw.one_of(fills);
    fill_up(&mut fleet, fill, draw);
    fleet
}

fn fill_up(fleet: &mut Fleet, fill: Fill, draw: &mut Draw) {
    let units = fleet.rated.len();
    match fill {
        Fill::Any => fleet.stored = fleet.rated.iter().map(|&rated| draw.within(0, rated)).collect(),
        Fill::Above => {
            for unit in 0..units {
                let rated = fleet.rated[unit];
                fleet.reserve[unit] = fleet.reserve[unit].min(rated - 1);
                let stored = draw.within(fleet.reserve[unit], rated);
                fleet.stored.push(stored);
            }
            let unit = draw.below(units as u64) as usize;
            fleet.stored[unit] = draw.within(fleet.reserve[unit] + 1, fleet.rated[unit]);
        }
        Fill::AtReserve | Fill::OneAbove | Fill::OneBelow => {
            // Each unit holds another one's reserve; all could hold it.
            let rated = draw.one_of(&fleet.rated);
            fleet.rated.fill(rated);
            for reserve in &mut fleet.reserve {
                *reserve = (*reserve).min(rated);
            }
            fleet.stored = fleet.reserve.clone();
            fleet.stored.rotate_left(draw.below(units as u64) as usize);
            let unit = draw.below(units as u64) as usize;
            match fill {
                Fill::OneAbove if fleet.stored[unit] < rated => fleet.stored[unit] += 1,
                Fill::OneBelow if fleet.stored[unit] > 0 => fleet.stored[unit] -= 1,
                _ => (),
            }
        }
        Fill::AllAtReserve => fleet.stored = fleet.reserve.clone(),
        Fill::Full => fleet.stored = fleet.rated.clone(),
        Fill::OneShort => {
            fleet.stored = fleet.rated.clone();
            fleet.stored[draw.below(units as u64) as usize] -= 1;
        }
        Fill::Empty => fleet.stored = vec![0; units],
        Fill::Beside => {
            for unit in 0..units {
                let rated = fleet.rated[unit].max(10);
                let reserve = fleet.reserve[unit].clamp(2, rated - 4);
                let between = draw.within(reserve + 1, rated);
                let near = [reserve - 1, reserve, reserve + 1, rated - 1, rated, between];
                (fleet.rated[unit], fleet.reserve[unit]) = (rated, reserve);
                fleet.stored.push(draw.one_of(&near));
            }
        }
    }
}

/// Requests of one sign: none, a little, all or nearly all of a unit's rating, or any; one at least.
fn requests_of(fleet: &Fleet, sign: i32, draw: &mut Draw) -> Vec<i32> {
    let most = draw.one_of(&[100, 100_000_000, 100_000_000]);
    let mut requests = Vec::new();
    for &rating in &fleet.rating {
        let rating = u64::from(rating);
        let size = match draw.below(8) {
            0 => 0,
            1 | 2 => rating,
            3 => rating - 1,
            4 => 1,
            _ => draw.below(rating.min(most) + 1),
        };
        requests.push(sign * size as i32);
    }
    if sign != 0 && requests.iter().all(|&request| request == 0) {
        let unit = draw.below(requests.len() as u64) as usize;
        requests[unit] = sign * (1 + draw.below(fleet.rating[unit].into()) as i32);
    }
    requests
}

/// A need: none, a little, as much as the fleet gives or takes now, or any; mostly the way of the mode.
pub(super) fn need_of(charges: bool, fleet_power: i64, draw: &mut Draw) -> i64 {
    let fleet_power = fleet_power.abs();
    let sign = draw.one_of(&[1, 1, -1]) * if charges { -1 } else { 1 };
    sign * match draw.below(10) {
        0 => 0,
        1 => 1,
        2 => draw.below(12) as i64,
        3 => draw.below(1_000) as i64,
        4 => fleet_power,
        5 => fleet_power + draw.below(200) as i64 - 100,
        6 => fleet_power * draw.one_of(&[2, 3, 10]) + draw.below(20) as i64,
        7 => draw.below(400_000_001) as i64,
        _ => (draw.below(400_000_001) >> draw.below(28)) as i64,
    }
}

/// A call of a pass that is not to be refused, over a fleet of at most `most` units.
pub fn pass_call(most: usize, draw: &mut Draw) -> PassCall {
    pass_filled(most, &ANY_FILL, draw)
}

/// The same, over units that are at their reserves and rated energies or beside them.
pub fn beside_call(most: usize, draw: &mut Draw) -> PassCall {
    pass_filled(most, &[Fill::Beside], draw)
}

/// A fleet of at most `most` units and its requests, which are of one sign or none.
pub(super) fn asked_fleet(most: usize, fills: &[Fill], draw: &mut Draw) -> (Fleet, Vec<i32>) {
    let fleet = fleet(size(most, draw), fills, draw);
    let requests = requests_of(&fleet, draw.one_of(&[0, 1, -1]), draw);
    (fleet, requests)
}

pub(super) fn factor(draw: &mut Draw) -> u16 {
    let any = 1 + draw.below(1_000) as u16;
    draw.one_of(&[1, 2, 500, 999, 1_000, 1_000, 1_000, any])
}

fn pass_filled(most: usize, fills: &[Fill], draw: &mut Draw) -> PassCall {
    let (fleet, requests) = asked_fleet(most, fills, draw);
    let fleet_power: i64 = requests.iter().map(|&request| i64::from(request)).sum();
    let mode = 1 + draw.below(3) as u8;
    let factor = factor(draw);
    let target = match draw.below(8) {
        0 => draw.one_of(&[-100_000_000, 100_000_000]),
        1 => 0,
        2 => draw.below(200_000_001) as i32 - 100_000_000,
        _ => draw.below(2_001) as i32 - 1_000,
    };

    // The measure that gives the need, or the nearest that may be handed to a pass.
    let need = need_of(mode == 3, fleet_power, draw);
    let against = if mode == 3 { fleet_power > 0 } else { fleet_power < 0 };
    let own = need - if against { fleet_power } else { 0 };
    let measure = own + i64::from(if mode == 2 { -target } else { target });
    let measure = match draw.below(20) {
        0 => *MEASURE.start(),
        1 => *MEASURE.end(),
        _ => measure.clamp(*MEASURE.start(), *MEASURE.end()),
    };

    let band = match draw.below(8) {
        0 => 0,
        1 => *BAND.end(),
        2 => draw.below(u64::from(*BAND.end()) + 1) as u32,
        3 => draw.below(100) as u32,
        // Where twice the need is the band, or nearly.
        _ => {
            let beside = 2 * need.abs() + draw.one_of(&[-2, -1, -1, 0, 0, 1, 1, 2]);
            beside.clamp(0, (*BAND.end()).into()) as u32
        }
    };
    PassCall { settings: Settings { mode, target, band, factor }, measure, fleet, requests }
}

/// A call of a study that is not to be refused, over a fleet of at most `most` units, with a budget of
/// at most `most_passes`. The lent requests hold anything.
pub fn study_call(most: usize, most_passes: u32, draw: &mut Draw) -> StudyCall {
    let fleet = fleet(size(most, draw), &STUDY_FILL, draw);
    let requests = fleet.rating.iter().map(|_| draw.any() as i32).collect();
    let any = 1 + draw.below(1_000) as u16;
    let factor = draw.one_of(&[1, 100, 500, 999, 1_000, 1_000, any]);
    let load = draw.within(0, 100_000_000) as i64 >> draw.one_of(&[0, 0, 10, 20]);
    let any = draw.within(0, 100_000_000) as i32;
    let near = load as i32 - 1 - draw.below(3_000) as i32;
    let below = draw.below(load as u64 + 1) as i32;
    let target = match draw.below(16) {
        0 => 0,
        1 => load as i32 + draw.below(3) as i32 - 1,
        2 => any,
        3 | 4 => -any,
        5..=9 => near,
        _ => below,
    };
    let target = target.clamp(*TARGET.start(), *TARGET.end());
    let need = (load - i64::from(target)).unsigned_abs();
    let band = match draw.below(10) {
        0 | 1 => 0,
        2 => draw.below(u64::from(*BAND.end()) + 1),
        3 => 2 * need,
        4 => (2 * need).saturating_sub(1),
        5 => draw.below(need / 2 + 1),
        _ => draw.below(50),
    };
    let most_passes = u64::from(most_passes);
    let budget = match draw.below(4) {
        0 => 1 + draw.below(most_passes.min(6)),
        1 => most_passes,
        _ => 1 + draw.below(most_passes),
    };
    let (band, budget) = (band.min(u64::from(*BAND.end())) as u32, budget as u32);
    StudyCall { load, target, band, factor, budget, fleet, requests }
}
