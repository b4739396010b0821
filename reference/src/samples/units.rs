//! Calls of a unit's step: where the stored energy, the kVA circle or the idle loss decides, and calls that
//! are to be refused.

use super::Draw;
use crate::ranges::{IDLE_LOSS, RATED, VAR_REQUEST};
use crate::storage::{self, Stepped, Unit};
use crate::whole::largest_leg;

/// All that one step is handed. In edition 1 the unit's var limits are not looked at.
#[derive(Clone, Copy, Debug)]
pub struct StepCall {
    pub edition: u8,
    pub seconds: u32,
    pub unit: Unit,
    pub request: i32,
}

impl StepCall {
    /// The same call with a change.
    pub fn with(self, change: impl Fn(&mut StepCall)) -> StepCall {
        let mut call = self;
        change(&mut call);
        call
    }

    /// What the reference says to it.
    pub fn step(&self) -> Result<Stepped, u32> {
        storage::step_as(self.edition, self.seconds, &self.unit, self.request)
    }

    /// The joules that leave the store where the inverter moves so many watts as it is asked, or that reach it.
    pub fn moved(&self, watts: i128) -> i128 {
        let StepCall { edition, seconds, ref unit, request } = *self;
        match request {
            1.. => unit.removed(edition, watts, seconds),
            _ => unit.added(edition, watts, seconds),
        }
    }

    /// The inverter's watts in a step that left so many at the grid.
    pub fn inverter_watts(&self, stepped: &Stepped) -> i64 {
        i64::from(stepped.watts) + i64::from(self.unit.grid_loss(self.edition))
    }

    /// Sets the kVA rating, with limits that are within it.
    pub fn set_kva_alone(&mut self, kva: u32) {
        self.unit.kva = kva;
        self.unit.provide = self.unit.provide.min(kva);
        self.unit.absorb = self.unit.absorb.min(kva);
    }

    /// The same, with the largest idle loss whose draw is within it or a smaller one.
    fn set_kva(&mut self, kva: u32) {
        self.set_kva_alone(kva);
        self.unit.idle_loss = self.unit.idle_loss.min(most_idle_loss(&self.unit));
    }

    fn set_inverter(&mut self, inverter: u16) {
        self.unit.inverter = inverter;
        self.unit.idle_loss = self.unit.idle_loss.min(most_idle_loss(&self.unit));
    }

    fn set_rating(&mut self, rating: u32) {
        self.unit.rating = rating;
        self.request = self.request.clamp(-(rating as i32), rating as i32);
    }

    fn set_energies(&mut self, rated: u64, reserve: u64, stored: u64) {
        (self.unit.rated, self.unit.reserve, self.unit.stored) = (rated, reserve, stored);
    }
}

/// The largest idle loss in its range whose draw is no more than S.
fn most_idle_loss(unit: &Unit) -> u32 {
    let most = u64::from(unit.kva) * u64::from(unit.inverter) / 10_000;
    most.min(u64::from(*IDLE_LOSS.end())) as u32
}

/// The values at the ends of their ranges.
pub const ENDS: [fn(&mut StepCall); 31] = [
    |call| call.seconds = 1,
    |call| call.seconds = 86_400,
    |call| call.set_energies(1, 0, 0),
    |call| call.set_energies(1, 0, 1),
    |call| call.set_energies(1, 1, 0),
    |call| call.set_energies(1, 1, 1),
    |call| call.unit.rated = 10_000_000_000_000,
    |call| call.set_energies(10_000_000_000_000, 0, 10_000_000_000_000),
    |call| call.set_energies(10_000_000_000_000, 10_000_000_000_000, 0),
    |call| call.unit.reserve = 0,
    |call| call.unit.reserve = call.unit.rated,
    |call| call.unit.stored = 0,
    |call| call.unit.stored = call.unit.rated,
    |call| call.set_rating(1),
    |call| call.set_rating(100_000_000),
    |call| call.set_kva(1),
    |call| call.set_kva(100_000_000),
    |call| call.unit.idle_loss = 0,
    |call| call.unit.idle_loss = most_idle_loss(&call.unit),
    |call| (call.unit.idle_loss, call.unit.inverter, call.unit.kva) = (10_000_000, 1_000, 100_000_000),
    |call| call.unit.var_request = -100_000_000,
    |call| call.unit.var_request = 100_000_000,
    |call| call.unit.weight = 1,
    |call| call.unit.weight = 10_000,
    |call| call.set_inverter(1_000),
    |call| call.set_inverter(10_000),
    |call| call.unit.charge = 1_000,
    |call| call.unit.charge = 10_000,
    |call| call.unit.discharge = 1_000,
    |call| call.unit.discharge = 10_000,
    |call| call.unit.priority = 1 - call.unit.priority,
];

/// The values one beyond the ends of their ranges, and as far as they go.
pub const BAD_VALUES: [fn(&mut StepCall); 43] = [
    |call| call.seconds = 0,
    |call| call.seconds = 86_401,
    |call| call.seconds = u32::MAX,
    |call| call.set_energies(0, 0, 0),
    |call| call.unit.rated = 10_000_000_000_001,
    |call| call.unit.rated = 1 << 63,
    |call| call.unit.rated = u64::MAX,
    |call| call.unit.reserve = call.unit.rated + 1,
    |call| call.unit.reserve = 1 << 63,
    |call| call.unit.reserve = u64::MAX,
    |call| call.unit.stored = call.unit.rated + 1,
    |call| call.unit.stored = 1 << 63,
    |call| call.unit.stored = u64::MAX,
    |call| call.unit.rating = 0,
    |call| call.unit.rating = 100_000_001,
    |call| call.unit.rating = u32::MAX,
    |call| (call.unit.kva, call.unit.idle_loss) = (0, 0),
    |call| call.unit.kva = 100_000_001,
    |call| call.unit.kva = u32::MAX,
    |call| (call.unit.idle_loss, call.unit.inverter, call.unit.kva) = (10_000_001, 10_000, 100_000_000),
    |call| call.unit.idle_loss = u32::MAX,
    |call| call.unit.var_request = -100_000_001,
    |call| call.unit.var_request = 100_000_001,
    |call| call.unit.var_request = i32::MIN,
    |call| call.unit.var_request = i32::MAX,
    |call| call.unit.weight = 0,
    |call| call.unit.weight = 10_001,
    |call| call.unit.weight = u16::MAX,
    |call| (call.unit.inverter, call.unit.idle_loss) = (999, 0),
    |call| (call.unit.inverter, call.unit.idle_loss) = (0, 0),
    |call| call.unit.inverter = 10_001,
    |call| call.unit.inverter = u16::MAX,
    |call| call.unit.charge = 999,
    |call| call.unit.charge = 10_001,
    |call| call.unit.charge = 0,
    |call| call.unit.discharge = 999,
    |call| call.unit.discharge = 10_001,
    |call| call.unit.discharge = 0,
    |call| call.unit.priority = 2,
    |call| call.unit.priority = u8::MAX,
    // The idle draw above S: by one, by rounding up alone, and at the ends.
    |call| {
        call.set_kva(call.unit.kva.min(1_000_000));
        call.unit.idle_loss = most_idle_loss(&call.unit) + 1;
    },
    |call| (call.unit.idle_loss, call.unit.inverter, call.unit.kva) = (10, 9_999, 10),
    |call| (call.unit.idle_loss, call.unit.inverter, call.unit.kva) = (10_000_000, 1_000, 99_999_999),
];

/// How many of them every edition refuses; edition 3 tests no idle draw.
const BAD_IN_ALL: usize = 40;

/// Those of them that an edition refuses.
pub fn bad_values(edition: u8) -> &'static [fn(&mut StepCall)] {
    let all: &[_] = &BAD_VALUES;
    match edition {
        3 => &all[..BAD_IN_ALL],
        _ => all,
    }
}

/// Requests beyond the rating.
pub const BAD_REQUESTS: [fn(&mut StepCall); 4] = [
    |call| call.request = call.unit.rating as i32 + 1,
    |call| call.request = -(call.unit.rating as i32) - 1,
    |call| call.request = i32::MIN,
    |call| call.request = i32::MAX,
];

/// The unit of the document's figures D1 to D3, with so much above its reserve.
pub fn figure_unit(available: u64) -> Unit {
    Unit {
        rated: 1_000_000,
        reserve: 100_000,
        stored: 100_000 + available,
        rating: 5_000,
        kva: 5_000,
        idle_loss: 10,
        var_request: 0,
        weight: 1,
        inverter: 9_000,
        charge: 8_000,
        discharge: 8_000,
        priority: 0,
        provide: 5_000,
        absorb: 5_000,
    }
}

/// The steps of the document's figures D1 to D3 and E1, and of its whole case.
pub fn figure_steps() -> Vec<StepCall> {
    let small = |kva, var_request| Unit { kva, var_request, idle_loss: 0, ..figure_unit(500_000) };
    let whole = Unit {
        rated: 3_600_000,
        stored: 3_600_000,
        reserve: 0,
        idle_loss: 1_000,
        inverter: 10_000,
        charge: 10_000,
        discharge: 10_000,
        ..figure_unit(0)
    };
    let step = |unit, request| StepCall { edition: 1, seconds: 60, unit, request };
    vec![
        step(figure_unit(75_750), 900),
        step(figure_unit(75_749), 900),
        step(figure_unit(0), -1_000),
        step(small(5, 5), 3),
        step(small(5, -4), 3),
        step(small(10, 10), 7),
        step(small(10, -10), -7),
        step(whole, 0),
    ]
}

fn efficiency(draw: &mut Draw) -> u16 {
    match draw.below(4) {
        0 => draw.one_of(&[1_000, 10_000, 10_000]),
        1 => 8_000 + 100 * draw.below(21) as u16,
        _ => draw.within(1_000, 10_000) as u16,
    }
}

/// A rating in watts or VA, now and then at an end.
fn power(most: u64, draw: &mut Draw) -> u32 {
    let any = 1 + draw.below(most);
    let ends = draw.within(1, most);
    draw.one_of(&[any, any, any, ends]) as u32
}

pub fn either_sign(size: u64, draw: &mut Draw) -> i32 {
    size as i32 * draw.one_of(&[1, -1])
}

/// One below, at, or one above.
pub fn beside(n: u64, draw: &mut Draw) -> u64 {
    (n + draw.below(3)).saturating_sub(1)
}

/// A call of edition 1 that is not to be refused.
pub fn step_call(draw: &mut Draw) -> StepCall {
    let any = 1 + draw.below(86_400) as u32;
    let seconds = draw.one_of(&[1, 1, 60, 60, 900, 3_600, 86_400, 86_400, any]);
    let scale = draw.one_of(&[20, 1_000, 1_000, 100_000, 100_000_000, 100_000_000]);
    let mut unit = Unit {
        rated: 0,
        reserve: 0,
        stored: 0,
        rating: power(scale, draw),
        kva: 0,
        idle_loss: 0,
        var_request: 0,
        weight: draw.within(1, 10_000) as u16,
        inverter: efficiency(draw),
        charge: efficiency(draw),
        discharge: efficiency(draw),
        priority: draw.below(2) as u8,
        provide: 0,
        absorb: 0,
    };
    unit.kva = match draw.below(4) {
        0 => unit.rating,
        1 => beside(unit.rating.into(), draw).clamp(1, 100_000_000) as u32,
        _ => power(scale, draw),
    };
    // An idle loss that all of the rating would not cover is one of the cases, but not of many.
    let most = u64::from(most_idle_loss(&unit));
    let covered = (u64::from(unit.rating) * u64::from(unit.inverter) / 10_000).min(most);
    unit.idle_loss = match draw.below(10) {
        0..=2 => 0,
        3 => most,
        4 => draw.below(most + 1),
        5 => covered / 2,
        _ => draw.below(covered / 20 + 1),
    } as u32;

    // The request is all of the rating, all of S, a good part, a little, or none; the vars meet the circle, or
    // do not.
    let (rating, kva) = (u64::from(unit.rating), u64::from(unit.kva));
    let size = match draw.below(12) {
        0 => 0,
        1..=4 => rating,
        5 | 6 => beside(kva, draw).min(rating),
        7 => draw.below(rating.min(50) + 1),
        _ => rating / 2 + draw.below(rating - rating / 2 + 1),
    };
    let leg = u64::from(largest_leg(unit.kva, size.min(kva) as u32));
    let vars = match draw.below(8) {
        0 | 1 => 0,
        2 => beside(leg, draw),
        3 => beside(kva, draw),
        4 => draw.within(0, *VAR_REQUEST.end() as u64),
        _ => draw.below(kva + 1),
    };
    unit.var_request = either_sign(vars.min(*VAR_REQUEST.end() as u64), draw);
    let request = either_sign(size, draw);
    let mut call = StepCall { edition: 1, seconds, unit: unit.of_edition(1), request };
    set_stores(&mut call, draw);
    call
}

/// The energies: what some count removes or adds, or one joule beside it, or at an end, or any.
pub fn set_stores(call: &mut StepCall, draw: &mut Draw) {
    let StepCall { unit, request, .. } = *call;
    let most = *RATED.end();
    let rated = draw.within(1, most);
    let (reserve, stored) = (draw.within(0, rated), draw.within(0, rated));

    // A count at the request, at the other end, or any.
    let size = u64::from(request.unsigned_abs().min(unit.kva));
    let count = match draw.below(12) {
        0..=4 => beside(size, draw),
        5 => 1,
        6 => draw.below(3),
        _ => draw.below(size + 1),
    };
    let moved = beside(call.moved(count.into()) as u64, draw).min(most);
    // What is beside it: nothing, a little, or any.
    let rest = draw.one_of(&[0, 0, 1, 1_000, most]).min(most - moved);
    let below = if rest == 0 { 0 } else { draw.below(rest + 1) };
    match draw.below(10) {
        0..=6 if request > 0 => {
            // The moved energy lies above the reserve.
            let rated = (below + moved + rest.min(most - below - moved)).max(1);
            call.set_energies(rated, below, below + moved);
        }
        0..=6 if request < 0 => {
            // The moved energy has room above the store.
            let rated = (below + moved).max(1);
            call.set_energies(rated, draw.below(rated + 1), rated - moved.min(rated));
        }
        7 => call.set_energies(rated, reserve, beside(reserve, draw).min(rated)),
        8 => call.set_energies(rated, reserve, rated - draw.below(rated.min(3))),
        _ => call.set_energies(rated, reserve, stored),
    }
}

/// So many steps of the call's unit, one after the other as a run makes them, with a request that changes now and then.
pub fn in_a_row(mut call: StepCall, steps: usize, draw: &mut Draw) -> Vec<StepCall> {
    let mut calls = Vec::new();
    for _ in 0..steps {
        if draw.below(20) == 0 {
            call.request = -call.request;
        }
        if draw.below(8) == 0 {
            call.request = draw.below(u64::from(call.unit.rating) + 1) as i32 * call.request.signum();
        }
        calls.push(call);
        call.unit.stored = call.step().expect("a call that is not to be refused").stored;
    }
    calls
}

/// The call with every request that its rating allows; none where these are many.
pub fn with_every_request(call: StepCall) -> Vec<StepCall> {
    let rating = call.unit.rating as i32;
    let requests = (-rating..=rating).take_while(|_| rating <= 40);
    requests.map(|request| StepCall { request, ..call }).collect()
}

/// The call with an available energy, or a room, from nothing to more than it needs, joule by joule; none where these
/// are many.
pub fn over_every_joule(call: StepCall) -> Vec<StepCall> {
    let most = call.moved(call.request.unsigned_abs().into()) as u64 + 2;
    let reserve = most / 3;
    let with = |joules| {
        let stored = if call.request > 0 { reserve + joules } else { reserve + most - joules };
        let unit = Unit { rated: reserve + most, reserve, stored, ..call.unit };
        StepCall { unit, ..call }
    };
    (0..=most).take_while(|_| most <= 2_000).map(with).collect()
}
