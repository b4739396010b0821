//! The storage unit: its values, and one step of it.

use crate::ranges::{
    self, EDITION, EFFICIENCY, IDLE_LOSS, KVA, PRIORITY, RATING, SECONDS, VAR_REQUEST, WEIGHT,
};
use crate::whole::{largest_leg, quotient_up};
use crate::{LISTS_OR_REQUESTS, OUT_OF_RANGE};

/// A unit's values, in the order of its field.
#[derive(Clone, Copy, Debug, PartialEq, Eq)]
pub struct Unit {
    /// Joules.
    pub rated: u64,
    /// Joules.
    pub reserve: u64,
    /// Joules.
    pub stored: u64,
    /// The power rating R in watts.
    pub rating: u32,
    /// The kVA rating S in VA.
    pub kva: u32,
    /// Watts. It goes by the edition where they are lost.
    pub idle_loss: u32,
    pub var_request: i32,
    pub weight: u16,
    /// Efficiencies in parts in 10,000.
    pub inverter: u16,
    pub charge: u16,
    pub discharge: u16,
    /// 0 watt, 1 var.
    pub priority: u8,
    /// The most vars that it may provide, and the most that it may absorb; both are S in edition 1.
    pub provide: u32,
    pub absorb: u32,
}

impl Unit {
    /// The unit as an edition has it: in edition 1 it has no limits of its own, whatever they are here.
    pub fn of_edition(&self, edition: u8) -> Unit {
        match edition {
            1 => Unit { provide: self.kva, absorb: self.kva, ..*self },
            _ => *self,
        }
    }

    /// The loss on the DC side in watts: the idle loss, but nothing in edition 3.
    pub fn dc_loss(&self, edition: u8) -> u32 {
        match edition {
            3 => 0,
            _ => self.idle_loss,
        }
    }

    /// The loss at the grid connection in watts: in edition 3 the idle loss, else nothing.
    pub fn grid_loss(&self, edition: u8) -> u32 {
        self.idle_loss - self.dc_loss(edition)
    }

    pub fn in_range(&self, edition: u8) -> bool {
        ranges::energies_fit(self.rated, self.reserve, self.stored)
            && RATING.contains(&self.rating)
            && KVA.contains(&self.kva)
            && IDLE_LOSS.contains(&self.idle_loss)
            && VAR_REQUEST.contains(&self.var_request)
            && WEIGHT.contains(&self.weight)
            && [self.inverter, self.charge, self.discharge].iter().all(|e| EFFICIENCY.contains(e))
            && PRIORITY.contains(&self.priority)
            && self.idle_draw(edition) <= u64::from(self.kva)
            && self.provide <= self.kva
            && self.absorb <= self.kva
    }

    /// The var request within the limits: no less than minus the absorb limit, no more than the provide limit.
    pub fn limited_vars(&self) -> i32 {
        let vars = i64::from(self.var_request).clamp(-i64::from(self.absorb), self.provide.into());
        i32::try_from(vars).expect("no larger than the request")
    }

    /// What the inverter of an idling unit draws, in watts.
    pub fn idle_draw(&self, edition: u8) -> u64 {
        quotient_up(u64::from(self.dc_loss(edition)) * 10_000, self.inverter.into())
    }

    /// The joules that leave the store where the inverter delivers a watt count.
    pub fn removed(&self, edition: u8, watts: i128, seconds: u32) -> i128 {
        let d = divided_up(watts * 10_000, self.inverter.into());
        let drawn = d + i128::from(self.dc_loss(edition));
        divided_up(drawn * i128::from(seconds) * 10_000, self.discharge.into())
    }

    /// The joules that reach the store where the inverter takes a watt count.
    pub fn added(&self, edition: u8, watts: i128, seconds: u32) -> i128 {
        let d = watts * i128::from(self.inverter) / 10_000;
        let kept = (d - i128::from(self.dc_loss(edition))).max(0);
        kept * i128::from(seconds) * i128::from(self.charge) / 10_000
    }
}

/// What a step leaves: the watts at the grid, positive for discharge, the vars, and joules stored and lost.
#[derive(Clone, Copy, Debug, PartialEq, Eq)]
pub struct Stepped {
    pub watts: i32,
    pub vars: i32,
    pub stored: u64,
    pub loss: u64,
}

/// The quotient of two positive numbers, or of 0 by one, rounded up.
fn divided_up(a: i128, b: i128) -> i128 {
    (a + b - 1) / b
}

/// The largest count from `low` to `high` that fits; none where none does. Where a count fits, so does
/// each smaller one.
fn largest(low: i128, high: i128, fits: impl Fn(i128) -> bool) -> Option<i128> {
    if low > high || !fits(low) {
        return None;
    }
    // `good` always fits, and nothing from `bad` up is a count that does.
    let (mut good, mut bad) = (low, high + 1);
    while bad - good > 1 {
        let middle = (good + bad) / 2;
        if fits(middle) {
            good = middle;
        } else {
            bad = middle;
        }
    }
    Some(good)
}

fn check(edition: u8, seconds: u32, unit: &Unit, request: i32) -> Result<(), u32> {
    if !(EDITION.contains(&edition) && SECONDS.contains(&seconds) && unit.in_range(edition)) {
        return Err(OUT_OF_RANGE);
    }
    if request.unsigned_abs() > unit.rating {
        return Err(LISTS_OR_REQUESTS);
    }
    Ok(())
}

/// One step of one unit of edition 1 that holds a request, the plain way.
pub fn step(seconds: u32, unit: &Unit, request: i32) -> Result<Stepped, u32> {
    step_as(1, seconds, unit, request)
}

/// One step of one unit of an edition that holds a request, the plain way.
pub fn step_as(edition: u8, seconds: u32, unit: &Unit, request: i32) -> Result<Stepped, u32> {
    let unit = &unit.of_edition(edition);
    check(edition, seconds, unit, request)?;
    let asked_vars = unit.limited_vars();
    let stored = i128::from(unit.stored);
    let length = i128::from(seconds);

    // The size of the request, within the circle.
    let mut size = request.unsigned_abs().min(unit.kva);
    if unit.priority == 1 {
        size = size.min(largest_leg(unit.kva, asked_vars.unsigned_abs()));
    }
    let size = i128::from(size);

    // The inverter's watts, the store and the loss of a unit that does what it is asked, as far as it can.
    let mut active = None;
    if request > 0 && unit.stored >= unit.reserve {
        let available = stored - i128::from(unit.reserve);
        let count = largest(1, size, |watts| unit.removed(edition, watts, seconds) <= available);
        if let Some(watts) = count {
            let removed = unit.removed(edition, watts, seconds);
            active = Some((watts, stored - removed, removed - watts * length));
        }
    }
    if request < 0 {
        let room = i128::from(unit.rated) - stored;
        let count = largest(0, size, |watts| unit.added(edition, watts, seconds) <= room);
        let watts = count.expect("taking nothing adds nothing");
        let added = unit.added(edition, watts, seconds);
        if added > 0 {
            active = Some((-watts, stored + added, watts * length - added));
        }
    }

    // Otherwise it idles.
    let draw = i128::from(unit.idle_draw(edition));
    let (watts, stored, loss) = active.unwrap_or((-draw, stored, draw * length));

    // The vars, last, beside the inverter's watts; and what is lost at the grid connection on top of it all.
    let beside = u32::try_from(watts.abs()).expect("the inverter's watts are within S");
    let vars = asked_vars.unsigned_abs().min(largest_leg(unit.kva, beside)) as i32;
    let grid_loss = i128::from(unit.grid_loss(edition));
    let (watts, loss) = (watts - grid_loss, loss + grid_loss * length);
    Ok(Stepped {
        watts: i32::try_from(watts).expect("S and an idle loss are far below it"),
        vars: if asked_vars < 0 { -vars } else { vars },
        stored: u64::try_from(stored).expect("no more is removed than there is"),
        loss: u64::try_from(loss).expect("no energy is won"),
    })
}

/// The same step as a quick program makes it: the count by division, all in 64 bits.
pub fn step_fast(edition: u8, seconds: u32, unit: &Unit, request: i32) -> Result<Stepped, u32> {
    let unit = &unit.of_edition(edition);
    check(edition, seconds, unit, request)?;
    let kva = u64::from(unit.kva);
    let inverter = u64::from(unit.inverter);
    let dc_loss = u64::from(unit.dc_loss(edition));
    let seconds = u64::from(seconds);
    let asked_vars = unit.limited_vars();
    let vars = u64::from(asked_vars.unsigned_abs());

    let mut size = u64::from(request.unsigned_abs()).min(kva);
    if unit.priority == 1 && vars != 0 {
        size = size.min(leg_fast(kva, vars));
    }

    let mut active = None;
    if request > 0 && size > 0 && unit.stored >= unit.reserve {
        let available = unit.stored - unit.reserve;
        let discharge = u64::from(unit.discharge);
        let removed = |watts: u64| {
            let d = (watts * 10_000 + inverter - 1) / inverter;
            ((d + dc_loss) * seconds * 10_000 + discharge - 1) / discharge
        };
        let mut watts = size;
        let mut moved = removed(watts);
        if moved > available {
            // (d + DC loss) × seconds × 10,000 ≤ available × discharge, and d × inverter ≥ watts × 10,000.
            let most = (available * discharge / (seconds * 10_000)).saturating_sub(dc_loss);
            watts = most * inverter / 10_000;
            moved = removed(watts);
        }
        if watts > 0 {
            active = Some((watts as i32, unit.stored - moved, moved - watts * seconds));
        }
    } else if request < 0 && size > 0 {
        let room = unit.rated - unit.stored;
        let charge = u64::from(unit.charge);
        let added =
            |watts: u64| (watts * inverter / 10_000).saturating_sub(dc_loss) * seconds * charge / 10_000;
        let mut watts = size;
        let mut moved = added(watts);
        if moved > room {
            // (d - DC loss) × seconds × charge < (room + 1) × 10,000, and watts × inverter < (d + 1) × 10,000.
            let most = ((room + 1) * 10_000 - 1) / (seconds * charge) + dc_loss;
            watts = ((most + 1) * 10_000 - 1) / inverter;
            moved = added(watts);
        }
        if moved > 0 {
            active = Some((-(watts as i32), unit.stored + moved, watts * seconds - moved));
        }
    }
    let (watts, stored, loss) = active.unwrap_or_else(|| {
        let draw = (dc_loss * 10_000 + inverter - 1) / inverter;
        (-(draw as i32), unit.stored, draw * seconds)
    });

    let vars = if vars == 0 { 0 } else { vars.min(leg_fast(kva, watts.unsigned_abs().into())) as i32 };
    let grid_loss = unit.grid_loss(edition);
    Ok(Stepped {
        watts: watts - grid_loss as i32,
        vars: if asked_vars < 0 { -vars } else { vars },
        stored,
        loss: loss + u64::from(grid_loss) * seconds,
    })
}

/// The largest leg beside one that is no longer than S, by the machine's root and a step either way.
fn leg_fast(s: u64, y: u64) -> u64 {
    let square = s * s - y * y;
    let mut root = (square as f64).sqrt() as u64;
    while root * root > square {
        root -= 1;
    }
    while (root + 1) * (root + 1) <= square {
        root += 1;
    }
    root
}

#[cfg(test)]
mod tests {
    use super::*;
    use crate::samples::units::{self, figure_unit, StepCall};
    use crate::samples::{limits, older, Draw};

    /// A call of any edition that is not to be refused.
    fn any_call(draw: &mut Draw) -> StepCall {
        draw.one_of(&[units::step_call, limits::step_call, older::step_call])(draw)
    }

    #[test]
    fn d1() {
        let stepped = step(60, &figure_unit(75_750), 900);
        assert_eq!(stepped, Ok(Stepped { watts: 900, vars: 0, stored: 100_000, loss: 21_750 }));
        let stepped = step(60, &figure_unit(500_000), 900).unwrap();
        assert_eq!((stepped.watts, stepped.stored), (900, 600_000 - 75_750));
    }

    #[test]
    fn d2() {
        assert_eq!(step(60, &figure_unit(75_749), 900).unwrap().watts, 899);
    }

    #[test]
    fn d3() {
        let stepped = step(60, &figure_unit(0), -1_000);
        assert_eq!(stepped, Ok(Stepped { watts: -1_000, vars: 0, stored: 142_720, loss: 17_280 }));
    }

    #[test]
    fn e1() {
        for (kva, watts, most) in [(5, 3, 4), (10, 7, 7)] {
            let unit = Unit { kva, idle_loss: 0, ..figure_unit(500_000) };
            for (asked, got) in [(most + 1, most), (most, most), (most - 1, most - 1)] {
                for sign in [1, -1] {
                    let unit = Unit { var_request: sign * asked, ..unit };
                    assert_eq!(step(60, &unit, watts).unwrap().vars, sign * got);
                    assert_eq!(step(60, &unit, -watts).unwrap().vars, sign * got);
                }
            }
        }
    }

    /// The document's whole case, which idles.
    #[test]
    fn idling_draws_from_the_grid_and_not_from_the_store() {
        let unit = Unit {
            rated: 3_600_000,
            reserve: 0,
            stored: 3_600_000,
            idle_loss: 1_000,
            inverter: 10_000,
            ..figure_unit(0)
        };
        let idle = Ok(Stepped { watts: -1_000, vars: 0, stored: 3_600_000, loss: 60_000 });
        assert_eq!(step(60, &unit, 0), idle);
        // A full store that is asked to take, and one at or below its reserve that is asked to give.
        assert_eq!(step(60, &unit, -5_000), idle);
        assert_eq!(step(60, &Unit { reserve: 3_600_000, ..unit }, 5_000), idle);
        let below = Unit { rated: 4_000_000, reserve: 3_600_001, ..unit };
        assert_eq!(step(60, &below, 5_000), idle);
        // What the inverter lets through does not cover the idle loss, so that nothing is added.
        let unit = Unit { stored: 0, ..unit };
        assert_eq!(step(60, &unit, -1_000).unwrap().stored, 0);
        assert_eq!(step(60, &unit, -1_001).unwrap().stored, 48);
    }

    #[test]
    fn the_stored_energy_cuts_the_watts_before_the_vars_are_limited() {
        let unit = Unit { kva: 900, var_request: 900, ..figure_unit(75_749) };
        let stepped = step(60, &unit, 900).unwrap();
        assert_eq!((stepped.watts, stepped.vars), (899, 42));
    }

    #[test]
    fn under_var_priority_the_vars_come_first() {
        let unit = Unit { kva: 1_000, var_request: -600, priority: 1, ..figure_unit(500_000) };
        let stepped = step(60, &unit, 900).unwrap();
        assert_eq!((stepped.watts, stepped.vars), (800, -600));
        let stepped = step(60, &unit, -900).unwrap();
        assert_eq!((stepped.watts, stepped.vars), (-800, -600));
        // Vars beyond S leave no watts at all: the unit idles, and its draw is kept free.
        let unit = Unit { var_request: 2_000, ..unit };
        let stepped = step(60, &unit, 900).unwrap();
        assert_eq!((stepped.watts, stepped.vars), (-12, 999));
    }

    /// The search, beside a plain walk down from the request.
    #[test]
    fn the_count_is_what_a_walk_downward_finds() {
        let mut draw = Draw::from_seed(61);
        let mut walked = [0; 3];
        while walked.iter().sum::<u32>() < 40_000 {
            let call = any_call(&mut draw);
            let StepCall { edition, seconds, unit, request } = call;
            let mut size = request.unsigned_abs().min(unit.kva);
            if unit.priority == 1 {
                let v = u64::from(unit.limited_vars().unsigned_abs());
                let kva = u64::from(unit.kva);
                while u64::from(size) * u64::from(size) + v * v > kva * kva && size < 2_000 {
                    size -= 1;
                }
            }
            if size > 1_000 || request == 0 {
                continue;
            }
            walked[usize::from(edition) - 1] += 1;
            let mut watts = i128::from(size);
            let (mut stored, mut loss);
            if request > 0 {
                let available = i128::from(unit.stored) - i128::from(unit.reserve);
                while watts > 0 && call.moved(watts) > available {
                    watts -= 1;
                }
                stored = i128::from(unit.stored) - call.moved(watts);
                loss = call.moved(watts) - watts * i128::from(seconds);
            } else {
                while call.moved(watts) > i128::from(unit.rated) - i128::from(unit.stored) {
                    watts -= 1;
                }
                stored = i128::from(unit.stored) + call.moved(watts);
                loss = watts * i128::from(seconds) - call.moved(watts);
                watts = -watts;
            }
            if watts == 0 || stored == i128::from(unit.stored) {
                watts = -i128::from(unit.idle_draw(edition));
                (stored, loss) = (unit.stored.into(), -watts * i128::from(seconds));
            }
            // What the older model has at the grid connection.
            let apart = if edition == 3 { i128::from(unit.idle_loss) } else { 0 };
            let stepped = call.step().unwrap();
            assert_eq!(i128::from(stepped.watts), watts - apart);
            assert_eq!(i128::from(stepped.stored), stored);
            assert_eq!(i128::from(stepped.loss), loss + apart * i128::from(seconds));
        }
        assert!(walked.iter().all(|&count| count > 5_000), "{walked:?}");
    }

    /// The found count fits and the next one does not, also where no walk would end.
    #[test]
    fn the_count_is_the_largest() {
        let mut draw = Draw::from_seed(62);
        for _ in 0..200_000 {
            let call = any_call(&mut draw);
            let StepCall { unit, request, .. } = call;
            let stepped = call.step().unwrap();
            let watts = i128::from(call.inverter_watts(&stepped));
            let size = watts.abs();
            let full = watts == request.into() || size == i128::from(unit.kva) || unit.priority == 1;
            if watts > 0 {
                let available = i128::from(unit.stored - unit.reserve);
                assert!(call.moved(size) <= available);
                assert!(full || call.moved(size + 1) > available);
            } else if stepped.stored > unit.stored {
                let room = i128::from(unit.rated - unit.stored);
                assert!(call.moved(size) <= room);
                assert!(full || call.moved(size + 1) > room);
            }
        }
    }

    /// What the document promises of every step, in every edition.
    #[test]
    fn what_a_planner_relies_on() {
        let mut draw = Draw::from_seed(63);
        let mut met = std::collections::BTreeMap::new();
        for _ in 0..300_000 {
            let call = any_call(&mut draw);
            let StepCall { edition, seconds, unit, request } = call;
            let left = call.step().unwrap();
            let inverter = call.inverter_watts(&left);
            let idle = left.stored == unit.stored;
            let state = if idle { 0 } else { inverter.signum() };
            *met.entry((edition, state)).or_insert(0) += 1;

            assert!(left.stored <= unit.rated && left.stored >= unit.reserve.min(unit.stored), "{call:?}");
            // The circle is about the inverter's watts.
            let [s, watts, vars] = [unit.kva.into(), inverter, left.vars.into()].map(i128::from);
            assert!(watts * watts + vars * vars <= s * s, "{call:?}");
            // No joule is lost from the books, by the watts at the grid.
            let given = i128::from(left.watts) * i128::from(seconds) + i128::from(left.loss);
            assert_eq!(i128::from(unit.stored) - i128::from(left.stored), given, "{call:?}");
            // Never more at the grid than was asked, and none where the unit was asked to take.
            assert!(left.watts <= request.max(0), "{call:?}");
            // The inverter moves no more than was asked, or idles.
            if idle {
                assert_eq!(inverter, -(unit.idle_draw(edition) as i64), "{call:?}");
            } else {
                let asked = i64::from(request);
                assert!(inverter.signum() == asked.signum() && inverter.abs() <= asked.abs(), "{call:?}");
            }
        }
        let all = (1..=3).flat_map(|edition| [-1, 0, 1].map(|state| (edition, state)));
        assert!(all.into_iter().all(|which| met.get(&which) > Some(&5_000)), "{met:?}");
    }

    /// What the quick program says to a call, and that it is what the plain one says.
    fn both(call: &StepCall) -> Result<Stepped, u32> {
        let StepCall { edition, seconds, unit, request } = call;
        let stepped = call.step();
        assert_eq!(step_fast(*edition, *seconds, unit, *request), stepped, "{call:?}");
        stepped
    }

    #[test]
    fn the_fast_step_is_the_plain_one() {
        let mut draw = Draw::from_seed(64);
        for _ in 0..1_200_000 {
            both(&any_call(&mut draw)).unwrap();
        }
        for _ in 0..1_000 {
            let call = any_call(&mut draw);
            let changes = units::ENDS.iter().chain(&units::BAD_VALUES).chain(&units::BAD_REQUESTS);
            let changes = changes.chain(&limits::ENDS).chain(&limits::BAD_VALUES);
            for change in changes.chain(&older::ENDS).chain(&older::BEYOND) {
                let _ = both(&call.with(change));
            }
        }
    }

    /// The idle loss at the grid connection: the store gives and gets what it would without one, and the grid sees the
    /// inverter's watts less it.
    #[test]
    fn d5() {
        let left = older::figure_steps().iter().map(|call| call.step().unwrap()).collect::<Vec<_>>();
        let stepped = |watts, stored, loss| Stepped { watts, vars: 0, stored, loss };
        let joule_less = stepped(889, 100_074, 74_925 - 889 * 60);
        let d5 =
            [stepped(890, 100_000, 21_600), stepped(-1_010, 143_200, 17_400), stepped(-10, 100_000, 600)];
        assert_eq!(left, [&d5[..], &[joule_less]].concat());
    }

    /// An idle loss as large as the watts that are delivered, and larger ones: the unit gives to its own loss, and the
    /// grid gives the rest.
    #[test]
    fn an_idle_loss_above_the_watts() {
        let left = |idle_loss| {
            let unit = Unit { idle_loss, ..units::figure_unit(75_000) };
            step_as(3, 60, &unit, 900).unwrap()
        };
        for (idle_loss, watts) in [(899, 1), (900, 0), (901, -1), (10_000_000, -9_999_100)] {
            let left = left(idle_loss);
            assert_eq!((left.watts, left.stored), (watts, 100_000));
            assert_eq!(left.loss, 21_000 + 60 * u64::from(idle_loss));
        }
    }

    /// The circle is about the inverter's watts, before the watts and in the final vars, whatever is lost at the grid.
    #[test]
    fn the_circle_leaves_out_what_is_lost_at_the_grid() {
        let unit = Unit { kva: 1_000, var_request: -600, ..units::figure_unit(500_000) };
        let left = |idle_loss, priority, request| {
            let unit = Unit { idle_loss, priority, provide: 1_000, absorb: 1_000, ..unit };
            let left = step_as(3, 60, &unit, request).unwrap();
            (left.watts + idle_loss as i32, left.vars)
        };
        for idle_loss in [0, 1, 10, 200, 1_000, 10_000_000] {
            assert_eq!([left(idle_loss, 1, 900), left(idle_loss, 1, -900)], [(800, -600), (-800, -600)]);
            assert_eq!([left(idle_loss, 0, 900), left(idle_loss, 0, -900)], [(900, -435), (-900, -435)]);
            assert_eq!([left(idle_loss, 0, 0), left(idle_loss, 1, 0)], [(0, -600); 2]);
        }
    }

    /// The most idle loss that there is, and an S of a few VA, which editions 1 and 2 do not take.
    #[test]
    fn the_idle_draw_is_not_tested_in_edition_3() {
        let mut draw = Draw::from_seed(70);
        let number = |call: StepCall, edition| call.with(|call| call.edition = edition).step().err();
        for _ in 0..1_000 {
            let call = any_call(&mut draw);
            for beyond in older::BEYOND {
                let call = call.with(beyond);
                assert_eq!(
                    [1, 2, 3].map(|edition| number(call, edition)),
                    [Some(5), Some(5), None],
                    "{call:?}"
                );
            }
        }
        let unit = Unit { kva: 1, idle_loss: 10_000_000, ..limits::figure_unit() };
        let unit = Unit { provide: 1, absorb: 1, var_request: 7, ..unit };
        assert_eq!([1, 2].map(|edition| step_as(edition, 60, &unit, 1)), [Err(5); 2]);
        let left = |request| step_as(3, 60, &unit, request).map(|left| (left.watts, left.vars));
        assert_eq!([left(1), left(0)], [Ok((-9_999_999, 0)), Ok((-10_000_000, 1))]);
    }

    /// A step of edition 3 is that of edition 2 without an idle loss, less the idle loss at the grid.
    #[test]
    fn an_older_step_is_one_without_idle_loss() {
        let mut draw = Draw::from_seed(71);
        for _ in 0..200_000 {
            let call = older::step_call(&mut draw);
            let none = call.with(|call| (call.edition, call.unit.idle_loss) = (2, 0)).step().unwrap();
            let idle_loss = call.unit.idle_loss;
            let expected = Stepped {
                watts: none.watts - idle_loss as i32,
                loss: none.loss + u64::from(idle_loss) * u64::from(call.seconds),
                ..none
            };
            assert_eq!(call.step(), Ok(expected), "{call:?}");
        }
    }

    /// Provide 600, absorb 300, of 1,000 VA: the limit of the request's own direction, in the final vars and before
    /// the watts.
    #[test]
    fn d4() {
        let calls = limits::figure_steps();
        let given: Vec<_> =
            calls.iter().map(|call| call.step().unwrap()).map(|left| (left.watts, left.vars)).collect();
        assert_eq!(given, [(0, 600), (0, -300), (800, 600), (953, -300)]);
        // One var less than the limit is not cut, and in edition 1 none of them is.
        let vars = |edition: u8, var_request| {
            let unit = Unit { var_request, ..calls[0].unit };
            step_as(edition, 60, &unit, 0).unwrap().vars
        };
        assert_eq!([599, 600, 601, -299, -300, -301].map(|v| vars(2, v)), [599, 600, 600, -299, -300, -300]);
        assert_eq!([700, 1_000, 1_001, -700, -1_001].map(|v| vars(1, v)), [700, 1_000, 1_000, -700, -1_000]);
    }

    /// A unit that may only provide, or only absorb, or neither: a request in the other direction takes nothing from
    /// the watts.
    #[test]
    fn a_limit_of_nothing() {
        let unit = Unit { var_request: -1_000, priority: 1, ..limits::figure_unit() };
        let given = |provide, absorb, var_request| {
            let unit = Unit { provide, absorb, var_request, ..unit };
            let left = step_as(2, 60, &unit, 1_000).unwrap();
            (left.watts, left.vars)
        };
        assert_eq!([given(600, 0, -1_000), given(600, 0, 1_000)], [(1_000, 0), (800, 600)]);
        assert_eq!([given(0, 600, -1_000), given(0, 600, 1_000)], [(800, -600), (1_000, 0)]);
        assert_eq!([given(0, 0, -1_000), given(0, 0, 0), given(0, 0, 1_000)], [(1_000, 0); 3]);
    }

    /// Where both limits are S a step is that of edition 1, in which they are not looked at.
    #[test]
    fn limits_of_s_are_none() {
        let mut draw = Draw::from_seed(66);
        for _ in 0..100_000 {
            let call = units::step_call(&mut draw);
            let StepCall { seconds, unit, request, .. } = call;
            let plain = step(seconds, &unit, request);
            let with = |edition, provide, absorb| {
                step_as(edition, seconds, &Unit { provide, absorb, ..unit }, request)
            };
            assert_eq!(with(2, unit.kva, unit.kva), plain, "{call:?}");
            let [provide, absorb] = [(); 2].map(|()| draw.sized() as u32);
            assert_eq!(with(1, provide, absorb), plain, "{call:?}");
            let cut = unit.var_request.unsigned_abs().min(unit.kva) as i32;
            let unit = Unit { provide, absorb, ..unit }.of_edition(1);
            assert_eq!(unit.limited_vars(), cut * unit.var_request.signum());
        }
    }

    /// What a planner relies on: the vars lie between minus the absorb limit and the provide limit.
    #[test]
    fn the_vars_stay_within_their_limits() {
        let mut draw = Draw::from_seed(67);
        let mut met = [0; 2];
        for _ in 0..200_000 {
            let call = draw.one_of(&[limits::step_call, older::step_call])(&mut draw);
            let unit = &call.unit;
            let left = call.step().unwrap();
            let vars = i64::from(left.vars);
            assert!(-i64::from(unit.absorb) <= vars && vars <= unit.provide.into(), "{call:?}");
            // No more than asked either, and of its sign.
            assert!(
                vars * i64::from(unit.var_request) >= 0 && vars.abs() <= i64::from(unit.var_request).abs()
            );
            let cut = left.vars != unit.var_request && left.vars == unit.limited_vars();
            met[0] += u32::from(cut && left.vars > 0);
            met[1] += u32::from(cut && left.vars < 0);
        }
        assert!(met.iter().all(|&count| count > 10_000), "{met:?}");
    }

    /// Vars first hold back no watts for vars that the limits do not allow.
    #[test]
    fn a_lower_limit_never_takes_watts() {
        let mut draw = Draw::from_seed(68);
        let mut more = 0;
        for _ in 0..100_000 {
            let mut call = limits::step_call(&mut draw);
            (call.unit.priority, call.request) = (1, call.request.abs());
            let none =
                call.with(|call| (call.unit.provide, call.unit.absorb) = (call.unit.kva, call.unit.kva));
            let (limited, none) = (call.step().unwrap(), none.step().unwrap());
            assert!(limited.watts >= none.watts, "{call:?}");
            more += u32::from(limited.watts > none.watts);
        }
        assert!(more > 5_000, "{more}");
    }

    #[test]
    fn editions_and_limits_out_of_their_ranges() {
        let mut draw = Draw::from_seed(69);
        for _ in 0..1_000 {
            let call = limits::step_call(&mut draw);
            for edition in 0..=255 {
                let number = call.with(|call| call.edition = edition).step().err();
                assert_eq!(number, (!(1..=3).contains(&edition)).then_some(5), "edition {edition}");
            }
            for end in limits::ENDS {
                assert!(call.with(end).step().is_ok(), "{:?}", call.with(end));
            }
            for spoil in limits::BAD_VALUES {
                let spoiled = call.with(spoil);
                assert_eq!(spoiled.step(), Err(5), "{spoiled:?}");
                assert_eq!(spoiled.with(draw.one_of(&units::BAD_REQUESTS)).step(), Err(5));
                assert!(spoiled.with(|call| call.edition = 1).step().is_ok());
            }
        }
    }

    #[test]
    fn values_are_refused_beside_the_ends_of_their_ranges_and_not_at_them() {
        let mut draw = Draw::from_seed(65);
        let refused = |call: StepCall| call.step().err();
        for _ in 0..3_000 {
            let call = any_call(&mut draw);
            assert_eq!(refused(call), None);
            for end in units::ENDS {
                assert_eq!(refused(call.with(end)), None, "{:?}", call.with(end));
            }
            for spoil in units::bad_values(call.edition) {
                assert_eq!(refused(call.with(spoil)), Some(5), "{:?}", call.with(spoil));
                let call = call.with(spoil).with(draw.one_of(&units::BAD_REQUESTS));
                assert_eq!(refused(call), Some(5));
            }
            for spoil in units::BAD_REQUESTS {
                assert_eq!(refused(call.with(spoil)), Some(10));
            }
        }
    }
}
