//! What the tests share that make steps of units of every edition: the comparison, and a tally of what decided.

use std::collections::BTreeMap;

use crate::steps::{self, Left, With};
use yesbrulka_reference::samples::older::MOST;
use yesbrulka_reference::samples::units::StepCall;
use yesbrulka_reference::storage::Unit;
use yesbrulka_reference::whole::largest_leg;

/// What was met, and how often: a name, a number of its own, and a sign, which is that of the var request where nothing
/// else is said.
#[derive(Default)]
pub struct Met(BTreeMap<(&'static str, i64, i32), u32>);

impl Met {
    fn note(&mut self, holds: bool, what: &'static str, which: i64, sign: i32) {
        if holds {
            *self.0.entry((what, which, sign)).or_default() += 1;
        }
    }

    fn count(&self, what: &'static str, which: i64, sign: i32) -> u32 {
        self.0.get(&(what, which, sign)).copied().unwrap_or(0)
    }

    /// Each of these was met more than so often, with each of these signs.
    pub fn with_signs(
        &self,
        signs: &[i32],
        count: u32,
        what: &'static str,
        which: impl IntoIterator<Item = i64>,
    ) {
        for which in which {
            for &sign in signs {
                let met = self.count(what, which, sign);
                assert!(met > count, "{what} {which}, sign {sign}, was met only {met} times");
            }
        }
    }

    /// The same, with both signs.
    pub fn more_than(&self, count: u32, what: &'static str, which: impl IntoIterator<Item = i64>) {
        self.with_signs(&[-1, 1], count, what, which);
    }

    /// This was never met with any of these signs.
    #[allow(dead_code)] // not every test has what must not be
    pub fn never_with(&self, signs: &[i32], what: &'static str, which: i64) {
        for &sign in signs {
            assert_eq!(self.count(what, which, sign), 0, "{what} {which}, sign {sign}, was met");
        }
    }

    /// Each of these numbers was given more than so often.
    pub fn numbers(&self, count: u32, numbers: &[i64]) {
        for &number in numbers {
            let met: u32 = (-1..=1).map(|sign| self.count("number", number, sign)).sum();
            assert!(met > count, "number {number} was met only {met} times");
        }
    }

    fn call(&mut self, call: &StepCall, left: &Left) {
        let unit = call.unit.of_edition(call.edition);
        let sign = unit.var_request.signum();
        self.note(true, "number", left.number.into(), sign);
        self.note(true, "edition", call.edition.into(), sign);
        if left.number != 0 {
            return;
        }
        let Unit { kva, provide, absorb, .. } = unit;
        let (own, other) = if sign < 0 { (absorb, provide) } else { (provide, absorb) };
        // The limit in the request's own direction: nothing, one, one less than S, S, or another.
        let kind = [0, 1, kva - 1, kva].iter().position(|&kind| kind == own).unwrap_or(4);
        self.note(true, "limit", kind as i64, sign);
        self.note(own > 0 && other == 0, "the other limit is nothing", 0, sign);
        self.note(own < other, "the smaller of the limits", 0, sign);
        let by = i64::from(unit.var_request).abs() - i64::from(own);
        self.note(by.abs() <= 1, "vars beside the limit", by, sign);
        self.circle(call, &unit, left, sign);
        if call.edition == 3 {
            self.older(call, left);
        }
    }

    /// What decided the watts and the vars.
    fn circle(&mut self, call: &StepCall, unit: &Unit, left: &Left, sign: i32) {
        let asked = unit.var_request.unsigned_abs();
        let limited = unit.limited_vars().unsigned_abs();
        let watts = call.inverter_watts(&left.stepped).unsigned_abs() as u32;
        let vars = left.stepped.vars.unsigned_abs();
        let priority = unit.priority.into();
        self.note(vars == limited && vars < asked.min(unit.kva), "the limit decided", priority, sign);
        self.note(vars < limited, "the circle decided", priority, sign);
        self.note(vars == asked && vars > 0, "all that was asked", priority, sign);
        // Vars first, and more watts than the request would have left without its limit.
        let without = largest_leg(unit.kva, asked.min(unit.kva));
        let moved = left.stepped.stored != unit.stored;
        self.note(priority == 1 && moved && watts > without, "watts that the limit left", 0, sign);
        let most = largest_leg(unit.kva, limited).min(call.request.unsigned_abs());
        self.note(priority == 1 && moved && watts == most && limited > 0, "watts beside the limit", 0, sign);
    }

    /// Where the idle loss of the older model decided. The sign is that of what the inverter does, or of the request
    /// where a store is named.
    fn older(&mut self, call: &StepCall, left: &Left) {
        let StepCall { unit, request, .. } = call;
        let moved = left.stepped.stored != unit.stored;
        let state = if moved { request.signum() } else { 0 };
        let priority = unit.priority.into();
        let kind = [0, 1, MOST].iter().position(|&kind| kind == unit.idle_loss).unwrap_or(3);
        self.note(true, "idle loss", kind as i64, state);
        // What editions 1 and 2 would refuse.
        let beyond = unit.idle_draw(2) > unit.kva.into();
        self.note(beyond, "an idle draw above S", priority, state);
        self.note(unit.idle_loss == MOST && unit.kva <= 20, "the most idle loss, a small S", priority, state);
        let watts = call.inverter_watts(&left.stepped).unsigned_abs();
        self.note(u64::from(unit.idle_loss) > watts, "an idle loss above the watts", priority, state);
        self.note(true, "at the grid", left.stepped.watts.signum().into(), state);
        // Fewer watts than S and the vars would leave, and none though some were asked.
        let first = if priority == 1 { unit.limited_vars().unsigned_abs() } else { 0 };
        let most = largest_leg(unit.kva, first).min(request.unsigned_abs());
        self.note(moved && watts < most.into(), "stopped by the store", priority, state);
        self.note(!moved && most > 0, "asked for nothing", priority, request.signum());
        for (what, end) in [("the reserve", unit.reserve), ("rated", unit.rated)] {
            let by = unit.stored as i64 - end as i64;
            self.note(by.abs() <= 1, what, by, request.signum());
        }
    }
}

/// Makes every step with the archive and with the reference, and compares; of no fewer than these.
pub fn compare(least: u32, calls: impl IntoIterator<Item = StepCall>) -> Met {
    let mut met = Met::default();
    let all = steps::compare(With::StepAs, calls, |call, left| met.call(call, left));
    assert!(all >= least, "{all} steps");
    println!("{all} steps");
    met
}
