//! What the tests share that make passes, by power or by current: how a call goes over, what it leaves, the comparison,
//! and a tally of the rules that decided.

use std::collections::BTreeMap;
use std::fmt::Debug;

use crate::frames::Rest;
use crate::host::{Host, LEFT_ALONE};
use yesbrulka_reference::connection::Connections;
use yesbrulka_reference::controller::{self, Fleet, Passed, Settings, State};
use yesbrulka_reference::samples::currents::CurrentCall;
use yesbrulka_reference::samples::fleets::PassCall;

/// Calls go over in frames of this many.
pub const FRAME: usize = 512;

/// What the host leaves in out-numbers that a call did not write.
pub const LEFT_BYTE: u8 = LEFT_ALONE as u8;
const LEFT_NEED: i64 = (LEFT_ALONE as i64) << 32 | LEFT_ALONE as i64;

/// What a pass returns and leaves behind.
#[derive(Debug, PartialEq)]
pub struct PassLeft {
    pub number: u32,
    pub disturbed: u8,
    pub need: i64,
    pub changed: u8,
    pub requests: Vec<i32>,
}

/// A call of a pass, of either kind.
pub trait Pass: Clone + Debug {
    /// The op that makes it.
    const OP: u8;

    /// What every pass is handed.
    fn call(&self) -> &PassCall;

    /// What it is handed besides; none of a pass by power.
    fn connections(&self) -> Option<&Connections>;

    /// What the reference says to it, and the requests that it leaves.
    fn made(&self) -> (Result<Passed, u32>, Vec<i32>);
}

impl Pass for PassCall {
    const OP: u8 = b'P';

    fn call(&self) -> &PassCall {
        self
    }

    fn connections(&self) -> Option<&Connections> {
        None
    }

    fn made(&self) -> (Result<Passed, u32>, Vec<i32>) {
        let mut requests = self.requests.clone();
        (controller::pass(&self.settings, self.measure, &self.fleet, &mut requests), requests)
    }
}

impl Pass for CurrentCall {
    const OP: u8 = b'B';

    fn call(&self) -> &PassCall {
        &self.pass
    }

    fn connections(&self) -> Option<&Connections> {
        Some(&self.units)
    }

    fn made(&self) -> (Result<Passed, u32>, Vec<i32>) {
        let mut call = self.clone();
        (call.pass(), call.pass.requests)
    }
}

/// By the reference; and what was met, for the tally: the rule that decided, or 0 for a refusal.
pub fn expected_pass(call: &impl Pass) -> (PassLeft, u8) {
    let (answer, requests) = call.made();
    let (number, need, changed, rule) = match answer {
        Ok(passed) => (0, passed.need, passed.changed.into(), passed.rule),
        Err(number) => (number, LEFT_NEED, LEFT_BYTE, 0),
    };
    (PassLeft { number, disturbed: 0, need, changed, requests }, rule)
}

/// The lists of a call: their lengths, and then their elements.
pub fn put_lists(payload: &mut Vec<u8>, fleet: &Fleet, connections: Option<&Connections>, requests: &[i32]) {
    let Fleet { rated, reserve, stored, rating, weight } = fleet;
    let mut lengths = vec![rated.len(), reserve.len(), stored.len(), rating.len(), weight.len()];
    lengths.extend(connections.iter().flat_map(|units| [units.phases.len(), units.volts.len()]));
    lengths.push(requests.len());
    payload.extend(lengths.iter().flat_map(|&length| (length as u32).to_le_bytes()));
    for list in [rated, reserve, stored] {
        payload.extend(list.iter().flat_map(|joules| joules.to_le_bytes()));
    }
    payload.extend(rating.iter().flat_map(|rating| rating.to_le_bytes()));
    payload.extend(weight.iter().flat_map(|weight| weight.to_le_bytes()));
    if let Some(Connections { phases, volts }) = connections {
        payload.extend(phases);
        payload.extend(volts.iter().flat_map(|volts| volts.to_le_bytes()));
    }
    payload.extend(requests.iter().flat_map(|request| request.to_le_bytes()));
}

pub fn put_pass(payload: &mut Vec<u8>, pass: &impl Pass) {
    let PassCall { settings, measure, fleet, requests } = pass.call();
    let Settings { mode, target, band, factor } = *settings;
    payload.push(mode);
    payload.extend(target.to_le_bytes());
    payload.extend(band.to_le_bytes());
    payload.extend(factor.to_le_bytes());
    payload.extend(measure.to_le_bytes());
    put_lists(payload, fleet, pass.connections(), requests);
}

pub fn take_requests(rest: &mut Rest, length: usize) -> Vec<i32> {
    (0..length).map(|_| i32::from_le_bytes(rest.take())).collect()
}

fn take_left(rest: &mut Rest, requests: usize) -> PassLeft {
    PassLeft {
        number: u32::from_le_bytes(rest.take()),
        disturbed: u8::from_le_bytes(rest.take()),
        need: i64::from_le_bytes(rest.take()),
        changed: u8::from_le_bytes(rest.take()),
        requests: take_requests(rest, requests),
    }
}

/// How often each rule decided, by mode and the state of the fleet; by rule 0 the refusals, with their number for the
/// mode.
pub type Rules = BTreeMap<(u8, u8, &'static str), u32>;

fn state(requests: &[i32]) -> &'static str {
    match State::of(requests) {
        State::Idle => "idle",
        State::Discharging => "discharging",
        State::Charging => "charging",
    }
}

/// What the archive returns and leaves behind of each of these passes.
pub fn made_by_archive<P: Pass>(host: &mut Host, calls: &[P]) -> Vec<PassLeft> {
    let mut payload = Vec::new();
    calls.iter().for_each(|call| put_pass(&mut payload, call));
    let answer = host.call(P::OP, &payload);
    let mut rest = Rest(&answer);
    let left = calls.iter().map(|call| take_left(&mut rest, call.call().requests.len())).collect();
    assert!(rest.0.is_empty(), "an answer for each pass and nothing more");
    left
}

/// Makes every pass with the archive and with the reference, and compares; tells what the reference says to each, and
/// the rule that decided.
pub fn compare_passes<P: Pass>(
    calls: impl IntoIterator<Item = P>,
    mut tell: impl FnMut(&P, &PassLeft, u8),
) -> Rules {
    let mut host = Host::start();
    let mut met = Rules::new();
    let (mut wrong, mut all) = (0, 0);
    let mut calls = calls.into_iter();
    loop {
        let frame: Vec<P> = calls.by_ref().take(FRAME).collect();
        if frame.is_empty() {
            break;
        }
        for (call, got) in frame.iter().zip(made_by_archive(&mut host, &frame)) {
            let (expected, rule) = expected_pass(call);
            all += 1;
            if got != expected {
                wrong += 1;
                if wrong <= 5 {
                    eprintln!("{call:?}\n  archive   {got:?}\n  reference {expected:?}");
                }
            }
            let mode = if rule == 0 { expected.number as u8 } else { call.call().settings.mode };
            *met.entry((rule, mode, state(&call.call().requests))).or_default() += 1;
            tell(call, &expected, rule);
        }
    }
    assert!(host.end().0.success(), "the host ended badly");
    assert_eq!(wrong, 0, "wrong passes of {all}");
    println!("{all} passes");
    met
}

/// Each rule decides in each of these modes and in each state where it can, often.
pub fn each_rule_decides(met: &Rules, modes: impl IntoIterator<Item = u8>, often: u32) {
    for mode in modes {
        let own = if [3, 5].contains(&mode) { "charging" } else { "discharging" };
        for state in ["idle", "discharging", "charging"] {
            for rule in 3..=6 {
                let count = met.get(&(rule, mode, state)).copied().unwrap_or(0);
                let possible = rule != 3 || state != own;
                assert!(
                    if possible { count >= often } else { count == 0 },
                    "rule {rule} in mode {mode}, {state}: {count} times"
                );
            }
        }
    }
}

/// How often passes were refused with a number.
#[allow(dead_code)] // not every test asks for refusals
pub fn refused(met: &Rules, number: u8) -> u32 {
    met.iter().filter(|(&(rule, of, _), _)| rule == 0 && of == number).map(|(_, count)| count).sum()
}
