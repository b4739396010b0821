//! The proved step of a storage unit of the older model, edition 3, beside the reference, over the C surface.

mod host;
mod limited;
mod steps;

use host::Host;
use limited::compare;
use steps::{expected, put_step, Left, With};
use yesbrulka_reference::samples::units::{self, StepCall};
use yesbrulka_reference::samples::{limits, older, Draw};
use yesbrulka_reference::storage::{Stepped, Unit};

/// Figure D5 and its joule less, and the units of the other figures in edition 3.
#[test]
fn steps_of_the_documents_figures() {
    let answers =
        [(890, 100_000, 21_600), (-1_010, 143_200, 17_400), (-10, 100_000, 600), (889, 100_074, 21_585)];
    let mut calls = older::figure_steps();
    assert_eq!(calls.len(), answers.len());
    for (call, (watts, stored, loss)) in calls.iter().zip(answers) {
        let stepped = Stepped { watts, vars: 0, stored, loss };
        assert_eq!(expected(call), Left { number: 0, disturbed: 0, stepped }, "{call:?}");
    }
    // Those of D1 to E1 have no limits below S.
    let others =
        units::figure_steps().into_iter().map(|call| StepCall { unit: call.unit.of_edition(1), ..call });
    calls.extend(others.chain(limits::figure_steps()).map(|call| call.with(|call| call.edition = 3)));
    compare(16, calls).numbers(15, &[0]);
}

/// Idle losses of every kind, in every state and both priorities; var requests at and beside the limits; stores at and
/// beside the reserve and the rated energy.
#[test]
fn steps_where_the_place_of_the_loss_decides() {
    let mut draw = Draw::from_seed(951);
    let met = compare(360_000, (0..360_000).map(|_| older::step_call(&mut draw)));
    met.numbers(359_999, &[0]);
    let states = [-1, 0, 1];
    met.with_signs(&states, 5_000, "idle loss", 0..=3);
    for what in ["an idle draw above S", "an idle loss above the watts"] {
        met.with_signs(&states, 5_000, what, 0..=1);
    }
    met.with_signs(&states, 300, "the most idle loss, a small S", 0..=1);
    // One that gives less than its idle loss draws from the grid, and just as much leaves the grid nothing to see.
    met.with_signs(&[1], 2_000, "at the grid", -1..=1);
    met.with_signs(&[-1], 10_000, "at the grid", [-1]);
    met.with_signs(&[0], 2_000, "at the grid", -1..=0);
    met.never_with(&[-1, 0], "at the grid", 1);
    met.more_than(10_000, "stopped by the store", 0..=1);
    met.more_than(10_000, "asked for nothing", 0..=1);
    met.more_than(3_000, "the reserve", -1..=1);
    met.more_than(10_000, "rated", -1..=0);
    met.more_than(10_000, "limit", 0..=4);
    met.more_than(10_000, "vars beside the limit", -1..=1);
    for what in ["the limit decided", "all that was asked"] {
        met.more_than(5_000, what, 0..=1);
    }
    met.more_than(5_000, "watts beside the limit", [0]);
    // The inverter of an idle unit carries nothing, so that vars that come first are never cut by the circle.
    met.more_than(5_000, "the circle decided", [0]);
    met.never_with(&[-1, 0, 1], "the circle decided", 1);
}

/// One step after the other of the same unit, small units with every request, and stores joule by joule.
#[test]
fn steps_in_rows() {
    let mut draw = Draw::from_seed(952);
    let mut calls = Vec::new();
    for _ in 0..600 {
        let call = older::step_call(&mut draw);
        calls.extend(units::in_a_row(call, 60, &mut draw));
    }
    while calls.len() < 70_000 {
        calls.extend(units::with_every_request(older::step_call(&mut draw)));
    }
    while calls.len() < 110_000 {
        calls.extend(units::over_every_joule(older::step_call(&mut draw)));
    }
    let met = compare(110_000, calls);
    met.numbers(109_999, &[0]);
    met.with_signs(&[-1, 0, 1], 1_000, "idle loss", 0..=3);
    met.more_than(1_000, "stopped by the store", 0..=1);
}

/// Without an idle loss a step of edition 3 is that of edition 2, to the bit; with one it is the same but for the watts
/// and the loss, also where edition 2 would refuse the idle loss.
#[test]
fn a_step_is_one_without_idle_loss() {
    let mut draw = Draw::from_seed(953);
    let mut host = Host::start();
    for _ in 0..15 {
        let calls: Vec<StepCall> = (0..4_000).map(|_| older::step_call(&mut draw)).collect();
        let mut made = |edition, without: bool| {
            let mut payload = Vec::new();
            for call in &calls {
                let idle_loss = if without { 0 } else { call.unit.idle_loss };
                let unit = Unit { idle_loss, ..call.unit };
                put_step(&mut payload, With::StepAs, &StepCall { edition, unit, ..*call });
            }
            steps::all_left(&host.call(With::StepAs.op(), &payload))
        };
        let (none, older) = (made(2, true), made(3, false));
        assert!(none == made(3, true), "without an idle loss the editions are one");
        for (call, (none, older)) in calls.iter().zip(none.iter().zip(older)) {
            let Stepped { watts, loss, .. } = none.stepped;
            let stepped = Stepped {
                watts: watts - call.unit.idle_loss as i32,
                loss: loss + u64::from(call.unit.idle_loss) * u64::from(call.seconds),
                ..none.stepped
            };
            assert_eq!(older, Left { number: 0, disturbed: 0, stepped }, "{call:?}");
        }
    }
    assert!(host.end().0.success());
}
