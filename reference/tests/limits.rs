//! The proved step of a storage unit with var limits beside the reference, over the C surface.

mod host;
mod limited;
mod steps;

use host::{refuses_cut_rows, Host};
use limited::compare;
use steps::{expected, put_step, With};
use yesbrulka_reference::samples::units::{self, StepCall};
use yesbrulka_reference::samples::{limits, older, Draw};
use yesbrulka_reference::storage::{Stepped, Unit};

/// Figure D4, and D1 to E1 in editions 1 and 2: their units have no limits below S.
#[test]
fn steps_of_the_documents_figures() {
    let answers = [(0, 600), (0, -300), (800, 600), (953, -300)];
    let mut calls = limits::figure_steps();
    for (call, (watts, vars)) in calls.iter().zip(answers) {
        let Stepped { watts: given, vars: other, .. } = expected(call).stepped;
        assert_eq!((given, other), (watts, vars), "{call:?}");
    }
    calls.extend(limits::figure_steps().iter().map(|call| call.with(|call| call.edition = 1)));
    for call in units::figure_steps() {
        let in_2 = call.with(|call| {
            call.edition = 2;
            call.unit = call.unit.of_edition(1);
        });
        assert_eq!(expected(&call), expected(&in_2));
        calls.extend([call, in_2]);
    }
    compare(20, calls);
}

#[test]
fn steps_where_a_limit_decides() {
    let mut draw = Draw::from_seed(901);
    let met = compare(330_000, (0..330_000).map(|_| limits::step_call(&mut draw)));
    met.numbers(329_999, &[0]);
    met.more_than(10_000, "limit", 0..=4);
    met.more_than(10_000, "vars beside the limit", -1..=1);
    for what in ["the limit decided", "all that was asked"] {
        met.more_than(5_000, what, 0..=1);
    }
    // Under var priority only the draw of an idling unit is before the vars.
    met.more_than(5_000, "the circle decided", [0]);
    met.more_than(100, "the circle decided", [1]);
    met.more_than(5_000, "the other limit is nothing", [0]);
    met.more_than(5_000, "the smaller of the limits", [0]);
    met.more_than(3_000, "watts that the limit left", [0]);
    met.more_than(3_000, "watts beside the limit", [0]);
}

/// Small units, each with every var request from below minus S to above S and with limits of every kind, at rest and
/// at work in both priorities.
#[test]
fn steps_of_small_units_with_every_var_request() {
    let mut draw = Draw::from_seed(902);
    let mut calls = Vec::new();
    while calls.len() < 240_000 {
        let call = draw.one_of(&[limits::step_call, older::step_call])(&mut draw);
        let kva = call.unit.kva;
        if kva > 30 {
            continue;
        }
        let any = draw.below(u64::from(kva) + 1) as u32;
        for (provide, absorb) in [(0, kva), (kva, 0), (1, kva - 1), (kva - 1, 1), (any, kva / 2), (kva, kva)]
        {
            for var_request in -(kva as i32) - 2..=kva as i32 + 2 {
                for priority in 0..2 {
                    let unit = Unit { provide, absorb, var_request, priority, ..call.unit };
                    calls.push(StepCall { unit, ..call });
                }
            }
        }
    }
    let met = compare(240_000, calls);
    met.numbers(239_999, &[0]);
    met.more_than(30_000, "edition", 2..=3);
    met.more_than(3_000, "limit", 0..=4);
    met.more_than(3_000, "vars beside the limit", -1..=1);
}

#[test]
fn steps_with_values_at_their_ends_or_beside_them() {
    let mut draw = Draw::from_seed(903);
    let mut calls = Vec::new();
    for _ in 0..800 {
        let call = draw.one_of(&[limits::step_call, older::step_call])(&mut draw);
        let mut add = |number: u32, call: StepCall| {
            assert_eq!(expected(&call).number, number, "{call:?}");
            calls.push(call);
        };
        for end in units::ENDS.iter().chain(&limits::ENDS) {
            add(0, call.with(end));
            // And beside it, or at another end at once.
            add(0, call.with(end).with(draw.one_of(&limits::ENDS)));
        }
        for spoil in units::bad_values(call.edition).iter().chain(&limits::BAD_VALUES) {
            add(5, call.with(spoil));
            // A wrong value comes before a wrong request.
            add(5, call.with(spoil).with(draw.one_of(&units::BAD_REQUESTS)));
        }
        for spoil in units::BAD_REQUESTS {
            add(10, call.with(spoil));
        }
        // The idle draw is tested in editions 1 and 2 alone.
        for end in older::ENDS {
            add(0, call.with(end).with(|call| call.edition = 3));
        }
        for (edition, beyond) in [1, 2, 3].into_iter().flat_map(|e| older::BEYOND.map(|beyond| (e, beyond))) {
            let call = call.with(beyond).with(|call| call.edition = edition);
            add(if edition == 3 { 0 } else { 5 }, call);
            add(if edition == 3 { 10 } else { 5 }, call.with(draw.one_of(&units::BAD_REQUESTS)));
        }
        // In edition 1 no limit is looked at, and all else is.
        let call = limits::step_call(&mut draw);
        for spoil in limits::BAD_VALUES {
            let call = call.with(spoil).with(|call| call.edition = 1);
            add(0, call);
            add(5, call.with(draw.one_of(&units::BAD_VALUES)));
            add(10, call.with(draw.one_of(&units::BAD_REQUESTS)));
        }
    }
    let met = compare(180_000, calls);
    met.numbers(8_000, &[0, 5, 10]);
    met.more_than(8_000, "edition", 1..=3);
}

/// Every edition that a byte can say, with good values, with a limit beyond S, and with a request beyond the rating.
#[test]
fn steps_of_every_edition() {
    let mut draw = Draw::from_seed(904);
    let mut calls = Vec::new();
    for round in 0..60 {
        let call = limits::step_call(&mut draw);
        for edition in 0..=255 {
            let call = call.with(|call| call.edition = edition);
            let number = |call: &StepCall| expected(call).number;
            let known = (1..=3).contains(&edition);
            assert_eq!(number(&call), if known { 0 } else { 5 }, "edition {edition}");
            let beyond = call.with(limits::BAD_VALUES[round % limits::BAD_VALUES.len()]);
            assert_eq!(number(&beyond), if edition == 1 { 0 } else { 5 }, "edition {edition}");
            let request = call.with(draw.one_of(&units::BAD_REQUESTS));
            assert_eq!(number(&request), if known { 10 } else { 5 }, "edition {edition}");
            calls.extend([call, beyond, request]);
        }
    }
    for _ in 0..4_000 {
        let call = limits::step_call(&mut draw);
        calls.extend([0, 1, 2, 3, 4, 255].map(|edition| call.with(|call| call.edition = edition)));
    }
    let met = compare(60_000, calls);
    met.more_than(1_000, "edition", [0, 1, 2, 3, 4, 255]);
    met.numbers(100, &[0, 5, 10]);
}

/// `yb_step` is `yb_step_as` in edition 1, whatever limits that is told; and in edition 2 where both are S.
#[test]
fn a_step_is_one_of_edition_1() {
    let mut draw = Draw::from_seed(905);
    let mut host = Host::start();
    for _ in 0..20 {
        let [mut plain, mut told, mut of_s] = [(); 3].map(|()| Vec::new());
        for round in 0..4_000 {
            let mut call = units::step_call(&mut draw);
            if round % 8 == 0 {
                let changes = [draw.one_of(&units::BAD_VALUES), draw.one_of(&units::BAD_REQUESTS)];
                call = call.with(draw.one_of(&changes));
            }
            put_step(&mut plain, With::Step, &call);
            let [provide, absorb] = [(); 2].map(|()| draw.sized() as u32);
            let limited = StepCall { unit: Unit { provide, absorb, ..call.unit }, ..call };
            put_step(&mut told, With::StepAs, &limited);
            let in_2 = StepCall { edition: 2, unit: call.unit.of_edition(1), ..call };
            put_step(&mut of_s, With::StepAs, &in_2);
        }
        let plain = host.call(With::Step.op(), &plain);
        assert!(plain == host.call(With::StepAs.op(), &told), "edition 1 looks at the limits");
        assert!(plain == host.call(With::StepAs.op(), &of_s), "limits of S are none");
    }
    assert!(host.end().0.success());
}

/// The same in a row, with the reference beside both.
#[test]
fn steps_of_edition_1_with_any_limits() {
    let mut draw = Draw::from_seed(906);
    let any = |draw: &mut Draw| {
        let call = units::step_call(draw);
        let [provide, absorb] = [(); 2].map(|()| draw.sized() as u32);
        StepCall { unit: Unit { provide, absorb, ..call.unit }, ..call }
    };
    let calls: Vec<StepCall> = (0..60_000).map(|_| any(&mut draw)).collect();
    steps::compare(With::Step, calls.iter().copied(), |_, _| ());
    compare(60_000, calls).numbers(59_999, &[0]);
}

/// Any bits at all in every number; most of these are refused.
#[test]
fn steps_over_any_bits() {
    let mut draw = Draw::from_seed(907);
    let calls = (0..40_000).map(|round| {
        let call = draw.one_of(&[limits::step_call, older::step_call])(&mut draw);
        let [provide, absorb] = [(); 2].map(|()| draw.sized() as u32);
        let priority = draw.any() as u8 >> draw.below(8);
        let var_request = draw.any() as i32 >> draw.below(32);
        let unit = match round % 4 {
            0 => Unit { provide, absorb, priority, var_request, kva: draw.sized() as u32, ..call.unit },
            1 => Unit { var_request, ..call.unit },
            _ => Unit { provide, absorb, ..call.unit },
        };
        let any = draw.any() as u8;
        let edition = draw.one_of(&[2, 2, 3, 3, 1, any]);
        StepCall { edition, unit, ..call }
    });
    compare(40_000, calls).numbers(3_000, &[0, 5]);
}

/// The comparison is worth nothing if the host answers frames that it has not understood.
#[test]
fn the_host_takes_no_malformed_step() {
    let mut step = Vec::new();
    put_step(&mut step, With::StepAs, &limits::figure_steps()[0]);
    assert_eq!(step.len(), 1 + 4 + 49 + 8 + 4);
    let message = "host: op A: the payload is no row of steps of an edition\n";
    refuses_cut_rows(b'A', &step, &[1, 5, 54, 58, 62, step.len() - 1], message);
}
