//! The proved step of a storage unit beside the reference, over the C surface.

mod host;
mod steps;

use std::collections::BTreeMap;

use host::refuses_cut_rows;
use steps::{expected, put_step, Left, With};
use yesbrulka_reference::samples::units::{self, StepCall};
use yesbrulka_reference::samples::Draw;
use yesbrulka_reference::storage::{Stepped, Unit};

/// What a step came to, for the tally.
#[derive(Clone, Copy, Debug, PartialEq, Eq, PartialOrd, Ord)]
enum Met {
    Refused(u32),
    /// Asked nothing.
    Rests,
    Delivers,
    /// Fewer watts than asked and than the circle allows.
    DeliversLess,
    GivesNothing,
    Takes,
    TakesLess,
    TakesNothing,
}

/// What the step came to, and whether the vars were cut.
fn met(call: &StepCall, left: &Left) -> (Met, bool) {
    let (unit, stepped) = (&call.unit, &left.stepped);
    if left.number != 0 {
        return (Met::Refused(left.number), false);
    }
    let vars = i64::from(unit.var_request).abs();
    let kva = i64::from(unit.kva);
    let watts = i64::from(stepped.watts).abs();
    // One watt more would be asked for, and would be within the circle beside the vars that go before it.
    let free = if unit.priority == 1 { vars.min(kva) } else { 0 };
    let less = watts < i64::from(call.request).abs() && (watts + 1) * (watts + 1) + free * free <= kva * kva;
    let moved = stepped.stored != unit.stored;
    let what = match (call.request, moved, less) {
        (0, ..) => Met::Rests,
        (1.., true, false) => Met::Delivers,
        (1.., true, true) => Met::DeliversLess,
        (1.., false, _) => Met::GivesNothing,
        (_, true, false) => Met::Takes,
        (_, true, true) => Met::TakesLess,
        (_, false, _) => Met::TakesNothing,
    };
    (what, i64::from(stepped.vars).abs() < vars)
}

/// Makes every step with the archive and with the reference, and compares. Gives how often each thing was
/// met, by priority and whether the vars were cut.
fn compare(calls: impl IntoIterator<Item = StepCall>) -> BTreeMap<(Met, u8, bool), u32> {
    let mut tally = BTreeMap::new();
    steps::compare(With::Step, calls, |call, expected| {
        let (what, vars_cut) = met(call, expected);
        *tally.entry((what, call.unit.priority.min(2), vars_cut)).or_default() += 1;
    });
    tally
}

#[test]
fn steps_of_the_documents_figures() {
    let answers = [
        (900, 0, 100_000, 21_750),
        (899, 0, 100_074, 21_735),
        (-1_000, 0, 142_720, 17_280),
        (3, 4, 599_700, 120),
        (3, -4, 599_700, 120),
        (7, 7, 599_400, 180),
        (-7, -7, 600_288, 132),
        (-1_000, 0, 3_600_000, 60_000),
    ];
    let calls = units::figure_steps();
    assert_eq!(calls.len(), answers.len());
    for (call, (watts, vars, stored, loss)) in calls.iter().zip(answers) {
        let stepped = Stepped { watts, vars, stored, loss };
        assert_eq!(expected(call), Left { number: 0, disturbed: 0, stepped }, "{call:?}");
    }
    compare(calls);
}

#[test]
fn steps_where_energy_circle_or_loss_decide() {
    let mut draw = Draw::from_seed(301);
    let tally = compare((0..600_000).map(|_| units::step_call(&mut draw)));
    let idle = [Met::Rests, Met::GivesNothing, Met::TakesNothing];
    let active = [Met::Delivers, Met::DeliversLess, Met::Takes, Met::TakesLess];
    for (what, may_cut) in idle.map(|what| (what, true)).into_iter().chain(active.map(|what| (what, false))) {
        for priority in 0..2 {
            for vars_cut in [false, true] {
                let count = tally.get(&(what, priority, vars_cut)).copied().unwrap_or(0);
                // Under var priority only the draw of an idling unit is before the vars.
                let possible = may_cut || priority == 0 || !vars_cut;
                assert!(
                    if possible { count > 1_000 } else { count == 0 },
                    "{what:?}, priority {priority}, vars cut {vars_cut}: {count} times"
                );
            }
        }
    }
}

/// One step after the other of the same unit, as a run makes them, until the store is at its end and back.
#[test]
fn steps_in_a_row() {
    let mut draw = Draw::from_seed(302);
    compare((0..1_000).flat_map(|_| units::in_a_row(units::step_call(&mut draw), 60, &mut draw)));
}

/// Small units, each with every request, so that nothing between the ends is left out.
#[test]
fn steps_of_small_units_with_every_request() {
    let mut draw = Draw::from_seed(303);
    let mut calls = Vec::new();
    while calls.len() < 60_000 {
        calls.extend(units::with_every_request(units::step_call(&mut draw)));
    }
    compare(calls);
}

/// The available energy from none to more than the request needs, and the room likewise, joule by joule.
#[test]
fn steps_over_every_joule() {
    let mut draw = Draw::from_seed(304);
    let mut calls = Vec::new();
    while calls.len() < 60_000 {
        calls.extend(units::over_every_joule(units::step_call(&mut draw)));
    }
    compare(calls);
}

#[test]
fn steps_with_values_at_their_ends_or_beside_them() {
    let mut draw = Draw::from_seed(305);
    let mut calls = Vec::new();
    for _ in 0..400 {
        let call = units::step_call(&mut draw);
        calls.extend(units::ENDS.iter().map(|end| call.with(end)));
        calls.extend(units::BAD_VALUES.iter().map(|spoil| call.with(spoil)));
        calls.extend(units::BAD_REQUESTS.iter().map(|spoil| call.with(spoil)));
        // A wrong value comes before a wrong request.
        for spoil in units::BAD_VALUES {
            calls.push(call.with(spoil).with(draw.one_of(&units::BAD_REQUESTS)));
        }
        // Several values at their ends at once.
        for _ in 0..40 {
            let ends = |draw: &mut Draw| draw.one_of(&units::ENDS);
            calls.push(call.with(ends(&mut draw)).with(ends(&mut draw)).with(ends(&mut draw)));
        }
    }
    let tally = compare(calls);
    let refused = |number| (0..3).filter_map(|p| tally.get(&(Met::Refused(number), p, false))).sum::<u32>();
    assert!(refused(5) > 20_000 && refused(10) >= 1_600, "{tally:?}");
}

/// Any bits at all in every number; most of these are refused.
#[test]
fn steps_over_any_bits() {
    let mut draw = Draw::from_seed(306);
    compare((0..20_000).map(|_| StepCall {
        edition: 1,
        seconds: draw.sized() as u32,
        unit: Unit {
            rated: draw.sized(),
            reserve: draw.sized(),
            stored: draw.sized(),
            rating: draw.sized() as u32,
            kva: draw.sized() as u32,
            idle_loss: draw.sized() as u32,
            var_request: draw.any() as i32 >> draw.below(32),
            weight: draw.sized() as u16,
            inverter: draw.any() as u16,
            charge: draw.any() as u16,
            discharge: draw.any() as u16,
            priority: draw.any() as u8 >> draw.below(8),
            provide: 0,
            absorb: 0,
        },
        request: draw.any() as i32 >> draw.below(32),
    }));
}

/// The comparison is worth nothing if the host answers frames that it has not understood.
#[test]
fn the_host_takes_no_malformed_step() {
    let mut step = Vec::new();
    put_step(&mut step, With::Step, &units::figure_steps()[0]);
    let message = "host: op S: the payload is no row of steps\n";
    refuses_cut_rows(b'S', &step, &[1, step.len() - 1], message);
}
