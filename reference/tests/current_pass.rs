//! The proved controller pass of a site that buys by current beside the reference, over the C surface: what each call
//! returns, its need and its flag, and the requests that it leaves. Files of such sites are in `current.rs`.

mod frames;
mod host;
mod passes;

use frames::Met;
use host::refuses_cut_rows;
use passes::{compare_passes, each_rule_decides, expected_pass, put_pass, refused, PassLeft, Rules};
use yesbrulka_reference::connection::Connections;
use yesbrulka_reference::controller::{Fleet, Goal, Settings};
use yesbrulka_reference::samples::currents::{self, CurrentCall};
use yesbrulka_reference::samples::fleets::{self, PassCall};
use yesbrulka_reference::samples::Draw;

/// The tally: what each unit goes by in a pass, by the rule that decided.
fn note(met: &mut Met, call: &CurrentCall, left: &PassLeft, rule: u8) {
    met.note("number", left.number);
    if rule == 0 {
        return;
    }
    let CurrentCall { pass: PassCall { settings, measure, requests, .. }, units } = call;
    let goal = Goal::of_current(settings, *measure, units, requests);
    let plain = Goal::of_current(settings, *measure, units, &[0]);
    let against = goal.own != plain.own;
    met.note("F is added", against.into());
    let rule = u32::from(rule);
    // On either side of the band, and just at its end.
    let within = |&(need, band): &(i64, i64)| 2 * need.abs() <= band;
    let count = goal.own.iter().filter(|own| within(own)).count();
    let side = if count == 0 { 0 } else { 1 + u32::from(count == goal.own.len()) };
    met.note("within their bands: none, some, all", 10 * rule + side);
    let end = |by: i64| goal.own.iter().any(|&(need, band)| band > 0 && 2 * need.abs() - band == by);
    (-2..=2).filter(|&by| end(by)).for_each(|by| met.note("beside the end of a band", (by + 2) as u32));
    // Needs of one sign, or of both.
    let sign = |sign: i64| goal.own.iter().any(|&(need, _)| need.signum() == sign);
    if sign(1) && sign(-1) {
        met.note("needs of both signs", 10 * u32::from(settings.mode) + rule);
    }
    if sign(0) && (sign(1) || sign(-1)) {
        met.note("no need beside some", rule);
    }
    if settings.band > 0 && goal.own.iter().any(|&(_, band)| band == 0) {
        met.note("a band that is nothing", rule);
    }
    for unit in units.units() {
        met.note("phases", unit.phases.into());
        met.note("volts", unit.volts.into());
        let product = goal.need * i64::from(unit.phases) * i64::from(unit.volts);
        met.note(
            "a need that is cut, by its sign",
            (product.signum() * (product % 1_000).abs().min(1) + 1) as u32,
        );
    }
}

fn compare(calls: impl IntoIterator<Item = CurrentCall>) -> (Rules, Met) {
    let mut met = Met::default();
    let rules = compare_passes(calls, |call, left, rule| note(&mut met, call, left, rule));
    (rules, met)
}

/// Passes in numbers by hand: F behind the conversion, rules 3 and 5 for every unit, a band that is cut to nothing, and
/// the need that is reported.
#[test]
fn passes_by_hand() {
    let figures = currents::figure_passes();
    for (call, (need, changed, rule, requests)) in &figures {
        let left = PassLeft {
            number: 0,
            disturbed: 0,
            need: *need,
            changed: (*changed).into(),
            requests: requests.to_vec(),
        };
        assert_eq!(expected_pass(call), (left, *rule), "{call:?}");
    }
    compare(figures.into_iter().map(|(call, _)| call));
}

#[test]
fn passes_over_fleets_of_a_few_units() {
    let mut draw = Draw::from_seed(1_301);
    let (rules, met) = compare((0..320_000).map(|_| currents::pass_call(5, &mut draw)));
    each_rule_decides(&rules, 4..=5, 1_500);
    met.more_than(319_999, "number", [0]);
    met.more_than(50_000, "F is added", 0..=1);
    // Rule 5 ends a pass for all units alone, and rule 6 takes those that are within their bands too.
    met.more_than(10_000, "within their bands: none, some, all", [52, 60, 61]);
    met.more_than(2_000, "beside the end of a band", 0..=4);
    met.more_than(3_000, "needs of both signs", [46, 56]);
    met.more_than(300, "needs of both signs", [44, 45, 54, 55]);
    met.more_than(500, "no need beside some", 3..=6);
    met.more_than(1_000, "a band that is nothing", 3..=6);
    met.more_than(300_000, "phases", [1, 3]);
    met.more_than(20_000, "volts", [1, 2, 230, 240, 400, 10_000, 39_999, 40_000]);
    met.more_than(50_000, "a need that is cut, by its sign", [0, 2]);
}

#[test]
fn passes_over_fleets_of_any_size() {
    let mut draw = Draw::from_seed(1_302);
    let (rules, met) = compare((0..60_000).map(|_| currents::pass_call(64, &mut draw)));
    each_rule_decides(&rules, 4..=5, 300);
    met.more_than(5_000, "within their bands: none, some, all", [52, 60, 61]);
    met.more_than(1_000, "needs of both signs", [46, 56]);
}

/// One pass after the other over the same fleet, as a run makes them, with a current that wanders and modes that
/// change.
#[test]
fn passes_in_a_row() {
    let mut draw = Draw::from_seed(1_303);
    let mut calls = Vec::new();
    for _ in 0..800 {
        let mut call = currents::pass_call(8, &mut draw);
        let size = 1 + call.pass.measure.unsigned_abs().max(call.pass.settings.target.unsigned_abs().into());
        for _ in 0..60 {
            call.pass.measure = (draw.below(2 * size) as i64).min(300_000_000);
            if draw.below(8) == 0 {
                call.pass.settings.mode = 4 + draw.below(2) as u8;
            }
            if draw.below(8) == 0 {
                let unit = draw.below(call.pass.requests.len() as u64) as usize;
                call.pass.fleet.stored[unit] = draw.below(call.pass.fleet.rated[unit] + 1);
            }
            calls.push(call.clone());
            call.pass.requests = expected_pass(&call).0.requests;
        }
    }
    let (rules, met) = compare(calls);
    each_rule_decides(&rules, 4..=5, 5);
    met.more_than(1_000, "F is added", [1]);
}

#[test]
fn passes_with_one_value_at_an_end_or_beside_it() {
    let mut draw = Draw::from_seed(1_304);
    let mut calls = Vec::new();
    for round in 0..500 {
        let call = currents::pass_call(if round % 8 == 0 { 64 } else { 4 }, &mut draw);
        let unit = draw.below(call.pass.requests.len() as u64) as usize;
        let mut add = |number: u32, call: CurrentCall| {
            assert_eq!(expected_pass(&call).0.number, number, "{call:?}");
            calls.push(call);
        };
        currents::ENDS.iter().for_each(|end| add(0, call.with(|call| end(call, unit))));
        for spoil in currents::BAD_VALUES {
            let bad = call.with(|call| spoil(call, unit));
            // A wrong value comes before a wrong request.
            let request = draw.one_of(&fleets::BAD_REQUEST);
            add(5, bad.with_pass(|call| request(call, unit)));
            add(5, bad);
        }
        for end in fleets::FLEET_ENDS {
            add(0, call.with_pass(|call| call.fleet_value(end, unit)));
        }
        for spoil in fleets::BAD_FLEET {
            add(5, call.with_pass(|call| spoil(&mut call.fleet, unit)));
        }
        for spoil in fleets::BAD_REQUEST {
            add(10, call.with_pass(|call| spoil(call, unit)));
        }
    }
    let met = compare(calls).1;
    met.more_than(3_000, "number", [0, 5, 10]);
}

/// Every byte as the mode, in either call; and every byte as the phases of a unit.
#[test]
fn passes_in_every_mode_and_with_all_phases() {
    let mut draw = Draw::from_seed(1_305);
    let (mut by_current, mut by_power) = (Vec::new(), Vec::new());
    for _ in 0..20 {
        let call = currents::pass_call(4, &mut draw);
        let unit = draw.below(call.pass.requests.len() as u64) as usize;
        for byte in 0..=255 {
            let in_mode = call.with(|call| call.pass.settings.mode = byte);
            let number = |right| if right { 0 } else { 5 };
            assert_eq!(expected_pass(&in_mode).0.number, number([4, 5].contains(&byte)));
            assert_eq!(expected_pass(&in_mode.pass).0.number, number((1..=3).contains(&byte)));
            by_power.push(in_mode.pass.clone());
            let phases = call.with(|call| call.units.phases[unit] = byte);
            assert_eq!(expected_pass(&phases).0.number, number([1, 3].contains(&byte)));
            by_current.extend([in_mode, phases]);
        }
    }
    compare(by_current).1.more_than(10_000, "number", [5]);
    assert!(refused(&compare_passes(by_power, |_, _, _| ()), 5) > 5_000);
}

/// Every value of every unit of a whole fleet is looked at.
#[test]
fn passes_refused_for_any_unit_of_a_whole_fleet() {
    let mut draw = Draw::from_seed(1_306);
    let mut calls = Vec::new();
    let call = loop {
        let call = currents::pass_call(64, &mut draw);
        if call.pass.requests.len() == 64 {
            break call;
        }
    };
    for unit in 0..64 {
        calls.extend(currents::BAD_VALUES.iter().map(|spoil| call.with(|call| spoil(call, unit))));
        calls.extend(
            fleets::BAD_FLEET.iter().map(|spoil| call.with_pass(|call| spoil(&mut call.fleet, unit))),
        );
        calls.extend(fleets::BAD_REQUEST.iter().map(|spoil| call.with_pass(|call| spoil(call, unit))));
    }
    let all = calls.len() as u32;
    let rules = compare(calls).0;
    assert_eq!(refused(&rules, 5) + refused(&rules, 10), all);
}

/// Wrong lengths come before wrong values, and these before wrong requests.
#[test]
fn passes_with_wrong_lengths_and_several_things_wrong() {
    let mut draw = Draw::from_seed(1_307);
    let mut calls = Vec::new();
    for _ in 0..60 {
        let right = currents::pass_call(64, &mut draw);
        let unit = draw.below(right.pass.requests.len() as u64) as usize;
        for lengths in fleets::bad_lengths(right.pass.requests.len(), &mut draw) {
            let mut call = right.clone();
            if draw.below(2) == 0 {
                draw.one_of(&currents::BAD_VALUES)(&mut call, unit);
            }
            call.resize(lengths, &mut draw);
            assert_eq!(expected_pass(&call).0.number, 10, "{lengths:?}");
            calls.push(call);
        }
        for _ in 0..30 {
            let (bad, request) = (draw.one_of(&currents::BAD_VALUES), draw.one_of(&fleets::BAD_REQUEST));
            let call = right.with(|call| bad(call, unit)).with_pass(|call| request(call, unit));
            assert_eq!(expected_pass(&call).0.number, 5);
            calls.push(call);
        }
    }
    compare(calls).1.more_than(1_000, "number", [5, 10]);
}

/// Any bits at all in every number.
#[test]
fn passes_over_any_bits() {
    let mut draw = Draw::from_seed(1_308);
    let calls = (0..12_000).map(|round| {
        let mut call = currents::pass_call(2, &mut draw);
        match round % 4 {
            0 => call.pass.fleet = any_fleet(&mut draw),
            1 => call.pass.settings = any_settings(&mut draw),
            2 => call.pass.measure = draw.any() as i64 >> draw.below(64),
            _ => call.pass.requests[0] = draw.any() as i32 >> draw.below(32),
        }
        let units = call.pass.requests.len();
        if round % 3 == 0 {
            call.units = Connections {
                phases: (0..units).map(|_| draw.sized() as u8).collect(),
                volts: (0..units).map(|_| draw.sized() as u16).collect(),
            };
        }
        call
    });
    compare(calls.collect::<Vec<_>>()).1.more_than(500, "number", [0, 5, 10]);
}

fn any_fleet(draw: &mut Draw) -> Fleet {
    Fleet {
        rated: vec![draw.sized(), draw.sized()],
        reserve: vec![draw.sized(), draw.sized()],
        stored: vec![draw.sized(), draw.sized()],
        rating: vec![draw.sized() as u32, draw.sized() as u32],
        weight: vec![draw.sized() as u16, draw.sized() as u16],
    }
}

fn any_settings(draw: &mut Draw) -> Settings {
    let mode = draw.any() as u8 >> draw.below(8);
    Settings {
        mode: draw.one_of(&[4, 5, 4, 5, mode]),
        target: draw.any() as i32 >> draw.below(32),
        band: draw.sized() as u32,
        factor: draw.sized() as u16,
    }
}

/// The comparison is worth nothing if the host answers frames that it has not understood.
#[test]
fn the_host_takes_no_malformed_pass() {
    let mut pass = Vec::new();
    let call = currents::figure_call(4, [0, 0, 9], [0, 0], [(1, 230); 2]);
    put_pass(&mut pass, &call);
    assert_eq!(pass.len(), 19 + 8 * 4 + 2 * (3 * 8 + 4 + 2 + 1 + 2 + 4));
    let message = "host: op B: the payload is no row of passes by current\n";
    refuses_cut_rows(b'B', &pass, &[1, 18, 43, 50, 51, pass.len() - 1], message);
}
