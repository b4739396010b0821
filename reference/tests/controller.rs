//! The proved controller pass and settling study beside the reference, over the C surface.

mod frames;
mod host;
mod passes;
mod studies;

use std::collections::BTreeMap;

use host::refuses_cut_rows;
use passes::{each_rule_decides, expected_pass, put_pass, PassLeft, Rules, LEFT_BYTE};
use studies::{expected_study, put_study, StudyLeft};
use yesbrulka_reference::controller::{Fleet, Settings};
use yesbrulka_reference::samples::fleets::{self, PassCall, StudyCall};
use yesbrulka_reference::samples::Draw;

/// Makes every pass with the archive and with the reference, and compares.
fn compare_passes(calls: impl IntoIterator<Item = PassCall>) -> Rules {
    passes::compare_passes(calls, |_, _, _| ())
}

/// The same for studies. Gives how often each number was met, and of studies not refused which settled and
/// which made more than four changing passes.
fn compare_studies(calls: impl IntoIterator<Item = StudyCall>) -> BTreeMap<(u32, u8, bool), u32> {
    let mut met = BTreeMap::new();
    let expected = calls.into_iter().map(|call| {
        let expected = expected_study(&call);
        (call, expected)
    });
    studies::compare_studies(expected, |_, left| {
        let long = left.number == 0 && left.passes > 4;
        *met.entry((left.number, left.settled, long)).or_default() += 1;
    });
    met
}

#[test]
fn passes_and_studies_of_the_documents_figures() {
    let answers: [(i64, u8, &[i32]); 16] = [
        (100, 1, &[33, 33, 33]),
        (-100, 1, &[-33, -33, -33]),
        (100, 1, &[66, 33]),
        (100, 1, &[16, 16, 16]),
        (10, 0, &[0]),
        (11, 1, &[11]),
        (-100, 0, &[-600]),
        (100, 1, &[0]),
        (300, 1, &[100, 150]),
        (50, 1, &[100, 175]),
        (25, 1, &[100, 187]),
        (13, 1, &[100, 193]),
        (7, 0, &[100, 193]),
        (-350, 1, &[450, 450, 450, 450, 0, 450, 450]),
        (707, 1, &[601, 601, 601, 601, 0, 601, 601]),
        (-707, 1, &[-601, -601, -601, -601, 0, -601, -601]),
    ];
    let calls = fleets::figure_passes();
    assert_eq!(calls.len(), answers.len());
    for (call, (need, changed, requests)) in calls.iter().zip(answers) {
        let expected = PassLeft { number: 0, disturbed: 0, need, changed, requests: requests.to_vec() };
        assert_eq!(expected_pass(call).0, expected);
    }
    compare_passes(calls);

    let settled = StudyLeft { number: 0, disturbed: 0, settled: 1, passes: 4, requests: vec![100, 193] };
    assert_eq!(expected_study(&fleets::figure_study(5)), settled);
    compare_studies((1..8).map(fleets::figure_study));
}

#[test]
fn passes_over_fleets_of_a_few_units() {
    let mut draw = Draw::from_seed(201);
    let met = compare_passes((0..300_000).map(|_| fleets::pass_call(5, &mut draw)));
    each_rule_decides(&met, 1..=3, 700);
}

/// Units at their reserves and rated energies and one joule beside them, in every mode and state: how often
/// the shares met each, and that those which cannot help get 0.
#[test]
fn passes_over_units_beside_their_reserves_and_rated_energies() {
    let mut draw = Draw::from_seed(212);
    let mut near = BTreeMap::new();
    let calls: Vec<PassCall> = (0..220_000)
        .map(|round| fleets::beside_call(if round % 16 == 0 { 64 } else { 6 }, &mut draw))
        .collect();
    for call in &calls {
        let (left, rule) = expected_pass(call);
        if rule != 6 {
            continue;
        }
        let mode = call.settings.mode;
        for (unit, request) in left.requests.iter().enumerate() {
            let Some((end, by)) = fleets::beside(&call.fleet, unit) else { continue };
            let helpless = if mode == 3 { (end, by) == ("rated", 0) } else { end == "reserve" && by <= 0 };
            assert!(!helpless || *request == 0);
            let asked = *request != 0;
            let state = call.requests.iter().map(|request| request.signum()).find(|&sign| sign != 0);
            *near.entry((mode, state.unwrap_or(0), end, by, asked)).or_insert(0u32) += 1;
        }
    }
    for mode in 1..=3 {
        for state in [-1, 0, 1] {
            for (end, by) in [("reserve", -1), ("reserve", 0), ("reserve", 1), ("rated", -1), ("rated", 0)] {
                let helpless =
                    if mode == 3 { (end, by) == ("rated", 0) } else { end == "reserve" && by <= 0 };
                let count = near.get(&(mode, state, end, by, !helpless)).copied().unwrap_or(0);
                assert!(count > 1_000, "mode {mode}, sign {state}, {end} {by}: {count}");
            }
        }
    }
    each_rule_decides(&compare_passes(calls), 1..=3, 100);
}

#[test]
fn passes_over_fleets_of_any_size() {
    let mut draw = Draw::from_seed(202);
    let met = compare_passes((0..100_000).map(|_| fleets::pass_call(64, &mut draw)));
    each_rule_decides(&met, 1..=3, 300);
}

/// One pass after the other over the same fleet, as a run makes them: each from where the last one left
/// the requests, with a measure and stores that wander.
#[test]
fn passes_in_a_row() {
    let mut draw = Draw::from_seed(203);
    let mut calls = Vec::new();
    for _ in 0..600 {
        let mut call = fleets::pass_call(8, &mut draw);
        let most = call.fleet.rating.iter().map(|&rating| u64::from(rating)).sum::<u64>().min(100_000_000);
        for _ in 0..60 {
            call.measure = i64::from(call.settings.target)
                + draw.below(2 * most + 1) as i64 * draw.one_of(&[1, -1])
                - call.requests.iter().map(|&request| i64::from(request)).sum::<i64>();
            call.measure = call.measure.clamp(-300_000_000, 300_000_000);
            if draw.below(16) == 0 {
                call.settings.mode = 1 + draw.below(3) as u8;
            }
            if draw.below(8) == 0 {
                let unit = draw.below(call.requests.len() as u64) as usize;
                call.fleet.stored[unit] = draw.below(call.fleet.rated[unit] + 1);
            }
            calls.push(call.clone());
            call.requests = expected_pass(&call).0.requests;
        }
    }
    compare_passes(calls);
}

#[test]
fn passes_with_one_value_at_an_end_or_beside_it() {
    let mut draw = Draw::from_seed(204);
    let mut calls = Vec::new();
    for round in 0..400 {
        let call = fleets::pass_call(if round % 8 == 0 { 64 } else { 4 }, &mut draw);
        let unit = draw.below(call.requests.len() as u64) as usize;
        calls.extend(fleets::PASS_ENDS.iter().map(|end| call.with(end)));
        calls.extend(fleets::BAD_PASS.iter().map(|spoil| call.with(spoil)));
        calls.extend(fleets::FLEET_ENDS.iter().map(|&end| call.with(|call| call.fleet_value(end, unit))));
        calls.extend(fleets::BAD_FLEET.iter().map(|spoil| call.with(|call| spoil(&mut call.fleet, unit))));
        calls.extend(fleets::BAD_REQUEST.iter().map(|spoil| call.with(|call| spoil(call, unit))));
    }
    compare_passes(calls);
}

/// Every value of every unit of a whole fleet is looked at.
#[test]
fn passes_refused_for_any_unit_of_a_whole_fleet() {
    let mut draw = Draw::from_seed(205);
    let mut calls = Vec::new();
    let mut call = fleets::pass_call(64, &mut draw);
    while call.requests.len() < 64 {
        call = fleets::pass_call(64, &mut draw);
    }
    for unit in 0..64 {
        calls.extend(fleets::BAD_FLEET.iter().map(|spoil| call.with(|call| spoil(&mut call.fleet, unit))));
        calls.extend(fleets::BAD_REQUEST.iter().map(|spoil| call.with(|call| spoil(call, unit))));
    }
    let refused = calls.len() as u32;
    let met = compare_passes(calls);
    assert_eq!(met.iter().filter(|((rule, ..), _)| *rule == 0).map(|(_, count)| count).sum::<u32>(), refused);
}

/// Wrong lengths come before wrong values, and these before wrong requests.
#[test]
fn passes_with_wrong_lengths_and_several_things_wrong() {
    let mut draw = Draw::from_seed(206);
    let mut calls = Vec::new();
    for _ in 0..60 {
        let right = fleets::pass_call(64, &mut draw);
        let unit = draw.below(right.requests.len() as u64) as usize;
        for lengths in fleets::bad_lengths(right.requests.len(), &mut draw) {
            let mut call = right.clone();
            match draw.below(4) {
                0 => draw.one_of(&fleets::BAD_PASS)(&mut call),
                1 => draw.one_of(&fleets::BAD_FLEET)(&mut call.fleet, unit),
                _ => (),
            }
            call.resize(lengths, &mut draw);
            calls.push(call);
        }
        for _ in 0..30 {
            let mut call = right.clone();
            if draw.below(2) == 0 {
                draw.one_of(&fleets::BAD_PASS)(&mut call);
            } else {
                draw.one_of(&fleets::BAD_FLEET)(&mut call.fleet, unit);
            }
            let unit = draw.below(call.requests.len() as u64) as usize;
            call.requests[unit] = draw.one_of(&[i32::MIN, i32::MAX, 100_000_001, -100_000_001]);
            calls.push(call);
        }
    }
    let met = compare_passes(calls);
    assert!(met.keys().all(|&(rule, number, _)| rule == 0 && (number == 5 || number == 10)));
}

/// Any bits at all in every number.
#[test]
fn passes_and_studies_over_any_bits() {
    let mut draw = Draw::from_seed(207);
    let any_fleet = |draw: &mut Draw| Fleet {
        rated: vec![draw.sized(), draw.sized()],
        reserve: vec![draw.sized(), draw.sized()],
        stored: vec![draw.sized(), draw.sized()],
        rating: vec![draw.sized() as u32, draw.sized() as u32],
        weight: vec![draw.sized() as u16, draw.sized() as u16],
    };
    compare_passes((0..4_000).map(|_| PassCall {
        settings: Settings {
            mode: draw.any() as u8 >> draw.below(8),
            target: draw.any() as i32 >> draw.below(32),
            band: draw.sized() as u32,
            factor: draw.sized() as u16,
        },
        measure: draw.any() as i64 >> draw.below(64),
        fleet: any_fleet(&mut draw),
        requests: vec![draw.any() as i32, draw.any() as i32],
    }));
    compare_studies((0..2_000).map(|_| StudyCall {
        load: draw.any() as i64 >> draw.below(64),
        target: draw.any() as i32 >> draw.below(32),
        band: draw.sized() as u32,
        factor: draw.sized() as u16,
        budget: draw.sized() as u32,
        fleet: any_fleet(&mut draw),
        requests: vec![draw.any() as i32, draw.any() as i32],
    }));
}

#[test]
fn studies_over_fleets_of_any_size() {
    let mut draw = Draw::from_seed(208);
    let few = (0..12_000).map(|_| fleets::study_call(5, 40, &mut draw)).collect::<Vec<_>>();
    let many = (0..3_000).map(|_| fleets::study_call(64, 40, &mut draw)).collect::<Vec<_>>();
    let met = compare_studies(few.into_iter().chain(many));
    let counts = [(0, false), (0, true), (1, false), (1, true)].map(|(s, long)| met[&(0, s, long)]);
    assert!(counts.iter().all(|&count| count > 500), "{met:?}");
}

/// The budget at the pass that settles, one below it and one above it, and as large as it can be.
#[test]
fn studies_with_a_budget_beside_the_last_pass() {
    let mut draw = Draw::from_seed(209);
    let mut calls = Vec::new();
    let mut longest = 0;
    while calls.len() < 4_000 {
        let mut call = fleets::study_call(6, 1, &mut draw);
        call.budget = 10_000;
        let passes = expected_study(&call).passes;
        if passes == 0 || passes > 500 && longest >= 40 {
            continue;
        }
        longest += u32::from(passes > 500);
        for budget in [passes, passes + 1, passes + 2, 10_000] {
            call.budget = budget.min(10_000);
            calls.push(call.clone());
        }
    }
    let met = compare_studies(calls);
    assert!(longest > 20 && met[&(0, 0, true)] >= 200, "{longest} long ones, {met:?}");
}

#[test]
fn studies_that_are_refused() {
    let mut draw = Draw::from_seed(210);
    let mut calls = Vec::new();
    for _ in 0..60 {
        let right = fleets::study_call(64, 6, &mut draw);
        let unit = draw.below(right.requests.len() as u64) as usize;
        calls.extend(fleets::STUDY_ENDS.iter().map(|end| right.with(end)));
        calls.extend(fleets::BAD_STUDY.iter().map(|spoil| right.with(spoil)));
        calls.extend(fleets::FLEET_ENDS.iter().map(|end| right.with(|call| end(&mut call.fleet, unit))));
        calls.extend(fleets::BAD_FLEET.iter().map(|spoil| right.with(|call| spoil(&mut call.fleet, unit))));
        for lengths in fleets::bad_lengths(right.requests.len(), &mut draw) {
            let mut call = right.clone();
            match draw.below(4) {
                0 => draw.one_of(&fleets::BAD_STUDY)(&mut call),
                1 => draw.one_of(&fleets::BAD_FLEET)(&mut call.fleet, unit),
                _ => (),
            }
            call.resize(lengths, &mut draw);
            calls.push(call);
        }
    }
    let met = compare_studies(calls);
    assert!(met[&(5, LEFT_BYTE, false)] > 1_000 && met[&(10, LEFT_BYTE, false)] > 1_000, "{met:?}");
}

/// The comparison is worth nothing if the host answers frames that it has not understood.
#[test]
fn the_host_takes_no_malformed_pass_or_study() {
    let mut draw = Draw::from_seed(211);
    let mut pass = Vec::new();
    put_pass(&mut pass, &fleets::pass_call(3, &mut draw));
    let mut study = Vec::new();
    put_study(&mut study, &fleets::study_call(3, 3, &mut draw));
    let whole = [
        (b'P', pass, "host: op P: the payload is no row of passes\n"),
        (b'T', study, "host: op T: the payload is no row of studies\n"),
    ];
    for (op, payload, message) in whole {
        refuses_cut_rows(op, &payload, &[1, 18, 43, payload.len() - 1], message);
    }
}
