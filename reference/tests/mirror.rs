//! Charging as the mirror image of discharging. Where every unit is between its reserve and its rated energy, and at
//! neither, a pass that charges leaves the negatives of what a pass that discharges leaves of the negated measure,
//! target and requests; band, factor, weights and ratings are the same. Each pass is made with the archive and with the
//! reference.

mod frames;
mod host;
#[allow(dead_code)] // these passes are compared in pairs
mod passes;

use frames::Met;
use host::Host;
use passes::{expected_pass, made_by_archive, Pass, PassLeft, FRAME};
use yesbrulka_reference::controller::{Fleet, Goal, Settings};
use yesbrulka_reference::samples::currents::{self, CurrentCall};
use yesbrulka_reference::samples::fleets::{self, half_full, PassCall};
use yesbrulka_reference::samples::Draw;

/// The mode that charges where this one discharges, and the other way round.
fn other(mode: u8) -> u8 {
    match mode {
        1 => 3,
        3 => 1,
        4 => 5,
        5 => 4,
        _ => panic!("mode {mode} has no mirror image"),
    }
}

fn mirrored(call: &PassCall) -> PassCall {
    call.with(|call| {
        call.settings.mode = other(call.settings.mode);
        call.settings.target = -call.settings.target;
        call.measure = -call.measure;
        call.requests.iter_mut().for_each(|request| *request = -*request);
    })
}

/// What a pass leaves is the mirror image of what the other leaves.
fn mirrors(one: &PassLeft, other: &PassLeft) -> bool {
    let negated = one.requests.iter().zip(&other.requests).all(|(one, other)| *one == -other);
    one.number == 0 && other.number == 0 && one.need == -other.need && one.changed == other.changed && negated
}

/// The tally of one pass that charges, by the rule that decided.
fn note(met: &mut Met, call: &impl Pass, left: &PassLeft, rule: u8) {
    let PassCall { settings, measure, requests, .. } = call.call();
    let by_rule = 10 * u32::from(rule);
    // What each unit goes by: its own need and its own band.
    let own = match call.connections() {
        None => vec![(left.need, settings.band.into()); requests.len()],
        Some(units) => Goal::of_current(settings, *measure, units, requests).own,
    };
    // A fleet that discharges runs against the mode, and F is added.
    let state = requests.iter().map(|request| request.signum()).find(|&sign| sign != 0).unwrap_or(0);
    met.note("units", requests.len() as u32);
    met.note("changed, by rule", by_rule + u32::from(left.changed));
    met.note("a fleet that charges, idle, with F added, by rule", by_rule + (state + 1) as u32);
    met.note("need below zero, none, above, by rule", by_rule + (left.need.signum() + 1) as u32);
    let at = |by: i64| own.iter().any(|&(need, band)| band > 0 && 2 * need.abs() - band == by);
    for by in (-2..=2).filter(|&by| at(by)) {
        met.note("beside the end of a band, by rule", by_rule + (by + 2) as u32);
    }
    if rule == 6 {
        (0..requests.len()).for_each(|unit| note_share(met, call.call(), unit, own[unit].0, left));
    }
}

/// The tally of a unit's share: how it is rounded, and where the request comes to.
fn note_share(met: &mut Met, call: &PassCall, unit: usize, need: i64, left: &PassLeft) {
    let PassCall { settings, fleet, requests, .. } = call;
    let weights: i64 = fleet.weight.iter().map(|&weight| i64::from(weight)).sum();
    let portion = need * i64::from(fleet.weight[unit]) * i64::from(settings.factor);
    let rest = portion % (weights * 1_000);
    met.note("a share that is cut below zero, whole, cut above", (rest.signum() + 1) as u32);
    let (old, new) = (requests[unit], left.requests[unit]);
    let rating = fleet.rating[unit] as i32;
    met.note("at the rating before", u32::from(old.abs() == rating));
    met.note("at the rating after", u32::from(new.abs() == rating));
    if new == 0 {
        met.note("to nothing from below, from nothing, from above", (old.signum() + 1) as u32);
    }
}

/// Makes each pass that charges and its mirror image with the archive, beside the reference, and holds one against the
/// other; gives what was met.
fn hold<P: Pass>(pairs: impl IntoIterator<Item = [P; 2]>) -> Met {
    let mut host = Host::start();
    let mut met = Met::default();
    let mut pairs = pairs.into_iter();
    let mut all = 0;
    loop {
        let frame: Vec<P> = pairs.by_ref().take(FRAME / 2).flatten().collect();
        if frame.is_empty() {
            break;
        }
        let answers = made_by_archive(&mut host, &frame);
        for (calls, left) in frame.chunks(2).zip(answers.chunks(2)) {
            let expected = [expected_pass(&calls[0]), expected_pass(&calls[1])];
            assert_eq!([&left[0], &left[1]], [&expected[0].0, &expected[1].0], "the reference on {calls:?}");
            assert!(
                mirrors(&left[0], &left[1]),
                "{:?}\n  leaves {:?},\n  mirrored {:?}",
                calls[0],
                left[0],
                left[1]
            );
            // No fleet is without anything to give or without room.
            let rule = expected[0].1;
            assert!(rule == expected[1].1 && rule != 4, "rule {rule} decided on {:?}", calls[0]);
            note(&mut met, &calls[0], &left[0], rule);
            all += 1;
        }
    }
    assert!(host.end().0.success(), "the host ended badly");
    println!("{all} passes and their mirror images");
    met
}

/// Brings each unit between its reserve and its rated energy, one joule or more from either.
fn between(fleet: &mut Fleet, draw: &mut Draw) {
    for unit in 0..fleet.rated.len() {
        let rated = fleet.rated[unit].max(2);
        let reserve = fleet.reserve[unit].min(rated - 2);
        fleet.stored[unit] = draw.within(reserve + 1, rated - 1);
        (fleet.rated[unit], fleet.reserve[unit]) = (rated, reserve);
    }
}

/// A pass that charges and its mirror image, of which one or the other was drawn.
fn pair(most: usize, draw: &mut Draw) -> [PassCall; 2] {
    loop {
        let mut call = fleets::pass_call(most, draw);
        between(&mut call.fleet, draw);
        match call.settings.mode {
            3 => return [call.clone(), mirrored(&call)],
            1 => return [mirrored(&call), call],
            // Support has no mode that charges.
            _ => (),
        }
    }
}

/// The same by current. No current is below zero: the one measure that has a mirror image is 0, and the target makes
/// the need. Other measures are in the reference's own tests, past their range.
fn current_pair(most: usize, draw: &mut Draw) -> [CurrentCall; 2] {
    let mut call = currents::pass_call(most, draw);
    between(&mut call.pass.fleet, draw);
    let need = call.pass.measure - i64::from(call.pass.settings.target);
    call.pass.measure = 0;
    call.pass.settings.target = -need.clamp(-100_000_000, 100_000_000) as i32;
    let image = CurrentCall { pass: mirrored(&call.pass), units: call.units.clone() };
    if call.pass.settings.charges() {
        [call, image]
    } else {
        [image, call]
    }
}

/// Every rule that can decide has, in every state of the fleet; about the band, with F added and with shares of all
/// kinds. Each so often at least.
fn met_enough(met: &Met, often: u32) {
    met.more_than(often, "changed, by rule", [30, 50, 60, 61]);
    let states = [31, 32, 50, 51, 52, 60, 61, 62];
    met.more_than(often, "a fleet that charges, idle, with F added, by rule", states);
    met.more_than(often, "need below zero, none, above, by rule", [31, 32, 50, 51, 52, 60, 62]);
    met.more_than(often / 10, "beside the end of a band, by rule", (30..=34).chain([50, 51, 52, 63, 64]));
    met.more_than(often, "a share that is cut below zero, whole, cut above", 0..=2);
    met.more_than(often, "at the rating before", 0..=1);
    met.more_than(often, "at the rating after", 0..=1);
    met.more_than(often, "to nothing from below, from nothing, from above", 0..=2);
}

#[test]
fn passes_over_fleets_of_a_few_units() {
    let mut draw = Draw::from_seed(1_501);
    let met = hold((0..120_000).map(|_| pair(5, &mut draw)));
    met_enough(&met, 4_000);
    met.more_than(10_000, "units", 1..=5);
}

#[test]
fn passes_over_fleets_of_any_size() {
    let mut draw = Draw::from_seed(1_502);
    let met = hold((0..40_000).map(|_| pair(64, &mut draw)));
    met_enough(&met, 1_000);
    met.more_than(50, "units", 1..=64);
}

#[test]
fn passes_by_current() {
    let mut draw = Draw::from_seed(1_503);
    let met = hold((0..40_000).map(|round| current_pair(if round % 4 == 0 { 64 } else { 5 }, &mut draw)));
    met_enough(&met, 800);
}

/// A pass of units of 1 W and equal weight that were asked for nothing, with no band: rated, reserve and stored of
/// each.
fn by_hand(mode: u8, measure: i64, target: i32, energies: &[[u64; 3]]) -> PassCall {
    let mut fleet = half_full(&vec![1; energies.len()], &vec![1; energies.len()]);
    for (unit, energies) in energies.iter().enumerate() {
        [fleet.rated[unit], fleet.reserve[unit], fleet.stored[unit]] = *energies;
    }
    let settings = Settings { mode, target, band: 0, factor: 1_000 };
    PassCall { settings, measure, fleet, requests: vec![0; energies.len()] }
}

/// What the archive leaves of passes, which is what the reference leaves.
fn left<const CALLS: usize>(calls: [PassCall; CALLS]) -> [PassLeft; CALLS] {
    let mut host = Host::start();
    let left = made_by_archive(&mut host, &calls);
    assert!(host.end().0.success());
    for (call, left) in calls.iter().zip(&left) {
        assert_eq!(*left, expected_pass(call).0);
    }
    left.try_into().expect("an answer for each")
}

fn leaves(need: i64, changed: u8, requests: &[i32]) -> PassLeft {
    PassLeft { number: 0, disturbed: 0, need, changed, requests: requests.to_vec() }
}

/// Between a reserve of 0 J and a rated energy of 2 J.
const BETWEEN: [u64; 3] = [2, 0, 1];

/// A unit that holds its reserve can charge and not discharge.
#[test]
fn no_mirror_image_of_a_unit_at_its_reserve() {
    let alone = by_hand(3, -1, 0, &[[1, 0, 0]]);
    let [one, image] = left([alone.clone(), mirrored(&alone)]);
    assert_eq!((&one, &image), (&leaves(-1, 1, &[-1]), &leaves(1, 0, &[0])));
    assert!(!mirrors(&one, &image));

    let beside = by_hand(3, -2, 0, &[BETWEEN, [1, 0, 0]]);
    let [one, image] = left([beside.clone(), mirrored(&beside)]);
    assert_eq!((&one, &image), (&leaves(-2, 1, &[-1, -1]), &leaves(2, 1, &[1, 0])));
    assert!(!mirrors(&one, &image));
}

/// A full unit can discharge and not charge.
#[test]
fn no_mirror_image_of_a_full_unit() {
    let alone = by_hand(3, -1, 0, &[[1, 0, 1]]);
    let [one, image] = left([alone.clone(), mirrored(&alone)]);
    assert_eq!((&one, &image), (&leaves(-1, 0, &[0]), &leaves(1, 1, &[1])));
    assert!(!mirrors(&one, &image));

    let beside = by_hand(3, -2, 0, &[BETWEEN, [1, 0, 1]]);
    let [one, image] = left([beside.clone(), mirrored(&beside)]);
    assert_eq!((&one, &image), (&leaves(-2, 1, &[-1, 0]), &leaves(2, 1, &[1, 1])));
    assert!(!mirrors(&one, &image));
}

/// A mirror that keeps the target's sign shows another need.
#[test]
fn no_mirror_image_with_the_same_target() {
    let call = by_hand(3, 0, 1, &[BETWEEN]);
    let kept = mirrored(&call).with(|image| image.settings.target = 1);
    let [one, image, kept] = left([call.clone(), mirrored(&call), kept]);
    assert_eq!((&one, &image), (&leaves(-1, 1, &[-1]), &leaves(1, 1, &[1])));
    assert!(mirrors(&one, &image));
    assert_eq!(kept, leaves(-1, 0, &[0]));
    assert!(!mirrors(&one, &kept));
}
