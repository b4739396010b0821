//! How quickly the gap of a settling study closes. What is stated of it is held against passes that the reference makes
//! one by one, and the archive's studies are held against the same passes.
//!
//! The gap after so many passes is load - F - target, with F of the requests then. It is outside the band where twice
//! the gap is above the band, and a pass is made outside where the gap before it is.

mod frames;
mod host;
#[allow(dead_code)] // of passes only how their lists go over is used here
mod passes;
mod studies;

use frames::Met;
use studies::{compare_studies, expected_study, StudyLeft};
use yesbrulka_reference::controller::{pass, Fleet, Settings};
use yesbrulka_reference::samples::fleets::{self, half_full, StudyCall};
use yesbrulka_reference::samples::Draw;

/// No more passes than this are made of a study.
const MOST: usize = 200;

/// A study and its passes one by one, until three in a row have changed nothing or there are enough.
struct Made {
    call: StudyCall,
    /// The requests at first, and after each pass.
    requests: Vec<Vec<i32>>,
    /// The gap at first, and after each pass.
    gaps: Vec<i64>,
    /// Of each pass, whether it changed a request.
    changed: Vec<bool>,
}

impl Made {
    fn of(call: StudyCall) -> Made {
        let settings = Settings { mode: 1, target: call.target, band: call.band, factor: call.factor };
        let target = i64::from(call.target);
        let mut requests = vec![0; call.requests.len()];
        let mut measure = call.load;
        let mut made = Made {
            requests: vec![requests.clone()],
            gaps: vec![measure - target],
            changed: Vec::new(),
            call,
        };
        while made.changed.len() < MOST && !made.changed.ends_with(&[false; 3]) {
            let passed = pass(&settings, measure, &made.call.fleet, &mut requests);
            made.changed.push(passed.expect("a study's measure is one that a pass takes").changed);
            measure = made.call.load - requests.iter().map(|&request| i64::from(request)).sum::<i64>();
            made.gaps.push(measure - target);
            made.requests.push(requests.clone());
        }
        made
    }

    /// What a study of this budget leaves, which is no more than the passes that were made.
    fn left(&self, budget: u32) -> StudyLeft {
        let changing = self.changed.iter().take_while(|&&changed| changed).count() as u32;
        let passes = changing.min(budget);
        StudyLeft {
            number: 0,
            disturbed: 0,
            settled: (budget > changing).into(),
            passes,
            requests: self.requests[passes as usize].clone(),
        }
    }

    /// The study with a few budgets, beside its last changing pass for the most part, and what is expected of each.
    fn studies(&self, draw: &mut Draw) -> Vec<(StudyCall, StudyLeft)> {
        let changing = self.left(MOST as u32).passes;
        let mut budgets = vec![1, changing, changing + 1, 1 + draw.below(MOST as u64) as u32];
        budgets.iter_mut().for_each(|budget| *budget = (*budget).clamp(1, MOST as u32));
        budgets.sort_unstable();
        budgets.dedup();
        let study = |budget| {
            let call = self.call.with(|call| call.budget = budget);
            let left = self.left(budget);
            assert_eq!(expected_study(&call), left, "the reference's study is its passes: {call:?}");
            (call, left)
        };
        budgets.into_iter().map(study).collect()
    }

    fn units(&self) -> i64 {
        self.call.requests.len() as i64
    }

    /// Those that are above their reserve.
    fn above(&self) -> Vec<usize> {
        let Fleet { stored, reserve, .. } = &self.call.fleet;
        (0..stored.len()).filter(|&unit| stored[unit] > reserve[unit]).collect()
    }

    fn all_above(&self) -> bool {
        self.above().len() == self.requests[0].len()
    }

    fn equal_weights(&self) -> bool {
        self.call.fleet.weight.windows(2).all(|two| two[0] == two[1])
    }

    fn outside(&self, passes: usize) -> bool {
        2 * self.gaps[passes] > self.call.band.into()
    }

    /// What a unit could still be asked for after so many passes.
    fn free(&self, passes: usize, unit: usize) -> i64 {
        i64::from(self.call.fleet.rating[unit]) - i64::from(self.requests[passes][unit])
    }

    fn none_at_rating(&self, passes: usize) -> bool {
        (0..self.requests[0].len()).all(|unit| self.free(passes, unit) > 0)
    }

    /// The passes from this one on that change a request.
    fn changing_from(&self, first: usize) -> usize {
        self.changed[first..].iter().filter(|&&changed| changed).count()
    }

    /// Where weights are equal, each unit's share of a gap.
    fn share(&self, gap: i64) -> i64 {
        gap * i64::from(self.call.factor) / (self.units() * 1_000)
    }

    /// What a pass leaves of a gap where weights are equal and each unit takes all of its share.
    fn closed(&self, gap: i64) -> i64 {
        gap - self.units() * self.share(gap)
    }
}

/// Of equal weights: a pass outside the band closes a share for each unit above its reserve that the pass leaves below
/// its rating.
fn each_pass_closes_its_room(made: &Made, met: &mut Met) {
    let above = made.above();
    let depleted = u32::from(!made.all_above());
    for passes in (0..made.changed.len()).filter(|&passes| made.outside(passes)) {
        let (gap, next) = (made.gaps[passes], made.gaps[passes + 1]);
        let share = made.share(gap);
        let room = above.iter().filter(|&&unit| made.free(passes + 1, unit) > 0).count();
        let closed = room as i64 * share;
        assert!(next + closed <= gap, "{gap} to {next} after {passes} passes of {:?}", made.call);
        // A share of nothing shows nothing.
        if share == 0 {
            continue;
        }
        let limited = u32::from(room < above.len()) + u32::from(room == 0);
        met.note("outside, units at their rating: none, some, all", limited);
        met.note("outside, units at or below reserve", depleted);
        if room > 0 && next + closed == gap {
            met.note("just the room, units at their rating", limited);
            met.note("just the room, units at or below reserve", depleted);
        }
    }
}

/// Of equal weights, a factor of 1,000, a band of at least twice the units, every unit above its reserve and none at
/// its rating after the first pass: the first pass is enough.
fn the_first_pass_is_enough(made: &Made, met: &mut Met) {
    let (units, band) = (made.units(), i64::from(made.call.band));
    let full = made.call.factor == 1_000 && band >= 2 * units;
    if !(full && made.all_above() && made.none_at_rating(1)) {
        return;
    }
    assert!(!made.outside(1), "{} after the first pass of {:?}", made.gaps[1], made.call);
    assert_eq!(made.changing_from(1), 0, "passes after the first of {:?}", made.call);
    met.note("enough, the first pass changes", made.changed[0].into());
    if made.changed[0] && units > 1 {
        let left = made.gaps[1];
        let most = u32::from(left == units - 1);
        met.note("enough, left: nothing, some, one less than the units", u32::from(left > 0) + most);
        let beyond = (band - 2 * units).min(2) as u32;
        met.note("enough, band beyond twice the units: none, one, more", beyond);
        if most == 1 {
            met.note("enough, left one less than the units by a band beyond twice", beyond);
        }
    }
}

/// Of equal weights and units all above their reserves, of which none has reached its rating: from any pass on the gap
/// is what the recurrence says, and no more than its bound.
fn the_gap_follows_the_recurrence(made: &Made, met: &mut Met) {
    if !made.all_above() {
        return;
    }
    let follows: Vec<bool> =
        (0..made.changed.len()).map(|k| made.outside(k) && made.none_at_rating(k + 1)).collect();
    for first in 0..follows.len() {
        let mut gap = made.gaps[first];
        for passes in (first..follows.len()).take_while(|&passes| follows[passes]) {
            gap = made.closed(gap);
            assert_eq!(made.gaps[passes + 1], gap, "pass {passes} from {first} on of {:?}", made.call);
            let count = (passes + 1 - first) as u32;
            if made.changed[passes] {
                met.note("passes of the recurrence", count.min(20));
            }
            if count <= 12 {
                let gaps = [made.gaps[first] as u64, gap as u64];
                held_to_the_bound(made.units() as u64, made.call.factor.into(), gaps, count, met);
            }
        }
    }
}

/// The largest number that divides both.
fn common(a: u64, b: u64) -> u64 {
    if b == 0 {
        a
    } else {
        common(b, a % b)
    }
}

/// The bound of the recurrence: what so many passes leave of a gap is, times factor x 1000^passes, at most
/// gap x factor x (1000 - factor)^passes + units x 1000 x 1000^passes. Gives these three products, or nothing where
/// they are too long. What divides both factor and 1,000 is divided out of all three, and so fewer are.
fn bound(units: u64, factor: u64, [gap, left]: [u64; 2], passes: u32) -> Option<[u128; 3]> {
    let by = common(factor, 1_000);
    let (part, whole) = (u128::from(factor / by), u128::from(1_000 / by));
    let power = whole.checked_pow(passes)?;
    let left = (u128::from(left) * part).checked_mul(power)?;
    let faded = (u128::from(gap) * part).checked_mul((whole - part).pow(passes))?;
    let cut = (u128::from(units) * whole).checked_mul(power)?;
    // The sum has to fit too.
    faded.checked_add(cut).map(|_| [left, faded, cut])
}

/// Holds what passes left of a gap, the second of these gaps, against the bound.
fn held_to_the_bound(units: u64, factor: u64, gaps: [u64; 2], passes: u32, met: &mut Met) {
    let Some([left, faded, cut]) = bound(units, factor, gaps, passes) else {
        // Any gap that a study can have is short enough for nine passes.
        assert!(passes > 9, "{gaps:?} after {passes} passes");
        return;
    };
    assert!(left <= faded + cut, "{units} units, factor {factor}, {gaps:?} after {passes} passes");
    met.note("the bound after passes", passes);
    if left > faded {
        met.note("the bound by its second part after passes", passes);
    }
    if left > (faded + cut) / 100 * 99 {
        met.note("the bound, to within a hundredth, after passes", passes);
    }
}

/// Of any weights: after any pass no more passes change a request than there are watts in the gap, nor than the units
/// above their reserves have up to their ratings. Within the band none does.
fn few_passes_are_left(made: &Made, met: &mut Met) {
    let above = made.above();
    let mut changing = 0;
    for passes in (0..made.gaps.len()).rev() {
        changing += i64::from(made.changed.get(passes) == Some(&true));
        let gap = made.gaps[passes];
        let free: i64 = above.iter().map(|&unit| made.free(passes, unit)).sum();
        assert!(changing <= gap && changing <= free, "after {passes} passes of {:?}", made.call);
        if changing > 0 {
            met.note("less than the gap by: nothing, one, more", (gap - changing).min(2) as u32);
            met.note("less than to the ratings by: nothing, one, more", (free - changing).min(2) as u32);
            if changing == free {
                met.note("all passes to the ratings", changing.min(5) as u32);
            }
        }
        if !made.outside(passes) {
            assert_eq!(changing, 0, "within the band after {passes} passes of {:?}", made.call);
            let at_its_end = 2 * gap + 1 >= made.call.band.into();
            met.note("within the band after passes", passes.min(2) as u32);
            met.note("within the band, at its end", at_its_end.into());
        }
    }
}

/// All stores together are above all reserves together.
fn more_stored(fleet: &Fleet) -> bool {
    fleet.stored.iter().sum::<u64>() > fleet.reserve.iter().sum::<u64>()
}

/// A study that its budget stopped has a load above the target, and more in all stores than in all reserves.
fn a_stopped_study_could_go_on(call: &StudyCall, left: &StudyLeft, met: &mut Met) {
    assert_eq!(left.number, 0);
    let (load, stored) = (call.load > call.target.into(), more_stored(&call.fleet));
    let stopped = left.settled == 0;
    assert!(!stopped || load && stored, "stopped: {call:?}");
    let kind = 2 * u32::from(load) + u32::from(stored);
    if stopped {
        met.note("stopped, more load and stores", kind);
        met.note("stopped after passes", left.passes.min(6));
    } else {
        met.note("settled, more load and stores", kind);
    }
}

/// The number of units: one, a few, all that there can be, or any.
fn size(draw: &mut Draw) -> usize {
    let any = 1 + draw.below(64) as usize;
    draw.one_of(&[1, 1, 2, 3, 4, 5, 8, 13, any, 63, 64])
}

/// The gap at first: little, a share for each unit with nothing left or with nearly one more, or any.
fn first_gap(units: u64, draw: &mut Draw) -> u64 {
    let share = 1 + draw.below(1_000);
    match draw.below(8) {
        0 => 1 + draw.below(4),
        1 => 1 + draw.below(4 * units),
        2 => units * share,
        3 | 4 => units * share + units - 1,
        5 => 1 + draw.below(3_000),
        _ => 1 + (draw.below(200_000_000) >> draw.below(28)),
    }
}

/// A load, and the target that makes the gap, which is below zero in about half of them.
fn levels(gap: u64, draw: &mut Draw) -> (i64, i32) {
    let least = gap.saturating_sub(100_000_000);
    let any = draw.within(least, 100_000_000);
    let small = draw.within(least, gap.min(100_000_000));
    let load = draw.one_of(&[any, small]) as i64;
    (load, (load - gap as i64) as i32)
}

/// A band: none, from three below twice the units to one above, about twice the gap, or any.
fn band(units: u64, gap: u64, draw: &mut Draw) -> u32 {
    let band = match draw.below(10) {
        0 | 1 => 0,
        2..=6 => (2 * units + draw.below(5)).saturating_sub(3),
        7 => 2 * gap + draw.below(3) - 1,
        8 => draw.below(gap + 1),
        _ => draw.below(200_000_001),
    };
    band.min(200_000_000) as u32
}

/// Ratings: above the gap, so that none is reached; a few watts; about a unit's part of the gap; or all of these.
fn ratings(units: usize, gap: u64, draw: &mut Draw) -> Vec<u32> {
    let part = gap / units as u64;
    let kind = draw.below(6);
    let rating = |_| {
        let (large, small, near) = (gap + 1 + draw.below(1_000), 1 + draw.below(10), part + draw.below(3));
        let any = 1 + draw.below(2 * part + 1);
        let rating = match kind {
            0..=2 => large,
            3 => small,
            4 => near,
            _ => draw.one_of(&[large, small, near, any]),
        };
        rating.clamp(1, 100_000_000) as u32
    };
    (0..units).map(rating).collect()
}

/// Equal weights, or two very unlike ones, small ones, or any.
fn weights(units: usize, equal: bool, draw: &mut Draw) -> Vec<u16> {
    let any = 1 + draw.below(10_000) as u16;
    let one = draw.one_of(&[1, 2, 10_000, any]);
    let kind = draw.below(3);
    let weight = |_| match kind {
        _ if equal => one,
        0 => draw.one_of(&[1, 10_000]),
        1 => 1 + draw.below(4) as u16,
        _ => draw.within(1, 10_000) as u16,
    };
    (0..units).map(weight).collect()
}

/// A fleet of so many units, for a gap. In about half of the fleets all are above their reserves; in the others some
/// are at theirs or below, and all stores together are above all reserves.
fn fleet(units: usize, gap: u64, equal: bool, draw: &mut Draw) -> Fleet {
    let mut fleet =
        Fleet { rating: ratings(units, gap, draw), weight: weights(units, equal, draw), ..Fleet::default() };
    let quarters = draw.one_of(&[0, 0, 1, 3]);
    for _ in 0..units {
        let rated = 1 + draw.below(1_000_000);
        let reserve = draw.within(0, rated - 1);
        let below = [reserve, reserve, reserve.saturating_sub(1), 0];
        let depleted = draw.below(4) < quarters;
        fleet.stored.push(if depleted { draw.one_of(&below) } else { draw.within(reserve + 1, rated) });
        fleet.reserve.push(reserve);
        fleet.rated.push(rated);
    }
    if !more_stored(&fleet) {
        let unit = draw.below(units as u64) as usize;
        (fleet.rated[unit], fleet.stored[unit]) = (1_000_000_000, 1_000_000_000);
    }
    fleet
}

/// A study with something to close: a load above the target, and more in all stores than in all reserves.
fn study(equal: bool, draw: &mut Draw) -> StudyCall {
    let units = size(draw);
    let gap = first_gap(units as u64, draw);
    let (load, target) = levels(gap, draw);
    let any = 1 + draw.below(1_000) as u16;
    StudyCall {
        load,
        target,
        band: band(units as u64, gap, draw),
        factor: draw.one_of(&[1_000, 1_000, 1_000, 1_000, 1, 500, 999, any]),
        budget: 1,
        fleet: fleet(units, gap, equal, draw),
        requests: (0..units).map(|_| draw.any() as i32).collect(),
    }
}

/// The tally of a study by itself: how many units, and where its target, band and factor stand.
fn note(made: &Made, met: &mut Met) {
    let StudyCall { target, band, factor, .. } = made.call;
    met.note("units", made.units() as u32);
    met.note("a target below zero", u32::from(target < 0));
    met.note("factor of a thousand", u32::from(factor == 1_000));
    let beside = i64::from(band) - 2 * made.units() + 3;
    if made.units() > 1 && (0..=4).contains(&beside) {
        met.note("band from three below twice the units on", beside as u32);
    }
}

/// Holds what is stated against the passes of so many studies, and the archive's studies too; gives what was met.
fn hold(studies: u32, equal: bool, draw: &mut Draw) -> Met {
    let (mut met, mut answers) = (Met::default(), Met::default());
    let calls = (0..studies).flat_map(|_| {
        let made = Made::of(study(equal, draw));
        assert!(made.gaps[0] > 0 && more_stored(&made.call.fleet));
        note(&made, &mut met);
        if made.equal_weights() {
            each_pass_closes_its_room(&made, &mut met);
            the_first_pass_is_enough(&made, &mut met);
            the_gap_follows_the_recurrence(&made, &mut met);
        }
        few_passes_are_left(&made, &mut met);
        made.studies(draw)
    });
    compare_studies(calls, |call, left| a_stopped_study_could_go_on(call, left, &mut answers));
    answers.more_than(20_000, "stopped, more load and stores", [3]);
    answers.more_than(40_000, "settled, more load and stores", [3]);
    answers.more_than(300, "stopped after passes", 1..=6);
    met
}

/// What studies of any weights must have met, of 30,000.
fn met_enough(met: &Met) {
    met.more_than(10, "units", 1..=64);
    met.more_than(2_000, "units", [1, 2, 3, 4, 5, 8, 13, 63, 64]);
    met.more_than(10_000, "a target below zero", 0..=1);
    met.more_than(10_000, "factor of a thousand", 0..=1);
    met.more_than(2_000, "band from three below twice the units on", 0..=4);
    met.more_than(100, "less than the gap by: nothing, one, more", 0..=2);
    met.more_than(300, "less than to the ratings by: nothing, one, more", 0..=2);
    met.more_than(5, "all passes to the ratings", 1..=5);
    met.more_than(5_000, "within the band after passes", 0..=2);
    met.more_than(10_000, "within the band, at its end", 0..=1);
}

#[test]
fn studies_of_equal_weights() {
    let met = hold(30_000, true, &mut Draw::from_seed(1_401));
    met_enough(&met);
    met.more_than(10_000, "outside, units at their rating: none, some, all", 0..=2);
    met.more_than(50_000, "outside, units at or below reserve", 0..=1);
    met.more_than(20_000, "just the room, units at their rating", 0..=1);
    met.more_than(50_000, "just the room, units at or below reserve", 0..=1);
    met.more_than(1_000, "enough, the first pass changes", 0..=1);
    met.more_than(200, "enough, left: nothing, some, one less than the units", 0..=2);
    met.more_than(200, "enough, band beyond twice the units: none, one, more", 0..=2);
    met.more_than(80, "enough, left one less than the units by a band beyond twice", 0..=2);
    met.more_than(30_000, "passes of the recurrence", 1..=20);
    met.more_than(30_000, "the bound after passes", 1..=10);
    met.more_than(30_000, "the bound by its second part after passes", 1..=10);
    met.more_than(10_000, "the bound, to within a hundredth, after passes", 1..=10);
}

#[test]
fn studies_of_any_weights() {
    met_enough(&hold(30_000, false, &mut Draw::from_seed(1_402)));
}

/// The bound of the recurrence for any numbers, those of no study too: more units than a fleet has, and a factor of 0.
#[test]
fn the_bound_of_the_recurrence() {
    let mut draw = Draw::from_seed(1_403);
    let mut met = Met::default();
    for _ in 0..40_000 {
        let (few, many) = (draw.within(1, 64), 1 + draw.below(100_000));
        let units = draw.one_of(&[few, few, few, many]);
        let any = draw.below(1_001);
        let factor = draw.one_of(&[0, 1, 2, 10, 250, 500, 900, 999, 1_000, any, any, any]);
        // A share of one watt takes about so much; what is below it stays.
        let one = units * 1_000 / factor.max(1);
        let gap = match draw.below(4) {
            0 => one - 1 + draw.below(3),
            1 => draw.below(40 * one).min(200_000_000),
            _ => draw.within(0, 200_000_000) >> draw.below(28),
        };
        let mut left = gap;
        for passes in 0..=40 {
            held_to_the_bound(units, factor, [gap, left], passes, &mut met);
            left -= units * (left * factor / (units * 1_000));
        }
    }
    met.more_than(39_999, "the bound after passes", 0..=9);
    met.more_than(10_000, "the bound after passes", 10..=40);
    met.more_than(5_000, "the bound by its second part after passes", 1..=40);
    met.more_than(1_000, "the bound, to within a hundredth, after passes", 0..=40);
}

/// Loads at the target and on either side of it, and stores that are as much as the reserves, more or less.
#[test]
fn studies_that_their_budget_stops() {
    let mut draw = Draw::from_seed(1_404);
    let mut met = Met::default();
    let calls = (0..16_000).flat_map(|round| {
        let mut call = if round % 2 == 0 {
            fleets::study_call(8, 1, &mut draw)
        } else {
            let equal = draw.below(2) == 0;
            study(equal, &mut draw)
        };
        match round % 8 {
            1 => call.load = i64::from(call.target).max(0),
            3 => call.load = draw.below(1 + call.target.max(0) as u64) as i64,
            5 => call.fleet.stored = call.fleet.reserve.clone(),
            _ => (),
        }
        Made::of(call).studies(&mut draw)
    });
    compare_studies(calls, |call, left| a_stopped_study_could_go_on(call, left, &mut met));
    met.more_than(5_000, "stopped, more load and stores", [3]);
    met.more_than(400, "settled, more load and stores", 0..=3);
    met.more_than(100, "stopped after passes", 1..=6);
}

/// Units of equal weight, all above their reserves, with a target of 0: load, band, factor and ratings.
fn by_hand(load: i64, band: u32, factor: u16, rating: &[u32]) -> StudyCall {
    let fleet = half_full(rating, &vec![1; rating.len()]);
    StudyCall { load, target: 0, band, factor, budget: 1, fleet, requests: vec![7; rating.len()] }
}

/// Makes the passes of a study, and its studies with budgets of 1 to 3 with the archive.
fn made_by_both(call: StudyCall) -> Made {
    let made = Made::of(call);
    let study = |budget| (made.call.with(|call| call.budget = budget), made.left(budget));
    compare_studies((1..=3).map(study), |_, _| ());
    made
}

/// A share is rounded down: two units have 1 W each of 3 W, and 1 W stays. With 2 W each more would have been closed
/// than there was.
#[test]
fn a_share_that_is_rounded_up_closes_too_much() {
    let made = made_by_both(by_hand(3, 0, 1_000, &[1_000, 1_000]));
    assert_eq!((&made.requests[1], &made.gaps[..]), (&vec![1, 1], &[3, 1, 1, 1, 1][..]));
    let (down, up) = (made.share(3), (3 * 1_000 + 2 * 1_000 - 1) / (2 * 1_000));
    assert_eq!((down, up), (1, 2));
    assert!(1 + 2 * down <= 3);
    assert!(1 + 2 * up > 3);
}

/// A unit at its reserve closes nothing, though it is below its rating: of 2 W one unit has 1 W, the other none, and
/// 1 W stays.
#[test]
fn a_unit_at_its_reserve_is_no_room() {
    let mut call = by_hand(2, 0, 1_000, &[1_000, 1_000]);
    call.fleet.stored[1] = call.fleet.reserve[1];
    let made = made_by_both(call);
    assert_eq!((&made.requests[1], &made.gaps[..]), (&vec![1, 0], &[2, 1, 1, 1, 1][..]));
    let below_rating = (0..2).filter(|&unit| made.free(1, unit) > 0).count() as i64;
    assert_eq!((made.above(), below_rating, made.share(2)), (vec![0], 2, 1));
    assert!(1 + made.share(2) <= 2);
    assert!(1 + below_rating * made.share(2) > 2);
}

/// Where one less than the units stays of the gap, a band of three less than twice the units is too small, and one of
/// two less is enough.
#[test]
fn the_smallest_band_for_one_pass() {
    for (band, enough) in [(1, false), (2, true)] {
        let made = made_by_both(by_hand(3, band, 1_000, &[1_000, 1_000]));
        assert_eq!((&made.requests[1], &made.gaps[..2]), (&vec![1, 1], &[3, 1][..]));
        assert_eq!(!made.outside(1), enough);
    }
    for units in 2..=64 {
        let ratings = vec![1_000_000; units as usize];
        for share in [1, 2, 999] {
            let load = units * share + units - 1;
            let small = Made::of(by_hand(load, 2 * units as u32 - 3, 1_000, &ratings));
            assert_eq!((small.gaps[1], small.outside(1)), (units - 1, true));
        }
        for load in 1..=4 * units {
            let made = Made::of(by_hand(load, 2 * units as u32 - 2, 1_000, &ratings));
            assert!(!made.outside(1) && made.changing_from(1) == 0, "{units} units, load {load}");
        }
    }
}
