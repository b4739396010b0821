//! The controller: its settings, one pass over a fleet by power or by current, and the settling study.

use crate::connection::Connections;
use crate::ranges::{
    self, BAND, BUDGET, CURRENT_MEASURE, CURRENT_MODE, FACTOR, LOAD, MEASURE, MODE, POWER_MODE, RATING,
    TARGET, UNITS, WEIGHT,
};
use crate::storage::Unit;
use crate::whole::quotient_cut;
use crate::{LISTS_OR_REQUESTS, OUT_OF_RANGE};

#[derive(Clone, Copy, Debug, PartialEq, Eq)]
pub struct Settings {
    /// 1 PeakShave, 2 Support and 4 I-PeakShave discharge, 3 PeakShaveLow and 5 I-PeakShaveLow charge.
    pub mode: u8,
    /// Watts; milliamperes in modes 4 and 5.
    pub target: i32,
    /// Watts; milliamperes in modes 4 and 5.
    pub band: u32,
    /// Thousandths.
    pub factor: u16,
}

impl Settings {
    pub fn in_range(&self) -> bool {
        MODE.contains(&self.mode)
            && TARGET.contains(&self.target)
            && BAND.contains(&self.band)
            && FACTOR.contains(&self.factor)
    }

    /// The mode regulates a current, and takes no other reading than of one.
    pub fn by_current(&self) -> bool {
        CURRENT_MODE.contains(&self.mode)
    }

    /// The state in which the mode is to have the fleet.
    pub fn own_state(&self) -> State {
        match self.mode {
            3 | 5 => State::Charging,
            _ => State::Discharging,
        }
    }

    pub fn charges(&self) -> bool {
        self.own_state() == State::Charging
    }

    /// Rule 1: the need in the unit of the measure.
    pub fn plain_need(&self, measure: i64) -> i64 {
        let target = i64::from(self.target);
        if self.mode == 2 {
            measure + target
        } else {
            measure - target
        }
    }

    /// Rule 2: what is added to the need, which is nothing unless the fleet runs against the mode.
    fn added_power(&self, requests: &[i32]) -> i64 {
        let state = State::of(requests);
        if state == self.own_state() {
            return 0;
        }
        // The sum of an idle fleet is nothing.
        requests.iter().map(|&request| i64::from(request)).sum()
    }
}

/// What a pass goes by.
#[derive(Clone, Debug, PartialEq, Eq)]
pub struct Goal {
    /// The need that the pass reports.
    pub need: i64,
    /// Each unit's own need and its own band, in watts.
    pub own: Vec<(i64, i64)>,
}

impl Goal {
    /// Of a site that buys by power: one need and one band for all.
    fn of_power(settings: &Settings, measure: i64, requests: &[i32]) -> Goal {
        let need = settings.plain_need(measure) + settings.added_power(requests);
        Goal { need, own: vec![(need, settings.band.into()); requests.len()] }
    }

    /// Of a site that buys by current: need and band are watts of each unit's own connection, and what rule 2 adds is
    /// added behind that. The reported need is that of the current, and has nothing added.
    pub fn of_current(settings: &Settings, measure: i64, units: &Connections, requests: &[i32]) -> Goal {
        let need = settings.plain_need(measure);
        let added = settings.added_power(requests);
        let own = units.units().map(|unit| (unit.watts(need) + added, unit.watts(settings.band.into())));
        Goal { need, own: own.collect() }
    }
}

/// What a pass knows of a fleet's units, a list for each quantity. Nothing says that they are of equal
/// length; a pass does.
#[derive(Clone, Debug, Default, PartialEq, Eq)]
pub struct Fleet {
    pub rated: Vec<u64>,
    pub reserve: Vec<u64>,
    pub stored: Vec<u64>,
    pub rating: Vec<u32>,
    pub weight: Vec<u16>,
}

impl Fleet {
    /// What a pass knows of units as they are now.
    pub fn of(units: &[Unit]) -> Fleet {
        Fleet {
            rated: units.iter().map(|unit| unit.rated).collect(),
            reserve: units.iter().map(|unit| unit.reserve).collect(),
            stored: units.iter().map(|unit| unit.stored).collect(),
            rating: units.iter().map(|unit| unit.rating).collect(),
            weight: units.iter().map(|unit| unit.weight).collect(),
        }
    }

    /// The five lists and the list of requests are of one length, and it is a fleet's.
    fn lengths_fit(&self, requests: usize) -> bool {
        let lengths =
            [self.rated.len(), self.reserve.len(), self.stored.len(), self.rating.len(), self.weight.len()];
        UNITS.contains(&requests) && lengths.iter().all(|&length| length == requests)
    }

    fn in_range(&self) -> bool {
        (0..self.rated.len()).all(|i| {
            ranges::energies_fit(self.rated[i], self.reserve[i], self.stored[i])
                && RATING.contains(&self.rating[i])
                && WEIGHT.contains(&self.weight[i])
        })
    }

    /// The unit cannot help in a pass that discharges, being at or below its reserve, or that charges, being
    /// full.
    pub fn idles(&self, unit: usize, pass: State) -> bool {
        match pass {
            State::Idle => false,
            State::Discharging => self.stored[unit] <= self.reserve[unit],
            State::Charging => self.stored[unit] == self.rated[unit],
        }
    }

    /// No request is beyond its unit's rating in size, and no two are of different signs.
    fn takes(&self, requests: &[i32]) -> bool {
        let beyond = requests.iter().zip(&self.rating).any(|(r, &rating)| r.unsigned_abs() > rating);
        let both_signs = requests.iter().any(|&r| r > 0) && requests.iter().any(|&r| r < 0);
        !beyond && !both_signs
    }
}

#[derive(Clone, Copy, Debug, PartialEq, Eq)]
pub enum State {
    Idle,
    Discharging,
    Charging,
}

impl State {
    pub fn of(requests: &[i32]) -> State {
        if requests.iter().any(|&request| request > 0) {
            State::Discharging
        } else if requests.iter().any(|&request| request < 0) {
            State::Charging
        } else {
            State::Idle
        }
    }
}

/// What a pass reports.
#[derive(Clone, Copy, Debug, PartialEq, Eq)]
pub struct Passed {
    pub need: i64,
    pub changed: bool,
    /// The number of the rule that decided, 3 to 6. It is no part of the answer; tests count with it.
    pub rule: u8,
}

/// One pass of a site that buys by power. The requests become the new ones, or on a refusal stay as they were.
pub fn pass(settings: &Settings, measure: i64, fleet: &Fleet, requests: &mut [i32]) -> Result<Passed, u32> {
    if !fleet.lengths_fit(requests.len()) {
        return Err(LISTS_OR_REQUESTS);
    }
    let fits = POWER_MODE.contains(&settings.mode) && MEASURE.contains(&measure);
    if !(fits && settings.in_range() && fleet.in_range()) {
        return Err(OUT_OF_RANGE);
    }
    if !fleet.takes(requests) {
        return Err(LISTS_OR_REQUESTS);
    }
    Ok(accepted_pass(settings, &Goal::of_power(settings, measure, requests), fleet, requests))
}

/// One pass of a site that buys by current, over units that are so connected. The requests become the new ones, or on a
/// refusal stay as they were.
pub fn pass_current(
    settings: &Settings,
    measure: i64,
    fleet: &Fleet,
    units: &Connections,
    requests: &mut [i32],
) -> Result<Passed, u32> {
    if !(fleet.lengths_fit(requests.len()) && units.lengths_fit(requests.len())) {
        return Err(LISTS_OR_REQUESTS);
    }
    let fits = settings.by_current() && CURRENT_MEASURE.contains(&measure);
    if !(fits && settings.in_range() && fleet.in_range() && units.in_range()) {
        return Err(OUT_OF_RANGE);
    }
    if !fleet.takes(requests) {
        return Err(LISTS_OR_REQUESTS);
    }
    Ok(accepted_pass(settings, &Goal::of_current(settings, measure, units, requests), fleet, requests))
}

fn accepted_pass(settings: &Settings, goal: &Goal, fleet: &Fleet, requests: &mut [i32]) -> Passed {
    let (rule, new) = rules(settings, goal, fleet, requests);
    let changed = new != requests;
    requests.copy_from_slice(&new);
    Passed { need: goal.need, changed, rule }
}

/// Rules 3 to 6 in their order: the rule that decided, and the new requests.
fn rules(settings: &Settings, goal: &Goal, fleet: &Fleet, requests: &[i32]) -> (u8, Vec<i32>) {
    let charges = settings.charges();

    // 3. Nothing to start any unit with.
    let calls = |need: i64| if charges { need < 0 } else { need > 0 };
    if State::of(requests) != settings.own_state() && !goal.own.iter().any(|&(need, _)| calls(need)) {
        return (3, requests.to_vec());
    }

    // 4. Nothing to give, or no room to take.
    let total = |list: &[u64]| list.iter().map(|&joules| u128::from(joules)).sum::<u128>();
    let stored = total(&fleet.stored);
    let exhausted = if charges { stored == total(&fleet.rated) } else { stored <= total(&fleet.reserve) };
    if exhausted {
        return (4, vec![0; requests.len()]);
    }

    // 5. Every unit within half its band on either side.
    if goal.own.iter().all(|&(need, band)| 2 * need.abs() <= band) {
        return (5, requests.to_vec());
    }
    (6, shares(settings, goal, fleet, requests))
}

/// Rule 6, the shares. Every weight counts, and a battery that has nothing to give, or nowhere to put it, is asked for
/// nothing.
fn shares(settings: &Settings, goal: &Goal, fleet: &Fleet, requests: &[i32]) -> Vec<i32> {
    let weights: u64 = fleet.weight.iter().map(|&weight| u64::from(weight)).sum();
    let mut new = Vec::new();
    for (i, &request) in requests.iter().enumerate() {
        if fleet.idles(i, settings.own_state()) {
            new.push(0);
            continue;
        }
        let portion = goal.own[i].0 * i64::from(fleet.weight[i]) * i64::from(settings.factor);
        let share = quotient_cut(portion, weights * 1_000);
        let rating = i64::from(fleet.rating[i]);
        let limited = (i64::from(request) + share).clamp(-rating, rating);
        let against = if settings.charges() { limited > 0 } else { limited < 0 };
        new.push(if against { 0 } else { limited as i32 });
    }
    new
}

/// What a settling study reports.
#[derive(Clone, Copy, Debug, PartialEq, Eq)]
pub struct Study {
    pub settled: bool,
    /// The passes that changed a request.
    pub passes: u32,
}

/// The settling study: passes in mode 1 over a fixed load, from requests of zero whatever was lent. The
/// requests become the last ones, or on a refusal stay as they were.
pub fn settle(
    load: i64,
    target: i32,
    band: u32,
    factor: u16,
    budget: u32,
    fleet: &Fleet,
    requests: &mut [i32],
) -> Result<Study, u32> {
    let settings = Settings { mode: 1, target, band, factor };
    if !fleet.lengths_fit(requests.len()) {
        return Err(LISTS_OR_REQUESTS);
    }
    if !(LOAD.contains(&load) && settings.in_range() && BUDGET.contains(&budget) && fleet.in_range()) {
        return Err(OUT_OF_RANGE);
    }
    requests.fill(0);
    let mut passes = 0;
    for _ in 0..budget {
        let fleet_power: i64 = requests.iter().map(|&request| i64::from(request)).sum();
        let goal = Goal::of_power(&settings, load - fleet_power, requests);
        if !accepted_pass(&settings, &goal, fleet, requests).changed {
            return Ok(Study { settled: true, passes });
        }
        passes += 1;
    }
    Ok(Study { settled: false, passes })
}

#[cfg(test)]
mod tests {
    use super::*;
    use crate::samples::currents::{self, CurrentCall};
    use crate::samples::fleets::{self, half_full, PassCall, StudyCall};
    use crate::samples::Draw;

    fn settings(mode: u8, target: i32, band: u32, factor: u16) -> Settings {
        Settings { mode, target, band, factor }
    }

    /// The shares of a need, from requests of zero in the mode that takes it.
    fn shares(need: i64, weight: &[u16], factor: u16) -> Vec<i32> {
        let mut requests = vec![0; weight.len()];
        let mode = if need < 0 { 3 } else { 1 };
        let fleet = half_full(&vec![1_000; weight.len()], weight);
        let passed = pass(&settings(mode, 0, 0, factor), need, &fleet, &mut requests).unwrap();
        assert_eq!((passed.need, passed.rule), (need, 6));
        requests
    }

    #[test]
    fn b1() {
        assert_eq!(shares(100, &[1, 1, 1], 1_000), [33, 33, 33]);
        assert_eq!(shares(-100, &[1, 1, 1], 1_000), [-33, -33, -33]);
    }

    #[test]
    fn b2() {
        assert_eq!(shares(100, &[2, 1], 1_000), [66, 33]);
        assert_eq!(shares(-100, &[2, 1], 1_000), [-66, -33]);
    }

    #[test]
    fn b3() {
        assert_eq!(shares(100, &[1, 1, 1], 500), [16, 16, 16]);
        assert_eq!(shares(-100, &[1, 1, 1], 500), [-16, -16, -16]);
    }

    #[test]
    fn b4() {
        let fleet = half_full(&[1_000], &[1]);
        let mut requests = [0];
        let passed = pass(&settings(1, 0, 20, 1_000), 10, &fleet, &mut requests).unwrap();
        assert_eq!((passed, requests), (Passed { need: 10, changed: false, rule: 5 }, [0]));
        let passed = pass(&settings(1, 0, 20, 1_000), 11, &fleet, &mut requests).unwrap();
        assert_eq!((passed, requests), (Passed { need: 11, changed: true, rule: 6 }, [11]));
    }

    #[test]
    fn b5() {
        let fleet = half_full(&[1_000], &[1]);
        let mut requests = [-600];
        let passed = pass(&settings(1, 200, 20, 1_000), 700, &fleet, &mut requests).unwrap();
        assert_eq!((passed, requests), (Passed { need: -100, changed: false, rule: 3 }, [-600]));
        let passed = pass(&settings(1, 200, 20, 1_000), 900, &fleet, &mut requests).unwrap();
        assert_eq!((passed, requests), (Passed { need: 100, changed: true, rule: 6 }, [0]));
    }

    #[test]
    fn c1() {
        let fleet = half_full(&[100, 1_000], &[1, 1]);
        let mut requests = [0, 0];
        for second in [150, 175, 187, 193] {
            let measure = 1_000 - i64::from(requests[0]) - i64::from(requests[1]);
            let passed = pass(&settings(1, 700, 20, 1_000), measure, &fleet, &mut requests).unwrap();
            assert!(passed.changed);
            assert_eq!(requests, [100, second]);
        }
        let passed = pass(&settings(1, 700, 20, 1_000), 1_000 - 293, &fleet, &mut requests).unwrap();
        assert_eq!((passed, requests), (Passed { need: 7, changed: false, rule: 5 }, [100, 193]));

        let mut requests = [7, -7];
        let study = settle(1_000, 700, 20, 1_000, 10_000, &fleet, &mut requests);
        assert_eq!((study, requests), (Ok(Study { settled: true, passes: 4 }), [100, 193]));
    }

    /// A budget that ends on a changing pass has not shown a settled fleet; one pass more has.
    #[test]
    fn a_budget_must_reach_the_pass_that_changes_nothing() {
        let fleet = half_full(&[100, 1_000], &[1, 1]);
        let answers = [(1, 150), (2, 175), (3, 187), (4, 193), (5, 193), (6, 193)];
        for (budget, second) in answers {
            let mut requests = [0, 0];
            let study = settle(1_000, 700, 20, 1_000, budget, &fleet, &mut requests);
            let expected = Study { settled: budget > 4, passes: budget.min(4) };
            assert_eq!((study, requests), (Ok(expected), [100, second]));
        }
    }

    /// The fleet's own state keeps it in the rules at a need that would not start it.
    #[test]
    fn a_need_of_the_other_sign_takes_back() {
        let fleet = half_full(&[1_000, 1_000], &[1, 1]);
        let mut requests = [30, 500];
        let passed = pass(&settings(2, -300, 0, 1_000), 200, &fleet, &mut requests).unwrap();
        assert_eq!((passed, requests), (Passed { need: -100, changed: true, rule: 6 }, [0, 450]));
        let mut requests = [-30, -500];
        let passed = pass(&settings(3, -300, 0, 1_000), -200, &fleet, &mut requests).unwrap();
        assert_eq!((passed, requests), (Passed { need: 100, changed: true, rule: 6 }, [0, -450]));
    }

    #[test]
    fn an_exhausted_fleet_stops() {
        let mut fleet = half_full(&[1_000, 1_000], &[1, 1]);
        fleet.reserve = vec![300, 700];
        let mut requests = [5, 0];
        let passed = pass(&settings(1, 0, 20, 1_000), 0, &fleet, &mut requests).unwrap();
        assert_eq!((passed, requests), (Passed { need: 0, changed: true, rule: 4 }, [0, 0]));
        let passed = pass(&settings(1, 0, 20, 1_000), 1, &fleet, &mut requests).unwrap();
        assert_eq!((passed, requests), (Passed { need: 1, changed: false, rule: 4 }, [0, 0]));
        fleet.reserve = vec![300, 699];
        let passed = pass(&settings(1, 0, 20, 1_000), 1, &fleet, &mut requests).unwrap();
        assert_eq!(passed.rule, 5);

        fleet.stored = vec![1_000, 1_000];
        let mut requests = [0, -5];
        let passed = pass(&settings(3, 0, 20, 1_000), 0, &fleet, &mut requests).unwrap();
        assert_eq!((passed, requests), (Passed { need: 0, changed: true, rule: 4 }, [0, 0]));
        fleet.stored = vec![1_000, 999];
        let passed = pass(&settings(3, 0, 20, 1_000), -1, &fleet, &mut requests).unwrap();
        assert_eq!(passed.rule, 5);
    }

    /// Seven units, of which one is at its reserve (full, where they charge): all seven share, six are asked.
    #[test]
    fn a_depleted_unit_counts_and_is_not_asked() {
        let answers: [(i64, [i32; 7]); 4] = [
            (707, [601, 601, 601, 601, 0, 601, 601]),
            (-350, [450, 450, 450, 450, 0, 450, 450]),
            (-3_499, [1, 1, 1, 1, 0, 1, 1]),
            (-3_500, [0; 7]),
        ];
        for (need, asked) in answers {
            let mut fleet = half_full(&[1_000; 7], &[1; 7]);
            fleet.stored[4] = 100;
            let mut requests = [500; 7];
            let passed = pass(&settings(1, 0, 0, 1_000), need, &fleet, &mut requests).unwrap();
            assert_eq!((passed.need, passed.rule, requests), (need, 6, asked));
            fleet.stored[4] = 1_000;
            let mut requests = [-500; 7];
            let passed = pass(&settings(3, 0, 0, 1_000), -need, &fleet, &mut requests).unwrap();
            assert_eq!((passed.need, passed.rule, requests), (-need, 6, asked.map(|r| -r)));
        }
    }

    /// Where the pass ends before the shares, a depleted unit keeps what it was asked for.
    #[test]
    fn a_depleted_unit_is_let_go_by_the_shares_alone() {
        let mut fleet = half_full(&[1_000; 2], &[1; 2]);
        fleet.stored[0] = 99;
        let mut requests = [30, 40];
        let passed = pass(&settings(1, 0, 20, 1_000), 10, &fleet, &mut requests).unwrap();
        assert_eq!((passed, requests), (Passed { need: 10, changed: false, rule: 5 }, [30, 40]));
        let mut requests = [-30, -40];
        let passed = pass(&settings(1, 0, 0, 1_000), 70, &fleet, &mut requests).unwrap();
        assert_eq!((passed, requests), (Passed { need: 0, changed: false, rule: 3 }, [-30, -40]));
        let passed = pass(&settings(1, 0, 0, 1_000), 200, &fleet, &mut requests).unwrap();
        assert_eq!((passed, requests), (Passed { need: 130, changed: true, rule: 6 }, [0, 25]));
    }

    /// The settling law, sentence by sentence, over what the reference's passes leave.
    #[test]
    fn the_settling_law() {
        let mut draw = Draw::from_seed(54);
        let (mut depleted, mut settled) = (0, 0);
        for _ in 0..3_000 {
            let call = fleets::study_call(6, 60, &mut draw);
            let fleet = &call.fleet;
            let above = |i: usize| fleet.stored[i] > fleet.reserve[i];
            let total = |list: &[u64]| list.iter().sum::<u64>();
            let target = i64::from(call.target);
            if total(&fleet.stored) <= total(&fleet.reserve) || call.load <= target {
                continue;
            }
            let weights: i64 = fleet.weight.iter().map(|&weight| i64::from(weight)).sum();
            let ratings: i64 =
                (0..fleet.rating.len()).filter(|&i| above(i)).map(|i| i64::from(fleet.rating[i])).sum();
            let mut requests = vec![0; fleet.rating.len()];
            let mut changing = 0;
            for _ in 0..call.budget {
                let before = requests.clone();
                let gap = call.load - before.iter().map(|&r| i64::from(r)).sum::<i64>() - target;
                assert!(gap >= 0);
                let settings = settings(1, call.target, call.band, call.factor);
                let passed = pass(&settings, gap + target, fleet, &mut requests).unwrap();
                changing += i64::from(passed.changed);
                assert!(changing <= call.load - target && changing <= ratings);
                for i in 0..requests.len() {
                    assert!(before[i] <= requests[i] && i64::from(requests[i]) <= i64::from(fleet.rating[i]));
                    if !above(i) {
                        depleted += 1;
                        assert_eq!(requests[i], 0);
                        continue;
                    }
                    let below = requests[i] < fleet.rating[i] as i32;
                    for j in (0..requests.len()).filter(|&j| above(j) && fleet.weight[j] <= fleet.weight[i]) {
                        assert!(!below || requests[j] <= requests[i]);
                    }
                    let share = i128::from(gap) * i128::from(fleet.weight[i]) * i128::from(call.factor);
                    let done = 2 * gap <= call.band.into() || !below || share < i128::from(weights) * 1_000;
                    assert!(passed.changed || done);
                }
                if !passed.changed {
                    settled += 1;
                    break;
                }
            }
        }
        assert!(depleted > 1_000 && settled > 500, "{depleted} depleted, {settled} settled");
    }

    /// Numbers by hand: what a current is to each unit, F behind the conversion, rules 3 and 5 for every unit, a band
    /// that is cut to nothing, and the need that is reported.
    #[test]
    fn passes_by_current() {
        for (mut call, (need, changed, rule, requests)) in currents::figure_passes() {
            assert_eq!(call.pass(), Ok(Passed { need, changed, rule }), "{call:?}");
            assert_eq!(call.pass.requests, requests, "{call:?}");
        }
    }

    /// What each unit goes by, where the fleet runs against the mode: 10 A less the 5,000 W that it takes.
    #[test]
    fn the_power_of_the_fleet_is_added_to_each_units_watts() {
        let goal = |mode, measure, requests: &[i32]| {
            let call = currents::figure_call(mode, [20_000, 9, 0], [0, 0], [(1, 230), (3, 10_000)]);
            Goal::of_current(&call.pass.settings, measure, &call.units, requests)
        };
        let of = |need, first, second| Goal { need, own: vec![(first, 2), (second, 270)] };
        assert_eq!(goal(4, 30_000, &[-2_000, -3_000]), of(10_000, -2_700, 295_000));
        assert_eq!(goal(4, 30_000, &[0, 0]), of(10_000, 2_300, 300_000));
        assert_eq!(goal(4, 30_000, &[2_000, 3_000]), of(10_000, 2_300, 300_000));
        assert_eq!(goal(5, 10_000, &[2_000, 3_000]), of(-10_000, 2_700, -295_000));
        assert_eq!(goal(5, 10_000, &[-2_000, -3_000]), of(-10_000, -2_300, -300_000));
    }

    /// 400 kA above the target and 100 kA below it, at three phases of 40 kV; beside what 64 units take or give against
    /// the mode, and without.
    #[test]
    fn the_largest_needs_of_a_unit() {
        let mut low = currents::figure_call(5, [100_000_000, 0, 0], [0, 0], [(3, 40_000); 2]);
        low.resize([64; 8], &mut Draw::from_seed(0));
        low.pass.fleet.rating.fill(100_000_000);
        let high = low.with_pass(|call| {
            call.settings.mode = 4;
            (call.settings.target, call.measure) = (-100_000_000, 300_000_000);
        });
        let of = |call: &CurrentCall, request: i32| {
            let mut call = call.with_pass(|call| call.requests.fill(request));
            let PassCall { settings, measure, requests, .. } = &call.pass;
            let own = Goal::of_current(settings, *measure, &call.units, requests).own[63].0;
            let need = call.pass().map(|passed| passed.need);
            assert!(call.pass.requests.windows(2).all(|two| two[0] == two[1]));
            (own, need, call.pass.requests[0])
        };
        let most = 100_000_000;
        assert_eq!(of(&low, 0), (-12_000_000_000, Ok(-100_000_000), -most));
        assert_eq!(of(&low, most), (-5_600_000_000, Ok(-100_000_000), 0));
        assert_eq!(of(&high, 0), (48_000_000_000, Ok(400_000_000), most));
        assert_eq!(of(&high, -most), (41_600_000_000, Ok(400_000_000), most));
    }

    /// At one phase of 1,000 V a milliampere is a watt: a pass by current is then one by power.
    #[test]
    fn a_milliampere_at_a_thousand_volts_is_a_watt() {
        let mut draw = Draw::from_seed(55);
        let mut met = [0; 7];
        for _ in 0..30_000 {
            let mut call = currents::pass_call(5, &mut draw);
            call.units.phases.fill(1);
            call.units.volts.fill(1_000);
            let mut by_power =
                call.pass.with(|call| call.settings.mode = [1, 3][usize::from(call.settings.mode) - 4]);
            let added = Goal::of_current(&call.pass.settings, 0, &call.units, &call.pass.requests).own[0].0
                + i64::from(call.pass.settings.target);
            let passed = pass(&by_power.settings, by_power.measure, &by_power.fleet, &mut by_power.requests);
            let expected = passed.map(|passed| Passed { need: passed.need - added, ..passed });
            assert_eq!(call.pass(), expected, "{call:?}");
            assert_eq!(call.pass.requests, by_power.requests);
            met[usize::from(expected.unwrap().rule)] += 1;
        }
        assert!(met[3..].iter().all(|&count| count > 1_000), "{met:?}");
    }

    /// Charging by current is discharging mirrored, where no unit is at its reserve or full: the negatives of measure,
    /// target and requests leave the negatives. As no current is below zero, no pass can be handed such a measure; the
    /// rules are asked for it past its range.
    #[test]
    fn charging_by_current_is_the_mirror_image_of_discharging() {
        let mut draw = Draw::from_seed(57);
        let mut met = [0; 7];
        for _ in 0..20_000 {
            let mut call = currents::pass_call(6, &mut draw);
            call.pass.fleet = half_full(&call.pass.fleet.rating, &call.pass.fleet.weight);
            let PassCall { settings, measure, ref fleet, ref requests } = call.pass;
            let made = |settings: Settings, measure, mut requests: Vec<i32>| {
                let goal = Goal::of_current(&settings, measure, &call.units, &requests);
                (accepted_pass(&settings, &goal, fleet, &mut requests), requests)
            };
            let negated = |requests: &[i32]| requests.iter().map(|&request| -request).collect::<Vec<_>>();
            let mirrored = Settings { mode: 9 - settings.mode, target: -settings.target, ..settings };
            let (passed, left) = made(settings, measure, requests.clone());
            let (image, image_left) = made(mirrored, -measure, negated(requests));
            assert_eq!(image, Passed { need: -passed.need, ..passed }, "{call:?}");
            assert_eq!(image_left, negated(&left), "{call:?}");
            assert_eq!((call.pass(), &call.pass.requests), (Ok(passed), &left));
            met[usize::from(passed.rule)] += 1;
        }
        assert!([3, 5, 6].iter().all(|&rule| met[rule] > 3_000) && met[4] == 0, "{met:?}");
    }

    fn refused_current(mut call: CurrentCall) -> Option<u32> {
        let before = call.pass.requests.clone();
        let number = call.pass().err();
        assert!(number.is_none() || call.pass.requests == before);
        number
    }

    #[test]
    fn refusals_of_a_pass_by_current() {
        let mut draw = Draw::from_seed(56);
        for _ in 0..200 {
            let call = currents::pass_call(5, &mut draw);
            let unit = draw.below(call.pass.requests.len() as u64) as usize;
            assert_eq!(refused_current(call.clone()), None);
            for end in currents::ENDS {
                assert_eq!(refused_current(call.with(|call| end(call, unit))), None);
            }
            for spoil in currents::BAD_VALUES {
                let bad = call.with(|call| spoil(call, unit));
                assert_eq!(refused_current(bad.clone()), Some(5));
                // A wrong value comes before a wrong request.
                assert_eq!(
                    refused_current(bad.with_pass(|call| fleets::BAD_REQUEST[0](call, unit))),
                    Some(5)
                );
            }
            for end in fleets::FLEET_ENDS {
                assert_eq!(refused_current(call.with_pass(|call| call.fleet_value(end, unit))), None);
            }
            for spoil in fleets::BAD_FLEET {
                assert_eq!(refused_current(call.with_pass(|call| spoil(&mut call.fleet, unit))), Some(5));
            }
            for spoil in fleets::BAD_REQUEST {
                assert_eq!(refused_current(call.with_pass(|call| spoil(call, unit))), Some(10));
            }
            for lengths in fleets::bad_lengths(call.pass.requests.len(), &mut draw) {
                let mut call = call.with(|call| call.pass.measure = -1);
                call.resize(lengths, &mut draw);
                assert_eq!(refused_current(call), Some(10), "{lengths:?}");
            }
            // A mode of one kind is none of the other's.
            for mode in [4, 5] {
                let mut other = call.pass.with(|call| call.settings.mode = mode);
                let refused = pass(&other.settings, other.measure, &other.fleet, &mut other.requests);
                assert_eq!(refused, Err(5));
            }
        }
    }

    fn refused_pass(mut call: PassCall) -> Option<u32> {
        let before = call.requests.clone();
        let number = pass(&call.settings, call.measure, &call.fleet, &mut call.requests).err();
        assert!(number.is_none() || call.requests == before);
        number
    }

    fn refused_study(mut call: StudyCall) -> Option<u32> {
        let before = call.requests.clone();
        let number = call.settle().err();
        assert!(number.is_none() || call.requests == before);
        number
    }

    #[test]
    fn values_are_refused_beside_the_ends_of_their_ranges_and_not_at_them() {
        let mut draw = Draw::from_seed(51);
        for _ in 0..200 {
            let call = fleets::pass_call(5, &mut draw);
            let unit = draw.below(call.requests.len() as u64) as usize;
            assert_eq!(refused_pass(call.clone()), None);
            for end in fleets::PASS_ENDS {
                assert_eq!(refused_pass(call.with(end)), None);
            }
            for spoil in fleets::BAD_PASS {
                assert_eq!(refused_pass(call.with(spoil)), Some(5));
            }
            for end in fleets::FLEET_ENDS {
                assert_eq!(refused_pass(call.with(|call| call.fleet_value(end, unit))), None);
            }
            for spoil in fleets::BAD_FLEET {
                assert_eq!(refused_pass(call.with(|call| spoil(&mut call.fleet, unit))), Some(5));
            }
            for spoil in fleets::BAD_REQUEST {
                assert_eq!(refused_pass(call.with(|call| spoil(call, unit))), Some(10));
            }

            let call = fleets::study_call(5, 20, &mut draw);
            let unit = draw.below(call.requests.len() as u64) as usize;
            assert_eq!(refused_study(call.clone()), None);
            for end in fleets::STUDY_ENDS {
                assert_eq!(refused_study(call.with(end)), None);
            }
            for spoil in fleets::BAD_STUDY {
                assert_eq!(refused_study(call.with(spoil)), Some(5));
            }
            for end in fleets::FLEET_ENDS {
                assert_eq!(refused_study(call.with(|call| end(&mut call.fleet, unit))), None);
            }
            for spoil in fleets::BAD_FLEET {
                assert_eq!(refused_study(call.with(|call| spoil(&mut call.fleet, unit))), Some(5));
            }
        }
    }

    #[test]
    fn lengths_come_first_then_values_then_requests() {
        let mut draw = Draw::from_seed(52);
        for _ in 0..200 {
            let call = fleets::pass_call(5, &mut draw);
            let study = fleets::study_call(5, 20, &mut draw);
            for lengths in fleets::bad_lengths(call.requests.len(), &mut draw) {
                let mut call = call.clone();
                call.settings.mode = 0;
                call.resize(lengths, &mut draw);
                assert_eq!(refused_pass(call), Some(10), "{lengths:?}");
            }
            for lengths in fleets::bad_lengths(study.requests.len(), &mut draw) {
                let mut study = study.clone();
                study.load = -1;
                study.resize(lengths, &mut draw);
                assert_eq!(refused_study(study), Some(10), "{lengths:?}");
            }
            for spoil in fleets::BAD_REQUEST {
                let mut call = call.with(|call| spoil(call, 0));
                call.measure = 300_000_001;
                assert_eq!(refused_pass(call), Some(5));
            }
        }
    }

    /// A study's measure stays within what a pass may be handed, so that a pass by hand says the same.
    #[test]
    fn a_study_is_its_passes() {
        let mut draw = Draw::from_seed(53);
        for _ in 0..2_000 {
            let mut call = fleets::study_call(6, 60, &mut draw);
            let mut requests = vec![0; call.requests.len()];
            let settings = settings(1, call.target, call.band, call.factor);
            let mut changes = Vec::new();
            for _ in 0..call.budget {
                let fleet_power: i64 = requests.iter().map(|&request| i64::from(request)).sum();
                let passed = pass(&settings, call.load - fleet_power, &call.fleet, &mut requests).unwrap();
                changes.push(passed.changed);
                if !passed.changed {
                    break;
                }
            }
            let passes = changes.iter().filter(|&&changed| changed).count() as u32;
            let settled = changes.last() == Some(&false);
            assert_eq!(call.settle(), Ok(Study { settled, passes }));
            assert_eq!(call.requests, requests);
        }
    }
}
