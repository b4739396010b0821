//! The calls that take the lists of a fleet: passes and studies, fresh ones from the reference's samples, and changes
//! of them to values at the ends of their ranges, one beside and far outside, and to lists of other lengths.

use crate::case::Case;
use crate::compare::{number_of, Compare, Outcome};
use crate::lent::{Lent, Out};
use crate::surface::*;
use yesbrulka_reference::controller::{self, Fleet, Passed, Settings, Study};
use yesbrulka_reference::ranges::UNITS;
use yesbrulka_reference::samples::currents::{self, CurrentCall};
use yesbrulka_reference::samples::fleets::{self, PassCall, StudyCall};
use yesbrulka_reference::samples::Draw;

/// The lists of a fleet, lent.
struct LentFleet {
    rated: Lent<u64>,
    reserve: Lent<u64>,
    stored: Lent<u64>,
    rating: Lent<u32>,
    weight: Lent<u16>,
}

impl LentFleet {
    fn of(fleet: &Fleet) -> LentFleet {
        let Fleet { rated, reserve, stored, rating, weight } = fleet;
        LentFleet {
            rated: Lent::of(rated),
            reserve: Lent::of(reserve),
            stored: Lent::of(stored),
            rating: Lent::of(rating),
            weight: Lent::of(weight),
        }
    }

    fn kept(&self) -> bool {
        let joules = [&self.rated, &self.reserve, &self.stored].iter().all(|list| list.kept());
        joules && self.rating.kept() && self.weight.kept()
    }
}

/// All lists are as long as the requests, and there are some: a unit of them can be changed.
fn lists_fit(fleet: &Fleet, requests: &[i32]) -> bool {
    let Fleet { rated, reserve, stored, rating, weight } = fleet;
    let lengths = [rated.len(), reserve.len(), stored.len(), rating.len(), weight.len()];
    !requests.is_empty() && lengths.iter().all(|&length| length == requests.len())
}

fn any_unit(requests: &[i32], draw: &mut Draw) -> usize {
    draw.below(requests.len() as u64) as usize
}

/// Lengths of lists that are refused.
fn wrong_lengths<const LISTS: usize>(requests: &[i32], draw: &mut Draw) -> [usize; LISTS] {
    let all = fleets::bad_lengths(requests.len(), draw);
    draw.one_of(&all)
}

/// A fleet of few units for the most part: a large one takes its time.
fn few_or_many(draw: &mut Draw) -> usize {
    draw.one_of(&[1, 2, 2, 3, 3, 4, 8, *UNITS.end()])
}

/// A change to a call of a pass by watts.
fn change_pass(call: &mut PassCall, draw: &mut Draw) {
    let unit = any_unit(&call.requests, draw);
    match draw.below(10) {
        0 => draw.one_of(&fleets::BAD_PASS)(call),
        1 => draw.one_of(&fleets::BAD_FLEET)(&mut call.fleet, unit),
        2 => draw.one_of(&fleets::BAD_REQUEST)(call, unit),
        3..=5 => draw.one_of(&fleets::PASS_ENDS)(call),
        6 => call.requests[unit] = call.requests[unit].wrapping_neg(),
        7 => call.measure += draw.below(5) as i64 - 2,
        _ => draw.one_of(&fleets::FLEET_ENDS)(&mut call.fleet, unit),
    }
}

impl Case for PassCall {
    const KIND: &'static str = "passes by watts";

    fn fresh(draw: &mut Draw) -> PassCall {
        let makers = [fleets::pass_call, fleets::beside_call];
        draw.one_of(&makers)(few_or_many(draw), draw)
    }

    fn changed(&self, other: &PassCall, draw: &mut Draw) -> PassCall {
        let mut call = self.clone();
        for _ in 0..1 + draw.below(3) {
            match draw.below(16) {
                _ if !lists_fit(&call.fleet, &call.requests) => return PassCall::fresh(draw),
                0 => call.resize(wrong_lengths(&call.requests, draw), draw),
                1 => call.settings = other.settings,
                _ => change_pass(&mut call, draw),
            }
        }
        call
    }

    /// The call in each of its modes and in its own.
    fn compare(&self, to: &mut Compare) -> Outcome {
        for mode in [1, 2, 3, self.settings.mode] {
            let settings = Settings { mode, ..self.settings };
            compare_pass(&PassCall { settings, ..self.clone() }, to)?;
        }
        Ok(())
    }
}

/// The two out-numbers of a pass.
fn pass_outs(said: Result<Passed, u32>) -> (Out<i64>, Out<u8>) {
    let (need, changed) = said.map_or((None, None), |of| (Some(of.need), Some(of.changed.into())));
    (Out::said(need), Out::said(changed))
}

fn compare_pass(call: &PassCall, to: &mut Compare) -> Outcome {
    let PassCall { settings: Settings { mode, target, band, factor }, measure, ref fleet, ref requests } =
        *call;
    let lists = LentFleet::of(fleet);
    let LentFleet { rated, reserve, stored, rating, weight } = &lists;
    let mut lent = Lent::of(requests);
    let (mut need, mut changed) = (Out::left(), Out::left());
    let number = unsafe {
        yb_pass(
            mode,
            target,
            band,
            factor,
            measure,
            rated.ptr(),
            rated.len(),
            reserve.ptr(),
            reserve.len(),
            stored.ptr(),
            stored.len(),
            rating.ptr(),
            rating.len(),
            weight.ptr(),
            weight.len(),
            lent.mut_ptr(),
            lent.len(),
            need.ptr(),
            changed.ptr(),
        )
    };
    let kept = lists.kept() && lent.guarded();
    let mut expected = requests.clone();
    let said = controller::pass(&call.settings, measure, fleet, &mut expected);
    to.same("yb_pass", (number, (need, changed), kept), (number_of(&said), pass_outs(said), true))?;
    to.also("yb_pass", lent.list(), &expected)
}

impl Case for CurrentCall {
    const KIND: &'static str = "passes by current";

    fn fresh(draw: &mut Draw) -> CurrentCall {
        currents::pass_call(few_or_many(draw), draw)
    }

    fn changed(&self, other: &CurrentCall, draw: &mut Draw) -> CurrentCall {
        let mut call = self.clone();
        for _ in 0..1 + draw.below(3) {
            let PassCall { fleet, requests, .. } = &call.pass;
            if !(lists_fit(fleet, requests) && call.units.lengths_fit(requests.len())) {
                return CurrentCall::fresh(draw);
            }
            let unit = any_unit(requests, draw);
            match draw.below(8) {
                0 => call.resize(wrong_lengths(&call.pass.requests, draw), draw),
                1 => draw.one_of(&currents::BAD_VALUES)(&mut call, unit),
                2 => call.pass.settings = other.pass.settings,
                3 => {
                    let seed = draw.any();
                    call = call.with_pass(|pass| change_pass(pass, &mut Draw::from_seed(seed)));
                }
                _ => draw.one_of(&currents::ENDS)(&mut call, unit),
            }
        }
        call
    }

    /// The call in each of its modes and in its own.
    fn compare(&self, to: &mut Compare) -> Outcome {
        for mode in [4, 5, self.pass.settings.mode] {
            compare_current(self.with(|call| call.pass.settings.mode = mode), to)?;
        }
        Ok(())
    }
}

fn compare_current(mut call: CurrentCall, to: &mut Compare) -> Outcome {
    let Settings { mode, target, band, factor } = call.pass.settings;
    let lists = LentFleet::of(&call.pass.fleet);
    let LentFleet { rated, reserve, stored, rating, weight } = &lists;
    let (phases, volts) = (Lent::of(&call.units.phases), Lent::of(&call.units.volts));
    let mut lent = Lent::of(&call.pass.requests);
    let (mut need, mut changed) = (Out::left(), Out::left());
    let number = unsafe {
        yb_pass_current(
            mode,
            target,
            band,
            factor,
            call.pass.measure,
            rated.ptr(),
            rated.len(),
            reserve.ptr(),
            reserve.len(),
            stored.ptr(),
            stored.len(),
            rating.ptr(),
            rating.len(),
            weight.ptr(),
            weight.len(),
            phases.ptr(),
            phases.len(),
            volts.ptr(),
            volts.len(),
            lent.mut_ptr(),
            lent.len(),
            need.ptr(),
            changed.ptr(),
        )
    };
    let kept = lists.kept() && phases.kept() && volts.kept() && lent.guarded();
    let said = call.pass();
    to.same("yb_pass_current", (number, (need, changed), kept), (number_of(&said), pass_outs(said), true))?;
    to.also("yb_pass_current", lent.list(), &call.pass.requests)
}

/// The two out-numbers of a study.
pub fn study_outs(said: Result<Study, u32>) -> (Out<u8>, Out<u32>) {
    let (settled, passes) = said.map_or((None, None), |of| (Some(of.settled.into()), Some(of.passes)));
    (Out::said(settled), Out::said(passes))
}

impl Case for StudyCall {
    const KIND: &'static str = "studies";

    fn fresh(draw: &mut Draw) -> StudyCall {
        let (most, passes) = (few_or_many(draw), draw.one_of(&[4, 20, 60]));
        fleets::study_call(most, passes, draw)
    }

    fn changed(&self, other: &StudyCall, draw: &mut Draw) -> StudyCall {
        let mut call = self.clone();
        for _ in 0..1 + draw.below(3) {
            if !lists_fit(&call.fleet, &call.requests) {
                return StudyCall::fresh(draw);
            }
            let unit = any_unit(&call.requests, draw);
            match draw.below(12) {
                0 => call.resize(wrong_lengths(&call.requests, draw), draw),
                1 => draw.one_of(&fleets::BAD_STUDY)(&mut call),
                2 => draw.one_of(&fleets::BAD_FLEET)(&mut call.fleet, unit),
                3..=6 => draw.one_of(&fleets::FLEET_ENDS)(&mut call.fleet, unit),
                7 => (call.load, call.target) = (other.load, other.target),
                8 => call.target = (call.load as i32).wrapping_sub(draw.below(9) as i32),
                _ => draw.one_of(&fleets::STUDY_ENDS)(&mut call),
            }
        }
        call
    }

    fn compare(&self, to: &mut Compare) -> Outcome {
        let StudyCall { load, target, band, factor, budget, ref fleet, ref requests } = *self;
        let lists = LentFleet::of(fleet);
        let LentFleet { rated, reserve, stored, rating, weight } = &lists;
        let mut lent = Lent::of(requests);
        let (mut settled, mut passes) = (Out::left(), Out::left());
        let number = unsafe {
            yb_settle(
                load,
                target,
                band,
                factor,
                budget,
                rated.ptr(),
                rated.len(),
                reserve.ptr(),
                reserve.len(),
                stored.ptr(),
                stored.len(),
                rating.ptr(),
                rating.len(),
                weight.ptr(),
                weight.len(),
                lent.mut_ptr(),
                lent.len(),
                settled.ptr(),
                passes.ptr(),
            )
        };
        let kept = lists.kept() && lent.guarded();
        let mut call = self.clone();
        let said = call.settle();
        let due = (number_of(&said), study_outs(said), true);
        to.same("yb_settle", (number, (settled, passes), kept), due)?;
        to.also("yb_settle", lent.list(), &call.requests)
    }
}
