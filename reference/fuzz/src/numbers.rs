//! The calls that take numbers alone, and an inverter's curves: fresh ones from the reference's samples, and changes of
//! them to values at the ends of their ranges, one beside and far outside.

use crate::case::Case;
use crate::compare::{number_of, Compare, Outcome};
use crate::lent::{Lent, Out};
use crate::surface::*;
use yesbrulka_reference::reading;
use yesbrulka_reference::samples::inverters::{self, SolarCall};
use yesbrulka_reference::samples::units::{self, StepCall};
use yesbrulka_reference::samples::{self, limits, older, Draw};
use yesbrulka_reference::solar::{Inverter, Produced};
use yesbrulka_reference::storage::{Stepped, Unit};

/// Doubles for `yb_watts`, by their bits.
#[derive(Clone, Debug)]
pub struct Doubles(Vec<u64>);

fn double(draw: &mut Draw) -> u64 {
    match draw.below(8) {
        0 => draw.one_of(&samples::corners()),
        1 => draw.one_of(&samples::nans()),
        2 => draw.any(),
        3 => {
            let field = draw.below(2_048);
            samples::with_exponent(field, draw)
        }
        _ => inverters::edge(draw),
    }
}

impl Case for Doubles {
    const KIND: &'static str = "doubles";

    fn fresh(draw: &mut Draw) -> Doubles {
        Doubles((0..32).map(|_| double(draw)).collect())
    }

    fn changed(&self, other: &Doubles, draw: &mut Draw) -> Doubles {
        let change = |bits: &u64| match draw.below(4) {
            0 => draw.one_of(&samples::beside(*bits)),
            1 => bits ^ 1 << draw.below(64),
            2 => draw.one_of(&other.0),
            _ => double(draw),
        };
        Doubles(self.0.iter().map(change).collect())
    }

    fn compare(&self, to: &mut Compare) -> Outcome {
        for &bits in &self.0 {
            let kw = f64::from_bits(bits);
            let mut watts = Out::left();
            let number = unsafe { yb_watts(kw, watts.ptr()) };
            let said = reading::watts(kw);
            to.same("yb_watts", (number, watts), (number_of(&said), Out::said(said.ok())))?;
        }
        Ok(())
    }

    fn smaller(&self) -> Vec<Doubles> {
        let single = |&bits: &u64| Doubles(vec![bits]);
        self.0.iter().filter(|_| self.0.len() > 1).map(single).collect()
    }
}

impl Case for StepCall {
    const KIND: &'static str = "steps";

    fn fresh(draw: &mut Draw) -> StepCall {
        let makers = [units::step_call, limits::step_call, older::step_call];
        draw.one_of(&makers)(draw)
    }

    fn changed(&self, other: &StepCall, draw: &mut Draw) -> StepCall {
        let mut call = *self;
        for _ in 0..1 + draw.below(3) {
            match draw.below(8) {
                0 => draw.one_of(&older::bad_values(call.edition))(&mut call),
                1 => draw.one_of(&units::BAD_REQUESTS)(&mut call),
                2 => {
                    call = within(call, draw);
                    units::set_stores(&mut call, draw);
                }
                3 => call.request = units::either_sign(draw.within(0, 100_000_000), draw),
                4 => call.unit.stored = near(call.unit.stored, draw),
                5 => (call.unit.var_request, call.unit.kva) = (other.unit.var_request, other.unit.kva),
                _ => draw.one_of(&older::ends(call.edition))(&mut call),
            }
        }
        call
    }

    /// The call as it is, in the other editions and in one that is none, and as `yb_step`.
    fn compare(&self, to: &mut Compare) -> Outcome {
        for edition in [1, 2, 3, self.seconds as u8] {
            compare_step_as(&StepCall { edition, ..*self }, to)?;
        }
        compare_step(&StepCall { edition: 1, ..*self }, to)
    }
}

/// The call as it is if it is not refused, else a fresh one: energies are set only of what is in its ranges.
fn within(call: StepCall, draw: &mut Draw) -> StepCall {
    match call.step() {
        Ok(_) => call,
        Err(_) => StepCall::fresh(draw),
    }
}

/// A little more or less, one bit changed, or a number of any length.
fn near(n: u64, draw: &mut Draw) -> u64 {
    match draw.below(4) {
        0 => n.wrapping_add(draw.below(3)).wrapping_sub(1),
        1 => n ^ 1 << draw.below(64),
        2 => draw.sized(),
        _ => n / 2,
    }
}

/// The four out-numbers of a step.
type StepOuts = (Out<i32>, Out<i32>, Out<u64>, Out<u64>);

fn expected_step(call: &StepCall) -> (u32, StepOuts) {
    let said = call.step();
    let of = said.ok();
    let watts = of.map(|Stepped { watts, .. }| watts);
    let outs = (
        Out::said(watts),
        Out::said(of.map(|said| said.vars)),
        Out::said(of.map(|said| said.stored)),
        Out::said(of.map(|said| said.loss)),
    );
    (number_of(&said), outs)
}

fn compare_step_as(call: &StepCall, to: &mut Compare) -> Outcome {
    let StepCall { edition, seconds, unit: Unit { rated, reserve, stored, .. }, request } = *call;
    let Unit { rating, kva, idle_loss, var_request, weight, .. } = call.unit;
    let Unit { inverter, charge, discharge, priority, provide, absorb, .. } = call.unit;
    let mut outs: StepOuts = (Out::left(), Out::left(), Out::left(), Out::left());
    let number = unsafe {
        yb_step_as(
            edition,
            seconds,
            rated,
            reserve,
            stored,
            rating,
            kva,
            idle_loss,
            var_request,
            weight,
            inverter,
            charge,
            discharge,
            priority,
            provide,
            absorb,
            request,
            outs.0.ptr(),
            outs.1.ptr(),
            outs.2.ptr(),
            outs.3.ptr(),
        )
    };
    to.same("yb_step_as", (number, outs), expected_step(call))
}

fn compare_step(call: &StepCall, to: &mut Compare) -> Outcome {
    let StepCall { seconds, unit: Unit { rated, reserve, stored, .. }, request, .. } = *call;
    let Unit { rating, kva, idle_loss, var_request, weight, .. } = call.unit;
    let Unit { inverter, charge, discharge, priority, .. } = call.unit;
    let mut outs: StepOuts = (Out::left(), Out::left(), Out::left(), Out::left());
    let number = unsafe {
        yb_step(
            seconds,
            rated,
            reserve,
            stored,
            rating,
            kva,
            idle_loss,
            var_request,
            weight,
            inverter,
            charge,
            discharge,
            priority,
            request,
            outs.0.ptr(),
            outs.1.ptr(),
            outs.2.ptr(),
            outs.3.ptr(),
        )
    };
    to.same("yb_step", (number, outs), expected_step(call))
}

/// Both lists of either curve are of one length that a curve can have, so that its points can be changed.
fn curves_fit(inverter: &Inverter) -> bool {
    inverter.warm.lengths_fit() && inverter.eff.lengths_fit()
}

impl Case for SolarCall {
    const KIND: &'static str = "inverters";

    fn fresh(draw: &mut Draw) -> SolarCall {
        inverters::solar_call(draw)
    }

    fn changed(&self, other: &SolarCall, draw: &mut Draw) -> SolarCall {
        let mut call = self.clone();
        for _ in 0..1 + draw.below(3) {
            match draw.below(14) {
                _ if !curves_fit(&call.inverter) => return SolarCall::fresh(draw),
                0 => draw.one_of(&inverters::BAD_PLATES)(&mut call),
                1 => draw.one_of(&inverters::BAD_WARMS)(&mut call),
                2 => draw.one_of(&inverters::BAD_EFFS)(&mut call),
                3 => draw.one_of(&inverters::BAD_STATES)(&mut call),
                4 => call.weather = inverters::bad_weather(draw),
                5 | 6 => draw.one_of(&inverters::WEATHER_ENDS)(&mut call),
                7 => call.weather.irradiance = f64::from_bits(inverters::edge(draw)),
                8 => call.weather = inverters::weather(draw),
                9 => call.inverter.eff = other.inverter.eff.clone(),
                10 => {
                    let all = inverters::bad_lengths(&call.inverter, draw);
                    let lengths = draw.one_of(&all);
                    inverters::resize(&mut call.inverter, lengths, draw);
                }
                _ => draw.one_of(&inverters::ENDS)(&mut call),
            }
        }
        call
    }

    /// The call from both states and from the one that it has.
    fn compare(&self, to: &mut Compare) -> Outcome {
        for on in [0, 1, self.on] {
            compare_solar(&SolarCall { on, ..self.clone() }, to)?;
        }
        Ok(())
    }
}

/// The four out-numbers of an inverter's step.
type SolarOuts = (Out<u8>, Out<i32>, Out<i32>, Out<u64>);

fn expected_solar(call: &SolarCall) -> (u32, SolarOuts) {
    let said = call.step();
    let of = said.ok();
    let on = of.map(|Produced { on, .. }| on.into());
    let outs = (
        Out::said(on),
        Out::said(of.map(|said| said.watts)),
        Out::said(of.map(|said| said.vars)),
        Out::said(of.map(|said| said.dc)),
    );
    (number_of(&said), outs)
}

fn compare_solar(call: &SolarCall, to: &mut Compare) -> Outcome {
    let Inverter { array, kva, cut_in, cut_out, limit, var_request, priority, ref warm, ref eff } =
        call.inverter;
    let [wx, wy, ex, ey] = [&warm.x, &warm.y, &eff.x, &eff.y].map(|list| Lent::of(list));
    let (irradiance, temperature) = (call.weather.irradiance, call.weather.temperature);
    let mut outs: SolarOuts = (Out::left(), Out::left(), Out::left(), Out::left());
    let number = unsafe {
        yb_solar(
            array,
            kva,
            cut_in,
            cut_out,
            limit,
            var_request,
            priority,
            wx.ptr(),
            wx.len(),
            wy.ptr(),
            wy.len(),
            ex.ptr(),
            ex.len(),
            ey.ptr(),
            ey.len(),
            irradiance,
            temperature,
            call.on,
            outs.0.ptr(),
            outs.1.ptr(),
            outs.2.ptr(),
            outs.3.ptr(),
        )
    };
    let kept = [wx, wy, ex, ey].iter().all(Lent::kept);
    let (expected, said) = expected_solar(call);
    to.same("yb_solar", (number, outs, kept), (expected, said, true))
}
