//! Voltage-led vars: the function of a site, and the vars that it requests of a unit and of an inverter in a step.

use crate::curve::{Curve, VOLT_VAR};
use crate::ranges::BASE;
use crate::solar::{Inverter, Produced, Sun};
use crate::storage::{self, Stepped, Unit};
use crate::whole::{largest_leg, quotient_cut};

/// A site's function, which leads all its units and inverters.
#[derive(Clone, Debug, PartialEq, Eq)]
pub struct Function {
    /// 0: S; 1: what the circle leaves after the watts.
    pub base: u8,
    /// From the voltage, in ten-thousandths of per unit, to parts in 10,000 of the base.
    pub curve: Curve,
}

/// One step of one unit that holds a request: the seconds and the edition are the file's.
#[derive(Clone, Copy, Debug)]
pub struct UnitStep<'a> {
    pub edition: u8,
    pub seconds: u32,
    pub unit: &'a Unit,
    pub request: i32,
}

/// One step of one inverter in a sun, which was on or off before.
#[derive(Clone, Copy, Debug)]
pub struct InverterStep<'a> {
    pub inverter: &'a Inverter,
    pub sun: Sun,
    pub on: bool,
}

impl Function {
    pub fn in_range(&self) -> bool {
        BASE.contains(&self.base) && self.curve.in_range(&VOLT_VAR)
    }

    /// The priority that counts: where the base is what the circle leaves, watts come first whatever the own one says.
    pub fn priority(&self, own: u8) -> u8 {
        match self.base {
            0 => own,
            _ => 0,
        }
    }

    /// The vars that it requests at a voltage, of a circle of this S beside the size of an inverter's watts; cut toward
    /// zero.
    pub fn requested(&self, voltage: u16, kva: u32, watts: u32) -> i32 {
        let base = match self.base {
            0 => kva,
            _ => largest_leg(kva, watts),
        };
        let vars = quotient_cut(i64::from(base) * self.curve.at(voltage.into()), 10_000);
        i32::try_from(vars).expect("no more than S")
    }

    /// A unit's step under the function, in a step with a voltage or without one, and the vars requested in it, which
    /// were `last` before. At a voltage the unit is stepped twice: what the first step leaves says the watts, which no
    /// vars change where the base is what these leave, and which do not count where it is S.
    pub fn step_unit(&self, step: UnitStep, voltage: Option<u16>, last: i32) -> (Stepped, i32) {
        let UnitStep { edition, seconds, unit, request } = step;
        let priority = self.priority(unit.priority);
        let asked = |var_request: i32| {
            let unit = Unit { var_request, priority, ..*unit };
            storage::step_as(edition, seconds, &unit, request).expect("values in their ranges")
        };
        let vars = match voltage {
            None => last,
            Some(voltage) => {
                let at_inverter = asked(last).watts + unit.grid_loss(edition) as i32;
                self.requested(voltage, unit.kva, at_inverter.unsigned_abs())
            }
        };
        (asked(vars), vars)
    }

    /// The same of an inverter. One that is off has no watts and gives no vars, and they are requested all the same.
    pub fn step_inverter(&self, step: InverterStep, voltage: Option<u16>, last: i32) -> (Produced, i32) {
        let InverterStep { inverter, sun, on } = step;
        let priority = self.priority(inverter.priority);
        let asked = |var_request: i32| inverter.produce_asked(sun, on, var_request, priority);
        let vars = match voltage {
            None => last,
            Some(voltage) => self.requested(voltage, inverter.kva, asked(last).watts.unsigned_abs()),
        };
        (asked(vars), vars)
    }
}

#[cfg(test)]
mod tests {
    use super::*;
    use crate::samples::inverters::document_inverter;
    use crate::samples::units::figure_unit;
    use crate::samples::voltages::operators_curve;
    use crate::samples::{limits, roofs, units, voltages, Draw};
    use crate::solar::DARK;

    /// A function that asks for the same part of its base at every voltage.
    fn level(base: u8, y: i32) -> Function {
        Function { base, curve: Curve::through(&[(0, y), (20_000, y)]) }
    }

    /// The vars that are requested at 1 per unit, for either base.
    fn both(y: i32, kva: u32, watts: u32) -> [i32; 2] {
        [0, 1].map(|base| level(base, y).requested(10_000, kva, watts))
    }

    #[test]
    fn the_base_is_s_or_what_the_circle_leaves() {
        assert_eq!(both(-5_000, 10_000, 6_000), [-5_000, -4_000]);
        assert_eq!(both(10_000, 10_000, 6_000), [10_000, 8_000]);
        assert_eq!(both(10_000, 1_000, 1_000), [1_000, 0]);
        assert_eq!(both(-10_000, 100_000_000, 0), [-100_000_000; 2]);
        assert_eq!(both(0, 10_000, 6_000), [0, 0]);
    }

    /// Toward zero, whatever the sign of y: 4 x 9,999 are 3.9996, 7 by halves 3.5, and one part of 9,999 is nothing.
    #[test]
    fn vars_are_cut_toward_zero() {
        assert_eq!(both(9_999, 5, 3), [4, 3]);
        assert_eq!(both(-9_999, 5, 3), [-4, -3]);
        assert_eq!(both(5_000, 7, 0), [3, 3]);
        assert_eq!(both(-5_000, 7, 0), [-3, -3]);
        assert_eq!([both(1, 9_999, 0), both(-1, 9_999, 0)], [[0; 2]; 2]);
        assert_eq!([both(1, 10_000, 0), both(-1, 10_000, 0)], [[1; 2], [-1; 2]]);
        assert_eq!([both(3_333, 1, 0), both(-9_999, 1, 0), both(-10_000, 1, 1)], [[0, 0], [0, 0], [-1, 0]]);
    }

    #[test]
    fn voltages_at_the_points_beside_them_and_beyond() {
        let function = Function { base: 0, curve: operators_curve() };
        let at = |voltage| function.requested(voltage, 10_000, 9_999);
        assert_eq!([0, 9_199, 9_200].map(at), [10_000; 3]);
        // A fall of 10,000 over 600: 16.6 for each, cut before it is added.
        assert_eq!([9_201, 9_202, 9_500, 9_799, 9_800].map(at), [9_984, 9_967, 5_000, 17, 0]);
        assert_eq!([10_000, 10_200, 10_201, 10_500, 10_799].map(at), [0, 0, -16, -5_000, -9_983]);
        assert_eq!([10_800, 10_801, 20_000].map(at), [-10_000; 3]);
        assert_eq!([9_500, 10_500].map(|voltage| function.requested(voltage, 1_001, 0)), [500, -500]);
    }

    /// 1,000 VA without losses, that gives 1 W for each joule above its reserve in a step of a second.
    fn plain() -> Unit {
        let all = 10_000;
        Unit {
            kva: 1_000,
            idle_loss: 0,
            inverter: all,
            charge: all,
            discharge: all,
            provide: 1_000,
            absorb: 1_000,
            ..figure_unit(0)
        }
    }

    /// Watts at the grid, vars given and vars requested of a step of a second.
    fn step(
        function: &Function,
        edition: u8,
        unit: &Unit,
        request: i32,
        (voltage, last): (Option<u16>, i32),
    ) -> (i32, i32, i32) {
        let step = UnitStep { edition, seconds: 1, unit, request };
        let (left, vars) = function.step_unit(step, voltage, last);
        (left.watts, left.vars, vars)
    }

    const HERE: (Option<u16>, i32) = (Some(10_000), 77);

    /// The store leaves 600 W of 900: 800 var beside them, and not the 435 beside 900.
    #[test]
    fn the_watts_are_those_that_the_store_leaves() {
        let unit = Unit { stored: figure_unit(600).stored, ..plain() };
        assert_eq!(step(&level(1, -5_000), 1, &unit, 900, HERE), (600, -400, -400));
        assert_eq!(step(&level(0, -5_000), 1, &unit, 900, HERE), (600, -500, -500));
        assert_eq!(step(&level(0, 9_000), 1, &unit, 900, HERE), (600, 800, 900));
        assert_eq!(step(&level(1, 10_000), 1, &unit, -900, HERE), (-900, 435, 435));
    }

    /// At rest the inverter draws 1,000 W of 5,000 VA; in edition 3 they are lost at the grid, and the circle has none.
    #[test]
    fn an_idle_unit_and_a_loss_at_the_grid() {
        let unit = Unit { kva: 5_000, provide: 5_000, absorb: 5_000, idle_loss: 1_000, ..plain() };
        let unit = Unit { stored: unit.reserve, ..unit };
        for edition in 1..=2 {
            assert_eq!(step(&level(1, 10_000), edition, &unit, 0, HERE), (-1_000, 4_898, 4_898));
            assert_eq!(step(&level(0, 10_000), edition, &unit, 0, HERE), (-1_000, 4_898, 5_000));
        }
        assert_eq!(step(&level(1, -10_000), 3, &unit, 0, HERE), (-1_000, -5_000, -5_000));
        let unit = Unit { stored: figure_unit(3_000).stored, ..unit };
        assert_eq!(step(&level(1, -10_000), 3, &unit, 4_000, HERE), (2_000, -4_000, -4_000));
        assert_eq!(step(&level(1, -5_000), 3, &unit, 3_000, HERE), (2_000, -2_000, -2_000));
    }

    /// A unit that gives vars first keeps to it where the base is S, and gives watts first where it is the leg, with a
    /// voltage and without.
    #[test]
    fn the_priority() {
        let unit = Unit { stored: figure_unit(950).stored, priority: 1, ..plain() };
        assert_eq!(step(&level(0, -6_000), 1, &unit, 950, HERE), (800, -600, -600));
        assert_eq!(step(&level(1, -6_000), 1, &unit, 950, HERE), (950, -187, -187));
        assert_eq!(step(&level(0, -6_000), 1, &unit, 950, (None, 600)), (800, 600, 600));
        assert_eq!(step(&level(1, -6_000), 1, &unit, 950, (None, 600)), (950, 312, 600));
        assert_eq!(step(&level(1, 6_000), 1, &unit, -950, (None, -600)), (-950, -312, -600));
    }

    /// Limits of 600 and 300 cut what is given, and the vars that are kept are those requested.
    #[test]
    fn limits_and_what_is_kept() {
        let unit = Unit { idle_loss: 0, ..limits::figure_unit() };
        for base in 0..=1 {
            assert_eq!(step(&level(base, 7_000), 2, &unit, 0, HERE), (0, 600, 700));
            assert_eq!(step(&level(base, -7_000), 2, &unit, 0, HERE), (0, -300, -700));
            assert_eq!(step(&level(base, -7_000), 2, &unit, 0, (None, 700)), (0, 600, 700));
            assert_eq!(step(&level(base, 7_000), 2, &unit, 0, (None, -100_000_000)), (0, -300, -100_000_000));
        }
    }

    /// An inverter of 1,000 VA whose watts are the irradiance in thousandths.
    fn roof() -> Inverter {
        let level = |y| Curve::through(&[(0, y), (1, y)]);
        Inverter {
            array: 1_000,
            kva: 1_000,
            cut_in: 1_000,
            cut_out: 500,
            limit: 10_000,
            var_request: 0,
            priority: 1,
            warm: level(10_000),
            eff: level(10_000),
        }
    }

    #[test]
    fn inverters_on_and_off() {
        let inverter = roof();
        let step = |function: &Function, watts: i32, voltage, last| {
            let sun = Sun { irradiance: watts, temperature: 0 };
            let step = InverterStep { inverter: &inverter, sun, on: false };
            let (made, vars) = function.step_inverter(step, voltage, last);
            (made.on, made.watts, made.vars, vars)
        };
        let here = Some(10_000);
        assert_eq!(step(&level(1, -5_000), 600, here, 7), (true, 600, -400, -400));
        assert_eq!(step(&level(0, -5_000), 600, here, 7), (true, 600, -500, -500));
        // Off: all of S is left, and nothing is given.
        assert_eq!(step(&level(1, -5_000), 100, here, 7), (false, 0, 0, -500));
        assert_eq!(step(&level(0, -5_000), 0, here, 7), (false, 0, 0, -500));
        assert_eq!(step(&level(1, -5_000), 0, None, 7), (false, 0, 0, 7));
        // What was requested while it was off is given once it is on; watts first with base 1, vars first with base 0.
        assert_eq!(step(&level(1, 0), 600, None, -500), (true, 600, -500, -500));
        assert_eq!(step(&level(1, 0), 950, None, -500), (true, 950, -312, -500));
        assert_eq!(step(&level(0, 0), 950, None, -500), (true, 866, -500, -500));
        assert_eq!(step(&level(0, 0), 950, None, 5_000), (true, 0, 1_000, 5_000));
        let off = InverterStep { inverter: &document_inverter(), sun: DARK, on: false };
        assert_eq!(level(1, 10_000).step_inverter(off, here, 0).1, 40_000);
    }

    /// What can be relied on of a unit: its vars are within its limits and its circle, and with base 1 at a voltage
    /// nothing cuts them but its limits.
    #[test]
    fn the_laws_of_a_led_unit() {
        let mut draw = Draw::from_seed(164);
        let mut met = [0; 4];
        for round in 0..120_000 {
            let call = draw.one_of(&[units::step_call, limits::step_call])(&mut draw);
            let units::StepCall { edition, seconds, ref unit, request } = call;
            let (function, last) =
                (voltages::function(&mut draw), draw.below(200_000_001) as i32 - 100_000_000);
            let voltage = (round % 4 != 0).then(|| voltages::voltage(&function.curve, &mut draw));
            let (left, vars) =
                function.step_unit(UnitStep { edition, seconds, unit, request }, voltage, last);
            let own = Unit { var_request: vars, priority: function.priority(unit.priority), ..*unit };
            assert_eq!(storage::step_as(edition, seconds, &own, request), Ok(left), "{call:?}");
            assert!(voltage.is_some() || vars == last);
            let own = own.of_edition(edition);
            let size = |n: i32| i128::from(n) * i128::from(n);
            assert!(size(left.watts) + size(left.vars) <= size(unit.kva as i32), "{call:?}");
            assert!((-i64::from(own.absorb)..=own.provide.into()).contains(&left.vars.into()), "{call:?}");
            if voltage.is_some() && function.base == 1 {
                assert_eq!(left.vars, own.limited_vars(), "{call:?}");
                met[0] += u32::from(left.vars != vars);
                met[1] += u32::from(left.vars < 0);
            }
            met[2] += u32::from(function.base == 0 && left.vars != own.limited_vars());
            met[3] += u32::from(function.base == 1 && unit.priority == 1);
        }
        assert!(met.iter().all(|&count| count > 3_000), "{met:?}");
    }

    /// The same of an inverter, which has no limits of its own.
    #[test]
    fn the_laws_of_a_led_inverter() {
        let mut draw = Draw::from_seed(165);
        let mut met = [0; 3];
        for round in 0..60_000 {
            let (inverter, function) = (roofs::inverter(&mut draw), voltages::function(&mut draw));
            let sun = Sun { irradiance: draw.below(1_500) as i32, temperature: draw.below(60_000) as i32 };
            let on = draw.below(2) == 1;
            let voltage = (round % 4 != 0).then(|| voltages::voltage(&function.curve, &mut draw));
            let step = InverterStep { inverter: &inverter, sun, on };
            let (made, vars) = function.step_inverter(step, voltage, 12_345);
            let own =
                Inverter { var_request: vars, priority: function.priority(inverter.priority), ..inverter };
            assert_eq!(own.produce(sun, on), made);
            let size = |n: i32| i128::from(n) * i128::from(n);
            assert!(size(made.watts) + size(made.vars) <= size(own.kva as i32));
            assert!(voltage.is_some() || vars == 12_345);
            let fits = function.base == 1 && voltage.is_some() && made.on;
            assert!(!fits || made.vars == vars);
            met[0] += u32::from(fits && vars != 0);
            met[1] += u32::from(!made.on && vars != 0);
            met[2] += u32::from(made.on && made.vars != vars);
        }
        assert!(met.iter().all(|&count| count > 2_000), "{met:?}");
    }

    #[test]
    fn bases_and_curves_out_of_their_ranges() {
        assert!(level(0, -10_000).in_range() && level(1, 10_000).in_range());
        assert!(![2, 3, 128, 255].iter().any(|&base| level(base, 0).in_range()));
        assert!(![-10_001, 10_001].iter().any(|&y| level(0, y).in_range()));
        let through = |points: &[(i32, i32)]| Function { base: 0, curve: Curve::through(points) }.in_range();
        assert!(through(&[(0, 0), (1, 0)]) && through(&[(19_999, 0), (20_000, 0)]));
        assert!(!through(&[(-1, 0), (1, 0)]) && !through(&[(0, 0), (20_001, 0)]));
        assert!(!through(&[(5, 0), (5, 0)]) && !through(&[(5, 0), (4, 0)]));
    }
}
