//! The solar inverter: its values, the weather, and one step of it.

use crate::curve::{Curve, EFF, WARM};
use crate::ranges::{ARRAY, CUT_IN, IRRADIANCE, KVA, LIMIT, ON, PRIORITY, VAR_REQUEST};
use crate::reading::watts;
use crate::whole::largest_leg;
use crate::{LISTS_OR_REQUESTS, OUT_OF_RANGE, READING_NOT_USABLE};

/// An inverter's values, in the order of its fields.
#[derive(Clone, Debug, PartialEq, Eq)]
pub struct Inverter {
    /// The rated power of the array in watts.
    pub array: u32,
    /// The kVA rating S in VA.
    pub kva: u32,
    /// Parts in 10,000 of S: above it the inverter turns on.
    pub cut_in: u16,
    /// Parts in 10,000 of S: below it the inverter turns off.
    pub cut_out: u16,
    /// Parts in 10,000 of the array power.
    pub limit: u16,
    pub var_request: i32,
    /// 0 watt, 1 var.
    pub priority: u8,
    /// The factor of DC power over the temperature.
    pub warm: Curve,
    /// The efficiency over DC power per kVA.
    pub eff: Curve,
}

/// Irradiance in kW/m² and temperature in °C, held together as one record.
#[derive(Clone, Copy, Debug)]
pub struct Weather {
    pub irradiance: f64,
    pub temperature: f64,
}

/// A weather in whole thousandths.
#[derive(Clone, Copy, Debug, PartialEq, Eq)]
pub struct Sun {
    /// From 0.
    pub irradiance: i32,
    pub temperature: i32,
}

/// What a step leaves: whether the inverter is on, the watts and the vars that it gives, and the DC power in watts.
#[derive(Clone, Copy, Debug, PartialEq, Eq)]
pub struct Produced {
    pub on: bool,
    pub watts: i32,
    pub vars: i32,
    pub dc: u64,
}

/// The weather of a step that has none.
pub const DARK: Sun = Sun { irradiance: 0, temperature: 0 };

impl Weather {
    /// Both doubles by the rule for phase powers; an irradiance is below zero, or is not, after the conversion.
    pub fn converted(self) -> Result<Sun, u32> {
        let sun = Sun { irradiance: watts(self.irradiance)?, temperature: watts(self.temperature)? };
        if !IRRADIANCE.contains(&sun.irradiance) {
            return Err(READING_NOT_USABLE);
        }
        Ok(sun)
    }
}

impl Inverter {
    /// The values without the curves.
    pub fn plate_in_range(&self) -> bool {
        ARRAY.contains(&self.array)
            && KVA.contains(&self.kva)
            && CUT_IN.contains(&self.cut_in)
            && self.cut_out <= self.cut_in
            && LIMIT.contains(&self.limit)
            && VAR_REQUEST.contains(&self.var_request)
            && PRIORITY.contains(&self.priority)
    }

    pub fn in_range(&self) -> bool {
        self.plate_in_range() && self.warm.in_range(&WARM) && self.eff.in_range(&EFF)
    }

    /// The array's power in a sun.
    pub fn dc(&self, sun: Sun) -> u64 {
        let lit = u128::from(self.array) * wide(sun.irradiance.into()) / 1_000;
        let dc = lit * wide(self.warm.at(sun.temperature.into())) / 10_000;
        u64::try_from(dc).expect("DC power is at most twice the array's times 100,000")
    }

    /// The x at which the efficiency is read, in thousandths of DC power per kVA.
    pub fn per_kva(&self, dc: u64) -> i64 {
        let x = u128::from(dc) * 1_000 / u128::from(self.kva);
        i64::try_from(x).expect("DC power is at most 2 x 10^13")
    }

    /// What the inverter makes of DC power, before the limit and the circle.
    pub fn ac(&self, dc: u64) -> u64 {
        let ac = u128::from(dc) * wide(self.eff.at(self.per_kva(dc))) / 10_000;
        u64::try_from(ac).expect("no more than DC power")
    }

    /// The limit in watts.
    pub fn most_watts(&self) -> u64 {
        u64::from(self.array) * u64::from(self.limit) / 10_000
    }

    /// Whether it is on, where it was on or off before.
    fn on_at(&self, dc: u64, on: bool) -> bool {
        let dc = u128::from(dc) * 10_000;
        let of_kva = |parts: u16| u128::from(parts) * u128::from(self.kva);
        if dc > of_kva(self.cut_in) {
            true
        } else if dc < of_kva(self.cut_out) {
            false
        } else {
            on
        }
    }

    /// One step of an inverter whose values are in their ranges.
    pub fn produce(&self, sun: Sun, on: bool) -> Produced {
        self.produce_asked(sun, on, self.var_request, self.priority)
    }

    /// The same where so many vars are asked with a priority, whatever its own are.
    pub fn produce_asked(&self, sun: Sun, on: bool, var_request: i32, priority: u8) -> Produced {
        let dc = self.dc(sun);
        if !self.on_at(dc, on) {
            return Produced { on: false, watts: 0, vars: 0, dc };
        }
        let v = var_request.unsigned_abs().min(self.kva);
        let mut circle = self.kva;
        if priority == 1 {
            circle = circle.min(largest_leg(self.kva, v));
        }
        let size = self.ac(dc).min(self.most_watts()).min(circle.into());
        let size = u32::try_from(size).expect("watts are within S");
        let vars = v.min(largest_leg(self.kva, size)) as i32;
        Produced { on: true, watts: size as i32, vars: if var_request < 0 { -vars } else { vars }, dc }
    }
}

/// A number that is 0 or more.
fn wide(n: i64) -> u128 {
    u128::try_from(n).expect("no irradiance, factor or efficiency is below zero")
}

/// One step of one inverter that was off, 0, or on, 1. The lists' lengths are tested first, then the values, then
/// the weather.
pub fn step(inverter: &Inverter, weather: Weather, on: u8) -> Result<Produced, u32> {
    if !(inverter.warm.lengths_fit() && inverter.eff.lengths_fit()) {
        return Err(LISTS_OR_REQUESTS);
    }
    if !(inverter.in_range() && ON.contains(&on)) {
        return Err(OUT_OF_RANGE);
    }
    Ok(inverter.produce(weather.converted()?, on == 1))
}

#[cfg(test)]
mod tests {
    use super::*;
    use crate::samples::inverters::{self, document_inverter, SolarCall};
    use crate::samples::{self, Draw};

    fn weather(irradiance: f64, temperature: f64) -> Weather {
        Weather { irradiance, temperature }
    }

    fn produced(on: bool, watts: i32, vars: i32, dc: u64) -> Result<Produced, u32> {
        Ok(Produced { on, watts, vars, dc })
    }

    /// An inverter whose DC power in watts is the irradiance in thousandths, and whose curves are level at 1; it turns
    /// on above 100 W and off below 50 W.
    fn plain() -> Inverter {
        let level = |y| Curve::through(&[(0, y), (1, y)]);
        Inverter {
            array: 1_000,
            kva: 1_000,
            cut_in: 1_000,
            cut_out: 500,
            limit: 10_000,
            var_request: 0,
            priority: 0,
            warm: level(10_000),
            eff: level(10_000),
        }
    }

    /// Document 003's curves: the factor 0.9 at 50 °C, and the efficiency 0.965 at 0.925 of kVA.
    #[test]
    fn the_documents_curves() {
        let inverter = document_inverter();
        let at = |irradiance, temperature| step(&inverter, weather(irradiance, temperature), 0);
        // 30 kW at 25 °C are 0.75 of kVA: 0.93 and 0.04 times 350 of 600, cut.
        assert_eq!(at(0.6, 25.0), produced(true, 28_599, 0, 30_000));
        assert_eq!(at(0.6, 50.0), produced(true, 25_604, 0, 27_000));
        assert_eq!(at(0.6, 0.0), produced(true, 34_678, 0, 36_000));
        assert_eq!(at(0.6, -40.0), at(0.6, 0.0));
        assert_eq!(at(0.6, 100.0), produced(true, 16_799, 0, 18_000));
        assert_eq!(at(0.74, 25.0), produced(true, 35_705, 0, 37_000));
        // At kVA and above it the curve holds its end, and the circle cuts.
        assert_eq!(at(0.8, 25.0), produced(true, 38_800, 0, 40_000));
        assert_eq!(at(1.0, 25.0), produced(true, 40_000, 0, 50_000));
        assert_eq!(inverter.eff.at(inverter.per_kva(37_000)), 9_650);
    }

    #[test]
    fn each_product_is_cut() {
        // 3 W by 0.333 is 0.999, and nothing is left for the factor; 7 by 0.333 is 2, not 2.331, before it.
        let inverter = Inverter { array: 3, cut_in: 0, cut_out: 0, ..plain() };
        assert_eq!(step(&inverter, weather(0.333, 0.0), 0), produced(false, 0, 0, 0));
        let twice = Curve::through(&[(0, 20_000), (1, 20_000)]);
        let inverter = Inverter { array: 7, warm: twice, ..inverter };
        assert_eq!(step(&inverter, weather(0.333, 0.0), 0), produced(true, 4, 0, 4));
        let inverter = Inverter { eff: Curve::through(&[(0, 9_999), (1, 9_999)]), ..inverter };
        assert_eq!(step(&inverter, weather(0.333, 0.0), 0), produced(true, 3, 0, 4));
        let inverter = Inverter { limit: 4_285, ..inverter };
        assert_eq!(step(&inverter, weather(0.333, 0.0), 0), produced(true, 2, 0, 4));
        // The x of the efficiency: 999 W of 1,000 VA are 0.999, and 1,999 W of 2,000 VA too.
        let stair = Curve::through(&[(999, 1_000), (1_000, 2_000)]);
        for (kva, dc, ac) in [(1_000, 999, 99), (1_000, 1_000, 200), (2_000, 1_999, 199), (2_000, 2_000, 400)]
        {
            assert_eq!(Inverter { kva, eff: stair.clone(), ..plain() }.ac(dc), ac);
        }
    }

    #[test]
    fn cut_in_and_cut_out() {
        let inverter = plain();
        let on = |dc: i64, before| {
            let made = step(&inverter, weather(inverters::thousandths(dc), 20.0), before).unwrap();
            assert_eq!((made.dc, made.watts), (dc as u64, if made.on { dc.min(1_000) as i32 } else { 0 }));
            made.on
        };
        // At cut-in exactly nothing turns on, and one watt above it does.
        assert_eq!([99, 100, 101].map(|dc| on(dc, 0)), [false, false, true]);
        assert_eq!([99, 100, 101].map(|dc| on(dc, 1)), [true, true, true]);
        // Between the two it stays as it was, and so it does at cut-out; one watt below that it turns off.
        assert_eq!([49, 50, 51, 75].map(|dc| on(dc, 0)), [false; 4]);
        assert_eq!([49, 50, 51, 75].map(|dc| on(dc, 1)), [false, true, true, true]);
        assert_eq!([0, 2_000].map(|dc| on(dc, 1)), [false, true]);
    }

    /// No rounding: a cut-in of a part of a watt.
    #[test]
    fn cut_in_is_not_rounded() {
        let inverter = Inverter { kva: 999, cut_in: 1_001, cut_out: 1_001, ..plain() };
        // 99.9999 W.
        let on = |dc, before| step(&inverter, weather(inverters::thousandths(dc), 0.0), before).unwrap().on;
        assert_eq!([on(99, 0), on(99, 1), on(100, 0), on(100, 1)], [false, false, true, true]);
    }

    #[test]
    fn an_inverter_with_no_cut_out_stays_on_in_the_dark() {
        let inverter = Inverter { cut_in: 0, cut_out: 0, var_request: -300, ..plain() };
        assert_eq!(step(&inverter, weather(0.0, 0.0), 0), produced(false, 0, 0, 0));
        assert_eq!(step(&inverter, weather(0.001, 0.0), 0), produced(true, 1, -300, 1));
        assert_eq!(step(&inverter, weather(0.0, 0.0), 1), produced(true, 0, -300, 0));
        assert_eq!(inverter.produce(DARK, true), step(&inverter, weather(-0.0001, -50.0), 1).unwrap());
    }

    #[test]
    fn limits() {
        let at = |limit| {
            let inverter = Inverter { array: 1_001, kva: 2_000, limit, ..plain() };
            step(&inverter, weather(1.0, 0.0), 0).unwrap().watts
        };
        assert_eq!([0, 1, 9, 10, 5_000, 9_999, 10_000].map(at), [0, 0, 0, 1, 500, 1_000, 1_001]);
        // An inverter that may give nothing is on all the same, and gives its vars.
        let inverter = Inverter { limit: 0, var_request: 700, ..plain() };
        assert_eq!(step(&inverter, weather(1.0, 0.0), 0), produced(true, 0, 700, 1_000));
    }

    #[test]
    fn the_circle_by_either_priority() {
        let at = |var_request, priority, irradiance| {
            let inverter = Inverter { var_request, priority, ..plain() };
            let made = step(&inverter, weather(irradiance, 0.0), 0).unwrap();
            (made.watts, made.vars)
        };
        assert_eq!(at(-600, 0, 0.9), (900, -435));
        assert_eq!(at(-600, 1, 0.9), (800, -600));
        assert_eq!(at(600, 1, 0.5), (500, 600));
        assert_eq!(at(1_001, 0, 2.0), (1_000, 0));
        assert_eq!(at(1_001, 1, 2.0), (0, 1_000));
        assert_eq!(at(-100_000_000, 1, 2.0), (0, -1_000));
    }

    #[test]
    fn a_falling_curve_is_cut_toward_its_left_point() {
        let warm = Curve::through(&[(0, 10_000), (30, 9_999)]);
        let inverter = Inverter { array: 10_000, warm, ..plain() };
        let dc = |temperature| step(&inverter, weather(1.0, temperature), 0).unwrap().dc;
        assert_eq!([0.0, 0.001, 0.029, 0.03, 1.0].map(dc), [10_000, 10_000, 10_000, 9_999, 9_999]);
    }

    #[test]
    fn a_weather_is_converted_as_powers_are() {
        let sun = |irradiance, temperature| weather(irradiance, temperature).converted();
        assert_eq!(sun(0.0625, -0.0625), Ok(Sun { irradiance: 62, temperature: -62 }));
        assert_eq!(sun(-0.0001, 1e5), Ok(Sun { irradiance: 0, temperature: 100_000_000 }));
        assert_eq!(sun(-0.0, -1e5), Ok(Sun { irradiance: 0, temperature: -100_000_000 }));
        assert_eq!(sun(1e5, -0.0), Ok(Sun { irradiance: 100_000_000, temperature: 0 }));
        // What rounds to one thousandth below zero is below zero.
        assert_eq!([sun(-0.0005, 0.0), sun(-0.001, 0.0), sun(-1e5, 0.0)], [Err(6); 3]);
        assert_eq!([sun(100_000.062_5, 0.0), sun(0.0, 100_000.062_5), sun(0.0, -100_000.062_5)], [Err(6); 3]);
        for bits in samples::nans().into_iter().chain([f64::INFINITY, f64::NEG_INFINITY].map(f64::to_bits)) {
            let r = f64::from_bits(bits);
            assert_eq!([sun(r, 0.0), sun(0.0, r), sun(r, r)], [Err(6); 3]);
        }
    }

    /// The most that there can be.
    #[test]
    fn the_largest_inverter_in_the_largest_sun() {
        let twice = Curve::through(&[(0, 20_000), (1, 20_000)]);
        let inverter =
            Inverter { array: 100_000_000, kva: 1, cut_in: 10_000, cut_out: 10_000, warm: twice, ..plain() };
        assert_eq!(step(&inverter, weather(1e5, 0.0), 0), produced(true, 1, 0, 20_000_000_000_000));
        assert_eq!(inverter.per_kva(20_000_000_000_000), 20_000_000_000_000_000);
        let inverter = Inverter { kva: 100_000_000, ..inverter };
        assert_eq!(step(&inverter, weather(1e5, 0.0), 0), produced(true, 100_000_000, 0, 20_000_000_000_000));
    }

    /// What a planner relies on, for each inverter in range, any weather that is not refused, and either state.
    #[test]
    fn the_laws_of_a_step() {
        let mut draw = Draw::from_seed(105);
        let (mut turned_on, mut turned_off) = (0, 0);
        for _ in 0..100_000 {
            let call = inverters::solar_call(&mut draw);
            let SolarCall { inverter, weather, on } = &call;
            let made = call.step().unwrap();
            let square = |n: i32| i128::from(n) * i128::from(n);
            let s = i128::from(inverter.kva);
            assert!(square(made.watts) + square(made.vars) <= s * s, "{call:?}");
            let watts = u64::try_from(made.watts).expect("an inverter takes nothing");
            assert!(watts <= made.dc && watts <= inverter.most_watts() && watts <= inverter.kva.into());
            assert!(made.on || (made.watts, made.vars) == (0, 0));
            // It turns on only above cut-in and off only below cut-out.
            let dc = u128::from(made.dc) * 10_000;
            let of_kva = |parts: u16| u128::from(parts) * u128::from(inverter.kva);
            match (*on == 1, made.on) {
                (false, true) => {
                    turned_on += 1;
                    assert!(dc > of_kva(inverter.cut_in));
                }
                (true, false) => {
                    turned_off += 1;
                    assert!(dc < of_kva(inverter.cut_out));
                }
                (true, true) => assert!(dc >= of_kva(inverter.cut_out)),
                (false, false) => assert!(dc <= of_kva(inverter.cut_in)),
            }
            // More irradiance at the same temperature never gives less.
            let sun = weather.converted().unwrap();
            let more = Sun { irradiance: draw.within(sun.irradiance as u64, 100_000_000) as i32, ..sun };
            assert!(inverter.dc(more) >= made.dc);
        }
        assert!(turned_on > 10_000 && turned_off > 3_000, "{turned_on} {turned_off}");
    }

    #[test]
    fn refusals_come_in_their_order() {
        let mut draw = Draw::from_seed(106);
        for _ in 0..2_000 {
            let call = inverters::solar_call(&mut draw);
            let lengths = inverters::bad_lengths(&call.inverter, &mut draw);
            let lengths = lengths[draw.below(lengths.len() as u64) as usize];
            let bad_value = draw.one_of(&inverters::BAD_PLATES);
            let bad_curve = draw.one_of(&inverters::BAD_EFFS);
            let mut wrong = call.with(|call| call.on = 2);
            wrong.weather = inverters::bad_weather(&mut draw);
            assert_eq!(wrong.with(|call| call.on = 1).step(), Err(6));
            assert_eq!(wrong.step(), Err(5));
            assert_eq!(call.with(bad_curve).step(), Err(5));
            wrong = wrong.with(bad_value).with(bad_curve);
            assert_eq!(wrong.step(), Err(5));
            inverters::resize(&mut wrong.inverter, lengths, &mut draw);
            assert_eq!(wrong.step(), Err(10));
        }
    }
}
