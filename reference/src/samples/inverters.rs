//! Calls of an inverter's step: where cut-in, cut-out, a curve, the limit or the kVA circle decides, weather at
//! every edge of its conversion, and calls that are to be refused.

use super::{curves, Draw};
use crate::curve::{Curve, EFF, WARM};
use crate::ranges::{EFF_X, VAR_REQUEST};
use crate::solar::{self, Inverter, Produced, Weather};
use crate::whole::largest_leg;

/// All that one step is handed.
#[derive(Clone, Debug)]
pub struct SolarCall {
    pub inverter: Inverter,
    pub weather: Weather,
    /// 0 off, 1 on, before the step.
    pub on: u8,
}

impl SolarCall {
    /// The same call with a change.
    pub fn with(&self, change: impl Fn(&mut SolarCall)) -> SolarCall {
        let mut call = self.clone();
        change(&mut call);
        call
    }

    /// What the reference says to it.
    pub fn step(&self) -> Result<Produced, u32> {
        solar::step(&self.inverter, self.weather, self.on)
    }

    fn set_cuts(&mut self, cut_in: u16, cut_out: u16) {
        (self.inverter.cut_in, self.inverter.cut_out) = (cut_in, cut_out);
    }
}

/// The inverter that a change to a call leaves.
pub fn with(inverter: &Inverter, change: impl Fn(&mut SolarCall)) -> Inverter {
    let weather = Weather { irradiance: 0.0, temperature: 0.0 };
    SolarCall { inverter: inverter.clone(), weather, on: 0 }.with(change).inverter
}

/// A change to a call.
pub type Change = fn(&mut SolarCall);

/// An inverter's values at the ends of their ranges.
pub const ENDS: [Change; 24] = [
    |call| call.inverter.array = 1,
    |call| call.inverter.array = 100_000_000,
    |call| call.inverter.kva = 1,
    |call| call.inverter.kva = 100_000_000,
    |call| call.set_cuts(0, 0),
    |call| call.set_cuts(10_000, 0),
    |call| call.set_cuts(10_000, 10_000),
    |call| call.inverter.cut_out = 0,
    |call| call.inverter.cut_out = call.inverter.cut_in,
    |call| call.inverter.limit = 0,
    |call| call.inverter.limit = 10_000,
    |call| call.inverter.var_request = -100_000_000,
    |call| call.inverter.var_request = 100_000_000,
    |call| call.inverter.priority = 1 - call.inverter.priority,
    |call| call.inverter.warm.x[0] = -100_000_000,
    |call| *last(&mut call.inverter.warm.x) = 100_000_000,
    |call| call.inverter.warm.y.fill(0),
    |call| call.inverter.warm.y.fill(20_000),
    |call| call.inverter.eff.x[0] = 0,
    |call| *last(&mut call.inverter.eff.x) = 100_000_000,
    |call| call.inverter.eff.y.fill(0),
    |call| call.inverter.eff.y.fill(10_000),
    |call| (call.inverter.warm.y[0], *last(&mut call.inverter.warm.y)) = (0, 20_000),
    |call| (call.inverter.eff.y[0], *last(&mut call.inverter.eff.y)) = (10_000, 0),
];

/// Weather at the ends of its ranges, and both states.
pub const WEATHER_ENDS: [Change; 7] = [
    |call| call.weather.irradiance = 0.0,
    |call| call.weather.irradiance = -0.0001,
    |call| call.weather.irradiance = 100_000.0,
    |call| call.weather.temperature = -100_000.0,
    |call| call.weather.temperature = 100_000.0,
    |call| call.on = 0,
    |call| call.on = 1,
];

/// The values before the curves one beyond the ends of their ranges, and as far as they go.
pub const BAD_PLATES: [Change; 22] = [
    |call| call.inverter.array = 0,
    |call| call.inverter.array = 100_000_001,
    |call| call.inverter.array = 1 << 31,
    |call| call.inverter.array = u32::MAX,
    |call| call.inverter.kva = 0,
    |call| call.inverter.kva = 100_000_001,
    |call| call.inverter.kva = u32::MAX,
    |call| call.inverter.cut_in = 10_001,
    |call| call.set_cuts(10_001, 10_001),
    |call| call.inverter.cut_in = u16::MAX,
    |call| call.inverter.cut_out = call.inverter.cut_in + 1,
    |call| call.set_cuts(0, 1),
    |call| call.set_cuts(9_999, 10_000),
    |call| call.inverter.cut_out = u16::MAX,
    |call| call.inverter.limit = 10_001,
    |call| call.inverter.limit = u16::MAX,
    |call| call.inverter.var_request = -100_000_001,
    |call| call.inverter.var_request = 100_000_001,
    |call| call.inverter.var_request = i32::MIN,
    |call| call.inverter.var_request = i32::MAX,
    |call| call.inverter.priority = 2,
    |call| call.inverter.priority = u8::MAX,
];

/// Points of the temperature curve out of their ranges or out of order.
pub const BAD_WARMS: [Change; 14] = [
    |call| call.inverter.warm.x[0] = -100_000_001,
    |call| call.inverter.warm.x[0] = i32::MIN,
    |call| *last(&mut call.inverter.warm.x) = 100_000_001,
    |call| *last(&mut call.inverter.warm.x) = i32::MAX,
    |call| call.inverter.warm.y[0] = -1,
    |call| *last(&mut call.inverter.warm.y) = -1,
    |call| call.inverter.warm.y[0] = 20_001,
    |call| *last(&mut call.inverter.warm.y) = 20_001,
    |call| call.inverter.warm.y[1] = i32::MIN,
    |call| call.inverter.warm.y[1] = i32::MAX,
    |call| call.inverter.warm.x[1] = call.inverter.warm.x[0],
    |call| call.inverter.warm.x.swap(0, 1),
    |call| *last(&mut call.inverter.warm.x) = last_but_one(&call.inverter.warm.x),
    |call| call.inverter.warm.x.reverse(),
];

/// The same of the efficiency curve.
pub const BAD_EFFS: [Change; 16] = [
    |call| call.inverter.eff.x[0] = -1,
    |call| call.inverter.eff.x[0] = i32::MIN,
    |call| *last(&mut call.inverter.eff.x) = 100_000_001,
    |call| *last(&mut call.inverter.eff.x) = i32::MAX,
    |call| call.inverter.eff.y[0] = -1,
    |call| *last(&mut call.inverter.eff.y) = -1,
    |call| call.inverter.eff.y[0] = 10_001,
    |call| *last(&mut call.inverter.eff.y) = 10_001,
    |call| *last(&mut call.inverter.eff.y) = 20_000,
    |call| call.inverter.eff.y[1] = i32::MIN,
    |call| call.inverter.eff.y[1] = i32::MAX,
    |call| call.inverter.eff.x[1] = call.inverter.eff.x[0],
    |call| call.inverter.eff.x.swap(0, 1),
    |call| *last(&mut call.inverter.eff.x) = last_but_one(&call.inverter.eff.x),
    |call| call.inverter.eff.x.reverse(),
    |call| call.inverter.eff.x.fill(0),
];

/// States that are none.
pub const BAD_STATES: [Change; 3] = [|call| call.on = 2, |call| call.on = 128, |call| call.on = 255];

fn last(list: &mut [i32]) -> &mut i32 {
    list.last_mut().expect("a curve has points")
}

fn last_but_one(list: &[i32]) -> i32 {
    list[list.len() - 2]
}

/// The four lists of a call, in its order: x and y of the temperature curve and of the efficiency curve.
pub fn lists(inverter: &mut Inverter) -> [&mut Vec<i32>; 4] {
    let Inverter { warm, eff, .. } = inverter;
    [&mut warm.x, &mut warm.y, &mut eff.x, &mut eff.y]
}

/// Lengths of the four lists that are to be refused, from the right ones: each list alone of another length, both
/// of a curve empty, of one point or of over 16, and all of them.
pub fn bad_lengths(inverter: &Inverter, draw: &mut Draw) -> Vec<[usize; 4]> {
    let right = [inverter.warm.x.len(), inverter.warm.y.len(), inverter.eff.x.len(), inverter.eff.y.len()];
    let many = 18 + draw.below(100) as usize;
    let mut found = Vec::new();
    for list in 0..4 {
        for length in [0, 1, right[list] - 1, right[list] + 1, 2 * right[list], 17, 32, right[list] + 256] {
            let mut lengths = right;
            lengths[list] = length;
            found.push(lengths);
        }
    }
    for length in [0, 1, 17, many, 256 + right[0]] {
        found.push([length, length, right[2], right[3]]);
        found.push([right[0], right[1], length, length]);
        found.push([length; 4]);
    }
    // Each curve has its x and its y by itself: lengths that only agree across the two do not do.
    found.push([2, 3, 3, 2]);
    found.push([2, 3, 2, 3]);
    found.retain(|lengths| lengths[0] != lengths[1] || lengths[2] != lengths[3] || lengths.iter().any(unfit));
    found
}

fn unfit(length: &usize) -> bool {
    !(2..=16).contains(length)
}

/// Shortens the lists, or goes on with elements of them, or with 0 where there are none.
pub fn resize(inverter: &mut Inverter, lengths: [usize; 4], draw: &mut Draw) {
    for (list, length) in lists(inverter).into_iter().zip(lengths) {
        list.truncate(length);
        while list.len() < length {
            list.push(if list.is_empty() { 0 } else { draw.one_of(list) });
        }
    }
}

/// The number of thousandths nearest to this one that a weather may have, as a double.
pub fn thousandths(n: i64) -> f64 {
    n.clamp(-100_000_000, 100_000_000) as f64 / 1000.0
}

/// Irradiances that are refused, by their bits: no numbers, beyond the end, and below zero once rounded.
pub fn bad_irradiances(draw: &mut Draw) -> Vec<u64> {
    let below = [-0.0005, -0.001, -0.0625, -0.6, -1.0, -99_999.0, -100_000.0, -0.000_500_000_1];
    let mut found = bad_temperatures(draw);
    found.extend(below.map(f64::to_bits));
    found.push(super::tie(draw) | 1 << 63);
    found
}

/// Temperatures that are refused, by their bits: no numbers, and beyond either end.
pub fn bad_temperatures(draw: &mut Draw) -> Vec<u64> {
    super::sticks::bad_powers(draw)
}

/// A weather of which one double is refused, or both are.
pub fn bad_weather(draw: &mut Draw) -> Weather {
    let Weather { irradiance, temperature } = weather(draw);
    let bad_irradiance = f64::from_bits(draw.one_of(&bad_irradiances(&mut Draw::from_seed(0))));
    let bad_temperature = f64::from_bits(draw.one_of(&bad_temperatures(&mut Draw::from_seed(0))));
    match draw.below(5) {
        0 | 1 => Weather { irradiance: bad_irradiance, temperature },
        2 | 3 => Weather { irradiance, temperature: bad_temperature },
        _ => Weather { irradiance: bad_irradiance, temperature: bad_temperature },
    }
}

/// A double at an edge of the conversion, of either sign, accepted or not.
pub fn edge(draw: &mut Draw) -> u64 {
    match draw.below(8) {
        0 => super::tie(draw),
        1 => super::near_tie(draw),
        2 => super::near_the_end(draw),
        3 => {
            let below = [-0.0001, -0.000_499_999_9, -0.0005, 0.000_499_999_9, 0.0005, 0.001, 0.0625, -0.0625];
            draw.one_of(&below.map(f64::to_bits))
        }
        4 => draw.one_of(&[0, 1 << 63, 1, 1 << 63 | 1, 100_000f64.to_bits(), (-100_000f64).to_bits()]),
        5 => {
            let field = draw.below(1_040);
            super::with_exponent(field, draw)
        }
        _ => super::metered(draw),
    }
}

/// The first of these doubles that converts beside a good partner.
fn accepted(mut bits: impl FnMut() -> u64, of: fn(f64) -> Weather) -> f64 {
    loop {
        let r = f64::from_bits(bits());
        if of(r).converted().is_ok() {
            return r;
        }
    }
}

fn irradiance(draw: &mut Draw) -> f64 {
    match draw.below(8) {
        0 => accepted(|| edge(draw), |irradiance| Weather { irradiance, temperature: 0.0 }),
        1 => thousandths(draw.within(0, 100_000_000) as i64),
        2 => 0.0,
        _ => thousandths(draw.below(1_301) as i64),
    }
}

fn temperature(draw: &mut Draw) -> f64 {
    match draw.below(6) {
        0 => accepted(|| edge(draw), |temperature| Weather { irradiance: 0.0, temperature }),
        1 => thousandths(draw.within(0, 200_000_000) as i64 - 100_000_000),
        _ => thousandths(draw.below(110_001) as i64 - 30_000),
    }
}

/// A weather that is not to be refused.
pub fn weather(draw: &mut Draw) -> Weather {
    Weather { irradiance: irradiance(draw), temperature: temperature(draw) }
}

/// An inverter of document 003's curves, and of round numbers.
pub fn document_inverter() -> Inverter {
    Inverter {
        array: 50_000,
        kva: 40_000,
        cut_in: 1_000,
        cut_out: 500,
        limit: 10_000,
        var_request: 0,
        priority: 0,
        warm: curves::document_warm(),
        eff: curves::document_eff(),
    }
}

/// Steps of document 003's curves: at their points and midway, at cut-in and cut-out and one watt beside them, at
/// the limit and in the circle.
pub fn document_steps() -> Vec<SolarCall> {
    let step = |inverter: &Inverter, irradiance, temperature, on| SolarCall {
        inverter: inverter.clone(),
        weather: Weather { irradiance, temperature },
        on,
    };
    let whole = document_inverter();
    let mut found = Vec::new();
    for temperature in [-10.0, 0.0, 12.5, 25.0, 50.0, 75.0, 87.5, 100.0, 120.0] {
        found.push(step(&whole, 0.6, temperature, 0));
    }
    // 25 °C: 50 W of DC power for each W/m². Cut-in is at 4,000 W, cut-out at 2,000 W.
    for on in 0..2 {
        for irradiance in [0.0, 0.039, 0.04, 0.041, 0.06, 0.079, 0.08, 0.081, 0.16, 0.74, 0.8, 1.0] {
            found.push(step(&whole, irradiance, 25.0, on));
        }
    }
    for limit in [0, 1, 5_000, 7_760, 9_999] {
        found.push(step(&Inverter { limit, ..whole.clone() }, 0.8, 25.0, 1));
    }
    for var_request in [-24_000, 24_000, 40_000, -50_000] {
        for priority in 0..2 {
            found.push(step(&Inverter { var_request, priority, ..whole.clone() }, 1.0, 25.0, 0));
        }
    }
    found
}

/// A rating in watts or VA, now and then at an end.
fn power(most: u64, draw: &mut Draw) -> u32 {
    let any = 1 + draw.below(most);
    let ends = draw.within(1, most);
    draw.one_of(&[any, any, any, ends]) as u32
}

/// One below, at, or one above.
fn beside(n: u64, draw: &mut Draw) -> u64 {
    (n + draw.below(3)).saturating_sub(1)
}

/// A call that is not to be refused.
pub fn solar_call(draw: &mut Draw) -> SolarCall {
    let scale = draw.one_of(&[20, 1_000, 100_000, 100_000, 100_000_000]);
    let array = power(scale, draw);
    let kva = match draw.below(4) {
        0 => array,
        1 => beside(array.into(), draw).clamp(1, 100_000_000) as u32,
        2 => 1 + array / 5 * 4,
        _ => power(scale, draw),
    };
    let [one, two] = [(); 2].map(|()| draw.one_of(&[10_000, 10_000, 1_000, 100]));
    let (one, two) = (draw.within(0, one) as u16, draw.within(0, two) as u16);
    let warm = match draw.below(4) {
        0 => curves::document_warm(),
        _ => curves::curve(&WARM, draw),
    };
    let at_warm = thousandths(curves::x_of(&warm, draw));
    let inverter = Inverter {
        array,
        kva,
        cut_in: one.max(two),
        cut_out: one.min(two),
        limit: 10_000,
        var_request: 0,
        priority: draw.below(2) as u8,
        warm,
        eff: Curve::default(),
    };
    let mut weather = weather(draw);
    if draw.below(4) != 0 {
        weather.temperature = at_warm;
    }
    let mut call = SolarCall { inverter, weather, on: draw.below(2) as u8 };
    let dc = call.inverter.dc(weather.converted().expect("a weather that is not refused"));
    if draw.below(5) < 3 {
        set_threshold(&mut call.inverter, dc, draw);
    }
    set_eff(&mut call.inverter, dc, draw);
    set_limit_and_vars(&mut call.inverter, dc, draw);
    call
}

/// Puts cut-in or cut-out at DC power or one watt beside it, if an S does that.
fn set_threshold(inverter: &mut Inverter, dc: u64, draw: &mut Draw) {
    let level = beside(dc, draw);
    let parts = draw.one_of(&[1, 5, 10, 100, 125, 250, 500, 1_000, 2_000, 2_500, 5_000, 10_000]);
    let any = draw.below(u64::from(parts) + 1) as u16;
    let more = parts + draw.below(10_001 - u64::from(parts)) as u16;
    let kva = level * (10_000 / u64::from(parts));
    if (1..=100_000_000).contains(&kva) {
        inverter.kva = kva as u32;
        (inverter.cut_in, inverter.cut_out) =
            draw.one_of(&[(parts, parts), (parts, any), (parts, 0), (more, parts), (10_000, parts)]);
    } else if level <= 1 {
        // No S makes this of a part of it; at 0 W the inverter is at a cut-in or a cut-out of 0.
        (inverter.cut_in, inverter.cut_out) = draw.one_of(&[(0, 0), (more, 0), (parts, 0)]);
    }
}

/// An efficiency curve, mostly with a point where it is read or one beside that.
fn set_eff(inverter: &mut Inverter, dc: u64, draw: &mut Draw) {
    let at = inverter.per_kva(dc) + draw.below(3) as i64 - 1;
    let eff = match draw.below(4) {
        0 => curves::document_eff(),
        _ => curves::curve(&EFF, draw),
    };
    let in_reach = i32::try_from(at).ok().filter(|at| EFF_X.contains(at));
    inverter.eff = match in_reach {
        Some(x) if draw.below(3) != 0 => curves::with_point_at(eff, x, draw),
        _ => eff,
    };
}

/// A limit of nothing, of all, or about what the inverter makes, and vars that meet the circle or do not.
fn set_limit_and_vars(inverter: &mut Inverter, dc: u64, draw: &mut Draw) {
    let ac = inverter.ac(dc);
    let about = (ac.min(u64::from(inverter.array)) * 10_000 / u64::from(inverter.array)).min(10_000);
    let any = draw.within(0, 10_000) as u16;
    let about = beside(about, draw).min(10_000) as u16;
    inverter.limit = draw.one_of(&[0, 10_000, 10_000, 10_000, 10_000, any, about, about]);
    let kva = u64::from(inverter.kva);
    let watts = ac.min(inverter.most_watts()).min(kva) as u32;
    let leg = u64::from(largest_leg(inverter.kva, watts));
    let most = *VAR_REQUEST.end() as u64;
    let vars = match draw.below(8) {
        0 | 1 => 0,
        2 => beside(leg, draw),
        3 => beside(kva, draw),
        4 => draw.within(0, most),
        5 => 2 * kva,
        _ => draw.below(kva + 1),
    };
    inverter.var_request = vars.min(most) as i32 * draw.one_of(&[1, -1]);
}

#[cfg(test)]
mod tests {
    use super::*;

    #[test]
    fn no_call_is_outside_its_ranges() {
        let mut draw = Draw::from_seed(103);
        for _ in 0..30_000 {
            let call = solar_call(&mut draw);
            assert!(call.step().is_ok(), "{call:?}");
        }
        assert!(document_steps().iter().all(|call| call.step().is_ok()));
    }

    /// Each change is to what it says, and the weather's refusals are refused.
    #[test]
    fn the_changes_are_refused_or_not() {
        let mut draw = Draw::from_seed(104);
        for _ in 0..300 {
            let call = solar_call(&mut draw);
            for end in ENDS.iter().chain(&WEATHER_ENDS) {
                assert!(call.with(end).step().is_ok(), "{:?}", call.with(end));
            }
            for spoil in BAD_PLATES.iter().chain(&BAD_WARMS).chain(&BAD_EFFS).chain(&BAD_STATES) {
                assert_eq!(call.with(spoil).step(), Err(5), "{:?}", call.with(spoil));
            }
            for lengths in bad_lengths(&call.inverter, &mut draw) {
                let mut call = call.clone();
                resize(&mut call.inverter, lengths, &mut draw);
                assert_eq!(call.step(), Err(10), "{lengths:?}");
            }
            for bits in bad_irradiances(&mut draw) {
                let irradiance = f64::from_bits(bits);
                assert_eq!(Weather { irradiance, temperature: 1.0 }.converted(), Err(6), "{irradiance:e}");
            }
            for bits in bad_temperatures(&mut draw) {
                let temperature = f64::from_bits(bits);
                assert_eq!(Weather { irradiance: 1.0, temperature }.converted(), Err(6), "{temperature:e}");
            }
            assert_eq!(bad_weather(&mut draw).converted(), Err(6));
        }
    }
}
