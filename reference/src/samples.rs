//! Inputs to try: one generator with a fixed seed, and the doubles where a conversion goes wrong; in modules
//! of their own, the calls of the other functions.

pub mod currents;
pub mod curves;
pub mod fleets;
pub mod inverters;
pub mod limits;
pub mod older;
pub mod roofs;
pub mod seasons;
pub mod sticks;
pub mod units;
pub mod voltages;
pub mod wrecks;

/// The splitmix64 generator: the same numbers from the same seed on every machine.
pub struct Draw(u64);

impl Draw {
    pub fn from_seed(seed: u64) -> Draw {
        Draw(seed)
    }

    /// Any 64 bits.
    pub fn any(&mut self) -> u64 {
        self.0 = self.0.wrapping_add(0x9e37_79b9_7f4a_7c15);
        let mut z = self.0;
        z = (z ^ z >> 30).wrapping_mul(0xbf58_476d_1ce4_e5b9);
        z = (z ^ z >> 27).wrapping_mul(0x94d0_49bb_1331_11eb);
        z ^ z >> 31
    }

    /// A number below `n`, which is not 0. The small lean toward low numbers does no harm here.
    pub fn below(&mut self, n: u64) -> u64 {
        self.any() % n
    }

    /// A number of any length from 0 to 64 bits, each length as likely.
    pub fn sized(&mut self) -> u64 {
        let length = self.below(65) as u32;
        self.any().checked_shr(64 - length).unwrap_or(0)
    }

    /// A number from `low` to `high`: an end, one beside it, any, or any of any smaller length.
    pub fn within(&mut self, low: u64, high: u64) -> u64 {
        let span = high - low;
        match self.below(8) {
            0 => low,
            1 => high,
            2 => low + span.min(1),
            3 => high - span.min(1),
            4 => low + (self.below(span + 1) >> self.below(44)),
            _ => low + self.below(span + 1),
        }
    }

    pub fn one_of<T: Copy>(&mut self, list: &[T]) -> T {
        list[self.below(list.len() as u64) as usize]
    }
}

const SIGN: u64 = 1 << 63;
const INFINITY: u64 = 0x7ff << 52;
const FRACTION: u64 = (1 << 52) - 1;

/// Both signs of each bit pattern.
pub fn both_signs(patterns: &[u64]) -> Vec<u64> {
    patterns.iter().flat_map(|&bits| [bits, bits ^ SIGN]).collect()
}

/// A bit pattern and the two beside it: for a finite double, its neighbours one unit in the last place
/// below and above.
pub fn beside(bits: u64) -> [u64; 3] {
    [bits.wrapping_sub(1), bits, bits.wrapping_add(1)]
}

/// NaN patterns, quiet and signalling, of both signs: each single fraction bit, each run from the
/// bottom and each run from the top.
pub fn nans() -> Vec<u64> {
    let mut found = Vec::new();
    for k in 0..52 {
        found.extend([1 << k, FRACTION >> k, FRACTION & !(FRACTION >> 1 >> k)]);
    }
    both_signs(&found.iter().map(|fraction| INFINITY | fraction).collect::<Vec<_>>())
}

/// Zeros, subnormal ends, infinities, the largest double and the document's figures, each with its
/// neighbours and of both signs.
pub fn corners() -> Vec<u64> {
    let figures =
        [1.5, 0.0625, 0.1875, 1.0 / 2_048.0, 1.0 / 1_024.0, 100_000.0, 100_000.062_5, 0.0005, 0.001, 1.0];
    let mut found = vec![0, 1, FRACTION >> 1, FRACTION, FRACTION + 1, INFINITY - 1, INFINITY];
    found.extend(figures.iter().map(|r: &f64| r.to_bits()));
    both_signs(&found.iter().flat_map(|&bits| beside(bits)).collect::<Vec<_>>())
}

/// A double with the given exponent field: its fraction all 0, all 1, nearly so, or any.
pub fn with_exponent(field: u64, draw: &mut Draw) -> u64 {
    let any = draw.any();
    let fraction = match any >> 60 {
        0 => draw.one_of(&[0, 1, 2, FRACTION, FRACTION - 1, FRACTION >> 1, (FRACTION >> 1) + 1]),
        1 => FRACTION << draw.below(52),
        _ => any,
    };
    (any & SIGN) | field << 52 | (fraction & FRACTION)
}

/// A reading exactly between two watt counts. 1000 r is a whole number and a half only where r is an
/// odd number of sixteenths.
pub fn tie(draw: &mut Draw) -> u64 {
    let most = draw.one_of(&[100, 10_000, 1_600_000]);
    let sixteenths = 2 * draw.below(most / 2) + 1;
    (sixteenths as f64 / 16.0).to_bits() ^ (draw.any() & SIGN)
}

/// The double nearest to a watt count and a half: mostly no tie, but as close to one as doubles come.
pub fn near_tie(draw: &mut Draw) -> u64 {
    let most = draw.one_of(&[10, 1_000, 1_000_000, 100_000_000]);
    ((draw.below(most) as f64 + 0.5) / 1000.0).to_bits() ^ (draw.any() & SIGN)
}

/// A double within a few units in the last place, or within some watts, of the accepted range's ends.
pub fn near_the_end(draw: &mut Draw) -> u64 {
    let ends = [100_000.0f64, 100_000.000_5, 99_999.999_5, 100_000.001, 100_000.062_5];
    let reach = draw.one_of(&[8, 1 << 12, 1 << 26, 1 << 28]);
    let end = draw.one_of(&ends).to_bits();
    (end + draw.below(reach) - reach / 2) ^ (draw.any() & SIGN)
}

/// A double as a meter would send it: within the accepted range, with a few decimals.
pub fn metered(draw: &mut Draw) -> u64 {
    let decimals = draw.one_of(&[1.0, 10.0, 1e3, 1e4, 1e6]);
    let most = draw.one_of(&[100.0, 5_000.0, 100_000.0]) * decimals;
    (draw.below(most as u64 + 1) as f64 / decimals).to_bits() ^ (draw.any() & SIGN)
}

#[cfg(test)]
mod tests {
    use super::*;

    #[test]
    fn nans_are_nans_of_all_four_kinds() {
        let all = nans();
        assert!(all.iter().all(|&bits| f64::from_bits(bits).is_nan()));
        for kind in [0, 1, 1 << 12, 1 << 12 | 1] {
            let of_kind = |bits: u64| bits >> 63 | bits >> 51 << 12 & 1 << 12;
            assert!(all.iter().any(|&bits| of_kind(bits) == kind));
        }
    }

    #[test]
    fn ties_are_ties() {
        let mut draw = Draw::from_seed(41);
        for _ in 0..1_000 {
            let watts = f64::from_bits(tie(&mut draw)) * 1000.0;
            assert_eq!(watts.fract().abs(), 0.5);
        }
    }
}
