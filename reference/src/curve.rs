//! A curve: points whose x rise, and its value at any x.

use std::ops::RangeInclusive;

use crate::ranges::{EFF_X, EFF_Y, POINTS, VOLT_VAR_X, VOLT_VAR_Y, WARM_X, WARM_Y};

/// A curve as two lists, an x and a y for each point. Nothing says that they are of equal length; who reads the
/// curve does.
#[derive(Clone, Debug, Default, PartialEq, Eq)]
pub struct Curve {
    pub x: Vec<i32>,
    pub y: Vec<i32>,
}

/// The ranges that a curve's points have by its kind.
#[derive(Clone, Debug)]
pub struct Kind {
    pub x: RangeInclusive<i32>,
    pub y: RangeInclusive<i32>,
}

/// From the temperature to the factor of DC power.
pub const WARM: Kind = Kind { x: WARM_X, y: WARM_Y };

/// From DC power per kVA to the efficiency.
pub const EFF: Kind = Kind { x: EFF_X, y: EFF_Y };

/// From the voltage to the vars.
pub const VOLT_VAR: Kind = Kind { x: VOLT_VAR_X, y: VOLT_VAR_Y };

impl Curve {
    /// The curve through these points.
    pub fn through(points: &[(i32, i32)]) -> Curve {
        let (x, y) = points.iter().copied().unzip();
        Curve { x, y }
    }

    /// The lists are of one length, and it is a curve's.
    pub fn lengths_fit(&self) -> bool {
        POINTS.contains(&self.x.len()) && self.x.len() == self.y.len()
    }

    /// Every x and y is in the kind's range, and each x is larger than the one before it.
    pub fn in_range(&self, kind: &Kind) -> bool {
        self.x.iter().all(|x| kind.x.contains(x))
            && self.y.iter().all(|y| kind.y.contains(y))
            && self.x.windows(2).all(|pair| pair[0] < pair[1])
    }

    /// The value at an x: straight between two points, the change from the left one cut toward zero, and level
    /// beyond the first and the last.
    ///
    /// # Panics
    ///
    /// If the lists are empty or of unequal length.
    pub fn at(&self, x: i64) -> i64 {
        let wide = |list: &[i32], point: usize| i128::from(list[point]);
        let not_right = self.x.iter().filter(|&&point| i64::from(point) <= x).count();
        let value = match not_right {
            0 => wide(&self.y, 0),
            n if n == self.x.len() => wide(&self.y, n - 1),
            n => {
                let (left, right) = (n - 1, n);
                let rise = wide(&self.y, right) - wide(&self.y, left);
                let run = wide(&self.x, right) - wide(&self.x, left);
                // The machine's quotient is cut toward zero.
                wide(&self.y, left) + rise * (i128::from(x) - wide(&self.x, left)) / run
            }
        };
        i64::try_from(value).expect("a value lies between two y")
    }
}

#[cfg(test)]
mod tests {
    use super::*;
    use crate::samples::{curves, Draw};

    /// Document 003's correction factor over the temperature.
    #[test]
    fn the_documents_temperature_curve() {
        let curve = curves::document_warm();
        assert!(curve.lengths_fit() && curve.in_range(&WARM));
        let at = [0, 25_000, 75_000, 100_000].map(|x| curve.at(x));
        assert_eq!(at, [12_000, 10_000, 8_000, 6_000]);
        // Midway, beyond both ends, and one thousandth of a degree beside a point: a fall of less than one part
        // is none.
        assert_eq!(curve.at(50_000), 9_000);
        assert_eq!([12_500, 87_500].map(|x| curve.at(x)), [11_000, 7_000]);
        assert_eq!([-1, -300_000, i64::MIN].map(|x| curve.at(x)), [12_000; 3]);
        assert_eq!([100_001, 300_000, i64::MAX].map(|x| curve.at(x)), [6_000; 3]);
        assert_eq!([25_001, 25_024, 25_025, 25_049, 25_050].map(|x| 10_000 - curve.at(x)), [0, 0, 1, 1, 2]);
        assert_eq!([24_999, 24_988, 24_987].map(|x| curve.at(x)), [10_001, 10_001, 10_002]);
    }

    /// Document 003's efficiency over DC power per kVA.
    #[test]
    fn the_documents_efficiency_curve() {
        let curve = curves::document_eff();
        assert!(curve.lengths_fit() && curve.in_range(&EFF));
        let at = [100, 200, 400, 1_000].map(|x| curve.at(x));
        assert_eq!(at, [8_600, 9_000, 9_300, 9_700]);
        assert_eq!([150, 300, 700].map(|x| curve.at(x)), [8_800, 9_150, 9_500]);
        assert_eq!(curve.at(925), 9_650);
        // 400 parts over 600 thousandths: cut where they are no whole number.
        assert_eq!([401, 402, 403, 926].map(|x| curve.at(x)), [9_300, 9_301, 9_302, 9_650]);
        assert_eq!([0, 99, -1].map(|x| curve.at(x)), [8_600; 3]);
        assert_eq!([1_001, 20_000_000_000_000_000].map(|x| curve.at(x)), [9_700; 2]);
    }

    /// A fall is cut toward the left point's y, as a rise is, and is never floored.
    #[test]
    fn a_fall_is_cut_toward_zero() {
        let fall = Curve::through(&[(-1, 10), (2, 9)]);
        assert_eq!([-2, -1, 0, 1, 2, 3].map(|x| fall.at(x)), [10, 10, 10, 10, 9, 9]);
        let rise = Curve::through(&[(-1, 9), (2, 10)]);
        assert_eq!([-2, -1, 0, 1, 2, 3].map(|x| rise.at(x)), [9, 9, 9, 9, 10, 10]);
        let steep = Curve::through(&[(0, 20_000), (3, 0)]);
        assert_eq!([0, 1, 2, 3].map(|x| steep.at(x)), [20_000, 13_334, 6_667, 0]);
    }

    #[test]
    fn the_ends_of_the_ranges() {
        let widest = Curve::through(&[(-100_000_000, 0), (100_000_000, 20_000)]);
        assert!(widest.in_range(&WARM) && !widest.in_range(&EFF));
        assert_eq!([-99_990_001, -99_990_000, 0].map(|x| widest.at(x)), [0, 1, 10_000]);
        assert_eq!([99_999_999, 100_000_000].map(|x| widest.at(x)), [19_999, 20_000]);
        let bad_x = [[(-100_000_001, 0), (0, 0)], [(i32::MIN, 0), (0, 0)], [(0, 0), (100_000_001, 0)]];
        let bad_y = [[(0, -1), (1, 0)], [(0, 0), (1, 20_001)], [(0, 0), (1, i32::MIN)]];
        for points in bad_x.into_iter().chain(bad_y) {
            assert!(!Curve::through(&points).in_range(&WARM), "{points:?}");
        }
        for points in
            [[(-1, 0), (9, 9)], [(0, -1), (9, 9)], [(0, 10_001), (9, 9)], [(0, 0), (100_000_001, 0)]]
        {
            assert!(!Curve::through(&points).in_range(&EFF), "{points:?}");
        }
        // The x rise, by one at least.
        assert!(Curve::through(&[(7, 5), (8, 5)]).in_range(&WARM));
        assert!(!Curve::through(&[(7, 5), (7, 5)]).in_range(&WARM));
        assert!(!Curve::through(&[(7, 5), (9, 5), (8, 5)]).in_range(&WARM));
        for points in 0..20 {
            let mut curve = Curve { x: (0..points).collect(), y: vec![3; points as usize] };
            assert_eq!(curve.lengths_fit(), (2..=16).contains(&points));
            curve.y.push(3);
            assert!(!curve.lengths_fit());
        }
    }

    /// At a point its y; between two, between their y; and where no y falls, nothing does.
    #[test]
    fn the_laws_of_a_curve() {
        let mut draw = Draw::from_seed(101);
        let (mut rising, mut falling) = (0, 0);
        for _ in 0..20_000 {
            let kind = if draw.below(2) == 0 { WARM } else { EFF };
            let curve = curves::curve(&kind, &mut draw);
            assert!(curve.lengths_fit() && curve.in_range(&kind));
            for (&x, &y) in curve.x.iter().zip(&curve.y) {
                assert_eq!(curve.at(x.into()), y.into());
            }
            let [one, two] = [(); 2].map(|()| curves::x_of(&curve, &mut draw));
            let (low, high) = (one.min(two), one.max(two));
            for x in [low, high] {
                let left = curve.x.iter().rposition(|&point| i64::from(point) <= x).unwrap_or(0);
                let right = curve.x.iter().position(|&point| i64::from(point) > x).unwrap_or(left);
                let (one, two) = (curve.y[left].min(curve.y[right]), curve.y[left].max(curve.y[right]));
                assert!((i64::from(one)..=i64::from(two)).contains(&curve.at(x)), "{curve:?} at {x}");
            }
            let steps = || curve.y.windows(2);
            if steps().all(|pair| pair[0] <= pair[1]) {
                rising += 1;
                assert!(curve.at(low) <= curve.at(high), "{curve:?} at {low}, {high}");
            }
            if steps().all(|pair| pair[0] >= pair[1]) {
                falling += 1;
                assert!(curve.at(low) >= curve.at(high), "{curve:?} at {low}, {high}");
            }
        }
        assert!(rising > 3_000 && falling > 3_000, "{rising} {falling}");
    }
}
