//! Curves: of 2 to 16 points, rising, falling, level or neither, and the x where their rules part.

use super::Draw;
use crate::curve::{Curve, Kind};

/// Document 003's correction factor over the temperature.
pub fn document_warm() -> Curve {
    Curve::through(&[(0, 12_000), (25_000, 10_000), (75_000, 8_000), (100_000, 6_000)])
}

/// Document 003's efficiency over DC power per kVA.
pub fn document_eff() -> Curve {
    Curve::through(&[(100, 8_600), (200, 9_000), (400, 9_300), (1_000, 9_700)])
}

/// A number of a range that may be below zero, as `within` draws it.
fn within(low: i32, high: i32, draw: &mut Draw) -> i32 {
    let span = (i64::from(high) - i64::from(low)) as u64;
    (i64::from(low) + draw.within(0, span) as i64) as i32
}

/// A curve that is not to be refused.
pub fn curve(kind: &Kind, draw: &mut Draw) -> Curve {
    let any = 2 + draw.below(15) as usize;
    let points = draw.one_of(&[2, 2, 3, 4, 4, 5, 15, 16, 16, any, any]);
    let x = rising(kind, points, draw);
    let y = values(kind, points, draw);
    Curve { x, y }
}

/// So many x that rise: over all of the range, over a farm's part of it, or one beside the other.
fn rising(kind: &Kind, points: usize, draw: &mut Draw) -> Vec<i32> {
    let (start, end) = (*kind.x.start(), *kind.x.end());
    let (low, high) = match draw.below(6) {
        0 => (start, end),
        1 => (start, start + 60),
        2 => (end - 60, end),
        3 => (start.max(-40), 40),
        4 => (start.max(-30_000), end.min(90_000)),
        _ => (start.max(0), 1_500),
    };
    let mut found: Vec<i32> = (0..points).map(|_| within(low, high, draw)).collect();
    found.sort_unstable();
    found.dedup();
    // Where some were drawn twice, the rest are the lowest that are not there yet.
    let mut next = low;
    while found.len() < points {
        if let Err(at) = found.binary_search(&next) {
            found.insert(at, next);
        }
        next += 1;
    }
    found
}

fn values(kind: &Kind, points: usize, draw: &mut Draw) -> Vec<i32> {
    let (low, high) = (*kind.y.start(), *kind.y.end());
    let (low, high) = draw.one_of(&[(low, high), (low, high), (high - 12, high), (low, 12), (8_000, 10_000)]);
    let level = within(low, high, draw);
    let mut found: Vec<i32> = (0..points).map(|_| within(low, high, draw)).collect();
    match draw.below(5) {
        0 => found.fill(level),
        1 => found.sort_unstable(),
        2 | 3 => found.sort_unstable_by(|a, b| b.cmp(a)),
        _ => (),
    }
    found
}

/// The curve with a point at this x, which is in its range, in place of another point.
pub fn with_point_at(mut curve: Curve, x: i32, draw: &mut Draw) -> Curve {
    if !curve.x.contains(&x) {
        let points = curve.x.len() as u64;
        curve.x[draw.below(points) as usize] = x;
        curve.x.sort_unstable();
    }
    curve
}

/// An x to read a curve at: a point, one beside it, between two, or beyond all of them.
pub fn x_of(curve: &Curve, draw: &mut Draw) -> i64 {
    let point = i64::from(draw.one_of(&curve.x));
    let (first, last) = (i64::from(curve.x[0]), i64::from(curve.x[curve.x.len() - 1]));
    match draw.below(10) {
        0 | 1 => point,
        2 => point - 1,
        3 => point + 1,
        4 => first - draw.sized().min(1 << 50) as i64,
        5 => last + draw.sized().min(1 << 50) as i64,
        _ => first + draw.below((last - first) as u64 + 1) as i64,
    }
}

#[cfg(test)]
mod tests {
    use super::*;
    use crate::curve::{EFF, VOLT_VAR, WARM};

    #[test]
    fn no_curve_is_outside_its_ranges() {
        let mut draw = Draw::from_seed(102);
        let (mut two, mut sixteen, mut ends) = (0, 0, [0; 4]);
        for _ in 0..20_000 {
            for kind in [WARM, EFF, VOLT_VAR] {
                let x = within(*kind.x.start(), *kind.x.end(), &mut draw);
                let curve = curve(&kind, &mut draw);
                assert!(curve.lengths_fit() && curve.in_range(&kind), "{curve:?}");
                two += u32::from(curve.x.len() == 2);
                sixteen += u32::from(curve.x.len() == 16);
                ends[0] += u32::from(curve.x.contains(kind.x.start()));
                ends[1] += u32::from(curve.x.contains(kind.x.end()));
                ends[2] += u32::from(curve.y.contains(kind.y.start()));
                ends[3] += u32::from(curve.y.contains(kind.y.end()));
                let curve = with_point_at(curve, x, &mut draw);
                assert!(curve.x.contains(&x) && curve.lengths_fit() && curve.in_range(&kind), "{curve:?}");
            }
        }
        assert!(
            two > 5_000 && sixteen > 5_000 && ends.iter().all(|&n| n > 3_000),
            "{two} {sixteen} {ends:?}"
        );
    }
}
