//! Whole numbers: the two quotients of the rules and the kVA circle's largest leg.

/// The quotient of `a` by `b`, cut toward zero: the sizes are divided and the sign comes back.
///
/// # Panics
///
/// If `b` is 0; no rule divides by it.
pub fn quotient_cut(a: i64, b: u64) -> i64 {
    let size = i128::from(a.unsigned_abs() / b);
    let quotient = if a < 0 { -size } else { size };
    i64::try_from(quotient).expect("a quotient is no larger than what was divided")
}

/// The quotient of `a` by `b`, rounded up; 0 where `b` is 0.
pub fn quotient_up(a: u64, b: u64) -> u64 {
    if b == 0 {
        return 0;
    }
    a / b + u64::from(a % b != 0)
}

/// The largest whole x with x² + y² ≤ S², and 0 where y is above S.
pub fn largest_leg(s: u32, y: u32) -> u32 {
    if y > s {
        return 0;
    }
    let square = |n: u32| u64::from(n) * u64::from(n);
    u32::try_from(root(square(s) - square(y))).expect("a leg is no longer than S")
}

/// The largest whole number whose square is at most `n`, written out by hand as at school: two decimal
/// digits come down at a time, and each digit of the root is tried upward.
fn root(n: u64) -> u64 {
    let mut root = 0u64;
    let mut rest = 0u64;
    for pair in (0..10).rev() {
        rest = rest * 100 + n / 100u64.pow(pair) % 100;
        let mut digit = 0;
        while (20 * root + digit + 1) * (digit + 1) <= rest {
            digit += 1;
        }
        rest -= (20 * root + digit) * digit;
        root = root * 10 + digit;
    }
    root
}

#[cfg(test)]
mod tests {
    use super::*;
    use crate::samples::Draw;

    #[test]
    fn shares_are_cut_toward_zero() {
        assert_eq!(quotient_cut(100, 3), 33);
        assert_eq!(quotient_cut(-100, 3), -33);
        assert_eq!(quotient_cut(-2, 3), 0);
        assert_eq!(quotient_cut(i64::MIN, 1), i64::MIN);
        assert_eq!(quotient_cut(i64::MIN, u64::MAX), 0);
    }

    #[test]
    fn a_cut_quotient_is_the_machines_own() {
        let mut draw = Draw::from_seed(11);
        for _ in 0..100_000 {
            let (a, b) = (draw.any() as i64, 1 + draw.sized() / 4);
            assert_eq!(quotient_cut(a, b), a / b as i64, "{a} by {b}");
        }
    }

    #[test]
    fn a_rounded_up_quotient_is_the_smallest_that_covers() {
        assert_eq!(quotient_up(0, 7), 0);
        assert_eq!(quotient_up(7, 7), 1);
        assert_eq!(quotient_up(8, 7), 2);
        assert_eq!(quotient_up(u64::MAX, 1), u64::MAX);
        assert_eq!(quotient_up(5, 0), 0);
        let mut draw = Draw::from_seed(12);
        for _ in 0..100_000 {
            let (a, b) = (draw.sized(), 1 + draw.sized() / 2);
            let q = u128::from(quotient_up(a, b));
            let (a, b) = (u128::from(a), u128::from(b));
            assert!(q * b >= a && (q == 0 || (q - 1) * b < a), "{a} by {b}");
        }
    }

    #[test]
    fn e1() {
        assert_eq!(largest_leg(5, 3), 4);
        assert_eq!(largest_leg(10, 7), 7);
    }

    #[test]
    fn a_leg_fits_the_circle_and_one_more_does_not() {
        let fits = |x: u64, s: u32, y: u32| {
            let square = |n: u64| u128::from(n) * u128::from(n);
            square(x) + square(y.into()) <= square(s.into())
        };
        let check = |s: u32, y: u32| {
            let x = largest_leg(s, y);
            if y > s {
                assert_eq!(x, 0, "S {s}, y {y}");
            } else {
                assert!(fits(x.into(), s, y) && !fits(u64::from(x) + 1, s, y), "S {s}, y {y}: {x}");
            }
        };
        for s in 0..60 {
            for y in 0..70 {
                check(s, y);
            }
        }
        let mut draw = Draw::from_seed(13);
        for _ in 0..20_000 {
            let s = draw.sized() as u32;
            check(s, draw.sized() as u32);
            check(s, draw.below(u64::from(s) + 1) as u32);
            check(s, s - draw.below(u64::from(s.min(3)) + 1) as u32);
            check(u32::MAX, draw.any() as u32);
        }
    }
}
