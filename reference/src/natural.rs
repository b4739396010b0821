//! Natural numbers of any length, for exact fractions. Nothing here is quick; everything is plain.

use std::cmp::Ordering;

/// A natural number as 32-bit digits, the lowest first, with no zero digit on top.
#[derive(Clone, Debug, PartialEq, Eq)]
pub struct Natural {
    digits: Vec<u32>,
}

impl Natural {
    pub fn power_of_two(k: u32) -> Natural {
        let mut digits = vec![0; k as usize / 32];
        digits.push(1 << (k % 32));
        Natural { digits }
    }

    /// The number as a `u64`, where it is one.
    pub fn small(&self) -> Option<u64> {
        match *self.digits.as_slice() {
            [] => Some(0),
            [low] => Some(low.into()),
            [low, high] => Some(u64::from(high) << 32 | u64::from(low)),
            _ => None,
        }
    }

    /// The product, digit by digit as on paper.
    pub fn times(&self, other: &Natural) -> Natural {
        let mut digits = vec![0u32; self.digits.len() + other.digits.len()];
        for (i, &a) in self.digits.iter().enumerate() {
            let mut carry = 0u64;
            for (j, &b) in other.digits.iter().enumerate() {
                carry += u64::from(a) * u64::from(b) + u64::from(digits[i + j]);
                digits[i + j] = carry as u32;
                carry >>= 32;
            }
            digits[i + other.digits.len()] = carry as u32;
        }
        Natural { digits }.trimmed()
    }

    /// Quotient and remainder by long division in binary: the dividend's bits come down one at a time.
    ///
    /// # Panics
    ///
    /// If the divisor is 0.
    pub fn divided_by(&self, divisor: &Natural) -> (Natural, Natural) {
        assert!(!divisor.digits.is_empty(), "division by zero");
        let mut quotient = Natural::from(0);
        let mut rest = Natural::from(0);
        for place in (0..32 * self.digits.len()).rev() {
            rest.bring_down(self.digits[place / 32] >> (place % 32) & 1 == 1);
            let goes = rest >= *divisor;
            if goes {
                rest.take_away(divisor);
            }
            quotient.bring_down(goes);
        }
        (quotient, rest)
    }

    /// Twice the number, plus one where `bit` is set.
    fn bring_down(&mut self, bit: bool) {
        let mut carry = u32::from(bit);
        for digit in &mut self.digits {
            let top = *digit >> 31;
            *digit = *digit << 1 | carry;
            carry = top;
        }
        if carry != 0 {
            self.digits.push(carry);
        }
    }

    /// The number less `other`, which is no larger.
    fn take_away(&mut self, other: &Natural) {
        let mut borrow = 0i64;
        for (i, digit) in self.digits.iter_mut().enumerate() {
            let less = other.digits.get(i).copied().unwrap_or(0);
            let left = i64::from(*digit) - i64::from(less) + borrow;
            *digit = left as u32;
            borrow = left >> 32;
        }
        assert_eq!(borrow, 0, "a natural number went below zero");
        self.trim();
    }

    fn trim(&mut self) {
        while self.digits.last() == Some(&0) {
            self.digits.pop();
        }
    }

    fn trimmed(mut self) -> Natural {
        self.trim();
        self
    }
}

impl From<u64> for Natural {
    fn from(n: u64) -> Natural {
        Natural { digits: vec![n as u32, (n >> 32) as u32] }.trimmed()
    }
}

impl PartialOrd for Natural {
    fn partial_cmp(&self, other: &Natural) -> Option<Ordering> {
        Some(self.cmp(other))
    }
}

impl Ord for Natural {
    fn cmp(&self, other: &Natural) -> Ordering {
        let lengths = self.digits.len().cmp(&other.digits.len());
        lengths.then_with(|| self.digits.iter().rev().cmp(other.digits.iter().rev()))
    }
}

#[cfg(test)]
mod tests {
    use super::*;
    use crate::samples::Draw;

    fn wide(n: u128) -> Natural {
        let high = Natural::from((n >> 64) as u64).times(&Natural::power_of_two(64));
        let mut digits = high.digits;
        digits.resize(4, 0);
        digits[0] = n as u32;
        digits[1] = (n >> 32) as u32;
        Natural { digits }.trimmed()
    }

    #[test]
    fn arithmetic_agrees_with_the_machines() {
        let mut draw = Draw::from_seed(21);
        for _ in 0..20_000 {
            let (a, b) = (draw.sized(), draw.sized());
            let (x, y) = (u128::from(a), u128::from(b));
            assert_eq!(Natural::from(a).small(), Some(a));
            assert_eq!(Natural::from(a).cmp(&Natural::from(b)), a.cmp(&b));
            assert_eq!(Natural::from(a).times(&Natural::from(b)), wide(x * y));
            let (n, d) = (x << 64 | y, u128::from(draw.any()) << draw.below(60) | 1);
            assert_eq!(wide(n).divided_by(&wide(d)), (wide(n / d), wide(n % d)));
        }
    }

    #[test]
    fn long_numbers_divide_back() {
        let mut draw = Draw::from_seed(22);
        for k in (0..1_100).step_by(7) {
            let power = Natural::power_of_two(k);
            let factor = Natural::from(draw.any());
            assert_eq!(power.times(&factor).divided_by(&power), (factor, Natural::from(0)));
        }
    }
}
