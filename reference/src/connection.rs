//! How the units of a site that buys by current are connected, and the watts that a current is to each of them.

use crate::ranges::{PHASES, VOLTS};
use crate::whole::quotient_cut;

/// How one unit is connected.
#[derive(Clone, Copy, Debug, PartialEq, Eq)]
pub struct Connection {
    /// 1 or 3.
    pub phases: u8,
    /// From phase to neutral.
    pub volts: u16,
}

impl Connection {
    pub fn in_range(&self) -> bool {
        PHASES.contains(&self.phases) && VOLTS.contains(&self.volts)
    }

    /// The watts of a current of so many milliamperes in each phase, cut toward zero.
    pub fn watts(&self, milliamperes: i64) -> i64 {
        quotient_cut(milliamperes * i64::from(self.phases) * i64::from(self.volts), 1_000)
    }
}

/// What a pass knows of the connections of a fleet's units, a list for each quantity. Nothing says that they are of
/// equal length; a pass does.
#[derive(Clone, Debug, Default, PartialEq, Eq)]
pub struct Connections {
    pub phases: Vec<u8>,
    pub volts: Vec<u16>,
}

impl Connections {
    pub fn of(units: &[Connection]) -> Connections {
        Connections {
            phases: units.iter().map(|unit| unit.phases).collect(),
            volts: units.iter().map(|unit| unit.volts).collect(),
        }
    }

    /// The connection of each unit, of lists of equal length.
    pub fn units(&self) -> impl Iterator<Item = Connection> + '_ {
        self.phases.iter().zip(&self.volts).map(|(&phases, &volts)| Connection { phases, volts })
    }

    /// Both lists have this length.
    pub fn lengths_fit(&self, length: usize) -> bool {
        self.phases.len() == length && self.volts.len() == length
    }

    pub fn in_range(&self) -> bool {
        self.units().all(|unit| unit.in_range())
    }
}

#[cfg(test)]
mod tests {
    use super::*;

    fn watts(phases: u8, volts: u16, milliamperes: i64) -> i64 {
        Connection { phases, volts }.watts(milliamperes)
    }

    #[test]
    fn watts_are_cut_toward_zero() {
        assert_eq!([watts(1, 230, 10), watts(1, 230, -10)], [2, -2]);
        assert_eq!([watts(3, 230, 10), watts(3, 230, -10)], [6, -6]);
        assert_eq!([watts(1, 1, 999), watts(1, 1, -999), watts(1, 1, 1_000)], [0, 0, 1]);
        assert_eq!([watts(3, 1, 333), watts(3, 1, 334)], [0, 1]);
        assert_eq!(watts(3, 40_000, 400_000_000), 48_000_000_000);
        assert_eq!(watts(3, 40_000, -100_000_000), -12_000_000_000);
    }

    #[test]
    fn one_or_three_phases_and_some_volts() {
        for phases in 0..=255 {
            let right = phases == 1 || phases == 3;
            assert_eq!(Connection { phases, volts: 230 }.in_range(), right, "{phases}");
        }
        for (volts, right) in [(0, false), (1, true), (40_000, true), (40_001, false), (u16::MAX, false)] {
            assert_eq!(Connection { phases: 3, volts }.in_range(), right, "{volts}");
        }
    }
}
