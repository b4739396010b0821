//! The ranges of the document's quantities, each in its own unit.

use std::ops::RangeInclusive;

/// The units in a fleet.
pub const UNITS: RangeInclusive<usize> = 1..=64;

/// The bytes of a run file.
pub const MOST_BYTES: usize = 2_097_152;

/// The steps of a run file.
pub const MOST_STEPS: u32 = 65_535;

/// The run file's edition.
pub const EDITION: RangeInclusive<u8> = 1..=3;

/// The step length in seconds.
pub const SECONDS: RangeInclusive<u32> = 1..=86_400;

/// Joules.
pub const RATED: RangeInclusive<u64> = 1..=10_000_000_000_000;

/// The power rating R in watts.
pub const RATING: RangeInclusive<u32> = 1..=100_000_000;

/// The kVA rating S in VA.
pub const KVA: RangeInclusive<u32> = 1..=100_000_000;

/// Watts.
pub const IDLE_LOSS: RangeInclusive<u32> = 0..=10_000_000;

pub const VAR_REQUEST: RangeInclusive<i32> = -100_000_000..=100_000_000;

pub const WEIGHT: RangeInclusive<u16> = 1..=10_000;

/// Parts in 10,000, of each of the three efficiencies.
pub const EFFICIENCY: RangeInclusive<u16> = 1_000..=10_000;

/// 0 watt, 1 var.
pub const PRIORITY: RangeInclusive<u8> = 0..=1;

/// 1 PeakShave, 2 Support, 3 PeakShaveLow, 4 I-PeakShave, 5 I-PeakShaveLow.
pub const MODE: RangeInclusive<u8> = 1..=5;

/// The modes of a site that buys by power.
pub const POWER_MODE: RangeInclusive<u8> = 1..=3;

/// The modes of a site that buys by current.
pub const CURRENT_MODE: RangeInclusive<u8> = 4..=5;

/// Watts, or milliamperes in a mode of current.
pub const TARGET: RangeInclusive<i32> = -100_000_000..=100_000_000;

/// Watts, or milliamperes in a mode of current.
pub const BAND: RangeInclusive<u32> = 0..=200_000_000;

/// Thousandths.
pub const FACTOR: RangeInclusive<u16> = 1..=1_000;

/// 0 sum, 1 to 3 that phase, 4 largest, 5 smallest.
pub const PHASE: RangeInclusive<u8> = 0..=5;

/// Watts, of a measure that is handed straight to a pass.
pub const MEASURE: RangeInclusive<i64> = -300_000_000..=300_000_000;

/// Milliamperes, of a measure that is handed straight to a pass in a mode of current.
pub const CURRENT_MEASURE: RangeInclusive<i64> = 0..=300_000_000;

/// Milliamperes of a phase, after the conversion; beyond its end nothing converts.
pub const CURRENT: RangeInclusive<i32> = 0..=100_000_000;

/// The phases that a unit is connected to.
pub const PHASES: [u8; 2] = [1, 3];

/// From phase to neutral.
pub const VOLTS: RangeInclusive<u16> = 1..=40_000;

/// Watts, of the fixed load of a study.
pub const LOAD: RangeInclusive<i64> = 0..=100_000_000;

/// Passes of a study.
pub const BUDGET: RangeInclusive<u32> = 1..=10_000;

/// The inverters of a site.
pub const MOST_INVERTERS: usize = 64;

/// The power of an inverter's array in watts.
pub const ARRAY: RangeInclusive<u32> = 1..=100_000_000;

/// Parts in 10,000 of an inverter's S; a cut-out is from 0 to the cut-in.
pub const CUT_IN: RangeInclusive<u16> = 0..=10_000;

/// Parts in 10,000 of an inverter's array power.
pub const LIMIT: RangeInclusive<u16> = 0..=10_000;

/// 0 off, 1 on.
pub const ON: RangeInclusive<u8> = 0..=1;

/// The points of a curve.
pub const POINTS: RangeInclusive<usize> = 2..=16;

/// A temperature curve's x, in thousandths of °C.
pub const WARM_X: RangeInclusive<i32> = -100_000_000..=100_000_000;

/// A temperature curve's y, in parts in 10,000.
pub const WARM_Y: RangeInclusive<i32> = 0..=20_000;

/// An efficiency curve's x, in thousandths of DC power per kVA.
pub const EFF_X: RangeInclusive<i32> = 0..=100_000_000;

/// An efficiency curve's y, in parts in 10,000.
pub const EFF_Y: RangeInclusive<i32> = 0..=10_000;

/// Thousandths of kW/m², after the conversion; beyond its end nothing converts.
pub const IRRADIANCE: RangeInclusive<i32> = 0..=100_000_000;

/// Thousandths of °C, after the conversion.
pub const TEMPERATURE: RangeInclusive<i32> = -100_000_000..=100_000_000;

/// A volt-var curve's x, in ten-thousandths of per-unit voltage.
pub const VOLT_VAR_X: RangeInclusive<i32> = 0..=20_000;

/// A volt-var curve's y, in parts in 10,000 of the base.
pub const VOLT_VAR_Y: RangeInclusive<i32> = -10_000..=10_000;

/// The base of a function: 0 S, 1 what the circle leaves after the watts.
pub const BASE: RangeInclusive<u8> = 0..=1;

/// The voltage of a step, in ten-thousandths of per unit.
pub const VOLTAGE: RangeInclusive<u16> = 0..=20_000;

/// A unit's three energies: the rated energy in its range, and reserve and stored from 0 to it.
pub fn energies_fit(rated: u64, reserve: u64, stored: u64) -> bool {
    RATED.contains(&rated) && reserve <= rated && stored <= rated
}
