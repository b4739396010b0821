//! The site: what a run file says before its steps, and the settling study over it.

use crate::connection::{Connection, Connections};
use crate::controller::{self, Fleet, Passed, Settings, Study};
use crate::solar::Inverter;
use crate::stick;
use crate::storage::Unit;
use crate::volt_var::Function;
use crate::LISTS_OR_REQUESTS;

/// What an accepted file says before its steps.
#[derive(Clone, Debug, PartialEq, Eq)]
pub struct Site {
    pub edition: u8,
    /// The length of every step.
    pub seconds: u32,
    /// From 1 to 64 of them; the first has the number 0.
    pub units: Vec<Unit>,
    pub settings: Settings,
    /// The phase choice of every reading.
    pub phase: u8,
    /// One for each unit, or none at all.
    pub connections: Vec<Connection>,
    /// Up to 64 of them; the first has the number 0.
    pub inverters: Vec<Inverter>,
    /// What leads the vars of all units and inverters, where there is one.
    pub function: Option<Function>,
}

impl Site {
    /// The unit of a number; 10 for a number outside the fleet.
    pub fn unit(&self, number: u32) -> Result<Unit, u32> {
        self.units.get(number as usize).copied().ok_or(LISTS_OR_REQUESTS)
    }

    /// The connection of the unit of a number; 10 for a number outside the fleet, or where the file says none.
    pub fn connection(&self, number: u32) -> Result<Connection, u32> {
        self.connections.get(number as usize).copied().ok_or(LISTS_OR_REQUESTS)
    }

    /// One pass over the site's units as they are now, in its own mode.
    pub fn pass(&self, measure: i64, units: &[Unit], requests: &mut [i32]) -> Result<Passed, u32> {
        let fleet = Fleet::of(units);
        if self.settings.by_current() {
            let connected = Connections::of(&self.connections);
            controller::pass_current(&self.settings, measure, &fleet, &connected, requests)
        } else {
            controller::pass(&self.settings, measure, &fleet, requests)
        }
    }

    /// The settling study over the fleet, with the target, the band and the factor of the settings; in mode 1,
    /// whatever their mode is. The requests become the last ones, or on a refusal stay as they were.
    pub fn study(&self, load: i64, budget: u32, requests: &mut [i32]) -> Result<Study, u32> {
        let Settings { target, band, factor, .. } = self.settings;
        controller::settle(load, target, band, factor, budget, &Fleet::of(&self.units), requests)
    }
}

/// The site of an accepted file, or the number of the check's refusal.
pub fn of(file: &[u8]) -> Result<Site, u32> {
    stick::read(file).map(|run| run.site).map_err(|refused| refused.number)
}

/// The study over a file: the check's refusal comes first, then that of the list's length, then those of the
/// load and the budget.
pub fn study(file: &[u8], load: i64, budget: u32, requests: &mut [i32]) -> Result<Study, u32> {
    of(file)?.study(load, budget, requests)
}

#[cfg(test)]
mod tests {
    use super::*;
    use crate::samples::fleets::{self, figure_study};
    use crate::samples::sticks::{self, whole_case};
    use crate::samples::{currents, Draw};

    #[test]
    fn the_whole_case() {
        let run = whole_case();
        let file = sticks::file(&run);
        let site = of(&file).unwrap();
        assert_eq!(site, run.site);
        assert_eq!((site.edition, site.seconds, site.units.len(), site.phase), (1, 60, 1, 0));
        assert_eq!(site.settings, Settings { mode: 1, target: 0, band: 0, factor: 1_000 });
        assert_eq!(site.unit(0), Ok(run.site.units[0]));
        for number in [1, 2, 63, 64, 255, 256, 1 << 16, 1 << 31, u32::MAX] {
            assert_eq!(site.unit(number), Err(10));
        }
        assert_eq!((of(&file[..9]), of(&file[..10]), of(&[])), (Err(8), Err(1), Err(8)));
    }

    #[test]
    fn every_unit_has_its_number() {
        let mut draw = Draw::from_seed(61);
        for count in 1..=64 {
            let run = sticks::run(count, 1, &mut draw);
            let site = of(&sticks::file(&run)).unwrap();
            let found: Vec<_> = (0..=255).map(|number| site.unit(number)).collect();
            let (there, not) = found.split_at(count);
            assert!(there.iter().zip(&run.site.units).all(|(found, unit)| *found == Ok(*unit)));
            assert!(not.iter().all(|found| *found == Err(10)));
        }
    }

    /// The connections of a file that has them, and of one that has none.
    #[test]
    fn every_connection_has_its_units_number() {
        let mut draw = Draw::from_seed(65);
        for count in 1..=64 {
            let run = currents::run_in(&[1, 2, 3, 4, 5], count, 0, 1, &mut draw);
            let site = of(&sticks::file(&run)).unwrap();
            for number in 0..=255 {
                let expected = run.site.connections.get(number as usize).copied().ok_or(10);
                assert_eq!(site.connection(number), expected);
            }
            let without = of(&sticks::file(&sticks::run(count, 1, &mut draw))).unwrap();
            assert_eq!((without.connection(0), without.connection(count as u32)), (Err(10), Err(10)));
        }
    }

    /// The file's mode does not matter, and neither do its readings.
    #[test]
    fn c1_over_a_file_in_every_mode() {
        let mut draw = Draw::from_seed(62);
        let call = figure_study(10_000);
        for mode in 1..=5 {
            for steps in 0..4 {
                let run = sticks::study_run(&call, steps, &mut draw);
                let run = currents::in_mode(mode, run, &mut draw);
                let mut requests = [7, -7];
                let study = study(&sticks::file(&run), call.load, call.budget, &mut requests);
                assert_eq!((study, requests), (Ok(Study { settled: true, passes: 4 }), [100, 193]));
            }
        }
    }

    #[test]
    fn a_study_over_a_file_is_that_over_its_lists() {
        let mut draw = Draw::from_seed(63);
        for _ in 0..1_000 {
            let mut call = fleets::study_call(64, 20, &mut draw);
            let file = sticks::file(&sticks::study_run(&call, 2, &mut draw));
            let mut requests = call.requests.clone();
            assert_eq!(study(&file, call.load, call.budget, &mut requests), call.settle());
            assert_eq!(requests, call.requests);
        }
    }

    #[test]
    fn the_check_comes_first_then_the_length_then_the_values() {
        let mut draw = Draw::from_seed(64);
        let refused = |file: &[u8], load, budget, length: usize| {
            let mut requests = vec![-5; length];
            let number = study(file, load, budget, &mut requests).err();
            assert!(number.is_none() || requests == vec![-5; length]);
            number
        };
        for count in [1, 2, 63, 64] {
            let file = sticks::file(&sticks::run(count, 1, &mut draw));
            let cut = &file[..file.len() - 1];
            assert_eq!(refused(&file, 0, 1, count), None);
            assert_eq!(refused(&file, 100_000_000, 1, count), None);
            for length in [0, count - 1, count + 1, 65, count + 256] {
                assert_eq!(refused(&file, 0, 1, length), Some(10));
                assert_eq!(refused(&file, -1, 0, length), Some(10));
                assert_eq!(refused(cut, -1, 0, length), Some(1));
            }
            for (load, budget) in [(-1, 1), (100_000_001, 1), (0, 0), (0, 10_001), (i64::MIN, u32::MAX)] {
                assert_eq!(refused(&file, load, budget, count), Some(5));
                assert_eq!(refused(cut, load, budget, count), Some(1));
            }
        }
    }
}
