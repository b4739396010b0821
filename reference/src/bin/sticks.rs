//! Writes the sample sticks: `sticks FOLDER`.
//!
//! `season.stick`, `harvest.stick`, `roof.stick`, `vineyard.stick`, `mill.stick`, `dairy.stick` and `voltage.stick` are
//! complete; each of the others is one of these, or one like it, after one thing that happens to sticks;
//! `refused-06-three-faults.stick` after three of them, and `rescued-three-faults.stick` is what a rescue leaves of
//! it. The same files come out every time, so that the gate can compare them with the stored ones.

use std::path::PathBuf;
use std::process::ExitCode;
use std::{env, fs};

use yesbrulka_reference::connection::Connection;
use yesbrulka_reference::controller::Settings;
use yesbrulka_reference::curve::Curve;
use yesbrulka_reference::reading::{Phases, Reading};
use yesbrulka_reference::rescue;
use yesbrulka_reference::samples::sticks::{self, Field};
use yesbrulka_reference::samples::{currents, curves, roofs, voltages};
use yesbrulka_reference::site::Site;
use yesbrulka_reference::solar::{Inverter, Weather};
use yesbrulka_reference::stick::{Run, MISSING};
use yesbrulka_reference::storage::Unit;
use yesbrulka_reference::volt_var::Function;

/// Two weeks of hours.
const STEPS: usize = 14 * 24;

/// Where the readings begin among a season's fields: after the fleet, three units and the settings.
const READINGS: usize = 5;

/// A co-operative of three farms: a dairy with a large battery, a grain store, and a small pump house.
fn season() -> Run {
    let dairy = Unit {
        rated: 720_000_000,
        reserve: 72_000_000,
        stored: 540_000_000,
        rating: 100_000,
        kva: 110_000,
        idle_loss: 350,
        var_request: 20_000,
        weight: 4,
        inverter: 9_650,
        charge: 9_500,
        discharge: 9_500,
        priority: 0,
        provide: 110_000,
        absorb: 110_000,
    };
    let grain = Unit {
        rated: 360_000_000,
        reserve: 54_000_000,
        stored: 180_000_000,
        rating: 50_000,
        kva: 50_000,
        idle_loss: 200,
        var_request: -8_000,
        weight: 2,
        inverter: 9_600,
        charge: 9_400,
        discharge: 9_450,
        priority: 1,
        provide: 50_000,
        absorb: 50_000,
    };
    let pumps = Unit {
        rated: 90_000_000,
        reserve: 9_000_000,
        stored: 90_000_000,
        rating: 15_000,
        kva: 18_000,
        idle_loss: 90,
        var_request: 0,
        weight: 1,
        inverter: 9_400,
        charge: 9_200,
        discharge: 9_200,
        priority: 0,
        provide: 18_000,
        absorb: 18_000,
    };
    Run {
        site: Site {
            edition: 1,
            seconds: 3_600,
            units: vec![dairy, grain, pumps],
            settings: Settings { mode: 1, target: 120_000, band: 6_000, factor: 1_000 },
            phase: 0,
            connections: Vec::new(),
            inverters: Vec::new(),
            function: None,
        },
        readings: (0..STEPS).map(reading).collect(),
        weather: Vec::new(),
        voltages: Vec::new(),
    }
}

/// An hour's reading: milking in the morning and in the evening, the sun at noon, and no meter on the second
/// Tuesday's night and now and then.
fn reading(step: usize) -> Reading {
    let (day, hour) = (step / 24, step % 24);
    if day == 8 && hour < 5 || step % 97 == 41 {
        return Reading::Missing;
    }
    let base = match hour {
        5..=8 => 620,
        9..=10 => 380,
        11..=14 => -140,
        15 => 210,
        16..=19 => 560,
        _ => 190,
    };
    // In tenths of a kW; no two hours are alike, and neither are the phases.
    let kw = |phase: usize| f64::from(base + ((step * 37 + day * 11 + phase * 53) % 90) as i32) / 10.0;
    Reading::Power(Phases { first: kw(0), second: kw(1), third: kw(2) })
}

/// Four farms at harvest, their stores full of the summer's sun: the dairy's large battery, the grain dryer's, a
/// workshop's that gives vars before watts, and a small one at the pumps, which is asked for more than it holds.
fn harvest() -> Run {
    let kwh = 3_600_000;
    let dairy = Unit {
        rated: 2_600 * kwh,
        reserve: 260 * kwh,
        stored: 2_450 * kwh,
        rating: 60_000,
        kva: 66_000,
        idle_loss: 400,
        var_request: 12_000,
        weight: 5,
        inverter: 9_700,
        charge: 9_600,
        discharge: 9_600,
        priority: 0,
        provide: 66_000,
        absorb: 66_000,
    };
    let dryer = Unit {
        rated: 1_600 * kwh,
        reserve: 160 * kwh,
        stored: 1_550 * kwh,
        rating: 30_000,
        kva: 30_000,
        idle_loss: 250,
        var_request: -9_000,
        weight: 3,
        inverter: 9_600,
        charge: 9_500,
        discharge: 9_450,
        priority: 0,
        provide: 30_000,
        absorb: 30_000,
    };
    let workshop = Unit {
        rated: 900 * kwh,
        reserve: 90 * kwh,
        stored: 880 * kwh,
        rating: 12_000,
        kva: 10_000,
        idle_loss: 80,
        var_request: 8_000,
        weight: 2,
        inverter: 9_500,
        charge: 9_300,
        discharge: 9_300,
        priority: 1,
        provide: 10_000,
        absorb: 10_000,
    };
    let pumps = Unit {
        rated: 150 * kwh,
        reserve: 30 * kwh,
        stored: 150 * kwh,
        rating: 15_000,
        kva: 16_000,
        idle_loss: 90,
        var_request: 0,
        weight: 2,
        inverter: 9_400,
        charge: 9_200,
        discharge: 9_200,
        priority: 0,
        provide: 16_000,
        absorb: 16_000,
    };
    Run {
        site: Site {
            edition: 1,
            seconds: 3_600,
            units: vec![dairy, dryer, workshop, pumps],
            settings: Settings { mode: 1, target: 90_000, band: 4_000, factor: 600 },
            phase: 0,
            connections: Vec::new(),
            inverters: Vec::new(),
            function: None,
        },
        readings: (0..STEPS).map(harvest_reading).collect(),
        weather: Vec::new(),
        voltages: Vec::new(),
    }
}

/// An hour of the harvest: peaks at the milkings, a dryer that runs into the night in the second week, and a meter
/// that was silent for one evening, in the middle of a peak, and a few times more.
fn harvest_reading(step: usize) -> Reading {
    let (day, hour) = (step / 24, step % 24);
    if day == 4 && (18..22).contains(&hour) || step % 89 == 7 {
        return Reading::Missing;
    }
    // In tenths of a kW, of all three phases. The meter is behind the batteries: once these give, it shows less.
    let load = match hour {
        6 => 1_330,
        7..=8 => 935,
        17 => 1_420,
        18..=20 => 925,
        9..=16 => 610,
        21..=23 if day >= 7 => 880,
        _ => 450,
    };
    let noise = ((step * 61 + day * 29) % 97) as i32 - 40;
    let kw = |part: i32| f64::from((load + noise) * part / 10) / 100.0;
    Reading::Power(Phases { first: kw(38), second: kw(35), third: kw(27) })
}

/// What a meter sends that has no number to send, and one that has too large a number, by their bits.
const NO_NUMBER: u64 = 0x7FF8_0000_0000_0000;
const INFINITE: u64 = 0x7FF0_0000_0000_0000;

/// Sets the second phase of a reading by its bits.
fn set_second(run: &mut Run, step: usize, bits: u64) {
    match &mut run.readings[step] {
        Reading::Power(phases) | Reading::Current(phases) => phases.second = f64::from_bits(bits),
        Reading::Missing => panic!("step {step} has no phases"),
    }
}

/// The file of these fields after a change.
fn changed(fields: &[Field], change: &dyn Fn(&mut Vec<Field>)) -> Vec<u8> {
    let mut fields = fields.to_vec();
    change(&mut fields);
    sticks::bytes(&fields)
}

/// A day of quarter hours.
const DAY: usize = 96;

/// An orchard co-operative with three roofs: a cold store, a press house and a hall, whose batteries take what the
/// roofs give above the 15 kW that the grid takes.
fn roof() -> Run {
    let kwh = 3_600_000;
    let cold_store = Unit {
        rated: 200 * kwh,
        reserve: 20 * kwh,
        stored: 45 * kwh,
        rating: 60_000,
        kva: 66_000,
        idle_loss: 300,
        var_request: 0,
        weight: 4,
        inverter: 9_700,
        charge: 9_600,
        discharge: 9_600,
        priority: 0,
        provide: 66_000,
        absorb: 66_000,
    };
    let press = Unit {
        rated: 120 * kwh,
        reserve: 12 * kwh,
        stored: 60 * kwh,
        rating: 40_000,
        kva: 40_000,
        idle_loss: 200,
        var_request: 9_000,
        weight: 3,
        inverter: 9_600,
        charge: 9_500,
        discharge: 9_500,
        priority: 0,
        provide: 40_000,
        absorb: 40_000,
    };
    let hall = Unit {
        rated: 25 * kwh,
        reserve: 2 * kwh,
        stored: 20 * kwh,
        rating: 10_000,
        kva: 11_000,
        idle_loss: 60,
        var_request: 0,
        weight: 1,
        inverter: 9_400,
        charge: 9_300,
        discharge: 9_300,
        priority: 0,
        provide: 11_000,
        absorb: 11_000,
    };
    Run {
        site: Site {
            edition: 1,
            seconds: 900,
            units: vec![cold_store, press, hall],
            settings: Settings { mode: 3, target: -15_000, band: 3_000, factor: 700 },
            phase: 0,
            connections: Vec::new(),
            inverters: roof_inverters(),
            function: None,
        },
        readings: (0..DAY).map(roof_reading).collect(),
        weather: (0..DAY).map(roof_weather).collect(),
        voltages: Vec::new(),
    }
}

/// The inverters of the three roofs: the press house's has document 003's curves; the cold store's may give 70 parts in
/// a hundred of its array and absorbs vars; the hall's is small for its array, gives vars before watts, and once on
/// never turns off.
fn roof_inverters() -> Vec<Inverter> {
    let press = Inverter {
        array: 60_000,
        kva: 50_000,
        cut_in: 200,
        cut_out: 100,
        limit: 10_000,
        var_request: 0,
        priority: 0,
        warm: curves::document_warm(),
        eff: curves::document_eff(),
    };
    let cold_store = Inverter {
        array: 90_000,
        kva: 75_000,
        cut_in: 150,
        cut_out: 100,
        limit: 7_000,
        var_request: -12_000,
        priority: 0,
        // Forty parts in 10,000 for each degree.
        warm: Curve::through(&[(-20_000, 11_800), (85_000, 7_600)]),
        eff: Curve::through(&[(50, 9_000), (100, 9_500), (300, 9_760), (500, 9_800), (1_000, 9_750)]),
    };
    let hall = Inverter {
        array: 25_000,
        kva: 17_500,
        cut_in: 300,
        cut_out: 0,
        limit: 10_000,
        var_request: 10_500,
        priority: 1,
        warm: Curve::through(&[(-10_000, 11_300), (25_000, 10_000), (80_000, 7_900)]),
        eff: Curve::through(&[(20, 8_200), (150, 9_500), (1_200, 9_650)]),
    };
    vec![press, cold_store, hall]
}

/// A quarter's value of a day that is told by the hour, in the same unit.
fn between_hours(day: &[i64; 24], step: usize) -> i64 {
    let (hour, quarter) = (step / 4, step as i64 % 4);
    (day[hour] * (4 - quarter) + day[(hour + 1) % 24] * quarter) / 4
}

/// A quarter's reading of a meter that is told by the hour, in hundreds of W of all three phases, of which each has so
/// many parts in a hundred.
fn quarter(meter: &[i64; 24], step: usize, noise: i64, parts: [i64; 3]) -> Reading {
    let watts = between_hours(meter, step) + noise;
    let [first, second, third] = parts.map(|part| (watts * part / 10) as f64 / 100.0);
    Reading::Power(Phases { first, second, third })
}

/// The sun of a clear day by the hour in W/m², and tenths of a degree on the panels.
const SUN: [i64; 24] =
    [0, 0, 0, 0, 0, 12, 95, 210, 380, 560, 730, 860, 940, 960, 910, 790, 620, 420, 220, 70, 4, 0, 0, 0];
const PANELS: [i64; 24] = [
    112, 108, 104, 101, 99, 104, 128, 175, 248, 331, 405, 468, 512, 537, 528, 486, 421, 347, 268, 207, 172,
    150, 134, 121,
];

/// A weather of so many W/m² and tenths of a degree.
fn measured(sun: i64, panels: i64) -> Weather {
    Weather { irradiance: sun as f64 / 1000.0, temperature: panels as f64 / 10.0 }
}

/// A quarter's weather: a clear morning, clouds after noon, and a station that was silent for an hour in the morning
/// and now and then.
fn roof_weather(step: usize) -> Option<Weather> {
    if (38..42).contains(&step) || step % 31 == 17 {
        return None;
    }
    let clouds = if (54..66).contains(&step) { [100, 35, 72, 21, 88][step % 5] } else { 100 };
    Some(measured(between_hours(&SUN, step) * clouds / 100, between_hours(&PANELS, step)))
}

/// A quarter's reading: the meter is behind the roofs, and shows what the co-operative gives at noon as negative. It was
/// silent at the end of the noon break and now and then.
fn roof_reading(step: usize) -> Reading {
    if (50..53).contains(&step) || step % 29 == 5 {
        return Reading::Missing;
    }
    let meter = [
        180, 175, 170, 170, 190, 260, 320, 240, 90, -160, -340, -480, -560, -520, -390, -240, -80, 110, 290,
        380, 330, 270, 220, 190,
    ];
    quarter(&meter, step, (step * 43 % 37) as i64 - 18, [36, 33, 31])
}

/// The complete sticks of the roof's day, and what happened to others like it.
fn roof_examples() -> Vec<(&'static str, u32, Vec<u8>)> {
    let run = roof();
    let fields = sticks::fields(&run);
    let first = roofs::first_inverter(&run);
    let changed = |change: &dyn Fn(&mut Vec<Field>)| changed(&fields, change);
    let with = |change: &dyn Fn(&mut Run)| sticks::file(&sticks::with(&run, change));
    let at_weather = |step: usize, weather| sticks::file(&roofs::with_weather(&run, step, weather));
    vec![
        ("roof.stick", 0, sticks::bytes(&fields)),
        // The cold store's inverter has lost its efficiency curve.
        ("refused-04-curve-missing.stick", 4, changed(&|fields| drop(fields.remove(first + 5)))),
        // Every panel was entered as a roof.
        (
            "refused-04-inverter-too-many.stick",
            4,
            with(&|run| run.site.inverters = vec![run.site.inverters[2].clone(); 65]),
        ),
        // The station wrote once more after the meter had stopped.
        (
            "refused-04-weather-without-reading.stick",
            4,
            changed(&|fields| {
                let weather = roofs::weather_field(Weather { irradiance: 0.0, temperature: 11.2 });
                fields.insert(fields.len() - 1, weather);
            }),
        ),
        // The press house's temperature curve was typed from the hot end.
        (
            "refused-05-curve-out-of-order.stick",
            5,
            with(&|run| {
                run.site.inverters[0].warm.x.reverse();
                run.site.inverters[0].warm.y.reverse();
            }),
        ),
        // Cut-in and cut-out were exchanged.
        (
            "refused-05-cut-out-above-cut-in.stick",
            5,
            with(&|run| (run.site.inverters[1].cut_in, run.site.inverters[1].cut_out) = (100, 150)),
        ),
        // A sensor that is off by some watts in the dark.
        (
            "refused-06-irradiance-below-zero.stick",
            6,
            at_weather(3, Weather { irradiance: -0.004, temperature: 10.8 }),
        ),
        // A broken wire at the panel's thermometer.
        (
            "refused-06-weather-not-usable.stick",
            6,
            at_weather(60, Weather { irradiance: 0.61, temperature: f64::INFINITY }),
        ),
    ]
}

/// A vineyard at the end of a long line, in edition 2: the grid's operator says how many vars each battery may provide
/// and absorb. The cellar's gives vars before watts, and is asked to absorb more than it may; the press's is asked to
/// provide more than it may; the pumps' may only provide; and the store's has no limit below its S. On the press house
/// is a roof.
fn vineyard() -> Run {
    let kwh = 3_600_000;
    let cellar = Unit {
        rated: 240 * kwh,
        reserve: 24 * kwh,
        stored: 210 * kwh,
        rating: 40_000,
        kva: 44_000,
        idle_loss: 220,
        var_request: -30_000,
        weight: 4,
        inverter: 9_700,
        charge: 9_600,
        discharge: 9_600,
        priority: 1,
        provide: 20_000,
        absorb: 12_000,
    };
    let press = Unit {
        rated: 90 * kwh,
        reserve: 9 * kwh,
        stored: 80 * kwh,
        rating: 20_000,
        kva: 21_000,
        idle_loss: 110,
        var_request: 15_000,
        weight: 2,
        inverter: 9_600,
        charge: 9_500,
        discharge: 9_500,
        priority: 0,
        provide: 8_000,
        absorb: 21_000,
    };
    let pumps = Unit {
        rated: 30 * kwh,
        reserve: 3 * kwh,
        stored: 30 * kwh,
        rating: 8_000,
        kva: 9_000,
        idle_loss: 50,
        var_request: -4_000,
        weight: 1,
        inverter: 9_400,
        charge: 9_300,
        discharge: 9_300,
        priority: 0,
        provide: 5_000,
        absorb: 0,
    };
    let store = Unit {
        rated: 120 * kwh,
        reserve: 12 * kwh,
        stored: 100 * kwh,
        rating: 25_000,
        kva: 25_000,
        idle_loss: 130,
        var_request: 12_000,
        weight: 2,
        inverter: 9_600,
        charge: 9_400,
        discharge: 9_400,
        priority: 0,
        provide: 25_000,
        absorb: 25_000,
    };
    Run {
        site: Site {
            edition: 2,
            seconds: 900,
            units: vec![cellar, press, pumps, store],
            settings: Settings { mode: 1, target: 55_000, band: 4_000, factor: 600 },
            phase: 0,
            connections: Vec::new(),
            inverters: roof_inverters()[..1].to_vec(),
            function: None,
        },
        readings: (0..DAY).map(vineyard_reading).collect(),
        weather: (0..DAY).map(roof_weather).collect(),
        voltages: Vec::new(),
    }
}

/// A quarter of the vintage: the presses run from the morning into the evening, and the meter was silent now and then.
fn vineyard_reading(step: usize) -> Reading {
    if step % 37 == 11 {
        return Reading::Missing;
    }
    // The meter is behind the batteries: once these give, it shows less.
    let meter = [
        310, 300, 290, 290, 320, 420, 610, 780, 690, 560, 530, 520, 505, 530, 560, 580, 640, 720, 700, 560,
        470, 420, 370, 330,
    ];
    quarter(&meter, step, (step * 53 % 41) as i64 - 20, [40, 31, 29])
}

/// The complete stick of the vineyard, and what happened to others like it.
fn vineyard_examples() -> Vec<(&'static str, u32, Vec<u8>)> {
    let run = vineyard();
    let fields = sticks::fields(&run);
    let changed = |change: &dyn Fn(&mut Vec<Field>)| changed(&fields, change);
    vec![
        ("vineyard.stick", 0, sticks::bytes(&fields)),
        // The press's battery was copied from last year's stick, which is of edition 1.
        (
            "refused-03-unit-without-var-limits.stick",
            3,
            changed(&|fields| fields[2] = sticks::unit_field(1, &run.site.units[1])),
        ),
        // The pumps' limit was typed with a digit too many.
        (
            "refused-05-var-limit-beyond-kva.stick",
            5,
            sticks::file(&sticks::with(&run, |run| run.site.units[2].provide = 50_000)),
        ),
        // Written by a planner that is newer than the library.
        ("refused-05-unknown-edition.stick", 5, changed(&|fields| fields[0].value[0] = 4)),
    ]
}

/// A mill with its bakery and ice house, whose plan was made with the older storage model, in edition 3: what a battery
/// loses is drawn at its grid connection, also while it gives. The mill's gives vars before watts; the ice house's
/// is small, and the cooling at its connection takes more than its inverter could carry.
fn mill() -> Run {
    let kwh = 3_600_000;
    let mill = Unit {
        rated: 420 * kwh,
        reserve: 42 * kwh,
        stored: 380 * kwh,
        rating: 30_000,
        kva: 30_000,
        idle_loss: 900,
        var_request: 25_000,
        weight: 5,
        inverter: 9_700,
        charge: 9_500,
        discharge: 9_500,
        priority: 1,
        provide: 18_000,
        absorb: 18_000,
    };
    let bakery = Unit {
        rated: 60 * kwh,
        reserve: 6 * kwh,
        stored: 54 * kwh,
        rating: 15_000,
        kva: 15_000,
        idle_loss: 350,
        var_request: -9_000,
        weight: 4,
        priority: 0,
        provide: 15_000,
        absorb: 12_000,
        ..mill
    };
    let ice_house = Unit {
        rated: 20 * kwh,
        reserve: 2 * kwh,
        stored: 20 * kwh,
        rating: 1_500,
        kva: 1_600,
        idle_loss: 2_100,
        var_request: 700,
        weight: 1,
        provide: 1_600,
        absorb: 1_600,
        ..bakery
    };
    Run {
        site: Site {
            edition: 3,
            seconds: 900,
            units: vec![mill, bakery, ice_house],
            settings: Settings { mode: 1, target: 48_000, band: 3_000, factor: 500 },
            phase: 0,
            connections: Vec::new(),
            inverters: Vec::new(),
            function: None,
        },
        readings: (0..DAY).map(mill_reading).collect(),
        weather: Vec::new(),
        voltages: Vec::new(),
    }
}

/// A quarter at the mill: the ovens before dawn, the stones by day. The meter was silent at midnight, until it was set,
/// and now and then.
fn mill_reading(step: usize) -> Reading {
    if step < 4 || step % 31 == 23 {
        return Reading::Missing;
    }
    // The meter is behind the batteries: once these give, it shows less.
    let meter = [
        300, 360, 600, 640, 560, 440, 390, 420, 520, 560, 520, 440, 380, 450, 540, 560, 480, 400, 370, 360,
        340, 320, 310, 300,
    ];
    quarter(&meter, step, (step * 47 % 43) as i64 - 21, [38, 32, 30])
}

/// A working week of hours.
const WEEK: usize = 5 * 24;

/// A dairy that buys by the current of its main fuse, which is to carry no more than 63 A in any phase. The parlour's
/// battery hangs on three phases of the house, the small one at the calves on one, and the cold store's on the line of
/// 10 kV. On the parlour is a roof.
fn dairy() -> Run {
    let kwh = 3_600_000;
    let parlour = Unit {
        rated: 400 * kwh,
        reserve: 40 * kwh,
        stored: 390 * kwh,
        rating: 15_000,
        kva: 16_000,
        idle_loss: 120,
        var_request: 3_000,
        weight: 20,
        inverter: 9_600,
        charge: 9_500,
        discharge: 9_500,
        priority: 0,
        provide: 16_000,
        absorb: 16_000,
    };
    let calves = Unit {
        rated: 12 * kwh,
        reserve: kwh,
        stored: 12 * kwh,
        rating: 2_000,
        kva: 2_300,
        idle_loss: 15,
        var_request: 0,
        weight: 5,
        inverter: 9_300,
        charge: 9_200,
        discharge: 9_200,
        ..parlour
    };
    let cold_store = Unit {
        rated: 900 * kwh,
        reserve: 90 * kwh,
        stored: 850 * kwh,
        rating: 20_000,
        kva: 30_000,
        idle_loss: 250,
        var_request: -6_000,
        weight: 1,
        ..parlour
    };
    let connections = [(3, 230), (1, 230), (3, 10_000)];
    Run {
        site: Site {
            edition: 1,
            seconds: 3_600,
            units: vec![parlour, calves, cold_store],
            settings: Settings { mode: 4, target: 63_000, band: 2_000, factor: 800 },
            phase: 4,
            connections: connections.map(|(phases, volts)| Connection { phases, volts }).to_vec(),
            inverters: roof_inverters()[..1].to_vec(),
            function: None,
        },
        readings: (0..WEEK).map(dairy_reading).collect(),
        weather: (0..WEEK).map(dairy_weather).collect(),
        voltages: Vec::new(),
    }
}

/// An hour's currents: the milkings in the morning and in the evening. The clamps were off in Wednesday's evening
/// milking, and once in a night.
fn dairy_reading(step: usize) -> Reading {
    let (day, hour) = (step / 24, step % 24);
    if step == 2 * 24 + 17 || step == 3 * 24 + 2 {
        return Reading::Missing;
    }
    // In tenths of an ampere. The meter is behind the batteries: once these give, it shows less.
    let load = match hour {
        5 => 810,
        6..=7 | 17..=18 => 632,
        16 => 860,
        8..=15 => 440,
        19 => 520,
        _ => 300,
    };
    let noise = (step * 37 + day * 11) as i32 % 9 - 4;
    let amperes = |part: i32| f64::from((load + noise) * part) / 1000.0;
    Reading::Current(Phases::of([amperes(91), amperes(100), amperes(84)]))
}

/// An hour's weather: two clear days, a dull one, and a station that was silent in one night.
fn dairy_weather(step: usize) -> Option<Weather> {
    let (day, hour) = (step / 24, step % 24);
    let clear = [100, 80, 30, 95, 100][day];
    (day != 1 || hour > 4).then(|| measured(SUN[hour] * clear / 100, PANELS[hour]))
}

/// The complete stick of the dairy, and what happened to others like it.
fn dairy_examples() -> Vec<(&'static str, u32, Vec<u8>)> {
    let run = dairy();
    let with = |change: &dyn Fn(&mut Run)| sticks::file(&sticks::with(&run, change));
    vec![
        ("dairy.stick", 0, sticks::file(&run)),
        // The mode was set to buy by current, and nobody said how the batteries are connected.
        ("refused-04-connections-missing.stick", 4, sticks::bytes(&currents::without_connections(&run))),
        // For an hour the meter was set to powers.
        (
            "refused-05-reading-does-not-fit.stick",
            5,
            with(&|run| run.readings[61] = Reading::Power(Phases::of([10.1, 9.2, 8.8]))),
        ),
        // A clamp was put on the wrong way round.
        ("refused-06-current-below-zero.stick", 6, with(&|run| set_second(run, 88, (-63.2f64).to_bits()))),
    ]
}

/// Two days of hours.
const DAYS: usize = 2 * 24;

/// A co-operative at the end of a line whose voltage the sun lifts at noon and the evening lowers, in edition 2: a
/// function leads the vars of three batteries and of two roofs, and its base is what the watts leave of each circle.
/// The creamery's battery may absorb less than is asked of it at noon; the sawmill's would give vars first, and does
/// not under this base; the pumps' runs empty in the evening.
fn voltage() -> Run {
    let kwh = 3_600_000;
    let creamery = Unit {
        rated: 300 * kwh,
        reserve: 30 * kwh,
        stored: 280 * kwh,
        rating: 30_000,
        kva: 33_000,
        idle_loss: 160,
        var_request: 5_000,
        weight: 4,
        inverter: 9_700,
        charge: 9_600,
        discharge: 9_600,
        priority: 0,
        provide: 33_000,
        absorb: 15_000,
    };
    let sawmill = Unit {
        rated: 180 * kwh,
        reserve: 18 * kwh,
        stored: 170 * kwh,
        rating: 20_000,
        kva: 20_000,
        idle_loss: 110,
        var_request: 0,
        weight: 3,
        priority: 1,
        provide: 20_000,
        absorb: 20_000,
        ..creamery
    };
    let pumps = Unit {
        rated: 25 * kwh,
        reserve: 5 * kwh,
        stored: 25 * kwh,
        rating: 8_000,
        kva: 9_000,
        idle_loss: 50,
        var_request: -1_000,
        weight: 2,
        provide: 9_000,
        absorb: 9_000,
        ..creamery
    };
    Run {
        site: Site {
            edition: 2,
            seconds: 3_600,
            units: vec![creamery, sawmill, pumps],
            settings: Settings { mode: 1, target: 45_000, band: 3_000, factor: 700 },
            phase: 0,
            connections: Vec::new(),
            inverters: roof_inverters()[..2].to_vec(),
            function: Some(Function { base: 1, curve: voltages::operators_curve() }),
        },
        readings: (0..DAYS).map(voltage_reading).collect(),
        weather: (0..DAYS).map(|step| Some(measured(SUN[step % 24], PANELS[step % 24]))).collect(),
        voltages: (0..DAYS).map(recorded).collect(),
    }
}

/// An hour's reading: the morning's milk, little at noon behind the roofs, and the saws in the evening. The meter was
/// silent now and then.
fn voltage_reading(step: usize) -> Reading {
    if step % 19 == 13 {
        return Reading::Missing;
    }
    // In tenths of a kW, of all three phases. The meter is behind the batteries: once these give, it shows less.
    let load = match step % 24 {
        6 => 640,
        7..=8 => 455,
        9..=10 => 300,
        11..=15 => 120,
        17 => 980,
        18..=20 => 460,
        21 => 380,
        _ => 250,
    };
    let noise = (step * 31 % 17) as i32 - 8;
    let kw = |part: i32| f64::from((load + noise) * part) / 1000.0;
    Reading::Power(Phases { first: kw(37), second: kw(33), third: kw(30) })
}

/// An hour's voltage as it was recorded, in ten-thousandths of per unit: none until the recorder was set, none in three
/// hours of the second morning, and none now and then.
fn recorded(step: usize) -> Option<u16> {
    if step < 2 || (29..32).contains(&step) || step % 13 == 11 {
        return None;
    }
    let day = [
        10_060, 10_080, 10_090, 10_100, 10_080, 10_020, 9_780, 9_840, 9_990, 10_190, 10_420, 10_610, 10_760,
        10_830, 10_720, 10_520, 10_210, 9_520, 9_290, 9_170, 9_430, 9_760, 9_930, 10_010,
    ];
    Some(day[step % 24] + (step * 7 % 13) as u16)
}

/// The complete stick of the co-operative that the voltage leads, and what happened to others like it.
fn voltage_examples() -> Vec<(&'static str, u32, Vec<u8>)> {
    let run = voltage();
    let fields = sticks::fields(&run);
    vec![
        ("voltage.stick", 0, sticks::bytes(&fields)),
        // The recorder's voltages were copied to a stick whose site has no function.
        ("refused-04-voltage-without-function.stick", 4, changed(&fields, &voltages::without_function)),
        // For an hour the recorder wrote tenths of a volt.
        ("refused-05-voltage-out-of-range.stick", 5, sticks::file(&voltages::with_voltage(&run, 26, 23_140))),
        // The operator's curve was typed from the high voltage on.
        (
            "refused-05-volt-var-order.stick",
            5,
            sticks::file(&voltages::with_function(&run, |function| {
                function.curve.x.reverse();
                function.curve.y.reverse();
            })),
        ),
    ]
}

/// The steps of the roof's day whose readings cannot be used: one without a weather, and one with it.
const LOST: [usize; 2] = [40, 61];

/// The step in which the stick is pulled out.
const PULLED: usize = 83;

/// A stick of the roof's day, and what a rescue leaves of it. The meter sent no number, and later an infinite power. In
/// the evening the stick was pulled out while a reading was written, behind its weather.
fn rescue_examples() -> Vec<(&'static str, u32, Vec<u8>)> {
    let run = sticks::with(&roof(), |run| {
        set_second(run, LOST[0], NO_NUMBER);
        set_second(run, LOST[1], INFINITE);
    });
    let before = sticks::file(&sticks::with(&run, |run| run.readings.truncate(PULLED))).len() - 7;
    let mut damaged = sticks::file(&run);
    // The 19 bytes of the weather, and 11 of the reading.
    damaged.truncate(before + 30);
    let rescued = rescue::rescue(&damaged).expect("all that is due before the steps is good").output;
    vec![("refused-06-three-faults.stick", 6, damaged), ("rescued-three-faults.stick", 0, rescued)]
}

/// The name of each stick, the number that its check gives, and its bytes.
fn examples() -> Vec<(&'static str, u32, Vec<u8>)> {
    let run = season();
    let fields = sticks::fields(&run);
    let whole = sticks::bytes(&fields);
    let place = |at: usize| sticks::bytes(&fields[..at]).len();
    let changed = |change: &dyn Fn(&mut Vec<Field>)| changed(&fields, change);
    // A season that has one step too many, nothing of which was measured.
    let mut long = sticks::bytes(&fields[..READINGS]);
    long.extend([MISSING, 0, 0].repeat(65_536));
    sticks::end_field(65_536).put(&mut long);

    let mut all = vec![
        ("season.stick", 0, whole.clone()),
        ("harvest.stick", 0, sticks::file(&harvest())),
        // The copy stopped in the middle of a reading.
        ("refused-01-cut-short.stick", 1, whole[..place(READINGS + 200) + 14].to_vec()),
        // A tag's highest bit has flipped.
        ("refused-02-unknown-tag.stick", 2, changed(&|fields| fields[READINGS + 60].tag ^= 0x80)),
        // A length has lost its bits.
        ("refused-03-wrong-length.stick", 3, changed(&|fields| fields[2].length = 0)),
        // The fleet says three units, and one of them was not written.
        ("refused-04-out-of-order.stick", 4, changed(&|fields| drop(fields.remove(3)))),
        // The second unit holds more than it can.
        (
            "refused-05-value-out-of-range.stick",
            5,
            sticks::file(&sticks::with(&run, |run| run.site.units[1].stored = run.site.units[1].rated + 1)),
        ),
        // A meter sent what is no number.
        (
            "refused-06-reading-not-usable.stick",
            6,
            sticks::file(&sticks::with(&run, |run| set_second(run, 211, NO_NUMBER))),
        ),
        // A row was lost, and the count was not.
        ("refused-07-wrong-count.stick", 7, changed(&|fields| drop(fields.remove(READINGS + 100)))),
        // The stick was pulled out before the end was written.
        ("refused-08-end-missing.stick", 8, whole[..place(fields.len() - 1)].to_vec()),
        // What an older, longer file left behind.
        ("refused-09-bytes-after-end.stick", 9, [&whole, &whole[whole.len() - 61..]].concat()),
        ("refused-12-too-many-steps.stick", 12, long),
    ];
    all.extend(roof_examples());
    all.extend(vineyard_examples());
    all.push(("mill.stick", 0, sticks::file(&mill())));
    all.extend(rescue_examples());
    all.extend(dairy_examples());
    all.extend(voltage_examples());
    all
}

fn main() -> ExitCode {
    let folder = match env::args_os().skip(1).collect::<Vec<_>>().as_slice() {
        [folder] => PathBuf::from(folder),
        _ => {
            eprintln!("usage: sticks FOLDER");
            return ExitCode::from(2);
        }
    };
    for (name, _, bytes) in examples() {
        if let Err(error) = fs::write(folder.join(name), bytes) {
            eprintln!("sticks: {name}: {error}");
            return ExitCode::from(2);
        }
    }
    ExitCode::SUCCESS
}

#[cfg(test)]
mod tests {
    use super::*;
    use yesbrulka_reference::rescue::{Kind, Rescued};
    use yesbrulka_reference::season::{self, Step};
    use yesbrulka_reference::stick::{self, Answer, CURRENT, CURVE, END, INVERTER, POWER, VOLTAGE, WEATHER};

    #[test]
    fn each_stick_is_refused_for_what_its_name_says() {
        for (name, number, bytes) in examples() {
            assert_eq!(stick::check(&bytes).number, number, "{name}");
            assert!(number == 0 || name.starts_with(&format!("refused-{number:02}-")), "{name}");
        }
    }

    #[test]
    fn every_number_that_a_file_can_have_is_there() {
        let numbers: Vec<u32> = examples().iter().map(|&(_, number, _)| number).collect();
        assert_eq!(
            numbers,
            [
                0, 0, 1, 2, 3, 4, 5, 6, 7, 8, 9, 12, 0, 4, 4, 4, 5, 5, 6, 6, 0, 3, 5, 5, 0, 6, 0, 0, 4, 5, 6,
                0, 4, 5, 5
            ]
        );
    }

    /// Without a function a result is what it was before there were any: its bytes, and one number for all of them.
    #[test]
    fn results_without_a_function_are_as_they_were() {
        let results = [
            (season(), 40_327, 0xefbd_6e1e_84a1_5da1),
            (harvest(), 53_767, 0x0fd3_9da7_427a_1ec6),
            (roof(), 19_879, 0x4775_cf57_bae8_3866),
            (vineyard(), 18_151, 0x1935_85d2_2f56_66d5),
            (mill(), 11_527, 0xbc81_834d_e2ed_15c0),
            (dairy(), 17_887, 0xfa80_11ad_519f_e7f6),
        ];
        for (run, length, number) in results {
            let result = season::run(&sticks::file(&run), length).unwrap();
            let add = |sum: u64, byte: &u8| (sum ^ u64::from(*byte)).wrapping_mul(0x100_0000_01b3);
            let found = result.iter().fold(0xcbf2_9ce4_8422_2325, add);
            assert_eq!((result.len(), found), (length, number));
        }
    }

    /// The place of what is wrong with each of the voltage's sticks: the first voltage, the one of an hour, and the
    /// curve behind the function.
    #[test]
    fn the_sticks_of_the_voltage_are_refused_at_their_fields() {
        let found: Vec<(u8, u32)> = voltage_examples()
            .iter()
            .skip(1)
            .map(|(_, _, bytes)| (stick::check(bytes), bytes))
            .map(|(answer, bytes)| (bytes[answer.place as usize], answer.steps))
            .collect();
        assert_eq!(found, [(VOLTAGE, 2), (VOLTAGE, 26), (CURVE, 0)]);
        let place = stick::check(&voltage_examples()[3].2).place;
        assert_eq!(place, 9 + 3 * 60 + 15 + 2 * 286 + 4);
    }

    /// The place of what is wrong with each of the vineyard's sticks: its second unit, its third, and the fleet.
    #[test]
    fn the_sticks_of_the_vineyard_are_refused_at_their_fields() {
        let places: Vec<u64> =
            vineyard_examples().iter().skip(1).map(|(_, _, bytes)| stick::check(bytes).place).collect();
        assert_eq!(places, [9 + 60, 9 + 2 * 60, 0]);
    }

    /// The place of what is wrong with each of the dairy's sticks: the inverter that stands where the connections are
    /// due, a power, and a current.
    #[test]
    fn the_sticks_of_the_dairy_are_refused_at_their_fields() {
        let found: Vec<(u8, u32)> = dairy_examples()
            .iter()
            .skip(1)
            .map(|(_, _, bytes)| stick::check(bytes))
            .zip(dairy_examples().iter().skip(1))
            .map(|(answer, (_, _, bytes))| (bytes[answer.place as usize], answer.steps))
            .collect();
        assert_eq!(found, [(INVERTER, 0), (POWER, 61), (CURRENT, 88)]);
    }

    /// The place of what is wrong with each of the roof's sticks: an inverter, a curve, a weather, or the end field that
    /// stands where a reading is due.
    #[test]
    fn the_sticks_of_the_roof_are_refused_at_their_fields() {
        let tags: Vec<u8> = roof_examples()
            .iter()
            .skip(1)
            .map(|(_, _, bytes)| bytes[stick::check(bytes).place as usize])
            .collect();
        assert_eq!(tags, [INVERTER, INVERTER, END, CURVE, INVERTER, WEATHER, WEATHER]);
    }

    /// The stick with three faults: two readings that cannot be used, and one that is cut short behind its weather. Its
    /// rescue is the roof's day up to that weather, with the two readings missing.
    #[test]
    fn the_stick_with_three_faults_and_its_rescue() {
        let [damaged, rescued] = [0, 1].map(|at: usize| rescue_examples()[at].2.clone());
        let left = sticks::with(&roof(), |run| {
            LOST.iter().for_each(|&step| run.readings[step] = Reading::Missing);
            run.readings.truncate(PULLED);
        });
        assert!(rescued == sticks::file(&left));
        assert_eq!(stick::check(&rescued), Answer { number: 0, place: rescued.len() as u64, steps: 83 });
        let Rescued { output, steps, changes } = rescue::rescue(&damaged).unwrap();
        assert_eq!((output == rescued, steps), (true, 83));
        let listed = changes.iter().map(|change| (change.kind, change.dropped)).collect::<Vec<_>>();
        assert_eq!(listed, [(Kind::MadeMissing, 24), (Kind::MadeMissing, 24), (Kind::EndedHere, 30)]);
        assert!(roof().weather_of(LOST[0]).is_none() && roof().weather_of(LOST[1]).is_some());
        let tags = changes.iter().map(|change| damaged[change.place as usize]).collect::<Vec<_>>();
        assert_eq!(tags, [POWER, POWER, WEATHER]);
        // The weather that goes is a good one; its reading has lost bytes.
        let last = changes[2].place as usize;
        assert_eq!(damaged[last + 19..last + 22], [POWER, 0, 24]);
        assert_eq!(damaged.len(), last + 30);
        let first = Answer { number: 6, place: changes[0].place, steps: LOST[0] as u32 };
        assert_eq!(stick::check(&damaged), first);
        // And what is left of what is left is all of it.
        assert_eq!(rescue::rescue(&rescued), Ok(Rescued { output, steps, changes: Vec::new() }));
    }

    #[test]
    fn the_season_has_readings_of_both_kinds_and_signs() {
        let run = stick::read(&sticks::file(&season())).unwrap();
        let missing = run.readings.iter().filter(|reading| matches!(reading, Reading::Missing)).count();
        assert_eq!((run.site.units.len(), run.readings.len(), missing), (3, STEPS, 9));
        let measures: Vec<i64> =
            run.readings.iter().filter_map(|r| r.measure(run.site.phase).unwrap()).collect();
        assert!(measures.iter().any(|&m| m > 120_000) && measures.iter().any(|&m| m < 0));
    }

    /// What a reader of the harvest's result is to see: peaks that are shaved, requests that stand through a silent
    /// meter, vars that cut watts, and one unit that runs down to its reserve while the others last.
    #[test]
    fn the_harvest_is_worth_reading() {
        let run = stick::read(&sticks::file(&harvest())).unwrap();
        let steps = season::steps(&run);
        let of = |step: &Step, unit: usize| (step.records[unit].request, step.records[unit].stepped);
        let idle = |unit: usize| {
            let left_asking = |step: &&Step| of(step, unit).0 > 0 && of(step, unit).1.watts < 0;
            steps.iter().filter(left_asking).count()
        };
        assert_eq!([0, 1, 2].map(idle), [0; 3]);
        assert!(idle(3) > 50, "{}", idle(3));
        let standing = steps.iter().filter(|step| step.passed.is_none() && of(step, 0).0 > 0).count();
        assert!(standing >= 4, "{standing}");
        assert!(steps.iter().any(|step| of(step, 2).0 > 6_000 && of(step, 2).1.watts == 6_000));
        let quiet = steps.iter().filter(|step| step.records.iter().all(|record| record.request == 0)).count();
        assert!((100..250).contains(&quiet), "{quiet}");
    }

    /// What a reader of the vineyard's result is to see: vars at either limit and none from the one that may only
    /// provide, watts that vars first would have held back without a limit, vars that the circle cuts where no limit
    /// does, and an inverter that works by day.
    #[test]
    fn the_vineyard_is_worth_reading() {
        let run = stick::read(&sticks::file(&vineyard())).unwrap();
        assert_eq!((run.site.edition, run.site.units.len(), run.site.inverters.len()), (2, 4, 1));
        let steps = season::steps(&run);
        let count = |of: &dyn Fn(&Step) -> bool| steps.iter().filter(|step| of(step)).count();
        let vars = |step: &Step, unit: usize| step.records[unit].stepped.vars;
        let watts = |step: &Step, unit: usize| step.records[unit].stepped.watts;
        assert_eq!(count(&|step| vars(step, 0) == -12_000 && vars(step, 2) == 0), DAY);
        assert!(count(&|step| vars(step, 1) == 8_000) > 60);
        assert!(count(&|step| vars(step, 1) < 8_000) > 4);
        // Beside 30,000 var there would be 32,186 W.
        assert!(count(&|step| watts(step, 0) > 32_186) > 4);
        assert!(count(&|step| vars(step, 3) < 12_000) > 4);
        assert!(count(&|step| step.records.iter().all(|record| record.request == 0)) > 20);
        assert!(count(&|step| step.solar[0].produced.on) > 20);
        let without = sticks::with(&run, |run| run.site.edition = 1);
        assert!(season::steps(&without) != steps);
    }

    /// What a reader of the mill's result is to see: units at rest that draw their idle losses, watts at the grid that
    /// are an idle loss below the request, one that draws while it gives, vars at a limit and cut by the circle of the
    /// inverter's watts, one that runs down to its reserve, and a plan that edition 2 would refuse.
    #[test]
    fn the_mill_is_worth_reading() {
        let run = stick::read(&sticks::file(&mill())).unwrap();
        assert_eq!((run.site.edition, run.site.units.len(), run.readings.len()), (3, 3, DAY));
        let steps = season::steps(&run);
        let count = |of: &dyn Fn(&Step) -> bool| steps.iter().filter(|step| of(step)).count();
        let of = |step: &Step, unit: usize| (step.records[unit].request, step.records[unit].stepped);
        let losses = [900, 350, 2_100];
        let rests = |step: &Step| (0..3).all(|unit| of(step, unit).1.watts == -losses[unit]);
        assert!(count(&|step| step.passed.is_none() && rests(step)) >= 4);
        assert!(count(&rests) > 20, "{}", count(&rests));
        let gives = |step: &Step, unit: usize| {
            of(step, unit).0 > 0 && of(step, unit).0 - losses[unit] == of(step, unit).1.watts
        };
        assert!((0..3).all(|unit| count(&|step| gives(step, unit)) > 10));
        assert!(count(&|step| gives(step, 2) && of(step, 2).1.watts < 0) > 10);
        // Vars first leave the mill 24,000 W. The bakery's watts leave it no vars; at the grid there would be room.
        assert_eq!(count(&|step| of(step, 0).1.vars == 18_000), DAY);
        assert!(count(&|step| of(step, 0).0 > 24_000 && of(step, 0).1.watts == 23_100) > 10);
        assert!(count(&|step| of(step, 1).1.watts == 14_650 && of(step, 1).1.vars == 0) > 5);
        assert!(count(&|step| of(step, 1).1.vars == -9_000) > 20);
        // The bakery's runs down to its reserve, and draws its idle loss though it is asked.
        assert!(count(&|step| of(step, 1).0 > 0 && of(step, 1).1.watts == -350) > 20);
        assert_eq!(steps.iter().filter(|step| of(step, 0).1.stored <= run.site.units[0].reserve).count(), 0);
        let in_2 = sticks::with(&run, |run| run.site.edition = 2);
        assert_eq!(stick::check(&sticks::file(&in_2)).place, 9 + 2 * 60);
    }

    /// What a reader of the voltage's result is to see: vars that are provided in the evening and absorbed at noon,
    /// none about 1 per unit, the own requests before the first voltage, vars kept where none was recorded, a limit
    /// that cuts, watts before vars, vars that are kept beside more watts, inverters that are off and are asked all the
    /// same, and a battery that runs empty.
    #[test]
    fn the_voltage_is_worth_reading() {
        let run = stick::read(&sticks::file(&voltage())).unwrap();
        let silent = (0..DAYS).filter(|&step| run.voltage_of(step).is_none()).count();
        assert_eq!((run.readings.len(), silent, run.site.inverters.len()), (DAYS, 8, 2));
        let steps = season::steps(&run);
        let count = |of: &dyn Fn(&Step) -> bool| steps.iter().filter(|step| of(step)).count();
        let given = |step: &Step, unit: usize| step.records[unit].stepped.vars;
        let asked = |step: &Step, unit: usize| step.records[unit].vars_asked;
        assert_eq!([0, 1, 2].map(|unit| given(&steps[0], unit)), [5_000, 0, -1_000]);
        assert!(count(&|step| given(step, 1) > 5_000) >= 6 && count(&|step| given(step, 1) < -5_000) >= 6);
        assert!(count(&|step| (0..3).all(|unit| asked(step, unit) == 0)) > 10);
        for step in (2..DAYS).filter(|&step| run.voltage_of(step).is_none()) {
            assert!((0..3).all(|unit| asked(&steps[step], unit) == asked(&steps[step - 1], unit)));
        }
        assert!(count(&|step| asked(step, 0) < -15_000 && given(step, 0) == -15_000) >= 4);
        let noon = &steps[37];
        assert!(run.voltage_of(37).is_none() && asked(noon, 0) < -30_000 && given(noon, 0) == -15_000);
        assert!(noon.solar[0].vars_asked < noon.solar[0].produced.vars);
        assert!(count(&|step| step.records[1].stepped.watts > 10_000 && given(step, 1) > 8_000) >= 2);
        let off = |step: &Step| !step.solar[0].produced.on && step.solar[0].vars_asked != 0;
        assert!(count(&off) >= 4);
        assert!(count(&|step| step.solar[1].produced.on && step.solar[1].produced.vars < -10_000) >= 4);
        let empty = |step: &Step| step.records[2].request > 0 && step.records[2].stepped.watts < 0;
        assert!(count(&empty) >= 2, "{}", count(&empty));
    }

    /// What a reader of the dairy's result is to see: a peak in each morning and evening that calls every battery for
    /// its own share, requests that are held within the band and through a silent meter, nights in which nobody is
    /// asked, the small battery down at its reserve while the others last, and an inverter that works by day.
    #[test]
    fn the_dairy_is_worth_reading() {
        let run = stick::read(&sticks::file(&dairy())).unwrap();
        let site = &run.site;
        assert_eq!(
            (site.settings.mode, site.units.len(), site.inverters.len(), run.readings.len()),
            (4, 3, 1, WEEK)
        );
        let steps = season::steps(&run);
        let asked = |step: usize| [0, 1, 2].map(|unit| steps[step].records[unit].request);
        let need = |step: usize| steps[step].passed.map(|passed| passed.need);
        for day in 0..5 {
            let hour = |hour: usize| 24 * day + hour;
            for peak in [hour(5), hour(16)] {
                assert!(need(peak) > Some(17_000), "{peak}");
                // The parlour has three times the calves' need and four times the weight; the cold store has the
                // line's.
                let [parlour, calves, cold_store] = asked(peak);
                assert!(calves > 500 && parlour > 7_000 && cold_store > 15_000, "{peak}");
                assert_eq!(asked(peak + 1), asked(peak));
                assert_eq!(asked(peak + 2), asked(peak));
                assert!(steps[peak + 1].passed.map_or(true, |passed| passed.rule == 5));
            }
            assert!([0, 3, 11, 22].iter().all(|&at| asked(hour(at)) == [0; 3]));
            assert!(steps[hour(12)].solar[0].produced.on && !steps[hour(23)].solar[0].produced.on);
        }
        assert_eq!((need(2 * 24 + 17), need(3 * 24 + 2)), (None, None));
        let low = |unit: usize| {
            let at_reserve =
                |step: &&Step| step.records[unit].stepped.stored < site.units[unit].reserve + 3_600_000;
            steps.iter().filter(at_reserve).count()
        };
        assert!(low(1) > 24 && low(0) == 0 && low(2) == 0, "{} {} {}", low(0), low(1), low(2));
    }

    /// What a reader of the roof's result is to see: inverters that turn on in the morning and off in the evening and
    /// in a silent hour, a limit and a circle that cut at noon, vars through the night from the one that never turns
    /// off, and batteries that take the sun.
    #[test]
    fn the_roof_is_worth_reading() {
        let run = stick::read(&sticks::file(&roof())).unwrap();
        assert_eq!((run.site.units.len(), run.site.inverters.len(), run.readings.len()), (3, 3, DAY));
        let silent = (0..DAY).filter(|&step| run.weather_of(step).is_none()).count();
        let missing = run.readings.iter().filter(|reading| matches!(reading, Reading::Missing)).count();
        assert_eq!((silent, missing), (7, 7));
        let steps = season::steps(&run);
        let on = |inverter: usize| -> Vec<bool> {
            steps.iter().map(|step| step.solar[inverter].produced.on).collect()
        };
        let turns = |inverter| on(inverter).windows(2).filter(|pair| pair[0] != pair[1]).count();
        assert!((0..3).all(|inverter| !on(inverter)[0]));
        assert_eq!([0, 1].map(|inverter| on(inverter)[DAY - 1]), [false; 2]);
        assert_eq!([turns(0), turns(1), turns(2)], [6, 6, 1]);
        assert_eq!([38, 39, 40, 41].map(|step| on(0)[step]), [false; 4]);
        let cut = |inverter: usize, watts: i32| {
            steps.iter().filter(|step| step.solar[inverter].produced.watts == watts).count()
        };
        assert!(cut(1, 63_000) > 8 && cut(2, 14_000) > 8, "{} {}", cut(1, 63_000), cut(2, 14_000));
        let night = steps[DAY - 1].solar[2].produced;
        assert_eq!((night.on, night.watts, night.vars, night.dc), (true, 0, 10_500, 0));
        let taken = steps.iter().filter(|step| step.records[0].stepped.watts < -20_000).count();
        assert!(taken > 8, "{taken}");
    }
}
