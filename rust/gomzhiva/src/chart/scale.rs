//! The scales of the axes: what they span and where their numbers stand.

use super::clock::Clock;
use super::{Picture, LETTER};
use crate::request::Bound;
use plotters::coord::ranged1d::{DefaultFormatting, KeyPointHint};
use plotters::prelude::Ranged;
use std::iter::successors;
use std::ops::Range;

/// Quarter hours, half hours, whole hours and parts of a day.
const FRAME_STEPS: [usize; 6] = [1, 2, 4, 8, 12, 24];
/// The step of the longest requests, up to a week.
const HALF_A_DAY: usize = 48;
/// The characters for which the frame axis has room, two of them blank after each number.
pub const FRAME_AXIS_CHARACTERS: usize = 110;
const MOST_WATT_HOUR_STEPS: f64 = 8.0;
/// A line joins the charges where it makes the picture at most so many times as high.
const REACH: f64 = 4.0;
/// A bound joins the energies where it makes the picture at most so many times as high.
const BOUND_REACH: f64 = 1.5;

/// What an axis spans and where it has numbers.
#[derive(Clone)]
pub struct Scale {
    range: Range<f64>,
    ticks: Vec<f64>,
}

impl Scale {
    /// Frame `n` is the width from `n - 0.5` to `n + 0.5`.
    pub fn of_frames(frames: usize) -> Scale {
        let numbers = (0..=frames).step_by(frame_step(frames)).skip(1);
        Scale {
            range: 0.5..frames.max(1) as f64 + 0.5,
            ticks: numbers.map(|frame| frame as f64).collect(),
        }
    }

    /// The same with marks at clock times.
    pub fn of_clock(frames: usize, clock: Clock) -> Scale {
        let ticks = clock.ticks();
        Scale {
            ticks,
            ..Scale::of_frames(frames)
        }
    }

    /// Takes in every charge, and the lines that do not squash the charges.
    pub fn of_charges(picture: &Picture<'_>) -> Scale {
        let charges = || picture.charges.iter().map(|&charge| charge as f64);
        let low = charges().fold(0.0, f64::min);
        let high = charges().fold(f64::from(picture.start), f64::max);
        let needed = picture.needed.unwrap_or(0) as f64;
        let lines = [f64::from(picture.capacity), f64::from(picture.end), needed];
        Scale::of_watt_hours(low, with_near(&lines, low, high, REACH))
    }

    /// Takes in every harvest and every budget, and the bounds that do not squash these.
    pub fn of_energy(picture: &Picture<'_>) -> Scale {
        let energies = picture.harvest.iter().chain(picture.budgets);
        let high = energies.max().map_or(0.0, |&most| f64::from(most));
        let bounds = Bound::ALL.into_iter().flat_map(|bound| picture.limits(bound));
        let lines: Vec<f64> = bounds.flatten().collect();
        Scale::of_watt_hours(0.0, with_near(&lines, 0.0, high, BOUND_REACH))
    }

    /// From `low`, at most 0, to `high`, at least 0, with some room beyond.
    fn of_watt_hours(low: f64, high: f64) -> Scale {
        let span = (high - low).max(1.0);
        let room = span * 0.06;
        let bottom = if low < 0.0 { low - room } else { 0.0 };
        let top = low + span + room;
        let step = watt_hour_step(span / MOST_WATT_HOUR_STEPS);
        let numbers = (bottom / step).ceil() as i64..=(top / step).floor() as i64;
        Scale {
            range: bottom..top,
            ticks: numbers.map(|number| number as f64 * step).collect(),
        }
    }

    pub fn reaches(&self, value: f64) -> bool {
        value <= self.range.end
    }

    /// The width of the longest number and of the name of the axis.
    pub fn label_width(&self) -> i32 {
        let lengths = self.ticks.iter().map(|&tick| grouped(tick as i128).chars().count());
        (lengths.max().unwrap_or(0) as f64 * LETTER * 0.62) as i32 + 200
    }
}

impl Ranged for Scale {
    type FormatOption = DefaultFormatting;
    type ValueType = f64;

    fn map(&self, value: &f64, (from, to): (i32, i32)) -> i32 {
        let share = (value - self.range.start) / (self.range.end - self.range.start);
        from + (share * f64::from(to - from)).round() as i32
    }

    fn key_points<Hint: KeyPointHint>(&self, hint: Hint) -> Vec<f64> {
        if hint.weight().allow_light_points() {
            Vec::new()
        } else {
            self.ticks.clone()
        }
    }

    fn range(&self) -> Range<f64> {
        self.range.clone()
    }
}

/// The top of a picture from `low` to `high` with the lines that make it at most `reach` times as high.
fn with_near(lines: &[f64], low: f64, high: f64, reach: f64) -> f64 {
    let lines = || lines.iter().copied();
    let lowest = lines().filter(|&line| line > 0.0).fold(f64::MAX, f64::min);
    let height = if high > low { high - low } else { lowest };
    let near = lines().filter(|&line| line <= low + reach * height);
    near.fold(high, f64::max)
}

/// The smallest step with which the numbers of the frames have room on their axis.
fn frame_step(frames: usize) -> usize {
    let characters = grouped(frames as i128).len() + 2;
    FRAME_STEPS
        .into_iter()
        .find(|step| frames / step <= FRAME_AXIS_CHARACTERS / characters)
        .unwrap_or(HALF_A_DAY)
}

/// The smallest of 1, 2, 5, 10, 20, 50, … that is at least `least`.
fn watt_hour_step(least: f64) -> f64 {
    successors(Some(1.0), |power| Some(power * 10.0))
        .flat_map(|power| [power, power * 2.0, power * 5.0])
        .find(|&step| step >= least)
        .unwrap_or(least)
}

/// A number with a comma between its thousands.
pub fn grouped(number: i128) -> String {
    let sign = if number < 0 { "−" } else { "" };
    match number.unsigned_abs() {
        small @ 0..=999 => format!("{sign}{small}"),
        large => format!("{sign}{},{:03}", grouped((large / 1000) as i128), large % 1000),
    }
}

#[cfg(test)]
mod tests {
    use super::*;
    use energy::MAX_FRAMES;

    #[test]
    fn thousands_are_grouped() {
        assert_eq!(grouped(0), "0");
        assert_eq!(grouped(999), "999");
        assert_eq!(grouped(1_000), "1,000");
        assert_eq!(grouped(1_268_800_000), "1,268,800,000");
        assert_eq!(grouped(-13_000_050), "−13,000,050");
    }

    #[test]
    fn watt_hours_have_whole_numbers() {
        for high in [0.0, 1.0, 2.0, 7.0, 99.0, 1_001.0, 4_294_967_295.0] {
            for low in [0.0, -1.0, -5.0, -2.9e12] {
                let ticks = Scale::of_watt_hours(low, high).ticks;
                assert!((2..=10).contains(&ticks.len()), "{low} to {high}: {ticks:?}");
                assert!(ticks.iter().all(|tick| tick.fract() == 0.0));
                assert!(ticks.contains(&0.0));
            }
        }
    }

    #[test]
    fn frames_have_numbers_of_hours_and_parts_of_a_day() {
        assert_eq!(frame_step(0), 1);
        assert_eq!(frame_step(6), 1);
        assert_eq!(frame_step(96), 4);
        assert_eq!(frame_step(MAX_FRAMES), 48);
        assert_eq!(Scale::of_frames(6).ticks, [1.0, 2.0, 3.0, 4.0, 5.0, 6.0]);
    }
}
