//! The axis of frames that begin at clock times: hours where there are up to two days, else days.

use super::scale::FRAME_AXIS_CHARACTERS;
use crate::request::{Moment, Times, FRAME_SECONDS};

/// The steps of the axis in frames: quarter hours up to parts of a day.
const HOUR_STEPS: [u32; 7] = [1, 2, 4, 8, 12, 16, 32];
const DAY: u32 = 96;
/// The most frames with hours on their axis.
const MOST_FOR_HOURS: usize = 2 * DAY as usize;
/// A clock time, and two blanks behind it.
const HOUR_CHARACTERS: usize = 7;
/// The part of the axis that may have marks of days: a date closer to its end would leave the page.
const FOR_DATES: f64 = 0.99;
/// Marks that a change of the clock brings closer together than this part of their step have no room.
const CLOSEST: f64 = 0.75;

/// So many frames, and when they begin.
#[derive(Clone, Copy)]
pub struct Clock {
    times: Times,
    frames: usize,
}

impl Clock {
    pub fn new(times: Times, frames: usize) -> Clock {
        Clock { times, frames }
    }

    /// Where the axis has marks: at whole steps of the clock.
    pub fn ticks(self) -> Vec<f64> {
        let end = self.frames as f64 * if self.shows_days() { FOR_DATES } else { 1.0 };
        let mut ticks = self.ticks_from(0, end);
        if let Some(frame) = self.times.changes_at() {
            ticks.retain(|&tick| tick < frame as f64);
            let closest = CLOSEST * f64::from(self.step());
            let last = ticks.last().copied().unwrap_or(f64::MIN);
            let changed = self.ticks_from(frame, end).into_iter();
            ticks.extend(changed.filter(|tick| tick - last >= closest));
        }
        ticks.into_iter().map(|tick| tick + 0.5).collect()
    }

    /// The marks from a frame on, up to a place, as long as the clock is not changed.
    fn ticks_from(self, frame: usize, end: f64) -> Vec<f64> {
        let step = f64::from(self.step());
        let since_midnight = f64::from(self.times.at(frame).second_of_day()) / FRAME_SECONDS as f64;
        let first = frame as f64 + (since_midnight / step).ceil() * step - since_midnight;
        let ticks = (0..).map(|number| first + f64::from(number) * step);
        ticks.take_while(|&tick| tick <= end).collect()
    }

    /// What stands at a mark: the clock time, or the day that begins there.
    pub fn label(self, tick: f64) -> String {
        let moment = self.moment(tick - 0.5);
        match moment.date() {
            _ if !self.shows_days() => moment.clock(),
            Some(date) => date.to_string(),
            None => format!("day {}", 1 + moment.days_from(self.times.at(0))),
        }
    }

    /// The time at a place of the axis.
    fn moment(self, place: f64) -> Moment {
        let frame = (place.floor() as usize).min(self.frames.saturating_sub(1));
        let seconds = (place - frame as f64) * FRAME_SECONDS as f64;
        self.times.at(frame).later_by(seconds.round() as i64)
    }

    /// What the axis is called.
    pub fn name(self) -> String {
        match self.times.at(0).date() {
            None if self.shows_days() => "days".into(),
            Some(_) if self.shows_days() => "dates".into(),
            None => "clock time".into(),
            Some(date) => format!("clock time, from {date} on"),
        }
    }

    fn shows_days(self) -> bool {
        self.frames > MOST_FOR_HOURS
    }

    /// The smallest step with which the marks have room on the axis.
    fn step(self) -> u32 {
        let has_room = |step: &u32| self.frames / *step as usize <= FRAME_AXIS_CHARACTERS / HOUR_CHARACTERS;
        let hours = HOUR_STEPS.into_iter().find(has_room).filter(|_| !self.shows_days());
        hours.unwrap_or(DAY)
    }
}

#[cfg(test)]
mod tests {
    use super::*;

    fn times(begins: &str) -> Times {
        Times::from(Moment::readings(begins)[0])
    }

    fn marks_of(times: Times, frames: usize) -> Vec<(f64, String)> {
        let clock = Clock::new(times, frames);
        let ticks = clock.ticks().into_iter();
        ticks.map(|tick| (tick, clock.label(tick))).collect()
    }

    fn marks(begins: &str, frames: usize) -> Vec<(f64, String)> {
        marks_of(times(begins), frames)
    }

    fn labels(begins: &str, frames: usize) -> Vec<String> {
        marks(begins, frames).into_iter().map(|(_, label)| label).collect()
    }

    #[test]
    fn a_day_has_hours() {
        let day = marks("00:00", 96);
        assert_eq!(day.len(), 13);
        assert_eq!((day[0].0, day[0].1.as_str()), (0.5, "00:00"));
        assert_eq!((day[3].0, day[3].1.as_str()), (24.5, "06:00"));
        assert_eq!((day[12].0, day[12].1.as_str()), (96.5, "00:00"));
        assert_eq!(labels("06:00", 6)[..3], ["06:00", "06:15", "06:30"]);
        assert_eq!(labels("2026-06-21 21:10", 16)[..2], ["21:30", "22:00"]);
        assert!((marks("21:10", 16)[0].0 - 0.5 - 20.0 / 15.0).abs() < 1e-9);
        assert!((10..=15).contains(&labels("05:00", 192).len()));
    }

    #[test]
    fn a_week_has_days() {
        let dates = labels("2026-06-27 00:00", 672);
        assert_eq!(dates.len(), 7);
        assert_eq!((dates[0].as_str(), dates[6].as_str()), ("2026-06-27", "2026-07-03"));
        assert_eq!(labels("06:00", 300), ["day 2", "day 3", "day 4"]);
        assert_eq!(labels("00:00", 300), ["day 1", "day 2", "day 3", "day 4"]);
        assert_eq!(marks("2026-06-21 18:00", 193)[0], (24.5, "2026-06-22".to_string()));
        let name = |begins: &str, frames| Clock::new(times(begins), frames).name();
        assert_eq!(name("06:00", 96) + &name("06:00", 672), "clock timedays");
        assert_eq!(name("2026-06-21 06:00", 96), "clock time, from 2026-06-21 on");
    }

    /// Times from a midnight on, with a changed clock from 01:00 UTC on.
    fn changed(midnight: &str, changed: &str, frame: usize) -> Times {
        let times = times(midnight).with(frame, Moment::readings(changed)[0]);
        times.expect("a changed clock")
    }

    #[test]
    fn a_changed_clock_has_its_own_hours() {
        let spring = changed("2026-03-29 00:00+01:00", "2026-03-29 03:00+02:00", 8);
        let marks = marks_of(spring, 92);
        assert_eq!(
            marks[..3],
            [(0.5, "00:00".into()), (12.5, "04:00".into()), (20.5, "06:00".into())]
        );
        assert_eq!(marks.last(), Some(&(92.5, "00:00".to_string())));
        let autumn = changed("2026-10-25 00:00+02:00", "2026-10-25 02:00+01:00", 12);
        let marks = marks_of(autumn, 100);
        assert_eq!(
            marks[..3],
            [(0.5, "00:00".into()), (8.5, "02:00".into()), (20.5, "04:00".into())]
        );
        assert_eq!(marks.last(), Some(&(100.5, "00:00".to_string())));
        let week = changed("2026-03-29 00:00+01:00", "2026-03-29 03:00+02:00", 8);
        assert_eq!(
            marks_of(week, 400)[..2],
            [(0.5, "2026-03-29".into()), (92.5, "2026-03-30".into())]
        );
    }
}
