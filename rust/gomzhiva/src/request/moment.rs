//! When a frame begins: a clock time, with a date and an offset from UTC where the text has them.

use super::forms::{readings_in, DateOrder};
use chrono::{Datelike, Duration, NaiveDate, NaiveDateTime, Timelike};
use std::fmt;

/// A frame is a quarter hour.
pub const FRAME_SECONDS: i64 = 900;
const DAY_SECONDS: i64 = 86_400;
/// The last year that four digits can say.
const LAST_YEAR: i32 = 9999;

/// When a frame begins.
#[derive(Clone, Copy, Debug, PartialEq, Eq)]
pub struct Moment {
    at: NaiveDateTime,
    /// Without a date it is any day's.
    is_dated: bool,
    /// Minutes ahead of UTC.
    offset: Option<i32>,
}

impl Moment {
    /// So many seconds after the midnight with which a day begins; any day's if none is given.
    pub fn new(day: Option<NaiveDate>, seconds: i64) -> Moment {
        let midnight = day.unwrap_or_default().and_hms_opt(0, 0, 0).expect("midnight");
        Moment {
            at: midnight + Duration::seconds(seconds),
            is_dated: day.is_some(),
            offset: None,
        }
    }

    /// The same clock time so many minutes ahead of UTC.
    pub fn ahead(self, minutes: i32) -> Moment {
        let offset = Some(minutes);
        Moment { offset, ..self }
    }

    /// What a text may mean: nothing if it is no clock time, several moments where its date may be taken for others.
    pub fn readings(text: &str) -> Vec<Moment> {
        let mut readings = Vec::new();
        for moment in DateOrder::ALL.map(|order| readings_in(text, order)).concat() {
            if !readings.contains(&moment) {
                readings.push(moment);
            }
        }
        readings
    }

    /// When a later frame begins.
    pub fn later(self, frames: usize) -> Moment {
        self.later_by(FRAME_SECONDS * frames as i64)
    }

    /// The moment so many seconds later.
    pub fn later_by(self, seconds: i64) -> Moment {
        let at = self.at + Duration::seconds(seconds);
        Moment { at, ..self }
    }

    /// How many midnights there are from another moment on.
    pub fn days_from(self, other: Moment) -> i64 {
        (self.at.date() - other.at.date()).num_days()
    }

    /// The same clock time of any day; an offset behind UTC, which could be the end of the frame then, goes with the date.
    pub fn undated(self) -> Moment {
        Moment {
            offset: self.offset.filter(|&minutes| minutes >= 0),
            ..Moment::new(None, self.second_of_day().into())
        }
    }

    /// Whether both are written with the same parts and are the same moment.
    pub fn is(self, other: Moment) -> bool {
        (self.is_dated, self.offset.is_some()) == (other.is_dated, other.offset.is_some())
            && self.seconds_from(other) == 0
    }

    /// Whether both may be the same time of some day, as far as both tell: another date may have another offset.
    pub fn agrees(self, other: Moment) -> bool {
        let clocks = self.at.time() == other.at.time();
        if self.offset.is_none() || other.offset.is_none() {
            return clocks;
        }
        let dates = self.is_dated && other.is_dated && self.at.date() != other.at.date();
        (self.in_utc() - other.in_utc()).num_seconds() % DAY_SECONDS == 0 || dates && clocks
    }

    /// Whether the clock was put forward or back by an hour from one to the other.
    pub fn is_an_hour_from(self, other: Moment) -> bool {
        let seconds = self.seconds_from(other).rem_euclid(DAY_SECONDS);
        self.is_dated == other.is_dated && [3_600, DAY_SECONDS - 3_600].contains(&seconds)
    }

    /// How much later it is than the other one; without dates less than a day.
    fn seconds_from(self, other: Moment) -> i64 {
        let seconds = (self.in_utc() - other.in_utc()).num_seconds();
        if self.is_dated {
            seconds
        } else {
            seconds.rem_euclid(DAY_SECONDS)
        }
    }

    fn in_utc(self) -> NaiveDateTime {
        self.at - Duration::minutes(self.offset.unwrap_or(0).into())
    }

    /// Minutes ahead of UTC, if the text has them.
    pub fn offset(self) -> Option<i32> {
        self.offset
    }

    /// The same moment with another offset.
    pub fn with_offset(self, minutes: i32) -> Moment {
        Moment {
            at: self.in_utc() + Duration::minutes(minutes.into()),
            offset: Some(minutes),
            ..self
        }
    }

    /// The date, if it has one.
    pub fn date(self) -> Option<NaiveDate> {
        self.is_dated.then(|| self.at.date())
    }

    /// Whether it can be written: with a year of four digits.
    pub fn is_written(&self) -> bool {
        !self.is_dated || self.at.year() <= LAST_YEAR
    }

    /// Seconds since midnight.
    pub fn second_of_day(self) -> u32 {
        self.at.num_seconds_from_midnight()
    }

    /// The clock time alone.
    pub fn clock(self) -> String {
        let seconds = if self.at.second() == 0 { "" } else { ":%S" };
        self.at.format(&format!("%H:%M{seconds}")).to_string()
    }

    /// Whether the offset behind the clock time could be taken for the end of the frame.
    fn may_be_range(self) -> bool {
        let end = -60 * self.offset.unwrap_or(0);
        end > 0 && self.later(1).second_of_day() as i32 == end
    }

    /// As one word, without a blank.
    pub fn word(self) -> String {
        self.to_string().replace(' ', "T")
    }
}

impl fmt::Display for Moment {
    fn fmt(&self, f: &mut fmt::Formatter<'_>) -> fmt::Result {
        if let Some(date) = self.date() {
            write!(f, "{date} ")?;
        }
        if self.may_be_range() {
            // With its seconds it is none, since a range has them at both of its ends or at none.
            write!(f, "{}", self.at.format("%H:%M:%S"))?;
        } else {
            f.write_str(&self.clock())?;
        }
        match self.offset {
            None => Ok(()),
            Some(0) => f.write_str("Z"),
            Some(minutes) => {
                let (sign, ahead) = (if minutes < 0 { '-' } else { '+' }, minutes.abs());
                write!(f, "{sign}{:02}:{:02}", ahead / 60, ahead % 60)
            }
        }
    }
}

#[cfg(test)]
mod tests {
    use super::*;

    fn one(text: &str) -> Moment {
        Moment::readings(text)[0]
    }

    #[test]
    fn a_frame_later_is_a_quarter_hour_later() {
        for (text, frames, later) in [
            ("06:00", 1, "06:15"),
            ("23:45", 1, "00:00"),
            ("06:00", 96, "06:00"),
            ("2026-06-30 23:45", 1, "2026-07-01 00:00"),
            ("2028-02-28 23:45", 1, "2028-02-29 00:00"),
            ("2026-06-21 06:00+02:00", 672, "2026-06-28 06:00+02:00"),
        ] {
            let moment = one(text).later(frames);
            assert_eq!(moment.to_string(), later);
            assert!(moment.is(one(later)) && moment.agrees(one(later)));
        }
        let is = |left: &str, right: &str| one(left).is(one(right));
        assert!(is("2026-10-25 03:00+02:00", "2026-10-25 02:00+01:00"));
        assert!(is("24:00", "00:00") && is("2026-06-21 24:00", "2026-06-22 00:00"));
        for (left, right) in [
            ("06:00", "06:15"),
            ("06:00", "2026-06-21 06:00"),
            ("2026-06-21 06:00", "2026-06-22 06:00"),
            ("06:00", "06:00Z"),
            ("06:00+01:00", "06:00Z"),
        ] {
            assert!(!is(left, right) && !is(right, left), "{left} {right}");
        }
    }

    #[test]
    fn an_hour_more_or_less_may_be_a_change_of_the_clock() {
        let hour = |left: &str, right: &str| one(left).is_an_hour_from(one(right));
        assert!(hour("02:00", "03:00") && hour("03:00", "02:00") && hour("23:30", "00:30"));
        assert!(hour("2026-03-29 03:00", "2026-03-29 02:00"));
        assert!(!hour("02:00", "02:15") && !hour("02:00", "04:00") && !hour("2026-03-29 03:00", "02:00"));
    }

    #[test]
    fn times_of_another_day_agree() {
        let agree = |left: &str, right: &str| one(left).agrees(one(right));
        assert!(agree("06:00", "2026-06-21 06:00") && agree("2026-06-20 06:00", "2026-06-21 06:00"));
        assert!(agree("06:00", "06:00Z") && !agree("06:00", "12:00Z"));
        assert!(!agree("06:00", "2026-06-21 06:15") && !agree("06:00+01:00", "06:00Z"));
        let (summer, winter) = ("2026-06-21 06:00+02:00", "2026-12-21 06:00+01:00");
        assert!(agree(summer, winter) && agree(summer, "2026-12-21 05:00+01:00"));
        assert!(!agree(summer, "2026-06-21 06:00+01:00") && !agree(summer, "2026-12-21 06:15+01:00"));
    }
}
