//! The forms in which a clock time may be written: a date if there is one, hours and minutes of a whole or a half day, and
//! behind them an offset from UTC, or the time at which the frame ends.

use super::Moment;
use chrono::NaiveDate;

/// The forms as a message tells them.
pub const FORMS: &str =
    "a clock time in one cell, such as 06:00, 06:00-06:15, 21.06.2026 06:00 or 2026-06-21T06:00+02:00,";

/// The offsets from UTC in minutes, besides whole hours, that some country has.
const ODD_OFFSETS: [i32; 13] = [-570, -210, -150, 210, 270, 330, 345, 390, 525, 570, 630, 765, 825];
const HOURS_AHEAD: std::ops::RangeInclusive<i32> = -12..=14;

/// The order of a date with slashes or dashes in which no year of four digits stands first.
#[derive(Clone, Copy, Debug, PartialEq, Eq)]
pub enum DateOrder {
    DayMonthYear,
    MonthDayYear,
    /// With a year of two digits.
    YearMonthDay,
}

impl DateOrder {
    pub const ALL: [DateOrder; 3] = [
        DateOrder::DayMonthYear,
        DateOrder::MonthDayYear,
        DateOrder::YearMonthDay,
    ];
}

/// Whether a text is meant to tell a time, readable or not: it has a digit.
pub fn tells_time(text: &str) -> bool {
    text.chars().any(char::is_numeric)
}

/// What a text may mean whose dates have this order: nothing if it is no clock time, two moments where the end of a frame may
/// be taken for an offset.
pub fn readings_in(text: &str, order: DateOrder) -> Vec<Moment> {
    read(text, order).unwrap_or_default()
}

fn read(text: &str, order: DateOrder) -> Option<Vec<Moment>> {
    let Begun { begins, clock, tail } = begun(text, order)?;
    let moments = match tail {
        "" => vec![begins],
        tail => {
            let offset = offset_minutes(tail).filter(|&minutes| minutes >= 0 || begins.date().is_some());
            let range = ends_frame(tail, begins, clock, order).then_some(begins);
            let offset = offset.map(|minutes| begins.ahead(minutes));
            range.into_iter().chain(offset).collect()
        }
    };
    Some(moments.into_iter().filter(Moment::is_written).collect())
}

/// A moment with which a text begins, its hours and minutes as they are written, and what stands behind them.
struct Begun<'a> {
    begins: Moment,
    clock: &'a str,
    tail: &'a str,
}

fn begun(text: &str, order: DateOrder) -> Option<Begun<'_>> {
    let (date, clock, tail) = parts(text.trim())?;
    let (half, tail) = half_of(tail.trim_start());
    let day = match date {
        "" => None,
        date => Some(day_of(before_clock(date)?, order)?),
    };
    let begins = Moment::new(day, seconds(clock, half)?);
    Some(Begun { begins, clock, tail })
}

/// What stands before the hours, the hours with their minutes, and what stands behind them.
fn parts(text: &str) -> Option<(&str, &str, &str)> {
    let is_digit = |c: char| c.is_ascii_digit();
    let hour = text[..text.find(':')?].trim_end_matches(is_digit).len();
    let (date, rest) = text.split_at(hour);
    let end = rest
        .find(|c: char| !is_digit(c) && !":.,".contains(c))
        .unwrap_or(rest.len());
    let (clock, tail) = rest.split_at(end);
    Some((date, clock, tail))
}

/// Whether this is the end of the frame that begins then, written alike, as in `06:00-06:15`.
fn ends_frame(tail: &str, begins: Moment, clock: &str, order: DateOrder) -> bool {
    let end = tail.strip_prefix(['-', '–']).and_then(|end| begun(end, order));
    end.map_or(false, |end| {
        let is_alike = end.tail.is_empty() && end.clock.split(':').count() == clock.split(':').count();
        let next = begins.later(1);
        is_alike && (end.begins.is(next) || end.begins.is(next.undated()))
    })
}

/// A date without what parts it from its clock time: T, blanks, or a comma.
fn before_clock(date: &str) -> Option<&str> {
    let parted = date.strip_suffix(['T', 't']);
    let parted = parted.unwrap_or_else(|| date.trim_end_matches(|c: char| c.is_whitespace() || c == ','));
    (parted != date).then_some(parted)
}

/// The day of a date: year, month and day, or day, month and year, or, parted by slashes or dashes, in this order.
fn day_of(text: &str, order: DateOrder) -> Option<NaiveDate> {
    let mark = text
        .chars()
        .find(|c| !c.is_ascii_digit())
        .filter(|c| "-./".contains(*c))?;
    let parts: Vec<&str> = text.split(mark).collect();
    let [first, second, third] = <[&str; 3]>::try_from(parts).ok()?;
    let (year, month, day) = match order {
        _ if first.len() == 4 => (first, second, third),
        DateOrder::MonthDayYear if mark != '.' => (third, first, second),
        DateOrder::YearMonthDay if mark != '.' => (first, second, third),
        _ => (third, second, first),
    };
    NaiveDate::from_ymd_opt(year_of(year)?, two(month)?, two(day)?)
}

/// A year of four digits, or of two in this century.
fn year_of(text: &str) -> Option<i32> {
    let is_year = text.bytes().all(|b| b.is_ascii_digit());
    let year: i32 = is_year.then(|| text.parse().ok())??;
    match text.len() {
        4 => Some(year),
        2 => Some(2000 + year),
        _ => None,
    }
}

/// A number of one or two digits.
fn two(text: &str) -> Option<u32> {
    let is_short = (1..=2).contains(&text.len()) && text.bytes().all(|b| b.is_ascii_digit());
    is_short.then(|| text.parse().ok())?
}

/// A half of the day: before or after noon.
#[derive(Clone, Copy, PartialEq, Eq)]
enum Half {
    Am,
    Pm,
}

/// The half of the day behind a clock time, if it has one, and what stands behind that.
fn half_of(tail: &str) -> (Option<Half>, &str) {
    let end = tail
        .find(|c: char| !c.is_ascii_alphabetic() && c != '.')
        .unwrap_or(tail.len());
    // A Z directly behind it is its offset.
    let letters = tail[..end].trim_end_matches(['Z', 'z']);
    let half = match letters.to_ascii_lowercase().as_str() {
        "am" | "a.m." => Half::Am,
        "pm" | "p.m." => Half::Pm,
        _ => return (None, tail),
    };
    (Some(half), tail[letters.len()..].trim_start())
}

/// Minutes ahead of UTC: none, or hours and minutes with a sign, as some country has them.
fn offset_minutes(text: &str) -> Option<i32> {
    let sign = match text.chars().next()? {
        'Z' | 'z' => return (text.len() == 1).then_some(0),
        '+' => 1,
        '-' => -1,
        _ => return None,
    };
    let (hours, minutes) = match text[1..].split_once(':') {
        Some(parted) => parted,
        None if text.len() == 5 => text[1..].split_at(2),
        None => (&text[1..], "00"),
    };
    let (hours, minutes) = (pair(hours)?, pair(minutes).filter(|&minutes| minutes < 60)?);
    let ahead = sign * (hours * 60 + minutes) as i32;
    let is_offset = minutes == 0 && HOURS_AHEAD.contains(&(ahead / 60)) || ODD_OFFSETS.contains(&ahead);
    is_offset.then_some(ahead)
}

/// Seconds since midnight: hours and minutes, and seconds without a fraction, if there are any. 24:00 is midnight at the
/// end of the day.
fn seconds(clock: &str, half: Option<Half>) -> Option<i64> {
    let parts: Vec<&str> = clock.split(':').collect();
    let (hour, minute, second) = match *parts.as_slice() {
        [hour, minute] => (two(hour)?, pair(minute)?, 0),
        [hour, minute, second] => (two(hour)?, pair(minute)?, pair(whole_second(second)?)?),
        _ => return None,
    };
    let hour = match half {
        None => hour,
        Some(_) if !(1..=12).contains(&hour) => return None,
        Some(half) => hour % 12 + if half == Half::Pm { 12 } else { 0 },
    };
    let is_clock = hour < 24 && minute < 60 && second < 60 || (hour, minute, second) == (24, 0, 0);
    is_clock.then(|| i64::from(hour * 3_600 + minute * 60 + second))
}

/// A number of two digits.
fn pair(text: &str) -> Option<u32> {
    two(text).filter(|_| text.len() == 2)
}

/// The seconds without a fraction of zeros.
fn whole_second(text: &str) -> Option<&str> {
    match text.split_once(['.', ',']) {
        None => Some(text),
        Some((second, fraction)) => {
            let is_zero = !fraction.is_empty() && fraction.bytes().all(|b| b == b'0');
            is_zero.then_some(second)
        }
    }
}

#[cfg(test)]
mod tests {
    use super::*;

    fn shown(text: &str) -> Vec<String> {
        Moment::readings(text).iter().map(Moment::to_string).collect()
    }

    fn one(text: &str) -> Moment {
        Moment::readings(text)[0]
    }

    #[test]
    fn moments_in_every_form() {
        for (text, moment) in [
            ("06:00", "06:00"),
            ("6:00", "06:00"),
            ("06:00:00", "06:00"),
            ("06:07:30.000", "06:07:30"),
            ("6:15 am", "06:15"),
            ("12:00 AM", "00:00"),
            ("12:45 p.m.", "12:45"),
            ("6:00 AMZ", "06:00Z"),
            ("6:00 pm +02:00", "18:00+02:00"),
            ("24:00", "00:00"),
            ("15:00 - 15:15", "15:00"),
            ("06:45–07:00", "06:45"),
            ("2026-06-21 23:45-24:00", "2026-06-21 23:45"),
            ("23:30-23:45", "23:30"),
            ("06:00-06:15", "06:00"),
            ("6:00 AM - 6:15 AM", "06:00"),
            ("11:45 am–12:00 pm", "11:45"),
            ("31.12.2025 23:45 - 01.01.2026 00:00", "2025-12-31 23:45"),
            ("2026-06-21 06:00-06:15", "2026-06-21 06:00"),
            ("2026-06-21\u{a0}06:00", "2026-06-21 06:00"),
            ("2026-06-21 06:00-09:30", "2026-06-21 06:00-09:30"),
            ("06:00Z", "06:00Z"),
            ("2026-06-21 06:00", "2026-06-21 06:00"),
            ("2026-06-21T06:00", "2026-06-21 06:00"),
            ("2026-06-21T06:00:00Z", "2026-06-21 06:00Z"),
            ("2026-06-21 06:00+0200", "2026-06-21 06:00+02:00"),
            ("2026-06-21T06:00:00.0 -03:30", "2026-06-21 06:00-03:30"),
            ("2026/6/21, 23:45", "2026-06-21 23:45"),
            ("21.6.2026, 06:15", "2026-06-21 06:15"),
            ("21.06.26 06:15", "2026-06-21 06:15"),
            ("21/06/2026 06:15", "2026-06-21 06:15"),
            ("6/21/2026 6:15 PM", "2026-06-21 18:15"),
            ("6/6/2026 6:15", "2026-06-06 06:15"),
            ("31.12.2026 24:00", "2027-01-01 00:00"),
        ] {
            assert_eq!(shown(text), [moment], "{text:?}");
            assert_eq!(shown(moment), [moment], "{moment:?}");
            assert_eq!(shown(&one(moment).word()), [moment], "{moment:?}");
        }
        let both = ["2026-07-06 06:00", "2026-06-07 06:00"];
        assert_eq!(shown("6/7/2026 06:00"), both);
        assert_eq!(shown("06-07-2026 06:00"), both);
        let ranges = ["2026-06-21 09:15", "2026-06-21 09:15:00-09:30"];
        assert_eq!(shown("2026-06-21 09:15-09:30"), ranges, "a frame, or an offset");
        assert_eq!(
            shown("2026-06-21 09:15:00-09:30"),
            ranges[1..],
            "an offset, as it is printed"
        );
        assert!(shown(&vec!["06:00"; 20_000].join("-")).is_empty());
        let in_order = |order| readings_in("6/13/2026 06:00", order).len();
        assert_eq!(DateOrder::ALL.map(in_order), [0, 1, 0]);
        let orders = ["2026-06-21 06:00", "2021-06-26 06:00"];
        assert_eq!(shown("21/06/26 06:00"), orders);
        assert_eq!(shown("26-06-21 06:00"), [orders[1], orders[0]]);
    }

    #[test]
    fn what_is_no_moment() {
        for text in [
            "",
            "noon",
            "6 h",
            "0600",
            ":",
            "6:",
            ":15",
            "6:5",
            "25:00",
            "24:15",
            "06:60",
            "06:00:61",
            "06:00:00.5",
            "06:00:00.",
            "06:00:00:00",
            "13:00 pm",
            "0:00 am",
            "06:00 Uhr",
            "12:00-12:30 h",
            "15:00-15:30",
            "06:00-06:07",
            "06:00-03:30",
            "6:00 AM - 6:15 PM",
            "6:00 .AM",
            "06:00-06:15-06:30",
            "06:00:00-06:15",
            "06:00+1:0",
            "06:00+:00",
            "06:00+02:",
            "06:00+04:90",
            "06:00+0190",
            "06:00+0:2:00",
            "06:00+é0",
            "06:00+00é",
            "01.01.2026 00:00 - 02.01.2026 00:15",
            "2026-06-21 06:00-06:30",
            "2026-06-21 06:00+01:15",
            "2026-06-21 06:00-13:00",
            "06:00+14:30",
            "06:00+15:00",
            "06:00+2",
            "2026-06-2106:00",
            "2026-06-31 06:00",
            "2026-13-01 06:00",
            "2026-06 06:00",
            "31.02.2026 06:00",
            "13/13/2026 06:00",
            "9999-12-31 24:00",
            "226-06-21 06:00",
            "Sum 06:00",
            "ü6:00 ü",
        ] {
            assert!(shown(text).is_empty(), "{text:?}");
        }
        assert!(tells_time("6 h") && tells_time("46188,25") && !tells_time("noon") && !tells_time(""));
    }
}
