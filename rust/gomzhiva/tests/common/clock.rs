//! Clock times and the forms in which they are written, by the tests' own arithmetic.

use proptest::prelude::*;
use proptest::sample::select;

const DAY: i64 = 24 * 60;

/// Minutes since the year 2000 began.
#[derive(Clone, Copy, Debug, PartialEq, Eq)]
pub struct Minute(pub i64);

fn month_lengths(year: i64) -> [i64; 12] {
    let is_leap = year % 4 == 0 && (year % 100 != 0 || year % 400 == 0);
    [
        31,
        if is_leap { 29 } else { 28 },
        31,
        30,
        31,
        30,
        31,
        31,
        30,
        31,
        30,
        31,
    ]
}

impl Minute {
    pub fn later(self, minutes: i64) -> Minute {
        Minute(self.0 + minutes)
    }

    /// Year, month and day.
    pub fn date(self) -> [i64; 3] {
        let (mut year, mut month, mut days) = (2000, 1, self.0.div_euclid(DAY));
        for length in (2000..).flat_map(month_lengths) {
            if days < length {
                break;
            }
            days -= length;
            month += 1;
            if month > 12 {
                (year, month) = (year + 1, 1);
            }
        }
        [year, month, days + 1]
    }

    /// Hour and minute.
    pub fn clock(self) -> [i64; 2] {
        let minute = self.0.rem_euclid(DAY);
        [minute / 60, minute % 60]
    }

    /// `2026-06-21`.
    pub fn iso(self) -> String {
        let [year, month, day] = self.date();
        format!("{year}-{month:02}-{day:02}")
    }

    /// As it is printed with an offset: with its seconds where that is the end of the frame.
    pub fn hours_and(self, offset: &str) -> String {
        let seconds = match offset.strip_prefix('-') {
            Some(end) if self.later(15).hours() == end => ":00",
            _ => "",
        };
        format!("{}{seconds}{offset}", self.hours())
    }

    /// `06:15`.
    pub fn hours(self) -> String {
        let [hour, minute] = self.clock();
        format!("{hour:02}:{minute:02}")
    }
}

/// How a date is written.
#[derive(Clone, Copy, Debug, PartialEq, Eq)]
pub enum Date {
    None,
    Dashed,
    Slashed,
    Dotted,
    ShortDotted,
    DayFirst(&'static str),
    MonthFirst(&'static str),
}

impl Date {
    fn write(self, [year, month, day]: [i64; 3]) -> String {
        match self {
            Date::None => String::new(),
            Date::Dashed => format!("{year}-{month:02}-{day:02}"),
            Date::Slashed => format!("{year}/{month}/{day}"),
            Date::Dotted => format!("{day}.{month}.{year}"),
            Date::ShortDotted => format!("{day:02}.{month:02}.{:02}", year % 100),
            Date::DayFirst(mark) => format!("{day}{mark}{month:02}{mark}{year}"),
            Date::MonthFirst(mark) => format!("{month}{mark}{day:02}{mark}{year}"),
        }
    }
}

/// How hours and minutes are written.
#[derive(Clone, Copy, Debug, PartialEq, Eq)]
pub enum Hours {
    Padded,
    Bare,
    Seconds(&'static str),
    Halves(&'static str),
}

impl Hours {
    fn write(self, [hour, minute]: [i64; 2]) -> String {
        match self {
            Hours::Padded => format!("{hour:02}:{minute:02}"),
            Hours::Bare => format!("{hour}:{minute:02}"),
            Hours::Seconds(seconds) => format!("{hour:02}:{minute:02}:{seconds}"),
            Hours::Halves(names) => {
                let (am, pm) = names.split_once('/').expect("two halves of the day");
                let half = if hour < 12 { am } else { pm };
                format!("{}:{minute:02}{half}", (hour + 11) % 12 + 1)
            }
        }
    }
}

/// What stands behind a clock time: nothing, an offset and how it is printed, or when the frame ends.
#[derive(Clone, Copy, Debug, PartialEq, Eq)]
pub enum Tail {
    None,
    Offset(&'static str, &'static str),
    End(&'static str),
}

/// How a moment is written.
#[derive(Clone, Copy, Debug)]
pub struct Form {
    pub date: Date,
    pub joint: &'static str,
    pub hours: Hours,
    pub tail: Tail,
    /// Midnight is 24:00 of the day before.
    pub ends_days: bool,
}

impl Form {
    pub const PLAIN: Form = Form {
        date: Date::None,
        joint: " ",
        hours: Hours::Padded,
        tail: Tail::None,
        ends_days: false,
    };

    /// The day and the time of the day that are shown.
    fn shown(&self, at: Minute) -> ([i64; 3], [i64; 2]) {
        let has_24 = self.ends_days && !matches!(self.hours, Hours::Halves(_));
        match at.clock() {
            [0, 0] if has_24 => (at.later(-DAY).date(), [24, 0]),
            clock => (at.date(), clock),
        }
    }

    pub fn write(&self, at: Minute) -> String {
        let (date, clock) = self.shown(at);
        let joint = if self.date == Date::None { "" } else { self.joint };
        let tail = match self.tail {
            Tail::None => String::new(),
            Tail::Offset(offset, _) => offset.to_string(),
            Tail::End(dash) => format!("{dash}{}", self.hours.write(self.shown(at.later(15)).1)),
        };
        format!("{}{joint}{}{tail}", self.date.write(date), self.hours.write(clock))
    }

    /// Whether a column of these moments says its dates: those with day and month in either order may not.
    fn says_dates(&self, column: &[Minute]) -> bool {
        let [_, month, day] = self.shown(column[0]).0;
        let is_changing = column.iter().any(|&at| self.shown(at).0 != self.shown(column[0]).0);
        match self.date {
            Date::None => false,
            Date::DayFirst(_) | Date::MonthFirst(_) => is_changing || day > 12 || day == month,
            _ => true,
        }
    }

    /// A column of these moments as it is printed, with this between date and clock time.
    pub fn printed(&self, column: &[Minute], joint: &str) -> Vec<String> {
        let says_dates = !column.is_empty() && self.says_dates(column);
        // An offset behind UTC goes with a date that may be taken for another.
        let offset = match self.tail {
            Tail::Offset(_, printed) if says_dates || !printed.starts_with('-') => printed,
            _ => "",
        };
        let date = |at: &Minute| if says_dates { at.iso() + joint } else { String::new() };
        let print = |at: &Minute| date(at) + &at.hours_and(offset);
        column.iter().map(print).collect()
    }
}

/// Any moment of the years 2000 to 2099, as likely as not close to midnight.
pub fn minutes() -> impl Strategy<Value = Minute> {
    let days = prop_oneof![
        0..36_500i64,
        // The ends of February 2028 and of the year 2026, and days that may be taken for months.
        select(vec![10_285i64, 9_861, 9_656, 9_474]),
    ];
    (days, prop_oneof![0..DAY, DAY - 120..DAY]).prop_map(|(days, minute)| Minute(days * DAY + minute))
}

pub fn forms() -> impl Strategy<Value = Form> {
    let dates = vec![
        Date::None,
        Date::None,
        Date::Dashed,
        Date::Slashed,
        Date::Dotted,
        Date::ShortDotted,
        Date::DayFirst("/"),
        Date::DayFirst("-"),
        Date::MonthFirst("/"),
        Date::MonthFirst("-"),
    ];
    let hours = vec![
        Hours::Padded,
        Hours::Bare,
        Hours::Seconds("00"),
        Hours::Seconds("00.000"),
        Hours::Halves(" AM/ PM"),
        Hours::Halves("am/pm"),
        Hours::Halves(" a.m./ p.m."),
    ];
    let tails = vec![
        Tail::None,
        Tail::None,
        Tail::Offset("Z", "Z"),
        Tail::Offset("+00:00", "Z"),
        Tail::Offset("+02:00", "+02:00"),
        Tail::Offset("-0330", "-03:30"),
        Tail::Offset("+09", "+09:00"),
        Tail::Offset(" +05:45", "+05:45"),
        Tail::End("-"),
        Tail::End(" - "),
        Tail::End("–"),
    ];
    let joints = vec![" ", "  ", "T", ", "];
    (
        select(dates),
        select(joints),
        select(hours),
        select(tails),
        any::<bool>(),
    )
        .prop_map(|(date, joint, hours, tail, ends_days)| Form {
            date,
            joint,
            hours,
            tail: match tail {
                // Without a date that would be the end of a frame.
                Tail::Offset("-0330", _) if date == Date::None => Tail::None,
                tail => tail,
            },
            ends_days,
        })
}
