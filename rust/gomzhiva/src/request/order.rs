//! What the columns `frame` and `time` say: that each line is the frame behind the one before, so that a line of totals, or
//! a table with frames missing or in another order, is not taken for a day.

use super::cells::Row;
use super::fault::Fault;
use super::forms::{readings_in, tells_time, DateOrder, FORMS};
use super::sheet::number;
use super::{Moment, Times};

/// The numbers and the times of the lines so far.
#[derive(Debug, Default)]
pub struct Order {
    next: Option<u64>,
    times: Column,
    /// Where the first clock time stands.
    place: Option<Fault>,
    /// The fault of the line at which the clock is changed, if its date may be taken for another.
    changed: Option<Fault>,
}

/// What is expected where the clock is changed: without its date it could not be shown.
const ONE_DATE: &str = "a date that can be read in one way alone, such as 2026-11-01, where the clock is changed,";

#[derive(Debug, Default)]
enum Column {
    /// No line was read.
    #[default]
    Open,
    /// What stands there are no clock times, but for people alone.
    Labels,
    /// When the frames may begin, with dates in each order, and how many frames there are.
    Clock { times: [Vec<Times>; 3], frames: usize },
}

impl Order {
    /// Takes the number of a line's frame: any for the first one, then always one more.
    pub fn number(&mut self, row: &Row<'_>, i: usize) -> Result<(), Fault> {
        let found = number(row, i).map(u64::from);
        if let Some(next) = self.next {
            if found != Ok(next) {
                return Err(row.unlike(i, &next_frame(next)));
            }
        }
        self.next = Some(found? + 1);
        Ok(())
    }

    /// Takes the time at which a line's frame begins: always a quarter hour later, if the first one is a clock time.
    pub fn time(&mut self, row: &Row<'_>, i: usize) -> Result<(), Fault> {
        let text = row.text(i);
        let readings = DateOrder::ALL.map(|order| readings_in(text, order));
        match &mut self.times {
            Column::Clock { times, frames } => {
                let told = next_time(times, *frames);
                for (times, readings) in times.iter_mut().zip(&readings) {
                    *times = going_on(times, *frames, readings);
                }
                if times.iter().all(Vec::is_empty) {
                    let found = readings.iter().flatten().next();
                    return Err(row.unlike(i, &expected(told, found)));
                }
                let changes = |times: &Times| times.changes_at() == Some(*frames);
                if times.iter().flatten().any(changes) {
                    self.changed = Some(row.unlike(i, ONE_DATE));
                }
                *frames += 1;
            }
            _ if !tells_time(text) => self.times = Column::Labels,
            Column::Labels => return Err(row.unlike(i, "a clock time for each frame or for none")),
            Column::Open if readings.concat().is_empty() => return Err(row.unlike(i, FORMS)),
            Column::Open => {
                let times = readings.map(|readings| readings.into_iter().map(Times::from).collect());
                self.times = Column::Clock { times, frames: 1 };
                self.place = Some(row.unlike(i, ""));
            }
        }
        Ok(())
    }

    /// What is to be known once all lines were taken: on which dates the clock is changed.
    pub fn close(&mut self) -> Result<(), Fault> {
        match self.changed.take() {
            Some(changed) if self.times().is_none() => Err(changed),
            _ => Ok(()),
        }
    }

    /// The fault of a first clock time that is not this one.
    pub fn begins_unlike(&self, asked: Moment) -> Option<Fault> {
        let is_other = self.times().map_or(false, |times| !times.at(0).agrees(asked));
        let place = self.place.clone().filter(|_| is_other)?;
        let expected = format!("{asked}, when the request begins,");
        Some(Fault { expected, ..place })
    }

    /// When the frames begin, if there are clock times; without their dates where these may be taken for others.
    pub fn times(&self) -> Option<Times> {
        match &self.times {
            Column::Clock { times, .. } => common(times),
            _ => None,
        }
    }
}

/// What is expected behind the frames so far: one more, if its number is one.
fn next_frame(next: u64) -> String {
    match u32::try_from(next) {
        Ok(next) => format!("frame {next} or the end of the table"),
        Err(_) => "the end of the table".into(),
    }
}

/// Those of the times that have such a further frame.
fn going_on(times: &[Times], frame: usize, readings: &[Moment]) -> Vec<Times> {
    let with = |times: &Times| readings.iter().find_map(|&reading| times.with(frame, reading));
    times.iter().filter_map(with).collect()
}

/// When a further frame begins, without its date where that is not known yet.
fn next_time(times: &[Vec<Times>], frame: usize) -> Moment {
    let undated = || times.iter().flatten().next().map(|times| times.at(frame).undated());
    let known = common(times).map(|times| times.at(frame));
    known.or_else(undated).expect("times, as long as there are lines")
}

/// The first of these times, without their dates if these are not the same; none where the clock is changed on such a date.
fn common(times: &[Vec<Times>]) -> Option<Times> {
    let mut times = times.iter().flatten();
    let first = *times.next()?;
    let is_of_other_days = |times: &Times| times.at(0).date() != first.at(0).date();
    if times.any(is_of_other_days) {
        first.undated()
    } else {
        Some(first)
    }
}

/// What is expected in place of another time.
fn expected(next: Moment, found: Option<&Moment>) -> String {
    let has_offsets = |found: &Moment| next.offset().is_some() || found.offset().is_some();
    let is_changed = |found: &Moment| !has_offsets(found) && found.undated().is_an_hour_from(next.undated());
    let changed = if found.map_or(false, is_changed) {
        "; where the clock is changed, every line needs its offset, such as 2026-03-29 01:45+01:00"
    } else {
        ""
    };
    if next.is_written() {
        format!("{next} (15 minutes after the frame before{changed}) or the end of the table")
    } else {
        "the end of the table".into()
    }
}
