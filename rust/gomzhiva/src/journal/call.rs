//! The calls of a shift as text, one line each.

use crate::request::{Bound, Calendar, FrameLists, Moment, Request, Times, NO_BOUND};
use energy::Figures;
use std::fmt;

/// A call that changes a shift.
#[derive(Clone, Debug, PartialEq, Eq)]
pub enum Call {
    Start(Request),
    Record { harvest: u32, used: u32 },
}

impl fmt::Display for Call {
    fn fmt(&self, f: &mut fmt::Formatter<'_>) -> fmt::Result {
        match self {
            Call::Start(Request { figures, frames }) => {
                let Figures { capacity, start, end } = figures;
                write!(f, "start capacity {capacity} start {start} end {end}")?;
                write_times(f, frames.calendar)?;
                write!(f, " harvest")?;
                frames.harvest.iter().try_for_each(|harvest| write!(f, " {harvest}"))?;
                frames.bounds().into_iter().try_for_each(|bound| {
                    write!(f, " {}", bound.name())?;
                    let mut listed = frames.list(bound).iter();
                    listed.try_for_each(|&listed| write!(f, " {}", bound.text(listed)))
                })
            }
            Call::Record { harvest, used } => write!(f, "record {harvest} {used}"),
        }
    }
}

impl Call {
    /// The call of a line: just the text that it is shown as.
    pub fn parse(text: &str) -> Option<Call> {
        let words: Vec<&str> = text.split(' ').collect();
        let call = match words.as_slice() {
            ["record", harvest, used] => Call::Record {
                harvest: number(harvest)?,
                used: number(used)?,
            },
            ["start", "capacity", capacity, "start", start, "end", end, frames @ ..] => {
                let figures = Figures {
                    capacity: number(capacity)?,
                    start: number(start)?,
                    end: number(end)?,
                };
                let frames = frame_lists(frames)?;
                Call::Start(Request { figures, frames })
            }
            _ => return None,
        };
        (call.to_string() == text).then_some(call)
    }

    /// Whether a text is the beginning of a recording's line: something completes it to a recording, or it is one and the
    /// blank behind it.
    pub fn begins_recording(text: &str) -> bool {
        let records = |text: &str| matches!(Call::parse(text), Some(Call::Record { .. }));
        let completed = |rest: &&str| records(&format!("{text}{rest}"));
        "record".starts_with(text)
            || ["", "0", " 0", "0 0"].iter().any(completed)
            || text.strip_suffix(' ').map_or(false, records)
    }
}

fn number(word: &str) -> Option<u32> {
    word.parse().ok()
}

/// Writes when the first frame begins, if that is known, and then the first one with another offset from UTC.
fn write_times(f: &mut fmt::Formatter<'_>, calendar: Calendar) -> fmt::Result {
    let times = match calendar.times {
        Some(times) => times,
        None => return Ok(()),
    };
    write!(f, " time {}", times.at(0).word())?;
    match times.changes_at() {
        None => Ok(()),
        Some(frame) => write!(f, " frame {} time {}", calendar.number(frame), times.at(frame).word()),
    }
}

/// The times that were written, and the words behind them.
fn times_of<'a, 'b>(words: &'a [&'b str]) -> Option<(Option<Times>, &'a [&'b str])> {
    let moment = |word: &str| Moment::readings(word).pop();
    match words {
        ["time", begins, "frame", frame, "time", changed, rest @ ..] => {
            let frame = number(frame)?.checked_sub(1)? as usize;
            let times = Times::from(moment(begins)?).with(frame, moment(changed)?)?;
            Some((Some(times), rest))
        }
        ["time", begins, rest @ ..] => Some((Some(Times::from(moment(begins)?)), rest)),
        rest => Some((None, rest)),
    }
}

/// When the frames begin, if that is known, the harvests, and behind the name of each bound that some frame has its list.
fn frame_lists(words: &[&str]) -> Option<FrameLists> {
    let (times, words) = times_of(words)?;
    let words = words.strip_prefix(&["harvest"])?;
    let (words, most) = parted(words, Bound::Most);
    let (words, least) = parted(words, Bound::Least);
    let harvest: Vec<u32> = words.iter().map(|word| number(word)).collect::<Option<_>>()?;
    let limits = |bound, words| limits(bound, words, harvest.len());
    let frames = FrameLists {
        calendar: Calendar { before: 0, times },
        least: limits(Bound::Least, least)?,
        most: limits(Bound::Most, most)?,
        harvest,
    };
    is_whole(&frames).then_some(frames)
}

/// The list of a bound from its words; without any, none of so many frames has the bound.
fn limits(bound: Bound, words: Option<&[&str]>, frames: usize) -> Option<Vec<u32>> {
    let limit = |word: &&str| match *word {
        NO_BOUND => Some(bound.absent()),
        word => number(word),
    };
    match words {
        Some(words) => words.iter().map(limit).collect(),
        None => Some(vec![bound.absent(); frames]),
    }
}

/// Whether the list of each bound has an entry for each frame, and the offset from UTC changes within the frames, if at all.
fn is_whole(frames: &FrameLists) -> bool {
    let length = frames.harvest.len();
    let changes_at = frames.calendar.times.and_then(Times::changes_at);
    let is_listed = |bound: &Bound| frames.list(*bound).len() == length;
    Bound::ALL.iter().all(is_listed) && changes_at.map_or(true, |frame| frame < length)
}

/// What stands before the name of a bound, and behind it if it is there.
fn parted<'a, 'b>(words: &'a [&'b str], bound: Bound) -> (&'a [&'b str], Option<&'a [&'b str]>) {
    match words.iter().position(|word| *word == bound.name()) {
        Some(name) => (&words[..name], Some(&words[name + 1..])),
        None => (words, None),
    }
}

#[cfg(test)]
mod tests {
    use super::*;
    use energy::NO_UPPER_END;

    #[test]
    fn a_call_is_read_back_from_its_text() {
        let record = Call::Record {
            harvest: 0,
            used: u32::MAX,
        };
        assert_eq!(Call::parse("record 0 4294967295"), Some(record.clone()));
        assert_eq!(record.to_string(), "record 0 4294967295");
        let none = [NO_UPPER_END; 2];
        for (lists, least, most) in [
            ("", [0, 0], none),
            (" least - 3", [0, 3], none),
            (" most 0 -", [0, 0], [0, NO_UPPER_END]),
            (" least 1 - most - 5", [1, 0], [NO_UPPER_END, 5]),
        ] {
            let text = format!("start capacity 5 start 2 end 2 harvest 6 4{lists}");
            let start = start([6, 4], least, most);
            assert_eq!(start.to_string(), text);
            assert_eq!(Call::parse(&text), Some(start));
        }
        for text in [
            "",
            "record",
            "record 1",
            "record 01 2",
            "record +1 2",
            "record 1 2 ",
            "record  1 2",
            "start",
        ] {
            assert_eq!(Call::parse(text), None, "{text:?}");
        }
        for lists in [
            "6 - least 1 1",
            "6 4 least",
            "6 4 least 3",
            "6 4 least 3 - -",
            "6 4 least - -",
            "6 4 least 0 3",
            "6 4 least 3 x",
            "6 4 least 3 - least 3 -",
            "6 4 most 3",
            "6 4 most 3 - -",
            "6 4 most - 4294967295",
            "6 4 most 3 - least 3 -",
            "6 4 budget 3 3",
        ] {
            let text = format!("start capacity 5 start 2 end 2 harvest {lists}");
            assert_eq!(Call::parse(&text), None, "{text:?}");
        }
    }

    #[test]
    fn a_start_may_hold_the_first_time() {
        for time in [
            "06:00",
            "06:00:30",
            "2026-06-21T06:00",
            "2026-06-21T06:00Z",
            "06:00+02:00",
            "2026-03-29T01:45+01:00 frame 2 time 2026-03-29T03:00+02:00",
        ] {
            let text = format!("start capacity 5 start 2 end 2 time {time} harvest 6 4");
            let call = Call::parse(&text).expect("a start");
            let begins = match &call {
                Call::Start(request) => request.frames.calendar.time(0),
                Call::Record { .. } => None,
            };
            assert_eq!(begins.map(Moment::word).as_deref(), time.split(' ').next());
            assert_eq!(call.to_string(), text);
        }
        for time in [
            "",
            "time",
            "time noon",
            "time 6:00",
            "time 21.06.2026T06:00",
            "time 24:00",
            "time 06:00 06:15",
            "time 06:00 frame 2 time 06:15",
            "time 06:00+01:00 frame 2 time 06:15+01:00",
            "time 06:00+01:00 frame 2 time 07:30+02:00",
            "time 06:00+01:00 frame 3 time 07:30+02:00",
            "time 06:00+01:00 frame 1 time 07:00+02:00",
            "time 06:00+01:00 frame 0 time 06:45+02:00",
        ] {
            let text = format!("start capacity 5 start 2 end 2 {time} harvest 6 4");
            assert_eq!(Call::parse(&text), None, "{text:?}");
        }
    }

    fn start(harvest: [u32; 2], least: [u32; 2], most: [u32; 2]) -> Call {
        let [harvest, least, most] = [harvest, least, most].map(Vec::from);
        Call::Start(Request {
            figures: Figures {
                capacity: 5,
                start: 2,
                end: 2,
            },
            frames: FrameLists {
                calendar: Calendar::default(),
                harvest,
                least,
                most,
            },
        })
    }

    #[test]
    fn beginnings_of_a_recording() {
        for line in ["record 12 34 ", "record 0 4294967295 "] {
            for length in 0..=line.len() {
                assert!(Call::begins_recording(&line[..length]), "{length} bytes of {line:?}");
            }
        }
        for text in [
            "x",
            "records",
            "start",
            "start capacity 5 start 2 end 2 harvest 6 4",
            "record x",
            "record 01",
            "record  1",
            "record 1 2  ",
            "record 1 2 3",
            "record 1 2 3 ",
            "record 4294967296",
            "record 1 99999999999",
        ] {
            assert!(!Call::begins_recording(text), "{text:?}");
        }
    }
}
