//! When frames begin: each a quarter hour after the one before, with another offset from UTC from the frame on at which the
//! clock is changed.

use super::Moment;

/// By how many minutes a clock is changed.
const CHANGES: [i32; 2] = [30, 60];

/// When the first frame begins, and the first frame, counted from 0, with another offset, if there is one.
#[derive(Clone, Copy, Debug, PartialEq, Eq)]
pub struct Times {
    begins: Moment,
    changed: Option<(usize, i32)>,
}

impl Times {
    /// Times without a change of the clock.
    pub fn from(begins: Moment) -> Times {
        let changed = None;
        Times { begins, changed }
    }

    /// When a frame begins.
    pub fn at(self, frame: usize) -> Moment {
        let moment = self.begins.later(frame);
        match self.changed {
            Some((first, offset)) if first <= frame => moment.with_offset(offset),
            _ => moment,
        }
    }

    /// The times with a further frame that begins then, if it may: the clock is changed once at most, by an hour or half of one.
    pub fn with(self, frame: usize, moment: Moment) -> Option<Times> {
        let next = self.at(frame);
        if !moment.is(next) {
            return None;
        }
        match (moment.offset(), self.changed) {
            (offset, _) if offset == next.offset() => Some(self),
            (Some(offset), None) if CHANGES.contains(&(offset - next.offset()?).abs()) => {
                let changed = Some((frame, offset));
                Some(Times { changed, ..self })
            }
            _ => None,
        }
    }

    /// The frame at which the clock is changed.
    pub fn changes_at(self) -> Option<usize> {
        self.changed.map(|(frame, _)| frame)
    }

    /// What is left without the first frames.
    pub fn rest(self, from: usize) -> Times {
        let changed = self.changed.filter(|(frame, _)| from < *frame);
        Times {
            begins: self.at(from),
            changed: changed.map(|(frame, offset)| (frame - from, offset)),
        }
    }

    /// The same clock times of any days; none where the clock is changed, which needs its date.
    pub fn undated(self) -> Option<Times> {
        let is_unchanged = self.changed.is_none();
        is_unchanged.then(|| Times::from(self.begins.undated()))
    }
}

#[cfg(test)]
mod tests {
    use super::*;

    fn moment(text: &str) -> Moment {
        Moment::readings(text)[0]
    }

    #[test]
    fn frames_begin_a_quarter_hour_after_the_one_before() {
        let times = Times::from(moment("23:30"));
        assert_eq!(
            [0, 1, 2].map(|frame| times.at(frame).to_string()),
            ["23:30", "23:45", "00:00"]
        );
        assert_eq!(times.with(2, moment("00:00")), Some(times));
        assert_eq!(times.with(2, moment("00:15")), None);
        assert_eq!(times.rest(1), Times::from(moment("23:45")));
    }

    #[test]
    fn the_clock_is_changed_once() {
        let winter = Times::from(moment("2026-03-29 01:30+01:00"));
        let times = winter
            .with(2, moment("2026-03-29 03:00+02:00"))
            .expect("a changed clock");
        let shown = [0, 1, 2, 3].map(|frame| times.at(frame).word());
        let words = ["T01:30+01:00", "T01:45+01:00", "T03:00+02:00", "T03:15+02:00"];
        assert_eq!(shown, words.map(|word| format!("2026-03-29{word}")));
        assert_eq!(times.with(3, moment("2026-03-29 03:15+02:00")), Some(times));
        assert_eq!(winter.with(2, moment("2026-03-29 04:00+03:00")), None, "by two hours");
        for other in ["2026-03-29 02:15+01:00", "2026-03-29 04:15+03:00", "2026-03-29 03:15"] {
            assert_eq!(times.with(3, moment(other)), None, "{other}");
        }
        assert_eq!((times.changes_at(), winter.changes_at()), (Some(2), None));
        for from in 0..4 {
            assert_eq!(
                [0, 1, 5].map(|frame| times.rest(from).at(frame)),
                [0, 1, 5].map(|frame| times.at(from + frame))
            );
        }
        assert_eq!(times.rest(2), Times::from(moment("2026-03-29 03:00+02:00")));
        assert_eq!(
            (times.undated(), winter.undated()),
            (None, Some(Times::from(moment("01:30+01:00"))))
        );
    }
}
