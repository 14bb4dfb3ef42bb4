//! The numbers of frames, and where it is known when they begin.

use super::{Moment, Times};

/// Which frames these are: how many were before the first one, and when they begin, if it is known.
#[derive(Clone, Copy, Debug, Default, PartialEq, Eq)]
pub struct Calendar {
    pub before: usize,
    pub times: Option<Times>,
}

impl Calendar {
    /// The number of a frame, which is counted from 0 here.
    pub fn number(&self, frame: usize) -> usize {
        self.before + frame + 1
    }

    /// When a frame begins.
    pub fn time(&self, frame: usize) -> Option<Moment> {
        self.times.map(|times| times.at(frame))
    }

    /// The number of a frame, and behind it when it begins.
    pub fn number_and_time(&self, frame: usize) -> String {
        let time = self.time(frame).map_or(String::new(), |time| format!(", {time}"));
        format!("{}{time}", self.number(frame))
    }

    /// What a sentence calls a frame at its end, or before another mark.
    pub fn name(&self, frame: usize) -> String {
        format!("frame {}", self.number_and_time(frame))
    }

    /// The same where words follow.
    pub fn name_within(&self, frame: usize) -> String {
        let mark = if self.times.is_some() { "," } else { "" };
        self.name(frame) + mark
    }

    /// What is left without the first frames.
    pub fn rest(&self, from: usize) -> Calendar {
        Calendar {
            before: self.before + from,
            times: self.times.map(|times| times.rest(from)),
        }
    }
}

#[cfg(test)]
mod tests {
    use super::*;

    #[test]
    fn frames_have_numbers_and_times() {
        let bare = Calendar::default();
        assert_eq!(
            (bare.name(0), bare.name_within(73)),
            ("frame 1".into(), "frame 74".into())
        );
        assert_eq!(bare.rest(2).name(0), "frame 3");
        let timed = Calendar {
            times: Moment::readings("00:00").pop().map(Times::from),
            ..bare
        };
        assert_eq!(timed.name(73), "frame 74, 18:15");
        assert_eq!(timed.rest(70).rest(2).name_within(1), "frame 74, 18:15,");
    }
}
