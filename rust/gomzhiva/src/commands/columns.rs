//! The columns of frames that every table begins with.

use crate::report::{column, Cell, Column};
use crate::request::{Bound, FrameLists};

/// What a request says of frames as columns, in an order that stays: their numbers, when they begin if that is known, their
/// harvests, and these bounds.
pub fn frame_columns(frames: &FrameLists, bounds: &[Bound]) -> Vec<Column> {
    let FrameLists { calendar, harvest, .. } = frames;
    let each = 0..harvest.len();
    let mut columns = vec![(
        "frame",
        each.clone()
            .map(|frame| Some(calendar.number(frame).to_string()))
            .collect(),
    )];
    if calendar.times.is_some() {
        let time = |frame| calendar.time(frame).map(|time| time.to_string());
        columns.push(("time", each.map(time).collect()));
    }
    columns.push(("harvest", column(harvest)));
    columns.extend(bounds.iter().map(|&bound| (bound.name(), bound_column(frames, bound))));
    columns
}

fn bound_column(frames: &FrameLists, bound: Bound) -> Vec<Cell> {
    let given = frames.list(bound).iter().map(|&listed| bound.given(listed));
    given.map(|given| given.map(|given| given.to_string())).collect()
}
