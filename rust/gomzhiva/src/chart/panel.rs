//! A panel: a plot over the frames, with axes in frames and watt-hours.

use super::marks::{self, Point};
use super::scale::{grouped, Scale};
use super::{text_style, Drawn, NotDrawn, Page, Picture, LETTER, LIFT};
use crate::request::Bound;
use plotters::prelude::*;
use plotters::style::text_anchor::{HPos, Pos, VPos};
use std::iter::once;

const GRID: RGBColor = RGBColor(205, 205, 205);
const NUMBER_ROW: i32 = 140;
/// The most frames that are wide enough for gaps between their bars.
const MOST_GAPS: usize = 250;

/// A frame, or a part of one, and watt-hours.
type Spot = (f64, f64);

/// One of the plots of the page and what it shows.
pub struct Panel<'p, 'a> {
    page: &'p Page<'a>,
    plot: DrawingArea<SVGBackend<'a>, Cartesian2d<Scale, Scale>>,
    picture: &'p Picture<'p>,
}

impl<'p, 'a> Panel<'p, 'a> {
    /// Draws the axes; the numbers of the watt-hours take up the width `left`.
    pub fn with_axes(
        page: &'p Page<'a>,
        area: &Page<'a>,
        picture: &'p Picture<'p>,
        watt_hours: Scale,
        left: i32,
    ) -> Result<Panel<'p, 'a>, NotDrawn> {
        let (frames, clock) = (picture.frames(), picture.clock());
        let along = clock.map_or_else(|| Scale::of_frames(frames), |clock| Scale::of_clock(frames, clock));
        let label = |frame: &f64| clock.map_or_else(|| grouped(*frame as i128), |clock| clock.label(*frame));
        let mut chart = ChartBuilder::on(area)
            .set_label_area_size(LabelAreaPosition::Left, left)
            .set_label_area_size(LabelAreaPosition::Bottom, NUMBER_ROW)
            .build_cartesian_2d(along, watt_hours)?;
        let plot = chart.plotting_area().clone();
        let panel = Panel { page, plot, picture };
        panel.shade_recorded()?;
        chart
            .configure_mesh()
            .bold_line_style(GRID.stroke_width(3))
            .axis_style(BLACK.stroke_width(6))
            .label_style(text_style(LETTER))
            .set_all_tick_mark_size(30)
            .x_label_formatter(&label)
            .y_label_formatter(&|watt_hours| grouped(*watt_hours as i128))
            .y_label_offset(LIFT)
            .y_desc("watt-hours")
            .draw()?;
        panel.draw_now()?;
        Ok(panel)
    }

    pub fn draw_charges(&self) -> Drawn {
        let frames = self.picture.frames();
        let curve = self.charge_curve();
        marks::charge_area(self.page, &self.points(&area_to_zero(&curve, f64::max)))?;
        if self.picture.is_overdrawn() {
            marks::overdrawn_area(self.page, &self.points(&area_to_zero(&curve, f64::min)))?;
        }
        self.draw_levels()?;
        let points = self.points(&curve);
        marks::charge_line(self.page, &points, frames)?;
        marks::charge_dots(self.page, &points, frames)?;
        let end = f64::from(self.picture.end);
        if self.reaches(end) {
            marks::end_diamond(self.page, self.point((frames as f64 + 0.5, end)))?;
        }
        self.name_now()
    }

    pub fn draw_energy(&self) -> Drawn {
        let bars = self.points(&bars(self.picture.harvest));
        marks::harvest_bars(self.page, &bars)?;
        for (corner, opposite) in lost_parts(self.picture.harvest, self.picture.losses) {
            marks::lost_part(self.page, self.point(corner), self.point(opposite))?;
        }
        for bound in Bound::ALL {
            self.draw_limits(bound)?;
        }
        let steps = self.points(&steps(self.picture.budgets));
        marks::budget_steps(self.page, &steps, self.picture.frames())
    }

    /// Draws a bound along the frames that have it, as far as the plot reaches.
    fn draw_limits(&self, bound: Bound) -> Drawn {
        let range = self.plot.get_y_range();
        let [(_, top), (_, bottom)] = [range.end, range.start].map(|edge| self.level(edge).0);
        let limits = self.picture.limits(bound).into_iter();
        let limits: Vec<_> = limits.map(|limit| limit.filter(|&limit| self.reaches(limit))).collect();
        let frames = self.picture.frames();
        let mut runs = runs(&limits).into_iter();
        runs.try_for_each(|run| marks::limit(self.page, bound, run.map(|spot| self.point(spot)), top..=bottom, frames))
    }

    /// The charge at the start and at the end of each frame.
    fn charge_curve(&self) -> Vec<Spot> {
        let charges = self.picture.charges.iter().map(|&charge| charge as f64);
        let charges = once(f64::from(self.picture.start)).chain(charges);
        charges
            .enumerate()
            .map(|(frame, charge)| (frame as f64 + 0.5, charge))
            .collect()
    }

    /// Draws the capacity, zero where it is not the lower edge, and the needed capacity.
    fn draw_levels(&self) -> Drawn {
        let capacity = f64::from(self.picture.capacity);
        if self.reaches(capacity) {
            let (left, right) = self.level(capacity);
            marks::capacity_line(self.page, left, right)?;
        }
        if self.picture.is_overdrawn() {
            let (left, right) = self.level(0.0);
            marks::zero_line(self.page, left, right)?;
        }
        match self.picture.needed.map(|needed| needed as f64) {
            Some(needed) if self.reaches(needed) => {
                let (left, right) = self.level(needed);
                marks::needed_line(self.page, left, right)
            }
            _ => Ok(()),
        }
    }

    fn shade_recorded(&self) -> Drawn {
        let (left, _) = self.level(self.plot.get_y_range().end);
        match self.now() {
            Some((_, bottom)) => marks::recorded_block(self.page, left, bottom),
            None => Ok(()),
        }
    }

    fn draw_now(&self) -> Drawn {
        match self.now() {
            Some((top, bottom)) => marks::now_line(self.page, top, bottom),
            None => Ok(()),
        }
    }

    fn name_now(&self) -> Drawn {
        let style = text_style(LETTER).pos(Pos::new(HPos::Center, VPos::Bottom));
        match self.now() {
            Some((top, _)) => self.page.draw_text("now", &style, top),
            None => Ok(()),
        }
    }

    /// The ends of the line between the recorded and the planned frames of a running shift.
    fn now(&self) -> Option<(Point, Point)> {
        let (now, edges) = (self.picture.recorded as f64 + 0.5, self.plot.get_y_range());
        let line = || (self.point((now, edges.end)), self.point((now, edges.start)));
        (self.picture.recorded > 0).then(line)
    }

    /// The ends of a line across the plot.
    fn level(&self, watt_hours: f64) -> (Point, Point) {
        let edges = self.plot.get_x_range();
        (
            self.point((edges.start, watt_hours)),
            self.point((edges.end, watt_hours)),
        )
    }

    fn reaches(&self, watt_hours: f64) -> bool {
        self.plot.as_coord_spec().y_spec().reaches(watt_hours)
    }

    fn points(&self, spots: &[Spot]) -> Vec<Point> {
        spots.iter().map(|&spot| self.point(spot)).collect()
    }

    fn point(&self, spot: Spot) -> Point {
        self.plot.map_coordinate(&spot)
    }
}

/// The corners of the area between a curve and zero, on the side of zero that `keep` keeps.
fn area_to_zero(curve: &[Spot], keep: fn(f64, f64) -> f64) -> Vec<Spot> {
    let mut corners = vec![(0.5, 0.0)];
    for pair in curve.windows(2) {
        corners.push(pair[0]);
        corners.extend(zero_between(pair[0], pair[1]));
    }
    if let Some(&(frame, charge)) = curve.last() {
        corners.extend([(frame, charge), (frame, 0.0)]);
    }
    corners
        .into_iter()
        .map(|(frame, charge)| (frame, keep(charge, 0.0)))
        .collect()
}

/// Where the line from one frame to the next crosses zero.
fn zero_between((frame, charge): Spot, (_, next): Spot) -> Option<Spot> {
    (charge * next < 0.0).then(|| (frame + charge / (charge - next), 0.0))
}

/// The corners of a bar for each value.
fn bars(values: &[u32]) -> Vec<Spot> {
    let bar = |(frame, &value): (usize, &u32)| {
        let (left, right) = sides(frame, values.len());
        let top = f64::from(value);
        [(left, 0.0), (left, top), (right, top), (right, 0.0)]
    };
    (1..).zip(values).flat_map(bar).collect()
}

/// Opposite corners of what is lost of each harvest: the upper part of its bar.
fn lost_parts(harvest: &[u32], losses: &[u32]) -> Vec<(Spot, Spot)> {
    let part = |(frame, (&harvest, &loss)): (usize, (&u32, &u32))| {
        let (left, right) = sides(frame, losses.len());
        let top = f64::from(harvest);
        (loss > 0).then(|| ((left, top), (right, top - f64::from(loss))))
    };
    (1..).zip(harvest.iter().zip(losses)).filter_map(part).collect()
}

/// Where the bar of a frame begins and ends.
fn sides(frame: usize, frames: usize) -> (f64, f64) {
    let half = if frames <= MOST_GAPS { 0.4 } else { 0.5 };
    (frame as f64 - half, frame as f64 + half)
}

/// The ends of a step for each value.
fn steps(values: &[u32]) -> Vec<Spot> {
    (1..)
        .zip(values)
        .flat_map(|(frame, &value)| step(frame, value.into()))
        .collect()
}

/// The ends of a frame's step.
fn step(frame: usize, watt_hours: f64) -> [Spot; 2] {
    [(frame as f64 - 0.5, watt_hours), (frame as f64 + 0.5, watt_hours)]
}

/// The ends of the line of each run of neighbouring frames that have the same limit.
fn runs(limits: &[Option<f64>]) -> Vec<[Spot; 2]> {
    let limited = (1..)
        .zip(limits)
        .filter_map(|(frame, &limit)| Some(step(frame, limit?)));
    let mut runs: Vec<[Spot; 2]> = Vec::new();
    for [left, right] in limited {
        match runs.last_mut() {
            Some([_, end]) if *end == left => *end = right,
            _ => runs.push([left, right]),
        }
    }
    runs
}
