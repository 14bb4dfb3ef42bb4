//! How each thing looks, on the plot and in the legend alike, in units of the page.
//!
//! Lines that coincide stay apart by their widths: the narrower one lies on the wider one.

use super::{Drawn, Page};
use crate::request::Bound;
use plotters::prelude::*;
use std::ops::RangeInclusive;

const CHARGE: RGBColor = RGBColor(11, 60, 93);
const CAPACITY: RGBColor = RGBColor(165, 165, 165);
const NEEDED: RGBColor = RGBColor(178, 45, 30);
const HARVEST: RGBColor = RGBColor(238, 166, 32);
const LOST: RGBColor = RGBColor(88, 36, 120);
const LEAST: RGBColor = RGBColor(20, 140, 90);
const MOST: RGBColor = RGBColor(40, 110, 200);
const RECORDED: RGBColor = RGBColor(232, 232, 232);
const NOW: RGBColor = RGBColor(95, 95, 95);
const OVERDRAWN: RGBColor = RGBColor(205, 70, 50);

const DASH: i32 = 75;
const GAP: i32 = 50;
const DIAMOND: i32 = 42;
const BRACKET: i32 = 45;
/// About how wide all frames are together.
const PLOT_WIDTH: i32 = 5200;
/// The most frames that are wide enough for a dot each.
const MOST_DOTS: usize = 48;

pub type Point = (i32, i32);

pub fn charge_line(page: &Page<'_>, points: &[Point], frames: usize) -> Drawn {
    page.draw(&PathElement::new(points, CHARGE.stroke_width(line_width(frames))))
}

pub fn charge_dots(page: &Page<'_>, points: &[Point], frames: usize) -> Drawn {
    let dotted = if frames <= MOST_DOTS { points } else { &[] };
    dotted
        .iter()
        .try_for_each(|&point| page.draw(&Circle::new(point, 24, CHARGE.filled())))
}

pub fn charge_area(page: &Page<'_>, corners: &[Point]) -> Drawn {
    page.draw(&Polygon::new(corners, CHARGE.mix(0.16)))
}

pub fn overdrawn_area(page: &Page<'_>, corners: &[Point]) -> Drawn {
    page.draw(&Polygon::new(corners, OVERDRAWN.mix(0.5)))
}

pub fn capacity_line(page: &Page<'_>, from: Point, to: Point) -> Drawn {
    page.draw(&PathElement::new([from, to], CAPACITY.stroke_width(30)))
}

/// A level line of dashes.
pub fn needed_line(page: &Page<'_>, (left, y): Point, (right, _): Point) -> Drawn {
    (left..right).step_by((DASH + GAP) as usize).try_for_each(|start| {
        let dash = [(start, y), (right.min(start + DASH), y)];
        page.draw(&PathElement::new(dash, NEEDED.stroke_width(19)))
    })
}

pub fn end_diamond(page: &Page<'_>, (x, y): Point) -> Drawn {
    let (left, right) = ((x - DIAMOND, y), (x + DIAMOND, y));
    let (top, bottom) = ((x, y - DIAMOND), (x, y + DIAMOND));
    page.draw(&PathElement::new(
        [left, top, right, bottom, left, top],
        BLACK.stroke_width(10),
    ))
}

pub fn zero_line(page: &Page<'_>, from: Point, to: Point) -> Drawn {
    page.draw(&PathElement::new([from, to], BLACK.stroke_width(6)))
}

pub fn now_line(page: &Page<'_>, from: Point, to: Point) -> Drawn {
    page.draw(&PathElement::new([from, to], NOW.stroke_width(10)))
}

pub fn recorded_block(page: &Page<'_>, corner: Point, opposite: Point) -> Drawn {
    page.draw(&Rectangle::new([corner, opposite], RECORDED.filled()))
}

pub fn harvest_bars(page: &Page<'_>, corners: &[Point]) -> Drawn {
    page.draw(&Polygon::new(corners, HARVEST))
}

/// A part of a bar, which `striped` gives its stripes and its outline.
pub fn lost_part(page: &Page<'_>, corner: Point, opposite: Point) -> Drawn {
    page.draw(&Rectangle::new([corner, opposite], LOST.filled()))
}

/// The SVG with stripes and an outline for what is lost, which the backend only fills: told from a plain colour in grey
/// print too.
pub fn striped(svg: &str) -> String {
    let RGBColor(red, green, blue) = LOST;
    let colour = format!("#{red:02X}{green:02X}{blue:02X}");
    let filled = format!("fill=\"{colour}\" stroke=\"none\"");
    if !svg.contains(&filled) {
        return svg.to_string();
    }
    let stripes = format!(
        "<pattern id=\"lost\" width=\"32\" height=\"32\" patternUnits=\"userSpaceOnUse\" \
         patternTransform=\"rotate(45)\">\n\
         <rect width=\"32\" height=\"32\" fill=\"#E6DAEE\"/>\n\
         <rect width=\"13\" height=\"32\" fill=\"{colour}\"/>\n\
         </pattern>\n"
    );
    let outlined = format!("fill=\"url(#lost) {colour}\" stroke=\"{colour}\" stroke-width=\"5\"");
    let svg = svg.replace(&filled, &outlined);
    svg.replacen(">\n", &format!(">\n{stripes}"), 1)
}

pub fn budget_steps(page: &Page<'_>, points: &[Point], frames: usize) -> Drawn {
    page.draw(&PathElement::new(points, BLACK.stroke_width(line_width(frames))))
}

/// A bound along frames that have the same one: a bracket that is open towards what is allowed, though not beyond the edges
/// of the plot; where it is too narrow for ends, its line alone. The line lies on the side of what is not allowed, so that
/// the budgets, or a least and a most that are equal, do not hide it.
pub fn limit(
    page: &Page<'_>,
    bound: Bound,
    [(left, y), (right, _)]: [Point; 2],
    edges: RangeInclusive<i32>,
    frames: usize,
) -> Drawn {
    let (colour, up) = match bound {
        Bound::Least => (LEAST, -1),
        Bound::Most => (MOST, 1),
    };
    let width = end_width(frames);
    let (left, right) = (left + width / 4, right - width / 4);
    let line = y - up * 2 * line_width(frames) as i32;
    let end = (y + up * BRACKET).clamp(*edges.start(), *edges.end());
    let mut corners = vec![(left, line), (right, line)];
    if right - left >= 3 * width {
        let (inner_left, inner_right) = (left + width, right - width);
        corners.extend([(right, end), (inner_right, end), (inner_right, y)]);
        corners.extend([(inner_left, y), (inner_left, end), (left, end)]);
    } else {
        corners.extend([(right, y), (left, y)]);
    }
    page.draw(&Polygon::new(corners, colour))
}

/// The ends of a bracket get thinner with the frames, as long as they can be seen.
fn end_width(frames: usize) -> i32 {
    (PLOT_WIDTH / 4 / frames.max(1) as i32).clamp(5, 20)
}

/// Lines get thinner as the frames get narrower.
fn line_width(frames: usize) -> u32 {
    if frames <= 120 {
        13
    } else {
        10
    }
}
