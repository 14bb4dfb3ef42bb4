//! The legend: the marks of the picture, what they stand for, and their values.

use super::marks::{self, Point};
use super::scale::{grouped, Scale};
use super::{text_style, Drawn, Page, Picture, LETTER, LIFT};
use crate::report::{counted, sum};
use crate::request::Bound;
use plotters::style::text_anchor::{HPos, Pos, VPos};

const ROW: i32 = 100;
const COLUMNS: usize = 2;
const SYMBOL_WIDTH: i32 = 200;
const SYMBOL_HALF_HEIGHT: i32 = 32;

enum Mark {
    Charge,
    Capacity,
    Needed,
    End,
    Now,
    Overdrawn,
    Harvest,
    Budget,
    Lost,
    Limit(Bound),
}

/// The marks of one panel and their names, row by row; a place may stay empty.
pub struct Legend {
    frames: usize,
    entries: Vec<Option<(Mark, String)>>,
}

impl Legend {
    pub fn of_charges(picture: &Picture<'_>, scale: &Scale) -> Legend {
        let line = |name: &str, value: u64| {
            let place = if scale.reaches(value as f64) {
                ""
            } else {
                " (above the picture)"
            };
            format!("{name} {} Wh{place}", grouped(value.into()))
        };
        let start = grouped(picture.start.into());
        let mut entries = vec![
            (
                Mark::Charge,
                format!("charge after each frame ({start} Wh at the start)"),
            ),
            (Mark::Capacity, line("capacity", picture.capacity.into())),
            (Mark::End, line("asked-for end charge", picture.end.into())),
        ];
        if let Some(needed) = picture.needed {
            entries.push((Mark::Needed, line(needed_name(picture), needed)));
        }
        if picture.recorded > 0 {
            entries.push((Mark::Now, recorded_name(picture)));
        }
        if picture.is_overdrawn() {
            entries.push((Mark::Overdrawn, "overdrawn: charge below 0 Wh".to_string()));
        }
        Legend {
            frames: picture.frames(),
            entries: entries.into_iter().map(Some).collect(),
        }
    }

    pub fn of_energy(picture: &Picture<'_>, scale: &Scale) -> Legend {
        let total = |list: &[u32]| grouped(sum(list).into());
        let harvest = format!("{} ({} Wh in all)", harvest_name(picture), total(picture.harvest));
        let budgets = format!("{} ({} Wh in all)", budget_name(picture), total(picture.budgets));
        let limit = |bound: Bound| Some((Mark::Limit(bound), limit_name(picture, scale, bound)?));
        let limits: Vec<_> = Bound::ALL.into_iter().filter_map(limit).collect();
        let mut entries = vec![Some((Mark::Harvest, harvest)), Some((Mark::Budget, budgets))];
        if picture.is_losing() {
            let lost = format!("of it lost to a full battery ({} Wh in all)", total(picture.losses));
            entries.push(Some((Mark::Lost, lost)));
            // Least and most stay in one row.
            if limits.len() == COLUMNS {
                entries.push(None);
            }
        }
        entries.extend(limits.into_iter().map(Some));
        Legend {
            frames: picture.frames(),
            entries,
        }
    }

    pub fn height(&self) -> i32 {
        self.entries.chunks(COLUMNS).len() as i32 * ROW
    }

    pub fn draw(&self, area: &Page<'_>) -> Drawn {
        let column_width = area.dim_in_pixel().0 as i32 / COLUMNS as i32;
        let style = text_style(LETTER).pos(Pos::new(HPos::Left, VPos::Center));
        let entries = self.entries.iter().enumerate();
        for (place, (mark, name)) in entries.filter_map(|(place, entry)| Some((place, entry.as_ref()?))) {
            let left = (place % COLUMNS) as i32 * column_width;
            let middle = (place / COLUMNS) as i32 * ROW + ROW / 2;
            self.draw_symbol(area, mark, (left, middle))?;
            area.draw_text(name, &style, (left + SYMBOL_WIDTH + 50, middle + LIFT))?;
        }
        Ok(())
    }

    fn draw_symbol(&self, area: &Page<'_>, mark: &Mark, (left, y): Point) -> Drawn {
        let (middle, right) = (left + SYMBOL_WIDTH / 2, left + SYMBOL_WIDTH);
        let (top, bottom) = (y - SYMBOL_HALF_HEIGHT, y + SYMBOL_HALF_HEIGHT);
        let block = [(left, top), (right, top), (right, bottom), (left, bottom)];
        let steps = [(left, bottom), (middle, bottom), (middle, top), (right, top)];
        match mark {
            Mark::Charge => {
                marks::charge_line(area, &[(left, y), (right, y)], self.frames)?;
                marks::charge_dots(area, &[(middle, y)], self.frames)
            }
            Mark::Capacity => marks::capacity_line(area, (left, y), (right, y)),
            Mark::Needed => marks::needed_line(area, (left, y), (right, y)),
            Mark::End => marks::end_diamond(area, (middle, y)),
            Mark::Now => {
                marks::recorded_block(area, (left, top), (middle, bottom))?;
                marks::now_line(area, (middle, top), (middle, bottom))
            }
            Mark::Overdrawn => marks::overdrawn_area(area, &block),
            Mark::Harvest => marks::harvest_bars(area, &block),
            Mark::Budget => marks::budget_steps(area, &steps, self.frames),
            Mark::Lost => marks::lost_part(area, (left, top), (right, bottom)),
            Mark::Limit(bound) => marks::limit(area, *bound, [(left, y), (right, y)], top..=bottom, self.frames),
        }
    }
}

/// What a bound is called and how many frames have it, if any does.
fn limit_name(picture: &Picture<'_>, scale: &Scale, bound: Bound) -> Option<String> {
    let limits: Vec<f64> = picture.limits(bound).into_iter().flatten().collect();
    let above = limits.iter().filter(|&&limit| !scale.reaches(limit)).count();
    let place = match above {
        0 => String::new(),
        above => format!(", above the picture in {}", grouped(above as i128)),
    };
    let frames = counted(limits.len(), "frame");
    (!limits.is_empty()).then(|| format!("{} budget (in {frames}{place})", bound.name()))
}

fn needed_name(picture: &Picture<'_>) -> &'static str {
    match picture.recorded {
        0 => "needed capacity",
        _ => "needed capacity of the rest",
    }
}

fn recorded_name(picture: &Picture<'_>) -> String {
    let recorded = picture.recorded;
    if recorded == picture.frames() {
        format!("recorded up to frame {recorded}, the last")
    } else {
        let next = picture.calendar.name(recorded);
        format!("recorded up to frame {recorded}, planned from {next}")
    }
}

fn harvest_name(picture: &Picture<'_>) -> &'static str {
    match picture.recorded {
        recorded if recorded == 0 || recorded == picture.frames() => "harvest in each frame",
        _ => "harvest up to now, then forecast",
    }
}

fn budget_name(picture: &Picture<'_>) -> &'static str {
    match picture.recorded {
        0 => "budget of each frame",
        recorded if recorded == picture.frames() => "use in each frame",
        _ => "use up to now, then budget",
    }
}
