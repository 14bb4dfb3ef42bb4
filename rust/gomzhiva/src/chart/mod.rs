//! Draws a plan on a page: the charge above, harvest, losses and budgets below.

mod clock;
mod legend;
mod marks;
mod panel;
mod scale;
mod title;

use crate::request::{Bound, Calendar};
use clock::Clock;
use legend::Legend;
use panel::Panel;
use plotters::coord::Shift;
use plotters::prelude::*;
use plotters::style::text_anchor::{HPos, Pos, VPos};
use scale::Scale;

/// A4 landscape in twentieths of a millimetre: each frame is at least one unit wide, of the most frames too.
const PAGE: (u32, u32) = (5940, 4200);
const MARGIN: i32 = 170;
const TITLE_ROW: i32 = 200;
const SPACE_ROW: i32 = 95;
const FOOT_ROW: i32 = 95;
const LETTER: f64 = 66.0;
/// Text that the backend centres stands too high by this.
const LIFT: i32 = 7;

type Page<'a> = DrawingArea<SVGBackend<'a>, Shift>;
type NotDrawn = DrawingAreaErrorKind<std::io::Error>;
type Drawn = Result<(), NotDrawn>;

/// What a picture shows: one entry of each list for each frame.
pub struct Picture<'a> {
    pub title: &'a str,
    /// The numbers of the frames, and if it is known when they begin.
    pub calendar: Calendar,
    pub capacity: u32,
    /// The needed capacity, of a running shift that of the frames not yet recorded; none where it has none.
    pub needed: Option<u64>,
    /// The charge before frame 1.
    pub start: u32,
    /// The charge that is asked for after the last frame.
    pub end: u32,
    pub harvest: &'a [u32],
    /// The bounds of each budget, as the library is lent them.
    pub least: &'a [u32],
    pub most: &'a [u32],
    pub budgets: &'a [u32],
    /// The charge after each frame; below zero where supplied budgets overdraw the battery.
    pub charges: &'a [i64],
    /// What each frame loses of its harvest, because the battery is full.
    pub losses: &'a [u32],
    /// Frames 1 to `recorded` happened (a running shift: actual harvest, use, charge and loss); the
    /// later ones are planned. 0 for a plan.
    pub recorded: usize,
}

/// The picture as an SVG text.
pub fn svg(picture: &Picture<'_>) -> String {
    let mut text = String::new();
    let page = SVGBackend::with_string(&mut text, PAGE).into_drawing_area();
    draw(&page, picture).expect("a string takes every drawing");
    drop(page);
    marks::striped(&sized_for_paper(&text))
}

impl Picture<'_> {
    fn frames(&self) -> usize {
        self.harvest.len()
    }

    /// The axis of frames that begin at clock times.
    fn clock(&self) -> Option<Clock> {
        let times = self.calendar.times?;
        Some(Clock::new(times, self.frames()))
    }

    fn is_overdrawn(&self) -> bool {
        self.charges.iter().any(|&charge| charge < 0)
    }

    fn is_losing(&self) -> bool {
        self.losses.iter().any(|&loss| loss > 0)
    }

    /// A bound of each frame, where it has one.
    fn limits(&self, bound: Bound) -> Vec<Option<f64>> {
        let listed = match bound {
            Bound::Least => self.least,
            Bound::Most => self.most,
        };
        listed
            .iter()
            .map(|&listed| bound.given(listed).map(f64::from))
            .collect()
    }
}

fn draw(page: &Page<'_>, picture: &Picture<'_>) -> Drawn {
    let charge_scale = Scale::of_charges(picture);
    let energy_scale = Scale::of_energy(picture);
    let left = charge_scale.label_width().max(energy_scale.label_width());
    let charge_legend = Legend::of_charges(picture, &charge_scale);
    let energy_legend = Legend::of_energy(picture, &energy_scale);

    page.fill(&WHITE)?;
    let mut rest = page.margin(MARGIN, MARGIN, MARGIN, MARGIN);
    title::draw(&cut_row(&mut rest, TITLE_ROW), picture.title)?;
    charge_legend.draw(&cut_row(&mut rest, charge_legend.height()))?;
    cut_row(&mut rest, SPACE_ROW);
    let panels = height(&rest) - energy_legend.height() - 2 * SPACE_ROW - FOOT_ROW;
    let area = cut_row(&mut rest, panels * 55 / 100);
    Panel::with_axes(page, &area, picture, charge_scale, left)?.draw_charges()?;
    cut_row(&mut rest, SPACE_ROW);
    energy_legend.draw(&cut_row(&mut rest, energy_legend.height()))?;
    cut_row(&mut rest, SPACE_ROW);
    let area = cut_row(&mut rest, panels * 45 / 100);
    Panel::with_axes(page, &area, picture, energy_scale, left)?.draw_energy()?;
    let name = picture.clock().map_or("frame (quarter hours)".into(), Clock::name);
    name_frame_axis(&rest.margin(0, 0, left, 0), &name)
}

fn name_frame_axis(foot: &Page<'_>, name: &str) -> Drawn {
    let style = text_style(LETTER).pos(Pos::new(HPos::Center, VPos::Bottom));
    let middle = foot.dim_in_pixel().0 as i32 / 2;
    foot.draw_text(name, &style, (middle, height(foot)))
}

/// Cuts a row off the top of the area.
fn cut_row<'a>(area: &mut Page<'a>, height: i32) -> Page<'a> {
    let (row, rest) = area.split_vertically(height);
    *area = rest;
    row
}

fn height(area: &Page<'_>) -> i32 {
    area.dim_in_pixel().1 as i32
}

/// Text in letters of this size: the backend divides the size of a font by 1.24.
fn text_style<'a>(letter: f64) -> TextStyle<'a> {
    ("sans-serif", letter * 1.24).into_font().into()
}

/// The page measured in millimetres instead of units.
fn sized_for_paper(svg: &str) -> String {
    let units = format!("width=\"{}\" height=\"{}\"", PAGE.0, PAGE.1);
    svg.replacen(&units, "width=\"297mm\" height=\"210mm\"", 1)
}

#[cfg(test)]
mod tests {
    use super::*;
    use energy::{MAX_FRAMES, NO_UPPER_END};

    const NUMBERS: Calendar = Calendar { before: 0, times: None };

    const PLAN: Picture<'static> = Picture {
        title: "plan",
        calendar: NUMBERS,
        capacity: 5,
        needed: Some(6),
        start: 3,
        end: 3,
        harvest: &[0, 2, 7, 4, 1, 0],
        least: &[0; 6],
        most: &[NO_UPPER_END; 6],
        budgets: &[2, 2, 3, 3, 2, 1],
        charges: &[1, 1, 5, 5, 4, 3],
        losses: &[0, 0, 0, 1, 0, 0],
        recorded: 0,
    };

    /// A picture of so many frames with the same values in each of them.
    fn even_svg(frames: usize, (harvest, budget, charge, loss): (u32, u32, i64, u32), rest: Picture) -> String {
        svg(&Picture {
            harvest: &vec![harvest; frames],
            least: &vec![0; frames],
            most: &vec![NO_UPPER_END; frames],
            budgets: &vec![budget; frames],
            charges: &vec![charge; frames],
            losses: &vec![loss; frames],
            ..rest
        })
    }

    /// The points of each line and area.
    fn outlines(svg: &str) -> Vec<Vec<(i32, i32)>> {
        let lists = svg.split("points=\"").skip(1).filter_map(|rest| rest.split('"').next());
        lists
            .map(|points| points.split_whitespace().map(point).collect())
            .collect()
    }

    fn point(text: &str) -> (i32, i32) {
        let (x, y) = text.split_once(',').expect("a comma between two coordinates");
        (x.parse().expect("a whole number"), y.parse().expect("a whole number"))
    }

    /// The lines and areas of a colour.
    fn coloured(svg: &str, colour: &str) -> Vec<Vec<(i32, i32)>> {
        let is_drawn = |line: &&str| line.contains(&format!("=\"{colour}\""));
        outlines(&svg.lines().filter(is_drawn).collect::<String>())
    }

    /// A bracket: its sides, the height of its bound, and how far its line and its ends, if it has them, go from there, up
    /// being positive.
    #[derive(Debug)]
    struct Bracket {
        sides: (i32, i32),
        level: i32,
        line: i32,
        ends: Option<i32>,
        width: i32,
    }

    /// The brackets of a bound, the legend's first.
    fn brackets(svg: &str, bound: Bound) -> Vec<Bracket> {
        let colour = match bound {
            Bound::Least => "#148C5A",
            Bound::Most => "#286EC8",
        };
        let bracket = |corners: &Vec<(i32, i32)>| {
            let (left, right) = (corners[0].0, corners[1].0);
            let (level, end, width) = match corners.len() {
                4 => (corners[2].1, None, 0),
                _ => (corners[4].1, Some(corners[2].1), right - corners[3].0),
            };
            Bracket {
                sides: (left, right),
                level,
                line: level - corners[0].1,
                ends: end.map(|end| level - end),
                width,
            }
        };
        coloured(svg, colour).iter().map(bracket).collect()
    }

    /// The height at which a text stands.
    fn row(svg: &str, text: &str) -> String {
        let before = &svg[..svg.find(text).expect("the text")];
        let height = before.rsplit(" y=\"").next().and_then(|rest| rest.split('"').next());
        height.expect("its height").to_string()
    }

    /// Opposite corners of each striped part, the legend's first.
    fn lost_parts(svg: &str) -> Vec<[(i32, i32); 2]> {
        let striped = svg.lines().filter(|line| line.contains("fill=\"url(#lost)"));
        let number = |line: &str, name: &str| -> i32 {
            let value = line
                .split(&format!(" {name}=\""))
                .nth(1)
                .and_then(|rest| rest.split('"').next());
            value.expect("an attribute").parse().expect("a whole number")
        };
        let corners = |line| {
            let [x, y, width, height] = ["x", "y", "width", "height"].map(|name| number(line, name));
            [(x, y), (x + width, y + height)]
        };
        striped.map(corners).collect()
    }

    fn assert_well_formed(svg: &str) {
        assert!(svg.starts_with("<svg ") && svg.ends_with("</svg>\n"));
        assert_eq!(svg.matches("<text ").count(), svg.matches("</text>").count());
        assert_eq!(svg.matches('<').count(), svg.matches('>').count());
        let forbidden = |c: char| (c.is_control() && c != '\n') || "\u{fffe}\u{ffff}".contains(c);
        assert!(!svg.contains(forbidden), "a character that XML forbids");
        let escapes = ["amp;", "lt;", "gt;", "quot;", "apos;"];
        let escaped = |rest: &str| escapes.iter().any(|escape| rest.starts_with(escape));
        assert!(svg.split('&').skip(1).all(escaped), "a bare ampersand");
    }

    #[test]
    fn hostile_titles_are_escaped() {
        for title in [
            "",
            "a<b>&.txt",
            "</text>\"'",
            "\0\u{1b}[31m\n\t\u{7f}\u{85}",
            "\u{fffe}\u{ffff}",
            "ü計🌶",
        ] {
            assert_well_formed(&svg(&Picture { title, ..PLAN }));
        }
        let text = svg(&Picture {
            title: "a<b>&.txt",
            ..PLAN
        });
        assert!(text.contains("\na&lt;b&gt;&amp;.txt\n"));
    }

    #[test]
    fn legend_names_the_values() {
        let text = svg(&PLAN);
        for name in [
            "\ncapacity 5 Wh\n",
            "\nneeded capacity 6 Wh\n",
            "\nasked-for end charge 3 Wh\n",
            "\ncharge after each frame (3 Wh at the start)\n",
            "\nharvest in each frame (14 Wh in all)\n",
            "\nbudget of each frame (13 Wh in all)\n",
        ] {
            assert!(text.contains(name), "{name}");
        }
        assert!(!svg(&Picture { needed: None, ..PLAN }).contains("needed"));
    }

    #[test]
    fn lines_far_above_are_only_named() {
        let text = svg(&Picture {
            capacity: 1_000_000_000,
            ..PLAN
        });
        assert!(text.contains("\ncapacity 1,000,000,000 Wh (above the picture)\n"));
        assert!(text.contains("\nneeded capacity 6 Wh\n"));
    }

    #[test]
    fn each_frame_has_a_bar_and_a_step() {
        for frames in [0, 1, 6, 96, MAX_FRAMES] {
            let outlines = outlines(&even_svg(frames, (7, 5, 9, 0), PLAN));
            let lower = &outlines[outlines.len() - 2..];
            assert_eq!(lower[0].len(), 4 * frames, "bars");
            assert_eq!(lower[1].len(), 2 * frames, "steps");
            assert!(lower[0].chunks(4).all(|bar| bar[0].0 < bar[2].0), "a bar without width");
        }
    }

    #[test]
    fn what_a_frame_loses_is_the_upper_part_of_its_bar() {
        for frames in [1, 6, 96, MAX_FRAMES] {
            let losses: Vec<u32> = (0..frames as u32).map(|frame| 7 - frame % 8).collect();
            let text = svg(&Picture {
                harvest: &vec![7; frames],
                budgets: &vec![0; frames],
                charges: &vec![9; frames],
                losses: &losses,
                ..PLAN
            });
            let parts = lost_parts(&text);
            let outlines = outlines(&text);
            let bars = outlines[outlines.len() - 2].chunks(4).zip(losses);
            let losing: Vec<_> = bars.filter(|&(_, loss)| loss > 0).collect();
            assert_eq!(parts.len(), 1 + losing.len(), "a mark in the legend, and losing frames");
            for ([corner, opposite], (bar, loss)) in parts[1..].iter().zip(losing) {
                assert_eq!((*corner, opposite.0), (bar[1], bar[2].0));
                let (height, lost) = (bar[0].1 - bar[1].1, opposite.1 - corner.1);
                assert!((lost * 7 - height * loss as i32).abs() <= 7, "{lost} of {height}");
            }
            assert!(
                text.rfind("url(#lost)") < text.rfind("<polyline"),
                "the budgets lie above"
            );
        }
    }

    #[test]
    fn a_loss_is_drawn_and_named_where_there_is_one() {
        let text = svg(&PLAN);
        assert_eq!(lost_parts(&text).len(), 2, "in the legend, and in the frame that loses");
        assert!(text.contains("\nof it lost to a full battery (1 Wh in all)\n"));
        let none = svg(&Picture {
            losses: &[0; 6],
            ..PLAN
        });
        assert!(!none.contains("lost"));
    }

    /// Every so many frames have bounds, neighbouring ones the same or different ones, and a most may be 0.
    fn some_bounds(frames: usize) -> [Vec<u32>; 2] {
        let bounds = |list: [u32; 7]| list.into_iter().cycle().take(frames).collect();
        let none = NO_UPPER_END;
        [bounds([0, 3, 3, 5, 0, 1, 0]), bounds([6, 6, 6, 0, 2, 9, none])]
    }

    #[test]
    fn bounds_stand_at_their_frames_and_open_to_what_is_allowed() {
        for frames in [1, 6, 96, MAX_FRAMES] {
            let [least, most] = some_bounds(frames);
            let text = svg(&Picture {
                harvest: &vec![7; frames],
                least: &least,
                most: &most,
                budgets: &vec![5; frames],
                charges: &vec![9; frames],
                losses: &vec![0; frames],
                ..PLAN
            });
            let bar = coloured(&text, "#EEA620").pop().expect("the bars");
            let (zero, seven) = (bar[0].1, bar[1].1);
            let steps = outlines(&text).pop().expect("the budgets");
            for (bound, list) in [(Bound::Least, least), (Bound::Most, most)] {
                let mut drawn = vec![None; frames];
                for bracket in brackets(&text, bound).iter().skip(1) {
                    let (left, right) = bracket.sides;
                    let covered = |step: &[(i32, i32)]| step[0].0 < right && left < step[1].0;
                    let first = steps.chunks(2).position(covered).expect("a frame");
                    let count = steps.chunks(2).filter(|step| covered(step)).count();
                    let edges = (steps[2 * first].0, steps[2 * (first + count) - 1].0);
                    let gaps = (left - edges.0, edges.1 - right);
                    assert!(gaps.0 == gaps.1 && (1..=5).contains(&gaps.0), "{gaps:?}");
                    drawn[first..first + count].fill(Some(bracket.level));
                    let next = list.get(first + count);
                    assert!(list[first..first + count].iter().all(|listed| *listed == list[first]));
                    assert_ne!(next, Some(&list[first]), "equal bounds share a bracket");
                    let (up, ends) = match bound {
                        Bound::Least => (1, 45),
                        Bound::Most => (-1, -45.min(zero - bracket.level)),
                    };
                    assert!(bracket.line * up < 0, "{bound:?}: the line is beyond what is allowed");
                    let has_ends = frames <= 96 || count > 2;
                    assert_eq!(bracket.ends, has_ends.then_some(ends), "{bound:?}");
                }
                for (frame, (drawn, listed)) in drawn.into_iter().zip(list).enumerate() {
                    let level = |given: u32| zero - (zero - seven) * given as i32 / 7;
                    match (drawn, bound.given(listed).map(level)) {
                        (Some(drawn), Some(level)) => assert!((drawn - level).abs() <= 1, "{drawn} for {level}"),
                        (drawn, level) => assert_eq!(drawn, level, "{bound:?} of frame {}", frame + 1),
                    }
                }
            }
        }
    }

    #[test]
    fn equal_bounds_in_a_row_share_a_bracket_and_others_do_not() {
        let text = svg(&Picture {
            least: &[1, 20, 2, 2, 3, 0],
            budgets: &[20; 6],
            ..PLAN
        });
        let widths: Vec<i32> = brackets(&text, Bound::Least)
            .iter()
            .skip(1)
            .map(|bracket| bracket.sides.1 - bracket.sides.0)
            .collect();
        assert_eq!(widths.len(), 4);
        assert!(widths[2] > 2 * widths[0] && (widths[0] - widths[3]).abs() <= 1);
        assert!(
            text.rfind("#EEA620") < text.rfind("#148C5A") && text.rfind("#148C5A") < text.rfind("<polyline"),
            "over the bars, under the budgets"
        );
    }

    #[test]
    fn a_least_that_is_the_most_shows_beside_it_and_the_budget() {
        for frames in [6, MAX_FRAMES] {
            let text = svg(&Picture {
                harvest: &vec![7; frames],
                least: &vec![3; frames],
                most: &vec![3; frames],
                budgets: &vec![3; frames],
                charges: &vec![5; frames],
                losses: &vec![0; frames],
                ..PLAN
            });
            let [least, most] = Bound::ALL.map(|bound| brackets(&text, bound).pop().expect("a bracket"));
            let half_a_budget = 7;
            assert!(
                least.line < -half_a_budget && half_a_budget < most.line,
                "{least:?} {most:?}"
            );
            assert_eq!(least.level, most.level);
        }
    }

    #[test]
    fn brackets_stay_open_however_narrow_their_frames() {
        for frames in [1, 6, 96, 200, 350, MAX_FRAMES] {
            let [least, most] = some_bounds(frames);
            let text = svg(&Picture {
                harvest: &vec![7; frames],
                least: &least,
                most: &most,
                budgets: &vec![5; frames],
                charges: &vec![9; frames],
                losses: &vec![0; frames],
                ..PLAN
            });
            for bracket in Bound::ALL.iter().flat_map(|&bound| brackets(&text, bound)) {
                let open = bracket.sides.1 - bracket.sides.0 - 2 * bracket.width;
                assert!(open >= bracket.width.max(4), "{frames} frames: {bracket:?}");
            }
        }
    }

    #[test]
    fn least_and_most_are_named_in_one_row() {
        let [least, most] = some_bounds(6);
        let lost = "of it lost to";
        let text = svg(&Picture {
            least: &least,
            most: &most,
            ..PLAN
        });
        assert_eq!(row(&text, "least budget"), row(&text, "most budget"));
        assert_ne!(row(&text, lost), row(&text, "least budget"));
        let text = svg(&Picture { most: &most, ..PLAN });
        assert_eq!(
            row(&text, lost),
            row(&text, "most budget"),
            "one alone stands beside it"
        );
    }

    #[test]
    fn bounds_are_named_where_there_are_any() {
        let [least, most] = some_bounds(6);
        for (least, most, names) in [
            (
                &least[..],
                &most[..],
                ["least budget (in 4 frames)", "most budget (in 6 frames)"],
            ),
            (&least, PLAN.most, ["least budget (in 4 frames)", ""]),
            (
                PLAN.least,
                &[1, NO_UPPER_END, 1, 1, 1, 1],
                ["", "most budget (in 5 frames)"],
            ),
            (&[0, 0, 0, 0, 0, 2], PLAN.most, ["least budget (in 1 frame)", ""]),
            (PLAN.least, PLAN.most, ["", ""]),
        ] {
            let text = svg(&Picture { least, most, ..PLAN });
            for (bound, name) in Bound::ALL.into_iter().zip(names) {
                let is_named = text.contains(&format!("\n{} budget ", bound.name()));
                assert_eq!(is_named, !name.is_empty(), "{bound:?}");
                assert_eq!(brackets(&text, bound).is_empty(), name.is_empty(), "{bound:?}");
                assert!(text.contains(name), "{name}");
            }
        }
    }

    #[test]
    fn bounds_far_above_are_only_named() {
        let bars = |text: &str| coloured(text, "#EEA620").pop();
        for bound in Bound::ALL {
            let drawn = |first: u32, last: u32| {
                let none = bound.absent();
                let list = [first, none, none, none, none, last];
                let (least, most) = match bound {
                    Bound::Least => (&list, &[NO_UPPER_END; 6]),
                    Bound::Most => (&[0; 6], &list),
                };
                svg(&Picture { least, most, ..PLAN })
            };
            let (name, far) = (bound.name(), drawn(11, 400));
            assert!(far.contains(&format!("\n{name} budget (in 2 frames, above the picture in 2)\n")));
            assert_eq!(bars(&far), bars(&drawn(1, 1)));
            assert_eq!(brackets(&far, bound).len(), 1, "the legend's");
            let near = drawn(10, 400);
            assert!(
                near.contains(&format!("\n{name} budget (in 2 frames, above the picture in 1)\n")),
                "10 is near 7"
            );
            assert_eq!(brackets(&near, bound).len(), 2);
        }
    }

    #[test]
    fn the_charge_after_a_frame_stands_where_its_bar_ends() {
        let picture = Picture { recorded: 2, ..PLAN };
        let outlines = outlines(&svg(&picture));
        let bars = &outlines[outlines.len() - 2];
        let steps = &outlines[outlines.len() - 1];
        let curve = outlines
            .iter()
            .find(|line| line.len() == 7)
            .expect("the charge after each frame");
        for (frame, step) in steps.chunks(2).enumerate() {
            assert_eq!(
                (curve[frame].0, curve[frame + 1].0),
                (step[0].0, step[1].0),
                "frame {}",
                frame + 1
            );
            assert!(step[0].0 < bars[4 * frame].0 && bars[4 * frame + 2].0 < step[1].0);
        }
        let upright = |line: &&Vec<(i32, i32)>| line.len() == 2 && line[0].0 == line[1].0;
        let now = outlines.iter().filter(upright).filter(|line| line[0].0 == curve[2].0);
        assert_eq!(now.count(), 2, "now is where the recorded frames end, in both plots");
    }

    #[test]
    fn a_running_shift_names_its_parts() {
        let text = svg(&Picture { recorded: 2, ..PLAN });
        assert!(text.contains("\nrecorded up to frame 2, planned from frame 3\n"));
        assert!(text.contains("\nnow\n"));
        assert!(text.contains("\nuse up to now, then budget (13 Wh in all)\n"));
        assert!(text.contains("\nharvest up to now, then forecast (14 Wh in all)\n"));
        let text = svg(&Picture { recorded: 6, ..PLAN });
        assert!(text.contains("\nrecorded up to frame 6, the last\n"));
        assert!(!svg(&PLAN).contains("recorded"));
    }

    #[test]
    fn extremes_stay_on_the_page() {
        let none = || Picture {
            capacity: 0,
            needed: Some(0),
            start: 0,
            end: 0,
            ..PLAN
        };
        let most = || Picture {
            capacity: u32::MAX,
            needed: Some(u64::MAX),
            start: u32::MAX,
            end: u32::MAX,
            recorded: 1,
            ..PLAN
        };
        let pictures = [
            even_svg(0, (0, 0, 0, 0), PLAN),
            even_svg(6, (0, 0, 0, 0), none()),
            even_svg(1, (u32::MAX, 0, i64::MAX, u32::MAX), most()),
            even_svg(MAX_FRAMES, (400_000, u32::MAX, -2_900_000_000_000, 400_000), most()),
            even_svg(MAX_FRAMES, (0, u32::MAX, i64::MIN, 0), PLAN),
            svg(&Picture {
                charges: &[i64::MIN, i64::MAX, 0, -1, 0, 1],
                ..most()
            }),
            svg(&Picture {
                least: &[0, 7, u32::MAX, 1, 0, 7],
                most: &[0, 0, 1, 7, 0, u32::MAX - 1],
                ..PLAN
            }),
            svg(&Picture {
                least: &[u32::MAX; 6],
                most: &[0, 0, 1, 0, 0, 1],
                budgets: &[u32::MAX; 6],
                ..most()
            }),
            svg(&Picture {
                harvest: &[0; 6],
                most: &[0; 6],
                budgets: &[0; 6],
                losses: &[0; 6],
                ..none()
            }),
        ];
        let inside = |&(x, y): &(i32, i32)| (1..5940).contains(&x) && (1..4200).contains(&y);
        for picture in pictures {
            assert_well_formed(&picture);
            assert!(outlines(&picture).iter().flatten().all(inside));
            assert!(lost_parts(&picture).iter().flatten().all(inside));
        }
    }

    #[test]
    fn a_week_is_small_and_always_the_same() {
        let week = || even_svg(MAX_FRAMES, (4_999, 2_500, 88_888, 999), PLAN);
        assert!(week().len() < 300_000);
        assert_eq!(week(), week());
        let [least, most] = some_bounds(MAX_FRAMES);
        let bounded = svg(&Picture {
            harvest: &vec![4_999; MAX_FRAMES],
            least: &least,
            most: &most,
            budgets: &vec![2_500; MAX_FRAMES],
            charges: &vec![88_888; MAX_FRAMES],
            losses: &vec![999; MAX_FRAMES],
            ..PLAN
        });
        assert!(bounded.len() < 300_000, "{}", bounded.len());
    }
}
