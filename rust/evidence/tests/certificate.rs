//! Guess, certify, follow: its budgets against the definition of the plan, and the curve by itself.

use energy::Figures;
use evidence::algorithms::certificate::frame::{Bounded, Frame, Frames, Listed, Plain};
use evidence::algorithms::certificate::search::search;
use evidence::algorithms::certificate::{by_curve, plan_frames, Counters, Scratch};
use evidence::bounds::{around, Kind, KINDS};
use evidence::families::{full, request, Family, FAMILIES, FRAMES, SIZES};
use evidence::random::{seed, Random};
use evidence::reference::limits::MAX_FRAMES;
use std::collections::BTreeMap;
use std::fmt::Debug;

/// Numbers that stand for no upper end.
const UNLIMITED: u64 = (1 << 32) - 1;
const UNBOUNDED: u64 = (1 << 32) - 1;

/// The least charge from which drawing a level can go on: `reserve` of crates/model/specs/Frames.antt.
fn reserve(end: u64, level: u64, frames: &[Frame]) -> u64 {
    frames.iter().rev().fold(end, |after, f| {
        let need = f.drain + f.draw(level) + after;
        f.ceiling.saturating_sub(f.inflow).min(need.saturating_sub(f.inflow))
    })
}

/// The plan's budgets by their definition: `plan` of crates/model/specs/Frames.antt.
fn defined(request: &Listed) -> Vec<u32> {
    let mut charge = request.start;
    let mut budgets = Vec::new();
    for (i, f) in request.frames.iter().enumerate() {
        let rest = &request.frames[i + 1..];
        let have = f.room(charge).saturating_sub(f.drain);
        let most = f.most.min(have);
        let allows = |&b: &u64| b + reserve(request.end, b - 1, rest) <= have;
        let budget = (f.least + 1..=most).rev().find(allows).unwrap_or(f.least);
        budgets.push(budget as u32);
        charge = f.room(charge).saturating_sub(f.drain + budget);
    }
    budgets
}

/// Whether budgets are within their bounds and can be drawn until the end.
fn are_feasible(request: &Listed, budgets: impl Iterator<Item = u64>) -> bool {
    let mut charge = request.start;
    for (f, budget) in request.frames.iter().zip(budgets) {
        let room = f.room(charge);
        if budget < f.least || f.most < budget || room < f.drain + budget {
            return false;
        }
        charge = room - f.drain - budget;
    }
    request.end <= charge
}

/// How frames become full: the harvest comes on top of the capacity, fills the store first, or is never lost.
#[derive(Clone, Copy, PartialEq)]
enum Ceiling {
    OnTop,
    Within,
    Unlimited,
}

const CEILINGS: [Ceiling; 3] = [Ceiling::OnTop, Ceiling::Within, Ceiling::Unlimited];

/// How the bounds of a request lie.
#[derive(Clone, Copy, PartialEq)]
enum Shape {
    /// Some frames have a least, some a most, and now and then a frame is bound to one budget.
    Mixed,
    /// A least and a most near to each other in every frame.
    Close,
    /// The bounds of every frame lie within those of the next one.
    Nested,
    /// Two pairs of bounds in turn.
    InTurn([(u64, u64); 2]),
}

impl Shape {
    /// A random shape, for harvests of about `most`.
    fn any(most: u64, random: &mut Random) -> Shape {
        match random.up_to(4) {
            0 => Shape::Close,
            1 => Shape::Nested,
            2 => Shape::InTurn([(); 2].map(|_| {
                let least = random.up_to(most / 2);
                (least, least + random.up_to(most))
            })),
            _ => Shape::Mixed,
        }
    }
}

/// What general frames have besides their harvests: of both kinds of bounds each may be absent, and loads are at most
/// so large.
#[derive(Clone, Copy)]
struct Terms {
    ceiling: Ceiling,
    shape: Shape,
    leasts: bool,
    mosts: bool,
    load: u64,
}

impl Terms {
    /// Random terms of every kind, for harvests of about `most`.
    fn any(most: u32, random: &mut Random) -> Terms {
        Terms {
            ceiling: *random.pick(&CEILINGS),
            shape: Shape::any(most.into(), random),
            leasts: random.one_in(2),
            mosts: random.one_in(2),
            load: u64::from(random.one_in(2)) * random.up_to(u64::from(most) / 6),
        }
    }

    /// What frame `i` has as its least and its most, of a request whose frames may draw about `scale`.
    fn bounds(self, i: u64, scale: u64, random: &mut Random) -> (u64, u64) {
        let (least, most) = match self.shape {
            Shape::Mixed => {
                let least = u64::from(random.one_in(3)) * random.up_to(scale / 4);
                match random.up_to(5) {
                    0 => (least, least),
                    1 | 2 => (least, least + random.up_to(scale)),
                    _ => (least, UNBOUNDED),
                }
            }
            Shape::Close => {
                let least = scale / 8 + random.up_to(scale / 4);
                (least, least + random.up_to(scale / 16))
            }
            Shape::Nested => ((scale / 4).saturating_sub(i), scale / 4 + 1 + i),
            Shape::InTurn(pairs) => pairs[i as usize % 2],
        };
        (
            if self.leasts { least } else { 0 },
            if self.mosts { most } else { UNBOUNDED },
        )
    }

    /// The frame with so much harvest.
    fn frame(self, capacity: u64, inflow: u64, (least, most): (u64, u64), random: &mut Random) -> Frame {
        let ceiling = match self.ceiling {
            Ceiling::OnTop => capacity + inflow,
            Ceiling::Within => capacity,
            Ceiling::Unlimited => UNLIMITED,
        };
        Frame {
            inflow,
            ceiling,
            drain: random.up_to(self.load),
            least,
            most,
        }
    }
}

/// A request of general frames, and what it was made of.
struct General {
    capacity: u64,
    terms: Terms,
    request: Listed,
}

impl General {
    /// The frames of harvests.
    fn new(capacity: u64, start: u64, end: u64, harvest: &[u32], terms: Terms, random: &mut Random) -> General {
        let largest = u64::from(harvest.iter().copied().max().unwrap_or(0));
        let scale = largest.max(start / (harvest.len() as u64).max(1));
        let frames = harvest.iter().zip(0..).map(|(&h, i)| {
            let bounds = terms.bounds(i, scale, random);
            terms.frame(capacity, h.into(), bounds, random)
        });
        let frames = frames.collect();
        let request = Listed { start, end, frames };
        General {
            capacity,
            terms,
            request,
        }
    }

    /// The same request with less asked of it until it is within reach.
    fn within_reach(mut self, random: &mut Random) -> General {
        let request = &mut self.request;
        while !are_feasible(request, request.frames.iter().map(|f| f.least)) {
            if random.one_in(2) {
                request.end /= 2;
                continue;
            }
            for f in &mut request.frames {
                f.least /= 2;
                f.drain /= 2;
            }
        }
        self
    }

    /// A random request of few frames, with harvests of about `most`.
    fn small(most: u32, random: &mut Random) -> General {
        let frames = 1 + random.up_to(7) as usize;
        let harvest = match random.up_to(2) {
            0 => random.pick(&FAMILIES).harvest(frames, most, random),
            _ => random.list(frames, most),
        };
        let capacity = random.up_to(u64::from(most) * 3);
        let start = random.up_to(capacity);
        let end = random.up_to(capacity);
        let terms = Terms::any(most, random);
        let mut general = General::new(capacity, start, end, &harvest, terms, random);
        if random.one_in(4) {
            // Any frames at all.
            for f in &mut general.request.frames {
                f.ceiling = random.up_to(u64::from(most) * 3);
                f.drain = random.up_to(u64::from(most) / 3);
            }
        }
        general.within_reach(random)
    }

    /// A random request of so many frames.
    fn any(frames: usize, random: &mut Random) -> General {
        let most = *random.pick(&[3, 50, 1_000, 400_000]);
        let family: Family = *random.pick(&FAMILIES);
        let harvest = family.harvest(frames, most, random);
        let worth = *random.pick(&[0, 1, 2, 8, 40, 200]);
        let capacity = random.up_to(u64::from(most) * worth);
        let start = *random.pick(&[0, capacity / 2, capacity]);
        let end = *random.pick(&[0, capacity / 2, capacity]);
        let terms = Terms::any(most, random);
        General::new(capacity, start, end, &harvest, terms, random).within_reach(random)
    }
}

/// Random figures for harvests: any capacity, start and end within reach.
fn plain<'a>(most: u32, harvest: &'a [u32], random: &mut Random) -> Plain<'a> {
    let worth = *random.pick(&[0, 1, 2, 8, 40, 200]);
    let capacity = random.up_to(u64::from(most) * worth);
    let all: u64 = harvest.iter().map(|&h| u64::from(h)).sum();
    let start = *random.pick(&[0, capacity / 2, capacity]);
    let some = random.up_to(capacity);
    let end = *random.pick(&[0, some, capacity]);
    Plain::new(capacity, start, end.min(start + all), harvest)
}

/// The plan as the planner finds it; a curve loses no knot.
fn planned(frames: &(impl Frames + Debug), counters: &mut Counters) -> Vec<u32> {
    let mut budgets = vec![0; frames.count()];
    let mut scratch = Scratch::new(frames.count());
    plan_frames(frames, &mut scratch, &mut budgets, counters);
    assert_eq!(scratch.knots.lost, 0, "knots of {frames:?}");
    budgets
}

/// The plan by the curve alone, which loses no knot.
fn by_curve_alone(frames: &(impl Frames + Debug)) -> Vec<u32> {
    let mut budgets = vec![0; frames.count()];
    let mut scratch = Scratch::new(frames.count());
    assert!(by_curve(frames, &mut scratch, &mut budgets), "the curve of {frames:?}");
    assert_eq!(scratch.knots.lost, 0, "knots of {frames:?}");
    budgets
}

/// The plan by the fallback.
fn searched(frames: &impl Frames) -> Vec<u32> {
    let mut budgets = vec![0; frames.count()];
    search(frames, &mut budgets);
    budgets
}

/// What a test has seen: by what the plans were found.
#[derive(Default)]
struct Seen(Counters);

impl Seen {
    /// The plan, which the curve alone and the fallback find too.
    fn plan(&mut self, frames: &(impl Frames + Debug)) -> Vec<u32> {
        let plan = planned(frames, &mut self.0);
        assert_eq!(by_curve_alone(frames), plan, "the curve of {frames:?}");
        assert_eq!(searched(frames), plan, "{frames:?}");
        plan
    }

    /// Prints what was seen. No budget was searched.
    fn close(self, name: &str) {
        let Counters {
            one_level,
            curve,
            search,
        } = self.0;
        println!("{name}: certified: one level {one_level}, curve {curve}; searched {search}");
        assert_eq!(search, 0, "a certificate failed");
    }
}

#[test]
fn small_general_requests_against_the_definition() {
    let mut seen = Seen::default();
    for case in 0..150_000 {
        let mut random = Random::of_case(seed(), 7_000_000 + case);
        let most = *random.pick(&[1, 3, 10, 30]);
        let General { request, .. } = General::small(most, &mut random);
        assert_eq!(seen.plan(&request), defined(&request), "{request:?}");
    }
    seen.close("small general requests");
}

#[test]
fn few_general_frames_with_large_figures() {
    let mut seen = Seen::default();
    for case in 0..50_000 {
        let mut random = Random::of_case(seed(), 13_000_000 + case);
        let most = *random.pick(&[1_000, 400_000, 100_000_000]);
        seen.plan(&General::small(most, &mut random).request);
    }
    seen.close("few general frames with large figures");
}

#[test]
fn small_requests_of_document_01_against_the_definition() {
    let mut seen = Seen::default();
    for case in 0..100_000 {
        let mut random = Random::of_case(seed(), 8_000_000 + case);
        let frames = 1 + random.up_to(14) as usize;
        let most = *random.pick(&[1, 3, 10, 100]);
        let harvest = random.list(frames, most);
        let plain = plain(most, &harvest, &mut random);
        let frames = (0..frames).map(|i| plain.at(i)).collect();
        let Plain { start, end, .. } = plain;
        assert_eq!(seen.plan(&plain), defined(&Listed { start, end, frames }), "{plain:?}");
    }
    seen.close("small requests of document 01");
}

#[test]
fn families_and_sizes() {
    let mut seen = Seen::default();
    for frames in [1, 2].into_iter().chain(FRAMES) {
        for most in [7, 1_000, 400_000] {
            for (i, family) in FAMILIES.into_iter().enumerate() {
                for size in SIZES {
                    let mut random = Random::of_case(seed(), 9_000_000 + i as u64);
                    let (figures, harvest) = request(family, size, frames, most, &mut random);
                    for Figures { capacity, start, end } in [figures, full(figures)] {
                        seen.plan(&Plain::new(capacity.into(), start.into(), end.into(), &harvest));
                    }
                }
            }
        }
    }
    seen.close("families");
}

/// Plans a request with bounds around its budgets without.
fn plan_bounded(seen: &mut Seen, kind: Kind, figures: Figures, harvest: &[u32], random: &mut Random) {
    let Figures { capacity, start, end } = figures;
    let plain = Plain::new(capacity.into(), start.into(), end.into(), harvest);
    let without = planned(&plain, &mut Counters::default());
    let (least, most) = around(kind, figures, harvest, &without, random);
    let (least, most) = (&least, &most);
    seen.plan(&Bounded { plain, least, most });
}

#[test]
fn families_and_sizes_with_bounds() {
    for kind in KINDS {
        let mut seen = Seen::default();
        for frames in [1, 2, 7].into_iter().chain(FRAMES) {
            for (i, family) in FAMILIES.into_iter().enumerate() {
                for size in SIZES {
                    let mut random = Random::of_case(seed(), 14_000_000 + i as u64);
                    let (figures, harvest) = request(family, size, frames, 1_000, &mut random);
                    for figures in [figures, full(figures)] {
                        plan_bounded(&mut seen, kind, figures, &harvest, &mut random);
                    }
                }
            }
        }
        seen.close(&format!("families with bounds, {kind:?}"));
    }
}

#[test]
fn large_requests_of_document_01() {
    let mut seen = Seen::default();
    for case in 0..500 {
        let mut random = Random::of_case(seed(), 11_000_000 + case);
        let frames = 1 + random.up_to(MAX_FRAMES as u64 - 1) as usize;
        let most = *random.pick(&[2, 50, 1_000, 400_000]);
        let harvest = random.pick(&FAMILIES).harvest(frames, most, &mut random);
        seen.plan(&plain(most, &harvest, &mut random));
    }
    seen.close("large requests of document 01");
}

#[test]
fn large_general_requests() {
    let mut seen = Seen::default();
    for case in 0..2_000 {
        let mut random = Random::of_case(seed(), 10_000_000 + case);
        let frames = *random.pick(&FRAMES);
        seen.plan(&General::any(frames, &mut random).request);
    }
    seen.close("large general requests");
}

/// Frames without harvest whose bounds lie each within those of the next one: every knot goes to the middle of the
/// others.
#[test]
fn nested_bounds_lose_no_knot() {
    let mut seen = Seen::default();
    for frames in FRAMES {
        let harvest = vec![0; frames];
        let least: Vec<u32> = (0..frames as u32).map(|i| 99_999 - i).collect();
        let most: Vec<u32> = (0..frames as u32).map(|i| 100_001 + i).collect();
        let (least, most) = (&least, &most);
        for start in [100_000 * frames as u64, 1_000_000_000] {
            let plain = Plain::new(1_000_000_000, start, 0, &harvest);
            seen.plan(&Bounded { plain, least, most });
        }
    }
    seen.close("nested bounds");
}

/// Two frames in turn in a store that takes in only what it has room for: behind every other one the curve jumps from 0
/// to the full store, and both its ends are to be kept.
#[test]
fn jumps_lose_no_knot() {
    let mut seen = Seen::default();
    for count in [2, 4, 8].into_iter().chain(FRAMES) {
        for (ceiling, start, end, pair) in [
            (7, 4, 3, [(4, 2, 5), (0, 1, 3)]),
            (77, 54, 66, [(3, 13, 28), (76, 9, 11)]),
        ] {
            let frames = pair.iter().cycle().take(count).map(|&(inflow, least, most)| Frame {
                inflow,
                ceiling,
                drain: 0,
                least,
                most,
            });
            let frames = frames.collect();
            seen.plan(&Listed { start, end, frames });
        }
    }
    seen.close("jumps");
}

/// How many frames one of the million requests has: mostly few, now and then as many as a day or more.
fn mixed_count(random: &mut Random) -> usize {
    let frames = match random.up_to(99) {
        0..=59 => 1 + random.up_to(11),
        60..=84 => 12 + random.up_to(27),
        85..=95 => 40 + random.up_to(55),
        _ => 96 + random.up_to(MAX_FRAMES as u64 - 96),
    };
    frames as usize
}

/// What one of the million requests may be, how many of them are at least, and whether this one is.
fn kinds(general: &General) -> [(&'static str, u64, bool); 12] {
    let General {
        capacity,
        terms: Terms { ceiling, shape, .. },
        ref request,
    } = *general;
    let has = |what: fn(&Frame) -> bool| request.frames.iter().any(what);
    let has_both = has(|f| 0 < f.least && f.most < UNBOUNDED);
    let is_full = request.start == capacity && request.end == capacity;
    [
        ("on top of the capacity", 300_000, ceiling == Ceiling::OnTop),
        ("within the capacity", 300_000, ceiling == Ceiling::Within),
        ("unlimited", 300_000, ceiling == Ceiling::Unlimited),
        ("with loads", 200_000, has(|f| 0 < f.drain)),
        ("with leasts", 200_000, has(|f| 0 < f.least)),
        ("with mosts", 200_000, has(|f| f.most < UNBOUNDED)),
        ("with close bounds", 20_000, has_both && shape == Shape::Close),
        ("with nested bounds", 20_000, has_both && shape == Shape::Nested),
        (
            "with bounds in turn",
            20_000,
            has_both && matches!(shape, Shape::InTurn(_)),
        ),
        ("without capacity", 100_000, capacity == 0),
        ("full before and after", 20_000, 0 < capacity && is_full),
        ("of a day or more", 20_000, 96 <= request.frames.len()),
    ]
}

#[test]
fn no_budget_is_searched_in_a_million_requests() {
    let mut counters = Counters::default();
    let mut met = BTreeMap::new();
    for case in 0..1_000_000 {
        let mut random = Random::of_case(seed(), 20_000_000 + case);
        let frames = mixed_count(&mut random);
        let general = General::any(frames, &mut random);
        let request = &general.request;
        let plan = planned(request, &mut counters);
        assert!(are_feasible(request, plan.iter().map(|&b| b.into())), "{request:?}");
        if case % 100 == 0 {
            assert_eq!(searched(request), plan, "{request:?}");
        }
        for (kind, least, is_met) in kinds(&general) {
            met.entry(kind).or_insert((least, 0)).1 += u64::from(is_met);
        }
    }
    for (kind, (least, count)) in met {
        println!("a million requests: {count} {kind}");
        assert!(least <= count, "{count} {kind}");
    }
    assert_eq!(counters.one_level + counters.curve, 1_000_000);
    assert!(300_000 <= counters.curve.min(counters.one_level), "{counters:?}");
    Seen(counters).close("a million requests");
}
