//! How often each harvest is read by each function that is lent a list of them, counted by lackey, a tool of valgrind
//! that tells every load. The list of a counted call lies where loads are told, and nothing else is stored there.

use super::twice::Kind::{self, Bounded, Constant, Sun};
use crate::measured::BOTH;
use crate::table::{head, line};
use crate::valgrind::{self, Loads, BEGIN};
use crate::week::hundreds::{Way, WAYS};
use crate::week::shifts;
use crate::words::verdict;
use energy::{Energy, Figures, Frames, Linked, MAX_FILE_BYTES, MAX_FRAMES};
use evidence::lists::Lists;

/// What is played for it.
pub const PLAYED: &str = "reads";

/// A call that is counted, and how often it reads a harvest at most: docs/BENCHMARKS.md names the passes.
struct Call {
    name: &'static str,
    reads: u64,
    run: fn(&Lent),
}

#[rustfmt::skip]
const CALLS: [Call; 7] = [
    Call { name: "`energy_plan`", reads: 9, run: plan },
    Call { name: "`energy_needed`", reads: 11, run: needed },
    Call { name: "`energy_shift_plan_rest`", reads: 9, run: plan_rest },
    Call { name: REST_AT_HALF, reads: 9, run: plan_rest_at_half },
    Call { name: "`energy_shift_start`", reads: 3, run: start },
    Call { name: "`energy_trace`", reads: 2, run: trace },
    Call { name: "`energy_write`", reads: 2, run: write },
];

/// A rest of the second half of the frames, which reads no harvest of the first one.
const REST_AT_HALF: &str = "`energy_shift_plan_rest`, half of it recorded";

impl Call {
    /// How often it reads the harvest of a frame at most.
    fn most(&self, frame: usize, frames: usize) -> u64 {
        if self.name == REST_AT_HALF && frame < frames / 2 {
            0
        } else {
            self.reads
        }
    }
}

/// A request twice: with the list that is counted, and with one that is not.
struct Lent<'a> {
    figures: Figures,
    counted: Frames<'a>,
    other: Frames<'a>,
    plan: &'a [u32],
}

impl Lent<'_> {
    /// Plans the rest from a frame on, of a shift that was recorded from the other list.
    fn plan_rest(&self, recorded: usize) {
        let shift = shifts(self.figures, self.other, self.plan)[recorded];
        let answer = Linked.shift_plan_rest(shift, self.counted, &mut self.plan.to_vec());
        answer.expect("a rest to plan");
    }
}

fn plan(lent: &Lent) {
    let answer = Linked.plan(lent.figures, lent.counted, &mut lent.plan.to_vec());
    answer.expect("an accepted request");
}

fn needed(lent: &Lent) {
    Linked.needed(lent.figures, lent.counted).expect("an accepted request");
}

fn plan_rest(lent: &Lent) {
    lent.plan_rest(0);
}

fn plan_rest_at_half(lent: &Lent) {
    lent.plan_rest(lent.plan.len() / 2);
}

fn start(lent: &Lent) {
    Linked
        .shift_start(lent.figures, lent.counted)
        .expect("an accepted request");
}

fn trace(lent: &Lent) {
    let (mut charges, mut losses) = (vec![0; lent.plan.len()], vec![0; lent.plan.len()]);
    let harvest = lent.counted.harvest;
    let answer = Linked.trace(lent.figures, harvest, lent.plan, &mut charges, &mut losses);
    answer.expect("an accepted request");
}

fn write(lent: &Lent) {
    let answer = Linked.write(lent.figures, lent.counted, &mut [0; MAX_FILE_BYTES]);
    answer.expect("an accepted request");
}

/// How many of a hundred requests are called.
const SOME: u64 = 4;

/// The requests of a row.
#[derive(Clone, Copy)]
enum Requests {
    One(Kind),
    Drawn(Way),
}

/// The rows of each call.
fn rows() -> Vec<Requests> {
    let one = [Constant, Sun, Bounded].map(Requests::One);
    one.into_iter().chain(WAYS.map(Requests::Drawn)).collect()
}

impl Requests {
    fn name(self) -> String {
        match self {
            Requests::One(kind) => kind.name().to_string(),
            Requests::Drawn(way) => format!("the first of the hundred, {}", way.name()),
        }
    }

    fn of_frames(self, frames: usize) -> Vec<(Figures, Lists)> {
        match self {
            Requests::One(kind) => vec![kind.accepted(frames)],
            Requests::Drawn(way) => way.first(SOME, frames),
        }
    }
}

/// A copy of a list where loads are told, in memory that nobody gets later.
fn told(list: &[u32]) -> &'static [u32] {
    let own = Vec::leak(vec![0; BEGIN / 4 + MAX_FRAMES]);
    let skipped = (BEGIN - own.as_ptr() as usize % BEGIN) / 4;
    let copy = &mut own[skipped..skipped + list.len()];
    copy.copy_from_slice(list);
    copy
}

/// Makes a call, and prints where its harvests begin, behind its row, its place among the calls and its frames.
fn play_one(row: usize, place: usize, figures: Figures, lists: &Lists, plan: &[u32]) {
    let (harvest, other) = (told(&lists.harvest), lists.frames());
    let counted = Frames { harvest, ..other };
    (CALLS[place].run)(&Lent {
        figures,
        counted,
        other,
        plan,
    });
    println!("{row} {place} {} {}", plan.len(), harvest.as_ptr() as u64);
}

/// Makes every counted call once.
pub fn play() {
    for (row, requests) in rows().into_iter().enumerate() {
        for (figures, lists) in BOTH.into_iter().flat_map(|frames| requests.of_frames(frames)) {
            let mut plan = vec![0; lists.count()];
            let answer = Linked.plan(figures, lists.frames(), &mut plan);
            answer.expect("an accepted request");
            (0..CALLS.len()).for_each(|place| play_one(row, place, figures, &lists, &plan));
        }
    }
}

/// What was counted: the loads, and what was printed of the calls.
struct Counted {
    loads: Loads,
    printed: String,
}

impl Counted {
    /// The most reads of a harvest in the calls of a row with so many frames, and whether none has too many.
    fn reads(&self, row: usize, place: usize, frames: usize) -> (u64, bool) {
        let begin = format!("{row} {place} {frames} ");
        let lines = self.printed.lines();
        let lists = lines.filter_map(|line| line.strip_prefix(&begin)?.parse().ok());
        let counts: Vec<Vec<u64>> = lists.map(|list| self.loads.of_list(list, frames)).collect();
        let fits = |(frame, &reads): (usize, &u64)| reads <= CALLS[place].most(frame, frames);
        let all_fit = counts.iter().all(|reads| reads.iter().enumerate().all(fits));
        let most = counts.iter().flatten().max().copied().unwrap_or_default();
        (most, all_fit && 0 < most)
    }

    /// A call's line of a row, and whether it is met.
    fn line(&self, row: usize, place: usize, requests: Requests) -> (String, bool) {
        let [half, whole] = BOTH.map(|frames| self.reads(row, place, frames));
        let is_met = half.1 && whole.1;
        let Call { name, reads, .. } = CALLS[place];
        let cells = [
            name.to_string(),
            requests.name(),
            half.0.to_string(),
            whole.0.to_string(),
        ];
        let judged = format!("{reads} {}", verdict(is_met));
        (line(cells.into_iter().chain([judged])), is_met)
    }

    /// The table, and the calls that read a harvest too often.
    fn report(&self) -> (String, Vec<String>) {
        let columns = BOTH.map(|frames| format!("{frames} frames"));
        let names = ["reads of a harvest by", "requests"].map(String::from).into_iter();
        let names = names.chain(columns).chain(["at most".to_string()]);
        let (mut text, mut missed) = (head(names), Vec::new());
        for (place, call) in CALLS.iter().enumerate() {
            for (row, requests) in rows().into_iter().enumerate() {
                let (line, is_met) = self.line(row, place, requests);
                text += &line;
                if !is_met {
                    missed.push(format!("{} of {}", call.name, requests.name()));
                }
            }
        }
        (text, missed)
    }
}

/// Counts all of it: the table, and the calls that read a harvest too often.
pub fn measure() -> Result<(String, Vec<String>), String> {
    let (loads, printed) = valgrind::loads(PLAYED)?;
    Ok(Counted { loads, printed }.report())
}

#[cfg(test)]
mod tests {
    use super::*;
    use crate::measured::HALF_WEEK;

    /// The places of the calls of the tests.
    const TRACE: usize = 5;
    const HALF: usize = 3;

    /// The line of a call, where one harvest of the week is read so often, and each of half a week twice.
    fn line_of(place: usize, frame: usize, reads: u64) -> (String, bool) {
        let (half, week) = (BEGIN as u64, 2 * BEGIN as u64);
        let of_half = (if place == HALF { HALF_WEEK / 2 } else { 0 }..HALF_WEEK).map(|i| (half + 4 * i as u64, 2));
        let counted = Counted {
            loads: of_half.chain([(week + 4 * frame as u64, reads)]).collect(),
            printed: format!("0 {place} 336 {half}\n0 {place} 672 {week}\n"),
        };
        counted.line(0, place, rows()[0])
    }

    #[test]
    fn as_many_reads_as_passes_are_met_and_one_more_is_not() {
        let line = |reads: &str| format!("| `energy_trace` | one level | 2 | {reads} |\n");
        assert_eq!(line_of(TRACE, 671, 2), (line("2 | 2 met"), true));
        assert_eq!(line_of(TRACE, 671, 3), (line("3 | 2 missed"), false));
        assert_eq!(line_of(TRACE, 671, 0), (line("0 | 2 missed"), false));
    }

    #[test]
    fn no_recorded_harvest_is_read() {
        assert!(line_of(HALF, 336, 9).1);
        assert!(!line_of(HALF, 336, 10).1);
        assert!(!line_of(HALF, 335, 1).1);
    }

    #[test]
    fn nothing_counted_is_nothing_met() {
        let counted = Counted {
            loads: Loads::default(),
            printed: String::new(),
        };
        assert_eq!(counted.report().1.len(), CALLS.len() * rows().len());
    }
}
