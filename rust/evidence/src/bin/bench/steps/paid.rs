//! What every request pays, in instructions: each step by calls of which one goes a step further than another, and some
//! calls by the library's functions. They are counted at half a week and at the same twice, so that the difference of both
//! is what a frame takes.

use super::twice::Kind::{self, Bounded, Constant, Refused, Sun};
use crate::contenders::black_box;
use crate::measured::{BOTH, GROWTH, HALF_WEEK, WEEK};
use crate::subject::{self, Function, Subject};
use crate::table::{head, line};
use crate::valgrind::{self, Part};
use crate::words::verdict;

/// What is played for it.
pub const PLAYED: &str = "paid";

/// The function that goes over the lists once.
const PASS: &str = "one_pass";

const START: &str = "energy_shift_start";
const PLAN: &str = "energy_plan";
const NEEDED: &str = "energy_needed";
const REST: &str = "energy_shift_plan_rest";
const TRACE: &str = "energy_trace";
const GRADE: &str = "energy_grade";
const WRITE: &str = "energy_write";
const READ: &str = "energy_read";
const LISTING: &str = "energy_listing";

const FUNCTIONS: [&str; 10] = [PASS, START, PLAN, NEEDED, REST, TRACE, GRADE, WRITE, READ, LISTING];

/// A counted call.
type Counted = (&'static str, Kind);

/// A step: what some calls take, less what others do.
struct Step {
    name: &'static str,
    of: &'static [Counted],
    less: &'static [Counted],
}

/// A step of the table.
const fn step(name: &'static str, of: &'static [Counted], less: &'static [Counted]) -> Step {
    Step { name, of, less }
}

/// The calls whose difference is the sum of start charge and harvests: before both are refused by 11, a needed capacity
/// adds them up and a start does not.
const WITH_SUM: Counted = (NEEDED, Refused(11));
const NO_SUM: Counted = (START, Refused(11));

#[rustfmt::skip]
const STEPS: [Step; 23] = [
    step("one pass over the three lists", &[(PASS, Sun)], &[]),
    step("1, 2, 7, 3, 4, 5: lengths and figures", &[(START, Refused(5))], &[]),
    step("6: all harvests looked at", &[(START, Refused(6))], &[(START, Refused(5))]),
    step("10: all bounds looked at", &[(START, Refused(10))], &[(START, Refused(6))]),
    step("9: harvests taken off the end charge, if all are needed", &[(START, Refused(9))], &[(START, Refused(10))]),
    step("11: whether there is a least", &[(START, Sun)], &[(START, Refused(10))]),
    step("11: leasts drawn, if there is one", &[(START, Bounded)], &[(START, Sun)]),
    step("refusals in all, without bounds", &[(START, Sun)], &[]),
    step("refusals in all, with bounds", &[(START, Bounded)], &[]),
    step("start charge and harvests added up", &[WITH_SUM], &[NO_SUM]),
    step("plan besides: one level", &[(PLAN, Constant), NO_SUM], &[(START, Constant), WITH_SUM]),
    step("plan besides: curve", &[(PLAN, Sun), NO_SUM], &[(START, Sun), WITH_SUM]),
    step("plan besides: curve with bounds", &[(PLAN, Bounded), NO_SUM], &[(START, Bounded), WITH_SUM]),
    step("needed capacity besides: one level", &[(NEEDED, Constant), NO_SUM, NO_SUM], &[(START, Constant), WITH_SUM, WITH_SUM]),
    step("needed capacity besides: curve", &[(NEEDED, Sun), NO_SUM, NO_SUM], &[(START, Sun), WITH_SUM, WITH_SUM]),
    step("needed capacity besides: curve with bounds", &[(NEEDED, Bounded), NO_SUM, NO_SUM], &[(START, Bounded), WITH_SUM, WITH_SUM]),
    step("rest in all: curve with bounds", &[(REST, Bounded)], &[]),
    step("trace beside its refusals", &[(TRACE, Bounded)], &[(START, Refused(6))]),
    step("worth by three curves", &[(GRADE, Bounded)], &[]),
    step("file with bounds written", &[(WRITE, Bounded)], &[]),
    step("file with bounds read", &[(READ, Bounded)], &[]),
    step("listing in all: curve with bounds", &[(LISTING, Bounded)], &[]),
    // beside reading, plan, needed capacity without its refusals and their sum, trace without its refusals, worth
    step("its text", &[(LISTING, Bounded), (START, Bounded), WITH_SUM, (START, Refused(6))],
        &[NO_SUM, (READ, Bounded), (PLAN, Bounded), (NEEDED, Bounded), (TRACE, Bounded), (GRADE, Bounded)]),
];

/// The calls whose growth is held, since a copy of a list that is gone over again and again is no load of the list.
#[rustfmt::skip]
const GROWING: [Counted; 10] = [
    (PLAN, Constant), (PLAN, Sun), (PLAN, Bounded), (NEEDED, Constant), (NEEDED, Sun), (NEEDED, Bounded),
    (REST, Constant), (REST, Sun), (REST, Bounded), (LISTING, Bounded),
];

/// The calls of which each function is told, and their names.
const BY_FUNCTION: [(&str, Counted); 3] = [
    ("plan", (PLAN, Bounded)),
    ("needed capacity", (NEEDED, Bounded)),
    ("rest", (REST, Bounded)),
];

/// Goes over the lists once.
#[no_mangle]
#[inline(never)]
extern "C" fn one_pass(subject: &Subject) -> u32 {
    let lists = [&subject.lists.harvest, &subject.lists.least, &subject.lists.most];
    lists
        .iter()
        .fold(0, |all, list| list.iter().fold(all, |all, entry| all ^ entry))
}

/// A call of a list without what it computes.
fn passed(subject: &mut Subject) -> u32 {
    black_box(one_pass(subject));
    0
}

/// A function that is counted.
fn function(name: &str) -> Function {
    if name == PASS {
        return Function {
            name: PASS,
            call: passed,
        };
    }
    subject::function(name)
}

/// Every call that is counted, once.
fn counted() -> Vec<Counted> {
    let mut all = Vec::new();
    let of_steps = STEPS.iter().flat_map(|step| step.of.iter().chain(step.less));
    for call in of_steps.chain(&GROWING) {
        if !all.contains(call) {
            all.push(*call);
        }
    }
    all
}

/// Makes every counted call once, of half a week and then of a week.
pub fn play() {
    for (name, kind) in counted() {
        for frames in BOTH {
            let number = (function(name).call)(&mut kind.subject(frames));
            assert_eq!(number, kind.number(), "{name}");
        }
    }
}

/// The instructions of every counted call at half a week and at a week.
struct Counts(Vec<(Counted, [Part; 2])>);

/// The cells of what is counted at half a week and at a week, and what that is for a frame.
fn cells(counts: [i64; 2]) -> impl Iterator<Item = String> {
    let for_each = (counts[1] - counts[0]) as f64 / (WEEK - HALF_WEEK) as f64;
    let counts = counts.map(|count| count.to_string());
    counts.into_iter().chain([format!("{for_each:.2}")])
}

/// The names of these columns.
fn columns() -> impl Iterator<Item = String> {
    [
        format!("{HALF_WEEK} frames"),
        format!("{WEEK} frames"),
        "a frame".to_string(),
    ]
    .into_iter()
}

/// A function without its modules; where the C library clears or copies lists, that.
fn short(function: &str) -> String {
    if function.starts_with("__mem") {
        return "lists cleared by the C library".to_string();
    }
    let is_module = |part: &&str| part.starts_with(|c: char| c.is_lowercase());
    let modules = function.split("::").take_while(is_module).count();
    let parts: Vec<&str> = function.split("::").collect();
    let first = modules.min(parts.len() - 1);
    format!("`{}`", parts[first..].join("::"))
}

impl Counts {
    /// Those of one function after the other.
    fn of_library(functions: &[&'static str]) -> Result<Counts, String> {
        let (calls, mut counts) = (counted(), Vec::new());
        for &name in functions {
            let of_name: Vec<Counted> = calls.iter().copied().filter(|call| call.0 == name).collect();
            let mut each = valgrind::instructions(name, PLAYED, None, 2 * of_name.len())?.into_iter();
            let mut next = || each.next().unwrap_or_default();
            counts.extend(of_name.into_iter().map(|call| (call, [next(), next()])));
        }
        Ok(Counts(counts))
    }

    /// A counted call at half a week and at a week.
    fn of_call(&self, call: Counted) -> &[Part; 2] {
        let found = self.0.iter().find(|(counted, _)| *counted == call);
        &found.expect("every call of a step is counted").1
    }

    /// What some calls take together at either number of frames.
    fn sum(&self, calls: &[Counted]) -> [i64; 2] {
        let of_frames = |i: usize| calls.iter().map(|&call| self.of_call(call)[i].total as i64).sum();
        [of_frames(0), of_frames(1)]
    }

    /// A step's line.
    fn line(&self, step: &Step) -> String {
        let (of, less) = (self.sum(step.of), self.sum(step.less));
        let counts = [of[0] - less[0], of[1] - less[1]];
        line([step.name.to_string()].into_iter().chain(cells(counts)))
    }

    /// The lines of a call: what each function that the compiler left takes by itself, the greatest first.
    fn lines_by_function(&self, name: &str, call: Counted) -> String {
        let [half, whole] = self.of_call(call);
        let of_function = |(function, count): &(String, u64)| {
            let at_half = half.of_function(function);
            let names = [name.to_string(), short(function)];
            line(names.into_iter().chain(cells([at_half as i64, *count as i64])))
        };
        let mut functions: Vec<&(String, u64)> = whole.of_functions.iter().collect();
        functions.sort_by_key(|(_, count)| std::cmp::Reverse(*count));
        functions.into_iter().map(of_function).collect()
    }

    /// How the held calls grow, and which of them by more than the limit.
    fn growth(&self) -> (String, Vec<String>) {
        let names = ["instructions of", "requests"].map(String::from).into_iter();
        let (mut text, mut missed) = (
            head(names.chain(columns().take(2)).chain(["growth".to_string()])),
            Vec::new(),
        );
        for call in GROWING {
            let counts = self.sum(&[call]);
            let growth = counts[1] as f64 / counts[0] as f64;
            let names = [format!("`{}`", call.0), call.1.name().to_string()];
            let judged = format!("{growth:.2}, at most {GROWTH} {}", verdict(growth <= GROWTH));
            text += &line(names.into_iter().chain(cells(counts).take(2)).chain([judged]));
            if GROWTH < growth {
                missed.push(format!("{} of {}", call.0, call.1.name()));
            }
        }
        (text, missed)
    }

    /// Both tables.
    fn report(&self) -> String {
        let steps: String = STEPS.iter().map(|step| self.line(step)).collect();
        let calls = BY_FUNCTION.iter();
        let functions: String = calls.map(|&(name, call)| self.lines_by_function(name, call)).collect();
        let of_steps = head(["step".to_string()].into_iter().chain(columns()));
        let of_functions = head(
            ["call", "function by itself"]
                .map(String::from)
                .into_iter()
                .chain(columns()),
        );
        format!("{of_steps}{steps}\n{of_functions}{functions}")
    }
}

/// Counts all of it, and gives the tables.
pub fn measure() -> Result<String, String> {
    Ok(Counts::of_library(&FUNCTIONS)?.report())
}

/// Counts what is held: the table, and the calls that grow by more than the limit.
pub fn growth() -> Result<(String, Vec<String>), String> {
    let counts = Counts::of_library(&[PLAN, NEEDED, REST, LISTING])?;
    Ok(counts.growth())
}

#[cfg(test)]
mod tests {
    use super::*;

    #[test]
    fn functions_have_their_type_and_no_module() {
        let names = [
            "energy_plan",
            "curve::levels::curve_levels",
            "leveller::task::Task::plan_into",
        ];
        assert_eq!(
            names.map(short),
            ["`energy_plan`", "`curve_levels`", "`Task::plan_into`"]
        );
        assert_eq!(short("__memset_avx2_unaligned_erms"), "lists cleared by the C library");
    }

    #[test]
    fn a_step_is_what_calls_take_less_others_each_as_often_as_it_is_named() {
        let part = |total| Part {
            total,
            ..Part::default()
        };
        let counts = Counts(vec![
            ((PLAN, Sun), [part(1000), part(2000)]),
            ((START, Sun), [part(10), part(346)]),
        ]);
        const TWICE: Step = step("x", &[(PLAN, Sun)], &[(START, Sun), (START, Sun)]);
        assert_eq!(counts.line(&TWICE), "| x | 980 | 1308 | 0.98 |\n");
    }
}
