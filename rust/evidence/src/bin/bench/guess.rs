//! Which guess was certified, by the counters of the library's twin.

use crate::rows::{Request, Row, COUNTED};
use evidence::algorithms::certificate::Counters;
use evidence::fast::plan_into;

/// Counts the guess of a request's plan.
fn count(request: &Request, counters: &mut Counters) {
    let mut budgets = vec![0; request.lists.count()];
    plan_into(request.figures.into(), request.lists.frames(), &mut budgets, counters);
}

/// The guesses that were certified for the plans of a row, and for how many of them.
pub fn guess(row: &Row) -> String {
    let mut counters = Counters::default();
    row.requests(COUNTED)
        .iter()
        .for_each(|request| count(request, &mut counters));
    let all = [
        ("one level", counters.one_level),
        ("curve", counters.curve),
        ("searched", counters.search),
    ];
    let seen = all.iter().filter(|(_, count)| *count > 0);
    let seen: Vec<String> = seen.map(|(name, count)| format!("{name} {count}")).collect();
    seen.join(", ")
}
