//! The longest requests: those of the rows of a week, with harvests as in the other tables and with the largest that
//! there are.

use crate::measured::WEEK;
use crate::rows::{rows, Request, Row, MOST};
use crate::search::micros;
use crate::subject::Subject;
use energy::{Linked, MAX_BOUND, MAX_HARVEST, NO_UPPER_END};
use evidence::lists::Lists;

/// How many requests of a random row are called.
const SOME: u64 = 4;

/// How often every budget of a request is searched.
const SEARCHES: usize = 5;

/// The number of the refusal that is told after everything else was looked at: leasts out of reach.
const LAST_REFUSAL: u32 = 11;

/// What bounds a request has.
#[derive(Clone, Copy, PartialEq)]
pub enum Group {
    Unbounded,
    Bounded,
    Nested,
    /// Random bounds, with a least in the last frame that is out of reach.
    Unreachable,
}

/// All of them, in the order of the table.
pub const GROUPS: [Group; 4] = [Group::Unbounded, Group::Bounded, Group::Nested, Group::Unreachable];

/// A request of a group that is called.
pub struct Longest {
    pub group: Group,
    /// Whether it is the first one of its row.
    pub is_first: bool,
    pub subject: Subject,
}

impl Group {
    /// The bounds of a row.
    fn of_row(row: &Row) -> Group {
        match (row.is_summed(), row.bounded) {
            (false, _) => Group::Nested,
            (true, true) => Group::Bounded,
            (true, false) => Group::Unbounded,
        }
    }
}

/// The same lists, with a least in the last frame that is out of reach.
fn unreachable(lists: &Lists) -> Lists {
    let mut lists = lists.clone();
    lists.least[WEEK - 1] = MAX_BOUND;
    lists.most[WEEK - 1] = NO_UPPER_END;
    lists
}

/// A request of a row, and where it has random bounds the same out of reach.
fn of_request(row: &Row, i: usize, request: Request) -> Vec<Longest> {
    let Request { figures, lists, .. } = request;
    let of_group = |group, lists, refusal| Longest {
        group,
        is_first: i == 0,
        subject: Subject::called(&Linked, figures, lists, refusal),
    };
    let group = Group::of_row(row);
    let beyond = (group == Group::Bounded).then(|| of_group(Group::Unreachable, unreachable(&lists), LAST_REFUSAL));
    let within = of_group(group, lists, 0);
    [Some(within), beyond].into_iter().flatten().collect()
}

/// So many requests of every row of a week, with harvests up to either most.
fn requests(some: u64) -> impl Iterator<Item = (Row, Vec<Request>)> {
    let weeks = rows().into_iter().filter(|row| row.frames == WEEK);
    weeks.flat_map(move |row| [MOST, MAX_HARVEST].map(|most| (row, row.requests_up_to(most, some))))
}

/// All of them.
pub fn longest() -> Vec<Longest> {
    let of_row = |(row, requests): (Row, Vec<Request>)| {
        let numbered = requests.into_iter().enumerate();
        numbered.flat_map(move |(i, request)| of_request(&row, i, request))
    };
    requests(SOME).flat_map(of_row).collect()
}

/// Microseconds of the search of every budget, in the twin, in the first requests: the greatest of a group, each the
/// best of some rounds.
pub fn searched(group: Group) -> f64 {
    let of_group = requests(1).filter(|(row, _)| Group::of_row(row) == group);
    let best = |(row, requests): (Row, Vec<Request>)| {
        let times = (0..SEARCHES).map(|_| micros(&requests[0], row.bounded));
        times.fold(f64::INFINITY, f64::min)
    };
    of_group.map(best).fold(0.0, f64::max)
}
