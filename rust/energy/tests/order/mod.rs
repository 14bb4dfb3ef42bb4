//! The order in which a call looks for its refusals: as the header and the documentation name it, and as a chain of calls shows
//! it, each of which has one fault less than the one before it.

use energy::{Figures, Frames, Refusal, MAX_CAPACITY, MAX_FRAMES, MAX_HARVEST, NO_UPPER_END};

const HEADER: &str = include_str!("../../../../include/energy.h");
const SOURCES: &str = concat!(
    include_str!("../../src/calls.rs"),
    include_str!("../../src/files.rs"),
    include_str!("../../src/shifts.rs"),
    include_str!("../../src/interface.rs")
);

/// The numbers behind a verb in the comment before a declaration, up to the end of the sentence, without what stands in
/// parentheses.
fn named(source: &str, declaration: &str, verb: &str) -> String {
    let (before, _) = source.split_once(declaration).expect(declaration);
    let comment = before.rsplit("\n\n").next().expect("the last part");
    let (_, behind) = comment.split_once(verb).expect(comment);
    let outside: String = behind
        .split('(')
        .map(|part| part.rsplit(')').next().expect("the last part"))
        .collect();
    let sentence = outside.split('.').next().expect("the first part");
    let numbers = sentence
        .split(|c: char| !c.is_ascii_digit())
        .filter(|number| !number.is_empty());
    numbers.collect::<Vec<_>>().join(" ")
}

/// The order that the header names at a function.
pub fn of_header(function: &str) -> String {
    named(HEADER, &format!(" {function}("), "Refuses ")
}

/// The order that the documentation names at a function, which is given with the words before its name.
pub fn of_documentation(function: &str) -> String {
    named(SOURCES, &format!("{function}("), "Refused by ")
}

/// The order in which refusals come up in a chain's answers.
pub fn of_answers(answers: &str) -> String {
    let mut numbers: Vec<_> = answers
        .split(' ')
        .filter_map(|answer| answer.split(':').next())
        .collect();
    numbers.retain(|&number| number != "ok");
    numbers.dedup();
    numbers.join(" ")
}

/// The answers of a chain: `ok`, or the refusal's number, with P behind a colon where it is not 0.
pub fn answers<R, V>(chain: &[R], call: impl Fn(&R) -> Result<V, Refusal>) -> String {
    let answer = |request| match call(request).map_err(|refusal| (refusal.number(), refusal.p())) {
        Ok(_) => "ok".to_string(),
        Err((number, 0)) => number.to_string(),
        Err((number, p)) => format!("{number}:{p}"),
    };
    chain.iter().map(answer).collect::<Vec<_>>().join(" ")
}

/// A request whose lists may have any lengths.
pub struct Request {
    pub figures: Figures,
    pub harvest: Vec<u32>,
    pub least: Vec<u32>,
    pub most: Vec<u32>,
}

impl Request {
    pub fn frames(&self) -> Frames<'_> {
        Frames {
            harvest: &self.harvest,
            least: &self.least,
            most: &self.most,
        }
    }
}

pub fn figures(capacity: u32, start: u32, end: u32) -> Figures {
    Figures { capacity, start, end }
}

fn request(figures: Figures, harvest: &[u32], least: &[u32], most: &[u32]) -> Request {
    let [harvest, least, most] = [harvest, least, most].map(<[u32]>::to_vec);
    Request {
        figures,
        harvest,
        least,
        most,
    }
}

/// A chain of requests. Each has the faults of those behind it too, as far as they go together; the last one has none.
pub fn requests() -> Vec<Request> {
    let high = figures(MAX_CAPACITY + 1, MAX_CAPACITY + 2, u32::MAX);
    let over = MAX_HARVEST + 1;
    // More than the start charge and such a harvest.
    let far = 500_000;
    vec![
        request(high, &[], &[5], &[0]),
        request(high, &[over; MAX_FRAMES + 1], &[5], &[0]),
        request(high, &[0, over], &[5], &[0, 0]),
        request(high, &[0, over], &[5, 0], &[0]),
        request(high, &[0, over], &[5, 0], &[0, 0]),
        request(figures(10, 11, far), &[0, over], &[5, 0], &[0, 0]),
        request(figures(10, 0, far), &[0, over], &[5, 0], &[0, 0]),
        request(figures(far, 0, far), &[0, over], &[5, 0], &[0, 0]),
        request(figures(far, 0, far), &[0, 3], &[5, 0], &[0, 0]),
        request(figures(far, 0, far), &[0, 3], &[5, 0], &[9, NO_UPPER_END]),
        request(figures(far, 0, 2), &[0, 3], &[5, 0], &[9, NO_UPPER_END]),
        request(figures(far, 0, 2), &[0, 3], &[0, 1], &[9, NO_UPPER_END]),
    ]
}
