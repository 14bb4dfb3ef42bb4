//! Random cases through every implementation, compared with the reference. Another seed: `ENERGY_SEED=7 rust/cargo test`.

use energy::{Energy, Figures, Refusal, Rest, Shift, Verdict, LISTING_BYTES};
use evidence::cases::{Call, Case};
use evidence::check::expect;
use evidence::generate::{any_case, any_file_case, any_run};
use evidence::lists::Lists;
use evidence::random::{seed, Random};
use evidence::reference::limits::{MAX_BOUND, MAX_FILE_BYTES, NO_UPPER_END};
use evidence::reference::Reference;
use evidence::under_test;
use std::collections::BTreeSet;

/// Every implementation on as many cases of a generator.
fn compare(first: u64, count: u64, generator: fn(&mut Random) -> Case) {
    let all = under_test();
    for number in first..first + count {
        let case = generator(&mut Random::of_case(seed(), number));
        for energy in &all {
            expect(energy.as_ref(), &case);
        }
    }
}

#[test]
fn calls_of_every_kind() {
    compare(1_000_000, 150_000, any_case);
}

#[test]
fn shifts_with_refused_calls() {
    compare(2_000_000, 40_000, any_run);
}

#[test]
fn random_mutated_and_truncated_files() {
    compare(3_000_000, 60_000, any_file_case);
}

/// The number of a refusal, or `ok`.
fn number<T>(answer: Result<T, Refusal>) -> String {
    answer.map_or_else(|refusal| refusal.number().to_string(), |_| "ok".into())
}

/// Why the bounds of a frame are bad.
fn cause(lists: &Lists, frame: u64) -> &'static str {
    let (least, most) = (lists.least[frame as usize - 1], lists.most[frame as usize - 1]);
    match (least > MAX_BOUND, most > MAX_BOUND && most != NO_UPPER_END) {
        (true, false) => "least",
        (false, true) => "most",
        (true, true) => "both",
        _ => "above",
    }
}

/// The number of a refusal, or `ok`; 10 with its cause.
fn bounded<T>(answer: Result<T, Refusal>, lists: &Lists) -> String {
    match answer {
        Err(Refusal::BadBounds { frame }) => format!("10 {}", cause(lists, frame)),
        other => number(other),
    }
}

/// What planning and the needed capacity of a request answer, where one of them is 11.
fn leasts(figures: Figures, lists: &Lists) -> String {
    let planned = Reference.plan(figures, lists.frames(), &mut vec![0; lists.count()]);
    let needed = Reference.needed(figures, lists.frames());
    match (planned, needed) {
        (Err(Refusal::LeastsOutOfReach), Err(Refusal::LeastsOutOfReach)) => "of both".into(),
        (Err(Refusal::LeastsOutOfReach), _) => "of planning alone".into(),
        (_, Err(Refusal::LeastsOutOfReach)) => "of needed alone".into(),
        _ => "of none".into(),
    }
}

/// What the reference answers to a call on a record.
fn answer_on(shift: Shift, call: &Call) -> String {
    match call {
        Call::Record { harvest, used } => {
            let recorded = Reference.shift_record(shift, *harvest, *used);
            format!("record {}", number(recorded.map_err(|not| not.refusal)))
        }
        Call::Rest { lists, budgets } => {
            let rest = Reference.shift_plan_rest(shift, lists.frames(), &mut vec![0; *budgets]);
            let word = match rest {
                Ok(Rest::Short { missing: 0 }) => "short of nothing".into(),
                Ok(Rest::Short { .. }) => "short".into(),
                other => bounded(other, lists),
            };
            format!("rest {word}")
        }
        Call::Part { budgets } => {
            let budgets = vec![0; *budgets];
            format!("part {}", number(Reference.shift_rest_part(shift, &budgets)))
        }
    }
}

/// What the reference answers to a case, as words for the coverage.
fn answers(case: &Case) -> Vec<String> {
    let kind = case.to_string().split(' ').next().unwrap_or_default().to_string();
    let answers = match case {
        Case::Plan {
            figures,
            lists,
            budgets,
        } => {
            let planned = Reference.plan(*figures, lists.frames(), &mut vec![0; *budgets]);
            vec![bounded(planned, lists), leasts(*figures, lists)]
        }
        Case::Needed { figures, lists } => {
            let needed = Reference.needed(*figures, lists.frames());
            vec![bounded(needed, lists), leasts(*figures, lists)]
        }
        Case::Trace {
            figures,
            harvest,
            budgets,
            charges,
            losses,
        } => {
            let (mut charges, mut losses) = (vec![0; *charges], vec![0; *losses]);
            let verdict = match Reference.trace(*figures, harvest, budgets, &mut charges, &mut losses) {
                Ok(Verdict::Feasible) => "feasible".into(),
                Ok(Verdict::EndTooLow) => "end".into(),
                Ok(Verdict::BelowZero { .. }) => "below".into(),
                refused => number(refused),
            };
            let loses = losses.iter().any(|&loss| loss > 0);
            vec![if loses { format!("{verdict} loses") } else { verdict }]
        }
        Case::Grade { budgets } => vec![number(Reference.grade(budgets))],
        Case::Run { figures, lists, .. } => {
            vec![bounded(Reference.shift_start(*figures, lists.frames()), lists)]
        }
        Case::On { shift, call } => vec![answer_on(*shift, call)],
        Case::Read { file, rooms } => {
            let [mut harvest, mut least, mut most] = rooms.map(|room| vec![0; room]);
            let read = Reference.read(file, &mut harvest, &mut least, &mut most);
            let too_long = file.len() <= MAX_FILE_BYTES && read == Err(Refusal::TooManyFrames);
            let frames = if too_long { "2 frames".into() } else { number(read) };
            let bounds = least.iter().any(|&least| least > 0) && most.iter().any(|&most| most != NO_UPPER_END);
            vec![if bounds { format!("{frames} bounds") } else { frames }]
        }
        Case::Write { figures, lists, room } => {
            let written = Reference.write(*figures, lists.frames(), &mut vec![0; *room]);
            vec![bounded(written, lists)]
        }
        Case::Listing { file, .. } => {
            let mut text = vec![0; LISTING_BYTES];
            let bytes = Reference.listing(file, &mut text);
            let first = String::from_utf8_lossy(&text[..bytes]);
            let number = first.strip_prefix("refused ").and_then(|rest| rest.split(' ').next());
            vec![number.unwrap_or("ok").into()]
        }
    };
    answers.into_iter().map(|answer| format!("{kind} {answer}")).collect()
}

/// The generator makes every answer that documents 01 and 02 know of.
#[test]
fn every_answer_is_reached() {
    let mut seen = BTreeSet::new();
    for number in 0..60_000 {
        seen.extend(answers(&any_case(&mut Random::of_case(20_080_310, number))));
    }
    for (kind, answers) in [
        ("plan", "ok,1,2,7,3,4,5,6,9,11"),
        ("needed", "ok,1,2,7,3,6,9,11"),
        ("trace", "feasible,end,below,1,2,7,3,4,5,6"),
        ("trace feasible", "loses"),
        ("trace end", "loses"),
        ("trace below", "loses"),
        ("grade", "ok,1,2"),
        ("run", "ok,1,7,3,4,5,6,9,11"),
        ("on record", "ok,22,20,6,21"),
        ("on rest", "ok,short,short of nothing,22,7,20,6"),
        ("on part", "ok,22,7,20"),
        ("read", "ok,ok bounds,2,2 frames,8,7"),
        ("write", "ok,1,2,7,3,4,5,6"),
        ("listing", "ok,1,2,8,3,4,5,6,9,10,11"),
        ("plan of", "both,planning alone,needed alone,none"),
        ("needed of", "both,planning alone,needed alone,none"),
        ("plan 10", "least,most,both,above"),
        ("needed 10", "least,most,both,above"),
        ("run 10", "least,most,both,above"),
        ("on rest 10", "least,most,both,above"),
        ("write 10", "least,most,both,above"),
    ] {
        for answer in answers.split(',') {
            let wanted = format!("{kind} {answer}");
            assert!(seen.contains(&wanted), "no case with: {wanted}");
        }
    }
}
