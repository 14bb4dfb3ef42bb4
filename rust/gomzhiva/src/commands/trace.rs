//! `trace`: the charges and losses that supplied budgets lead to, and the verdict.

use super::budgets::Budgets;
use super::shown::Shown;
use crate::cli::TraceArguments;
use crate::failure::Failure;
use crate::report::ending;
use crate::request::{read_budgets, Request};
use energy::Verdict;

pub fn run(arguments: &TraceArguments) -> Result<(), Failure> {
    if arguments.request.request.is_standard_input() && arguments.budgets.is_standard_input() {
        return Err(Failure::Fault(
            "gomzhiva: the request and the budgets cannot both be standard input".into(),
        ));
    }
    let mut request = arguments.request.read()?.request()?;
    let calendar = &mut request.frames.calendar;
    let budgets = read_budgets(&arguments.budgets, calendar.time(0))?;
    calendar.times = calendar.times.or(budgets.times);
    show(arguments, &Budgets::trace(&request, budgets.list)?)
}

fn show(arguments: &TraceArguments, traced: &Budgets<'_>) -> Result<(), Failure> {
    let request = traced.request;
    let is_feasible = traced.verdict == Verdict::Feasible;
    let outside = traced.outside();
    let title = format!(
        "{} traced with {}{}",
        arguments.budgets.input_name(),
        arguments.request.request.input_name(),
        amiss(is_feasible, outside.is_none()),
    );
    let verdict = verdict(traced, outside.is_none());
    let warnings = [outside.clone(), (!is_feasible).then_some(verdict.clone())];
    let words = [
        Some(traced.energies()),
        outside.or_else(|| within(request)),
        Some(verdict),
    ];
    let shown = Shown {
        table: traced.table(&request.frames.bounds()),
        picture: &|| traced.picture(&title, request.needed()),
        words: &words.into_iter().flatten().collect::<Vec<_>>().join("\n"),
        warnings: &warnings.into_iter().flatten().collect::<Vec<_>>(),
        inputs: &[&arguments.request.request, &arguments.budgets],
    };
    shown.show(&arguments.report)
}

/// What is amiss with the budgets, for the title.
fn amiss(is_feasible: bool, is_within: bool) -> &'static str {
    match (is_feasible, is_within) {
        (true, true) => "",
        (true, false) => ": not within the bounds",
        (false, true) => ": not feasible",
        (false, false) => ": not feasible, and not within the bounds",
    }
}

/// That every budget is within its bounds, in words, where the request has any.
fn within(request: &Request) -> Option<String> {
    let words = || "Every budget is within its bounds.".to_string();
    request.frames.is_bounded().then(words)
}

/// The verdict in words.
fn verdict(traced: &Budgets<'_>, is_within: bool) -> String {
    let (last, end) = (traced.last_charge(), traced.request.figures.end);
    let apart = if is_within { "" } else { " apart from the bounds" };
    match traced.verdict {
        Verdict::Feasible => format!("Feasible{apart}: {}.", ending(last, end)),
        Verdict::EndTooLow => format!("Not feasible: {}.", ending(last, end)),
        Verdict::BelowZero { frame } => {
            let frame = traced.request.frames.calendar.name_within(frame as usize - 1);
            format!("Not feasible: the charge after {frame} is below zero.")
        }
    }
}
