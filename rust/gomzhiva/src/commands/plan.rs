//! `plan`: the plan of a request.

use super::budgets::Budgets;
use super::shown::Shown;
use super::{worth, WITHOUT_LEASTS};
use crate::cli::PlanArguments;
use crate::failure::Failure;
use crate::files::print;
use crate::report::capitalised;
use crate::request::{Draft, Request};
use energy::Refusal;

pub fn run(arguments: &PlanArguments) -> Result<(), Failure> {
    let draft = arguments.request.read()?;
    if arguments.listing {
        return listing(draft);
    }
    let request = draft.request()?;
    let planned = request.planned(arguments.leasts.without_leasts);
    let plan = Budgets::trace(&request, budgets(&planned, arguments.leasts.without_leasts)?)?;
    let without = if arguments.leasts.without_leasts {
        " without its leasts"
    } else {
        ""
    };
    let title = format!("Plan of {}{without}", arguments.request.request.input_name());
    let words = summary(&planned, &plan, arguments.leasts.without_leasts)?;
    let shown = Shown {
        table: plan.table(&request.frames.bounds()),
        picture: &|| plan.picture(&title, planned.needed()),
        words: &words,
        warnings: &plan.outside().into_iter().collect::<Vec<_>>(),
        inputs: &[&arguments.request.request],
    };
    shown.show(&arguments.report)
}

/// The budgets of the plan; where leasts are out of reach, the refusal says what is planned without them.
fn budgets(request: &Request, is_without: bool) -> Result<Vec<u32>, Failure> {
    energy::plan(request.figures, request.frames.lent()).map_err(|refusal| match refusal {
        Refusal::LeastsOutOfReach if !is_without => request.refused(refusal).with(WITHOUT_LEASTS),
        other => request.refused(other),
    })
}

/// Prints document 01's listing, from the proved entry.
fn listing(mut draft: Draft) -> Result<(), Failure> {
    let file = draft.word_file.take();
    let request = draft.request()?;
    let file = match file {
        Some(file) => file,
        None => request.word_file()?,
    };
    let text = energy::listing(&file);
    match refusal_in(&text) {
        Some(refusal) => Err(request.refused(refusal)),
        None => print(&text),
    }
}

/// The refusal that a listing consists of.
fn refusal_in(listing: &str) -> Option<Refusal> {
    let mut words = listing.strip_prefix("refused ")?.split_whitespace();
    let number = words.next()?.parse().ok()?;
    let p = words.next()?.parse().ok()?;
    Some(Refusal::from_code(number, p))
}

/// The plan in words, and where it leaves the leasts that it was made without.
fn summary(planned: &Request, plan: &Budgets<'_>, is_without: bool) -> Result<String, Failure> {
    let needed = energy::needed(planned.figures, planned.frames.lent())?;
    let serves = format!("a capacity of {needed} Wh would serve every curve as well as unlimited storage");
    let within = match (planned.frames.is_bounded(), is_without) {
        (true, true) => "within the mosts, ",
        (true, false) => "within the bounds, ",
        (false, true) => "without the leasts, ",
        (false, false) => "",
    };
    let charge = plan.charges.iter().max().unwrap_or(&0);
    let capacity = planned.figures.capacity;
    let lines = [
        Some(plan.energies()),
        plan.outside(),
        Some(format!(
            "{}, and is at most {charge} Wh after a frame, of a capacity of {capacity} Wh.",
            plan.course()
        )),
        Some(capitalised(&format!("{within}{serves}."))),
        Some(capitalised(&format!("{}.", worth(&plan.budgets)?))),
    ];
    Ok(lines.into_iter().flatten().collect::<Vec<_>>().join("\n"))
}
