//! The blending-room energy planner for people. Every number that it shows comes from the proved library, save what it was
//! given, sums, means, maxima and counts of what it shows, and clock times. Its own word is only whether a text is in the
//! notation, with frames in their order, where budgets leave their bounds, and which uses it doubts.

mod chart;
mod cli;
mod commands;
mod failure;
mod files;
mod identity;
mod journal;
mod kinds;
mod manual;
mod names;
mod report;
mod request;
mod streams;
mod temporary;

use clap::Parser;
use cli::Cli;
use failure::Failure;
use std::env::args_os;
use std::process::ExitCode;

fn main() -> ExitCode {
    let (done, prints_product) = match parsed() {
        Ok(cli) => (commands::run(&cli.command), cli.command.prints_product()),
        Err(error) if error.use_stderr() => (Err(Failure::Fault(whole(&error))), true),
        Err(help) => (files::print(&(whole(&help) + "\n")), true),
    };
    match done {
        Ok(()) => ExitCode::SUCCESS,
        Err(failure) => ExitCode::from(tell(&failure, prints_product)),
    }
}

/// The arguments; an error repeats them with their control characters escaped.
fn parsed() -> Result<Cli, clap::Error> {
    Cli::try_parse().map_err(|error| {
        let escaped = Cli::try_parse_from(args_os().map(names::escaped_argument));
        escaped.err().unwrap_or(error)
    })
}

/// The text of a usage error, or of the help that was asked for.
fn whole(message: &clap::Error) -> String {
    message.render().to_string().trim_end().to_string()
}

/// Tells a failure on standard error, and gives the status. A refusal stands on standard output too, as document 01 has it,
/// where that is not the product itself.
fn tell(failure: &Failure, prints_product: bool) -> u8 {
    let printed = match failure.refusal() {
        Some(refusal) if !prints_product => files::print(&(refusal.line() + "\n")),
        _ => Ok(()),
    };
    streams::tell(failure);
    match printed {
        Ok(()) => failure.status(),
        Err(unprinted) => {
            streams::tell(&unprinted);
            unprinted.status()
        }
    }
}
