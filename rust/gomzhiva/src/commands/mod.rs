//! What each command does.

mod budgets;
mod columns;
mod plan;
mod shift;
mod shown;
mod trace;

use crate::cli::{Cli, Command, OutputArguments};
use crate::failure::Failure;
use crate::files::{print, Place};
use crate::journal;
use crate::manual;
use crate::request::{read_budgets, too_many, RequestArguments};
use clap::CommandFactory;
use clap_complete::{generate, Shell};
use energy::Refusal;

/// What can still be done where leasts are out of reach.
const WITHOUT_LEASTS: &str = "`--without-leasts` plans what can be done without them";

pub fn run(command: &Command) -> Result<(), Failure> {
    journal::refuse_as_output(None)?;
    match command {
        Command::Plan(arguments) => plan::run(arguments),
        Command::Needed { request } => needed(request),
        Command::Trace(arguments) => trace::run(arguments),
        Command::Grade { budgets } => print(&(worth(&read_budgets(budgets, None)?.list)? + "\n")),
        Command::Words { request, output } => words(request, output),
        Command::Text { request, output } => text(request, output),
        Command::Shift(command) => shift::run(command),
        Command::Completions { shell } => print(&completions(*shell)),
        Command::Man => print(&manual::page(Cli::command())),
    }
}

/// What a shell reads to complete the program's arguments.
fn completions(shell: Shell) -> String {
    let (mut program, mut script) = (Cli::command(), Vec::new());
    let name = program.get_name().to_string();
    generate(shell, &mut program, name, &mut script);
    String::from_utf8_lossy(&script).into_owned()
}

fn needed(request: &RequestArguments) -> Result<(), Failure> {
    let request = request.read()?.without_capacity()?;
    let needed = energy::needed(request.figures, request.frames.lent());
    let needed = needed.map_err(|refusal| request.refused_without_limit(refusal))?;
    print(&format!("needed capacity {needed} Wh\n"))
}

fn words(request: &RequestArguments, output: &OutputArguments) -> Result<(), Failure> {
    let file = request.read()?.request()?.word_file()?;
    write(&output.output, &[&request.request], &file)
}

fn text(request: &RequestArguments, output: &OutputArguments) -> Result<(), Failure> {
    let text = request.read()?.request()?.text();
    write(&output.output, &[&request.request], text.as_bytes())
}

/// Writes an output that was made of these inputs, and takes the place of none of them.
fn write(output: &Place, inputs: &[&Place], bytes: &[u8]) -> Result<(), Failure> {
    output.refuse_any_of(inputs)?;
    journal::refuse_as_output(output.file())?;
    output.write(bytes)
}

/// What budgets earn, in words.
fn worth(budgets: &[u32]) -> Result<String, Failure> {
    let worth = energy::grade(budgets).map_err(|refusal| match refusal {
        Refusal::TooManyFrames => Failure::Refused {
            refusal,
            sentence: too_many(budgets.len(), "budget"),
        },
        other => other.into(),
    });
    let [curve0, curve1, curve2] = worth?;
    Ok(format!("worth {curve0} {curve1} {curve2} by house curves 0, 1 and 2"))
}
