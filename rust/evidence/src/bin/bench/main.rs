//! Benchmarks: `tools/bench --help` says what can be asked for.

mod against;
mod aims;
mod beside;
mod bounds;
mod calls;
mod chill;
mod cold;
mod columns;
mod contenders;
mod failure;
mod growth;
mod guess;
mod instructions;
mod measured;
mod rest;
mod rows;
mod search;
mod steps;
mod subject;
mod table;
mod time;
mod twins;
mod valgrind;
mod warm;
mod week;
mod words;

use beside::Beside;
use contenders::Call;
use energy::MAX_HARVEST;
use evidence::random::{given_seed, seed};
use failure::Failure;
use measured::{Column, Measured};
use search::Searched;
use std::fs::OpenOptions;
use std::path::{Path, PathBuf};

/// What can be asked for; tools/bench prints it too.
const HELP: &str = include_str!("help.txt");

/// The first lines of the whole table.
const TITLE: &str = "# The whole table of the benchmark\n\nWhat its columns mean: `docs/BENCHMARKS.md`.";

/// A part of what can be measured, or the help.
enum Part {
    Help,
    Instructions,
    Calls,
    Linear,
    Reads,
    Steps,
    Twins,
    Week,
}

/// What the arguments ask for.
#[derive(Default)]
struct Asked {
    beside: Option<Beside>,
    table: Option<PathBuf>,
    part: Option<Part>,
    /// The calls that are played: for the run under valgrind alone.
    played: Option<String>,
}

impl Asked {
    /// Asks for a part, if none is asked for yet.
    fn ask(&mut self, part: Part) -> Result<(), String> {
        match self.part.replace(part) {
            Some(_) => Err("one part at a time".to_string()),
            None => Ok(()),
        }
    }

    /// Whether the files that are named go with the part.
    fn fits(self) -> Result<Asked, String> {
        let is_instructions = matches!(self.part, Some(Part::Instructions));
        if self.part.is_some() && self.table.is_some() {
            return Err("--table goes with no part".to_string());
        }
        if self.part.is_some() && !is_instructions && self.beside.is_some() {
            return Err("--beside goes with --instructions alone, or with no part".to_string());
        }
        Ok(self)
    }
}

/// The arguments, or what is wrong with them.
fn asked() -> Result<Asked, String> {
    let mut asked = Asked::default();
    let mut words = std::env::args().skip(1);
    while let Some(word) = words.next() {
        let mut value = || {
            let next = words.next().filter(|next| !next.starts_with("--"));
            next.ok_or_else(|| format!("{word} needs a value"))
        };
        match word.as_str() {
            "--beside" => asked.beside = Some(Beside::load(value()?)?),
            "--table" => asked.table = Some(value()?.into()),
            "--instructions" => asked.ask(Part::Instructions)?,
            "--calls" => asked.ask(Part::Calls)?,
            "--linear" => asked.ask(Part::Linear)?,
            "--reads" => asked.ask(Part::Reads)?,
            "--steps" => asked.ask(Part::Steps)?,
            "--twins" => asked.ask(Part::Twins)?,
            "--week" => asked.ask(Part::Week)?,
            "--help" => asked.ask(Part::Help)?,
            valgrind::PLAY => asked.played = Some(value()?),
            _ => return Err(format!("what is {word}?\n\n{}", HELP.trim_end())),
        }
    }
    asked.fits()
}

/// The processor's name, if the system tells it.
fn machine() -> String {
    let text = std::fs::read_to_string("/proc/cpuinfo").unwrap_or_default();
    let line = text.lines().find_map(|line| line.strip_prefix("model name"));
    line.map_or("unknown", |name| name.trim_start_matches([' ', '\t', ':']))
        .to_string()
}

/// The mean number of running processes in the last minute, if the system tells it.
fn load() -> String {
    let text = std::fs::read_to_string("/proc/loadavg").unwrap_or_default();
    text.split(' ').next().unwrap_or_default().to_string()
}

/// What is measured, and the line above it, with the load before and after.
fn headed<T>(most: &str, measure: impl FnOnce() -> T) -> (String, T) {
    let (before, told, after) = (load(), measure(), load());
    let (seed, machine) = (seed(), machine());
    let heading =
        format!("largest harvest {most}; seed {seed}; machine: {machine}; load {before} before and {after} after");
    (heading, told)
}

/// What some columns tell.
fn measured(columns: Vec<Column>, beside: Option<&Beside>) -> Measured {
    Measured {
        rows: rows::rows(),
        columns,
        beside: beside.map(Beside::name),
    }
}

/// The aims for sums over the families.
fn sums(measured: &Measured) -> String {
    let (against, growth) = (against::report(measured), growth::report(measured));
    format!("\n## Aims\n\n{against}{growth}")
}

/// Counted instructions alone.
fn run_instructions(beside: Option<&Beside>) -> Result<(), String> {
    let measured = measured(instructions::count(beside)?, beside);
    let (table, sums, bounds) = (
        table::whole(&measured, None),
        sums(&measured),
        bounds::report(&measured),
    );
    print!("{table}{sums}{bounds}");
    Ok(())
}

/// What the calls take at most.
fn run_calls() {
    let (heading, table) = headed(&format!("{} and {MAX_HARVEST}", rows::MOST), calls::measure);
    print!("{heading}\n\n{table}");
}

/// Half a week against a week.
fn run_week() -> Result<(), Failure> {
    let (heading, (table, missed)) = headed(&week::mosts(), week::measure);
    print!("{heading}\n{}\n\n{table}", week::UNITS);
    Failure::of_missed(missed)
}

/// How often a harvest is read, and how instructions grow.
fn run_reads() -> Result<(), Failure> {
    let (reads, mut missed) = steps::reads::measure()?;
    let (growth, too_much) = steps::paid::growth()?;
    missed.extend(too_much);
    print!("seed {}\n\n{reads}\n{growth}", seed());
    Failure::of_missed(missed)
}

/// What the steps of a call take.
fn run_steps() -> Result<(), String> {
    let table = steps::paid::measure()?;
    print!("largest harvest {}; seed {}\n\n{table}", rows::MOST, seed());
    Ok(())
}

/// The other calls beside their twins.
fn run_twins() {
    let (heading, table) = headed(&rows::MOST.to_string(), twins::measure);
    print!("{heading}\n\n{table}");
}

/// Plays the calls of a name.
fn play(name: &str, beside: Option<&Beside>) -> Result<(), String> {
    if !steps::play(name) {
        instructions::play(Call::of_name(name)?, beside);
    }
    Ok(())
}

/// What is printed of everything that was measured.
fn summary(measured: &Measured, searched: &Searched) -> String {
    let sections = [
        table::families(measured),
        sums(measured),
        aims::report(measured),
        bounds::report(measured),
        chill::report(measured),
        searched.report(),
    ];
    sections.concat()
}

/// Times and counts of the families, and the times of the search.
fn measure_families(beside: Option<&Beside>) -> (Measured, Searched) {
    let mut columns = instructions::count(beside).unwrap_or_else(|reason| {
        println!("{reason}");
        Vec::new()
    });
    let (times, searched) = time::measure(beside);
    columns.extend(times);
    (measured(columns, beside), searched)
}

/// Whether a file can be written, before minutes are spent on what is to be written there.
fn can_be_written(path: &Path) -> Result<(), String> {
    let opened = OpenOptions::new().append(true).create(true).open(path);
    opened.map_err(|error| format!("{}: {error}", path.display()))?;
    Ok(())
}

/// Everything, with the whole table in a file if one is named.
fn run_all(beside: Option<&Beside>, table: Option<&Path>) -> Result<(), String> {
    table.map_or(Ok(()), can_be_written)?;
    let (heading, (measured, searched)) = headed(&rows::MOST.to_string(), || measure_families(beside));
    print!("{heading}\n\n{}", summary(&measured, &searched));
    if let Some(path) = table {
        let text = format!("{TITLE}\n\n{heading}\n\n{}", table::whole(&measured, Some(&searched)));
        std::fs::write(path, text).map_err(|error| format!("{}: {error}", path.display()))?;
    }
    println!("\n## Trace, files, listing\n\n{}", twins::measure());
    rest::measure();
    Ok(())
}

/// Does what is asked for.
fn answer(asked: &Asked) -> Result<(), Failure> {
    let beside = asked.beside.as_ref();
    if let Some(name) = &asked.played {
        return Ok(play(name, beside)?);
    }
    match asked.part {
        None => run_all(beside, asked.table.as_deref())?,
        Some(Part::Help) => print!("{HELP}"),
        Some(Part::Instructions) => run_instructions(beside)?,
        Some(Part::Calls) => run_calls(),
        Some(Part::Linear) => rest::compare_with_solver(),
        Some(Part::Reads) => run_reads()?,
        Some(Part::Steps) => run_steps()?,
        Some(Part::Twins) => run_twins(),
        Some(Part::Week) => run_week()?,
    }
    Ok(())
}

/// Does it, if the arguments and the seed can be read.
fn run() -> Result<(), Failure> {
    given_seed()?;
    answer(&asked()?)
}

fn main() {
    if let Err(failure) = run() {
        let (reason, code) = failure.told();
        eprintln!("{reason}");
        std::process::exit(code);
    }
}
