//! The man page, made of what the help is made of: the program's commands, arguments and their words.

use clap::{Arg, Command};
use roff::{bold, roman, Roff};
use std::collections::BTreeSet;

/// The page as roff.
pub fn page(mut program: Command) -> String {
    program.build();
    let mut page = Roff::new();
    title(&mut page, &program);
    page.control("SH", ["NAME"]);
    name(&mut page, &program);
    page.control("SH", ["SYNOPSIS"]);
    page.text([bold(usage(&program))]);
    page.control("SH", ["DESCRIPTION"]);
    words(&mut page, &about(&program));
    page.control("SH", ["OPTIONS"]);
    arguments(&mut page, program.get_arguments());
    page.control("SH", ["COMMANDS"]);
    commands(&mut page, &program);
    page.control("SH", ["EXAMPLE, NOTATION AND EXIT STATUS"]);
    words(&mut page, &after(&program));
    page.control("SH", ["ENVIRONMENT"]);
    environment(&mut page, &program);
    page.render()
}

/// The line of titles: no date, which would be that of the building.
fn title(page: &mut Roff, program: &Command) {
    let name = program.get_name().to_uppercase();
    let version = program.render_version();
    page.control("TH", [name.as_str(), "1", "\"\"", version.trim()]);
}

/// The name and what it is for in a few words: those before the first colon.
fn name(page: &mut Roff, program: &Command) {
    let about = about(program);
    let purpose = about.split(':').next().unwrap_or_default();
    page.text([roman(format!("{} - {purpose}", program.get_name()))]);
}

/// Every command under one, each with its usage as its heading.
fn commands(page: &mut Roff, parent: &Command) {
    for command in parent.get_subcommands() {
        page.control("SS", []).text([roman(usage(command))]);
        words(page, &about(command));
        // Each command has this option too, and the program's own section tells of it.
        let is_own = |argument: &&Arg| argument.get_id() != "help";
        arguments(page, command.get_arguments().filter(is_own));
        words(page, &after(command));
        // Below the command that prints help stand all commands once more.
        if command.get_name() != "help" {
            commands(page, command);
        }
    }
}

/// What stands alone before what is named by dashes, as in the help.
fn arguments<'a>(page: &mut Roff, arguments: impl Iterator<Item = &'a Arg>) {
    let (first, then): (Vec<_>, Vec<_>) = arguments.partition(|argument| argument.is_positional());
    for argument in first.into_iter().chain(then) {
        let said = help(argument) + &remarks(argument);
        entry(page, &names(argument), &said);
    }
}

/// The environment variables in place of arguments, each once.
fn environment(page: &mut Roff, program: &Command) {
    let mut told = BTreeSet::new();
    for argument in every_argument(program) {
        if let Some(variable) = argument.get_env().filter(|variable| told.insert(variable.to_owned())) {
            let said = format!("{}: {}", names(argument), help(argument));
            entry(page, &variable.to_string_lossy(), &said);
        }
    }
}

/// The arguments of a command and of all commands under it.
fn every_argument(command: &Command) -> Vec<&Arg> {
    let deeper = command.get_subcommands().flat_map(every_argument);
    command.get_arguments().chain(deeper).collect()
}

fn entry(page: &mut Roff, names: &str, said: &str) {
    page.control("TP", []).text([bold(names)]).text([roman(said)]);
}

/// Paragraphs of the help.
fn words(page: &mut Roff, words: &str) {
    for paragraph in words.split("\n\n").filter(|paragraph| !paragraph.is_empty()) {
        page.control("PP", []);
        lines(page, paragraph);
    }
}

/// Lines that begin with a blank stay lines, the others are filled.
fn lines(page: &mut Roff, text: &str) {
    let mut stay = false;
    for line in text.lines() {
        if line.starts_with(' ') != stay {
            stay = !stay;
            page.control(if stay { "EX" } else { "EE" }, []);
        }
        page.text([roman(line)]);
    }
    if stay {
        page.control("EE", []);
    }
}

fn usage(command: &Command) -> String {
    let usage = command.clone().render_usage().to_string();
    usage.trim_start_matches("Usage:").trim().to_string()
}

fn about(command: &Command) -> String {
    let about = command.get_long_about().or_else(|| command.get_about());
    about.map_or(String::new(), |about| about.to_string())
}

fn after(command: &Command) -> String {
    let after = command.get_after_long_help().or_else(|| command.get_after_help());
    after.map_or(String::new(), |after| after.to_string())
}

fn help(argument: &Arg) -> String {
    let help = argument.get_long_help().or_else(|| argument.get_help());
    help.map_or(String::new(), |help| help.to_string())
}

/// As the help has them: `-h, --help`, `--journal <FILE>`, `<REQUEST>`.
fn names(argument: &Arg) -> String {
    let short = argument.get_short();
    short.map_or(String::new(), |short| format!("-{short}, ")) + &argument.to_string()
}

/// What the help says in brackets behind an argument's words.
fn remarks(argument: &Arg) -> String {
    if !argument.get_action().takes_values() {
        return String::new();
    }
    let variable = argument.get_env().map(|name| name.to_string_lossy().into_owned());
    let defaults = argument.get_default_values().iter();
    let defaults: Vec<_> = defaults.map(|value| value.to_string_lossy()).collect();
    let possible = argument.get_possible_values();
    let possible: Vec<_> = possible.iter().map(|value| value.get_name()).collect();
    let remark = |name: &str, values: String| (!values.is_empty()).then(|| format!(" [{name}: {values}]"));
    let remarks = [
        remark("env", variable.unwrap_or_default()),
        remark("default", defaults.join(" ")),
        remark("possible values", possible.join(", ")),
    ];
    remarks.into_iter().flatten().collect()
}
