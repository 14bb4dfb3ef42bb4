//! What spares typing and looking up: a default journal, completions, and the man page.

mod common;

use common::{Folder, Ran, JOURNAL};
use std::process::{Command, Stdio};

/// Every command on a journal, without it.
const SHIFT: [&[&str]; 5] = [
    &["shift", "start", "day.txt"],
    &["shift", "record", "1", "3"],
    &["shift", "plan"],
    &["shift", "show"],
    &["shift", "chart"],
];

const BY_OPTION: [&str; 2] = ["--journal", "journal"];

/// The day's request, and for a command other than `start` a shift's journal.
fn folder_for(command: &[&str]) -> Folder {
    let folder = Folder::of_the_day();
    if command[1] != "start" {
        assert_eq!(folder.run(&[SHIFT[0], &BY_OPTION].concat()).status, Some(0));
    }
    folder
}

/// Runs the program where the variable has this value, or is not there.
fn run_where(folder: &Folder, variable: Option<&str>, arguments: &[&str]) -> Ran {
    let mut command = folder.command(arguments);
    command.envs(variable.map(|value| (JOURNAL, value)));
    command.stdin(Stdio::null()).output().expect("the program ends").into()
}

#[test]
fn a_journal_by_the_variable_is_as_one_by_the_option() {
    let listed = Folder::new().commands("shift");
    let tried = SHIFT.iter().map(|command| command[..2].join(" "));
    assert_eq!(listed[1..], tried.collect::<Vec<_>>());
    for command in SHIFT {
        let (one, other) = (folder_for(command), folder_for(command));
        let by_option = run_where(&one, None, &[command, &BY_OPTION].concat());
        assert_eq!(by_option.status, Some(0), "{command:?}: {}", by_option.err);
        assert_eq!(run_where(&other, Some("journal"), command), by_option, "{command:?}");
        assert_eq!(one.read("journal"), other.read("journal"), "{command:?}");
    }
    // No output takes its place either, and what is wrong is told of the file.
    let folder = folder_for(&["shift", "chart"]);
    let before = folder.read("journal");
    let chart = run_where(&folder, Some("./journal"), &["shift", "chart", "journal"]);
    assert_eq!((chart.status, folder.read("journal")), (Some(2), before));
    let missing = run_where(&folder, Some("none"), &["shift", "plan"]);
    let told = "gomzhiva: none: No such file or directory\n";
    assert_eq!((missing.status, missing.err.as_str()), (Some(3), told));
}

#[test]
fn the_option_goes_before_the_variable() {
    for command in SHIFT {
        let (one, other) = (folder_for(command), folder_for(command));
        let arguments = [command, &BY_OPTION].concat();
        let ran = run_where(&one, Some("other"), &arguments);
        assert_eq!(ran, run_where(&other, None, &arguments), "{command:?}");
        assert_eq!(one.names(), ["day.txt", "journal"], "{command:?}");
    }
}

#[test]
fn without_a_journal_option_and_variable_are_named() {
    let told =
        "gomzhiva: the shift's journal is expected: --journal FILE, or the environment variable GOMZHIVA_JOURNAL, \
                found none\n";
    for command in SHIFT {
        let folder = folder_for(command);
        let names = folder.names();
        for (variable, option) in [
            (None, &[][..]),
            (Some(""), &[]),
            (Some(""), &["--journal", ""]),
            (Some("journal"), &["--journal", ""]),
        ] {
            let ran = run_where(&folder, variable, &[command, option].concat());
            let shown = (ran.status, ran.text(), ran.err.as_str());
            assert_eq!(shown, (Some(2), String::new(), told), "{command:?} {variable:?}");
            assert_eq!(folder.names(), names);
        }
    }
}

#[test]
fn a_stream_is_no_journal_whatever_names_it() {
    let told = "gomzhiva: the name of a file is expected as a journal, found '-'\n";
    for command in SHIFT {
        let folder = folder_for(command);
        let names = folder.names();
        for (variable, option) in [(Some("-"), &[][..]), (None, &["--journal", "-"])] {
            let ran = run_where(&folder, variable, &[command, option].concat());
            let left = (ran.status, ran.text(), ran.err.as_str());
            assert_eq!(left, (Some(2), String::new(), told), "{command:?} {variable:?}");
            assert_eq!(folder.names(), names);
        }
    }
}

#[test]
fn the_help_names_the_variable_and_not_its_value() {
    let folder = Folder::new();
    for command in SHIFT {
        let help = folder.help(&command[..2].join(" "));
        assert!(help.contains(" [env: GOMZHIVA_JOURNAL]\n"), "{help}");
    }
    for arguments in [
        &["shift", "plan", "--help"][..],
        &["man"],
        &["completions", "zsh"],
        &["completions", "fish"],
    ] {
        let ran = run_where(&folder, Some("journal"), arguments);
        assert_eq!(ran, run_where(&folder, None, arguments), "{arguments:?}");
        assert_eq!((ran.status, ran.err.as_str()), (Some(0), ""), "{arguments:?}");
    }
}

/// The script for a shell.
fn script(folder: &Folder, shell: &str) -> String {
    let ran = folder.run(&["completions", shell]);
    assert_eq!((ran.status, ran.err.as_str()), (Some(0), ""), "{shell}");
    ran.text()
}

#[test]
fn each_shells_script_names_every_command() {
    let folder = Folder::new();
    let commands = folder.commands("");
    // The command as the script has it: the first part, its names with something between them, the last part.
    for (shell, first, between, last) in [
        ("bash", "\n        gomzhiva__", "__", ")\n            opts="),
        ("zsh", "\n_gomzhiva__", "__", "_commands() {"),
        ("elvish", "&'gomzhiva;", ";", "'= {"),
        ("powershell", "'gomzhiva;", ";", "' {"),
    ] {
        let script = script(&folder, shell);
        for command in &commands[1..] {
            let named = format!("{first}{}{last}", command.replace(' ', between));
            assert!(script.contains(&named), "{shell}: {command}");
        }
    }
    let fish = script(&folder, "fish");
    for command in &commands[1..] {
        let name = command.rsplit(' ').next().unwrap_or_default();
        assert!(fish.contains(&format!("-f -a \"{name}\" -d ")), "fish: {command}");
    }
    let unknown = folder.run(&["completions", "tcsh"]);
    assert_eq!((unknown.status, unknown.out.len()), (Some(2), 0));
    assert!(unknown.err.contains("bash, elvish, fish, powershell, zsh"));
}

#[test]
fn files_are_completed_where_files_are_named() {
    let folder = Folder::new();
    let zsh = script(&folder, "zsh");
    for (files, times) in [
        (":request -- ", 6),
        (":budgets -- ", 2),
        ("::output -- ", 3),
        ("'--journal=", 5),
        ("'--chart=", 3),
    ] {
        let lines: Vec<&str> = zsh.lines().filter(|line| line.contains(files)).collect();
        assert_eq!(lines.len(), times, "{files}");
        assert!(lines.iter().all(|line| line.contains(":_files' ")), "{lines:?}");
    }
}

/// What bash offers for the last one of these words.
fn offered(folder: &Folder, words: &str) -> String {
    let script = format!(
        "source ./script && COMP_WORDS=({words}) && COMP_CWORD=$((${{#COMP_WORDS[@]}} - 1)) && \
         _gomzhiva gomzhiva && echo \"${{COMPREPLY[@]}}\""
    );
    bash(folder, &script)
}

fn bash(folder: &Folder, script: &str) -> String {
    let mut bash = Command::new("bash");
    bash.args(["--norc", "-c", script]).current_dir(folder.path());
    let ran = Ran::from(bash.output().expect("bash"));
    assert_eq!((ran.status, ran.err.as_str()), (Some(0), ""), "{script}");
    ran.text()
}

#[test]
fn bash_completes_commands_options_and_files() {
    let folder = Folder::new();
    folder.write("script", script(&folder, "bash"));
    folder.write("shift.journal", "");
    for (words, expected) in [
        ("gomzhiva pl", "plan\n"),
        ("gomzhiva shift re", "record\n"),
        ("gomzhiva plan day.txt --li", "--listing\n"),
        ("gomzhiva shift show --jo", "--journal\n"),
        ("gomzhiva shift show --journal sh", "shift.journal\n"),
        ("gomzhiva completions z", "zsh\n"),
        // Nothing of its own, so that bash offers the files.
        ("gomzhiva plan sh", "\n"),
    ] {
        assert_eq!(offered(&folder, words), expected, "{words}");
    }
    let completion = bash(&folder, "source ./script && complete -p gomzhiva");
    assert!(
        completion.contains("-o default") && completion.contains("-F _gomzhiva"),
        "{completion}"
    );
}

/// The lines of a man page as they are read, without requests, fonts and escapes.
fn lines_of(page: &str) -> Vec<String> {
    let escapes = [("\\-", "-"), ("\\*(Aq", "'"), ("\\fB", ""), ("\\fR", ""), ("\\&", "")];
    let read = |line: &str| {
        let replace = |line: String, (escape, read): &(&str, &str)| line.replace(escape, read);
        escapes.iter().fold(line.to_string(), replace)
    };
    page.lines().filter(|line| !line.starts_with('.')).map(read).collect()
}

/// The parts of a line of the help that more than one blank parts.
fn parts(line: &str) -> Vec<&str> {
    line.split("  ")
        .map(str::trim)
        .filter(|part| !part.is_empty())
        .collect()
}

#[test]
fn the_man_page_has_every_line_of_the_help() {
    let folder = Folder::new();
    let ran = folder.run(&["man"]);
    assert_eq!((ran.status, ran.err.as_str()), (Some(0), ""));
    let lines = lines_of(&ran.text());
    let has = |line: &str| lines.iter().any(|other| other == line);
    let commands = folder.commands("");
    for command in &commands {
        let is_command =
            |name: &str| name == "help" || commands.contains(&format!("{command} {name}").trim().to_string());
        for line in folder.help(command).lines() {
            let usage = line.trim_start_matches("Usage: ");
            let is_there = match parts(line)[..] {
                _ if has(line) || has(usage) => true,
                [] | ["Commands:" | "Arguments:" | "Options:"] => true,
                [name, about] if is_command(name) => has(about),
                // An argument, and behind it what it is.
                [argument, help] => lines.windows(2).any(|pair| pair == [argument, help]),
                _ => false,
            };
            assert!(is_there, "{command}: {line}");
        }
    }
}

#[test]
fn the_man_page_is_in_sections_and_keeps_examples_as_they_are() {
    let page = Folder::new().run(&["man"]).text();
    let sections = page.lines().filter_map(|line| line.strip_prefix(".SH "));
    let expected = [
        "NAME",
        "SYNOPSIS",
        "DESCRIPTION",
        "OPTIONS",
        "COMMANDS",
        "\"EXAMPLE, NOTATION AND EXIT STATUS\"",
        "ENVIRONMENT",
    ];
    assert_eq!(sections.collect::<Vec<_>>(), expected);
    let title = format!(".TH GOMZHIVA 1 \"\" \"gomzhiva {}\"\n", env!("CARGO_PKG_VERSION"));
    assert!(page.contains(&title), "{page}");
    let (_, variables) = page.split_once(".SH ENVIRONMENT\n").expect("the section");
    assert!(variables.starts_with(".TP\n\\fBGOMZHIVA_JOURNAL\\fR\n\\-\\-journal <FILE>: "));
    assert_eq!(variables.matches(".TP").count(), 1, "{variables}");
    let mut stays = false;
    for line in page.lines() {
        match line {
            ".EX" | ".EE" => stays = line == ".EX",
            _ => assert_eq!(line.starts_with(' '), stays, "{line}"),
        }
    }
}
