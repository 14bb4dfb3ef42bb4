//! The program's arguments and their help.

use crate::failure::Failure;
use crate::files::Place;
use crate::request::{whole_number, RequestArguments};
use clap::{Args, Parser, Subcommand, ValueHint};
use clap_complete::Shell;

/// Plans the energy of a solar-powered blending room: one list of budgets, a number of watt-hours for each frame,
/// that is feasible, within the least and the most of each frame, and best for every concave, never falling reward
/// curve at once.
#[derive(Parser, Debug)]
#[command(name = "gomzhiva", version, after_help = HELP)]
pub struct Cli {
    #[command(subcommand)]
    pub command: Command,
}

const HELP: &str = "\
Example:
  gomzhiva plan examples/day.txt

A request as text:
  capacity 5       # watt-hours; '# ' begins a comment
  start 2
  end 2
  harvest          # from here on a line for each frame
  6
  4
A table may have further columns: frame, numbers that rise by one from line to line; time, clock times that rise by 15
minutes, such as 06:00, 6:00 AM, 2026-06-21 06:00, 21.06.2026 06:00 or 6/21/2026 06:00, and where summer time begins or
ends each with its offset from UTC, 2026-03-29 01:45+01:00; least and most, the bounds of a frame's budget;
and budget, use, charge and loss.
Between its cells stand blanks, or tabs, commas or semicolons as a spreadsheet saves them; numbers are whole,
without a thousands separator. A table alone is read with --capacity, --start and --end. As a file, - is standard input
or output.

A table with bounds, where - is none, as is an empty cell between tabs, commas or semicolons:
  harvest  least  most
  6        -      3        # at most 3 Wh in this frame
  4        2      -        # at least 2 Wh in this one

Exit status: 0 done; 1 a numbered refusal; 2 bad usage, or a text that is no request or journal; 3 reading or
writing failed. An output file is written whole or not at all.";

const SHIFT_HELP: &str = "\
Example:
  gomzhiva shift start examples/day.txt --journal shift.journal
  gomzhiva shift record 1 3 --journal shift.journal
  gomzhiva shift plan --journal shift.journal";

const COMPLETIONS_HELP: &str = "\
Examples:
  mkdir -p ~/.local/share/bash-completion/completions ~/.zfunc
  gomzhiva completions bash > ~/.local/share/bash-completion/completions/gomzhiva
  gomzhiva completions zsh > ~/.zfunc/_gomzhiva    # and before compinit in ~/.zshrc: fpath+=~/.zfunc";

const MAN_HELP: &str = "\
Examples:
  gomzhiva man | man -l -
  mkdir -p ~/.local/share/man/man1
  gomzhiva man > ~/.local/share/man/man1/gomzhiva.1";

#[derive(Subcommand, Debug)]
pub enum Command {
    /// Print the plan of a request: the budget of each frame, the charge after it and what the frame loses
    Plan(PlanArguments),
    /// Print the smallest capacity that serves every curve as unlimited storage would, whatever the request's capacity
    #[command(after_help = "Example:\n  gomzhiva needed examples/day.txt")]
    Needed {
        #[command(flatten)]
        request: RequestArguments,
    },
    /// Print the charges that supplied budgets lead to, what each frame loses, and whether the budgets are feasible and
    /// within the bounds
    Trace(TraceArguments),
    /// Print what budgets earn by the three house curves
    #[command(after_help = "Example:\n  echo 4 3 3 2 4 4 | gomzhiva grade -")]
    Grade {
        /// The budgets: a table with the column 'budget', or else 'use', or bare numbers; - is standard input
        #[arg(value_hint = ValueHint::FilePath)]
        budgets: Place,
    },
    /// Write a request as a word file
    #[command(after_help = "Example:\n  gomzhiva words examples/day.txt day.words")]
    Words {
        #[command(flatten)]
        request: RequestArguments,
        #[command(flatten)]
        output: OutputArguments,
    },
    /// Write a request, such as one in a word file, as text
    #[command(after_help = "Example:\n  gomzhiva text day.words day.txt")]
    Text {
        #[command(flatten)]
        request: RequestArguments,
        #[command(flatten)]
        output: OutputArguments,
    },
    /// Keep a running shift in a journal that survives crashes
    #[command(subcommand, after_help = SHIFT_HELP)]
    Shift(ShiftCommand),
    /// Print the script by which a shell completes commands, options and file names
    #[command(after_help = COMPLETIONS_HELP)]
    Completions {
        /// The shell
        shell: Shell,
    },
    /// Print the man page, which has the help of every command
    #[command(after_help = MAN_HELP)]
    Man,
}

#[derive(Args, Debug)]
#[command(after_help = "Examples:
  gomzhiva plan examples/day.txt
  gomzhiva plan examples/june.csv --capacity 5000 --start 2500 --end 2500 --chart june.svg")]
pub struct PlanArguments {
    #[command(flatten)]
    pub request: RequestArguments,
    /// Print the listing, byte for byte as the proved library writes it
    #[arg(long, conflicts_with_all = ["csv", "chart", "without_leasts"])]
    pub listing: bool,
    #[command(flatten)]
    pub leasts: LeastsArguments,
    #[command(flatten)]
    pub report: ReportArguments,
}

#[derive(Args, Debug)]
pub struct LeastsArguments {
    /// Plan what can be done without the leasts, which stay in the table
    #[arg(long)]
    pub without_leasts: bool,
}

#[derive(Args, Debug)]
#[command(after_help = "Example:
  echo 4 4 4 4 2 2 | gomzhiva trace examples/day.txt - --capacity 22")]
pub struct TraceArguments {
    #[command(flatten)]
    pub request: RequestArguments,
    /// The budgets: a table with the column 'budget', or else 'use', or bare numbers; - is standard input
    #[arg(value_hint = ValueHint::FilePath)]
    pub budgets: Place,
    #[command(flatten)]
    pub report: ReportArguments,
}

#[derive(Args, Debug)]
pub struct TableArguments {
    /// Print the table as CSV and nothing else; read its columns by their names
    #[arg(long)]
    pub csv: bool,
}

/// How budgets are shown.
#[derive(Args, Debug)]
pub struct ReportArguments {
    #[command(flatten)]
    pub table: TableArguments,
    /// Draw a picture into this SVG file too; with - print the picture alone
    #[arg(long, value_name = "FILE.svg", value_hint = ValueHint::FilePath)]
    pub chart: Option<Place>,
}

#[derive(Args, Debug)]
pub struct OutputArguments {
    /// Where to write it; - is standard output
    #[arg(default_value = "-", value_hint = ValueHint::FilePath)]
    pub output: Place,
}

#[derive(Args, Debug)]
pub struct JournalArguments {
    /// The shift's journal; where it is not given, the one that the environment variable names
    #[arg(long, value_name = "FILE", value_hint = ValueHint::FilePath, env = JOURNAL, hide_env_values = true)]
    journal: Option<Place>,
}

/// The environment variable that names the journal where no option does.
const JOURNAL: &str = "GOMZHIVA_JOURNAL";

#[derive(Subcommand, Debug)]
pub enum ShiftCommand {
    /// Start a shift from a request, whose harvest is the forecast and whose bounds stay, in a new journal
    #[command(after_help = "Example:\n  gomzhiva shift start examples/day.txt --journal shift.journal")]
    Start {
        #[command(flatten)]
        request: RequestArguments,
        #[command(flatten)]
        journal: JournalArguments,
    },
    /// Record what the sun gave and the mills used in the next frame, and print the budget of the one after it
    #[command(after_help = "Example:\n  gomzhiva shift record 1 3 --journal shift.journal")]
    Record {
        /// The harvest of the frame in Wh
        #[arg(allow_negative_numbers = true, value_parser = whole_number)]
        harvest: u32,
        /// The use of the frame in Wh; beyond the frame's bounds, or above twice its budget, it is recorded with a warning
        #[arg(value_name = "USE", allow_negative_numbers = true, value_parser = whole_number)]
        used: u32,
        /// The frame that is meant: if it is not the next one, nothing is recorded
        #[arg(long, allow_negative_numbers = true, value_parser = whole_number)]
        frame: Option<u32>,
        #[command(flatten)]
        journal: JournalArguments,
    },
    /// Print the plan of the frames not yet recorded, within their bounds
    #[command(after_help = "Example:\n  gomzhiva shift plan --journal shift.journal")]
    Plan {
        #[command(flatten)]
        journal: JournalArguments,
        #[command(flatten)]
        leasts: LeastsArguments,
        #[command(flatten)]
        report: ReportArguments,
    },
    /// Print the frames recorded with what each lost, the charge and the totals
    #[command(after_help = "Example:\n  gomzhiva shift show --journal shift.journal")]
    Show {
        #[command(flatten)]
        journal: JournalArguments,
        #[command(flatten)]
        table: TableArguments,
    },
    /// Draw the frames recorded and the plan of the rest
    #[command(after_help = "Example:\n  gomzhiva shift chart shift.svg --journal shift.journal")]
    Chart {
        #[command(flatten)]
        output: OutputArguments,
        #[command(flatten)]
        journal: JournalArguments,
    },
}

impl Command {
    /// Standard output is the product itself, and has no room for a refusal.
    pub fn prints_product(&self) -> bool {
        match self {
            Command::Plan(PlanArguments { report, .. })
            | Command::Trace(TraceArguments { report, .. })
            | Command::Shift(ShiftCommand::Plan { report, .. }) => {
                report.table.csv || report.draws_on_standard_output()
            }
            Command::Words { output, .. } | Command::Text { output, .. } => output.output.is_standard_output(),
            Command::Shift(ShiftCommand::Chart { output, .. }) => output.output.is_standard_output(),
            Command::Shift(ShiftCommand::Show { table, .. }) => table.csv,
            Command::Completions { .. } | Command::Man => true,
            _ => false,
        }
    }
}

impl ReportArguments {
    pub fn draws_on_standard_output(&self) -> bool {
        self.chart.as_ref().map_or(false, Place::is_standard_output)
    }
}

impl JournalArguments {
    /// The journal; an empty name is none.
    pub fn place(&self) -> Result<&Place, Failure> {
        let named = self.journal.as_ref().filter(|journal| !journal.given().is_empty());
        named.ok_or_else(|| {
            Failure::Fault(format!(
                "gomzhiva: the shift's journal is expected: --journal FILE, or the environment variable {JOURNAL}, \
                 found none"
            ))
        })
    }
}
