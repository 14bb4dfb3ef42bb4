//! `shift`: a running shift over its journal.

mod next;
mod picture;
mod words;

use super::budgets::Budgets;
use super::columns::frame_columns;
use super::shown::{warn, Shown};
use super::write;
use crate::cli::{JournalArguments, OutputArguments, ReportArguments, ShiftCommand};
use crate::failure::Failure;
use crate::files::print;
use crate::journal::{Journal, Purpose, Running};
use crate::report::{capitalised, column, Table};
use crate::request::{Request, RequestArguments};
use crate::streams::tell;
use energy::{Figures, Refusal, Rest, Shift};
use std::iter::once;
use words::{is_finished, missed_end, rest_words, short_by, standing};

pub fn run(command: &ShiftCommand) -> Result<(), Failure> {
    match command {
        ShiftCommand::Start { request, journal } => start(request, journal),
        ShiftCommand::Record {
            harvest,
            used,
            frame,
            journal,
        } => record(*harvest, *used, *frame, journal),
        ShiftCommand::Plan {
            journal,
            leasts,
            report,
        } => plan(journal, leasts.without_leasts, report),
        ShiftCommand::Show { journal, table } => show(&look(journal)?, table.csv),
        ShiftCommand::Chart { output, journal } => chart(journal, output),
    }
}

fn start(request: &RequestArguments, journal: &JournalArguments) -> Result<(), Failure> {
    let running = Journal::start(journal.place()?, request.read()?.request()?)?;
    answer("started", &running)
}

fn record(harvest: u32, used: u32, frame: Option<u32>, journal: &JournalArguments) -> Result<(), Failure> {
    let mut journal = Journal::open(journal.place()?, Purpose::Record)?;
    let notice = journal.notice();
    let before = journal.running.clone();
    let (calendar, recorded) = (before.forecast.calendar, before.recorded.len());
    let next = before.shift.now.recorded + 1;
    // After the last frame there is none to compare with, and the library refuses any recording.
    let done = match frame.filter(|&frame| frame != next && !is_finished(&before.shift)) {
        None => journal.record(harvest, used),
        Some(frame) => Err(Failure::Fault(format!(
            "gomzhiva: --frame {frame}: the next frame is {}; nothing is recorded",
            calendar.number_and_time(recorded)
        ))),
    };
    // Others need not wait until what is told here is read.
    let running = journal.close();
    notice.into_iter().for_each(tell);
    done?;
    warn(&next::doubt(&before, used).into_iter().collect::<Vec<_>>());
    answer(&format!("recorded {}", calendar.name(recorded)), &running)
}

/// Answers a call that is in the journal; where the answer cannot be printed, the failure says what is done all the same.
fn answer(done: &str, running: &Running) -> Result<(), Failure> {
    let next = next::step(running).map_or(String::new(), |step| format!("{step}\n"));
    print(&format!("{}. {}\n{next}", capitalised(done), standing(&running.shift)))
        .map_err(|failure| failure.with(&format!("{done} all the same")))
}

/// Opens a journal to look at it, and tells of a torn line.
fn look(journal: &JournalArguments) -> Result<Running, Failure> {
    let journal = Journal::open(journal.place()?, Purpose::Look)?;
    let notice = journal.notice();
    let running = journal.close();
    notice.into_iter().for_each(tell);
    Ok(running)
}

fn show(running: &Running, csv: bool) -> Result<(), Failure> {
    let mut columns = frame_columns(&running.recorded_frames(), &running.forecast.bounds());
    columns.extend([
        ("use", column(&running.column(|r| r.used))),
        ("charge", column(&running.column(|r| r.charge))),
        ("loss", column(&running.column(|r| r.loss))),
    ]);
    let table = Table { columns };
    if !csv {
        return print(&format!("{}\n{}\n", table.aligned(), standing(&running.shift)));
    }
    print(&table.csv())?;
    warn(&missed_end(&running.shift).into_iter().collect::<Vec<_>>());
    Ok(())
}

fn plan(journal: &JournalArguments, without_leasts: bool, report: &ReportArguments) -> Result<(), Failure> {
    let running = &look(journal)?;
    let (rest, budgets) = running.plan_rest(without_leasts)?;
    let request = rest_request(running);
    let planned = request.planned(without_leasts);
    let traced = Budgets::trace(&request, budgets)?;
    let (course, bounds) = rest_words(rest, &traced, without_leasts);
    let words: Vec<String> = once(course.clone()).chain(bounds.clone()).collect();
    let is_short = matches!(rest, Rest::Short { .. });
    let warnings: Vec<String> = is_short.then_some(course).into_iter().chain(bounds).collect();
    let without = without_leasts.then(|| "the rest without its leasts".to_string());
    let notes: Vec<String> = short_by(rest).into_iter().chain(without).collect();
    let shown = Shown {
        table: traced.table(&running.forecast.bounds()),
        picture: &|| picture::of_shift(running, Some(&traced), planned.needed(), &notes),
        words: &words.join("\n"),
        warnings: &warnings,
        inputs: &[journal.place()?],
    };
    shown.show(report)
}

/// Draws what was recorded and, behind it, the plan of the rest with its needed capacity.
fn chart(journal: &JournalArguments, output: &OutputArguments) -> Result<(), Failure> {
    let running = &look(journal)?;
    let request = rest_request(running);
    let (traced, warning) = match running.plan_rest(false) {
        Err(Refusal::AllRecorded) => (None, missed_end(&running.shift)),
        planned => {
            let (rest, budgets) = planned?;
            (Some(Budgets::trace(&request, budgets)?), short_by(rest))
        }
    };
    let notes: Vec<String> = warning.into_iter().collect();
    let picture = picture::of_shift(running, traced.as_ref(), request.needed(), &notes);
    write(&output.output, &[journal.place()?], picture.as_bytes())?;
    warn(&notes);
    Ok(())
}

/// What is left of a shift as a request: the present charge is its start charge.
fn rest_request(running: &Running) -> Request {
    let Shift { terms, now } = running.shift;
    Request {
        figures: Figures {
            capacity: terms.capacity,
            start: now.charge,
            end: terms.end,
        },
        frames: running.rest_frames(),
    }
}
