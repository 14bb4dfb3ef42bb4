//! Requests and budgets from files: text, CSV or a word file, told apart by what they hold.

mod budgets;
mod calendar;
mod cells;
mod fault;
mod forms;
mod frames;
mod leasts;
mod moment;
mod order;
mod refused;
mod sheet;
mod times;
mod words;

pub use budgets::read_budgets;
pub use calendar::Calendar;
pub use fault::{quoted, Fault};
pub use frames::{Bound, FrameLists, NO_BOUND};
pub use leasts::Store;
pub use moment::{Moment, FRAME_SECONDS};
pub use refused::{harvest_above_limit, too_many};
pub use times::Times;

use crate::failure::Failure;
use crate::files::{Place, MOST_BYTES};
use crate::kinds::{is_journal, is_word_file};
use clap::Args;
use energy::{Figures, MAX_CAPACITY};
use sheet::{Sheet, CAPACITY, END, FIGURES, START};

/// Where a request stands, and figures in place of its own.
#[derive(Args, Debug)]
pub struct RequestArguments {
    /// The request: text, CSV or a word file; - is standard input
    #[arg(value_hint = clap::ValueHint::FilePath)]
    pub request: Place,
    /// The capacity in Wh, in place of the request's
    #[arg(long, value_name = "WH", allow_negative_numbers = true, value_parser = whole_number)]
    pub capacity: Option<u32>,
    /// The start charge in Wh, in place of the request's
    #[arg(long, value_name = "WH", allow_negative_numbers = true, value_parser = whole_number)]
    pub start: Option<u32>,
    /// The end charge in Wh, in place of the request's
    #[arg(long, value_name = "WH", allow_negative_numbers = true, value_parser = whole_number)]
    pub end: Option<u32>,
}

/// A whole number as an argument.
pub fn whole_number(text: &str) -> Result<u32, String> {
    sheet::whole_number(text).ok_or_else(|| format!("a whole number up to {} is expected", u32::MAX))
}

/// A request that is whole.
#[derive(Clone, Debug, PartialEq, Eq)]
pub struct Request {
    pub figures: Figures,
    pub frames: FrameLists,
}

/// A request as it was read: a table alone leaves its figures open.
#[derive(Debug)]
pub struct Draft {
    figures: [Option<u32>; FIGURES.len()],
    frames: FrameLists,
    /// The word file itself, where the request is just what it holds.
    pub word_file: Option<Vec<u8>>,
    name: String,
    /// The text that it was read from.
    sheet: Sheet,
}

impl RequestArguments {
    /// Reads the request, and puts the given figures in place of its own.
    pub fn read(&self) -> Result<Draft, Failure> {
        let bytes = self.request.read()?;
        let name = self.request.input_name();
        let mut draft = if is_word_file(&bytes) {
            words::from_words(bytes, name)?
        } else {
            from_text(&bytes, name)?
        };
        let given = [self.capacity, self.start, self.end];
        for (figure, given) in draft.figures.iter_mut().zip(given) {
            if given.is_some() {
                *figure = given;
                draft.word_file = None;
            }
        }
        Ok(draft)
    }
}

impl Draft {
    /// These figures, or a fault that names those that are missing.
    fn take<const N: usize>(self, which: [usize; N]) -> Result<([u32; N], FrameLists), Failure> {
        let missing: Vec<&str> = which
            .iter()
            .filter(|&&which| self.figures[which].is_none())
            .map(|&which| FIGURES[which])
            .collect();
        if let Some(first) = missing.first() {
            let names = missing.join(", ");
            let expected = format!("{names} (as lines before the table, or as options such as --{first} 5)");
            return Err(self.sheet.lacks(expected).of(&self.name));
        }
        Ok((which.map(|which| self.figures[which].unwrap_or_default()), self.frames))
    }

    /// What the needed capacity depends on: the request with any capacity, here the largest.
    pub fn without_capacity(self) -> Result<Request, Failure> {
        let ([start, end], frames) = self.take([START, END])?;
        let capacity = MAX_CAPACITY;
        let figures = Figures { capacity, start, end };
        Ok(Request { figures, frames })
    }

    /// The whole request.
    pub fn request(self) -> Result<Request, Failure> {
        let ([capacity, start, end], frames) = self.take([CAPACITY, START, END])?;
        let figures = Figures { capacity, start, end };
        Ok(Request { figures, frames })
    }
}

/// Figures in the order of their names.
fn in_order(figures: Figures) -> [u32; FIGURES.len()] {
    let Figures { capacity, start, end } = figures;
    [capacity, start, end]
}

impl Request {
    /// The request as it is planned, with its leasts or without them.
    pub fn planned(&self, without_leasts: bool) -> Request {
        Request {
            figures: self.figures,
            frames: self.frames.planned(without_leasts),
        }
    }

    /// The needed capacity, if there is one.
    pub fn needed(&self) -> Option<u64> {
        energy::needed(self.figures, self.frames.lent()).ok()
    }

    /// The request as text, with a column for the clock times if it has them, and for each bound that some frame has.
    pub fn text(&self) -> String {
        let mut text = String::new();
        for (name, value) in FIGURES.iter().zip(in_order(self.figures)) {
            text += &format!("{name} {value}\n");
        }
        let FrameLists { calendar, harvest, .. } = &self.frames;
        let bounds = self.frames.bounds();
        let time = if calendar.times.is_some() { "time " } else { "" };
        let names = bounds.iter().map(|bound| format!(" {}", bound.name()));
        text += &format!("{time}harvest{}\n", names.collect::<String>());
        for (frame, harvest) in harvest.iter().enumerate() {
            let time = calendar.time(frame).map_or(String::new(), |time| time.word() + " ");
            let cell = |bound: &Bound| format!(" {}", bound.text(self.frames.list(*bound)[frame]));
            text += &format!("{time}{harvest}{}\n", bounds.iter().map(cell).collect::<String>());
        }
        text
    }
}

fn from_text(bytes: &[u8], name: String) -> Result<Draft, Failure> {
    let text = text_of(bytes, &name, "a request")?;
    let mut sheet = sheet::parse(&text).map_err(|fault| fault.of(&name))?;
    let harvest = sheet.harvest().map_err(|fault| fault.of(&name))?;
    let [least, most] = Bound::ALL.map(|bound| sheet.bounds(bound, harvest.len()));
    let (before, times) = (0, sheet.times());
    Ok(Draft {
        figures: sheet.figures(),
        frames: FrameLists {
            calendar: Calendar { before, times },
            harvest,
            least,
            most,
        },
        word_file: None,
        name,
        sheet,
    })
}

/// The characters of a text in which something is expected; bytes that are none stand out where a cell is read.
fn text_of(bytes: &[u8], name: &str, expected: &str) -> Result<String, Failure> {
    if bytes.len() > MOST_BYTES {
        return Err(Failure::Fault(format!(
            "{name}: a text of at most {MOST_BYTES} bytes is expected, found more"
        )));
    }
    refuse_journal(bytes, name, expected)?;
    Ok(String::from_utf8_lossy(bytes).into_owned())
}

/// Refuses a journal where something else is expected.
fn refuse_journal(bytes: &[u8], name: &str, expected: &str) -> Result<(), Failure> {
    if !is_journal(bytes) {
        return Ok(());
    }
    let fault = Fault {
        line: 1,
        column: 1,
        expected: expected.to_string(),
        found: "a shift's journal".to_string(),
    };
    let shows = "`gomzhiva shift plan --journal FILE` shows the plan of its rest";
    Err(fault.of(name).with(shows))
}
