//! The functions of the header, and a request with whatever lists their calls need.

use energy::{Energy, Figures, Refusal, Shift, LISTING_BYTES, MAX_FILE_BYTES};
use evidence::lists::Lists;

/// A request with the lists, the shift and the file that calls of it need.
pub struct Subject {
    /// Who is called.
    energy: &'static dyn Energy,
    pub figures: Figures,
    pub lists: Lists,
    budgets: Vec<u32>,
    charges: Vec<i64>,
    losses: Vec<u32>,
    shift: Shift,
    rest: Vec<u32>,
    file: Vec<u8>,
    bytes: usize,
    back: Lists,
    text: Vec<u8>,
}

/// A function of the header: its name, and a call that tells the number of its refusal.
#[derive(Clone, Copy)]
pub struct Function {
    pub name: &'static str,
    pub call: fn(&mut Subject) -> u32,
}

/// The number of an answer's refusal, 0 if it is accepted.
fn number<T>(answer: Result<T, Refusal>) -> u32 {
    answer.map_or_else(Refusal::number, |_| 0)
}

fn plan(s: &mut Subject) -> u32 {
    number(s.energy.plan(s.figures, s.lists.frames(), &mut s.budgets))
}
fn needed(s: &mut Subject) -> u32 {
    number(s.energy.needed(s.figures, s.lists.frames()))
}
fn trace(s: &mut Subject) -> u32 {
    let (charges, losses) = (&mut s.charges, &mut s.losses);
    number(s.energy.trace(s.figures, &s.lists.harvest, &s.budgets, charges, losses))
}
fn grade(s: &mut Subject) -> u32 {
    number(s.energy.grade(&s.budgets))
}
fn start(s: &mut Subject) -> u32 {
    number(s.energy.shift_start(s.figures, s.lists.frames()))
}
fn record(s: &mut Subject) -> u32 {
    let recorded = s.energy.shift_record(s.shift, s.lists.harvest[0], s.budgets[0]);
    number(recorded.map_err(|not| not.refusal))
}
fn plan_rest(s: &mut Subject) -> u32 {
    number(s.energy.shift_plan_rest(s.shift, s.lists.frames(), &mut s.rest))
}
fn rest_part(s: &mut Subject) -> u32 {
    number(s.energy.shift_rest_part(s.shift, &s.rest))
}
fn write(s: &mut Subject) -> u32 {
    let written = s.energy.write(s.figures, s.lists.frames(), &mut s.file);
    number(written.map(|bytes| s.bytes = bytes))
}
fn read(s: &mut Subject) -> u32 {
    let Lists { harvest, least, most } = &mut s.back;
    number(s.energy.read(&s.file[..s.bytes], harvest, least, most))
}
fn listing(s: &mut Subject) -> u32 {
    let length = s.energy.listing(&s.file[..s.bytes], &mut s.text);
    u32::from(length == 0)
}

/// Every function, in an order in which each finds what it needs.
#[rustfmt::skip]
pub const FUNCTIONS: [Function; 11] = [
    Function { name: "energy_plan", call: plan },
    Function { name: "energy_needed", call: needed },
    Function { name: "energy_trace", call: trace },
    Function { name: "energy_grade", call: grade },
    Function { name: "energy_shift_start", call: start },
    Function { name: "energy_shift_record", call: record },
    Function { name: "energy_shift_plan_rest", call: plan_rest },
    Function { name: "energy_shift_rest_part", call: rest_part },
    Function { name: "energy_write", call: write },
    Function { name: "energy_read", call: read },
    Function { name: "energy_listing", call: listing },
];

/// The function with a name.
pub fn function(name: &str) -> Function {
    let found = FUNCTIONS.into_iter().find(|function| function.name == name);
    found.unwrap_or_else(|| panic!("no function {name}"))
}

impl Subject {
    /// A request that is accepted without bounds, with its plan and its shift without bounds.
    fn new(energy: &'static dyn Energy, figures: Figures, lists: Lists) -> Subject {
        let free = Lists::unbounded(lists.harvest.clone());
        let mut budgets = vec![0; lists.count()];
        let planned = energy.plan(figures, free.frames(), &mut budgets);
        planned.expect("a request within reach");
        Subject {
            energy,
            figures,
            shift: energy.shift_start(figures, free.frames()).expect("a shift"),
            budgets,
            charges: vec![0; lists.count()],
            losses: vec![0; lists.count()],
            rest: vec![0; lists.count()],
            file: vec![0; MAX_FILE_BYTES],
            bytes: 0,
            back: free,
            text: vec![0; LISTING_BYTES],
            lists,
        }
    }

    /// The same, once each function was called: none refuses it but by this number.
    pub fn called(energy: &'static dyn Energy, figures: Figures, lists: Lists, refusal: u32) -> Subject {
        let mut subject = Subject::new(energy, figures, lists);
        for function in &FUNCTIONS {
            let number = (function.call)(&mut subject);
            assert!([0, refusal].contains(&number), "{} refuses {number}", function.name);
        }
        subject
    }

    /// The same, called by another.
    pub fn by(self, energy: &'static dyn Energy) -> Subject {
        Subject { energy, ..self }
    }
}
