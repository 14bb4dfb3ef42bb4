//! One case through an implementation, compared with the reference: every answer, and every lent list afterwards.

use crate::cases::{Call, Case};
use crate::lists::Lists;
use crate::reference::logbook::Logbook;
use crate::reference::Reference;
use energy::{Energy, Figures, Header, Refusal, Shift};
use std::fmt::Debug;

/// What written lists hold beforehand, so that a byte too many or too few shows.
const OLD_BUDGET: u32 = 3_333_333_333;
const OLD_HARVEST: u32 = 3_111_111_111;
const OLD_LEAST: u32 = 2_777_777_777;
const OLD_MOST: u32 = 2_999_999_999;
const OLD_CHARGE: i64 = -9_999;
const OLD_LOSS: u32 = 2_222_222_222;
const OLD_BYTE: u8 = 0xa5;

/// A difference in words, or nothing.
pub type Checked = Result<(), String>;

/// The two must be equal.
fn same<T: PartialEq + Debug>(what: &str, given: T, expected: T) -> Checked {
    if given == expected {
        Ok(())
    } else {
        Err(format!("{what}: given {given:?}, expected {expected:?}"))
    }
}

/// Runs a case and compares.
pub fn check(energy: &dyn Energy, case: &Case) -> Checked {
    match case {
        Case::Plan {
            figures,
            lists,
            budgets,
        } => twice(
            energy,
            vec![OLD_BUDGET; *budgets],
            |energy, budgets| energy.plan(*figures, lists.frames(), budgets),
            "plan",
        ),
        Case::Needed { figures, lists } => same(
            "needed",
            energy.needed(*figures, lists.frames()),
            Reference.needed(*figures, lists.frames()),
        ),
        Case::Trace {
            figures,
            harvest,
            budgets,
            charges,
            losses,
        } => twice(
            energy,
            (vec![OLD_CHARGE; *charges], vec![OLD_LOSS; *losses]),
            |energy, (charges, losses)| energy.trace(*figures, harvest, budgets, charges, losses),
            "trace",
        ),
        Case::Grade { budgets } => same("grade", energy.grade(budgets), Reference.grade(budgets)),
        Case::Run { figures, lists, calls } => check_run(energy, *figures, lists, calls),
        Case::On { shift, call } => check_on(energy, *shift, call),
        Case::Read { file, rooms } => twice(
            energy,
            old_lists(*rooms),
            |energy, lists| read(energy, file, lists),
            "read",
        ),
        Case::Write { figures, lists, room } => check_write(energy, *figures, lists, *room),
        Case::Listing { file, room } => twice(
            energy,
            vec![OLD_BYTE; *room],
            |energy, text| energy.listing(file, text),
            "listing",
        ),
    }
}

/// Panics with the case in a form that can be run again, if an implementation differs.
pub fn expect(energy: &dyn Energy, case: &Case) {
    if let Err(difference) = check(energy, case) {
        panic!(
            "{} differs: {difference}\nrun it again: ENERGY_CASE='{case}' rust/cargo test -p evidence --test rerun",
            energy.name()
        );
    }
}

/// The same call on both, each with its own copy of the written list, or of the written lists.
fn twice<L: Clone + PartialEq + Debug, A: PartialEq + Debug>(
    energy: &dyn Energy,
    lists: L,
    call: impl Fn(&dyn Energy, &mut L) -> A,
    what: &str,
) -> Checked {
    let (mut given, mut expected) = (lists.clone(), lists);
    let answer = call(energy, &mut given);
    same(what, answer, call(&Reference, &mut expected))?;
    same(&format!("{what}, what is written"), given, expected)
}

/// Lists of these lengths to read a file into.
fn old_lists(rooms: [usize; 3]) -> Lists {
    let [harvest, least, most] = rooms;
    Lists {
        harvest: vec![OLD_HARVEST; harvest],
        least: vec![OLD_LEAST; least],
        most: vec![OLD_MOST; most],
    }
}

/// Reads a file into lists.
fn read(energy: &dyn Energy, file: &[u8], lists: &mut Lists) -> Result<Header, Refusal> {
    energy.read(file, &mut lists.harvest, &mut lists.least, &mut lists.most)
}

/// Writes a file, and reads back what was written.
fn check_write(energy: &dyn Energy, figures: Figures, lists: &Lists, room: usize) -> Checked {
    twice(
        energy,
        vec![OLD_BYTE; room],
        |energy, file| energy.write(figures, lists.frames(), file),
        "write",
    )?;
    let mut file = vec![OLD_BYTE; room];
    let length = match energy.write(figures, lists.frames(), &mut file) {
        Ok(length) => length,
        Err(_) => return Ok(()),
    };
    let frames = lists.count();
    let mut back = old_lists([frames + 3, frames + 2, frames + 1]);
    let header = read(energy, &file[..length], &mut back).map_err(|refusal| format!("reads back: {refusal}"))?;
    same("what is read back", header, Header { figures, frames })?;
    let mut expected = lists.clone();
    expected.harvest.extend([OLD_HARVEST; 3]);
    expected.least.extend([OLD_LEAST; 2]);
    expected.most.extend([OLD_MOST; 1]);
    same("lists read back, and their surplus", back, expected)
}

/// Budgets as a caller might have them, with another value in every place.
fn old_budgets(length: usize) -> Vec<u32> {
    (0..length as u32).map(|i| OLD_BUDGET + i).collect()
}

/// Where a part lies in a list, in entries.
fn position(part: &[u32], list: &[u32]) -> usize {
    (part.as_ptr() as usize).wrapping_sub(list.as_ptr() as usize) / std::mem::size_of::<u32>()
}

/// One call on any record.
fn check_on(energy: &dyn Energy, shift: Shift, call: &Call) -> Checked {
    match call {
        Call::Record { harvest, used } => same(
            "record",
            energy.shift_record(shift, *harvest, *used),
            Reference.shift_record(shift, *harvest, *used),
        ),
        Call::Rest { lists, budgets } => twice(
            energy,
            old_budgets(*budgets),
            |energy, budgets| energy.shift_plan_rest(shift, lists.frames(), budgets),
            "rest",
        ),
        Call::Part { budgets } => {
            let list = old_budgets(*budgets);
            let given = energy.shift_rest_part(shift, &list);
            let expected = Reference.shift_rest_part(shift, &list);
            same("part", given, expected)?;
            match (given, expected) {
                (Ok(a), Ok(b)) => same("the part's position", position(a, &list), position(b, &list)),
                _ => Ok(()),
            }
        }
    }
}

/// A whole shift: after every call the answer and the record are the logbook's, and so are the budgets.
fn check_run(energy: &dyn Energy, figures: Figures, lists: &Lists, calls: &[Call]) -> Checked {
    let started = energy.shift_start(figures, lists.frames());
    same("start", started, Reference.shift_start(figures, lists.frames()))?;
    let mut shift = match started {
        Ok(shift) => shift,
        Err(_) => return Ok(()),
    };
    let mut log = Logbook::open(figures, lists.count());
    let mut given = old_budgets(lists.count());
    let mut expected = given.clone();
    for (i, call) in calls.iter().enumerate() {
        let what = format!("call {} ({call})", i + 1);
        match call {
            Call::Record { harvest, used } => {
                let answer = energy.shift_record(shift, *harvest, *used);
                same(
                    &what,
                    answer.map(|_| ()).map_err(|not| not.refusal),
                    log.record(*harvest, *used),
                )?;
                shift = answer.unwrap_or_else(|not| not.shift);
            }
            Call::Rest { lists, budgets } => {
                given.resize(*budgets, OLD_BUDGET);
                expected.resize(*budgets, OLD_BUDGET);
                let answer = energy.shift_plan_rest(shift, lists.frames(), &mut given);
                same(&what, answer, log.plan_rest(lists.frames(), &mut expected))?;
            }
            Call::Part { budgets } => {
                given.resize(*budgets, OLD_BUDGET);
                expected.resize(*budgets, OLD_BUDGET);
                let part = energy.shift_rest_part(shift, &given);
                same(
                    &what,
                    part.map(|part| position(part, &given)),
                    log.rest_part(given.len()),
                )?;
                same(
                    &what,
                    part.unwrap_or(&[]),
                    log.rest_part(given.len()).map_or(&[], |from| &expected[from..]),
                )?;
            }
        }
        same(&format!("{what}, the record"), shift, log.record_now())?;
        same(&format!("{what}, the budgets"), &given, &expected)?;
        same(&format!("{what}, the logbook's balance"), log.balances(), true)?;
    }
    Ok(())
}
