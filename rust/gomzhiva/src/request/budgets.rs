//! Budgets from a file: a table, or bare numbers.

use super::{sheet, text_of, Fault, Moment, Times};
use crate::failure::Failure;
use crate::files::Place;
use crate::kinds::is_word_file;

/// Budgets as they were read, and when their frames begin, if a table says so.
pub struct ReadBudgets {
    pub list: Vec<u32>,
    pub times: Option<Times>,
}

/// The budgets in a file: a table with the column `budget`, or with what was used in their place, or bare numbers. Those that
/// begin at another time of the day than asked for are a fault; those of another date may be meant.
pub fn read_budgets(place: &Place, asked: Option<Moment>) -> Result<ReadBudgets, Failure> {
    let name = place.input_name();
    let bytes = place.read()?;
    if is_word_file(&bytes) {
        return Err(Failure::Fault(format!(
            "{name}: a text in UTF-8 is expected, found a byte 0"
        )));
    }
    let text = text_of(&bytes, &name, "a list of budgets")?;
    let fault = |fault: Fault| fault.of(&name);
    if let Some(list) = sheet::bare_numbers(&text).map_err(fault)? {
        return Ok(ReadBudgets { list, times: None });
    }
    let mut sheet = sheet::parse(&text).map_err(fault)?;
    let (list, times) = (sheet.budgets().map_err(fault)?, sheet.times());
    match asked.and_then(|asked| sheet.begins_unlike(asked)) {
        Some(unlike) => Err(fault(unlike)),
        None => Ok(ReadBudgets { list, times }),
    }
}
