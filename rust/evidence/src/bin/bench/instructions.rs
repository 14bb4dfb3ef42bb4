//! Instructions of the library's calls in the rows of the tables.

use crate::beside::Beside;
use crate::contenders::{Call, Contender, CALLS};
use crate::measured::{Column, Unit};
use crate::rows::{rows, COUNTED};
use crate::valgrind;

/// Makes every counted call once, in the order of the rows.
pub fn play(call: Call, beside: Option<&Beside>) {
    let build = beside.map_or(Contender::Library, |_| Contender::Beside);
    let mut run = build.run(call, beside).expect("a build of the library");
    for row in rows() {
        row.requests(COUNTED).iter().for_each(&mut run);
    }
}

/// The counts of the rows: the mean over their requests.
fn means(call: Call, beside: Option<&Beside>) -> Result<Vec<Option<f64>>, String> {
    let counts: Vec<usize> = rows().iter().map(|row| row.requests(COUNTED).len()).collect();
    let function = call.function();
    let each = valgrind::instructions(function, function, beside, counts.iter().sum())?;
    let mut rest = each.into_iter();
    let mean = |count: usize| rest.by_ref().take(count).map(|part| part.total).sum::<u64>() as f64 / count as f64;
    Ok(counts.into_iter().map(mean).map(Some).collect())
}

/// The columns of the library, and of the other build where there is one.
pub fn count(beside: Option<&Beside>) -> Result<Vec<Column>, String> {
    let other = beside.map(|beside| (Contender::Beside, Some(beside)));
    let mut columns = Vec::new();
    for call in CALLS {
        for (contender, build) in [(Contender::Library, None)].into_iter().chain(other) {
            columns.push(Column {
                unit: Unit::Instructions,
                call,
                contender,
                figures: means(call, build)?,
            });
        }
    }
    Ok(columns)
}
