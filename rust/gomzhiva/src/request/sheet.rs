//! The notation of a request as text: named figures, a line that names the columns, then a line for each frame.
//!
//! A further figure or column that a request may have is one more row of `FIGURES` or `COLUMNS` here; `Request` takes it up.

use super::cells::{count_lines, lines, plain, Cell, Line, Row, Separator};
use super::fault::{Fault, END_OF_LINE};
use super::frames::{Bound, NO_BOUND};
use super::moment::Moment;
use super::order::Order;
use super::Times;

/// A figure that stands once in a request, by its name.
pub const FIGURES: [&str; 3] = ["capacity", "start", "end"];
pub const CAPACITY: usize = 0;
pub const START: usize = 1;
pub const END: usize = 2;

/// The columns of the table of frames, in the order in which they are printed: a list of numbers, a bound that a frame may
/// have, what says that the lines are frames in their order, what was used, or what only people read.
pub const COLUMNS: [(&str, Kind); 9] = [
    ("frame", Kind::Number),
    ("time", Kind::Time),
    ("harvest", Kind::List(HARVEST)),
    (Bound::Least.name(), Kind::Bound(Bound::Least)),
    (Bound::Most.name(), Kind::Bound(Bound::Most)),
    ("budget", Kind::List(BUDGET)),
    ("use", Kind::Use),
    ("charge", Kind::Skipped),
    ("loss", Kind::Skipped),
];
const HARVEST: usize = 0;
const BUDGET: usize = 1;
const LISTS: usize = 2;

#[derive(Clone, Copy, Debug, PartialEq, Eq)]
pub enum Kind {
    List(usize),
    Bound(Bound),
    Number,
    Time,
    Use,
    Skipped,
}

/// What a text says: each figure with its line, each list of its table, where the table begins, and where the text ends.
#[derive(Debug, Default)]
pub struct Sheet {
    figures: [Option<(u32, usize)>; FIGURES.len()],
    lists: [Option<Vec<u32>>; LISTS],
    bounds: [Option<Vec<u32>>; Bound::ALL.len()],
    /// What was used, as far as it is numbers: in a request it stands for people alone.
    uses: Option<Result<Vec<u32>, Fault>>,
    order: Order,
    table: Option<Fault>,
    end_line: usize,
}

impl Sheet {
    /// Each figure, if the text has it.
    pub fn figures(&self) -> [Option<u32>; FIGURES.len()] {
        self.figures.map(|figure| figure.map(|(value, _)| value))
    }

    /// The harvests, or what is wrong where the text has none.
    pub fn harvest(&mut self) -> Result<Vec<u32>, Fault> {
        self.list(HARVEST, "'harvest'")
    }

    /// The budgets, or where there are none what was used in their place.
    pub fn budgets(&mut self) -> Result<Vec<u32>, Fault> {
        match self.uses.take() {
            Some(uses) if self.lists[BUDGET].is_none() => uses,
            _ => self.list(BUDGET, "'budget', or else 'use',"),
        }
    }

    fn list(&mut self, which: usize, name: &str) -> Result<Vec<u32>, Fault> {
        let list = self.lists[which].take();
        list.ok_or_else(|| self.lacks(format!("a table with the column {name}")))
    }

    /// When the frames begin, if the text has clock times.
    pub fn times(&self) -> Option<Times> {
        self.order.times()
    }

    /// The fault of a text whose first frame begins at another time of the day than this.
    pub fn begins_unlike(&self, asked: Moment) -> Option<Fault> {
        self.order.begins_unlike(asked)
    }

    /// The list of a bound; where the text has no such column, none of so many frames has it.
    pub fn bounds(&mut self, bound: Bound, frames: usize) -> Vec<u32> {
        let listed = self.bounds[bound as usize].take();
        listed.unwrap_or_else(|| vec![bound.absent(); frames])
    }

    /// The fault of a text that has something else at the beginning of its table, or no table.
    pub fn lacks(&self, expected: String) -> Fault {
        match self.table.clone() {
            Some(table) => Fault { expected, ..table },
            None => Fault::at_end(self.end_line, expected),
        }
    }
}

/// Reads a text.
pub fn parse(text: &str) -> Result<Sheet, Fault> {
    let text = plain(text);
    let mut sheet = Sheet {
        end_line: count_lines(&text),
        ..Sheet::default()
    };
    let mut lines = lines(&text);
    for line in lines.by_ref() {
        closed(&line, None)?;
        if let Some(which) = figure_of(&line) {
            put_figure(&mut sheet, which, &line.words())?;
        } else if !line.words().cells.is_empty() {
            let table = open_table(&mut sheet, &line)?;
            put_frames(&mut sheet, &table, lines)?;
            break;
        }
    }
    Ok(sheet)
}

/// A line's double quotes stand around whole cells.
fn closed(line: &Line<'_>, separator: Option<Separator>) -> Result<(), Fault> {
    match line.stray_quote(separator) {
        None => Ok(()),
        Some(row) if row.cells.is_empty() => Err(row.unlike(0, "a closing double quote")),
        Some(row) => Err(row.unlike(0, "a double quote only before and behind a whole cell")),
    }
}

/// The figure that a line names first.
fn figure_of(line: &Line<'_>) -> Option<usize> {
    line.words().cells.first().and_then(is_figure)
}

fn is_figure(cell: &Cell<'_>) -> Option<usize> {
    FIGURES.iter().position(|name| cell.text.eq_ignore_ascii_case(name))
}

fn put_figure(sheet: &mut Sheet, which: usize, line: &Row<'_>) -> Result<(), Fault> {
    if let Some((_, before)) = sheet.figures[which] {
        let expected = format!("'{}' once (it stands in line {before})", FIGURES[which]);
        return Err(line.unlike(0, &expected));
    }
    sheet.figures[which] = Some((number(line, 1)?, line.line));
    ends(line, 2)
}

/// The column that a cell names.
fn column_of(cell: &Cell<'_>) -> Option<usize> {
    COLUMNS
        .iter()
        .position(|(name, _)| cell.text.eq_ignore_ascii_case(name))
}

/// A table's columns, what parts its cells, and how many cells a line may have, the empty ones behind the last name included.
struct Table {
    columns: Vec<Kind>,
    separator: Separator,
    width: usize,
}

/// The table whose columns a line names, each once; their lists are there from now on.
fn open_table(sheet: &mut Sheet, line: &Line<'_>) -> Result<Table, Fault> {
    let separator = line.separator();
    closed(line, Some(separator))?;
    let mut names = line.cells(separator);
    let width = names.cells.len();
    while names.cells.last().map_or(false, |last| last.text.is_empty()) {
        names.cells.pop();
    }
    let mut places = Vec::new();
    for (i, cell) in names.cells.iter().enumerate() {
        match column_of(cell) {
            Some(place) if !places.contains(&place) => places.push(place),
            _ => return Err(names.unlike(i, &expected_name(i == 0, &places))),
        }
    }
    sheet.table = Some(names.unlike(0, ""));
    let columns: Vec<Kind> = places.into_iter().map(|place| COLUMNS[place].1).collect();
    for column in &columns {
        match column {
            Kind::List(list) => sheet.lists[*list] = Some(Vec::new()),
            Kind::Bound(bound) => sheet.bounds[*bound as usize] = Some(Vec::new()),
            Kind::Use => sheet.uses = Some(Ok(Vec::new())),
            Kind::Number | Kind::Time | Kind::Skipped => {}
        }
    }
    Ok(Table {
        columns,
        separator,
        width,
    })
}

/// The names that may stand at the beginning of a line, or behind the columns already named.
fn expected_name(begins: bool, named: &[usize]) -> String {
    let columns = COLUMNS.iter().enumerate().filter(|(place, _)| !named.contains(place));
    let columns: Vec<&str> = columns.map(|(_, (name, _))| *name).collect();
    let figures = if begins {
        format!("a figure ({}) or ", FIGURES.join(", "))
    } else {
        String::new()
    };
    format!("{figures}a column ({})", columns.join(", "))
}

/// Puts the frames of a table into the lists of its columns. A line of empty cells counts for nothing behind the last frame
/// alone.
fn put_frames<'a>(sheet: &mut Sheet, table: &Table, lines: impl Iterator<Item = Line<'a>>) -> Result<(), Fault> {
    let mut gap = None;
    for line in lines {
        closed(&line, Some(table.separator))?;
        sure(line.doubtful_cell(table.separator))?;
        let row = line.cells(table.separator);
        if line.is_empty_row(table.separator) {
            gap = gap.or_else(|| Some(row.unlike(0, "a frame")));
        } else if !line.is_blank() {
            gap.take().map_or(Ok(()), Err)?;
            put_frame(sheet, table, &row)?;
        }
    }
    sheet.order.close()
}

/// A comment that may be meant as a number is a fault: a spreadsheet's `#N/A` must not be passed over.
fn sure(doubtful: Option<Row<'_>>) -> Result<(), Fault> {
    match doubtful {
        None => Ok(()),
        Some(row) => Err(row.unlike(0, "a cell, or a comment with a blank behind its '#',")),
    }
}

/// Puts a frame's cells into the lists of their columns.
fn put_frame(sheet: &mut Sheet, table: &Table, row: &Row<'_>) -> Result<(), Fault> {
    let columns = &table.columns;
    if table.separator == Separator::Blanks && row.cells.len() < columns.len() {
        let is_bound = |column: &Kind| matches!(column, Kind::Bound(_));
        let none = if columns.iter().any(is_bound) {
            format!(" ('{NO_BOUND}' for none)")
        } else {
            String::new()
        };
        return Err(row.unlike(row.cells.len(), &format!("a cell for each column{none}")));
    }
    for (i, column) in columns.iter().enumerate() {
        put_cell(sheet, *column, row, i)?;
    }
    if row.cells.len() > table.width {
        let expected = match table.separator {
            Separator::Blanks => END_OF_LINE,
            Separator::Character(_) => "no more separators than in the table's first line",
        };
        return Err(row.unlike(table.width, expected));
    }
    let behind = |(i, cell): &(usize, &Cell)| *i >= columns.len() && !cell.text.is_empty();
    match row.cells.iter().enumerate().find(behind) {
        None => Ok(()),
        Some((i, _)) => Err(row.unlike(i, END_OF_LINE)),
    }
}

/// Puts a cell where its column belongs.
fn put_cell(sheet: &mut Sheet, column: Kind, row: &Row<'_>, i: usize) -> Result<(), Fault> {
    let (list, value) = match column {
        Kind::List(list) => (&mut sheet.lists[list], number(row, i)?),
        Kind::Bound(bound) => (&mut sheet.bounds[bound as usize], limit(row, i, bound)?),
        Kind::Number => return sheet.order.number(row, i),
        Kind::Time => return sheet.order.time(row, i),
        Kind::Use => {
            put_use(&mut sheet.uses, number(row, i));
            return Ok(());
        }
        Kind::Skipped => return Ok(()),
    };
    list.get_or_insert_with(Vec::new).push(value);
    Ok(())
}

/// Puts what was used behind the others; the first that is no number stands for all.
fn put_use(uses: &mut Option<Result<Vec<u32>, Fault>>, found: Result<u32, Fault>) {
    if let Some(Ok(list)) = uses {
        match found {
            Ok(used) => list.push(used),
            Err(fault) => *uses = Some(Err(fault)),
        }
    }
}

/// Reads bare numbers parted by blanks, however many stand in a line; none where the text is empty or begins with a name.
pub fn bare_numbers(text: &str) -> Result<Option<Vec<u32>>, Fault> {
    let text = plain(text);
    let first = lines(&text).find_map(|line| line.words().cells.first().copied());
    if first.map_or(true, |first| is_figure(&first).is_some() || column_of(&first).is_some()) {
        return Ok(None);
    }
    let mut list = Vec::new();
    for line in lines(&text) {
        closed(&line, Some(Separator::Blanks))?;
        sure(line.doubtful())?;
        let row = line.cells(Separator::Blanks);
        for i in 0..row.cells.len() {
            list.push(number(&row, i)?);
        }
    }
    Ok(Some(list))
}

/// The whole number in a line's cell.
pub fn number(line: &Row<'_>, i: usize) -> Result<u32, Fault> {
    whole_number(line.text(i)).ok_or_else(|| line.unlike(i, &format!("a whole number up to {}", u32::MAX)))
}

/// The bound in a line's cell, as a list has it; where the cell is empty or missing, the frame does not have it.
fn limit(line: &Row<'_>, i: usize, bound: Bound) -> Result<u32, Fault> {
    let text = line.text(i);
    if text.is_empty() || text == NO_BOUND {
        return Ok(bound.absent());
    }
    whole_number(text).ok_or_else(|| line.unlike(i, &format!("a whole number up to {} or '{NO_BOUND}'", u32::MAX)))
}

/// The whole number of 32 bits that a text is, digits alone.
pub fn whole_number(text: &str) -> Option<u32> {
    let digits = text.bytes().all(|b| b.is_ascii_digit());
    digits.then(|| text.parse().ok())?
}

/// A line has no more cells than these.
fn ends(line: &Row<'_>, cells: usize) -> Result<(), Fault> {
    match line.cells.get(cells) {
        None => Ok(()),
        Some(_) => Err(line.unlike(cells, END_OF_LINE)),
    }
}

#[cfg(test)]
mod tests {
    use super::*;

    const DAY: &str = "capacity 5\nstart 2\nend 2\nharvest\n6\n4      # noon\n";

    fn said(text: &str) -> ([Option<u32>; FIGURES.len()], Vec<u32>) {
        let mut sheet = parse(text).unwrap();
        let harvest = sheet.harvest().unwrap();
        (sheet.figures(), harvest)
    }

    /// The leasts and the mosts of a text.
    fn bounds(text: &str) -> [Vec<u32>; 2] {
        let mut sheet = parse(text).unwrap();
        let frames = sheet.harvest().unwrap().len();
        Bound::ALL.map(|bound| sheet.bounds(bound, frames))
    }

    fn fault(text: &str) -> String {
        let listed = parse(text).and_then(|mut sheet| sheet.harvest());
        listed.unwrap_err().to_string()
    }

    #[test]
    fn one_request_in_every_dress() {
        let day = said(DAY);
        assert_eq!(day, ([Some(5), Some(2), Some(2)], vec![6, 4]));
        for text in [
            "\u{feff}capacity 5\r\nstart 2\r\nend 2\r\nharvest\r\n6\r\n4",
            "capacity,5\nstart,2\nend,2\nharvest\n6\n4\n",
            "capacity;5;\n\"start\";2;\nend;2;\nharvest;;\n6;;\n4;;\n;;\n",
            "# a day\n\nEND 2\nCapacity\t5 # Wh\nstart 002\n\nHarvest\n\n6\n\n4",
            "capacity 5\rstart 2\rend 2\rharvest\r6\r4\r",
            "capacity 5\nstart 2\nend 2\ntime,harvest,charge\n06:00,6,-3\n06:15,4\n",
            "capacity 5\nstart 2\nend 2\nharvest loss\n6 9\n4 none\n",
            "capacity 5,\nstart 2,\nend 2,\ntime,harvest\n2026-06-21 06:00,6\n\"21.6.2026, 06:15\",4\n",
        ] {
            assert_eq!(said(text), day, "{text:?}");
        }
        assert_eq!(said("harvest\n"), ([None; FIGURES.len()], vec![]));
        assert_eq!(said("#capacity 7\ntime\tharvest #a\n\"now\"\t6 #b\n# noon\n").1, [6]);
        assert_eq!(said("frame harvest\n1 6 #noon\n\n2 4\n").1, [6, 4]);
        assert_eq!(said("\"\"\n\"harvest\",\"\"\n\"6\",\"\"\n\"\",\"\"\n").1, [6]);
        assert_eq!(said("\"capacity\",\"5\",\"\"\n\tharvest\n\t6\n").1, [6]);
    }

    #[test]
    fn bounds_may_be_there_or_not() {
        let (none, both) = (u32::MAX, [vec![0, 3], vec![5, u32::MAX]]);
        for text in [
            "harvest least most\n6 - 5\n4 3 -\n",
            "harvest,least,most\n6,,5\n4,3,\n",
            "harvest;least;most\n6;;5\n4;3\n",
            "harvest\tleast\tmost\n6\t-\t5\n4\t3\t\n",
            "most,least,time,harvest\n5,0,noon,6\n4294967295, 3 ,,4\n",
            "MOST,Least,harvest\n\"5\",\"\",6\n\"-\",3,4\n,,\n",
            "least most harvest\n\"\" 5 6\n3 \"-\" 4\n",
        ] {
            assert_eq!(bounds(text), both, "{text:?}");
        }
        assert_eq!(bounds("harvest\n6\n4\n"), [vec![0, 0], vec![none, none]]);
        assert_eq!(bounds("harvest least\n6 3\n"), [vec![3], vec![none]]);
        assert_eq!(bounds("most harvest\n0 6\n"), [vec![0], vec![0]]);
        // Cells that are missing behind the last one that is there, as spreadsheets save them.
        assert_eq!(bounds("harvest,least,most\n6\n4,3\n"), [vec![0, 3], vec![none, none]]);
        assert_eq!(bounds("harvest,least\n6,4294967295\n"), [vec![none], vec![none]]);
        let bound = "a whole number up to 4294967295 or '-' is expected, found";
        assert_eq!(fault("harvest,least\n6,x\n"), format!("2:3: {bound} 'x'"));
        assert_eq!(fault("harvest most\n6 --\n"), format!("2:3: {bound} '--'"));
        assert_eq!(fault("harvest most\n6 -1\n"), format!("2:3: {bound} '-1'"));
        assert_eq!(
            fault("harvest most\n6 4294967296\n"),
            format!("2:3: {bound} '4294967296'")
        );
        let number = "a whole number up to 4294967295 is expected, found";
        assert_eq!(fault("harvest,least\n-,3\n"), format!("2:1: {number} '-'"));
        assert_eq!(
            fault("least,harvest\n3\n"),
            format!("2:2: {number} the end of the line")
        );
        let each = "a cell for each column ('-' for none) is expected, found the end of the line";
        assert_eq!(fault("harvest least most\n6 3\n"), format!("2:4: {each}"));
        assert_eq!(fault("most harvest\n6\n"), format!("2:2: {each}"));
        assert_eq!(
            fault("least,most\n3,4\n"),
            "1:1: a table with the column 'harvest' is expected, found 'least'"
        );
    }

    #[test]
    fn faults_name_their_place() {
        let number = "a whole number up to 4294967295 is expected, found";
        assert_eq!(fault("capacity 5\nstart 2\nend x\n"), format!("3:5: {number} 'x'"));
        assert_eq!(fault("capacity\n"), format!("1:9: {number} the end of the line"));
        assert_eq!(fault("capacity  # Wh\n"), format!("1:9: {number} the end of the line"));
        assert_eq!(fault("capacity 4294967296"), format!("1:10: {number} '4294967296'"));
        assert_eq!(fault("capacity -1"), format!("1:10: {number} '-1'"));
        assert_eq!(
            fault("capacity 5 6"),
            "1:12: the end of the line is expected, found '6'"
        );
        assert_eq!(
            fault("capacity 5\n\ncapacity 6"),
            "3:1: 'capacity' once (it stands in line 1) is expected, found 'capacity'"
        );
        assert_eq!(fault("harvest\n6 4"), "2:3: the end of the line is expected, found '4'");
        assert_eq!(fault("harvest\n1.5"), format!("2:1: {number} '1.5'"));
        assert_eq!(fault("time,harvest\n06:00,"), format!("2:7: {number} nothing"));
        assert_eq!(
            fault("time,harvest\n06:00"),
            format!("2:6: {number} the end of the line")
        );
        assert_eq!(fault("harvest,budget\n,3"), format!("2:1: {number} nothing"));
        assert_eq!(fault("harvest\n6\nend 2"), format!("3:1: {number} 'end'"));
        assert_eq!(
            fault("capacity 5,000"),
            "1:12: the end of the line is expected, found '000'"
        );
        // The first line of a table parts the cells of all its lines.
        assert_eq!(fault("harvest;time\n6,5;"), format!("2:1: {number} '6,5'"));
        assert_eq!(fault("harvest,time\n1 000,"), format!("2:1: {number} '1 000'"));
        assert_eq!(fault("harvest\n1,000"), format!("2:1: {number} '1,000'"));
        assert_eq!(fault("loss;harvest\n12,30;"), format!("2:7: {number} nothing"));
        assert_eq!(
            fault("time\tharvest\tuse\n06:00\t\t5"),
            format!("2:7: {number} nothing")
        );
        // A spreadsheet's error is no comment.
        let cell = "a cell, or a comment with a blank behind its '#', is expected, found";
        assert_eq!(fault("harvest,time\n6,now\n#N/A,due\n"), format!("3:1: {cell} '#N/A'"));
        assert_eq!(fault("harvest,time\n6,now\n#,due\n"), format!("3:1: {cell} '#'"));
        assert_eq!(fault("time, harvest\nnow, 6\n, #N/A\n"), format!("3:3: {cell} '#N/A'"));
        assert_eq!(fault("time,harvest\ndue,#N/A\n"), format!("2:5: {number} '#N/A'"));
        assert_eq!(fault("harvest\n6\n###\n"), format!("3:1: {cell} '###'"));
        // No cell and no frame is passed over.
        let each = "a cell for each column is expected, found the end of the line";
        assert_eq!(fault("frame harvest use\n1 6 3\n2   3\n"), format!("3:6: {each}"));
        assert_eq!(fault("harvest use\n\"\" 3\n"), format!("2:1: {number} nothing"));
        assert_eq!(
            fault("time,harvest,use\nnow,1,000,\n"),
            "2:11: no more separators than in the table's first line is expected, found nothing"
        );
        let frame = "a frame is expected, found nothing";
        assert_eq!(fault("harvest,use\n6,1\n,\n4,2\n"), format!("3:1: {frame}"));
        assert_eq!(
            fault("harvest\ttime\n6\tnow\n\t\n4\tdue\n").split(':').next(),
            Some("3")
        );
        assert_eq!(fault("harvest\n6\n\"\"\n4\n"), format!("3:1: {number} nothing"));
        assert_eq!(
            fault("time,harvest\n\"06:00,6\n"),
            "2:9: a closing double quote is expected, found the end of the line"
        );
        let quote = "a double quote only before and behind a whole cell is expected, found '\\\"'";
        assert_eq!(fault("time,harvest,use,charge\n5\",6,5\",7\n"), format!("2:2: {quote}"));
        assert_eq!(
            fault("harvest\n0 \"\"\n"),
            "2:3: the end of the line is expected, found nothing"
        );
        assert_eq!(fault("harvest\t\n6\t\n\t7\n"), format!("3:1: {number} nothing"));
        let names =
            "a figure (capacity, start, end) or a column (frame, time, harvest, least, most, budget, use, charge, loss)";
        assert_eq!(fault("harvst\n6"), format!("1:1: {names} is expected, found 'harvst'"));
        assert_eq!(fault("5\n6"), format!("1:1: {names} is expected, found '5'"));
        assert_eq!(
            fault("harvest,harvest\n"),
            "1:9: a column (frame, time, least, most, budget, use, charge, loss) is expected, found 'harvest'"
        );
        let table = "a table with the column 'harvest' is expected, found the end of the text";
        assert_eq!(fault(""), format!("1:1: {table}"));
        assert_eq!(fault("capacity 5\n"), format!("2:1: {table}"));
        assert_eq!(
            fault("capacity 5\nbudget\n5"),
            "2:1: a table with the column 'harvest' is expected, found 'budget'"
        );
    }

    #[test]
    fn long_and_strange_finds_are_shown_short() {
        let found = fault(&format!("capacity {}", "\u{1}x".repeat(40)));
        assert!(
            found.ends_with("...'") && found.contains("\\u{1}x") && found.len() < 160,
            "{found}"
        );
    }

    #[test]
    fn bare_lists() {
        let list = bare_numbers("# today\n4 4\t4\n# none\n4  2 2 # two");
        assert_eq!(list, Ok(Some(vec![4, 4, 4, 4, 2, 2])));
        for text in ["budget\n4", "#today\n,,\nBudget,time\n4", "capacity 5", " # none", ""] {
            assert_eq!(bare_numbers(text), Ok(None), "{text:?}");
        }
        for (text, place) in [
            ("4\n4 x", "2:3"),
            ("-4", "1:1"),
            ("1,000", "1:1"),
            ("#N/A\n4", "1:1"),
            ("4\t#N/A\t3", "1:3"),
            ("\"4 5", "1:5"),
        ] {
            let fault = bare_numbers(text).unwrap_err();
            assert_eq!(format!("{}:{}", fault.line, fault.column), place, "{text:?}");
        }
    }
}
