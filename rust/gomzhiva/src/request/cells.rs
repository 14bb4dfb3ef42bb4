//! Lines and their cells: `#` begins a comment, double quotes hold a cell together.

use super::fault::{quoted, Fault, END_OF_LINE};

/// A cell, with its column in the line, counted from 1.
#[derive(Clone, Copy, Debug, PartialEq, Eq)]
pub struct Cell<'a> {
    pub column: usize,
    pub text: &'a str,
}

/// Some cells of a line, and where it stands and ends.
#[derive(Debug)]
pub struct Row<'a> {
    pub line: usize,
    pub end: usize,
    pub cells: Vec<Cell<'a>>,
}

impl<'a> Row<'a> {
    /// What stands in a cell; nothing where it is missing.
    pub fn text(&self, i: usize) -> &'a str {
        self.cells.get(i).map_or("", |cell| cell.text)
    }

    /// The fault of a cell in which something else is expected.
    pub fn unlike(&self, i: usize, expected: &str) -> Fault {
        let (column, found) = match self.cells.get(i) {
            Some(Cell { column, text: "" }) => (*column, "nothing".to_string()),
            Some(Cell { column, text }) => (*column, quoted(text)),
            None => (self.end, END_OF_LINE.to_string()),
        };
        Fault {
            line: self.line,
            column,
            expected: expected.to_string(),
            found,
        }
    }
}

/// A line's place in its text, and what stands in it.
#[derive(Debug)]
pub struct Line<'a> {
    number: usize,
    /// What stands before the comment.
    before: &'a str,
    /// The same without the blanks between it and the comment.
    content: &'a str,
    /// The first word of a comment without a blank behind its `#`: `#noon`, or the `#N/A` of a spreadsheet.
    doubtful: Option<Cell<'a>>,
}

/// What parts the cells of a table.
#[derive(Clone, Copy, Debug, PartialEq, Eq)]
pub enum Separator {
    Character(char),
    Blanks,
}

/// A text without its byte-order mark, and with LF for every line end: CR LF, CR or LF.
pub fn plain(text: &str) -> String {
    let text = text.strip_prefix('\u{feff}').unwrap_or(text);
    text.replace("\r\n", "\n").replace('\r', "\n")
}

/// The lines of a plain text.
pub fn lines(plain: &str) -> impl Iterator<Item = Line<'_>> {
    plain.split('\n').zip(1..).map(|(line, number)| Line::new(number, line))
}

/// How many lines a plain text has; a text without any has one, which is empty.
pub fn count_lines(plain: &str) -> usize {
    plain.split('\n').count()
}

impl<'a> Line<'a> {
    fn new(number: usize, line: &'a str) -> Line<'a> {
        let (before, comment) = line.split_at(comment_in(line));
        let is_doubtful = comment.chars().nth(1).map_or(false, |c| !is_blank(c));
        let word = Cell {
            column: before.chars().count() + 1,
            text: comment.split(separates).next().unwrap_or_default(),
        };
        Line {
            number,
            before,
            content: if comment.is_empty() {
                before
            } else {
                before.trim_end_matches(is_blank)
            },
            doubtful: is_doubtful.then_some(word),
        }
    }

    fn row(&self, cells: Vec<Cell<'a>>) -> Row<'a> {
        Row {
            line: self.number,
            end: self.content.trim_end_matches(is_blank).chars().count() + 1,
            cells,
        }
    }

    /// Nothing stands in it but blanks and a comment.
    pub fn is_blank(&self) -> bool {
        self.content.chars().all(is_blank)
    }

    /// A double quote that is neither the beginning nor the end of a cell, nor one of two in a quoted cell; or the place of
    /// one that is missing. Cells stand between separators of any kind if none is given.
    pub fn stray_quote(&self, separator: Option<Separator>) -> Option<Row<'a>> {
        let quotes = self.content.match_indices('"');
        let stray = quotes.zip([true, false].into_iter().cycle()).find(|((at, _), opens)| {
            let (before, behind) = (&self.content[..*at], &self.content[at + 1..]);
            if *opens {
                !before.ends_with('"') && !ends_cells(before, separator)
            } else {
                !behind.starts_with('"') && !begins_cells(behind, separator)
            }
        });
        if let Some(((at, text), _)) = stray {
            let column = self.content[..at].chars().count() + 1;
            return Some(self.row(vec![Cell { column, text }]));
        }
        let is_open = self.content.matches('"').count() % 2 == 1;
        is_open.then(|| self.row(Vec::new()))
    }

    /// The cells between separators of any kind, however many, that are not empty.
    pub fn words(&self) -> Row<'a> {
        let words = pieces(self.content, separates).into_iter().map(bare);
        self.row(words.filter(|word| !word.text.is_empty()).collect())
    }

    /// What parts the cells of a table with this line of names: semicolons if it has any, else commas, else tabs, else blanks.
    pub fn separator(&self) -> Separator {
        // A tab behind several names is a blank that nobody sees; behind one name it parts it from a column without a name.
        let one = self.words().cells.len() == 1;
        let content = self.content.trim_start_matches(is_blank);
        let content = if one {
            content
        } else {
            content.trim_end_matches(is_blank)
        };
        let has = |&separator: &char| content.contains(unquoted(|c| c == separator));
        [';', ',', '\t']
            .into_iter()
            .find(has)
            .map_or(Separator::Blanks, Separator::Character)
    }

    /// The cells of a table's line; between two characters that part cells there is one, if an empty one.
    pub fn cells(&self, separator: Separator) -> Row<'a> {
        let is_filled = |piece: &Cell| !piece.text.is_empty();
        self.row(match separator {
            Separator::Character(separator) => pieces(self.content, |c| c == separator).into_iter().map(bare).collect(),
            Separator::Blanks => {
                let pieces = pieces(self.content, is_blank).into_iter();
                pieces.filter(is_filled).map(bare).collect()
            }
        })
    }

    /// Characters that part cells, and nothing in these.
    pub fn is_empty_row(&self, separator: Separator) -> bool {
        match separator {
            Separator::Character(character) => {
                let cells = self.cells(separator).cells;
                self.content.contains(character) && cells.iter().all(|cell| cell.text.is_empty())
            }
            Separator::Blanks => false,
        }
    }

    /// A comment that may be meant as a number.
    pub fn doubtful(&self) -> Option<Row<'a>> {
        self.doubtful.map(|word| self.row(vec![word]))
    }

    /// A comment that may be meant as a cell: it stands where one begins.
    pub fn doubtful_cell(&self, separator: Separator) -> Option<Row<'a>> {
        let begins_cell = match separator {
            Separator::Blanks => self.is_blank(),
            Separator::Character(_) => ends_cells(self.before, Some(separator)),
        };
        self.doubtful().filter(|_| begins_cell)
    }
}

/// Whether a cell ends with the beginning of a line, so that another begins behind it.
fn ends_cells(before: &str, separator: Option<Separator>) -> bool {
    match separator {
        Some(Separator::Character(separator)) => {
            let before = before.trim_end_matches(|c| is_blank(c) && c != separator);
            before.is_empty() || before.ends_with(separator)
        }
        _ => before.is_empty() || before.ends_with(separates),
    }
}

/// Whether a cell ends before the rest of a line.
fn begins_cells(behind: &str, separator: Option<Separator>) -> bool {
    match separator {
        Some(Separator::Character(separator)) => {
            let behind = behind.trim_start_matches(|c| is_blank(c) && c != separator);
            behind.is_empty() || behind.starts_with(separator)
        }
        _ => behind.is_empty() || behind.starts_with(separates),
    }
}

/// Where a line's comment begins, or else where the line ends: a `#` at its beginning or behind a blank.
fn comment_in(line: &str) -> usize {
    let mut behind_blank = true;
    let mut is_hash = unquoted(|c| c == '#');
    let begins = line.find(|c| {
        let begins = is_hash(c) && behind_blank;
        behind_blank = is_blank(c);
        begins
    });
    begins.unwrap_or(line.len())
}

/// What stands between separators outside of double quotes, as it stands there.
fn pieces(line: &str, separates: impl Fn(char) -> bool) -> Vec<Cell<'_>> {
    let mut pieces = Vec::new();
    let mut column = 1;
    for text in line.split(unquoted(separates)) {
        pieces.push(Cell { column, text });
        column += text.chars().count() + 1;
    }
    pieces
}

/// A piece without the blanks around it, and the double quotes around its text.
fn bare(piece: Cell<'_>) -> Cell<'_> {
    let blanks = piece.text.chars().take_while(|&c| is_blank(c)).count();
    let text = piece.text.trim_matches(is_blank);
    let inner = text.strip_prefix('"').and_then(|text| text.strip_suffix('"'));
    Cell {
        column: piece.column + blanks,
        text: inner.map_or(text, |inner| inner.trim_matches(is_blank)),
    }
}

/// Looks at a line's characters one after the other: such a one, outside of double quotes.
fn unquoted(is_such: impl Fn(char) -> bool) -> impl FnMut(char) -> bool {
    let mut quoted = false;
    move |c| {
        quoted ^= c == '"';
        !quoted && is_such(c)
    }
}

fn is_blank(c: char) -> bool {
    " \t".contains(c)
}

fn separates(c: char) -> bool {
    is_blank(c) || ",;".contains(c)
}

#[cfg(test)]
mod tests {
    use super::*;
    use Separator::{Blanks, Character};

    fn texts<'a>(row: &Row<'a>) -> Vec<&'a str> {
        row.cells.iter().map(|cell| cell.text).collect()
    }

    /// The cells of a table's line.
    fn parted(line: &str, separator: Separator) -> Vec<&str> {
        texts(&Line::new(1, line).cells(separator))
    }

    #[test]
    fn words_are_parted_by_every_separator() {
        for line in [
            "capacity 5",
            " capacity\t\t5 ",
            "capacity,5",
            "\"capacity\" ; 5;;",
            "capacity 5,,",
            "capacity 5 #Wh",
        ] {
            assert_eq!(texts(&Line::new(1, line).words()), ["capacity", "5"], "{line:?}");
        }
        assert_eq!(texts(&Line::new(1, "capacity 5,000").words()), ["capacity", "5", "000"]);
        assert!(Line::new(1, ",; \t").words().cells.is_empty());
    }

    #[test]
    fn a_tables_first_line_says_what_parts_its_cells() {
        for (line, separator) in [
            ("time;harvest", Character(';')),
            ("time,harvest", Character(',')),
            ("time, harvest;", Character(';')),
            ("time\tharvest", Character('\t')),
            ("time harvest\t# a", Blanks),
            ("harvest\t", Character('\t')),
            ("time harvest\t", Blanks),
            ("\tharvest", Blanks),
            ("\"time, day\" harvest # a; b", Blanks),
            ("harvest", Blanks),
        ] {
            assert_eq!(Line::new(1, line).separator(), separator, "{line:?}");
        }
    }

    #[test]
    fn cells_hold_what_does_not_part_them() {
        assert_eq!(parted("2026-06-21 06:00,6", Character(',')), ["2026-06-21 06:00", "6"]);
        assert_eq!(parted("1,5;6", Character(';')), ["1,5", "6"]);
        assert_eq!(parted("1,5;", Character(';')), ["1,5", ""]);
        assert_eq!(parted("12,30", Character(';')), ["12,30"]);
        assert_eq!(parted("06:00\t\t5\t", Character('\t')), ["06:00", "", "5", ""]);
        assert_eq!(parted("06:00\t5\t# noon", Character('\t')), ["06:00", "5"]);
        assert_eq!(parted("  , 7 ,\"\",", Character(',')), ["", "7", "", ""]);
        assert_eq!(parted(" 06:00 \t \"\" 6", Blanks), ["06:00", "", "6"]);
        assert_eq!(parted("1,5", Blanks), ["1,5"]);
        assert!(parted(" \t ", Blanks).is_empty());
    }

    #[test]
    fn quotes_hold_a_cell_together() {
        assert_eq!(parted("\"harvest\",\"6\"", Character(',')), ["harvest", "6"]);
        assert_eq!(parted("\"1,000\" 2", Blanks), ["1,000", "2"]);
        let line = "\"lot #3; noon\" ; \" 6 \" # none";
        assert_eq!(parted(line, Character(';')), ["lot #3; noon", "6"]);
        let stray_in = |line, separator| {
            let row = Line::new(1, line).stray_quote(separator);
            row.map(|row| row.cells.first().map_or(row.end, |cell| cell.column))
        };
        let stray = |line| stray_in(line, None);
        for (line, column) in [("5\",6,5\",7", 2), ("6 \"7\"8", 5), ("\"06:00,6", 9), ("6\"", 2)] {
            assert_eq!(stray(line), Some(column), "{line:?}");
        }
        assert_eq!(stray_in("a \"b;6;c\" d;7", Some(Character(';'))), Some(3));
        assert_eq!(stray_in("\"b;6\" d;7", Some(Character(';'))), Some(5));
        assert_eq!(stray_in(" \"b;6\" ;\t\"7\"", Some(Character(';'))), None);
        for line in ["6 # 5\"", "\"6\",\"\"", "\"6h5'30\"\"\",7", "\"a \"\"b\"\" c\" 7"] {
            assert_eq!(stray(line), None, "{line:?}");
        }
    }

    #[test]
    fn a_comment_begins_at_the_beginning_or_behind_a_blank() {
        assert_eq!(parted("6 #noon", Blanks), ["6"]);
        assert_eq!(parted("06:00,#N/A", Character(',')), ["06:00", "#N/A"]);
        assert_eq!(parted("lot#3,6 # noon", Character(',')), ["lot#3", "6"]);
    }

    #[test]
    fn a_comment_where_a_cell_begins_is_doubtful_without_a_blank() {
        let doubtful = |line, separator| {
            let row = Line::new(1, line).doubtful_cell(separator);
            row.map(|row| (row.cells[0].column, row.cells[0].text))
        };
        for (line, separator, word) in [
            ("#N/A,06:15", Character(','), (1, "#N/A")),
            ("#,06:15", Character(','), (1, "#")),
            ("06:00, #N/A,3", Character(','), (8, "#N/A")),
            (", #N/A", Character(','), (3, "#N/A")),
            ("06:00\t#N/A", Character('\t'), (7, "#N/A")),
            ("  ###", Blanks, (3, "###")),
        ] {
            assert_eq!(doubtful(line, separator), Some(word), "{line:?}");
        }
        for (line, separator) in [
            ("# noon", Blanks),
            ("#", Blanks),
            ("6 #N/A", Blanks),
            ("06:00,6 #noon", Character(',')),
            ("06:00,6, # noon", Character(',')),
            ("06:00\t6 #noon", Character('\t')),
        ] {
            assert_eq!(doubtful(line, separator), None, "{line:?}");
        }
        assert!(Line::new(1, "4\t#N/A\t3").doubtful().is_some());
    }

    #[test]
    fn columns_count_characters() {
        let columns = |row: Row| -> Vec<usize> { row.cells.iter().map(|cell| cell.column).collect() };
        let line = Line::new(1, "ä, \"b\" ,,c # d");
        assert_eq!(columns(line.cells(Character(','))), [1, 4, 9, 10]);
        assert_eq!(columns(line.words()), [1, 4, 10]);
        assert_eq!(line.words().end, 11);
    }

    #[test]
    fn every_line_end_counts_once() {
        for end in ["\n", "\r\n", "\r"] {
            let text = plain(&["a", "", "b"].join(end));
            let rows: Vec<Row> = lines(&text).map(|line| line.words()).collect();
            assert_eq!((rows[0].line, rows[2].line), (1, 3), "{end:?}");
            assert_eq!((rows.len(), count_lines(&text)), (3, 3), "{end:?}");
        }
    }
}
