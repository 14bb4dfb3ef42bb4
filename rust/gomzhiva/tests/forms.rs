//! A request in all its forms: texts and tables in every dress, word files, and what mutated ones come to.

mod common;

use common::{bounded_text, check, request_text, Folder};
use energy::{
    Energy, Figures, Refusal, MAX_BOUND, MAX_CAPACITY, MAX_FILE_BYTES, MAX_FRAMES, MAX_HARVEST, NO_UPPER_END,
};
use evidence::lists::Lists;
use evidence::reference::Reference;
use proptest::collection::vec;
use proptest::prelude::*;
use proptest::sample::{select, Index};

/// A request, the refused ones among them.
#[derive(Clone, Debug)]
struct Request {
    figures: Figures,
    lists: Lists,
}

impl Request {
    /// As `text` prints it.
    fn text(&self) -> String {
        bounded_text(self.figures, self.lists.frames())
    }

    /// The word file that the independent implementation writes, or its refusal.
    fn words(&self) -> Result<Vec<u8>, Refusal> {
        let mut file = vec![0; MAX_FILE_BYTES];
        let length = Reference.write(self.figures, self.lists.frames(), &mut file)?;
        file.truncate(length);
        Ok(file)
    }
}

fn requests() -> impl Strategy<Value = Request> {
    let figure = || prop_oneof![9 => 0..100u32, 1 => select(vec![MAX_CAPACITY, MAX_CAPACITY + 1, u32::MAX])];
    let harvest = prop_oneof![20 => 0..1000u32, 1 => select(vec![MAX_HARVEST, MAX_HARVEST + 1, u32::MAX])];
    let beyond = || select(vec![MAX_BOUND, MAX_BOUND + 1, u32::MAX]);
    let least = prop_oneof![20 => Just(0), 20 => 0..1000u32, 1 => beyond()];
    let most = prop_oneof![20 => Just(NO_UPPER_END), 20 => 0..2000u32, 1 => beyond()];
    let frames = vec((harvest, least, most), 0..30);
    let kept = any::<[bool; 2]>();
    (figure(), figure(), figure(), frames, kept).prop_map(|(capacity, start, end, frames, [leasts, mosts])| {
        let mut lists = Lists::unbounded(frames.iter().map(|frame| frame.0).collect());
        if leasts {
            lists.least = frames.iter().map(|frame| frame.1).collect();
        }
        if mosts {
            lists.most = frames.iter().map(|frame| frame.2).collect();
        }
        let figures = Figures { capacity, start, end };
        Request { figures, lists }
    })
}

/// How a request is written down.
#[derive(Clone, Debug)]
struct Dress {
    order: Vec<usize>,
    columns: Vec<&'static str>,
    separator: &'static str,
    line_end: &'static str,
    ends: bool,
    mark: bool,
    quoted: bool,
    capitals: bool,
    comments: bool,
    surplus: usize,
    /// The number of the first frame, and its quarter hour of the day where there are clock times and not words for people.
    first: u32,
    quarter: Option<usize>,
    /// How a bound that a frame does not have is written: as a dash, as nothing or as its number, by the frame's number.
    absent: [Absent; 3],
}

#[derive(Clone, Copy, Debug, PartialEq, Eq)]
enum Absent {
    Dash,
    Nothing,
    Number,
}

fn dresses() -> impl Strategy<Value = Dress> {
    let columns = vec![
        "harvest", "least", "most", "budget", "frame", "time", "charge", "use", "loss",
    ];
    let separators = vec![" ", "\t", "   ", ",", ";", " , ", "; "];
    let absent = || select(vec![Absent::Dash, Absent::Nothing, Absent::Number]);
    (
        Just(vec![0, 1, 2]).prop_shuffle(),
        (Just(columns).prop_shuffle(), 1..=9usize),
        select(separators),
        select(vec!["\n", "\r\n", "\r"]),
        any::<[bool; 5]>(),
        0..3usize,
        (0..1000u32, proptest::option::of(0..96usize)),
        [absent(), absent(), absent()],
    )
        .prop_map(
            |(order, (mut columns, width), separator, line_end, choices, surplus, (first, quarter), absent)| {
                let [ends, mark, quoted, capitals, comments] = choices;
                columns.truncate(width);
                if !columns.contains(&"harvest") {
                    columns[0] = "harvest";
                }
                Dress {
                    order,
                    columns,
                    separator,
                    line_end,
                    ends,
                    mark,
                    quoted,
                    capitals,
                    comments,
                    surplus,
                    first,
                    quarter,
                    absent,
                }
            },
        )
}

impl Dress {
    /// The same with a column for each list that the request has.
    fn of(mut self, request: &Request) -> Dress {
        let Lists { least, most, .. } = &request.lists;
        let bounded = [
            ("least", least.iter().any(|&least| least > 0)),
            ("most", most.iter().any(|&most| most < NO_UPPER_END)),
        ];
        for (name, is_bounded) in bounded {
            if is_bounded && !self.columns.contains(&name) {
                self.columns.push(name);
            }
        }
        self
    }

    fn is_parted_by_blanks(&self) -> bool {
        self.separator.trim_matches(' ').is_empty() || (self.separator == "\t" && self.columns.len() == 1)
    }

    /// The request as this text.
    fn write(&self, request: &Request) -> String {
        self.write_with(request, None)
    }

    /// The same with another cell in a frame and column.
    fn write_with(&self, request: &Request, other: Option<(usize, &str, &str)>) -> String {
        let Figures { capacity, start, end } = request.figures;
        let figures = [("capacity", capacity), ("start", start), ("end", end)];
        let mut lines = Vec::new();
        for &i in &self.order {
            let (name, value) = figures[i];
            lines.push(self.line(&[self.name(name), value.to_string()]));
        }
        let names: Vec<String> = self.columns.iter().map(|name| self.name(name)).collect();
        lines.push(self.line(&names));
        for i in 0..request.lists.count() {
            let cell = |name: &&str| match other {
                Some((frame, column, cell)) if frame == i && column == *name => cell.to_string(),
                _ => self.cell(name, i, &request.lists),
            };
            lines.push(self.line(&self.columns.iter().map(cell).collect::<Vec<_>>()));
        }
        if self.comments {
            lines.insert(0, "# a day, \"noon; 5".to_string());
            lines.push(String::new());
        }
        let mark = if self.mark { "\u{feff}" } else { "" };
        let end = if self.ends { self.line_end } else { "" };
        format!("{mark}{}{end}", lines.join(self.line_end))
    }

    fn name(&self, name: &str) -> String {
        if self.capitals {
            name.to_uppercase()
        } else {
            name.to_string()
        }
    }

    /// A frame's cell: cells that are not read may hold anything, blanks too where these do not part them.
    fn cell(&self, column: &str, i: usize, lists: &Lists) -> String {
        let is_one_word = self.separator.trim().is_empty() && !self.quoted;
        let words = if is_one_word { "noon" } else { "about noon" };
        match column {
            "harvest" => lists.harvest[i].to_string(),
            "least" => self.bound(i, lists.least[i], 0),
            "most" => self.bound(i, lists.most[i], NO_UPPER_END),
            "budget" => i.to_string(),
            "frame" => (self.first + i as u32).to_string(),
            "time" => self.time(i).unwrap_or_else(|| words.to_string()),
            _ => "-3".to_string(),
        }
    }

    /// The clock time of a frame, if it has one.
    fn time(&self, i: usize) -> Option<String> {
        let quarter = (self.quarter? + i) % 96;
        Some(format!("{:02}:{:02}", quarter / 4, quarter % 4 * 15))
    }

    /// The request as `text` prints it from this dress: with the clock times that it shows.
    fn text_of(&self, request: &Request) -> String {
        let is_timed = self.columns.contains(&"time") && self.quarter.is_some() && request.lists.count() > 0;
        let text = request.text();
        if !is_timed {
            return text;
        }
        let (figures, table) = text.split_once("harvest").expect("a table");
        let rows = table.lines().skip(1).enumerate();
        let row = |(i, row): (usize, &str)| format!("{} {row}\n", self.time(i).unwrap_or_default());
        let names = table.lines().next().unwrap_or_default();
        format!("{figures}time harvest{names}\n{}", rows.map(row).collect::<String>())
    }

    /// A bound's cell: one that a frame does not have in each way that there is.
    fn bound(&self, i: usize, listed: u32, none: u32) -> String {
        match self.absent[i % 3] {
            _ if listed != none => listed.to_string(),
            Absent::Dash => "-".to_string(),
            Absent::Nothing if self.is_parted_by_blanks() && !self.quoted => "-".to_string(),
            Absent::Nothing => String::new(),
            Absent::Number => listed.to_string(),
        }
    }

    fn line(&self, cells: &[String]) -> String {
        let quoted = |cell: &String| format!("\"{cell}\"");
        let cells: Vec<String> = if self.quoted {
            cells.iter().map(quoted).collect()
        } else {
            cells.to_vec()
        };
        let comment = if self.comments { " # noon, or 5" } else { "" };
        cells.join(self.separator) + &self.separator.repeat(self.surplus) + comment
    }
}

#[test]
fn a_request_is_the_same_in_every_dress() {
    check(400, (requests(), dresses()), |(request, dress)| {
        let folder = Folder::new();
        let dress = dress.of(&request);
        let written = dress.write(&request);
        let text = folder.run_with(&["text", "-"], written.as_bytes());
        prop_assert_eq!(
            (text.status, text.text(), text.err),
            (Some(0), dress.text_of(&request), String::new())
        );
        let words = folder.run_with(&["words", "-"], written.as_bytes());
        prop_assert_eq!(words.status, Some(i32::from(request.words().is_err())));
        prop_assert_eq!(words.out, request.words().unwrap_or_default());
        Ok(())
    });
}

#[test]
fn text_after_words_is_the_same_request() {
    check(200, requests(), |request| {
        let folder = Folder::new();
        let words = folder.run_with(&["words", "-"], request.text().as_bytes());
        match request.words() {
            Ok(file) => {
                prop_assert_eq!(&words.out, &file);
                let text = folder.run_with(&["text", "-"], &words.out);
                prop_assert_eq!(text.text(), request.text());
                prop_assert_eq!(folder.run_with(&["words", "-"], &text.out).out, file);
            }
            Err(refusal) => {
                prop_assert_eq!(words.status, Some(1));
                prop_assert!(
                    words.err.starts_with(&format!("gomzhiva: {}: ", refusal.line())),
                    "{}",
                    words.err
                );
            }
        }
        Ok(())
    });
}

/// What spreadsheets and people write where there is no whole number of 32 bits. In a bound's cell nothing means none.
const NO_NUMBERS: [&str; 14] = [
    "",
    "--",
    "#N/A",
    "###",
    "#REF!",
    "1,000",
    "1 000",
    "1.5",
    "1,5",
    "-3",
    "+3",
    "1e3",
    "six",
    "4294967296",
];

#[test]
fn a_cell_that_is_no_number_is_a_fault_in_every_dress() {
    let columns = select(vec!["harvest", "harvest", "least", "most"]);
    let cases = (
        requests(),
        dresses(),
        any::<Index>(),
        columns,
        select(NO_NUMBERS.to_vec()),
    );
    check(900, cases, |(request, dress, frame, column, other)| {
        let dress = dress.of(&request);
        prop_assume!(request.lists.count() > 0 && dress.columns.contains(&column));
        // A line without any cell that is filled is no frame, and a bound's cell may be empty.
        let is_filled = |name: &&str| !["harvest", "least", "most"].contains(name);
        prop_assume!(!other.is_empty() || (column == "harvest" && dress.columns.iter().any(is_filled)));
        let frame = frame.index(request.lists.count());
        let text = dress.write_with(&request, Some((frame, column, other)));
        let ran = Folder::new().run_with(&["text", "-"], text.as_bytes());
        prop_assert_eq!((ran.status, ran.text()), (Some(2), String::new()), "{}", text);
        let lines = text.split(dress.line_end).collect::<Vec<_>>();
        let last = lines.iter().rposition(|line| !line.is_empty()).unwrap_or_default();
        let expected = last - (request.lists.count() - 1 - frame) + 1;
        let (line, _) = place_of(&ran.err).unwrap_or_default();
        prop_assert_eq!(line, expected, "{}", ran.err);
        Ok(())
    });
}

/// A change of some bytes: what is cut out at a place, and what is put there.
#[derive(Clone, Debug)]
struct Change {
    place: Index,
    cut: usize,
    put: Vec<u8>,
}

fn changes() -> impl Strategy<Value = Vec<Change>> {
    let bytes = select(b"0123456789 ,;\"#\n\r\tx-+.e\xff\xc3".to_vec());
    let change = (any::<Index>(), 0..4usize, vec(bytes, 0..4)).prop_map(|(place, cut, put)| Change { place, cut, put });
    vec(change, 1..4)
}

fn changed(bytes: &[u8], changes: &[Change]) -> Vec<u8> {
    let mut bytes = bytes.to_vec();
    for Change { place, cut, put } in changes {
        let from = place.index(bytes.len() + 1);
        let to = bytes.len().min(from + cut);
        bytes.splice(from..to, put.iter().copied());
    }
    bytes
}

/// The place in a fault's message: `standard input:3:5: .. is expected, found ..`.
fn place_of(message: &str) -> Option<(usize, usize)> {
    let mut parts = message.strip_prefix("standard input:")?.splitn(3, ':');
    let line = parts.next()?.parse().ok()?;
    let at = parts.next()?.parse().ok()?;
    let rest = parts.next()?;
    (rest.contains(" is expected, found ") && rest.ends_with('\n')).then(|| (line, at))
}

/// The numbers that a text can mean: its runs of digits.
fn numbers(text: &str) -> Vec<u64> {
    let runs = text.split(|c: char| !c.is_ascii_digit());
    runs.filter_map(|run| run.parse().ok()).collect()
}

/// How many frames a text has if it is a request: the lines behind the names of its columns that are neither empty nor comments.
fn frames(text: &str) -> usize {
    let lines = text.lines().map(|line| line.trim_matches(|c| " \t,;\"".contains(c)));
    let rows = lines
        .skip_while(|line| !line.to_lowercase().contains("harvest"))
        .skip(1);
    let is_comment = |line: &str| line == "#" || line.starts_with("# ") || line.starts_with("#\t");
    rows.filter(|line| !line.is_empty() && !is_comment(line)).count()
}

#[test]
fn a_changed_text_is_another_request_or_a_fault_with_its_place() {
    check(600, (requests(), dresses(), changes()), |(request, dress, changes)| {
        let folder = Folder::new();
        let bytes = changed(dress.of(&request).write(&request).as_bytes(), &changes);
        let ran = folder.run_with(&["text", "-"], &bytes);
        let given = String::from_utf8_lossy(&bytes)
            .replace("\r\n", "\n")
            .replace('\r', "\n");
        match ran.status {
            Some(0) => {
                prop_assert_eq!(&folder.run_with(&["text", "-"], &ran.out).out, &ran.out);
                let text = ran.text();
                let (figures, table) = text.split_once("harvest").unwrap_or_default();
                let is_timed = figures.ends_with("time ");
                let row = |row: &str| match row.split_once(' ') {
                    Some((_, row)) if is_timed => row.to_string(),
                    _ => row.to_string(),
                };
                let rows: Vec<String> = table.lines().skip(1).map(row).collect();
                for column in 0..3 {
                    let mut known = numbers(&given).into_iter();
                    let cells = rows.iter().filter_map(|row| row.split(' ').nth(column));
                    let mut cells = cells.filter_map(|cell| cell.parse::<u64>().ok());
                    prop_assert!(cells.all(|n| known.any(|k| k == n)), "{:?}", text);
                }
                prop_assert_eq!(rows.len(), frames(&given), "no frame is passed over");
            }
            Some(2) => {
                prop_assert!(ran.out.is_empty());
                let lines: Vec<&str> = given.split('\n').collect();
                let (line, at) = place_of(&ran.err).unwrap_or_default();
                prop_assert!((1..=lines.len()).contains(&line), "{}", ran.err);
                prop_assert!((1..=lines[line - 1].chars().count() + 1).contains(&at), "{}", ran.err);
            }
            other => prop_assert!(false, "status {:?}: {}", other, ran.err),
        }
        Ok(())
    });
}

#[test]
fn any_bytes_end_in_an_answer() {
    check(200, vec(any::<u8>(), 0..300), |bytes| {
        let folder = Folder::new();
        for command in ["plan", "needed", "words", "text", "grade"] {
            let ran = folder.run_with(&[command, "-"], &bytes);
            prop_assert!((0..=2).contains(&ran.status.unwrap_or(-1)), "{}: {:?}", command, ran);
        }
        Ok(())
    });
}

#[test]
fn a_changed_word_file_is_what_the_reference_reads() {
    check(200, (requests(), changes()), |(request, changes)| {
        let words = match request.words() {
            Ok(words) => words,
            Err(_) => return Ok(()),
        };
        let file = changed(&words, &changes);
        // Without a control character the bytes are taken for text.
        prop_assume!(file.iter().any(|byte| *byte < 9));
        let [mut harvest, mut least, mut most] = [(); 3].map(|()| vec![0; MAX_FRAMES]);
        let ran = Folder::new().run_with(&["text", "-"], &file);
        match Reference.read(&file, &mut harvest, &mut least, &mut most) {
            Ok(read) => {
                let [harvest, least, most] = [harvest, least, most].map(|list| list[..read.frames].to_vec());
                let (figures, lists) = (read.figures, Lists { harvest, least, most });
                prop_assert_eq!(ran.text(), Request { figures, lists }.text());
            }
            Err(refusal) => {
                prop_assert_eq!(ran.status, Some(1));
                prop_assert!(
                    ran.err.starts_with(&format!("gomzhiva: {}: ", refusal.line())),
                    "{}",
                    ran.err
                );
            }
        }
        Ok(())
    });
}

#[test]
fn the_longest_request_and_one_frame_more() {
    let folder = Folder::new();
    for (frames, status) in [(MAX_FRAMES, 0), (MAX_FRAMES + 1, 1)] {
        let harvest: Vec<u32> = (0..frames as u32).collect();
        let ran = folder.run_with(&["words", "-"], request_text(9, 0, 0, &harvest).as_bytes());
        assert_eq!(ran.status, Some(status), "{}", ran.err);
        let rows: String = harvest.iter().map(|harvest| format!("noon;{harvest}\n")).collect();
        let table = format!("time;harvest\n{rows}");
        let options = ["words", "-", "--capacity", "9", "--start", "0", "--end", "0"];
        assert_eq!(folder.run_with(&options, table.as_bytes()).out, ran.out);
        // With both bounds in every frame a word file is as long as it may be, and one frame more is too long.
        let rows: String = harvest.iter().map(|harvest| format!("{harvest},1,9\n")).collect();
        let full = folder.run_with(&options, format!("harvest,least,most\n{rows}").as_bytes());
        assert_eq!((full.status, full.err), (ran.status, ran.err));
        assert_eq!(full.out.len(), if status == 0 { MAX_FILE_BYTES } else { 0 });
        let again = folder.run_with(&["words", "-"], &full.out);
        assert_eq!(again.out, full.out);
    }
}
