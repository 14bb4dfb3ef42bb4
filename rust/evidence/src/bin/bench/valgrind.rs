//! This program run by itself under a tool of valgrind, where it plays some calls.

use crate::beside::Beside;
use energy::MAX_FRAMES;
use std::collections::HashMap;
use std::io::{BufRead, BufReader, Read};
use std::process::{Command, Stdio};

/// The argument of the run under valgrind; what is played follows it.
pub const PLAY: &str = "--play";

/// Has the C library clear a list by stores, not by one repeated instruction that callgrind counts once for each byte.
const LISTS_BY_WORDS: &str = "glibc.cpu.x86_rep_stosb_threshold=1000000";

/// Where a list begins whose loads are told: at a multiple of this, and no further than so many bytes.
pub const BEGIN: usize = 1 << 16;
const BYTES: u64 = 4 * MAX_FRAMES as u64;

/// A tool of valgrind over a play by this program.
fn tool(name: &str, options: &[String], play: &str, beside: Option<&Beside>) -> Result<Command, String> {
    let program = std::env::current_exe().map_err(|error| error.to_string())?;
    let mut command = Command::new("valgrind");
    command.arg(format!("--tool={name}")).args(options);
    command.env("GLIBC_TUNABLES", LISTS_BY_WORDS);
    command.arg(program).args([PLAY, play]);
    if let Some(beside) = beside {
        command.arg("--beside").arg(&beside.path);
    }
    Ok(command)
}

/// What is said where a run comes to nothing.
fn fault(reason: impl std::fmt::Display) -> String {
    format!("nothing is counted: valgrind (Debian: valgrind): {reason}")
}

/// What callgrind counted in one call: in all, and in each function by itself.
#[derive(Debug, Default, PartialEq)]
pub struct Part {
    pub total: u64,
    pub of_functions: Vec<(String, u64)>,
}

impl Part {
    /// What a function took by itself.
    pub fn of_function(&self, function: &str) -> u64 {
        let found = self.of_functions.iter().find(|(name, _)| name == function);
        found.map_or(0, |(_, count)| *count)
    }

    fn add(&mut self, function: &str, count: u64) {
        match self.of_functions.iter_mut().find(|(name, _)| name == function) {
            Some((_, sum)) => *sum += count,
            None => self.of_functions.push((function.to_string(), count)),
        }
    }
}

/// The parts of callgrind's output, one for each call; the last part there is the empty one at the program's end. A
/// function has its name where its number first occurs; a line behind `calls` has what the called function took.
fn parts(text: &str) -> Vec<Part> {
    let (mut parts, mut part) = (Vec::new(), Part::default());
    let (mut names, mut function, mut is_called) = (HashMap::new(), String::new(), false);
    for line in text.lines() {
        let numbered = line.strip_prefix("fn=").or_else(|| line.strip_prefix("cfn="));
        if let Some((number, name)) = numbered.and_then(|numbered| numbered.split_once(')')) {
            if !name.is_empty() {
                names.insert(number.to_string(), name.trim().to_string());
            }
            if line.starts_with("fn=") {
                function = names.get(number).cloned().unwrap_or_default();
            }
        } else if let Some(total) = line.strip_prefix("totals: ") {
            part.total = total.trim().parse().unwrap_or_default();
            parts.push(std::mem::take(&mut part));
        } else if line.starts_with("calls=") {
            is_called = true;
        } else if let Some(count) = counted(line) {
            if !std::mem::take(&mut is_called) {
                part.add(&function, count);
            }
        }
    }
    parts.pop();
    parts
}

/// The count of a line of positions and costs.
fn counted(line: &str) -> Option<u64> {
    let is_position = |c: char| c.is_ascii_digit() || "+-*".contains(c);
    let (_, count) = line.split_once(' ').filter(|_| line.starts_with(is_position))?;
    count.parse().ok()
}

/// The instructions of every call of a function that is played, in their order, by callgrind; so many are expected. One
/// function in a run: of two whose names begin alike, callgrind's own list of names loses one.
pub fn instructions(function: &str, play: &str, beside: Option<&Beside>, expected: usize) -> Result<Vec<Part>, String> {
    let file = std::env::temp_dir().join(format!("bench.{}.callgrind", std::process::id()));
    let options = [
        "--combine-dumps=yes".to_string(),
        format!("--callgrind-out-file={}", file.display()),
        format!("--toggle-collect={function}"),
        format!("--dump-after={function}"),
    ];
    let mut command = tool("callgrind", &options, play, beside)?;
    let status = command.stdout(Stdio::null()).stderr(Stdio::null()).status();
    let text = std::fs::read_to_string(&file).unwrap_or_default();
    let _ = std::fs::remove_file(&file);
    let status = status.map_err(fault)?;
    if !status.success() {
        return Err(fault(status));
    }
    let parts = parts(&text);
    if parts.len() != expected {
        return Err(fault(format!("{} calls of {function}, not {expected}", parts.len())));
    }
    Ok(parts)
}

/// An access to memory in lackey's trace: where, and how many bytes.
#[derive(Clone, Copy, Debug, PartialEq)]
enum Access {
    Load(u64, u64),
    Store(u64, u64),
}

impl Access {
    /// What a line tells, if it is no instruction's.
    fn of_line(line: &str) -> Option<Access> {
        let access = match line.get(..3)? {
            " L " | " M " => Access::Load,
            " S " => Access::Store,
            _ => return None,
        };
        let (place, bytes) = line[3..].split_once(',')?;
        let place = u64::from_str_radix(place, 16).ok()?;
        Some(access(place, bytes.trim().parse().ok()?))
    }
}

/// How often entries of lists were loaded since something was last stored there, by their places.
#[derive(Default)]
pub struct Loads(HashMap<u64, u64>);

impl FromIterator<(u64, u64)> for Loads {
    fn from_iter<I: IntoIterator<Item = (u64, u64)>>(entries: I) -> Loads {
        Loads(entries.into_iter().collect())
    }
}

impl Loads {
    /// The entries of lists among some bytes.
    fn entries(place: u64, bytes: u64) -> impl Iterator<Item = u64> {
        let first = place - place % 4;
        let is_told = |entry: &u64| entry % (BEGIN as u64) < BYTES;
        (first..place + bytes).step_by(4).filter(is_told)
    }

    fn note(&mut self, access: Access) {
        match access {
            Access::Load(place, bytes) => {
                for entry in Loads::entries(place, bytes) {
                    *self.0.entry(entry).or_default() += 1;
                }
            }
            Access::Store(place, bytes) => {
                for entry in Loads::entries(place, bytes) {
                    self.0.remove(&entry);
                }
            }
        }
    }

    /// How often each entry of a list was loaded.
    pub fn of_list(&self, begin: u64, entries: usize) -> Vec<u64> {
        let places = (0..entries as u64).map(|i| begin + 4 * i);
        places
            .map(|place| self.0.get(&place).copied().unwrap_or_default())
            .collect()
    }
}

/// The loads of a play, by lackey, and what it prints.
pub fn loads(play: &str) -> Result<(Loads, String), String> {
    let mut command = tool("lackey", &["--trace-mem=yes".to_string()], play, None)?;
    let run = command.stdout(Stdio::piped()).stderr(Stdio::piped()).spawn();
    let mut run = run.map_err(fault)?;
    let (mut printed, mut loads) = (String::new(), Loads::default());
    if let Some(trace) = run.stderr.take() {
        let lines = BufReader::new(trace).lines().map_while(Result::ok);
        lines
            .filter_map(|line| Access::of_line(&line))
            .for_each(|access| loads.note(access));
    }
    if let Some(mut stdout) = run.stdout.take() {
        stdout.read_to_string(&mut printed).map_err(fault)?;
    }
    let status = run.wait().map_err(fault)?;
    if !status.success() {
        return Err(fault(status));
    }
    Ok((loads, printed))
}

#[cfg(test)]
mod tests {
    use super::*;

    #[test]
    fn loads_and_stores_have_their_place() {
        let told = |line| Access::of_line(line);
        assert_eq!(told(" L 1ffeffe7e0,8"), Some(Access::Load(0x1f_feff_e7e0, 8)));
        assert_eq!(told(" M 00001000,16"), Some(Access::Load(0x1000, 16)));
        assert_eq!(told(" S 1ffeffe7e0,8"), Some(Access::Store(0x1f_feff_e7e0, 8)));
    }

    #[test]
    fn other_lines_tell_nothing() {
        for line in ["", "I  04001f20,3", "==12== Lackey, an example tool", " L elsewhere"] {
            assert_eq!(Access::of_line(line), None, "{line}");
        }
    }

    #[test]
    fn loads_are_those_of_each_entry_after_its_last_store() {
        let (mut loads, begin) = (Loads::default(), 3 * BEGIN as u64);
        loads.note(Access::Load(begin, 16));
        loads.note(Access::Store(begin, 8));
        loads.note(Access::Load(begin + 4, 8));
        loads.note(Access::Load(begin + 13, 1));
        loads.note(Access::Load(begin + BYTES, 4));
        assert_eq!(loads.of_list(begin, 5), [0, 1, 2, 2, 0]);
        assert_eq!(loads.of_list(begin + BYTES, 1), [0]);
    }

    #[test]
    fn parts_have_their_own_costs_by_function() {
        let text = "fn=(1) energy_plan\n16 80\ncfn=(2) curve::levels::curve_levels\ncalls=1 0\n+3 900\n+1 2\n\n\
                    fn=(2)\n0 900\n\ntotals: 982\nfn=(1)\n16 7\n\ntotals: 7\ntotals: 0\n";
        let plan = ("energy_plan".to_string(), 82);
        let curve = ("curve::levels::curve_levels".to_string(), 900);
        let first = Part {
            total: 982,
            of_functions: vec![plan, curve],
        };
        let second = Part {
            total: 7,
            of_functions: vec![("energy_plan".to_string(), 7)],
        };
        assert_eq!(parts(text), [first, second]);
    }
}
