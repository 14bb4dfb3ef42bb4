//! A case is one call, or one shift with its calls, with everything that it depends on; it prints as text and is read back.

use crate::lists::Lists;
use crate::reference::limits::NO_UPPER_END;
use energy::{Figures, Present, Shift, Terms, Totals};
use std::fmt;
use std::str::FromStr;

/// A call of a shift's list.
#[derive(Clone, Debug, PartialEq, Eq)]
pub enum Call {
    /// The typed harvest and use.
    Record { harvest: u32, used: u32 },
    /// The lists lent, and the length of the budget list.
    Rest { lists: Lists, budgets: usize },
    /// The length of the budget list.
    Part { budgets: usize },
}

/// One case. Lists that are only written are given by their length.
#[derive(Clone, Debug, PartialEq, Eq)]
pub enum Case {
    Plan {
        figures: Figures,
        lists: Lists,
        budgets: usize,
    },
    Needed {
        figures: Figures,
        lists: Lists,
    },
    Trace {
        figures: Figures,
        harvest: Vec<u32>,
        budgets: Vec<u32>,
        charges: usize,
        losses: usize,
    },
    Grade {
        budgets: Vec<u32>,
    },
    /// A shift from its start on, with its list of calls.
    Run {
        figures: Figures,
        lists: Lists,
        calls: Vec<Call>,
    },
    /// One call on any record.
    On {
        shift: Shift,
        call: Call,
    },
    /// The lengths of the lists of harvests, leasts and mosts.
    Read {
        file: Vec<u8>,
        rooms: [usize; 3],
    },
    Write {
        figures: Figures,
        lists: Lists,
        room: usize,
    },
    Listing {
        file: Vec<u8>,
        room: usize,
    },
}

/// A list of numbers as it is printed: `[6 4 0]`.
struct List<'a>(&'a [u32]);

impl fmt::Display for List<'_> {
    fn fmt(&self, f: &mut fmt::Formatter<'_>) -> fmt::Result {
        let words: Vec<String> = self.0.iter().map(u32::to_string).collect();
        write!(f, "[{}]", words.join(" "))
    }
}

/// Three lists as they are printed: `[6 4] [0 2] [3 -]`, with `-` for no upper end.
struct Bounded<'a>(&'a Lists);

impl fmt::Display for Bounded<'_> {
    fn fmt(&self, f: &mut fmt::Formatter<'_>) -> fmt::Result {
        let Lists { harvest, least, most } = self.0;
        let end = |&most: &u32| match most {
            NO_UPPER_END => "-".to_string(),
            most => most.to_string(),
        };
        let mosts: Vec<String> = most.iter().map(end).collect();
        write!(f, "{} {} [{}]", List(harvest), List(least), mosts.join(" "))
    }
}

/// Bytes as they are printed: `x0500`.
struct Hex<'a>(&'a [u8]);

impl fmt::Display for Hex<'_> {
    fn fmt(&self, f: &mut fmt::Formatter<'_>) -> fmt::Result {
        f.write_str("x")?;
        self.0.iter().try_for_each(|byte| write!(f, "{byte:02x}"))
    }
}

/// Figures as they are printed: capacity, start, end.
struct Three<'a>(&'a Figures);

impl fmt::Display for Three<'_> {
    fn fmt(&self, f: &mut fmt::Formatter<'_>) -> fmt::Result {
        let Figures { capacity, start, end } = self.0;
        write!(f, "{capacity} {start} {end}")
    }
}

/// A shift's record as it is printed: its fields in their order.
struct Nine<'a>(&'a Shift);

impl fmt::Display for Nine<'_> {
    fn fmt(&self, f: &mut fmt::Formatter<'_>) -> fmt::Result {
        let Shift { terms, now } = self.0;
        let Terms {
            frames,
            capacity,
            start,
            end,
        } = terms;
        let Present {
            recorded,
            charge,
            totals,
        } = now;
        let Totals { harvested, used, lost } = totals;
        write!(
            f,
            "{frames} {capacity} {start} {end} {recorded} {charge} {harvested} {used} {lost}"
        )
    }
}

impl fmt::Display for Call {
    fn fmt(&self, f: &mut fmt::Formatter<'_>) -> fmt::Result {
        match self {
            Call::Record { harvest, used } => write!(f, "record {harvest} {used}"),
            Call::Rest { lists, budgets } => write!(f, "rest {} {budgets}", Bounded(lists)),
            Call::Part { budgets } => write!(f, "part {budgets}"),
        }
    }
}

impl fmt::Display for Case {
    fn fmt(&self, f: &mut fmt::Formatter<'_>) -> fmt::Result {
        match self {
            Case::Plan {
                figures,
                lists,
                budgets,
            } => write!(f, "plan {} {} {budgets}", Three(figures), Bounded(lists)),
            Case::Needed { figures, lists } => write!(f, "needed {} {}", Three(figures), Bounded(lists)),
            Case::Trace {
                figures,
                harvest,
                budgets,
                charges,
                losses,
            } => write!(
                f,
                "trace {} {} {} {charges} {losses}",
                Three(figures),
                List(harvest),
                List(budgets)
            ),
            Case::Grade { budgets } => write!(f, "grade {}", List(budgets)),
            Case::Run { figures, lists, calls } => {
                write!(f, "run {} {}", Three(figures), Bounded(lists))?;
                calls.iter().try_for_each(|call| write!(f, " {call}"))
            }
            Case::On { shift, call } => write!(f, "on {} {call}", Nine(shift)),
            Case::Read { file, rooms: [h, l, m] } => write!(f, "read {} {h} {l} {m}", Hex(file)),
            Case::Write { figures, lists, room } => write!(f, "write {} {} {room}", Three(figures), Bounded(lists)),
            Case::Listing { file, room } => write!(f, "listing {} {room}", Hex(file)),
        }
    }
}

/// The words of a printed case.
struct Words<'a>(std::iter::Peekable<std::vec::IntoIter<&'a str>>);

impl<'a> Words<'a> {
    /// Brackets are words of their own.
    fn of(text: &'a str) -> Words<'a> {
        let mut words = Vec::new();
        for word in text.split_whitespace() {
            let inner = word.trim_start_matches('[');
            let bare = inner.trim_end_matches(']');
            words.extend(word[..word.len() - inner.len()].split_inclusive('['));
            words.extend(Some(bare).filter(|bare| !bare.is_empty()));
            words.extend(inner[bare.len()..].split_inclusive(']'));
        }
        Words(words.into_iter().peekable())
    }

    fn word(&mut self) -> Result<&'a str, String> {
        self.0.next().ok_or_else(|| "the case ends too early".to_string())
    }

    fn number<T: FromStr>(&mut self) -> Result<T, String> {
        let word = self.word()?;
        word.parse().map_err(|_| format!("not a number that fits: {word}"))
    }

    fn figures(&mut self) -> Result<Figures, String> {
        Ok(Figures {
            capacity: self.number()?,
            start: self.number()?,
            end: self.number()?,
        })
    }

    fn shift(&mut self) -> Result<Shift, String> {
        Ok(Shift {
            terms: Terms {
                frames: self.number()?,
                capacity: self.number()?,
                start: self.number()?,
                end: self.number()?,
            },
            now: Present {
                recorded: self.number()?,
                charge: self.number()?,
                totals: Totals {
                    harvested: self.number()?,
                    used: self.number()?,
                    lost: self.number()?,
                },
            },
        })
    }

    fn list(&mut self) -> Result<Vec<u32>, String> {
        self.entries(|words| words.number())
    }

    fn entries(&mut self, entry: fn(&mut Words<'a>) -> Result<u32, String>) -> Result<Vec<u32>, String> {
        if self.word()? != "[" {
            return Err("a list begins with [".to_string());
        }
        let mut list = Vec::new();
        while self.0.peek().map_or(false, |&word| word != "]") {
            list.push(entry(self)?);
        }
        self.word()?;
        Ok(list)
    }

    fn most(&mut self) -> Result<u32, String> {
        match self.0.next_if_eq(&"-") {
            Some(_) => Ok(NO_UPPER_END),
            None => self.number(),
        }
    }

    fn lists(&mut self) -> Result<Lists, String> {
        Ok(Lists {
            harvest: self.list()?,
            least: self.list()?,
            most: self.entries(Words::most)?,
        })
    }

    fn bytes(&mut self) -> Result<Vec<u8>, String> {
        let word = self.word()?;
        let digits = word.strip_prefix('x').filter(|d| d.len() % 2 == 0 && d.is_ascii());
        let digits = digits.ok_or_else(|| "bytes are x and pairs of digits".to_string())?;
        let pairs = (0..digits.len())
            .step_by(2)
            .map(|i| u8::from_str_radix(&digits[i..i + 2], 16));
        pairs.collect::<Result<_, _>>().map_err(|error| error.to_string())
    }

    fn call(&mut self) -> Result<Call, String> {
        match self.word()? {
            "record" => Ok(Call::Record {
                harvest: self.number()?,
                used: self.number()?,
            }),
            "rest" => Ok(Call::Rest {
                lists: self.lists()?,
                budgets: self.number()?,
            }),
            "part" => Ok(Call::Part {
                budgets: self.number()?,
            }),
            word => Err(format!("not a call: {word}")),
        }
    }

    fn calls(&mut self) -> Result<Vec<Call>, String> {
        let mut calls = Vec::new();
        while self.0.peek().is_some() {
            calls.push(self.call()?);
        }
        Ok(calls)
    }

    fn case(&mut self) -> Result<Case, String> {
        Ok(match self.word()? {
            "plan" => Case::Plan {
                figures: self.figures()?,
                lists: self.lists()?,
                budgets: self.number()?,
            },
            "needed" => Case::Needed {
                figures: self.figures()?,
                lists: self.lists()?,
            },
            "trace" => Case::Trace {
                figures: self.figures()?,
                harvest: self.list()?,
                budgets: self.list()?,
                charges: self.number()?,
                losses: self.number()?,
            },
            "grade" => Case::Grade { budgets: self.list()? },
            "run" => Case::Run {
                figures: self.figures()?,
                lists: self.lists()?,
                calls: self.calls()?,
            },
            "on" => Case::On {
                shift: self.shift()?,
                call: self.call()?,
            },
            "read" => Case::Read {
                file: self.bytes()?,
                rooms: [self.number()?, self.number()?, self.number()?],
            },
            "write" => Case::Write {
                figures: self.figures()?,
                lists: self.lists()?,
                room: self.number()?,
            },
            "listing" => Case::Listing {
                file: self.bytes()?,
                room: self.number()?,
            },
            word => return Err(format!("not a case: {word}")),
        })
    }
}

impl FromStr for Case {
    type Err = String;

    fn from_str(text: &str) -> Result<Case, String> {
        let mut words = Words::of(text);
        let case = words.case()?;
        match words.0.next() {
            Some(word) => Err(format!("more than a case: {word}")),
            None => Ok(case),
        }
    }
}

#[cfg(test)]
mod tests {
    use super::*;

    #[test]
    fn a_printed_case_is_read_back() {
        for text in [
            "plan 5 2 2 [6 4 0 0 5 5] [0 0 0 3 0 0] [3 - - - - 9] 6",
            "needed 5 2 2 [] [1] []",
            "trace 22 2 2 [6 4] [4 4] 2 3",
            "grade [4294967295]",
            "run 5 2 2 [6 4] [0 0] [- -] record 1 3 rest [6 4] [1 2] [7 -] 2 part 2",
            "on 6 5 2 2 0 2 0 0 18446744073709551615 record 1 3",
            "read x0900000000 3 2 1",
            "write 9 0 0 [1 2] [0 4294967295] [- 0] 24",
            "listing x 99",
        ] {
            let case: Case = text.parse().expect(text);
            assert_eq!(case.to_string(), text);
        }
        assert!("plan 5 2 2 [6".parse::<Case>().is_err());
        assert!("needed 5 2 2 [6] [-] [-]".parse::<Case>().is_err());
        assert!("grade [1] 2".parse::<Case>().is_err());
    }
}
