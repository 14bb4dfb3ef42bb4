//! The lines of a journal: a call, then ` *` and the CRC-32 of everything in the file before it, so that a changed, lost or
//! moved line is noticed. What stands behind the last line end may be whole, torn while it was written, or damaged.

use crc32fast::Hasher;

/// The checksum of a journal's lines so far.
#[derive(Clone, Debug, Default)]
pub struct Seal(Hasher);

/// The bytes of ` *` and the checksum behind a call.
const CLOSING: usize = 10;

impl Seal {
    /// The line of a call, and the seal after it.
    pub fn close(&self, call: &str) -> (String, Seal) {
        let mut hasher = self.0.clone();
        hasher.update(call.as_bytes());
        let line = format!("{call} *{:08x}\n", hasher.clone().finalize());
        hasher.update(&line.as_bytes()[call.len()..]);
        (line, Seal(hasher))
    }

    /// The call of a whole line, and the seal after it; none if this line cannot stand here. The line end may be missing, as
    /// an editor or a crash leaves a last line.
    pub fn open<'a>(&self, line: &'a [u8]) -> Option<(&'a str, Seal)> {
        let sealed = match line.strip_suffix(b"\n") {
            Some(sealed) => sealed,
            None => written(line),
        };
        let call = sealed.get(..sealed.len().checked_sub(CLOSING)?)?;
        let call = std::str::from_utf8(call).ok()?;
        let (expected, seal) = self.close(call);
        (&expected.as_bytes()[..expected.len() - 1] == sealed).then_some((call, seal))
    }

    /// The call, or its beginning, of a line that was not written whole; none if these bytes are no beginning of a line here.
    pub fn torn<'a>(&self, tail: &'a [u8]) -> Option<&'a str> {
        let tail = std::str::from_utf8(written(tail)).ok()?;
        match tail.split_once('*') {
            None => Some(tail),
            Some((call, _)) => {
                let call = call.strip_suffix(' ')?;
                self.close(call).0.starts_with(tail).then_some(call)
            }
        }
    }
}

/// The bytes of a line that were written: a system that went down may have left zero bytes in place of the rest.
pub fn written(line: &[u8]) -> &[u8] {
    let length = line.iter().rposition(|&b| b != 0).map_or(0, |last| last + 1);
    &line[..length]
}

#[cfg(test)]
mod tests {
    use super::*;

    const CALLS: [&str; 3] = ["start capacity 5", "record 1 3", "record 1 3"];

    fn journal() -> Vec<(String, Seal)> {
        let mut seal = Seal::default();
        let mut lines = Vec::new();
        for call in CALLS {
            let (line, next) = seal.close(call);
            lines.push((line, seal));
            seal = next;
        }
        lines
    }

    #[test]
    fn lines_open_where_they_were_closed() {
        for ((line, seal), call) in journal().iter().zip(CALLS) {
            for line in [line.clone(), line.replace('\n', ""), line.replace('\n', "\0\0")] {
                assert_eq!(seal.open(line.as_bytes()).map(|(call, _)| call), Some(call), "{line:?}");
            }
        }
        let lines = journal();
        assert!(
            lines[1].1.open(lines[2].0.as_bytes()).is_none(),
            "a line in another's place"
        );
    }

    #[test]
    fn every_changed_byte_is_noticed() {
        for (line, seal) in journal() {
            for i in 0..line.len() {
                for byte in 1..=255 {
                    let mut changed = line.clone().into_bytes();
                    if changed[i] == byte {
                        continue;
                    }
                    changed[i] = byte;
                    assert!(seal.open(&changed).is_none(), "byte {i} of {line:?}");
                }
            }
        }
    }

    #[test]
    fn the_beginning_of_a_line_is_torn_and_nothing_else() {
        for ((line, seal), call) in journal().iter().zip(CALLS) {
            for length in 0..line.len() {
                let mut tail = line.as_bytes()[..length].to_vec();
                let begun = seal.torn(&tail).expect("a beginning").to_string();
                assert!(
                    begun.trim_end() == call || call.starts_with(&begun),
                    "{length} bytes of {line:?}"
                );
                tail.extend([0; 5]);
                assert_eq!(
                    seal.torn(&tail),
                    Some(begun.as_str()),
                    "{length} bytes of {line:?} and zeros"
                );
            }
            for change in (1..=255).filter(|&change| change != b'\n') {
                let mut changed = line.clone().into_bytes();
                *changed.last_mut().unwrap() ^= change;
                assert_eq!(seal.torn(&changed), None, "the line end changed by {change}");
            }
        }
        assert_eq!(Seal::default().torn(b"\xff"), None);
    }
}
