//! Names as messages print them: what would steer the terminal, or turn the text around it, is escaped.

use std::ffi::OsString;
use std::path::Path;

/// The name of a file.
pub fn printed(path: &Path) -> String {
    escaped(&path.to_string_lossy())
}

/// A text with its control characters escaped; every other one stays.
pub fn escaped(text: &str) -> String {
    let mut escaped = String::new();
    for letter in text.chars() {
        if steers(letter) {
            escaped.extend(letter.escape_default());
        } else {
            escaped.push(letter);
        }
    }
    escaped
}

/// An argument that a usage error may repeat.
pub fn escaped_argument(argument: OsString) -> OsString {
    let text = argument.to_string_lossy();
    if text.chars().any(steers) {
        escaped(&text).into()
    } else {
        argument
    }
}

/// A control character, a parting of lines or paragraphs, or a mark of the direction of text.
fn steers(letter: char) -> bool {
    letter.is_control()
        || matches!(letter, '\u{61c}' | '\u{200e}' | '\u{200f}' | '\u{2028}'..='\u{202e}' | '\u{2066}'..='\u{2069}')
}

#[cfg(test)]
mod tests {
    use super::*;
    use std::os::unix::ffi::OsStringExt;

    #[test]
    fn control_characters_are_escaped_and_others_stay() {
        for (name, as_printed) in [
            ("a\nb\r\t\0", "a\\nb\\r\\t\\u{0}"),
            ("\u{1b}[31m\u{7f}\u{9b}", "\\u{1b}[31m\\u{7f}\\u{9b}"),
            (
                "\u{202e}txt.\u{2066}\u{200f}\u{61c}",
                "\\u{202e}txt.\\u{2066}\\u{200f}\\u{61c}",
            ),
            ("\u{2028}\u{2029}", "\\u{2028}\\u{2029}"),
        ] {
            assert_eq!(printed(Path::new(name)), as_printed);
        }
        // An umlaut in one letter and in two, and an emoji of three characters that a joiner makes one.
        for name in [
            "Fr\u{fc}h",
            "Fru\u{308}h",
            "'a' \"b\" \\n \\",
            "計画",
            "👩\u{200d}🌾",
            "",
        ] {
            assert_eq!(printed(Path::new(name)), name);
        }
    }

    #[test]
    fn an_argument_stays_what_it_is_if_nothing_in_it_steers() {
        for bytes in [&b"day.txt"[..], b"\xff\xfe", "Fr\u{fc}h".as_bytes()] {
            let argument = OsString::from_vec(bytes.to_vec());
            assert_eq!(escaped_argument(argument.clone()), argument);
        }
        assert_eq!(escaped_argument("a\nb".into()), "a\\nb");
    }
}
