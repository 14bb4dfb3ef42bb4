//! The title of the picture: one line, whatever its length.

use super::{text_style, Drawn, Page};
use plotters::prelude::FontStyle;

const SMALLEST_LETTER: f64 = 70.0;
const LARGEST_LETTER: f64 = 110.0;

pub fn draw(area: &Page<'_>, title: &str) -> Drawn {
    let (line, letter) = fit(title, area.dim_in_pixel().0.into());
    let font = text_style(letter).font.style(FontStyle::Bold);
    area.draw_text(&line, &font.into(), (0, 0))
}

/// The title and the size of its letters: smaller where the title is long, without the middle
/// of the title where it is longer still.
fn fit(title: &str, room: f64) -> (String, f64) {
    let letters: Vec<char> = title.chars().map(printable).collect();
    let width: f64 = letters.iter().copied().map(letter_width).sum();
    let size = (room / width.max(1.0)).clamp(SMALLEST_LETTER, LARGEST_LETTER);
    if width * size <= room {
        return (letters.into_iter().collect(), size);
    }
    let half = (room / size - letter_width('…')) / 2.0;
    let head = fill(letters.iter().copied(), half);
    let tail = fill(letters.iter().rev().copied(), half);
    let line = head.into_iter().chain(['…']).chain(tail.into_iter().rev());
    (line.collect(), size)
}

/// As many letters as the room takes.
fn fill(letters: impl Iterator<Item = char>, room: f64) -> Vec<char> {
    let mut used = 0.0;
    letters
        .take_while(|&letter| {
            used += letter_width(letter);
            used <= room
        })
        .collect()
}

/// XML has no place for control characters, nor for two that are no characters at all.
fn printable(letter: char) -> char {
    match letter {
        '\u{fffe}' | '\u{ffff}' => char::REPLACEMENT_CHARACTER,
        control if control.is_control() => char::REPLACEMENT_CHARACTER,
        other => other,
    }
}

/// The width of a bold letter as a part of its size, rather too much than too little.
fn letter_width(letter: char) -> f64 {
    match letter {
        'W' | 'M' | 'w' | 'm' | '@' | '%' => 1.12,
        'a'..='z' | '0'..='9' | ' ' | ',' | '-' | '.' | '/' | ':' | '_' => 0.72,
        '!'..='~' => 0.88,
        _ => 1.25,
    }
}

#[cfg(test)]
mod tests {
    use super::*;

    #[test]
    fn a_short_title_stays() {
        assert_eq!(
            fit("plan of week 36", 5600.0),
            ("plan of week 36".to_string(), LARGEST_LETTER)
        );
        assert_eq!(fit("", 5600.0), (String::new(), LARGEST_LETTER));
    }

    #[test]
    fn a_long_title_gets_smaller_and_then_loses_its_middle() {
        let (line, letter) = fit(&"x".repeat(80), 5600.0);
        assert_eq!(line.len(), 80);
        assert!((SMALLEST_LETTER..LARGEST_LETTER).contains(&letter));
        let (line, letter) = fit(&format!("head{}tail", "計".repeat(5000)), 5600.0);
        assert!(line.starts_with("head") && line.contains('…') && line.ends_with("tail"));
        let width: f64 = line.chars().map(letter_width).sum();
        assert!(width * letter <= 5600.0);
    }
}
