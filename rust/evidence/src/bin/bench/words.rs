//! Words that several sections use.

use crate::rows::Figure;

/// Whether a figure is at most an aim's limit.
pub fn verdict(is_met: bool) -> &'static str {
    if is_met {
        "met"
    } else {
        "missed"
    }
}

/// Which half of the rows.
pub fn with_or_without(bounded: bool) -> &'static str {
    if bounded {
        "with bounds"
    } else {
        "without bounds"
    }
}

/// A figure with three digits or more.
pub fn digits(figure: f64) -> String {
    if figure < 0.1 {
        format!("{figure:.3}")
    } else if figure < 10.0 {
        format!("{figure:.2}")
    } else if figure < 100.0 {
        format!("{figure:.1}")
    } else {
        format!("{figure:.0}")
    }
}

/// The row with the greatest of some figures.
pub fn worst(figures: &[Figure]) -> String {
    let worst = figures.iter().max_by(|a, b| a.1.total_cmp(&b.1));
    worst.map_or(String::new(), |(row, figure)| {
        format!(
            "{} {}, {} {}",
            digits(*figure),
            row.family(),
            row.size.name(),
            row.frames
        )
    })
}

/// Figures with their rows, those of a family together.
fn by_family(figures: &[Figure]) -> Vec<(String, Vec<Figure>)> {
    let mut families: Vec<(String, Vec<Figure>)> = Vec::new();
    for figure in figures {
        let name = figure.0.family();
        match families.iter_mut().find(|(other, _)| *other == name) {
            Some((_, same)) => same.push(*figure),
            None => families.push((name, vec![*figure])),
        }
    }
    families
}

/// The least and the greatest of some figures.
fn range(figures: &[Figure]) -> String {
    let least = figures.iter().map(|(_, figure)| *figure).fold(f64::INFINITY, f64::min);
    let most = figures.iter().map(|(_, figure)| *figure).fold(0.0, f64::max);
    format!("{least:.2} to {most:.2}")
}

/// The rows whose figures are above a limit, in one line: one by one, or families of which every row is.
pub fn named(figures: &[Figure], limit: f64) -> String {
    let is_above = |(_, figure): &Figure| limit < *figure;
    let of_row = |(row, figure): &Figure| format!("{} {} {figure:.2}", row.size.name(), row.frames);
    let (mut named, mut whole, mut of_whole) = (Vec::new(), Vec::new(), Vec::new());
    for (name, figures) in by_family(figures) {
        let above: Vec<Figure> = figures.iter().copied().filter(is_above).collect();
        if above.len() == figures.len() {
            whole.push(name);
            of_whole.extend(above);
        } else if !above.is_empty() {
            let rows: Vec<String> = above.iter().map(of_row).collect();
            named.push(format!("{name}: {}", rows.join(", ")));
        }
    }
    if !whole.is_empty() {
        named.push(format!("every row of {}: {}", whole.join("; "), range(&of_whole)));
    }
    named.join("; ")
}
