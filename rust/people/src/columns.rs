//! Formats rows in columns, at most as wide as the terminal.

use crate::texts::{cut, padded, width_of};

const BETWEEN: &str = "  ";
/// A width at which nothing is cut.
pub const NOT_CUT: usize = 1_000_000;
pub const LEAST_WIDTH_OF_TEXT: usize = 20;

pub type Row = Vec<String>;

/// Returns the width of each column.
fn natural(rows: &[Row]) -> Vec<usize> {
    let count = rows.first().map_or(0, Vec::len);
    (0..count).map(|place| rows.iter().map(|row| width_of(&row[place])).max().unwrap_or(0)).collect()
}

fn between(widths: &[usize]) -> usize {
    BETWEEN.len() * widths.len().saturating_sub(1)
}

/// Returns how wide the rows are if nothing is cut.
pub fn needed(rows: &[Row]) -> usize {
    let widths = natural(rows);
    widths.iter().sum::<usize>() + between(&widths)
}

/// Formats rows in columns. The last `numbers` columns are numbers. If the lines are too wide, the
/// widest columns are cut to the same width. A line is made when it is printed, since all of them may
/// take much memory.
pub fn columns(rows: &[Row], width: usize, numbers: usize) -> impl Iterator<Item = String> + '_ {
    let natural = natural(rows);
    let room = width.saturating_sub(between(&natural));
    let most = fitted(&natural, room);
    let widths: Vec<usize> = natural.iter().map(|width| *width.min(&most)).collect();
    rows.iter().map(move |row| cut(&line_of(row, &widths, numbers), width))
}

/// Returns the greatest width, at least 1, to which all columns can be cut so that they fit.
fn fitted(widths: &[usize], room: usize) -> usize {
    let mut most = widths.iter().copied().max().unwrap_or(0);
    while most > 1 && widths.iter().map(|width| *width.min(&most)).sum::<usize>() > room {
        most -= 1;
    }
    most
}

/// Returns a row as a line. Texts are aligned to the left, and numbers to the right.
fn line_of(row: &[String], widths: &[usize], numbers: usize) -> String {
    let first = row.len() - numbers;
    let parts = row.iter().zip(widths).enumerate().map(|(place, (text, width))| {
        let part = cut(text, *width);
        if place < first {
            padded(&part, *width)
        } else {
            format!("{part:>width$}", width = *width)
        }
    });
    parts.collect::<Vec<_>>().join(BETWEEN)
}
