//! A table as lines of a terminal: figures to the right, words to the left, nothing beyond the terminal's width.

use super::terminal::WIDTH;
use super::{wrapped, Column, Holds, Table};

/// Sentences are not broken into shorter lines than this.
const NARROWEST: usize = 20;

pub fn lines(table: &Table) -> Vec<String> {
    let (widths, gap) = widths(table);
    let heads = table.columns.iter().zip(&widths).map(|(column, width)| wrapped(&column.head, *width)).collect();
    let mut lines = row_lines(table, &on_the_ground(heads), &widths, gap);
    lines.push("-".repeat(total(&widths, gap)));
    for row in &table.rows {
        let cells: Vec<Vec<String>> = row.iter().zip(&widths).map(|(cell, width)| wrapped(cell, *width)).collect();
        lines.extend(row_lines(table, &cells, &widths, gap));
    }
    lines
}

/// Heads of fewer lines than others have theirs just above the figures.
fn on_the_ground(heads: Vec<Vec<String>>) -> Vec<Vec<String>> {
    let height = heads.iter().map(Vec::len).max().unwrap_or_default();
    let raised = |head: Vec<String>| [vec![String::new(); height - head.len()], head].concat();
    heads.into_iter().map(raised).collect()
}

/// The columns' widths and the blanks between them. Where all does not fit, the last column of sentences is broken into
/// lines.
fn widths(table: &Table) -> (Vec<usize>, usize) {
    let of_column = |index: usize| {
        let cells = table.rows.iter().map(|row| row[index].chars().count());
        cells.chain([narrowest(&table.columns[index])]).max().unwrap_or_default()
    };
    let mut widths: Vec<usize> = (0..table.columns.len()).map(of_column).collect();
    let gap = if total(&widths, 2) <= WIDTH { 2 } else { 1 };
    let beyond = total(&widths, gap).saturating_sub(WIDTH);
    if let Some(last) = table.columns.iter().rposition(|column| column.holds == Holds::Sentences) {
        widths[last] = widths[last].saturating_sub(beyond).max(NARROWEST.min(widths[last]));
    }
    (widths, gap)
}

/// The head of figures is broken into lines: their column is as wide as they are.
fn narrowest(column: &Column) -> usize {
    match column.holds {
        Holds::Words | Holds::Sentences => column.head.chars().count(),
        Holds::Figures => column.head.split(' ').map(|word| word.chars().count()).max().unwrap_or_default(),
    }
}

fn total(widths: &[usize], gap: usize) -> usize {
    widths.iter().sum::<usize>() + gap * widths.len().saturating_sub(1)
}

/// A row is as high as its highest cell.
fn row_lines(table: &Table, cells: &[Vec<String>], widths: &[usize], gap: usize) -> Vec<String> {
    let height = cells.iter().map(Vec::len).max().unwrap_or_default();
    let line = |index: usize| {
        let columns = table.columns.iter().zip(cells).zip(widths);
        let placed: Vec<String> = columns
            .map(|((column, cell), width)| {
                let text = cell.get(index).map(String::as_str).unwrap_or_default();
                match column.holds {
                    Holds::Figures => format!("{text:>width$}"),
                    Holds::Words | Holds::Sentences => format!("{text:<width$}"),
                }
            })
            .collect();
        placed.join(&" ".repeat(gap)).trim_end().to_string()
    };
    (0..height).map(line).collect()
}
