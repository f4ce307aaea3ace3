//! A table with the times of one call: a row for each kind of input, and a column for each length or
//! encoding.

use crate::codec::{Codec, Flavor, encoding_title};
use crate::timing::Measured;
use std::collections::BTreeSet;

/// The unit of a table's times.
#[derive(Clone, Copy)]
pub enum Unit {
    Gigabytes,
    Nanoseconds,
}

/// A column: inputs of this length in bytes, or calls for this encoding.
#[derive(Clone, Copy, PartialEq, Eq, PartialOrd, Ord)]
pub enum Column {
    Length(usize),
    Encoding(Flavor),
}

impl Column {
    fn title(self) -> String {
        match self {
            Column::Length(length) => grouped(length),
            Column::Encoding(flavor) => encoding_title(flavor).to_string(),
        }
    }
}

/// The measurements of each codec on inputs of one kind.
struct Cell {
    row: String,
    column: Column,
    codecs: Vec<Option<Measured>>,
}

/// The time of this library's call, and how many times as long the fastest other codec takes, if
/// there is one with this call.
#[derive(Clone, Copy)]
pub struct Entry {
    pub seconds: f64,
    pub gigabytes: f64,
    pub ratio: Option<f64>,
}

pub struct Grid<'a> {
    pub heading: String,
    unit: Unit,
    codecs: &'a [Codec],
    cells: Vec<Cell>,
}

impl Grid<'_> {
    pub fn of(codecs: &[Codec], heading: String, unit: Unit) -> Grid<'_> {
        Grid {
            heading,
            unit,
            codecs,
            cells: Vec::new(),
        }
    }

    /// Adds a cell with the measurements of each codec that has the call.
    pub fn add(
        &mut self,
        row: &str,
        column: Column,
        measured: impl Fn(&Codec) -> Result<Option<Measured>, String>,
    ) -> Result<(), String> {
        let codecs = self.codecs.iter().map(measured);
        self.cells.push(Cell {
            row: row.to_string(),
            column,
            codecs: codecs.collect::<Result<_, _>>()?,
        });
        Ok(())
    }

    /// All measurements. The driver passes them to `timing::measure`, which takes their times.
    pub fn measured(&mut self) -> impl Iterator<Item = &mut Measured> {
        let cells = self.cells.iter_mut();
        cells.flat_map(|cell| cell.codecs.iter_mut().flatten())
    }

    /// For each cell of this library, the slowest measurement's time divided by the fastest one's.
    pub fn scatters(&self) -> impl Iterator<Item = f64> {
        let cells = self.cells.iter();
        let measured = cells.flat_map(|cell| cell.codecs.iter().zip(self.codecs));
        let own = measured.filter(|(_, codec)| codec.level.is_some());
        own.filter_map(|(measured, _)| Some(measured.as_ref()?.scatter()))
    }

    /// The content of a cell for one of this library's builds.
    pub fn entry(&self, row: &str, column: Column, codec: usize) -> Option<Entry> {
        let mut cells = self.cells.iter();
        let cell = cells.find(|cell| cell.row == row && cell.column == column)?;
        let own = cell.codecs[codec].as_ref()?;
        let others = cell.codecs.iter().zip(self.codecs);
        let others = others.filter(|(_, codec)| codec.level.is_none());
        let others = others.filter_map(|(measured, _)| Some(measured.as_ref()?.seconds()));
        Some(Entry {
            seconds: own.seconds(),
            gigabytes: own.gigabytes(),
            ratio: others.min_by(f64::total_cmp).map(|s| s / own.seconds()),
        })
    }

    fn written(&self, entry: Entry) -> String {
        let time = match self.unit {
            Unit::Gigabytes => format!("{:.2}", entry.gigabytes),
            Unit::Nanoseconds => nanoseconds(entry.seconds),
        };
        match entry.ratio {
            Some(ratio) => format!("{time} ({})", two_digits(ratio)),
            None => time,
        }
    }

    /// The least ratio in a column and its row. If there is no other codec, the greatest time.
    fn worst(&self, rows: &[&str], column: Column, codec: usize) -> Option<String> {
        let entries = rows.iter().filter_map(|row| {
            let entry = self.entry(row, column, codec)?;
            Some((entry, row))
        });
        let speed = |entry: Entry| entry.ratio.unwrap_or(entry.seconds.recip());
        let (entry, row) = entries.min_by(|(a, _), (b, _)| speed(*a).total_cmp(&speed(*b)))?;
        let written = match entry.ratio {
            Some(ratio) => two_digits(ratio),
            None => self.written(entry),
        };
        Some(format!("{written}, {row}"))
    }

    /// Prints a table for each of this library's builds that has any of the calls.
    pub fn print(&self) {
        for (at, codec) in self.codecs.iter().enumerate() {
            if let Some(level) = &codec.level
                && self.cells.iter().any(|cell| cell.codecs[at].is_some())
            {
                println!("\n{}, {level}:\n", self.heading);
                self.print_build(at);
            }
        }
    }

    fn print_build(&self, codec: usize) {
        let rows = distinct(self.cells.iter().map(|cell| cell.row.as_str()));
        let columns: BTreeSet<Column> = self.cells.iter().map(|cell| cell.column).collect();
        let titles = columns.iter().map(|column| Some(column.title()));
        print_line("input", titles);
        println!("|---|{}", "--:|".repeat(columns.len()));
        for row in &rows {
            let cells = columns.iter().map(|column| self.entry(row, *column, codec));
            print_line(row, cells.map(|entry| Some(self.written(entry?))));
        }
        if rows.len() > 1 {
            let worst = columns
                .iter()
                .map(|column| self.worst(&rows, *column, codec));
            print_line("the worst", worst);
        }
    }
}

/// The words without duplicates, in the order of their first occurrences.
fn distinct<'a>(words: impl Iterator<Item = &'a str>) -> Vec<&'a str> {
    let mut seen = Vec::new();
    for word in words {
        if !seen.contains(&word) {
            seen.push(word);
        }
    }
    seen
}

fn print_line(title: &str, cells: impl Iterator<Item = Option<String>>) {
    print!("| {title} |");
    for cell in cells {
        print!(" {} |", cell.as_deref().unwrap_or("–"));
    }
    println!();
}

/// A time with three digits, or all digits before the point if there are more.
pub fn nanoseconds(seconds: f64) -> String {
    let number = seconds * 1e9;
    match number {
        ..10.0 => format!("{number:.2}"),
        ..100.0 => format!("{number:.1}"),
        _ => format!("{number:.0}"),
    }
}

/// A ratio with two digits, or all digits before the point if there are more.
pub fn two_digits(number: f64) -> String {
    match number {
        ..0.995 => format!("{number:.2}"),
        ..9.95 => format!("{number:.1}"),
        _ => format!("{number:.0}"),
    }
}

/// A number with commas between groups of three digits.
pub fn grouped(number: usize) -> String {
    match number / 1_000 {
        0 => number.to_string(),
        thousands => format!("{},{:03}", grouped(thousands), number % 1_000),
    }
}
