//! Measures the library's calls, which are linked from the static library `measured`. A plain copy
//! and `str::from_utf8` are measured for comparison. README.md says how to run it and what it prints.
//!
//! Usage: driver --level LEVEL [--rounds N] [--runs N] [--machine WORDS] [--picture FILE]
//!     [--against LEVEL=FILE].. [NAME=FILE ..]
//!
//! Each FILE after `=` is a shared object with some or all of the calls that `bench/measured.h`
//! declares: this library's build for another level, or another codec. All codecs are measured in
//! the same rounds, so that they run under the same conditions.

mod actions;
mod calls;
mod codec;
mod expected;
mod grid;
mod hostile;
mod inputs;
mod kernels;
mod picture;
mod sets;
mod short;
mod texts;
mod timing;

use crate::codec::Codec;
use crate::grid::Grid;
use crate::picture::{Run, picture};
use crate::short::Nothing;
use crate::timing::Measured;
use std::{env, fs, process};

const DEFAULT_ROUNDS: u32 = 400;

const USAGE: &str = "usage: driver --level LEVEL [--rounds N] [--runs N] [--machine WORDS] \
    [--picture FILE] [--against LEVEL=FILE].. [NAME=FILE ..]";

/// The command line.
struct Asked {
    rounds: u32,
    runs: u32,
    /// The date and the machine, for the picture.
    machine: String,
    /// The file to which the picture is written.
    picture: Option<String>,
    codecs: Vec<Codec>,
}

/// Tables that belong together.
struct Group<'a> {
    title: &'static str,
    grids: Vec<Grid<'a>>,
}

/// Prepares all tables. This compares the result of each call with that of the plain codec of
/// expected.rs. The calls are timed later.
fn groups(codecs: &[Codec]) -> Result<Vec<Group<'_>>, String> {
    let group = |title, grids| Group { title, grids };
    Ok(vec![
        group("Encoding a text", texts::grids(codecs)?),
        group("Short strings", short::grids(codecs)?),
        group("16,380 bytes", calls::grids(codecs)?),
        group("Hostile input", hostile::grids(codecs)?),
        group("Kernels", kernels::grids(codecs)?),
    ])
}

/// What is measured for comparison with the calls.
struct Beside {
    copy: Measured,
    nothing: Nothing,
    utf8: Vec<(&'static str, Measured)>,
}

impl Beside {
    fn measured(&mut self) -> impl Iterator<Item = &mut Measured> {
        let utf8 = self.utf8.iter_mut().map(|(_, measured)| measured);
        utf8.chain([&mut self.copy, &mut self.nothing.0])
    }

    fn print(&self) {
        println!(
            "A plain copy of 16,380 bytes: {:.1} GB/s.",
            self.copy.gigabytes()
        );
        println!(
            "A call by C's convention that does nothing: {} ns.",
            grid::nanoseconds(self.nothing.0.seconds())
        );
        println!("`str::from_utf8` on 16,380 bytes, in GB/s:");
        for (name, measured) in &self.utf8 {
            println!("- {name}: {:.2}", measured.gigabytes());
        }
    }
}

/// Prints how much the times of this library differ from run to run.
fn print_scatter(groups: &[Group], runs: u32) {
    let grids = groups.iter().flat_map(|group| &group.grids);
    let mut scatters: Vec<f64> = grids.flat_map(Grid::scatters).collect();
    scatters.sort_by(f64::total_cmp);
    let percent = |part: usize| (scatters[(scatters.len() - 1) * part / 100] - 1.0) * 100.0;
    println!(
        "Each time is the least of {runs} runs. The slowest of these takes {:.0}% more than the \
         fastest in half of the cells or fewer, and {:.0}% in nine of ten.",
        percent(50),
        percent(90)
    );
}

fn run(asked: &Asked) -> Result<(), String> {
    let mut groups = groups(&asked.codecs)?;
    let mut beside = calls::beside();
    for _ in 0..asked.runs {
        timing::measure(beside.measured(), asked.rounds);
        for group in &mut groups {
            let measured = group.grids.iter_mut().flat_map(Grid::measured);
            timing::measure(measured, asked.rounds);
        }
    }
    if asked.runs > 1 {
        print_scatter(&groups, asked.runs);
    }
    beside.print();
    for group in &groups {
        println!("\n## {}", group.title);
        group.grids.iter().for_each(Grid::print);
    }
    match &asked.picture {
        Some(file) => {
            let grids = groups.iter().flat_map(|group| &group.grids).collect();
            let run = Run {
                machine: &asked.machine,
                codecs: &asked.codecs,
                grids,
            };
            fs::write(file, picture(&run)?).map_err(|error| format!("{file}: {error}"))
        }
        None => Ok(()),
    }
}

fn number(word: &str) -> Result<u32, String> {
    let number = word.parse();
    number.map_err(|_| format!("{word} is no number"))
}

fn asked() -> Result<Asked, String> {
    let mut asked = Asked {
        rounds: DEFAULT_ROUNDS,
        runs: 1,
        machine: String::new(),
        picture: None,
        codecs: Vec::new(),
    };
    let mut words = env::args().skip(1);
    while let Some(word) = words.next() {
        let mut value = || words.next().ok_or(format!("{word} needs a value"));
        let parted = |word: &str| {
            let parts = word.split_once('=');
            parts.map(|(name, file)| (name.to_string(), file.to_string()))
        };
        match word.as_str() {
            "--level" => asked.codecs.push(Codec::linked(&value()?)),
            "--against" => {
                let (level, file) = parted(&value()?).ok_or(USAGE)?;
                asked.codecs.push(Codec::built_for(&level, &file)?);
            }
            "--rounds" => asked.rounds = number(&value()?)?,
            "--runs" => asked.runs = number(&value()?)?,
            "--machine" => asked.machine = value()?,
            "--picture" => asked.picture = Some(value()?),
            other => {
                let (name, file) = parted(other).ok_or(USAGE)?;
                asked.codecs.push(Codec::opened(&name, &file)?);
            }
        }
    }
    if asked.codecs.is_empty() {
        return Err(USAGE.to_string());
    }
    Ok(asked)
}

fn main() {
    if let Err(error) = asked().and_then(|asked| run(&asked)) {
        eprintln!("{error}");
        process::exit(1);
    }
}
