//! Draws some rows of the tables. For each build of this library there is a bar from 1 to the ratio
//! of its speed to that of the fastest other codec of the run. It points to the left if the library
//! is slower.

use crate::codec::{Action, Codec, FLAVORS, Flavor, encoding_title};
use crate::grid::{Column, Entry, Grid, grouped, nanoseconds, two_digits};
use crate::{calls, hostile, short, texts};
use std::fmt::{self, Write};

/// The measurements of which some are drawn.
pub struct Run<'a> {
    /// The date and the machine.
    pub machine: &'a str,
    pub codecs: &'a [Codec],
    pub grids: Vec<&'a Grid<'a>>,
}

/// The table that has the times of a panel.
enum Source {
    Texts,
    Calls(Action),
    Short(Action),
    Hostile(Action),
}

/// Some rows of one call at one length, by their names in the table. A row that the table lacks, or
/// lacks for one of the encodings, has no bar there.
struct Panel {
    title: &'static str,
    bytes: usize,
    source: Source,
    rows: &'static [&'static str],
}

const SHORT_TEXTS: &[&str] = &[
    "ASCII",
    "Latin",
    "three-byte characters",
    "ASCII and one emoji",
    "surrogate pairs",
    "random widths",
];

const SHORT_ENCODINGS: &[&str] = &[
    "ASCII",
    "Latin",
    "three-byte characters",
    "ASCII and one emoji",
    "ASCII and one null",
    "surrogate pairs",
    "random widths",
];

const HOSTILE: &[&str] = &[
    "one damaged byte in 500",
    "one damaged byte in 50",
    "the other encoding",
    "fragments of characters",
    "FF for one byte in 16",
    "FF alone",
    "noise",
];

const PANELS: [Panel; 8] = [
    Panel {
        title: "encode",
        bytes: 24,
        source: Source::Short(Action::Encode),
        rows: SHORT_TEXTS,
    },
    Panel {
        title: "encode",
        bytes: 16_380,
        source: Source::Texts,
        rows: &[
            "ASCII without null",
            "two-byte characters",
            "mixed UTF-8",
            "ASCII, one emoji in 97",
            "random widths and null",
        ],
    },
    Panel {
        title: "decode_strict",
        bytes: 24,
        source: Source::Short(Action::DecodeStrict),
        rows: SHORT_ENCODINGS,
    },
    Panel {
        title: "decode_strict",
        bytes: 16_380,
        source: Source::Calls(Action::DecodeStrict),
        rows: &[
            "ASCII without null",
            "two-byte characters",
            "three-byte characters",
            "mixed CESU-8",
            "mixed MUTF-8",
            "surrogate pairs alone",
        ],
    },
    Panel {
        title: "decode (also of UTF-8)",
        bytes: 24,
        source: Source::Short(Action::Decode),
        rows: SHORT_ENCODINGS,
    },
    Panel {
        title: "decode (also of UTF-8)",
        bytes: 16_380,
        source: Source::Calls(Action::Decode),
        rows: &[
            "ASCII without null",
            "two-byte characters",
            "four-byte characters",
            "mixed CESU-8",
            "mixed MUTF-8",
            "surrogate pairs alone",
        ],
    },
    Panel {
        title: "decode_lossy_strict of hostile input",
        bytes: 72,
        source: Source::Hostile(Action::DecodeLossyStrict),
        rows: HOSTILE,
    },
    Panel {
        title: "decode_lossy_strict of hostile input",
        bytes: 16_380,
        source: Source::Hostile(Action::DecodeLossyStrict),
        rows: HOSTILE,
    },
];

/// For inputs of fewer bytes, times are in nanoseconds a call.
const SHORT: usize = 1_024;

const WIDTH: f64 = 900.0;
/// The left edges of the plots of the two encodings, and the width of each.
const PLOTS: [f64; 2] = [230.0, 570.0];
const PLOT: f64 = 200.0;
/// The base-2 logarithms of the ratios at the left and right edge of a plot.
const LEAST: f64 = -2.0;
const MOST: f64 = 4.0;
const MARKS: [f64; 4] = [0.25, 1.0, 4.0, 16.0];
const BAR: f64 = 9.0;
const ROW: f64 = 26.0;
const TOP: f64 = 84.0;

/// The distance of a ratio from the left edge of a plot.
fn place(ratio: f64) -> f64 {
    PLOT * (ratio.log2().clamp(LEAST, MOST) - LEAST) / (MOST - LEAST)
}

fn text(svg: &mut String, x: f64, y: f64, class: &str, words: &str) -> fmt::Result {
    let words = words.replace('&', "&amp;").replace('<', "&lt;");
    writeln!(
        svg,
        r#"<text x="{x:.0}" y="{y:.1}" class="{class}">{words}</text>"#
    )
}

/// A rectangle in the colour of a build.
fn rect(
    svg: &mut String,
    (x, y): (f64, f64),
    (width, height): (f64, f64),
    build: usize,
) -> fmt::Result {
    write!(
        svg,
        r#"<rect x="{x:.1}" y="{y:.1}" width="{width:.1}" height="{height}""#
    )?;
    writeln!(svg, r#" class="bar{build}"/>"#)
}

impl Panel {
    /// The measurements of a build of this library in a row.
    fn entry(&self, run: &Run, row: &str, flavor: Flavor, codec: usize) -> Option<Entry> {
        let length = Column::Length(self.bytes);
        let (heading, column) = match self.source {
            Source::Texts => (texts::heading(flavor), length),
            Source::Calls(action) => (calls::heading(action), Column::Encoding(flavor)),
            Source::Short(action) => (short::heading(action, flavor), length),
            Source::Hostile(action) => (hostile::heading(action, flavor), length),
        };
        let mut grids = run.grids.iter();
        let grid = grids.find(|grid| grid.heading == heading)?;
        grid.entry(row, column, codec)
    }

    fn written(&self, entry: Entry, ratio: f64) -> String {
        let ratio = two_digits(ratio);
        if self.bytes < SHORT {
            format!("{} ns, {ratio}×", nanoseconds(entry.seconds))
        } else {
            format!("{:.2} GB/s, {ratio}×", entry.gigabytes)
        }
    }

    /// Draws the bars of the builds in one row and encoding.
    fn draw_bars(&self, svg: &mut String, run: &Run, row: &str, at: usize, y: f64) -> fmt::Result {
        for (number, codec) in own(run).enumerate() {
            let Some(entry) = self.entry(run, row, FLAVORS[at], codec) else {
                continue;
            };
            let Some(ratio) = entry.ratio else {
                continue;
            };
            let y = y + (BAR + 1.0) * number as f64;
            let (from, to) = (place(ratio.min(1.0)), place(ratio.max(1.0)));
            let (x, width) = (PLOTS[at] + from, (to - from).max(1.0));
            rect(svg, (x, y), (width, BAR), number)?;
            let words = self.written(entry, ratio);
            text(svg, PLOTS[at] + PLOT + 6.0, y + 8.0, "number", &words)?;
        }
        Ok(())
    }

    fn draw(&self, svg: &mut String, run: &Run, y: f64) -> fmt::Result {
        let title = format!("{}, {} bytes", self.title, grouped(self.bytes));
        text(svg, 12.0, y - 18.0, "call", &title)?;
        for x in PLOTS {
            draw_marks(svg, x, y, ROW * self.rows.len() as f64)?;
        }
        for (number, row) in self.rows.iter().enumerate() {
            let top = y + 3.0 + ROW * number as f64;
            text(svg, 12.0, top + 13.0, "row", row)?;
            for at in 0..PLOTS.len() {
                self.draw_bars(svg, run, row, at, top)?;
            }
        }
        Ok(())
    }
}

/// The indices of this library's builds among the codecs.
fn own<'a>(run: &'a Run) -> impl Iterator<Item = usize> + 'a {
    let codecs = run.codecs.iter().enumerate();
    let own = codecs.filter(|(_, codec)| codec.level.is_some());
    own.map(|(at, _)| at)
}

/// Draws the scale above a plot, and its lines through the plot.
fn draw_marks(svg: &mut String, x: f64, y: f64, height: f64) -> fmt::Result {
    for mark in MARKS {
        let x = x + place(mark);
        let end = y + height;
        let class = if mark == 1.0 { "one" } else { "scale" };
        writeln!(
            svg,
            r#"<path d="M{x:.1} {y:.1}V{end:.1}" class="{class}"/>"#
        )?;
        text(svg, x, y - 4.0, "mark", &format!("{mark}×"))?;
    }
    Ok(())
}

fn draw_legend(svg: &mut String, run: &Run) -> fmt::Result {
    let others = run.codecs.iter().filter(|codec| codec.level.is_none());
    let others: Vec<&str> = others.map(|codec| codec.name.as_str()).collect();
    let title = format!(
        "simd_cesu8: how many times as fast as {}",
        others.join(" and ")
    );
    text(svg, 12.0, 22.0, "head", &title)?;
    let line = format!(
        "{}; the faster of these counts; to the left of 1× simd_cesu8 is slower; \
         the scale is logarithmic and ends at 16×",
        run.machine
    );
    text(svg, 12.0, 40.0, "row", &line)?;
    for (number, codec) in own(run).enumerate() {
        let x = 12.0 + 110.0 * number as f64;
        rect(svg, (x, 48.0), (10.0, 10.0), number)?;
        let level = run.codecs[codec].level.as_deref().unwrap_or_default();
        text(svg, x + 15.0, 57.0, "row", level)?;
    }
    for (flavor, x) in FLAVORS.into_iter().zip(PLOTS) {
        text(svg, x, 57.0, "call", encoding_title(flavor))?;
    }
    Ok(())
}

fn drawn(run: &Run) -> Result<String, fmt::Error> {
    let mut svg = String::new();
    draw_legend(&mut svg, run)?;
    let mut y = TOP + 18.0;
    for panel in &PANELS {
        panel.draw(&mut svg, run, y)?;
        y += ROW * panel.rows.len() as f64 + 50.0;
    }
    let height = y - 34.0;
    let mut whole = String::new();
    writeln!(
        whole,
        r#"<svg xmlns="http://www.w3.org/2000/svg" viewBox="0 0 {WIDTH} {height}" width="{WIDTH}">"#
    )?;
    whole.push_str(STYLE);
    whole.push_str(&svg);
    whole.push_str("</svg>\n");
    Ok(whole)
}

/// The background is transparent, and the colours are legible on white and on black.
const STYLE: &str = "<style>
text { font: 12px sans-serif; fill: #7a828c }
.bar0 { fill: #4c8fd6 }
.bar1 { fill: #d9822b }
.head { font-size: 16px; font-weight: bold }
.call { font-weight: bold }
.row { font-size: 11px }
.number { font-size: 9.5px }
.one { stroke: #7a828c; stroke-width: 1.5 }
.scale { stroke: #7a828c; stroke-width: 0.5; stroke-dasharray: 2 3 }
.mark { font-size: 9px; text-anchor: middle }
</style>
";

/// The picture, as SVG.
pub fn picture(run: &Run) -> Result<String, String> {
    if run.codecs.iter().all(|codec| codec.level.is_some()) {
        return Err("a picture needs another codec beside the library".to_string());
    }
    drawn(run).map_err(|error| error.to_string())
}
