//! The time of encoding a text, without a test for UTF-8.

use crate::codec::{Action, Codec, FLAVORS, Flavor, path};
use crate::grid::{Column, Grid, Unit};
use crate::inputs::{Case, Inputs};
use crate::sets::{Kind, text_of};

// 16,380 is `INPUT_LENGTH` of sets.rs, a multiple of the lengths of the kinds' patterns.
const LENGTHS: [usize; 5] = [24, 200, 1_024, 16_380, 16_777_212];

pub fn heading(flavor: Flavor) -> String {
    format!("`{}` of a text, in GB/s", path(Action::Encode, flavor))
}

/// Whether a kind is measured at this length. If its characters have one length, or lengths in a
/// short pattern, one length of texts is enough, or two for ASCII.
fn is_measured(kind: Kind, length: usize) -> bool {
    length == 16_380 || kind.is_by_chance() || length == 24 && kind == Kind::Ascii
}

fn grid(codecs: &[Codec], flavor: Flavor) -> Result<Grid<'_>, String> {
    let mut grid = Grid::of(codecs, heading(flavor), Unit::Gigabytes);
    for kind in Kind::ALL {
        for length in LENGTHS {
            if is_measured(kind, length) {
                let inputs = Inputs::one(text_of(kind, length));
                let case = Case::new(Action::Encode, flavor, kind.title(), inputs);
                grid.add(kind.title(), Column::Length(length), |codec| {
                    case.measured(codec)
                })?;
            }
        }
    }
    Ok(grid)
}

pub fn grids(codecs: &[Codec]) -> Result<Vec<Grid<'_>>, String> {
    let grids = FLAVORS.map(|flavor| grid(codecs, flavor));
    grids.into_iter().collect()
}
