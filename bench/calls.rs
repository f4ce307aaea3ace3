//! Each call on each kind of input of 16,380 bytes, in both encodings.

use crate::Beside;
use crate::codec::{ACTIONS, Action, Codec, FLAVORS};
use crate::grid::{Column, Grid, Unit};
use crate::inputs::{Case, Inputs};
use crate::sets::{INPUT_LENGTH, Set, sets};
use crate::short::Nothing;
use crate::timing::{Measured, copy_run, utf8_run};

pub fn heading(action: Action) -> String {
    format!("`{}` on 16,380 bytes, in GB/s", action.title())
}

/// Adds a row for these inputs, without a cell for an encoding in which the call must reject them.
fn add(grid: &mut Grid, action: Action, set: &Set) -> Result<(), String> {
    for flavor in FLAVORS {
        let inputs = Inputs::one(set.input);
        let case = Case::new(action, flavor, set.name, inputs);
        if case.is_answered() {
            grid.add(set.name, Column::Encoding(flavor), |codec| {
                case.measured_bytes(codec)
            })?;
        }
    }
    Ok(())
}

pub fn grids(codecs: &[Codec]) -> Result<Vec<Grid<'_>>, String> {
    let sets = sets();
    let grids = ACTIONS.map(|action| {
        let mut grid = Grid::of(codecs, heading(action), Unit::Gigabytes);
        for set in &sets {
            if !action.takes_text() || set.is_utf8() {
                add(&mut grid, action, set)?;
            }
        }
        Ok(grid)
    });
    grids.into_iter().collect()
}

/// What the calls are compared with: a plain copy, a call that does nothing, and `str::from_utf8`.
pub fn beside() -> Beside {
    let sets = sets();
    let utf8 = sets.iter().filter(|set| set.is_utf8());
    Beside {
        copy: Measured::new(INPUT_LENGTH, copy_run(sets[0].input)),
        nothing: Nothing::new(),
        utf8: utf8
            .map(|set| (set.name, Measured::new(INPUT_LENGTH, utf8_run(set.input))))
            .collect(),
    }
}
