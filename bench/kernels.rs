//! The kernels, which test whether encoding changes some byte, on ASCII without U+0000 of four
//! lengths.

use crate::codec::{Call, Codec, KERNELS, Kernel, outcome};
use crate::grid::{Column, Grid, Unit};
use crate::sets::{Kind, at_page_start, text_of};
use crate::timing::Measured;

const LENGTHS: [usize; 4] = [16, 24, 1_024, 16_384];

/// Checks the results on ASCII, in which the kernel finds nothing, on ASCII that ends in F4, which
/// each kernel finds, and on ASCII that ends in 0, which only `NullFour` finds.
fn is_right(call: Call, kernel: Kernel, ascii: &[u8]) -> bool {
    let ending_in = |last| {
        let mut bytes = ascii.to_vec();
        bytes[ascii.len() - 1] = last;
        bytes
    };
    let cases = [
        (ascii.to_vec(), 0),
        (ending_in(0xF4), 1),
        (ending_in(0x00), usize::from(kernel == Kernel::NullFour)),
    ];
    let mut cases = cases.iter();
    cases.all(|(input, length)| outcome(call, input, &mut [0; 1]).length == *length)
}

fn measured(
    codec: &Codec,
    kernel: Kernel,
    ascii: &'static [u8],
) -> Result<Option<Measured>, String> {
    match codec.kernel(kernel) {
        Some(call) if !is_right(call, kernel, ascii) => Err(format!(
            "{}: {} answers wrongly on {} bytes",
            codec.name,
            kernel.title(),
            ascii.len()
        )),
        call => Ok(call.map(|call| Measured::of_input(call, ascii))),
    }
}

pub fn grids(codecs: &[Codec]) -> Result<Vec<Grid<'_>>, String> {
    let heading = "The kernels on ASCII without null, in GB/s".to_string();
    let mut grid = Grid::of(codecs, heading, Unit::Gigabytes);
    for kernel in KERNELS {
        let title = format!("`{}`", kernel.title());
        for length in LENGTHS {
            let ascii: &'static [u8] = at_page_start(text_of(Kind::Ascii, length));
            grid.add(&title, Column::Length(length), |codec| {
                measured(codec, kernel, ascii)
            })?;
        }
    }
    Ok(vec![grid])
}
