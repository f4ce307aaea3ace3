//! The plain codec of expected.rs as a program, for scripts that test another program:
//!
//!     plain CALL ENCODING
//!
//! It reads bytes from standard input, and writes the result that the call must return for them.
//! The status is 1 if the call must reject them. CALL is a name such as `decode_strict`, and
//! ENCODING is `cesu8` or `mutf8`.

mod actions;
mod expected;

use crate::actions::{ACTIONS, Action, Flavor};
use crate::expected::expected;
use std::io::{Read, Write};
use std::process::ExitCode;
use std::{env, io};

fn flavor_of(encoding: &str) -> Option<Flavor> {
    match encoding {
        "cesu8" => Some(Flavor::Cesu8),
        "mutf8" => Some(Flavor::Mutf8),
        _ => None,
    }
}

/// The call and the encoding that the command line names.
fn asked() -> Option<(Action, Flavor)> {
    let words: Vec<String> = env::args().skip(1).collect();
    let [call, encoding] = words.as_slice() else {
        return None;
    };
    let action = ACTIONS.into_iter().find(|action| action.title() == call)?;
    Some((action, flavor_of(encoding)?))
}

fn main() -> io::Result<ExitCode> {
    let Some((action, flavor)) = asked() else {
        eprintln!("usage: plain CALL ENCODING");
        return Ok(ExitCode::from(2));
    };
    let mut input = Vec::new();
    io::stdin().read_to_end(&mut input)?;
    let Some(answer) = expected(action, flavor, &input) else {
        return Ok(ExitCode::FAILURE);
    };
    io::stdout().write_all(&answer)?;
    Ok(ExitCode::SUCCESS)
}
