//! The cases of the program, tests/cli_cases.txt of the repository, as calls of the crate. A line
//! has the words, the input, the status, the output and a line of standard error, which is not used
//! here. `|` separates them, and bytes are hexadecimal.

use std::borrow::Cow;

use simd_cesu8::java::{self, ReadError};
use simd_cesu8::mutf8;

const CASES: &str = include_str!("cases.txt");

/// What the program does: its status, and its output.
type Outcome = (u8, Vec<u8>);

const OK: u8 = 0;

fn status_of(line: &str) -> (u8, &str) {
    let (status, rest) = line.split_once('|').unwrap();
    (status.trim().parse().unwrap(), rest)
}

fn bytes_of(hexadecimal: &str) -> Option<Vec<u8>> {
    hexadecimal.split_whitespace().map(|byte| u8::from_str_radix(byte, 16).ok()).collect()
}

fn text(text: Cow<str>) -> Outcome {
    (OK, text.into_owned().into_bytes())
}

/// Returns what a command of the program should do, by the crate's calls, or `None` if no call is
/// for it. `not_utf8` and `invalid` are the statuses for a text and for an encoding that is
/// rejected.
fn outcome(
    command: &str,
    flavor: &str,
    input: &[u8],
    not_utf8: u8,
    invalid: u8,
) -> Option<Outcome> {
    let is_mutf8 = match flavor {
        "cesu8" => false,
        "mutf8" => true,
        _ => return None,
    };
    let rejected = (invalid, Vec::new());
    let Ok(utf8) = std::str::from_utf8(input) else {
        return match command {
            "encode" | "needs" | "java-write" => Some((not_utf8, Vec::new())),
            _ => decoded(command, is_mutf8, input, rejected),
        };
    };
    match (command, is_mutf8) {
        ("encode", false) => Some((OK, simd_cesu8::encode(utf8).into_owned())),
        ("encode", true) => Some((OK, mutf8::encode(utf8).into_owned())),
        _ => decoded(command, is_mutf8, input, rejected),
    }
}

fn decoded(command: &str, is_mutf8: bool, input: &[u8], rejected: Outcome) -> Option<Outcome> {
    let strict = |result: Result<Cow<str>, _>| Some(result.map_or(rejected.clone(), text));
    match (command, is_mutf8) {
        ("decode", false) => strict(simd_cesu8::decode(input)),
        ("decode", true) => strict(mutf8::decode(input)),
        ("decode-strict", false) => strict(simd_cesu8::decode_strict(input)),
        ("decode-strict", true) => strict(mutf8::decode_strict(input)),
        ("lossy", false) => Some(text(simd_cesu8::decode_lossy(input))),
        ("lossy", true) => Some(text(mutf8::decode_lossy(input))),
        ("lossy-strict", false) => Some(text(simd_cesu8::decode_lossy_strict(input))),
        ("lossy-strict", true) => Some(text(mutf8::decode_lossy_strict(input))),
        _ => None,
    }
}

#[test]
fn cases_of_the_program() {
    let mut tested = 0;
    for line in CASES.lines() {
        let fields: Vec<&str> = line.split('|').collect();
        let words: Vec<&str> = fields[0].split(' ').filter(|word| !word.is_empty()).collect();
        if line.starts_with('#') || fields.len() < 4 || words.len() != 2 {
            continue;
        }
        let (Some(input), Some(output)) = (bytes_of(fields[1]), bytes_of(fields[3])) else {
            continue;
        };
        let (status, _) = status_of(&format!("{}|", fields[2]));
        // The program's status says why an input is rejected. The crate only says that it is, so
        // either error has the status of the case.
        let Some((found, result)) = outcome(words[0], words[1], &input, status, status) else {
            continue;
        };
        assert_eq!((found, result), (status, output), "{line}");
        tested += 1;
    }
    // Fewer would mean that the lines are not understood.
    assert!(tested > 500, "{tested} cases");
}

/// What `java-read` and `java-write` of the program do.
#[test]
fn java_cases() {
    let mut tested = 0;
    for line in CASES.lines() {
        let fields: Vec<&str> = line.split('|').map(str::trim).collect();
        if fields.len() < 4 || line.starts_with('#') {
            continue;
        }
        let (Some(input), Some(output)) = (bytes_of(fields[1]), bytes_of(fields[3])) else {
            continue;
        };
        let is_ok = fields[2] == "0";
        match fields[0] {
            "java-read mutf8" => {
                // The program accepts exactly one string.
                let read = java::read_utf(&input).ok().filter(|(_, rest)| rest.is_empty());
                let text = read.as_ref().map(|(text, _)| text.as_bytes());
                assert_eq!(text, is_ok.then_some(&output[..]), "{line}");
            }
            "java-write mutf8" => {
                let mut buf = Vec::new();
                let written = std::str::from_utf8(&input)
                    .is_ok_and(|text| java::write_utf(text, &mut buf).is_ok());
                assert_eq!((written, buf), (is_ok, output), "{line}");
            }
            _ => continue,
        }
        tested += 1;
    }
    assert!(tested > 20, "{tested} cases");
}

#[test]
fn java_strings() {
    let longest = "\u{7FF}".repeat(32_767) + "a";
    let mut buf = Vec::new();
    assert!(java::write_utf(&longest, &mut buf).is_ok());
    assert_eq!(buf.len(), 2 + 65_535);
    assert_eq!(java::read_utf(&buf).unwrap().0, longest);

    let mut buf = b"as before".to_vec();
    let too_long = longest + "a";
    assert_eq!(java::write_utf(&too_long, &mut buf).unwrap_err().encoded_len, 65_536);
    assert_eq!(buf, b"as before");

    assert_eq!(java::read_utf(b"\0"), Err(ReadError::Truncated));
    assert_eq!(java::read_utf(b"\0\x02A"), Err(ReadError::Truncated));
    assert_eq!(java::read_utf(b"\0\x01\xFF"), Err(ReadError::Invalid));
    assert_eq!(java::read_utf_lossy(b"\0\x02A"), Err(ReadError::Truncated));
}
