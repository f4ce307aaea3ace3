//! Decoding of hostile input: damaged, random and otherwise slow to decode. Each call is measured on
//! the inputs of a kind in turn, which differ if the kind is random. The tables name the worst kind
//! of each length.

use crate::codec::{Action, Codec, FLAVORS, Flavor, path};
use crate::expected::{encoded, expected};
use crate::grid::{Column, Grid, Unit};
use crate::inputs::{Case, Inputs};
use crate::sets::{Kind, Random, SEED, at_page_start, encoded_bytes, of_any_length};

const LENGTHS: [usize; 5] = [24, 72, 200, 1_024, 16_380];

/// The total length of the inputs of one random kind and length. Another kind has one input.
const BYTES: usize = 1 << 15;

/// Some kinds are also measured at about this length: a part of `LONG_PART` bytes is repeated as often as
/// it fits.
const LONG: usize = 16_777_212;
const LONG_PART: usize = 16_380;

/// The calls that are measured on hostile input.
const ACTIONS: [Action; 4] = [
    Action::DecodeStrict,
    Action::DecodeLossy,
    Action::DecodeLossyStrict,
    Action::LossyLength,
];

/// How the bytes of one kind are made.
#[derive(Clone, Copy)]
enum Made {
    /// Characters of all widths and U+0000, in the other encoding.
    OtherFlavor,
    /// Characters of one to three bytes, with one pair in 97.
    OnePairIn97,
    Noise,
    /// Characters of a kind of text. With a number, one byte in so many is replaced by a random one.
    Characters(Kind, Option<u64>),
    /// Characters, some of which are followed by an incomplete one.
    CutCharacters,
    /// These pieces, in random order.
    Pieces(&'static [&'static [u8]]),
    Repeated(&'static [u8]),
    /// Three-byte characters, with FF for one byte in so many.
    WithFf(usize),
    HighNoise,
}

const HIGH_SURROGATE: &[u8] = b"\xED\xA0\xBD";
const LOW_SURROGATE: &[u8] = b"\xED\xB2\x96";

/// Incomplete characters: the first bytes of their encodings.
const FRONTS: [&[u8]; 6] = [
    b"\xC3",
    b"\xE2",
    b"\xE2\x82",
    b"\xED\xA0",
    b"\xED\xA0\xBD\xED",
    b"\xED\xA0\xBD\xED\xB2",
];

/// Whole characters, halves of a surrogate pair, incomplete characters, and bytes that begin none.
const FRAGMENTS: [&[u8]; 20] = [
    b"a",
    b"\0",
    b"\xC0\x80",
    b"\xC3\xA9",
    b"\xE2\x82\xAC",
    b"\xED\xA0\xBD\xED\xB2\x96",
    HIGH_SURROGATE,
    LOW_SURROGATE,
    FRONTS[0],
    FRONTS[1],
    FRONTS[2],
    FRONTS[3],
    FRONTS[4],
    FRONTS[5],
    b"\x80",
    b"\xC0",
    b"\xC1\x81",
    b"\xE0\x80",
    b"\xF0\x9F\x92\x96",
    b"\xFF",
];

const KINDS: [(&str, Made); 32] = [
    (
        "random widths and null",
        Made::Characters(Kind::RandomWithNull, None),
    ),
    ("one to three bytes, one pair in 97", Made::OnePairIn97),
    (
        "one damaged byte in 500",
        Made::Characters(Kind::RandomWithNull, Some(500)),
    ),
    (
        "one damaged byte in 50",
        Made::Characters(Kind::RandomWithNull, Some(50)),
    ),
    ("the other encoding", Made::OtherFlavor),
    ("noise", Made::Noise),
    (
        "ASCII, one pair in 97",
        Made::Characters(Kind::SparseAscii, None),
    ),
    ("surrogate pairs", Made::Characters(Kind::Four, None)),
    (
        "eight characters in turn",
        Made::Characters(Kind::Pattern, None),
    ),
    (
        "ASCII, one damaged byte in 500",
        Made::Characters(Kind::Ascii, Some(500)),
    ),
    (
        "surrogate pairs, one damaged byte in 50",
        Made::Characters(Kind::Four, Some(50)),
    ),
    ("cut characters in text", Made::CutCharacters),
    ("fragments of characters", Made::Pieces(&FRAGMENTS)),
    ("noise of 80 to FF", Made::HighNoise),
    (
        "four-byte characters in UTF-8",
        Made::Repeated("\u{10400}\u{1F496}\u{24F62}".as_bytes()),
    ),
    ("null alone", Made::Repeated(b"\0")),
    ("null and a letter at random", Made::Pieces(&[b"\0", b"a"])),
    ("C0 80 alone", Made::Repeated(b"\xC0\x80")),
    (
        "C0 80 three times and C0 in turn",
        Made::Repeated(b"\xC0\x80\xC0\x80\xC0\x80\xC0"),
    ),
    ("high surrogates alone", Made::Repeated(HIGH_SURROGATE)),
    ("low surrogates alone", Made::Repeated(LOW_SURROGATE)),
    (
        "a low surrogate, a high one and ED in turn",
        Made::Repeated(b"\xED\xB2\x96\xED\xA0\xBD\xED"),
    ),
    (
        "surrogates at random",
        Made::Pieces(&[HIGH_SURROGATE, LOW_SURROGATE]),
    ),
    ("80 alone", Made::Repeated(b"\x80")),
    ("E2 alone", Made::Repeated(b"\xE2")),
    ("FF alone", Made::Repeated(b"\xFF")),
    ("FF for one byte in 8", Made::WithFf(8)),
    ("FF for one byte in 16", Made::WithFf(16)),
    ("FF for one byte in 32", Made::WithFf(32)),
    ("FF for one byte in 64", Made::WithFf(64)),
    ("FF for one byte in 97", Made::WithFf(97)),
    ("FF for one byte in 128", Made::WithFf(128)),
];

/// Joins pieces until there are at least `length` bytes.
fn joined<P: AsRef<[u8]>>(length: usize, mut piece: impl FnMut() -> P) -> Vec<u8> {
    let mut bytes = Vec::new();
    while bytes.len() < length {
        bytes.extend_from_slice(piece().as_ref());
    }
    bytes
}

fn one_of(pieces: &[&'static [u8]], random: &mut Random) -> &'static [u8] {
    pieces[(random.next() % pieces.len() as u64) as usize]
}

/// A character of one to three bytes, in one of 32 cases followed by an incomplete one.
fn cut_piece(flavor: Flavor, random: &mut Random) -> Vec<u8> {
    let mut bytes = encoded(flavor, &of_any_length(random, 3).to_string());
    if random.next() % 32 == 0 {
        bytes.extend(one_of(&FRONTS, random));
    }
    bytes
}

/// This many bytes: characters of three bytes, letters to fill up the rest, and FF.
fn ending_in_ff(length: usize) -> Vec<u8> {
    let mut bytes = "\u{20AC}".repeat((length - 1) / 3).into_bytes();
    bytes.resize(length - 1, b'z');
    bytes.push(0xFF);
    bytes
}

impl Made {
    /// Whether two inputs of a kind differ.
    fn is_random(self) -> bool {
        !matches!(
            self,
            Made::Repeated(_) | Made::WithFf(_) | Made::Characters(Kind::Pattern, _)
        )
    }

    /// Whether the kind is also measured at the length `LONG`.
    fn is_long(self) -> bool {
        matches!(
            self,
            Made::Characters(Kind::RandomWithNull, _)
                | Made::OtherFlavor
                | Made::OnePairIn97
                | Made::Noise
        )
    }

    /// Makes this many bytes. The last is a letter, so the character before it may be incomplete.
    fn bytes(self, flavor: Flavor, length: usize, random: &mut Random) -> Vec<u8> {
        let mut bytes = match self {
            Made::Characters(kind, distance) => {
                encoded_bytes(flavor, length, distance, random, |random, place| {
                    kind.character(random, place)
                })
            }
            Made::OtherFlavor => {
                encoded_bytes(flavor.other(), length, None, random, |random, _| {
                    of_any_length(random, 5)
                })
            }
            // The first pair is character 3 (from 0), so that even the shortest input contains one.
            Made::OnePairIn97 => encoded_bytes(flavor, length, None, random, |random, place| {
                match place % 97 {
                    3 => '\u{1F496}',
                    _ => of_any_length(random, 3),
                }
            }),
            Made::CutCharacters => joined(length, || cut_piece(flavor, random)),
            Made::Pieces(pieces) => joined(length, || one_of(pieces, random)),
            Made::Repeated(part) => joined(length, || part),
            Made::WithFf(distance) => joined(length, || ending_in_ff(distance)),
            Made::Noise => joined(length, || [random.next() as u8]),
            Made::HighNoise => joined(length, || [random.next() as u8 | 0x80]),
        };
        bytes.resize(length - 1, 0);
        bytes.push(b'z');
        bytes
    }

    /// Makes inputs of this kind. If strict decoding rejects some, only such inputs are returned, so
    /// that a strict call either decodes all or rejects all.
    fn inputs(self, flavor: Flavor, length: usize) -> Inputs {
        let count = if self.is_random() { BYTES / length } else { 1 };
        let mut random = Random(SEED);
        let (mut whole, mut refused) = (Vec::new(), Vec::new());
        while refused.len() < count && (whole.len() < count || !refused.is_empty()) {
            let bytes = self.bytes(flavor, length, &mut random);
            match expected(Action::DecodeStrict, flavor, &bytes) {
                Some(_) => whole.push(bytes),
                None => refused.push(bytes),
            }
        }
        let inputs = if refused.is_empty() { whole } else { refused };
        Inputs {
            bytes: at_page_start(&inputs.concat()),
            length,
        }
    }
}

pub fn heading(action: Action, flavor: Flavor) -> String {
    format!("`{}` on hostile input, in GB/s", path(action, flavor))
}

/// The tables of one call on all kinds: one for the inputs that it decodes, or whose decoded length it
/// returns, and one for those that it rejects.
struct Part<'a> {
    action: Action,
    flavor: Flavor,
    answered: Grid<'a>,
    refused: Grid<'a>,
}

impl Part<'_> {
    fn of(codecs: &[Codec], action: Action, flavor: Flavor) -> Part<'_> {
        let refused = format!("`{}` that refuses, in ns a call", path(action, flavor));
        Part {
            action,
            flavor,
            answered: Grid::of(codecs, heading(action, flavor), Unit::Gigabytes),
            refused: Grid::of(codecs, refused, Unit::Nanoseconds),
        }
    }

    /// Adds a cell after testing the call. It is left out if the call borrows the input.
    fn add(&mut self, case: &Case, kind: &str, length: usize) -> Result<(), String> {
        if case.is_borrowed() {
            return Ok(());
        }
        let grid = if case.is_answered() {
            &mut self.answered
        } else {
            &mut self.refused
        };
        grid.add(kind, Column::Length(length), |codec| {
            case.measured_bytes(codec)
        })
    }

    fn add_kind(&mut self, kind: &str, inputs: Inputs) -> Result<(), String> {
        let case = Case::new(self.action, self.flavor, kind, inputs);
        self.add(&case, kind, inputs.length)
    }

    fn add_long(&mut self, kind: &str, part: &[u8]) -> Result<(), String> {
        let times = LONG / LONG_PART;
        let case = Case::repeated(self.action, self.flavor, kind, part, times);
        self.add(&case, kind, LONG)
    }
}

fn parts(codecs: &[Codec], flavor: Flavor) -> Result<[Part<'_>; 4], String> {
    let mut parts = ACTIONS.map(|action| Part::of(codecs, action, flavor));
    for (kind, made) in KINDS {
        for length in LENGTHS {
            let inputs = made.inputs(flavor, length);
            for part in &mut parts {
                part.add_kind(kind, inputs)?;
            }
        }
        if made.is_long() {
            let bytes = made.bytes(flavor, LONG_PART, &mut Random(SEED));
            for part in &mut parts {
                part.add_long(kind, &bytes)?;
            }
        }
    }
    Ok(parts)
}

pub fn grids(codecs: &[Codec]) -> Result<Vec<Grid<'_>>, String> {
    let mut grids = Vec::new();
    for flavor in FLAVORS {
        for part in parts(codecs, flavor)? {
            grids.extend([part.answered, part.refused]);
        }
    }
    Ok(grids)
}
