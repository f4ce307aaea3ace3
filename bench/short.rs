//! Calls on short inputs. There are many different inputs of a kind and length, so that a branch
//! predictor cannot learn them.

use crate::codec::{Action, Codec, FLAVORS, Flavor, Outcome, path};
use crate::expected::{encoded, expected};
use crate::grid::{Column, Grid, Unit};
use crate::inputs::{Case, Inputs};
use crate::sets::{Random, SEED, at_page_start, of_any_length};
use crate::timing::Measured;

const LENGTHS: [usize; 10] = [4, 8, 16, 24, 32, 48, 64, 96, 128, 256];

/// The number of inputs of a kind and length.
const COUNT: usize = 1_024;

const ACTIONS: [Action; 6] = [
    Action::Encode,
    Action::EncodedLength,
    Action::Decode,
    Action::DecodeStrict,
    Action::DecodeLossy,
    Action::DecodeLossyStrict,
];

/// One of these bytes replaces another in damaged input.
const DAMAGE: [u8; 5] = [0x80, 0xC2, 0xE1, 0xED, 0xFF];

/// The form in which an input has its text.
#[derive(Clone, Copy, PartialEq)]
enum Writing {
    Utf8,
    Encoding(Flavor),
}

const WRITINGS: [Writing; 3] = [
    Writing::Utf8,
    Writing::Encoding(Flavor::Cesu8),
    Writing::Encoding(Flavor::Mutf8),
];

impl Writing {
    fn taken_by(action: Action, flavor: Flavor) -> Writing {
        if action.takes_text() {
            Writing::Utf8
        } else {
            Writing::Encoding(flavor)
        }
    }

    fn bytes(self, character: char) -> Vec<u8> {
        let text = character.to_string();
        match self {
            Writing::Utf8 => text.into_bytes(),
            Writing::Encoding(flavor) => encoded(flavor, &text),
        }
    }
}

#[derive(Clone, Copy, PartialEq)]
enum Kind {
    Ascii,
    Latin,
    Three,
    OneEmoji,
    Pairs,
    OneNull,
    AnyWidth,
    Damaged,
}

const KINDS: [Kind; 8] = [
    Kind::Ascii,
    Kind::Latin,
    Kind::Three,
    Kind::OneEmoji,
    Kind::Pairs,
    Kind::OneNull,
    Kind::AnyWidth,
    Kind::Damaged,
];

fn ascii(random: &mut Random) -> char {
    random.character(0x01, 0x7F)
}

/// A letter of two bytes for one character in `distance`, and otherwise ASCII.
fn latin(random: &mut Random, distance: u64) -> char {
    match random.next() % distance {
        0 => random.character(0xC0, 0x17F),
        _ => ascii(random),
    }
}

fn emoji(random: &mut Random) -> char {
    random.character(0x1_F300, 0x1_F64F)
}

impl Kind {
    fn title(self) -> &'static str {
        match self {
            Kind::Ascii => "ASCII",
            Kind::Latin => "Latin",
            Kind::Three => "three-byte characters",
            Kind::OneEmoji => "ASCII and one emoji",
            Kind::Pairs => "surrogate pairs",
            Kind::OneNull => "ASCII and one null",
            Kind::AnyWidth => "random widths",
            Kind::Damaged => "Latin, one damaged byte",
        }
    }

    /// Whether there are inputs of this kind with this length.
    fn exists(self, writing: Writing, length: usize) -> bool {
        match self {
            Kind::OneEmoji | Kind::Pairs => writing.bytes('\u{1F496}').len() <= length,
            Kind::Damaged => matches!(writing, Writing::Encoding(_)),
            _ => true,
        }
    }

    fn character(self, random: &mut Random) -> char {
        match self {
            Kind::Ascii | Kind::OneEmoji | Kind::OneNull => ascii(random),
            Kind::Latin => latin(random, 5),
            Kind::Three => random.character(0x800, 0xFFFF),
            Kind::Pairs => random.character(0x1_0000, 0x10_FFFF),
            Kind::AnyWidth => of_any_length(random, 4),
            Kind::Damaged => latin(random, 8),
        }
    }

    /// The one character that differs from the others, if the kind has one.
    fn odd_character(self, random: &mut Random) -> Option<char> {
        match self {
            Kind::OneEmoji => Some(emoji(random)),
            Kind::OneNull => Some('\0'),
            _ => None,
        }
    }

    /// Makes valid input of this many bytes, with a letter in place of each character that does not
    /// fit, and the odd character at a random position.
    fn whole(self, writing: Writing, random: &mut Random, length: usize) -> Vec<u8> {
        let odd = self.odd_character(random);
        let odd = odd.map_or(Vec::new(), |odd| writing.bytes(odd));
        let others = length - odd.len();
        let mut bytes = Vec::with_capacity(length);
        while bytes.len() < others {
            let next = writing.bytes(self.character(random));
            let fits = bytes.len() + next.len() <= others;
            bytes.extend(if fits { next } else { b"z".to_vec() });
        }
        if !odd.is_empty() {
            let place = random.next() as usize % (others + 1);
            bytes.splice(place..place, odd);
        }
        bytes
    }

    /// Like `whole`, but with one byte replaced so that strict decoding rejects the input.
    fn damaged(self, flavor: Flavor, random: &mut Random, length: usize) -> Vec<u8> {
        loop {
            let mut bytes = self.whole(Writing::Encoding(flavor), random, length);
            let place = random.next() as usize % length;
            bytes[place] = DAMAGE[random.next() as usize % DAMAGE.len()];
            if expected(Action::DecodeStrict, flavor, &bytes).is_none() {
                return bytes;
            }
        }
    }

    fn inputs(self, writing: Writing, length: usize) -> Inputs {
        let mut random = Random(SEED + length as u64);
        let input = |_| match writing {
            Writing::Encoding(flavor) if self == Kind::Damaged => {
                self.damaged(flavor, &mut random, length)
            }
            _ => self.whole(writing, &mut random, length),
        };
        let bytes: Vec<u8> = (0..COUNT).flat_map(input).collect();
        Inputs {
            bytes: at_page_start(&bytes),
            length,
        }
    }
}

/// The table of one call on all kinds and lengths.
struct Part<'a> {
    action: Action,
    flavor: Flavor,
    grid: Grid<'a>,
}

impl Part<'_> {
    fn add(&mut self, kind: Kind, inputs: Inputs) -> Result<(), String> {
        let title = kind.title();
        let case = Case::new(self.action, self.flavor, title, inputs);
        self.grid
            .add(title, Column::Length(inputs.length), |codec| {
                case.measured(codec)
            })
    }
}

extern "C" fn nothing(_: *const u8, length: usize, _: *mut u8, _: usize) -> Outcome {
    Outcome {
        length,
        has_answer: true,
        is_borrowed: true,
        is_invalid: false,
    }
}

/// A call that does nothing: the cost of calling.
pub struct Nothing(pub Measured);

impl Nothing {
    pub fn new() -> Nothing {
        let inputs = Kind::Ascii.inputs(Writing::Utf8, LENGTHS[0]);
        Nothing(Measured::of_inputs(nothing, inputs))
    }
}

pub fn heading(action: Action, flavor: Flavor) -> String {
    format!("`{}` on short strings, in ns", path(action, flavor))
}

fn parts(codecs: &[Codec]) -> Vec<Part<'_>> {
    let mut parts = Vec::new();
    for flavor in FLAVORS {
        parts.extend(ACTIONS.map(|action| Part {
            action,
            flavor,
            grid: Grid::of(codecs, heading(action, flavor), Unit::Nanoseconds),
        }));
    }
    parts
}

pub fn grids(codecs: &[Codec]) -> Result<Vec<Grid<'_>>, String> {
    let mut parts = parts(codecs);
    for kind in KINDS {
        for length in LENGTHS {
            for writing in WRITINGS {
                add(&mut parts, kind, writing, length)?;
            }
        }
    }
    Ok(parts.into_iter().map(|part| part.grid).collect())
}

/// Adds a cell to the table of each call whose input has this form.
fn add(parts: &mut [Part], kind: Kind, writing: Writing, length: usize) -> Result<(), String> {
    if !kind.exists(writing, length) {
        return Ok(());
    }
    let inputs = kind.inputs(writing, length);
    for part in parts {
        if Writing::taken_by(part.action, part.flavor) == writing {
            part.add(kind, inputs)?;
        }
    }
    Ok(())
}
