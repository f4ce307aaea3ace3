//! The inputs of 16,380 bytes, and kinds of text for other lengths, made from a fixed seed.

use crate::codec::Flavor;
use crate::expected::encoded;
use std::alloc::{Layout, alloc};
use std::{ptr, slice};

/// A multiple of the lengths of the patterns that are repeated below, and of those of all characters.
pub const INPUT_LENGTH: usize = 16_380;
pub const SEED: u64 = 16_380;

/// The random number generator SplitMix64.
pub struct Random(pub u64);

impl Random {
    pub fn next(&mut self) -> u64 {
        self.0 = self.0.wrapping_add(0x9E37_79B9_7F4A_7C15);
        let mut z = self.0;
        z = (z ^ z >> 30).wrapping_mul(0xBF58_476D_1CE4_E5B9);
        z = (z ^ z >> 27).wrapping_mul(0x94D0_49BB_1331_11EB);
        z ^ z >> 31
    }

    pub fn character(&mut self, low: u32, high: u32) -> char {
        loop {
            let number = low + (self.next() % u64::from(high - low + 1)) as u32;
            if let Some(character) = char::from_u32(number) {
                return character;
            }
        }
    }

    fn text(&mut self, low: u32, high: u32, count: usize) -> String {
        (0..count).map(|_| self.character(low, high)).collect()
    }
}

/// One input, and the UTF-8 of its text.
pub struct Set {
    pub name: &'static str,
    pub input: &'static [u8],
    pub text: &'static [u8],
}

/// Copies bytes to the start of a page, so that the alignment of an input does not change its time.
/// The copy is never freed.
pub fn at_page_start(bytes: &[u8]) -> &'static mut [u8] {
    let layout = Layout::from_size_align(bytes.len(), 4096).expect("a few pages");
    // SAFETY: no input is empty.
    let start = unsafe { alloc(layout) };
    assert!(!start.is_null(), "out of memory");
    // SAFETY: so many bytes begin at `start`, which nothing else refers to, and all are written.
    unsafe {
        ptr::copy_nonoverlapping(bytes.as_ptr(), start, bytes.len());
        slice::from_raw_parts_mut(start, bytes.len())
    }
}

impl Set {
    fn of_text(name: &'static str, text: String) -> Set {
        let input = at_page_start(text.as_bytes());
        Set {
            name,
            input,
            text: input,
        }
    }

    fn of_encoding(name: &'static str, flavor: Flavor, text: String) -> Set {
        let input = at_page_start(&encoded(flavor, &text));
        Set {
            name,
            input,
            text: at_page_start(text.as_bytes()),
        }
    }

    pub fn is_utf8(&self) -> bool {
        self.input == self.text
    }
}

pub fn sets() -> Vec<Set> {
    let mut random = Random(SEED);
    let mixed = "a\u{205}\u{20AC}\u{10400}\0\u{7FF}\u{FFFF}\u{1F496}";
    let mixed_cesu8 = "a\u{205}\u{20AC}\u{10400}";
    let mixed_mutf8 = "a\u{205}\u{20AC}\u{10400}\0\u{7FF}\u{FFFF}\u{1F496}z";

    let ascii = random.text(0x01, 0x7F, INPUT_LENGTH);
    let in_turn = random
        .text(0x01, 0x7F, INPUT_LENGTH / 2)
        .chars()
        .flat_map(|c| [c, '\0'])
        .collect();
    let two = random.text(0x80, 0x7FF, INPUT_LENGTH / 2);
    let three = random.text(0x800, 0xFFFF, INPUT_LENGTH / 3);
    let four = random.text(0x1_0000, 0x10_FFFF, INPUT_LENGTH / 4);
    let pairs = random.text(0x1_0000, 0x10_FFFF, INPUT_LENGTH / 6);

    let sets = vec![
        Set::of_text("ASCII without null", ascii),
        Set::of_text("ASCII and null in turn", in_turn),
        Set::of_text("mixed UTF-8", mixed.repeat(INPUT_LENGTH / 20)),
        Set::of_text("null alone", "\0".repeat(INPUT_LENGTH)),
        Set::of_text("two-byte characters", two),
        Set::of_text("three-byte characters", three),
        Set::of_text("four-byte characters", four),
        Set::of_encoding(
            "mixed CESU-8",
            Flavor::Cesu8,
            mixed_cesu8.repeat(INPUT_LENGTH / 12),
        ),
        Set::of_encoding(
            "mixed MUTF-8",
            Flavor::Mutf8,
            mixed_mutf8.repeat(INPUT_LENGTH / 26),
        ),
        Set::of_encoding("C0 80 alone", Flavor::Mutf8, "\0".repeat(INPUT_LENGTH / 2)),
        Set::of_encoding("surrogate pairs alone", Flavor::Cesu8, pairs),
    ];
    for set in &sets {
        assert_eq!(set.input.len(), INPUT_LENGTH, "{}", set.name);
    }
    sets
}

/// A kind of text. Encoding is measured on all of them. hostile.rs makes encodings of some, and
/// kernels.rs uses ASCII.
#[derive(Clone, Copy, PartialEq)]
pub enum Kind {
    Ascii,
    Two,
    Three,
    Pattern,
    Four,
    Null,
    NullInTurn,
    Random,
    RandomWithNull,
    SparseAscii,
    Sparse,
}

impl Kind {
    pub const ALL: [Kind; 11] = [
        Kind::Ascii,
        Kind::Two,
        Kind::Three,
        Kind::Pattern,
        Kind::Four,
        Kind::Null,
        Kind::NullInTurn,
        Kind::Random,
        Kind::RandomWithNull,
        Kind::SparseAscii,
        Kind::Sparse,
    ];

    pub fn title(self) -> &'static str {
        match self {
            Kind::Ascii => "ASCII without null",
            Kind::Two => "two-byte characters",
            Kind::Three => "three-byte characters",
            Kind::Pattern => "mixed UTF-8",
            Kind::Four => "four-byte characters",
            Kind::Null => "null alone",
            Kind::NullInTurn => "ASCII and null in turn",
            Kind::Random => "random widths",
            Kind::RandomWithNull => "random widths and null",
            Kind::SparseAscii => "ASCII, one emoji in 97",
            Kind::Sparse => "one to three bytes, one emoji in 97",
        }
    }

    /// Whether characters of different lengths follow one another without a short pattern, which a
    /// branch predictor would learn.
    pub fn is_by_chance(self) -> bool {
        matches!(
            self,
            Kind::Random | Kind::RandomWithNull | Kind::SparseAscii | Kind::Sparse
        )
    }

    /// The character at this index of a text of this kind.
    pub fn character(self, random: &mut Random, place: usize) -> char {
        let is_emoji = place % 97 == 10;
        match self {
            Kind::Ascii => random.character(0x01, 0x7F),
            Kind::Two => random.character(0x80, 0x7FF),
            Kind::Three => random.character(0x800, 0xFFFF),
            Kind::Pattern => [
                'a',
                '\u{205}',
                '\u{20AC}',
                '\u{10400}',
                '\0',
                '\u{7FF}',
                '\u{FFFF}',
                '\u{1F496}',
            ][place % 8],
            Kind::Four => random.character(0x1_0000, 0x10_FFFF),
            Kind::Null => '\0',
            Kind::NullInTurn if place % 2 == 1 => '\0',
            Kind::NullInTurn => random.character(0x01, 0x7F),
            Kind::Random => of_any_length(random, 4),
            Kind::RandomWithNull => of_any_length(random, 5),
            Kind::SparseAscii | Kind::Sparse if is_emoji => '\u{1F496}',
            Kind::SparseAscii => random.character(0x01, 0x7F),
            Kind::Sparse => of_any_length(random, 3),
        }
    }
}

/// A random character of the first `kinds` of these kinds: one, two, three or four bytes, and U+0000.
pub fn of_any_length(random: &mut Random, kinds: u64) -> char {
    match random.next() % kinds {
        0 => random.character(0x01, 0x7F),
        1 => random.character(0x80, 0x7FF),
        2 => random.character(0x800, 0xFFFF),
        3 => random.character(0x1_0000, 0x10_FFFF),
        _ => '\0',
    }
}

/// A text of this kind with this many bytes, filled up with ASCII.
pub fn text_of(kind: Kind, length: usize) -> &'static [u8] {
    let mut random = Random(SEED);
    let mut text = String::with_capacity(length);
    let mut place = 0;
    while length - text.len() >= 4 {
        text.push(kind.character(&mut random, place));
        place += 1;
    }
    while text.len() < length {
        text.push('z');
    }
    at_page_start(text.as_bytes())
}

/// This many bytes of encoded characters, the last of them ASCII. If `damaged_in` is a number, about
/// one byte in so many is replaced by a random one.
pub fn encoded_bytes(
    flavor: Flavor,
    length: usize,
    damaged_in: Option<u64>,
    random: &mut Random,
    character: impl Fn(&mut Random, usize) -> char,
) -> Vec<u8> {
    let mut bytes = Vec::with_capacity(length);
    let mut place = 0;
    while length - bytes.len() > 6 {
        let next = character(random, place);
        bytes.extend(encoded(flavor, &next.to_string()));
        place += 1;
    }
    if let Some(distance) = damaged_in {
        for byte in &mut bytes {
            if random.next() % distance == 0 {
                *byte = random.next() as u8;
            }
        }
    }
    bytes.resize(length, b'z');
    bytes
}
