//! The calls that are measured, and the two encodings, for both programs: driver.rs and plain.rs.

#[derive(Clone, Copy, PartialEq, Eq, PartialOrd, Ord)]
pub enum Flavor {
    Cesu8,
    Mutf8,
}

#[derive(Clone, Copy, PartialEq)]
pub enum Action {
    Encode,
    EncodedLength,
    Decode,
    DecodeStrict,
    DecodeLossy,
    DecodeLossyStrict,
    LossyLength,
}

pub const ACTIONS: [Action; 7] = [
    Action::Encode,
    Action::EncodedLength,
    Action::Decode,
    Action::DecodeStrict,
    Action::DecodeLossy,
    Action::DecodeLossyStrict,
    Action::LossyLength,
];

impl Action {
    pub fn title(self) -> &'static str {
        match self {
            Action::Encode => "encode",
            Action::EncodedLength => "encoded_len",
            Action::Decode => "decode",
            Action::DecodeStrict => "decode_strict",
            Action::DecodeLossy => "decode_lossy",
            Action::DecodeLossyStrict => "decode_lossy_strict",
            Action::LossyLength => "lossy_len",
        }
    }
}
