//! The calls of a codec: this library, which is linked, or one in a shared object.

pub use crate::actions::{ACTIONS, Action, Flavor};
use std::ffi::{CStr, CString, c_char, c_int, c_void};
use std::mem;

/// The result of a call: `measured_outcome` of measured.h, which says what the fields mean.
#[repr(C)]
#[derive(Clone, Copy)]
pub struct Outcome {
    pub length: usize,
    pub has_answer: bool,
    pub is_borrowed: bool,
    pub is_invalid: bool,
}

pub type Call = unsafe extern "C" fn(*const u8, usize, *mut u8, usize) -> Outcome;

/// Calls the library for each of many texts of one length, one after another, and this several times.
/// The outcome's length is the sum of the results' lengths.
pub type EachCall = unsafe extern "C" fn(*const u8, usize, usize, usize) -> Outcome;

macro_rules! linked_calls {
    ($list:ident: $call:ty, fn $arguments:tt, $($symbol:ident),* $(,)?) => {
        unsafe extern "C" {
            $(fn $symbol $arguments -> Outcome;)*
        }

        /// The linked calls with this signature, by name.
        const $list: &[(&str, $call)] = &[$((stringify!($symbol), $symbol)),*];
    };
}

linked_calls! {
    LINKED: Call,
    fn(input: *const u8, length: usize, buf: *mut u8, buf_length: usize),
    measured_encode,
    measured_mutf8_encode,
    measured_encoded_len,
    measured_mutf8_encoded_len,
    measured_decode,
    measured_mutf8_decode,
    measured_decode_strict,
    measured_mutf8_decode_strict,
    measured_decode_lossy,
    measured_mutf8_decode_lossy,
    measured_decode_lossy_strict,
    measured_mutf8_decode_lossy_strict,
    measured_lossy_len,
    measured_mutf8_lossy_len,
    measured_contains_utf8_4_byte_char_header,
    measured_contains_null_or_utf8_4_byte_char_header,
}

linked_calls! {
    LINKED_EACH: EachCall,
    fn(texts: *const u8, texts_length: usize, length: usize, times: usize),
    measured_encode_each,
    measured_mutf8_encode_each,
    measured_encoded_len_each,
    measured_mutf8_encoded_len_each,
}

/// Calls that another codec may have in addition or instead: their input is bytes that the caller
/// knows to be UTF-8.
const TEXT_CALLS: [&str; 2] = ["measured_encode_text", "measured_mutf8_encode_text"];

unsafe extern "C" {
    fn dlopen(file: *const c_char, flags: c_int) -> *mut c_void;
    fn dlsym(object: *mut c_void, name: *const c_char) -> *mut c_void;
    fn dlerror() -> *const c_char;
}

const RTLD_NOW: c_int = 2;

pub const FLAVORS: [Flavor; 2] = [Flavor::Cesu8, Flavor::Mutf8];

impl Flavor {
    pub fn other(self) -> Flavor {
        match self {
            Flavor::Cesu8 => Flavor::Mutf8,
            Flavor::Mutf8 => Flavor::Cesu8,
        }
    }
}

impl Action {
    /// Whether the input is a text, as its UTF-8.
    pub fn takes_text(self) -> bool {
        matches!(self, Action::Encode | Action::EncodedLength)
    }

    /// Whether the call only returns a length, and writes nothing.
    pub fn tells_length(self) -> bool {
        matches!(self, Action::EncodedLength | Action::LossyLength)
    }
}

/// A test whether encoding changes some byte.
#[derive(Clone, Copy, PartialEq)]
pub enum Kernel {
    Four,
    NullFour,
}

pub const KERNELS: [Kernel; 2] = [Kernel::Four, Kernel::NullFour];

impl Kernel {
    pub fn title(self) -> &'static str {
        match self {
            Kernel::Four => "contains_utf8_4_byte_char_header",
            Kernel::NullFour => "contains_null_or_utf8_4_byte_char_header",
        }
    }
}

pub fn call_name(action: Action, flavor: Flavor) -> String {
    let prefix = match flavor {
        Flavor::Cesu8 => "measured_",
        Flavor::Mutf8 => "measured_mutf8_",
    };
    format!("{prefix}{}", action.title())
}

/// An encoding as the title of a column.
pub fn encoding_title(flavor: Flavor) -> &'static str {
    match flavor {
        Flavor::Cesu8 => "CESU-8",
        Flavor::Mutf8 => "MUTF-8",
    }
}

/// A call as the library's pages name it.
pub fn path(action: Action, flavor: Flavor) -> String {
    match flavor {
        Flavor::Cesu8 => action.title().to_string(),
        Flavor::Mutf8 => format!("mutf8::{}", action.title()),
    }
}

/// What is measured: a call on one input at a time, or an export that makes it on each of many texts.
#[derive(Clone, Copy)]
pub enum MeasuredCall {
    One(Call),
    Each(EachCall),
}

/// The calls of one codec, by name. An older build or another codec may have only some of them.
pub struct Codec {
    pub name: String,
    /// The processor level for which this library is built; `None` for another codec.
    pub level: Option<String>,
    calls: Vec<(String, Call)>,
    each_calls: Vec<(String, EachCall)>,
}

/// Finds a call of a shared object by its name. In other codecs and in older builds of this library
/// the name may begin with `cesu8_static_`.
fn found_in(object: *mut c_void, call: &str) -> Option<*mut c_void> {
    let other_name = call.replacen("measured_", "cesu8_static_", 1);
    [call, &other_name].into_iter().find_map(|symbol| {
        let symbol = CString::new(symbol).ok()?;
        let found = unsafe { dlsym(object, symbol.as_ptr()) };
        (!found.is_null()).then_some(found)
    })
}

fn owned<C: Copy>(calls: &[(&str, C)]) -> Vec<(String, C)> {
    let calls = calls.iter();
    calls
        .map(|(name, call)| (name.to_string(), *call))
        .collect()
}

fn named<C: Copy>(calls: &[(String, C)], name: &str) -> Option<C> {
    let found = calls.iter().find(|call| call.0 == name);
    found.map(|call| call.1)
}

impl Codec {
    pub fn linked(level: &str) -> Codec {
        Codec {
            name: "simd_cesu8".to_string(),
            level: Some(level.to_string()),
            calls: owned(LINKED),
            each_calls: owned(LINKED_EACH),
        }
    }

    /// Opens a build of this library for another level.
    pub fn built_for(level: &str, file: &str) -> Result<Codec, String> {
        let codec = Codec::opened("simd_cesu8", file)?;
        Ok(Codec {
            level: Some(level.to_string()),
            ..codec
        })
    }

    /// Opens another codec.
    pub fn opened(name: &str, file: &str) -> Result<Codec, String> {
        let path = CString::new(file).map_err(|e| e.to_string())?;
        let object = unsafe { dlopen(path.as_ptr(), RTLD_NOW) };
        if object.is_null() {
            return Err(unsafe { CStr::from_ptr(dlerror()) }
                .to_string_lossy()
                .into_owned());
        }
        let mut codec = Codec {
            name: name.to_string(),
            level: None,
            calls: Vec::new(),
            each_calls: Vec::new(),
        };
        for name in LINKED.iter().map(|(name, _)| *name).chain(TEXT_CALLS) {
            if let Some(found) = found_in(object, name) {
                let call = unsafe { mem::transmute::<*mut c_void, Call>(found) };
                codec.calls.push((name.to_string(), call));
            }
        }
        for (name, _) in LINKED_EACH {
            if let Some(found) = found_in(object, name) {
                let call = unsafe { mem::transmute::<*mut c_void, EachCall>(found) };
                codec.each_calls.push((name.to_string(), call));
            }
        }
        if codec.calls.is_empty() {
            return Err(format!("{file} has none of the calls"));
        }
        Ok(codec)
    }

    pub fn call(&self, action: Action, flavor: Flavor) -> Option<Call> {
        named(&self.calls, &call_name(action, flavor))
    }

    /// The call for a text without a test for UTF-8: for one text, or otherwise for many.
    pub fn text_call(&self, action: Action, flavor: Flavor) -> Option<MeasuredCall> {
        let name = call_name(action, flavor);
        let one = named(&self.calls, &format!("{name}_text"));
        let each = named(&self.each_calls, &format!("{name}_each"));
        one.map(MeasuredCall::One).or(each.map(MeasuredCall::Each))
    }

    pub fn kernel(&self, kernel: Kernel) -> Option<Call> {
        named(&self.calls, &format!("measured_{}", kernel.title()))
    }
}

/// Makes a call with this buffer.
pub fn outcome(call: Call, input: &[u8], buf: &mut [u8]) -> Outcome {
    unsafe { call(input.as_ptr(), input.len(), buf.as_mut_ptr(), buf.len()) }
}

/// Whether a call returns and writes `answer`. A call that only returns a length must return that of
/// `answer`.
pub fn answers(call: Call, action: Action, input: &[u8], answer: &[u8]) -> bool {
    let mut buf = vec![0; answer.len()];
    let outcome = outcome(call, input, &mut buf);
    outcome.has_answer
        && !outcome.is_invalid
        && outcome.length == answer.len()
        && outcome.is_borrowed == (answer == input && !action.tells_length())
        && (buf == answer || action.tells_length())
}

/// Whether a call rejects an input.
fn refuses(call: Call, input: &[u8]) -> bool {
    let outcome = outcome(call, input, &mut []);
    outcome.is_invalid && !outcome.has_answer
}

/// An input for a call, and the result that it must return, or `None` if it must reject the input.
pub struct Question<'a> {
    pub action: Action,
    pub flavor: Flavor,
    pub kind: &'a str,
    pub input: &'a [u8],
    pub answer: Option<&'a [u8]>,
}

impl Question<'_> {
    fn is_answered_by(&self, call: Call) -> bool {
        match self.answer {
            Some(answer) => answers(call, self.action, self.input, answer),
            None => refuses(call, self.input),
        }
    }

    /// Returns an error if this call of a codec returns something else.
    pub fn check(&self, codec: &Codec, call: Call) -> Result<(), String> {
        if self.is_answered_by(call) {
            return Ok(());
        }
        Err(format!(
            "{}: {} answers wrongly on {} bytes of {}",
            codec.name,
            call_name(self.action, self.flavor),
            self.input.len(),
            self.kind
        ))
    }
}
