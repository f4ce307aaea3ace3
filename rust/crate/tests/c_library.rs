//! Compares the crate with the library for C of the same commit, which is proved. `CESU8_LIBRARY`
//! names its shared object, and `CESU8_INPUTS` is the number of inputs. Without the first nothing
//! is compared. tests/rust.sh of the repository sets both.
#![cfg(target_os = "linux")]

use std::borrow::Cow;
use std::env;
use std::ffi::{CString, c_char, c_int, c_void};

use simd_cesu8::{SliceError, mutf8};

#[repr(C)]
#[derive(Clone, Copy, Debug, PartialEq, Eq)]
struct Answer {
    status: u32,
    length: usize,
}

const OK: u32 = 0;
const INVALID: u32 = 2;
const TOO_SMALL: u32 = 5;

type Call = unsafe extern "C" fn(*const u8, usize, *mut u8, usize) -> Answer;

unsafe extern "C" {
    fn dlopen(file: *const c_char, flags: c_int) -> *mut c_void;
    fn dlsym(object: *mut c_void, name: *const c_char) -> *mut c_void;
}

fn call_of(object: *mut c_void, name: &str) -> Call {
    let symbol = CString::new(name).unwrap();
    // SAFETY: the object was opened, and the header gives the call this type.
    unsafe {
        let call = dlsym(object, symbol.as_ptr());
        assert!(!call.is_null(), "no {name}");
        std::mem::transmute::<*mut c_void, Call>(call)
    }
}

struct Random(u64);

impl Random {
    fn below(&mut self, end: u64) -> u64 {
        self.0 ^= self.0 << 13;
        self.0 ^= self.0 >> 7;
        self.0 ^= self.0 << 17;
        (self.0 >> 20) % end
    }

    /// Bytes that are put together from runs, characters in each encoding, and bytes of none.
    fn bytes(&mut self) -> Vec<u8> {
        let len = [40, 90, 300, 1500, 9000][self.below(5).min(self.below(5)) as usize];
        let len = self.below(len) as usize;
        // Most inputs have few kinds of parts, so that some are UTF-8, or an encoding.
        let kinds = 1 + self.below(12);
        let mut bytes = Vec::new();
        while bytes.len() < len {
            match self.below(kinds) {
                0 => bytes.resize(bytes.len() + 1 + self.below(50) as usize, b'a'),
                1 => bytes.extend("\u{E9}\u{20AC}".bytes()),
                2 => bytes.extend([
                    0xED,
                    0xA0 + self.below(16) as u8,
                    0x80 + self.below(64) as u8,
                    0xED,
                    0xB2,
                    0x96,
                ]),
                3 => bytes.extend([0xC0, 0x80]),
                4 => bytes.extend("\u{1F496}".bytes()),
                5 => bytes.push(0),
                6 => bytes.extend([0xED, 0xA0 + self.below(32) as u8, 0x80 + self.below(64) as u8]),
                7 => bytes.push(0x80 + self.below(128) as u8),
                8 => bytes.extend([0xE0, 0x80 + self.below(64) as u8, 0x80 + self.below(64) as u8]),
                9 => bytes.extend([
                    0xF0 + self.below(8) as u8,
                    0x80 + self.below(64) as u8,
                    0x80,
                    0x80,
                ]),
                _ => bytes.push(self.below(256) as u8),
            }
        }
        bytes
    }
}

/// What a call of the crate returns for a slice of this length, in the form of the library for C, and
/// the slice.
fn returned(
    call: impl FnOnce(&mut [u8]) -> Result<usize, SliceError>,
    room: usize,
) -> (Answer, Vec<u8>) {
    let mut buf = vec![0xEE; room];
    let answer = match call(&mut buf) {
        Ok(length) => Answer { status: OK, length },
        Err(SliceError::Invalid) => Answer { status: INVALID, length: 0 },
        Err(SliceError::TooShort { needed }) => Answer { status: TOO_SMALL, length: needed },
        Err(error) => panic!("{error}"),
    };
    (answer, buf)
}

/// What a call of the library for C returns for a slice of this length, and the slice.
fn returned_by_c(call: Call, input: &[u8], room: usize) -> (Answer, Vec<u8>) {
    let mut buf = vec![0xEE; room];
    // SAFETY: pointers and lengths of slices.
    let answer = unsafe { call(input.as_ptr(), input.len(), buf.as_mut_ptr(), buf.len()) };
    (answer, buf)
}

/// Compares a call on slices with its export, in slices of more than enough bytes, of just enough,
/// and of one less. Both are compiled from the same source, so the whole slice has to be equal, also
/// after an error.
fn compare(
    export: Call,
    input: &[u8],
    call: &dyn Fn(&mut [u8]) -> Result<usize, SliceError>,
    what: &str,
) -> Option<Vec<u8>> {
    let room = 3 * input.len() + 5;
    let (answer, buf) = returned(call, room);
    assert_eq!(returned_by_c(export, input, room), (answer, buf.clone()), "{what} of {input:02X?}");
    for room in [answer.length, answer.length.saturating_sub(1)] {
        assert!(
            returned(call, room) == returned_by_c(export, input, room),
            "{what} of {input:02X?} to {room} bytes"
        );
    }
    (answer.status == OK).then(|| buf[..answer.length].to_vec())
}

/// Asserts that a call returns what the call of its name with `_to_slice` wrote, and borrows if and
/// only if no byte changes.
fn assert_built<T: ?Sized + ToOwned + AsRef<[u8]>>(
    result: Option<Cow<T>>,
    written: &Option<Vec<u8>>,
    input: &[u8],
) {
    assert_eq!(
        result.as_ref().map(|value| (**value).as_ref()),
        written.as_deref(),
        "of {input:02X?}"
    );
    if let (Some(value), Some(written)) = (result, written) {
        assert_eq!(matches!(value, Cow::Borrowed(_)), written == input, "of {input:02X?}");
    }
}

#[test]
fn agrees_with_the_library_for_c() {
    let Ok(library) = env::var("CESU8_LIBRARY") else {
        println!("CESU8_LIBRARY is not set: nothing compared");
        return;
    };
    let inputs: u64 = env::var("CESU8_INPUTS").map_or(2000, |inputs| inputs.parse().unwrap());
    let file = CString::new(library).unwrap();
    // SAFETY: a file's name, with RTLD_NOW.
    let object = unsafe { dlopen(file.as_ptr(), 2) };
    assert!(!object.is_null(), "{file:?} can't be opened");
    let export = |name: &str| call_of(object, name);
    let mut random = Random(0x0123_4567_89AB_CDEF);
    macro_rules! compare_all {
        ($prefix:literal, $calls:path, $input:expr) => {{
            use $calls as calls;
            let input: &[u8] = $input;
            macro_rules! of_bytes {
                ($name:ident, $slice:ident) => {
                    compare(
                        export(concat!($prefix, stringify!($name))),
                        input,
                        &|buf| calls::$slice(input, buf),
                        stringify!($name),
                    )
                };
            }
            assert_built(
                calls::decode_strict(input).ok(),
                &of_bytes!(decode_strict, decode_strict_to_slice),
                input,
            );
            assert_built(calls::decode(input).ok(), &of_bytes!(decode, decode_to_slice), input);
            assert_built(
                Some(calls::decode_lossy(input)),
                &of_bytes!(decode_lossy, decode_lossy_to_slice),
                input,
            );
            let written = of_bytes!(decode_lossy_strict, decode_lossy_strict_to_slice);
            assert_built(Some(calls::decode_lossy_strict(input)), &written, input);
            if let Ok(text) = std::str::from_utf8(input) {
                let call = export(concat!($prefix, "encode"));
                let written =
                    compare(call, input, &|buf| calls::encode_to_slice(text, buf), "encode");
                assert_built(Some(calls::encode(text)), &written, input);
            }
        }};
    }
    for _ in 0..inputs {
        let input = random.bytes();
        compare_all!("cesu8_", simd_cesu8, &input);
        compare_all!("cesu8_mutf8_", mutf8, &input);
    }
    println!("{inputs} inputs compared");
}
