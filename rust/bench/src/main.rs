//! Times the crate `cesu8_rattle` beside shared objects with the calls of other codecs, for run.sh:
//!
//!     bench ROUNDS FILE.so..
//!
//! Each row has an input set, a call, and for each codec the nanoseconds of one call: the least of
//! the rounds, in which the codecs take turns on many different inputs. Last come the families of
//! rows, each with the median, the least and the greatest quotient: the time of the fastest other
//! codec divided by the crate's. All codecs are called through one interface of C, with no copy of
//! the result. bench/measured.h declares that interface, and says what each call must do. In the
//! objects the names begin with `cesu8_static_`.

use std::borrow::Cow;
use std::collections::BTreeMap;
use std::ffi::{CString, c_char, c_int, c_void};
use std::hint::black_box;
use std::time::Instant;
use std::{env, slice, str};

use simd_cesu8::mutf8;

#[repr(C)]
struct Outcome {
    length: usize,
    has_answer: bool,
    is_borrowed: bool,
    is_invalid: bool,
}

type Call = unsafe extern "C" fn(*const u8, usize, *mut u8, usize) -> Outcome;

fn outcome(answer: Option<Cow<[u8]>>) -> Outcome {
    Outcome {
        length: answer.as_ref().map_or(0, |bytes| bytes.len()),
        has_answer: answer.is_some(),
        is_borrowed: matches!(answer, Some(Cow::Borrowed(_))),
        is_invalid: answer.is_none(),
    }
}

fn bytes_of(text: Cow<str>) -> Cow<[u8]> {
    match text {
        Cow::Borrowed(text) => Cow::Borrowed(text.as_bytes()),
        Cow::Owned(text) => Cow::Owned(text.into_bytes()),
    }
}

/// The crate's calls by the names of the others' symbols, and `utf8`, which calls core alone.
macro_rules! calls {
    ($($name:ident: $answer:expr;)*) => {
        $(extern "C" fn $name(input: *const u8, length: usize, _: *mut u8, _: usize) -> Outcome {
            // SAFETY: the bench passes a slice's pointer and length.
            let input = unsafe { slice::from_raw_parts(input, length) };
            let answer: fn(&[u8]) -> Option<Cow<[u8]>> = $answer;
            outcome(answer(input))
        })*

        const CALLS: &[(&str, Call)] = &[$((stringify!($name), $name)),*];
    };
}

/// # Safety
///
/// The bytes are UTF-8.
unsafe fn text(bytes: &[u8]) -> &str {
    // SAFETY: the caller's.
    unsafe { str::from_utf8_unchecked(bytes) }
}

calls! {
    encode_text: |bytes| Some(simd_cesu8::encode(unsafe { text(bytes) }));
    mutf8_encode_text: |bytes| Some(mutf8::encode(unsafe { text(bytes) }));
    utf8: |bytes| str::from_utf8(bytes).ok().map(|text| Cow::Borrowed(text.as_bytes()));
    decode: |bytes| simd_cesu8::decode(bytes).ok().map(bytes_of);
    mutf8_decode: |bytes| mutf8::decode(bytes).ok().map(bytes_of);
    decode_strict: |bytes| simd_cesu8::decode_strict(bytes).ok().map(bytes_of);
    mutf8_decode_strict: |bytes| mutf8::decode_strict(bytes).ok().map(bytes_of);
    decode_lossy: |bytes| Some(bytes_of(simd_cesu8::decode_lossy(bytes)));
    mutf8_decode_lossy: |bytes| Some(bytes_of(mutf8::decode_lossy(bytes)));
    decode_lossy_strict: |bytes| Some(bytes_of(simd_cesu8::decode_lossy_strict(bytes)));
    mutf8_decode_lossy_strict: |bytes| Some(bytes_of(mutf8::decode_lossy_strict(bytes)));
}

unsafe extern "C" {
    fn dlopen(file: *const c_char, flags: c_int) -> *mut c_void;
    fn dlsym(object: *mut c_void, name: *const c_char) -> *mut c_void;
}

fn call_of(object: *mut c_void, name: &str) -> Call {
    let symbol = CString::new(format!("cesu8_static_{name}")).unwrap();
    // SAFETY: `object` was opened, and the symbol is a call of this type.
    unsafe {
        let call = dlsym(object, symbol.as_ptr());
        assert!(!call.is_null(), "no {name}");
        std::mem::transmute::<*mut c_void, Call>(call)
    }
}

struct Random(u64);

impl Random {
    fn below(&mut self, end: u64) -> u64 {
        self.0 ^= self.0 << 13;
        self.0 ^= self.0 >> 7;
        self.0 ^= self.0 << 17;
        (self.0 >> 20) % end
    }

    fn character(&mut self, width: usize) -> char {
        let scalar = match width {
            1 => 0x20 + self.below(0x5F),
            2 => 0x80 + self.below(0x780),
            3 => 0x3000 + self.below(0x7000),
            _ => 0x1F300 + self.below(0x300),
        };
        char::from_u32(scalar as u32).unwrap()
    }

    /// A text of this kind, of `len` bytes.
    fn text(&mut self, kind: &str, len: usize) -> String {
        let mut text = String::new();
        // In texts of the kinds "emoji" and "null", the one character that changes begins here.
        let at = self.below(len.saturating_sub(3) as u64) as usize;
        let mut has_changed = false;
        while text.len() < len {
            let room = len - text.len();
            let width = match kind {
                "latin" if self.below(4) == 0 => 2,
                "cjk" => 3,
                "mixed" => 1 + self.below(4) as usize,
                "emoji" if text.len() >= at && !has_changed && room >= 4 => {
                    has_changed = true;
                    4
                }
                _ => 1,
            };
            if kind == "null" && text.len() >= at && !has_changed {
                has_changed = true;
                text.push('\0');
            } else {
                text.push(self.character(if width <= room { width } else { 1 }));
            }
        }
        text
    }
}

fn encoded(text: &str, is_mutf8: bool) -> Vec<u8> {
    if is_mutf8 { mutf8::encode(text).into_owned() } else { simd_cesu8::encode(text).into_owned() }
}

/// Returns the nanoseconds of one call for each codec: the least time of each batch, averaged over
/// the inputs.
fn time(codecs: &[Call], inputs: &[Vec<u8>], rounds: usize) -> Vec<f64> {
    let mut least = vec![f64::MAX; codecs.len()];
    // A batch takes about 20 microseconds, so that few are interrupted.
    let batch = (8000 / (40 + inputs[0].len())).clamp(1, inputs.len());
    let batches: Vec<&[Vec<u8>]> = inputs.chunks(batch).collect();
    let mut times = vec![vec![f64::MAX; batches.len()]; codecs.len()];
    for round in 0..rounds {
        for (number, batch) in batches.iter().enumerate() {
            for turn in 0..codecs.len() {
                let codec = (turn + round) % codecs.len();
                let start = Instant::now();
                for input in *batch {
                    let input = black_box(input);
                    // SAFETY: a buffer of no bytes is not written.
                    black_box(unsafe {
                        codecs[codec](input.as_ptr(), input.len(), std::ptr::dangling_mut(), 0)
                    });
                }
                let time = start.elapsed().as_nanos() as f64;
                times[codec][number] = times[codec][number].min(time);
            }
        }
    }
    for (least, times) in least.iter_mut().zip(&times) {
        *least = times.iter().sum::<f64>() / inputs.len() as f64;
    }
    least
}

fn size_class(len: usize) -> &'static str {
    match len {
        ..=8 => "4 to 8",
        ..=24 => "12 to 24",
        ..=64 => "32 to 64",
        ..=256 => "96 to 256",
        ..=1024 => "1,024",
        _ => "16 KB",
    }
}

struct Bench {
    objects: Vec<*mut c_void>,
    rounds: usize,
    families: BTreeMap<String, Vec<f64>>,
}

impl Bench {
    fn row(&mut self, set: &str, name: &str, inputs: &[Vec<u8>], family: String) {
        let mut codecs = vec![CALLS.iter().find(|(call, _)| *call == name).unwrap().1];
        codecs.extend(self.objects.iter().map(|object| call_of(*object, name)));
        let times = time(&codecs, inputs, self.rounds);
        let columns: Vec<String> = times.iter().map(|time| format!("{time:.1}")).collect();
        println!("{set}\t{name}\t{}", columns.join("\t"));
        let fastest = times[1..].iter().copied().fold(f64::MAX, f64::min);
        self.families.entry(family).or_default().push(fastest / times[0]);
    }

    /// Compares lenient decoding of UTF-8 with `core::str::from_utf8` alone.
    fn row_of_utf8(&mut self, set: &str, name: &str, inputs: &[Vec<u8>], size: &str) {
        let call_of = |name| CALLS.iter().find(|(call, _)| *call == name).unwrap().1;
        let times = time(&[call_of(name), call_of("utf8")], inputs, self.rounds);
        println!("{set}\t{name}, core\t{:.1}\t{:.1}", times[0], times[1]);
        let family = format!("decode UTF-8 of four bytes, core {size}");
        self.families.entry(family).or_default().push(times[1] / times[0]);
    }

    fn sets(&mut self, kinds: &[&str], lens: &[usize]) {
        let mut random = Random(0x1234_5678_9ABC_DEF1);
        for kind in kinds {
            for len in lens {
                let count = (120_000 / len).clamp(8, 1000);
                let texts: Vec<String> = (0..count).map(|_| random.text(kind, *len)).collect();
                let utf8: Vec<Vec<u8>> =
                    texts.iter().map(|text| text.clone().into_bytes()).collect();
                for is_mutf8 in [false, true] {
                    let prefix = if is_mutf8 { "mutf8_" } else { "" };
                    let bytes: Vec<Vec<u8>> =
                        texts.iter().map(|text| encoded(text, is_mutf8)).collect();
                    // For the names of the families: "built" if the calls return new memory, and
                    // otherwise the kind of text that they borrow.
                    let what = if bytes != utf8 {
                        "built"
                    } else if *kind == "ascii" {
                        "ASCII"
                    } else {
                        "unchanged"
                    };
                    let set = format!("{kind} {len}");
                    let size = size_class(*len);
                    self.row(
                        &set,
                        &format!("{prefix}encode_text"),
                        &utf8,
                        format!("encode {what} {size}"),
                    );
                    self.row(
                        &set,
                        &format!("{prefix}decode_strict"),
                        &bytes,
                        format!("decode_strict {what} {size}"),
                    );
                    self.row(
                        &set,
                        &format!("{prefix}decode"),
                        &bytes,
                        format!("decode {what} {size}"),
                    );
                    let call = format!("{prefix}decode_lossy_strict");
                    self.row(&set, &call, &bytes, format!("decode_lossy_strict {what} {size}"));
                    // UTF-8 with characters of four bytes, or with U+0000 for MUTF-8. A lenient
                    // call borrows it.
                    if what == "built" {
                        self.row_of_utf8(&set, &format!("{prefix}decode"), &utf8, size);
                        let family = format!("decode UTF-8 of four bytes {size}");
                        self.row(&set, &format!("{prefix}decode"), &utf8, family);
                    }
                    let mut damaged = bytes.clone();
                    for bytes in &mut damaged {
                        let at = random.below(bytes.len() as u64) as usize;
                        bytes[at] = 0xFF;
                    }
                    let call = format!("{prefix}decode_strict");
                    self.row(
                        &format!("{set} damaged"),
                        &call,
                        &damaged,
                        format!("rejected {size}"),
                    );
                    let mut damaged = bytes;
                    damaged.iter_mut().for_each(|bytes| bytes[0] = 0xFF);
                    self.row(
                        &format!("{set} damaged at 0"),
                        &call,
                        &damaged,
                        format!("rejected at once {size}"),
                    );
                }
            }
        }
    }
}

fn main() {
    let arguments: Vec<String> = env::args().skip(1).collect();
    let rounds =
        arguments.first().and_then(|rounds| rounds.parse().ok()).expect("bench ROUNDS FILE.so..");
    let open = |file: &String| {
        let file = CString::new(file.as_str()).unwrap();
        // SAFETY: a file's name, with RTLD_NOW.
        let object = unsafe { dlopen(file.as_ptr(), 2) };
        assert!(!object.is_null(), "{file:?}");
        object
    };
    let objects = arguments[1..].iter().map(open).collect();
    let mut bench = Bench { objects, rounds, families: BTreeMap::new() };
    let kinds = ["ascii", "latin", "cjk", "mixed", "emoji", "null"];
    bench.sets(&kinds, &[4, 8, 12, 16, 24, 32, 48, 64, 96, 256, 1024, 16384]);
    println!();
    for (family, mut quotients) in bench.families {
        quotients.sort_by(f64::total_cmp);
        let (low, high) = (quotients[0], quotients[quotients.len() - 1]);
        println!("{family}\t{:.2}\t{low:.2}\t{high:.2}", quotients[quotients.len() / 2]);
    }
}
