//! Tests what programs written for `simd_cesu8` 1.2.0 rely on: types, traits, borrowing,
//! allocations. This package is a drop-in for that published crate, and its library has the same
//! name. Also tests what it promises beyond that: the calls that 1.2.0 lacks, and how much is
//! allocated.

use std::alloc::{GlobalAlloc, Layout, System};
use std::borrow::Cow;
use std::cell::Cell;
use std::error::Error;
use std::thread;

use simd_cesu8::{DecodingError, SliceError, java, mutf8};

/// Counts the allocations of a thread (`REQUESTS`), and keeps the size of the largest.
struct Counting;

thread_local! {
    static REQUESTS: Cell<usize> = const { Cell::new(0) };
    static LARGEST: Cell<usize> = const { Cell::new(0) };
}

fn count(size: usize) {
    REQUESTS.set(REQUESTS.get() + 1);
    LARGEST.set(LARGEST.get().max(size));
}

// SAFETY: it returns what `System` returns.
unsafe impl GlobalAlloc for Counting {
    unsafe fn alloc(&self, layout: Layout) -> *mut u8 {
        count(layout.size());
        // SAFETY: the caller's.
        unsafe { System.alloc(layout) }
    }

    unsafe fn dealloc(&self, at: *mut u8, layout: Layout) {
        // SAFETY: the caller's.
        unsafe { System.dealloc(at, layout) }
    }

    unsafe fn realloc(&self, at: *mut u8, layout: Layout, size: usize) -> *mut u8 {
        count(size);
        // SAFETY: the caller's.
        unsafe { System.realloc(at, layout, size) }
    }
}

#[global_allocator]
static ALLOCATOR: Counting = Counting;

/// Returns how many allocations a call makes, and the largest of them in bytes.
fn requests<T>(call: impl FnOnce() -> T) -> (usize, usize) {
    REQUESTS.set(0);
    LARGEST.set(0);
    let result = call();
    let found = (REQUESTS.get(), LARGEST.get());
    drop(result);
    found
}

/// Lengths on both sides of those at which the codec changes its strategy.
const LENGTHS: [usize; 17] =
    [0, 1, 7, 15, 26, 31, 32, 33, 63, 64, 65, 127, 129, 255, 1025, 4097, 70_000];

#[test]
fn allocations() {
    for len in LENGTHS {
        let ascii = "a".repeat(len);
        let pair = "\u{1F496}";
        for text in
            [format!("{ascii}{pair}"), format!("{pair}{ascii}"), format!("{ascii}{pair}{ascii}\0")]
        {
            let encoded = simd_cesu8::encode(&text).into_owned();
            let encoded_mutf8 = mutf8::encode(&text).into_owned();
            assert_eq!(requests(|| simd_cesu8::encode(&text)), (1, encoded.len()), "{len}");
            assert_eq!(requests(|| mutf8::encode(&text)), (1, encoded_mutf8.len()), "{len}");
            let (count, most) = requests(|| simd_cesu8::decode_strict(&encoded));
            assert!(count == 1 && most <= encoded.len(), "{len}: {count} of {most}");
            let (count, most) = requests(|| mutf8::decode(&encoded_mutf8));
            assert!(count == 1 && most <= encoded_mutf8.len(), "{len}: {count} of {most}");
            assert_eq!(requests(|| simd_cesu8::decode_lossy(&encoded)), (1, text.len()), "{len}");

            // Damage at the start, in the middle or at the end is found before memory is allocated.
            for at in [0, len / 2, encoded.len() - 1] {
                let mut damaged = encoded.clone();
                damaged[at] = 0xFF;
                assert!(simd_cesu8::decode_strict(&damaged).is_err());
                assert_eq!(requests(|| simd_cesu8::decode_strict(&damaged)).0, 0, "{len} at {at}");
                assert_eq!(requests(|| mutf8::decode(&damaged)).0, 0, "{len} at {at}");
                let lossy = simd_cesu8::lossy_len(&damaged).unwrap();
                assert_eq!(
                    requests(|| simd_cesu8::decode_lossy(&damaged)),
                    (1, lossy),
                    "{len} at {at}"
                );
            }
        }
        let same = format!("{ascii}\u{20AC}\u{E9}");
        assert_eq!(requests(|| simd_cesu8::encode(&same)).0, 0, "{len}");
        assert_eq!(requests(|| mutf8::decode_strict(same.as_bytes())).0, 0, "{len}");
        assert_eq!(requests(|| simd_cesu8::decode(ascii.as_bytes())).0, 0, "{len}");
        let mut buf = Vec::with_capacity(2 * same.len());
        assert_eq!(requests(|| simd_cesu8::encode_into(&same, &mut buf)).0, 0, "{len}");
        let mut buf = Vec::new();
        assert_eq!(requests(|| mutf8::encode_into(&same, &mut buf)).0, 1, "{len}");
    }
}

/// Bytes that no call decodes strictly: `len` characters, with damage at the start, in the middle
/// or at the end.
fn rejected(len: usize) -> Vec<Vec<u8>> {
    let damage: [&[u8]; 6] =
        [b"\xFF", b"\xED\xA0\xBD", b"\xED\xB2\x96", b"\xC1\x80", b"\xE2\x82", b"\x80"];
    let mut all = Vec::new();
    for character in ["a", "\u{E9}", "\u{1F496}"] {
        let text = simd_cesu8::encode(&character.repeat(len)).into_owned();
        let width = simd_cesu8::encode(character).len();
        for damage in damage {
            for at in [0, len / 2, len] {
                let mut bytes = text.clone();
                bytes.splice(width * at..width * at, damage.iter().copied());
                all.push(bytes);
            }
        }
    }
    all
}

/// Each call that may reject its input rejects it before it allocates.
#[test]
fn rejected_without_memory() {
    let lengths = LENGTHS.into_iter().filter(|len| *len < 5000);
    for bytes in lengths.flat_map(rejected) {
        macro_rules! rejects {
            ($($call:expr;)*) => {
                $({
                    let mut is_error = false;
                    let (count, _) = requests(|| is_error = $call.is_err());
                    assert!(is_error && count == 0, "{} of {bytes:02X?}", stringify!($call));
                })*
            };
        }
        let mut buf = vec![0xEE; 3 * bytes.len()];
        rejects! {
            simd_cesu8::decode_strict(&bytes);
            simd_cesu8::decode(&bytes);
            simd_cesu8::decode_strict_to_slice(&bytes, &mut buf);
            simd_cesu8::decode_to_slice(&bytes, &mut buf);
            mutf8::decode_strict(&bytes);
            mutf8::decode(&bytes);
            mutf8::decode_strict_to_slice(&bytes, &mut buf);
            mutf8::decode_to_slice(&bytes, &mut buf);
        }
        if let Ok(count) = u16::try_from(bytes.len()) {
            let counted = [&count.to_be_bytes()[..], &bytes].concat();
            rejects! {
                java::read_utf(&counted);
                java::read_utf(&counted[..counted.len() - 1]);
            }
        }
    }
    let (text, mut buf) = ("a".repeat(0x1_0000), Vec::new());
    let (count, _) = requests(|| assert!(java::write_utf(&text, &mut buf).is_err()));
    assert_eq!(count, 0);
}

#[test]
fn errors() {
    let error = simd_cesu8::decode_strict(b"\xFF").unwrap_err();
    let copy = error;
    assert_eq!(error, copy.clone());
    assert_eq!(size_of::<DecodingError>(), 0);
    assert_eq!(
        (format!("{error}"), format!("{error:>20}")),
        ("invalid input".into(), "invalid input".into())
    );
    assert_eq!(
        (format!("{error:?}"), format!("{error:20?}")),
        ("DecodingError".into(), "DecodingError".into())
    );
    let error: Box<dyn Error + Send + Sync> = Box::new(error);
    assert!(error.source().is_none());
    let error: Box<dyn Error + Send + Sync> = Box::new(SliceError::TooShort { needed: 3 });
    assert_eq!(error.to_string(), "buffer too short");
}

/// The lifetime is the input's, and the types are those of `Cow`.
#[test]
fn types() {
    fn encode<'a>(text: &'a str) -> Cow<'a, [u8]> {
        simd_cesu8::encode(text)
    }
    fn decode<'a>(bytes: &'a [u8]) -> Result<Cow<'a, str>, DecodingError> {
        mutf8::decode(bytes)
    }
    let text = String::from("caf\u{E9}");
    let Cow::Borrowed(bytes) = encode(&text) else { panic!() };
    let Ok(Cow::Borrowed(decoded)) = decode(bytes) else { panic!() };
    assert!(std::ptr::eq(decoded, text.as_str()));
    type Strict = fn(&[u8]) -> Result<Cow<str>, DecodingError>;
    type Lossy = fn(&[u8]) -> Cow<str>;
    let calls: [Strict; 4] =
        [simd_cesu8::decode, simd_cesu8::decode_strict, mutf8::decode, mutf8::decode_strict];
    let lossy: [Lossy; 4] = [
        simd_cesu8::decode_lossy,
        simd_cesu8::decode_lossy_strict,
        mutf8::decode_lossy,
        mutf8::decode_lossy_strict,
    ];
    assert!(
        calls.iter().all(|call| call(b"a").is_ok()) && lossy.iter().all(|call| call(b"a") == "a")
    );
}

/// Slices of no bytes may be at any address.
#[test]
fn empty_slices() {
    let bytes = [0u8; 3];
    for empty in [&[][..], &bytes[..0], &bytes[3..]] {
        assert_eq!(simd_cesu8::decode(empty).unwrap(), "");
        assert_eq!(mutf8::decode_lossy_strict(empty), "");
        assert_eq!(simd_cesu8::decode_strict_to_slice(empty, &mut []), Ok(0));
        assert_eq!(mutf8::encode(std::str::from_utf8(empty).unwrap()), &b""[..]);
        assert_eq!(simd_cesu8::valid_up_to(empty), 0);
    }
    assert_eq!(simd_cesu8::encode_to_slice("a", &mut []), Err(SliceError::TooShort { needed: 1 }));
}

/// Threads that call together agree. On x86-64 the first call asks which features the processor
/// has, since these decide which functions later calls use. If no other test has called before,
/// these are the first calls.
#[test]
fn first_calls_at_once() {
    let text = "caf\u{E9} \u{1F496}\0".repeat(40);
    let encoded: Vec<Vec<u8>> = thread::scope(|scope| {
        let threads: Vec<_> =
            (0..8).map(|_| scope.spawn(|| mutf8::encode(&text).into_owned())).collect();
        threads.into_iter().map(|thread| thread.join().unwrap()).collect()
    });
    assert!(encoded.iter().all(|bytes| mutf8::decode(bytes).unwrap() == text));
}

#[test]
fn in_a_static() {
    static TEXT: std::sync::LazyLock<Vec<u8>> =
        std::sync::LazyLock::new(|| mutf8::encode("\0\u{1F496}").into_owned());
    assert_eq!(TEXT[..], *b"\xC0\x80\xED\xA0\xBD\xED\xB2\x96");
}
