//! `keys.c` in Rust: reads strings as Java's `DataOutput.writeUTF` writes them, and prints each
//! with its key for a store: its CESU-8. Keys that are compared byte by byte have the order of
//! Java's strings. To build it, with the folder of `libcesu8.a` in place of FOLDER:
//! `rustc --edition 2024 -L native=FOLDER -l static=cesu8 keys.rs`

const OK: u32 = 0;

#[repr(C)]
struct Answer {
    status: u32,
    length: usize,
}

#[repr(C)]
struct Reading {
    status: u32,
    length: usize,
    taken: usize,
}

unsafe extern "C" {
    fn cesu8_encoded_len(text: *const u8, length: usize) -> Answer;
    fn cesu8_encode(text: *const u8, length: usize, buffer: *mut u8, buffer_length: usize) -> Answer;
    fn cesu8_java_read(
        bytes: *const u8,
        length: usize,
        buffer: *mut u8,
        buffer_length: usize,
    ) -> Reading;
}

/// The CESU-8 of a text.
fn key_of(text: &str) -> Result<Vec<u8>, u32> {
    // A slice's pointer is never null, and a new vector shares no byte with the text.
    let mut key = vec![0; unsafe { cesu8_encoded_len(text.as_ptr(), text.len()) }.length];
    let buffer = key.as_mut_ptr();
    match unsafe { cesu8_encode(text.as_ptr(), text.len(), buffer, key.len()) }.status {
        OK => Ok(key),
        status => Err(status),
    }
}

/// Decodes the string at the start of the bytes. Returns it and how many bytes it takes.
fn read(bytes: &[u8]) -> Result<(String, usize), u32> {
    // The UTF-8 of a string is never longer than its MUTF-8.
    let mut text = vec![0; bytes.len()];
    let buffer = text.as_mut_ptr();
    let read = unsafe { cesu8_java_read(bytes.as_ptr(), bytes.len(), buffer, text.len()) };
    if read.status != OK {
        return Err(read.status);
    }
    text.truncate(read.length);
    let text = String::from_utf8(text).expect("what is read is UTF-8");
    Ok((text, read.taken))
}

fn print(name: &str, bytes: &[u8]) {
    let hex: Vec<String> = bytes.iter().map(|byte| format!(" {byte:02X}")).collect();
    println!("{name}{}", hex.concat());
}

fn main() -> Result<(), u32> {
    // "caf" and U+00E9, and "a", U+0000 and U+1F496.
    let mut rest = b"\0\x05caf\xC3\xA9\0\x09a\xC0\x80\xED\xA0\xBD\xED\xB2\x96".as_slice();
    while !rest.is_empty() {
        let (text, taken) = read(rest)?;
        print("text", text.as_bytes());
        print(" key", &key_of(&text)?);
        rest = &rest[taken..];
    }
    Ok(())
}
