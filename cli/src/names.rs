//! Names of files as the system has them, which need not be UTF-8: a byte that is not is carried through texts as a letter for
//! private use, and so is what would be taken for one.

use std::ffi::{OsStr, OsString};
use std::os::unix::ffi::{OsStrExt, OsStringExt};
use std::path::PathBuf;

/// The letter that carries byte 0; the others follow.
const CARRIER: u32 = 0xF700;
const BYTES: u32 = 256;

/// A word of the command line as a text.
pub fn carried(word: &OsStr) -> String {
    let mut text = String::new();
    for chunk in word.as_bytes().utf8_chunks() {
        chunk.valid().chars().for_each(|letter| match byte_of(letter) {
            Some(_) => text.extend(letter.encode_utf8(&mut [0; 4]).bytes().map(carrier)),
            None => text.push(letter),
        });
        text.extend(chunk.invalid().iter().copied().map(carrier));
    }
    text
}

/// The file that such a text names.
pub fn path(text: &str) -> PathBuf {
    let mut bytes = Vec::new();
    for letter in text.chars() {
        match byte_of(letter) {
            Some(byte) => bytes.push(byte),
            None => bytes.extend(letter.encode_utf8(&mut [0; 4]).bytes()),
        }
    }
    PathBuf::from(OsString::from_vec(bytes))
}

/// A text as it can be printed.
pub fn shown(text: &str) -> String {
    text.replace(|letter| byte_of(letter).is_some(), "\u{fffd}")
}

fn carrier(byte: u8) -> char {
    char::from_u32(CARRIER + u32::from(byte)).unwrap_or(char::REPLACEMENT_CHARACTER)
}

fn byte_of(letter: char) -> Option<u8> {
    u32::from(letter).checked_sub(CARRIER).filter(|byte| *byte < BYTES).map(|byte| byte as u8)
}

#[cfg(test)]
mod tests {
    use super::*;

    #[test]
    fn any_bytes_are_carried() {
        for name in
            [&b"doors.txt"[..], b"T\xfcr", "Tür".as_bytes(), b"\xff\xfe", "\u{f7fc}".as_bytes(), b"a\xed\xa0\x80b"]
        {
            assert_eq!(path(&carried(OsStr::from_bytes(name))), PathBuf::from(OsStr::from_bytes(name)));
        }
        assert_eq!(shown(&carried(OsStr::from_bytes(b"T\xfcr"))), "T\u{fffd}r");
    }
}
