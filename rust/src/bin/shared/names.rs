//! Names and other words of a user, as messages show them.

use std::ffi::OsStr;
use std::os::unix::ffi::OsStrExt;

/// A name in one line: a control character, a backslash and what is not UTF-8 are written as \xNN, byte by byte.
pub fn shown(name: impl AsRef<OsStr>) -> String {
    let mut text = String::new();
    for part in name.as_ref().as_bytes().utf8_chunks() {
        part.valid().chars().for_each(|next| show(next, &mut text));
        part.invalid().iter().for_each(|byte| text += &escape(*byte));
    }
    text
}

fn show(next: char, text: &mut String) {
    if next.is_control() || next == '\\' {
        next.encode_utf8(&mut [0; 4]).bytes().for_each(|byte| *text += &escape(byte));
    } else {
        text.push(next);
    }
}

fn escape(byte: u8) -> String {
    format!("\\x{byte:02x}")
}

#[cfg(test)]
mod tests {
    use super::shown;
    use std::ffi::OsStr;
    use std::os::unix::ffi::OsStrExt;

    #[test]
    fn a_name_is_one_line_without_controls() {
        let of = |bytes: &[u8]| shown(OsStr::from_bytes(bytes));
        assert_eq!(of(b"a b/c-1.txt"), "a b/c-1.txt");
        assert_eq!(of("Träger".as_bytes()), "Träger");
        assert_eq!(of(b"a\nb\x1b[2J\x7f\r\0"), "a\\x0ab\\x1b[2J\\x7f\\x0d\\x00");
        assert_eq!(of(b"\\x0a"), "\\x5cx0a");
        assert_eq!(of(b"t\xff\xc3"), "t\\xff\\xc3");
        assert_eq!(of("\u{9b}".as_bytes()), "\\xc2\\x9b");
    }
}
