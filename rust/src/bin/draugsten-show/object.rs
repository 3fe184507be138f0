//! JSON objects, written member by member.

use std::fmt::Display;
use std::io::{self, Write};

/// An object that is being written.
pub struct Object<'a> {
    out: &'a mut dyn Write,
    separator: &'static [u8],
}

impl<'a> Object<'a> {
    pub fn begin(out: &'a mut dyn Write) -> Object<'a> {
        Object { out, separator: b"{\"" }
    }

    /// Begins a member; its value has to follow.
    pub fn member(&mut self, name: &str) -> io::Result<&mut dyn Write> {
        self.out.write_all(self.separator)?;
        self.out.write_all(name.as_bytes())?;
        self.out.write_all(b"\":")?;
        self.separator = b",\"";
        Ok(&mut *self.out)
    }

    /// A number, or true or false.
    pub fn number(&mut self, name: &str, number: impl Display) -> io::Result<()> {
        write!(self.member(name)?, "{number}")
    }

    pub fn text(&mut self, name: &str, text: impl Display) -> io::Result<()> {
        write_string(self.member(name)?, |out| write!(out, "{text}"))
    }

    /// A name or a code: each byte as the character of its number.
    pub fn characters(&mut self, name: &str, bytes: &[u8]) -> io::Result<()> {
        write_string(self.member(name)?, |out| out.write_all(bytes))
    }

    fn null(&mut self, name: &str) -> io::Result<()> {
        self.member(name)?.write_all(b"null")
    }

    pub fn number_or_null(&mut self, name: &str, number: Option<impl Display>) -> io::Result<()> {
        match number {
            Some(number) => self.number(name, number),
            None => self.null(name),
        }
    }

    pub fn text_or_null(&mut self, name: &str, text: Option<impl Display>) -> io::Result<()> {
        match text {
            Some(text) => self.text(name, text),
            None => self.null(name),
        }
    }

    /// An array, of which each item is written by a function.
    pub fn list<T>(
        &mut self,
        name: &str,
        items: impl IntoIterator<Item = T>,
        write_item: impl Fn(&mut dyn Write, T) -> io::Result<()>,
    ) -> io::Result<()> {
        let out = self.member(name)?;
        out.write_all(b"[")?;
        for (number, item) in items.into_iter().enumerate() {
            out.write_all(if number == 0 { b"" } else { b"," })?;
            write_item(out, item)?;
        }
        out.write_all(b"]")
    }

    pub fn end(self) -> io::Result<()> {
        self.out.write_all(b"}")
    }

    pub fn end_line(self) -> io::Result<()> {
        self.out.write_all(b"}\n")
    }
}

fn write_string(out: &mut dyn Write, fill: impl Fn(&mut Escaped<'_>) -> io::Result<()>) -> io::Result<()> {
    out.write_all(b"\"")?;
    fill(&mut Escaped(out))?;
    out.write_all(b"\"")
}

/// The inside of a string. All but visible ASCII and the blank is written by its number.
struct Escaped<'a>(&'a mut dyn Write);

impl Write for Escaped<'_> {
    fn write(&mut self, bytes: &[u8]) -> io::Result<usize> {
        let is_plain = |byte: &u8| (b' '..=b'~').contains(byte) && !b"\"\\".contains(byte);
        let plain = bytes.iter().position(|byte| !is_plain(byte)).unwrap_or(bytes.len());
        self.0.write_all(&bytes[..plain])?;
        match bytes.get(plain) {
            None => return Ok(plain),
            Some(b'"') => self.0.write_all(b"\\\"")?,
            Some(b'\\') => self.0.write_all(b"\\\\")?,
            Some(other) => write!(self.0, "\\u{other:04x}")?,
        }
        Ok(plain + 1)
    }

    fn flush(&mut self) -> io::Result<()> {
        self.0.flush()
    }
}

#[cfg(test)]
mod tests {
    use super::Object;

    #[test]
    fn members_stand_in_order() {
        let mut out = vec![];
        let mut object = Object::begin(&mut out);
        object.number("a", 1).unwrap();
        object.text_or_null("b", None::<&str>).unwrap();
        object.list("c", [1, 2], |out, number| write!(out, "{number}")).unwrap();
        object.number_or_null("d", Some(true)).unwrap();
        object.text("e", "").unwrap();
        object.end_line().unwrap();
        assert_eq!(String::from_utf8(out).unwrap(), "{\"a\":1,\"b\":null,\"c\":[1,2],\"d\":true,\"e\":\"\"}\n");
    }

    #[test]
    fn a_string_holds_any_bytes() {
        let mut out = vec![];
        let mut object = Object::begin(&mut out);
        object.characters("n", b"a \"b\"\\\n\x7f\xff~").unwrap();
        object.end().unwrap();
        let expected = r#"{"n":"a \"b\"\\\u000a\u007f\u00ff~"}"#;
        assert_eq!(String::from_utf8(out).unwrap(), expected);
    }
}
