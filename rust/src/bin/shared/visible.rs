//! Bytes as one word of a line.

/// Bytes as they are if they are visible; any other, and the backslash, by its number as `\x20`.
pub fn visible(bytes: &[u8]) -> String {
    let byte = |&byte: &u8| match byte {
        b'\\' => String::from("\\x5c"),
        0x21..=0x7e => char::from(byte).to_string(),
        _ => format!("\\x{byte:02x}"),
    };
    bytes.iter().map(byte).collect()
}

#[cfg(test)]
mod tests {
    use super::visible;

    #[test]
    fn bytes_are_one_word() {
        assert_eq!(visible(b"U78A9.001-P1~!"), "U78A9.001-P1~!");
        assert_eq!(visible(b"a b\\c\n\x01\x7f\x80\xff"), "a\\x20b\\x5cc\\x0a\\x01\\x7f\\x80\\xff");
        let all: Vec<u8> = (1..=255).collect();
        let told = visible(&all);
        assert!(told.bytes().all(|byte| (0x21..=0x7e).contains(&byte)));
        assert_eq!(told.len(), 93 + 4 * (255 - 93));
    }
}
