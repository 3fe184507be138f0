//! What is told of a lookup.

/// Why there is no code for an index in an area that reads well.
pub fn not_found(index: u32, fixed: &[u8]) -> String {
    if index == u32::MAX {
        return format!("index {index} is never found; its entries are told apart by their codes");
    }
    let entries: Vec<&[u8]> = fixed.split_inclusive(|&byte| byte == 0).collect();
    let why = match entries.get(index as usize) {
        None if fixed.is_empty() => String::from("the fixed list is empty"),
        None => format!("the last entry of the fixed list is {}", entries.len() - 1),
        Some(&[0]) => format!("entry {index} of the fixed list is empty"),
        Some(_) => format!("entry {index} of the fixed list, its last, has no NUL after it"),
    };
    format!("index {index} is not found: the area does not list it, and {why}")
}

#[cfg(test)]
mod tests {
    use super::not_found;

    #[test]
    fn what_is_not_found_has_a_reason() {
        let told = |index, fixed| not_found(index, fixed);
        let front = |index| format!("index {index} is not found: the area does not list it, and");
        assert_eq!(told(0, b""), format!("{} the fixed list is empty", front(0)));
        assert_eq!(told(2, b"a\0b\0"), format!("{} the last entry of the fixed list is 1", front(2)));
        assert_eq!(told(1, b"a\0\0b\0"), format!("{} entry 1 of the fixed list is empty", front(1)));
        let last = "entry 1 of the fixed list, its last, has no NUL after it";
        assert_eq!(told(1, b"a\0bc"), format!("{} {last}", front(1)));
        let never = "index 4294967295 is never found; its entries are told apart by their codes";
        assert_eq!(told(u32::MAX, b"a\0"), never);
    }
}
