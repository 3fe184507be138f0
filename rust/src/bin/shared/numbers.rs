//! Numbers, as they are given in arguments and in lists.

use super::names::shown;
use std::ffi::OsStr;
use std::ops::RangeInclusive;

/// A number in digits alone, decimal or after 0x hexadecimal, in a range; or what is wrong with the text, by the name of
/// what it was given for.
pub fn number(name: &str, text: &OsStr, range: RangeInclusive<u64>) -> Result<u64, String> {
    let value = text.to_str().and_then(value).filter(|value| range.contains(value));
    value.ok_or_else(|| {
        let (least, most, text) = (range.start(), range.end(), shown(text));
        format!("{name} needs a number from {least} to {most}, decimal or after 0x hexadecimal, and was given {text}")
    })
}

/// A size in bytes, so many at the most: a number, which K, M or G may follow.
pub fn size(name: &str, text: &OsStr, most: u64) -> Result<u64, String> {
    let value = text.to_str().map(scaled).and_then(|(text, scale)| value(text)?.checked_mul(scale));
    value.filter(|value| *value <= most).ok_or_else(|| {
        let form = "decimal or after 0x hexadecimal, which K, M or G may follow";
        format!("{name} needs a size from 0 to {most} bytes, {form}, and was given {}", shown(text))
    })
}

/// Whether a text has the form of a size, however large it is.
pub fn is_size(text: &OsStr) -> bool {
    text.to_str().is_some_and(|text| digits(scaled(text).0).is_some())
}

/// A text without the letter at its end, and what that stands for.
fn scaled(text: &str) -> (&str, u64) {
    let letters = [('K', 10), ('M', 20), ('G', 30)];
    let found = letters.into_iter().find_map(|(letter, bits)| Some((text.strip_suffix(letter)?, 1 << bits)));
    found.unwrap_or((text, 1))
}

fn value(text: &str) -> Option<u64> {
    let (digits, radix) = digits(text)?;
    u64::from_str_radix(digits, radix).ok()
}

/// The digits of a number, and their radix.
fn digits(text: &str) -> Option<(&str, u32)> {
    let (digits, radix) = text.strip_prefix("0x").map_or((text, 10), |digits| (digits, 16));
    let plain = !digits.is_empty() && digits.chars().all(|digit| digit.is_digit(radix));
    plain.then_some((digits, radix))
}

#[cfg(test)]
mod tests {
    use super::{is_size, number, size};
    use std::ffi::OsStr;

    fn of(text: &str) -> Option<u64> {
        let (as_number, as_size) = (number("N", OsStr::new(text), 0..=u64::MAX), size("N", OsStr::new(text), u64::MAX));
        assert!(as_number.is_err() || as_number == as_size, "{text}");
        assert!(as_size.is_err() || is_size(OsStr::new(text)), "{text}");
        as_size.ok()
    }

    #[test]
    fn numbers_are_decimal_or_hexadecimal() {
        for (text, value) in [("0", 0), ("12288", 12288), ("0x3000", 12288), ("0xfF", 255), ("007", 7)] {
            assert_eq!(of(text), Some(value));
        }
        assert_eq!(of("18446744073709551615"), Some(u64::MAX));
        for text in ["", "-1", "+1", "0x", "0x+1", "0X1", "1.5", "ff", "18446744073709551616", "1_0", "0x1_0", " 1"] {
            assert_eq!(of(text), None, "{text}");
        }
    }

    #[test]
    fn a_letter_makes_a_size_larger() {
        for (text, value) in [("12K", 12288), ("0xcK", 12288), ("4M", 4 << 20), ("1G", 1 << 30), ("0K", 0)] {
            assert_eq!(of(text), Some(value));
            assert!(number("N", OsStr::new(text), 0..=u64::MAX).is_err());
        }
        for text in ["K", "0xK", "1k", "1KB", "1KK", "1T", "1 K", "17179869184G"] {
            assert_eq!(of(text), None, "{text}");
        }
        // The form alone: another number is a size too.
        assert!(is_size(OsStr::new("17179869184G")) && !is_size(OsStr::new("./12K")) && !is_size(OsStr::new("12k")));
    }

    #[test]
    fn what_is_wrong_is_told_by_the_name() {
        let told = number("--edition", OsStr::new("x"), 1..=9).unwrap_err();
        assert_eq!(told, "--edition needs a number from 1 to 9, decimal or after 0x hexadecimal, and was given x");
        let told = size("--memory-size", OsStr::new("1K"), 9).unwrap_err();
        let form = "decimal or after 0x hexadecimal, which K, M or G may follow";
        assert_eq!(told, format!("--memory-size needs a size from 0 to 9 bytes, {form}, and was given 1K"));
    }
}
