//! Hexadecimal digits, as state files, map sheets and HEX files have them.

/// A word of eight lower-case digits.
pub fn word(text: &str) -> Option<u32> {
    let lower = |letter: u8| letter.is_ascii_digit() || (b'a'..=b'f').contains(&letter);
    let well_formed = text.len() == 8 && text.bytes().all(lower);
    well_formed.then(|| u32::from_str_radix(text, 16).ok())?
}

/// The bytes of pairs of digits.
pub fn pairs(digits: &str) -> Result<Vec<u8>, ()> {
    let bytes = digits.as_bytes();
    let well_formed = bytes.len().is_multiple_of(2) && bytes.iter().all(u8::is_ascii_hexdigit);
    if !well_formed {
        return Err(());
    }
    let pair = |at: usize| u8::from_str_radix(&digits[at..at + 2], 16).map_err(|_| ());
    (0..bytes.len()).step_by(2).map(pair).collect()
}

#[cfg(test)]
mod tests {
    use super::*;

    #[test]
    fn a_word_is_eight_lower_case_digits() {
        assert_eq!(word("0123abcf"), Some(0x0123_ABCF));
        for bad in [
            "",
            "0123abc",
            "0123abcf0",
            "0123ABCF",
            "+123abcf",
            "0123abcé",
        ] {
            assert_eq!(word(bad), None, "{bad}");
        }
    }

    #[test]
    fn pairs_are_bytes() {
        assert_eq!(pairs("00fFA1"), Ok(vec![0, 0xFF, 0xA1]));
        assert_eq!(pairs(""), Ok(Vec::new()));
        for bad in ["0", "0g", "+1", "é", "00 "] {
            assert_eq!(pairs(bad), Err(()), "{bad}");
        }
    }
}
