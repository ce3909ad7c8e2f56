//! Bytes from text, and bytes into storage.

/// Bytes from hexadecimal digits; whatever is no digit, such as a blank, stands between them for the reader alone.
pub fn from_hex(text: &str) -> Vec<u8> {
    let digits: Vec<u8> = text
        .chars()
        .filter_map(|c| c.to_digit(16))
        .map(|digit| digit as u8)
        .collect();
    assert!(digits.len() % 2 == 0, "half a byte: {text}");
    digits.chunks(2).map(|two| two[0] << 4 | two[1]).collect()
}

/// Hexadecimal digits from bytes.
pub fn to_hex(bytes: &[u8]) -> String {
    bytes.iter().map(|byte| format!("{byte:02X}")).collect()
}

/// Puts bytes into storage.
pub fn put(storage: &mut [u8], at: usize, bytes: &[u8]) {
    storage[at..at + bytes.len()].copy_from_slice(bytes);
}

#[cfg(test)]
mod tests {
    use super::*;

    #[test]
    fn hex_there_and_back() {
        assert_eq!(from_hex("00 7F80 ff"), [0, 0x7F, 0x80, 0xFF]);
        assert_eq!(to_hex(&[0, 0x7F, 0x80, 0xFF]), "007F80FF");
    }

    #[test]
    #[should_panic(expected = "half a byte")]
    fn half_a_byte_is_refused() {
        from_hex("123");
    }
}
