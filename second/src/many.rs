//! Many byte strings in one: each is preceded by its length in decimal and
//! a line feed.

/// Append one entry.
pub fn push(all: &mut Vec<u8>, entry: &[u8]) {
    all.extend_from_slice(format!("{}\n", entry.len()).as_bytes());
    all.extend_from_slice(entry);
}

/// Take everything apart; an error tells the offset where it went wrong.
pub fn split(all: &[u8]) -> Result<Vec<&[u8]>, usize> {
    let mut entries = Vec::new();
    let mut at = 0;
    while at < all.len() {
        let mut length: usize = 0;
        let mut digits = at;
        while digits < all.len() && all[digits].is_ascii_digit() {
            if digits - at >= 12 {
                return Err(digits);
            }
            length = length * 10 + usize::from(all[digits] - b'0');
            digits += 1;
        }
        if digits == at || digits == all.len() || all[digits] != b'\n' {
            return Err(digits);
        }
        let start = digits + 1;
        if length > all.len() - start {
            return Err(start);
        }
        entries.push(&all[start..start + length]);
        at = start + length;
    }
    Ok(entries)
}
