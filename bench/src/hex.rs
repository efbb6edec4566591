//! Bytes as text.

/// The bytes of pairs of hex digits; blanks and bars between them are skipped.
pub fn parse(text: &str) -> Option<Vec<u8>> {
    let digits: Option<Vec<u8>> = text
        .chars()
        .filter(|c| !c.is_whitespace() && *c != '|')
        .map(|c| c.to_digit(16).map(|digit| digit as u8))
        .collect();
    let digits = digits?;
    if !digits.len().is_multiple_of(2) {
        return None;
    }
    Some(
        digits
            .chunks(2)
            .map(|pair| pair[0] * 16 + pair[1])
            .collect(),
    )
}

/// The bytes in rows of sixteen, each row behind the place of its first byte.
pub fn dump(bytes: &[u8]) -> String {
    let row = |(number, row): (usize, &[u8])| {
        let pairs: Vec<String> = row.iter().map(|byte| format!("{byte:02x}")).collect();
        format!("{:04x}  {}\n", number * 16, pairs.join(" "))
    };
    bytes.chunks(16).enumerate().map(row).collect()
}
