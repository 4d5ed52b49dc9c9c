//! Numbers in cases and answers: little-endian, of 8, 32 or 64 bits.

/// A length, a count or a position.
pub fn put_len(out: &mut Vec<u8>, n: usize) {
    put32(out, n as u32);
}

pub fn put32(out: &mut Vec<u8>, n: u32) {
    out.extend_from_slice(&n.to_le_bytes());
}

pub fn put64(out: &mut Vec<u8>, n: u64) {
    out.extend_from_slice(&n.to_le_bytes());
}

pub fn hex(bytes: &[u8]) -> String {
    bytes.iter().map(|b| format!("{b:02x}")).collect()
}

pub fn unhex(text: &str) -> Option<Vec<u8>> {
    let digits: Vec<u32> = text.chars().filter(|c| !c.is_whitespace()).map(|c| c.to_digit(16)).collect::<Option<_>>()?;
    Some(digits.chunks(2).map(|d| (d[0] * 16 + d.get(1).copied().unwrap_or(0)) as u8).collect())
}
