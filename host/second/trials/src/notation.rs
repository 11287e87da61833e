//! Steps as lines of text.
//!
//! A line has seven parts with tabs between them: the store before, the call, the chip bytes, the length of the reply
//! buffer, the status, the reply after, the store after. Bytes are written as hex. A store is written as its records
//! with commas between them, each without its trailing zero bytes; a free record is nothing between two commas.
//! Two stores that no format makes have marks of their own: an empty one is `-`, and a last piece of fewer than 256
//! bytes stands behind an exclamation mark with all its bytes. The reply buffer is filled with the byte EE beforehand.

/// What the reply buffer is filled with before a call.
pub const FILL: u8 = 0xee;

/// Bytes as hex.
pub fn hex(bytes: &[u8]) -> String {
    const DIGITS: &[u8; 16] = b"0123456789abcdef";
    let mut text = String::with_capacity(bytes.len() * 2);
    for byte in bytes {
        text.push(DIGITS[usize::from(byte >> 4)] as char);
        text.push(DIGITS[usize::from(byte & 15)] as char);
    }
    text
}

/// Hex as bytes.
pub fn unhex(text: &str) -> Option<Vec<u8>> {
    let digits: Option<Vec<u8>> = text.chars().map(|digit| digit.to_digit(16).map(|value| value as u8)).collect();
    let (pairs, rest) = digits.as_ref()?.as_chunks::<2>();
    rest.is_empty().then(|| pairs.iter().map(|[high, low]| high * 16 + low).collect())
}

/// A store in this notation.
pub fn store_text(store: &[u8]) -> String {
    if store.is_empty() {
        return "-".to_string();
    }
    let pieces: Vec<String> = store
        .chunks(256)
        .map(|piece| {
            if piece.len() < 256 {
                format!("!{}", hex(piece))
            } else {
                let length = piece.iter().rposition(|&byte| byte != 0).map_or(0, |last| last + 1);
                hex(&piece[..length])
            }
        })
        .collect();
    pieces.join(",")
}

/// The store that a text stands for.
pub fn store_of_text(text: &str) -> Option<Vec<u8>> {
    if text == "-" {
        return Some(vec![]);
    }
    let mut store = Vec::new();
    for piece in text.split(',') {
        match piece.strip_prefix('!') {
            Some(short) => store.extend(unhex(short)?),
            None => {
                let mut record = unhex(piece)?;
                record.resize(256, 0);
                store.extend(record);
            }
        }
    }
    Some(store)
}
