//! PINs and PUKs: what text they may have, and the counting of wrong ones.

use crate::records::{policy, Record};

/// Whether a text has the format: 0 digits; 1 digits and A-Z; 2 UTF-8 in the paper's wide sense; 3 any bytes.
/// The empty text has every format; lengths are asked for elsewhere.
pub fn has_format(text: &[u8], format: u8) -> bool {
    match format {
        0 => text.iter().all(u8::is_ascii_digit),
        1 => text.iter().all(|byte| byte.is_ascii_digit() || byte.is_ascii_uppercase()),
        2 => is_utf8(text),
        3 => true,
        _ => false,
    }
}

/// The paper's UTF-8: 00-7F alone, C0-DF, E0-EF and F0-F7 with one, two and three bytes 80-BF after it. It takes
/// forms that a stricter reader refuses, C0 B1 for one.
fn is_utf8(text: &[u8]) -> bool {
    let mut rest = text.iter();
    while let Some(lead) = rest.next() {
        let tail = match lead {
            0x00..=0x7f => 0,
            0xc0..=0xdf => 1,
            0xe0..=0xef => 2,
            0xf0..=0xf7 => 3,
            _ => return false,
        };
        for _ in 0..tail {
            if !rest.next().is_some_and(|byte| (0x80..=0xbf).contains(byte)) {
                return false;
            }
        }
    }
    true
}

/// Whether a text shows a pattern that one of the set bits forbids: 1 two equal neighbours, 2 three equal in a row,
/// 4 a whole text, of two bytes or more, rising or falling by one at each byte.
pub fn shows_forbidden_pattern(text: &[u8], bits: u8) -> bool {
    let two = text.windows(2).any(|w| w[0] == w[1]);
    let three = text.windows(3).any(|w| w[0] == w[1] && w[1] == w[2]);
    // Bytes are numbers here: FF and 00 are no neighbours.
    let rising = text.len() >= 2 && text.windows(2).all(|w| u16::from(w[0]) + 1 == u16::from(w[1]));
    let falling = text.len() >= 2 && text.windows(2).all(|w| u16::from(w[0]) == u16::from(w[1]) + 1);
    bits & 1 != 0 && two || bits & 2 != 0 && three || bits & 4 != 0 && (rising || falling)
}

/// Whether a new PIN obeys its policy: length from min to max in bytes, format, patterns.
pub fn obeys(pin: &[u8], its_policy: &Record) -> bool {
    let lengths = usize::from(its_policy[policy::MIN])..=usize::from(its_policy[policy::MAX]);
    lengths.contains(&pin.len())
        && has_format(pin, its_policy[policy::FORMAT])
        && !shows_forbidden_pattern(pin, its_policy[policy::PATTERNS])
}

/// What came of a try.
#[derive(Clone, Copy, Debug, PartialEq, Eq)]
pub enum Try {
    /// The count stood at the limit; nothing was compared and nothing changes.
    Locked,
    /// The value was wrong; this is the count from now on.
    Wrong(u8),
    /// The value was right; the count is 0 from now on.
    Right,
}

/// One try against a PIN or PUK. Limit 0, which only a PUK has, keeps no count and never locks.
pub fn attempt(typed: &[u8], stored: &[u8], errors: u8, limit: u8) -> Try {
    if limit != 0 && errors >= limit {
        Try::Locked
    } else if same(typed, stored) {
        Try::Right
    } else if limit == 0 {
        Try::Wrong(errors)
    } else {
        Try::Wrong(errors + 1)
    }
}

/// Whether two values are equal, with every byte looked at whatever the others say.
pub fn same(one: &[u8], other: &[u8]) -> bool {
    let longer = one.len().max(other.len());
    let byte = |text: &[u8], place: usize| text.get(place).copied().unwrap_or(0);
    let differs = (0..longer).fold(0, |differs, place| differs | (byte(one, place) ^ byte(other, place)));
    differs == 0 && one.len() == other.len()
}

#[cfg(test)]
mod tests {
    use super::*;

    /// The cases that the paper marks P.
    #[test]
    fn both_sides_of_each_line() {
        assert!(shows_forbidden_pattern(b"1234", 4));
        assert!(shows_forbidden_pattern(b"4321", 4));
        assert!(!shows_forbidden_pattern(b"1245", 4));
        assert!(!shows_forbidden_pattern(b"7", 4));
        assert!(shows_forbidden_pattern(b"1123", 1));
        assert!(!shows_forbidden_pattern(b"1212", 1));
        assert!(shows_forbidden_pattern(b"5111", 2));
        assert!(!shows_forbidden_pattern(b"1122", 2));
        assert!(has_format(b"A9", 1));
        assert!(!has_format(b"a9", 1));
    }

    #[test]
    fn patterns_look_at_numbers() {
        assert!(!shows_forbidden_pattern(&[0xff, 0x00], 4));
        assert!(!shows_forbidden_pattern(&[0x00, 0xff], 4));
        assert!(shows_forbidden_pattern(&[0xfe, 0xff], 4));
        assert!(shows_forbidden_pattern(b"98", 4));
        assert!(!shows_forbidden_pattern(b"121", 4));
        assert!(!shows_forbidden_pattern(b"11", 4));
        assert!(!shows_forbidden_pattern(b"11", 2));
        assert!(!shows_forbidden_pattern(b"", 7));
        assert!(!shows_forbidden_pattern(b"1123", 6));
        assert!(shows_forbidden_pattern(b"111", 1));
    }

    #[test]
    fn formats() {
        for format in 0..=3 {
            assert!(has_format(b"", format));
        }
        assert!(has_format(b"0123456789", 0));
        assert!(!has_format(b"12A4", 0));
        assert!(!has_format(b"12/4", 0) && !has_format(b"12:4", 0));
        assert!(!has_format(b"@", 1) && !has_format(b"[", 1) && has_format(b"AZ09", 1));
        assert!(has_format(&[0x7f, 0xc0, 0xb1, 0xdf, 0xbf], 2));
        assert!(has_format(&[0xe0, 0x80, 0x80, 0xef, 0xbf, 0xbf], 2));
        assert!(has_format(&[0xf0, 0x80, 0x80, 0x80, 0xf7, 0xbf, 0xbf, 0xbf], 2));
        for cut in [
            &[0x80][..],
            &[0xbf],
            &[0xc0],
            &[0xe0, 0x80],
            &[0xf0, 0x80, 0x80],
            &[0xf8, 0x80, 0x80, 0x80, 0x80],
            &[0xff],
        ] {
            assert!(!has_format(cut, 2), "{cut:x?}");
            assert!(has_format(cut, 3));
        }
        assert!(!has_format(&[0xc0, 0x7f], 2) && !has_format(&[0xc0, 0xc0], 2));
        assert!(!has_format(b"1", 4));
    }

    #[test]
    fn tries() {
        assert_eq!(attempt(b"1", b"1", 2, 3), Try::Right);
        assert_eq!(attempt(b"1", b"1", 3, 3), Try::Locked);
        assert_eq!(attempt(b"2", b"1", 3, 3), Try::Locked);
        assert_eq!(attempt(b"2", b"1", 2, 3), Try::Wrong(3));
        assert_eq!(attempt(b"2", b"1", 254, 255), Try::Wrong(255));
        assert_eq!(attempt(b"2", b"1", 0, 0), Try::Wrong(0));
        assert_eq!(attempt(b"1", b"1", 0, 0), Try::Right);
        // A zero byte more is another value.
        assert_eq!(attempt(b"1\0", b"1", 0, 3), Try::Wrong(1));
        assert_eq!(attempt(b"", b"\0", 0, 3), Try::Wrong(1));
    }
}
