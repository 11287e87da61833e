//! The C header has the numbers and texts that stand here.

use issuer::{CloseOrder, KeyOrder, PathOrder, PinKind, PolicyOrder, PostOrder, PukOrder, Refusal};

#[test]
fn same_numbers_and_texts() {
    let header = include_str!("../../../include/sks_issuer.h");
    let spaced = header.replace(['=', ',', '}'], " ");
    let words: Vec<&str> = spaced.split_whitespace().collect();
    for (name, number) in [
        ("LONGEST_CALL", issuer::LONGEST_CALL),
        ("OUT_OF_RANGE", Refusal::OutOfRange as usize),
        ("SHORT_BUFFER", Refusal::ShortBuffer as usize),
        ("NO_PIN", PinKind::None as usize),
        ("USER_PIN", PinKind::User as usize),
        ("ISSUER_PIN", PinKind::Issuer as usize),
        ("USES_CLOSE", CloseOrder::USES.into()),
        ("USES_PUK", PukOrder::USES.into()),
        ("USES_POLICY", PolicyOrder::USES.into()),
        ("USES_KEY", KeyOrder::USES.into()),
        ("USES_PATH", PathOrder::USES.into()),
        ("USES_POST", PostOrder::USES.into()),
    ] {
        let pair = [format!("SKS_{name}"), number.to_string()];
        assert!(words.windows(2).any(|words| words == pair), "SKS_{name} is {number}");
    }
    for text in [issuer::KEY_ENTRY_ALGORITHM, issuer::P_256] {
        assert!(header.contains(&format!("\"{}\"", text.escape_ascii())));
    }
}
