//! The C header gives each status the name and the number that it has here.

use sks::Status;

#[test]
fn same_names_and_numbers() {
    let header = include_str!("../../../include/sks.h").replace(['=', ','], " ");
    let words: Vec<&str> = header.split_whitespace().collect();
    for status in Status::ALL {
        let (name, number) = (format!("SKS_{}", status.name()), status.0.to_string());
        assert!(words.windows(2).any(|pair| pair == [name.as_str(), number.as_str()]), "{name} is {number}");
    }
}
