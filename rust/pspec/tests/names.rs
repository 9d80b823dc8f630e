//! The header and the wrapper have one name for a refusal.

use pspec::Refusal;
use std::path::Path;

/// `PSPEC_BOOK_LENGTH` is `BookLength`.
fn rust_name(c_name: &str) -> String {
    let words = c_name.trim_start_matches("PSPEC_").split('_');
    let capital = |word: &str| word[..1].to_string() + &word[1..].to_lowercase();
    words.map(capital).collect()
}

#[test]
fn names_and_numbers_are_those_of_the_header() {
    let header = Path::new(env!("CARGO_MANIFEST_DIR")).join("../../include/pspec.h");
    let header = std::fs::read_to_string(header).expect("it is there");
    let start = header.find("enum pspec_refusal").expect("it is there");
    let list = &header[start..start + header[start..].find('}').expect("it ends")];
    let mut count = 0;
    for line in list.lines().filter(|line| line.contains(" = ")) {
        let (name, rest) = line.trim().split_once(" = ").expect("it has a number");
        let digits: String = rest.chars().take_while(char::is_ascii_digit).collect();
        let number: u32 = digits.parse().expect("it is a number");
        let refusal = format!("{:?}", Refusal::of(number, 0));
        let refusal = refusal.split(' ').next().expect("it has a name");
        if number > 0 {
            assert_eq!(refusal, rust_name(name));
            count += 1;
        }
    }
    assert_eq!(count, 24);
}
