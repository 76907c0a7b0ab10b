//! What the documents say of this package and of the C header is what the code says.

use rasuvelk::Refusal;

const README: &str = include_str!("../../README.md");
const MOVING: &str = include_str!("../../docs/MOVING-FROM-CFB.md");
const C_HEADER: &str = include_str!("../../include/rasuvelk.h");

#[test]
fn readme_has_the_first_programs() {
    for program in [include_str!("../examples/first.rs"), include_str!("../../examples/first.c")] {
        assert!(README.contains(program), "README.md should have:\n{program}");
    }
}

#[test]
fn every_refusal_has_its_row() {
    for refusal in Refusal::ALL {
        let row = format!("| {} | `{refusal:?}` |", refusal.number());
        assert_eq!(MOVING.matches(&row).count(), 1, "docs/MOVING-FROM-CFB.md should have one row {row}");
    }
}

#[test]
fn the_c_header_has_the_same_numbers() {
    let mut numbers = Vec::new();
    for line in C_HEADER.lines().skip_while(|line| !line.starts_with("enum rasuvelk_refusal")).skip(1) {
        let Some((name, rest)) = line.trim().split_once(" = ") else {
            break;
        };
        let number: u32 = rest.split([',', ' ']).next().unwrap().parse().unwrap();
        // PascalCase here, RASUVELK_REFUSED_SNAKE_CASE there.
        let mut expected = String::from("RASUVELK_REFUSED");
        for letter in format!("{:?}", Refusal::from_number(number)).chars() {
            if letter.is_uppercase() {
                expected.push('_');
            }
            expected.push(letter.to_ascii_uppercase());
        }
        if number != 0 {
            assert_eq!(name, expected);
        }
        numbers.push(number);
    }
    assert_eq!(numbers, (0..=26).collect::<Vec<u32>>());
}

#[test]
fn what_lent_is_made_of_names_nothing_that_allocates() {
    let sources = [
        include_str!("../src/lent.rs"),
        include_str!("../src/ffi.rs"),
        include_str!("../src/view.rs"),
        include_str!("../src/state.rs"),
        include_str!("../src/header.rs"),
    ];
    for source in sources {
        // Examples in the documents may.
        let code: String = source.lines().filter(|line| !line.trim_start().starts_with("//")).collect();
        for word in ["Vec", "vec!", "Box", "String", "format!", "collect", "to_vec", "clone()"] {
            let found = code.split(word).count() - 1;
            assert_eq!(found, 0, "{word} in {:?}", source.lines().next());
        }
    }
}
