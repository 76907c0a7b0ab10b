//! Says what is left out where the Rust is not at hand. Where it is, the numbers that are said are checked.

use std::fs;

#[test]
#[cfg_attr(
    not(oracle),
    ignore = "no Rust of cfb 0.15.0: all comparisons with it, 92 tests, are left out; 82 others run"
)]
fn what_is_left_out_without_the_rust() {
    let (mut left_out, mut others) = (0, 0);
    for entry in fs::read_dir(concat!(env!("CARGO_MANIFEST_DIR"), "/tests")).unwrap() {
        let path = entry.unwrap().path();
        if path.ends_with("no_rust.rs") {
            continue;
        }
        let text = fs::read_to_string(path).unwrap();
        let tests = text.lines().filter(|&line| line == "#[test]").count();
        if text.lines().any(|line| line == "#![cfg(oracle)]") {
            left_out += tests;
        } else {
            others += tests;
        }
    }
    let said = format!("all comparisons with it, {left_out} tests, are left out; {others} others run");
    assert!(include_str!("no_rust.rs").contains(&said), "it should say: {said}");
}
