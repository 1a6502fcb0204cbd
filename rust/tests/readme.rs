//! The program of the README of the repository is the one that the README of this package has, which a doc test runs.

#[test]
fn one_program_in_both() {
    let package = include_str!("../README.md");
    let program = package.split("```rust\n").nth(1).and_then(|rest| rest.split("```").next()).expect("a program");
    let indented = |line: &str| if line.is_empty() { "\n".to_string() } else { format!("    {line}\n") };
    let wanted: String = program.lines().map(indented).collect();
    assert!(include_str!("../../README.md").contains(&wanted), "the README of the repository has another program");
}
