//! The names of refusals and standings are those that odu0.h has, by tests/names.c.

use odu0::{Refusal, Standing};

const NAMES: &str = include_str!("../../../tests/expected/names.txt");

/// The names of refusals, or of standings, from number 1 on, without those that are none.
fn names(of: &str) -> Vec<String> {
    let numbered = NAMES.lines().filter_map(|line| line.strip_prefix(of)).skip(1);
    numbered.filter(|name| !name.ends_with('?')).map(|name| name.trim().to_string()).collect()
}

#[test]
fn refusals() {
    let ours =
        Refusal::ALL.iter().map(|refusal| format!("{} {}", refusal.number(), refusal.name()));
    assert_eq!(ours.collect::<Vec<_>>(), names("refusal"));
    assert_eq!(Refusal::Patterns.to_string(), "patterns (number 14)");
}

#[test]
fn standings() {
    let all = [
        Standing::Read(1),
        Standing::Tracked(2),
        Standing::Paired(3),
        Standing::BadCheck,
        Standing::Waiting,
        Standing::Outside,
    ];
    let ours = (1..).zip(all).map(|(number, standing)| format!("{number} {standing}"));
    assert_eq!(ours.collect::<Vec<_>>(), names("standing"));
}
