//! The seeds without libFuzzer.

use std::collections::{BTreeMap, BTreeSet};

use corpora::case::Case;
use corpora::cases::{checks, readers, signatures};
use corpora::subjects;
use fuzz::{compare, seeds, Cut, Seed, MOST_BYTES};
use reference::answer::NUMBERS;

/// An input is cut as it was put together.
#[test]
fn cut_again() {
    for Seed { name, input, .. } in seeds() {
        assert_eq!(Cut::of(&input).input(), input, "{name}");
    }
}

/// The corpora's answers are those that both give to the input.
#[test]
fn answered_by_both() {
    for Seed { name, number, input } in seeds() {
        assert_eq!(compare(&Cut::of(&input)), number, "{name}");
    }
}

/// Any input can be cut, short ones too; both agree on what comes of it.
#[test]
fn changed_and_short_inputs() {
    for Seed { input, .. } in seeds().into_iter().step_by(101) {
        for at in 0..input.len().min(80) {
            let mut changed = input.clone();
            changed[at] ^= 0x81;
            compare(&Cut::of(&changed));
            compare(&Cut::of(&input[..at]));
        }
    }
}

/// Each seed can be a file of its own.
#[test]
fn names_are_names_of_files() {
    let seeds = seeds();
    let names: BTreeSet<String> = seeds.iter().map(Seed::file_name).collect();
    assert_eq!(names.len(), seeds.len());
    assert!(names.iter().all(|name| !name.contains('/') && name.len() < 128));
    assert!(seeds.iter().all(|seed| seed.input.len() <= MOST_BYTES));
}

/// Bytes of everything that a case lends.
fn bytes(case: &Case) -> usize {
    case.fields.iter().map(|(_, bytes)| bytes.len()).sum()
}

/// What the corpora must print, by the names of their cases: the number is the first word.
fn printed() -> BTreeMap<String, u32> {
    let lines = subjects::make().into_iter().flat_map(|made| made.lines);
    let numbers = lines.map(|line| {
        let (name, rest) = line.split_once(": ").unwrap();
        (name.to_string(), rest.split(' ').next().unwrap().trim().parse().unwrap())
    });
    numbers.collect()
}

/// Every case of the three corpora is a seed with the number that its line prints; only long
/// ones are left out.
#[test]
fn every_case_is_a_seed() {
    let (printed, seeds) = (printed(), seeds());
    let numbers: BTreeMap<&str, u32> =
        seeds.iter().map(|seed| (seed.name.as_str(), seed.number)).collect();
    for case in checks::corpus().into_iter().chain(signatures::corpus()).chain(readers::corpus()) {
        let name = &case.name;
        let asked = [name.clone(), format!("{name}, fields"), format!("{name}, hash")];
        let found: Vec<&u32> = asked.iter().filter_map(|name| numbers.get(name.as_str())).collect();
        assert!(!found.is_empty() || bytes(&case) > MOST_BYTES, "{name} is left out");
        assert!(found.into_iter().all(|number| *number == printed[name]), "{name}");
    }
    let reached: BTreeSet<u32> = numbers.into_values().collect();
    assert!(reached.into_iter().eq(NUMBERS));
}
