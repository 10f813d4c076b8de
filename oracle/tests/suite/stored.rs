//! Stored answers: the cases of `u32list`, and the digests of the constraints.
use std::path::{Path, PathBuf};

use oracle::*;

/// U32LIST_CASES: the folder of the cases (default: ../shared/cases-11 beside the repository).
#[test]
fn cases() {
    let folder = match std::env::var_os("U32LIST_CASES") {
        Some(folder) => PathBuf::from(folder),
        None => Path::new(env!("CARGO_MANIFEST_DIR")).join("../../shared/cases-11"),
    };
    let cases = text::cases(&folder).unwrap_or_else(|error| {
        panic!("{}: {error}\nSet U32LIST_CASES to the folder of the cases of u32list.", folder.display())
    });
    println!("cases compared {} refused (not compared) {}", cases.compared, cases.refused);
    assert!(cases.different.is_empty(), "{:?}", cases.different);
    assert!(cases.compared > 100);
}

/// Made by `oracle digests`.
#[test]
fn digests_of_the_constraints() {
    let expected = include_str!("../../expected/constraint-digests.txt");
    assert_eq!(expected, digests::digests());
    let zeros = expected.lines().map(|line| line.rsplit_once(' ').unwrap().1.parse::<u64>().unwrap());
    assert_eq!(40, zeros.clone().count());
    assert!(zeros.into_iter().all(|zeros| 0 < zeros && zeros < digests::PAIRS), "each is zero on some pairs only");
}
