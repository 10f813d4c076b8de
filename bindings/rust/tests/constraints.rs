//! The forty names of the constraints are those of the definitions, in their order, and the check finds each kind where it is broken.
use std::fs;
use std::path::Path;
use u32_table::{check, column, Group, Opcode, Verdict};

const GROUPS: [(Group, &str, usize); 4] = [
    (Group::Initial, "initial_constraints", 1),
    (Group::Consistency, "consistency_constraints", 15),
    (Group::Transition, "transition_constraints", 22),
    (Group::Terminal, "terminal_constraints", 2),
];

#[test]
fn names_are_those_of_the_definitions() {
    let file = Path::new(env!("CARGO_MANIFEST_DIR")).join("../../crates/air/specs/Constraints.antt");
    let text = fs::read_to_string(file).unwrap();
    for (group, list, count) in GROUPS {
        let start = text.find(&format!("\n{list} ")).unwrap();
        let definition = text[start + 1..].split("\n\n").next().unwrap();
        let listed = definition.split_once('=').unwrap().1.split('∷');
        let names: Vec<&str> = listed
            .map(|each| each.trim().trim_start_matches("base_value (").split_whitespace().next().unwrap())
            .filter(|&name| name != "[]")
            .collect();
        assert_eq!(group.constraints(), names);
        assert_eq!(names.len(), count);
    }
}

#[test]
fn a_verdict_names_its_constraint() {
    // the row of `and 0, 0`, alone; with one word of it changed
    let row = [1, 0, 15651782846776010939, Opcode::And.word(), 0, 0, 0, 0, 0, 0];
    let mut challenges = [0; 15];
    challenges[0] = 1;
    assert_eq!(check(&row, &[0; 3], &challenges).unwrap().constraint(), None);
    let with = |place: usize, word: u64, aux: [u64; 3]| {
        let mut changed = row;
        changed[place] = word;
        check(&changed, &aux, &challenges).unwrap()
    };
    for (verdict, group, name) in [
        (with(column::RESULT, 0, [1, 0, 0]), Group::Initial, "running_sum_log_derivative_starts_correctly"),
        (with(column::COPY_FLAG, 2, [0; 3]), Group::Consistency, "copy_flag_is_bit"),
        (with(column::BITS, 1, [0; 3]), Group::Consistency, "copy_flag_is_0_or_bits_is_0"),
        (with(column::LHS_INV, 1, [0; 3]), Group::Consistency, "lhs_inv_is_0_or_the_inverse_of_lhs"),
        (with(column::RESULT, 1, [0; 3]), Group::Consistency, "result_is_initialized_correctly_for_and"),
    ] {
        assert_eq!(verdict.constraint(), Some(name));
        assert!(matches!(verdict, Verdict::Nonzero { group: found, .. } if found == group));
    }
    let ends_in_1 = [1, 0, 15651782846776010939, Opcode::And.word(), 1, 1, 0, 0, 0, 0];
    assert_eq!(check(&ends_in_1, &[0; 3], &challenges).unwrap().constraint(), Some("lhs_is_0_or_ci_is_pow"));
}
