//! The numbers of this crate are those of include/u32_table.h, and the symbol of the signatures is the same in header, crate and library.
use std::collections::{BTreeMap, BTreeSet};
use std::fs;
use std::path::Path;
use u32_table::{
    archive_bytes, column, steps, Opcode, Refusal, AUX_COLUMNS, BATCH_WORDS, BYTE_ROWS, CHALLENGE_WORDS, COLUMNS, KEY_WORDS,
    LOOKUP_CHALLENGE_WORDS, MAX_CASCADE_PLACES, MAX_JOBS, MAX_PLACES, MAX_ROWS, P, STEP_WORDS,
};

fn file(path: &str) -> String {
    fs::read_to_string(Path::new(env!("CARGO_MANIFEST_DIR")).join("../..").join(path)).unwrap()
}

/// What `U32_TABLE_NAME = NUMBER` says of each name.
fn numbers(header: &str) -> BTreeMap<&str, u64> {
    let named = header.split("U32_TABLE_").filter_map(|rest| rest.split_once(" = "));
    let is_name = |name: &str| name.chars().all(|c| c.is_ascii_uppercase() || c.is_ascii_digit() || c == '_');
    let digits = |rest: &str| rest.chars().take_while(char::is_ascii_digit).collect::<String>().parse().ok();
    named.filter(|(name, _)| is_name(name)).filter_map(|(name, rest)| Some((name, digits(rest)?))).collect()
}

#[test]
fn numbers_are_those_of_the_header() {
    let header = file("include/u32_table.h");
    let mut numbers = numbers(&header);
    let mut same = |name: &str, number: u64| assert_eq!(numbers.remove(name), Some(number), "{name}");
    for reason in Refusal::all() {
        same(&reason.word().replace(' ', "_").to_uppercase(), reason.number());
    }
    for opcode in Opcode::ALL {
        same(&opcode.name().to_uppercase(), opcode.word());
    }
    for (name, word) in [
        ("DIV_MOD", steps::DIV_MOD),
        ("XOR", steps::XOR),
        ("MERKLE_STEP", steps::MERKLE_STEP),
        ("MERKLE_STEP_MEM", steps::MERKLE_STEP_MEM),
    ] {
        same(name, word);
    }
    for (name, place) in [
        ("COPY_FLAG", column::COPY_FLAG),
        ("BITS", column::BITS),
        ("BITS_MINUS_33_INV", column::BITS_MINUS_33_INV),
        ("CI", column::CI),
        ("LHS", column::LHS),
        ("LHS_INV", column::LHS_INV),
        ("RHS", column::RHS),
        ("RHS_INV", column::RHS_INV),
        ("RESULT", column::RESULT),
        ("LOOKUP_MULTIPLICITY", column::LOOKUP_MULTIPLICITY),
        ("MAX_PLACES", MAX_PLACES),
        ("MAX_ROWS", MAX_ROWS),
        ("MAX_JOBS", MAX_JOBS),
        ("BATCH_WORDS", BATCH_WORDS),
        ("KEY_WORDS", KEY_WORDS),
        ("STEP_WORDS", STEP_WORDS),
        ("COLUMNS", COLUMNS),
        ("AUX_COLUMNS", AUX_COLUMNS),
        ("CHALLENGE_WORDS", CHALLENGE_WORDS),
        ("MAX_CASCADE_PLACES", MAX_CASCADE_PLACES),
        ("BYTE_ROWS", BYTE_ROWS),
        ("LOOKUP_CHALLENGE_WORDS", LOOKUP_CHALLENGE_WORDS),
    ] {
        same(name, place as u64);
    }
    // what is left is known to the C interface alone
    let left = numbers.into_keys().filter(|name| !name.ends_with("_ANSWERS")).collect::<Vec<_>>();
    assert_eq!(left, ["DONE", "EQUAL", "GREATER", "LESS"]);
    assert!(header.contains(&format!("#define U32_TABLE_P UINT64_C({P})\n")));
    assert!(header.contains("#define U32_TABLE_STORED_BYTES(n) (8 + 25 * (size_t)(n))\n"));
    assert!(header.contains("#define U32_TABLE_ARCHIVE_BYTES(rows) (8 + 104 * (size_t)(rows))\n"));
    assert_eq!([0, 1, MAX_ROWS].map(archive_bytes), [8, 112, 8 + 104 * MAX_ROWS]);
}

#[test]
fn one_symbol_ties_header_crate_and_library() {
    let named = |path: &str| -> BTreeSet<String> {
        let text = file(path);
        let after = text.split("u32_table_abi_").skip(1);
        after.map(|rest| rest.chars().take_while(char::is_ascii_digit).collect()).collect()
    };
    let one = named("crates/u32_table/src/lib.rt");
    assert_eq!(one.len(), 1);
    assert_eq!((named("include/u32_table.h"), named("bindings/rust/sys/src/symbol.rs")), (one.clone(), one));
}

/// Functions with their arguments: names, and types as Rust writes them.
type Signatures = BTreeMap<String, Vec<(String, String)>>;

fn signatures(text: &str, before: &str, argument: impl Fn(&str) -> (String, String)) -> Signatures {
    let found = text.split(before).skip(1).filter_map(|rest| rest.split_once('('));
    let found = found.filter_map(|(name, rest)| Some((name, rest.split_once(')')?.0))).filter(|(name, _)| !name.contains("abi"));
    let arguments = |list: &str| list.split(',').map(str::trim).filter(|a| !a.is_empty()).map(&argument).collect();
    found.map(|(name, list)| (name.to_string(), arguments(list))).collect()
}

#[test]
fn declarations_are_those_of_the_header() {
    let in_c = |argument: &str| {
        let at = argument.rfind([' ', '*']).unwrap() + 1;
        let word = |text: &str| {
            text.replace("uint64_t", "u64").replace("uint16_t", "u16").replace("uint8_t", "u8").replace("size_t", "usize")
        };
        let kind = word(argument[..at].trim());
        let kind = match (kind.strip_suffix(" *"), kind.strip_prefix("const ")) {
            (Some(_), Some(rest)) => format!("*const {}", rest.trim_end_matches(" *")),
            (Some(rest), None) => format!("*mut {rest}"),
            _ => kind,
        };
        (argument[at..].to_string(), kind)
    };
    let in_rust = |argument: &str| {
        let (name, kind) = argument.split_once(": ").unwrap();
        (name.to_string(), kind.to_string())
    };
    let header = signatures(&file("include/u32_table.h"), "\nuint64_t ", in_c);
    let declared = file("bindings/rust/sys/src/lib.rs");
    let declared = signatures(declared.split("extern \"C\"").next().unwrap(), " fn ", in_rust);
    assert_eq!(header, declared);
    assert_eq!(header.len(), 22);
}
