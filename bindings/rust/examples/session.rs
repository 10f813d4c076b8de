//! A run from its instructions to a verdict: records the instructions, stores the list, reads it back, fills, pads and extends the table, and
//! checks it. At the end one comparison is forged, and the check finds it.
//!
//!     cargo run --example session [FILE]
//!
//! FILE is where the list is stored; without it a file in the folder for temporary ones is used, and removed.
use std::error::Error;
use std::path::PathBuf;
use std::{env, fs, process};

use u32_table::{column, Entry, List, Opcode, Refusal, Table, CHALLENGE_WORDS, COLUMNS, MAX_PLACES};

/// The instructions of a run: samples are compared with a threshold, and their bits are counted and masked.
fn run() -> impl Iterator<Item = Entry> {
    let samples = (0..400u64).map(|i| (i * 7919) % 1024);
    samples.flat_map(|sample| {
        [
            Opcode::Lt.entry(sample, 512),
            Opcode::PopCount.entry(sample, 0),
            Opcode::And.entry(sample, 255),
            Opcode::Log2Floor.entry(sample, 0),
            Opcode::Pow.entry(7, sample % 16),
            Opcode::Split.entry(sample, sample / 2),
        ]
    })
}

/// The challenges would come from the proof system; here they are fixed numbers.
fn challenges() -> [u64; CHALLENGE_WORDS] {
    std::array::from_fn(|i| (i as u64 + 1) * 0x9e37_79b9_7f4a)
}

fn main() -> Result<(), Box<dyn Error>> {
    let given = env::args_os().nth(1).map(PathBuf::from);
    let file = given.clone().unwrap_or_else(|| env::temp_dir().join(format!("u32-list-{}", process::id())));

    // record
    let mut list = List::new(MAX_PLACES)?;
    let (mut recorded, mut refused) = (0, 0);
    for entry in run() {
        match list.record(entry) {
            Ok(_) => recorded += 1,
            // the logarithm of 0 is not admitted; the list is as it was
            Err(Refusal::BareLog) => refused += 1,
            Err(other) => return Err(other.into()),
        }
    }
    println!("recorded {recorded} instructions as {} entries, refused {refused}", list.len());

    // store, and read back
    fs::write(&file, list.to_bytes()?)?;
    let stored = fs::read(&file)?;
    if given.is_none() {
        fs::remove_file(&file)?;
    }
    let list = List::from_bytes(&stored, MAX_PLACES)?;
    println!("stored and read back {} bytes", stored.len());

    // fill, pad, extend, check
    let challenges = challenges();
    let mut table = Table::new();
    let height = table.fill(&list)?;
    table.pad()?;
    let [a, b, c] = table.extend(&challenges)?;
    println!("rows {height} padded {}", table.rows());
    println!("sum {a} {b} {c}");
    println!("{}", table.check(&challenges)?);

    // one false comparison, with sums to match
    let is_comparison = |row: &[u64]| row[column::COPY_FLAG] == 1 && row[column::CI] == Opcode::Lt.word();
    let row = table.words().chunks(COLUMNS).position(is_comparison).ok_or("no comparison")?;
    let result = &mut table.words_mut()[row * COLUMNS + column::RESULT];
    *result = 1 - *result;
    table.extend(&challenges)?;
    let verdict = table.check(&challenges)?;
    println!("with the comparison in row {row} forged: {verdict}");
    println!("which is {}", verdict.constraint().unwrap_or("nothing"));
    Ok(())
}
