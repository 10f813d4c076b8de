//! Document 01's program `u32list`, for lists that it accepts: its input bytes, its printed session; and a folder of such cases.
use std::fmt::Write;
use std::fs;
use std::io;
use std::path::Path;

use crate::*;

/// The challenges and the list in the input of `u32list`, whose length tells how many bytes a multiplicity has; none if the bytes are too few.
/// It refuses nothing else.
pub fn read_input(bytes: &[u8]) -> Option<(Challenges, Vec<Entry>)> {
    let number = |start: usize, length: usize| {
        let digits = bytes.get(start..start + length)?.iter().rev();
        Some(digits.fold(0, |number, &byte| number << 8 | byte as u64))
    };
    let mut challenges = [0; 15];
    for (i, word) in challenges.iter_mut().enumerate() {
        *word = number(8 * i, 8)?;
    }
    let n = number(120, 4)? as usize;
    let width = if bytes.len() == 128 + 21 * n { 4 } else { 8 };
    let entry_at = |i| {
        let (key, multiplicity) = (128 + 17 * i, 128 + 17 * n + width * i);
        Some(entry(number(key, 1)?, number(key + 1, 8)?, number(key + 9, 8)?, number(multiplicity, width)?))
    };
    Some((challenges, (0..n).map(entry_at).collect::<Option<_>>()?))
}

/// The printed session: list, table of its counted entries up to the padded height, last sum, verdict.
pub fn session(list: &[Entry], challenges: &Challenges) -> String {
    let mut rows = filled(&counted(list));
    let height = rows.len();
    let padded = height.next_power_of_two().max(256);
    rows.resize(padded, [0; 10]);
    pad(&mut rows, height);
    let aux = extend(&rows, challenges);

    let mut text = format!("entries {} rows {height} padded {padded}\n", list.len());
    for row in &rows {
        writeln!(text, "{}", words(row)).unwrap();
    }
    writeln!(text, "sum {}", words(aux.last().unwrap())).unwrap();
    text + &verdict(&rows, &aux, challenges)
}

/// The check's answer.
pub fn verdict(rows: &[Row], aux: &[Ext], challenges: &Challenges) -> String {
    match Constraints::new().verdict(rows, aux, challenges) {
        None => "zero\n".into(),
        Some(value) => format!("nonzero {}", constraint_value(&value)),
    }
}

/// Group, row, index and three words.
pub fn constraint_value(value: &ConstraintValue) -> String {
    format!("{} {} {} {}\n", value.group, value.row, value.index, words(&value.value))
}

pub fn words(words: &[u64]) -> String {
    words.iter().map(u64::to_string).collect::<Vec<_>>().join(" ")
}

/// What came of the cases in a folder.
#[derive(Debug, Default)]
pub struct Cases {
    /// Accepted, and the session compared.
    pub compared: usize,
    /// `refused ..` in the text: the original refuses nothing, so there is nothing to compare.
    pub refused: usize,
    pub different: Vec<String>,
}

/// Each NAME.bin is an input of `u32list`, NAME.txt what it prints.
pub fn cases(folder: &Path) -> io::Result<Cases> {
    let mut names: Vec<_> = fs::read_dir(folder)?.map(|file| Ok(file?.path())).collect::<io::Result<_>>()?;
    names.retain(|path| path.extension().is_some_and(|extension| extension == "bin"));
    names.sort();
    let mut cases = Cases::default();
    for path in names {
        let expected = fs::read_to_string(path.with_extension("txt"))?;
        if expected.starts_with("refused ") {
            cases.refused += 1;
            continue;
        }
        cases.compared += 1;
        let input = fs::read(&path)?;
        let answer = read_input(&input).map(|(challenges, list)| caught(|| session(&list, &challenges)));
        if answer != Some(Ok(expected)) {
            cases.different.push(path.display().to_string());
        }
    }
    Ok(cases)
}
