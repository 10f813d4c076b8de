//! The original U32 table on the command line.
use std::io::Read;
use std::path::Path;
use std::process::ExitCode;

use oracle::text::*;
use oracle::*;

const USAGE: &str = "\
oracle list            challenges, then opcode, LHS, RHS, multiplicity of each entry: the session of document 01
oracle fill            opcode, LHS, RHS, multiplicity of each entry: the filled rows
oracle pad             the filled count, then ten words a row: the rows, padded
oracle extend          challenges, then ten words a row: the running sum at each row
oracle check           challenges, then each row's ten words and its aux's three: zero, or nonzero and where
oracle values          the same: every constraint's value, as group, row, index and three words
oracle record          n, then n entries without repeats, then opcode, LHS, RHS of each recording: the list, its height
oracle order           two keys: less, equal or greater
oracle batch           one of these a line, the words behind the name; each answer is followed by a line `end`
oracle stored          the bytes that u32list reads: the session
oracle cases FOLDER    each NAME.bin, an input of u32list, against NAME.txt, where that is no refusal
oracle digests         the digests of the forty constraints (see digests.rs)

Words and bytes come from standard input. Words are decimal; the challenges are fifteen words. Where the original panics,
the answer is `panic` and its message.";

fn main() -> ExitCode {
    std::panic::set_hook(Box::new(|_| ()));
    let arguments: Vec<String> = std::env::args().skip(1).collect();
    let arguments: Vec<&str> = arguments.iter().map(String::as_str).collect();
    match arguments[..] {
        ["stored"] => {
            let Some((challenges, list)) = read_input(&input()) else { return fail("too few bytes") };
            print!("{}", or_panic(|| session(&list, &challenges)));
        }
        ["cases", folder] => return run_cases(Path::new(folder)),
        ["digests"] => print!("{}", digests::digests()),
        ["batch"] => {
            for line in input_text().lines().filter(|line| !line.is_empty()) {
                let (command, words) = line.split_once(' ').unwrap_or((line, ""));
                print!("{}end\n", answer(command, words));
            }
        }
        [command] if WORD_COMMANDS.contains(&command) => print!("{}", answer(command, &input_text())),
        _ => return fail(USAGE),
    }
    ExitCode::SUCCESS
}

fn input() -> Vec<u8> {
    let mut bytes = vec![];
    std::io::stdin().read_to_end(&mut bytes).expect("standard input");
    bytes
}

fn input_text() -> String {
    String::from_utf8(input()).expect("text")
}

fn fail(message: &str) -> ExitCode {
    eprintln!("{message}");
    ExitCode::from(2)
}

fn or_panic(call: impl FnOnce() -> String) -> String {
    caught(call).unwrap_or_else(|message| format!("panic {}\n", message.replace('\n', " ")))
}

const WORD_COMMANDS: [&str; 8] = ["list", "fill", "pad", "extend", "check", "values", "record", "order"];

fn answer(command: &str, words: &str) -> String {
    or_panic(|| {
        let words: Vec<u64> = words.split_whitespace().map(|word| word.parse().expect("a word")).collect();
        match command {
            "list" => {
                let (challenges, list) = with_challenges(&words);
                session(&entries(list), challenges)
            }
            "fill" => lines(&filled(&entries(&words))),
            "pad" => {
                let (&count, rows) = words.split_first().expect("the filled count");
                let mut rows = whole(rows);
                pad(&mut rows, count as usize);
                lines(&rows)
            }
            "extend" => {
                let (challenges, rows) = with_challenges(&words);
                lines(&extend(&whole(rows), challenges))
            }
            "check" => {
                let (challenges, table) = with_challenges(&words);
                let (rows, aux) = rows_and_aux(table);
                verdict(&rows, &aux, challenges)
            }
            "values" => {
                let (challenges, table) = with_challenges(&words);
                let (rows, aux) = rows_and_aux(table);
                Constraints::new().all(&rows, &aux, challenges).iter().map(constraint_value).collect()
            }
            "record" => {
                let (&n, words) = words.split_first().expect("the number of entries");
                let (list, keys) = words.split_at(4 * n as usize);
                let list = record(&entries(list), &whole(keys));
                let line = |entry: &Entry| format!("{} {}\n", text::words(&entry.key), entry.multiplicity);
                list.iter().map(line).collect::<String>() + &format!("height {}\n", list_height(&list))
            }
            "order" => {
                let [left, right] = whole(&words)[..] else { panic!("two keys") };
                format!("{:?}\n", order(left, right)).to_lowercase()
            }
            _ => panic!("no such command"),
        }
    })
}

fn with_challenges(words: &[u64]) -> (&Challenges, &[u64]) {
    words.split_first_chunk().expect("fifteen challenge words")
}

/// The words in arrays of N.
fn whole<const N: usize>(words: &[u64]) -> Vec<[u64; N]> {
    let (arrays, rest) = words.as_chunks();
    assert!(rest.is_empty(), "words not in groups of {N}");
    arrays.to_vec()
}

fn entries(words: &[u64]) -> Vec<Entry> {
    whole(words).into_iter().map(|[opcode, lhs, rhs, multiplicity]| entry(opcode, lhs, rhs, multiplicity)).collect()
}

fn rows_and_aux(words: &[u64]) -> (Vec<Row>, Vec<Ext>) {
    let row_and_aux = |words: [u64; 13]| (*words.first_chunk().unwrap(), *words.last_chunk().unwrap());
    whole(words).into_iter().map(row_and_aux).unzip()
}

fn lines<const N: usize>(rows: &[[u64; N]]) -> String {
    rows.iter().map(|row| text::words(row) + "\n").collect()
}

fn run_cases(folder: &Path) -> ExitCode {
    let cases = match cases(folder) {
        Ok(cases) => cases,
        Err(error) => return fail(&format!("{}: {error}", folder.display())),
    };
    let different = cases.different.len();
    println!("cases compared {} refused (not compared) {} different {different}", cases.compared, cases.refused);
    cases.different.iter().for_each(|name| println!("different: {name}"));
    if different > 0 || cases.compared == 0 { ExitCode::FAILURE } else { ExitCode::SUCCESS }
}
