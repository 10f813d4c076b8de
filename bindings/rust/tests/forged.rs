//! Damaged bytes and forged tables: what is wrong is refused or found, and nothing false passes.
mod common;

use common::{inverse, lent, list_of, plain_result, tables_of, Random, Tables};
use u32_table::opcodes::{ALL, AND, LOG_2_FLOOR, LT, POP_COUNT, POW, SPLIT};
use u32_table::{
    check, column, extend, fill, stored_bytes, Entry, Group, List, Refusal, Sizes, Verdict, AUX_COLUMNS, COLUMNS, P,
};

#[test]
fn a_false_comparison_is_found() {
    let challenges = Random(7).challenges();
    let mut made = tables_of(&list_of(&[Entry::new(AND, 3, 1), Entry::new(LT, 2, 3)]), &challenges);
    // 2 is not less than 3, with sums to match
    let row = 3;
    assert_eq!(made.table[row * COLUMNS + column::RESULT], 1);
    made.table[row * COLUMNS + column::RESULT] = 0;
    extend(&made.table, &mut made.aux, &challenges).unwrap();
    let verdict = check(&made.table, &made.aux, &challenges).unwrap();
    let Verdict::Nonzero { group, row, index, value } = verdict else { panic!("a false comparison passed") };
    assert_eq!((group, row, index), (Group::Transition, 3, 9));
    assert_ne!(value, [0, 0, 0]);
    assert!(verdict.to_string().starts_with("nonzero 2 3 9 "));
    assert!(!verdict.is_zero());
}

/// A changed word of a table, with the sums made anew.
fn forge(made: &Tables, challenges: &[u64], place: usize, word: u64) -> Result<Verdict, Refusal> {
    let (mut table, mut aux) = (made.table.clone(), made.aux.clone());
    table[place] = word;
    extend(&table, &mut aux, challenges)?;
    check(&table, &aux, challenges)
}

#[test]
fn no_false_result_passes() {
    let mut random = Random(8);
    for _ in 0..40 {
        let entries: Vec<Entry> = (0..8).map(|_| random.entry()).collect();
        let challenges = random.challenges();
        let made = tables_of(&list_of(&entries), &challenges);
        for (row, words) in made.table.chunks(COLUMNS).enumerate() {
            if words[column::COPY_FLAG] != 1 || words[column::CI] == SPLIT {
                continue;
            }
            let entry = Entry::new(words[column::CI], words[column::LHS], words[column::RHS]);
            for lie in [0, 1, 2, P - 1, random.below(P)] {
                if lie == plain_result(entry) {
                    continue;
                }
                let verdict = forge(&made, &challenges, row * COLUMNS + column::RESULT, lie);
                assert!(matches!(verdict, Ok(Verdict::Nonzero { .. })), "{entry:?} with Result {lie}: {verdict:?}");
            }
        }
    }
}

#[test]
fn operands_and_opcodes_out_of_range_are_found() {
    let challenges = Random(9).challenges();
    let made = tables_of(&list_of(&[Entry::new(LT, 2, 3), Entry::new(SPLIT, 5, 6)]), &challenges);
    for (row, place, word) in
        [(0, column::LHS, 1 << 32), (0, column::RHS, P - 1), (3, column::LHS, 1 << 40), (0, column::CI, 7), (3, column::CI, 22)]
    {
        let verdict = forge(&made, &challenges, row * COLUMNS + place, word);
        assert!(matches!(verdict, Ok(Verdict::Nonzero { .. })), "row {row}, column {place}: {verdict:?}");
    }
}

#[test]
fn false_sums_are_found() {
    let challenges = Random(10).challenges();
    let made = tables_of(&list_of(&[Entry::new(LT, 2, 3), Entry::new(AND, 5, 6)]), &challenges);
    for place in 0..made.aux.len() {
        let mut aux = made.aux.clone();
        aux[place] = (aux[place] + 1) % P;
        let verdict = check(&made.table, &aux, &challenges).unwrap();
        assert!(matches!(verdict, Verdict::Nonzero { value, .. } if value != [0, 0, 0]), "aux word {place}");
    }
    // a multiplicity that the sums do not know
    let mut table = made.table.clone();
    table[column::LOOKUP_MULTIPLICITY] += 1;
    assert_eq!(made.table.len() / COLUMNS, made.aux.len() / AUX_COLUMNS);
    assert!(matches!(
        check(&table, &made.aux, &challenges),
        Ok(Verdict::Nonzero { group: Group::Initial, row: 0, index: 0, .. })
    ));
    // other challenges
    assert!(matches!(check(&made.table, &made.aux, &Random(11).challenges()), Ok(Verdict::Nonzero { .. })));
}

#[test]
fn damaged_bytes_are_refused_or_are_another_list() {
    let mut random = Random(12);
    let list = list_of(&(0..20).map(|_| random.entry()).collect::<Vec<_>>());
    let bytes = list.to_bytes().unwrap();
    let (mut refused, mut read, mut no_count) = (0, 0, 0);
    for place in 0..bytes.len() {
        for bit in 0..8 {
            let mut damaged = bytes.clone();
            damaged[place] ^= 1 << bit;
            let mut to = lent(list.len(), &[]);
            match to.read(&damaged) {
                Err(_) => {
                    refused += 1;
                    assert_eq!(to, lent(list.len(), &[]));
                }
                Ok(n) => {
                    read += 1;
                    assert_eq!(n, list.len());
                    let to = List::from_bytes(&damaged, n).unwrap();
                    assert_ne!(to, list);
                    // a key whose count became 0 is read, and not written again
                    let counted = to.entries().filter(|(_, count)| *count > 0).count();
                    no_count += n - counted;
                    let again = to.to_bytes().unwrap();
                    assert_eq!(again.len(), stored_bytes(counted));
                    assert_eq!(again == damaged, counted == n);
                }
            }
        }
    }
    assert!(refused > 500 && read > 500, "{refused} refused, {read} read");
    assert_eq!(no_count, list.entries().filter(|(_, count)| count.is_power_of_two()).count());
    // cut: torn, but for the old length, where it is another list
    let old_length = 8 + 21 * list.len();
    for length in (0..bytes.len()).filter(|length| *length != old_length) {
        assert_eq!(List::from_bytes(&bytes[..length], 2048).unwrap_err(), Refusal::Torn);
    }
    assert_ne!(List::from_bytes(&bytes[..old_length], 2048).unwrap(), list);
}

#[test]
fn any_words_are_answered() {
    let mut random = Random(13);
    let (mut nonzero, mut refused) = (0, 0);
    for _ in 0..3000 {
        let rows = random.below(5) as usize;
        let mut words = |n: usize| -> Vec<u64> {
            let rough = random.below(4) == 0;
            (0..n).map(|_| if rough { random.word() } else { random.below(3) }).collect()
        };
        let (table, aux, challenges) = (words(rows * COLUMNS), words(rows * AUX_COLUMNS), words(15));
        match check(&table, &aux, &challenges) {
            Ok(Verdict::Zero) => {}
            Ok(Verdict::Nonzero { group, row, .. }) => {
                nonzero += 1;
                assert!(row < rows && group.number() < 4);
            }
            Err(reason) => {
                refused += 1;
                assert!(matches!(reason, Refusal::Short | Refusal::Unreduced));
            }
        }
    }
    assert!(nonzero > 500 && refused > 500);
}

// ---- no shorter table: a table that passes has at least as many rows as fill reports for the entries of its CopyFlag 1 rows

type Row = [u64; COLUMNS];

/// The rows that fill makes for these entries, repeated ones among them.
fn filled(entries: &[Entry]) -> Result<Vec<Row>, Refusal> {
    let keys: Vec<u64> = entries.iter().flat_map(|e| [e.opcode, e.left_operand, e.right_operand]).collect();
    let sizes = Sizes { capacity: entries.len(), used: entries.len() };
    let mut table = vec![0; entries.len() * 33 * COLUMNS];
    let height = fill(sizes, &keys, &vec![1; entries.len()], &vec![0; entries.len()], &mut table)?;
    Ok(table.chunks(COLUMNS).take(height).map(|row| row.try_into().unwrap()).collect())
}

fn passes(rows: &[Row], challenges: &[u64]) -> bool {
    let mut aux = vec![0; rows.len() * AUX_COLUMNS];
    extend(&rows.concat(), &mut aux, challenges).is_ok()
        && check(&rows.concat(), &aux, challenges).is_ok_and(|verdict| verdict.is_zero())
}

/// The longest list whose entries each have a CopyFlag 1 row of their own: that of all these rows. One whose CI is none of the six is no
/// entry.
fn entries_with_own_rows(rows: &[Row]) -> Vec<Entry> {
    let flagged = rows.iter().filter(|row| row[column::COPY_FLAG] == 1 && ALL.contains(&row[column::CI]));
    flagged.map(|row| Entry::new(row[column::CI], row[column::LHS], row[column::RHS])).collect()
}

fn row(bits: u64, ci: u64, lhs: u64, result: u64) -> Row {
    [0, bits, inverse((bits + P - 33) % P), ci, lhs, inverse(lhs), 0, 0, result, 0]
}

/// A table that passes and that no filler made: sections, and below their ends rows with any Bits, walks along the bits of p (which is 0),
/// and ends with CopyFlag 1, which stand for entries of height 1.
fn stretched(random: &mut Random, entries: &[Entry]) -> Vec<Row> {
    let mut rows = vec![];
    for entry in entries {
        rows.extend(filled(&[*entry]).unwrap());
        let ci = entry.opcode;
        let lhs = if ci == POW { entry.left_operand } else { 0 };
        let result = match ci {
            LT => 2,
            POW => 1,
            LOG_2_FLOOR => P - 1,
            _ => 0,
        };
        for _ in 0..random.below(4) {
            match random.below(4) {
                0 if ci != LOG_2_FLOOR => {
                    let mut first = row(0, ci, lhs, if ci == LT { 0 } else { result });
                    (first[column::COPY_FLAG], first[column::LOOKUP_MULTIPLICITY]) = (1, random.below(3));
                    rows.push(first);
                }
                1 if ci == AND || ci == SPLIT => rows.extend((0..64).map(|i| row(34 + i, ci, (P >> i) / 2, 0))),
                _ => rows.push(row(random.below(33), ci, lhs, result)),
            }
        }
    }
    rows
}

/// One change: a word, a row less, a row twice.
fn changed(random: &mut Random, rows: &[Row]) -> Vec<Row> {
    let mut rows = rows.to_vec();
    let i = random.below(rows.len() as u64) as usize;
    match random.below(4) {
        0 => drop(rows.remove(i)),
        1 => rows.insert(i, rows[i]),
        2 => rows[i][column::COPY_FLAG] ^= 1,
        _ => {
            let word = &mut rows[i][random.below(COLUMNS as u64) as usize];
            *word = [0, 1, 2, *word / 2, random.below(P)][random.below(5) as usize];
        }
    }
    rows
}

#[test]
fn no_table_that_passes_is_shorter_than_filled() {
    let mut random = Random(14);
    // how many pass, and how many of them have exactly as many rows: filled, stretched, and with a change
    let mut counts = [[0; 2]; 3];
    for _ in 0..200 {
        let entries: Vec<Entry> = (0..1 + random.below(4)).map(|_| random.entry()).collect();
        let challenges = random.challenges();
        let mut count = |kind: usize, rows: &[Row]| {
            let own = entries_with_own_rows(rows);
            let height = filled(&own).unwrap().len();
            assert_eq!(height, own.iter().map(|&entry| common::height(entry)).sum::<usize>());
            assert!(height <= rows.len(), "{height} rows are filled for what passes in {}: {rows:?}", rows.len());
            counts[kind][0] += 1;
            counts[kind][1] += usize::from(height == rows.len());
        };
        for (kind, made) in [filled(&entries).unwrap(), stretched(&mut random, &entries)].iter().enumerate() {
            assert!(passes(made, &challenges), "{entries:?}: {made:?}");
            count(kind, made);
            for _ in 0..20 {
                let forged = changed(&mut random, made);
                if !forged.is_empty() && passes(&forged, &challenges) {
                    count(2, &forged);
                }
            }
        }
    }
    let [[honest, same], [foreign, tight], [forged, still_tight]] = counts;
    assert!(honest == 200 && same == 200 && foreign == 200 && forged > 300, "{counts:?}");
    assert!(0 < tight && tight < foreign && 0 < still_tight && still_tight < forged, "{counts:?}");
}

#[test]
fn no_row_of_a_section_can_be_left_out() {
    let mut random = Random(15);
    let mut tried = 0;
    for _ in 0..100 {
        let entries: Vec<Entry> = (0..1 + random.below(3)).map(|_| random.entry()).collect();
        let challenges = random.challenges();
        let made = filled(&entries).unwrap();
        // each entry keeps its own row, and there is one row fewer than fill reports
        for i in (0..made.len()).filter(|&i| made[i][column::COPY_FLAG] == 0) {
            let shorter = [&made[..i], &made[i + 1..]].concat();
            assert_eq!(entries_with_own_rows(&shorter), entries);
            assert!(!passes(&shorter, &challenges), "{entries:?} without row {i}");
            tried += 1;
        }
    }
    assert!(tried > 1000, "{tried}");
}

#[test]
fn the_shortest_tables_are_as_high_as_filled() {
    let (and_0_0, and_3_1) = (Entry::new(AND, 0, 0), Entry::new(AND, 3, 1));
    let cases: [(&[Entry], usize); 13] = [
        (&[and_0_0], 1),
        (&[Entry::new(SPLIT, 0, 0)], 1),
        (&[Entry::new(SPLIT, 5, 9)], 5),
        (&[Entry::new(LT, 3, 3)], 3),
        (&[Entry::new(LT, 4294967295, 0)], 33),
        (&[Entry::new(POW, P - 1, 0)], 1),
        (&[Entry::new(POW, 2, 64)], 8),
        (&[Entry::new(POW, 5, 4294967295)], 33),
        (&[Entry::new(LOG_2_FLOOR, 1, 0)], 2),
        (&[Entry::new(LOG_2_FLOOR, 1, 8)], 5),
        (&[Entry::new(POP_COUNT, 255, 0)], 9),
        (&[and_0_0, and_0_0], 2),
        (&[Entry::new(LT, 2, 3), Entry::new(POW, 0, 0), Entry::new(SPLIT, 1, 0)], 6),
    ];
    let challenges = [7, 1, 2, 3, 0, 0, 5, 1, 0, 11, 0, 2, 13, 1, 1];
    for (entries, due) in cases {
        let made = filled(entries).unwrap();
        assert_eq!(made.len(), due, "{entries:?}");
        assert!(passes(&made, &challenges), "{entries:?}");
        for i in 0..due {
            let shorter = [&made[..i], &made[i + 1..]].concat();
            let keeps = entries_with_own_rows(&shorter).len() == entries.len();
            assert!(!(keeps && passes(&shorter, &challenges)), "{entries:?} without row {i}");
        }
    }

    // and 3, 1 cut short, by the terminal constraint; whole, it passes
    let made = filled(&[and_3_1]).unwrap().concat();
    let verdict = |rows: usize| {
        let mut aux = vec![0; rows * AUX_COLUMNS];
        extend(&made[..rows * COLUMNS], &mut aux, &challenges).unwrap();
        check(&made[..rows * COLUMNS], &aux, &challenges).unwrap()
    };
    let terminal = |row, value| Verdict::Nonzero { group: Group::Terminal, row, index: 0, value: [value, 0, 0] };
    assert_eq!(verdict(1), terminal(0, 18446744069414584273));
    assert_eq!(verdict(2), terminal(1, 18446744069414584305));
    assert_eq!(verdict(3), Verdict::Zero);
}

#[test]
fn a_row_of_its_own_is_needed() {
    // one row, and 0, 0, passes. It has the CI, LHS and RHS of both entries of the list in which and 0, 0 stands twice ..
    let challenges = Random(16).challenges();
    let and_0_0 = Entry::new(AND, 0, 0);
    let one = filled(&[and_0_0]).unwrap();
    assert_eq!(one, [[1, 0, 15651782846776010939, AND, 0, 0, 0, 0, 0, 1]]);
    assert!(passes(&one, &challenges));
    // .. whose height is 2, so the table is shorter than what fill reports: it has no row of its own for each of the two
    let (sizes, keys) = (Sizes { capacity: 2, used: 2 }, [AND, 0, 0, AND, 0, 0]);
    let mut table = [0; 2 * COLUMNS];
    assert_eq!(fill(sizes, &keys, &[1, 1], &[0, 0], &mut table[..COLUMNS]), Err(Refusal::Short));
    assert_eq!(fill(sizes, &keys, &[1, 1], &[0, 0], &mut table), Ok(2));
    assert!(passes(&[one[0], one[0]], &challenges));
    assert_eq!(table.to_vec(), [one[0], one[0]].concat());
}
