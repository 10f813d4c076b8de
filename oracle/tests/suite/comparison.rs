//! The original against the second writing of document 01, on lists, on honest tables, on changed and on foreign ones.
use crate::document::made;
use crate::model;
use oracle::inputs::Random;
use oracle::*;

#[test]
fn honest_lists() {
    let constraints = Constraints::new();
    let mut random = Random(42);
    let mut count = [0; 2];
    for round in 0..3000 {
        let list = random.list(if round % 10 == 0 { 40 } else { 5 });
        let challenges = random.challenges();

        let sections: Vec<Row> = list.iter().flat_map(model::section).collect();
        let height = sections.len();
        assert_eq!(height, list_height(&list));
        assert_eq!(height as u64, list.iter().map(|entry| height_of_both(entry.key)).sum::<u64>());

        // Rows past the height keep their words, until they are padded.
        let mut rows = vec![[7; 10]; height + 1 + random.below(4) as usize];
        assert_eq!(height, fill(&list, &mut rows));
        assert_eq!(sections, rows[..height], "{list:?}");
        assert!(rows[height..].iter().all(|row| *row == [7; 10]));
        pad(&mut rows, height);
        assert_eq!(sections, rows[..height]);
        assert!(rows[height..].iter().all(|row| *row == model::padding(&sections)), "{list:?}");

        let aux = extend(&rows, &challenges);
        assert_eq!(model::sums(&rows, &challenges), aux);
        let firsts: Vec<[u64; 5]> = rows.iter().filter(|row| row[0] == 1).map(|row| [3, 4, 6, 8, 9].map(|c| row[c])).collect();
        let expected: Vec<[u64; 5]> = list
            .iter()
            .map(|&Entry { key, multiplicity }| [key[0], key[1], key[2], model::plain_result(key), multiplicity])
            .collect();
        assert_eq!(expected, firsts);

        assert!(constraints.all(&rows, &aux, &challenges).iter().all(|value| value.value == [0; 3]), "{list:?}");
        assert_eq!(None, constraints.verdict(&rows, &aux, &challenges));
        model::assert_sound(&rows, &aux, &challenges);
        count = [count[0] + 1, count[1] + rows.len()];
    }
    println!("lists {} rows {}", count[0], count[1]);
}

fn height_of_both(key: Key) -> u64 {
    assert_eq!(model::height(key), height(key), "{key:?}");
    height(key)
}

/// Every operand at the edges, with every opcode: one section each.
#[test]
fn sections_at_the_edges() {
    let powers = [1, 2, 3, 4, 8, 16, 30, 31, 32].into_iter().flat_map(|k| [(1u64 << k) - 1, 1 << k, (1 << k) + 1]);
    let edges: Vec<u64> = powers.chain([0]).filter(|&operand| operand < 1 << 32).collect();
    for opcode in OPCODES {
        let bases = if opcode == 30 { vec![1 << 32, P / 2, P - 2, P - 1] } else { vec![] };
        for &lhs in edges.iter().chain(&bases).filter(|&&lhs| opcode != 12 || lhs != 0) {
            for &rhs in &edges {
                let entry = entry(opcode, lhs, rhs, 1);
                assert_eq!(model::section(&entry), filled(&[entry]), "{entry:?}");
                height_of_both(entry.key);
            }
        }
    }
}

/// Every value of every group on random rows: the same polynomials.
#[test]
fn constraints_at_random_points() {
    let constraints = Constraints::new();
    let mut random = Random(99);
    for round in 0..4000 {
        let rows = [(); 2].map(|()| match round % 2 {
            0 => std::array::from_fn(|_| random.below(P)),
            _ => random.foreign_row(),
        });
        let (aux, challenges) = ([random.ext(), random.ext()], random.challenges());
        for group in 0..4 {
            let expected = model::constraints(group, [&rows[0], &rows[1]], aux, &challenges);
            assert_eq!(expected, constraints.values(group, [&rows[0], &rows[1]], aux, &challenges), "group {group}");
        }
    }
}

/// The walk over a table, by the second writing.
fn walk(rows: &[Row], aux: &[Ext], challenges: &Challenges) -> Vec<ConstraintValue> {
    let last = rows.len() - 1;
    let mut all = vec![];
    let mut visit = |group: usize, row: usize| {
        let next = last.min(row + 1);
        let values = model::constraints(group, [&rows[row], &rows[next]], [aux[row], aux[next]], challenges);
        all.extend(values.into_iter().enumerate().map(|(index, value)| ConstraintValue { group, row, index, value }));
    };
    visit(0, 0);
    (0..=last).for_each(|row| visit(1, row));
    (0..last).for_each(|row| visit(2, row));
    visit(3, last);
    all
}

/// One to three changed words in honest tables, sums old or made again: the same values, and what passes is sound.
#[test]
fn changed_tables() {
    let constraints = Constraints::new();
    let mut random = Random(5);
    let mut passed = 0;
    for _ in 0..4000 {
        let list = random.list(3);
        let challenges = random.challenges();
        let mut rows = made(&list, random.below(3) as usize);
        let mut aux = extend(&rows, &challenges);
        for _ in 0..=random.below(3) {
            let (row, column) = (random.below(rows.len() as u64) as usize, random.below(13) as usize);
            let word = if column < 10 { &mut rows[row][column] } else { &mut aux[row][column - 10] };
            let choices = [0, 1, 2, P - 1, model::add(*word, 1), *word / 2, random.one_of(&OPCODES), random.below(P)];
            *word = random.one_of(&choices);
        }
        if random.below(2) == 0 {
            aux = extend(&rows, &challenges);
            assert_eq!(model::sums(&rows, &challenges), aux);
        }
        let expected = walk(&rows, &aux, &challenges);
        assert_eq!(expected, constraints.all(&rows, &aux, &challenges));
        let first = expected.into_iter().find(|value| value.value != [0; 3]);
        assert_eq!(first, constraints.verdict(&rows, &aux, &challenges));
        if first.is_none() {
            passed += 1;
            model::assert_sound(&rows, &aux, &challenges);
        }
    }
    println!("changed tables that pass: {passed} of 4000");
}

/// Padding and extension of tables that nobody filled.
#[test]
fn foreign_tables() {
    let mut random = Random(11);
    for _ in 0..1000 {
        let rows: Vec<Row> = (0..random.below(12)).map(|_| random.foreign_row()).collect();
        let challenges = random.challenges();
        assert_eq!(model::sums(&rows, &challenges), extend(&rows, &challenges));

        let filled = random.below(rows.len() as u64 + 1) as usize;
        let mut expected = rows.clone();
        expected[filled..].fill(model::padding(&rows[..filled]));
        let mut padded = rows;
        pad(&mut padded, filled);
        assert_eq!(expected, padded);
    }
}

#[test]
fn recording_and_order() {
    let mut random = Random(17);
    for _ in 0..1000 {
        let keys: Vec<Key> = (0..4).map(|_| random.key()).collect();
        let recordings: Vec<Key> = (0..random.below(20)).map(|_| random.one_of(&keys)).collect();
        let mut expected: Vec<Entry> = vec![];
        for &key in &recordings {
            match expected.iter_mut().find(|entry| entry.key == key) {
                Some(entry) => entry.multiplicity += 1,
                None => expected.push(Entry { key, multiplicity: 1 }),
            }
        }
        assert_eq!(expected, record(&[], &recordings));
        let half = recordings.len() / 2;
        assert_eq!(expected, record(&record(&[], &recordings[..half]), &recordings[half..]));
        for (left, right) in keys.iter().zip(&recordings) {
            assert_eq!(left.cmp(right), order(*left, *right));
        }
    }
}
