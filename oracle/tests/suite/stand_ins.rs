//! The stand-ins, where the comparison rests on them: elements against the second writing's arithmetic, arrays, the map.
use indexmap::IndexMap;
use ndarray::{Array1, Array2, Axis, s};
use num_traits::{One, Zero};
use twenty_first::math::traits::FiniteField;
use twenty_first::prelude::*;

use crate::model::{add, inverse_or_zero, mul, sub, xadd, xinverse, xmul, xsub};
use oracle::inputs::Random;
use oracle::*;

fn edges() -> Vec<u64> {
    let powers = (0..64).flat_map(|k| [(1u64 << k) - 1, 1 << k, P - (1 << k), P - 1 - (1 << k)]);
    powers.chain([P - 1, (1 << 32) + 1]).map(|word| word % P).collect()
}

#[test]
fn base_elements() {
    let mut random = Random(1);
    let any: Vec<u64> = (0..200).map(|_| random.below(P)).collect();
    for a in edges().into_iter().chain(any) {
        for b in edges() {
            let (x, y) = (bfe!(a), bfe!(b));
            assert_eq!([add(a, b), sub(a, b), mul(a, b)], [x + y, x - y, x * y].map(|z| z.value()), "{a} {b}");
        }
        if a != 0 {
            assert_eq!(inverse_or_zero(a), bfe!(a).inverse().value());
            assert!((bfe!(a) * bfe!(a).inverse()).is_one());
        }
    }
    assert_eq!([P - 1, 0, u64::MAX - P], [bfe!(-1).value(), bfe!(P).value(), bfe!(u64::MAX).value()]);
    assert!(caught(|| bfe!(0).inverse()).is_err());
}

#[test]
fn batches_of_inverses() {
    let elements: Vec<BFieldElement> = edges().into_iter().filter(|&word| word != 0).map(|word| bfe!(word)).collect();
    for n in [0, 1, 2, elements.len()] {
        let inverses = BFieldElement::batch_inversion(elements[..n].to_vec());
        assert_eq!(elements[..n].iter().map(|x| x.inverse()).collect::<Vec<_>>(), inverses);
    }
    assert!(caught(|| BFieldElement::batch_inversion(vec![bfe!(1), bfe!(0)])).is_err());
}

#[test]
fn extension_elements() {
    let element = |words: Ext| xfe!(words.map(BFieldElement::new));
    let mut random = Random(2);
    let few = [0, 1, P - 1];
    let corners = (0..27).map(|i| [few[i % 3], few[i / 3 % 3], few[i / 9]]);
    for a in corners.chain((0..500).map(|_| random.ext())).collect::<Vec<_>>() {
        let b = random.ext();
        let (x, y) = (element(a), element(b));
        assert_eq!([xadd(a, b), xsub(a, b), xmul(a, b)].map(element), [x + y, x - y, x * y]);
        let w = bfe!(b[0]);
        assert_eq!([x + w.lift(), x - w.lift(), x * w.lift(), w.lift() * x], [x + w, x - w, x * w, w * x]);
        if !x.is_zero() {
            assert_eq!(element(xinverse(a)), x.inverse());
            assert!((x * x.inverse()).is_one());
        }
    }
    assert!(caught(|| xfe!(0).inverse()).is_err());
}

#[test]
fn arrays() {
    let mut table = Array2::from_shape_vec([3, 2], vec![0, 1, 10, 11, 20, 21]).unwrap();
    assert_eq!([20, 11], [table[[2, 0]], table[[1, 1]]]);
    assert_eq!(vec![10, 11], table.row(1).to_vec());
    assert_eq!(vec![1, 11], table.slice(s![..2, 1]).to_vec());
    assert_eq!(vec![20], table.slice(s![2, ..1]).to_vec());
    table.slice_mut(s![1.., ..]).assign(&Array2::from_shape_vec([2, 2], vec![5, 6, 7, 8]).unwrap());
    table.slice_mut(s![..2, 0]).assign(&Array1::from(vec![3, 4]));
    table.column_mut(1).iter_mut().for_each(|word| *word += 100);
    let (mut first, last) = table.multi_slice_mut((s![0, ..], s![2, ..]));
    first[1] = last[0];
    assert_eq!([vec![3, 7], vec![4, 106], vec![7, 108]], [0, 1, 2].map(|i| table.row(i).to_vec()));
    table.push_row(Array1::from(vec![1, 2]).view()).unwrap();
    assert!(table.push_row(Array1::from(vec![1]).view()).is_err());
    table.slice_mut(s![3.., ..]).axis_iter_mut(Axis(0)).for_each(|mut row| row.fill(9));
    assert_eq!((vec![7, 108], vec![9, 9]), (table.row(2).to_vec(), table.row(3).to_vec()));
    assert_eq!(0, table.slice(s![4.., ..]).nrows());

    assert!(caught(|| table[[4, 0]]).is_err());
    assert!(caught(|| table[[0, 2]]).is_err());
    assert!(caught(|| table.slice(s![3..5, ..]).nrows()).is_err());
    assert!(caught(|| table.slice(s![5.., ..]).nrows()).is_err());
    assert!(caught(|| table.row_mut(0).assign(&Array1::from(vec![1]))).is_err());
    assert!(caught(|| table.multi_slice_mut((s![0..2, ..], s![1, ..])).1[0]).is_err());
}

#[test]
fn maps_keep_their_order() {
    let mut map = IndexMap::new();
    for (key, amount) in [("b", 1), ("a", 2), ("b", 3)] {
        *map.entry(key).or_insert(0) += amount;
    }
    assert_eq!(vec![(&"b", &4), (&"a", &2)], map.into_iter().collect::<Vec<_>>());
}
