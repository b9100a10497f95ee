//! Stores made ready to be measured, and the same rows as a `Vec<Vec<u64>>`.

use crate::booking::Shape;
use crate::calls::{Calls, Plain};
use crate::seeded::Seeded;

/// The name under which the table lies.
pub const NAME: u64 = 1;

/// The type of its rows.
pub const KIND: u64 = 1;

/// A store with a table of rows under one name, and the rows beside it.
#[derive(Clone)]
pub struct Ready {
    pub words: Vec<u64>,
    pub rows: Vec<Vec<u64>>,
}

fn row(length: u64) -> Shape {
    Shape {
        length,
        base: 0,
        codes: false,
        kind: KIND,
    }
}

fn table(length: u64) -> Shape {
    Shape {
        length,
        base: 0,
        codes: true,
        kind: 0,
    }
}

/// The trace of a row.
pub fn at(row: usize) -> [i32; 1] {
    [row as i32]
}

/// A store of so many words with rows of these lengths, one behind the other, each filled with numbers by chance.
pub fn laid(count: usize, lengths: &[u64]) -> Ready {
    let mut seeded = Seeded(count as u64);
    let mut words = vec![0; count];
    let mut keeper = Plain { words: &mut words };
    assert_eq!(keeper.make(), (0, 0));
    assert_eq!(keeper.take(NAME, &[], table(lengths.len() as u64)), (0, 0));
    let mut rows = Vec::new();
    for (place, length) in lengths.iter().enumerate() {
        let list: Vec<u64> = (0..*length).map(|_| seeded.next()).collect();
        assert_eq!(keeper.take(NAME, &at(place), row(*length)), (0, 0));
        assert_eq!(keeper.write_row(NAME, &at(place), KIND, 0, &list), (0, 0));
        rows.push(list);
    }
    Ready { words, rows }
}

/// As many rows of one length as a store of so many words holds, with so many words left over at least.
pub fn equal_rows(count: usize, length: u64, left: usize) -> Vec<u64> {
    let each = length as usize + 2;
    vec![length; (count - 66 - left) / each]
}

/// Rows of 1 to 32 words that fill a store of so many words to so many percent.
pub fn uneven_rows(count: usize, percent: usize) -> Vec<u64> {
    let mut seeded = Seeded(percent as u64);
    let mut left = (count - 65) * percent / 100 - 1;
    let mut lengths = Vec::new();
    while left > 2 {
        let length = (1 + seeded.below(32)).min(left as u64 - 2);
        lengths.push(length);
        left -= length as usize + 2;
    }
    lengths
}

/// Pairs of rows that change their lengths.
pub type Swaps = Vec<(usize, usize)>;

/// So many pairs of different rows.
pub fn swaps(seed: u64, rows: usize, n: usize) -> Swaps {
    let mut seeded = Seeded(seed);
    let mut pairs = Vec::new();
    while pairs.len() < n {
        let (one, other) = (
            seeded.below(rows as u64) as usize,
            seeded.below(rows as u64) as usize,
        );
        if one != other {
            pairs.push((one, other));
        }
    }
    pairs
}

/// Each pair of rows is freed, and taken again with their lengths exchanged, so that as many words stay free. `lengths` follows.
pub fn churn<K: Calls>(keeper: &mut K, lengths: &mut [u64], pairs: &Swaps) {
    for (one, other) in pairs {
        lengths.swap(*one, *other);
        let freed = (keeper.free(NAME, &at(*one)), keeper.free(NAME, &at(*other)));
        let first = keeper.take(NAME, &at(*one), row(lengths[*one]));
        let second = keeper.take(NAME, &at(*other), row(lengths[*other]));
        assert_eq!((freed, first, second), (((0, 0), (0, 0)), (0, 0), (0, 0)));
    }
}

/// The same on rows of their own.
pub fn churn_rows(rows: &mut [Vec<u64>], lengths: &mut [u64], pairs: &Swaps) {
    for (one, other) in pairs {
        lengths.swap(*one, *other);
        rows[*one] = Vec::new();
        rows[*other] = Vec::new();
        rows[*one] = std::hint::black_box(vec![0; lengths[*one] as usize]);
        rows[*other] = std::hint::black_box(vec![0; lengths[*other] as usize]);
    }
}
