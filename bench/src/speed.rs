//! What is measured: each call of the keeper, of the plain Rust, and what stands beside it, on the same rows.

use crate::calls::{Calls, Plain};
use crate::clock::{in_turn, nanoseconds, Timed};
use crate::proved::Keeper;
use crate::ready::{
    at, churn, churn_rows, equal_rows, laid, swaps, uneven_rows, Ready, KIND, NAME,
};
use crate::seeded::Seeded;
use std::hint::black_box;

/// The numbers of words that are measured.
pub const SIZES: [usize; 3] = [1_024, 16_384, 262_144];

/// One thing measured, over a store of so many words. What stands beside is a `Vec<Vec<u64>>`, or memmove.
pub struct Line {
    pub what: String,
    pub count: usize,
    pub keeper: Timed,
    pub plain: Timed,
    pub beside: Timed,
}

fn line(what: &str, count: usize, rounds: usize, works: &mut [&mut dyn FnMut() -> f64; 3]) -> Line {
    let times = in_turn(rounds, works);
    Line {
        what: what.to_string(),
        count,
        keeper: times[0],
        plain: times[1],
        beside: times[2],
    }
}

/// How many calls go into one sample of a short call.
const CALLS: usize = 16_384;

/// Places by chance in a table of rows of 16 words.
fn places(rows: usize) -> Vec<(usize, i32)> {
    let mut seeded = Seeded(3);
    (0..CALLS)
        .map(|_| (seeded.below(rows as u64) as usize, seeded.below(16) as i32))
        .collect()
}

fn reads<K: Calls>(keeper: &mut K, places: &[(usize, i32)]) -> f64 {
    let mut word = 0;
    let time = nanoseconds(|| {
        for (row, element) in places {
            let told = keeper.read(NAME, &at(*row), KIND, *element, &mut word);
            black_box((told, word));
        }
    });
    time / places.len() as f64
}

fn writes<K: Calls>(keeper: &mut K, places: &[(usize, i32)]) -> f64 {
    let time = nanoseconds(|| {
        for (row, element) in places {
            black_box(keeper.write(NAME, &at(*row), KIND, *element, *row as u64));
        }
    });
    time / places.len() as f64
}

fn vector_reads(rows: &[Vec<u64>], places: &[(usize, i32)]) -> f64 {
    let time = nanoseconds(|| {
        for (row, element) in places {
            black_box(
                black_box(rows)
                    .get(*row)
                    .and_then(|list| list.get(*element as usize))
                    .copied(),
            );
        }
    });
    time / places.len() as f64
}

fn vector_writes(rows: &mut [Vec<u64>], places: &[(usize, i32)]) -> f64 {
    let time = nanoseconds(|| {
        for (row, element) in places {
            if let Some(word) = black_box(&mut *rows)
                .get_mut(*row)
                .and_then(|list| list.get_mut(*element as usize))
            {
                *word = *row as u64;
            }
        }
    });
    time / places.len() as f64
}

fn elements(count: usize, lines: &mut Vec<Line>) {
    let ready = laid(count, &equal_rows(count, 16, 0));
    let places = places(ready.rows.len());
    let (mut ours, mut theirs, mut rows) = (ready.words.clone(), ready.words, ready.rows);
    lines.push(line(
        "read",
        count,
        60,
        &mut [
            &mut || reads(&mut Keeper { words: &mut ours }, &places),
            &mut || reads(&mut Plain { words: &mut theirs }, &places),
            &mut || vector_reads(&rows, &places),
        ],
    ));
    lines.push(line(
        "write",
        count,
        60,
        &mut [
            &mut || writes(&mut Keeper { words: &mut ours }, &places),
            &mut || writes(&mut Plain { words: &mut theirs }, &places),
            &mut || vector_writes(&mut rows, &places),
        ],
    ));
}

fn row_reads<K: Calls>(keeper: &mut K, list: &mut [u64]) -> f64 {
    let time = nanoseconds(|| {
        for _ in 0..512 {
            black_box(keeper.read_row(NAME, &at(0), KIND, 0, list));
            black_box(&mut *list);
        }
    });
    time / 512.0
}

fn row_writes<K: Calls>(keeper: &mut K, list: &[u64]) -> f64 {
    let time = nanoseconds(|| {
        for _ in 0..512 {
            black_box(keeper.write_row(NAME, &at(0), KIND, 0, black_box(list)));
        }
    });
    time / 512.0
}

fn vector_row_reads(rows: &[Vec<u64>], list: &mut [u64]) -> f64 {
    let time = nanoseconds(|| {
        for _ in 0..512 {
            list.copy_from_slice(&black_box(rows)[0]);
            black_box(&mut *list);
        }
    });
    time / 512.0
}

fn vector_row_writes(rows: &mut [Vec<u64>], list: &[u64]) -> f64 {
    let time = nanoseconds(|| {
        for _ in 0..512 {
            black_box(&mut *rows)[0].copy_from_slice(black_box(list));
        }
    });
    time / 512.0
}

fn rows_of_a_thousand(count: usize, lines: &mut Vec<Line>) {
    let ready = laid(count, &equal_rows(count, 1_000, 0));
    let (mut ours, mut theirs, mut rows) = (ready.words.clone(), ready.words, ready.rows);
    let mut list = vec![9; 1_000];
    let mut lists = (list.clone(), list.clone());
    lines.push(line(
        "read a row of 1,000",
        count,
        60,
        &mut [
            &mut || row_reads(&mut Keeper { words: &mut ours }, &mut lists.0),
            &mut || row_reads(&mut Plain { words: &mut theirs }, &mut lists.1),
            &mut || vector_row_reads(&rows, &mut list),
        ],
    ));
    lines.push(line(
        "write a row of 1,000",
        count,
        60,
        &mut [
            &mut || row_writes(&mut Keeper { words: &mut ours }, &list),
            &mut || row_writes(&mut Plain { words: &mut theirs }, &list),
            &mut || vector_row_writes(&mut rows, &list),
        ],
    ));
}

fn churns(count: usize, percent: usize, lines: &mut Vec<Line>) {
    let mut lengths = uneven_rows(count, percent);
    let mut ready = laid(count, &lengths);
    // First the gaps become as scattered as they then stay.
    let before = swaps(1, lengths.len(), 4 * lengths.len());
    churn(
        &mut Plain {
            words: &mut ready.words,
        },
        &mut lengths,
        &before,
    );
    let pairs = swaps(2, lengths.len(), 1_000);
    let calls = (4 * pairs.len()) as f64;
    let (mut ours, mut theirs, mut rows) = (ready.words.clone(), ready.words.clone(), ready.rows);
    lines.push(line(
        &format!("take and free, {percent} percent full"),
        count,
        21,
        &mut [
            &mut || {
                ours.copy_from_slice(&ready.words);
                let mut lengths = lengths.clone();
                nanoseconds(|| churn(&mut Keeper { words: &mut ours }, &mut lengths, &pairs))
                    / calls
            },
            &mut || {
                theirs.copy_from_slice(&ready.words);
                let mut lengths = lengths.clone();
                nanoseconds(|| churn(&mut Plain { words: &mut theirs }, &mut lengths, &pairs))
                    / calls
            },
            &mut || {
                let mut lengths = lengths.clone();
                nanoseconds(|| churn_rows(&mut rows, &mut lengths, &pairs)) / calls
            },
        ],
    ));
    assert_eq!(ours, theirs);
}

/// A call that is made once on a store made ready, and again on a fresh copy. Both stores end the same.
fn once(
    what: &str,
    ready: &Ready,
    call: impl Fn(&mut dyn Calls),
    beside: &mut dyn FnMut() -> f64,
) -> Line {
    let count = ready.words.len();
    let (mut ours, mut theirs) = (ready.words.clone(), ready.words.clone());
    let rounds = if count > 100_000 { 80 } else { 300 };
    let made = line(
        what,
        count,
        rounds,
        &mut [
            &mut || {
                ours.copy_from_slice(&ready.words);
                nanoseconds(|| call(&mut Keeper { words: &mut ours }))
            },
            &mut || {
                theirs.copy_from_slice(&ready.words);
                nanoseconds(|| call(&mut Plain { words: &mut theirs }))
            },
            beside,
        ],
    );
    assert_eq!(ours, theirs);
    made
}

/// A full store with one gap at the front: everything moves.
fn tidies(count: usize, lines: &mut Vec<Line>) {
    let mut ready = laid(count, &equal_rows(count, 16, 0));
    assert_eq!(
        Plain {
            words: &mut ready.words
        }
        .free(NAME, &at(0)),
        (0, 0)
    );
    let mut words = ready.words.clone();
    let first = 66 + ready.rows.len();
    lines.push(once(
        "tidy of a full store",
        &ready,
        |keeper| keeper.tidy(),
        &mut || {
            words.copy_from_slice(&ready.words);
            nanoseconds(|| {
                words.copy_within(first + 17.., first);
                black_box(&mut words);
            })
        },
    ));
}

/// One word comes in before the first of the lowest row of a store that is closed up and nearly full: all others move.
fn insertions(count: usize, lines: &mut Vec<Line>) {
    let ready = laid(count, &equal_rows(count, 16, 8));
    let mut rows = ready.rows.clone();
    let call = |keeper: &mut dyn Calls| assert_eq!(keeper.insert(NAME, &at(0), 0, 1), (0, 0));
    lines.push(once("insert at the front", &ready, call, &mut || {
        rows[0].truncate(16);
        rows[0].shrink_to_fit();
        nanoseconds(|| {
            black_box(&mut rows)[0].insert(0, 0);
        })
    }));
}

fn loads(count: usize, lines: &mut Vec<Line>) {
    let ready = laid(count, &equal_rows(count, 16, 0));
    let list = ready.words.clone();
    let call = |keeper: &mut dyn Calls| assert_eq!(keeper.load(&list), (0, 0));
    lines.push(once("load of a full store", &ready, call, &mut || {
        let mut rows = Vec::new();
        nanoseconds(|| {
            rows = black_box(&ready.rows).clone();
            black_box(&mut rows);
        })
    }));
}

/// A table of rows of four words, with all below it.
fn frees(count: usize, lines: &mut Vec<Line>) {
    let n = 40_000 * count / 262_144;
    let ready = laid(count, &vec![4; n]);
    let call = |keeper: &mut dyn Calls| assert_eq!(keeper.free(NAME, &[]), (0, 0));
    lines.push(once(
        "free of a table of many rows",
        &ready,
        call,
        &mut || {
            let rows = ready.rows.clone();
            nanoseconds(|| drop(black_box(rows)))
        },
    ));
}

/// All of it, over a store of so many words, or what the filter names alone.
pub fn lines(count: usize, only: Option<&str>) -> Vec<Line> {
    let wanted = |what: &str| only.is_none_or(|word| word == what);
    let mut lines = Vec::new();
    if wanted("elements") {
        elements(count, &mut lines);
    }
    if wanted("rows") && count > 2_000 {
        rows_of_a_thousand(count, &mut lines);
    }
    for percent in [50, 90, 99] {
        if wanted("churn") {
            churns(count, percent, &mut lines);
        }
    }
    if wanted("tidy") {
        tidies(count, &mut lines);
    }
    if wanted("insert") {
        insertions(count, &mut lines);
    }
    if wanted("load") {
        loads(count, &mut lines);
    }
    if wanted("free") {
        frees(count, &mut lines);
    }
    lines
}
