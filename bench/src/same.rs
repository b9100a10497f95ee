//! Random bookings played to both keepers: the same replies, and the same words after each.

use crate::booking::Shape;
use crate::calls::{Calls, Plain};
use crate::proved::{Keeper, Told};
use crate::seeded::Seeded;

/// What a call answered beside its number: a word, a row, a span.
#[derive(PartialEq, Eq, Debug, Default)]
struct Answer {
    told: Told,
    word: u64,
    list: Vec<u64>,
    shape: Option<Shape>,
}

/// One call with all that it is given.
#[derive(Debug)]
enum Call {
    Total,
    Tidy,
    Save(usize),
    Load(Vec<u64>),
    Take(Shape),
    Free,
    Read(u64, i32),
    Write(u64, i32, u64),
    ReadRow(u64, i32, usize),
    WriteRow(u64, i32, Vec<u64>),
    Span,
    Insert(i32, u64),
    Delete(i32, u64),
    Rebase(i64),
    Exchange(i32, i32),
}

fn play(keeper: &mut dyn Calls, name: u64, subscripts: &[i32], call: &Call) -> Answer {
    let mut answer = Answer::default();
    answer.told = match call {
        Call::Total => {
            answer.word = keeper.total();
            (0, 0)
        }
        Call::Tidy => {
            keeper.tidy();
            (0, 0)
        }
        Call::Save(length) => {
            answer.list = vec![7; *length];
            keeper.save(&mut answer.list)
        }
        Call::Load(list) => keeper.load(list),
        Call::Take(shape) => keeper.take(name, subscripts, *shape),
        Call::Free => keeper.free(name, subscripts),
        Call::Read(kind, at) => keeper.read(name, subscripts, *kind, *at, &mut answer.word),
        Call::Write(kind, at, word) => keeper.write(name, subscripts, *kind, *at, *word),
        Call::ReadRow(kind, at, length) => {
            answer.list = vec![7; *length];
            keeper.read_row(name, subscripts, *kind, *at, &mut answer.list)
        }
        Call::WriteRow(kind, at, list) => keeper.write_row(name, subscripts, *kind, *at, list),
        Call::Span => keeper.span(name, subscripts, &mut answer.shape),
        Call::Insert(at, n) => keeper.insert(name, subscripts, *at, *n),
        Call::Delete(at, n) => keeper.delete(name, subscripts, *at, *n),
        Call::Rebase(base) => keeper.rebase(name, subscripts, *base),
        Call::Exchange(one, other) => keeper.exchange(name, subscripts, *one, *other),
    };
    answer
}

/// Bookings made by chance, for a store of so many words. Most go to what is there.
struct Bookings {
    seeded: Seeded,
    count: usize,
}

impl Bookings {
    fn place(&mut self, keeper: &mut Plain) -> (u64, Vec<i32>) {
        let name = match self.seeded.below(40) {
            0 => self.seeded.one_of(&[0, 65, u64::MAX]),
            1 => 64,
            _ => 1 + self.seeded.below(4),
        };
        let depth = self.seeded.one_of(&[0, 0, 0, 0, 1, 1, 1, 1, 2, 2, 2, 3, 3]);
        if self.seeded.below(50) == 0 {
            return (name, vec![0; 4]);
        }
        let mut subscripts = Vec::new();
        for _ in 0..depth {
            let mut block = None;
            keeper.span(name, &subscripts, &mut block);
            if !block.is_some_and(|block| block.codes) && self.seeded.below(8) > 0 {
                break;
            }
            let subscript = self.subscript(keeper, name, &subscripts);
            subscripts.push(subscript);
        }
        (name, subscripts)
    }

    /// Mostly one of the block at a place, if there is one, or the one past its last.
    fn subscript(&mut self, keeper: &mut Plain, name: u64, subscripts: &[i32]) -> i32 {
        let mut block = None;
        keeper.span(name, subscripts, &mut block);
        match (self.seeded.below(40), block) {
            (0, _) => self.seeded.one_of(&[i32::MIN, i32::MAX, -32_768, 40_000]),
            (1 | 2, _) | (_, None) => self.seeded.below(6) as i32 - 1,
            (3 | 4, Some(block)) => block.base as i32 + block.length as i32,
            (_, Some(block)) => block.base as i32 + self.seeded.below(block.length) as i32,
        }
    }

    fn length(&mut self) -> u64 {
        match self.seeded.below(30) {
            0 => self.seeded.one_of(&[0, u64::MAX, 1 << 18, 1 << 40]),
            1 | 2 => self.seeded.below(self.count as u64 + 2),
            3..=8 => self.seeded.below(30),
            _ => 1 + self.seeded.below(6),
        }
    }

    fn kind(&mut self) -> u64 {
        self.seeded.one_of(&[0, 0, 1, 1, 1, 1, 2, 3])
    }

    fn shape(&mut self) -> Shape {
        let codes = self.seeded.below(2) == 0;
        let kind = if codes && self.seeded.below(20) > 0 {
            0
        } else {
            self.kind()
        };
        let base = match self.seeded.below(30) {
            0 => self
                .seeded
                .one_of(&[32_767, -32_768, 32_768, -32_769, i64::MIN]),
            _ => self.seeded.below(3) as i64 - 1,
        };
        let length = self.length();
        Shape {
            length,
            base,
            codes,
            kind,
        }
    }

    /// A saved list, as it stands or with a word changed; or one of another length.
    fn list(&mut self, words: &[u64]) -> Vec<u64> {
        let mut list = words.to_vec();
        match self.seeded.below(6) {
            0 => list.push(0),
            1..=3 => {
                let at = self.seeded.below(list.len() as u64) as usize;
                list[at] ^= 1 << self.seeded.below(64);
            }
            _ => {}
        }
        list
    }

    fn call(&mut self, keeper: &mut Plain, name: u64, subscripts: &[i32]) -> Call {
        let length = keeper.words.len();
        let at = self.subscript(keeper, name, subscripts);
        match self.seeded.below(60) {
            0 => Call::Total,
            1 => Call::Tidy,
            2 => Call::Save(length + self.seeded.one_of(&[0, 0, 0, 1])),
            3..=5 => Call::Load(self.list(keeper.words)),
            6..=24 => Call::Take(self.shape()),
            25..=27 => Call::Free,
            28 | 29 => Call::Read(self.kind(), at),
            30..=33 => Call::Write(self.kind(), at, self.seeded.next()),
            34 | 35 => Call::ReadRow(self.kind(), at, self.seeded.below(7) as usize),
            36..=39 => {
                let length = self.seeded.below(7);
                let list = (0..length).map(|_| self.seeded.next()).collect();
                Call::WriteRow(self.kind(), at, list)
            }
            40 => Call::Span,
            41..=46 => Call::Insert(at, self.length()),
            47..=53 => Call::Delete(at, self.length()),
            54 | 55 => {
                let base = self
                    .seeded
                    .one_of(&[-1, 0, 1, 32_767, 32_768, -32_769, i64::MAX]);
                Call::Rebase(base)
            }
            _ => Call::Exchange(at, self.subscript(keeper, name, subscripts)),
        }
    }
}

/// Plays so many bookings to both keepers over so many words. Answers how often each number came, or what was not the same.
fn compared(seed: u64, count: usize, bookings: usize) -> Result<[u32; 13], String> {
    // A store that holds rubbish at first, the same in both.
    let mut seeded = Seeded(seed);
    let mut ours: Vec<u64> = (0..count).map(|_| seeded.next()).collect();
    let mut theirs = ours.clone();
    let mut numbers = [0; 13];
    let made = (
        Keeper { words: &mut ours }.make(),
        Plain { words: &mut theirs }.make(),
    );
    if made.0 != made.1 || ours != theirs {
        return Err(format!("make over {count} words: {made:?}"));
    }
    let mut list = Bookings { seeded, count };
    for played in 0..bookings {
        let mut plain = Plain { words: &mut theirs };
        let (name, subscripts) = list.place(&mut plain);
        let call = list.call(&mut plain, name, &subscripts);
        let proved = play(&mut Keeper { words: &mut ours }, name, &subscripts, &call);
        let plain = play(&mut Plain { words: &mut theirs }, name, &subscripts, &call);
        let place =
            format!("booking {played} over {count} words, {call:?} at {name} {subscripts:?}");
        if proved != plain {
            return Err(format!(
                "{place}: the keeper answers {proved:?}, the plain Rust {plain:?}"
            ));
        }
        if let Some(at) = (0..count).find(|at| ours[*at] != theirs[*at]) {
            return Err(format!(
                "{place}: at {at} the keeper has {:#x}, the plain Rust {:#x}",
                ours[at], theirs[at]
            ));
        }
        numbers[proved.told.0 as usize] += 1;
    }
    Ok(numbers)
}

/// Plays the lists, and says how many bookings there were.
pub fn same() -> Result<(), String> {
    made_too_small()?;
    let mut numbers = [0; 13];
    let mut played = 0;
    for (seed, count) in [67, 68, 75, 90, 130, 200, 400, 1_024, 4_096, 262_200]
        .into_iter()
        .enumerate()
    {
        let bookings = if count > 100_000 { 300 } else { 4_000 };
        for (number, times) in compared(seed as u64, count, bookings)?
            .into_iter()
            .enumerate()
        {
            numbers[number] += times;
        }
        played += bookings;
    }
    println!(
        "{played} bookings were played to both: the same answers, and the same words after each"
    );
    told_numbers(&numbers)
}

/// Over too few words both refuse to make a keeper, and change nothing.
fn made_too_small() -> Result<(), String> {
    for count in [0, 66] {
        let (mut ours, mut theirs) = (vec![5; count], vec![5; count]);
        let made = (
            Keeper { words: &mut ours }.make(),
            Plain { words: &mut theirs }.make(),
        );
        if made != ((2, 0), (2, 0)) || ours != theirs {
            return Err(format!("make over {count} words: {made:?}"));
        }
    }
    Ok(())
}

/// Prints how many bookings were granted, and refused by which number. Each number that a call can give must have come.
fn told_numbers(numbers: &[u32; 13]) -> Result<(), String> {
    print!("granted {}", numbers[0]);
    for (number, times) in numbers.iter().enumerate().skip(2) {
        print!(", refused by {number} {times}");
    }
    println!();
    if numbers
        .iter()
        .enumerate()
        .any(|(number, times)| number != 1 && *times == 0)
    {
        return Err("some refusal never came: the list says too little".to_string());
    }
    Ok(())
}
