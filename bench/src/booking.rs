//! What is said to a keeper and what it says back, as the plain Rust and the driver share it.

/// Why a booking was turned away; on the walk with its step.
#[derive(Clone, Copy, PartialEq, Eq, Debug)]
pub enum Refusal {
    WrongCount,
    UnknownName,
    TooDeep,
    Unlabelled(u8),
    WrongSort(u8),
    OutOfBounds(u8),
    WrongType,
    BadField,
    BadLength,
    NoRoom,
    Inconsistent,
}

impl Refusal {
    /// The number of the refusal, and its step, 0 where it has none.
    pub fn told(self) -> (u32, u32) {
        match self {
            Refusal::WrongCount => (2, 0),
            Refusal::UnknownName => (3, 0),
            Refusal::TooDeep => (4, 0),
            Refusal::Unlabelled(step) => (5, step.into()),
            Refusal::WrongSort(step) => (6, step.into()),
            Refusal::OutOfBounds(step) => (7, step.into()),
            Refusal::WrongType => (8, 0),
            Refusal::BadField => (9, 0),
            Refusal::BadLength => (10, 0),
            Refusal::NoRoom => (11, 0),
            Refusal::Inconsistent => (12, 0),
        }
    }
}

/// A name and up to three subscripts.
#[derive(Clone, Copy, Debug)]
pub struct Trace {
    name: u8,
    depth: u8,
    subscripts: [i32; 3],
}

impl Trace {
    pub fn new(name: u64, subscripts: &[i32]) -> Result<Trace, Refusal> {
        if !(1..=64).contains(&name) {
            return Err(Refusal::UnknownName);
        }
        if subscripts.len() > 3 {
            return Err(Refusal::TooDeep);
        }
        let mut kept = [0; 3];
        kept[..subscripts.len()].copy_from_slice(subscripts);
        Ok(Trace {
            name: name as u8,
            depth: subscripts.len() as u8,
            subscripts: kept,
        })
    }

    pub fn name(&self) -> usize {
        self.name.into()
    }

    pub fn depth(&self) -> u8 {
        self.depth
    }

    pub fn subscripts(&self) -> &[i32] {
        &self.subscripts[..self.depth as usize]
    }
}

/// What a block is, apart from its elements and its place.
#[derive(Clone, Copy, PartialEq, Eq, Debug)]
pub struct Shape {
    pub length: u64,
    pub base: i64,
    pub codes: bool,
    pub kind: u64,
}
