use std::error::Error;
use std::fmt;

/// Why a call was turned away. On the walk the step is told: the trace's first subscript is step 1.
#[derive(Clone, Copy, PartialEq, Eq, Debug)]
pub enum Refusal {
    /// Too few words for a keeper, or a saved list that is not as long as the store.
    WrongCount,
    /// The name is not 1 to 64.
    UnknownName,
    /// More than three subscripts.
    TooDeep,
    /// Nothing is booked at this step.
    Unlabelled(u32),
    /// A row where a table is wanted, or the other way round.
    WrongSort(u32),
    /// There is no such element.
    OutOfBounds(u32),
    /// The row holds items of another kind.
    WrongType,
    /// A base, a type or a depth that no block can have.
    BadField,
    /// A length of 0, or one that runs past the end.
    BadLength,
    /// Too few free words.
    NoRoom,
    /// The saved list does not hold together.
    Inconsistent,
}

impl Refusal {
    /// The number by which it is known.
    pub fn number(self) -> u32 {
        match self {
            Refusal::WrongCount => 2,
            Refusal::UnknownName => 3,
            Refusal::TooDeep => 4,
            Refusal::Unlabelled(_) => 5,
            Refusal::WrongSort(_) => 6,
            Refusal::OutOfBounds(_) => 7,
            Refusal::WrongType => 8,
            Refusal::BadField => 9,
            Refusal::BadLength => 10,
            Refusal::NoRoom => 11,
            Refusal::Inconsistent => 12,
        }
    }

    /// The step, on the walk.
    pub fn step(self) -> Option<u32> {
        match self {
            Refusal::Unlabelled(step) | Refusal::WrongSort(step) | Refusal::OutOfBounds(step) => {
                Some(step)
            }
            _ => None,
        }
    }
}

/// What a call of the library answered: 0 is granted. A number that no call answers ends the program.
pub(crate) fn granted(number: u32, step: u32) -> Result<(), Refusal> {
    Err(match number {
        0 => return Ok(()),
        2 => Refusal::WrongCount,
        3 => Refusal::UnknownName,
        4 => Refusal::TooDeep,
        5 => Refusal::Unlabelled(step),
        6 => Refusal::WrongSort(step),
        7 => Refusal::OutOfBounds(step),
        8 => Refusal::WrongType,
        9 => Refusal::BadField,
        10 => Refusal::BadLength,
        11 => Refusal::NoRoom,
        12 => Refusal::Inconsistent,
        _ => unreachable!("no call answers {number}"),
    })
}

impl fmt::Display for Refusal {
    fn fmt(&self, f: &mut fmt::Formatter<'_>) -> fmt::Result {
        f.write_str(match self {
            Refusal::WrongCount => "a keeper needs 67 words, and a saved list as many as the store",
            Refusal::UnknownName => "names are 1 to 64",
            Refusal::TooDeep => "a table goes no deeper than three subscripts",
            Refusal::Unlabelled(_) => "nothing is booked there",
            Refusal::WrongSort(_) => {
                "there is a row where a table is wanted, or a table where a row is"
            }
            Refusal::OutOfBounds(_) => "there is no such element",
            Refusal::WrongType => "the row holds items of another kind",
            Refusal::BadField => "no row or table can have that base, type or depth",
            Refusal::BadLength => "the length is 0 or runs past the end",
            Refusal::NoRoom => "there are not enough free words",
            Refusal::Inconsistent => "the saved words do not hold together",
        })
    }
}

impl Error for Refusal {}
