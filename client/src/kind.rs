/// What the words of a row mean. A kind has a type number, and turns an item into a word and a word into an item; each turning undoes the
/// other.
pub trait Kind {
    /// What a word means.
    type Item: Copy;

    /// The type number of the rows that hold such items.
    const TYPE: u64;

    /// The word of an item.
    fn to_word(item: Self::Item) -> u64;

    /// The item that a word means.
    fn from_word(word: u64) -> Self::Item;
}

/// Type 0: the item is the word itself.
pub enum Words {}

/// Type 1: an amount in minor units, signed.
pub enum Amounts {}

/// Type 2: a voucher.
pub enum Vouchers {}

/// The voucher of a booking.
#[derive(Clone, Copy, PartialEq, Eq, Debug)]
pub struct Voucher {
    /// Days since 1 January 1900.
    pub days: u32,
    /// The number that the voucher has on that day.
    pub number: u32,
}

impl Kind for Words {
    type Item = u64;

    const TYPE: u64 = 0;

    fn to_word(item: u64) -> u64 {
        item
    }

    fn from_word(word: u64) -> u64 {
        word
    }
}

impl Kind for Amounts {
    type Item = i64;

    const TYPE: u64 = 1;

    fn to_word(item: i64) -> u64 {
        item as u64
    }

    fn from_word(word: u64) -> i64 {
        word as i64
    }
}

impl Kind for Vouchers {
    type Item = Voucher;

    const TYPE: u64 = 2;

    fn to_word(item: Voucher) -> u64 {
        u64::from(item.days) << 32 | u64::from(item.number)
    }

    fn from_word(word: u64) -> Voucher {
        Voucher {
            days: (word >> 32) as u32,
            number: word as u32,
        }
    }
}
