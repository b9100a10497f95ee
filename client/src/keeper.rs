use crate::kind::Kind;
use crate::raw;
use crate::refusal::{granted, Refusal};

/// A place: a name, 1 to 64, and up to three subscripts, first to last. The library refuses those that no trace can be made of.
#[derive(Clone, Copy, PartialEq, Eq, Debug)]
pub struct Trace<'t> {
    pub name: u64,
    pub subscripts: &'t [i32],
}

/// What a block is, apart from its elements.
#[derive(Clone, Copy, PartialEq, Eq, Debug)]
pub struct Shape {
    /// The subscript of the first element.
    pub base: i64,
    /// How many elements there are.
    pub length: u64,
    /// Whether it is a table, whose elements are arrays.
    pub codes: bool,
    /// The type number of a row's words, 0 for a table.
    pub kind: u64,
}

impl Shape {
    /// A row of so many items of a kind, from a subscript on.
    pub fn row<K: Kind>(base: i64, length: u64) -> Shape {
        let (codes, kind) = (false, K::TYPE);
        Shape {
            base,
            length,
            codes,
            kind,
        }
    }

    /// A table of so many arrays, from a subscript on.
    pub fn table(base: i64, length: u64) -> Shape {
        let (codes, kind) = (true, 0);
        Shape {
            base,
            length,
            codes,
            kind,
        }
    }
}

/// A keeper over words that the caller lends. They hold together, since they were made or loaded, and only its calls change them. Calls that
/// only look want the keeper for themselves too, as the library does.
#[derive(Debug)]
pub struct Keeper<'a> {
    words: &'a mut [u64],
}

/// Calls the library at a trace of a keeper.
macro_rules! at {
    ($call:ident, $keeper:expr, $trace:expr $(, $argument:expr)*) => {{
        let (words, trace): (&mut [u64], Trace<'_>) = (&mut *$keeper.words, $trace);
        let mut step = 0;
        // SAFETY: each list is a slice, handed on as its pointer and its length, and each slot is a variable; those that the call may
        // write are borrowed for it alone.
        let number = unsafe {
            raw::$call(
                words.as_mut_ptr(),
                words.len(),
                trace.name,
                trace.subscripts.as_ptr(),
                trace.subscripts.len(),
                $($argument,)*
                &mut step,
            )
        };
        granted(number, step)
    }};
}

impl<'a> Keeper<'a> {
    /// Makes a keeper over the words, whatever they hold: every name is empty.
    pub fn make(words: &'a mut [u64]) -> Result<Keeper<'a>, Refusal> {
        // SAFETY: the words are a slice that is borrowed for the call alone.
        let number = unsafe { raw::keeper_make(words.as_mut_ptr(), words.len()) };
        granted(number, 0)?;
        Ok(Keeper { words })
    }

    /// The keeper that was saved into the list, over the words, whatever they hold.
    pub fn of_saved(words: &'a mut [u64], list: &[u64]) -> Result<Keeper<'a>, Refusal> {
        let mut keeper = Keeper { words };
        keeper.load(list)?;
        Ok(keeper)
    }

    /// The free words.
    pub fn total(&mut self) -> u64 {
        // SAFETY: the words are a slice that is borrowed for the call alone.
        unsafe { raw::keeper_total(self.words.as_mut_ptr(), self.words.len()) }
    }

    /// Closes all blocks up, with one gap behind them. No array changes.
    pub fn tidy(&mut self) {
        // SAFETY: the words are a slice that is borrowed for the call alone.
        unsafe { raw::keeper_tidy(self.words.as_mut_ptr(), self.words.len()) }
    }

    /// Copies all words into a list of just as many.
    pub fn save(&mut self, list: &mut [u64]) -> Result<(), Refusal> {
        // SAFETY: the words and the list are slices that are borrowed for the call alone.
        let number = unsafe {
            raw::keeper_save(
                self.words.as_mut_ptr(),
                self.words.len(),
                list.as_mut_ptr(),
                list.len(),
            )
        };
        granted(number, 0)
    }

    /// Takes a saved list as the words. Refused, the keeper stays as it was.
    pub fn load(&mut self, list: &[u64]) -> Result<(), Refusal> {
        // SAFETY: the words are a slice that is borrowed for the call alone, and the list is one that nothing changes meanwhile.
        let number = unsafe {
            raw::keeper_load(
                self.words.as_mut_ptr(),
                self.words.len(),
                list.as_ptr(),
                list.len(),
            )
        };
        granted(number, 0)
    }

    /// Takes an array of zeros, or of empty places, at a trace. What stood there is freed first.
    pub fn take(&mut self, trace: Trace<'_>, shape: Shape) -> Result<(), Refusal> {
        at!(
            keeper_take,
            self,
            trace,
            shape.length,
            shape.base,
            shape.codes,
            shape.kind
        )
    }

    /// Frees the array at a trace, with all arrays below it.
    pub fn free(&mut self, trace: Trace<'_>) -> Result<(), Refusal> {
        at!(keeper_free, self, trace)
    }

    /// Brings `n` elements in before the one that the subscript selects, or after the last.
    pub fn insert(&mut self, trace: Trace<'_>, subscript: i32, n: u64) -> Result<(), Refusal> {
        at!(keeper_insert, self, trace, subscript, n)
    }

    /// Takes `n` elements out, from the one that the subscript selects on, with the arrays below them. Not all may leave.
    pub fn delete(&mut self, trace: Trace<'_>, subscript: i32, n: u64) -> Result<(), Refusal> {
        at!(keeper_delete, self, trace, subscript, n)
    }

    /// Gives the array at a trace another base.
    pub fn rebase(&mut self, trace: Trace<'_>, base: i64) -> Result<(), Refusal> {
        at!(keeper_rebase, self, trace, base)
    }

    /// Two elements of a table change places, with all that is below them.
    pub fn exchange(&mut self, trace: Trace<'_>, one: i32, other: i32) -> Result<(), Refusal> {
        at!(keeper_exchange, self, trace, one, other)
    }

    /// What the array at a trace is; none where nothing is booked.
    pub fn span(&mut self, trace: Trace<'_>) -> Result<Option<Shape>, Refusal> {
        let mut extent = raw::Extent::default();
        at!(keeper_span, self, trace, &mut extent)?;
        let raw::Extent {
            base,
            length,
            codes,
            kind,
        } = extent;
        let codes = codes != 0;
        Ok((length != 0).then_some(Shape {
            base,
            length,
            codes,
            kind,
        }))
    }

    /// One element of a row, as an item of the kind.
    pub fn read<K: Kind>(&mut self, trace: Trace<'_>, subscript: i32) -> Result<K::Item, Refusal> {
        let mut word = 0;
        at!(keeper_read, self, trace, K::TYPE, subscript, &mut word)?;
        Ok(K::from_word(word))
    }

    /// Replaces one element of a row by an item of the kind.
    pub fn write<K: Kind>(
        &mut self,
        trace: Trace<'_>,
        subscript: i32,
        item: K::Item,
    ) -> Result<(), Refusal> {
        at!(
            keeper_write,
            self,
            trace,
            K::TYPE,
            subscript,
            K::to_word(item)
        )
    }

    /// Copies as many elements of a row as the list has, from the subscript on, into the list. Refused, the list stays as it was.
    pub fn read_row<K: Kind>(
        &mut self,
        trace: Trace<'_>,
        subscript: i32,
        items: &mut [K::Item],
    ) -> Result<(), Refusal> {
        let mut row = vec![0; items.len()];
        at!(
            keeper_read_row,
            self,
            trace,
            K::TYPE,
            subscript,
            row.as_mut_ptr(),
            row.len()
        )?;
        for (item, word) in items.iter_mut().zip(row) {
            *item = K::from_word(word);
        }
        Ok(())
    }

    /// Replaces as many elements of a row as the list has, from the subscript on.
    pub fn write_row<K: Kind>(
        &mut self,
        trace: Trace<'_>,
        subscript: i32,
        items: &[K::Item],
    ) -> Result<(), Refusal> {
        let row: Vec<u64> = items.iter().map(|item| K::to_word(*item)).collect();
        at!(
            keeper_write_row,
            self,
            trace,
            K::TYPE,
            subscript,
            row.as_ptr(),
            row.len()
        )
    }
}
