//! The keeper's static library, called as C calls it: through the functions that the client declares, with nothing of the client between.

use crate::booking::Shape;
use keeper_client::raw;

/// What a booking answers: its number, 0 where granted, and its step, 0 where there is none.
pub type Told = (u32, u32);

/// The proved keeper over words.
pub struct Keeper<'a> {
    pub words: &'a mut [u64],
}

/// Calls the library at the place of a name and subscripts.
macro_rules! at {
    ($call:ident, $keeper:expr, $name:expr, $subscripts:expr $(, $argument:expr)*) => {{
        let mut step = 0;
        // SAFETY: each list is a slice, handed on as its pointer and its length, and each slot is a variable; those that the call may
        // write are borrowed for it alone.
        let number = unsafe {
            raw::$call(
                $keeper.words.as_mut_ptr(),
                $keeper.words.len(),
                $name,
                $subscripts.as_ptr(),
                $subscripts.len(),
                $($argument,)*
                &mut step,
            )
        };
        (number, step)
    }};
}

impl crate::calls::Calls for Keeper<'_> {
    fn make(&mut self) -> Told {
        // SAFETY: the words are a slice that is borrowed for the call alone.
        let number = unsafe { raw::keeper_make(self.words.as_mut_ptr(), self.words.len()) };
        (number, 0)
    }

    fn total(&mut self) -> u64 {
        // SAFETY: the words are a slice that is borrowed for the call alone.
        unsafe { raw::keeper_total(self.words.as_mut_ptr(), self.words.len()) }
    }

    fn tidy(&mut self) {
        // SAFETY: the words are a slice that is borrowed for the call alone.
        unsafe { raw::keeper_tidy(self.words.as_mut_ptr(), self.words.len()) }
    }

    fn save(&mut self, list: &mut [u64]) -> Told {
        // SAFETY: the words and the list are slices that are borrowed for the call alone.
        let number = unsafe {
            raw::keeper_save(
                self.words.as_mut_ptr(),
                self.words.len(),
                list.as_mut_ptr(),
                list.len(),
            )
        };
        (number, 0)
    }

    fn load(&mut self, list: &[u64]) -> Told {
        // SAFETY: the words are a slice that is borrowed for the call alone, and the list is one that nothing changes meanwhile.
        let number = unsafe {
            raw::keeper_load(
                self.words.as_mut_ptr(),
                self.words.len(),
                list.as_ptr(),
                list.len(),
            )
        };
        (number, 0)
    }

    fn take(&mut self, name: u64, subscripts: &[i32], shape: Shape) -> Told {
        let Shape {
            length,
            base,
            codes,
            kind,
        } = shape;
        at!(
            keeper_take,
            self,
            name,
            subscripts,
            length,
            base,
            codes,
            kind
        )
    }

    fn free(&mut self, name: u64, subscripts: &[i32]) -> Told {
        at!(keeper_free, self, name, subscripts)
    }

    fn read(
        &mut self,
        name: u64,
        subscripts: &[i32],
        kind: u64,
        subscript: i32,
        value: &mut u64,
    ) -> Told {
        at!(keeper_read, self, name, subscripts, kind, subscript, value)
    }

    fn write(
        &mut self,
        name: u64,
        subscripts: &[i32],
        kind: u64,
        subscript: i32,
        value: u64,
    ) -> Told {
        at!(keeper_write, self, name, subscripts, kind, subscript, value)
    }

    fn read_row(
        &mut self,
        name: u64,
        subscripts: &[i32],
        kind: u64,
        subscript: i32,
        list: &mut [u64],
    ) -> Told {
        at!(
            keeper_read_row,
            self,
            name,
            subscripts,
            kind,
            subscript,
            list.as_mut_ptr(),
            list.len()
        )
    }

    fn write_row(
        &mut self,
        name: u64,
        subscripts: &[i32],
        kind: u64,
        subscript: i32,
        list: &[u64],
    ) -> Told {
        at!(
            keeper_write_row,
            self,
            name,
            subscripts,
            kind,
            subscript,
            list.as_ptr(),
            list.len()
        )
    }

    fn span(&mut self, name: u64, subscripts: &[i32], shape: &mut Option<Shape>) -> Told {
        let mut extent = raw::Extent::default();
        let told = at!(keeper_span, self, name, subscripts, &mut extent);
        if told.0 == 0 && extent.length > 0 {
            *shape = Some(Shape {
                length: extent.length,
                base: extent.base,
                codes: extent.codes == 1,
                kind: extent.kind,
            });
        }
        told
    }

    fn insert(&mut self, name: u64, subscripts: &[i32], subscript: i32, n: u64) -> Told {
        at!(keeper_insert, self, name, subscripts, subscript, n)
    }

    fn delete(&mut self, name: u64, subscripts: &[i32], subscript: i32, n: u64) -> Told {
        at!(keeper_delete, self, name, subscripts, subscript, n)
    }

    fn rebase(&mut self, name: u64, subscripts: &[i32], base: i64) -> Told {
        at!(keeper_rebase, self, name, subscripts, base)
    }

    fn exchange(&mut self, name: u64, subscripts: &[i32], one: i32, other: i32) -> Told {
        at!(keeper_exchange, self, name, subscripts, one, other)
    }
}
