//! The calls of a keeper as C makes them, so that the same lists of bookings and the same measurements go to both keepers.

use crate::booking::{Refusal, Shape, Trace};
use crate::plain;
use crate::proved::Told;

/// A keeper that is called with a name, subscripts and numbers. Each call answers the number of the refusal, 0 where granted, and its step.
pub trait Calls {
    fn make(&mut self) -> Told;
    fn total(&mut self) -> u64;
    fn tidy(&mut self);
    fn save(&mut self, list: &mut [u64]) -> Told;
    fn load(&mut self, list: &[u64]) -> Told;
    fn take(&mut self, name: u64, subscripts: &[i32], shape: Shape) -> Told;
    fn free(&mut self, name: u64, subscripts: &[i32]) -> Told;
    fn read(
        &mut self,
        name: u64,
        subscripts: &[i32],
        kind: u64,
        subscript: i32,
        value: &mut u64,
    ) -> Told;
    fn write(
        &mut self,
        name: u64,
        subscripts: &[i32],
        kind: u64,
        subscript: i32,
        value: u64,
    ) -> Told;
    fn read_row(
        &mut self,
        name: u64,
        subscripts: &[i32],
        kind: u64,
        subscript: i32,
        list: &mut [u64],
    ) -> Told;
    fn write_row(
        &mut self,
        name: u64,
        subscripts: &[i32],
        kind: u64,
        subscript: i32,
        list: &[u64],
    ) -> Told;
    fn span(&mut self, name: u64, subscripts: &[i32], shape: &mut Option<Shape>) -> Told;
    fn insert(&mut self, name: u64, subscripts: &[i32], subscript: i32, n: u64) -> Told;
    fn delete(&mut self, name: u64, subscripts: &[i32], subscript: i32, n: u64) -> Told;
    fn rebase(&mut self, name: u64, subscripts: &[i32], base: i64) -> Told;
    fn exchange(&mut self, name: u64, subscripts: &[i32], one: i32, other: i32) -> Told;
}

fn told(done: Result<(), Refusal>) -> Told {
    match done {
        Ok(()) => (0, 0),
        Err(refusal) => refusal.told(),
    }
}

/// The plain keeper over words.
pub struct Plain<'a> {
    pub words: &'a mut [u64],
}

impl Plain<'_> {
    fn keeper(&mut self) -> plain::Keeper<'_> {
        plain::Keeper::new(self.words)
    }
}

// Each is a call of its own and is not merged into the caller's loop, as the static library's are not.
impl Calls for Plain<'_> {
    #[inline(never)]
    fn make(&mut self) -> Told {
        told(self.keeper().make())
    }

    #[inline(never)]
    fn total(&mut self) -> u64 {
        self.keeper().total()
    }

    #[inline(never)]
    fn tidy(&mut self) {
        self.keeper().tidy();
    }

    #[inline(never)]
    fn save(&mut self, list: &mut [u64]) -> Told {
        told(self.keeper().save(list))
    }

    #[inline(never)]
    fn load(&mut self, list: &[u64]) -> Told {
        told(self.keeper().load(list))
    }

    #[inline(never)]
    fn take(&mut self, name: u64, subscripts: &[i32], shape: Shape) -> Told {
        told(Trace::new(name, subscripts).and_then(|trace| self.keeper().take(&trace, shape)))
    }

    #[inline(never)]
    fn free(&mut self, name: u64, subscripts: &[i32]) -> Told {
        told(Trace::new(name, subscripts).and_then(|trace| self.keeper().free(&trace)))
    }

    #[inline(never)]
    fn read(
        &mut self,
        name: u64,
        subscripts: &[i32],
        kind: u64,
        subscript: i32,
        value: &mut u64,
    ) -> Told {
        let found = Trace::new(name, subscripts)
            .and_then(|trace| self.keeper().read(&trace, kind, subscript));
        told(found.map(|word| *value = word))
    }

    #[inline(never)]
    fn write(
        &mut self,
        name: u64,
        subscripts: &[i32],
        kind: u64,
        subscript: i32,
        value: u64,
    ) -> Told {
        told(
            Trace::new(name, subscripts)
                .and_then(|trace| self.keeper().write(&trace, kind, subscript, value)),
        )
    }

    #[inline(never)]
    fn read_row(
        &mut self,
        name: u64,
        subscripts: &[i32],
        kind: u64,
        subscript: i32,
        list: &mut [u64],
    ) -> Told {
        told(
            Trace::new(name, subscripts)
                .and_then(|trace| self.keeper().read_row(&trace, kind, subscript, list)),
        )
    }

    #[inline(never)]
    fn write_row(
        &mut self,
        name: u64,
        subscripts: &[i32],
        kind: u64,
        subscript: i32,
        list: &[u64],
    ) -> Told {
        told(
            Trace::new(name, subscripts)
                .and_then(|trace| self.keeper().write_row(&trace, kind, subscript, list)),
        )
    }

    #[inline(never)]
    fn span(&mut self, name: u64, subscripts: &[i32], shape: &mut Option<Shape>) -> Told {
        let found = Trace::new(name, subscripts).and_then(|trace| self.keeper().span(&trace));
        told(found.map(|found| *shape = found))
    }

    #[inline(never)]
    fn insert(&mut self, name: u64, subscripts: &[i32], subscript: i32, n: u64) -> Told {
        told(
            Trace::new(name, subscripts)
                .and_then(|trace| self.keeper().insert(&trace, subscript, n)),
        )
    }

    #[inline(never)]
    fn delete(&mut self, name: u64, subscripts: &[i32], subscript: i32, n: u64) -> Told {
        told(
            Trace::new(name, subscripts)
                .and_then(|trace| self.keeper().delete(&trace, subscript, n)),
        )
    }

    #[inline(never)]
    fn rebase(&mut self, name: u64, subscripts: &[i32], base: i64) -> Told {
        told(Trace::new(name, subscripts).and_then(|trace| self.keeper().rebase(&trace, base)))
    }

    #[inline(never)]
    fn exchange(&mut self, name: u64, subscripts: &[i32], one: i32, other: i32) -> Told {
        told(
            Trace::new(name, subscripts)
                .and_then(|trace| self.keeper().exchange(&trace, one, other)),
        )
    }
}
