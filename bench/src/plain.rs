//! The keeper's rules in plain Rust, over words that the caller lends. Nothing is proved of it. Over words that do not hold together it may panic.

use crate::booking::{Refusal, Shape, Trace};

const FIRST: usize = 65;
const LEAST: usize = 67;
const MOST: usize = 262_144;
const NAMES: usize = 64;
const LEVELS: u8 = 4;
const FIELD: u64 = 1 << 18;

/// The fields of a codeword that this keeper uses.
#[derive(Clone, Copy)]
struct Label {
    first: usize,
    length: usize,
    base: i16,
    codes: bool,
    kind: u8,
}

impl Label {
    /// The label that a word is; none where it is 0.
    fn of(word: u64) -> Option<Label> {
        if word == 0 {
            return None;
        }
        Some(Label {
            first: (word % FIELD) as usize,
            length: (word >> 18 & (FIELD - 1)) as usize,
            base: (word >> 36) as i16,
            codes: word >> 54 & 1 == 1,
            kind: (word >> 56 & 3) as u8,
        })
    }

    fn word(self) -> u64 {
        self.first as u64
            | (self.length as u64) << 18
            | u64::from(self.base as u16) << 36
            | u64::from(self.codes) << 54
            | u64::from(self.kind) << 56
    }

    /// Which element a subscript selects, of a block of so many.
    fn choose(self, length: usize, subscript: i32, step: u8) -> Result<usize, Refusal> {
        let offset = i64::from(subscript) - i64::from(self.base);
        match usize::try_from(offset) {
            Ok(k) if k < length => Ok(k),
            _ => Err(Refusal::OutOfBounds(step)),
        }
    }
}

/// The header, or the first word of a gap: a size and the address of the next gap, 0 for none.
#[derive(Clone, Copy)]
struct Head {
    size: usize,
    next: usize,
}

impl Head {
    fn of(word: u64) -> Head {
        Head {
            size: (word % FIELD) as usize,
            next: (word >> 18 & (FIELD - 1)) as usize,
        }
    }

    fn word(self) -> u64 {
        self.size as u64 | (self.next as u64) << 18
    }
}

/// A keeper over lent words.
pub struct Keeper<'a> {
    words: &'a mut [u64],
}

impl<'a> Keeper<'a> {
    pub fn new(words: &'a mut [u64]) -> Keeper<'a> {
        let count = words.len().min(MOST);
        Keeper {
            words: &mut words[..count],
        }
    }

    pub fn make(&mut self) -> Result<(), Refusal> {
        let count = self.words.len();
        if count < LEAST {
            return Err(Refusal::WrongCount);
        }
        self.words.fill(0);
        self.leave_gap(FIRST);
        Ok(())
    }

    pub fn total(&self) -> u64 {
        self.head(0).size as u64
    }

    pub fn span(&self, trace: &Trace) -> Result<Option<Shape>, Refusal> {
        let at = self.walk(trace)?;
        Ok(Label::of(self.words[at]).map(|label| Shape {
            length: label.length as u64,
            base: label.base.into(),
            codes: label.codes,
            kind: label.kind.into(),
        }))
    }

    pub fn read(&self, trace: &Trace, kind: u64, subscript: i32) -> Result<u64, Refusal> {
        let (at, _) = self.row(trace, kind, subscript)?;
        Ok(self.words[at])
    }

    pub fn write(
        &mut self,
        trace: &Trace,
        kind: u64,
        subscript: i32,
        word: u64,
    ) -> Result<(), Refusal> {
        let (at, _) = self.row(trace, kind, subscript)?;
        self.words[at] = word;
        Ok(())
    }

    pub fn read_row(
        &self,
        trace: &Trace,
        kind: u64,
        subscript: i32,
        list: &mut [u64],
    ) -> Result<(), Refusal> {
        let at = self.run(trace, kind, subscript, list.len())?;
        list.copy_from_slice(&self.words[at..at + list.len()]);
        Ok(())
    }

    pub fn write_row(
        &mut self,
        trace: &Trace,
        kind: u64,
        subscript: i32,
        list: &[u64],
    ) -> Result<(), Refusal> {
        let at = self.run(trace, kind, subscript, list.len())?;
        self.words[at..at + list.len()].copy_from_slice(list);
        Ok(())
    }

    pub fn take(&mut self, trace: &Trace, shape: Shape) -> Result<(), Refusal> {
        let at = self.walk(trace)?;
        let base = i16::try_from(shape.base).map_err(|_| Refusal::BadField)?;
        let step = trace.depth() + 1;
        if shape.kind > 2 || shape.codes && (shape.kind != 0 || step == LEVELS) {
            return Err(Refusal::BadField);
        }
        if shape.length == 0 {
            return Err(Refusal::BadLength);
        }
        if shape.length >= self.total() + self.weight(at) as u64 {
            return Err(Refusal::NoRoom);
        }
        self.release(at, 0);
        let length = shape.length as usize;
        let start = self.room(length + 1);
        let label = Label {
            first: start + 1,
            length,
            base,
            codes: shape.codes,
            kind: shape.kind as u8,
        };
        // Finding room may have moved the codeword.
        let at = self.walk(trace)?;
        self.words[at] = label.word();
        self.words[start] = at as u64;
        Ok(())
    }

    pub fn free(&mut self, trace: &Trace) -> Result<(), Refusal> {
        let at = self.walk(trace)?;
        if self.words[at] == 0 {
            return Err(Refusal::Unlabelled(trace.depth() + 1));
        }
        self.release(at, 0);
        Ok(())
    }

    pub fn rebase(&mut self, trace: &Trace, base: i64) -> Result<(), Refusal> {
        let at = self.walk(trace)?;
        let label = self.label(at, trace.depth() + 1)?;
        let base = i16::try_from(base).map_err(|_| Refusal::BadField)?;
        self.words[at] = Label { base, ..label }.word();
        Ok(())
    }

    pub fn exchange(&mut self, trace: &Trace, one: i32, other: i32) -> Result<(), Refusal> {
        let at = self.walk(trace)?;
        let step = trace.depth() + 1;
        let here = self.down(at, one, step)?;
        let there = self.down(at, other, step)?;
        self.words.swap(here, there);
        self.renew(here);
        self.renew(there);
        Ok(())
    }

    pub fn insert(&mut self, trace: &Trace, subscript: i32, n: u64) -> Result<(), Refusal> {
        let at = self.walk(trace)?;
        let step = trace.depth() + 1;
        let label = self.label(at, step)?;
        label.choose(label.length + 1, subscript, step)?;
        if n == 0 {
            return Err(Refusal::BadLength);
        }
        if n > self.total() {
            return Err(Refusal::NoRoom);
        }
        self.tidy();
        let at = self.walk(trace)?;
        let label = self.label(at, step)?;
        let point = label.first + label.choose(label.length + 1, subscript, step)?;
        self.open(at, point, n as usize);
        Ok(())
    }

    pub fn delete(&mut self, trace: &Trace, subscript: i32, n: u64) -> Result<(), Refusal> {
        let at = self.walk(trace)?;
        let step = trace.depth() + 1;
        let label = self.label(at, step)?;
        let k = label.choose(label.length, subscript, step)?;
        if n == 0 || n > (label.length - k) as u64 || n == label.length as u64 {
            return Err(Refusal::BadLength);
        }
        let n = n as usize;
        let from = label.first + k;
        let end = label.first + label.length;
        if label.codes {
            let mut last = 0;
            for code in from..from + n {
                last = self.release(code, last);
            }
        }
        self.words.copy_within(from + n..end, from);
        if label.codes {
            for code in from..end - n {
                self.renew(code);
            }
        }
        let length = label.length - n;
        self.words[at] = Label { length, ..label }.word();
        self.link_gap(0, end - n, n);
        Ok(())
    }

    pub fn save(&self, list: &mut [u64]) -> Result<(), Refusal> {
        if list.len() != self.words.len() {
            return Err(Refusal::WrongCount);
        }
        list.copy_from_slice(self.words);
        Ok(())
    }

    pub fn load(&mut self, list: &[u64]) -> Result<(), Refusal> {
        if list.len() != self.words.len() {
            return Err(Refusal::WrongCount);
        }
        if !holds_together(list) {
            return Err(Refusal::Inconsistent);
        }
        self.words.copy_from_slice(list);
        Ok(())
    }

    /// Closes all blocks up, in the order of their addresses.
    pub fn tidy(&mut self) {
        let mut gap = self.head(0).next;
        // Nothing moves below the first gap.
        let mut to = if gap == 0 { self.words.len() } else { gap };
        let mut at = to;
        while at < self.words.len() {
            if at == gap {
                let head = self.head(at);
                at += head.size;
                gap = head.next;
                continue;
            }
            let owner = self.words[at] as usize;
            let code = self.words[owner];
            let size = 1 + (code >> 18 & (FIELD - 1)) as usize;
            self.words.copy_within(at..at + size, to);
            // The codeword may lie in the block that has just moved; then its new place is below the block's end, and `owner` is that place,
            // since the block's back-reference was renewed when the codewords moved.
            self.words[owner] = code - code % FIELD + (to + 1) as u64;
            if code >> 54 & 1 == 1 {
                for code in to + 1..to + size {
                    self.renew(code);
                }
            }
            at += size;
            to += size;
        }
        self.leave_gap(to);
    }

    fn head(&self, at: usize) -> Head {
        Head::of(self.words[at])
    }

    /// The label of the codeword at an address; refused where it labels nothing.
    fn label(&self, at: usize, step: u8) -> Result<Label, Refusal> {
        Label::of(self.words[at]).ok_or(Refusal::Unlabelled(step))
    }

    /// The codeword that a subscript selects in the block that the codeword at an address labels.
    fn down(&self, at: usize, subscript: i32, step: u8) -> Result<usize, Refusal> {
        let label = self.label(at, step)?;
        if !label.codes {
            return Err(Refusal::WrongSort(step));
        }
        Ok(label.first + label.choose(label.length, subscript, step)?)
    }

    /// The codeword at the end of a trace.
    fn walk(&self, trace: &Trace) -> Result<usize, Refusal> {
        let mut at = trace.name();
        for (subscript, step) in trace.subscripts().iter().zip(1..) {
            at = self.down(at, *subscript, step)?;
        }
        Ok(at)
    }

    /// The data element at the end of a trace: its address, and how many there are from it on.
    fn row(&self, trace: &Trace, kind: u64, subscript: i32) -> Result<(usize, usize), Refusal> {
        let step = trace.depth() + 1;
        let label = self.label(self.walk(trace)?, step)?;
        if label.codes {
            return Err(Refusal::WrongSort(step));
        }
        let k = label.choose(label.length, subscript, step)?;
        if u64::from(label.kind) != kind {
            return Err(Refusal::WrongType);
        }
        Ok((label.first + k, label.length - k))
    }

    fn run(&self, trace: &Trace, kind: u64, subscript: i32, n: usize) -> Result<usize, Refusal> {
        let (at, left) = self.row(trace, kind, subscript)?;
        if n == 0 || n > left {
            return Err(Refusal::BadLength);
        }
        Ok(at)
    }

    /// The words that the array at an address takes up.
    fn weight(&self, at: usize) -> usize {
        match Label::of(self.words[at]) {
            None => 0,
            Some(label) if label.codes => {
                let below = label.first..label.first + label.length;
                1 + label.length + below.map(|code| self.weight(code)).sum::<usize>()
            }
            Some(label) => 1 + label.length,
        }
    }

    /// The blocks of the array at an address become gaps, those below first. The search in the chain goes on from the gap linked last, which
    /// is answered: 0 at first.
    fn release(&mut self, at: usize, mut last: usize) -> usize {
        let Some(label) = Label::of(self.words[at]) else {
            return last;
        };
        if label.codes {
            for code in label.first..label.first + label.length {
                last = self.release(code, last);
            }
        }
        let start = label.first - 1;
        self.link_gap(last, start, label.length + 1);
        self.words[at] = 0;
        start
    }

    /// Zeros words and links them into the chain, which is searched from the gap at `from` on if that lies below.
    fn link_gap(&mut self, from: usize, at: usize, size: usize) {
        self.words[at..at + size].fill(0);
        let mut before = if from < at { from } else { 0 };
        let mut head = self.head(before);
        while head.next != 0 && head.next < at {
            before = head.next;
            head = self.head(before);
        }
        let gap = Head {
            size,
            next: head.next,
        };
        self.words[at] = gap.word();
        self.words[before] = Head { next: at, ..head }.word();
        self.words[0] += size as u64;
    }

    /// Makes the words from an address on the only gap.
    fn leave_gap(&mut self, at: usize) {
        let size = self.words.len() - at;
        if size == 0 {
            self.words[0] = 0;
            return;
        }
        self.words[at..].fill(0);
        self.words[at] = Head { size, next: 0 }.word();
        self.words[0] = Head { size, next: at }.word();
    }

    /// The first gap of so many words gives its front.
    fn first_fit(&mut self, need: usize) -> Option<usize> {
        let mut before = 0;
        let mut link = self.head(0);
        while link.next != 0 {
            let at = link.next;
            let gap = self.head(at);
            if need <= gap.size {
                let mut next = gap.next;
                if need < gap.size {
                    next = at + need;
                    let size = gap.size - need;
                    self.words[next] = Head {
                        size,
                        next: gap.next,
                    }
                    .word();
                }
                self.words[before] = Head { next, ..link }.word();
                self.words[0] -= need as u64;
                return Some(at);
            }
            before = at;
            link = gap;
        }
        None
    }

    /// Adjacent gaps combine.
    fn combine(&mut self) {
        let mut at = self.head(0).next;
        while at != 0 {
            let mut gap = self.head(at);
            while gap.next == at + gap.size {
                let after = self.head(gap.next);
                self.words[gap.next] = 0;
                gap = Head {
                    size: gap.size + after.size,
                    next: after.next,
                };
            }
            self.words[at] = gap.word();
            at = gap.next;
        }
    }

    /// Finds so many words in a row; there are as many free.
    fn room(&mut self, need: usize) -> usize {
        if let Some(at) = self.first_fit(need) {
            return at;
        }
        self.combine();
        if let Some(at) = self.first_fit(need) {
            return at;
        }
        self.tidy();
        self.first_fit(need).expect("the free words were counted")
    }

    /// Renews the back-reference of the block that the codeword at an address labels, if it labels one.
    fn renew(&mut self, at: usize) {
        let first = (self.words[at] % FIELD) as usize;
        if first > 0 {
            self.words[first - 1] = at as u64;
        }
    }

    /// Brings n zeros in at a point of the block that the codeword at `at` labels. All blocks are closed up, with one gap behind them.
    fn open(&mut self, at: usize, point: usize, n: usize) {
        let lift = |address: usize| {
            if address < point {
                address
            } else {
                address + n
            }
        };
        let end = self.head(0).next;
        self.words[at] += (n as u64) << 18;
        self.words.copy_within(point..end, point + n);
        self.words[point..point + n].fill(0);
        let end = end + n;
        let mut start = FIRST;
        while start < end {
            let owner = lift(self.words[start] as usize);
            self.words[start] = owner as u64;
            let code = self.words[owner];
            self.words[owner] = code - code % FIELD + (start + 1) as u64;
            start += 1 + (code >> 18 & (FIELD - 1)) as usize;
        }
        self.leave_gap(end);
    }
}

/// Whether a list of words holds together.
pub fn holds_together(words: &[u64]) -> bool {
    if !(LEAST..=MOST).contains(&words.len()) {
        return false;
    }
    let mut judge = Judge {
        words,
        marks: [0; MOST / 64],
    };
    judge.tiled()
        && (1..=NAMES).all(|at| judge.array(at, LEVELS))
        && judge.marks.iter().all(|bits| *bits == 0)
}

/// A list that is judged, with a mark for each address where a block begins.
struct Judge<'a> {
    words: &'a [u64],
    marks: [u64; MOST / 64],
}

impl Judge<'_> {
    /// Whether gaps and blocks lie one behind the other up to the end.
    fn tiled(&mut self) -> bool {
        let words = self.words;
        if words[0] >= FIELD * FIELD {
            return false;
        }
        let mut left = Head::of(words[0]);
        let mut at = FIRST;
        while at < words.len() {
            if at == left.next {
                let gap = Head::of(words[at]);
                let room = left.size.min(words.len() - at);
                if words[at] >= FIELD * FIELD || gap.size < 1 || gap.size > room {
                    return false;
                }
                if words[at + 1..at + gap.size].iter().any(|word| *word != 0) {
                    return false;
                }
                left = Head {
                    size: left.size - gap.size,
                    next: gap.next,
                };
                at += gap.size;
            } else {
                let owner = words.get(words[at] as usize).copied().unwrap_or(0);
                self.marks[at / 64] |= 1 << (at % 64);
                at += 1 + (owner >> 18 & (FIELD - 1)) as usize;
            }
        }
        at == words.len() && left.next == 0 && left.size == 0
    }

    /// Whether the array at an address is sound; its marks are taken down.
    fn array(&mut self, at: usize, levels: u8) -> bool {
        let word = self.words[at];
        let Some(label) = Label::of(word) else {
            return true;
        };
        let lawful = word == label.word()
            && label.length >= 1
            && label.kind <= 2
            && !(label.codes && label.kind != 0);
        let end = label.first + label.length;
        if levels == 0 || !lawful || label.first <= FIRST || end > self.words.len() {
            return false;
        }
        let start = label.first - 1;
        let mark = 1 << (start % 64);
        if self.marks[start / 64] & mark == 0 || self.words[start] != at as u64 {
            return false;
        }
        self.marks[start / 64] ^= mark;
        !label.codes || (label.first..end).all(|code| self.array(code, levels - 1))
    }
}
