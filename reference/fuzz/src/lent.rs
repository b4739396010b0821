//! Memory that is lent to a call, with guards on both sides, so that what a call may not write is seen to stay.

use std::ptr;

/// A number that lists and out-numbers are made of.
pub trait Plain: Copy + PartialEq {
    /// What memory holds that no call has written.
    const LEFT: Self;
}

macro_rules! plain {
    ($($kind:ty),*) => {
        $(impl Plain for $kind {
            const LEFT: $kind = 0x5A5A_5A5A_5A5A_5A5A_u64 as $kind;
        })*
    };
}

plain!(u8, u16, u32, u64, i32, i64);

/// The elements of a guard.
const GUARD: usize = 16;

/// A lent list.
pub struct Lent<T> {
    all: Vec<T>,
    before: Vec<T>,
}

impl<T: Plain> Lent<T> {
    pub fn of(list: &[T]) -> Lent<T> {
        let guard = [T::LEFT; GUARD];
        let all = [&guard, list, &guard].concat();
        Lent { before: all.clone(), all }
    }

    pub fn len(&self) -> usize {
        self.all.len() - 2 * GUARD
    }

    /// The pointer of a list of none is NULL, which the header allows.
    pub fn ptr(&self) -> *const T {
        match self.len() {
            0 => ptr::null(),
            _ => self.all[GUARD..].as_ptr(),
        }
    }

    pub fn mut_ptr(&mut self) -> *mut T {
        match self.len() {
            0 => ptr::null_mut(),
            _ => self.all[GUARD..].as_mut_ptr(),
        }
    }

    pub fn list(&self) -> &[T] {
        &self.all[GUARD..GUARD + self.len()]
    }

    /// What the list holds now is what it is lent with from here on.
    pub fn settle(&mut self) {
        self.before.clone_from(&self.all);
    }

    /// Nothing was written before it or behind it.
    pub fn guarded(&self) -> bool {
        let (from, to) = (GUARD, self.all.len() - GUARD);
        self.all[..from] == self.before[..from] && self.all[to..] == self.before[to..]
    }

    /// Nothing was written at all.
    pub fn kept(&self) -> bool {
        self.all == self.before
    }
}

/// A lent number, between two guards.
#[derive(Clone, Copy, Debug, PartialEq, Eq)]
pub struct Out<T>([T; 3]);

impl<T: Plain> Out<T> {
    /// As it is lent, and as a refusal must leave it.
    pub fn left() -> Out<T> {
        Out([T::LEFT; 3])
    }

    /// With what a call must have written; as it was lent where that is nothing.
    pub fn said(value: Option<T>) -> Out<T> {
        Out([T::LEFT, value.unwrap_or(T::LEFT), T::LEFT])
    }

    pub fn ptr(&mut self) -> *mut T {
        &mut self.0[1]
    }
}

/// The pointers to a row of lent numbers.
pub fn pointers<T: Plain, const N: usize>(outs: &mut [Out<T>; N]) -> [*mut T; N] {
    let mut all = [ptr::null_mut(); N];
    all.iter_mut().zip(outs).for_each(|(pointer, out)| *pointer = out.ptr());
    all
}
