//! Lists as C has them.
use std::fmt::{Debug, Formatter, Result};
use std::marker::PhantomData;
use std::ops::{Deref, DerefMut};
use std::slice;

/// A list that is read: the pointer and the length of a slice. Empty by default.
#[repr(C)]
pub struct List<'a, T> {
    pointer: *const T,
    length: usize,
    slice: PhantomData<&'a [T]>,
}

/// A list that is written: the pointer and the length of a slice. Empty by default.
#[repr(C)]
pub struct ListMut<'a, T> {
    pointer: *mut T,
    length: usize,
    slice: PhantomData<&'a mut [T]>,
}

impl<T> Clone for List<'_, T> {
    fn clone(&self) -> Self {
        *self
    }
}

impl<T> Copy for List<'_, T> {}

impl<'a, T> From<&'a [T]> for List<'a, T> {
    fn from(slice: &'a [T]) -> Self {
        Self {
            pointer: slice.as_ptr(),
            length: slice.len(),
            slice: PhantomData,
        }
    }
}

impl<'a, T> From<&'a mut [T]> for ListMut<'a, T> {
    fn from(slice: &'a mut [T]) -> Self {
        Self {
            pointer: slice.as_mut_ptr(),
            length: slice.len(),
            slice: PhantomData,
        }
    }
}

impl<T> Default for List<'_, T> {
    fn default() -> Self {
        Self::from(&[][..])
    }
}

impl<T> Default for ListMut<'_, T> {
    fn default() -> Self {
        Self::from(&mut [][..])
    }
}

// Pointer and length are those of a slice that is borrowed for 'a: they are set by `from` alone, and a call, which is
// lent them in its structs, leaves them as they are.

impl<T> Deref for List<'_, T> {
    type Target = [T];

    fn deref(&self) -> &[T] {
        unsafe { slice::from_raw_parts(self.pointer, self.length) }
    }
}

impl<T> Deref for ListMut<'_, T> {
    type Target = [T];

    fn deref(&self) -> &[T] {
        unsafe { slice::from_raw_parts(self.pointer, self.length) }
    }
}

impl<T> DerefMut for ListMut<'_, T> {
    fn deref_mut(&mut self) -> &mut [T] {
        unsafe { slice::from_raw_parts_mut(self.pointer, self.length) }
    }
}

impl<T: Debug> Debug for List<'_, T> {
    fn fmt(&self, out: &mut Formatter) -> Result {
        (**self).fmt(out)
    }
}

impl<T: Debug> Debug for ListMut<'_, T> {
    fn fmt(&self, out: &mut Formatter) -> Result {
        (**self).fmt(out)
    }
}

// They are the slices that they were made of.
unsafe impl<T: Sync> Send for List<'_, T> {}
unsafe impl<T: Sync> Sync for List<'_, T> {}
unsafe impl<T: Send> Send for ListMut<'_, T> {}
unsafe impl<T: Sync> Sync for ListMut<'_, T> {}
