//! Zeroed words. The operating system gives their pages at the first touch, so that what a call doesn't use costs nothing.

use std::alloc::{alloc_zeroed, dealloc, Layout};
use std::ops::{Deref, DerefMut};
use std::ptr::NonNull;
use std::slice;

pub struct Zeroed {
    start: NonNull<u32>,
    length: usize,
}

impl Zeroed {
    /// That many words, or that there is no memory for them.
    pub fn new(length: usize) -> Result<Zeroed, String> {
        let none = || format!("no memory for {length} words");
        let layout = Layout::array::<u32>(length).map_err(|_| none())?;
        let start = match length {
            0 => Some(NonNull::dangling()),
            // Safety: the layout has a size above 0.
            _ => NonNull::new(unsafe { alloc_zeroed(layout) }.cast()),
        };
        Ok(Zeroed { start: start.ok_or_else(none)?, length })
    }
}

impl Drop for Zeroed {
    fn drop(&mut self) {
        if self.length > 0 {
            let layout = Layout::array::<u32>(self.length).expect("the layout it was made with");
            // Safety: `new` allocated it with this layout.
            unsafe { dealloc(self.start.as_ptr().cast(), layout) }
        }
    }
}

impl Deref for Zeroed {
    type Target = [u32];

    fn deref(&self) -> &[u32] {
        // Safety: `start` has `length` words, zeroed at first, and is this value's own.
        unsafe { slice::from_raw_parts(self.start.as_ptr(), self.length) }
    }
}

impl DerefMut for Zeroed {
    fn deref_mut(&mut self) -> &mut [u32] {
        // Safety: as above, and the borrow is the only one.
        unsafe { slice::from_raw_parts_mut(self.start.as_ptr(), self.length) }
    }
}
