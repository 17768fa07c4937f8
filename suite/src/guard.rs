//! Memory between two pages that nothing may touch: a read or a write past the slice's edge ends the program.
use std::ffi::c_void;
use std::marker::PhantomData;
use std::mem::{size_of, size_of_val};
use std::ops::{Deref, DerefMut};

const PAGE: usize = 4096;
const NOTHING: i32 = 0;
const READ_AND_WRITE: i32 = 3;
const PRIVATE_AND_ANONYMOUS: i32 = 0x22;

extern "C" {
    fn mmap(
        at: *mut c_void,
        length: usize,
        protection: i32,
        flags: i32,
        file: i32,
        offset: i64,
    ) -> *mut c_void;
    fn mprotect(at: *mut c_void, length: usize, protection: i32) -> i32;
    fn munmap(at: *mut c_void, length: usize) -> i32;
}

/// Which end of the slice stands at a guard page.
#[derive(Clone, Copy, Debug, PartialEq, Eq)]
pub enum Edge {
    Start,
    End,
}

/// A slice that starts or ends at a guard page. What it holds is replaced by `put`; it is made once and used often.
pub struct Guarded<T> {
    whole: *mut u8,
    room: usize,
    at: *mut T,
    count: usize,
    holds: PhantomData<T>,
}

// The memory belongs to this value alone.
unsafe impl<T: Send> Send for Guarded<T> {}

impl<T: Copy> Guarded<T> {
    /// Room for `most` elements; it holds none yet.
    pub fn new(most: usize) -> Guarded<T> {
        let room = (most * size_of::<T>() + PAGE - 1) / PAGE * PAGE;
        // SAFETY: fresh memory at a place of the system's choice; only the room between the outer pages is opened.
        let whole = unsafe {
            let whole = mmap(
                std::ptr::null_mut(),
                room + 2 * PAGE,
                NOTHING,
                PRIVATE_AND_ANONYMOUS,
                -1,
                0,
            );
            assert_ne!(whole as isize, -1, "no memory from mmap");
            if room > 0 {
                assert_eq!(
                    mprotect(whole.cast::<u8>().add(PAGE).cast(), room, READ_AND_WRITE),
                    0
                );
            }
            whole.cast::<u8>()
        };
        Guarded {
            whole,
            room,
            at: unsafe { whole.add(PAGE) }.cast(),
            count: 0,
            holds: PhantomData,
        }
    }

    /// A slice of its own for these elements.
    pub fn holding(edge: Edge, items: &[T]) -> Guarded<T> {
        let mut guarded = Guarded::new(items.len());
        guarded.put(edge, items);
        guarded
    }

    /// Holds these elements from now on, at that edge.
    pub fn put(&mut self, edge: Edge, items: &[T]) {
        let bytes = size_of_val(items);
        assert!(
            bytes <= self.room,
            "{} bytes in a room of {}",
            bytes,
            self.room
        );
        let skipped = match edge {
            Edge::Start => 0,
            Edge::End => self.room - bytes,
        };
        // SAFETY: `skipped + bytes` is at most the room. A page's edge is aligned for every T here, and so is a whole
        // number of T before it.
        unsafe {
            self.at = self.whole.add(PAGE + skipped).cast();
            std::ptr::copy(items.as_ptr(), self.at, items.len());
        }
        self.count = items.len();
    }
}

impl<T> Deref for Guarded<T> {
    type Target = [T];

    fn deref(&self) -> &[T] {
        // SAFETY: `put` copied that many elements there.
        unsafe { std::slice::from_raw_parts(self.at, self.count) }
    }
}

impl<T> DerefMut for Guarded<T> {
    fn deref_mut(&mut self) -> &mut [T] {
        // SAFETY: as above, and `self` is borrowed alone.
        unsafe { std::slice::from_raw_parts_mut(self.at, self.count) }
    }
}

impl<T> Drop for Guarded<T> {
    fn drop(&mut self) {
        // SAFETY: the very memory that `new` was given.
        unsafe { munmap(self.whole.cast(), self.room + 2 * PAGE) };
    }
}
