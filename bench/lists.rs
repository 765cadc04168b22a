//! Memory for both drivers of a benchmark, on one thread: what is given back is kept in a list of its size, from which the next
//! piece of that size is taken. So a piece takes the same time whatever lies beside it, which it does not from the C library.

use std::alloc::{GlobalAlloc, Layout, System};
use std::cell::UnsafeCell;
use std::ptr::null_mut;

/// How many bytes stand before a piece. They tell its list, and how many bytes it has.
const BEFORE: usize = 16;

/// Up to here sizes are rounded up to a multiple of 16, above to an eighth of a power of two.
const SMALL: usize = 1_024;

const LISTS: usize = SMALL / 16 + 1 + 8 * 64;

struct Free(UnsafeCell<[*mut u8; LISTS]>);

// The benchmark has one thread.
unsafe impl Sync for Free {}

static FREE: Free = Free(UnsafeCell::new([null_mut(); LISTS]));

pub struct Lists;

/// The list of pieces with so many bytes, and how many each has.
fn list_of(size: usize) -> (usize, usize) {
    if size <= SMALL {
        let number = size.max(1).div_ceil(16);
        return (number, number * 16);
    }
    let power = (usize::BITS - 1 - (size - 1).leading_zeros()) as usize;
    let step = 1 << (power - 3);
    let number = (size - (1 << power)).div_ceil(step);
    (SMALL / 16 + 8 * (power - 10) + number, (1 << power) + number * step)
}

/// A piece of at least so many bytes.
pub fn take(size: usize) -> *mut u8 {
    let (list, bytes) = list_of(size);
    unsafe {
        let first = &mut (*FREE.0.get())[list];
        if !first.is_null() {
            let piece = *first;
            *first = piece.cast::<*mut u8>().read();
            return piece;
        }
        let start = System.alloc(Layout::from_size_align_unchecked(BEFORE + bytes, 16));
        if start.is_null() {
            return start;
        }
        start.cast::<[usize; 2]>().write([list, bytes]);
        start.add(BEFORE)
    }
}

/// Gives a piece back.
pub fn give(piece: *mut u8) {
    unsafe {
        let [list, _] = piece.sub(BEFORE).cast::<[usize; 2]>().read();
        let first = &mut (*FREE.0.get())[list];
        piece.cast::<*mut u8>().write(*first);
        *first = piece;
    }
}

/// A piece of at least so many bytes that begins as this one, which is given back where it is too small.
pub fn take_again(piece: *mut u8, size: usize) -> *mut u8 {
    let [_, bytes] = unsafe { piece.sub(BEFORE).cast::<[usize; 2]>().read() };
    if size <= bytes {
        return piece;
    }
    let other = take(size);
    if !other.is_null() {
        unsafe { piece.copy_to_nonoverlapping(other, bytes) };
        give(piece);
    }
    other
}

unsafe impl GlobalAlloc for Lists {
    unsafe fn alloc(&self, layout: Layout) -> *mut u8 {
        assert!(layout.align() <= 16);
        take(layout.size())
    }

    unsafe fn dealloc(&self, piece: *mut u8, _layout: Layout) {
        give(piece)
    }
}
