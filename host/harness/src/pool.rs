//! Memory for the generators and the model, which take and give back small pieces all the time: lists of free pieces by size, a set for each thread.
//! A thread that ends leaves what is in its lists.

use std::alloc::{GlobalAlloc, Layout, System};
use std::cell::UnsafeCell;
use std::ptr::null_mut;

/// Pieces are multiples of this up to `FINE` bytes, then powers of two up to `MOST`; what is larger is the system's.
const GRAIN: usize = 16;
const FINE: usize = 1 << 10;
const MOST: usize = 1 << 15;
const FINES: usize = FINE / GRAIN;
const LISTS: usize = FINES + (MOST / FINE).ilog2() as usize;
/// What is asked of the system at once.
const CHUNK: usize = 1 << 18;

struct Lists {
    /// the first free piece of each size, each of which begins with the address of the next
    free: [*mut u8; LISTS],
    next: *mut u8,
    left: usize,
}

thread_local! {
    static OWN: UnsafeCell<Lists> = const { UnsafeCell::new(Lists { free: [null_mut(); LISTS], next: null_mut(), left: 0 }) };
}

/// The list of pieces for so many bytes, and how long they are.
fn list_of(layout: &Layout) -> Option<(usize, usize)> {
    let bytes = layout.size().max(1);
    if bytes > MOST || layout.align() > GRAIN {
        return None;
    }
    if bytes <= FINE {
        let list = bytes.div_ceil(GRAIN) - 1;
        return Some((list, (list + 1) * GRAIN));
    }
    let long = bytes.next_power_of_two();
    Some((FINES - 1 + (long / FINE).ilog2() as usize, long))
}

pub struct Pool;

unsafe impl GlobalAlloc for Pool {
    unsafe fn alloc(&self, layout: Layout) -> *mut u8 {
        let Some((list, bytes)) = list_of(&layout) else {
            return System.alloc(layout);
        };
        OWN.with(|own| {
            let lists = &mut *own.get();
            let first = lists.free[list];
            if !first.is_null() {
                lists.free[list] = *(first as *mut *mut u8);
                return first;
            }
            if lists.left < bytes {
                lists.next = System.alloc(Layout::from_size_align_unchecked(CHUNK, GRAIN));
                lists.left = if lists.next.is_null() { return null_mut() } else { CHUNK };
            }
            let piece = lists.next;
            lists.next = piece.add(bytes);
            lists.left -= bytes;
            piece
        })
    }

    unsafe fn dealloc(&self, at: *mut u8, layout: Layout) {
        let Some((list, _)) = list_of(&layout) else {
            return System.dealloc(at, layout);
        };
        OWN.with(|own| {
            let lists = &mut *own.get();
            *(at as *mut *mut u8) = lists.free[list];
            lists.free[list] = at;
        })
    }

    unsafe fn realloc(&self, at: *mut u8, layout: Layout, bytes: usize) -> *mut u8 {
        let new = Layout::from_size_align_unchecked(bytes, layout.align());
        match (list_of(&layout), list_of(&new)) {
            (None, None) => System.realloc(at, layout, bytes),
            (old, list) if old == list => at,
            _ => {
                let moved = self.alloc(new);
                if !moved.is_null() {
                    std::ptr::copy_nonoverlapping(at, moved, layout.size().min(bytes));
                    self.dealloc(at, layout);
                }
                moved
            }
        }
    }
}
