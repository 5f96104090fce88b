//! The memory of the host, from the allocator of Rust, in place of `c/heap.c`.

use std::alloc::{Layout, alloc, dealloc, realloc};
use std::ptr;

/// Whether there is a block, and where: anywhere but at null if there is none.
#[repr(C)]
pub(crate) struct Tried {
    ok: bool,
    at: *mut u8,
}

/// What stands in front of a block: its size, in as many octets as its alignment has.
const FRONT: usize = 16;

/// Of a block of a size and what stands in front of it.
fn layout(size: usize) -> Option<Layout> {
    Layout::from_size_align(size.checked_add(FRONT)?, FRONT).ok()
}

/// Writes the size of a block in front of it.
///
/// # Safety
///
/// `front` is null, or begins memory of `FRONT` octets and `size` more.
unsafe fn tried(front: *mut u8, size: usize) -> Tried {
    if front.is_null() {
        return Tried {
            ok: false,
            at: ptr::dangling_mut(),
        };
    }
    unsafe {
        front.cast::<usize>().write(size);
        Tried {
            ok: true,
            at: front.add(FRONT),
        }
    }
}

/// Gets memory. No alignment is above `FRONT`.
#[unsafe(no_mangle)]
extern "C" fn rattle_alloc(size: usize, _align: usize) -> Tried {
    match layout(size) {
        Some(layout) => unsafe { tried(alloc(layout), size) },
        None => unsafe { tried(ptr::null_mut(), size) },
    }
}

/// Makes a block one of another size, and keeps what is in it. Where that fails it is as it was.
#[unsafe(no_mangle)]
unsafe extern "C" fn rattle_realloc(
    at: *mut u8,
    _kept: usize,
    size: usize,
    _align: usize,
) -> Tried {
    let Some(new) = layout(size) else {
        return unsafe { tried(ptr::null_mut(), size) };
    };
    unsafe {
        let front = at.sub(FRONT);
        let old = Layout::from_size_align_unchecked(front.cast::<usize>().read() + FRONT, FRONT);
        tried(realloc(front, old, new.size()), size)
    }
}

/// Gives memory back.
#[unsafe(no_mangle)]
unsafe extern "C" fn rattle_dealloc(at: *mut u8) {
    unsafe {
        let front = at.sub(FRONT);
        let old = Layout::from_size_align_unchecked(front.cast::<usize>().read() + FRONT, FRONT);
        dealloc(front, old);
    }
}

#[cfg(test)]
mod tests {
    use super::*;

    #[test]
    fn a_block_keeps_what_is_in_it() {
        let block = rattle_alloc(3, 1);
        assert!(block.ok && block.at as usize % FRONT == 0);
        unsafe {
            block.at.copy_from(b"abc".as_ptr(), 3);
            let longer = rattle_realloc(block.at, 3, 5000, 8);
            assert!(longer.ok && longer.at as usize % FRONT == 0);
            assert_eq!(std::slice::from_raw_parts(longer.at, 3), b"abc");
            let shorter = rattle_realloc(longer.at, 3, 3, 1);
            assert!(shorter.ok);
            assert_eq!(std::slice::from_raw_parts(shorter.at, 3), b"abc");
            rattle_dealloc(shorter.at);
        }
    }

    #[test]
    fn a_block_that_is_too_large_is_refused() {
        let block = rattle_alloc(usize::MAX - 3, 1);
        assert!(!block.ok && !block.at.is_null());
        let block = rattle_alloc(1, 1);
        unsafe {
            block.at.write(7);
            let refused = rattle_realloc(block.at, 1, usize::MAX / 2, 1);
            assert!(!refused.ok && !refused.at.is_null());
            assert_eq!(block.at.read(), 7);
            rattle_dealloc(block.at);
        }
    }

    #[test]
    fn a_block_without_octets_is_one() {
        let block = rattle_alloc(0, 8);
        assert!(block.ok);
        unsafe { rattle_dealloc(block.at) };
    }
}
