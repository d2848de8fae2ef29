//! Memory for what is lent: on one side a page that nobody may touch, on the other bytes that must stay.
use std::ffi::{c_int, c_long, c_void};
use std::ptr::null_mut;
use std::slice;

const PAGE: usize = 4096;
/// Bytes that must stay.
const MARGIN: usize = 256;
const MARK: u8 = 0xC9;

const NO_ACCESS: c_int = 0;
const READ_AND_WRITE: c_int = 3;
const PRIVATE_ANONYMOUS: c_int = 0x22;

unsafe extern "C" {
    fn mmap(
        at: *mut c_void,
        n: usize,
        access: c_int,
        flags: c_int,
        fd: c_int,
        offset: c_long,
    ) -> *mut c_void;
    fn mprotect(at: *mut c_void, n: usize, access: c_int) -> c_int;
    fn munmap(at: *mut c_void, n: usize) -> c_int;
}

/// On which side the page lies.
#[derive(Clone, Copy, Debug, PartialEq, Eq)]
pub enum Side {
    Front,
    Back,
}

/// A run of pages between two that nobody may touch, and a slice in it that is lent.
pub struct Guarded {
    pages: *mut u8,
    length: usize,
    side: Side,
    lent: usize,
}

impl Guarded {
    pub fn new() -> Guarded {
        Guarded::of(16 * PAGE)
    }

    fn of(length: usize) -> Guarded {
        let whole = length + 2 * PAGE;
        // a mapping of its own, of which the first and last page are closed
        let pages = unsafe {
            let at = mmap(null_mut(), whole, READ_AND_WRITE, PRIVATE_ANONYMOUS, -1, 0);
            assert!(at as isize != -1, "no memory");
            let closed = mprotect(at, PAGE, NO_ACCESS)
                + mprotect(at.byte_add(PAGE + length), PAGE, NO_ACCESS);
            assert_eq!(closed, 0, "no page closed");
            at.byte_add(PAGE).cast()
        };
        Guarded {
            pages,
            length,
            side: Side::Back,
            lent: 0,
        }
    }

    fn bytes(&mut self) -> &mut [u8] {
        unsafe { slice::from_raw_parts_mut(self.pages, self.length) }
    }

    /// Lends so many elements that hold one byte all over, and begin or end at a closed page.
    pub fn lend<T: Copy>(&mut self, count: usize, side: Side, fill: u8) -> &mut [T] {
        let lent = count * size_of::<T>();
        if lent + MARGIN > self.length {
            *self = Guarded::of((lent + MARGIN).next_multiple_of(PAGE));
        }
        (self.side, self.lent) = (side, lent);
        let (from, margin) = self.places();
        self.bytes()[from..from + lent].fill(fill);
        self.bytes()[margin..margin + MARGIN].fill(MARK);
        // pages and the sizes of what is lent are multiples of its alignment, and any bytes are such elements
        assert!(from % align_of::<T>() == 0);
        unsafe { slice::from_raw_parts_mut(self.pages.add(from).cast(), count) }
    }

    /// Where what is lent begins, and where the bytes that must stay.
    fn places(&self) -> (usize, usize) {
        match self.side {
            Side::Front => (0, self.lent),
            Side::Back => (self.length - self.lent, self.length - self.lent - MARGIN),
        }
    }

    /// What was lent, as it is now.
    pub fn lent<T: Copy>(&mut self) -> Vec<T> {
        let (from, count) = (self.places().0, self.lent / size_of::<T>());
        unsafe { slice::from_raw_parts(self.pages.add(from).cast(), count) }.to_vec()
    }

    /// Whether the bytes beside it have stayed.
    pub fn untouched(&mut self) -> bool {
        let margin = self.places().1;
        self.bytes()[margin..margin + MARGIN]
            .iter()
            .all(|&b| b == MARK)
    }
}

impl Drop for Guarded {
    fn drop(&mut self) {
        unsafe { munmap(self.pages.sub(PAGE).cast(), self.length + 2 * PAGE) };
    }
}

#[cfg(test)]
mod tests {
    use super::*;

    #[test]
    fn what_is_lent_lies_between() {
        let mut guarded = Guarded::new();
        for side in [Side::Front, Side::Back] {
            for count in [0, 1, 7, 8192, 100_000] {
                let lent: &mut [u64] = guarded.lend(count, side, 0x11);
                assert!(lent.iter().all(|&n| n == 0x1111_1111_1111_1111));
                lent.fill(5);
                assert_eq!(guarded.lent::<u64>(), vec![5; count]);
                assert!(guarded.untouched());
            }
        }
    }

    #[test]
    fn a_byte_beside_it_is_seen() {
        let mut guarded = Guarded::new();
        for (side, beside) in [(Side::Front, 10), (Side::Back, -1)] {
            let lent: &mut [u8] = guarded.lend(10, side, 0);
            let at = lent.as_mut_ptr();
            unsafe { *at.offset(beside) = 0 };
            assert!(!guarded.untouched());
        }
    }
}
