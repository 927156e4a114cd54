//! A program without the standard library that uses the crate. Were the crate to lean on `std`, this would not compile: `std` brings a panic handler, and
//! here is one. `scripts/rust-test` compiles it.
#![no_std]

extern crate alloc;

use core::alloc::{GlobalAlloc, Layout};
use core::panic::PanicInfo;
use core::ptr;

use loftsplice::Record;

struct NoMemory;

// SAFETY: it gives nothing, so nothing overlaps and nothing is taken back.
unsafe impl GlobalAlloc for NoMemory {
    unsafe fn alloc(&self, _: Layout) -> *mut u8 {
        ptr::null_mut()
    }

    unsafe fn dealloc(&self, _: *mut u8, _: Layout) {}
}

#[global_allocator]
static MEMORY: NoMemory = NoMemory;

#[panic_handler]
fn panic(_: &PanicInfo<'_>) -> ! {
    loop {}
}

/// Whether the column of a record carries a number.
pub fn carries(bytes: &[u8], number: i64) -> bool {
    Record::try_from(bytes).is_ok_and(|record| record.column().scan().seek(number) == Ok(Some(number)))
}
