//! The three functions by which the library takes memory, over `malloc`, `realloc` and `free`.
//!
//! They are trusted: the library's proof assumes that they do what is said here. They are left out
//! where the archive that is linked has its own.

use std::ffi::c_void;

/// What is answered: whether there is memory, and where. It comes back in two registers.
#[repr(C)]
pub struct Tried {
    ok: bool,
    at: *mut u8,
}

extern "C" {
    fn malloc(bytes: usize) -> *mut c_void;
    fn realloc(block: *mut c_void, bytes: usize) -> *mut c_void;
    fn free(block: *mut c_void);
}

/// What a refused call points to. Nobody reads it.
static NOTHING: u8 = 0;

fn tried(block: *mut c_void) -> Tried {
    if block.is_null() {
        Tried {
            ok: false,
            at: &raw const NOTHING as *mut u8,
        }
    } else {
        Tried {
            ok: true,
            at: block.cast(),
        }
    }
}

/// A new block of so many bytes. `align` is a divisor of 16, and `malloc` aligns to 16 on x86-64. A
/// block of no bytes is asked for as one of `align` bytes, since `malloc(0)` may be null.
#[no_mangle]
extern "C" fn rattle_alloc(bytes: usize, align: usize) -> Tried {
    let bytes = if bytes == 0 { align } else { bytes };
    // SAFETY: any size may be asked for.
    tried(unsafe { malloc(bytes) })
}

/// The block at `at` as one of `bytes` bytes, of which the first `kept` are as they were. Where it
/// is refused, the block is as it was.
///
/// # Safety
///
/// `at` came from `rattle_alloc` or from here, and wasn't freed.
#[no_mangle]
unsafe extern "C" fn rattle_realloc(
    at: *mut u8,
    _kept: usize,
    bytes: usize,
    align: usize,
) -> Tried {
    let bytes = if bytes == 0 { align } else { bytes };
    // SAFETY: the block is one of malloc's, and lives, as the caller promises.
    tried(unsafe { realloc(at.cast(), bytes) })
}

/// Frees a block.
///
/// # Safety
///
/// `at` came from one of the two above, and wasn't freed.
#[no_mangle]
unsafe extern "C" fn rattle_dealloc(at: *mut u8) {
    // SAFETY: the block is one of malloc's, and lives, as the caller promises.
    unsafe { free(at.cast()) }
}
