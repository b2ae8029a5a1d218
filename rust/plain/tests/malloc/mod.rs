// `malloc`, `realloc` and `free` of a test program, over the C library's (glibc's names for them),
// so all requests for memory come here. A thread says which of its requests is refused, and its
// blocks are counted.
use std::cell::Cell;
use std::ffi::c_void;

thread_local! {
    // How many requests there are to the one that is refused, or 0.
    static TO_REFUSAL: Cell<usize> = const { Cell::new(0) };
    static REFUSED: Cell<usize> = const { Cell::new(0) };
    // It doesn't begin with 0, since a thread also frees what others made.
    static IN_USE: Cell<usize> = const { Cell::new(1 << 40) };
}

extern "C" {
    fn __libc_malloc(size: usize) -> *mut c_void;
    fn __libc_realloc(block: *mut c_void, size: usize) -> *mut c_void;
    fn __libc_free(block: *mut c_void);
    fn malloc_usable_size(block: *mut c_void) -> usize;
}

fn refuses() -> bool {
    let left = TO_REFUSAL.get();
    TO_REFUSAL.set(left.saturating_sub(1));
    if left == 1 {
        REFUSED.set(REFUSED.get() + 1);
    }
    left == 1
}

#[no_mangle]
extern "C" fn malloc(size: usize) -> *mut c_void {
    if refuses() {
        return std::ptr::null_mut();
    }
    // SAFETY: this is what the caller asked for.
    unsafe { counted(__libc_malloc(size)) }
}

// SAFETY for callers: as of the C library's realloc.
#[no_mangle]
unsafe extern "C" fn realloc(block: *mut c_void, size: usize) -> *mut c_void {
    if refuses() {
        return std::ptr::null_mut();
    }
    // SAFETY: this is what the caller asked for.
    unsafe {
        uncount(block);
        counted(__libc_realloc(block, size))
    }
}

// SAFETY for callers: as of the C library's free.
#[no_mangle]
unsafe extern "C" fn free(block: *mut c_void) {
    // SAFETY: this is what the caller asked for.
    unsafe {
        uncount(block);
        __libc_free(block);
    }
}

// Counts a new block. SAFETY for callers: it is one, or null.
unsafe fn counted(block: *mut c_void) -> *mut c_void {
    // SAFETY: of null the size is 0.
    let size = unsafe { malloc_usable_size(block) };
    IN_USE.set(IN_USE.get().wrapping_add(size));
    block
}

// Takes a block out of the count. SAFETY for callers: it is one, or null.
unsafe fn uncount(block: *mut c_void) {
    // SAFETY: of null the size is 0.
    let size = unsafe { malloc_usable_size(block) };
    IN_USE.set(IN_USE.get().wrapping_sub(size));
}

// What a call returns if one request in it is refused, and how many were.
pub fn refusing<T>(number: usize, call: impl FnOnce() -> T) -> (T, usize) {
    REFUSED.set(0);
    TO_REFUSAL.set(number);
    let answer = call();
    TO_REFUSAL.set(0);
    (answer, REFUSED.get())
}

// A number that grows and falls with the bytes of the thread's blocks.
pub fn in_use() -> usize {
    IN_USE.get()
}
