// crossterm's parser is private. So tools/performance.py puts these functions at the end of the file
// that has it, in a copy of the crate.

#[no_mangle]
pub extern "C" fn reader_new() -> *mut std::ffi::c_void {
    Box::into_raw(Box::<Parser>::default()).cast()
}

/// crossterm passes true for more where a read filled its buffer, and it flushes otherwise.
///
/// # Safety
///
/// The reader is that of reader_new, and there are len bytes.
#[no_mangle]
pub unsafe extern "C" fn reader_read(
    reader: *mut std::ffi::c_void,
    bytes: *const u8,
    len: usize,
    is_last: bool,
) -> usize {
    let parser = &mut *reader.cast::<Parser>();
    parser.advance(std::slice::from_raw_parts(bytes, len), !is_last);
    parser.count()
}
