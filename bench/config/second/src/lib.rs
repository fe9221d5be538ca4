//! The second implementation's reader of flash configurations under a C name, as the library has it.

/// # Safety
///
/// Each pointer is good for its length, is not null, and the two do not overlap.
#[no_mangle]
pub unsafe extern "C" fn second_read_config(
    text: *const u8,
    text_len: usize,
    fields: *mut usize,
    fields_len: usize,
) -> u64 {
    let (text, fields) = unsafe {
        (
            std::slice::from_raw_parts(text, text_len),
            std::slice::from_raw_parts_mut(fields, fields_len),
        )
    };
    second::read_config(text, fields)
}
