//! Whether bytes are UTF-8: by `simdutf8` where it is there, and else by the standard library.

#[cfg(not(simdutf8))]
pub fn is_utf8(bytes: &[u8]) -> bool {
    std::str::from_utf8(bytes).is_ok()
}

/// Fewer than 64 bytes are one block of vectors too: the zeroes after them are letters by
/// themselves, so that a letter that is cut off stays a fault.
#[cfg(simdutf8)]
pub fn is_utf8(bytes: &[u8]) -> bool {
    if bytes.len() >= 64 {
        return simdutf8::basic::from_utf8(bytes).is_ok();
    }
    let mut block = [0; 64];
    block[..bytes.len()].copy_from_slice(bytes);
    simdutf8::basic::from_utf8(&block).is_ok()
}
