//! The border to the static library: the only place with unsafe code.

#![allow(unsafe_code)]

// SAFETY: the library defines these three functions with these types. The clock rules take and give only numbers, so
// every call of them is safe.
unsafe extern "C" {
    pub(crate) safe fn raw_stamp(last: u64, reading: u64, dependency: u64) -> i64;
    pub(crate) safe fn hybrid_stamp(last: u64, reading: u64, dependency: u64) -> i64;
    unsafe fn price_listing(
        script: *const u8,
        script_len: usize,
        buffer: *mut u8,
        buffer_len: usize,
    ) -> i64;
}

pub(crate) fn listing(script: &[u8], buffer: &mut [u8]) -> i64 {
    // SAFETY: both slices are lent for the whole call, each pointer goes with its own slice's length, and the two do
    // not overlap, since the buffer is lent exclusively. The library keeps neither pointer, and it has no state of its
    // own, so that calls may run on several threads at once.
    unsafe {
        price_listing(
            script.as_ptr(),
            script.len(),
            buffer.as_mut_ptr(),
            buffer.len(),
        )
    }
}
