//! The product's C call: its declaration, and a safe function around it.

/// The file of the library that this program was built with, or would have been.
pub const FILE: &str = env!("RIUVELDE_LIB_FILE");

/// Whether the library was there when this program was built.
pub const LINKED: bool = cfg!(library);

#[cfg(library)]
mod declared {
    unsafe extern "C" {
        /// `uint32_t riuvelde_plan(const uint8_t *slip, size_t slip_len, uint32_t looks,
        /// uint8_t *buffer, size_t buffer_len);`
        pub fn riuvelde_plan(
            slip: *const u8,
            slip_len: usize,
            looks: u32,
            buffer: *mut u8,
            buffer_len: usize,
        ) -> u32;
    }
}

/// The call for C. Where the library was not there at build time, this stops the program.
#[cfg(library)]
pub fn plan(slip: &[u8], looks: u32, buffer: &mut [u8]) -> u32 {
    // SAFETY: both slices are valid for their lengths, and a shared and a mutable one do not overlap.
    unsafe { declared::riuvelde_plan(slip.as_ptr(), slip.len(), looks, buffer.as_mut_ptr(), buffer.len()) }
}

/// The call for C. Where the library was not there at build time, this stops the program.
#[cfg(not(library))]
pub fn plan(_: &[u8], _: u32, _: &mut [u8]) -> u32 {
    panic!("built without the library {FILE}")
}
