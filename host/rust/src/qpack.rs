//! QPACK without a dynamic table, by host/qpack.c.

#![allow(unsafe_code)]

use std::ffi::{c_char, c_void, CString};
use std::ptr::null_mut;
use std::slice;

#[repr(C)]
struct Bytes {
    at: *mut u8,
    count: usize,
    room: usize,
}

#[repr(C)]
struct Line {
    name: *const c_char,
    value: *const c_char,
}

extern "C" {
    fn qpack_new() -> *mut c_void;
    fn qpack_free(q: *mut c_void);
    fn qpack_decode(q: *mut c_void, stream: u64, payload: *const u8, count: usize, block: *mut Bytes) -> u64;
    fn qpack_heard(q: *mut c_void, kind: u64, bytes: *const u8, count: usize) -> u64;
    fn qpack_encode(q: *mut c_void, stream: u64, lines: *const Line, count: usize, payload: *mut Bytes);
    fn free(memory: *mut c_void);
}

/// One connection's coder.
pub struct Qpack(*mut c_void);

impl Bytes {
    fn none() -> Bytes {
        Bytes { at: null_mut(), count: 0, room: 0 }
    }

    /// A copy; what C had is freed.
    fn taken(self) -> Vec<u8> {
        if self.at.is_null() {
            return Vec::new();
        }
        // SAFETY: host/bytes.h keeps `count` bytes at `at`, which it has from malloc and which nobody else knows.
        unsafe {
            let copy = slice::from_raw_parts(self.at, self.count).to_vec();
            free(self.at.cast());
            copy
        }
    }
}

impl Qpack {
    pub fn new() -> Qpack {
        // SAFETY: it has no conditions; where there is no memory it ends the process.
        Qpack(unsafe { qpack_new() })
    }

    /// A section's payload as a section block; else the code that it is refused with.
    pub fn decode(&mut self, stream: u64, payload: &[u8]) -> Result<Vec<u8>, u64> {
        let mut block = Bytes::none();
        // SAFETY: the coder is live and lent to this call alone, the payload is read only, and the block begins empty.
        let code = unsafe { qpack_decode(self.0, stream, payload.as_ptr(), payload.len(), &mut block) };
        let block = block.taken();
        if code == 0 {
            Ok(block)
        } else {
            Err(code)
        }
    }

    /// Bytes of the client's QPACK stream of this type.
    pub fn heard(&mut self, kind: u64, bytes: &[u8]) -> Result<(), u64> {
        // SAFETY: as above.
        match unsafe { qpack_heard(self.0, kind, bytes.as_ptr(), bytes.len()) } {
            0 => Ok(()),
            code => Err(code),
        }
    }

    /// Field lines as a section's payload.
    pub fn encode(&mut self, stream: u64, lines: &[(&str, &str)]) -> Vec<u8> {
        let text = |part: &str| CString::new(part).expect("our own fields have no zero byte");
        let owned: Vec<_> = lines.iter().map(|(name, value)| (text(name), text(value))).collect();
        let lines: Vec<_> =
            owned.iter().map(|(name, value)| Line { name: name.as_ptr(), value: value.as_ptr() }).collect();
        let mut payload = Bytes::none();
        // SAFETY: as above; the lines' texts live to the end of this function.
        unsafe { qpack_encode(self.0, stream, lines.as_ptr(), lines.len(), &mut payload) };
        payload.taken()
    }
}

impl Drop for Qpack {
    fn drop(&mut self) {
        // SAFETY: it is live, and not used again.
        unsafe { qpack_free(self.0) }
    }
}
