//! A safe wrapper over `include/carbink.h`. Rows lie in a slice one after another, `len` bytes each. A world is in `world`.
//!
//! What the header asks of its caller, Rust's borrows keep: what a call reads is shared while it runs, and what it
//! writes is borrowed by nobody else. So nothing that is written overlaps what is read, and no position is changed
//! while a call runs:
//!
//! ```compile_fail,E0502
//! # let code = carbink::Code { k: 2, r: 2, len: 8 };
//! let mut block = [0; 32];
//! code.encode(&block[..16], &mut block[8..24]).unwrap();
//! ```
//!
//! ```compile_fail,E0506
//! # fn changed(code: carbink::Code, mut rows: [u8; 32], mut present: [u8; 2]) {
//! std::thread::scope(|scope| {
//!     scope.spawn(|| code.solve(&mut rows, &present));
//!     present[0] = 3;
//! });
//! # }
//! ```

pub mod world;

mod raw {
    use super::Found;
    use std::os::raw::c_void;

    /// An encoder, or none: all bytes 0.
    #[repr(C)]
    pub struct Handle {
        pub there: bool,
        pub at: *mut c_void,
    }

    extern "C" {
        pub fn carbink_encoder_new(encoder: *mut Handle, k: u32, r: u32, len: u32) -> u32;
        pub fn carbink_encoder_encode(
            encoder: *mut Handle, data: *const u8, data_size: usize, parities: *mut u8, parities_size: usize,
        ) -> u32;
        pub fn carbink_encoder_free(encoder: *mut Handle);
        pub fn carbink_version() -> u32;
        pub fn carbink_encode(k: u32, r: u32, len: u32, data: *const u8, data_size: usize, parities: *mut u8, parities_size: usize) -> u32;
        pub fn carbink_is_word(k: u32, r: u32, len: u32, rows: *const u8, rows_size: usize, is_word: *mut u32) -> u32;
        pub fn carbink_solve(k: u32, r: u32, len: u32, rows: *mut u8, rows_size: usize, present: *const u8, present_size: usize) -> u32;
        pub fn carbink_examine(k: u32, r: u32, len: u32, rows: *const u8, rows_size: usize, found: *mut Found) -> u32;
        pub fn carbink_mend(k: u32, r: u32, len: u32, rows: *mut u8, rows_size: usize, position: u32) -> u32;
    }
}

/// What an examination found; what is not told of its kind is 0.
#[repr(C)]
#[derive(Clone, Copy, Debug, Default, PartialEq, Eq)]
pub struct Found {
    /// 0: a code word. 1: the row at `position` alone is wrong. 2: neither.
    pub kind: u32,
    pub position: u32,
    pub power: u32,
    pub column: u32,
    pub sum: u32,
}

/// Why a call did nothing.
#[derive(Clone, Copy, Debug, PartialEq, Eq)]
pub enum Refused {
    BadCode,
    BadLength,
    BadBuffer,
    BadPositions,
    NoMemory,
}

/// A code: `k` data rows and `r` parities of `len` bytes each.
#[derive(Clone, Copy, Debug)]
pub struct Code {
    pub k: u32,
    pub r: u32,
    pub len: u32,
}

fn answer(status: u32) -> Result<(), Refused> {
    match status {
        0 => Ok(()),
        1 => Err(Refused::BadCode),
        2 => Err(Refused::BadLength),
        3 => Err(Refused::BadBuffer),
        4 => Err(Refused::BadPositions),
        _ => Err(Refused::NoMemory),
    }
}

/// The version of the library: 1,000,000 times the first number, 1,000 times the second, and the third.
pub fn version() -> u32 {
    unsafe { raw::carbink_version() }
}

impl Code {
    /// Makes the parities of the data rows.
    pub fn encode(&self, data: &[u8], parities: &mut [u8]) -> Result<(), Refused> {
        // A slice is a pointer and its length, and one that is written is nobody else's.
        answer(unsafe {
            raw::carbink_encode(self.k, self.r, self.len, data.as_ptr(), data.len(), parities.as_mut_ptr(), parities.len())
        })
    }

    /// Whether the rows, data and then parities, are a code word.
    pub fn is_word(&self, rows: &[u8]) -> Result<bool, Refused> {
        let mut told = 0;
        answer(unsafe { raw::carbink_is_word(self.k, self.r, self.len, rows.as_ptr(), rows.len(), &mut told) })?;
        Ok(told == 1)
    }

    /// Makes the rows again that do not stand at the `k` positions `present`.
    pub fn solve(&self, rows: &mut [u8], present: &[u8]) -> Result<(), Refused> {
        answer(unsafe {
            raw::carbink_solve(self.k, self.r, self.len, rows.as_mut_ptr(), rows.len(), present.as_ptr(), present.len())
        })
    }

    /// What the rows are.
    pub fn examine(&self, rows: &[u8]) -> Result<Found, Refused> {
        let mut found = Found::default();
        answer(unsafe { raw::carbink_examine(self.k, self.r, self.len, rows.as_ptr(), rows.len(), &mut found) })?;
        Ok(found)
    }

    /// Replaces the row at the position by the sum of all others.
    pub fn mend(&self, rows: &mut [u8], position: u32) -> Result<(), Refused> {
        answer(unsafe { raw::carbink_mend(self.k, self.r, self.len, rows.as_mut_ptr(), rows.len(), position) })
    }
}

/// The table of a code, for rows of one length, made once and used many times. It may go to another thread.
///
/// ```no_run
/// let mut encoder = carbink::Encoder::new(carbink::Code { k: 2, r: 1, len: 4 })?;
/// std::thread::spawn(move || encoder.encode(b"far data", &mut [0; 4])).join().unwrap()?;
/// # Ok::<(), carbink::Refused>(())
/// ```
pub struct Encoder {
    handle: raw::Handle,
}

// The table says the same to every thread: `encoder_crosses` of crates/carbink_c proves it.
unsafe impl Send for Encoder {}

impl Encoder {
    /// An encoder of this code.
    pub fn new(code: Code) -> Result<Encoder, Refused> {
        let mut handle = raw::Handle { there: false, at: std::ptr::null_mut() };
        answer(unsafe { raw::carbink_encoder_new(&mut handle, code.k, code.r, code.len) })?;
        Ok(Encoder { handle })
    }

    /// Makes the parities of the data rows, as `Code::encode` does.
    pub fn encode(&mut self, data: &[u8], parities: &mut [u8]) -> Result<(), Refused> {
        answer(unsafe {
            raw::carbink_encoder_encode(&mut self.handle, data.as_ptr(), data.len(), parities.as_mut_ptr(), parities.len())
        })
    }
}

impl Drop for Encoder {
    fn drop(&mut self) {
        unsafe { raw::carbink_encoder_free(&mut self.handle) }
    }
}
