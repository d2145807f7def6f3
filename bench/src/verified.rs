//! The verified library, by its one C function.

extern "C" {
    fn weqtabir_rounds(
        text: *const u8,
        text_len: usize,
        from: usize,
        times: usize,
        out: *mut u8,
        out_len: usize,
    ) -> usize;
}

/// Longer than any transcript: 64 files of 1152 symbols, each of up to five
/// digits behind a space.
const LONGEST: usize = 1 << 19;

/// The library with a buffer for its transcripts.
pub struct Verified {
    out: Vec<u8>,
}

impl Verified {
    pub fn new() -> Self {
        Verified {
            out: vec![0; LONGEST],
        }
    }

    /// A transcript, or nothing if memory ran out.
    pub fn rounds(&mut self, text: &[u8], from: usize, times: usize) -> Option<&[u8]> {
        call(text, from, times, &mut self.out)
    }
}

/// A transcript in the buffer, or nothing where it does not fit.
pub fn call<'a>(text: &[u8], from: usize, times: usize, out: &'a mut [u8]) -> Option<&'a [u8]> {
    let (given, room) = (text.as_ptr(), out.as_mut_ptr());
    // SAFETY: both slices are there for the whole call, and it keeps neither.
    let length = unsafe { weqtabir_rounds(given, text.len(), from, times, room, out.len()) };
    out.get(..length)
}
