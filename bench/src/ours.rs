//! The proved monitor, through its C-callable function.

unsafe extern "C" {
    fn cerbuntza_report_of_tape(
        tape: *const u8,
        tape_length: usize,
        buffer: *mut u8,
        buffer_length: usize,
        length: *mut usize,
    ) -> u8;
}

/// Plays the tape on a new monitor and writes the report into the buffer. Answers its length, or the number of the refusal.
#[inline(never)]
pub fn report_of_tape(tape: &[u8], buffer: &mut [u8]) -> Result<usize, u8> {
    let mut length = 0;
    let refusal = unsafe {
        cerbuntza_report_of_tape(
            tape.as_ptr(),
            tape.len(),
            buffer.as_mut_ptr(),
            buffer.len(),
            &mut length,
        )
    };
    if refusal == 0 {
        Ok(length)
    } else {
        Err(refusal)
    }
}
