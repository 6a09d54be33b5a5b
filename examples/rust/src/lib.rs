//! The encounter module for Rust: a safe function over its C interface.

/// Room for every report: the lines on 32 contacts and the answer have at most 4,232 bytes.
const ROOM: usize = 4232;

extern "C" {
    fn encounter_report(sheet: *const u8, sheet_len: usize, out: *mut u8, out_len: usize) -> usize;
}

/// The report on an encounter sheet: a line for each contact and one for the answer, or one for the refusal.
pub fn report(sheet: &[u8]) -> String {
    let mut out = vec![0u8; ROOM];
    // The slices are valid for their lengths and do not overlap, which is all that the function asks.
    let written = unsafe { encounter_report(sheet.as_ptr(), sheet.len(), out.as_mut_ptr(), out.len()) };
    out.truncate(written);
    String::from_utf8(out).expect("a report is ASCII")
}
