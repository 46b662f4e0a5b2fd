//! The proved library's C interface, wrapped for Rust.

use std::os::raw::c_uchar;

pub mod compare;

extern "C" {
    fn tuyqorem_look_after(
        age_limit: u64,
        calls: *const c_uchar,
        calls_len: usize,
        kind: u64,
        year: u64,
        out: *mut c_uchar,
        out_len: usize,
    ) -> u64;
    fn tuyqorem_page_after(
        age_limit: u64,
        calls: *const c_uchar,
        calls_len: usize,
        kind: u64,
        out: *mut c_uchar,
        out_len: usize,
    ) -> u64;
    fn tuyqorem_answer_after(
        age_limit: u64,
        calls: *const c_uchar,
        calls_len: usize,
        call: *const c_uchar,
        call_len: usize,
    ) -> u64;
    fn tuyqorem_value_after(
        age_limit: u64,
        calls: *const c_uchar,
        calls_len: usize,
        flows: *const u64,
        flows_len: usize,
        out: *mut c_uchar,
        out_len: usize,
    ) -> u64;
    fn tuyqorem_shift(
        sheet: *const c_uchar,
        sheet_len: usize,
        flows: *const u64,
        flows_len: usize,
        target: u64,
        out: *mut c_uchar,
        out_len: usize,
    ) -> u64;
}

/// Names the plain curve.
pub const PLAIN: u64 = 0;

/// Names the adjusted curve.
pub const ADJUSTED: u64 = 1;

/// Set beside either in a look-up, names the sum of years 1 to the year in place of its factor. A
/// page ignores it.
pub const SUM: u64 = 2;

/// The number of the ground, or 0.
pub fn look_after(age_limit: u64, calls: &[u8], kind: u64, year: u64, out: &mut [u8]) -> u64 {
    // SAFETY: both slices are valid for their lengths, and a `&mut` overlaps nothing.
    unsafe {
        tuyqorem_look_after(
            age_limit,
            calls.as_ptr(),
            calls.len(),
            kind,
            year,
            out.as_mut_ptr(),
            out.len(),
        )
    }
}

/// The number of the ground, or 0.
pub fn page_after(age_limit: u64, calls: &[u8], kind: u64, out: &mut [u8]) -> u64 {
    // SAFETY: both slices are valid for their lengths, and a `&mut` overlaps nothing.
    unsafe {
        tuyqorem_page_after(
            age_limit,
            calls.as_ptr(),
            calls.len(),
            kind,
            out.as_mut_ptr(),
            out.len(),
        )
    }
}

/// Number + 256 × place of the ground, or 0; 255 where `call` starts with no whole record.
pub fn answer_after(age_limit: u64, calls: &[u8], call: &[u8]) -> u64 {
    // SAFETY: both slices are valid for their lengths, and neither is written.
    unsafe {
        tuyqorem_answer_after(
            age_limit,
            calls.as_ptr(),
            calls.len(),
            call.as_ptr(),
            call.len(),
        )
    }
}

/// Number + 256 × place of the ground, or 0. The flows are years and cents in turn.
pub fn value_after(age_limit: u64, calls: &[u8], flows: &[u64], out: &mut [u8]) -> u64 {
    // SAFETY: all slices are valid for their lengths, and a `&mut` overlaps nothing.
    unsafe {
        tuyqorem_value_after(
            age_limit,
            calls.as_ptr(),
            calls.len(),
            flows.as_ptr(),
            flows.len(),
            out.as_mut_ptr(),
            out.len(),
        )
    }
}

/// Number + 256 × place of the ground, or 0. The flows are years and cents in turn, and the target
/// is in cents. No journal has a say.
pub fn shift(sheet: &[u8], flows: &[u64], target: u64, out: &mut [u8]) -> u64 {
    // SAFETY: all slices are valid for their lengths, and a `&mut` overlaps nothing.
    unsafe {
        tuyqorem_shift(
            sheet.as_ptr(),
            sheet.len(),
            flows.as_ptr(),
            flows.len(),
            target,
            out.as_mut_ptr(),
            out.len(),
        )
    }
}
