//! The functions of include/declock.h.
use crate::{Clock, Counts, Fault};

/// The words of a clock.
pub const CLOCK_WORDS: usize = core::mem::size_of::<Clock>() / core::mem::size_of::<u32>();

unsafe extern "C" {
    pub fn declock_rewrite(
        sheet: *const u8,
        sheet_length: usize,
        out: *mut u8,
        out_length: usize,
        faults: *mut Fault,
        faults_length: usize,
        place: *mut usize,
        faulty: *mut usize,
    ) -> u32;
    pub fn declock_clocks(
        sheet: *const u8,
        sheet_length: usize,
        node: usize,
        equations: *mut Clock,
        equations_words: usize,
        chains: *mut Clock,
        chains_words: usize,
        faults: *mut Fault,
        faults_length: usize,
        counts: *mut Counts,
        place: *mut usize,
    ) -> u32;
    pub fn declock_text(
        sheet: *const u8,
        sheet_length: usize,
        node: usize,
        fault: usize,
        out: *mut u8,
        out_length: usize,
        place: *mut usize,
    ) -> u32;
    pub fn declock_listing(
        sheet: *const u8,
        sheet_length: usize,
        node: usize,
        out: *mut u8,
        out_length: usize,
        place: *mut usize,
    ) -> u32;
    pub fn declock_listings(
        sheet: *const u8,
        sheet_length: usize,
        out: *mut u8,
        out_length: usize,
        place: *mut usize,
    ) -> u32;
}
