//! The first implementation's C functions. The only file with unsafe code.
#![allow(unsafe_code)]

use crate::harness::{Implementation, OwnedMemory};

#[rustfmt::skip]
extern "C" {
    /// Gives the completion code + 256 × the response length.
    fn kramsnep_respond(
        request: *const u8, request_len: usize, clock: u32,
        control: *mut u32, control_len: usize, table: *mut u32, table_len: usize,
        names: *mut u8, names_len: usize, committed: *mut u8, committed_len: usize,
        staged: *mut u8, staged_len: usize, image: *mut u8, image_len: usize,
        hash: *mut u8, hash_len: usize, answer: *mut u8, answer_len: usize,
    ) -> u32;

    /// Gives the completion code.
    fn kramsnep_job_outcome(
        verdict: u32,
        control: *mut u32, control_len: usize, table: *mut u32, table_len: usize,
        names: *const u8, names_len: usize, committed: *const u8, committed_len: usize,
        staged: *const u8, staged_len: usize, image: *const u8, image_len: usize,
        hash: *const u8, hash_len: usize,
    ) -> u32;

    /// Gives the completion code + 256 × the part's length.
    fn kramsnep_save_part(
        part: u32,
        control: *const u32, control_len: usize, table: *const u32, table_len: usize,
        names: *const u8, names_len: usize, committed: *const u8, committed_len: usize,
        staged: *const u8, staged_len: usize, image: *const u8, image_len: usize,
        hash: *const u8, hash_len: usize, buffer: *mut u8, buffer_len: usize,
    ) -> u32;

    /// Gives the completion code.
    fn kramsnep_load(
        file: *const u8, file_len: usize,
        control: *mut u32, control_len: usize, table: *const u32, table_len: usize,
        names: *mut u8, names_len: usize, committed: *mut u8, committed_len: usize,
        staged: *mut u8, staged_len: usize, image: *const u8, image_len: usize,
        hash: *const u8, hash_len: usize,
    ) -> u32;

    /// Gives the completion code + 256 × the row + 65,536 × the number of rows visited.
    fn kramsnep_find_session(identifier: u32, rows: u32, table: *const u32, table_len: usize) -> u32;

    /// Gives the completion code + 256 × the number of entries or the place of the fault.
    fn kramsnep_read_config(text: *const u8, text_len: usize, fields: *mut usize, fields_len: usize) -> u64;

    /// Gives the completion code + 256 × the number of messages done + 65,536 × the bytes of responses.
    fn kramsnep_tray(
        records: *const u8, records_len: usize,
        control: *mut u32, control_len: usize, table: *mut u32, table_len: usize,
        names: *mut u8, names_len: usize, committed: *mut u8, committed_len: usize,
        staged: *mut u8, staged_len: usize, image: *mut u8, image_len: usize,
        hash: *mut u8, hash_len: usize, responses: *mut u8, responses_len: usize,
        results: *mut u32, results_len: usize,
    ) -> u32;
}

/// The first implementation, linked as a static library.
///
/// The pointer of a vector or a slice is never null, also when it is empty, so each slice goes with a good pointer.
pub struct Library;

impl Implementation for Library {
    #[rustfmt::skip]
    fn respond(&mut self, request: &[u8], clock: u32, memory: &mut OwnedMemory, answer: &mut Vec<u8>) -> u32 {
        let m = memory;
        // Each pointer and length come from one slice that lives through the call; the slices do not overlap.
        unsafe {
            kramsnep_respond(
                request.as_ptr(), request.len(), clock,
                m.control.as_mut_ptr(), m.control.len(), m.table.as_mut_ptr(), m.table.len(),
                m.names.as_mut_ptr(), m.names.len(), m.committed.as_mut_ptr(), m.committed.len(),
                m.staged.as_mut_ptr(), m.staged.len(), m.image.as_mut_ptr(), m.image.len(),
                m.hash.as_mut_ptr(), m.hash.len(), answer.as_mut_ptr(), answer.len(),
            )
        }
    }

    #[rustfmt::skip]
    fn job_outcome(&mut self, verdict: u32, memory: &mut OwnedMemory) -> u32 {
        let m = memory;
        // As above.
        unsafe {
            kramsnep_job_outcome(
                verdict,
                m.control.as_mut_ptr(), m.control.len(), m.table.as_mut_ptr(), m.table.len(),
                m.names.as_ptr(), m.names.len(), m.committed.as_ptr(), m.committed.len(),
                m.staged.as_ptr(), m.staged.len(), m.image.as_ptr(), m.image.len(),
                m.hash.as_ptr(), m.hash.len(),
            )
        }
    }

    #[rustfmt::skip]
    fn save_part(&mut self, part: u32, memory: &mut OwnedMemory, buffer: &mut Vec<u8>) -> u32 {
        let m = memory;
        // As above; only the buffer is written.
        unsafe {
            kramsnep_save_part(
                part,
                m.control.as_ptr(), m.control.len(), m.table.as_ptr(), m.table.len(),
                m.names.as_ptr(), m.names.len(), m.committed.as_ptr(), m.committed.len(),
                m.staged.as_ptr(), m.staged.len(), m.image.as_ptr(), m.image.len(),
                m.hash.as_ptr(), m.hash.len(), buffer.as_mut_ptr(), buffer.len(),
            )
        }
    }

    #[rustfmt::skip]
    fn load(&mut self, file: &[u8], memory: &mut OwnedMemory) -> u32 {
        let m = memory;
        // As above.
        unsafe {
            kramsnep_load(
                file.as_ptr(), file.len(),
                m.control.as_mut_ptr(), m.control.len(), m.table.as_ptr(), m.table.len(),
                m.names.as_mut_ptr(), m.names.len(), m.committed.as_mut_ptr(), m.committed.len(),
                m.staged.as_mut_ptr(), m.staged.len(), m.image.as_ptr(), m.image.len(),
                m.hash.as_ptr(), m.hash.len(),
            )
        }
    }

    fn find_session(&mut self, identifier: u32, rows: u32, table: &[u32]) -> u32 {
        // As above; nothing is written.
        unsafe { kramsnep_find_session(identifier, rows, table.as_ptr(), table.len()) }
    }

    fn read_config(&mut self, text: &[u8], fields: &mut [usize]) -> u64 {
        // As above; only the fields are written.
        unsafe { kramsnep_read_config(text.as_ptr(), text.len(), fields.as_mut_ptr(), fields.len()) }
    }

    #[rustfmt::skip]
    fn tray(&mut self, records: &[u8], memory: &mut OwnedMemory, responses: &mut [u8], results: &mut [u32]) -> u32 {
        let m = memory;
        // As above; the records are only read.
        unsafe {
            kramsnep_tray(
                records.as_ptr(), records.len(),
                m.control.as_mut_ptr(), m.control.len(), m.table.as_mut_ptr(), m.table.len(),
                m.names.as_mut_ptr(), m.names.len(), m.committed.as_mut_ptr(), m.committed.len(),
                m.staged.as_mut_ptr(), m.staged.len(), m.image.as_mut_ptr(), m.image.len(),
                m.hash.as_mut_ptr(), m.hash.len(), responses.as_mut_ptr(), responses.len(),
                results.as_mut_ptr(), results.len(),
            )
        }
    }
}
