//! The C functions behind safe calls, with the answers as they give them. Bits 56 to 63 of an answer
//! hold a refusal's number, 0 for none; bits 48 to 55 a small result; bits 0 to 47 a place or a
//! count. The functions of the package's root have these calls' contracts.
//!
//! All unsafe code is here. It rests on what is proved of the functions: they read and write nothing
//! outside what they are lent. A slice passes as its pointer and its length, an array as its pointer.

use crate::LINE;

extern "C" {
    fn grader_check_grid(grid: *const u8, grid_length: usize) -> u64;
    fn grader_is_completion(
        grid: *const u8,
        grid_length: usize,
        candidate: *const u8,
        candidate_length: usize,
    ) -> u64;
    fn grader_clause(set: u32, number: u32, literals: *mut i16, literals_length: usize) -> u64;
    fn grader_job(
        grid: *const u8,
        grid_length: usize,
        technique: u32,
        order: *const i16,
        order_length: usize,
        ceiling: u32,
        marks: *mut u8,
        marks_length: usize,
    ) -> u64;
    fn grader_search(
        grid: *const u8,
        grid_length: usize,
        first: *mut u8,
        first_length: usize,
        second: *mut u8,
        second_length: usize,
    ) -> u64;
    fn grader_grade(
        grid: *const u8,
        grid_length: usize,
        order: *const i16,
        order_length: usize,
        ceiling: u32,
        completion: *mut u8,
        completion_length: usize,
    ) -> u64;
    fn grader_batch(
        grids: *const u8,
        grids_length: usize,
        technique: u32,
        order: *const i16,
        order_length: usize,
        ceiling: u32,
        marks: *mut u8,
        marks_length: usize,
        answers: *mut u32,
        answers_length: usize,
    ) -> u64;
    fn grader_read_job_file(
        file: *const u8,
        file_length: usize,
        grid: *mut u8,
        grid_length: usize,
        order: *mut i16,
        order_length: usize,
    ) -> u64;
    fn grader_header(out: *mut [u8; LINE]) -> usize;
    fn grader_list_line(
        number: u64,
        line: *const u8,
        line_length: usize,
        out: *mut [u8; LINE],
    ) -> usize;
}

/// See [`crate::check_grid`].
#[inline]
pub fn check_grid(grid: &[u8]) -> u64 {
    unsafe { grader_check_grid(grid.as_ptr(), grid.len()) }
}

/// See [`crate::is_completion`]. The result is 1 for a legal completion and 0 for anything else.
#[inline]
pub fn is_completion(grid: &[u8], candidate: &[u8]) -> u64 {
    unsafe {
        grader_is_completion(
            grid.as_ptr(),
            grid.len(),
            candidate.as_ptr(),
            candidate.len(),
        )
    }
}

/// See [`crate::clause`].
#[inline]
pub fn clause(set: u32, number: u32, literals: &mut [i16]) -> u64 {
    unsafe { grader_clause(set, number, literals.as_mut_ptr(), literals.len()) }
}

/// See [`crate::job`].
#[inline]
pub fn job(grid: &[u8], technique: u32, order: &[i16], ceiling: u32, marks: &mut [u8]) -> u64 {
    unsafe {
        grader_job(
            grid.as_ptr(),
            grid.len(),
            technique,
            order.as_ptr(),
            order.len(),
            ceiling,
            marks.as_mut_ptr(),
            marks.len(),
        )
    }
}

/// See [`crate::search`].
#[inline]
pub fn search(grid: &[u8], first: &mut [u8], second: &mut [u8]) -> u64 {
    unsafe {
        grader_search(
            grid.as_ptr(),
            grid.len(),
            first.as_mut_ptr(),
            first.len(),
            second.as_mut_ptr(),
            second.len(),
        )
    }
}

/// See [`crate::grade`].
#[inline]
pub fn grade(grid: &[u8], order: &[i16], ceiling: u32, completion: &mut [u8]) -> u64 {
    unsafe {
        grader_grade(
            grid.as_ptr(),
            grid.len(),
            order.as_ptr(),
            order.len(),
            ceiling,
            completion.as_mut_ptr(),
            completion.len(),
        )
    }
}

/// See [`crate::batch`].
#[inline]
pub fn batch(
    grids: &[u8],
    technique: u32,
    order: &[i16],
    ceiling: u32,
    marks: &mut [u8],
    answers: &mut [u32],
) -> u64 {
    unsafe {
        grader_batch(
            grids.as_ptr(),
            grids.len(),
            technique,
            order.as_ptr(),
            order.len(),
            ceiling,
            marks.as_mut_ptr(),
            marks.len(),
            answers.as_mut_ptr(),
            answers.len(),
        )
    }
}

/// See [`crate::read_job_file`].
#[inline]
pub fn read_job_file(file: &[u8], grid: &mut [u8], order: &mut [i16]) -> u64 {
    unsafe {
        grader_read_job_file(
            file.as_ptr(),
            file.len(),
            grid.as_mut_ptr(),
            grid.len(),
            order.as_mut_ptr(),
            order.len(),
        )
    }
}

/// See [`crate::header`]. Gives the length of the header.
#[inline]
pub fn header(out: &mut [u8; LINE]) -> usize {
    unsafe { grader_header(out) }
}

/// See [`crate::list_line`]. Gives the length of the output line.
#[inline]
pub fn list_line(number: u64, line: &[u8], out: &mut [u8; LINE]) -> usize {
    unsafe { grader_list_line(number, line.as_ptr(), line.len(), out) }
}
