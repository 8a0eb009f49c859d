//! The proved library through its C interface (`include/onestep.h`). The unsafe code of the benchmark stands here, but for the clock of
//! `timing.rs` and the second build of `compare.rs`.

use crate::terms::VARIABLES;

extern "C" {
    fn onestep_list(
        pattern: *const u8,
        pattern_length: usize,
        recipe: *const u8,
        recipe_length: usize,
        lines: *mut u8,
        lines_length: usize,
        values: *mut u8,
        values_length: usize,
        work: *mut u8,
        work_length: usize,
    ) -> i64;
    fn onestep_check(
        pattern: *const u8,
        pattern_length: usize,
        recipe: *const u8,
        recipe_length: usize,
        line: *const u8,
        line_length: usize,
        values: *const u8,
        values_length: usize,
        work: *mut u8,
        work_length: usize,
    ) -> i64;
    fn onestep_sweep(
        pattern: *const u8,
        pattern_length: usize,
        line: *const u8,
        line_length: usize,
        values: *const u8,
        values_length: usize,
        output: *mut u8,
        output_length: usize,
        work: *mut u8,
        work_length: usize,
    ) -> i64;
    fn onestep_rewrite(
        left: *const u8,
        left_length: usize,
        right: *const u8,
        right_length: usize,
        recipe: *const u8,
        recipe_length: usize,
        line: *const u8,
        line_length: usize,
        values: *const u8,
        values_length: usize,
        output: *mut u8,
        output_length: usize,
        work: *mut u8,
        work_length: usize,
    ) -> i64;
    fn onestep_book(
        book: *const u8,
        book_length: usize,
        recipe: *const u8,
        recipe_length: usize,
        output: *mut u8,
        output_length: usize,
        work: *mut u8,
        work_length: usize,
        pairs: *mut u64,
    ) -> i64;
    fn onestep_shelf_put(
        buoy: usize,
        recipe: *const u8,
        recipe_length: usize,
        directory: *mut u8,
        directory_length: usize,
        table: *mut u8,
        table_length: usize,
    ) -> i64;
    fn onestep_shelf_take_out(buoy: usize, directory: *mut u8, directory_length: usize, table: *mut u8, table_length: usize) -> i64;
    fn onestep_shelf_read(
        buoy: usize,
        directory: *const u8,
        directory_length: usize,
        table: *const u8,
        table_length: usize,
        output: *mut u8,
        output_length: usize,
    ) -> i64;
    fn onestep_shelf_count(directory: *const u8, directory_length: usize) -> i64;
}

/// The C type of `onestep_list`.
pub type List = unsafe extern "C" fn(*const u8, usize, *const u8, usize, *mut u8, usize, *mut u8, usize, *mut u8, usize) -> i64;

/// Bytes of a full line table, value table or output table, of a work area, and of a shelf's record table.
pub const TABLE: usize = 65536;
/// Bytes of a line: for each variable first record and count of records, 16 bits each.
pub const LINE: usize = 4 * VARIABLES;

/// Bytes of a shelf's directory.
pub const DIRECTORY: usize = 24576;

/// A line table and a value table of full size.
pub struct Tables {
    pub lines: Vec<u8>,
    pub values: Vec<u8>,
    /// What (a) and (b) leave all zero, as the library does its own work area.
    pub work: Vec<u8>,
}

impl Tables {
    pub fn new() -> Tables {
        Tables { lines: vec![0; TABLE], values: vec![0; TABLE], work: vec![0; TABLE] }
    }
}

/// The work area. The library leaves it all zero, so it is never cleared here.
pub struct Work(Vec<u8>);

impl Work {
    pub fn new() -> Work {
        Work(vec![0; TABLE])
    }
}

// SAFETY of the nine calls: each table is lent with its own length. Tables that are written come as `&mut`, so they overlap nothing
// else, and nobody else reaches them during the call. That is what `onestep.h` asks of a caller.

pub fn list(pattern: &[u8], recipe: &[u8], out: &mut Tables, work: &mut Work) -> i64 {
    unsafe { list_by(onestep_list, pattern, recipe, out, work) }
}

/// Lists by `onestep_list`, or by a function that asks the same of a caller.
pub unsafe fn list_by(function: List, pattern: &[u8], recipe: &[u8], out: &mut Tables, work: &mut Work) -> i64 {
    function(
        pattern.as_ptr(),
        pattern.len(),
        recipe.as_ptr(),
        recipe.len(),
        out.lines.as_mut_ptr(),
        out.lines.len(),
        out.values.as_mut_ptr(),
        out.values.len(),
        work.0.as_mut_ptr(),
        work.0.len(),
    )
}

pub fn check(pattern: &[u8], recipe: &[u8], line: &[u8], values: &[u8], work: &mut Work) -> i64 {
    unsafe {
        onestep_check(
            pattern.as_ptr(),
            pattern.len(),
            recipe.as_ptr(),
            recipe.len(),
            line.as_ptr(),
            line.len(),
            values.as_ptr(),
            values.len(),
            work.0.as_mut_ptr(),
            work.0.len(),
        )
    }
}

pub fn sweep(pattern: &[u8], line: &[u8], values: &[u8], output: &mut [u8], work: &mut Work) -> i64 {
    unsafe {
        onestep_sweep(
            pattern.as_ptr(),
            pattern.len(),
            line.as_ptr(),
            line.len(),
            values.as_ptr(),
            values.len(),
            output.as_mut_ptr(),
            output.len(),
            work.0.as_mut_ptr(),
            work.0.len(),
        )
    }
}

pub fn rewrite(left: &[u8], right: &[u8], recipe: &[u8], line: &[u8], values: &[u8], output: &mut [u8], work: &mut Work) -> i64 {
    unsafe {
        onestep_rewrite(
            left.as_ptr(),
            left.len(),
            right.as_ptr(),
            right.len(),
            recipe.as_ptr(),
            recipe.len(),
            line.as_ptr(),
            line.len(),
            values.as_ptr(),
            values.len(),
            output.as_mut_ptr(),
            output.len(),
            work.0.as_mut_ptr(),
            work.0.len(),
        )
    }
}

pub fn book(book: &[u8], recipe: &[u8], output: &mut [u8], work: &mut Work, pairs: &mut u64) -> i64 {
    unsafe {
        onestep_book(book.as_ptr(), book.len(), recipe.as_ptr(), recipe.len(), output.as_mut_ptr(), output.len(), work.0.as_mut_ptr(), work.0.len(), pairs)
    }
}

pub fn shelf_put(buoy: usize, recipe: &[u8], directory: &mut [u8], table: &mut [u8]) -> i64 {
    unsafe { onestep_shelf_put(buoy, recipe.as_ptr(), recipe.len(), directory.as_mut_ptr(), directory.len(), table.as_mut_ptr(), table.len()) }
}

pub fn shelf_take_out(buoy: usize, directory: &mut [u8], table: &mut [u8]) -> i64 {
    unsafe { onestep_shelf_take_out(buoy, directory.as_mut_ptr(), directory.len(), table.as_mut_ptr(), table.len()) }
}

pub fn shelf_read(buoy: usize, directory: &[u8], table: &[u8], output: &mut [u8]) -> i64 {
    unsafe { onestep_shelf_read(buoy, directory.as_ptr(), directory.len(), table.as_ptr(), table.len(), output.as_mut_ptr(), output.len()) }
}

pub fn shelf_count(directory: &[u8]) -> i64 {
    unsafe { onestep_shelf_count(directory.as_ptr(), directory.len()) }
}
