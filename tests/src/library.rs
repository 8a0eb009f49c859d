//! The boundary to the static library: its C interface (include/onestep.h) and a safe function for each operation. All unsafe code is here.
//!
//! Each function lends slices: their pointers are never null, also for an empty slice, and Rust's rules keep the written ones from overlapping others.

extern "C" {
    fn onestep_list(
        pattern: *const u8, pattern_length: usize,
        recipe: *const u8, recipe_length: usize,
        lines: *mut u8, lines_length: usize,
        values: *mut u8, values_length: usize,
        work: *mut u8, work_length: usize,
    ) -> i64;
    fn onestep_check(
        pattern: *const u8, pattern_length: usize,
        recipe: *const u8, recipe_length: usize,
        line: *const u8, line_length: usize,
        values: *const u8, values_length: usize,
        work: *mut u8, work_length: usize,
    ) -> i64;
    fn onestep_sweep(
        pattern: *const u8, pattern_length: usize,
        line: *const u8, line_length: usize,
        values: *const u8, values_length: usize,
        output: *mut u8, output_length: usize,
        work: *mut u8, work_length: usize,
    ) -> i64;
    fn onestep_rewrite(
        left: *const u8, left_length: usize,
        right: *const u8, right_length: usize,
        recipe: *const u8, recipe_length: usize,
        line: *const u8, line_length: usize,
        values: *const u8, values_length: usize,
        output: *mut u8, output_length: usize,
        work: *mut u8, work_length: usize,
    ) -> i64;
    fn onestep_book(
        book: *const u8, book_length: usize,
        recipe: *const u8, recipe_length: usize,
        output: *mut u8, output_length: usize,
        work: *mut u8, work_length: usize,
        pairs: *mut u64,
    ) -> i64;
    fn onestep_shelf_put(
        buoy: usize,
        recipe: *const u8, recipe_length: usize,
        directory: *mut u8, directory_length: usize,
        records: *mut u8, records_length: usize,
    ) -> i64;
    fn onestep_shelf_take_out(
        buoy: usize,
        directory: *mut u8, directory_length: usize,
        records: *mut u8, records_length: usize,
    ) -> i64;
    fn onestep_shelf_read(
        buoy: usize,
        directory: *const u8, directory_length: usize,
        records: *const u8, records_length: usize,
        output: *mut u8, output_length: usize,
    ) -> i64;
    fn onestep_shelf_count(directory: *const u8, directory_length: usize) -> i64;
}

pub fn list(pattern: &[u8], recipe: &[u8], lines: &mut [u8], values: &mut [u8], work: &mut [u8]) -> i64 {
    // Safe: each pointer goes with the length of its slice, and the slices outlive the call. The same holds below.
    unsafe {
        onestep_list(
            pattern.as_ptr(), pattern.len(),
            recipe.as_ptr(), recipe.len(),
            lines.as_mut_ptr(), lines.len(),
            values.as_mut_ptr(), values.len(),
            work.as_mut_ptr(), work.len(),
        )
    }
}

pub fn check(pattern: &[u8], recipe: &[u8], line: &[u8], values: &[u8], work: &mut [u8]) -> i64 {
    unsafe {
        onestep_check(
            pattern.as_ptr(), pattern.len(),
            recipe.as_ptr(), recipe.len(),
            line.as_ptr(), line.len(),
            values.as_ptr(), values.len(),
            work.as_mut_ptr(), work.len(),
        )
    }
}

pub fn sweep(pattern: &[u8], line: &[u8], values: &[u8], output: &mut [u8], work: &mut [u8]) -> i64 {
    unsafe {
        onestep_sweep(
            pattern.as_ptr(), pattern.len(),
            line.as_ptr(), line.len(),
            values.as_ptr(), values.len(),
            output.as_mut_ptr(), output.len(),
            work.as_mut_ptr(), work.len(),
        )
    }
}

pub fn rewrite(left: &[u8], right: &[u8], recipe: &[u8], line: &[u8], values: &[u8], output: &mut [u8], work: &mut [u8]) -> i64 {
    unsafe {
        onestep_rewrite(
            left.as_ptr(), left.len(),
            right.as_ptr(), right.len(),
            recipe.as_ptr(), recipe.len(),
            line.as_ptr(), line.len(),
            values.as_ptr(), values.len(),
            output.as_mut_ptr(), output.len(),
            work.as_mut_ptr(), work.len(),
        )
    }
}

pub fn book(book: &[u8], recipe: &[u8], output: &mut [u8], work: &mut [u8], pairs: &mut u64) -> i64 {
    unsafe {
        onestep_book(
            book.as_ptr(), book.len(),
            recipe.as_ptr(), recipe.len(),
            output.as_mut_ptr(), output.len(),
            work.as_mut_ptr(), work.len(),
            pairs,
        )
    }
}

pub fn shelf_put(buoy: usize, recipe: &[u8], directory: &mut [u8], records: &mut [u8]) -> i64 {
    unsafe {
        onestep_shelf_put(
            buoy,
            recipe.as_ptr(), recipe.len(),
            directory.as_mut_ptr(), directory.len(),
            records.as_mut_ptr(), records.len(),
        )
    }
}

pub fn shelf_take_out(buoy: usize, directory: &mut [u8], records: &mut [u8]) -> i64 {
    unsafe {
        onestep_shelf_take_out(
            buoy,
            directory.as_mut_ptr(), directory.len(),
            records.as_mut_ptr(), records.len(),
        )
    }
}

pub fn shelf_read(buoy: usize, directory: &[u8], records: &[u8], output: &mut [u8]) -> i64 {
    unsafe {
        onestep_shelf_read(
            buoy,
            directory.as_ptr(), directory.len(),
            records.as_ptr(), records.len(),
            output.as_mut_ptr(), output.len(),
        )
    }
}

pub fn shelf_count(directory: &[u8]) -> i64 {
    unsafe { onestep_shelf_count(directory.as_ptr(), directory.len()) }
}
