//! The library's functions, as C calls them.

use plain::Report;

/// What the functions answer.
#[repr(C)]
struct Answer {
    fault: u32,
    layer: u32,
    node: u32,
    rewrites: u32,
    rounds: u32,
    left: u32,
    root: u32,
    nodes: usize,
    entries: usize,
    text: usize,
}

impl From<Answer> for Report {
    fn from(answer: Answer) -> Report {
        let Answer { fault, layer, node, rewrites, rounds, left, root, nodes, entries, text } = answer;
        let [nodes, entries, text] = [nodes, entries, text].map(|count| count as u32);
        Report { fault, layer, node, rewrites, rounds, left, root, nodes, entries, text }
    }
}

mod c {
    use super::Answer;

    unsafe extern "C" {
        pub fn mirabellejib_check(file: *const u8, file_len: usize) -> Answer;

        pub fn mirabellejib_shorten(
            file: *const u8,
            file_len: usize,
            options: u32,
            records: *mut u8,
            records_len: usize,
            entries: *mut u32,
            entries_len: usize,
            text: *mut u8,
            text_len: usize,
        ) -> Answer;

        pub fn mirabellejib_shorten_by_table(
            file: *const u8,
            file_len: usize,
            rows: *const u8,
            rows_len: usize,
            options: u32,
            records: *mut u8,
            records_len: usize,
            entries: *mut u32,
            entries_len: usize,
            text: *mut u8,
            text_len: usize,
        ) -> Answer;
    }
}

/// Loads the file into memory of the library's own.
pub fn load(file: &[u8]) -> Report {
    // SAFETY: the pointer is to as many bytes as are said.
    unsafe { c::mirabellejib_check(file.as_ptr(), file.len()) }.into()
}

pub fn shorten(file: &[u8], options: u32, records: &mut [u8], entries: &mut [u32], text: &mut [u8]) -> Report {
    // SAFETY: each pointer is to as many items as are said, and none of them to memory that another is to.
    unsafe {
        c::mirabellejib_shorten(
            file.as_ptr(),
            file.len(),
            options,
            records.as_mut_ptr(),
            records.len(),
            entries.as_mut_ptr(),
            entries.len(),
            text.as_mut_ptr(),
            text.len(),
        )
    }
    .into()
}

pub fn shorten_by_table(
    file: &[u8],
    rows: &[u8],
    options: u32,
    records: &mut [u8],
    entries: &mut [u32],
    text: &mut [u8],
) -> Report {
    // SAFETY: as above.
    unsafe {
        c::mirabellejib_shorten_by_table(
            file.as_ptr(),
            file.len(),
            rows.as_ptr(),
            rows.len(),
            options,
            records.as_mut_ptr(),
            records.len(),
            entries.as_mut_ptr(),
            entries.len(),
            text.as_mut_ptr(),
            text.len(),
        )
    }
    .into()
}
