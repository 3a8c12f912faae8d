//! The functions of the static library, as `include/mirabellejib.h` declares them.

#[repr(C)]
#[derive(Clone, Copy, Debug, PartialEq, Eq)]
pub struct Report {
    pub fault: u32,
    pub layer: u32,
    pub node: u32,
    pub rewrites: u32,
    pub rounds: u32,
    pub left: u32,
    pub root: u32,
    pub nodes: usize,
    pub entries: usize,
    pub text: usize,
}

#[repr(C)]
#[derive(Clone, Copy, Debug, PartialEq, Eq)]
pub struct Written {
    pub len: usize,
    pub fault: u32,
}

extern "C" {
    pub fn mirabellejib_binds(name: *const u8, name_len: usize) -> u32;
    pub fn mirabellejib_check(file: *const u8, file_len: usize) -> Report;
    pub fn mirabellejib_shorten(
        file: *const u8,
        file_len: usize,
        options: u32,
        records: *mut u8,
        records_len: usize,
        entries: *mut u32,
        entries_len: usize,
        text: *mut u8,
        text_len: usize,
    ) -> Report;
    pub fn mirabellejib_shorten_by_table(
        file: *const u8,
        file_len: usize,
        rows: *const u8,
        rows_len: usize,
        options: u32,
        records: *mut u8,
        records_len: usize,
        entries: *mut u32,
        entries_len: usize,
        text: *mut u8,
        text_len: usize,
    ) -> Report;
    pub fn mirabellejib_escape(text: *const u8, text_len: usize, out: *mut u8, out_len: usize) -> Written;
    pub fn mirabellejib_cook(raw: *const u8, raw_len: usize, out: *mut u8, out_len: usize) -> Written;
}
