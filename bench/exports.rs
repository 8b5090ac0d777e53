//! What the archives export, as far as it is called for one row each; the loops of bench_loops are declared where they are timed.
#[repr(C)]
pub struct Answer<T> {
    pub ok: bool,
    pub value: T,
}

impl<T> Answer<T> {
    pub fn option(self) -> Option<T> {
        self.ok.then_some(self.value)
    }
}

#[repr(C)]
pub struct Read {
    pub ok: bool,
    pub value: u32,
    pub length: usize,
}

extern "C" {
    pub fn pb_text_valid(s: *const u8, size: usize) -> bool;
    pub fn pb_text_count(s: *const u8, size: usize) -> Answer<usize>;
    pub fn pb_text_is_ascii(s: *const u8, size: usize) -> bool;
    pub fn pb_text_read_first(s: *const u8, size: usize, from: usize, to: usize) -> Read;
    pub fn pb_bytes_contains(s: *const u8, size: usize, from: usize, to: usize, v: u8) -> Answer<bool>;
    pub fn pb_bytes_equal(s: *const u8, size: usize, from: usize, to: usize, other: *const u8, other_size: usize) -> Answer<bool>;
    pub fn pb_bytes_starts_with(s: *const u8, size: usize, from: usize, to: usize, needle: *const u8, needle_size: usize) -> Answer<bool>;
    pub fn pb_bytes_reverse(s: *mut u8, size: usize, from: usize, to: usize) -> bool;
    pub fn pb_bytes_copy_from(s: *mut u8, size: usize, from: usize, to: usize, other: *const u8, other_size: usize) -> bool;
    pub fn pb_bytes_copy_within(s: *mut u8, size: usize, from: usize, to: usize, at: usize) -> bool;
}

extern "C" {
    pub fn pb_u64_read_decimal(s: *const u8, size: usize, from: usize, to: usize) -> Answer<u64>;
    pub fn pb_i32_read_decimal(s: *const u8, size: usize, from: usize, to: usize) -> Answer<i32>;
    pub fn pb_u64_write_decimal(x: u64, s: *mut u8, size: usize, at: usize) -> Answer<usize>;
    pub fn pb_i32_write_decimal(x: i32, s: *mut u8, size: usize, at: usize) -> Answer<usize>;
}
