//! The declarations of include/dct.h, as C has them. What a caller owes stands there.
#![allow(missing_docs)]

/// `struct dct_report`.
#[derive(Default)]
#[repr(C)]
pub struct Report {
    pub bit_count: usize,
    pub byte_count: usize,
    pub expected: usize,
    pub actual: usize,
}

extern "C" {
    pub fn dct_decode(
        record: *const u8,
        record_length: usize,
        store: *const u8,
        store_length: usize,
        payload: *const u8,
        payload_length: usize,
        byte_pos: usize,
        bit_pos: usize,
        output: *mut u8,
        output_length: usize,
        report: *mut Report,
    ) -> u32;
    pub fn dct_encode(
        record: *const u8,
        record_length: usize,
        store: *const u8,
        store_length: usize,
        input: *const u8,
        input_length: usize,
        payload: *mut u8,
        payload_length: usize,
        used: *mut usize,
        byte_pos: usize,
        bit_pos: usize,
        report: *mut Report,
    ) -> u32;
    pub fn dct_clear(
        record: *const u8,
        record_length: usize,
        store: *const u8,
        store_length: usize,
        payload: *mut u8,
        payload_length: usize,
        used: usize,
        byte_pos: usize,
        bit_pos: usize,
        report: *mut Report,
    ) -> u32;
    pub fn dct_read(
        record: *const u8,
        record_length: usize,
        store: *const u8,
        store_length: usize,
        payload: *const u8,
        payload_length: usize,
        byte_pos: usize,
        byte_count: usize,
        place: *mut usize,
        report: *mut Report,
    ) -> u32;
    pub fn dct_fetch(table: *const u8, table_length: usize, number: usize, places: *mut [usize; 3]) -> u32;
    pub fn dct_value_read(encoding: u32, width: usize, bytes: *const u8, bytes_length: usize, value: *mut i64) -> u32;
    pub fn dct_value_write(encoding: u32, width: usize, value: i64, bytes: *mut u8, bytes_length: usize) -> u32;
    pub fn dct_class(number: u32) -> u32;
}
