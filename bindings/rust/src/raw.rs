//! The calls of libcapi.a as they are: see `include/immarduzh.h`. A lent slice is a pointer and a count of elements.
#[cfg(not(target_pointer_width = "64"))]
compile_error!("the archive's counts are of 64 bits");

extern "C" {
    pub fn immarduzh_encode(
        d: u64,
        l: u64,
        scalars: *const u64,
        scalars_len: usize,
        start: *mut u8,
        start_len: usize,
        bits: *mut u8,
        bits_len: usize,
        row: *mut u64,
    ) -> u64;

    pub fn immarduzh_decode(
        d: u64,
        l: u64,
        start: *const u8,
        start_len: usize,
        bits: *const u8,
        bits_len: usize,
        row: u64,
        values: *mut u64,
        values_len: usize,
    ) -> u64;

    pub fn immarduzh_check(
        d: u64,
        l: u64,
        start: *const u8,
        start_len: usize,
        bits: *const u8,
        bits_len: usize,
        row: u64,
        scalars: *const u64,
        scalars_len: usize,
        yes: *mut u64,
    ) -> u64;

    pub fn immarduzh_step(d: u64, order: *mut [u8; 8], signs: *mut [i8; 8], bits: u64) -> u64;

    pub fn immarduzh_trace(
        d: u64,
        l: u64,
        start: *const u8,
        start_len: usize,
        bits: *const u8,
        bits_len: usize,
        row: u64,
        out: *mut u8,
        out_len: usize,
        doublings: *mut u64,
        additions: *mut u64,
    ) -> u64;

    pub fn immarduzh_plain_run(
        d: u64,
        l: u64,
        start: *const u8,
        start_len: usize,
        bits: *const u8,
        bits_len: usize,
        row: u64,
        m: u64,
        elements: *const u64,
        elements_len: usize,
        registers: *mut u64,
        registers_len: usize,
        answer: *mut u64,
        doublings: *mut u64,
        additions: *mut u64,
    ) -> u64;

    pub fn immarduzh_difference_run(
        d: u64,
        l: u64,
        start: *const u8,
        start_len: usize,
        bits: *const u8,
        bits_len: usize,
        row: u64,
        m: u64,
        elements: *const u64,
        elements_len: usize,
        registers: *mut u64,
        registers_len: usize,
        answer: *mut u64,
        doublings: *mut u64,
        additions: *mut u64,
    ) -> u64;

    pub fn immarduzh_pack(
        d: u64,
        l: u64,
        start: *const u8,
        start_len: usize,
        bits: *const u8,
        bits_len: usize,
        row: u64,
        file: *mut u8,
        file_len: usize,
    ) -> u64;

    pub fn immarduzh_unpack(
        file: *const u8,
        file_len: usize,
        d: *mut u64,
        l: *mut u64,
        row: *mut u64,
    ) -> u64;

    pub fn immarduzh_body(
        file: *const u8,
        file_len: usize,
        offset: *mut u64,
        length: *mut u64,
    ) -> u64;

    pub fn immarduzh_listing(
        file: *const u8,
        file_len: usize,
        text: *mut u8,
        text_len: usize,
        length: *mut u64,
    ) -> u64;
}
