//! The engine's C interface, as include/zintukor.h declares it.

extern "C" {
    pub(crate) fn zintukor_fresh(
        id: *mut u32,
        id_length: usize,
        l: *mut u32,
        l_length: usize,
        r: *mut u32,
        r_length: usize,
        q: *mut u32,
        q_length: usize,
        group: u32,
        quota: u32,
    ) -> u64;
    pub(crate) fn zintukor_refine(
        id: *mut u32,
        id_length: usize,
        l: *mut u32,
        l_length: usize,
        r: *mut u32,
        r_length: usize,
        q: *mut u32,
        q_length: usize,
        count: usize,
        request: *const u8,
        request_length: usize,
    ) -> u64;
    pub(crate) fn zintukor_order(
        id: *const u32,
        id_length: usize,
        l: *const u32,
        l_length: usize,
        r: *const u32,
        r_length: usize,
        q: *const u32,
        q_length: usize,
        count: usize,
        first: u32,
        second: u32,
    ) -> u64;
    pub(crate) fn zintukor_decide(
        feature: u32,
        l: u32,
        r: u32,
        day: u32,
        grants: *const u8,
        grants_length: usize,
    ) -> u64;
    pub(crate) fn zintukor_page(
        l: u32,
        r: u32,
        day: u32,
        grants: *const u8,
        grants_length: usize,
        buffer: *mut u8,
        buffer_length: usize,
    ) -> u64;
    pub(crate) fn zintukor_store(
        id: *const u32,
        id_length: usize,
        l: *const u32,
        l_length: usize,
        r: *const u32,
        r_length: usize,
        q: *const u32,
        q_length: usize,
        count: usize,
        buffer: *mut u8,
        buffer_length: usize,
    ) -> u64;
    pub(crate) fn zintukor_read(
        id: *mut u32,
        id_length: usize,
        l: *mut u32,
        l_length: usize,
        r: *mut u32,
        r_length: usize,
        q: *mut u32,
        q_length: usize,
        bytes: *const u8,
        bytes_length: usize,
    ) -> u64;
    pub(crate) fn zintukor_small_requests(size: u32, buffer: *mut u8, buffer_length: usize) -> u64;
    pub(crate) fn zintukor_reflected(
        bytes: *const u8,
        bytes_length: usize,
        buffer: *mut u8,
        buffer_length: usize,
    ) -> u64;
}
