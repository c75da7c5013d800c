//! The calls on four lent columns and lent buffers, for a host that keeps them in a place of its
//! own.
//!
//! Rows past the count have no meaning and are not read. A refused call leaves everything as it
//! found it; an accepted one writes what its comment says and nothing else.
//!
//! This is the one place with unsafe code. Each pointer comes from a Rust slice together with its
//! length, mutable slices never overlap anything, and the engine has no precondition, keeps no
//! pointer and writes within the lengths only.

#![allow(unsafe_code)]

use crate::{answer, ffi, Decision, Order, Refusal};

/// Writes row 0: the group at (1, 1) with its quota. Answers count 1.
pub fn fresh(
    id: &mut [u32],
    l: &mut [u32],
    r: &mut [u32],
    q: &mut [u32],
    group: u32,
    quota: u32,
) -> Result<usize, Refusal> {
    // SAFETY: pointers and lengths of slices that don't overlap.
    let answered = unsafe {
        ffi::zintukor_fresh(
            id.as_mut_ptr(),
            id.len(),
            l.as_mut_ptr(),
            l.len(),
            r.as_mut_ptr(),
            r.len(),
            q.as_mut_ptr(),
            q.len(),
            group,
            quota,
        )
    };
    answer::count(answered)
}

/// Carries a request's bytes out and answers the new count. The exploded id keeps its row, the
/// other entries take the next rows; no other row is written.
pub fn refine(
    id: &mut [u32],
    l: &mut [u32],
    r: &mut [u32],
    q: &mut [u32],
    count: usize,
    request: &[u8],
) -> Result<usize, Refusal> {
    // SAFETY: pointers and lengths of slices that don't overlap.
    let answered = unsafe {
        ffi::zintukor_refine(
            id.as_mut_ptr(),
            id.len(),
            l.as_mut_ptr(),
            l.len(),
            r.as_mut_ptr(),
            r.len(),
            q.as_mut_ptr(),
            q.len(),
            count,
            request.as_ptr(),
            request.len(),
        )
    };
    answer::count(answered)
}

/// The order of two ids of the table.
pub fn order(
    id: &[u32],
    l: &[u32],
    r: &[u32],
    q: &[u32],
    count: usize,
    first: u32,
    second: u32,
) -> Result<Order, Refusal> {
    // SAFETY: pointers and lengths of slices, which the engine only reads.
    let answered = unsafe {
        ffi::zintukor_order(
            id.as_ptr(),
            id.len(),
            l.as_ptr(),
            l.len(),
            r.as_ptr(),
            r.len(),
            q.as_ptr(),
            q.len(),
            count,
            first,
            second,
        )
    };
    answer::order(answered)
}

/// Writes the table into the buffer and answers the byte count; bytes after it stay.
pub fn store(
    id: &[u32],
    l: &[u32],
    r: &[u32],
    q: &[u32],
    count: usize,
    buffer: &mut [u8],
) -> Result<usize, Refusal> {
    // SAFETY: pointers and lengths of slices; the buffer, which is written, overlaps none.
    let answered = unsafe {
        ffi::zintukor_store(
            id.as_ptr(),
            id.len(),
            l.as_ptr(),
            l.len(),
            r.as_ptr(),
            r.len(),
            q.as_ptr(),
            q.len(),
            count,
            buffer.as_mut_ptr(),
            buffer.len(),
        )
    };
    answer::count(answered)
}

/// Fills rows from a stored table's bytes and answers the count; rows past it stay.
pub fn read(
    id: &mut [u32],
    l: &mut [u32],
    r: &mut [u32],
    q: &mut [u32],
    bytes: &[u8],
) -> Result<usize, Refusal> {
    // SAFETY: pointers and lengths of slices that don't overlap.
    let answered = unsafe {
        ffi::zintukor_read(
            id.as_mut_ptr(),
            id.len(),
            l.as_mut_ptr(),
            l.len(),
            r.as_mut_ptr(),
            r.len(),
            q.as_mut_ptr(),
            q.len(),
            bytes.as_ptr(),
            bytes.len(),
        )
    };
    answer::count(answered)
}

/// The decision on a feature for a pass (l, r) and a day, from a grant list's bytes.
pub fn decide(feature: u32, l: u32, r: u32, day: u32, grants: &[u8]) -> Result<Decision, Refusal> {
    // SAFETY: the pointer and length of a slice, which the engine only reads.
    let answered = unsafe { ffi::zintukor_decide(feature, l, r, day, grants.as_ptr(), grants.len()) };
    answer::decision(answered)
}

/// Writes the page for a pass (l, r) and a day into the buffer, from a grant list's bytes, and
/// answers the byte count; bytes after it stay. Of a buffer longer than 4294967295 bytes the
/// first 4294967295 are used.
pub fn page(l: u32, r: u32, day: u32, grants: &[u8], buffer: &mut [u8]) -> Result<usize, Refusal> {
    // SAFETY: pointers and lengths of slices; the buffer, which is written, doesn't overlap the grants.
    let answered = unsafe {
        ffi::zintukor_page(l, r, day, grants.as_ptr(), grants.len(), buffer.as_mut_ptr(), buffer.len())
    };
    answer::count(answered)
}

/// Writes every small request of a size into the buffer, in order, each after its length, and
/// answers the byte count; bytes after them stay. Sizes other than 1 to 6 have none: 0. A buffer of
/// [`SMALL_REQUESTS`](crate::SMALL_REQUESTS) bytes is long enough for every size.
pub fn small_requests(size: u32, buffer: &mut [u8]) -> Result<usize, Refusal> {
    // SAFETY: the pointer and length of a slice.
    let answered = unsafe { ffi::zintukor_small_requests(size, buffer.as_mut_ptr(), buffer.len()) };
    answer::count(answered)
}

/// Reads a reflected tree's bytes, writes its list into the buffer, the fresh pair and then the
/// requests, each after its length, and answers the byte count; bytes after it stay. A buffer of
/// [`REFLECTED`](crate::REFLECTED) bytes is long enough for every tree.
pub fn reflected(bytes: &[u8], buffer: &mut [u8]) -> Result<usize, Refusal> {
    // SAFETY: pointers and lengths of slices; the buffer, which is written, doesn't overlap the bytes.
    let answered =
        unsafe { ffi::zintukor_reflected(bytes.as_ptr(), bytes.len(), buffer.as_mut_ptr(), buffer.len()) };
    answer::count(answered)
}
