//! The static library's functions, as safe ones.
#![allow(unsafe_code)]

/// The memory that every call is lent.
pub struct Memory<'a> {
    /// 26 words, zeros before the opening.
    pub session: &'a mut [u64],
    /// 10,750 words.
    pub bus: &'a mut [u64],
    /// 26 words a row.
    pub rows: &'a mut [u64],
    /// The bytes of a row, row after row.
    pub area: &'a mut [u8],
}

/// The same memory, lent to be read.
#[derive(Clone, Copy)]
pub struct View<'a> {
    /// As in [`Memory`].
    pub session: &'a [u64],
    /// As in [`Memory`].
    pub bus: &'a [u64],
    /// As in [`Memory`].
    pub rows: &'a [u64],
    /// As in [`Memory`].
    pub area: &'a [u8],
}

// SAFETY: these are the functions that crates/tapewoad exports, as
// include/tapewoad.h declares them: eight or seven slices, each a pointer and a
// length, and a status back (docs/CALLS.md); and a number.
unsafe extern "C" {
    fn tapewoad_apply(
        session: *mut u64,
        session_len: usize,
        bus: *mut u64,
        bus_len: usize,
        rows: *mut u64,
        rows_len: usize,
        area: *mut u8,
        area_len: usize,
        call: *const u64,
        call_len: usize,
        bytes: *const u8,
        bytes_len: usize,
        out: *mut u64,
        out_len: usize,
        lists: *mut u64,
        lists_len: usize,
    ) -> u64;
    fn tapewoad_read(
        session: *const u64,
        session_len: usize,
        bus: *const u64,
        bus_len: usize,
        rows: *const u64,
        rows_len: usize,
        area: *const u8,
        area_len: usize,
        call: *const u64,
        call_len: usize,
        bytes: *const u8,
        bytes_len: usize,
        out: *mut u64,
        out_len: usize,
    ) -> u64;
    fn tapewoad_version() -> u64;
}

/// The version of the library's words: the major number times 2^32, and the
/// minor number.
pub fn version() -> u64 {
    // SAFETY: it takes nothing and touches no memory.
    unsafe { tapewoad_version() }
}

/// Runs one call in the words of docs/CALLS.md and gives the status: 0 where it
/// was answered, in the first 32 words of `out` and, of a recovery, in `lists`;
/// with 1 (no call), 2 (not 26 words of a session), 3 (`out` too short) or 4
/// (`lists` too short) nothing has changed.
///
/// Slices of any length and content are taken.
#[inline]
pub fn apply(
    memory: Memory<'_>,
    call: &[u64],
    bytes: &[u8],
    out: &mut [u64],
    lists: &mut [u64],
) -> u64 {
    let Memory {
        session,
        bus,
        rows,
        area,
    } = memory;
    // SAFETY: each pointer and length is of a slice that is borrowed for the
    // whole call, so it is not null, is aligned and can be read, and written
    // where it is `&mut`; a `&mut` slice overlaps no other. The function's
    // contract has no premise on lengths or contents; it keeps no pointer.
    unsafe {
        tapewoad_apply(
            session.as_mut_ptr(),
            session.len(),
            bus.as_mut_ptr(),
            bus.len(),
            rows.as_mut_ptr(),
            rows.len(),
            area.as_mut_ptr(),
            area.len(),
            call.as_ptr(),
            call.len(),
            bytes.as_ptr(),
            bytes.len(),
            out.as_mut_ptr(),
            out.len(),
            lists.as_mut_ptr(),
            lists.len(),
        )
    }
}

/// Answers a report or a question in the words of docs/CALLS.md and gives the
/// status: as [`apply`], but any other call is 1, and nothing but `out` changes.
///
/// Slices of any length and content are taken.
#[inline]
pub fn read(view: View<'_>, call: &[u64], bytes: &[u8], out: &mut [u64]) -> u64 {
    let View {
        session,
        bus,
        rows,
        area,
    } = view;
    // SAFETY: as in `apply`; only `out` is written, which is `&mut` and overlaps
    // no other.
    unsafe {
        tapewoad_read(
            session.as_ptr(),
            session.len(),
            bus.as_ptr(),
            bus.len(),
            rows.as_ptr(),
            rows.len(),
            area.as_ptr(),
            area.len(),
            call.as_ptr(),
            call.len(),
            bytes.as_ptr(),
            bytes.len(),
            out.as_mut_ptr(),
            out.len(),
        )
    }
}
