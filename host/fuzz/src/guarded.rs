//! Memory between two pages that can neither be read nor written, and what is
//! told where the library touches one. Linux on x86-64, as the library.
#![allow(unsafe_code)]

use std::ffi::{c_int, c_void};
use std::ptr::{self, NonNull};
use std::slice;
use std::sync::atomic::{AtomicPtr, AtomicU64, AtomicUsize, Ordering::Relaxed};

const PAGE: usize = 4_096;
/// What stands beside a slice, up to the guard page.
const CANARIES: [u8; PAGE] = [0xa5; PAGE];

const PROT_NONE: c_int = 0;
const PROT_READ_WRITE: c_int = 3;
const MAP_PRIVATE_ANONYMOUS: c_int = 0x22;
const SIGBUS: c_int = 7;
const SIGSEGV: c_int = 11;

// SAFETY: these are functions of the C library that std itself is linked with,
// declared as in its headers.
unsafe extern "C" {
    fn mmap(
        at: *mut c_void,
        length: usize,
        protection: c_int,
        flags: c_int,
        file: c_int,
        offset: i64,
    ) -> *mut c_void;
    fn mprotect(at: *mut c_void, length: usize, protection: c_int) -> c_int;
    fn munmap(at: *mut c_void, length: usize) -> c_int;
    fn signal(number: c_int, handler: extern "C" fn(c_int)) -> usize;
    fn _exit(status: c_int) -> !;
}

/// Which guard page a slice touches.
#[derive(Debug, Clone, Copy, PartialEq, Eq)]
pub enum Edge {
    Start,
    End,
}

/// Room between two guard pages, and the slice in it. All else are canaries.
pub struct Guarded {
    room: NonNull<u8>,
    size: usize,
    start: usize,
    length: usize,
}

impl Guarded {
    /// Room for slices of up to so many bytes; the slice is empty.
    pub fn new(most: usize) -> Self {
        let size = most.max(1).next_multiple_of(PAGE);
        // SAFETY: a new mapping at an address that the system chooses; its first
        // and last page are in it.
        let room = unsafe {
            let whole = size + 2 * PAGE;
            let flags = MAP_PRIVATE_ANONYMOUS;
            let base = mmap(ptr::null_mut(), whole, PROT_READ_WRITE, flags, -1, 0);
            assert_ne!(base.addr(), usize::MAX, "no memory");
            let last = base.byte_add(PAGE + size);
            for page in [base, last] {
                assert_eq!(mprotect(page, PAGE, PROT_NONE), 0, "no guard page");
            }
            base.byte_add(PAGE).cast()
        };
        let mut guarded = Self {
            room: NonNull::new(room).expect("a mapping"),
            size,
            start: 0,
            length: 0,
        };
        guarded.cover();
        guarded
    }

    /// Lends so many bytes at an edge. Where they stood elsewhere before, their
    /// content is canaries.
    pub fn place(&mut self, length: usize, edge: Edge) {
        assert!(length <= self.size, "{length} bytes in {}", self.size);
        let start = match edge {
            Edge::Start => 0,
            Edge::End => self.size - length,
        };
        if (start, length) != (self.start, self.length) {
            (self.start, self.length) = (start, length);
            self.cover();
        }
    }

    /// Fills the room with canaries.
    fn cover(&mut self) {
        let pages = self.room_mut().chunks_exact_mut(PAGE);
        pages.for_each(|page| page.copy_from_slice(&CANARIES));
    }

    fn room(&self) -> &[u8] {
        // SAFETY: the room is mapped, readable and `size` bytes long as long as
        // `self` is; nothing else points into it.
        unsafe { slice::from_raw_parts(self.room.as_ptr(), self.size) }
    }

    fn room_mut(&mut self) -> &mut [u8] {
        // SAFETY: as `room`, and it is writable and borrowed by `&mut self`.
        unsafe { slice::from_raw_parts_mut(self.room.as_ptr(), self.size) }
    }

    pub fn bytes(&self) -> &[u8] {
        &self.room()[self.start..self.start + self.length]
    }

    pub fn bytes_mut(&mut self) -> &mut [u8] {
        let part = self.start..self.start + self.length;
        &mut self.room_mut()[part]
    }

    /// The slice as words.
    pub fn words(&self) -> &[u64] {
        // SAFETY: every content of eight bytes is a word.
        let (before, words, after) = unsafe { self.bytes().align_to() };
        assert!(before.is_empty() && after.is_empty(), "not whole words");
        words
    }

    pub fn words_mut(&mut self) -> &mut [u64] {
        // SAFETY: every content of eight bytes is a word.
        let (before, words, after) = unsafe { self.bytes_mut().align_to_mut() };
        assert!(before.is_empty() && after.is_empty(), "not whole words");
        words
    }

    /// Whether all beside the slice is as it was.
    pub fn canaries_stand(&self) -> bool {
        let (before, rest) = self.room().split_at(self.start);
        let beside = before.chunks(PAGE).chain(rest[self.length..].chunks(PAGE));
        beside
            .into_iter()
            .all(|part| part == &CANARIES[..part.len()])
    }
}

impl Drop for Guarded {
    fn drop(&mut self) {
        // SAFETY: the mapping of `new`, which nothing borrows any more.
        unsafe {
            let base = self.room.as_ptr().sub(PAGE);
            munmap(base.cast(), self.size + 2 * PAGE);
        }
    }
}

/// The call under way, for `tell`.
static SEED: AtomicU64 = AtomicU64::new(0);
static NUMBER: AtomicU64 = AtomicU64::new(0);
static CALL: AtomicPtr<u64> = AtomicPtr::new(ptr::null_mut());
static CALL_WORDS: AtomicUsize = AtomicUsize::new(0);

/// From now on an access to a guard page is told with the call that was
/// announced last, and ends the process with a failing status.
pub fn tell_faults() {
    for number in [SIGSEGV, SIGBUS] {
        // SAFETY: `tell` has the type of a handler.
        unsafe { signal(number, tell) };
    }
}

/// Announces a call, whose words stay where they are until it has run.
pub fn announce(seed: u64, number: u64, call: &Guarded) {
    let words = call.words();
    SEED.store(seed, Relaxed);
    NUMBER.store(number, Relaxed);
    CALL.store(words.as_ptr().cast_mut(), Relaxed);
    CALL_WORDS.store(words.len(), Relaxed);
}

/// Runs inside the library's function, which holds no lock and no memory of
/// Rust's: printing is safe though it is no function for handlers in general.
extern "C" fn tell(_signal: c_int) {
    let (at, length) = (CALL.load(Relaxed), CALL_WORDS.load(Relaxed));
    let words: &[u64] = match at.is_null() {
        true => &[],
        // SAFETY: the announced call's words, which stand between guard pages.
        false => unsafe { slice::from_raw_parts(at, length) },
    };
    eprintln!(
        "fuzz: seed {}, call {}: memory was touched that was not lent\n  call {words:?}",
        SEED.load(Relaxed),
        NUMBER.load(Relaxed),
    );
    // SAFETY: it ends the process and runs nothing of Rust's.
    unsafe { _exit(1) }
}

#[cfg(test)]
mod tests {
    use super::*;
    use std::process::{Command, Output};

    use crate::{Fuzz, Lent, run_library};

    fn words(length: usize, edge: Edge) -> Guarded {
        let mut guarded = Guarded::new(8 * length);
        guarded.place(8 * length, edge);
        guarded.words_mut().fill(7);
        guarded
    }

    #[test]
    fn a_slice_keeps_its_content_at_either_edge() {
        for edge in [Edge::Start, Edge::End] {
            let mut guarded = words(600, edge);
            guarded.words_mut()[599] = 8;
            assert_eq!(guarded.words()[598..], [7, 8]);
            assert!(guarded.canaries_stand());
            guarded.place(0, edge);
            assert!(guarded.bytes().is_empty() && guarded.canaries_stand());
        }
    }

    #[test]
    fn a_word_past_the_end_or_before_the_start_breaks_a_canary() {
        let mut guarded = words(3, Edge::Start);
        // SAFETY: the word is in the room, past the slice.
        unsafe { guarded.words_mut().as_mut_ptr().add(3).write_volatile(1) };
        assert!(!guarded.canaries_stand());
        let mut guarded = words(3, Edge::End);
        // SAFETY: the word is in the room, before the slice.
        unsafe { guarded.words_mut().as_mut_ptr().sub(1).write_volatile(1) };
        assert!(!guarded.canaries_stand());
    }

    /// Runs one of the ignored tests in a process of its own.
    fn alone(test: &str, seed: u64) -> (Output, String) {
        let name = format!("guarded::tests::{test}");
        let output = Command::new(std::env::current_exe().unwrap())
            .args([&name, "--exact", "--ignored", "--nocapture"])
            .env("FUZZ_TEST_SEED", seed.to_string())
            .output()
            .unwrap();
        let text = String::from_utf8_lossy(&output.stderr).into_owned();
        (output, text)
    }

    fn announced() {
        tell_faults();
        announce(5, 42, Box::leak(Box::new(words(3, Edge::Start))));
    }

    #[test]
    #[ignore = "ends the process; run by `a_guard_page_is_told_with_the_call`"]
    fn writes_a_word_past_the_end() {
        announced();
        let mut guarded = words(3, Edge::End);
        // SAFETY: none; the write is to a guard page.
        unsafe { guarded.words_mut().as_mut_ptr().add(3).write_volatile(1) };
    }

    #[test]
    #[ignore = "ends the process; run by `a_guard_page_is_told_with_the_call`"]
    fn reads_a_word_before_the_start() {
        announced();
        let guarded = words(3, Edge::Start);
        // SAFETY: none; the read is from a guard page.
        unsafe { guarded.words().as_ptr().sub(1).read_volatile() };
    }

    #[test]
    fn a_guard_page_is_told_with_the_call() {
        for test in [
            "writes_a_word_past_the_end",
            "reads_a_word_before_the_start",
        ] {
            let (output, text) = alone(test, 0);
            assert_eq!(output.status.code(), Some(1), "{text}");
            assert!(
                text.contains("seed 5, call 42: memory was touched"),
                "{text}"
            );
            assert!(text.contains("call [7, 7, 7]"), "{text}");
        }
    }

    /// The library, but it writes a word past `rows`.
    fn one_past(lent: &mut Lent<'_>) -> u64 {
        let status = run_library(lent);
        // SAFETY: none; there is a canary or a guard page.
        unsafe { lent.rows.as_mut_ptr_range().end.write_volatile(1) };
        status
    }

    #[test]
    #[ignore = "ends the process; run by `a_library_that_writes_past_its_rows_is_found`"]
    fn runs_a_library_that_writes_past_its_rows() {
        tell_faults();
        let seed = std::env::var("FUZZ_TEST_SEED").unwrap().parse().unwrap();
        let mut fuzz = Fuzz::new(seed, &one_past);
        for _ in 0..100 {
            fuzz.step().unwrap_or_else(|failure| panic!("{failure}"));
        }
    }

    /// By the guard page or by the canary, as the seed places the rows.
    #[test]
    fn a_library_that_writes_past_its_rows_is_found() {
        let (mut touched, mut beside) = (0, 0);
        for seed in 1..=8 {
            let (output, text) = alone("runs_a_library_that_writes_past_its_rows", seed);
            assert!(!output.status.success(), "seed {seed}");
            assert!(text.contains(&format!("seed {seed}, call 1")), "{text}");
            touched += u32::from(text.contains("memory was touched that was not lent"));
            beside += u32::from(text.contains("written beside `rows`"));
        }
        assert_eq!(touched + beside, 8);
        assert!(touched > 0 && beside > 0, "{touched} and {beside}");
    }
}
