//! The memory that gimli_cfi requests: it is counted, and requests can be refused. The program is
//! linked with `--wrap` for these three functions, so that all calls of them come here.
use std::ffi::c_void;
use std::ptr::null_mut;
use std::sync::atomic::{AtomicBool, AtomicI64, AtomicU64, Ordering::Relaxed};

/// Whether a call of gimli_cfi runs.
static WATCHED: AtomicBool = AtomicBool::new(false);
/// Requests since the call began, and those that were refused.
static REQUESTS: AtomicU64 = AtomicU64::new(0);
static REFUSED: AtomicU64 = AtomicU64::new(0);
/// Which requests are refused, from this one up to that one.
static FIRST: AtomicU64 = AtomicU64::new(u64::MAX);
static LAST: AtomicU64 = AtomicU64::new(u64::MAX);
/// Pieces that were allocated and not freed.
static LIVE: AtomicI64 = AtomicI64::new(0);

unsafe extern "C" {
    fn __real_malloc(size: usize) -> *mut c_void;
    fn __real_realloc(at: *mut c_void, size: usize) -> *mut c_void;
    fn __real_free(at: *mut c_void);
}

/// Which requests of a call are refused, counted from 0.
#[derive(Clone, Copy, Debug)]
pub enum Refusal {
    None,
    One(u64),
    From(u64),
}

/// Makes a call of gimli_cfi. All that it allocates has to be freed at its end.
pub fn watched<T>(refusal: Refusal, call: impl FnOnce() -> T) -> T {
    let (first, last) = match refusal {
        Refusal::None => (u64::MAX, 0),
        Refusal::One(request) => (request, request),
        Refusal::From(request) => (request, u64::MAX),
    };
    FIRST.store(first, Relaxed);
    LAST.store(last, Relaxed);
    for count in [&REQUESTS, &REFUSED] {
        count.store(0, Relaxed);
    }
    WATCHED.store(true, Relaxed);
    let result = call();
    WATCHED.store(false, Relaxed);
    assert_eq!(LIVE.swap(0, Relaxed), 0, "memory that isn't freed");
    result
}

/// How many requests of the last call were made, and how many of them refused.
pub fn requests() -> (u64, u64) {
    (REQUESTS.load(Relaxed), REFUSED.load(Relaxed))
}

/// Counts a request, and says whether it is to be refused.
fn is_refused() -> bool {
    let number = REQUESTS.fetch_add(1, Relaxed);
    let refused = (FIRST.load(Relaxed)..=LAST.load(Relaxed)).contains(&number);
    REFUSED.fetch_add(u64::from(refused), Relaxed);
    refused
}

/// # Safety
/// As malloc.
#[unsafe(no_mangle)]
pub unsafe extern "C" fn __wrap_malloc(size: usize) -> *mut c_void {
    let watched = WATCHED.load(Relaxed);
    if watched && is_refused() {
        return null_mut();
    }
    LIVE.fetch_add(i64::from(watched), Relaxed);
    // SAFETY: as the caller promises.
    unsafe { __real_malloc(size) }
}

/// # Safety
/// As realloc.
#[unsafe(no_mangle)]
pub unsafe extern "C" fn __wrap_realloc(at: *mut c_void, size: usize) -> *mut c_void {
    let watched = WATCHED.load(Relaxed);
    if watched && is_refused() {
        return null_mut();
    }
    LIVE.fetch_add(i64::from(watched && at.is_null()), Relaxed);
    // SAFETY: as the caller promises.
    unsafe { __real_realloc(at, size) }
}

/// # Safety
/// As free.
#[unsafe(no_mangle)]
pub unsafe extern "C" fn __wrap_free(at: *mut c_void) {
    let watched = WATCHED.load(Relaxed);
    LIVE.fetch_sub(i64::from(watched && !at.is_null()), Relaxed);
    // SAFETY: as the caller promises.
    unsafe { __real_free(at) }
}
