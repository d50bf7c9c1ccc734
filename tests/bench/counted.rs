//! Counts, inside another program, the octets that it copies and fills by calls of the C library, its allocations,
//! and how deep the stack of its first thread grows.
//!
//! The program is run with this library loaded before the C library (LD_PRELOAD), and writes its counts on standard
//! error as it ends: `counted COPIES OCTETS FILLS OCTETS ALLOCATIONS STACK`. Octets that the compiler moves without a
//! call aren't counted. For x86-64, Linux and glibc.
use std::arch::asm;
use std::ffi::{c_int, c_void};
use std::sync::atomic::{AtomicU64, AtomicUsize, Ordering::Relaxed};

static COPIES: AtomicU64 = AtomicU64::new(0);
static COPIED: AtomicU64 = AtomicU64::new(0);
static FILLS: AtomicU64 = AtomicU64::new(0);
static FILLED: AtomicU64 = AtomicU64::new(0);
static ALLOCATIONS: AtomicU64 = AtomicU64::new(0);

/// Where the stack stands before the program begins.
static BASE: AtomicUsize = AtomicUsize::new(0);

/// How far below that the stack is looked at.
const DEPTH: usize = 512 * 1024;
/// How near below it frames of this library lie.
const NEAR: usize = 1024;
/// What the stack is painted with.
const PAINT: u8 = 0xA5;

unsafe extern "C" {
    fn __libc_malloc(size: usize) -> *mut c_void;
    fn __libc_calloc(count: usize, size: usize) -> *mut c_void;
    fn __libc_realloc(old: *mut c_void, size: usize) -> *mut c_void;
}

#[unsafe(no_mangle)]
unsafe extern "C" fn memcpy(to: *mut u8, from: *const u8, count: usize) -> *mut u8 {
    COPIES.fetch_add(1, Relaxed);
    COPIED.fetch_add(count as u64, Relaxed);
    // SAFETY: what the caller of a copy owes.
    unsafe { copy_up(to, from, count) };
    to
}

#[unsafe(no_mangle)]
unsafe extern "C" fn memmove(to: *mut u8, from: *const u8, count: usize) -> *mut u8 {
    COPIES.fetch_add(1, Relaxed);
    COPIED.fetch_add(count as u64, Relaxed);
    // SAFETY: the same; where the target begins inside the source the last octet goes first.
    unsafe {
        if (to as usize).wrapping_sub(from as usize) >= count {
            copy_up(to, from, count);
        } else {
            copy_down(to, from, count);
        }
    }
    to
}

#[unsafe(no_mangle)]
unsafe extern "C" fn memset(to: *mut u8, octet: c_int, count: usize) -> *mut u8 {
    FILLS.fetch_add(1, Relaxed);
    FILLED.fetch_add(count as u64, Relaxed);
    // SAFETY: what the caller of a fill owes.
    unsafe {
        asm!("rep stosb", inout("rcx") count => _, inout("rdi") to => _, in("al") octet as u8,
            options(nostack, preserves_flags));
    }
    to
}

unsafe fn copy_up(to: *mut u8, from: *const u8, count: usize) {
    // SAFETY: the caller says so.
    unsafe {
        asm!("rep movsb", inout("rcx") count => _, inout("rdi") to => _, inout("rsi") from => _,
            options(nostack, preserves_flags));
    }
}

/// For at least one octet.
unsafe fn copy_down(to: *mut u8, from: *const u8, count: usize) {
    // SAFETY: the caller says so, and the direction is set back.
    unsafe {
        asm!("std", "rep movsb", "cld", inout("rcx") count => _,
            inout("rdi") to.add(count - 1) => _, inout("rsi") from.add(count - 1) => _,
            options(nostack));
    }
}

#[unsafe(no_mangle)]
unsafe extern "C" fn malloc(size: usize) -> *mut c_void {
    ALLOCATIONS.fetch_add(1, Relaxed);
    // SAFETY: the call is handed on.
    unsafe { __libc_malloc(size) }
}

#[unsafe(no_mangle)]
unsafe extern "C" fn calloc(count: usize, size: usize) -> *mut c_void {
    ALLOCATIONS.fetch_add(1, Relaxed);
    // SAFETY: the call is handed on.
    unsafe { __libc_calloc(count, size) }
}

#[unsafe(no_mangle)]
unsafe extern "C" fn realloc(old: *mut c_void, size: usize) -> *mut c_void {
    ALLOCATIONS.fetch_add(1, Relaxed);
    // SAFETY: the call is handed on.
    unsafe { __libc_realloc(old, size) }
}

/// Paints the stack below this frame, before the program begins.
extern "C" fn paint() {
    let mark = 0u8;
    let base = &raw const mark as usize;
    BASE.store(base, Relaxed);
    // SAFETY: nothing lies there yet, and the stack may grow so far.
    unsafe {
        asm!("std", "rep stosb", "cld", inout("rcx") DEPTH - NEAR => _,
            inout("rdi") base - NEAR => _, in("al") PAINT);
    }
}

/// How deep the stack was: down to the lowest octet that isn't painted.
fn stack() -> usize {
    let base = BASE.load(Relaxed);
    // SAFETY: these are the octets that were painted.
    let is_used = |place: &usize| unsafe { (*place as *const u8).read_volatile() } != PAINT;
    let lowest = (base - DEPTH + 1..base - NEAR).find(is_used);
    base - lowest.unwrap_or(base - NEAR)
}

/// Writes the counts.
extern "C" fn report() {
    let [copies, copied, fills, filled, allocations] =
        [&COPIES, &COPIED, &FILLS, &FILLED, &ALLOCATIONS].map(|count| count.load(Relaxed));
    let stack = stack();
    eprintln!("counted {copies} {copied} {fills} {filled} {allocations} {stack}");
}

/// A program that ends at once ends here.
#[unsafe(no_mangle)]
unsafe extern "C" fn _exit(status: c_int) -> ! {
    report();
    // SAFETY: the call exit_group, which doesn't come back.
    unsafe { asm!("syscall", in("rax") 231, in("rdi") status, options(noreturn)) }
}

#[used]
#[unsafe(link_section = ".init_array")]
static AT_THE_BEGINNING: extern "C" fn() = paint;

#[used]
#[unsafe(link_section = ".fini_array")]
static AT_THE_END: extern "C" fn() = report;
