//! What is asked of Linux on x86-64: pages, signals and an alarm by the time that is run.

use std::ptr::null_mut;

/// Bytes of a page.
pub const PAGE: usize = 4_096;

/// C's `struct sigaction`.
#[repr(C)]
struct Action {
    handler: Handler,
    mask: [u64; 16],
    flags: i32,
    restorer: usize,
}

/// What a signal interrupted: the beginning of C's `ucontext_t`.
#[repr(C)]
pub struct State {
    before: [u64; 5],
    registers: [usize; 23],
}

impl State {
    /// The address of the next instruction, `REG_RIP`.
    pub fn next(&mut self) -> &mut usize {
        &mut self.registers[16]
    }
}

/// What a signal is handled by: its number, what is known of it, and what it interrupted.
pub type Handler = extern "C" fn(i32, *const u8, *mut State);

extern "C" {
    fn mmap(at: *mut u8, length: usize, may: i32, kind: i32, file: i32, offset: i64) -> *mut u8;
    fn mprotect(at: *mut u8, length: usize, may: i32) -> i32;
    fn sigaction(signal: i32, new: *const Action, old: *mut Action) -> i32;
    fn setitimer(clock: i32, new: *const [i64; 4], old: *mut [i64; 4]) -> i32;
    fn write(file: i32, bytes: *const u8, length: usize) -> isize;
    fn _exit(status: i32) -> !;
}

/// Signals, by number.
pub const TRAP: i32 = 5;
pub const ALARM: i32 = 27;
/// Those of a fault: illegal instruction, abort, bus error, wrong arithmetic, wrong address.
pub const FAULTS: [i32; 5] = [4, 6, 7, 8, 11];

const READ: i32 = 1;
const WRITE: i32 = 2;
const EXECUTE: i32 = 4;

/// So many pages that can be read and written, before one that cannot be touched; the address of
/// the latter.
pub fn pages_before_a_guard(pages: usize) -> *mut u8 {
    const PRIVATE_AND_ANONYMOUS: i32 = 0x22;
    let length = (pages + 1) * PAGE;
    // SAFETY: fresh pages at an address of the system's choice.
    unsafe {
        let start = mmap(null_mut(), length, READ | WRITE, PRIVATE_AND_ANONYMOUS, -1, 0);
        assert_ne!(start as isize, -1, "no memory");
        let guard = start.add(pages * PAGE);
        assert_eq!(mprotect(guard, PAGE, 0), 0, "no guard page");
        guard
    }
}

/// Lets code be written to, from one address up to another.
pub fn open_code(from: usize, to: usize) {
    let start = from / PAGE * PAGE;
    // SAFETY: what may be done with these pages grows.
    let reply = unsafe { mprotect(start as *mut u8, to - start, READ | WRITE | EXECUTE) };
    assert_eq!(reply, 0, "code cannot be written to");
}

/// Has a signal handled, on the stack for signals if this thread has one.
pub fn handle(signal: i32, handler: Handler) {
    const INFORMED_RESTARTING_ON_STACK: i32 = 0x4 | 0x1000_0000 | 0x0800_0000;
    let action =
        Action { handler, mask: [0; 16], flags: INFORMED_RESTARTING_ON_STACK, restorer: 0 };
    // SAFETY: the pointer is that of an Action; the old one is not asked for.
    let reply = unsafe { sigaction(signal, &action, null_mut()) };
    assert_eq!(reply, 0, "signal {signal} cannot be handled");
}

/// Sends an alarm after so many seconds that the program has run, and forgets the one before.
pub fn alarm_after(seconds: u32) {
    const TIME_RUN: i32 = 2;
    // The seconds and microseconds of what comes again, and of what comes first.
    let times = [0, 0, seconds.into(), 0];
    // SAFETY: the pointer is that of C's `struct itimerval`; the old one is not asked for.
    let reply = unsafe { setitimer(TIME_RUN, &times, null_mut()) };
    assert_eq!(reply, 0, "no alarm can be set");
}

/// Prints text from within a handler.
pub fn print(text: &[u8]) {
    // SAFETY: pointer and length are those of a slice.
    unsafe { write(2, text.as_ptr(), text.len()) };
}

/// Ends the program from within a handler.
pub fn end(status: i32) -> ! {
    // SAFETY: a number.
    unsafe { _exit(status) }
}
