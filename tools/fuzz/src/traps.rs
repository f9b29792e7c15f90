//! Which blocks of the library are reached: each begins with a trap, which the first visit takes
//! away and counts. Code that was visited runs as it is.

use crate::blocks::Function;
use crate::system::{self, State};
use std::sync::atomic::{AtomicPtr, AtomicU32, AtomicUsize, Ordering::Relaxed};

/// The instruction that traps.
const TRAP: u8 = 0xCC;

/// The blocks, by address.
struct Traps {
    /// The address of the first, and by the distance from it one more than the block's number.
    start: usize,
    numbers: Vec<u32>,
    addresses: Vec<usize>,
    /// The byte that each begins with.
    bytes: Vec<u8>,
    /// Blocks that were reached, in their order, of which so many count.
    reached: Vec<u32>,
    met: usize,
}

static TRAPS: AtomicPtr<Traps> = AtomicPtr::new(std::ptr::null_mut());

/// Traps at the blocks of some functions, which stand so much further than they were linked for.
pub struct Armed {
    traps: &'static mut Traps,
}

impl Armed {
    /// Sets the traps. This is done once.
    pub fn new(functions: &[Function], moved: usize) -> Armed {
        let blocks = functions.iter().flat_map(|function| &function.blocks);
        let addresses: Vec<usize> = blocks.map(|block| block.wrapping_add(moved)).collect();
        let (start, end) = (addresses[0], addresses[addresses.len() - 1] + 1);
        let mut numbers = vec![0; end - start];
        for (number, address) in (1..).zip(&addresses) {
            numbers[address - start] = number;
        }
        system::open_code(start, end);
        // SAFETY: these are addresses of this program's code.
        let bytes = addresses.iter().map(|&at| unsafe { *(at as *const u8) }).collect();
        let reached = vec![0; addresses.len()];
        let traps = Traps { start, numbers, addresses, bytes, reached, met: 0 };
        let traps = Box::leak(Box::new(traps));
        TRAPS.store(traps, Relaxed);
        system::handle(system::TRAP, on_trap);
        let mut armed = Armed { traps };
        armed.set();
        armed
    }

    /// How many blocks there are.
    pub fn all(&self) -> usize {
        self.traps.addresses.len()
    }

    /// Sets all traps again.
    pub fn set(&mut self) {
        self.traps.met = 0;
        for &address in &self.traps.addresses {
            put(address, TRAP);
        }
    }

    /// Blocks that were reached since the traps were set, in their order.
    pub fn reached(&self) -> &[u32] {
        // SAFETY: the handler runs in this thread only, and not now.
        let met = unsafe { std::ptr::read_volatile(&self.traps.met) };
        &self.traps.reached[..met]
    }
}

/// Where the byte of a branch stands whose lowest bit says which way it goes, if it has one.
pub fn condition(branch: usize) -> Option<usize> {
    const SHORT: std::ops::RangeInclusive<u8> = 0x70..=0x7F;
    const NEAR: std::ops::RangeInclusive<u8> = 0x80..=0x8F;
    // SAFETY: a branch has two bytes at least.
    match [0, 1].map(|at| unsafe { *((branch + at) as *const u8) }) {
        [first, _] if SHORT.contains(&first) => Some(branch),
        [0x0F, second] if NEAR.contains(&second) => Some(branch + 1),
        _ => None,
    }
}

/// Has a branch go where it did not, and on where it went.
pub fn turn(branch: usize) {
    let at = condition(branch).expect("it can be turned");
    system::open_code(at, at + 1);
    // SAFETY: the byte is one of this program's code.
    put(at, unsafe { *(at as *const u8) } ^ 1);
}

/// Writes a byte of code.
fn put(address: usize, byte: u8) {
    // SAFETY: the address is a block's, whose pages may be written to.
    unsafe { std::ptr::write_volatile(address as *mut u8, byte) };
}

extern "C" fn on_trap(signal: i32, about: *const u8, state: *mut State) {
    // SAFETY: the system hands in what was interrupted, which nothing else refers to, and the
    // traps are there before the first is met. Who set them waits for the code that met this.
    let (traps, next) = unsafe { (&mut *TRAPS.load(Relaxed), (*state).next()) };
    let address = *next - 1;
    let number = traps.numbers.get(address.wrapping_sub(traps.start)).copied().unwrap_or(0);
    if number == 0 {
        return on_fault(signal, about, state);
    }
    let block = number as usize - 1;
    put(address, traps.bytes[block]);
    traps.reached[traps.met] = number - 1;
    traps.met += 1;
    *next = address;
}

/// The input that is tried, and how many were before.
static INPUT: AtomicPtr<u8> = AtomicPtr::new(std::ptr::null_mut());
static LENGTH: AtomicUsize = AtomicUsize::new(0);
static TRIED: AtomicUsize = AtomicUsize::new(0);
static TRIED_BEFORE: AtomicUsize = AtomicUsize::new(usize::MAX);

/// Seconds of processor time after which an input that is still tried counts as one without an
/// end, and up to twice as many.
static PATIENCE: AtomicU32 = AtomicU32::new(60);

/// Has faults, panics and hangs end the program with the input that they come from.
pub fn watch_faults() {
    std::panic::set_hook(Box::new(|about| {
        eprintln!("{about}");
        end_with("a panic, by the input ")
    }));
    for signal in system::FAULTS {
        system::handle(signal, on_fault);
    }
    system::handle(system::ALARM, on_alarm);
    system::alarm_after(PATIENCE.load(Relaxed));
}

/// Waits no longer than so many seconds for an input.
pub fn be_patient(seconds: u32) {
    PATIENCE.store(seconds, Relaxed);
    system::alarm_after(seconds);
}

/// Says which input is tried now.
pub fn trying(input: &[u8]) {
    LENGTH.store(0, Relaxed);
    INPUT.store(input.as_ptr().cast_mut(), Relaxed);
    LENGTH.store(input.len(), Relaxed);
    TRIED.fetch_add(1, Relaxed);
}

/// Prints the input that is tried, and ends.
fn end_with(what: &str) -> ! {
    system::print(what.as_bytes());
    let (start, length) = (INPUT.load(Relaxed), LENGTH.load(Relaxed));
    for at in 0..length {
        // SAFETY: the input is kept while it is tried.
        let byte = unsafe { *start.add(at) };
        let digit = |digit: u8| b"0123456789abcdef"[usize::from(digit)];
        system::print(&[digit(byte >> 4), digit(byte & 15)]);
    }
    system::print(b"\n");
    system::end(3)
}

extern "C" fn on_fault(_: i32, _: *const u8, _: *mut State) {
    end_with("a fault, by the input ")
}

extern "C" fn on_alarm(_: i32, _: *const u8, _: *mut State) {
    let tried = TRIED.load(Relaxed);
    if TRIED_BEFORE.swap(tried, Relaxed) == tried {
        end_with("no end, by the input ");
    }
    system::alarm_after(PATIENCE.load(Relaxed));
}
