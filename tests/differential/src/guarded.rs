//! Calls that see reads and writes outside what was lent. The compiler's back end is not proved, so each call has its own copy of
//! every buffer and figure, which ends at a page that can't be touched in one call and starts behind one in the next, and a stack
//! of its own with such pages below it. A touch ends the run with the entry's name.

use std::arch::asm;
use std::cell::{Cell, RefCell};
use std::ptr;
use std::slice;
use std::sync::atomic::{AtomicPtr, AtomicUsize, Ordering::Relaxed};
use std::sync::Once;

const PAGE: usize = 4096;
/// So many untouchable bytes below a stack: a frame that is not probed page by page does not reach over them.
const BELOW_STACK: usize = 64 * PAGE;
/// So many bytes at the end that can be touched are looked at after the call.
const MARGIN: usize = 64;
const MARK: u8 = 0xa5;

extern "C" {
    fn mmap(address: *mut u8, length: usize, protection: i32, flags: i32, file: i32, offset: i64) -> *mut u8;
    fn munmap(address: *mut u8, length: usize) -> i32;
    fn mprotect(address: *mut u8, length: usize, protection: i32) -> i32;
    fn sigaction(signal: i32, new: *const Action, old: *mut Action) -> i32;
    fn write(file: i32, bytes: *const u8, length: usize) -> isize;
    fn _exit(status: i32) -> !;
}

const NONE: i32 = 0;
const READ_WRITE: i32 = 3;
const PRIVATE_ANONYMOUS: i32 = 0x22;
const SEGMENTATION_FAULT: i32 = 11;
const ON_OTHER_STACK_WITH_INFO: i32 = 0x0800_0000 | 4;

/// C's struct sigaction on x86-64 Linux.
#[repr(C)]
struct Action {
    handler: extern "C" fn(i32, *const u8, *const u8),
    mask: [u64; 16],
    flags: i32,
    restorer: usize,
}

/// Pages that can be touched, between others that can't.
struct Region {
    mapped: *mut u8,
    below: usize,
    bytes: usize,
}

impl Region {
    fn new(below: usize, bytes: usize) -> Region {
        let bytes = (bytes + PAGE - 1) / PAGE * PAGE;
        // SAFETY: a fresh mapping of the length that is asked for; what is protected is within it.
        unsafe {
            let mapped = mmap(ptr::null_mut(), below + bytes + PAGE, READ_WRITE, PRIVATE_ANONYMOUS, -1, 0);
            assert!(mapped as isize != -1, "no memory");
            assert!(mprotect(mapped, below, NONE) == 0 && mprotect(mapped.add(below + bytes), PAGE, NONE) == 0, "pages are protected");
            Region { mapped, below, bytes }
        }
    }

    fn low(&self) -> *mut u8 {
        self.mapped.wrapping_add(self.below)
    }
}

impl Drop for Region {
    fn drop(&mut self) {
        // SAFETY: the mapping is this region's own.
        unsafe { munmap(self.mapped, self.below + self.bytes + PAGE) };
    }
}

thread_local! {
    static REGIONS: RefCell<Vec<Region>> = const { RefCell::new(Vec::new()) };
    static STACKS: RefCell<Vec<(usize, Region)>> = const { RefCell::new(Vec::new()) };
    static CALLS: Cell<u64> = const { Cell::new(0) };
}

/// The entry that is called, for the line of a fault, and the address of the untouchable pages below its stack.
static NAME: AtomicPtr<u8> = AtomicPtr::new(ptr::null_mut());
static LENGTH: AtomicUsize = AtomicUsize::new(0);
static BELOW: AtomicUsize = AtomicUsize::new(0);

extern "C" fn fault(_: i32, info: *const u8, _: *const u8) {
    // SAFETY: the kernel hands over a siginfo_t, whose address field is its third word; the name is that of a call that stands.
    unsafe {
        let address = *(info as *const usize).add(2);
        let below = BELOW.load(Relaxed);
        let why: &[u8] = if (below..below + BELOW_STACK).contains(&address) {
            b" needs more stack than crr.h says\n"
        } else {
            b" touches what was not lent\n"
        };
        let (name, length) = (NAME.load(Relaxed), LENGTH.load(Relaxed));
        for (bytes, length) in [(b"FAILED ".as_ptr(), 7), (name as *const u8, length), (why.as_ptr(), why.len())] {
            write(1, bytes, length);
        }
        _exit(1)
    }
}

/// One call: where its buffers stand.
pub struct Places {
    at_end: bool,
    next: Cell<usize>,
}

/// Makes a call of an entry, with places for what it is lent: at the upper page and at the lower one in turn.
pub fn called(name: &'static str, call: impl FnOnce(&Places) -> u64) -> u64 {
    static HANDLED: Once = Once::new();
    HANDLED.call_once(|| {
        let action = Action { handler: fault, mask: [0; 16], flags: ON_OTHER_STACK_WITH_INFO, restorer: 0 };
        // SAFETY: the struct is C's, and the handler writes and ends the process, no more.
        assert!(unsafe { sigaction(SEGMENTATION_FAULT, &action, ptr::null_mut()) } == 0, "a handler is set");
    });
    NAME.store(name.as_ptr().cast_mut(), Relaxed);
    LENGTH.store(name.len(), Relaxed);
    let calls = CALLS.with(|calls| calls.replace(calls.get() + 1));
    call(&Places { at_end: calls % 2 == 0, next: Cell::new(0) })
}

struct Task<F> {
    call: Option<F>,
    answer: u64,
}

extern "C" fn run<F: FnOnce() -> u64>(task: &mut Task<F>) {
    if let Some(call) = task.call.take() {
        task.answer = call();
    }
}

impl Places {
    /// A copy of some cells, in a region of its own.
    fn room<T: Copy>(&self, cells: &[T]) -> Room<T> {
        let (number, bytes) = (self.next.replace(self.next.get() + 1), std::mem::size_of_val(cells));
        REGIONS.with(|regions| {
            let mut regions = regions.borrow_mut();
            if number == regions.len() {
                regions.push(Region::new(PAGE, 16 * PAGE));
            }
            if regions[number].bytes < bytes + MARGIN {
                regions[number] = Region::new(PAGE, bytes + MARGIN);
            }
            let low = regions[number].low();
            let end = low.wrapping_add(regions[number].bytes);
            let start = if self.at_end { end.wrapping_sub(bytes) } else { low };
            let margin = if self.at_end { start.wrapping_sub(MARGIN) } else { start.wrapping_add(bytes) };
            // SAFETY: the region has the bytes and the margin, and belongs to this room until the call's end.
            unsafe {
                ptr::write_bytes(margin, MARK, MARGIN);
                ptr::copy_nonoverlapping(cells.as_ptr().cast::<u8>(), start, bytes);
            }
            Room { start: start.cast(), length: cells.len(), margin }
        })
    }

    /// Calls on a stack of so many bytes, a multiple of 16.
    pub fn on_stack<F: FnOnce() -> u64>(&self, bytes: usize, call: F) -> u64 {
        let low = STACKS.with(|stacks| {
            let mut stacks = stacks.borrow_mut();
            if stacks.iter().all(|(size, _)| *size != bytes) {
                stacks.push((bytes, Region::new(BELOW_STACK, bytes)));
            }
            stacks.iter().find(|(size, _)| *size == bytes).map(|(_, region)| region.low()).expect("it was made")
        });
        BELOW.store(low as usize - BELOW_STACK, Relaxed);
        let mut task = Task { call: Some(call), answer: 0 };
        let entry: extern "C" fn(&mut Task<F>) = run::<F>;
        // SAFETY: the stack is a mapping of this thread's own that nothing else uses; r12 is kept by the function that is called; nothing unwinds through it.
        unsafe {
            asm!(
                "mov r12, rsp",
                "mov rsp, rsi",
                "call rdx",
                "mov rsp, r12",
                inout("rdi") &mut task => _,
                inout("rsi") low.add(bytes) => _,
                inout("rdx") entry => _,
                out("r12") _,
                clobber_abi("C"),
            );
        }
        task.answer
    }
}

/// Where a copy stands.
struct Room<T> {
    start: *mut T,
    length: usize,
    margin: *mut u8,
}

impl<T> Room<T> {
    fn cells(&self) -> &[T] {
        // SAFETY: the region's own cells, filled when the room was made.
        unsafe { slice::from_raw_parts(self.start, self.length) }
    }

    fn cells_mut(&mut self) -> &mut [T] {
        // SAFETY: as above, and the room is borrowed alone.
        unsafe { slice::from_raw_parts_mut(self.start, self.length) }
    }

    fn check_margin(&self) {
        // SAFETY: the margin is within the region, and was filled when the room was made.
        let margin = unsafe { slice::from_raw_parts(self.margin, MARGIN) };
        assert!(margin.iter().all(|&byte| byte == MARK), "bytes beside what was lent were written");
    }
}

/// What an entry takes: lent cells and figures are placed, numbers pass as they are.
pub trait Place {
    type Placed;
    fn place(self, places: &Places) -> Self::Placed;
}

pub struct Number<T>(T);

impl<T: Copy> Number<T> {
    pub fn lent(&mut self) -> T {
        self.0
    }
}

macro_rules! number {
    ($($type:ty)*) => {$(
        impl Place for $type {
            type Placed = Number<$type>;

            fn place(self, _: &Places) -> Number<$type> {
                Number(self)
            }
        }
    )*};
}

number!(u64 i64 usize);

/// Cells that are only read.
pub struct Read<'a, T: Copy + PartialEq> {
    own: &'a [T],
    room: Room<T>,
}

impl<'a, T: Copy + PartialEq> Place for &'a [T] {
    type Placed = Read<'a, T>;

    fn place(self, places: &Places) -> Read<'a, T> {
        Read { own: self, room: places.room(self) }
    }
}

impl<T: Copy + PartialEq> Read<'_, T> {
    pub fn lent(&mut self) -> &[T] {
        self.room.cells()
    }
}

impl<T: Copy + PartialEq> Drop for Read<'_, T> {
    fn drop(&mut self) {
        self.room.check_margin();
        assert!(self.room.cells() == self.own, "cells lent to be read were written");
    }
}

/// Cells that may be written; what they hold at the end is copied back.
pub struct Written<'a, T: Copy> {
    own: &'a mut [T],
    room: Room<T>,
}

impl<'a, T: Copy> Place for &'a mut [T] {
    type Placed = Written<'a, T>;

    fn place(self, places: &Places) -> Written<'a, T> {
        let room = places.room(self);
        Written { own: self, room }
    }
}

impl<T: Copy> Written<'_, T> {
    pub fn lent(&mut self) -> &mut [T] {
        self.room.cells_mut()
    }
}

impl<T: Copy> Drop for Written<'_, T> {
    fn drop(&mut self) {
        self.room.check_margin();
        self.own.copy_from_slice(self.room.cells());
    }
}

/// A figure: the one cell of its kind.
pub struct Figure<'a, T: Copy>(Written<'a, T>);

impl<'a, T: Copy> Place for &'a mut T {
    type Placed = Figure<'a, T>;

    fn place(self, places: &Places) -> Figure<'a, T> {
        Figure(slice::from_mut(self).place(places))
    }
}

impl<T: Copy> Figure<'_, T> {
    pub fn lent(&mut self) -> &mut T {
        &mut self.0.lent()[0]
    }
}
