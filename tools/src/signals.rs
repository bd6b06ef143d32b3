//! Signals: Ctrl-C, faults of memory, and a pipe that nobody reads.
const INTERRUPT: i32 = 2;
const BUS: i32 = 7;
const SEGMENT: i32 = 11;
const PIPE: i32 = 13;
const SIGNAL_INFO: i32 = 4;
const RESTART: i32 = 1 << 28;
const ONCE: i32 = 1 << 31;
const DEFAULT: usize = 0;
const IGNORED: usize = 1;

#[repr(C)]
struct Action {
    handler: usize,
    mask: [u64; 16],
    flags: i32,
    restorer: usize,
}

extern "C" {
    fn sigaction(signal: i32, action: *const Action, before: *mut Action) -> i32;
    fn write(file: i32, bytes: *const u8, length: usize) -> isize;
    fn _exit(status: i32) -> !;
}

type Handler = extern "C" fn(i32, *const u8, *const u8);

fn handle(signal: i32, handler: usize, flags: i32) {
    let action = Action { handler, mask: [0; 16], flags, restorer: 0 };
    unsafe { sigaction(signal, &action, std::ptr::null_mut()) };
}

/// `written` meets the first write to a page that can't be written, `lost` a page that can't be read. Each gets the number of the signal and what is
/// known of it.
pub fn on_faults(written: Handler, lost: Handler) {
    handle(SEGMENT, written as *const () as usize, SIGNAL_INFO);
    handle(BUS, lost as *const () as usize, SIGNAL_INFO);
}

/// `met` meets the first Ctrl-C, and the next ends the program as it would have. Where Ctrl-C is passed over, as in work that a shell put behind, it stays so.
pub fn on_interrupt(met: Handler) {
    if !passed_over(INTERRUPT) {
        handle(INTERRUPT, met as *const () as usize, SIGNAL_INFO | RESTART | ONCE);
    }
}

/// No handler meets Ctrl-C any more.
pub fn interrupt_by_default() {
    if !passed_over(INTERRUPT) {
        by_default(INTERRUPT);
    }
}

fn passed_over(signal: i32) -> bool {
    let mut now = Action { handler: DEFAULT, mask: [0; 16], flags: 0, restorer: 0 };
    unsafe { sigaction(signal, std::ptr::null(), &mut now) };
    now.handler == IGNORED
}

pub fn by_default(signal: i32) {
    handle(signal, DEFAULT, 0);
}

/// A program that reads our output may stop reading: then we end as other programs do.
pub fn end_with_a_broken_pipe() {
    by_default(PIPE);
}

/// The address that a fault met, of what its handler is told.
///
/// # Safety
/// `information` is what the system handed to a handler that was set by `on_faults`.
pub unsafe fn address_met(information: *const u8) -> usize {
    information.add(16).cast::<usize>().read()
}

/// Ends the program from within a handler of a signal.
pub fn end_at_once(status: i32, message: &[u8]) -> ! {
    unsafe {
        write(2, message.as_ptr(), message.len());
        _exit(status)
    }
}
