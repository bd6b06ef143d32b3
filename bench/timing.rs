//! The processor's clock, the lowest of several runs in turns, and bytes to work on.
#![allow(dead_code)]

#[repr(C)]
struct Timespec {
    seconds: i64,
    nanoseconds: i64,
}

extern "C" {
    fn clock_gettime(clock: i32, time: *mut Timespec) -> i32;
}

const THREAD_CPU_CLOCK: i32 = 3;

/// The processor's time that this thread has used, in seconds. Other work on the computer disturbs it less than the time on the clock.
pub fn cpu_seconds() -> f64 {
    let mut time = Timespec { seconds: 0, nanoseconds: 0 };
    let failed = unsafe { clock_gettime(THREAD_CPU_CLOCK, &mut time) };
    assert_eq!(failed, 0, "no clock for the thread");
    time.seconds as f64 + time.nanoseconds as f64 * 1e-9
}

/// What a run gives, and the processor's time that it took.
pub fn timed<T>(run: impl FnOnce() -> T) -> (T, f64) {
    let start = cpu_seconds();
    let given = run();
    (given, cpu_seconds() - start)
}

/// Numbers of a linear congruential generator.
pub struct Numbers(pub u64);

impl Numbers {
    pub fn below(&mut self, bound: u64) -> u64 {
        self.0 = self.0.wrapping_mul(6364136223846793005).wrapping_add(1442695040888963407);
        (self.0 >> 24) % bound
    }

    /// Bytes of it: every page is written, and no two pieces are alike.
    pub fn bytes(&mut self, count: usize) -> Vec<u8> {
        (0..count).map(|_| self.below(256) as u8).collect()
    }
}

/// How often each run is repeated: the program's first word, or this many.
pub fn rounds(usual: usize) -> usize {
    std::env::args().nth(1).map_or(usual, |word| word.parse().expect("ROUNDS is a number")).max(1)
}
