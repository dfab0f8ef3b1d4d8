//! How long this thread has run. Time in which other programs had the processor does not count, so
//! that a busy machine disturbs little. Where there is no such clock, the usual one stands in.

pub use this_system::{now, NAME};

#[cfg(all(target_os = "linux", target_pointer_width = "64"))]
#[allow(unsafe_code)]
mod this_system {
    use std::ffi::{c_int, c_long};
    use std::time::Duration;

    /// What the times are.
    pub const NAME: &str = "processor time of the thread";

    const THREAD_CPUTIME: c_int = 3;

    #[repr(C)]
    struct Timespec {
        seconds: c_long,
        nanoseconds: c_long,
    }

    extern "C" {
        fn clock_gettime(clock: c_int, time: *mut Timespec) -> c_int;
    }

    pub fn now() -> Duration {
        let mut time = Timespec {
            seconds: 0,
            nanoseconds: 0,
        };
        // SAFETY: the call writes to `time` alone, which has the layout it has on these systems.
        let failed = unsafe { clock_gettime(THREAD_CPUTIME, &mut time) };
        assert_eq!(failed, 0, "there is no clock for this thread");
        Duration::new(time.seconds as u64, time.nanoseconds as u32)
    }
}

#[cfg(not(all(target_os = "linux", target_pointer_width = "64")))]
mod this_system {
    use std::sync::LazyLock;
    use std::time::{Duration, Instant};

    /// What the times are.
    pub const NAME: &str = "wall-clock time";

    static START: LazyLock<Instant> = LazyLock::new(Instant::now);

    pub fn now() -> Duration {
        START.elapsed()
    }
}
