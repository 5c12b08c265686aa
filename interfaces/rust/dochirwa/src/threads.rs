//! Threads that take no signals of the process: the program's own threads wait for those.

/// Starts a thread.
pub(crate) fn start(name: &str, run: impl FnOnce() + Send + 'static) -> std::io::Result<()> {
    let _blocked = signals::Blocked::new();
    std::thread::Builder::new().name(name.into()).spawn(run).map(drop)
}

#[cfg(target_os = "linux")]
mod signals {
    /// A set of signals, as the C library has it.
    #[repr(C)]
    pub(super) struct Set([u64; 16]);

    const SET: i32 = 2;
    /// What a fault of the thread itself raises.
    const FAULTS: [i32; 4] = [4, 7, 8, 11];

    unsafe extern "C" {
        fn sigfillset(set: *mut Set) -> i32;
        fn sigdelset(set: *mut Set, signal: i32) -> i32;
        fn pthread_sigmask(how: i32, set: *const Set, before: *mut Set) -> i32;
    }

    /// Keeps signals from this thread, and from those that it starts; its end gives this thread back what it had.
    pub(super) struct Blocked(Set);

    impl Blocked {
        pub(super) fn new() -> Blocked {
            let (mut others, mut before) = (Set([0; 16]), Set([0; 16]));
            // SAFETY: both are sets as the C library has them.
            unsafe {
                sigfillset(&mut others);
                for signal in FAULTS {
                    sigdelset(&mut others, signal);
                }
                pthread_sigmask(SET, &others, &mut before);
            }
            Blocked(before)
        }
    }

    impl Drop for Blocked {
        fn drop(&mut self) {
            // SAFETY: the set is what the C library gave.
            unsafe { pthread_sigmask(SET, &self.0, std::ptr::null_mut()) };
        }
    }
}

#[cfg(not(target_os = "linux"))]
mod signals {
    pub(super) struct Blocked;

    impl Blocked {
        pub(super) fn new() -> Blocked {
            Blocked
        }
    }
}
