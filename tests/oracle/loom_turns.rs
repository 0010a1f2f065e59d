// Takes the place of loom_exports.rs: the queues get atomics and cells that
// wait for a turn, and assertions that are always on.
pub(crate) mod sync {
    pub(crate) mod atomic {
        pub(crate) use turns::{AtomicU32, AtomicU64};
    }
}

pub(crate) mod cell {
    pub(crate) use turns::UnsafeCell;
}

macro_rules! debug_or_loom_assert {
    ($($arg:tt)*) => { assert!($($arg)*) };
}
macro_rules! debug_or_loom_assert_eq {
    ($($arg:tt)*) => { assert_eq!($($arg)*) };
}
pub(crate) use debug_or_loom_assert;
pub(crate) use debug_or_loom_assert_eq;
