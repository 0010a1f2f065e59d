// What the queues import from loom_exports beyond the listed file: a cell
// with loom's access functions over the plain one, and the two assertions.
pub(crate) mod cell {
    #[derive(Debug)]
    pub(crate) struct UnsafeCell<T>(core::cell::UnsafeCell<T>);

    impl<T> UnsafeCell<T> {
        #[inline]
        pub(crate) const fn new(data: T) -> Self {
            UnsafeCell(core::cell::UnsafeCell::new(data))
        }

        #[inline]
        pub(crate) fn with<R>(&self, f: impl FnOnce(*const T) -> R) -> R {
            f(self.0.get())
        }

        #[inline]
        pub(crate) fn with_mut<R>(&self, f: impl FnOnce(*mut T) -> R) -> R {
            f(self.0.get())
        }
    }
}

macro_rules! debug_or_loom_assert {
    ($($arg:tt)*) => { debug_assert!($($arg)*) };
}
macro_rules! debug_or_loom_assert_eq {
    ($($arg:tt)*) => { debug_assert_eq!($($arg)*) };
}
pub(crate) use debug_or_loom_assert;
pub(crate) use debug_or_loom_assert_eq;
