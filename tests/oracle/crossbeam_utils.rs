//! Stands in for the crate crossbeam_utils, of which the queues use only
//! `CachePadded`: a wrapper that keeps its value on a cache line of its own.
#![no_std]

use core::ops::Deref;

#[derive(Debug)]
#[repr(align(128))]
pub struct CachePadded<T>(T);

impl<T> CachePadded<T> {
    pub const fn new(value: T) -> Self {
        CachePadded(value)
    }
}

impl<T> Deref for CachePadded<T> {
    type Target = T;

    #[inline]
    fn deref(&self) -> &T {
        &self.0
    }
}
