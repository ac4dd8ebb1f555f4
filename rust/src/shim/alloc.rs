//! The allocator, and what is returned when memory is refused. Rattle's library has an allocator in each constructor; here there is one.

/// The global allocator.
#[derive(Clone, Copy, Debug, PartialEq, Eq)]
pub struct Global;

/// Memory was refused.
#[derive(Clone, Copy, Debug, PartialEq, Eq)]
pub struct AllocError;

impl core::fmt::Display for AllocError {
    #[inline]
    fn fmt(&self, f: &mut core::fmt::Formatter<'_>) -> core::fmt::Result {
        f.write_str("out of memory")
    }
}

impl core::error::Error for AllocError {}

/// Memory was refused for a value, which is given back.
#[derive(Clone, Copy, Debug, PartialEq, Eq)]
pub struct AllocFailed<T> {
    pub value: T,
}

impl<T> From<AllocFailed<T>> for AllocError {
    #[inline]
    fn from(_failed: AllocFailed<T>) -> Self {
        AllocError
    }
}
