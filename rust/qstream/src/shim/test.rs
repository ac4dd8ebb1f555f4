//! What tests call.

use crate::proved::qs_cli::WireError;
use crate::proved::qs_ranges::NoMemory;
use crate::proved::qs_send::SendFault;
use crate::shim::alloc::{AllocError, AllocFailed};
use std::fmt::{Debug, Display};

/// Why a test failed.
#[derive(Debug)]
pub struct Fail {
    _why: std::string::String,
}

impl Fail {
    pub fn new<D: Display>(why: D) -> Fail {
        Fail {
            _why: why.to_string(),
        }
    }

    fn of<D: Debug>(error: D) -> Fail {
        Fail::new(format_args!("error: {error:?}"))
    }
}

impl<E: std::error::Error> From<E> for Fail {
    fn from(error: E) -> Fail {
        Fail::of(error)
    }
}

impl From<NoMemory> for Fail {
    fn from(error: NoMemory) -> Fail {
        Fail::of(error)
    }
}

impl From<SendFault> for Fail {
    fn from(error: SendFault) -> Fail {
        Fail::of(error)
    }
}

impl<T> From<AllocFailed<T>> for Fail {
    fn from(error: AllocFailed<T>) -> Fail {
        Fail::of(AllocError::from(error))
    }
}

impl From<WireError> for Fail {
    fn from(error: WireError) -> Fail {
        Fail::of(error)
    }
}

/// `assert!(rt; ..)`.
macro_rules! assert_in {
    ($rt:expr; $($words:tt)*) => {{
        let _ = &$rt;
        ::core::assert!($($words)*)
    }};
}

/// `assert_eq!(rt; ..)`.
macro_rules! assert_eq_in {
    ($rt:expr; $($words:tt)*) => {{
        let _ = &$rt;
        ::core::assert_eq!($($words)*)
    }};
}

/// `panic!(rt; ..)`.
macro_rules! panic_in {
    ($rt:expr; $($words:tt)*) => {{
        let _ = &$rt;
        ::core::panic!($($words)*)
    }};
}

pub(crate) use {assert_eq_in, assert_in, panic_in};
