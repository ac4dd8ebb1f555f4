//! How servers are asked to stop: by SIGTERM or SIGINT.

use signal_hook::consts::{SIGINT, SIGTERM};
use signal_hook::{flag, low_level::pipe};
use std::io;
use std::os::fd::{AsRawFd, RawFd};
use std::os::unix::net::UnixStream;
use std::sync::Arc;
use std::sync::atomic::{AtomicBool, Ordering};

#[derive(Clone, Debug, Default)]
pub struct Stop {
    is_asked: Arc<AtomicBool>,
    /// A byte comes by it, which no one reads, so that each server sees it.
    wake: Option<Arc<UnixStream>>,
}

impl Stop {
    /// One that the signals ask for. A second signal ends the program at once.
    ///
    /// # Errors
    pub fn by_signals() -> io::Result<Stop> {
        let (wake, asks) = UnixStream::pair()?;
        let stop = Stop {
            is_asked: Arc::default(),
            wake: Some(Arc::new(wake)),
        };
        for signal in [SIGTERM, SIGINT] {
            flag::register_conditional_default(signal, stop.is_asked.clone())?;
            flag::register(signal, stop.is_asked.clone())?;
            pipe::register(signal, asks.try_clone()?)?;
        }
        Ok(stop)
    }

    /// Where there is something to read once it is asked for.
    pub fn wake(&self) -> Option<RawFd> {
        self.wake.as_ref().map(|wake| wake.as_raw_fd())
    }

    pub fn is_asked(&self) -> bool {
        self.is_asked.load(Ordering::Relaxed)
    }
}
