//! A queue of lines to a stream, which a thread writes: where the stream takes them too slowly lines are lost, and no one waits.

use std::collections::VecDeque;
use std::io::Write;
use std::sync::{Condvar, LazyLock, Mutex, MutexGuard, PoisonError};
use std::thread;
use std::time::Duration;

/// How many lines wait at most.
const MOST: usize = 4096;

/// How long the last lines may take as a program ends.
const PATIENCE: Duration = Duration::from_millis(200);

pub static OUT: LazyLock<&Queue> = LazyLock::new(|| Queue::to(std::io::stdout()));
pub static ERR: LazyLock<&Queue> = LazyLock::new(|| Queue::to(std::io::stderr()));

#[derive(Default)]
pub struct Queue {
    waiting: Mutex<Waiting>,
    changed: Condvar,
}

#[derive(Default)]
struct Waiting {
    lines: VecDeque<String>,
    is_writing: bool,
    lost: u64,
}

impl Waiting {
    // Where the loss is, once there is room for many.
    fn tell_lost(&mut self) {
        if self.lost > 0 && self.lines.len() <= MOST / 2 {
            let lost = std::mem::take(&mut self.lost);
            let told = format!("{lost} lines are lost here: they were read too slowly\n");
            self.lines.push_back(told);
        }
    }
}

impl Queue {
    /// It is there until the program ends.
    pub fn to(stream: impl Write + Send + 'static) -> &'static Queue {
        let queue: &Queue = Box::leak(Box::default());
        thread::spawn(move || queue.write_all(stream));
        queue
    }

    fn lock(&self) -> MutexGuard<'_, Waiting> {
        self.waiting.lock().unwrap_or_else(PoisonError::into_inner)
    }

    pub fn say(&self, line: String) {
        let mut waiting = self.lock();
        // (each word to the thread is a call of the kernel)
        let sleeps = waiting.lines.is_empty() && !waiting.is_writing;
        waiting.tell_lost();
        if waiting.lost > 0 || waiting.lines.len() >= MOST {
            waiting.lost += 1;
        } else {
            waiting.lines.push_back(line + "\n");
        }
        if sleeps {
            self.changed.notify_all();
        }
    }

    /// Waits a little for all to be written.
    pub fn flush(&self) {
        let mut waiting = self.lock();
        waiting.tell_lost();
        self.changed.notify_all();
        let is_busy = |waiting: &mut Waiting| waiting.is_writing || !waiting.lines.is_empty();
        drop(self.changed.wait_timeout_while(waiting, PATIENCE, is_busy));
    }

    fn write_all(&self, mut stream: impl Write) {
        let mut waiting = self.lock();
        loop {
            waiting.is_writing = false;
            if waiting.lines.is_empty() {
                self.changed.notify_all();
            }
            let is_empty = |waiting: &mut Waiting| waiting.lines.is_empty();
            let woken = self.changed.wait_while(waiting, is_empty);
            waiting = woken.unwrap_or_else(PoisonError::into_inner);
            if let Some(line) = waiting.lines.pop_front() {
                waiting.is_writing = true;
                drop(waiting);
                // Where no one reads any more, the line is for no one.
                _ = stream.write_all(line.as_bytes());
                waiting = self.lock();
            }
        }
    }
}

#[cfg(test)]
mod tests {
    use super::*;
    use std::io;
    use std::sync::mpsc::{SyncSender, sync_channel};
    use std::time::Instant;

    // Each write waits until the test takes it.
    struct Slow(SyncSender<String>);

    impl Write for Slow {
        fn write(&mut self, bytes: &[u8]) -> io::Result<usize> {
            _ = self.0.send(String::from_utf8_lossy(bytes).into_owned());
            Ok(bytes.len())
        }

        fn flush(&mut self) -> io::Result<()> {
            Ok(())
        }
    }

    #[test]
    fn what_is_read_too_slowly_is_lost_and_counted() {
        let (to, from) = sync_channel(0);
        let queue = Queue::to(Slow(to));
        (0..3 * MOST).for_each(|number| queue.say(number.to_string()));
        let mut kept: Vec<String> = from.iter().take(MOST).collect();
        queue.say("again".to_owned());
        kept.extend(from.iter().take_while(|line| line != "again\n"));
        let told = kept.pop().unwrap();
        let numbers = 0..kept.len();
        assert!(numbers.eq(kept.iter().map(|line| line.trim_end().parse().unwrap())));
        let lost = 3 * MOST - kept.len();
        assert!(
            told.starts_with(&format!("{lost} lines are lost here")),
            "{told}"
        );
    }

    #[test]
    fn a_stream_that_takes_nothing_holds_up_no_end() {
        let (to, _from) = sync_channel(0);
        let queue = Queue::to(Slow(to));
        queue.say("a line".to_owned());
        let begin = Instant::now();
        queue.flush();
        assert!(begin.elapsed() >= PATIENCE && begin.elapsed() < 20 * PATIENCE);
    }
}
