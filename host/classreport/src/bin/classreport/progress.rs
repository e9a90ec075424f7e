//! A line about long work, where somebody watches.
use std::io::{self, IsTerminal, Write};
use std::sync::mpsc::{RecvTimeoutError, Sender, channel};
use std::thread::{self, JoinHandle};
use std::time::{Duration, Instant};

use crate::args::Words;

/// Shows what is going on from the first second on, until it is dropped.
pub struct Progress {
    watch: Option<(Sender<()>, JoinHandle<()>)>,
}

impl Progress {
    /// Nothing is shown where standard error is no terminal, or with `-q`.
    pub fn start(words: &Words, what: String) -> Progress {
        if words.has("quiet") || !io::stderr().is_terminal() {
            return Progress { watch: None };
        }
        let (done, asked) = channel();
        let shown = thread::spawn(move || {
            let start = Instant::now();
            let mut told = false;
            while asked.recv_timeout(Duration::from_secs(1)) == Err(RecvTimeoutError::Timeout) {
                told = true;
                let seconds = start.elapsed().as_secs();
                let _ = write!(io::stderr(), "\r\x1b[K{what} … {seconds} s");
            }
            if told {
                let _ = write!(io::stderr(), "\r\x1b[K");
            }
        });
        Progress {
            watch: Some((done, shown)),
        }
    }
}

impl Drop for Progress {
    fn drop(&mut self) {
        if let Some((done, shown)) = self.watch.take() {
            drop(done);
            let _ = shown.join();
        }
    }
}
