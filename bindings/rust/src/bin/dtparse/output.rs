//! The two streams that are written to.

use crate::forms::Said;
use std::io::{self, Write};

/// The standard output, and what went wrong there. A reader that goes away early, as `head` does, is not a mistake:
/// nothing more is written to it, and the status is what it would have been.
#[derive(Default)]
pub struct Output {
    is_closed: bool,
    error: Option<io::Error>,
}

impl Output {
    /// Both streams, in an order that a terminal shows.
    pub fn say(&mut self, said: &Said) {
        self.write(&said.out);
        complain(&said.err);
    }

    pub fn write(&mut self, text: &str) {
        if self.is_closed || text.is_empty() {
            return;
        }
        let mut out = io::stdout().lock();
        if let Err(why) = out.write_all(text.as_bytes()).and_then(|()| out.flush()) {
            self.is_closed = true;
            self.error = Some(why).filter(|why| why.kind() != io::ErrorKind::BrokenPipe);
        }
    }

    /// Why not all was written.
    pub fn error(self) -> Option<io::Error> {
        self.error
    }
}

/// Where the standard error cannot be written to, there is no one to tell.
pub fn complain(text: &str) {
    let _ = io::stderr().lock().write_all(text.as_bytes());
}
