//! What is going on, on the terminal that standard error may be, for whatever takes longer than a second. A thread of its own
//! shows it, so that a long flush is seen too; without a terminal there is no thread.

use crate::sys;
use std::io::{self, Write};
use std::sync::{Arc, Condvar, Mutex, MutexGuard, PoisonError};
use std::thread::{Builder, JoinHandle};
use std::time::{Duration, Instant};

const FIRST: Duration = Duration::from_secs(1);
const NEXT: Duration = Duration::from_millis(250);

pub struct Progress {
    shown: Option<(Arc<Board>, JoinHandle<()>)>,
}

struct Board {
    line: Mutex<Line>,
    ended: Condvar,
}

#[derive(Default)]
struct Line {
    text: String,
    on_screen: bool,
    ended: bool,
}

impl Line {
    fn draw(&mut self, seconds: u64) {
        let _ = write!(io::stderr(), "\r\x1b[K{} ({seconds} s)", self.text);
        self.on_screen = true;
    }

    fn erase(&mut self) {
        if self.on_screen {
            let _ = write!(io::stderr(), "\r\x1b[K");
        }
        self.on_screen = false;
    }
}

impl Progress {
    pub fn new(wanted: bool) -> Progress {
        if !wanted || !sys::is_terminal(&io::stderr()) {
            return Progress { shown: None };
        }
        let board = Arc::new(Board {
            line: Mutex::new(Line::default()),
            ended: Condvar::new(),
        });
        let seen = Arc::clone(&board);
        let thread = Builder::new().spawn(move || show(&seen));
        Progress {
            shown: thread.ok().map(|thread| (board, thread)),
        }
    }

    /// What is going on now.
    pub fn at(&self, text: impl FnOnce() -> String) {
        if let Some((board, _)) = &self.shown {
            locked(&board.line).text = text();
        }
    }

    /// Takes the line off the screen, for an answer that may go there.
    pub fn step_aside(&self) {
        if let Some((board, _)) = &self.shown {
            locked(&board.line).erase();
        }
    }
}

impl Drop for Progress {
    fn drop(&mut self) {
        if let Some((board, thread)) = self.shown.take() {
            locked(&board.line).ended = true;
            board.ended.notify_one();
            let _ = thread.join();
        }
    }
}

fn locked(line: &Mutex<Line>) -> MutexGuard<'_, Line> {
    line.lock().unwrap_or_else(PoisonError::into_inner)
}

fn show(board: &Board) {
    let start = Instant::now();
    let mut pause = FIRST;
    let mut line = locked(&board.line);
    while !line.ended {
        let waited = board.ended.wait_timeout(line, pause);
        line = waited.unwrap_or_else(PoisonError::into_inner).0;
        if start.elapsed() >= FIRST && !line.ended {
            pause = NEXT;
            line.draw(start.elapsed().as_secs());
        }
    }
    line.erase();
}
