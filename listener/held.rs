//! What a try of the program says on standard error. It is held back until it is known whether it is worth telling. A thread reads it, so that nobody waits for whoever is told.
use std::io::{self, Read, Write};
use std::process::ChildStderr;
use std::sync::{Arc, Mutex, PoisonError};
use std::thread::{self, sleep, JoinHandle};
use std::time::{Duration, Instant};

/// Beyond so many bytes, or behind so long a time, nothing is held back: such a try doesn't end at once.
const MOST: usize = 64 * 1024;
const LONG: Duration = Duration::from_secs(5);
/// So long the last words of a program that has ended are waited for.
const PATIENCE: Duration = Duration::from_secs(1);

/// What is held back; none once all is passed on as it comes.
type Text = Mutex<Option<Vec<u8>>>;

pub struct Held {
    text: Arc<Text>,
    thread: JoinHandle<()>,
}

fn pass_on(text: &mut Option<Vec<u8>>, more: &[u8]) {
    let mut to = io::stderr();
    let _ = to.write_all(&text.take().unwrap_or_default());
    let _ = to.write_all(more);
}

impl Held {
    pub fn of(mut from: ChildStderr) -> io::Result<Held> {
        let text = Arc::new(Text::new(Some(Vec::new())));
        let (to, began) = (Arc::clone(&text), Instant::now());
        let read = move || {
            let mut piece = [0; 4096];
            while let Ok(count @ 1..) = from.read(&mut piece) {
                let mut text = to.lock().unwrap_or_else(PoisonError::into_inner);
                match &mut *text {
                    Some(held) if held.len() < MOST && began.elapsed() < LONG => held.extend_from_slice(&piece[..count]),
                    _ => pass_on(&mut text, &piece[..count]),
                }
            }
        };
        let thread = thread::Builder::new().stack_size(64 * 1024).spawn(read)?;
        Ok(Held { text, thread })
    }

    /// Passes on what was held back; what comes from now on goes the same way.
    pub fn pass_on(&self) {
        pass_on(&mut self.text.lock().unwrap_or_else(PoisonError::into_inner), &[]);
    }

    /// Passes on all that was said by a program that has ended.
    pub fn end(self) {
        self.pass_on();
        let latest = Instant::now() + PATIENCE;
        while !self.thread.is_finished() && Instant::now() < latest {
            sleep(Duration::from_millis(1));
        }
    }
}
