//! How many bytes are free on the disk of the store. A thread of its own asks the system, so that a file system that hangs keeps nobody waiting.
use crate::system;
use std::ffi::{CString, OsString};
use std::os::unix::ffi::OsStrExt;
use std::sync::atomic::{AtomicU64, Ordering};
use std::sync::Arc;
use std::thread::{self, Thread};

/// In milliseconds: so often the system is asked at most.
const EACH: u64 = 1000;
/// What stands for no answer.
const UNKNOWN: u64 = u64::MAX;

pub struct Space {
    found: Arc<AtomicU64>,
    thread: Thread,
    /// When it is asked next at the earliest, and what was told last.
    due: u64,
    told: u64,
}

impl Space {
    /// Of the store that these words of a program name; none where they name none, or where there is no thread to be had.
    pub fn of(words: &[OsString]) -> Option<Space> {
        let store = words.windows(2).find(|pair| pair[0] == "--store").map(|pair| &pair[1])?;
        let path = CString::new(store.as_bytes()).ok()?;
        let found = Arc::new(AtomicU64::new(UNKNOWN));
        let to = Arc::clone(&found);
        let ask = move || loop {
            thread::park();
            to.store(system::free_bytes(&path).unwrap_or(UNKNOWN), Ordering::Relaxed);
        };
        let thread = thread::Builder::new().stack_size(64 * 1024).spawn(ask).ok()?.thread().clone();
        Some(Space { found, thread, due: 0, told: UNKNOWN })
    }

    /// Has the system asked, unless it was within the last second. The answer is there later.
    pub fn ask(&mut self, now: u64) {
        if now >= self.due {
            self.due = now + EACH;
            self.thread.unpark();
        }
    }

    /// What was found last, where the program hasn't been told that.
    pub fn news(&mut self) -> Option<u64> {
        let found = self.found.load(Ordering::Relaxed);
        if found == UNKNOWN || found == self.told {
            return None;
        }
        self.told = found;
        Some(found)
    }

    /// The next program has been told nothing.
    pub fn forget(&mut self) {
        self.told = UNKNOWN;
    }
}

#[cfg(test)]
mod tests {
    use super::*;
    use std::time::{Duration, Instant};

    fn words(of: &[&str]) -> Vec<OsString> {
        of.iter().map(OsString::from).collect()
    }

    /// What is found within a few seconds.
    fn found(space: &mut Space) -> Option<u64> {
        let latest = Instant::now() + Duration::from_secs(5);
        loop {
            let news = space.news();
            if news.is_some() || Instant::now() > latest {
                return news;
            }
            thread::sleep(Duration::from_millis(1));
        }
    }

    #[test]
    fn a_store_is_asked_about() {
        assert!(Space::of(&words(&["program", "--seed", "1"])).is_none());
        assert!(Space::of(&words(&["program", "--store"])).is_none());
        let mut space = Space::of(&words(&["program", "--store", "/"])).unwrap();
        assert_eq!(space.news(), None);
        space.ask(0);
        assert!(found(&mut space).is_some());
    }

    #[test]
    fn what_was_told_is_no_news() {
        let mut space = Space::of(&words(&["program", "--store", "/proc"])).unwrap();
        space.ask(0);
        // Nothing is ever free there.
        assert_eq!(found(&mut space), Some(0));
        assert_eq!(space.news(), None);
        space.forget();
        assert_eq!(space.news(), Some(0));
    }

    #[test]
    fn a_missing_store_is_no_news() {
        let mut space = Space::of(&words(&["program", "--store", "/missing/store"])).unwrap();
        space.ask(0);
        thread::sleep(Duration::from_millis(50));
        assert_eq!(space.news(), None);
    }

    #[test]
    fn it_is_asked_once_a_second() {
        let mut space = Space::of(&words(&["program", "--store", "/proc"])).unwrap();
        for (now, due) in [(5, 1005), (1004, 1005), (1005, 2005), (9000, 10_000)] {
            space.ask(now);
            assert_eq!(space.due, due, "{}", now);
        }
    }
}
