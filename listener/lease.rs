//! The lease of a store's file that several machines can open: for how long nobody else may serve it. Once it is over nothing more is handed out, since another machine may serve by then.
//!
//! Its moments are milliseconds since the machine began, those in which it slept among them.
use crate::system;
use std::collections::VecDeque;
use std::sync::atomic::{AtomicU64, Ordering};

/// A lease has so many seconds at most.
pub const LONGEST: u64 = 60;
/// The file is touched so many times in a lease.
const TOUCHES: u64 = 4;
const NEVER: u64 = u64::MAX;

/// When the lease ends by which bytes are handed out.
static ENDS: AtomicU64 = AtomicU64::new(NEVER);

/// Whether there is a lease by which bytes are handed out.
pub fn is_there() -> bool {
    ENDS.load(Ordering::Relaxed) != NEVER
}

/// Whether bytes may be handed out.
pub fn holds() -> bool {
    let ends = ENDS.load(Ordering::Relaxed);
    ends == NEVER || system::boot_time() < ends
}

/// What the program is told.
#[derive(Clone, Copy, Debug, PartialEq)]
pub enum Word {
    /// Whoever had the file before has stopped.
    Go,
    /// May it still be written?
    Touch,
}

/// What a program has told of the file.
#[derive(Clone, Copy, Debug, PartialEq)]
enum Stage {
    /// Nothing.
    Begun,
    /// It has the lock, and goes on at this moment.
    Locked(u64),
    /// It goes on, and is told the next touch at this moment.
    Gone(u64),
}

pub struct Lease {
    length: u64,
    stage: Stage,
    /// When each touch was told that has no answer yet.
    told: VecDeque<u64>,
    /// When the last one was told that has one.
    held: Option<u64>,
}

impl Lease {
    pub fn new(seconds: u64) -> Lease {
        Lease { length: 1000 * seconds, stage: Stage::Begun, told: VecDeque::new(), held: None }
    }

    /// Another program begins. What is left of the one before is handed out while its lease lasts.
    pub fn begin(&mut self) {
        *self = Lease::new(self.length / 1000);
    }

    /// The program has the lock, which somebody had before with a lease of so many seconds. False where it has told that before, or no lease is so long.
    pub fn locked(&mut self, seconds: u64, now: u64) -> bool {
        let is_right = self.stage == Stage::Begun && (1..=LONGEST).contains(&seconds);
        if is_right {
            self.stage = Stage::Locked(now + 1000 * seconds);
        }
        is_right
    }

    /// The program has touched the file. How long that took; none where it wasn't asked to.
    pub fn touched(&mut self, now: u64) -> Option<u64> {
        let told = self.told.pop_front()?;
        self.held = Some(told);
        Some(now - told)
    }

    /// From now on bytes are handed out while it lasts.
    pub fn apply(&self) {
        if let Some(told) = self.held {
            ENDS.store(told + self.length, Ordering::Relaxed);
        }
    }

    /// Whether so many milliseconds are more than there are between two touches.
    pub fn is_long(&self, time: u64) -> bool {
        time > self.length / TOUCHES
    }

    /// Whether the program may serve.
    pub fn is_held(&self) -> bool {
        self.held.is_some()
    }

    /// What the program is told now.
    pub fn word(&mut self, now: u64) -> Option<Word> {
        match self.stage {
            Stage::Locked(goes) if now >= goes => {
                self.stage = Stage::Gone(now);
                Some(Word::Go)
            }
            Stage::Gone(next) if now >= next => {
                self.stage = Stage::Gone(now + self.length / TOUCHES);
                self.told.push_back(now);
                Some(Word::Touch)
            }
            _ => None,
        }
    }

    /// Whether it is over, where the program has served.
    pub fn is_over(&self, now: u64) -> bool {
        self.held.map_or(false, |told| now >= told + self.length)
    }

    /// For how many milliseconds nothing has to be told or ended; none where that is without end.
    pub fn time_left(&self, now: u64) -> Option<u64> {
        let ends = self.held.map(|told| told + self.length);
        let next = match self.stage {
            Stage::Begun => None,
            Stage::Locked(moment) | Stage::Gone(moment) => Some(moment),
        };
        [ends, next].into_iter().flatten().min().map(|moment| moment.saturating_sub(now))
    }
}

#[cfg(test)]
mod tests {
    use super::*;

    #[test]
    fn who_had_it_before_has_stopped() {
        let mut it = Lease::new(4);
        assert_eq!((it.word(0), it.time_left(0)), (None, None));
        assert!(!it.locked(0, 100) && !it.locked(61, 100) && it.locked(60, 100) && !it.locked(60, 100));
        assert_eq!((it.word(60_099), it.time_left(60_000)), (None, Some(100)));
        assert_eq!((it.word(60_100), it.word(60_100), it.word(60_100)), (Some(Word::Go), Some(Word::Touch), None));
        assert!(!it.is_held() && !it.is_over(1 << 40));
    }

    #[test]
    fn it_lasts_from_the_last_touch_with_an_answer() {
        let mut it = Lease::new(4);
        assert!(it.touched(0).is_none() && it.locked(1, 0));
        assert_eq!((it.word(1000), it.word(1000)), (Some(Word::Go), Some(Word::Touch)));
        assert_eq!((it.word(1999), it.word(2000), it.word(3500)), (None, Some(Word::Touch), Some(Word::Touch)));
        assert_eq!((it.touched(3600), it.is_over(4999), it.is_over(5000)), (Some(2600), false, true));
        assert_eq!((it.touched(3600), it.is_over(5000), it.is_over(6000)), (Some(1600), false, true));
        assert_eq!((it.is_long(1000), it.is_long(1001)), (false, true));
        assert_eq!((it.time_left(4000), it.time_left(9000)), (Some(500), Some(0)));
        assert_eq!((it.touched(3600), it.touched(3600)), (Some(100), None));
        it.begin();
        assert!(!it.is_over(1 << 40) && !it.is_held() && it.touched(9000).is_none() && it.locked(4, 9000));
    }
}
