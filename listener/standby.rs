//! With --wait or --lease: clients get in only while the program serves, and whoever started this is told whether it does.
use crate::addresses::{Asked, Listener};
use crate::fault::Fault;
use crate::notify::notify;
use crate::say;

pub struct Standby {
    asked: Vec<Asked>,
    /// Since when the store is waited for, where it is.
    since: Option<u64>,
    /// What was told last.
    told: &'static str,
}

impl Standby {
    pub fn new(asked: Vec<Asked>) -> Standby {
        Standby { asked, since: None, told: "" }
    }

    /// No program serves; the next one may be a try to have the store.
    pub fn wait(&mut self, is_try: bool, now: u64) {
        if is_try {
            self.since.get_or_insert(now);
        }
        self.tell("waits");
    }

    /// Where clients get in from now on.
    pub fn open(&mut self) -> Result<Vec<Listener>, Fault> {
        self.asked.iter_mut().map(Asked::open).collect()
    }

    /// The program serves.
    pub fn serves(&mut self, now: u64) {
        match self.since.take().map(|since| (now - since) / 1000) {
            Some(1) => say(format_args!("it serves now, behind 1 second")),
            Some(seconds) => say(format_args!("it serves now, behind {} seconds", seconds)),
            None => {}
        }
        self.tell("serves");
    }

    /// That this has started is told first, whether it serves or waits.
    fn tell(&mut self, state: &'static str) {
        let before = std::mem::replace(&mut self.told, state);
        if before != state {
            notify(&format!("{}STATUS={}", if before.is_empty() { "READY=1\n" } else { "" }, state));
        }
    }
}
