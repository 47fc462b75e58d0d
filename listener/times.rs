//! How long a client may keep others waiting. Times count only while it owes bytes, or takes none, never while the program works.

/// Times in milliseconds, and a rate in bytes a second.
#[derive(Clone, Copy, Debug)]
pub struct Limits {
    /// How long a connection may rest between two requests.
    pub idle: u64,
    /// How long a request may take to be whole; each `rate` bytes of it give it a second more.
    pub head: u64,
    pub rate: u64,
    /// How long a client may take nothing of what waits for it.
    pub stall: u64,
    /// How long a connection that is over is drained.
    pub linger: u64,
}

/// What a connection waits for.
#[derive(Clone, Copy, Debug, PartialEq)]
pub enum Turn {
    /// Its client has not sent anything yet.
    Silent,
    /// The program, which has not said since the last bytes that it waits.
    Program,
    /// A next request.
    Rests,
    /// The rest of a request.
    Owes,
}

/// What a client has come to.
#[derive(Clone, Copy, Debug, PartialEq)]
pub enum Late {
    /// It gets an end: nothing more is heard of it.
    Sends,
    /// It is closed.
    Takes,
}

/// In milliseconds.
const QUARTER: u64 = 250;
const SECOND: u64 = 1000;

/// How many bytes came in each of the last quarters of a second, of which the last one has only begun.
#[derive(Clone, Copy, Debug, Default)]
struct Recent {
    counts: [u64; 5],
    /// The number of the last quarter.
    last: u64,
}

impl Recent {
    fn add(&mut self, bytes: u64, now: u64) {
        let quarter = now / QUARTER;
        for passed in (self.last + 1..=quarter).rev().take(self.counts.len()) {
            self.counts[passed as usize % self.counts.len()] = 0;
        }
        self.last = quarter;
        self.counts[quarter as usize % self.counts.len()] += bytes;
    }

    /// How many came in the last second, or a quarter more.
    fn sum(mut self, now: u64) -> u64 {
        self.add(0, now);
        self.counts.iter().sum()
    }
}

/// The times of one connection, by a clock in milliseconds.
#[derive(Clone, Copy, Debug)]
pub struct Times {
    pub turn: Turn,
    /// When the turn began.
    pub since: u64,
    /// When bytes were taken last, or began to wait.
    took: u64,
    /// How long the client owed bytes of this request before, and how many came of it.
    owed: u64,
    asked: u64,
    recent: Recent,
}

impl Times {
    pub fn new(now: u64) -> Times {
        Times { turn: Turn::Silent, since: now, took: now, owed: 0, asked: 0, recent: Recent::default() }
    }

    /// The client has sent so many bytes.
    pub fn sent(&mut self, bytes: u64, now: u64) {
        match self.turn {
            Turn::Rests => (self.owed, self.asked) = (0, 0),
            Turn::Silent | Turn::Owes => self.owed += now - self.since.max(self.took),
            Turn::Program => {}
        }
        self.turn = Turn::Program;
        self.asked += bytes;
        self.recent.add(bytes, now);
    }

    /// The program waits for the client, and all that it has sent was looked at.
    pub fn waits(&mut self, turn: Turn, now: u64) {
        self.turn = turn;
        self.since = now;
    }

    /// The client is told something: its next request begins.
    pub fn told(&mut self) {
        (self.owed, self.asked) = (0, 0);
    }

    /// The client has taken something, or something begins to wait for it.
    pub fn took(&mut self, now: u64) {
        self.took = now;
    }

    /// How long it has owed bytes of a request, where that is a second or more, and it has sent fewer than twice the rate in the last one.
    pub fn lags(&self, limits: &Limits, now: u64) -> Option<u64> {
        let time = self.owed + now - self.since.max(self.took);
        Some(time).filter(|_| self.turn == Turn::Owes && time >= SECOND && self.recent.sum(now) < 2 * limits.rate)
    }

    /// Whether a client is late; `is_full` says whether something waits for it.
    pub fn late(&self, limits: &Limits, is_full: bool, now: u64) -> Option<Late> {
        let waited = now - self.since.max(self.took);
        match self.turn {
            _ if is_full => Some(Late::Takes).filter(|_| now - self.took >= limits.stall),
            Turn::Silent => Some(Late::Sends).filter(|_| waited >= limits.head),
            Turn::Rests => Some(Late::Sends).filter(|_| waited >= limits.idle),
            Turn::Owes => {
                let most = limits.head + self.asked.saturating_mul(1000) / limits.rate;
                Some(Late::Sends).filter(|_| self.owed + waited >= most)
            }
            Turn::Program => None,
        }
    }
}

#[cfg(test)]
mod tests {
    use super::*;

    const LIMITS: Limits = Limits { idle: 100, head: 20, rate: 1000, stall: 60, linger: 5 };

    #[test]
    fn nobody_is_late_while_the_program_works() {
        let mut times = Times::new(0);
        times.sent(1, 5);
        assert_eq!(times.late(&LIMITS, false, 1_000_000), None);
        times.waits(Turn::Rests, 1_000_000);
        assert_eq!(times.late(&LIMITS, false, 1_000_099), None);
        assert_eq!(times.late(&LIMITS, false, 1_000_100), Some(Late::Sends));
    }

    #[test]
    fn a_byte_at_a_time_is_late() {
        let mut times = Times::new(0);
        let mut now = 0;
        while times.late(&LIMITS, false, now).is_none() {
            times.sent(1, now);
            times.waits(Turn::Owes, now + 1000);
            now += 1010;
        }
        // Each byte is owed for 10 milliseconds, and gives one.
        assert_eq!(now, 3 * 1010);
    }

    #[test]
    fn who_sends_little_lags() {
        for (each, wanted) in [(1, true), (399, true), (400, false), (5000, false)] {
            let mut times = Times::new(0);
            for now in (0..4000).step_by(250) {
                times.sent(each, now);
                times.waits(Turn::Owes, now);
            }
            // Five times as many come in a second and the quarter that has begun.
            assert_eq!(times.lags(&LIMITS, 3999).is_some(), wanted, "{}", each);
        }
    }

    #[test]
    fn who_has_sent_much_once_lags_a_second_later() {
        let mut times = Times::new(0);
        times.sent(1_000_000, 300);
        assert_eq!(times.lags(&LIMITS, 5000), None);
        times.waits(Turn::Owes, 5000);
        // It had owed 300 milliseconds before.
        assert_eq!((times.lags(&LIMITS, 5699), times.lags(&LIMITS, 5700)), (None, Some(1000)));
        times.waits(Turn::Rests, 7000);
        assert_eq!(times.lags(&LIMITS, 9000), None);
    }

    #[test]
    fn an_answer_begins_a_new_request() {
        let mut times = Times::new(0);
        times.sent(1, 19);
        times.told();
        times.waits(Turn::Owes, 19);
        assert_eq!(times.late(&LIMITS, false, 38), None);
        assert_eq!(times.late(&LIMITS, false, 39), Some(Late::Sends));
    }

    #[test]
    fn who_takes_nothing_is_late() {
        let mut times = Times::new(0);
        times.sent(1, 0);
        times.took(7);
        assert_eq!(times.late(&LIMITS, true, 66), None);
        assert_eq!(times.late(&LIMITS, true, 67), Some(Late::Takes));
        times.waits(Turn::Rests, 67);
        times.took(200);
        assert_eq!(times.late(&LIMITS, false, 299), None);
    }
}
